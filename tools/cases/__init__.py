"""The acceptance tests: the files of rows/, what reads them, what runs them, and what each rule is shown by."""
