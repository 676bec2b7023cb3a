"""The office beside the bank: names, day books, statements over years, a ledger's export, a queue of releases, and runs."""
