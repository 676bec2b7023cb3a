"""What calls the compiler and the prover beside rt ci: mutants, unit tests, the minutes of a build."""
