"""A year of a bank, simulated: tools/year runs it."""
