"""The opening lists of a bank: their columns, what is wrong with them, and how they are made of an office."""
