"""The unproved program of tools/try, and the teller's page over it."""
