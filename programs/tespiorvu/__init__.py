"""What is Python of a branch and of its office, as the programs in the folder above start it."""
