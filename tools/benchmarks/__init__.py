"""Times and memory of the built programs."""
