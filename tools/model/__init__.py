"""The reference model: the sample bank written a second time, from docs/ alone, and random requests to both."""
