"""The branch."""
