"""Checks of a day of the office beside a bank that is served."""
