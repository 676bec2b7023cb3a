"""The teller's page."""
