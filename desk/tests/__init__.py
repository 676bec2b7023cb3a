"""Tests of the teller's page, which tools/run starts."""
