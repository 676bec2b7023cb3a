"""Tests of the office, which tools/run starts."""
