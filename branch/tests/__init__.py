"""Tests of the branch, which tools/run starts."""
