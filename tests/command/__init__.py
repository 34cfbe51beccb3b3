"""Tests of the built command: its answers to examples/vectors, its statuses, and machines that fail."""
