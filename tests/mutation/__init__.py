"""Mutation by machine: faults that are made of the syntax trees of the Python programs, and whether a test sees each."""
