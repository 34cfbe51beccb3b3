"""Tests of the library: the rows of the drivers when memory is refused, and its use from C and Python."""
