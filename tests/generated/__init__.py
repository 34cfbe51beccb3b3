"""Generated inputs, answered by what was built and by the second implementation alike."""
