"""The second implementation, written from docs/FORMATS.md alone."""
