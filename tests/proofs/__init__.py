"""The mutants: their tables, and the judge that tries them."""
