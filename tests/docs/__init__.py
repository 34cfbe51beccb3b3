"""Tests of the pages: their text, the commands that they show, and the contracts and calls that they name."""
