"""Worked calls as data: the rows of the drivers and of the command, with the answers that the pages state."""
