"""The tests. `python3 -m tests` is a first look, `.ci/run` runs all of them, and `.ci/run --list` says what each shows.

A test of a folder is run alone from the top: `python3 -m tests.tables.rows`. Nothing is written beside the sources.
"""
import os
import subprocess
import sys

sys.dont_write_bytecode = True  # so this stands before what is imported

from build import children

children.know_their_ends()
TOP = os.path.dirname(os.path.dirname(os.path.abspath(__file__)))


def text_of(*parts):
    """The text of a file of the tree."""
    with open(os.path.join(TOP, *parts), encoding="utf-8") as file:
        return file.read()


def tracked():
    """The names of the tracked files, and of those that a next commit may add."""
    listed = subprocess.run(["git", "ls-files", "-co", "--exclude-standard"], cwd=TOP, check=True, stdout=subprocess.PIPE, text=True)
    return [name for name in listed.stdout.splitlines() if os.path.exists(os.path.join(TOP, name))]
