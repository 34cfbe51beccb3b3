"""Replica files in either format, as inputs that no command writes.

    python3 -m tests.formats FORMAT FILE  writes the log and the atoms of FILE in format 1 or 2
"""
import sys

from tests.reference.json_text import spelled
from tests.reference.replica_files import FIRST_LINES, file_of, read_file
from tests.reference.sealed_files import head, sealed


def in_format(version, data):
    """The file of that format with the log and the atoms of the replica file."""
    return file_of(*read_file(data), version=version)


def of_lines(version, *values, log="g"):
    """A file of that format with a line for each value, whatever they are, and the digest line that it asks for."""
    return sealed(head(FIRST_LINES[version], log) + [spelled(value).encode() for value in values])


def erased_of(listed):
    """The erased list of all that a sealed list has."""
    return sealed([b"CADF-ERASED 1", *listed.split(b"\n")[1:-2]])


if __name__ == "__main__":
    with open(sys.argv[2], "rb") as file:
        sys.stdout.buffer.write(in_format(int(sys.argv[1]), file.read()))
