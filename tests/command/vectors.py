"""Small files of each format, for who writes another implementation: examples/vectors.

    python3 -m tests.command.vectors [BINARY]  checks that the second implementation, and the command BINARY, answer so

A line of calls.txt is a call's words, ` -> `, and the file that it writes, or its line on standard error. What a further call
writes is made by tests/reference/cadf, and a file of format 1 by tests/formats.py. A damaged file is made by hand, and has the
digest line that its lines ask for.
"""
import os
import sys

from tests import TOP
from tests.generated.compare import alike, answered
from tests.reference.command import Answer, answer

FOLDER = os.path.join(TOP, "examples", "vectors")


def read(name):
    with open(os.path.join(FOLDER, name), "rb") as file:
        return file.read()


def told():
    """Each call's words with what it writes: the name of a file, or a fault's line."""
    for line in read("calls.txt").decode().split("\n"):
        if line and not line.startswith("#"):
            words, _, written = line.partition(" -> ")
            yield words.split(" "), written


def named(words):
    """The files that the words name."""
    return {word.encode(): read(word) for word in words if os.path.exists(os.path.join(FOLDER, word))}


def calls():
    """Each call's name, words, files and answer."""
    for words, written in told():
        fault = written.startswith("cadf: ")
        wanted = Answer(1, b"", written.encode() + b"\n") if fault else Answer(0, read(written), b"")
        yield " ".join(words), [word.encode() for word in words], named(words), wanted


def check(binary):
    """Tries each call by the second implementation, and by the command if its path is given."""
    count = 0
    for name, words, files, wanted in calls():
        for got in (answer(words, files), *([answered(binary, words, files)] if binary else [])):
            if not alike(wanted, got):
                sys.exit("vectors: %s: status %s, %r, %r" % (name, got.status, got.output, got.error))
        count += 1
    print("vectors: %d calls, as told" % count)


if __name__ == "__main__":
    check(os.path.abspath(sys.argv[1]) if sys.argv[1:] else None)
