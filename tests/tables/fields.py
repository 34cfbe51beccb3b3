"""The lines of calls and of their answers: fields between tabs, as crates/calls reads and writes them.

In a field `\\\\` is a backslash, `\\t` a tab, `\\n` a line feed, `\\r` a carriage return, and `\\xHH` any other byte below 0x20,
0x7f, or a byte that is no part of UTF-8.
"""
import re

ESCAPES = {"\\": "\\\\", "\t": "\\t", "\n": "\\n", "\r": "\\r"}
SPECIAL = re.compile("[\\\\\x00-\x1f\x7f\udc80-\udcff]")
ESCAPED = re.compile(rb"\\(?:x([0-9a-f]{2})|(.))")
LETTERS = {b"t": b"\t", b"n": b"\n", b"r": b"\r"}


def escaped(found):
    char = found.group()
    return ESCAPES.get(char) or "\\x%02x" % (ord(char) & 0xff)


def field(value):
    """The spelling of a word or a field: of a text, of bytes, of a number, or of True or False."""
    if isinstance(value, (bool, int)):
        return str(value).lower()
    data = value if isinstance(value, bytes) else value.encode()
    return SPECIAL.sub(escaped, data.decode("utf-8", "surrogateescape"))


def line(values):
    return "\t".join(field(value) for value in values) + "\n"


def read(text):
    """The bytes of each field of a line."""
    def plain(found):
        return bytes([int(found.group(1), 16)]) if found.group(1) else LETTERS.get(found.group(2), found.group(2))

    return [ESCAPED.sub(plain, one.encode()) for one in text.rstrip("\n").split("\t")]
