"""What a built program needs, by its own bytes: shared libraries, the version of the C library, the processor."""
import re
import struct
from typing import NamedTuple

DYNAMIC, VERSIONS = 6, 0x6FFFFFFE  # types of sections
LIBRARY = 1  # the tag of a library's name in the dynamic section
GLIBC = re.compile(rb"GLIBC_(\d+)\.(\d+)(?:\.\d+)?$")
LOWEST = "x86-64"


class Section(NamedTuple):
    """A section of an ELF file: where it is, and which section has its texts."""
    kind: int
    offset: int
    size: int
    link: int


def is_program(data):
    """Whether the bytes are a program or a library of 64 bits."""
    return data[:5] == b"\x7fELF\x02"


def sections(data):
    """Yields the sections."""
    start, = struct.unpack_from("<Q", data, 0x28)
    size, count = struct.unpack_from("<HH", data, 0x3A)
    for place in range(start, start + size * count, size):
        _, kind, _, _, offset, length, link = struct.unpack_from("<IIQQQQI", data, place)
        yield Section(kind, offset, length, link)


def text(data, table, place):
    """The text at a place of a table of texts."""
    start = table.offset + place
    return data[start:data.index(b"\0", start)]


def libraries(data):
    """Yields the shared libraries that the program names."""
    found = list(sections(data))
    for section in (one for one in found if one.kind == DYNAMIC):
        for place in range(section.offset, section.offset + section.size, 16):
            tag, value = struct.unpack_from("<QQ", data, place)
            if tag == LIBRARY:
                yield text(data, found[section.link], value).decode()


def versions(data):
    """Yields the versions of functions that the program asks of its libraries, as `GLIBC_2.34`."""
    found = list(sections(data))
    for section in (one for one in found if one.kind == VERSIONS):
        place = section.offset
        while True:
            _, count, _, first, following = struct.unpack_from("<HHIII", data, place)
            yield from versions_of_one(data, found[section.link], place + first, count)
            if not following:
                break
            place += following


def versions_of_one(data, table, place, count):
    """Yields the versions that are asked of one library."""
    for _ in range(count):
        _, _, _, name, following = struct.unpack_from("<IHHII", data, place)
        yield text(data, table, name)
        place += following


def glibc(data):
    """The least version of the C library that has all that the program asks for, as `2.34`; None where it asks for none."""
    found = [tuple(map(int, match.groups())) for match in map(GLIBC.match, versions(data)) if match]
    return "%d.%d" % max(found) if found else None


def processor(data):
    """The processor that the program asks for at its start: the lowest where it asks the C library for no feature of one."""
    if b"__x86_get_cpuid_feature_leaf" not in data:
        return LOWEST
    named = re.search(rb"x86-64-v[2-4]", data)
    return named.group().decode() if named else "unknown"
