"""Split files: the parts of a set by time, each as a replica file."""
import datetime
import hashlib

from tests.reference.json_text import quoted, read_canonical
from tests.reference.replica_files import file_of
from tests.reference.times import EPOCH, time_of

FIRST_LINE = b"CADF-SPLIT 1"
SHARED = "shared"
UNITS = {"month": "%04d-%02d", "day": "%04d-%02d-%02d", "hour": "%04d-%02d-%02dT%02d"}  # the name of a window
NANOSECONDS_AN_HOUR = 3600 * 10 ** 9
CYCLE = 400, 146097  # years after which the calendar repeats, and their days


def window_of(instant, unit):
    """The name of the window that contains an instant."""
    day, hour = divmod(instant // NANOSECONDS_AN_HOUR, 24)
    ordinal = EPOCH + day
    years, days = CYCLE if ordinal < 1 else (0, 0)  # Python knows no year 0
    date = datetime.date.fromordinal(ordinal + days)
    fields = (date.year - years, date.month, date.day, hour)
    return UNITS[unit] % fields[:UNITS[unit].count("%")]


def part_of(atom, unit):
    """The name of the part of an atom."""
    if atom[0] != "E":
        return SHARED
    return window_of(time_of(read_canonical(atom[2])["eventTime"]).instant, unit)


def parts_of(atoms, unit):
    """The parts that have an atom, by name."""
    parts = {}
    for atom in atoms:
        parts.setdefault(part_of(atom, unit), set()).add(atom)
    return parts


def in_order(names):
    """The names of parts as they follow one another in a file."""
    return sorted(names, key=lambda name: (name != SHARED, name))


def split_of(log, atoms, unit):
    """The split file of a set."""
    parts = parts_of(atoms, unit)
    head = [FIRST_LINE, b"L " + quoted(log).encode(), b"B " + unit.encode()]
    text = b"".join(line + b"\n" for line in head)
    digest = hashlib.sha256(text)
    for name in in_order(parts):
        line, file = b"P %s\n" % name.encode(), file_of(log, parts[name])
        digest.update(line + file.splitlines(True)[-1])
        text += line + file
    return text + b"Z %s\n" % digest.hexdigest().encode()
