"""Worked rows of split files: the vectors of docs/FORMATS.md, the borders of windows, and what the last line is a digest of.

    from split_rows import WRITTEN, REFUSED
"""
from tests.tables.document_rows import FAILED, ONE, at
from tests.tables.texts import C1, V1, body, digits, document, line, quoted, replica, tree
from tests.tables.worked_files import (
    CHAINS, CHAINS_TREE, CONFLICT_TREE, EVENT_TREE, NAMED, NAMED_TREE, NOTHING, NOTHING_TREE, RULED_TREE, RULING_TREE,
    TAGGED_TREE, TWO, TWO_TREE, UNHELD,
)


def split(unit, *parts, log="g"):
    """The split file of these parts, each a name and a replica file."""
    head = "".join(one + "\n" for one in ("CADF-SPLIT 1", "L " + quoted(log), "B " + unit))
    noted = head + "".join("P %s\n%s" % (name, file.splitlines(True)[-1]) for name, file in parts)
    return head + "".join("P %s\n%s" % part for part in parts) + "Z %s\n" % digits(noted)


EARLIER = body("eventTime", '"2024-03-01T00:30:00+01:00"')
NORTH_TREE = tree((1, 0, "P"), (2, 0, "name"), (3, 1, '"north"'))
EARLIER_TREE = tree((1, 0, "E"), (2, 0, "e1"), (3, 1, EARLIER), (4, 0, "T"), (5, 1, "x"))
PAGE = replica(line("E", "e1", EARLIER), line("E", "e1", EARLIER, "T", "x"), C1, line("P", "name", '"north"'))

# The time of an event, and its window by month, by day and by hour.
WINDOWS = [
    ("2024-03-01T12:00:00Z", "2024-03", "2024-03-01", "2024-03-01T12"),
    ("2024-03-01T12:59:59.999999999Z", "2024-03", "2024-03-01", "2024-03-01T12"),
    ("2024-03-01T13:00:00Z", "2024-03", "2024-03-01", "2024-03-01T13"),
    ("2024-03-01T00:30:00+01:00", "2024-02", "2024-02-29", "2024-02-29T23"),
    ("2023-12-31T23:30:00-01:00", "2024-01", "2024-01-01", "2024-01-01T00"),
    ("1970-01-01T00:00:00Z", "1970-01", "1970-01-01", "1970-01-01T00"),
    ("1969-12-31T23:59:59.5Z", "1969-12", "1969-12-31", "1969-12-31T23"),
    ("1900-02-28T23:59:59.999999999Z", "1900-02", "1900-02-28", "1900-02-28T23"),
    ("1900-03-01T00:00:00Z", "1900-03", "1900-03-01", "1900-03-01T00"),
    ("0001-01-01T00:00:00+14:00", "0000-12", "0000-12-31", "0000-12-31T10"),
    ("9998-12-31T23:59:59-14:00", "9999-01", "9999-01-01", "9999-01-01T13"),
]


def of_one_event(time):
    """A file of an event at that time, in formats 1 and 2."""
    made = body("eventTime", quoted(time))
    return replica(line("E", "e1", made)), tree((1, 0, "E"), (2, 0, "e1"), (3, 1, made))


def at_times(*times):
    """A document of an event at each of these times, under the identifiers e0, e1 and so on."""
    return document(*(at(time, "e%d" % place) for place, time in enumerate(times)))


def tree_at(place, time):
    """The file of one of them."""
    return tree((1, 0, "E"), (2, 0, "e%d" % place), (3, 1, body("eventTime", quoted(time))))


TURNED = ["2024-03-02T00:00:00Z", "2024-03-01T00:00:00Z", "1999-12-31T00:00:00Z", "2024-02-29T00:00:00Z"]

# A call, its files, and what it writes.
WRITTEN = [
    ("nothing", "split --by day", [NOTHING], split("day")),
    ("nothing under a log that is given", "split --by hour --log g", [NOTHING_TREE], split("hour")),
    ("a property and an event with two bodies", "split --by day", [PAGE], split(
        "day", ("shared", NORTH_TREE), ("2024-02-29", EARLIER_TREE), ("2024-03-01", EVENT_TREE))),
    ("the same by month", "split --by month", [PAGE], split(
        "month", ("shared", NORTH_TREE), ("2024-02", EARLIER_TREE), ("2024-03", EVENT_TREE))),
    ("the same by hour", "split --by hour", [PAGE], split(
        "hour", ("shared", NORTH_TREE), ("2024-02-29T23", EARLIER_TREE), ("2024-03-01T12", EVENT_TREE))),
    ("an event", "split --by month", [V1, NOTHING], split("month", ("2024-03", EVENT_TREE))),
    ("two events of one window", "split --by day", [TWO], split("day", ("2024-03-01", TWO_TREE))),
    ("chains", "split --by hour", [CHAINS], split("hour", ("2024-03-01T12", CHAINS_TREE))),
    ("a tag", "split --by day", [TAGGED_TREE], split("day", ("2024-03-01", TAGGED_TREE))),
    ("two bodies of one window", "split --by day", [document(ONE), document(FAILED)], split("day", ("2024-03-01", CONFLICT_TREE))),
    ("facts that are no event's", "split --by day", [NAMED], split("day", ("shared", NAMED_TREE))),
    ("a ruling of an event", "split --by day", [UNHELD], split("day", ("shared", RULING_TREE), ("2024-03-01", EVENT_TREE))),
    ("a settled event", "split --by day", [RULED_TREE], split("day", ("shared", RULING_TREE), ("2024-03-01", CONFLICT_TREE))),
    ("several files", "split --by day", [document(more=',"name":"north"'), V1], split("day", ("shared", NORTH_TREE), ("2024-03-01", EVENT_TREE))),
    ("an event under a log that is given", "split --by day --log g", [V1], split("day", ("2024-03-01", EVENT_TREE))),
    ("windows whose events come in another order", "split --by day", [at_times(*TURNED)], split("day", *(
        (time[:10], tree_at(place, time)) for time, place in sorted((time, place) for place, time in enumerate(TURNED))))),
    *(("a window by %s of %s" % (unit, time), "split --by " + unit, [of_one_event(time)[0]], split(unit, (name, of_one_event(time)[1])))
      for time, *names in WINDOWS for unit, name in zip(("month", "day", "hour"), names)),
]

# A call, its files, and why it is refused, as `join` refuses them.
REFUSED = [
    ("another log", "split --by day", [document(V1), '{"id":"h","events":[]}'], "input 2: other log"),
    ("events by themselves", "split --by day", [V1, V1], "no log named"),
    ("another log than the one that is given", "split --by day --log h", [NOTHING, V1], "input 1: other log"),
    ("a split file", "split --by day", [split("day")], "input 1: version"),
    ("a second input that isn't ended", "split --by day", [V1, "{"], "input 2: not JSON"),
]

# How many bytes the vectors of docs/FORMATS.md have.
SIZES = [(split("day"), 92), (WRITTEN[2][3], 869)]
