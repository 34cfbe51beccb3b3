"""Rows of the driver of files: the log text and the conflict text, what is written of a set of atoms.

Words: a writer (the bytes of a write, what it does, which is `never`, `refuses` or `takes-nothing`, and at which write),
the log's identifier and the lines of its atoms, each behind its carrier.
"""
import json

from tests.tables.texts import (
    B1, B3, BF, C1, CF, E3, EVT, K1, KF, S0, S1, S2, S3, SINKS, T3, V1, conflicts, digits, entry, line, log,
)

CALLS = {
    "write_log": ["write_log"],
    "write_conflicts": ["write_conflicts"],
}

LOG, CONFLICTS = "Log text", "Conflict text"
AT_ONCE = "ARCHITECTURE: The way of a document"


def shown(key, body, **more):
    """An event as both texts have it; `more` are the members that are made of what came with the body."""
    members = {**json.loads(body), "id": key, "typeURI": EVT, **{name: json.loads(text) for name, text in more.items()}}
    return json.dumps(members, separators=(",", ":"), sort_keys=True, ensure_ascii=False)


def chain(*steps, key="e1", body=B1):
    """The line of a chain."""
    return line("E", key, body, "C", *steps)


def listed(*chains):
    """The lists of steps as one JSON list."""
    return "[%s]" % ",".join("[%s]" % ",".join(steps) for steps in chains)


def at(time):
    """The usual body at another time."""
    return B1.replace("2024-03-01T12:00:00Z", time)

# The two values of one event, with the chain of each, and the rulings for them.
F, T = shown("e1", BF, reporterchain=listed([S2])[1:-1]), shown("e1", B1, reporterchain=listed([S1])[1:-1])
TWO_BODIES = [CF, KF, C1, K1]
FOR_F, FOR_T = ("E", "e1", digits(BF)), ("E", "e1", digits(B1))
BOTH = sorted([FOR_F, FOR_T])

# The name of a log, at two sites.
NORTH, SOUTH = line("P", "name", '"north"'), line("P", "name", '"south"')
FOR_SOUTH = ("P", "name", digits('"south"'))
STORE = line("R", "r1", '{"id":"r1","typeURI":"storage"}')
STORED = '[{"id":"r1","typeURI":"storage"}]'

# An event at an offset, one an hour later by its instant and one half an hour earlier.
EAST, NOON, EARLY = at("2024-03-01T13:00:00+01:00"), B1, at("2024-03-01T12:30:00+01:00")

# Atoms, the log text and the conflict text.
CASES = [
    ([], log(), conflicts()),
    ([C1], log(V1), conflicts()),
    ([line("E", E3, B3), line("E", E3, B3, "C", S0), line("E", E3, B3, "T", T3)],
     log(shown(E3, B3, reporterchain="[%s]" % S0, tags='["%s"]' % T3)), conflicts()),
    # chains: the longest, among equally long ones the least; all of them where there are several
    ([C1, K1], log(T), conflicts()),
    ([C1, K1, chain(S1, S2)], log(shown("e1", B1, reporterchain="[%s,%s]" % (S1, S2), reporterchains=listed([S1], [S1, S2]))),
     conflicts()),
    ([C1, chain(S1, S3), chain(S1, S2)],
     log(shown("e1", B1, reporterchain="[%s,%s]" % (S1, S2), reporterchains=listed([S1, S2], [S1, S3]))), conflicts()),
    ([C1, chain(S3), chain(S2), chain(S1, S3)],
     log(shown("e1", B1, reporterchain="[%s,%s]" % (S1, S3), reporterchains=listed([S1, S3], [S2], [S3]))), conflicts()),
    # tags and attachments
    ([C1, line("E", "e1", B1, "T", "b"), line("E", "e1", B1, "T", "a"), line("E", "e1", B1, "A", '{"b":1}'),
      line("E", "e1", B1, "A", '{"a":1}')], log(shown("e1", B1, tags='["a","b"]', attachments='[{"a":1},{"b":1}]')), conflicts()),
    # texts rise by their bytes: a quotation mark before a number sign, U+FFFD before U+1F600
    ([C1, line("E", "e1", B1, "T", "#"), line("E", "e1", B1, "T", '"')], log(shown("e1", B1, tags='["\\"","#"]')), conflicts()),
    ([line("G", "#", '{"id":"#"}'), line("G", '"', '{"id":"\\""}')], log(geolocations='[{"id":"\\""},{"id":"#"}]'), conflicts()),
    ([line("M", "\U0001f600", '{"metricId":"\U0001f600"}'), line("M", "\ufffd", '{"metricId":"\ufffd"}'),
      line("P", "\U0001f600", "1"), line("P", "\ufffd", "2")],
     log(metrics='[{"metricId":"\ufffd"},{"metricId":"\U0001f600"}]', **{"\U0001f600": "1", "\ufffd": "2"}), conflicts()),
    # events by instant, then by identifier
    ([line("E", "e1", EAST), line("E", "e2", NOON), line("E", "e3", EARLY)],
     log(shown("e3", EARLY), shown("e1", EAST), shown("e2", NOON)), conflicts()),
    ([line("E", "b", NOON), line("E", "a", NOON), line("E", "B", NOON)], log(shown("B", NOON), shown("a", NOON), shown("b", NOON)),
     conflicts()),
    # conflicts
    (TWO_BODIES, log(), conflicts(entry("E", "e1", F, T))),
    ([line("E", "e1", EAST), line("E", "e1", NOON)], log(), conflicts(entry("E", "e1", shown("e1", NOON), shown("e1", EAST)))),
    ([NORTH, STORE], log(name='"north"', resources=STORED), conflicts()),
    ([NORTH, SOUTH, STORE], log(resources=STORED), conflicts(entry("P", "name", '"north"', '"south"'))),
    ([line("P", "n", "10"), line("P", "n", "9"), line("P", "n", "null")], log(), conflicts(entry("P", "n", "10", "9", "null"))),
    ([*TWO_BODIES, line("G", "p", '{"id":"p"}'), line("G", "p", '{"a":1,"id":"p"}'), line("M", "m", '{"metricId":"m"}'),
      line("M", "m", '{"a":1,"metricId":"m"}'), line("R", "r2", '{"id":"r2"}'), line("R", "r2", '{"a":1,"id":"r2"}'), STORE,
      NORTH, SOUTH, line("P", "a", "1"), line("P", "a", "2")],
     log(resources=STORED),
     conflicts(entry("E", "e1", F, T), entry("G", "p", '{"a":1,"id":"p"}', '{"id":"p"}'),
               entry("M", "m", '{"a":1,"metricId":"m"}', '{"metricId":"m"}'), entry("P", "a", "1", "2"),
               entry("P", "name", '"north"', '"south"'), entry("R", "r2", '{"a":1,"id":"r2"}', '{"id":"r2"}'))),
    # entities by key, properties by name, on both sides of the other members
    ([line("G", "b", '{"id":"b"}'), line("G", "a", '{"id":"a"}'), line("M", "m", '{"metricId":"m"}')],
     log(geolocations='[{"id":"a"},{"id":"b"}]', metrics='[{"metricId":"m"}]'), conflicts()),
    ([line("P", "about", "1"), NORTH], log(about="1", name='"north"'), conflicts()),
    ([line("P", "z", "7"), line("P", "h", '{"x":1,"y":2}'), line("P", "o", "5"), line("P", "s", "6"), line("P", "f", '[0,"e"]'),
      line("P", 'a"b', "null"), STORE, line("P", "n", "4"), line("P", "j", "3")],
     log(resources=STORED, **{"z": "7", "h": '{"x":1,"y":2}', "o": "5", "s": "6", "f": '[0,"e"]', 'a"b': "null", "n": "4", "j": "3"}),
     conflicts()),
    # rulings
    ([*TWO_BODIES, line("U", *FOR_F)], log(F), conflicts(entry("E", "e1", T, ruled=digits(BF)), rulings=[FOR_F])),
    ([*TWO_BODIES, line("U", *FOR_T)], log(T), conflicts(entry("E", "e1", F, ruled=digits(B1)), rulings=[FOR_T])),
    ([*TWO_BODIES, line("U", *FOR_F), line("U", *FOR_T)], log(), conflicts(entry("E", "e1", F, T), rulings=BOTH)),
    ([C1, K1, line("U", *FOR_F)], log(T), conflicts(rulings=[FOR_F])),
    ([C1, K1, line("U", *FOR_F), CF, KF], log(F), conflicts(entry("E", "e1", T, ruled=digits(BF)), rulings=[FOR_F])),
    ([C1, line("U", *FOR_T)], log(V1), conflicts(rulings=[FOR_T])),
    ([line("U", *FOR_F)], log(), conflicts(rulings=[FOR_F])),
    ([NORTH, SOUTH, line("U", *FOR_SOUTH)], log(name='"south"'),
     conflicts(entry("P", "name", '"north"', ruled=digits('"south"')), rulings=[FOR_SOUTH])),
    ([NORTH, SOUTH, line("P", "name", "1"), line("U", *FOR_SOUTH)], log(name='"south"'),
     conflicts(entry("P", "name", '"north"', "1", ruled=digits('"south"')), rulings=[FOR_SOUTH])),
    ([line("U", "R", "name", digits('"south"')), NORTH, SOUTH], log(),
     conflicts(entry("P", "name", '"north"', '"south"'), rulings=[("R", "name", digits('"south"'))])),
]


def behind_carriers(atoms):
    """The same atoms in another order, those of three texts first."""
    turned = atoms[::-1]
    return sorted(turned, key=lambda atom: len(json.loads(atom)) > 3 and json.loads(atom)[0] == "E")

ROWS = []
for atoms, log_text, conflict_text in CASES:
    for size, order in ((7, atoms), (4096, behind_carriers(atoms))):
        ROWS.append(("write_log", [size, "never", 0, "g", *order], ["ok", log_text], LOG))
        ROWS.append(("write_conflicts", [size, "never", 0, "g", *order], ["ok", conflict_text], CONFLICTS))
ROWS.append(("write_log", [1, "never", 0, 'a"b'], ["ok", log(log='a"b')], LOG))
ROWS.append(("write_conflicts", [1, "never", 0, 'a"b'], ["ok", conflicts(log='a"b')], CONFLICTS))

# Writers that fail at a write or take nothing: what was written before stays.
for number in (1, 2, 11, 125):
    for failure in ("refuses", "takes-nothing"):
        ROWS.append(("write_log", [1, failure, number, "g"], ["err", "WriteFault", log()[:number - 1]], SINKS))
ROWS += [
    ("write_log", [1, "refuses", 126, "g"], ["ok", log()], SINKS),
    ("write_log", [10, "refuses", 2, "g"], ["err", "WriteFault", '{"events":'], AT_ONCE),
    ("write_conflicts", [10, "takes-nothing", 2, "g"], ["err", "WriteFault", '{"conflict'], AT_ONCE),
    ("write_conflicts", [1, "refuses", 5, "g", *TWO_BODIES], ["err", "WriteFault", '{"co'], SINKS),
]
