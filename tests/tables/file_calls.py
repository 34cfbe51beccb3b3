"""Calls of replica files and inventory files: whole and damaged ones, in pieces, within limits, with failing readers
and writers; of the two texts, whose rows are in log_rows.py, of seals and proofs, whose rows are in seal_rows.py and
proof_rows.py, of keys, whose rows are in keyed_rows.py, and of sketches, whose rows are in sketched_rows.py.

Words: a reading is a limit, the bytes of a read and the number of the read that fails (0 is none); a writer is the
bytes of a write, what it does (`never`, `refuses` or `takes-nothing`) and at which write.
"""
import json

from tests.tables import keyed_rows, log_rows, proof_rows, seal_rows, sketched_rows
from tests.tables.texts import (
    B1, B3, BF, C1, C2, CAUSES, CF, E3, K1, KF, LIMIT, LIMITS, PIECES, S0, S1, S2, SHOWN, SINKS, T3, WHOLE, digits, inventory, line, nested,
    quoted, refused, replica, said, tree,
)

CALLS = {
    "read": ["read_replica", "read_file", "LineDecoder::start", "LineDecoder::new", "LineDecoder::accept", "LineDecoder::cause_of_previous",
             "next_path_kind"],
    "each_failing_read": ["read_replica"],
    "each_prefix": ["read_replica"],
    "each_bit": ["read_replica"],
    "write": ["write_replica"],
    "feed": ["ReplicaFeed::new", "ReplicaFeed::feed", "ReplicaFeed::pending", "ReplicaFeed::finish",
             "Feed::new", "Feed::feed", "Feed::pending", "Feed::finish"],
    "read_rest": ["ReplicaFeed::new", "cadf_file::read_rest", "cadf_linefile::read_rest"],
    "read_inventory": ["read_inventory"],
    "write_inventory": ["write_inventory"],
    "inventory_digest": ["inventory_digest"],
    "fault_text": [],
    **log_rows.CALLS,
    **seal_rows.CALLS,
    **proof_rows.CALLS,
    **keyed_rows.CALLS,
    **sketched_rows.CALLS,
}

REFUSAL = "What is refused"
ONE = "Format 1: a line for each atom"
TWO = "Format 2: a line for each node"
DIGESTS = "Inventory file"

HEAD_1, HEAD_2 = 'CADF-REPLICA 1\nL "g"\n', 'CADF-REPLICA 2\nL "g"\n'
HEAD_OF_DIGESTS = 'CADF-INVENTORY 1\nL "g"\n'
K2 = line("E", "e1", B1, "C", S1, S2)
TAG = line("E", "e1", B1, "T", "x")
RULING = line("U", "E", "e1", digits(BF))


def node(depth, mark, element):
    return "[%d,%d,%s]" % (depth, mark, quoted(element))


def one(*lines):
    """The beginning of a file of format 1 with these lines."""
    return HEAD_1 + "".join(text + "\n" for text in lines)


def two(*lines):
    """The beginning of a file of format 2 with these lines."""
    return HEAD_2 + "".join(text + "\n" for text in lines)


def pieces(text, size):
    return [text[at:at + size] for at in range(0, len(text), size)]

# The nodes that stand above others.
E, P, U = node(1, 0, "E"), node(1, 0, "P"), node(1, 0, "U")
E1, E2 = node(2, 0, "e1"), node(2, 0, "e2")
BODY, FAILED = node(3, 1, B1), node(3, 1, BF)
CHAINS, TAGS = node(4, 0, "C"), node(4, 0, "T")
STEP_1, STEP_2 = node(5, 1, S1), node(5, 1, S2)
NAME = node(2, 0, "n")
OF_E, OF_E1 = node(2, 0, "E"), node(3, 0, "e1")
RULED = node(4, 1, digits(BF))
BOTH = sorted([digits(B1), digits(BF)])

# Sets of atoms, each with its lines in format 1 and its nodes in format 2.
SETS = [
    ([], []),
    ([C1], [E, E1, BODY]),
    ([C1, C2], [E, E1, BODY, E2, BODY]),
    ([C1, K1, K2], [E, E1, BODY, CHAINS, STEP_1, node(6, 1, S2)]),
    ([C1, K2], [E, E1, BODY, CHAINS, node(5, 0, S1), node(6, 1, S2)]),
    ([CF, KF, C1, K1, RULING], [E, E1, FAILED, CHAINS, STEP_2, BODY, CHAINS, STEP_1, U, OF_E, OF_E1, RULED]),
    ([RULING], [U, OF_E, OF_E1, RULED]),
    ([C1, RULING], [E, E1, BODY, U, OF_E, OF_E1, RULED]),
    ([CF, C1, *[line("U", "E", "e1", one) for one in BOTH]],
     [E, E1, FAILED, BODY, U, OF_E, OF_E1, *[node(4, 1, one) for one in BOTH]]),
    ([line("E", E3, B3), line("E", E3, B3, "C", S0), line("E", E3, B3, "T", T3)],
     [E, node(2, 0, E3), node(3, 1, B3), CHAINS, node(5, 1, S0), TAGS, node(5, 1, T3)]),
    # names rise by the bytes of the text, not by those of the line: a quotation mark before a number sign
    ([line("P", '"', "1"), line("P", "#", "1"), line("P", "\ufffd", "1"), line("P", "\U0001f600", "1")],
     [P, node(2, 0, '"'), node(3, 1, "1"), node(2, 0, "#"), node(3, 1, "1"), node(2, 0, "\ufffd"), node(3, 1, "1"),
      node(2, 0, "\U0001f600"), node(3, 1, "1")]),
    ([C1, line("E", "e1", B1, "A", '{"a":1}'), TAG, line("P", "n", '"north"'), line("R", "r1", '{"id":"r1"}')],
     [E, E1, BODY, node(4, 0, "A"), node(5, 1, '{"a":1}'), TAGS, node(5, 1, "x"), P, NAME, node(3, 1, '"north"'),
      node(1, 0, "R"), node(2, 0, "r1"), node(3, 1, '{"id":"r1"}')]),
]
NOTHING, X, CHAINED = replica(), replica(C1, C2), replica(C1, K1, K2)
NOTHING_2, X_2 = tree(), tree(*SETS[2][1])
CHAINED_2 = tree(*SETS[3][1])


def exchanged(body):
    """The body with its first two members exchanged."""
    first, second, rest = body[1:].split(",", 2)
    return "{%s,%s,%s" % (second, first, rest)


def deep(depth):
    """The body with a further member that nests so deep."""
    return B1[:-1] + ',"x":%s}' % nested(depth)


def last_byte(text):
    """The text with its last byte, a brace, replaced."""
    return text[:-1] + "]"

# Files of format 1, and why they are refused.
REFUSED_1 = [
    ("", "Truncated"),
    ("CADF-REPLICA 3\n", "Version"),
    ("CADF-REPLICA 1\r\n", "Version"),
    ("CADF-INVENTORY 1\n", "Version"),
    ("\n", "Version"),
    ('CADF-REPLICA 1\nL g\n', "LogLine"),
    ('CADF-REPLICA 1\nL ""\n', "LogLine"),
    ('CADF-REPLICA 1\nL "g" \n', "LogLine"),
    (b'CADF-REPLICA 1\nL "\xff"\n', "LogLine"),
    ("CADF-REPLICA 1\nZ\n", "LogLine"),
    ("CADF-REPLICA 1\n%s\n" % C1, "LogLine"),
    (HEAD_1.encode() + b"\xff\n", "Line 3 NotUtf8"),
    (one("{"), "Line 3 Json"),
    (one('["P","n",1.5]'), "Line 3 Json"),
    (one(C1, ""), "Line 4 Json"),
    (one(C1, C1[:-1] + ",]"), "Line 4 Json"),
    (one(C1, C1[:-1] + ",1.5]"), "Line 4 Json"),
    (one('["E", "e1",%s]' % quoted(B1)), "Line 3 NotCanonical"),
    (one(C1, C1[:-1] + ', "T","x"]'), "Line 4 NotCanonical"),
    (one(E), "Line 3 Shape"),
    (one('["X","a"]'), "Line 3 Shape"),
    (one('["P","n",1]'), "Line 3 Shape"),
    (one(line("P", "n", "1.5")), "Line 3 Shape"),
    (one(line("P", "id", "1")), "Line 3 Shape"),
    (one(line("E", "e1", exchanged(B1))), "Line 3 Shape"),
    (one(line("R", "r1", '{"id":"r2"}')), "Line 3 Shape"),
    (one(line("E", "e1", last_byte(B1))), "Line 3 Shape"),
    (one(C1, line("E", "e1", B1, "C", S1, last_byte(S2))), "Line 4 Shape"),
    (one(C1, line("E", "e1", B1, "C", S1, S2, "x")), "Line 4 Shape"),
    (one(line("U", "E", "e1", "x")), "Line 3 Shape"),
    (one(line("U", "X", "e1", digits(BF))), "Line 3 Shape"),
    (one(line("U", "U", "e1", digits(BF))), "Line 3 Shape"),
    (one(line("U", "E", "", digits(BF))), "Line 3 Shape"),
    (one(line("U", "E", "e1")), "Line 3 Shape"),
    (one(line("U", "E", "e1", digits(BF).upper())), "Line 3 Shape"),
    (one(line("U", "E", "e1", digits(BF), "x")), "Line 3 Shape"),
    (one(C1, line("E", "e1", B1, "T")), "Line 4 Shape"),
    (one(RULING, RULING), "Line 4 Order"),
    (one(RULING, C1), "Line 4 Order"),
    (one(C1, RULING, TAG), "Line 5 Order"),
    (one(C2, C1), "Line 4 Order"),
    (one(C1, C1), "Line 4 Order"),
    (one(C1, K2, K1), "Line 5 Order"),
    (one(line("P", "#", "1"), line("P", '"', "1")), "Line 4 Order"),
    (one(line("P", "\U0001f600", "1"), line("P", "\ufffd", "1")), "Line 4 Order"),
    (one(TAG), "Line 3 Ungrounded"),
    (one(C1, TAG, line("E", "e2", B1, "T", "x")), "Line 5 Ungrounded"),
    (one(line("E", "e1", deep(99))), "Truncated"),  # the body nests 100 deep
    (one(line("E", "e1", deep(100))), "Line 3 Shape"),
    (one(C1, line("E", "e1", B1, "C", *[S1] * 256)), "Truncated"),
    (one(C1, line("E", "e1", B1, "C", *[S1] * 257)), "Line 4 Shape"),
    (one(RULING), "Truncated"),
    (one(C1, "Z"), "Digest"),
    (one("Zebra"), "Digest"),
    (HEAD_1 + "Z " + digits(HEAD_1).upper() + "\n", "Digest"),
    (HEAD_1 + "Z  " + digits(HEAD_1) + "\n", "Digest"),
    (HEAD_1 + "Z " + digits(HEAD_2) + "\n", "Digest"),
    (X[:-2] + ("0" if X[-2] != "0" else "1") + "\n", "Digest"),
    (X + "x", "Trailing"),
    (NOTHING[:-1], "Truncated"),
    (NOTHING + "\n", "Trailing"),
    (NOTHING + NOTHING, "Trailing"),
]

# Files of format 2 with a node that has neither a mark nor a child. The next line shows it, before its own faults.
UNENDED = [
    (two(E, "Z"), 3),
    (tree(E), 3),
    (two(E, E), 3),
    (two(E, "[1,7,7]"), 3),
    (two(E, node(0, 0, "E")), 3),
    (two(E, ""), 3),
    (two(E, "{"), 3),
    (two(E, '[2, 0,"e1"]'), 3),
    (two(E, C1), 3),
    (two(E, node(1, 0, "X")), 3),
    (two(E, "[2,0]"), 3),
    (two(E, '[2,0,"e1"'), 3),
    (two(E, '[-1,0,"e1"]'), 3),
    (two(E).encode() + b"\xff\n", 3),
    (two(E, E1, E2), 4),
    (two(E, E1, "Z"), 4),
    (two(E, E1, P), 4),
    (two(E, E1, BODY, CHAINS, "Z"), 6),
    (two(E, E1, BODY, CHAINS, TAGS), 6),
    (two(E, E1, BODY, CHAINS, BODY), 6),
    (two(E, E1, BODY, CHAINS, node(5, 0, S1), "Z"), 7),
    (two(U, "Z"), 3),
    (two(U, OF_E, OF_E1, "Z"), 5),
    (two(U, OF_E, OF_E1, node(4, 0, digits(BF)), "Z"), 6),
    (two(E, E1, BODY, CHAINS, *[node(5 + step, 0, S1) for step in range(256)], "Z"), 262),
]

# Other files of format 2, and why they are refused.
REFUSED_2 = [
    ("CADF-REPLICA 2\nL g\n", "LogLine"),
    (two(node(0, 0, "E")), "Line 3 Order"),
    (two(E1), "Line 3 Order"),
    (two(node(2, 0, "X")), "Line 3 Order"),
    (two(node(0, 0, "X")), "Line 3 Order"),
    (two(E, BODY), "Line 4 Order"),
    (two(E, node(3, 1, "x")), "Line 4 Order"),
    (two(E, E1, CHAINS), "Line 5 Order"),
    (two(node(1, 1, "E")), "Line 3 Shape"),
    (two(node(1, 0, "X")), "Line 3 Shape"),
    (two(node(1, 2, "E")), "Line 3 Shape"),
    (two(node(-1, 0, "E")), "Line 3 Shape"),
    (two("[1,0]"), "Line 3 Shape"),
    (two('[1,0,"E",0]'), "Line 3 Shape"),
    (two("[1,0,7]"), "Line 3 Shape"),
    (two(C1), "Line 3 Shape"),
    (two('{"1":0}'), "Line 3 Shape"),
    (two('[1,true,"E"]'), "Line 3 Shape"),
    (HEAD_2.encode() + b"\xff\n", "Line 3 NotUtf8"),
    (two('[1,0.5,"E"]'), "Line 3 Json"),
    (two('[1,0,"E"'), "Line 3 Json"),
    (two(""), "Line 3 Json"),
    (two('[1, 0,"E"]'), "Line 3 NotCanonical"),
    (two("{"), "Line 3 Json"),
    (two(E, "[2,7,7]"), "Line 4 Shape"),
    (two(E, "[3,1,1]"), "Line 4 Shape"),
    (two(E, node(2, 1, "e1")), "Line 4 Shape"),
    (two(E, node(2, 0, "")), "Line 4 Shape"),
    (two(E, E1, node(3, 1, "{}")), "Line 5 Shape"),
    (two(E, E1, node(3, 2, B1)), "Line 5 Shape"),
    (two(E, E1, node(3, 1, last_byte(B1))), "Line 5 Shape"),
    (two(E, E1, BODY, CHAINS, STEP_1, node(6, 1, last_byte(S2))), "Line 8 Shape"),
    (two(E, E1, BODY, CHAINS, STEP_1, node(6, 1, S2), node(7, 1, "x")), "Line 9 Shape"),
    (two(E, E1, BODY, node(4, 0, "X")), "Line 6 Shape"),
    (two(E, E1, BODY, node(4, 1, "C")), "Line 6 Shape"),
    (two(E, E1, BODY, TAGS, node(5, 1, "x"), node(6, 1, "y")), "Line 8 Shape"),
    (two(P, node(2, 0, "id")), "Line 4 Shape"),
    (two(P, node(2, 0, "events")), "Line 4 Shape"),
    (two(P, NAME, node(3, 1, "1.5")), "Line 5 Shape"),
    (two(P, NAME, node(3, 0, "1 ")), "Line 5 Shape"),
    (two(E, E2, BODY, E1), "Line 6 Order"),
    (two(E, E1, BODY, BODY), "Line 6 Order"),
    (two(E, E1, BODY, E1), "Line 6 Order"),
    (two(E, E1, BODY, E), "Line 6 Order"),
    (two(P, NAME, node(3, 1, "2"), node(3, 1, "1")), "Line 6 Order"),
    (two(P, node(2, 0, "#"), node(3, 1, "1"), node(2, 0, '"')), "Line 6 Order"),
    (two(P, NAME, node(3, 1, "1"), E), "Line 6 Order"),
    (two(E, E1, BODY, CHAINS, STEP_2, STEP_1), "Line 8 Order"),
    (two(E, E1, BODY, TAGS, node(5, 1, "x"), CHAINS), "Line 8 Order"),
    (two(E, E1, BODY, node(3, 0, B1)), "Line 6 Order"),
    (two(E, E1, node(3, 0, B1)), "Line 5 Ungrounded"),
    (two(E, E1, node(3, 0, B1), CHAINS), "Line 5 Ungrounded"),
    (two(node(1, 1, "U")), "Line 3 Shape"),
    (two(U, node(2, 0, "X")), "Line 4 Shape"),
    (two(U, OF_E, node(3, 0, "")), "Line 5 Shape"),
    (two(U, OF_E, node(3, 1, "e1")), "Line 5 Shape"),
    (two(U, OF_E, OF_E1, node(4, 1, "x")), "Line 6 Shape"),
    (two(U, OF_E, OF_E1, TAGS), "Line 6 Shape"),
    (two(U, OF_E, OF_E1, node(4, 1, digits(BF).upper())), "Line 6 Shape"),
    (two(U, OF_E, OF_E1, RULED, node(5, 1, "x")), "Line 7 Shape"),
    (two(U, OF_E, OF_E1, RULED, RULED), "Line 7 Order"),
    (two(U, OF_E, OF_E1, RULED, E), "Line 7 Order"),
    (two(E, E1, BODY, CHAINS, *[node(5 + step, 0, S1) for step in range(257)], "Z"), "Line 263 Shape"),
    (two(E), "Truncated"),
    (two(E) + "[1", "Truncated"),
    (two(E, E1, BODY), "Truncated"),
    (two(E, E1, BODY, "Z"), "Digest"),
    (tree(E, E1, BODY).replace("Z ", "Z  "), "Digest"),
    (two("Z"), "Digest"),
    (NOTHING_2[:-1], "Truncated"),
    (NOTHING_2 + "\n", "Trailing"),
    (tree(E, E1, BODY) + "Z\n", "Trailing"),
    (two(E, E1, BODY) + "Z " + digits(HEAD_2) + "\nZ\n", "Digest"),
    (two(E, E1, BODY) + "Z " + digits(two(E, E1, BODY)).upper() + "\n", "Digest"),
]

# Readings, and why they are refused: a limit, the bytes of a read, the read that fails.
READINGS = [
    ((87, 7, 0), NOTHING, "TooLarge"),
    ((87, 7, 0), NOTHING_2, "TooLarge"),
    ((88, 7, 0), NOTHING + "x", "TooLarge"),
    ((89, 7, 0), NOTHING + "x", "Trailing"),
    ((0, 1, 0), "x", "TooLarge"),
    ((0, 1, 0), "", "Truncated"),
    ((1, 1, 0), "x\n", "TooLarge"),
    ((2, 1, 0), "x\n", "Version"),
    ((LIMIT, 4096, 2), NOTHING, "ReadFault"),
    ((LIMIT, 4096, 2), NOTHING_2, "ReadFault"),
    ((LIMIT, 4096, 2), NOTHING + "x", "Trailing"),
    ((LIMIT, 4096, 1), NOTHING + "x", "ReadFault"),
]

# The lines of inventories, and why they are refused.
DIGEST_1, DIGEST_2 = sorted([digits(C1), digits(K1)])
REFUSED_DIGESTS = [
    (HEAD_OF_DIGESTS, "Truncated"),
    (HEAD_OF_DIGESTS + DIGEST_1 + "\n", "Truncated"),
    (HEAD_OF_DIGESTS + digits(C1).upper() + "\n", "Line 3 Shape"),
    (HEAD_OF_DIGESTS + digits(C1)[1:] + "\n", "Line 3 Shape"),
    (HEAD_OF_DIGESTS + digits(C1) + "0\n", "Line 3 Shape"),
    (HEAD_OF_DIGESTS + "g" + digits(C1)[1:] + "\n", "Line 3 Shape"),
    (HEAD_OF_DIGESTS + "\n", "Line 3 Shape"),
    (HEAD_OF_DIGESTS.encode() + b"\xff\n", "Line 3 Shape"),
    (HEAD_OF_DIGESTS + digits(C1) + "\r\n", "Line 3 Shape"),
    (HEAD_OF_DIGESTS + 2 * (DIGEST_1 + "\n"), "Line 4 Order"),
    (HEAD_OF_DIGESTS + DIGEST_2 + "\n" + DIGEST_1 + "\n", "Line 4 Order"),
    (HEAD_OF_DIGESTS + "Z " + digits(HEAD_1) + "\n", "Digest"),
    (inventory(DIGEST_1) + "\n", "Trailing"),
    (inventory(DIGEST_1)[:-1], "Truncated"),
    ("CADF-INVENTORY 2\n", "Version"),
    ("CADF-INVENTORY 1\nL g\n", "LogLine"),
    (NOTHING, "Version"),
    (NOTHING_2, "Version"),
]


def read(atoms):
    """The answer of a reading that is not refused."""
    return ["ok", "g", *atoms]


def pendings(text, size):
    """How many bytes are pending after each piece of a file, or of a prefix of one."""
    fed = [text[:at + size] for at in range(0, len(text), size)]
    return [len(front) - front.rfind("\n") - 1 for front in fed]

ROWS = []

# Whole files are read, and written.
for atoms, nodes in SETS:
    for size in PIECES:
        ROWS.append(("read", [LIMIT, size, 0, replica(*atoms)], read(atoms), ONE))
        ROWS.append(("read", [LIMIT, size, 0, tree(*nodes)], read(atoms), TWO))
        ROWS.append(("write", [1, size, "never", 0, "g", *atoms], ["ok", replica(*atoms)], ONE))
        ROWS.append(("write", [2, size, "never", 0, "g", *atoms], ["ok", tree(*nodes)], TWO))
ROWS.append(("read", [len(NOTHING), 7, 0, NOTHING], read([]), LIMITS))
ROWS.append(("read", [len(NOTHING_2), 7, 0, NOTHING_2], read([]), LIMITS))
ROWS.append(("read", [2**64 - 1, 7, 0, NOTHING], read([]), LIMITS))
ROWS.append(("read", [*WHOLE, replica(log='a"b')], ["ok", 'a"b'], "Replica file"))
ROWS.append(("write", [1, 7, "never", 0, 'a"b'], ["ok", replica(log='a"b')], "Replica file"))
ROWS.append(("write", [2, 7, "never", 0, "g", C2, C1], ["ok", X_2], TWO))

# Damaged files, in each size of pieces.
DAMAGED = REFUSED_1 + [(text, "Line %d Unended" % number) for text, number in UNENDED] + REFUSED_2
for text, fault in DAMAGED:
    ROWS += [("read", [LIMIT, size, 0, text], refused(fault), REFUSAL) for size in PIECES]
for reading, text, fault in READINGS:
    ROWS.append(("read", [*reading, text], refused(fault), LIMITS))
for text in (X, X_2):
    ROWS.append(("each_prefix", [LIMIT, 7, 0, text], refused("Truncated") + [len(text)], REFUSAL))
for text in (CHAINED, CHAINED_2):
    ROWS.append(("each_bit", [*WHOLE, text], ["ok", 8 * len(text)], REFUSAL))

# Readers that fail: what was read before decides, or else the failed read does. A byte is read at a time.
TWICE, LETTER_TWICE = one(C1, C1), two(E, E)
ROWS.append(("each_failing_read", [LIMIT, 1, 1, NOTHING, len(NOTHING) + 1], refused("ReadFault") + [len(NOTHING) + 1], LIMITS))
for text, fault in ((TWICE, "Line 4 Order"), (LETTER_TWICE, "Line 3 Unended")):
    size = len(text)
    ROWS.append(("each_failing_read", [LIMIT, 1, 1, text + "Z\n", size], refused("ReadFault") + [size], LIMITS))
    ROWS.append(("each_failing_read", [LIMIT, 1, size + 1, text + "Z\n", size + 2], refused(fault) + [2], LIMITS))

# Writers that take a byte at a time, and fail at a write or take nothing.
for form, text in ((1, NOTHING), (2, NOTHING_2)):
    for number in (1, 2, 15, 16, 21, 22, 88):
        for failure in ("refuses", "takes-nothing"):
            ROWS.append(("write", [form, 1, failure, number, "g"], ["err", "WriteFault", text[:number - 1]], SINKS))
    ROWS.append(("write", [form, 1, "refuses", 89, "g"], ["ok", text], SINKS))

# Feeds of accepted files, and of prefixes of them.
for text in (X, X_2):
    for size in (1, 7, len(text)):
        ROWS.append(("feed", [LIMIT, "ended", *pieces(text, size)], ["fed", *pendings(text, size), *read([C1, C2])], LIMITS))
for atoms, nodes in SETS[5:]:
    for text in (replica(*atoms), tree(*nodes)):
        ROWS.append(("feed", [LIMIT, "ended", text], ["fed", 0, *read(atoms)], LIMITS))
for text, length in [(X, 25), (X, 211), (X, 467), (X_2, 25), (X_2, 31), (X_2, 40), (X_2, 489)]:
    front = text[:length]
    ROWS.append(("feed", [LIMIT, "ended", front], ["fed", *pendings(front, length), *refused("Truncated")], LIMITS))
    ROWS.append(("feed", [LIMIT, "failed", front], ["fed", *pendings(front, length), *refused("ReadFault")], LIMITS))
ROWS.append(("feed", [LIMIT, "ended"], ["fed", *refused("Truncated")], LIMITS))
ROWS.append(("feed", [LIMIT, "failed"], ["fed", *refused("ReadFault")], LIMITS))
ROWS.append(("feed", [LIMIT, "ended", "CADF", "", "-"], ["fed", 4, 4, 5, *refused("Truncated")], LIMITS))
ROWS.append(("feed", [LIMIT, "failed", X], ["fed", 0, *refused("ReadFault")], LIMITS))

# Feeds that are refused answer so again, to a further piece and at the end.
for text, limit, fault in [(X, 467, "TooLarge"), (TWICE, 467, "Line 4 Order"), (LETTER_TWICE, LIMIT, "Line 3 Unended")]:
    again = [*refused(fault), 0] * 2 + refused(fault)
    for end in ("ended", "failed"):
        ROWS.append(("feed", [limit, end, text, "x"], ["fed", *again], LIMITS))
    ROWS.append(("feed", [limit, "ended", *pieces(text, 1), "x"], ["fed", *pendings(text[:-1], 1), *again], LIMITS))
for end in ("ended", "failed"):
    ROWS.append(("feed", [468, end, X, "x"], ["fed", 0, *refused("TooLarge"), 0, *refused("TooLarge")], LIMITS))
    ROWS.append(("feed", [469, end, X, "x"], ["fed", 0, 0, *refused("Trailing")], LIMITS))
    ROWS.append(("feed", [LIMIT, end, X, "x", "\n\n"], ["fed", 0, 0, 0, *refused("Trailing")], LIMITS))

# A feed that goes on as a reader.
START, REST = X[:5], X[5:]
ROWS += [
    ("read_rest", [LIMIT, 7, 0, START, REST], read([C1, C2]), LIMITS),
    ("read_rest", [LIMIT, 7, 0, "", X], read([C1, C2]), LIMITS),
    ("read_rest", [468, 7, 0, START, REST], read([C1, C2]), LIMITS),
    ("read_rest", [467, 7, 0, START, REST], refused("TooLarge"), LIMITS),
    ("read_rest", [LIMIT, 7, 1, START, REST], refused("ReadFault"), LIMITS),
    ("read_rest", [LIMIT, 7, 0, X, "x"], refused("Trailing"), LIMITS),
    ("read_rest", [LIMIT, 7, 0, START, ""], refused("Truncated"), LIMITS),
    ("read_rest", [LIMIT, 7, 1, TWICE, ""], refused("Line 4 Order"), LIMITS),
]

# Inventories.
for held in ([], [digits(C1)], [DIGEST_1, DIGEST_2]):
    for size in PIECES:
        ROWS.append(("read_inventory", [LIMIT, size, 0, inventory(*held)], read(held), DIGESTS))
        ROWS.append(("write_inventory", [size, "never", 0, "g", *held], ["ok", inventory(*held)], DIGESTS))
ROWS.append(("write_inventory", [7, "never", 0, "g", DIGEST_2, DIGEST_1, DIGEST_2], ["ok", inventory(DIGEST_1, DIGEST_2)], DIGESTS))
for text, fault in REFUSED_DIGESTS:
    ROWS += [("read_inventory", [LIMIT, size, 0, text], refused(fault), DIGESTS) for size in PIECES]
ROWS += [
    ("read_inventory", [155, 7, 0, inventory(digits(C1))], read([digits(C1)]), LIMITS),
    ("read_inventory", [154, 7, 0, inventory(digits(C1))], refused("TooLarge"), LIMITS),
    ("read_inventory", [LIMIT, 4096, 2, inventory(digits(C1))], refused("ReadFault"), LIMITS),
    ("read", [*WHOLE, inventory()], refused("Version"), "Versions"),
    ("write_inventory", [1, "refuses", 24, "g", DIGEST_1], ["err", "WriteFault", HEAD_OF_DIGESTS], SINKS),
    ("write_inventory", [1, "takes-nothing", 25, "g", DIGEST_1], ["err", "WriteFault", HEAD_OF_DIGESTS + DIGEST_1[0]], SINKS),
]
# The digest in an inventory's last line.
for log, held in (("g", []), ("g", [digits(C1)]), ('a"b', [digits(C1), digits(K1), digits(C2)])):
    ROWS.append(("inventory_digest", [log, *held], ["ok", inventory(*sorted(held), log=log)[-65:-1]], DIGESTS))
ROWS += [("fault_text", fault.split(), ["ok", said(fault)], REFUSAL)
         for fault in (*SHOWN, *("Line %d %s" % each for each in enumerate(CAUSES, 3)))]
ROWS.append(("fault_text", ["Memory"], ["ok", "out of memory"], "Fault lines"))
ROWS += log_rows.ROWS
ROWS += seal_rows.ROWS + proof_rows.ROWS + keyed_rows.ROWS
ROWS += sketched_rows.ROWS
