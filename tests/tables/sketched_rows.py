"""Rows of the driver of files: sketches that are read and written, what is read from them, and what their senders lack.

Words: those of a reading or a writer; a sketch's own are its number of cells and its salt, of which a number that is
none stands for no salt. The sketches are worked out in tests/tables/sketch_rows.py.
"""
from tests.tables import sketch_rows as made
from tests.tables.texts import C1, C2, CF, K1, KF, LIMIT, LIMITS, PIECES, SINKS, WHOLE, data, digits, refused

CALLS = {
    "read_sketch": ["read_model", "Sketch::log", "Sketch::layout", "Layout::cells", "Layout::salt", "Sketch::digest", "Sketch::tally",
                    "Sketch::cells"],
    "write_sketch": ["Cells::of", "Salt::of", "Sketch::of", "write_model"],
    "read_by": ["read_model", "read"],
    "missing_by_sketch": ["read_model", "missing_by_sketch"],
}

SKETCH, READER, REFUSAL = "Sketch file", "What a sketch says to its reader", "What is refused"
COMMANDS = "What the commands write"
SALT_OF_NOTHING = 16873295375025541461


def read(count, salt, *atoms, log="g"):
    """The answer of a sketch of these lines of atoms that is read."""
    digests = [digits(atom) for atom in atoms]
    return ["ok", log, count, salt, made.file_digest(digests, log), *made.counts_of(digests), *made.cells_with(count, salt, digests)]

ROWS = []

# A number of cells, a salt and atoms: their sketch is read, and written.
SKETCHED = [(3, 1, [C1]), (3, SALT_OF_NOTHING, []), (6, 1, [C1]), (3, 2**64 - 1, [C1, C2]), (33, 77, [CF, KF, C1, K1])]
for count, salt, atoms in SKETCHED:
    text, digests = made.sketch(count, salt, *atoms), [digits(atom) for atom in atoms]
    for size in PIECES:
        ROWS.append(("read_sketch", [LIMIT, size, 0, text], read(count, salt, *atoms), SKETCH))
        ROWS.append(("write_sketch", [size, "never", 0, count, salt, "g", *digests], ["ok", text], SKETCH))
ROWS += [
    ("read_sketch", [533, 7, 0, made.WORKED], read(3, 1, C1), LIMITS),
    ("read_sketch", [532, 7, 0, made.WORKED], ["err", "TooLarge"], LIMITS),
    ("read_sketch", [LIMIT, 4096, 2, made.WORKED], ["err", "ReadFault"], LIMITS),
    ("write_sketch", [7, "never", 0, 6, 1, 'a"b'], ["ok", made.sketch(6, 1, log='a"b')], SKETCH),
    ("write_sketch", [7, "never", 0, 3, 1, "g", digits(C2), digits(C1), digits(C2)], ["ok", made.sketch(3, 1, C1, C2)], SKETCH),
    ("write_sketch", [1, "refuses", 20, 3, 1, "g"], ["err", "WriteFault", 'CADF-SKETCH 1\nL "g"\n'[:19]], SINKS),
    ("write_sketch", [1, "takes-nothing", 534, 3, 1, "g", digits(C1)], ["ok", made.WORKED], SINKS),
    ("write_sketch", [1, "takes-nothing", 533, 3, 1, "g", digits(C1)], ["err", "WriteFault", made.WORKED[:-1]], SINKS),
]
ROWS += [("write_sketch", [7, "never", 0, count, 1, "g"], ["no cells"], SKETCH)
         for count in (0, 1, 4, 12582915, 2**32 + 2, 2**64 - 1)]
ROWS += [("write_sketch", [7, "never", 0, 3, salt, "g"], ["ok", made.EMPTY], COMMANDS) for salt in (0, 2, 2**64 - 2)]
ROWS += [("read_sketch", [LIMIT, 7, 0, data(text)], refused(fault), REFUSAL)
         for _, text, fault in made.FILES_REFUSED]

# The own atoms, a sketch, the sketched atoms, and what their site lacks: atoms with their carriers.
FOUND = [
    ([C1], made.WORKED, [C1], []),
    ([], made.WORKED, [C1], []),
    ([C1, C2], made.WORKED, [C1], [C2]),
    ([C1], made.EMPTY, [], [C1]),
    ([], made.EMPTY, [], []),
    ([C1, K1], made.WORKED, [C1], [C1, K1]),
    ([C1, K1], made.sketch(30, 5, C1, K1, CF), [C1, K1, CF], []),
    ([C1, K1], made.sketch(30, 5, C2, CF, KF), [C2, CF, KF], [C1, K1]),
    ([], made.sketch_with(6, 1, made.file_digest([digits(C1)]), [0] * 65, made.SHOWN_AGAIN), [C1], []),
]
for own, text, theirs, lacked in FOUND:
    found = sorted(map(digits, theirs))
    ROWS.append(("read_by", [*WHOLE, text, "g", *map(digits, own)], ["ok", "g", *found], READER))
    ROWS.append(("missing_by_sketch", [*WHOLE, text, "g", *own], ["ok", "g", *lacked], READER))

# The own atoms and a sketch by which they don't lead to the sketched ones.
TWO_APART = made.asked([], [digits(C1), digits(C2)])
FEW = [
    ([], made.sketch(3, 1, C1, C2), ["TooFewCells", TWO_APART]),
    ([C1], made.sketch(3, 1, C1, log="h"), ["OtherLog"]),
    ([C1], made.sketch_with(3, 1, made.file_digest([]), made.counts_of([digits(C1)]), [made.ONE] * 3), ["TooFewCells", 30]),
    ([], made.sketch_with(3, 1, made.file_digest([digits(C1)]), [0] + [2**64 - 1] * 64, [made.NONE] * 3), ["TooFewCells", 12582912]),
]
for own, text, fault in FEW:
    ROWS.append(("read_by", [*WHOLE, text, "g", *map(digits, own)], ["err", *fault], READER))
    ROWS.append(("missing_by_sketch", [*WHOLE, text, "g", *own], ["err", *fault], READER))
