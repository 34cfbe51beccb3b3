"""Worked rows of sketches: what `sketch` writes, what `missing-by-sketch` answers, and which sketch files are refused.

    from sketch_rows import WRITTEN, REFUSED

Cells and numbers to ask for are worked out here byte by byte and bit by bit, from docs/FORMATS.md and by hashlib alone.
"""
from tests.tables.texts import C1, C2, CF, K1, KF, S1, S2, V1, V2, digits, document, inventory, lined, said, tree
from tests.tables.worked_files import (
    BODY_NODE, CHAINS_TREE, CONFLICT, CONFLICT_TREE, EVENT_FILE, EVENT_TREE, FRONT, K12, NOTHING, NOTHING_TREE, OTHER_CHAIN_NODES,
    OTHER_NODE, OTHER_TREE, RULED_TREE, RULING, RULING_TREE, SECOND_TREE, TAGGED, TAGGED_TREE, TWO, TWO_TREE,
)


def word_of(digest, number):
    return int.from_bytes(bytes.fromhex(digest)[8 * number:8 * number + 8], "big")


def with_check(digest):
    """The digits of a cell with that digest alone."""
    w0, w1, w2, w3 = (word_of(digest, number) for number in range(4))
    return "%s%016x" % (digest, (w0 * w1 + w2 * w3 + 1) % 2**64)


def places_of(digest, count, salt):
    size = count // 3
    return [size * table + (salt * word_of(digest, table) % 2**64 // 2**32) * size // 2**32 for table in range(3)]


def cells_with(count, salt, digests):
    """The digits of each cell: the XOR of all that belongs to it, byte by byte."""
    cells = [bytes(40)] * count
    for digest in digests:
        for place in places_of(digest, count, salt):
            cells[place] = bytes(a ^ b for a, b in zip(cells[place], bytes.fromhex(with_check(digest))))
    return [cell.hex() for cell in cells]


def counts_of(digests):
    """The numbers of line 4, by the digits of each bit."""
    bits = ["".join("%04d" % int(format(int(digit, 16), "b")) for digit in digest[:16]) for digest in digests]
    return [len(bits)] + [sum(one[place] == "1" for one in bits) for place in range(64)]


def asked(ours, theirs):
    """The number of cells to ask for, by the digests of both."""
    own, other = counts_of(ours), counts_of(theirs)
    squares = [(2 * (a - b) - (own[0] - other[0])) ** 2 for a, b in zip(own[1:], other[1:])]
    cells = 2 * (sum(squares) // 64) + 30
    return cells + -cells % 3


def file_digest(digests, log="g"):
    return inventory(*sorted(digests), log=log)[-65:-1]


def numbers(*values):
    return " ".join(map(str, values))


def sketch_with(count, salt, digest, counts, cells, log="g"):
    """A sketch file of these parts, whatever they are."""
    return lined("CADF-SKETCH 1", "S %s %s %s" % (count, salt, digest), "C " + numbers(*counts), *cells, log=log)


def sketch(count, salt, *atoms, log="g"):
    """The sketch file of the inventory of these lines of atoms."""
    digests = [digits(atom) for atom in atoms]
    return sketch_with(count, salt, file_digest(digests, log), counts_of(digests), cells_with(count, salt, digests), log)


def salt_of(*atoms):
    """The salt where none is given."""
    return int(file_digest([digits(atom) for atom in atoms])[:16], 16) | 1

EVENT_DIGEST, TWO_DIGESTS = digits(C1), [digits(C1), digits(C2)]
# The sketch that FORMATS shows, and that of nothing.
WORKED = (
    "CADF-SKETCH 1\n"
    'L "g"\n'
    "S 3 1 7afc6dd0e29577ee69251ab7e5e2b1764c19bf506d62218b9d7aca51f2b34a80\n"
    "C 1 1 1 1 0 0 0 1 1 1 1 0 0 0 1 1 1 1 1 0 0 0 1 0 0 1 0 1 1 1 0 0 0 0 0 1 0 0 0 0"
    " 1 1 1 1 1 1 0 1 1 1 0 1 0 0 1 1 1 1 0 1 0 1 1 1 0\n"
    + 3 * "e3c7c4b821fba7aefa60dc6e052a2a547b9a1778e825109f2261cd3246cb12f8bd40dbc37fc9d921\n"
    + "Z 9c00cb4b0dfbeb551a2f5f92af3ded188bbe5113c40c366b52002de3062ee2d7\n")
EMPTY = (
    "CADF-SKETCH 1\n"
    'L "g"\n'
    "S 3 16873295375025541461 ea29fcbebaa391558260d1200bd708d2cb8644ff710f6f8d74e1b43ae99b1d72\n"
    "C" + 65 * " 0" + "\n" + 3 * (80 * "0" + "\n")
    + "Z 928596dab455d47bc4b18c840caf09ebad9665d434db19995ccbb18c7980670e\n")
NONE, ONE = 80 * "0", with_check(EVENT_DIGEST)
# In a sketch of six cells under the salt 1 that digest belongs to the cells 1, 3 and 4.
OF_SIX = sketch_with(6, 1, file_digest([EVENT_DIGEST]), counts_of([EVENT_DIGEST]), [NONE, ONE, NONE, ONE, ONE, NONE])

# A call, its files, and what it writes.
SKETCHED = [
    ("the sketch that FORMATS shows", "sketch --cells 3 --salt 1", [EVENT_FILE], WORKED),
    ("the same of a file of format 2", "sketch --salt=1 --cells=3", [EVENT_TREE], WORKED),
    ("the same of a document", "sketch --salt 1 --cells=3", [document(V1)], WORKED),
    ("a sketch of nothing", "sketch --cells 3", [NOTHING], EMPTY),
    ("a sketch of six cells", "sketch --cells 6 --salt 1", [EVENT_TREE], OF_SIX),
    ("a sketch of nine cells", "sketch --cells 9 --salt 1", [CHAINS_TREE], sketch(9, 1, C1, K1, K12)),
    ("two digests that share their cells", "sketch --cells 3 --salt 18446744073709551615", [TWO], sketch(3, 2**64 - 1, C1, C2)),
    ("a sketch of a ruling", "sketch --cells 33 --salt 77", [RULED_TREE], sketch(33, 77, CF, KF, C1, K1, RULING)),
    ("a sketch without options", "sketch", [CONFLICT_TREE], sketch(198, salt_of(CF, KF, C1, K1), CF, KF, C1, K1)),
    ("a sketch with cells alone", "sketch --cells 300", [CONFLICT], sketch(300, salt_of(CF, KF, C1, K1), CF, KF, C1, K1)),
    ("a sketch with a salt alone", "sketch --salt 5", [CONFLICT], sketch(198, 5, CF, KF, C1, K1)),
    ("a sketch of two files", "sketch --cells 3 --salt 18446744073709551615", [EVENT_TREE, SECOND_TREE], sketch(3, 2**64 - 1, C1, C2)),
    ("a sketch of two documents", "sketch", [document(V2), document(V1)], sketch(198, salt_of(C1, C2), C1, C2)),
    ("a delta of two files", "missing-by-sketch {} --from {} {}", [EVENT_TREE, SECOND_TREE, sketch(6, 1, C1)], SECOND_TREE),
]

# How many cells a sender of C1, K1 and K12 asks for by a sketch of C2, CF and KF.
ASKED = asked([digits(C1), digits(K1), digits(K12)], [digits(C2), digits(CF), digits(KF)])

# The options of a sketch of a file that is refused too, and what is refused.
OPTIONS_REFUSED = [(options, "cells") for options in (
    "--cells 0", "--cells=", "--cells 4", "--cells 03", "--cells +3", "--cells=-3", "--cells 3.0", "--cells 2", "--cells 3x", "--cells 12582915",
    "--cells 18446744073709551619", "--cells x --salt 2", "--salt 2 --cells 1")]
OPTIONS_REFUSED += [(options, "salt") for options in (
    "--salt 0", "--salt=", "--salt 2", "--salt 01", "--salt=-1", "--salt +1", "--salt 1x", "--salt 0x1", "--salt 18446744073709551616",
    "--salt 18446744073709551617", "--cells 3 --salt 18446744073709551614")]

# Files FROM and SKETCH, and what is written.
ANSWERED = [
    ("nothing, by the sketch of the same", EVENT_TREE, WORKED, NOTHING_TREE),
    ("nothing of nothing, by a sketch of nothing", NOTHING, EMPTY, NOTHING_TREE),
    ("all, by a sketch of nothing", EVENT_FILE, EMPTY, EVENT_TREE),
    ("nothing of nothing, by a sketch", NOTHING_TREE, WORKED, NOTHING_TREE),
    ("a second event", TWO_TREE, WORKED, SECOND_TREE),
    ("a second event of a document", document(V1, V1.replace('"e1"', '"e2"')), WORKED, SECOND_TREE),
    ("nothing, where the sender lacks an event", EVENT_TREE, sketch(6, 1, C1, C2), NOTHING_TREE),
    ("a chain with its body, which is there", CHAINS_TREE, sketch(30, 3, C1, K1),
     tree(*FRONT, BODY_NODE, (4, 0, "C"), (5, 0, S1), (6, 1, S2))),
    ("a tag with its body, and a chain the other way", TAGGED, sketch(30, 5, C1, K1, K12), TAGGED_TREE),
    ("a second body by a sketch", CONFLICT_TREE, sketch(30, 5, C1, K1), OTHER_TREE),
    ("a chain that is there without its carrier", CONFLICT, sketch(60, 5, K1),
     tree(*FRONT, OTHER_NODE, *OTHER_CHAIN_NODES, BODY_NODE)),
    ("a ruling by a sketch", RULED_TREE, sketch(9, 11, CF, KF, C1, K1), RULING_TREE),
    ("as many cells as a refusal says, and another salt", CHAINS_TREE, sketch(ASKED, 9, C2, CF, KF), CHAINS_TREE),
    # Whatever the counts are, the digest decides.
    ("counts that are wrong", EVENT_TREE, sketch_with(3, 1, file_digest([EVENT_DIGEST]), [2**64 - 1] * 65, [ONE] * 3),
     NOTHING_TREE),
]

# What is answered is right whatever the cells are, since the digest decides.
# The cells 4 and 0 of six have a digest that the other two of its cells lack, so it is shown again and again. The last cell
# is looked at first: the digest of C1 is noted six times, and that of K1, which the cell 0 shows, never.
SHOWN_AGAIN = [with_check(digits(K1)), NONE, NONE, NONE, ONE, NONE]
MISLEADING = [
    ("a digest that is shown again and again", NOTHING,
     sketch_with(6, 1, file_digest([EVENT_DIGEST]), [0] * 65, SHOWN_AGAIN), NOTHING_TREE),
    ("the same at a sender that has it", EVENT_TREE, sketch_with(6, 1, file_digest([]), [0] * 65, [
        NONE, ONE, NONE, ONE, NONE, NONE]), EVENT_TREE),
    ("a cell of a digest that isn't sketched, and the digest of nothing", EVENT_TREE,
     sketch_with(3, 1, file_digest([]), [0] * 65, [NONE] * 2 + [ONE]), EVENT_TREE),
]

# Files FROM and SKETCH, and what is refused.
SKETCHES_REFUSED = [
    ("too few cells", CHAINS_TREE, sketch(3, 1, C2, CF, KF), "input 2: too few cells: ask for %d" % ASKED),
    ("two digests that share their cells", NOTHING, sketch(3, 1, C1, C2),
     "input 2: too few cells: ask for %d" % asked([], TWO_DIGESTS)),
    ("another digest", EVENT_TREE, sketch_with(3, 1, file_digest([]), counts_of([EVENT_DIGEST]), [ONE] * 3),
     "input 2: too few cells: ask for 30"),
    ("a cell of a digest that isn't sketched", EVENT_TREE,
     sketch_with(3, 1, file_digest([digits(C2)]), [0] * 65, [NONE] * 2 + [ONE]),
     "input 2: too few cells: ask for %d" % asked([EVENT_DIGEST], [])),
    ("a check of nothing", EVENT_TREE, sketch_with(3, 1, file_digest([]), [0] * 65, [64 * "0" + 15 * "0" + "1"] * 3),
     "input 2: too few cells: ask for %d" % asked([EVENT_DIGEST], [])),
    ("the digest that isn't noted", NOTHING, sketch_with(6, 1, file_digest([EVENT_DIGEST, digits(K1)]), [0] * 65, SHOWN_AGAIN),
     "input 2: too few cells: ask for 30"),
    ("the greatest counts", NOTHING, sketch_with(3, 1, file_digest([EVENT_DIGEST]), [0] + [2**64 - 1] * 64, [NONE] * 3),
     "input 2: too few cells: ask for 12582912"),
    ("a sketch of another log, with too few cells", CHAINS_TREE, sketch(3, 1, C2, CF, KF, log="h"), "input 2: other log"),
    ("an event by itself, before another log", V1, sketch(3, 1, log="h"), "no log named"),
    ("a sketch that is refused, before an event by itself", V1, sketch(3, 1).replace("Z ", "Z  "), "input 2: digest"),
    ("both files", "{", "CADF-SKETCH 2\n", "input 1: not JSON"),
    ("an inventory as sketch", EVENT_TREE, inventory(EVENT_DIGEST), "input 2: version"),
    ("a replica file as sketch", EVENT_TREE, EVENT_FILE, "input 2: version"),
    ("a document as sketch", EVENT_TREE, document(V1), "input 2: truncated"),
    ("no byte as sketch", EVENT_TREE, "", "input 2: truncated"),
    ("a sketch as FROM", WORKED, WORKED, "input 1: version"),
]

# A call, its files, and what is refused: sketches where another file is asked for, and files that can't be sketched.
OF_FILES_REFUSED = [
    ("a sketch as inventory", "missing-by", [EVENT_TREE, WORKED], "input 2: version"),
    ("a sketch as input", "check", [WORKED], "input 1: version"),
    ("a sketch of a sketch", "sketch", [WORKED], "input 1: version"),
    ("a sketch of an inventory", "sketch", [inventory()], "input 1: version"),
    ("a sketch as a site's file", "missing", [EVENT_TREE, WORKED], "input 2: version"),
    ("a sketch of an event by itself", "sketch", [V1], "no log named"),
    ("a sketch of what is no JSON", "sketch --cells 3 --salt 1", ["{"], "input 1: not JSON"),
    ("too few cells for two files", "missing-by-sketch {} --from {} {}", [CHAINS_TREE, EVENT_FILE, sketch(3, 1, C2, CF, KF)],
     "input 3: too few cells: ask for %d" % ASKED),
    ("a sketch of another log than two files", "missing-by-sketch {} --from {} {}", [V1, EVENT_TREE, sketch(3, 1, log="h")], "input 3: other log"),
    ("another log, before a sketch's", "missing-by-sketch {} --from {} {}", [EVENT_TREE, '{"id":"h","events":[]}', sketch(3, 1, log="h")],
     "input 2: other log"),
]

S_LINE, C_LINE = WORKED.split("\n")[2:4]
DIGEST = S_LINE.split()[-1]
LEAST_CELLS = [ONE] * 3


def of_lines(*lines):
    return lined("CADF-SKETCH 1", *lines)


def with_line(number, text):
    """The sketch that FORMATS shows with another line of that number, and the digest line that it had before."""
    lines = WORKED.split("\n")
    return "\n".join(lines[:number - 1] + [text] + lines[number:])

# Sketch files, and what is refused of them.
FILES_REFUSED = [
    ("another version", WORKED.replace("SKETCH 1", "SKETCH 2"), "Version"),
    ("a carriage return", WORKED.replace("SKETCH 1", "SKETCH 1\r"), "Version"),
    ("a log that is no text", WORKED.replace('L "g"', "L g"), "LogLine"),
    ("no log", of_lines(S_LINE, C_LINE, *LEAST_CELLS).replace('L "g"\n', ""), "LogLine"),
    ("no line 3", of_lines(), "Line 2 Unended"),
    ("no line 4", of_lines(S_LINE), "Line 3 Unended"),
    ("no cell", of_lines(S_LINE, C_LINE), "Line 4 Unended"),
    ("a missing cell", of_lines(S_LINE, C_LINE, *LEAST_CELLS[1:]), "Line 6 Unended"),
    ("a missing cell before a wrong digest", of_lines(S_LINE, C_LINE, *LEAST_CELLS[1:]).replace("Z ", "Z"), "Line 6 Unended"),
    ("a line that begins with Z in place of a cell", of_lines(S_LINE, C_LINE, *LEAST_CELLS[1:], "Z" + ONE[1:]),
     "Line 6 Unended"),
    ("the greatest number of cells, and three", of_lines(S_LINE.replace("S 3", "S 12582912"), C_LINE, *LEAST_CELLS),
     "Line 7 Unended"),
    ("one cell too many", of_lines(S_LINE, C_LINE, *LEAST_CELLS, ONE), "Line 8 Shape"),
    ("an empty line behind the cells", of_lines(S_LINE, C_LINE, *LEAST_CELLS, ""), "Line 8 Shape"),
    ("line 4 before line 3", of_lines(C_LINE, S_LINE, *LEAST_CELLS), "Line 3 Shape"),
    ("line 3 twice", of_lines(S_LINE, S_LINE, C_LINE, *LEAST_CELLS), "Line 4 Shape"),
    ("a cell in place of line 4", of_lines(S_LINE, *LEAST_CELLS), "Line 4 Shape"),
    ("cells left out between the last bytes", WORKED[:-1], "Truncated"),
    ("no digest line", WORKED.split("Z ")[0], "Truncated"),
    ("a piece of a cell at the end", WORKED.split("Z ")[0][:-2], "Truncated"),
    ("a wrong digest", WORKED.replace("Z 9", "Z 8"), "Digest"),
    ("a further byte", WORKED + "\n", "Trailing"),
]
FILES_REFUSED += [("line 3 as %r" % one, with_line(3, one), "Line 3 Shape") for one in (
    "", "S", "S ", "S 3 1", "S 3 1 ", "S 0 1 " + DIGEST, "S 1 1 " + DIGEST, "S 4 1 " + DIGEST, "S 03 1 " + DIGEST,
    "S +3 1 " + DIGEST,
    "S 12582915 1 " + DIGEST, "S 18446744073709551618 1 " + DIGEST, "S 3 0 " + DIGEST, "S 3 2 " + DIGEST, "S 3 01 " + DIGEST,
    "S 3 18446744073709551617 " + DIGEST, "S 3 18446744073709551616 " + DIGEST, "S 3 1 " + DIGEST[1:],
    "S 3 1 " + DIGEST.upper(),
    "S 3 1 %s0" % DIGEST, "S 3 1 %s " % DIGEST, "S  3 1 " + DIGEST, "S 3  1 " + DIGEST, "S 3 1  " + DIGEST, "s 3 1 " + DIGEST,
    "S 3 1 " + DIGEST + "\r", "S 3 \udcff " + DIGEST, "S 3 \u0661 " + DIGEST, "S -3 1 " + DIGEST, "S 3 -1 " + DIGEST)]
FILES_REFUSED += [("line 4 as %.40r" % one, with_line(4, one), "Line 4 Shape") for one in (
    "", "C", C_LINE[:-2], C_LINE + " 0", C_LINE + " ", C_LINE[2:], "C" + C_LINE, C_LINE.replace("C 1", "C 01"),
    C_LINE.replace("C 1", "C  1"),
    C_LINE.replace("C 1", "C -1"), C_LINE.replace("C 1", "C x"), "C" + " 18446744073709551616" * 65,
    C_LINE[:-1] + "18446744073709551616",
    C_LINE[:-1] + "00", C_LINE.lower())]
FILES_REFUSED += [("a cell as %.40r" % one, with_line(6, one), "Line 6 Shape") for one in (
    "", ONE[1:], ONE + "0", ONE.upper(), ONE[:-1] + "g", ONE[:-1] + " ", ONE[:-1] + "\r", " " + ONE,
    ONE[:-1] + "\udcff", "0", EVENT_DIGEST)]

WRITTEN = SKETCHED + [(name, "missing-by-sketch", [source, sketch], output) for name, source, sketch, output in ANSWERED + MISLEADING]
REFUSED = [("sketch " + options, "sketch " + options, ["{"], what) for options, what in OPTIONS_REFUSED]
REFUSED += [(name, "missing-by-sketch", [source, sketch], what) for name, source, sketch, what in SKETCHES_REFUSED]
REFUSED += [(name, "missing-by-sketch", [NOTHING, sketch], "input 2: " + said(fault)) for name, sketch, fault in FILES_REFUSED] + OF_FILES_REFUSED
