"""Rows of the driver of files: proof files that are read, and facts that are verified.

Words: those of a reading, and a file. The answer has the log, and each part's letter, with its digits if it has some. Of
facts that are verified: a reading, the files of a seal and of a proof, whether they are asked to be `present` or
`absent`, a log, and the facts' lines, each behind its carrier.
"""
import json

from tests.tables.seal_rows import HIGH, LOW, OF_NONE, closed, hashed, proof, proof_with, root_at, seal, seal_with
from tests.tables.texts import B1, LIMIT, LIMITS, PIECES, digits, line, quoted, refused

CALLS = {"read_proof": ["read_model", "Proof::log", "Proof::facts", "Proof::keys"], "verified": ["verified", "FactLines::write"]}

PROOF = "Proof file"
SHOWN = 'CADF-PROOF 1\nL "g"\n'
WORKED = """\
N
N
N
H dfc01fd8fb91b46bf29fa6cd39a1c91836e48d7aae50bf9198c9bf90676b6e4c
N
P 2cf902e6e933a458074c028206f3ea5d2d7a0618d7eed33a4d65387563669cae
H 3e748a1479ed2de9ad9e183ee289038994955a786de4d7a7b16034a33dd67aed
H 330bd9ad75bd503dde544ee4c0cec3442914e1208bacc1e785615045bd1892b1
N
P c2c3d062e8bad763303e5ef13526e8618e4e95e32ccf457202b484b9803a1f5f
P e8b59c4ae53f1b30b392ba6c3de0b3e0a2fe3e26dc1b6940df9ef3df639934c4
Z 3381e8d1fd1b21844d50453baeca1c6d44c2bf8df131da6618ba6460bb530e2f
"""
READ = ["ok", "g", *" ".join(WORKED.splitlines()[:-1]).split()]


def lines(*rest):
    """Lines after the log line, each with its line feed."""
    return SHOWN + "".join(line + "\n" for line in rest)


ROWS = [("read_proof", [LIMIT, size, 0, SHOWN + WORKED], READ, PROOF) for size in PIECES]
# The parts need not be those of a tree, nor of any set.
for rest in [
    [], ["H " + LOW], ["P " + LOW], ["A " + LOW], ["G " + LOW], ["K"], ["N"], ["N", "N", "K", "N", "N"], ["H " + HIGH, "H " + LOW, "H " + LOW],
    ["P " + HIGH, "P " + LOW, "P " + LOW, "N"], ["N", "A " + LOW, "N", "G " + HIGH, "P " + LOW, "K", "N", "A " + HIGH, "H " + LOW, "G " + LOW, "P " + LOW],
]:
    ROWS += [("read_proof", [LIMIT, size, 0, closed(lines(*rest))], ["ok", "g", *" ".join(rest).split()], PROOF) for size in PIECES]
ROWS += [
    ("read_proof", [LIMIT, 7, 0, closed('CADF-PROOF 1\nL "a\\"b"\n')], ["ok", 'a"b'], PROOF),
    ("read_proof", [len(SHOWN + WORKED), 7, 0, SHOWN + WORKED], READ, LIMITS),
    ("read_proof", [len(SHOWN + WORKED) - 1, 7, 0, SHOWN + WORKED], ["err", "TooLarge"], LIMITS),
    ("read_proof", [LIMIT, 4096, 2, SHOWN + WORKED], ["err", "ReadFault"], LIMITS),
]
for each in [
    "", "n", "NN", "N ", " N", "N N", "N 1", "N " + LOW, "k", "KK", "K ", " K", "K " + LOW, "L " + LOW, "R " + LOW, LOW, "P 0 " + LOW, "h " + LOW, "\t",
    *(letter + rest for letter in "HPAG" for rest in ("", " ", LOW, "  " + LOW, " " + LOW + "0", " " + LOW[1:], " " + LOW + " ", " " + HIGH.upper(), " g" + LOW[1:])),
]:
    ROWS += [("read_proof", [LIMIT, 4096, 0, lines(each)], refused("Line 3 Shape"), PROOF),
             ("read_proof", [LIMIT, 4096, 0, lines("N", "H " + LOW, each)], refused("Line 5 Shape"), PROOF),
             ("read_proof", [LIMIT, 4096, 0, lines("K", each)], refused("Line 4 Shape"), PROOF)]
for text, fault in [
    ("", "Truncated"), ("CADF-PROOF 2\n", "Version"), (seal(), "Version"), ("CADF-PROOF 1\nL g\n", "LogLine"), (SHOWN, "Truncated"),
    (lines("N"), "Truncated"), (lines("P " + LOW), "Truncated"), (lines("K"), "Truncated"), (closed(SHOWN)[:-1], "Truncated"),
    (SHOWN.encode() + b"P \xff" + LOW[1:].encode() + b"\n", "Line 3 Shape"), (SHOWN.encode() + b"\xff\n", "Line 3 Shape"),
    (lines("K", "K"), "Line 4 Shape"), (lines("N", "K", "H " + LOW, "N", "K"), "Line 7 Shape"),
    (lines("Z"), "Digest"), (lines("N", "Z " + LOW), "Digest"), (lines("K", "Z" + LOW), "Digest"),
    (closed(lines("N")) + "\n", "Trailing"), (closed(lines("K")) + "K", "Trailing"),
]:
    ROWS += [("read_proof", [LIMIT, size, 0, text], refused(fault), PROOF) for size in (1, 4096)]


# ---- What a proof says of facts: "What a proof says to its reader"

SAYS = "What a proof says to its reader"
P = [line("P", "p%d" % number, str(number)) for number in range(1, 10)]
SEALED = P[:8]
ASKED, OF_P1 = proof([digits(P[0]), digits(P[8])], map(digits, SEALED)), proof([digits(P[0])], map(digits, SEALED))
RULED, EVENT = line("U", "P", "p1", "0" * 64), line("E", "e1", B1)
# Facts of one key, of which two keys have several, and the key and the ruling that come next are spelled alike.
OF_KEYS = [EVENT, line("E", "e1", B1, "T", "x"), line("E", "e1", B1, "T", "y"), line("E", "e2", B1), line("P", 'e"\\', "1"), line("P", 'e"\\', "2"),
           line("U", "E", "e2", "0" * 64), RULED, line("U", "P", "p1", "1" * 64)]


def honest(facts, atoms):
    """The seal of atoms, and the proof for facts."""
    return seal(*atoms), proof(list(map(digits, facts)), list(map(digits, atoms)))


def told(word, facts):
    """What is written of facts."""
    texts = [json.loads(fact) for fact in facts]
    return "".join("%s %s %s %s\n" % (word, each[0], quoted(each[2 if each[0] == "U" else 1]), digits(fact)) for fact, each in zip(facts, texts))


# Trees, also those of no set. A node is a pair of trees, and another part is its line.

def preorder(tree):
    return [["N"], *preorder(tree[0]), *preorder(tree[1])] if isinstance(tree, tuple) else [[tree]]


def hash_by(tree):
    if isinstance(tree, tuple):
        return hashed(b"\x01", *(bytes.fromhex(hash_by(half)) for half in tree))
    letter, held = tree.split()
    return held if letter == "H" else hashed(b"\x00", bytes.fromhex(held))


def sealed(count, tree):
    return seal_with('"g"', count, root_at(count, hash_by(tree)), *OF_NONE)


def made(count, tree, shown=None):
    """The seal of so many leaves and of a tree, and a proof with the same tree, or with another one."""
    return sealed(count, tree), proof_with(preorder(shown or tree))


def listed(count, tree, *lines):
    """The seal, and a proof with these lines."""
    return sealed(count, tree), proof_with([[each] for each in lines])


def below(nodes):
    """A tree with so many nodes above one leaf."""
    return (below(nodes - 1), HID) if nodes else ONE


HID = "H " + 64 * "7"
SECOND, THIRD, FIRST = P[0], P[2], P[3]  # by their digests
D1, D2, D3 = map(digits, (FIRST, SECOND, THIRD))
ONE, TWO, THREE, LEAST, MOST = ("P " + each for each in (D1, D2, D3, LOW, HIGH))
AROUND = tuple("P %064x" % (int(D2, 16) + more) for more in (-1, 1))
PAIR, EMPTY = (ONE, TWO), (seal(), proof_with([]))
CAME, WENT, STAYED = "A " + D1, "G " + D1, "H " + hash_by(ONE)  # three leaves that are hashed alike
KEYS_OF_ONE = seal_with('"g"', 1, LOW, 1, root_at(1, hash_by(ONE)))

# A seal and a proof, how facts are asked to be, and facts, in the order of atoms: they are so.
RIGHT = [
    *((*honest(P[:size], SEALED), "present", P[:size]) for size in range(1, 9)), (*honest(P[8:], SEALED), "absent", P[8:]),
    (*honest(P, []), "absent", P), (*honest([EVENT, RULED], [RULED, EVENT]), "present", [EVENT, RULED]), (*honest(OF_KEYS, P), "absent", OF_KEYS),
    # Of no set, the deepest tree, and the greatest number of leaves.
    (*made(1, ONE), "present", [FIRST]), (*made(257, below(256)), "present", [FIRST]), (*made(512, (below(255), below(255))), "present", [FIRST]),
    (*made(2 ** 64 - 1, (ONE, HID)), "present", [FIRST]),
    # Leaves need not rise where something hidden is between them. What is a leaf, and would be between two others, is there.
    (*made(3, (TWO, (HID, ONE))), "present", [SECOND, FIRST]), (*made(3, (TWO, (HID, TWO))), "present", [SECOND]),
    (*made(4, (ONE, (HID, (LEAST, MOST)))), "present", [FIRST]),
    (*made(2, (MOST, HID)), "absent", [FIRST]), (*made(2, (HID, LEAST)), "absent", [FIRST]), (*made(1, MOST), "absent", [FIRST]),
    (*made(4, ((HID, LEAST), (MOST, HID))), "absent", [SECOND, FIRST]), (*made(4, (HID, ((ONE, THREE), HID))), "absent", [SECOND]),
]
# The same, and why it is refused: a later refusal may be due too.
WRONG = [
    (*made(0, ONE), "present", [FIRST], "OtherCount"), (*made(2, ONE), "present", [FIRST], "OtherCount"), (*made(2 ** 64 - 1, ONE), "present", [FIRST], "OtherCount"),
    (*made(1, (ONE, HID)), "present", [FIRST], "OtherCount"), (*made(2, (ONE, (HID, HID))), "present", [FIRST], "OtherCount"),
    (*made(0, HID), "absent", [FIRST], "OtherCount"), (*listed(1, ONE), "absent", [FIRST], "OtherCount"), (*listed(1, ONE, "N"), "present", [FIRST], "OtherCount"),
    *((*made(count, (ONE, letter + HIGH)), "present", [FIRST], "OtherCount") for count in (1, 2) for letter in ("A ", "G ")),
    *((*made(4, (ONE, (HID, letter + HIGH))), "present", [FIRST], "OtherCount") for letter in ("A ", "G ")),
    (*listed(2, PAIR, ONE, "K", TWO), "present", [SECOND, FIRST], "OtherCount"), (*listed(2, (ONE, HID), "N", ONE, "K", HID), "present", [FIRST], "OtherCount"),
    (*listed(1, ONE, ONE, TWO), "present", [FIRST], "OtherCount"), (seal(P[0]), OF_P1, "present", P[:1], "OtherCount"),
    (*listed(0, "H " + hashed(), "N"), "absent", [FIRST], "NoTree"), (*listed(1, ONE, "N", ONE), "present", [FIRST], "NoTree"),
    (*listed(1, ONE, ONE, "N"), "present", [FIRST], "NoTree"), (*listed(2, PAIR, ONE, TWO), "present", [SECOND, FIRST], "NoTree"),
    (*listed(2, PAIR, ONE, "N", TWO), "present", [SECOND, FIRST], "NoTree"), (*listed(2, PAIR, ONE, TWO, "N"), "present", [SECOND, FIRST], "NoTree"),
    (*listed(3, (ONE, HID), "N", ONE, HID, HID), "present", [FIRST], "NoTree"), (*listed(1, ONE, "N", ONE, "K", HID), "present", [FIRST], "NoTree"),
    (*made(258, below(257)), "present", [FIRST], "NoTree"), (*made(258, (HID, below(256))), "present", [FIRST], "NoTree"),
    (*made(1, TWO, ONE), "present", [FIRST], "OtherRoot"), (*made(2, (TWO, ONE), PAIR), "present", [SECOND, FIRST], "OtherRoot"),
    (*made(2, PAIR, (TWO, ONE)), "present", [FIRST], "OtherRoot"), (seal(*SEALED[:7], P[8]), OF_P1, "present", P[:1], "OtherRoot"),
    # A root with another number of leaves, or without any; the root of keys.
    (seal_with('"g"', 4, root_at(3, hash_by((ONE, HID))), *OF_NONE), proof_with(preorder((ONE, HID))), "present", [FIRST], "OtherRoot"),
    (seal_with('"g"', 1, hash_by(ONE), *OF_NONE), proof_with([[ONE]]), "present", [FIRST], "OtherRoot"),
    (seal_with('"g"', 0, hashed(), *OF_NONE), proof_with([]), "absent", [FIRST], "OtherRoot"), (KEYS_OF_ONE, proof_with([[ONE]]), "present", [FIRST], "OtherRoot"),
    # A root has to be that without what came, and that without what went.
    *((*made(1, each, (CAME, "G " + D2)), "present", [FIRST], "OtherRoot") for each in (ONE, TWO)),
    (*made(2, PAIR, (("A " + D1, "G " + D2), HID)), "present", [FIRST], "OtherRoot"),
    (*made(2, (TWO, ONE)), "present", [SECOND, FIRST], "Order"), (*made(2, (ONE, ONE)), "present", [FIRST], "Order"),
    (*made(5, (((ONE, HID), THREE), (TWO, HID))), "present", [SECOND, THIRD, FIRST], "Order"), (*made(1, ONE, (CAME, WENT)), "present", [FIRST], "Order"),
    (*made(4, ((ONE, ONE), (MOST, MOST)), (((CAME, STAYED), WENT), (MOST, MOST))), "present", [FIRST], "Order"),
    *((*made(2, (ONE, ONE), tree), word, [FIRST], "NeighbourHidden") for word in ("present", "absent")
      for tree in (((CAME, STAYED), WENT), (CAME, (STAYED, WENT)), ((WENT, STAYED), CAME), (WENT, (STAYED, CAME)))),
    # Both halves of a node that are hidden, a leaf beside those that are needed, and a tree of keys.
    (*made(3, (ONE, (HID, HID))), "present", [FIRST], "NotNeeded"), (*made(3, ((HID, HID), ONE)), "present", [FIRST], "NotNeeded"),
    (*made(2, (HID, HID)), "absent", [FIRST], "NotNeeded"), (*made(2, PAIR), "present", [FIRST], "NotNeeded"), (*made(2, PAIR), "present", [SECOND], "NotNeeded"),
    (*made(3, (ONE, (HID, TWO))), "present", [SECOND], "NotNeeded"), (*made(2, (LEAST, HID)), "absent", [FIRST], "NotNeeded"),
    (*made(2, (HID, MOST)), "absent", [FIRST], "NotNeeded"), (*made(3, (LEAST, (ONE, THREE))), "absent", [SECOND], "NotNeeded"),
    (*made(3, (ONE, (THREE, MOST))), "absent", [SECOND], "NotNeeded"), (*made(3, ((ONE, HID), THREE)), "absent", [SECOND], "NotNeeded"),
    (*made(2, (LEAST, ONE)), "absent", [SECOND], "NotNeeded"), (*made(2, (THREE, MOST)), "absent", [SECOND], "NotNeeded"),
    (*listed(1, ONE, ONE, "K"), "present", [FIRST], "NotNeeded"), (*listed(1, ONE, ONE, "K", TWO, "N"), "present", [FIRST], "NotNeeded"),
    (EMPTY[0], proof_with([["K"]]), "absent", [FIRST], "NotNeeded"), (EMPTY[0], proof_with([["K"], [ONE]]), "present", [FIRST], "NotNeeded"),
    (seal(*SEALED), ASKED, "present", P[:1], "NotNeeded"), (seal(*SEALED), ASKED, "absent", P[8:], "NotNeeded"), (seal(*SEALED), OF_P1, "present", P[1:2], "NotNeeded"),
    (*made(9, HID), "absent", [SECOND, FIRST], "NotShown 1"), (*made(2, (HID, TWO)), "present", [SECOND, FIRST], "NotShown 2"),
    (*made(2, (TWO, HID)), "present", [SECOND, THIRD], "NotShown 2"), (*made(2, (HID, TWO)), "absent", [SECOND, FIRST], "Present 1"),
    *((*made(3, (HID, AROUND)), word, [SECOND, FIRST], fault) for word, fault in (("present", "Absent 1"), ("absent", "NotShown 2"))),
    (*made(4, (HID, (AROUND, HID))), "present", [SECOND, THIRD], "Absent 1"), (seal(*SEALED), OF_P1, "present", [P[0], P[8]], "NotShown 2"),
    (*EMPTY, "present", [FIRST], "Absent 1"), (*made(2, (TWO, HID)), "present", [SECOND, FIRST], "Absent 2"), (*made(2, (MOST, HID)), "present", [SECOND, FIRST], "Absent 1"),
    (*made(1, ONE), "absent", [FIRST], "Present 1"), (*made(2, (TWO, HID)), "absent", [SECOND, FIRST], "Present 1"),
    (*made(4, (ONE, (HID, (LEAST, MOST)))), "absent", [FIRST], "Present 1"), (*made(4, (TWO, (HID, AROUND))), "absent", [SECOND], "Present 1"),
    (*honest([P[0], P[8]], SEALED), "present", [P[0], P[8]], "Absent 2"), (*honest([P[0], P[8]], SEALED), "absent", [P[0], P[8]], "Present 1"),
    (*honest(P[:2], SEALED), "absent", P[:2], "Present 1"),
]


def words_of(fault):
    """The words of a fault of a fact by its number, or of the proof."""
    name, *number = fault.split()
    return [name, "Fact", *number] if number else ["Proof", name]


def verified(seal, proof, word, facts, answer, size=4096):
    return "verified", [LIMIT, size, 0, seal, proof, word, "g", *facts], answer, SAYS


ROWS += [verified(seal, proof, word, facts, ["ok", told(word, facts)]) for seal, proof, word, facts in RIGHT]
# Each fact has its line, also those of one key. They are written in pieces.
ROWS += [verified(*honest(OF_KEYS, OF_KEYS), "present", OF_KEYS, ["ok", told("present", OF_KEYS)], size) for size in PIECES]
ROWS += [verified(seal, proof, word, facts, ["err", *words_of(fault)]) for seal, proof, word, facts, fault in WRONG]
ROWS += [verified(*honest([], SEALED), word, [], ["ok", ""]) for word in ("present", "absent")]
ROWS += [verified(*EMPTY, "absent", [], ["ok", ""]), verified(*made(1, ONE), "present", [], ["err", *words_of("NotNeeded")])]
