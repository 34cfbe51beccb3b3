"""Rows of the driver of files: seals that are made, read and written, and proofs that are made and written.

Words: those of a reading or a writer; a seal's own are a number of facts, a log, the digests of these facts and those of
keys; a proof's own are a number of facts, a log, these facts and digests. The trees are worked out here, by the digits of
digests in base 2, as "Seal file" has them.
"""
import json
import os
from hashlib import sha256

from tests.tables.texts import C1, C2, CF, K1, KF, LIMIT, LIMITS, PIECES, SINKS, digits, line, refused

CALLS = {
    "seal": ["Seal::over", "Seal::log", "Seal::facts", "Seal::keys"],
    "root_of": ["Seal::over"],
    "read_seal": ["read_model"],
    "write_seal": ["write_model"],
    "proof": ["Proof::of", "Proof::log", "Proof::facts", "Proof::keys"],
    "write_proof": ["write_model"],
}

SEAL, PROOF, REFUSAL = "Seal file", "Proof file", "What is refused"
HEAD = 'CADF-SEAL 1\nL "g"\n'
OF_NOTHING = "f0c1e0b4cd1983b9c92909f8145cc102993e4c797489c0ba98639fd93056b82f"  # SHA-256 of 02, 8 times 00, and e3b0c442..7852b855


def hashed(*parts):
    return sha256(b"".join(parts)).hexdigest()


def halves(leaves):
    """Several leaves, divided at the first binary digit in which they differ."""
    spelled = {"{:0256b}".format(int(leaf, 16)): leaf for leaf in leaves}
    shared = os.path.commonprefix(list(spelled))
    return [[spelled[each] for each in sorted(spelled) if each.startswith(shared + bit)] for bit in "01"]


def tree_hash(leaves):
    """The hash of the tree of some leaves, in digits."""
    if len(leaves) < 2:
        return hashed(*(b"\x00" + bytes.fromhex(leaf) for leaf in leaves))
    return hashed(b"\x01", *(bytes.fromhex(tree_hash(half)) for half in halves(leaves)))


def root_at(count, hash_of_tree):
    return hashed(b"\x02", count.to_bytes(8, "big"), bytes.fromhex(hash_of_tree))


def root_of(digests):
    return root_at(len(set(digests)), tree_hash(sorted(set(digests))))


def closed(text):
    """The lines with their digest line."""
    return text + "Z %s\n" % sha256(text.encode()).hexdigest()


def key_of(atom):
    """The digits of the digest of an atom's key."""
    texts = json.loads(atom)
    return digits(line(*(texts[1:3] if texts[0] == "U" else texts[:2])))


def counted(digests):
    """The number of different digests, and their root."""
    different = set(digests)
    return len(different), root_of(different)


def seal_with(log, count, root, keys, keys_root):
    """A seal with these numbers and roots; the log is JSON."""
    return closed("CADF-SEAL 1\nL %s\nN %d\nR %s\nM %d\nS %s\n" % (log, count, root, keys, keys_root))


def seal(*atoms, log='"g"'):
    """The file of the seal of these atoms, which are lines."""
    return seal_with(log, *counted(map(digits, atoms)), *counted(map(key_of, atoms)))


def leaves_for(fact, leaves):
    """The leaves that a fact needs: its own, or those next to it."""
    if fact in leaves:
        return [fact]
    return [leaf for leaf in leaves if leaf < fact][-1:] + [leaf for leaf in leaves if leaf > fact][:1]


def parts_with(leaves, shown):
    """The tree's parts: each its letter, and its digits if it has some. `shown` has the letter of each leaf that is shown."""
    if not leaves:
        return []
    if not set(leaves) & set(shown):
        return [["H", tree_hash(leaves)]]
    if len(leaves) == 1:
        return [[shown[leaves[0]], *leaves]]
    return [["N"]] + [part for half in halves(leaves) for part in parts_with(half, shown)]


def parts(facts, digests):
    """What a proof for these facts has."""
    leaves = sorted(set(digests))
    return parts_with(leaves, {leaf: "P" for fact in facts for leaf in leaves_for(fact, leaves)})


def proof_with(parts, log='"g"'):
    """The file of a proof with these parts."""
    return closed("".join(text + "\n" for text in ["CADF-PROOF 1", "L " + log, *map(" ".join, parts)]))


def proof(facts, digests, log='"g"'):
    """The file of the proof for these facts."""
    return proof_with(parts(facts, digests), log)


def proved(facts, digests, log="g"):
    """The answer of the proof for these facts."""
    return ["ok", log, *(word for part in parts(facts, digests) for word in part)]


MANY = [sha256(b"%d" % number).hexdigest() for number in range(33)]
SETS = [[], [C1], [C1, K1], [CF, KF, C1], [line("P", "n", "1"), C2, C1, C2, line("U", "E", "e1", digits(C1))]]


def sealed(*atoms, log="g"):
    """The words of a seal of atoms, and its answer."""
    own, keys = list(map(digits, atoms)), list(map(key_of, atoms))
    return [len(own), log, *own, *keys], ["ok", log, *counted(own), *counted(keys)]


ROWS = [("seal", *sealed(*atoms), SEAL) for atoms in SETS]
ROWS += [
    ("seal", [2, "g", *MANY[:5]], ["ok", "g", *counted(MANY[:2]), *counted(MANY[2:5])], SEAL),
    ("seal", [1, "g", "x", MANY[0]], ["no inventory"], SEAL), ("seal", [1, "g", MANY[0], "x"], ["no inventory"], SEAL),
    ("root_of", ["x"], ["ok", OF_NOTHING], SEAL), ("root_of", ["g", "x"], ["no inventory"], SEAL),
]
# Leaves that differ in the first bit, in the last, and in one where a byte begins or ends; those of which one is 0 or greatest.
LOW, HIGH = 64 * "0", 64 * "f"
ODD = [[LOW], [HIGH], [LOW, HIGH], [LOW, LOW[1:] + "1"], [HIGH, HIGH[1:] + "e"], [LOW, "7" + HIGH[1:], "8" + LOW[1:], HIGH],
       ["%064x" % (1 << bit) for bit in (0, 7, 8, 9, 63, 64, 127, 128, 247, 248, 255)], ["%064x" % number for number in range(9)]]
ROWS += [("root_of", ["g", *leaves], ["ok", root_of(leaves)], SEAL) for leaves in ODD]
ROWS += [("root_of", ["g", *MANY[:size]], ["ok", root_of(MANY[:size])], SEAL) for size in (*range(10), 15, 16, 17, 31, 32, 33)]
for atoms in SETS:
    words, answer = sealed(*atoms)
    for size in PIECES:
        ROWS.append(("read_seal", [LIMIT, size, 0, seal(*atoms)], answer, SEAL))
        ROWS.append(("write_seal", [size, "never", 0, *words], ["ok", seal(*atoms)], SEAL))
OF_NONE = [0, OF_NOTHING]
ROWS += [
    ("write_seal", [7, "never", 0, 0, 'a"b'], ["ok", seal(log='"a\\"b"')], SEAL),
    ("write_seal", [7, "never", 0, 0, "g", "x"], ["no inventory"], SEAL),
    ("write_seal", [1, "refuses", 18, 0, "g"], ["err", "WriteFault", HEAD[:17]], SINKS),
    ("write_seal", [1, "takes-nothing", 19, 0, "g"], ["err", "WriteFault", HEAD], SINKS),
    # A seal need not be of any set.
    ("read_seal", [LIMIT, 7, 0, seal_with('"g"', 0, LOW, 7, LOW)], ["ok", "g", 0, LOW, 7, LOW], SEAL),
    ("read_seal", [LIMIT, 7, 0, seal_with('"g"', 2 ** 64 - 1, HIGH, *OF_NONE)], ["ok", "g", 2 ** 64 - 1, HIGH, *OF_NONE], SEAL),
    ("read_seal", [LIMIT, 7, 0, seal_with('"g"', *OF_NONE, 2 ** 64 - 1, HIGH)], ["ok", "g", *OF_NONE, 2 ** 64 - 1, HIGH], SEAL),
    ("read_seal", [227, 7, 0, seal()], sealed()[1], LIMITS),
    ("read_seal", [226, 7, 0, seal()], ["err", "TooLarge"], LIMITS),
    ("read_seal", [LIMIT, 4096, 2, seal()], ["err", "ReadFault"], LIMITS),
]

# Facts that are leaves and facts that are none, among trees of many sizes: the first leaf, the last, one in the middle,
# some, all; before all, behind all, behind the middle, two between the same leaves; and none at all.
BETWEEN = [sha256(b"no leaf %d" % number).hexdigest() for number in range(4)]


def fact_sets(digests):
    """Some sets of facts for the leaves."""
    leaves = sorted(set(digests))
    yield from ([], [LOW], [HIGH], [LOW, HIGH], BETWEEN[:1], BETWEEN)
    if leaves:
        middle = leaves[len(leaves) // 2]
        first, second = ("%064x" % min(int(middle, 16) + more, int(HIGH, 16)) for more in (1, 2))
        yield from ([leaves[0]], [leaves[-1]], [middle], [first], [first, second], [middle, first], leaves[::2], leaves)


for size in (*range(6), 7, 8, 9, 17):
    for facts in dict.fromkeys(map(tuple, fact_sets(MANY[:size]))):
        ROWS.append(("proof", [len(facts), "g", *facts, *MANY[:size]], proved(facts, MANY[:size]), PROOF))
for leaves in ODD:
    for facts in dict.fromkeys(map(tuple, fact_sets(leaves))):
        ROWS.append(("proof", [len(facts), "g", *facts, *leaves], proved(facts, leaves), PROOF))
for held in (list(map(digits, atoms)) for atoms in SETS):
    for facts in ([], [digits(C1)], [digits(K1), LOW]):
        ROWS += [
            ("write_proof", [size, "never", 0, len(facts), "g", *facts, *held], ["ok", proof(facts, held)], PROOF) for size in PIECES]
ROWS += [
    ("proof", [0, "g", "x"], ["no inventory"], PROOF), ("proof", [1, "g", "x"], ["no inventory"], PROOF),
    ("proof", [3, "g", LOW], proved([LOW], []), PROOF),
    ("write_proof", [7, "never", 0, 0, "g", "x"], ["no inventory"], PROOF),
    ("write_proof", [7, "never", 0, 1, 'a"b', LOW, *MANY[:5]], ["ok", proof([LOW], MANY[:5], log='"a\\"b"')], PROOF),
    ("write_proof", [1, "refuses", 19, 0, "g"], ["err", "WriteFault", 'CADF-PROOF 1\nL "g"'], SINKS),
    ("write_proof", [1, "takes-nothing", 20, 0, "g"], ["err", "WriteFault", 'CADF-PROOF 1\nL "g"\n'], SINKS),
]

# What is refused, and how.
COUNT, ROOT, KEYS, KEYS_ROOT = "N 0\n", "R %s\n" % OF_NOTHING, "M 0\n", "S %s\n" % OF_NOTHING
THREE, FOUR, FIVE, SIX = HEAD + COUNT, HEAD + COUNT + ROOT, HEAD + COUNT + ROOT + KEYS, HEAD + COUNT + ROOT + KEYS + KEYS_ROOT


def odd_counts(letter):
    """Lines that are nearly `N 0` or `M 0`."""
    return ["%s %s" % (letter, each) for each in ("00", "+1", "-1", "", " 0", "0 ", str(2 ** 64), "9" * 21)] + [letter.lower() + " 0", letter, "", "\t"]


def odd_roots(letter):
    """Lines that are nearly a root."""
    return ["%s %s" % (letter, each) for each in (OF_NOTHING.upper(), OF_NOTHING[1:], OF_NOTHING + "0", " " + OF_NOTHING, "g" + OF_NOTHING[1:], "")] + [
        letter + OF_NOTHING, OF_NOTHING, "", letter.lower() + " " + OF_NOTHING]


for front, number, lines in [
    (HEAD, 3, [*odd_counts("N"), ROOT[:-1], KEYS[:-1]]), (THREE, 4, [*odd_roots("R"), COUNT[:-1], KEYS_ROOT[:-1]]),
    (FOUR, 5, [*odd_counts("M"), COUNT[:-1], ROOT[:-1], KEYS_ROOT[:-1]]), (FIVE, 6, [*odd_roots("S"), ROOT[:-1], KEYS[:-1]]),
    (SIX, 7, [KEYS_ROOT[:-1], COUNT[:-1], ""]),
]:
    ROWS += [("read_seal", [LIMIT, 4096, 0, front + each + "\n"], refused("Line %d Shape" % number), REFUSAL) for each in lines]
for text, fault in [
    ("", "Truncated"), ("CADF-SEAL 2\n", "Version"), ("CADF-INVENTORY 1\n", "Version"), ("CADF-SEAL 1\nL g\n", "LogLine"),
    *((each, "Truncated") for each in (HEAD, THREE, FOUR, FIVE, SIX, seal()[:-1])),
    (HEAD.encode() + b"N \xff\n", "Line 3 Shape"), (FIVE.encode() + b"S \xff\n", "Line 6 Shape"),
    *((closed(each), "Line %d Unended" % number) for number, each in enumerate((HEAD, THREE, FOUR, FIVE), 2)),
    (HEAD + "Z\n", "Line 2 Unended"), (FIVE + "Z\n", "Line 5 Unended"),
    (SIX + "Z %s\n" % OF_NOTHING, "Digest"), (SIX + "Z\n", "Digest"), (seal() + "\n", "Trailing"),
]:
    ROWS += [("read_seal", [LIMIT, size, 0, text], refused(fault), REFUSAL) for size in PIECES]
