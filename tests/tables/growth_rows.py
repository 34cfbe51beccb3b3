"""Worked rows of lists of facts and keys, of proofs of growth, and of what is left out.

    from growth_rows import WRITTEN, REFUSED

The files stand behind the command's words, or for its `{}` in turn.
"""
import itertools

from tests.tables.document_rows import FAILED, ONE
from tests.tables.proof_rows import P, hash_by, preorder
from tests.tables.seal_rows import HIGH, LOW, OF_NOTHING, key_of, parts_with, proof, proof_with, root_at, seal, seal_with
from tests.tables.texts import B1, C1, C2, CF, K1, KF, V1, V2, digits, document, inventory, line, lined, replica, tree
from tests.tables.worked_files import (
    CHAINS_TREE, CONFLICT, CONFLICT_TREE, EVENT_FILE, EVENT_TREE, NAMED_TREE, NAMES, NOTHING, NOTHING_TREE, RULED_TREE, RULING, RULING_TREE,
    SECOND_TREE, STORAGE, TAGGED_TREE, TWICE_RULED_TREE, TWO, TWO_TREE,
)

FACT, KEY = "F ", "K "


# ---- What is made

def listed(first, facts, keys, log="g"):
    """A list with these digits of facts and of keys, in any order."""
    return lined(first, *sorted({FACT + each for each in facts} | {KEY + each for each in keys}), log=log)


def sealed(*atoms, log="g"):
    """The sealed list of atoms, which are lines."""
    return listed("CADF-SEALED 1", map(digits, atoms), map(key_of, atoms), log)


def erased(*facts, keys=(), log="g"):
    """The erased list of facts, which are lines, and of the keys of others."""
    return listed("CADF-ERASED 1", map(digits, facts), map(key_of, keys), log)


def letter_of(leaf, earlier, later):
    return "P" if leaf in earlier and leaf in later else "A" if leaf in later else "G"


def changed_parts(earlier, later):
    """The parts of the tree of the leaves of both: what only one of them has is shown, and what stands beside it."""
    leaves = sorted({*earlier, *later})
    changed = [leaf for leaf in leaves if letter_of(leaf, earlier, later) != "P"]
    places = {leaves.index(leaf) + step for leaf in changed for step in (-1, 0, 1)} & set(range(len(leaves)))
    return parts_with(leaves, {leaves[place]: letter_of(leaves[place], earlier, later) for place in places})


def growth(earlier, later, log='"g"'):
    """The file of the proof of growth from some atoms to others."""
    facts = changed_parts(set(map(digits, earlier)), set(map(digits, later)))
    keys = changed_parts(set(map(key_of, earlier)), set(map(key_of, later)))
    return proof_with([*facts, ["K"], *keys], log)


# ---- Trees, also those of no sets: as in proof_rows.py

def without(letter, parts):
    """The tree without its leaves of that letter, or None if nothing is left."""
    if not isinstance(parts, tuple):
        return None if parts is None or parts[0] == letter else parts
    halves = [half for half in (without(letter, each) for each in parts) if half]
    return tuple(halves) if len(halves) == 2 else halves[0] if halves else None


def root_without(letter, parts, count):
    left = without(letter, parts)
    return root_at(count, hash_by(left) if left else digits(""))


def lines_of(parts):
    return preorder(parts) if parts else []


UNCHANGED = ("H " + HIGH, 3, 3)  # a tree, and how many leaves it had and has


def of_trees(facts, keys=UNCHANGED, shown=None):
    """Two seals with the numbers and roots of two trees, and a proof with their parts, or with other lines."""
    told = [(earlier, root_without("A", parts, earlier), later, root_without("G", parts, later)) for parts, earlier, later in (facts, keys)]
    old, new = (seal_with('"g"', *(number for each in told for number in each[at:at + 2])) for at in (0, 2))
    return old, new, proof_with(shown if shown is not None else [*lines_of(facts[0]), ["K"], *lines_of(keys[0])])


def of_keys(parts, earlier, later):
    """The same where the trees are the keys'."""
    return of_trees(UNCHANGED, (parts, earlier, later))


def leaf(letter, number):
    return "%s %064x" % (letter, number)


def leaves(letters, first=16):
    """Leaves of these letters that rise."""
    return [leaf(letter, first * number) for number, letter in enumerate(letters, 1)]


def below(nodes, parts):
    """The tree below so many nodes, with what is hidden beside each of them on the left."""
    for _ in range(nodes):
        parts = ("H " + LOW, parts)
    return parts


HID = "H " + LOW
KEPT, OTHER, THIRD = leaves("PPP")
CAME, WENT = leaf("A", 24), leaf("G", 24)

# How one set of atoms came of another, and how many facts came and went.
N1, N2 = line("P", "name", '"north"'), line("P", "name", '"south"')
GROWN = [
    ([], []), ([], P[:1]), (P[:1], []), (P[:1], P[:1]), (P[:3], P[:5]), (P[:5], P[:3]), (P[:4], [*P[:3], P[4]]), (P[:8], P[1:9]),
    (P[:4], P[4:9]), (P, P[::2]), (P[::2], P), (P[:8], P), (P[1:], P), (P, P[1:]), ([C1], [C1, K1]), ([C1], [CF, KF, C1, K1]), ([C1, C2], [C1]),
    ([C1], [C1, RULING]), ([C1, RULING], [C1]), ([RULING], [C1, RULING]), ([N1], [N2]), ([N1], [N1, N2]), ([C1], [C2]),
]


def counts(earlier, later):
    return len(set(later) - set(earlier)), len(set(earlier) - set(later))


def named(earlier, later):
    return "%d facts that were %d, number %d" % (len(later), len(earlier), GROWN.index((earlier, later)))


def lists_with(earlier, later):
    """The lists of all that was there and of no more than went, by what they are."""
    went, keys = (set(map(name, earlier)) - set(map(name, later)) for name in (digits, key_of))
    return {listed("CADF-ERASED 1", went, keys): "no more than what went is listed: of ", erased(*earlier, keys=earlier): "all is listed: of "}


# Words before the files, the files, and what is written.
WRITTEN = [
    ("the list of nothing", "sealed", [NOTHING], sealed()), ("the list of nothing in format 2", "sealed", [NOTHING_TREE], sealed()),
    ("the list of an event", "sealed", [EVENT_TREE], lined("CADF-SEALED 1", FACT + digits(C1), KEY + digits(line("E", "e1")))),
    ("the list of a document", "sealed", [document(V1, V2)], sealed(C1, C2)),
    ("facts of one key", "sealed", [CONFLICT_TREE], sealed(CF, KF, C1, K1)), ("a ruling has the key that it is of", "sealed", [RULING_TREE], sealed(RULING)),
    ("the list of two files", "sealed", [EVENT_TREE, SECOND_TREE], sealed(C1, C2)), ("an event and a log", "sealed", [V1, NOTHING], sealed(C1)),
    ("a list under another log", "sealed", [document(V1, log="h")], sealed(C1, log="h")),
]
WRITTEN += [("the proof of " + named(earlier, later), "growth", [sealed(*earlier), replica(*later)], growth(earlier, later)) for earlier, later in GROWN]
WRITTEN += [("of " + named(earlier, later), "grew", [seal(*earlier), seal(*later), growth(earlier, later)], "added %d\n" % counts(earlier, later)[0])
            for earlier, later in GROWN if not counts(earlier, later)[1]]
WRITTEN += [(name + named(earlier, later), "grew --erased {} {} {} {}",
             [list_of_them, seal(*earlier), seal(*later), growth(earlier, later)], "added %d, erased %d\n" % counts(earlier, later))
            for earlier, later in GROWN for list_of_them, name in lists_with(earlier, later).items()]
WRITTEN += [
    ("the proof of a document", "growth", [sealed(C1), document(V1, V2)], growth([C1], [C1, C2])),
    ("the proof of several files", "growth", [sealed(C1), EVENT_TREE, V2], growth([C1], [C1, C2])),
    ("the proof of a file twice", "growth", [sealed(C1), TWO, TWO_TREE], growth([C1], [C1, C2])),
    ("a list need not be of any set", "growth", [listed("CADF-SEALED 1", [LOW], [HIGH]), NOTHING], proof_with([["G", LOW], ["K"], ["G", HIGH]])),
    ("a list of keys alone", "growth", [listed("CADF-SEALED 1", [], [key_of(C1)]), EVENT_FILE],
     proof_with([["A", digits(C1)], ["K"], ["H", digits(b"\0" + bytes.fromhex(key_of(C1)))]])),
    ("another log's", "grew", [seal(C1, log='"h"'), seal(C1, C2, log='"h"'), growth([C1], [C1, C2], log='"h"')], "added 1\n"),
    ("an option behind the files", "grew {} {} {} --erased {}", [seal(C1), seal(), growth([C1], []), erased(C1, keys=[C1])], "added 0, erased 1\n"),
    ("an option and its value in one word", "grew {} {} --erased={} {}", [seal(C1), seal(), erased(C1, keys=[C1]), growth([C1], [])],
     "added 0, erased 1\n"),
]

# Trees of no set are taken as they are: of any shape, with as many hidden leaves as the seals say.
LAST = 2 ** 64 - 1
TAKEN = [
    ((KEPT, CAME), 1, 2), ((("A " + LOW, KEPT), CAME), 1, 3), (("A " + LOW, (KEPT, CAME)), 1, 3), ((HID, (KEPT, CAME)), 2, 3), ((HID, (KEPT, CAME)), LAST - 1, LAST),
    (((CAME, OTHER), HID), 9, 10), ((KEPT, (CAME, (OTHER, HID))), 3, 4), (((HID, KEPT), (CAME, (OTHER, HID))), 12, 13), (leaf("A", 1), 0, 1), (None, 0, 0), (HID, 1, 1),
    (HID, LAST, LAST), ((HID, (KEPT, (leaf("A", 17), "A " + HIGH))), 2, 4), (((leaf("A", 1), leaf("A", 2)), KEPT), 1, 3),
]
TAKEN.append((below(255, (KEPT, CAME)), 256, 257))


def added(parts):
    return "added %d\n" % [each[0][0] for each in lines_of(parts)].count("A")


WRITTEN += [("a tree of no set, %d" % number, "grew", list(of_trees(each)), added(each[0])) for number, each in enumerate(TAKEN, 1)]
WRITTEN += [("a tree of no keys, %d" % number, "grew", list(of_keys(*each)), "added 0\n") for number, each in enumerate(TAKEN, 1)]

# What is left out of a file: the list and the files, and what is left.
LEFT_OUT = [
    ("nothing by an empty list", [erased(), CONFLICT], CONFLICT_TREE), ("nothing of nothing", [erased(keys=[C1]), NOTHING], NOTHING_TREE),
    ("an event with all that came with it", [erased(keys=[C1]), CHAINS_TREE, TAGGED_TREE], NOTHING_TREE),
    ("both bodies, with rulings of them", [erased(keys=[C1]), TWICE_RULED_TREE, V2], SECOND_TREE), ("one event of two", [erased(keys=[C2]), TWO], EVENT_TREE),
    ("a ruling", [erased(RULING), RULED_TREE], CONFLICT_TREE), ("one ruling of two", [erased(line("U", "E", "e1", digits(B1))), TWICE_RULED_TREE], RULED_TREE),
    ("no ruling of another key", [erased(keys=[C2]), RULING_TREE], RULING_TREE), ("no fact by its digest", [erased(C1, K1, CF), CONFLICT_TREE], CONFLICT_TREE),
    ("a ruling by its digest, and no fact", [erased(C1, RULING), replica(C1, RULING)], EVENT_TREE),
    ("a property with all its values", [erased(keys=[N1]), NAMED_TREE], tree(*STORAGE)), ("a resource", [erased(keys=[line("R", "r1", "x")]), NAMED_TREE], tree(*NAMES)),
    ("nothing by digests of no key", [listed("CADF-ERASED 1", [], map(digits, (line("P", "e1"), line("E", "e"), line("E"), line("U", "E"), CF, '"e1"'))), CONFLICT_TREE], CONFLICT_TREE),
    ("by a digest of a key as that of a fact", [listed("CADF-ERASED 1", [key_of(C1)], [digits(RULING), digits(C1)]), RULED_TREE], RULED_TREE),
    ("of a document and an event", [erased(keys=[C1]), document(ONE, FAILED), V2], SECOND_TREE),
    ("under another log", [erased(keys=[C1], log="h"), document(V1, log="h")], tree(log="h")),
]
WRITTEN += [("left out: " + name, "omit", files, output) for name, files, output in LEFT_OUT]

# ---- What is refused: a call, its files, and what is said

TWO_LINES = [FACT + LOW, KEY + LOW]
BAD_LISTS = [([""], "line 3: shape"), (["F"], "line 3: shape"), (["N"], "line 3: shape"), ([LOW], "line 3: shape"), (["A " + LOW], "line 3: shape")]
BAD_LISTS += [([letter + rest], "line 3: shape") for letter in "FK" for rest in (
    " ", LOW, "  " + LOW, " " + LOW + "0", " " + LOW[1:], " " + LOW + " ", " " + LOW + "\r", "\t" + LOW, " " + HIGH.upper(), " g" + LOW[1:], " \udcff" + LOW[1:])]
BAD_LISTS += [
    ([*TWO_LINES, "f " + HIGH], "line 5: shape"), ([*TWO_LINES, FACT + HIGH], "line 5: order"), (TWO_LINES[::-1], "line 4: order"), ([FACT + LOW] * 2, "line 4: order"),
    ([*TWO_LINES, KEY + LOW], "line 5: order"), ([FACT + HIGH, FACT + LOW], "line 4: order"), ([KEY + HIGH, KEY + LOW, "x"], "line 4: order"),
]
# Of each place of a list: its words, the number of its input, the first line of its kind, and the files before it and behind.
PLACES = [("growth", "CADF-SEALED 1", [], [EVENT_TREE]), ("omit", "CADF-ERASED 1", [], [EVENT_TREE]),
          ("grew {} {} {} --erased {}", "CADF-ERASED 1", [seal(C1), seal(), growth([C1], [])], [])]


def in_place(place, text, said):
    words, _, before, behind = place
    return "%s where a list of %s is" % (said, words), words, [*before, text, *behind], "input %d: %s" % (len(before) + 1, said)


REFUSED = []
for place in PLACES:
    first = place[1]
    REFUSED += [in_place(place, lined(first, *rest), said) for rest, said in BAD_LISTS]
    REFUSED += [in_place(place, text, "version") for text in (
        lined({"CADF-SEALED 1": "CADF-ERASED 1", "CADF-ERASED 1": "CADF-SEALED 1"}[first]), lined(first[:-1] + "2"), lined(first + " "), seal(), inventory(), NOTHING,
        proof([], []), "{}\n", "\n")]
    REFUSED += [in_place(place, text, said) for text, said in (
        ("", "truncated"), (first, "truncated"), (lined(first)[:-1], "truncated"), (lined(first) + "\n", "trailing bytes"), (lined(first) + "F", "trailing bytes"),
        (first + "\nL g\n", "log line"), (first + "\nL \"\"\n", "log line"), (lined(first, *TWO_LINES).replace("Z ", "Z"), "digest"),
        (lined(first, *TWO_LINES).replace(KEY + LOW, KEY + HIGH), "digest"), (lined(first, "Z " + LOW), "digest"))]
REFUSED += [
    ("a list as a file", "sealed", [sealed()], "input 1: version"), ("a list of what was erased as a file", "join", [erased()], "input 1: version"),
    ("a list as a file of growth", "growth", [sealed(), sealed()], "input 2: version"), ("a list that is damaged, before a file", "growth", ["{\n", "{"], "input 1: version"),
    ("a file that is damaged", "growth", [sealed(C1), "{"], "input 2: not JSON"), ("a second file that is damaged, and no log", "omit", [erased(), V1, "{"], "input 3: not JSON"),
    ("events by themselves, and no log but that of a list", "growth", [sealed(), V1, V2], "no log named"), ("the same", "omit", [erased(), V1], "no log named"),
    ("an event by itself", "sealed", [V1], "no log named"), ("two logs", "sealed", [NOTHING, document(log="h")], "input 2: other log"),
    ("another log of a list", "growth", [sealed(log="h"), V1, NOTHING], "input 1: other log"), ("the same", "omit", [erased(log="h"), NOTHING], "input 1: other log"),
    ("another log of a list and of a file", "growth", [sealed(log="h"), NOTHING, V1, document(log="h")], "input 4: other log"),
    ("the same", "omit", [erased(log="h"), NOTHING, document(log="h")], "input 3: other log"),
]

# Growth that is refused: the files of trees, or of sets, and the first refusal.
SAME, ONE_CAME, ONE_WENT = growth(P[:4], P[:4]), growth(P[:4], P[:5]), growth(P[:5], P[:4])
EXCHANGED = growth(P[:4], [*P[:3], P[4]])
OF_FOUR, OF_FIVE, OF_OTHERS = seal(*P[:4]), seal(*P[:5]), seal(*P[:3], P[4])
OTHER_SEAL, OTHER_LIST, OTHER_PROOF = seal(log='"h"'), erased(log="h"), growth([], [], log='"h"')
REFUSED += [
    ("a file as the old seal", "grew", [EVENT_TREE, OF_FIVE, ONE_CAME], "input 1: version"), ("a file as the new seal", "grew", [OF_FOUR, "{\n", "{"], "input 2: version"),
    ("a seal as a proof", "grew", [OF_FOUR, OF_FIVE, OF_FIVE], "input 3: version"), ("a list as a proof", "grew", [OF_FOUR, OF_FIVE, sealed(*P[:4])], "input 3: version"),
    ("a proof that is cut", "grew", [OF_FOUR, OF_FIVE, ONE_CAME[:-1]], "input 3: truncated"),
    ("two lines K", "grew", [OF_FOUR, OF_FOUR, proof_with([["K"], ["K"]])], "input 3: line 4: shape"),
    ("another log of all", "grew {} {} {} --erased {}", [OF_FOUR, OTHER_SEAL, OTHER_PROOF, OTHER_LIST], "input 2: other log"),
    ("another log of a proof", "grew {} {} {} --erased {}", [OF_FOUR, OF_FIVE, OTHER_PROOF, OTHER_LIST], "input 3: other log"),
    ("another log of a list", "grew {} {} {} --erased {}", [OF_FOUR, OF_FIVE, SAME, OTHER_LIST], "input 4: other log"),
    ("a list that is damaged, before another log", "grew {} {} {} --erased {}", [OF_FOUR, OTHER_SEAL, SAME, "{"], "input 4: truncated"),
    # Old and new exchanged, and proofs of others.
    ("old and new exchanged", "grew", [OF_FIVE, OF_FOUR, ONE_CAME], "input 3: facts: other count"),
    ("old and new of as many exchanged", "grew", [OF_OTHERS, OF_FOUR, EXCHANGED], "input 1: facts: other root"),
    ("the old seal twice", "grew", [OF_FOUR, OF_FOUR, ONE_CAME], "input 3: facts: other count"),
    ("the old seal twice where as many went", "grew", [OF_FOUR, OF_FOUR, EXCHANGED], "input 2: facts: other root"),
    ("no change", "grew", [OF_FOUR, OF_FIVE, SAME], "input 3: facts: other count"), ("no change of as many", "grew", [OF_FOUR, OF_OTHERS, SAME], "input 2: facts: other root"),
    ("the proof of the way back", "grew", [OF_FOUR, OF_FIVE, ONE_WENT], "input 3: facts: other count"),
    ("a proof of facts", "grew", [OF_FOUR, OF_FOUR, proof([digits(P[0])], list(map(digits, P[:4])))], "input 3: facts: not needed"),
    ("a proof of facts that hides all", "grew", [OF_FOUR, OF_FOUR, proof([], list(map(digits, P[:4])))], "input 3: keys: no tree"),
    ("no parts at all", "grew", [OF_FOUR, OF_FOUR, proof_with([])], "input 3: facts: other count"),
    ("no parts of facts, and none of keys", "grew", [OF_FOUR, OF_FOUR, proof_with([["K"]])], "input 3: facts: other count"),
    ("no line K of nothing", "grew", [seal(), seal(), proof_with([])], "input 3: keys: no tree"),
    ("one key where there was none", "grew", [seal_with('"g"', 0, OF_NOTHING, 0, OF_NOTHING), seal_with('"g"', 0, OF_NOTHING, 1, root_at(1, HIGH)), growth([], [])],
     "input 3: keys: other count"),
    # What went.
    ("a fact that went", "grew", [OF_FIVE, OF_FOUR, ONE_WENT], "input 2: facts: gone: " + digits(P[4])),
    ("a fact that went, and one that came", "grew", [OF_FOUR, OF_OTHERS, EXCHANGED], "input 2: facts: gone: " + digits(P[3])),
    ("a list without it", "grew {} {} {} --erased {}", [OF_FIVE, OF_FOUR, ONE_WENT, erased(P[3], keys=P)], "input 2: facts: gone: " + digits(P[4])),
    ("a list with it as a key", "grew {} {} {} --erased {}", [OF_FIVE, OF_FOUR, ONE_WENT, listed("CADF-ERASED 1", [], [digits(P[4]), key_of(P[4])])],
     "input 2: facts: gone: " + digits(P[4])),
    ("a list without its key", "grew {} {} {} --erased {}", [OF_FIVE, OF_FOUR, ONE_WENT, erased(P[4])], "input 2: keys: gone: " + key_of(P[4])),
    ("a list with its key as a fact", "grew {} {} {} --erased {}", [OF_FIVE, OF_FOUR, ONE_WENT, listed("CADF-ERASED 1", [digits(P[4]), key_of(P[4])], [])],
     "input 2: keys: gone: " + key_of(P[4])),
    ("facts that went, the first", "grew", [seal(*P[:8]), seal(*P[:4]), growth(P[:8], P[:4])], "input 2: facts: gone: " + min(map(digits, P[4:8]))),
    ("facts that went, the first without a list", "grew {} {} {} --erased {}",
     [seal(*P[:8]), seal(*P[:4]), growth(P[:8], P[:4]), erased(*sorted(P[4:8], key=digits)[:2], keys=P)], "input 2: facts: gone: " + sorted(map(digits, P[4:8]))[2]),
    ("keys that went, the first without a list", "grew {} {} {} --erased {}",
     [seal(*P[:8]), seal(*P[:4]), growth(P[:8], P[:4]), erased(*P, keys=sorted(P[4:8], key=key_of)[:1])], "input 2: keys: gone: " + sorted(map(key_of, P[4:8]))[1]),
    ("a key of two facts that stays, as one of them goes", "grew", [seal(N1, N2), seal(N1), growth([N1, N2], [N1])], "input 2: facts: gone: " + digits(N2)),
]

# A cause of `grew`, with a tree and how many leaves it had and has: each is tried as the facts' and as the keys'.
TOLD_ROOTS = [
    ("other count", None, 1, 1), ("other count", None, 0, 1), ("other count", HID, 0, 0), ("other count", HID, 1, 2), ("other count", (HID, (KEPT, CAME)), 1, 2),
    ("other count", (KEPT, CAME), 2, 3), ("other count", (KEPT, CAME), 0, 1), ("other count", (KEPT, CAME), 2, 2), ("other count", (KEPT, CAME), 1, 1),
    ("other count", ((HID, KEPT), (CAME, (OTHER, HID))), 3, 4), ("other count", (KEPT, WENT), 1, 1), ("other count", CAME, 1, 1),
    ("order", (KEPT, KEPT), 2, 2), ("order", (CAME, CAME), 0, 2), ("order", (leaf("A", 24), leaf("G", 24)), 1, 1), ("order", (leaf("G", 24), leaf("A", 24)), 1, 1),
    ("order", (CAME, KEPT), 1, 2), ("order", (WENT, KEPT), 2, 1), ("order", (THIRD, CAME), 1, 2), ("order", ((KEPT, CAME), (leaf("P", 8), HID)), 3, 4), ("order", (HID, (leaf("P", 32), (CAME, leaf("P", 33)))), 3, 4),
    ("order", ((leaf("G", 5), KEPT), leaf("A", 5)), 2, 2), ("order", (((HID, THIRD), leaf("P", 32)), CAME), 3, 4), ("order", ("A " + HIGH, "A " + LOW), 0, 2),
    ("neighbour hidden", (HID, CAME), 1, 2), ("neighbour hidden", (CAME, HID), 1, 2), ("neighbour hidden", (HID, WENT), 2, 1), ("neighbour hidden", (WENT, HID), 2, 1),
    ("neighbour hidden", ((KEPT, CAME), HID), 2, 3), ("neighbour hidden", ((KEPT, HID), (CAME, leaf("P", 32))), 3, 4), ("neighbour hidden", (HID, ((CAME, leaf("P", 32)), HID)), 3, 4),
    ("neighbour hidden", ((KEPT, CAME), (HID, HID)), 3, 4), ("neighbour hidden", ((HID, leaf("G", 24)), leaf("A", 32)), 2, 2),
    ("not needed", (HID, HID), 2, 2), ("not needed", KEPT, 1, 1), ("not needed", (KEPT, leaf("P", 32)), 2, 2), ("not needed", (KEPT, (leaf("P", 20), CAME)), 2, 3),
    ("not needed", ((CAME, leaf("P", 32)), leaf("P", 33)), 2, 3), ("not needed", (HID, KEPT), 2, 2), ("not needed", ((HID, HID), (KEPT, CAME)), 3, 4),
    ("not needed", ((HID, (leaf("P", 1), HID)), (KEPT, CAME)), 4, 5), ("not needed", ((KEPT, CAME), ((leaf("P", 32), HID), leaf("P", 40))), 4, 5),
]
REFUSED += [("%s of %s, %d" % (cause, name, number), "grew", list(make((parts, earlier, later))), "input 3: %s: %s" % (name, cause))
            for number, (cause, parts, earlier, later) in enumerate(TOLD_ROOTS, 1)
            for name, make in (("facts", of_trees), ("keys", lambda each: of_keys(*each)))]


def with_lines(earlier, later, *parts):
    """Two seals with so many leaves and some root, and a proof of these lines, as the facts' and as the keys'."""
    rows = [["N"] if each == "N" else [each] for each in parts]
    hidden = [["H " + HIGH]]
    yield "facts", of_trees((HID, earlier, later), shown=[*rows, ["K"], *hidden])
    yield "keys", of_trees(UNCHANGED, (HID, earlier, later), shown=[*hidden, ["K"], *rows])


# Lines that are no tree, under right numbers.
NO_TREES = [
    (0, 0, ["N"]), (0, 0, ["N", "N"]), (1, 1, ["N", HID]), (1, 1, [HID, "N"]), (2, 2, [HID, HID]), (1, 2, [KEPT, CAME]), (1, 2, [KEPT, "N", CAME]), (1, 2, [KEPT, CAME, "N"]),
    (3, 3, ["N", HID, HID, HID]), (1, 2, ["N", "N", KEPT, CAME]), (0, 1, ["N", CAME]), (1, 2, ["N", "N", KEPT, "N", CAME]),
    (258, 258, ["N", HID] * 257 + [HID]), (258, 258, ["N"] * 257 + [HID] * 258),
]
for number, (earlier, later, parts) in enumerate(NO_TREES, 1):
    REFUSED += [("no tree of %s, %d" % (name, number), "grew", list(files), "input 3: %s: no tree" % name) for name, files in with_lines(earlier, later, *parts)]


def in_other_seals(name, old, new, parts):
    """The files of a tree whose numbers and roots are others."""
    whole = [proof_with([*lines_of(parts), ["K"], *lines_of(HID)]), proof_with([*lines_of(HID), ["K"], *lines_of(parts)])][name == "keys"]
    hidden = (1, root_at(1, LOW))
    return [seal_with('"g"', *(each + hidden if name == "facts" else hidden + each)) for each in (old, new)] + [whole]


# Roots of no tree: without the number, with that of leaf or node hashed alike, with what came, or of the other seal.
GREW = (KEPT, CAME)
OLD_ROOT, NEW_ROOT = root_without("A", GREW, 1), root_without("G", GREW, 2)
for name, (number, old, new) in itertools.product(("facts", "keys"), [
        (1, root_at(1, LOW), NEW_ROOT), (2, OLD_ROOT, root_at(2, LOW)), (1, HIGH, LOW), (1, NEW_ROOT, OLD_ROOT), (1, root_at(2, hash_by(KEPT)), NEW_ROOT), (2, OLD_ROOT, root_at(1, hash_by(GREW))),
        (1, hash_by(KEPT), NEW_ROOT), (2, OLD_ROOT, hash_by(GREW)), (2, OLD_ROOT, root_at(2, hash_by(GREW[::-1]))), (1, root_at(1, hash_by(CAME)), NEW_ROOT), (2, OLD_ROOT, OLD_ROOT),
        (1, root_at(1, digits(bytes.fromhex(KEPT[2:]))), NEW_ROOT)]):
    REFUSED.append(("another root of input %d, of %s: %.8s %.8s" % (number, name, old, new), "grew", in_other_seals(name, (1, old), (2, new), GREW), "input %d: %s: other root" % (number, name)))

# The first of several refusals.
REFUSED += [
    ("another count of no tree", "grew", list(of_trees((HID, 1, 1), shown=[["N"], ["K"]])), "input 3: facts: other count"),
    ("no tree under other roots", "grew", list(of_trees((KEPT, 1, 1), shown=[["P " + HIGH], ["N"], ["K"]])), "input 3: facts: no tree"),
    ("another root of leaves that fall", "grew", in_other_seals("facts", (1, HIGH), (2, HIGH), (CAME, KEPT)), "input 1: facts: other root"),
    ("leaves that fall, and a neighbour hidden", "grew", list(of_trees((((CAME, KEPT), (HID, leaf("A", 99))), 2, 4))), "input 3: facts: order"),
    ("a neighbour hidden, and leaves that fall behind it", "grew", list(of_trees((((HID, leaf("A", 99)), (CAME, KEPT)), 2, 4))), "input 3: facts: order"),
    ("a neighbour hidden, and two hashes", "grew", list(of_trees((((HID, HID), CAME), 2, 3))), "input 3: facts: neighbour hidden"),
    ("facts not needed, and no tree of keys", "grew", list(of_trees((KEPT, 1, 1), shown=[[KEPT]])), "input 3: facts: not needed"),
    ("a fact that went, and another count of keys", "grew", list(of_trees((WENT, 1, 0), (HID, 1, 2))), "input 3: keys: other count"),
    ("a key that went, with facts that stay", "grew", list(of_keys((leaf("G", 1), (KEPT, HID)), 3, 2)),
     "input 2: keys: gone: " + "%064x" % 1),
    ("a fact and a key that went", "grew", list(of_trees((WENT, 1, 0), (leaf("G", 1), 1, 0))), "input 2: facts: gone: " + WENT[2:]),
    ("the first fact that went in a proof, not the least", "grew", list(of_trees(((leaf("G", 1), leaf("G", 2)), 2, 0))), "input 2: facts: gone: " + "%064x" % 1),
]
