"""Worked rows of keys that are asked for: proofs that are made for them, keys that are verified by these, and what is refused.

    from key_rows import WRITTEN, REFUSED

The files stand behind the command's words.
"""
import json

from tests.tables.proof_rows import P
from tests.tables.seal_rows import (
    HIGH, LOW, OF_NOTHING, key_of, leaves_for, parts, parts_with, proof, proof_with, root_at, seal, seal_with,
)
from tests.tables.texts import C1, C2, V1, V2, digits, document, inventory, line, lined, quoted
from tests.tables.worked_files import CONFLICT_TREE, EVENT_FILE, EVENT_TREE, NOTHING, NOTHING_TREE, RULED_TREE, RULING, RULING_TREE, TWO, TWO_TREE

E1, E2, E3 = (line("E", "e%d" % number) for number in (1, 2, 3))
OF_P = [line("P", "p%d" % number) for number in range(1, 10)]
ODD = line("P", 'a"\u00e9')
OF_ODD = line("P", 'a"\u00e9', "1")


def keys(*lines, log="g"):
    """The file of these keys, in the order in which they are given."""
    return lined("CADF-KEYS 1", *lines, log=log)


def held_keys(atoms):
    """The digests of the keys of atoms."""
    return sorted(set(map(key_of, atoms)))


def keys_proof(asked, held, log='"g"'):
    """The file of the proof for keys, which are lines, of atoms."""
    return proof_with([["K"], *parts(map(digits, asked), held_keys(held))], log)


def told(word, asked):
    """What is written of keys."""
    return "".join("%s %s %s %s\n" % (word, *(text if place == 0 else quoted(text) for place, text in enumerate(json.loads(each))), digits(each)) for each in asked)


# Keys and files, and the proof.
PROVED = [
    ("an identifier that is there", [keys(E1), EVENT_TREE], keys_proof([E1], [C1])),
    ("an identifier that is there, in format 1", [keys(E1), EVENT_FILE, TWO], keys_proof([E1], [C1, C2])),
    ("an identifier that is not there", [keys(E2), EVENT_TREE], keys_proof([E2], [C1])),
    ("one that is there and one that is not", [keys(E1, E3), TWO_TREE], keys_proof([E1, E3], [C1, C2])),
    ("the key of two bodies", [keys(E1), CONFLICT_TREE], keys_proof([E1], [C1])),
    ("the key of a ruling alone", [keys(E1), RULING_TREE], keys_proof([E1], [RULING])),
    ("the key of values and of a ruling", [keys(E1), RULED_TREE], keys_proof([E1], [C1])),
    ("no key", [keys(), TWO_TREE], keys_proof([], [C1, C2])),
    ("keys of nothing", [keys(E1, E2), NOTHING], keys_proof([E1, E2], [])),
    ("no key of nothing", [keys(), NOTHING_TREE, document()], keys_proof([], [])),
    ("a key that is quoted", [keys(ODD), document(more=',"a\\"\u00e9":1')], keys_proof([ODD], [OF_ODD])),
    ("letters with one name", [keys(*(line(letter, "e1") for letter in "EGMPR")), EVENT_TREE],
     keys_proof([line(letter, "e1") for letter in "EGMPR"], [C1])),
]
WRITTEN = [(name, "prove --keys", files, output) for name, files, output in PROVED]
WRITTEN += [
    ("an identifier that is there", "verify --keys", [seal(C1), keys(E1), keys_proof([E1], [C1])], told("present", [E1])),
    ("an identifier that is absent", "verify --keys --absent", [seal(C1), keys(E2), keys_proof([E2], [C1])], told("absent", [E2])),
    ("keys of nothing", "verify --keys --absent", [seal(), keys(E1, E2), keys_proof([E1, E2], [])], told("absent", [E1, E2])),
    ("keys under another log", "verify --keys", [seal(C1, log='"h"'), keys(E1, log="h"), keys_proof([E1], [C1], '"h"')], told("present", [E1])),
    ("a key that is quoted", "verify --keys", [seal(OF_ODD), keys(ODD), keys_proof([ODD], [OF_ODD])], told("present", [ODD])),
    ("keys among others, all there", "verify --keys", [seal(*P[:8]), keys(*OF_P[:8]), keys_proof(OF_P[:8], P[:8])], told("present", OF_P[:8])),
    ("keys among others, in their order", "verify --keys", [seal(*P), keys(OF_P[1], OF_P[6]), keys_proof([OF_P[1], OF_P[6]], P)], told("present", [OF_P[1], OF_P[6]])),
    ("letters with one name", "verify --keys --absent", [seal(C1), keys(line("G", "e1"), line("M", "e1"), line("P", "e1"), line("R", "e1")),
     keys_proof([line(letter, "e1") for letter in "GMPR"], [C1])], told("absent", [line(letter, "e1") for letter in "GMPR"])),
    # The first root and its count say nothing of keys.
    ("keys under a first root of no set", "verify --keys", [seal_with('"g"', 7, LOW, 1, root_at(1, digits(b"\0" + bytes.fromhex(key_of(C1))))), keys(E1),
     keys_proof([E1], [C1])], told("present", [E1])),
]

# ---- What is refused: a call, its files, and what is said

BAD_KEYS = [([each], "line 3: shape") for each in (
    "", "E", "e1", "[]", '["E"]', '"E"', '["E","e1","x"]', '["E",""]', '["U","e1"]', '["A","e1"]', '["C","e1"]', '["T","e1"]', '["e","e1"]', '["EE","e1"]', '["","e1"]',
    '["E",1]', '["E",null]', '["E",["e1"]]', '{"E":"e1"}', '["E", "e1"]', ' ["E","e1"]', '["E","e1"] ', '["E","e1"]]', '["E","e1"', '"E","e1"]', '["E","e\\u0031"]',
    '["\\u0045","e1"]', '["E","\\u0001"]', '["E","%s"]' % ("x" * 1025), '["E","\udcff"]', '["E","e1"]\r', "[\"E\",'e1']")]
BAD_KEYS += [([E1, E1], "line 4: order"), ([E2, E1], "line 4: order"), ([E1, E2, E1], "line 5: order"), ([line("P", "a"), E1], "line 4: order"), ([E1, E2, "x"], "line 5: shape"),
             ([E2, E1, "x"], "line 4: order"), ([line("E", "e2"), line("E", "e10")], "line 4: order")]
RIGHT = keys_proof([E1], [C1])
OTHER_KEYS, OTHER_PROOF = keys(E1, log="h"), keys_proof([E1], [C1], '"h"')
REFUSED = []
for command, before, behind in (("prove --keys", [], [EVENT_TREE]), ("verify --keys", [seal(C1)], [RIGHT])):
    for number, text, said in [(number, lined("CADF-KEYS 1", *lines), said) for number, (lines, said) in enumerate(BAD_KEYS)] + [
            (number, text, said) for number, (text, said) in enumerate((
                ("", "truncated"), ("CADF-KEYS 1", "truncated"), (keys(E1)[:-1], "truncated"), (keys(E1) + "\n", "trailing bytes"), (keys(E1) + E2, "trailing bytes"),
                ("CADF-KEYS 1\nL g\n", "log line"), (keys(E1).replace("e1", "e2"), "digest"), (lined("CADF-KEYS 2"), "version"), (lined("CADF-KEYS 1 "), "version"),
                (seal(), "version"), (inventory(), "version"), (EVENT_TREE, "version"), (V1 + "\n", "version"), (proof([], []) + "\n", "version")), 100)]:
        REFUSED.append(("a list of keys, %s, %d" % (command, number), command, [*before, text, *behind], "input %d: %s" % (len(before) + 1, said)))
REFUSED += [
    ("a list of keys as facts", "prove", [keys(E1), EVENT_TREE], "input 1: version"),
    ("a list of keys as a file", "prove --keys", [keys(E1), keys(E1)], "input 2: version"),
    ("keys that are damaged, before a file", "prove --keys", ["{\n", "{"], "input 1: version"),
    ("events by themselves, and no log but that of keys", "prove --keys", [keys(E1), V1, V2], "no log named"),
    ("another log of keys", "prove --keys", [OTHER_KEYS, V1, NOTHING], "input 1: other log"),
    ("another log of keys and of a file", "prove --keys", [OTHER_KEYS, NOTHING, document(log="h")], "input 3: other log"),
    ("a list of keys as facts that are verified", "verify", [seal(C1), keys(E1), RIGHT], "input 2: version"),
    ("a file as a seal", "verify --keys", [EVENT_TREE, keys(E1), RIGHT], "input 1: version"),
    ("keys that are damaged, before a proof", "verify --keys", [seal(C1), "{\n", ""], "input 2: version"),
    ("a seal as a proof, before another log", "verify --keys", [seal(C1), OTHER_KEYS, seal(C1)], "input 3: version"),
    ("keys and a proof of another log", "verify --keys", [seal(C1), OTHER_KEYS, OTHER_PROOF], "input 2: other log"),
    ("a proof of another log", "verify --keys", [seal(C1), keys(E1), OTHER_PROOF], "input 3: other log"),
    ("no keys, and a proof of another log", "verify --keys", [seal(C1), keys(), OTHER_PROOF], "input 3: other log"),
    ("no keys", "verify --keys", [seal(C1), keys(), keys_proof([], [C1])], "input 2: no keys"),
    ("no keys that are absent", "verify --keys --absent", [seal(C1), keys(), keys_proof([], [C1])], "input 2: no keys"),
    ("no keys, and no line K", "verify --keys", [seal(C1), keys(), proof([], [digits(C1)])], "input 2: no keys"),
    # The parts, under the second root.
    ("a proof of facts", "verify --keys", [seal(C1), keys(E1), proof([digits(C1)], [digits(C1)])], "input 3: no tree"),
    ("no line K under another count", "verify --keys", [seal(C1, C2), keys(E1), proof([], [])], "input 3: no tree"),
    ("a proof of keys for facts", "verify", [seal(C1), V1, RIGHT], "input 3: other count"),
    ("a proof of keys for facts of nothing", "verify --absent", [seal(), V1, keys_proof([], [])], "input 3: not needed"),
    ("another count", "verify --keys", [seal(C1, C2), keys(E1), RIGHT], "input 3: other count"),
    ("no parts", "verify --keys", [seal(C1), keys(E1), proof_with([["K"]])], "input 3: other count"),
    ("a node alone", "verify --keys", [seal(), keys(E1), proof_with([["K"], ["N"]])], "input 3: no tree"),
    ("the root of other keys", "verify --keys", [seal(C2), keys(E1), RIGHT], "input 3: other root"),
    ("the key's fact in place of the key", "verify --keys", [seal(C1), keys(E1), proof_with([["K"], ["P", digits(C1)]])], "input 3: other root"),
    ("leaves that don't rise", "verify --keys", [seal_with('"g"', 0, OF_NOTHING, 2, root_at(2, digits(
        b"\1" + 2 * bytes.fromhex(digits(b"\0" + bytes.fromhex(LOW)))))), keys(E1), proof_with([["K"], ["N"], ["P", LOW], ["P", LOW]])], "input 3: order"),
    ("a leaf of one set alone", "verify --keys", [seal(C1), keys(E1), proof_with([["K"], ["A", key_of(C1)]])], "input 3: other count"),
    ("a part of facts", "verify --keys", [seal(C1), keys(E1), proof_with([["P", digits(C1)], ["K"], ["P", key_of(C1)]])], "input 3: not needed"),
    ("a part of facts, and another root", "verify --keys", [seal(C2), keys(E1), proof_with([["N"], ["K"], ["P", key_of(C1)]])], "input 3: other root"),
    ("a part of facts, and a key that isn't shown", "verify --keys", [seal(C1, C2), keys(E1), proof_with([["H", HIGH], ["K"], *parts([], held_keys([C1, C2]))])],
     "input 3: not needed"),
    ("a leaf that no key needs", "verify --keys", [seal(*P[:8]), keys(OF_P[1]), keys_proof([OF_P[1], OF_P[6]], P[:8])], "input 3: not needed"),
    # The keys, counted in their order.
    ("a key that isn't shown", "verify --keys", [seal(C1), keys(E1), keys_proof([], [C1])], "key 1: not shown"),
    ("a key that isn't shown, behind one that is", "verify --keys", [seal(C1, C2), keys(E1, E2), keys_proof([E1], [C1, C2])], "key 2: not shown"),
    ("a key that is absent", "verify --keys", [seal(C1), keys(E2), keys_proof([E2], [C1])], "key 1: absent"),
    ("a key that is absent, behind one that is there", "verify --keys", [seal(C1), keys(E1, E2), keys_proof([E1, E2], [C1])], "key 2: absent"),
    ("a key that is there", "verify --keys --absent", [seal(C1), keys(E1), RIGHT], "key 1: present"),
    ("a key that is there, behind one that is absent", "verify --keys --absent", [seal(*P[:8]), keys(E1, OF_P[2]), keys_proof([E1, OF_P[2]], P[:8])], "key 2: present"),
    ("a key by one neighbour alone", "verify --keys --absent", [seal(*P[:8]), keys(OF_P[8]), proof_with(
        [["K"], *parts_with(held_keys(P[:8]), {leaves_for(digits(OF_P[8]), held_keys(P[:8]))[0]: "P"})])], "input 3: not needed"),
]
