"""Rows of the driver of files: key files that are read, proofs that are made for keys, and keys that are verified.

Words: those of a reading, and a file, whose answer has the log and the number of keys. Of a proof that is made: a reading,
a key file, a log and the facts' lines. Of keys that are verified: a reading, the files of a seal, of a proof and of the
keys, and whether they are asked to be `present` or `absent`.
"""
from tests.tables import key_rows
from tests.tables.key_rows import E1, E2, E3, OF_P, P, held_keys, keys, keys_proof, told
from tests.tables.seal_rows import parts, seal
from tests.tables.texts import C1, C2, LIMIT, LIMITS, PIECES, data, digits, lined, refused
from tests.tables.worked_files import RULING

CALLS = {"read_keys": ["read_model", "KeyList::log", "KeyList::len"], "keys_proof": ["Proof::of_keys"], "verified_keys": ["verified_keys"]}

KEYS, PROOF, SAYS = "Key file", "Proof file", "What a proof says to its reader"
ROWS = [("read_keys", [LIMIT, size, 0, keys(*some)], ["ok", "g", len(some)], KEYS) for some in ([], [E1], [E1, E2], OF_P) for size in PIECES]
ROWS += [
    ("read_keys", [LIMIT, 7, 0, keys(log='a"b')], ["ok", 'a"b', 0], KEYS),
    ("read_keys", [len(keys(E1)), 7, 0, keys(E1)], ["ok", "g", 1], LIMITS),
    ("read_keys", [len(keys(E1)) - 1, 7, 0, keys(E1)], ["err", "TooLarge"], LIMITS),
    ("read_keys", [LIMIT, 4096, 2, keys(E1)], ["err", "ReadFault"], LIMITS),
]
ROWS += [("read_keys", [LIMIT, 4096, 0, data(lined("CADF-KEYS 1", *lines))], refused("Line %s %s" % tuple(said[5:].title().split(": "))), KEYS)
         for lines, said in key_rows.BAD_KEYS]


def proved(asked, atoms):
    """The row of a proof for keys, of atoms that stand behind their carriers."""
    found = ["ok", "g", "K", *(word for part in parts(map(digits, asked), held_keys(atoms)) for word in part)]
    return "keys_proof", [LIMIT, 4096, 0, keys(*asked), "g", *atoms], found, PROOF


ROWS += [proved(asked, atoms) for asked in ([], [E1], [E1, E2], [E3], OF_P[:2]) for atoms in ([], [C1], [C1, C2], [RULING], P[:8])]
ROWS += [("keys_proof", [LIMIT, 4096, 0, "", "g"], ["no keys"], PROOF), ("keys_proof", [LIMIT, 4096, 0, keys(E1), "g", "x"], ["no replica"], PROOF)]


def verified(command, files, answer, size=4096):
    of, asked, by = files
    return "verified_keys", [LIMIT, size, 0, of, by, asked, "absent" if "--absent" in command else "present"], answer, SAYS


# The words of what is said of a proof's parts, and of a key by its number.
FAULTS = {"other count": "OtherCount", "no tree": "NoTree", "other root": "OtherRoot", "order": "Order", "not needed": "NotNeeded",
          "not shown": "NotShown", "absent": "Absent", "present": "Present"}


def words_of(said):
    place, _, cause = said.partition(": ")
    return ["Proof", FAULTS[cause]] if place == "input 3" else [FAULTS[cause], "Key", place.split()[1]]


ROWS += [verified(command, files, ["ok", output]) for _, command, files, output in key_rows.WRITTEN if command.startswith("verify --keys")]
ROWS += [verified(command, files, ["err", *words_of(said)]) for _, command, files, said in key_rows.REFUSED
         if command.startswith("verify --keys") and said.partition(": ")[2] in FAULTS]
ROWS += [verified("", [seal(*P[:8]), keys(*OF_P[:8]), keys_proof(OF_P[:8], P[:8])], ["ok", told("present", OF_P[:8])], size) for size in (1, 7, 50)]
ROWS += [("verified_keys", [LIMIT, 4096, 0, *files, "present"], [word], SAYS) for files, word in (
    (["", "", ""], "no seal"), ([seal(C1), "", ""], "no proof"), ([seal(C1), keys_proof([E1], [C1]), ""], "no keys"))]
