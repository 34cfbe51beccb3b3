"""Generated calls of keys: key files, with seals and proofs of one set, of others, and with something odd in a line."""
from tests.generated import odd_proofs
from tests.generated.odd_lines import drop_some, insert_one, make_one_odd, odd_file, repeat_one, swap
from tests.reference.atoms import RULING
from tests.reference.key_files import keys_with
from tests.reference.seal_files import keys_proof_of, seal_of

SOME_LINES = [b'["E","e1"]', b'["E","e2"]', b'["P","name"]', b'["U","e1"]', b'["E", "e1"]', b'["E",1]', b'["E"]', b'["E","e1","x"]', b'["E",""]', b"[]", b"x"]


def key_of(atom):
    return atom[1:3] if atom[0] == RULING else atom[:2]


def add_line(chance, lines):
    lines.insert(chance.randint(0, len(lines)), chance.choice(SOME_LINES))


# What may be done to the lines of a key file.
DAMAGES = [make_one_odd] * 3 + [drop_some, repeat_one, swap, insert_one] + [add_line] * 3


def keys_for(chance, atoms, others):
    """Keys of which some are those of the atoms, some those of other atoms, and some have another letter."""
    held, told = (sorted(set(map(key_of, some))) for some in (atoms, others))
    keys = {key for key in held if chance.random() < 0.4} | {key for key in told if chance.random() < 0.3}
    if held and chance.random() < 0.3:
        keys.add((chance.choice("EGMPR"), chance.choice(held)[1]))
    return keys


def files_for(chance, atoms, others):
    """A key file, a seal of the atoms, and a proof, most of them in their places: now and then of other keys or of other atoms."""
    keys = keys_for(chance, atoms, others)
    if chance.random() < 0.4:  # all of them are there, or none
        held = set(map(key_of, atoms))
        keys = chance.choice([keys & held, keys - held])
    shown, of, log = keys, atoms, "g" if chance.random() < 0.95 else "h"
    if chance.random() < 0.15:
        shown = chance.choice([keys_for(chance, atoms, others), set(map(key_of, atoms)), set()])
    if chance.random() < 0.1:
        of = chance.choice([others, atoms | others, set()])
    listed, seal, proof = keys_with(log, keys), seal_of("g", atoms), keys_proof_of("g", shown, of)
    kind = chance.random()
    if kind < 0.15:
        listed = odd_file(chance, listed, 2, DAMAGES)
    elif kind < 0.2:
        seal = odd_proofs.odd(chance, seal)
    elif kind < 0.35:
        proof = odd_proofs.odd(chance, proof)
    return listed, seal, proof
