"""Generated seals and proofs: those of one set, those of others, those with something odd in a line, and those of no set."""
from tests.generated.odd_files import atoms_of, documents_told, grounded_part, with_rulings
from tests.generated.odd_lines import drop_some, insert_one, make_one_odd, odd_file, repeat_one, swap, turn
from tests.reference.events import Fault
from tests.reference.seal_files import (
    hash_of, hash_without, leaf_hash, leaves_of, proof_of, proof_with, rooted, seal_of, seal_with, sealed_in, tree_of,
)


def facts_for(chance, atoms, told):
    """Facts that are among the atoms, that are not, or both."""
    others = atoms_of(documents_told(chance))
    return chance.choice([
        lambda: grounded_part(chance, atoms), lambda: grounded_part(chance, atoms), lambda: others, lambda: others - atoms,
        lambda: grounded_part(chance, others | atoms), lambda: with_rulings(chance, atoms_of(told)), set, lambda: set(atoms)])()


def nearly(chance, facts, atoms):
    """Facts that are others mostly by one."""
    some = sorted(atoms - facts if chance.random() < 0.5 else facts)
    if not some:
        return set(facts)
    return facts ^ {chance.choice(some)}


def change_digit(chance, lines):
    """Leaves a line of its kind."""
    if lines and len(lines[-1]) > 60:
        place = chance.randrange(len(lines))
        line, at = lines[place], chance.randrange(len(lines[place]) - 20, len(lines[place]))
        lines[place] = line[:at] + (b"1" if line[at:at + 1] == b"0" else b"0") + line[at + 1:]


def add_line(chance, lines):
    letter = chance.choice([b"H ", b"P ", b"A ", b"G ", b"R ", b"S ", b"P 0 "])
    lines.append(chance.choice([letter + b"0" * 64, letter + b"f" * 64, b"N", b"K", b"N 0", b"M 0", b""]))

# What may be done to the lines of a seal or a proof.
DAMAGES = [make_one_odd] * 3 + [drop_some] * 3 + [change_digit] * 2 + [repeat_one, swap, add_line, insert_one]


def odd(chance, data):
    """A seal or a proof with something odd in it."""
    return odd_file(chance, data, 2, DAMAGES)


def seal_and_proof(chance, facts, atoms, others):
    """A seal of the atoms, and a proof for the facts: now and then of other atoms, or for other facts."""
    log, wanted, held = "g", facts, atoms
    if chance.random() < 0.15:
        wanted = chance.choice([nearly(chance, facts, atoms), nearly(chance, facts, others), facts | atoms, set()])
    if chance.random() < 0.1:
        held = chance.choice([nearly(chance, atoms, others), atoms | facts, atoms - facts, set()])
    if chance.random() < 0.05:
        log = chance.choice(["h", "g ", "G"])
    return seal_of("g", atoms), proof_of(log, wanted, held)


def near(chance, digest):
    """A digest that is above or below this one by little."""
    return (int.from_bytes(digest, "big") ^ 1 << chance.choice([0, 0, 1, 7, 8, 254, 255])).to_bytes(32, "big")


def alike(chance, digest):
    """Parts of trees that are the same without what came and without what went: one leaf, or two with the same digest."""
    came, went, hidden = ("A", digest), ("G", digest), ("H", leaf_hash(digest))
    ends = chance.choice([[came, went], [went, came]])
    return chance.choice([[("N", None), *ends], [("N", None), ("N", None), ends[0], hidden, ends[1]], [("N", None), ends[0], ("N", None), hidden, ends[1]]])


def some_part(chance, leaf, own):
    """The parts that stand for a leaf, which is one of a fact's own or not."""
    kind = chance.random()
    if kind < (0.9 if leaf in own else 0.15):
        return [("P", leaf)]
    return alike(chance, leaf) if kind > 0.98 else [(chance.choice("AG" + "H" * 50), leaf)]


def joined(chance, trees):
    """The parts of a tree of any shape that has these trees, one beside another."""
    if len(trees) == 1:
        return trees[0]
    place = chance.randrange(1, len(trees))
    return [("N", None), *joined(chance, trees[:place]), *joined(chance, trees[place:])]


def below(chance, parts):
    """The parts of a tree that has this one below about as many nodes as a tree may have above each other."""
    nodes, hidden = chance.choice([250, 255, 256, 257, 300]), [("H", bytes(32))]
    return [("N", None)] * nodes + parts + hidden * nodes


def root_by(parts, count, letter):
    """The root of so many leaves by a tree without those of a letter; that of no leaves, if the parts are no tree."""
    try:
        tree = tree_of(parts)
    except Fault:
        tree = None
    return rooted(count, tree and hash_without(letter, tree) or hash_of([]))


def of_no_set(chance, facts):
    """A seal and a proof of a tree whose leaves need not rise, and of which any are shown: a liar's."""
    own = leaves_of(facts)
    leaves = [leaf for leaf in own if chance.random() < 0.9]
    leaves += [bytes(chance.randrange(256) for _ in range(32)) for _ in range(chance.randint(0, 5))]
    leaves += [near(chance, chance.choice(own))] * chance.choice([0, 0, 1]) if own else []
    leaves += [chance.choice([bytes(32), b"\xff" * 32])] * chance.choice([0, 0, 1])
    chance.choice([leaves.sort, leaves.sort, leaves.sort, lambda: chance.shuffle(leaves)])()
    if leaves and chance.random() < 0.1:
        leaves.insert(chance.randrange(len(leaves)), chance.choice(leaves))
    parts = joined(chance, [some_part(chance, leaf, own) for leaf in leaves]) if leaves else []
    if parts and chance.random() < 0.1:
        parts = below(chance, parts)
    letters = [letter for letter, _ in parts]
    count = len(letters) - letters.count("N") - letters.count("A") + ("H" in letters and chance.choice([0, 1, 9, 2 ** 32]))
    if chance.random() < 0.1:
        count = chance.choice([0, 1, count + 1, max(count - 1, 0), 2 ** 64 - 1])
    root = root_by(parts, count, chance.choice("AG"))
    if chance.random() < 0.05:
        chance.choice([turn, swap, drop_some, repeat_one])(chance, parts)
    if chance.random() < 0.05:
        parts += [("K", None), *parts[:chance.randrange(2)]]
    return seal_with("g", count, root, *sealed_in(facts)[2:]), proof_with("g", parts)
