"""Generated growth: sets that grow or lose, lists of what was sealed and of what was erased, and those with something odd in a line."""
from tests.generated.odd_files import atoms_of, documents_told, grounded_part, some_file_of, with_rulings
from tests.generated.odd_proofs import DAMAGES
from tests.generated.odd_lines import odd_file
from tests.reference.growth_files import growth_parts, growth_with
from tests.reference.list_files import ERASED, SEALED, list_with, sealed_list_of
from tests.reference.replica_files import file_of
from tests.reference.seal_files import key_leaf, keys_of, leaf_of, leaves_of, seal_of

LINES = [b"F " + b"0" * 64, b"K " + b"0" * 64, b"F " + b"f" * 64, b"K " + b"f" * 64, b"F", b"K", b"f " + b"0" * 64, b""]


def add_line(chance, lines):
    lines.insert(chance.randint(0, len(lines)), chance.choice(LINES))


def changed(chance, atoms):
    """The atoms and others, or some of them, or both; now and then the same, or none."""
    more = with_rulings(chance, atoms_of(documents_told(chance)))
    fewer = grounded_part(chance, atoms)
    but_one = atoms - {chance.choice(sorted(atoms))} if atoms else atoms
    return chance.choice([atoms | more, atoms | more, atoms | more, fewer, but_one, fewer | more, but_one | more, set(atoms), more, set()])


def some_log(chance):
    return "g" if chance.random() < 0.96 else chance.choice(["h", "g ", "G"])


def some_of(chance, digests):
    return {digest for digest in digests if chance.random() < 0.7}


def erased_list(chance, atoms, left):
    """An erased list: what went of the atoms as these are left, more or less of it, facts and keys exchanged, or others."""
    facts, keys = ({*made(atoms)} - {*made(left)} for made in (leaves_of, keys_of))
    chosen = chance.choice([
        (facts, keys), (facts, keys), (facts, keys), (leaves_of(atoms), keys_of(atoms)), (some_of(chance, facts), keys), (facts, some_of(chance, keys)),
        (keys, facts), (leaves_of(left), keys), ([], keys_of(atoms)), ([], [])])
    return list_with(ERASED, some_log(chance), *chosen)


def omitting_list(chance, atoms):
    """An erased list: of keys of some atoms, and of the digests of some, rulings among them."""
    some, others = sorted(atom for atom in atoms if chance.random() < 0.3), atoms_of(documents_told(chance))
    rulings = [leaf_of(atom) for atom in sorted(atoms) if atom[0] == "U" and chance.random() < 0.6]
    keys = {key_leaf(atom) for atom in some if chance.random() < 0.6}
    facts = {*rulings, *(leaf_of(atom) for atom in some if chance.random() < 0.6)}
    return list_with(ERASED, some_log(chance), facts, keys | chance.choice([set(), set(), facts, set(keys_of(others))]))


def sealed_list(chance, atoms):
    """A sealed list: of the atoms, or of no set."""
    if chance.random() < 0.9:
        return sealed_list_of(some_log(chance), atoms)
    return list_with(SEALED, "g", some_of(chance, leaves_of(atoms)), some_of(chance, [*keys_of(atoms), *leaves_of(atoms)]))


def odd_list(chance, data):
    """A list with something odd in it, or what is none."""
    return odd_file(chance, data, 2, [*DAMAGES, add_line, add_line], list_with(SEALED, "g", [], []), list_with(ERASED, "g", [], []), seal_of("g", []), file_of("g", set()))


def proof_between(chance, earlier, later):
    """The proof of growth from some atoms to others; now and then that of other sets, or with the trees exchanged."""
    made = [growth_parts(set(digests(earlier)), set(digests(later))) for digests in (leaves_of, keys_of)]
    kind = chance.random()
    if kind < 0.06:
        made = chance.choice([made[::-1], [made[0], None], [[], made[1]], [made[0], []], [made[1], made[1]]])
    elif kind < 0.12:
        return proof_between(chance, later, chance.choice([earlier, later]))
    return growth_with(some_log(chance), *made)


def file_for(chance, atoms):
    return some_file_of(chance, some_log(chance), atoms)
