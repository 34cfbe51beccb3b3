"""Words by chance of the calls that the driver of replicas makes.

A replica, or an inventory, is one word: its log, and behind it a line for each atom, or the digits of each digest. Each
function makes the words of one call or of several that take the same.
"""
from tests.generated.file_answers import line_of
from tests.generated.generate import nearly, some_digests
from tests.generated.odd_files import DIGITS, ODD_LISTS, STEP, atoms_of, documents_told, grounded_part, some_carrier, with_rulings
from tests.generated.odd_lines import ODD_LOG_LINES, damaged
from tests.generated.odd_nodes import ELEMENTS
from tests.generated.odd_values import any_value, good_name, nested, odd_name
from tests.generated.schedules import script
from tests.generated.spelling import spelled_oddly
from tests.reference.atoms import RULING, is_atom, is_on_a_carrier
from tests.reference.events import NO_PROPERTY
from tests.reference.inventory_files import digest_of
from tests.reference.rulings import digest_of_value
from tests.reference.shown_texts import values_by_key


def spelled_set(log, lines):
    """The word of a replica or an inventory."""
    return "\n".join([log, *lines])


def some_atoms(chance):
    """A set of atoms, sometimes with properties whose names tell one order from another."""
    atoms = with_rulings(chance, atoms_of(documents_told(chance)))
    names = [good_name(chance) for _ in range(chance.choice([0, 0, 5]))]
    return atoms | {("P", name, "1") for name in names}


def some_log(chance):
    return chance.choice(["g"] * 7 + ["h"])


def word_of(chance, atoms, log="g"):
    """The word of a replica, its atoms in any order but behind their carriers."""
    lines = sorted(atoms)
    chance.shuffle(lines)
    return spelled_set(log, map(line_of, sorted(lines, key=is_on_a_carrier)))


def list_at_a_limit(chance):
    """A list of texts that is an atom where it nests not too deep, and its chain is not too long."""
    deep, deeper = (nested(chance, chance.choice([least, least + 1])).data.decode() for least in (99, 100))
    return chance.choice([
        ["P", "n", deeper], ["R", "a", '{"d":%s,"id":"a"}' % deep], some_carrier(chance) + ["A", '{"d":%s}' % deep],
        some_carrier(chance) + ["C", '{"d":%s,"reporterId":"s","role":"relay"}' % deep],
        some_carrier(chance) + ["C"] + [STEP] * chance.choice([256, 257])])


def odd_list(chance):
    """A list of texts that is an atom, or nearly one."""
    if chance.random() < 0.2:
        return list_at_a_limit(chance)
    found = chance.choice(chance.choice(ODD_LISTS)(chance, some_carrier(chance)))
    return found if isinstance(found, list) and all(isinstance(text, str) for text in found) else []


def some_atom(chance):
    made = odd_list(chance)
    return tuple(made) if is_atom(made) else chance.choice(sorted(some_atoms(chance)) or [("P", "n", "1")])


def odd_line(chance):
    """The line of an atom, or of what is nearly one."""
    made = chance.choice([odd_list, lambda chance: list(some_atom(chance))])(chance)
    line = spelled_oddly(chance, made, chance.choice([0] * 5 + [0.1]))
    return (damaged(chance, line, 1) if chance.random() < 0.2 else line).decode(errors="replace")


def front(chance):
    """A list of few texts, with which an atom may begin."""
    letter = chance.choice([*"EEGMPPPR", "U", "X", "A", ""])
    name = chance.choice(["e1", chance.choice(NO_PROPERTY), odd_name(chance)])
    behind = some_carrier(chance) + [chance.choice([*"ACT", "X", ""])]
    return chance.choice([[letter], [letter, name], [letter, name], ["U", letter], ["U", letter, name], behind])


def some_path(chance):
    """A list of texts, perhaps cut, or with another text in it or behind it."""
    if chance.random() < 0.5:
        return front(chance)
    made = chance.choice([odd_list, lambda chance: list(some_atom(chance))])(chance)
    made = made[:chance.choice([len(made), len(made), chance.randint(0, len(made))])]
    if chance.random() < 0.3:
        place = chance.randint(0, len(made))
        made[place:place + chance.randint(0, 1)] = [chance.choice([one for one in ELEMENTS if isinstance(one, str)])]
    return made


def two_lines(chance):
    """The lines of two atoms, mostly of one set."""
    atoms = sorted(grounded_part(chance, some_atoms(chance)) | {some_atom(chance)})
    return [line_of(chance.choice(atoms)), line_of(chance.choice(atoms))]


def name_words(chance):
    if chance.random() < 0.3:
        return [chance.choice(ODD_LOG_LINES)[2:].decode(errors="replace")]
    value = odd_name(chance) if chance.random() < 0.8 else any_value(chance, 1)
    return [spelled_oddly(chance, value, chance.choice([0, 0, 0.2])).decode(errors="replace")]


def document_words(chance):
    """A replica and a document about its keys, or an event by itself."""
    told = documents_told(chance, 2, 5)
    made = dict(chance.choice(told), id=some_log(chance))
    if made["events"] and chance.random() < 0.3:
        made = made["events"][0]
    text = spelled_oddly(chance, made, chance.choice([0, 0.1])).decode()
    return [word_of(chance, grounded_part(chance, with_rulings(chance, atoms_of(told)))), text]


def atom_words(chance):
    """A replica, and an atom that is held, or that could be."""
    atoms = some_atoms(chance)
    atom = chance.choice(sorted(atoms) or [some_atom(chance)]) if chance.random() < 0.8 else some_atom(chance)
    return [word_of(chance, grounded_part(chance, atoms)), line_of(atom)]


def last_words(chance):
    """A replica and an atom that is mostly above all of its atoms."""
    atoms = sorted(some_atoms(chance) | {some_atom(chance)})
    cut = chance.randrange(len(atoms))
    atom = atoms[cut] if chance.random() < 0.8 else chance.choice(atoms)
    before = {one for one in atoms[:cut] if not is_on_a_carrier(one) or one[:3] in atoms[:cut]}
    return [word_of(chance, before), line_of(atom)]


def replica_words(chance):
    return [word_of(chance, some_atoms(chance), some_log(chance))]


def letter_words(chance):
    return [word_of(chance, some_atoms(chance)), chance.choice([*"EEEPPRRGM", "U", "X", ""])]


def key_words(chance):
    """A replica, a letter, and mostly the name of a key that is held, of a conflicted one if there are some.

    Of its values none, one or more are ruled, or one that is not held."""
    atoms = some_atoms(chance)
    keys = sorted(values_by_key(atoms).items()) or [(("E", "e1"), [])]
    (letter, name), values = chance.choice([one for one in keys if len(one[1]) > 1] * 3 + keys)
    ruled = chance.choice([[], values[:1], values[-1:], [*values[:1], "{}"], values])
    atoms |= {(RULING, letter, name, digest_of_value(text)) for text in ruled}
    if chance.random() < 0.2:
        letter, name = chance.choice(["U", "X", *"EGMPR"]), chance.choice([name, "", "e", name[:-1], name + "!", odd_name(chance)])
    return [word_of(chance, atoms), letter, name]


def body_words(chance):
    """A replica, and an identifier with a body that it mostly has."""
    atoms = some_atoms(chance)
    bodies = [atom for atom in sorted(atoms) if atom[0] == "E" and len(atom) == 3]
    _, name, body = chance.choice(bodies or [some_carrier(chance)])
    if chance.random() < 0.1:
        _, name, body = some_carrier(chance, chance.choice([name, "e1"]))
    return [word_of(chance, atoms), name, body]


def pair_words(chance):
    """Two replicas of the same facts, each a part of them or all."""
    atoms = with_rulings(chance, atoms_of(documents_told(chance, 2, 5)))
    parts = [chance.choice([atoms, grounded_part(chance, atoms)]) for _ in range(2)]
    return [word_of(chance, parts[0]), word_of(chance, parts[1], some_log(chance))]


def inventory_words(chance):
    """A replica and an inventory of the same facts, or nearly so."""
    atoms = some_atoms(chance)
    digests = sorted(one.decode() for one in some_digests(chance, atoms))
    return [word_of(chance, grounded_part(chance, atoms)), spelled_set(some_log(chance), digests)]


def digest_words(chance):
    """An inventory, and a digest that stands in it, or nearly so."""
    digests = sorted(digest_of(atom) for atom in some_atoms(chance))
    digest = chance.choice(digests or [digest_of(some_atom(chance))])
    chance.shuffle(digests)
    return [spelled_set("g", [one.decode() for one in digests[chance.choice([0, 1, 1]):]]),
            chance.choice([digest, digest, nearly(chance, digest), b"0" * 64, b"f" * 64]).decode()]


def ruling_words(chance):
    """A letter, a name and digits, perhaps with something odd in one of them or in all."""
    return [chance.choice([*"EGMPR"] * 4 + ["U", "A", "e", "X", ""]),
            chance.choice(["e1", "id", "name", odd_name(chance)]),
            chance.choice([digest_of_value("1")] * 4 + DIGITS)]


def value_words(chance):
    return ruling_words(chance)[:2] + [chance.choice(["1", "{}", '"north"', some_carrier(chance)[2]])]


def taken_words(chance):
    """A replica and a ruling, mostly one of a value that it has."""
    atoms = some_atoms(chance)
    letter, name, text = chance.choice([atom for atom in sorted(atoms) if len(atom) == 3] or [("P", "n", "1")])
    return [word_of(chance, atoms), letter, name, digest_of_value(text + chance.choice(["", "", "", " "]))]


def script_words(chance):
    return [script(chance, chance.choice([1, 2, 3, 8]))]


def schedule_words(chance):
    count = chance.choice([1, 2, 2, 3, 3, 4, 8])
    return ["g", count, script(chance, count)]
