"""Rulings: a person's choice among the values of a key, and what it settles."""
import hashlib

from tests.reference.atoms import LETTERS, RULING
from tests.reference.events import Fault, is_name
from tests.reference.rehearsal import NUMBER


def digest_of_value(text):
    """The digits of the digest of a value's canonical text."""
    return hashlib.sha256(text.encode()).hexdigest()


def rulings_of(atoms):
    """The rulings, rising."""
    return sorted(atom for atom in atoms if atom[0] == RULING)


def ruled_value(atoms, letter, name, values):
    """The one value of a key with several values that is ruled, or None."""
    ruled = [value for value in values if (RULING, letter, name, digest_of_value(value)) in atoms]
    return ruled[0] if len(values) > 1 and len(ruled) == 1 else None


def place_of(word):
    """The place that a word of the command line tells, from 1."""
    if word == "0" or not NUMBER.fullmatch(word):
        raise Fault("place", 2)
    return int(word)


def check_key(letter, name):
    """Refuses words of the command line that are no key's."""
    if letter not in LETTERS:
        raise Fault("letter", 2)
    if not is_name(name):
        raise Fault("key", 2)


def ruled(atoms, letter, name, place):
    """The atoms with the ruling for the value at that place among all values of the key."""
    values = sorted(atom[2] for atom in atoms if atom[:2] == (letter, name) and len(atom) == 3)
    if place > len(values):
        raise Fault("no such value")
    return atoms | {(RULING, letter, name, digest_of_value(values[place - 1]))}
