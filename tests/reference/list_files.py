"""Lists of facts and keys by their digests: what was sealed of a log, and what was erased of it."""
import re

from tests.reference.atoms import RULING
from tests.reference.events import Fault
from tests.reference.seal_files import key_leaf, keys_of, leaf_of, leaves_of, raw
from tests.reference.sealed_files import Lines, head, read_sealed, sealed

SEALED, ERASED = b"CADF-SEALED 1", b"CADF-ERASED 1"
LINE = re.compile(rb"([FK]) ([0-9a-f]{64})")


class ListLines(Lines):
    """The digests of facts, and those of keys."""

    def __init__(self):
        self.facts, self.keys, self.last = set(), set(), b""

    def take(self, line):
        found = LINE.fullmatch(line)
        if not found:
            raise Fault("shape")
        if line <= self.last:
            raise Fault("order")
        self.last = line
        (self.facts if found[1] == b"F" else self.keys).add(raw(found[2]))


def read_sealed_list(data):
    return read_sealed(data, {SEALED: ListLines})


def read_erased_list(data):
    return read_sealed(data, {ERASED: ListLines})


def list_with(first_line, log, facts, keys):
    """A list of these digests, which may be in any order."""
    named = [b"F " + digest.hex().encode() for digest in facts] + [b"K " + digest.hex().encode() for digest in keys]
    return sealed(head(first_line, log) + sorted(named))


def sealed_list_of(log, atoms):
    return list_with(SEALED, log, leaves_of(atoms), keys_of(atoms))


def left_by(erased, atoms):
    """The atoms that an erased list doesn't leave out."""
    def is_left_out(atom):
        return key_leaf(atom) in erased.keys or atom[0] == RULING and leaf_of(atom) in erased.facts
    return {atom for atom in atoms if not is_left_out(atom)}
