"""Files of keys that are asked for."""
from tests.reference.atoms import LETTERS
from tests.reference.events import Fault, is_name
from tests.reference.json_text import NotJson, NotWhole, quoted, read_canonical
from tests.reference.sealed_files import Lines, head, read_sealed, sealed

KEYS = b"CADF-KEYS 1"


class KeyLines(Lines):
    """The keys, each a letter and a name, in the order of their lines."""

    def __init__(self):
        self.keys, self.last = [], b""

    def take(self, line):
        try:
            key = read_canonical(line.decode())
        except (NotJson, NotWhole, UnicodeDecodeError):
            raise Fault("shape")
        if not isinstance(key, list) or len(key) != 2 or key[0] not in list(LETTERS) or not is_name(key[1]):
            raise Fault("shape")
        if line <= self.last:
            raise Fault("order")
        self.last = line
        self.keys.append(tuple(key))


def read_keys(data):
    log, lines = read_sealed(data, {KEYS: KeyLines})
    return log, lines.keys


def keys_with(log, keys):
    """The file of these keys, which may be in any order."""
    return sealed(head(KEYS, log) + sorted({("[%s,%s]" % tuple(map(quoted, key))).encode() for key in keys}))
