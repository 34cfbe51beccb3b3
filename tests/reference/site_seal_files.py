"""Seals of site folders: of each part how many atoms and keys it has, and the roots of them."""
import re

from tests.reference.events import Fault
from tests.reference.seal_files import ABOVE, sealed_in, seal_with
from tests.reference.sealed_files import Lines, head, read_sealed, sealed
from tests.reference.split_files import SHARED, UNITS, in_order, parts_of

SITE_SEAL = b"CADF-SITE-SEAL 1"
NUMBER_AND_ROOT = r" ([1-9][0-9]{0,19}) ([0-9a-f]{64})"
LINE = re.compile(r"([WG]) (\S+)" + 2 * NUMBER_AND_ROOT, re.ASCII)
FLOOR = re.compile(r"T (\S+)")
NAMES = {unit: re.compile(re.sub("%0(.)d", r"[0-9]{\1}", form)) for unit, form in UNITS.items()}


def is_part(name, unit):
    """Whether a part by that unit may have the name, by its form."""
    return name == SHARED or NAMES[unit].fullmatch(name) is not None


class SiteSealLines(Lines):
    """The unit, the floor or None, and what a seal has of each part, and of each window that went, by its name."""

    def __init__(self):
        self.unit, self.floor, self.parts, self.gone = None, None, {}, {}

    def left(self, line):
        return "unended" if line.startswith(b"Z") and self.unit is None else None

    def take(self, line):
        text = line.decode("utf-8", "replace")
        if self.unit is None:
            if text[:2] != "B " or text[2:] not in UNITS:
                raise Fault("shape")
            self.unit = text[2:]
            return
        floor = FLOOR.fullmatch(text)
        if floor and floor[1] != SHARED and is_part(floor[1], self.unit):
            if self.floor is not None or self.parts:
                raise Fault("order")
            self.floor = floor[1]
            return
        found = LINE.fullmatch(text)
        if not found or not is_part(found[2], self.unit) or int(found[3]) >= ABOVE or int(found[5]) >= ABOVE:
            raise Fault("shape")
        if found[1] == "G" and (found[2] == SHARED or self.floor is None or found[2] >= self.floor):
            raise Fault("shape")
        own = self.gone if found[1] == "G" else self.parts
        if in_order([*own, found[2]])[-1] != found[2] or found[2] in own or found[1] == "G" and self.parts:
            raise Fault("order")
        own[found[2]] = int(found[3]), bytes.fromhex(found[4]), int(found[5]), bytes.fromhex(found[6])


def read_site_seal(data):
    return read_sealed(data, {SITE_SEAL: SiteSealLines})


def line_of(letter, name, atoms):
    count, root, keys, keys_root = sealed_in(atoms)
    return "%s %s %d %s %d %s" % (letter, name, count, root.hex(), keys, keys_root.hex())


def site_seal_of(log, atoms, unit, floor=None, gone=()):
    """The seal of a folder with these atoms, whose floor is that window, and from which these went."""
    parts, old = parts_of(atoms, unit), parts_of(gone, unit)
    went = ["T " + floor, *(line_of("G", name, old[name]) for name in in_order(old))] if floor else []
    lines = ["B " + unit, *went, *(line_of("W", name, parts[name]) for name in in_order(parts))]
    return sealed(head(SITE_SEAL, log) + [line.encode() for line in lines])


def window_seal_of(data, name):
    """The seal of a part, by the seal of its folder."""
    log, lines = read_site_seal(data)
    return seal_with(log, *{**lines.gone, **lines.parts}.get(name, sealed_in([])))
