"""Proofs of growth between the seals of site folders: of each part that changed, the parts of a proof of growth."""
from tests.reference.events import Fault
from tests.reference.growth_files import growth_parts, grown
from tests.reference.seal_files import PART, ProofLines, SealLines, keys_of, leaves_of, sealed_in, spelled_part
from tests.reference.sealed_files import Lines, head, read_sealed, sealed
from tests.reference.site_seal_files import is_part
from tests.reference.split_files import UNITS, in_order, parts_of

SITE_GROWTH = b"CADF-SITE-GROWTH 1"


class SiteGrowthLines(Lines):
    """The unit, and of each part, by its name, the parts of its trees."""

    def __init__(self):
        self.unit, self.parts = None, {}

    def left(self, line):
        return "unended" if line.startswith(b"Z") and self.unit is None else None

    def take(self, line):
        text = line.decode("utf-8", "replace")
        if self.unit is None:
            if text[:2] != "B " or text[2:] not in UNITS:
                raise Fault("shape")
            self.unit = text[2:]
        elif PART.fullmatch(line) or line == b"K":
            if not self.parts:
                raise Fault("shape")
            self.parts[list(self.parts)[-1]].take(line)
        else:
            self.begin(text)

    def begin(self, text):
        if text[:2] != "W " or not is_part(text[2:], self.unit):
            raise Fault("shape")
        if text[2:] in self.parts or in_order([*self.parts, text[2:]])[-1] != text[2:]:
            raise Fault("order")
        self.parts[text[2:]] = ProofLines()


def read_site_growth(data):
    return read_sealed(data, {SITE_GROWTH: SiteGrowthLines})


def site_growth_of(log, earlier, later, unit):
    """The proof of how the atoms of a folder came of earlier ones."""
    then, now = parts_of(earlier, unit), parts_of(later, unit)
    lines = head(SITE_GROWTH, log) + [b"B " + unit.encode()]
    for name in in_order(then):
        old, new = then[name], now.get(name, set())
        if old != new:
            facts, keys = (growth_parts(set(digests(old)), digests(new)) for digests in (leaves_of, keys_of))
            lines += [b"W " + name.encode(), *(spelled_part(*part) for part in [*facts, ("K", None), *keys])]
    return sealed(lines)


def last(seal, name):
    """What a seal has of a part, or had when it went."""
    return {**seal.gone, **seal.parts}.get(name, sealed_in([]))


def site_grown(old, new, proof, listed=None, first=None):
    """Of each part that changed, by its name, the line of what came. All but the last two are what was read, with their logs."""
    (log, then), (_, now), (_, shown) = old, new, proof
    for other, lines in (new, proof):
        if other != log:
            raise Fault("other log")
        if lines.unit != then.unit:
            raise Fault("other unit")
    for name in in_order({*then.parts, *then.gone}):
        went = name in now.gone and name not in now.parts
        if name in then.parts and went and (first is None or name >= first) or name not in {*then.parts, *now.parts} and now.gone.get(name) != then.gone[name]:
            raise Fault("%s: gone" % name)
    changed = {name for name, held in then.parts.items() if last(now, name) != held}
    for name in in_order({*changed, *shown.parts}):
        if name not in shown.parts:
            raise Fault("%s: %s" % (name, "not shown" if name in {*now.parts, *now.gone} else "gone"))
        if name not in changed:
            raise Fault("%s: not needed" % name)
    return {name: part_grown(name, then, now, shown, listed) for name in in_order(changed)}


def part_grown(name, then, now, proof, listed):
    try:
        return grown(*(SealLines(*last(seal, name)) for seal in (then, now)), proof.parts[name], listed)
    except Fault as fault:
        raise Fault("%s: %s" % (name, fault.said))
