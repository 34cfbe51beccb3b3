"""Proofs under the seals of site folders: of each part that facts are in, a proof under the seal of that part."""
from tests.reference.events import Fault
from tests.reference.seal_files import SealLines, proof_of, read_proof, sealed_in, verified
from tests.reference.sealed_files import Lines, head, read_sealed, sealed
from tests.reference.site_seal_files import is_part
from tests.reference.split_files import UNITS, in_order, parts_of

SITE_PROOF = b"CADF-SITE-PROOF 1"


class SiteProofLines(Lines):
    """The unit, and the proof file of each part, by its name; `own` is the name of the part whose file is read."""

    def __init__(self):
        self.unit, self.parts, self.own = None, {}, None

    def left(self, line):
        return "unended" if line.startswith(b"Z") and self.unit is None else None

    def is_last(self, line):
        return line.startswith(b"Z") and self.own is None

    def take(self, line):
        text = line.decode("utf-8", "replace")
        if self.unit is None:
            if text[:2] != "B " or text[2:] not in UNITS:
                raise Fault("shape")
            self.unit = text[2:]
        elif self.own is None:
            self.begin(text)
        else:
            self.parts[self.own] += line + b"\n"
            self.own = None if line.startswith(b"Z") else self.own

    def begin(self, text):
        self.own = text[2:]
        if text[:2] != "W " or not is_part(self.own, self.unit):
            raise Fault("shape")
        if self.own in self.parts or in_order([*self.parts, self.own])[-1] != self.own:
            raise Fault("order")
        self.parts[self.own] = b""


def read_site_proof(data):
    return read_sealed(data, {SITE_PROOF: SiteProofLines})


def site_proof_of(log, facts, atoms, unit):
    """The proof of which of the facts are in the set of a folder's atoms."""
    asked, held = parts_of(facts, unit), parts_of(atoms, unit)
    lines = head(SITE_PROOF, log) + [b"B " + unit.encode()]
    for name in in_order(asked):
        lines += [b"W " + name.encode(), *proof_of(log, asked[name], held.get(name, set())).splitlines()]
    return sealed(lines)


def site_verified(seal, facts, proof, wanted):
    """The lines that are written of the facts, each of which has to be `present` or `absent`, as wanted. All are what was read."""
    (log, seal), (proof_log, proof) = seal, proof
    if proof_log != log:
        raise Fault("other log")
    if proof.unit != seal.unit:
        raise Fault("other unit")
    if not facts:
        raise Fault("no facts")
    asked = parts_of(facts, seal.unit)
    for name in in_order({*asked, *proof.parts}):
        if name not in proof.parts:
            raise Fault("%s: not shown" % name)
        if name not in asked:
            raise Fault("%s: not needed" % name)
    return b"".join(part_verified(log, name, SealLines(*seal.parts.get(name, sealed_in([]))), asked[name], proof.parts[name], wanted)
                    for name in in_order(asked))


def part_verified(log, name, seal, facts, proof, wanted):
    try:
        own_log, proof = read_proof(proof)
        if own_log != log:
            raise Fault("other log")
        return verified(seal, facts, proof, wanted)
    except Fault as fault:
        raise Fault("%s: %s" % (name, fault.said.replace("input 3: ", "")))
