"""Seals of sets of facts, and proofs of what is in them: by the trees of the bits of digests, of the facts' and of their keys'."""
import hashlib
import re

from tests.reference.atoms import RULING
from tests.reference.events import Fault
from tests.reference.inventory_files import digest_of
from tests.reference.json_text import quoted
from tests.reference.sealed_files import Lines, head, read_sealed, sealed

SEAL, PROOF = b"CADF-SEAL 1", b"CADF-PROOF 1"
COUNTED = re.compile(rb"[NM] (0|[1-9][0-9]{0,19})")
ROOTED = re.compile(rb"[RS] ([0-9a-f]{64})")
PART = re.compile(rb"N|[HPAG] ([0-9a-f]{64})")
ABOVE = 2 ** 64  # all counts
HIGHEST = 256  # trees, by the nodes above each other


# ---- The tree

def hashed(data):
    return hashlib.sha256(data).digest()


def leaf_hash(digest):
    return hashed(b"\0" + digest)


def node_hash(zeros, ones):
    return hashed(b"\1" + zeros + ones)


def rooted(count, tree_hash):
    """The root of so many digests, by the hash of their tree."""
    return hashed(b"\2" + count.to_bytes(8, "big") + tree_hash)


def halves(digests):
    """Several digests, which rise, divided by the first bit in which they are not all the same."""
    numbers = [int.from_bytes(digest, "big") for digest in digests]
    bit = (numbers[0] ^ numbers[-1]).bit_length() - 1
    ones = sum(number >> bit & 1 for number in numbers)
    return digests[:-ones], digests[-ones:]


def hash_of(digests):
    """The hash of the tree of these digests, which rise."""
    if not digests:
        return hashed(b"")
    if len(digests) == 1:
        return leaf_hash(digests[0])
    return node_hash(*map(hash_of, halves(digests)))


def root_of(digests):
    return rooted(len(digests), hash_of(digests))


def parts_of(digests, shown):
    """The parts, in preorder, of the tree of digests that rise. `shown` has those that are shown, each with its letter."""
    if not any(digest in shown for digest in digests):
        return [("H", hash_of(digests))] if digests else []
    if len(digests) == 1:
        return [(shown[digests[0]], digests[0])]
    zeros, ones = halves(digests)
    return [("N", None), *parts_of(zeros, shown), *parts_of(ones, shown)]


def tree_of(parts):
    """The tree of parts in preorder, each with its letter, what it holds and its height; None of no parts."""
    above = []  # trees, of which the last comes first
    for letter, digest in reversed(parts):
        if letter != "N":
            above.append((letter, digest, 0))
        elif len(above) < 2:
            raise Fault("no tree")
        else:
            zeros, ones = above.pop(), above.pop()
            above.append((letter, (zeros, ones), 1 + max(zeros[2], ones[2])))
    if len(above) > 1 or above and above[0][2] > HIGHEST:
        raise Fault("no tree")
    return above[0] if above else None


def hash_without(letter, tree):
    """The hash of a tree without its leaves of that letter, or None if there is no other."""
    own, held, _ = tree
    if own == "N":
        zeros, ones = (hash_without(letter, half) for half in held)
        return node_hash(zeros, ones) if zeros and ones else zeros or ones
    if own == letter:
        return None
    return held if own == "H" else leaf_hash(held)


# ---- Digests of facts and of their keys

def raw(digits):
    return bytes.fromhex(digits.decode())


def leaf_of(atom):
    """The digest of an atom, or of a key."""
    return raw(digest_of(atom))


def key_leaf(atom):
    """The digest of an atom's key."""
    return leaf_of(atom[1:3] if atom[0] == RULING else atom[:2])


def leaves_of(atoms):
    """The digests of atoms, rising."""
    return sorted(map(leaf_of, atoms))


def keys_of(atoms):
    """The digests of the keys of atoms, rising."""
    return sorted(set(map(key_leaf, atoms)))


def sealed_in(atoms):
    """What a seal has of atoms: their number and root, and the number and the root of their keys."""
    leaves, keys = leaves_of(atoms), keys_of(atoms)
    return len(leaves), root_of(leaves), len(keys), root_of(keys)


# ---- Files

def count_in(line):
    found = COUNTED.fullmatch(line)
    if not found or int(found[1]) >= ABOVE:
        raise Fault("shape")
    return int(found[1])


def root_in(line):
    found = ROOTED.fullmatch(line)
    if not found:
        raise Fault("shape")
    return raw(found[1])


class SealLines(Lines):
    """The number and the root of facts, and of their keys."""
    READ = [(b"N", count_in), (b"R", root_in), (b"M", count_in), (b"S", root_in)]

    def __init__(self, *found):
        self.found = list(found)

    def left(self, line):
        return "unended" if line.startswith(b"Z") and len(self.found) < len(self.READ) else None

    def take(self, line):
        if len(self.found) == len(self.READ):
            raise Fault("shape")
        letter, read = self.READ[len(self.found)]
        if line[:1] != letter:
            raise Fault("shape")
        self.found.append(read(line))

    @property
    def facts(self):
        """The number of facts, and their root."""
        return tuple(self.found[:2])

    @property
    def keys(self):
        """The number of keys, and their root."""
        return tuple(self.found[2:])


class ProofLines(Lines):
    """The parts before a line `K`, each with its letter and its digest, and those after it, or None without that line."""

    def __init__(self):
        self.parts, self.keys = [], None

    def take(self, line):
        if line == b"K" and self.keys is None:
            self.keys = []
            return
        found = PART.fullmatch(line)
        if not found:
            raise Fault("shape")
        own = self.parts if self.keys is None else self.keys
        own.append((line[:1].decode(), raw(found[1]) if found[1] else None))


def read_seal(data):
    return read_sealed(data, {SEAL: SealLines})


def read_proof(data):
    return read_sealed(data, {PROOF: ProofLines})


def seal_with(log, count, root, keys, keys_root):
    lines = [b"N %d" % count, b"R " + root.hex().encode(), b"M %d" % keys, b"S " + keys_root.hex().encode()]
    return sealed(head(SEAL, log) + lines)


def seal_of(log, atoms):
    return seal_with(log, *sealed_in(atoms))


def shown_for(leaf, leaves):
    """The leaves, of all that rise, that are shown for a digest: its own, or its neighbours."""
    if leaf in leaves:
        return {leaf}
    return {*[other for other in leaves if other < leaf][-1:], *[other for other in leaves if other > leaf][:1]}


def spelled_part(letter, digest):
    return letter.encode() + (b" " + digest.hex().encode() if digest else b"")


def proof_with(log, parts):
    return sealed(head(PROOF, log) + [spelled_part(*part) for part in parts])


def parts_for(asked, leaves):
    """The parts that show of the asked digests whether they are among the leaves, which rise."""
    shown = set().union(*(shown_for(leaf, leaves) for leaf in asked))
    return parts_of(leaves, dict.fromkeys(shown, "P"))


def proof_of(log, facts, atoms):
    """The proof of which of the facts are in the set of the atoms."""
    return proof_with(log, parts_for(leaves_of(facts), leaves_of(atoms)))


def keys_proof_of(log, keys, atoms):
    """The proof of which of the keys facts of the set have."""
    return proof_with(log, [("K", None), *parts_for(map(leaf_of, keys), keys_of(atoms))])


# ---- What a proof says

def can_be_of(parts, earlier, later):
    """Whether the parts can be of so many leaves without those that came, and of so many without those that went."""
    letters = [letter for letter, _ in parts]
    left = {count - letters.count("P") - letters.count(other) for other, count in (("G", earlier), ("A", later))}
    least = letters.count("H")
    return len(left) == 1 and (min(left) >= least if least else min(left) == 0)


def root_without(letter, tree, count):
    """The root of so many leaves by a tree, or by None, without its leaves of that letter."""
    return rooted(count, tree and hash_without(letter, tree) or hashed(b""))


class Shown:
    """What is beside each other in parts, nodes passed over: of each part its letter, and its digest if it is a leaf."""

    def __init__(self, parts):
        self.ends = [(letter, digest if letter != "H" else None) for letter, digest in parts if letter != "N"]
        self.leaves = [digest for _, digest in self.ends]  # None stands for what is hidden

    def check(self):
        pairs = list(zip(self.ends, self.ends[1:]))
        if any(one and other and other <= one for (_, one), (_, other) in pairs):
            raise Fault("order")
        if any({letter, other} in ({"H", "A"}, {"H", "G"}) for (letter, _), (other, _) in pairs):
            raise Fault("neighbour hidden")

    def around(self, place):
        """The leaves beside the part of that place: None is hidden, and an end has the least or the greatest."""
        beyond = [b"", *self.leaves, b"\xff" * 33]
        return beyond[place], beyond[place + 2]

    def needed(self, leaf):
        """The places of the leaves that a fact with that digest needs."""
        for place, (letter, other) in enumerate(self.ends):
            below, above = self.around(place)
            if letter == "P" and (other == leaf or other > leaf and below is not None and below < leaf
                                  or other < leaf and above is not None and above > leaf):
                yield place

    def state(self, leaf):
        """Whether a fact with that digest is `present` or `absent`; None if it isn't shown."""
        if ("P", leaf) in self.ends:
            return "present"
        around = zip([b"", *self.leaves], [*self.leaves, b"\xff" * 33])
        return "absent" if any(None not in pair and pair[0] < leaf < pair[1] for pair in around) else None


def states_of(leaves, count, root, parts, has_others):
    """Of each digest whether it is `present` or `absent`, by what the parts of a tree show under its number and root.

    Refusals are those of a proof; it `has_others` if it has parts of the other tree.
    """
    if not can_be_of(parts, count, count):
        raise Fault("other count")
    tree = tree_of(parts)
    if any(root_without(letter, tree, count) != root for letter in "AG"):
        raise Fault("other root")
    shown = Shown(parts)
    shown.check()
    needed = set().union(*(shown.needed(leaf) for leaf in leaves))
    letters = "".join(letter for letter, _ in parts)
    if "NHH" in letters or len(needed) < sum(map(letters.count, "PAG")) or has_others:
        raise Fault("not needed")
    return [shown.state(leaf) for leaf in leaves]


def lines_of(kind, asked, states, wanted):
    """The lines of facts or keys, each of which has to be `present` or `absent`, as wanted."""
    for number, state in enumerate(states, 1):
        if state != wanted:
            raise Fault("%s %d: %s" % (kind, number, state or "not shown"))
    return b"".join(line_of(wanted, each) for each in asked)


def verified(seal, facts, proof, wanted):
    """The lines that verify writes of the facts."""
    if not facts:
        raise Fault("input 2: no facts")
    facts = sorted(facts)
    try:
        states = states_of(list(map(leaf_of, facts)), *seal.facts, proof.parts, proof.keys is not None)
    except Fault as fault:
        raise Fault("input 3: " + fault.said)
    return lines_of("fact", facts, states, wanted)


def verified_keys(seal, keys, proof, wanted):
    """The lines that verify writes of the keys, which stand as in their file."""
    if not keys:
        raise Fault("input 2: no keys")
    if proof.keys is None:
        raise Fault("input 3: no tree")
    try:
        states = states_of(list(map(leaf_of, keys)), *seal.keys, proof.keys, proof.parts != [])
    except Fault as fault:
        raise Fault("input 3: " + fault.said)
    return lines_of("key", keys, states, wanted)


def line_of(state, fact):
    key = fact[2 if fact[0] == RULING else 1]
    return ("%s %s %s " % (state, fact[0], quoted(key))).encode() + digest_of(fact) + b"\n"
