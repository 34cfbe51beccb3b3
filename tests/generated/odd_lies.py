"""Proofs of growth that are wrong, mostly in one place, under seals of which some were made for them, and what may be said of each."""
import random
import re

from tests.reference.events import Fault
from tests.reference.growth_files import growth_parts, growth_with
from tests.reference.list_files import ERASED, list_with
from tests.reference.seal_files import halves, hash_of, hash_without, root_of, root_without, seal_with, tree_of

OF_NOTHING = hash_of([])
LETTERS = "PAG"
REFUSALS = re.compile(
    r"cadf: input (?:[234]: other log|3: line \d+: shape|3: (?:facts|keys): (?:other count|no tree|order|neighbour hidden|not needed)"
    r"|[12]: (?:facts|keys): other root|2: (?:facts|keys): gone: [0-9a-f]{64})\n")
SAID = re.compile(r"added (\d+)(?:, erased (\d+))?\n")


# ---- Trees of parts: ("N", left, right), or a letter and what it holds; None has no parts

def nested(parts):
    """The tree of parts that are one."""
    def below(tree):
        letter, held, _ = tree
        return ("N", *map(below, held)) if letter == "N" else (letter, held)
    return below(tree_of(parts)) if parts else None


def flat(tree):
    if tree is None:
        return []
    return [("N", None), *flat(tree[1]), *flat(tree[2])] if tree[0] == "N" else [tree]


def subtrees(tree, path=()):
    """The path and the tree of each subtree, a path being places of halves."""
    yield path, tree
    if tree[0] == "N":
        for half in (1, 2):
            yield from subtrees(tree[half], (*path, half))


def replaced(tree, path, other):
    if not path:
        return other
    halves_ = list(tree)
    halves_[path[0]] = replaced(tree[path[0]], path[1:], other)
    return tuple(halves_)


def known_hashes(leaves):
    """The leaves of each subtree of a set, by its hash."""
    found = {hash_of(leaves): leaves} if leaves else {}
    if len(leaves) > 1:
        for half in halves(leaves):
            found.update(known_hashes(half))
    return found


# ---- Sets of digests

def some_universe(chance):
    """Digests of which many begin or end alike, so that trees are deep and neighbours close."""
    kind = chance.randrange(4)
    count = chance.choice([1, 2, 3, 5, 8, 13, 20])
    if kind == 0:
        return sorted({bytes(chance.randrange(256) for _ in range(32)) for _ in range(count)})
    base = chance.choice([0, 2 ** 256 - 1, chance.getrandbits(256)])
    bits = [chance.sample(range(256), 5), list(range(6)), list(range(250, 256))][kind - 1]
    return sorted({(base ^ sum(1 << bit for bit in bits if chance.random() < 0.5)).to_bytes(32, "big") for _ in range(2 * count)})


def two_sets(chance, universe):
    """An earlier and a later set, of which the later one has mostly more."""
    kept, gone, came = chance.choice([(0.8, 0.05, 0.1), (0.8, 0, 0.1), (0.5, 0.2, 0.2), (0.9, 0, 0), (0, 0.5, 0.5), (0, 0, 0.7), (0, 0.7, 0), (0.95, 0, 0.04)])
    earlier, later = set(), set()
    for digest in universe:
        where = chance.random()
        if where < kept + gone:
            earlier.add(digest)
        if where < kept or kept + gone <= where < kept + gone + came:
            later.add(digest)
    return earlier, later


# ---- What is done to a tree or to its parts

class Pool:
    """What a liar puts into a place: digests near those of both sets, and hashes of their subtrees."""

    def __init__(self, chance, earlier, later, universe):
        self.chance, self.universe = chance, universe
        self.known = {**known_hashes(sorted(earlier)), **known_hashes(sorted(later))}

    def digest(self):
        digest = self.chance.choice(self.universe)
        if self.chance.random() < 0.4:
            digest = (int.from_bytes(digest, "big") ^ 1 << self.chance.choice([0, 1, 2, 128, 254, 255])).to_bytes(32, "big")
        return digest

    def leaf(self):
        return self.chance.choice(LETTERS), self.digest()

    def hash(self):
        return self.chance.choice([*self.known, OF_NOTHING, self.digest()])

    def hidden(self):
        return "H", self.hash()

    def part(self):
        return self.chance.choice([self.leaf, self.leaf, self.hidden])()


def beside(pool, tree):
    other = pool.part()
    return pool.chance.choice([("N", tree, other), ("N", other, tree)])


def relabelled(pool, tree):
    return tree if tree[0] == "N" else (pool.chance.choice(LETTERS + "H"), tree[1])


def hidden(pool, tree):
    """The subtree by its hash: of all leaves, or of those of one set."""
    height = tree_of(flat(tree))
    return "H", hash_without(pool.chance.choice("AG-"), height) or OF_NOTHING


def unhidden(pool, tree):
    """A hash as the two of its halves, or as its leaf."""
    leaves = pool.known.get(tree[1]) if tree[0] == "H" else None
    if not leaves:
        return tree
    return ("P", leaves[0]) if len(leaves) == 1 else ("N", *(("H", hash_of(half)) for half in halves(leaves)))


def exchanged(_, tree):
    return ("N", tree[2], tree[1]) if tree[0] == "N" else tree


def rotated(_, tree):
    if tree[0] == "N" and tree[1][0] == "N":
        return "N", tree[1][1], ("N", tree[1][2], tree[2])
    if tree[0] == "N" and tree[2][0] == "N":
        return "N", ("N", tree[1], tree[2][1]), tree[2][2]
    return tree


def with_another(pool, tree):
    """Another hash, or a leaf with another digest."""
    return tree if tree[0] == "N" else (tree[0], pool.hash() if tree[0] == "H" else pool.digest())


def twice(pool, tree):
    return ("N", tree, pool.chance.choice([tree, relabelled(pool, tree)]))


def came_and_went(pool, tree):
    """A leaf as one that came and one that went, with or without something between them."""
    if tree[0] not in LETTERS:
        return tree
    ends = [("A", tree[1]), ("G", tree[1])]
    pool.chance.shuffle(ends)
    return pool.chance.choice([("N", *ends), ("N", ends[0], ("N", pool.part(), ends[1])), ("N", ("N", ends[0], tree), ends[1])])


def halved(pool, tree):
    return pool.chance.choice(tree[1:]) if tree[0] == "N" else tree


def replaced_whole(pool, _):
    return pool.part()


AT_A_PLACE = [beside, beside, beside, relabelled, hidden, unhidden, exchanged, rotated, with_another, twice, came_and_went, halved, replaced_whole]


def lied(pool, tree):
    """The tree with another subtree somewhere."""
    if tree is None:
        return pool.part()
    path, own = pool.chance.choice(list(subtrees(tree)))
    return replaced(tree, path, pool.chance.choice(AT_A_PLACE)(pool, own))


def out_of_order(pool, parts):
    """The parts in another order, or with one too few or too many."""
    parts, chance = list(parts), pool.chance
    place = chance.randrange(len(parts) + 1)
    if not parts or chance.random() < 0.3:
        parts.insert(place, chance.choice([("N", None), pool.part(), pool.part()]))
    elif chance.random() < 0.5:
        del parts[place:place + 1]
    else:
        other = chance.randrange(len(parts))
        place %= len(parts)
        parts[place], parts[other] = parts[other], parts[place]
    return parts


# ---- A case

class Tree:
    """What is said of one tree: two sets, of each whether its seal is honest, the numbers and roots, and the parts."""

    def __init__(self, chance, lies):
        universe = some_universe(chance)
        self.sets = two_sets(chance, universe)
        pool = Pool(chance, *self.sets, universe)
        self.known = pool.known
        self.parts = growth_parts(*self.sets)
        self.sealed = [(len(leaves), root_of(sorted(leaves))) for leaves in self.sets]
        self.is_right, self.is_of_a_set = True, [True, True]
        if lies:
            self.lie(chance, pool)

    def lie(self, chance, pool):
        self.is_right = False
        kind = chance.random()
        if kind < 0.03:
            self.parts = []
        elif kind < 0.15:
            self.parts = out_of_order(pool, self.parts)
        else:
            tree = nested(self.parts)
            for _ in range(chance.choice([1, 1, 1, 2, 3])):
                tree = lied(pool, tree)
            self.parts = flat(tree)
        self.is_of_a_set = [list(each) for each in ((True, True), (True, False), (False, True), (False, False))][chance.choices(range(4), [3, 4, 4, 1])[0]]
        for side, letter in enumerate("AG"):
            if not self.is_of_a_set[side]:
                self.sealed[side] = self.forged(chance, side, letter)
            elif chance.random() < 0.03:
                self.is_of_a_set[side] = False
                count, root = self.sealed[side]
                self.sealed[side] = (count + chance.choice([1, 2 ** 63]), root)

    def forged(self, chance, side, letter):
        """A number and a root that suit the parts as well as they can: what is hidden is as much as the other seal says, if that is of a set."""
        letters = [each for each, _ in self.parts]
        visible = letters.count("P") + letters.count("G" if letter == "A" else "A")
        hidden_ = max(letters.count("H"), chance.choice([0, 1, 5]) if "H" in letters else 0)
        if self.is_of_a_set[1 - side]:
            hidden_ = max(0, self.sealed[1 - side][0] - letters.count("P") - letters.count(letter))
        count = visible + hidden_
        try:
            tree = tree_of(self.parts)
        except Fault:
            return count, OF_NOTHING
        return count, root_without(letter, tree, count)

    def leaves(self, side):
        """The leaves of a side's tree in its order, or None if a hash is of no known subtree."""
        found = []
        for letter, held in self.parts:
            if letter == "H":
                if held not in self.known:
                    return None
                found += self.known[held]
            elif letter in ("PG" if side == 0 else "PA"):
                found.append(held)
        return found

    def of(self, letter):
        return [held for each, held in self.parts if each == letter]

    def falsehood(self):
        """What is false though it was accepted, or None."""
        earlier, later = self.sets
        came, gone = self.of("A"), self.of("G")
        if self.is_right and (set(came), set(gone)) != (later - earlier, earlier - later):
            return "a right proof has other leaves"
        for side, (own, changes, others) in enumerate(((earlier, gone, came), (later, came, gone))):
            if not self.is_of_a_set[side]:
                continue
            left = self.leaves(1 - side)
            if not set(changes) <= own or set(others) & own:
                return "what came was there, or what went wasn't"
            if left is None or sorted(set(left)) != left or set(left) != own - set(changes) | set(others) or len(left) != self.sealed[1 - side][0]:
                return "the other tree differs from the set in another way than was said"
        if all(self.is_of_a_set) and (set(came), set(gone)) != (later - earlier, earlier - later):
            return "other facts came or went"
        return None


class Lie:
    """A call of `grew`, and what it may say."""

    def __init__(self, seed, number):
        chance = random.Random("liars %d/%d" % (seed, number))
        kind = chance.random()
        self.facts, self.keys = Tree(chance, kind < 0.7), Tree(chance, 0.55 < kind < 0.95)
        self.logs = ["g"] * 4
        if chance.random() < 0.03:
            self.logs[chance.randrange(4)] = "h"
        self.listed = self.some_list(chance)
        keys = None if chance.random() < 0.02 else self.keys.parts
        self.has_keys = keys is not None
        seals = [seal_with(log, *self.facts.sealed[side], *self.keys.sealed[side]) for side, log in enumerate(self.logs[:2])]
        self.is_turned = chance.random() < 0.03
        if self.is_turned:
            seals.reverse()
            for tree in (self.facts, self.keys):
                tree.sets, tree.sealed, tree.is_of_a_set = tree.sets[::-1], tree.sealed[::-1], tree.is_of_a_set[::-1]
        self.files = dict(zip((b"old", b"new"), seals))
        self.files[b"proof"] = growth_with(self.logs[2], self.facts.parts, keys)
        self.words = [b"grew", b"old", b"new", b"proof"]
        if self.listed is not None:
            self.files[b"list"] = list_with(ERASED, self.logs[3], *self.listed)
            self.words[1:1] = [b"--erased", b"list"]

    def some_list(self, chance):
        """No list, one of what went as the parts say or as the sets do, of less, or with facts and keys exchanged."""
        said = [set(tree.of("G")) for tree in (self.facts, self.keys)]
        done = [tree.sets[0] - tree.sets[1] for tree in (self.facts, self.keys)]
        return chance.choice([
            lambda: None, lambda: None, lambda: said, lambda: said, lambda: said, lambda: done, lambda: [set(), set()], lambda: said[::-1],
            lambda: [{digest for digest in each if chance.random() < 0.8} for each in said], lambda: [said[0] | done[0], said[1]]])()

    @property
    def is_right(self):
        """Whether it has to be accepted: nothing in it is a lie, and all that went is listed."""
        listed = self.listed or [set(), set()]
        right = self.has_keys and not self.is_turned and len(set(self.logs[:4 if self.listed else 3])) == 1
        return right and all(tree.is_right and set(tree.of("G")) <= each for tree, each in zip((self.facts, self.keys), listed))

    def falsehood(self, told):
        """What is wrong with an answer, or None."""
        output, error = told.output.decode(), (told.error or b"").decode()
        if told.status:
            if told.status != 1 or output or not REFUSALS.fullmatch(error):
                return "no refusal of FORMATS"
            return "a right proof is refused" if self.is_right else None
        said = SAID.fullmatch(output)
        if not said or error or (said[2] is None) != (self.listed is None):
            return "no line of FORMATS"
        if not self.has_keys:
            return "without the keys"
        came, gone = (len(self.facts.of(letter)) for letter in "AG")
        if (int(said[1]), int(said[2] or 0)) != (came, gone if self.listed is not None else 0):
            return "other numbers"
        for tree, listed in zip((self.facts, self.keys), self.listed or [set(), set()]):
            if not set(tree.of("G")) <= listed:
                return "what went isn't listed"
        return self.facts.falsehood() or self.keys.falsehood()
