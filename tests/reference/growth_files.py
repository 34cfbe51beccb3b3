"""Proofs of growth: how one sealed set came of another, by the tree of what both have together."""
from tests.reference.events import Fault
from tests.reference.seal_files import (
    PROOF, Shown, can_be_of, keys_of, leaves_of, parts_of, root_without, spelled_part, tree_of,
)
from tests.reference.sealed_files import head, sealed

OLD, NEW, GROWTH = 1, 2, 3  # the inputs of a reader


# ---- What is made

def letters_of(earlier, later):
    """The letter of each leaf of both sets together, by the leaf, in rising order."""
    return {leaf: "P" if leaf in earlier and leaf in later else "A" if leaf in later else "G" for leaf in sorted({*earlier, *later})}


def growth_parts(earlier, later):
    """The parts of a tree that show how one set of digests came of another."""
    letters = letters_of(earlier, later)
    changes = "".join(letters.values())
    shown = {leaf: letter for place, (leaf, letter) in enumerate(letters.items())
             if changes[max(0, place - 1):place + 2].strip("P")}
    return parts_of(list(letters), shown)


def growth_with(log, facts, keys):
    """The file of a proof with these parts of the two trees; without the line between them, if there are None of keys."""
    parts = facts if keys is None else [*facts, ("K", None), *keys]
    return sealed(head(PROOF, log) + [spelled_part(*part) for part in parts])


def growth_of(log, earlier, atoms):
    """The proof of how a set of atoms came of what a sealed list has."""
    return growth_with(log, growth_parts(earlier.facts, leaves_of(atoms)), growth_parts(earlier.keys, keys_of(atoms)))


# ---- What is said

def has_idle_leaf(parts):
    """Whether a leaf of both sets is beside none of one set alone."""
    ends = "".join(letter for letter, _ in parts if letter != "N")
    return any(end == "P" and not {"A", "G"} & set(ends[max(0, place - 1):place + 2]) for place, end in enumerate(ends))


def refusals(parts, earlier, later):
    """What is wrong with the parts of one tree under a number and a root of each set, from the first on: inputs and causes."""
    if not can_be_of(parts, earlier[0], later[0]):
        yield GROWTH, "other count"
    try:
        tree = tree_of(parts)
    except Fault as fault:
        yield GROWTH, fault.said
        return
    for number, letter, (count, root) in ((OLD, "A", earlier), (NEW, "G", later)):
        if root_without(letter, tree, count) != root:
            yield number, "other root"
    try:
        Shown(parts).check()
    except Fault as fault:
        yield GROWTH, fault.said
    if "NHH" in "".join(letter for letter, _ in parts) or has_idle_leaf(parts):
        yield GROWTH, "not needed"


def check_tree(name, parts, earlier, later):
    refused = next(refusals(parts, earlier, later), None) if parts is not None else (GROWTH, "no tree")
    if refused:
        raise Fault("input %d: %s: %s" % (refused[0], name, refused[1]))


def check_gone(name, parts, erased):
    for letter, digest in parts:
        if letter == "G" and digest not in erased:
            raise Fault("input %d: %s: gone: %s" % (NEW, name, digest.hex()))


def grown(old, new, proof, erased):
    """The line of how one sealed set came of another; `erased` is a list, or None without one. All are of one log."""
    check_tree("facts", proof.parts, old.facts, new.facts)
    check_tree("keys", proof.keys, old.keys, new.keys)
    check_gone("facts", proof.parts, erased.facts if erased else ())
    check_gone("keys", proof.keys, erased.keys if erased else ())
    letters = [letter for letter, _ in proof.parts]
    said = "added %d" % letters.count("A") + (", erased %d" % letters.count("G") if erased else "")
    return said.encode() + b"\n"
