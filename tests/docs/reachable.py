"""What can be named from outside a crate: its public items, those of its public modules, what it exports, and methods.

A name is a path behind the crate: `Replica`, `laws::atom_rules_match_documents`, `Replica::join`. A method has its type's or trait's name.
"""
import collections
import functools
import glob
import os
import re

from tests import TOP, text_of
from tests.proofs import corpus

ITEM = re.compile(r"(?m)^pub (?:const fn|extern \"C\" fn|fn|struct|enum|trait|type|const) (\w+)")
MODULE = re.compile(r"(?m)^pub mod (\w+);")
EXPORT = re.compile(r"(?m)^pub use ((?:\w+::)+)(?:\{([^}]*)\}|(\w+(?: as \w+)?));")
BLOCK = re.compile(r"(?ms)^(?:impl(?:<[^\n]*?>)? ([^\n]*?)|pub trait (\w+)[^\n]*) \{\n(.*?)^\}")
METHOD = re.compile(r"(?m)^    (pub )?fn (\w+)")
LAW = re.compile(r"(?m)^(?:pub(?:\(\w+\))? )?fn (\w+).*\n(?:(?![{}]).*\n)*\{\}$")


@functools.lru_cache(None)
def libraries():
    """Lists the crates that others can name items of."""
    paths = glob.glob(os.path.join(TOP, "crates", "*", "src", "lib.rt"))
    return sorted(path.split(os.sep)[-3] for path in paths)


def source(crate, *module):
    """Reads the file of a module, `lib` for the crate's own."""
    return text_of(os.path.join("crates", crate, "src", *module) + ".rt")


def exports(crate, text):
    """Yields each name that the text's `pub use` lines export, with the crate that has the item and its name there."""
    for path, several, one in EXPORT.findall(text):
        first = path.split("::")[0]
        for name in re.findall(r"\w+(?: as \w+)?", several or one):
            item, _, other = name.partition(" as ")
            yield other or item, first if first in libraries() else crate, item


def items(crate, *module):
    """Yields each name that a module has for those outside, with the crate that has the item and its name there."""
    text = source(crate, *module or ("lib",))
    yield from ((name, crate, name) for name in ITEM.findall(text))
    yield from exports(crate, text)
    for inner in MODULE.findall(text):
        yield inner, crate, inner
        for name, owner, item in items(crate, *module, inner):
            yield "%s::%s" % (inner, name), owner, item


@functools.lru_cache(None)
def methods(crate):
    """Returns the methods of each type and trait of a crate: the public ones, and those of traits."""
    found = collections.defaultdict(set)
    for path in corpus.files_of(crate, "src"):
        for head, trait, body in BLOCK.findall(text_of(path)):
            owner = re.match(r"[\w:]+", trait or head.split(" for ")[-1])
            of_trait = trait or " for " in head
            names = {name for public, name in METHOD.findall(body) if public or of_trait}
            found[owner.group().split("::")[-1] if owner else head] |= names
    return found


@functools.lru_cache(None)
def names(crate):
    """Returns the names that can be reached in a crate from outside."""
    found = set()
    for name, owner, item in items(crate):
        found |= {name} | {"%s::%s" % (name, method) for method in methods(owner)[item]}
    return found


@functools.lru_cache(None)
def ends():
    """Returns the ends of all names of all crates, as a page that speaks of one crate writes them."""
    paths = [name.split("::") for crate in libraries() for name in names(crate)]
    return {"::".join(path[at:]) for path in paths for at in range(len(path))}


def is_reachable(path):
    """Tells whether a path, with or without its crate, can be named from outside, as can a crate itself."""
    crate, _, name = path.partition("::")
    if name and crate in libraries():
        return name in names(crate)
    return path in ends() or os.path.isdir(os.path.join(TOP, "crates", path))


def unreached_laws():
    """Yields each law, a function with an empty body, that can't be named from outside its crate, with the crate."""
    for crate in libraries():
        reached = {name.split("::")[-1] for name, _, _ in items(crate)}
        for path in corpus.files_of(crate, "src"):
            yield from ((crate, law) for law in LAW.findall(text_of(path)) if law not in reached)
