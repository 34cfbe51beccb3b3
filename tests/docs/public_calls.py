"""The public calls that public_calls.txt beside this lists, those of the crates, and those that tables of calls make.

Each public call must be listed, each listed one must stand behind a row, and each that takes memory behind a row whose
answer is no refusal.
"""
import collections
import re

from tests import text_of
from tests.docs import reachable
from tests.proofs import corpus
from tests.tables import make

# A paragraph of the list: the crate and whether its calls take memory, or what no row makes, and of which crate if it has no other calls.
LISTED = re.compile(r"(?m)^(?:(\w+), (with|without) memory|Only (?:.* of (cadf_\w+), )?.*):\n((?:  .*\n)+)")
OWNER = re.compile(r"(?:impl(?:<.*?>)? (?:\w+(?:<.*?>)? for )?|pub trait )(\w+)")
SIGNATURE = re.compile(r"(?s).*?(?=\n\s+(?:requires|ensures)|\{|;\n)")


def listed(text):
    """The listed calls: whether each takes memory, None for what no row makes; and the crates of the list."""
    calls, crates = {}, set()
    for crate, memory, home, names in LISTED.findall(text):
        crates |= {crate, home} - {""}
        calls.update((name, memory == "with" if crate else None) for name in re.findall(r"[\w:]+", names))
    return calls, crates


def does_nothing(function):
    """Whether the function has neither a result nor what it could change: `type_invariant`, or a law."""
    signature = SIGNATURE.match(function).group()
    return "->" not in signature and "&mut" not in signature


def blocks(crate):
    """The blocks of a crate's sources: a function, or a type's functions."""
    for path in corpus.files_of(crate, "src"):
        yield from re.split(r"(?m)^(?=\S.*[{(]$|impl|pub |fn )", text_of(path))


def calls_of(owner, block):
    """The public functions of a type or of a trait, but for those that do nothing."""
    public = "    (?:pub )?" if block.startswith("pub trait") else "    pub "
    for found in re.finditer(r"(?m)^%sfn (\w+)" % public, block):
        if not does_nothing(block[found.start():]):
            yield "%s::%s" % (owner, found.group(1))


def public(crate):
    """The public calls that a crate shows, its own and those that it exports of others, but for those that do nothing."""
    shown = collections.defaultdict(set)
    for _, home, item in reachable.items(crate):
        shown[home].add(item)
    for home, items in shown.items():
        for block in blocks(home):
            owner, function = OWNER.match(block), re.match(r"pub fn (\w+)", block)
            if owner and owner.group(1) in items:
                yield from calls_of(owner.group(1), block)
            elif function and function.group(1) in items and not does_nothing(block):
                yield function.group(1)


def made():
    """The calls behind a row, and those behind a row whose answer is no refusal."""
    asked, answered = set(), set()
    for table in map(make.table, make.tables()):
        for call, words, fields, _ in table.ROWS:
            calls = {one for name in make.row_names(call, words) for one in table.CALLS.get(name, [])}
            asked |= calls
            answered |= calls if fields[0] != "err" else set()
    return asked, answered


def uncalled():
    """What is wrong with the list of public calls."""
    calls, crates = listed(text_of("tests/docs/public_calls.txt"))
    stand = {(crate, name) for crate in crates for name in public(crate)}
    for crate, name in sorted(stand):
        if not {name, "%s::%s" % (crate, name)} & set(calls):
            yield "%s of %s is not listed" % (name, crate)
    names = {spelled for crate, name in stand for spelled in (name, "%s::%s" % (crate, name))}
    asked, answered = made()
    for name, memory in calls.items():
        if name not in names:
            yield "%s is listed, and no crate has it" % name
        elif memory is not None and name not in asked:
            yield "no row makes %s" % name
        elif memory and name not in answered:
            yield "no row of %s has an answer that is no refusal" % name
    for name in sorted(name for name in asked - names if not name.endswith("Fault::fmt")):
        yield "a table names %s, and no crate has it" % name
    print("check-promises: %d calls listed, of which %d take memory" % (len(calls), sum(map(bool, calls.values()))))
