"""Chain trees and flat sets of lists beside plain sets of Python, exhaustively where they are small.

The calls are rows for the driver of sets, which the program crates/drivers answers. A tree holds some of the 6 chains
of one or two texts, of two; a flat set some of the 7 lists of up to two texts, or of the 15 of up to three.
"""
import itertools
import json
import subprocess
import tempfile

import pytest

from tests.machine import side_by_side
from tests.tables import fields

PARTS = 16  # runs
LONG = sorted(one for size in range(4) for one in itertools.product("ab", repeat=size))
SHORT = [one for one in LONG if len(one) <= 2]
CHAINS = SHORT[1:]
LOOKS, PAIRS = 1057, 500  # sets of the 15 lists that are looked at, and pairs of them: of all there are too many
STEPS = [("step",) * length for length in range(302)]


def picked(lists, number):
    """The lists of the plain set of that number: its lowest bit says whether it has the first of them, and so on."""
    return [one for place, one in enumerate(lists) if number >> place & 1]


def spelled(value):
    return json.dumps(value, separators=(",", ":"))


def found(one):
    """What is answered where a list is looked for: that one, or none."""
    return ["ok", "none"] if one is None else ["ok", "some", spelled(one)]


def truth(holds):
    return [bool(holds)]


def holds(kind, held):
    """The calls by which a value tells what it holds."""
    yield "value.append_lists", [kind, spelled(held), "[]"], ["ok", spelled(held)]
    yield "value.list_count", [kind, spelled(held)], [len(held)]
    yield "value.is_empty", [kind, spelled(held)], truth(not held)


def trees_look(number):
    """A tree walks, counts and finds."""
    held = picked(CHAINS, number)
    yield from holds("tree", held)
    yield "tree.walk", [spelled(held)], ["ok", spelled(held)]
    yield "tree.count", [spelled(held)], [len(held)]
    yield "tree.longest", [spelled(held)], found(max(held, key=len, default=None))
    yield "tree.least", [spelled(held)], found(min(held, default=None))


def trees_treat(number, chain):
    """A tree finds a chain and the one after it, and takes it."""
    held = picked(CHAINS, number)
    words = [spelled(held), spelled(chain)]
    yield "tree.contains", words, truth(chain in held)
    yield "tree.after", words, found(min((one for one in held if one > chain), default=None))
    yield "tree.insert", words, ["ok", chain not in held, spelled(sorted({*held, chain}))]


def pairs(kind, lists, ours, theirs):
    """Two values compare, lack and join; that which took the lists of one after those of the other is the union."""
    one, other, union = picked(lists, ours), picked(lists, theirs), picked(lists, ours | theirs)
    lacking = picked(lists, theirs & ~ours)
    yield "value.same", [kind, spelled(one), spelled(other)], truth(one == other)
    yield "value.missing_from", [kind, spelled(other), spelled(one)], ["ok", "some", spelled(lacking)] if lacking else ["ok", "none"]
    yield "value.join", [kind, spelled(one), spelled(other)], ["ok", spelled(union)]
    yield "value.same", [kind, spelled(other + one), spelled(union)], truth(True)


def flat_sets_look(number):
    """A flat set holds and finds; a list is above it if it has none from that one on."""
    held = picked(LONG, number)
    yield from holds("paths", held)
    for one in LONG:
        yield "paths.contains", [spelled(held), spelled(one)], truth(one in held)
        yield "paths.is_above", [spelled(held), spelled(one)], truth(all(other < one for other in held))


def put_backwards(number):
    """A flat set that is put from the last list to the first, each twice."""
    held = picked(SHORT, number)
    backwards = spelled([one for one in reversed(held) for _ in range(2)])
    yield "value.copy", ["paths", backwards], ["ok", spelled(held)]
    yield "value.list_count", ["paths", backwards], [len(held)]
    for one in SHORT:
        yield "paths.contains", [backwards, spelled(one)], truth(one in held)
        yield "paths.is_above", [backwards, spelled(one)], truth(all(other < one for other in held))


def halves():
    """The chains of one text that have an even and an odd length make all of them."""
    even, odd, whole = STEPS[0:300:2], STEPS[1:300:2], STEPS[:300]
    yield "value.list_count", ["paths", spelled(even)], [150]
    yield "value.missing_from", ["paths", spelled(whole), spelled(even)], ["ok", "some", spelled(odd)]
    yield "value.join", ["paths", spelled(even), spelled(odd)], ["ok", spelled(whole)]
    yield "value.same", ["paths", spelled(odd + even), spelled(whole)], truth(True)


def share_beginnings(length):
    """A chain of one text is found among those of odd lengths if its length is odd."""
    yield "paths.contains", [spelled(STEPS[1:300:2]), spelled(STEPS[length])], truth(length % 2 and length < 300)


def numbers():
    """Pairs of sets of fifteen lists, in large steps, so that they fall anywhere."""
    for pair in range(PAIRS):
        yield (pair * 25173 + 13849) % 32768, (pair * 20221 + 4097) % 32768

CASES = [
    ("trees look", [trees_look(number) for number in range(64)]),
    ("trees treat a chain", [trees_treat(number, chain) for number in range(64) for chain in CHAINS]),
    ("pairs of trees", [pairs("tree", CHAINS, ours, theirs) for ours in range(64) for theirs in range(64)]),
    ("flat sets look", [flat_sets_look(number * 31 % 32768) for number in range(LOOKS)]),
    ("flat sets put backwards", [put_backwards(number) for number in range(128)]),
    ("pairs of flat sets", [pairs("paths", SHORT, ours, theirs) for ours in range(128) for theirs in range(128)]),
    ("pairs of long flat sets", [pairs("paths", LONG, ours, theirs) for ours, theirs in numbers()]),
    ("halves of long chains", [halves()]),
    ("chains that share their beginnings", [share_beginnings(length) for length in range(302)]),
]


def faults(program, rows):
    """What is wrong with the answers to some calls. A file is read faster by the program than a pipe."""
    with tempfile.TemporaryFile("w+", encoding="utf-8") as asked:
        asked.writelines(fields.line(["set", call, *words]) for call, words, _ in rows)
        asked.seek(0)
        done = subprocess.run([program], stdin=asked, capture_output=True)
    answers = done.stdout.decode().split("\n")
    if done.returncode or done.stderr or len(answers) != len(rows) + 1:
        yield "status %d, %d answers to %d calls" % (done.returncode, len(answers) - 1, len(rows))
    for (call, words, wanted), answer in zip(rows, answers):
        if answer != fields.line(wanted)[:-1]:
            yield "%s %.300s: wanted %.200s, came %.200s" % (call, words, fields.line(wanted)[:-1], answer)


@pytest.mark.parametrize("cases", [cases for _, cases in CASES], ids=[name for name, _ in CASES])
def test_calls(drivers, cases):
    rows = [row for case in cases for row in case]
    parts = [rows[at::PARTS] for at in range(min(PARTS, len(rows)))]
    assert [fault for found in side_by_side(lambda part: list(faults(drivers, part)), parts) for fault in found][:10] == []
