"""Allocations of the calls of crates/drivers are refused in turn: what they answer then.

Each row of crates/drivers/stdin is given to the program again and again: once with nothing refused, and then with each
allocation refused in turn that it makes from the end of the row to its answer; of a row with more than WAYS says, every
nth. This is done in two ways: one allocation is refused, or all from that one on, where a driver has mostly no memory
to tell more than `err Memory`. Rows of LEFT_OUT are not tried. What may be answered then:

- what the row says: the call did without, or tried again by itself;
- `err Memory`: the call was refused, or the driver had no memory for its words or its answer. A driver that takes atoms
  or digests one by one says `no replica`, `no inventory` or `no sketch`; that of the engines says `no such call`, or
  `NoLog` where the log's name couldn't be kept;
- of a call that changes what it is made on: `err Memory`, what is held then, and what the same call answers that is
  made again, which is what the row says. What was held is held, unchanged or, where the call joins, with a part of what
  comes;
- of a call that changes nothing: `err Memory`, and what the same call answers that is made again;
- of a call that writes: `err Memory` or `err WriteFault`, and the beginning of what the row says. Of a log or a
  conflict list nothing is written where it was memory that was refused to it, not to the writer;
- of a feed: what the row says up to some piece, and `err Memory` with nothing pending for each one after it, and at the
  end.

When a row is done, as many blocks are held as before it. Each call that changes something is refused in some row.
`join_twice` isn't, where one allocation is. Calls on chains of 256 steps that share 255 are refused at most 64 times,
and those on replicas ask in all for fewer bytes than the chain has that they are given: steps that are shared aren't
copied.
"""
import collections
import json
import os
import re
import subprocess
from typing import NamedTuple

import pytest

from tests.machine import CRATES, compiled, side_by_side
from tests.tables import fields

PROGRAM = "drivers"
WAYS = {"one": 300, "rest": 30}  # how allocations are refused, and how many of a row; where it makes more, every nth is
MOST_GROWTHS = 64  # refusals of a call on chains of 256 steps that share all but one
REFUSED = "err\tMemory\n"
# Calls that change what a word of them spells: its place, and whether a refused one leaves it as it was.
CHANGES = {
    "set value.join": (2, False), "set map.join_at": (2, False), "set texts.insert": (1, True), "set tree.insert": (1, True),
    "set paths.insert": (1, True), "set paths.union_with": (1, True), "set paths.take": (1, True),
    "replica replica.put": (1, False), "replica replica.put_after": (1, False), "replica replica.push_if_last": (1, True),
    "replica pair.join": (1, False), "replica document.take": (1, False), "replica document.take_sightings": (1, False),
    "replica document.take_entities": (1, False), "replica document.take_properties": (1, False), "replica ruling.take": (1, False),
    "replica inventory.put": (1, True)}
JOIN, STEADY = "replica pair.join", "replica pair.join_twice"
LONGEST = 256  # steps of a chain, in no row as many lists
# Calls on chains, which these words spell.
SHARING = {"set tree.insert": (1, 2), "set value.join": (2, 3), "replica replica.put": (1, 2), JOIN: (1, 2), STEADY: (1, 2)}
AT_ONCE = 40  # rows of a run
SECONDS = 600
UNLIMITED = 1 << 30
UNREAD = (1, b"Error: Kind(OutOfMemory)\n")  # how the program ends where it has no memory to keep the row
# Calls that write, beside the engines.
WRITES = {
    "file write", "file write_inventory", "file write_seal", "file write_proof", "file write_sketch", "file write_log", "file write_conflicts",
    "json write_all", "json write_by_std"}
# Of these nothing is written where memory is refused.
TEXTS = {"file write_log", "file write_conflicts", "engine run_show", "engine run_check", "engine run_rehearse",
         "engine ask_show", "engine ask_check", "engine ask_rehearse", "engine ask_verify", "engine ask_verify_keys"}
# What else a refusal is answered by: by a fault's text, with a count, or by a driver that takes what isn't whole as nothing.
OTHER = {
    "event fault": r"some\tout of memory\n", "json read_by_std": r"err\tMemory\t\d+\n", "file write_inventory": "no inventory\n",
    "file write_sketch": "no inventory\n", "file inventory_digest": "no inventory\n", "file seal": "no inventory\n",
    "file root_of": "no inventory\n", "file write_seal": "no inventory\n", "file proof": "no inventory\n",
    "file write_proof": "no inventory\n", "file verified": "no seal\n|no proof\n|no replica\n",
    "file keys_proof": "no keys\n|no replica\n", "file verified_keys": "no seal\n|no proof\n|no keys\n", "file read_by": "no sketch\n",
    "file missing_by_sketch": "no sketch\n", "file write": "no replica\n", "file write_log": "no replica\n", "file write_conflicts": "no replica\n",
    "engine": r"no such call\n|err\tNoLog\n"}
SIZES = {"file read", "file read_inventory", "file read_seal", "file read_proof", "file read_keys", "file read_sketch"}  # files that are refused are read in pieces of several sizes: one is enough
# Many calls a row, of which other rows have one each; and other words for what those answer.
LEFT_OUT = {"file each_failing_read", "file each_prefix", "file each_bit", "engine each", "engine metered", "engine fault"}
LEFT_OUT_DRIVERS = {"words"}  # what clap does, whose allocations tests/command/test_faults.py refuses over the command


class Row:
    """A row of the drivers: its call, and what it answers where nothing is refused."""

    def __init__(self, asked, right):
        self.asked, self.right = asked, right
        self.driver, self.name, *self.words = asked.rstrip("\n").split("\t")
        self.call = "%s %s" % (self.driver, self.name)
        self.bytes = 0  # that the call asked for where it was refused, in all

    def word(self, place):
        return fields.read(self.words[place - 1])[0]

    def is_left_out(self):
        is_another_size = self.call in SIZES and self.right.startswith("err") and self.words[1] != "7"
        return self.call in LEFT_OUT or self.driver in LEFT_OUT_DRIVERS or is_another_size

    def shares_long_chain(self):
        """Whether two words of a call on chains each have one of the greatest length."""
        return self.call in SHARING and min(map(self.chain_length, SHARING[self.call])) >= LONGEST

    def most(self, way):
        """How many allocations are refused: all of a call on long chains, whose refusals are counted."""
        return UNLIMITED if way == "one" and self.shares_long_chain() else WAYS[way]

    def state(self, spelled):
        """What is held by that spelling: the lists of a set, or the lines of a replica or an inventory."""
        return set(map(tuple, json.loads(spelled))) if self.driver == "set" else set(spelled.split(b"\n"))

    def is_left(self, held):
        """Whether a refused change may leave that."""
        place, is_unchanged = CHANGES[self.call]
        before, held = self.state(self.word(place)), self.state(held)
        after = self.state(fields.read(self.right)[-1]) if self.right.startswith("ok\t") else before
        return held == before & after if is_unchanged else before & after <= held <= after

    def is_front(self, fault, written):
        """Whether a call that writes may have written that before the fault."""
        if fault == b"Memory" and self.call in TEXTS:
            return written == b""
        return fault in (b"Memory", b"WriteFault") and fields.read(self.right)[-1].startswith(written)

    def pieces(self):
        """The fields that a feed answers to each of its pieces, and those at its end."""
        told, rest = [], self.right.rstrip("\n").split("\t")[1:]
        for _ in self.words[2:]:
            size = 1 if rest[0] != "err" else 5 if rest[1] == "Line" else 3
            told.append(rest[:size])
            rest = rest[size:]
        return told

    def closed_feeds(self):
        """What a feed may answer that is refused at a piece, or at its end."""
        told = self.pieces()
        for fed in range(len(told) + 1):
            closed = [["err", "Memory", "0"]] * (len(told) - fed) + [["err", "Memory"]]
            yield "\t".join(["fed", *(field for piece in told[:fed] + closed for field in piece)]) + "\n"

    def verdict(self, answer):
        """What an answer after a refusal is: right, refused or left, or None where it may not be."""
        if answer == self.right:
            return "right"
        if answer == REFUSED or re.fullmatch(OTHER.get(self.call) or OTHER.get(self.driver, REFUSED), answer):
            return "refused"
        if self.name == "feed":
            return "refused" if answer in self.closed_feeds() else None
        if (self.call in WRITES or self.name.startswith(("run_", "ask_"))) and answer.startswith("err\t"):
            _, fault, *written = fields.read(answer)
            return "refused" if len(written) < 2 and self.is_front(fault, b"".join(written)) else None
        if not answer.startswith("err\tMemory\t"):
            return None
        rest = answer[len("err\tMemory\t"):]
        if self.call in CHANGES and rest.endswith("\t" + self.right):
            return "left" if self.is_left(fields.read(rest[:-len(self.right) - 1])[0]) else None
        return "again" if rest == self.right else None

    def chain_length(self, place):
        """The length of the longest list that the word spells: a list or several, or the lines of atoms among others."""
        spelled = self.word(place)
        lines = [line for line in spelled.split(b"\n") if line.startswith(b"[")]
        value = json.loads(spelled) if self.driver == "set" else [json.loads(line) for line in lines]
        return max(len(one) for one in [value, *value] if isinstance(one, list))


class Round(NamedTuple):
    """A round of a row: which, the allocations of the row, and what was held, refused and answered at its end."""
    row: int
    turn: int
    step: int
    allocations: int
    held: int
    asked: int
    answer: str

    def next(self):
        """Where to begin if the round after this one couldn't be ended."""
        return "%d %d %d %d" % (self.row, self.turn + 2, self.step, self.allocations)


class Sweep:
    """The program, of which allocations are refused."""

    def __init__(self, folder, program):
        self.folder, self.library, self.program = folder, compiled(folder, "library/refusals"), program

    def ran(self, text, way, most, begin):
        """The rounds of the program from there on, and how it ended."""
        environment = {"LD_PRELOAD": self.library, "REFUSE": way, "MOST": str(most), "FROM": begin}
        done = subprocess.run([self.program], input=text, capture_output=True, cwd=self.folder, env=environment, timeout=SECONDS)
        lines = (line.split("\t", 6) for line in done.stdout.decode().split("\n")[:-1])
        return [Round(*map(int, line[:6]), line[6] + "\n") for line in lines], (done.returncode, done.stderr)

    def rounds(self, rows, way, most):
        """The rounds of the rows. Where the end of a row couldn't be kept, the program goes on with the round after it."""
        text, begin = "".join(row.asked for row in rows).encode(), "0 0 1 0"
        while True:
            found, ended = self.ran(text, way, most, begin)
            yield from found
            if ended == (0, b""):
                return
            if ended != UNREAD or not found:
                pytest.fail("%s refused: %s: ended with %s" % (way, found and found[-1], ended))
            begin = found[-1].next()

    def counts(self, rows, way, most):
        """The verdicts of the rows, where the allocations are refused in that way."""
        counts, first = [collections.Counter() for _ in rows], None
        for it in self.rounds(rows, way, most):
            row, first = rows[it.row], it if first is None else first
            verdict = row.verdict(it.answer) if it.turn else "whole" if it.answer == row.right else None
            if verdict is None or it.held != first.held:
                pytest.fail("%s: %s refused: %.400s" % (row.asked[:200], way, it))
            counts[it.row][verdict] += 1
            row.bytes += it.asked if way == "one" and verdict == "left" else 0
        if any(count["whole"] != 1 for count in counts):
            pytest.fail("%s: not all rows were run" % way)
        return counts

    def all_counts(self, rows):
        """The verdicts of each row in each way, by the row's call and words."""
        jobs = [(list(some), way, most) for way in WAYS for most in (UNLIMITED, WAYS[way])
                for some in batched([row for row in rows if row.most(way) == most])]
        found = {row.asked: {} for row in rows}
        for (some, way, _), counts in zip(jobs, side_by_side(lambda job: self.counts(*job), jobs)):
            for row, count in zip(some, counts):
                found[row.asked][way] = count
        return [found[row.asked] for row in rows]


def batched(rows):
    """The rows, so many at once."""
    return [rows[at:at + AT_ONCE] for at in range(0, len(rows), AT_ONCE)]


def rows_of(name):
    """The lines of a file of the drivers."""
    with open(os.path.join(CRATES, PROGRAM, name), encoding="utf-8", newline="\n") as file:
        return [line + "\n" for line in file.read().split("\n")[:-1]]


def faults(rows, counts):
    """What is wrong with the calls that change something, where one allocation is refused."""
    left, long = collections.Counter(), collections.Counter()
    joins = {tuple(row.words): count["one"]["left"] for row, count in zip(rows, counts) if row.call == JOIN}
    for row, count in zip(rows, counts):
        left[row.call] += count["one"]["left"]
        if row.shares_long_chain() and row.call != STEADY:
            long[row.call] += 1
            if not 0 < count["one"]["left"] <= MOST_GROWTHS:
                yield "%s: refused %d times" % (row.asked[:100], count["one"]["left"])
            if row.driver == "replica" and row.bytes >= len(row.word(SHARING[row.call][1])):
                yield "%s: asked for %d bytes" % (row.asked[:100], row.bytes)
        if row.call == STEADY and (count["one"]["again"] or count["one"]["right"] < joins[tuple(row.words)]):
            yield "%s: %s, and its join %d" % (row.asked[:100], count["one"], joins[tuple(row.words)])
    yield from ("%s is never refused" % call for call in CHANGES if left[call] == 0)
    yield from ("%s has no row with a long chain" % call for call in SHARING if long[call] == 0 and call != STEADY)


@pytest.mark.needs("gcc")
@pytest.mark.timeout(1800)
def test_rows(drivers, tmp_path):
    rows = [Row(*both) for both in zip(rows_of("stdin"), rows_of("stdout"))]
    rows = [row for row in rows if not row.is_left_out()]
    assert list(faults(rows, Sweep(tmp_path, drivers).all_counts(rows))) == []
