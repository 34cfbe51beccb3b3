#!/usr/bin/env python3
"""Counts the bytes of an exchange by a sketch beside other ways, how often sketches are read, and what they cost.

    bench/sketch.py [--atoms 100000,1000000] [--runs 3] [--salts 100] [--only bytes,reads,letters,times,odd] [BINARY]

bytes    Two sites of so many facts differ in 0, 10, 100, 1,000 and 10 % of them, half at each, scattered. In one table, each
         way round: what a site sends to ask and what it is answered, by an inventory, by sketches (all letters together) and
         by rdiff (Debian: rdiff) with its default block and one of 1,024 bytes. The deltas must be the same bytes.
reads    How many of so many salts read 1.5 and 2 cells a difference, by number; and 198 cells for 100 differences.
letters  How many of so many pairs of sites need one letter, two and more, with the default size and then the hint.
times    `sketch` beside `inventory` and `missing-by-sketch` beside `missing-by`, for the sites that differ in 100 facts.
odd      Sketches with cells that were made to mislead.

What both sites have cancels out, so the sites of `reads` and `letters` share only some thousand facts. Each aim is printed
with what came of it. What is measured rests on the seed alone, but for times.
"""
import os
import random
import shutil
import subprocess
import sys
import tempfile

from measure import LOG, Trial, asked, atoms_of, check_same_bytes, rdiff, run_apart, tell, write_replica, written_apart

from tests.generated.odd_sketches import path
from tests.reference.sketch_files import (
    CELLS, CHECK_BITS, Layout, Sketch, check_of, counts_of, file_digest, sketch_file, turn,
)

TOO_FEW = b"cadf: input 2: too few cells: ask for "
DIFFERENCES = (0, 10, 100, 1000, None)  # None: a tenth of the facts
BLOCKS = {"rdiff": [], "rdiff -b 1024": ["-b", "1024"]}
READ = (5, 10, 30, 100, 300, 1000, 3000, 10000)  # differences of which is asked how often they are read
SHARED = 1000  # events of sites of which it doesn't matter how large they are
BYTES_A_FACT = 100  # of memory, beside the cells


class Sketches(Trial):
    """The command, and the chance by which facts and salts are chosen."""

    def __init__(self, options, folder):
        super().__init__(options, folder)
        self.salts, self.chance = options.salts, random.Random(52)

    def keep(self, content):
        path = self.path()
        with open(path, "wb") as out:
            out.write(content)
        return path

    def answer(self, sender, sketch):
        """The answer to a sketch, and how many cells its refusal asks for."""
        done = subprocess.run([self.binary, "missing-by-sketch", sender, sketch], stdin=subprocess.DEVNULL, capture_output=True)
        if done.returncode and not done.stderr.startswith(TOO_FEW):
            sys.exit("missing-by-sketch: %r" % done.stderr)
        return (None, int(done.stderr[len(TOO_FEW):])) if done.returncode else (done.stdout, 0)

    def site(self, atoms):
        path = self.path()
        written_apart(lambda: write_replica(path, LOG, atoms))
        return path

    def sites(self, facts, differences):
        """Two sites of so many facts each, half of the differences at each: chains and tags, scattered, that the other lacks."""
        union = facts + differences // 2
        atoms = [atom for number in range(-(-union // 3)) for atom in atoms_of(number)][:union]
        leaves = [place for place, atom in enumerate(atoms) if len(atom) > 3]
        lacked = self.chance.sample(leaves, differences)
        made = []
        for dropped in (set(lacked[:differences // 2]), set(lacked[differences // 2:])):
            made.append(self.site([atom for place, atom in enumerate(atoms) if place not in dropped]))
        return made

    def sketch(self, receiver, cells):
        return self.written("sketch", "--cells", str(cells), "--salt", str(self.chance.getrandbits(64) | 1), receiver)

    def read(self, sender, receiver, cells):
        """Whether the sender reads the receiver's sketch of so many cells, of another salt each time."""
        sketch = self.sketch(receiver, cells)
        answer, _ = self.answer(sender, sketch)
        os.remove(sketch)
        return answer is not None

    def letters(self, sender, receiver):
        """The sketches with which the receiver asks until one is read: by the default first, then as a refusal says.

        Where it says no more than were too few, it asks with twice as many, as cadf-agree does."""
        cells, sent = CELLS, [self.written("sketch", receiver)]
        while True:
            answer, hint = self.answer(sender, sent[-1])
            if answer is not None:
                return sent, self.keep(answer)
            cells = hint if hint > cells else 2 * cells
            sent.append(self.sketch(receiver, cells))


def aim(what, reached):
    print("    aim: %s: %s" % (what, "reached" if reached else "NOT REACHED"), flush=True)


def size(*paths):
    return sum(map(os.path.getsize, paths))


def ways(trial, sender, receiver):
    """Each way's bytes to ask and to answer; of sketches also how many letters there were."""
    inventory = trial.written("inventory", receiver)
    delta = trial.written("missing-by", sender, inventory)
    sketches, by_sketch = trial.letters(sender, receiver)
    check_same_bytes([["cat", delta], ["cat", by_sketch]])
    yield "inventory", size(inventory), size(delta), ""
    yield "sketch", size(*sketches), size(by_sketch), "%d letter%s" % (len(sketches), "s" * (len(sketches) > 1))
    if shutil.which("rdiff"):
        for name, block in BLOCKS.items():
            yield (name, *rdiff(receiver, sender, *block), "")


def measure_bytes(trial, facts):
    print("| Facts | Differences | Way | Asks | Answer | Asks back | Answer back | |\n|---|---|---|---|---|---|---|---|")
    for differences in DIFFERENCES:
        count = facts // 10 if differences is None else min(differences, facts // 2)
        north, south = trial.sites(facts, count)
        rows = list(zip(ways(trial, north, south), ways(trial, south, north)))
        for (way, asks, answers, letters), (_, back, answers_back, letters_back) in rows:
            said = "%s; %s" % (letters, letters_back) if letters else ""
            print("| {:,} | {:,} | {} | {:,} | {:,} | {:,} | {:,} | {} |".format(
                facts, count, way, asks, answers, back, answers_back, said), flush=True)
        if differences is None:
            aim("at 10 % at most a quarter of the inventory's bytes, in one letter of 2 cells a difference",
                size(trial.written("sketch", "--cells", str(-(-2 * count // 3) * 3), south)) <= rows[0][0][1] / 4)
        if differences == 100 and facts >= 10 ** 6:
            aim("198 cells are at most 1/3,500 of the inventory's bytes",
                3500 * size(trial.written("sketch", "--cells", "198", south)) <= rows[0][0][1])
    if not shutil.which("rdiff"):
        print("skipped: rdiff is not there (Debian: rdiff)")


def measure_reads(trial):
    print("| Differences | 1.5 cells each | 2 cells each |\n|---|---|---|")
    for differences in READ:
        north, south = trial.sites(max(3 * SHARED, 2 * differences), differences)
        counts = []
        for ratio in (1.5, 2):
            cells = max(3, round(ratio * differences / 3) * 3)
            counts.append(sum(trial.read(north, south, cells) for _ in range(trial.salts)))
        print("| {:,} | {} of {} | {} of {} |".format(differences, counts[0], trial.salts, counts[1], trial.salts), flush=True)
    north, south = trial.sites(3 * SHARED, 100)
    count = sum(trial.read(north, south, 198) for _ in range(trial.salts))
    print("198 cells, 100 differences: read for %d of %d salts" % (count, trial.salts))
    aim("95 of 100", 100 * count >= 95 * trial.salts)


def measure_letters(trial):
    for differences in (1000, 10000):
        letters = []
        for _ in range(trial.salts):
            north, south = trial.sites(max(3 * SHARED, 2 * differences), differences)
            sent, part = trial.letters(north, south)
            letters.append(len(sent))
            for file in (north, south, part, *sent):
                os.remove(file)
        print("{:,} differences, by the default and then the hint: one letter {}, two {}, more {}, the most {}".format(
            differences, letters.count(1), letters.count(2), sum(one > 2 for one in letters), max(letters)), flush=True)
        aim("at most two letters for 95 of 100", 100 * sum(one <= 2 for one in letters) >= 95 * len(letters))


def measure_times(trial, facts):
    """Times the commands beside those that they are compared with, which hold no cells and no digest of each fact."""
    north, south = trial.sites(facts, min(100, facts // 2))
    inventory, sketch = trial.written("inventory", south), trial.letters(north, south)[0][-1]
    for words, beside, aim in ((("sketch", south), ("inventory", south), "1.2"),
                               (("missing-by-sketch", north, sketch), ("missing-by", north, inventory), "1.3")):
        tell("{:,} facts".format(facts), {"`%s`" % words[0]: [trial.binary, *words]}, {"`%s`" % beside[0]: [trial.binary, *beside]}, trial.runs, {
            "`%s`" % beside[0]: "%s; its own, 40 bytes a cell and %d a fact" % (aim, BYTES_A_FACT)})


def crafted(chance, name, cells):
    """A sketch whose cells give a long chain, and the digests that its reader must find for an answer."""
    layout, made = Layout(cells, chance.getrandbits(64) | 1), [0] * cells
    if name == "a path":  # each digest is shown once the one before was taken out
        digests = path(chance, layout, cells // 3)
        for digest in digests:
            turn(made, digest, layout)
    else:  # a digest in one cell of its three: it is shown as often as there are cells
        digests = [chance.getrandbits(256)]
        made[layout.places(digests[0])[2]] = digests[0] << CHECK_BITS | check_of(digests[0])
    digits = {b"%064x" % digest for digest in digests}
    return sketch_file(LOG, Sketch(layout, file_digest(LOG, digits), counts_of(digits), made))


def measure_odd(trial):
    """Times sketches that were made to mislead; tests/generated/odd_sketches.py compares what is answered to such."""
    for cells in (600, 6000, 60000):
        for name in ("a path", "a digest again and again"):
            sketch = trial.keep(crafted(trial.chance, name, cells))
            for sender in (trial.site([]), trial.sites(3 * SHARED, 60)[0]):
                run = run_apart([trial.binary, "missing-by-sketch", sender, sketch], statuses=(0, 1))
                print("%s, %d cells: %.2f s" % (name, cells, run.processors), flush=True)


def main():
    options = asked(__doc__, atoms="100000,1000000", runs=3, salts=100, only="bytes,reads,letters,times,odd")
    sized = {"bytes": measure_bytes, "times": measure_times}
    others = {"reads": measure_reads, "letters": measure_letters, "odd": measure_odd}
    for part in options.only.split(","):
        for facts in map(int, options.atoms.split(",")) if part in sized else [None]:
            with tempfile.TemporaryDirectory() as folder:
                trial = Sketches(options, folder)
                sized[part](trial, facts) if part in sized else others[part](trial)


if __name__ == "__main__":
    main()
