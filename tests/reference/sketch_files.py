"""Sketch files: cells in which the digests that two sets share cancel out, so that the others can be found."""
import re

from tests.reference.atoms import with_carriers
from tests.reference.events import Fault
from tests.reference.inventory_files import digest_of, inventory_with
from tests.reference.sealed_files import Lines, head, read_sealed, sealed

FIRST_LINE = b"CADF-SKETCH 1"
CELL = re.compile(rb"[0-9a-f]{80}")
NUMBER = rb"(0|[1-9][0-9]{0,19})"
LAYOUT_LINE = re.compile(rb"S " + NUMBER + rb" " + NUMBER + rb" ([0-9a-f]{64})")
COUNTS_LINE = re.compile(rb"C" + 65 * (rb" " + NUMBER))
BELOW = 2 ** 64  # numbers and words are below this
MOST_CELLS = 3 * 2 ** 22
CELLS = 198  # of a sketch for which nobody gave the number
CHECK_BITS = 64  # of a cell, behind its digest


def is_count_of_cells(number):
    return 3 <= number <= MOST_CELLS and number % 3 == 0


def is_salt(number):
    return number < BELOW and number % 2 == 1


def option_of(word, name, is_right):
    """The number behind an option, or None where the option isn't given."""
    if word is None:
        return None
    if not re.fullmatch(NUMBER, word) or not is_right(int(word)):
        raise Fault(name, 2)
    return int(word)


def cells_of(word):
    return option_of(word, "cells", is_count_of_cells)


def salt_of(word):
    return option_of(word, "salt", is_salt)


class Layout:
    """How many cells there are, and the salt."""

    def __init__(self, cells, salt):
        self.cells, self.size, self.salt = cells, cells // 3, salt

    def places(self, digest):
        """The numbers of the digest's cells, table by table."""
        return [table * self.size + ((self.salt * word % BELOW // 2 ** 32) * self.size) // 2 ** 32
                for table, word in enumerate(words_of(digest)[:3])]


def words_of(digest):
    """The four words of a digest, which is a number of 256 bits here."""
    return [digest >> shift & BELOW - 1 for shift in (192, 128, 64, 0)]


def check_of(digest):
    first, second, third, fourth = words_of(digest)
    return (first * second + third * fourth + 1) % BELOW


def turn(cells, digest, layout):
    """Puts the digest into its three cells, or takes it out of them."""
    for place in layout.places(digest):
        cells[place] ^= digest << CHECK_BITS | check_of(digest)


def turn_all(cells, digests, layout):
    for digest in digests:
        turn(cells, int(digest, 16), layout)


def shown(cell, place, layout):
    """The digest that the cell shows, or None."""
    digest = cell >> CHECK_BITS
    return digest if check_of(digest) == cell % 2 ** CHECK_BITS and place in layout.places(digest) else None


def peeled(cells, layout):
    """The digests that are shown, one after another; each is taken out of its cells."""
    pending, noted = list(range(len(cells))), []
    while pending and len(noted) < len(cells):
        place = pending.pop()
        digest = shown(cells[place], place, layout)
        if digest is not None:
            noted.append(digest)
            turn(cells, digest, layout)
            pending += layout.places(digest)
    return {b"%064x" % digest for digest in noted}


def counts_of(digests):
    """How many digests there are, and for each of their first 64 bits how many have it set."""
    fronts = [int(digest[:16], 16) for digest in digests]
    return [len(fronts)] + [sum(front >> 63 - bit & 1 for front in fronts) for bit in range(64)]


def cells_to_ask(own, other):
    """The number of cells to ask for, by the counts of both sides."""
    apart = [2 * (mine - yours) - (own[0] - other[0]) for mine, yours in zip(own[1:], other[1:])]
    guess = sum(one * one for one in apart) // 64
    return min(-(-(2 * guess + 30) // 3) * 3, MOST_CELLS)


def file_digest(log, digests):
    """The digits in the last line of the inventory's file."""
    return inventory_with(log, digests)[-65:-1]


class Sketch:
    """What a sketch file has beside the log."""

    def __init__(self, layout, digest, counts, cells):
        self.layout, self.digest, self.counts, self.cells = layout, digest, counts, cells


class SketchLines(Lines):
    """The line of the layout, that of the counts, and the cells."""

    def __init__(self):
        self.layout, self.digest, self.counts, self.cells = None, None, None, []

    def left(self, line):
        is_whole = self.counts is not None and len(self.cells) == self.layout.cells
        return "unended" if line.startswith(b"Z") and not is_whole else None

    def take(self, line):
        if self.layout is None:
            self.take_layout(line)
        elif self.counts is None:
            self.take_counts(line)
        elif len(self.cells) < self.layout.cells and CELL.fullmatch(line):
            self.cells.append(int(line, 16))
        else:
            raise Fault("shape")

    def take_layout(self, line):
        words = LAYOUT_LINE.fullmatch(line)
        if not words or not is_count_of_cells(int(words[1])) or not is_salt(int(words[2])):
            raise Fault("shape")
        self.layout, self.digest = Layout(int(words[1]), int(words[2])), words[3]

    def take_counts(self, line):
        if not COUNTS_LINE.fullmatch(line) or any(int(word) >= BELOW for word in line.split()[1:]):
            raise Fault("shape")
        self.counts = [int(word) for word in line.split()[1:]]


def read_sketch(data):
    """The log of a sketch file, and the sketch."""
    log, lines = read_sealed(data, {FIRST_LINE: SketchLines})
    return log, Sketch(lines.layout, lines.digest, lines.counts, lines.cells)


def sketch_file(log, sketch):
    """The file of a sketch, whatever its numbers and cells are."""
    layout = sketch.layout
    lines = [b"S %d %d %s" % (layout.cells, layout.salt, sketch.digest), b"C " + b" ".join(b"%d" % one for one in sketch.counts)]
    return sealed(head(FIRST_LINE, log) + lines + [b"%080x" % cell for cell in sketch.cells])


def sketch_with(log, digests, cells=None, salt=None):
    """The sketch of these digests."""
    digest = file_digest(log, digests)
    layout = Layout(CELLS if cells is None else cells, int(digest[:16], 16) | 1 if salt is None else salt)
    made = [0] * layout.cells
    turn_all(made, digests, layout)
    return Sketch(layout, digest, counts_of(digests), made)


def sketch_of(log, atoms, cells=None, salt=None):
    """The sketch file of the inventory of these atoms."""
    return sketch_file(log, sketch_with(log, {digest_of(atom) for atom in atoms}, cells, salt))


def read_by(number, log, own, sketch):
    """The digests that were sketched, by the own ones; the sketch is the input of that number."""
    cells = list(sketch.cells)
    turn_all(cells, own, sketch.layout)
    found = own ^ peeled(cells, sketch.layout)
    if file_digest(log, found) != sketch.digest:
        raise Fault("input %d: too few cells: ask for %d" % (number, cells_to_ask(counts_of(own), sketch.counts)))
    return found


def missing_by_sketch(number, log, atoms, sketch):
    """The atoms whose digest was not sketched, each with its carrier."""
    digests = {atom: digest_of(atom) for atom in atoms}
    there = read_by(number, log, set(digests.values()), sketch)
    return with_carriers({atom for atom, digest in digests.items() if digest not in there})
