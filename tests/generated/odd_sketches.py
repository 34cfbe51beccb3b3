"""Generated sketch files: whole ones, those with something odd in a line or at the end, and those whose cells mislead."""
from tests.generated.odd_files import atoms_of, documents_told, some_file
from tests.generated.odd_inventories import some_inventory
from tests.generated.odd_lines import ODD_NUMBERS, drop_some, insert_one, make_one_odd, odd_file, repeat_one, swap, turn as turn_lines
from tests.reference.inventory_files import digest_of
from tests.reference.sketch_files import (
    BELOW, CHECK_BITS, MOST_CELLS, Layout, Sketch, check_of, counts_of, file_digest, sketch_file, sketch_of, sketch_with, turn,
)

SALTS = [1, 3, 2 ** 63 + 1, 2 ** 64 - 1]


def some_layout(chance, differences=6):
    """A number of cells, from too few for so many differences to many, and a salt; None where none is given."""
    near = 3 * round(differences * chance.choice([0.4, 0.5, 0.6, 0.8, 1, 2]))
    cells = chance.choice([None, 3, 6, 9, max(3, near), max(3, near), max(3, near), 60, 198])
    return cells, chance.choice([None, chance.choice(SALTS), chance.getrandbits(64) | 1, chance.getrandbits(64) | 1])


def some_sketch(chance):
    return sketch_of("g", atoms_of(documents_told(chance)), *some_layout(chance))


def change_bit(chance, cells):
    """Leaves a cell that is no XOR of digests."""
    place = chance.randrange(len(cells))
    cells[place] = b"%080x" % (int(cells[place], 16) ^ 1 << chance.randrange(320))


def add_cell(chance, cells):
    cells.append(chance.choice([cells[-1], b"0" * 80, cells[-1][:64]]))

# What may be done to the lines of the cells.
CELL_DAMAGES = [make_one_odd] * 3 + [change_bit] * 2 + [drop_some] * 2 + [repeat_one, add_cell, add_cell, insert_one, swap, turn_lines]


def odd_sketch(chance):
    return odd_file(chance, some_sketch(chance), 4, CELL_DAMAGES, some_file(chance), some_inventory(chance))


def mislead(chance, cells, layout, digests):
    """Puts something into the cells that no set of digests leaves there."""
    digest = int(chance.choice(sorted(digests) or [b"%064x" % chance.getrandbits(256)]), 16)
    if chance.random() < 0.3:
        digest = chance.choice([0, 2 ** 256 - 1, chance.getrandbits(256)])
    whole = digest << CHECK_BITS | check_of(digest)
    places = layout.places(digest)
    kind = chance.randrange(6)
    if kind == 0:  # shown again and again, until as many were noted as there are cells
        cells[chance.choice(places)] ^= whole
    elif kind == 1:  # in two of its cells
        for place in chance.sample(places, 2):
            cells[place] ^= whole
    elif kind == 2:  # where it doesn't belong
        cells[chance.randrange(len(cells))] ^= whole
    elif kind == 3:  # under a check that is wrong
        cells[chance.choice(places)] ^= whole ^ 1 << chance.randrange(CHECK_BITS)
    elif kind == 4:
        cells[chance.randrange(len(cells))] ^= chance.getrandbits(320)
    else:
        turn(cells, digest, layout)


def belonging(chance, layout, places):
    """A digest that belongs to these cells, one of each table, each counted in its table."""
    words = [chance.getrandbits(64) for _ in range(4)]
    for table, place in enumerate(places):
        spread = -(-(place % layout.size) * 2 ** 32 // layout.size)
        words[table] = (spread << 32 | chance.getrandbits(32)) * pow(layout.salt, -1, BELOW) % BELOW
    return sum(word << shift for word, shift in zip(words, (192, 128, 64, 0)))


def path(chance, layout, length):
    """Digests that share a cell, each with the one before: all but the two at the ends are shown after a neighbour alone."""
    return [belonging(chance, layout, [(number + 1) // 2, number // 2, 0]) for number in range(length)]


def single_cells(chance):
    """A sketch of a few digests, each in one of its three cells: the order in which cells are looked at says which are noted."""
    layout = Layout(chance.choice([3, 6, 9, 12, 15]), chance.getrandbits(64) | 1)
    digests = [chance.getrandbits(256) for _ in range(chance.randint(1, 3))]
    cells = [0] * layout.cells
    for digest in digests:
        cells[chance.choice(layout.places(digest))] ^= digest << CHECK_BITS | check_of(digest)
    found = {b"%064x" % digest for digest in digests if chance.random() < 0.6}
    return sketch_file("g", Sketch(layout, file_digest("g", found), counts_of(found), cells))


def misleading_sketch(chance, atoms):
    """A sketch of these atoms or of about as many digests, with cells that mislead, and mostly with the right digest."""
    digests = {digest_of(atom) for atom in atoms}
    cells, salt = some_layout(chance, len(digests))
    if chance.random() < 0.3:
        cells, salt = cells or 30, salt or 1
        layout = Layout(cells, salt)
        made = path(chance, layout, chance.choice([1, 2, 5, 12, 20]))
        digests = {b"%064x" % digest for digest in made} | set(sorted(digests)[::2])
    made = sketch_with("g", digests, cells, salt)
    for _ in range(chance.choice([0, 1, 1, 1, 2, 5])):
        mislead(chance, made.cells, made.layout, digests)
    digest = made.digest
    if chance.random() < 0.4:
        digest = file_digest("g", chance.choice([set(), set(sorted(digests)[1:]), {digest_of(atom) for atom in atoms}]))
    counts = made.counts
    if chance.random() < 0.3:
        counts = chance.choice([
            [0] * 65, [2 ** 64 - 1] * 65, [2 ** 64 - 1] + [0] * 64, [chance.getrandbits(64) for _ in range(65)],
            counts_of(sorted(digests)[::2]), [chance.randrange(2 ** 24 + 2) for _ in range(65)]])
    return sketch_file("g", Sketch(made.layout, digest, counts, made.cells))


def option_words(chance):
    """Words of the options of `sketch`, some of which are no numbers or no options."""
    odd = [one.decode() for one in ODD_NUMBERS if one != b"%d" % MOST_CELLS]
    cells = chance.choice(["3", "6", "99", "198", "3000", "12582915"] * 2 + odd)
    salt = chance.choice(["1", "3", "18446744073709551615", str(chance.getrandbits(64) | 1)] * 3 + odd)
    options = [chance.choice([["--cells", cells], ["--cells=" + cells]]), chance.choice([["--salt", salt], ["--salt=" + salt]])]
    chance.shuffle(options)
    further = chance.choice([[]] * 12 + [[["--cells"]], [["--cell", "3"]], [["--salt=1"]], [["-x"]]])
    kept = options[:chance.choice([0, 1, 1, 2, 2])] + further
    return [word for option in kept for word in option]
