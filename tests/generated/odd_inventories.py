"""Generated inventory files with something odd in them, in a line or at the end, and files that stand in their place."""
from tests.generated.odd_files import atoms_of, documents_told, some_file
from tests.generated.odd_lines import drop_some, insert_one, make_one_odd, odd_file, repeat_one, swap, turn
from tests.generated.odd_values import digits
from tests.reference.inventory_files import inventory_of


def some_inventory(chance):
    return inventory_of("g", atoms_of(documents_told(chance)))


def next_digits(chance, lines):
    """A line that is near its neighbour: the same, or one digit above or below."""
    if lines:
        place = chance.randrange(len(lines))
        number = int(lines[place], 16) + chance.choice([-1, 0, 1, 16 ** chance.randrange(64)])
        lines.insert(place + chance.randint(0, 1), b"%064x" % max(0, number % 16 ** 64))


def any_digits(chance, lines):
    """A line of digits that are no atom's, in its place or not."""
    number = chance.choice([b"0" * 64, b"f" * 64, b"9" * 64, b"a" * 64, b"%064x" % int(digits(chance, 70)) ** 2])[:64]
    lines.insert(chance.randint(0, len(lines)), number)
    if chance.random() < 0.5:
        lines.sort()


def foreign_line(chance, lines):
    """A line of a replica file."""
    lines.insert(chance.randint(0, len(lines)), some_file(chance).split(b"\n")[chance.choice([0, 1, -3, -2])])

# What may be done to the lines of digits.
DIGIT_DAMAGES = [make_one_odd] * 12 + [next_digits] * 5 + [any_digits] * 2 + [insert_one, foreign_line] + [swap, repeat_one] * 2 + [drop_some, turn]


def odd_inventory(chance):
    return odd_file(chance, some_inventory(chance), 2, DIGIT_DAMAGES, some_file(chance))
