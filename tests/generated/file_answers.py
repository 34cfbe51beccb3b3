"""What the driver of files answers: calls by chance, and their answers by the second implementation.

A word of a call or a field of an answer is a text, bytes or a number. Each of `KINDS` makes a driver's name, a call with
its words and the fields of its answer.
"""
from tests.generated.odd_files import atoms_of, documents_told, file_with_odd_lines, odd_atoms_file, some_file, with_rulings
from tests.generated.odd_inventories import odd_inventory, some_inventory
from tests.generated.odd_lines import damaged, with_odd_end
from tests.generated.odd_nodes import odd_nodes_file
from tests.generated.odd_sketches import odd_sketch, some_layout, some_sketch
from tests.generated.odd_values import good_name
from tests.reference.atoms import is_on_a_carrier
from tests.reference.events import Fault
from tests.reference.inventory_files import digest_of, inventory_with, read_inventory
from tests.reference.json_text import read_canonical, spelled
from tests.reference.replica_files import file_of, read_file
from tests.reference.shown_texts import conflict_text, log_text
from tests.reference.sketch_files import CELLS, read_sketch, sketch_file, sketch_with

LIMIT = 1 << 30
PIECE = 4096  # no read of a file asks for more
MOST_PIECES = 300  # of a feed: each asks for the verdict on all bytes so far
AT_THE_END = ("truncated", "trailing bytes")  # refusals that no line shows
NAMES = {
    "version": "Version", "log line": "LogLine", "digest": "Digest", "truncated": "Truncated", "trailing bytes": "Trailing",
    "too large": "TooLarge", "read fault": "ReadFault"}
CAUSES = {
    "not UTF-8": "NotUtf8", "not JSON": "Json", "not canonical": "NotCanonical", "shape": "Shape", "order": "Order",
    "ungrounded": "Ungrounded", "unended": "Unended"}


def refused(fault):
    """The fields of a refusal."""
    if fault.said in NAMES:
        return ["err", NAMES[fault.said]]
    number, cause = fault.said[len("line "):].split(": ")
    return ["err", "Line", number, CAUSES[cause]]


def judged(read, data, limit, failed):
    """What the bytes are read as, of which more may come than the limit, and at whose end a read may have failed."""
    found, end = None, None
    try:
        found = read(data[:limit])
    except Fault as fault:
        if fault.said not in AT_THE_END:
            raise
        end = fault
    if len(data) > limit:
        raise Fault("too large")
    if end and end.said == "trailing bytes":
        raise end
    if failed:
        raise Fault("read fault")
    if end:
        raise end
    return found


def answer(read, shown, data, limit, failed):
    """The fields of a reading's answer."""
    try:
        log, found = judged(read, data, limit, failed)
    except Fault as fault:
        return refused(fault)
    return ["ok", log, *(shown(one) for one in sorted(found))]


def line_of(atom):
    return spelled(list(atom))


def given(data, piece, failing):
    """The bytes that a reader gives, and whether it fails behind them."""
    size = min(piece, PIECE)
    reads = -(-len(data) // size) + 1
    return (data[:(failing - 1) * size], True) if 0 < failing <= reads else (data, False)


def read_replica(limit, piece, failing, data):
    return answer(read_file, line_of, *limited(data, limit, piece, failing))


def read_digests(limit, piece, failing, data):
    return answer(read_inventory, bytes, *limited(data, limit, piece, failing))


def read_cells(limit, piece, failing, data):
    """The fields of a sketch: its log, N, A, D, the numbers of line 4, and the digits of each cell."""
    try:
        log, sketch = judged(read_sketch, *limited(data, limit, piece, failing))
    except Fault as fault:
        return refused(fault)
    layout = sketch.layout
    return ["ok", log, layout.cells, layout.salt, sketch.digest, *sketch.counts, *("%080x" % cell for cell in sketch.cells)]


def limited(data, limit, piece, failing):
    front, failed = given(data, piece, failing)
    return front, min(limit, LIMIT), failed


def written(text, how, number):
    """The fields of a writing's answer; a writer that fails takes a byte at a time."""
    if how == "never" or number > len(text):
        return ["ok", text]
    return ["err", "WriteFault", text[:number - 1]]


def atoms_in(lines):
    return {tuple(read_canonical(line)) for line in lines}


def write_replica(version, piece, how, number, log, *lines):
    return written(file_of(log, atoms_in(lines), version), how, number)


def write_digests(piece, how, number, log, *digests):
    return written(inventory_with(log, {one.encode() for one in digests}), how, number)


def write_cells(piece, how, number, cells, salt, log, *digests):
    return written(sketch_file(log, sketch_with(log, {one.encode() for one in digests}, cells, salt)), how, number)


def write_log(piece, how, number, log, *lines):
    return written(log_text(log, atoms_in(lines)), how, number)


def write_conflicts(piece, how, number, log, *lines):
    return written(conflict_text(log, atoms_in(lines)), how, number)


def decided(data, limit):
    """The fields of the fault that the bytes so far decide, or how many of them are pending."""
    try:
        judged(read_file, data, limit, False)
    except Fault as fault:
        if fault.said == "truncated":
            return [len(data) - data.rfind(b"\n") - 1]
        if fault.said != "trailing bytes":
            return refused(fault)
    return [0]


def feed(limit, end, *pieces):
    """The answers of a feed to each piece and at the end; once refused, it answers so again."""
    data, fields, fault = b"", ["fed"], None
    for piece in pieces:
        if not fault:
            data += piece
            found = decided(data, limit)
            fault = found if found[0] == "err" else None
        fields += fault + [0] if fault else found
    return fields + (fault or answer(read_file, line_of, data, limit, end == "failed"))


def read_rest(limit, piece, failing, start, rest):
    found = decided(start, limit)
    if found[0] == "err":
        return found
    front, failed = given(rest, piece, failing)
    return answer(read_file, line_of, start + front, limit, failed)


def any_file(chance):
    """A replica file, whole or with something odd in it."""
    make = chance.choice([
        some_file, some_file, odd_atoms_file, odd_nodes_file, file_with_odd_lines,
        lambda chance: with_odd_end(chance, some_file(chance)), lambda chance: damaged(chance, some_file(chance))])
    return make(chance)


def any_limit(chance, data):
    near = max(0, len(data) + chance.choice([-1, 0, 1]))
    return chance.choice([LIMIT, LIMIT, 2**64 - 1, near, chance.randrange(len(data) + 2)])


def reading_words(make):
    """What makes the words of a reading of such files."""
    def words(chance):
        data, piece = make(chance), chance.choice([1, 7, 100, PIECE, 10 * PIECE])
        reads = len(data) // min(piece, PIECE) + 2
        failing = 0 if chance.random() < 0.6 else chance.randint(1, reads + 1)
        return [any_limit(chance, data), piece, failing, data]
    return words


def rest_words(chance):
    limit, piece, failing, data = reading_words(any_file)(chance)
    place = chance.choice([0, 5, chance.randrange(len(data) + 1)])
    return [min(limit, LIMIT), piece, failing, data[:place], data[place:]]


def feed_words(chance):
    data = any_file(chance)
    size = chance.choice([size for size in (1, 2, 7, 64, 1000, PIECE) if len(data) <= MOST_PIECES * size] or [PIECE])
    pieces = [data[at:at + size] for at in range(0, len(data), size)] + chance.choice([[], [], [b""], [b"x"], [b"\n", b"\n"]])
    return [min(any_limit(chance, data), LIMIT), chance.choice(["ended", "ended", "failed"]), *pieces]


def writer_words(chance, most):
    """A writer, which may fail among the first writes of a byte."""
    if chance.random() < 0.6:
        return [chance.choice([1, 7, 100, PIECE]), "never", 0]
    return [1, chance.choice(["refuses", "takes-nothing"]), chance.randint(1, most)]


def set_words(chance):
    """A log and the lines of a set of atoms in any order, those that have a carrier behind all others."""
    atoms = sorted(with_rulings(chance, atoms_of(documents_told(chance))))
    chance.shuffle(atoms)
    return [chance.choice(["g", good_name(chance)]), *(line_of(atom) for atom in sorted(atoms, key=is_on_a_carrier))]


def file_words(chance):
    return [chance.choice([1, 2]), *writer_words(chance, 1000), *set_words(chance)]


def text_words(chance):
    return [*writer_words(chance, 500), *set_words(chance)]


def digest_words(chance):
    digests = [digest_of(atom).decode() for atom in sorted(atoms_of(documents_told(chance)))]
    chance.shuffle(digests)
    return [*writer_words(chance, 300), chance.choice(["g", good_name(chance)]), *digests]


def sketch_words(chance):
    """The words of `write_inventory`, with a number of cells and a salt before the log."""
    cells, salt = some_layout(chance)
    piece, how, number, log, *digests = digest_words(chance)
    return [piece, how, number, cells or CELLS, salt or 1, log, *digests]


def any_sketch(chance):
    return chance.choice([some_sketch, odd_sketch, odd_sketch])(chance)


def any_inventory(chance):
    return chance.choice([some_inventory, odd_inventory, odd_inventory])(chance)


def kind(driver, name, words, answered):
    """What makes calls of that name, by what makes their words and what answers them."""
    def made(chance):
        given_words = words(chance)
        return driver, [name, *given_words], answered(*given_words)
    return made

KINDS = [
    kind("file", "read", reading_words(any_file), read_replica),
    kind("file", "read_rest", rest_words, read_rest),
    kind("file", "feed", feed_words, feed),
    kind("file", "write", file_words, write_replica),
    kind("file", "read_inventory", reading_words(any_inventory), read_digests),
    kind("file", "write_inventory", digest_words, write_digests),
    kind("file", "write_log", text_words, write_log),
    kind("file", "write_conflicts", text_words, write_conflicts),
    kind("file", "read_sketch", reading_words(any_sketch), read_cells),
    kind("file", "write_sketch", sketch_words, write_cells),
]
