#!/usr/bin/env python3
"""What inputs of many shapes cost: each command's time and memory for a byte, and how both grow.

    bench/shapes.py [--size 4] [--runs 3] [--shapes tags,names] [--forms file] [--commands check,join] [BINARY]
    bench/shapes.py --table [--jobs 4] [--shapes ..] [--commands ..] [BINARY]
    bench/shapes.py --gate [BINARY]

BINARY is crates/cadf/out/cadf unless given; --size is the least size in MB, and twice and four times as much come next.
bench/inputs.py has the shapes. Bytes are those that a command reads; for the time of `show` also those that it writes.

A line has the bytes at the least size, the least processor seconds of the runs at each size, the growth of each
doubling, the greatest memory, and the memory a byte. At the end each command's time a byte is compared with that of
ordinary events in the same form (`short-events`, of some 300 bytes), and its time on `chains-256` with that on as many
chains of `chains-64`. What is taken a byte is taken between the two greatest sizes, so what any run takes doesn't
count. Counts are so compared by --gate alone, since instructions of some shapes take half as long as those of others.

The aims: a doubling of the bytes takes 2.3 times as much; a byte 8 times an ordinary one, 4 times for chains that share
255 steps; 256 steps 1.3 times 64. Memory a byte is what inputs.py says, and for other files of at least 50 MB it is 3,
and 80 an atom more for the commands that note atoms or keys. What is above its aim says so, and the status is then 1.

--table measures seconds and counts instructions, in millions and by valgrind, with small sizes for the counts. It prints the
twenty dearest shapes in Markdown: by instructions, by seconds and by memory. Lines of the measurements go to standard
error. --gate counts those of the shapes of GATE, whatever else the machine does. It also counts how often `check` of names in no
order reads far from what it read before, of each further name. The aim is 4: names are sorted by their first eight bytes,
which stand beside them. Names that are alike in these have to be above the aim, or the count says nothing.
"""
import concurrent.futures
import contextlib
import os
import subprocess
import sys
import tempfile
from typing import NamedTuple

from inputs import DOCUMENT, FILE, FILE_1, SHAPES, write_log
from measure import are_counts_true, asked, best_of, can_count, far_reads, instructions, run_apart

MEGABYTE = 10 ** 6
NOISE = 1  # MB of memory by which runs differ
DOUBLING, STEPS, BYTE, DEEP_BYTE, MEMORY, ATOM, LARGE = 2.3, 1.3, 8, 4, 3, 80, 50 * MEGABYTE
ROW = "%-18s %-16s %-17s %9s  %-26s %-12s %8s %7s"
ORDINARY = "short-events"


class Command(NamedTuple):
    """A command line: the words before the inputs, which inputs, and with which statuses it may end."""
    words: tuple
    inputs: tuple
    statuses: tuple = (0,)
    notes: bool = False  # holds something for each atom or key


COMMANDS = {
    "check": Command(("check",), ("first",)),
    "show": Command(("show",), ("first",), notes=True),
    "show --conflicts": Command(("show", "--conflicts"), ("first",), notes=True),
    "join": Command(("join",), ("first", "second")),
    "missing": Command(("missing",), ("first", "second")),
    "inventory": Command(("inventory",), ("first",), notes=True),
    "missing-by": Command(("missing-by",), ("first", "inventory"), notes=True),
    "sketch": Command(("sketch",), ("first",), notes=True),
    "missing-by-sketch": Command(("missing-by-sketch",), ("first", "sketch"), (0, 1), notes=True),  # or too few cells
    "seal": Command(("seal",), ("first",), notes=True),
    "prove": Command(("prove",), ("second", "first"), notes=True),
    "verify --absent": Command(("verify", "--absent"), ("seal", "first", "proof"), notes=True),  # of no facts
    "rule": Command(("rule", "E", "e1", "1"), ("first",), (0, 1)),  # or no such value
}
REFUSED = (1,)

# The sizes in bytes: of --table those that are counted and those that are timed, of --gate both.
COUNTED_SIZES, TIMED_SIZES = (MEGABYTE // 4, MEGABYTE // 2), (2 * MEGABYTE, 4 * MEGABYTE)
GATE_SIZES = (MEGABYTE // 10, MEGABYTE // 5)
TABLE_ROWS = 20
# By --gate: ordinary events, five of the dearest shapes, and what else grew faster than its bytes once.
GATE = {
    (ORDINARY, "document"): ("check", "show", "join"),
    (ORDINARY, "file"): ("check", "show", "join"),
    ("body-tags", "document"): ("check", "join"),
    ("body-tags", "file"): ("check", "join"),
    ("properties", "document"): ("check", "show"),
    ("overwritten", "document"): ("check",),
    ("shared-step", "file"): ("check", "show"),
    ("nested-falling", "document"): ("check",),
    ("names", "file"): ("check",),
    ("chains-64", "file"): ("check", "show", "join"),
    ("chains-256", "file"): ("check", "show", "join"),
}
# By --gate: names in no order, which are sorted by their first eight bytes, and names that can't be. How many are in an input,
# and the far reads that each takes at most.
IN_NO_ORDER, ALIKE = ("tags-shuffled", "resources-shuffled", "properties-shuffled", "shuffled"), "tags-alike"
NAMES, FAR_READS = (8000, 16000), 4


class Point(NamedTuple):
    """A command at one size."""
    size: int  # bytes that are read, of `show` also those that are written
    read: int  # bytes that are read
    cost: float  # processor seconds, or millions of instructions
    memory: float  # MB, 0 if it was not measured
    more: int  # bytes of memory that the aim allows it beside those for every byte


class Inputs:
    """The inputs of a shape in one form at one size, and the commands on them."""

    def __init__(self, folder, shape, form, number, options):
        self.shape, self.form, self.options = shape, form, options
        self.folder, self.number = folder, number

    def path(self, name):
        """The input of that name, made when it is first asked for."""
        path = os.path.join(self.folder, name)
        if not os.path.exists(path):
            if name in ("inventory", "sketch"):
                run_apart([self.options.binary, name, self.path("second")], path)
            elif name in ("seal", "proof"):
                words = {"seal": ("seal",), "proof": ("prove", self.path("first"))}[name]
                run_apart([self.options.binary, *words, self.path("empty")], path)
            elif name == "empty":
                write_log(path, {"events": "[]"})
            else:
                start = 0 if name == "first" else self.number // 2
                self.shape.write(path, self.form, range(start, start + self.number), self.options.binary)
        return path

    def measured(self, command, is_counted):
        """The cost of a command on them: its instructions, or its seconds and memory."""
        named = COMMANDS[command]
        inputs = [self.path(name) for name in named.inputs]
        words = [self.options.binary, *named.words, *inputs]
        statuses = REFUSED if self.shape.is_refused else named.statuses
        output = os.path.join(self.folder, "output")
        best = best_of([run_apart(words, output, statuses) for _ in range(1 if is_counted else self.options.runs)])
        read = sum(map(os.path.getsize, inputs))
        size = read + (os.path.getsize(output) if "show" in named.words else 0)
        if is_counted:
            return Point(size, read, instructions(words, statuses) / 1e6, best.memory, 0)
        more = ATOM * sum(map(self.atoms_in, inputs)) if named.notes else 0
        return Point(size, read, best.processors, best.memory, more)

    def atoms_in(self, path):
        """How many atoms the input contributes, if its memory has an aim."""
        if self.shape.is_refused or self.form != FILE or os.path.getsize(path) < LARGE:
            return 0
        return int(subprocess.check_output([self.options.binary, "check", path]).split()[-3])


class Row(NamedTuple):
    """A command on a shape at rising sizes."""
    name: str
    form: str
    command: str
    points: list

    def growths(self):
        """By how much the cost grows where the bytes double, from each size to the next."""
        return [2 * later.cost / max(earlier.cost, 0.001) / (later.size / earlier.size)
                for earlier, later in zip(self.points, self.points[1:])]

    def rise(self, field):
        """By how much a field rises between the two greatest sizes: what any run takes doesn't count."""
        earlier, later = (getattr(point, field) for point in self.points[-2:])
        return later - earlier

    def cost_a_byte(self):
        return self.rise("cost") / self.rise("size")

    def memory_a_byte(self):
        return self.rise("memory") * 2 ** 20 / self.rise("read")

    def memory_aim(self):
        """The aim of the memory a byte, or None."""
        aim = SHAPES[self.name].memory
        if aim is None and self.form == FILE and self.points[-2].read >= LARGE:
            return MEMORY + self.rise("more") / self.rise("read")
        return aim

    def ordinary(self):
        """The form and command of the row that this one is compared with."""
        return FILE if self.form == FILE_1 else self.form, self.command

    def tell(self):
        """Prints the row. Returns how many aims are missed."""
        growths, memory, aim = self.growths(), self.memory_a_byte(), self.memory_aim()
        above = {"TIME ABOVE %.1f" % DOUBLING: max(growths) > DOUBLING,
                 "MEMORY ABOVE %.1f" % (aim or 0): aim is not None and memory > aim and self.rise("memory") > NOISE}
        missed = [text for text, is_above in above.items() if is_above]
        costs = " ".join("%8.3f" % point.cost for point in self.points)
        doublings = " ".join("%5.2f" % growth for growth in growths)
        print(ROW % (self.name, self.form, self.command, self.points[0].size, costs, doublings,
                     "%.0f MB" % self.points[-1].memory, "%.2f" % memory), " ".join(missed), flush=True)
        return len(missed)


def rows_of(name, form, commands, sizes, is_counted, options):
    """Measures the commands on a shape, and returns their rows."""
    shape = SHAPES[name]
    commands = [command for command in commands if not shape.is_refused or len(COMMANDS[command].inputs) == 1]
    points = {command: [] for command in commands}
    for size in sizes:
        with tempfile.TemporaryDirectory() as folder:
            inputs = Inputs(folder, shape, form, max(4, size // shape.unit), options)
            for command in commands:
                points[command].append(inputs.measured(command, is_counted))
    return [Row(name, form, command, points[command]) for command in commands]


def measured(cases, sizes, is_counted, options):
    """Measures the commands on each shape and form, and prints the rows. Returns them, and how many aims are missed."""
    print(ROW % ("shape", "form", "command", "bytes", "millions of instructions" if is_counted else "seconds",
                 "a doubling", "memory", "a byte"))
    rows, missed = [], 0
    with concurrent.futures.ProcessPoolExecutor(options.jobs if is_counted else 1) as pool:
        tasks = [pool.submit(rows_of, *case, commands, sizes, is_counted, options) for case, commands in cases.items()]
        for found in tasks:
            missed += sum(row.tell() for row in found.result())
            rows += found.result()
    return rows, missed


def compared(rows):
    """Compares a byte of each shape with an ordinary one, and deep chains; prints what is compared. Returns how many aims are missed."""
    found = {(row.name, *row.ordinary()): row for row in rows}
    told = [(row.command, "%s, %s: a byte to an ordinary one" % (row.name, row.form), ratio, aim) for row, ratio in ratios(rows)
            for aim in [DEEP_BYTE if row.name == "chains-256" else BYTE] if ratio > aim]
    for command in dict.fromkeys(row.command for row in rows):
        deep, flat = (found.get((name, FILE, command)) for name in ("chains-256", "chains-64"))
        if deep and flat and command != "show":
            told.append((command, "256 steps to 64", deep.rise("cost") / flat.rise("cost"), STEPS))
    for command, what, ratio, aim in told:
        print("%-17s %s: %.2f of %.1f%s" % (command, what, ratio, aim, " ABOVE" if ratio > aim else ""))
    return sum(ratio > aim for _, _, ratio, aim in told)


def ratios(rows):
    """Each row with its cost a byte to that of ordinary events in the same form, if these were measured."""
    ordinary = {row.ordinary(): row.cost_a_byte() for row in rows if row.name == ORDINARY}
    return [(row, row.cost_a_byte() / ordinary[row.ordinary()]) for row in rows if row.ordinary() in ordinary]


def print_table(title, numbers, commands, kept=()):
    """Prints a table in Markdown: first the shapes to be kept, then those of the greatest numbers, one a command."""
    lines = {}
    for row, number in numbers:
        lines.setdefault((row.name, row.form), {})[row.command] = number
    dearest = sorted(lines, key=lambda key: -max(lines[key].values()))
    shown = [key for key in dearest if key in kept] + [key for key in dearest if key not in kept][:TABLE_ROWS]
    print("\n%s\n\n| Shape | Form | %s |" % (title, " | ".join("`%s`" % command for command in commands)))
    print("|---|---|%s" % ("---|" * len(commands)))
    for name, form in shown:
        cells = ["%.1f" % lines[name, form][command] if command in lines[name, form] else "" for command in commands]
        print("| %s | %s | %s |" % (SHAPES[name].title, form, " | ".join(cells)))


def print_tables(counted, timed, commands):
    """Prints what the twenty dearest shapes take: instructions, seconds and memory, and what ordinary events take."""
    ordinary = [(row.name, row.form) for row in counted if row.name == ORDINARY]
    of_events = [(row, 1e6 * row.cost_a_byte()) for row in counted if row.name == ORDINARY]
    print_table("Instructions a byte of ordinary events:", of_events, commands, ordinary)
    print_table("Instructions a byte, to those of ordinary events in the same form:", ratios(counted), commands)
    print_table("Processor time a byte, to that of ordinary events in the same form:", ratios(timed), commands)
    print_table("Bytes of memory a byte:", [(row, row.memory_a_byte()) for row in timed], commands, ordinary)


def check_counts():
    """Exits if counts with repeated instructions wouldn't be refused, where the processor has them."""
    with open("/proc/cpuinfo", encoding="ascii") as file:
        has_repeats = " avx2 " in file.read()
    if has_repeats and are_counts_true({"GLIBC_TUNABLES": ""}):
        sys.exit("counts aren't looked at: those with repeated instructions are not refused")


def far_reads_a_name(name, binary):
    """How many far reads `check` makes for each further name of a document of that shape."""
    counts = []
    for count in NAMES:
        with tempfile.TemporaryDirectory() as folder:
            path = os.path.join(folder, "names")
            SHAPES[name].write(path, DOCUMENT, range(count), binary)
            counts.append(far_reads([binary, "check", path]))
    return (counts[1] - counts[0]) / (NAMES[1] - NAMES[0])


def check_names(binary):
    """Counts the far reads of names in no order, and prints them. Returns how many are above the aim."""
    found = {name: far_reads_a_name(name, binary) for name in (*IN_NO_ORDER, ALIKE)}
    for name, count in found.items():
        is_above = " ABOVE" if count > FAR_READS else ""
        print("%-18s %.2f far reads a name of %d%s%s" % (name, count, FAR_READS, is_above, ", as it has to be" if name == ALIKE else ""))
    if found.pop(ALIKE) <= FAR_READS:
        sys.exit("far reads aren't told: those of names that are alike in their first eight bytes are not above the aim")
    return sum(count > FAR_READS for count in found.values())


def main():
    options = asked(__doc__, size=4.0, runs=3, jobs=1, shapes=",".join(SHAPES), forms="document,file,file of format 1",
                    commands=",".join(COMMANDS), table=False, gate=False)
    commands, forms = options.commands.split(","), options.forms.split(",")
    cases = {(name, form): commands for name in options.shapes.split(",") for form in SHAPES[name].forms if form in forms}
    if (options.table or options.gate) and not can_count():
        return 0
    if options.table:
        with contextlib.redirect_stdout(sys.stderr):
            counted, missed = measured(cases, COUNTED_SIZES, True, options)
            timed, further = measured(cases, TIMED_SIZES, False, options)
            missed += further + compared(timed)
        print_tables(counted, timed, commands)
    elif options.gate:
        check_counts()
        rows, missed = measured(GATE, GATE_SIZES, True, options)
        missed += compared(rows) + check_names(options.binary)
    else:
        sizes = [int(options.size * MEGABYTE) * times for times in (1, 2, 4)]
        rows, missed = measured(cases, sizes, False, options)
        missed += compared(rows)
    print("%d above their aims" % missed, file=sys.stderr if options.table else sys.stdout)
    return 1 if missed else 0


if __name__ == "__main__":
    sys.exit(main())
