"""Writes what the drivers are run on, and what they must answer, from their tables; and what shows the command's words.

    python3 -m tests.tables.make                 writes crates/drivers/stdin and crates/drivers/stdout from all tables, and
                                                 from the table of cadf_words the completions in share/, and
                                                 how each command is called in FORMATS and the manual page
    python3 -m tests.tables.make --check         compares them, and names the first difference
    python3 -m tests.tables.make --answers FILE  lists each row that FILE, the output of crates/drivers, answers otherwise

The table tests/tables/NAME_calls.py is that of the driver NAME, the crate NAME_calls. A line of stdin begins with the
driver's name. A table has `CALLS`, which names the public calls behind each call of the driver, or behind a call with
its first word (`value item`), and `ROWS`: the call, its words, the fields of its answer and the heading of
docs/FORMATS.md that states the rule, or `PAGE: heading` of another page. A word or a field is a text, bytes, a number,
or True or False; tests/tables/fields.py spells them.
"""
import glob
import importlib
import os
import re
import sys

from tests import TOP, text_of
from tests.tables import completions, synopses
from tests.tables.fields import line

FOLDER = os.path.join(TOP, "tests", "tables")


def tables():
    names = (os.path.basename(path)[:-3] for path in glob.glob(os.path.join(FOLDER, "*_calls.py")))
    return sorted(names)


def table(name):
    return importlib.import_module("tests.tables." + name)


def headings():
    """The headings of each page of docs/, those of FORMATS.md by themselves too."""
    found = set()
    for path in glob.glob(os.path.join(TOP, "docs", "*.md")):
        page = os.path.basename(path)[:-3]
        named = re.findall(r"(?m)^#+ (.*)$", text_of(path))
        found.update("%s: %s" % (page, heading) for heading in named)
        if page == "FORMATS":
            found.update(named)
    return found


def row_names(call, words):
    """The names of CALLS that a row has: the call's, and the call's with its first word."""
    return {call, "%s %s" % (call, words[0])} if words else {call}


def faults(name, known):
    """What is wrong with a table."""
    module, seen, asked = table(name), set(), {}
    for place, (call, words, fields, heading) in enumerate(module.ROWS, 1):
        names = row_names(call, words)
        seen |= names
        if not names & set(module.CALLS):
            yield "row %d makes %s, which CALLS lacks" % (place, call)
        if heading not in known:
            yield "row %d: no heading %s" % (place, heading)
        if not fields:
            yield "row %d has no answer" % place
        first = asked.setdefault(line([call, *words]), place)
        if first != place:
            yield "row %d asks what row %d asks" % (place, first)
    for call in module.CALLS:
        if call not in seen:
            yield "no row makes %s" % call


def rows():
    """All rows, each with its driver: the lines of the call and of its answer."""
    for name in tables():
        driver = name[:-len("_calls")]
        for call, words, fields, _ in table(name).ROWS:
            yield driver, line([driver, call, *words]), line(fields)


def made():
    """The two files of the drivers, those of the completions and the pages that show the command's words, by their paths."""
    folder = os.path.join(TOP, "crates", "drivers")
    _, asked, answered = zip(*rows())
    return {os.path.join(folder, "stdin"): "".join(asked), os.path.join(folder, "stdout"): "".join(answered), **completions.made(), **synopses.made()}


def tell():
    for name in tables():
        print("calls: %s has %d rows" % (name, len(table(name).ROWS)))


def read(path):
    with open(path, encoding="utf-8", newline="") as file:
        return file.read()


def write():
    for path, text in made().items():
        with open(path, "w", encoding="utf-8", newline="") as file:
            file.write(text)
    tell()


def difference(wanted, found):
    """The first line that differs, with both."""
    wanted, found = wanted.split("\n"), found.split("\n")
    for place, (one, other) in enumerate(zip(wanted + [""], found + [""]), 1):
        if one != other:
            return "line %d is %.200s and should be %.200s" % (place, other, one)
    return "%d lines, and should have %d" % (len(found), len(wanted))


def check():
    for path, text in made().items():
        found = read(path) if os.path.exists(path) else ""
        if found != text:
            sys.exit("calls: %s: %s" % (os.path.relpath(path, TOP), difference(text, found)))
    tell()


def answers(path):
    """Lists the rows that the output of the drivers answers otherwise."""
    given, wrong, all_rows = read(path).split("\n"), 0, list(rows())
    for place, (_, asked, wanted) in enumerate(all_rows):
        got = given[place] if place < len(given) else ""
        if got != wanted[:-1]:
            wrong += 1
            print("row %d: %.200s\n    wanted %s\n    got    %s" % (place + 1, asked[:-1], wanted[:-1], got))
    print("calls: %d of %d rows are answered otherwise" % (wrong, len(all_rows)))


def main():
    words = sys.argv[1:]
    if words[:1] == ["--answers"]:
        return answers(words[1])
    known = headings()
    wrong = ["%s: %s" % (name, fault) for name in tables() for fault in faults(name, known)]
    if wrong:
        sys.exit("\n".join("calls: " + one for one in wrong))
    (check if words[:1] == ["--check"] else write)()


if __name__ == "__main__":
    main()
