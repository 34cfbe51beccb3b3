"""Looks up the public calls, their clauses and the files of definitions that a page of the documentation names.

    python3 -m tests.docs.promises [PAGE..]      of PROMISES, CONTRACTS, ARCHITECTURE and AUDIT, unless pages are given
    python3 -m tests.docs.promises --write       writes the lengths and the sums of AUDIT anew

A call is named in backticks by its path, `crate::module::call`, or with its clauses, `call (clause, clause)`, or with
others, `call, call (clause)`. Each such call must stand in the sources, with each of these clauses, where those outside
its crate can reach it; so must each law of the sources, and each call and type that is named by one word, with `_` or a
capital letter, and is no definition. Each file, `crate/specs/Name.antt` or `specs/Name.antt`, must stand in the folder
of a crate.

A table of definitions, as in docs/AUDIT.md, has rows with the names, the file and its length in lines without comments,
imports and blanks. The names must be defined there, and the length and the sums above the tables must be right. What
such a file imports of the crates must be in an earlier row too, unless a sentence names the file, and what clauses cite in the sources that the page names, as
`crates/*/src/laws.rt`.

A type that implements a trait is named as `Walk for PathSet`. Such an `impl` must stand in the sources, and each trait
that a page with promises names by its path must have one in the page.

A table of promises, as in docs/CONTRACTS.md, ends its rows with mutants: those of must-fail/ of the crates, each in a row.
AUDIT has each file of definitions that its rows name.

Then compares the list of public calls, tests/docs/public_calls.txt, with the sources and with the tables of calls, as
tests/docs/public_calls.py says.
"""
import collections
import glob
import os
import re
import sys

from tests import TOP, text_of
from tests.docs.public_calls import uncalled
from tests.docs.reachable import is_reachable, unreached_laws
from tests.proofs import corpus

PAGES = [os.path.join(TOP, "docs", name + ".md") for name in ("PROMISES", "CONTRACTS", "ARCHITECTURE", "AUDIT")]
_, CONTRACTS, _, AUDIT = PAGES
ITEM = re.compile(r"\b(?:fn|struct|enum|trait|mod) (\w+)")
CLAUSE = re.compile(r"\bensures (\w+) \{")
NAMED = re.compile(r"`((?:[\w:]+, )*[\w:]+) \(([\w,; ]+)\)`")
PATH = re.compile(r"`(\w+(?:::\w+)+)`")
SEVERAL = re.compile(r"`((?:[\w:]+, )+[\w:]+)`")
WORD = re.compile(r"`(\w*[A-Z_]\w*)`")
DEFINED = re.compile(r"(?m)^(?:abbrev |unfoldable )*pub (?:record |data )?(\w+)")
FILE = re.compile(r"`((?:\w+/)?specs/[\w/]+\.antt)`")
IMPORT = re.compile(r"(?m)^(?:pub )?use [^\n{]*(?:\{[^}]*\})?.*\n")
AUDITED = re.compile(r"(?m)^\| (`.*`) \| `(\w+)/(specs/\w+\.antt)` \| (\d+) \|")
IMPORTED = re.compile(r"use Rattle\.(cadf_\w+)\.(specs\.\w+)(?=\.\{| as |\s|$)", re.M)
IMPL = re.compile(r"(?m)^impl(?:<[^{]*?>)? (?:\w+::)*(\w+)(?:<[^{]*?>)? for (\w+)")
TRAIT = re.compile(r"(?m)^pub trait (\w+)")
IMPLEMENTED = re.compile(r"`(\w+) for (\w+)`")
SOURCES = re.compile(r"`(crates/[\w*]+/src/\w+\.rt)`")
CITED = re.compile(r"ghost use Rattle\.(cadf_\w+)\.specs\.(\w+)\.\{([^}]*)\}")
SUM = re.compile(r"([\d,]+) lines in (\d+) files")
PROMISED = re.compile(r"(?m)^\| Promise \|.*\| Mutant \|\n.*\n((?:\|.*\n)*)")


def unbroken(text):
    """The text of a page without its blocks of code, and with each piece of code in a line of text on one line."""
    return re.sub(r"`[^`]+`", lambda piece: " ".join(piece.group().split()), re.sub(r"(?ms)^```.*?^```$", "", text))


def read(page):
    return unbroken(text_of(page))


def clauses():
    """Of each name of an item of the sources, the names of the clauses behind it, up to the next item."""
    found = collections.defaultdict(set)
    for path in corpus.files_of("*", "src"):
        parts = ITEM.split(text_of(path))
        for name, behind in zip(parts[1::2], parts[2::2]):
            found[name] |= set(CLAUSE.findall(behind))
        found[os.path.basename(path)[:-3]] |= set()
    return found


def unimplemented(text):
    """The types that implement no such trait, and the traits of which the text names no type that implements them."""
    there, traits = set(), set()
    for source in map(text_of, corpus.files_of("*", "src")):
        there.update(IMPL.findall(source))
        traits.update(TRAIT.findall(source))
    named = set(IMPLEMENTED.findall(text))
    yield from ("no %s for %s" % pair for pair in sorted(named - there))
    for path in sorted(set(PATH.findall(text)) if named else ()):
        if path.split("::")[-1] in traits - {trait for trait, _ in named}:
            yield "%s without a type that implements it" % path


def definitions():
    """The names that the crates define in specs/."""
    return {name for path in corpus.files_of("*", "specs") for name in DEFINED.findall(text_of(path))}


def unreached(text, found):
    """What the text names, and stands where nothing outside its crate can reach it."""
    lists = [calls for calls, _ in NAMED.findall(text)] + SEVERAL.findall(text)
    paths = {call for calls in lists for call in calls.split(", ")} | set(PATH.findall(text))
    words = (set(WORD.findall(text)) & set(found)) - definitions()
    for name in sorted(paths | words):
        if name.split("::")[-1] in found and not is_reachable(name):
            yield "nothing outside its crate reaches %s" % name


def unnamed(text, found):
    """What the text names, and doesn't stand."""
    for calls, named in NAMED.findall(text):
        for call in calls.split(", "):
            name = call.split("::")[-1]
            if name not in found:
                yield "no call %s" % call
            for clause in re.split("[,;] ", named):
                if name in found and clause not in found[name]:
                    yield "no clause %s of %s" % (clause, call)
    for path in PATH.findall(text):
        if path.split("::")[-1] not in found:
            yield "nothing at %s" % path
    for path in FILE.findall(text):
        folder = "" if path.startswith("specs/") else path.split("/")[0]
        pattern = os.path.join(TOP, "crates", "" if folder else "*", path)
        if not glob.glob(pattern):
            yield "no file %s" % path


def unnamed_mutants(text):
    """What is wrong with the mutants that the rows of a page of promises name last: each of must-fail/ is in one."""
    rows = [row for table in PROMISED.findall(text) for row in table.splitlines()]
    named = {name for row in rows for name in re.findall(r"`(\w+)`", row.rsplit("|", 2)[1])}
    there = {os.path.basename(path)[:-len(".edit")] for path in glob.glob(os.path.join(TOP, "crates", "*", "must-fail", "*.edit"))}
    yield from ("no mutant %s" % name for name in sorted(named - there))
    yield from ("no row names the mutant %s" % name for name in sorted(there - named) if rows)


def unread(contracts, audit):
    """The files of definitions that the rows of CONTRACTS name, and AUDIT doesn't."""
    rows = "".join(PROMISED.findall(contracts))
    yield from ("%s is not in AUDIT" % path for path in sorted(set(FILE.findall(rows)) - set(FILE.findall(audit))))


def length_of(text):
    """The lines of definitions, without comments, imports and blanks."""
    lines = [line.strip() for line in IMPORT.sub("", text).splitlines()]
    return sum(bool(line) and not line.startswith("--") for line in lines)


def audited(names, crate, path, length):
    """What is wrong with a row of a table of definitions, whose file is there."""
    text = text_of("crates", crate, path)
    for name in re.findall(r"`(\w+)`", names):
        if not re.search(r"\bpub (?:record |data )?%s\b" % name, text):
            yield "%s/%s doesn't define %s" % (crate, path, name)
    if length_of(text) != int(length):
        yield "%s/%s has %d lines" % (crate, path, length_of(text))


def unlisted(rows):
    """The files that those of the rows import, and that no row names."""
    listed = {(row[1], row[2]) for row in rows}
    for crate, path in sorted(listed):
        for other, module in IMPORTED.findall(text_of("crates", crate, path)):
            if (other, module.replace(".", "/") + ".antt") not in listed:
                yield "%s/%s imports %s of %s, which is in no table" % (crate, path, module, other)


def early(rows, text):
    """The files of the rows that import one of a later row, unless a sentence of the page names them too."""
    listed = [(row[1], row[2]) for row in rows]
    for number, (crate, path) in enumerate(listed, 1):
        for other, module in IMPORTED.findall(text_of("crates", crate, path)):
            needed = (other, module.replace(".", "/") + ".antt")
            if needed in listed[number:] and text.count("`%s/%s`" % (crate, path)) == 1:
                yield "%s/%s comes before %s/%s, which it imports" % (crate, path, *needed)


def cited(path):
    """The definitions that the clauses of a source cite, each with its crate and file."""
    text = text_of(path)
    clauses = [line for line in corpus.clauses_of(text) if not line.startswith("ghost use")]
    words = set(re.findall(r"\w+", " ".join(clauses)))
    for crate, module, names in CITED.findall(text):
        for name in names.split(","):
            if name.split(" as ")[-1].strip() in words:
                yield name.split(" as ")[0].strip(), crate, "specs/%s.antt" % module


def uncited(text):
    """The definitions that the clauses of the sources cite that a page of tables names, and that no row names."""
    listed = {(row[1], row[2]) for row in AUDITED.findall(text)}
    patterns = SOURCES.findall(text) if listed else []
    for path in sorted({path for pattern in patterns for path in glob.glob(os.path.join(TOP, pattern))}):
        for name, crate, file in cited(path):
            if (crate, file) not in listed:
                yield "%s cites %s of %s/%s, which is in no table" % (os.path.relpath(path, TOP), name, crate, file)


def unaudited(text):
    """What is wrong with the tables of definitions, and with their sums."""
    there = [row for row in AUDITED.findall(text) if os.path.exists(os.path.join(TOP, "crates", *row[1:3]))]
    yield from uncited(text)
    yield from unlisted(there)
    yield from early(there, text)
    for section in text.split("\n## "):
        rows = [row for row in AUDITED.findall(section) if os.path.exists(os.path.join(TOP, "crates", *row[1:3]))]
        for row in rows:
            yield from audited(*row)
        if rows and SUM.findall(section) != [summed(rows)]:
            yield "the definitions have %s lines in %s files" % summed(rows)


def summed(rows):
    """The sum of the lengths of a table's rows, and how many rows there are."""
    return format(sum(int(row[3]) for row in rows), ","), str(len(rows))


def written(section):
    """A part of AUDIT with the lengths of its files, and their sum."""
    section = AUDITED.sub(lambda row: "%s| %d |" % (row[0].rpartition("| %s |" % row[4])[0], length_of(text_of("crates", row[2], row[3]))), section)
    rows = AUDITED.findall(section)
    return SUM.sub("%s lines in %s files" % summed(rows), section) if rows else section


def write_lengths(page):
    text = "\n## ".join(map(written, text_of(page).split("\n## ")))
    with open(page, "w", encoding="utf-8") as file:
        file.write(text)


def main():
    if sys.argv[1:] == ["--write"]:
        return write_lengths(AUDIT)
    found, missing = clauses(), 0
    found.update((name, set()) for name in os.listdir(os.path.join(TOP, "crates")))
    for page in sys.argv[1:] or PAGES:
        text = read(page)
        for line in [*unnamed(text, found), *unimplemented(text), *unreached(text, found), *unnamed_mutants(text), *unaudited(text)]:
            print("check-promises: %s: %s" % (page, line))
            missing += 1
        print("check-promises: %s names %d calls with clauses, %d paths, %d files" % (
            page, len(NAMED.findall(text)), len(PATH.findall(text)), len(FILE.findall(text))))
    for line in [*unread(read(CONTRACTS), read(AUDIT)), *uncalled(), *("nothing outside %s reaches its law %s" % pair for pair in unreached_laws())]:
        print("check-promises: %s" % line)
        missing += 1
    return "check-promises: %d are missing" % missing if missing else None


if __name__ == "__main__":
    sys.exit(main())
