"""The corpus of mutants: reads and writes its tables, places a row in the sources, digests a crate's contracts.

A table, mutants/CRATE.txt, has a row for each wrong body. Empty lines part the rows:

    # What is wrong, if the change alone doesn't say it.
    src/kinds.rt Outcome::read
    - Some(Outcome::Pending)
    + Some(Outcome::Unknown)
    = returns-then-eq-4-clause-value

The first line names the file and the function: `name`, `Type::name`, or `TypeTrait::name` in an impl of a trait.
The text after `-` occurs once in the function's body, whatever its white space; several such lines are one text. The
text after `+` replaces it; an empty one deletes it. After `=` comes the verdict: the goal that refuses the row
(`refused` if its name was not kept), `not judged`, or `proves: ` and why the row is kept although nothing refuses it.
"""
import glob
import hashlib
import itertools
import os
import re

from tests import TOP, text_of

FOLDER = os.path.join(TOP, "mutants")
TRIED = os.path.join(FOLDER, "tried")
UNJUDGED = "not judged"
PROVES = "proves"

IMPL = re.compile(r"^impl(?:<.*?>)? (?:(.*?) for )?(.*?) \{$")
TRAIT = re.compile(r"^(?:pub(?:\([a-z]+\))? )?trait (\w+)")
FUNCTION = re.compile(r"^( *)(?:pub(?:\([a-z]+\))? )?(?:const |extern \"C\" )?fn (\w+)")
CONSTANT = re.compile(r"^(?:pub(?:\([a-z]+\))? )?const (\w+):.*;$")
CYCLE = re.compile(r"^\s*#\[cycle\((\w+)\)\]$")
CLAUSE = re.compile(r"^\s*(?:requires|ensures|ghost)\b")
ENSURES = re.compile(r"^\s*ensures (?:([\w-]+) )?\{")


class Row:
    """A wrong body: what to change in which function, and what refuses it."""

    def __init__(self, crate, lines):
        self.crate = crate
        self.notes = [line for line in lines if line.startswith("#")]
        heads = [line for line in lines if line[0] not in "#-+="]
        if len(heads) != 1 or len(heads[0].split()) != 2:
            raise ValueError("%s: a row without a line of its file and function: %s" % (crate, lines))
        self.file, self.function = heads[0].split()
        self.old = "\n".join(line[2:] for line in lines if line[0] == "-")
        self.new = "\n".join(line[2:] for line in lines if line[0] == "+")
        self.verdict = "".join(line[2:] for line in lines if line[0] == "=") or UNJUDGED

    def text(self):
        """Returns the row as its table has it."""
        lines = self.notes + ["%s %s" % (self.file, self.function)]
        lines += ["- " + line for line in self.old.split("\n")]
        lines += [("+ " + line).rstrip() for line in self.new.split("\n")]
        return "\n".join(lines + ["= " + self.verdict]) + "\n"

    def name(self):
        """Returns the end of the function's name as the prover prints it: its module or its type, and itself."""
        parts = self.file[len("src/"):-len(".rt")].split("/")
        modules = [self.crate] if parts in (["lib"], ["main"]) else parts
        return "::".join((modules + self.function.split("::"))[-2:])

    def is_open(self):
        """Tells whether the row is known to prove."""
        return self.verdict.startswith(PROVES)


def files_of(crate, part):
    """Lists the files of a crate, or of all crates by `*`, in one of its parts: `src`, `specs` or `proofs`."""
    return sorted(filter(os.path.isfile, glob.glob(os.path.join(TOP, "crates", crate, part, "**", "*"), recursive=True)))


def crates():
    """Lists the crates that have a table."""
    return sorted(os.path.basename(path)[:-len(".txt")] for path in glob.glob(os.path.join(FOLDER, "*.txt")))


def read_table(crate):
    """Reads the rows of a crate."""
    blocks = re.split(r"\n\s*\n", text_of(FOLDER, crate + ".txt").strip())
    return [Row(crate, block.split("\n")) for block in blocks]


def write_table(crate, rows):
    """Writes the rows of a crate."""
    with open(os.path.join(FOLDER, crate + ".txt"), "w", encoding="utf-8") as file:
        file.write("\n".join(row.text() for row in rows))


def keep_verdict(row, verdict):
    """Writes a row's verdict into its table, which may have changed since."""
    rows = read_table(row.crate)
    for other in rows:
        if (other.file, other.function, other.old, other.new) == (row.file, row.function, row.old, row.new):
            other.verdict = verdict
    write_table(row.crate, rows)


def source(row):
    """Reads the row's file."""
    return text_of("crates", row.crate, row.file)


def bare(name):
    """Returns a type's or trait's name without path, borrow and parameters; `FromFault` for `From<Fault>`."""
    inner = re.match(r"From<(\w+)", name)
    plain = re.sub(r"<.*>|&|'\w+ |dyn ", "", name).split("::")[-1]
    return plain + inner.group(1) if inner else plain


def owner_of(line):
    """Returns the name that an `impl` or a `trait` puts before its functions, or None."""
    trait, impl = TRAIT.match(line), IMPL.match(line)
    if trait:
        return trait.group(1)
    if impl:
        return bare(impl.group(2)) + (bare(impl.group(1)) if impl.group(1) else "")
    return None


def body_of(lines, at, indent):
    """Returns the first and last line of the body of the function that begins at a line; None if it has none."""
    for first in range(at, len(lines)):
        line = lines[first]
        if line and not line.startswith(indent):
            return None
        same = line.startswith(indent) and not line.startswith(indent + " ")
        if same and line.endswith("{"):
            return first, lines.index(indent + "}", first)
        if same and line.endswith(";"):
            return None
    return None


def bodies(text):
    """Yields each function's and constant's name, its first line, and the first and last line of its body."""
    lines, owner = text.split("\n"), ""
    for at, line in enumerate(lines):
        if line == "}":
            owner = ""
        owner = owner_of(line) or owner
        function, constant = FUNCTION.match(line), CONSTANT.match(line)
        span = body_of(lines, at, function.group(1)) if function else None
        if span:
            yield (owner + "::" if owner else "") + function.group(2), at, span
        elif constant:
            yield constant.group(1), at, (at, at)


def places(row):
    """Lists where the row's old text occurs in its function: its bounds in the text, and the function's lines."""
    text = source(row)
    lines = text.split("\n")
    pattern = re.compile(r"\s+".join(re.escape(word) for word in row.old.split()))
    found = []
    for name, at, (first, last) in bodies(text):
        if name == row.function:
            start = sum(len(line) + 1 for line in lines[:first])
            body = "\n".join(lines[first:last + 1])
            found += [(start + m.start(), start + m.end(), at + 1, last + 1) for m in pattern.finditer(body)]
    return found


def without_clause(text, function, clause):
    """Empties the lines of what the function ensures by this name; `ensures` is the clause that has none."""
    lines = text.split("\n")
    for name, at, (first, _) in bodies(text):
        depth = 0
        for number in range(at, first) if name == function else ():
            head = ENSURES.match(lines[number])
            if depth > 0 or head and (head.group(1) or "ensures") == clause:
                depth += lines[number].count("{") - lines[number].count("}")
                lines[number] = ""
    return "\n".join(lines)


def ensures(row, clause):
    """Tells whether the row's function ensures a clause of this name."""
    return without_clause(source(row), row.function, clause) != source(row)


def attributes(row):
    """Lists the attributes above the row's function, the nearest first."""
    above = source(row).split("\n")[:places(row)[0][2] - 1]
    return list(itertools.takewhile(lambda line: line.lstrip().startswith("#["), reversed(above)))


def proof_of(row):
    """Returns whose proof is the row's: the function itself, or the one that names its cycle of calls."""
    for attribute in attributes(row):
        cycle = CYCLE.match(attribute)
        if cycle:
            return "::".join(row.name().split("::")[:-1] + [cycle.group(1)])
    return row.name()


def clauses_of(text):
    """Yields the clauses of a source in order, each after the first line of its item, without comments and bodies."""
    depth = 0
    for line in text.split("\n"):
        if FUNCTION.match(line) or owner_of(line):
            yield line.strip()
        if depth > 0 or CLAUSE.match(line):
            yield line.strip()
            depth = max(0, depth + line.count("{") - line.count("}"))


def definitions_of(text):
    """The lines of a file of definitions without blank lines and lines of comments."""
    return [line for line in text.splitlines() if line.strip() and not line.lstrip().startswith("--")]


def digest_of(crate):
    """Returns the digest of a crate's clauses and definitions, whatever their comments say."""
    hasher = hashlib.sha256()
    for path in files_of(crate, "specs") + files_of(crate, "src"):
        parts = clauses_of(text_of(path)) if path.endswith(".rt") else definitions_of(text_of(path))
        hasher.update("\n".join([os.path.relpath(path, os.path.join(TOP, "crates", crate)), *parts, ""]).encode())
    return hasher.hexdigest()


def read_tried():
    """Reads the digest that each crate had when its rows were last tried."""
    return dict(line.split() for line in text_of(TRIED).splitlines()) if os.path.exists(TRIED) else {}


def write_tried(crate):
    """Writes a crate's digest as it is now."""
    tried = dict(read_tried(), **{crate: digest_of(crate)})
    with open(TRIED, "w", encoding="utf-8") as file:
        file.writelines("%s %s\n" % pair for pair in sorted(tried.items()))
