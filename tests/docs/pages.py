"""Lints the pages: links that lead nowhere, commands that nothing runs, refused phrases, sentences without end.

    python3 -m tests.docs.pages

The pages are README, CONTRIBUTING, docs/*.md, the manual page and the README of examples/vectors. Of each:

- A sentence has at most 60 words: the cap finds a list that was written as a sentence, and shapes no other. Code and
  tables are left out. An inline piece of code is one word, and so is a list of them. A paragraph, a list item and a
  heading end a sentence. A dot ends one only if a blank follows it.
- No phrase of tests/docs/phrases occurs, in text or in tables.
  Those of one word occur in no tool either, nor in the parts of the report's page.
- Each command that the page shows is run by somebody: the lines `$ command` by `tests/docs/test_shown.py`. A command of
  a block ```sh is a script of the repository, or a line of tests/docs/elsewhere names the script that runs it.

README has at most 200 lines. Lines have at most 120 characters, those of other pages than README but for tables and
code. docs/ARCHITECTURE.md has the picture of the crates that crates.txt makes, a row for the arrows of each crate and
one for what it owns, and its layers have each crate of the product once, with none that it depends on above it. Each link of every Markdown file into the repository leads to a
file, and to a heading of it. Before all this the script refuses wrong pages of its own, one for each fault.
"""
import os
import re
import runpy
import shutil
import sys
from collections import Counter

from build.plan import crates_of
from tests import TOP, text_of, tracked
from tests.docs import shown

MOST_WORDS = 60
MOST_LINES, WIDTH = 200, 120  # of README; of a line
PAGES = re.compile(r"(README|CONTRIBUTING|docs/\w+|examples/vectors/README)\.md|share/man/man1/cadf\.1")
PROGRAMS = re.compile(r"(?:tools|share/cadf)/.*")
LINK = re.compile(r"\]\(([^)#\s]*)(?:#([^)\s]*))?\)")
ITEM = re.compile(r"\s*(?:[-*]|\d+\.) ")
SENTENCE_END = re.compile(r"(?<!\.)[.!?][)\"'*]*\s+")
SH_BLOCK = re.compile(r"(?ms)^ *```sh\n(.*?)^ *```$")
# Requests of a manual page: those whose words are text, joined with blanks or without, and those that go on with the text.
ROFF_TEXT = {"B": " ", "I": " ", "SH": " ", "SS": " ", "BR": "", "BI": "", "RB": "", "RI": "", "IR": "", "IB": ""}
ROFF_BREAKS = ("SH", "SS", "TP", "PP", "RS", "RE", "TH", "br")


def plain(text):
    """The text of a paragraph without marks: a list of inline pieces of code is one word, and a link its text."""
    text = re.sub(r"`[^`]*`(?:,\s+`[^`]*`)*", "x", text)
    return re.sub(r"!?\[([^\]]*)\]\([^)]*\)", r"\1", text).replace("*", "")


def markdown_paragraphs(text, tables):
    """The paragraphs, items and headings of a page as (number of the first line, text); the rows of tables if asked for."""
    block, first, in_code = [], 1, False
    for number, line in enumerate(text.splitlines() + [""], 1):
        is_fence = line.lstrip().startswith("```")
        is_apart = in_code or is_fence or line.startswith("    ") and not block
        in_code ^= is_fence
        is_row = line.startswith("|")
        if block and (is_apart or is_row or not line.strip() or line.startswith("#") or ITEM.match(line)):
            yield first, plain("\n".join(block))
            block = []
        if is_apart or is_row:
            if is_row and tables:
                yield number, plain(line)
            continue
        if not block:
            first = number
        if line.strip():
            block.append(line)
        if line.startswith("#"):
            yield first, plain(line)
            block = []


def roff_paragraphs(text):
    """The paragraphs of a manual page as (number of the first line, text), but for its synopses, which are code."""
    block, first, is_synopsis = [], 1, False
    for number, line in enumerate(text.splitlines() + [".PP"], 1):
        request = re.match(r"\.(\w+) ?(.*)", line)
        name = request.group(1) if request else ""
        is_tag = bool(block) and block[-1] is None  # the line after .TP
        if name in ROFF_BREAKS:
            said = " ".join(words for words in block if words)
            if said and not is_synopsis:
                yield first, re.sub(r"\\f[A-Z]", "", said).replace("\\", "")
            block, first = [None] if name == "TP" else [], number
        if name in ("SH", "SS"):
            is_synopsis = name == "SS" or "SYNOPSIS" in line
        elif name == "PP":
            is_synopsis = False
        elif name in ROFF_TEXT:
            words = re.findall(r'"([^"]*)"|(\S+)', request.group(2))
            block.append(ROFF_TEXT[name].join(quoted or bare for quoted, bare in words))
        elif not name:
            block.append(line)
        if is_tag:  # the tag of an item is no part of its text
            block, first = [], number + 1


def paragraphs(name, text, tables=False):
    return markdown_paragraphs(text, tables) if name.endswith(".md") else roff_paragraphs(text)


def count_words(sentence):
    return sum(any(map(str.isalnum, word)) for word in sentence.split())


def long_sentences(name, text):
    """A line for each sentence of a page that is too long."""
    for number, paragraph in paragraphs(name, text):
        for sentence in SENTENCE_END.split(paragraph):
            if count_words(sentence) > MOST_WORDS:
                yield "%s:%d: %d words: %s .." % (name, number, count_words(sentence), " ".join(sentence.split())[:70])


def listed(name):
    """The lines of a list of this folder, without comments."""
    return [line for line in text_of("tests/docs", name).splitlines() if line and not line.startswith("#")]


def refused_phrases():
    """The phrases of tests/docs/phrases, each with what to write instead."""
    return [line.split(" -> ") for line in listed("phrases")]


def phrases(name, text):
    """A line for each refused phrase of a page."""
    found = list(paragraphs(name, text, tables=True))
    for phrase, instead in refused_phrases():
        pattern = re.compile(r"\b%s\b" % r"\s+".join(map(re.escape, phrase.split())), re.I)
        for number, paragraph in found:
            if pattern.search(paragraph):
                yield "%s:%d: `%s`: write %s" % (name, number, phrase, instead)


def words_of_programs(name, text):
    """A line for each line of a program that has a refused phrase of one word, in what it prints or in its code."""
    for word, instead in (pair for pair in refused_phrases() if " " not in pair[0]):
        for number, line in enumerate(text.splitlines(), 1):
            if re.search(r"(?i)(?<![a-z])%s" % word, line):
                yield "%s:%d: `%s`: write %s" % (name, number, word, instead)


def anchors(text):
    """What a link to a heading of a page says behind `#`."""
    headings = re.findall(r"(?m)^#+ (.*)$", text)
    return {re.sub(r"[^\w\- ]", "", heading.strip().lower()).replace(" ", "-") for heading in headings}


def dead_links(name, text):
    """A line for each link of a page into the repository that leads nowhere."""
    for path, anchor in LINK.findall(text):
        target = os.path.join(TOP, os.path.dirname(name), path) if path else None
        if "://" in path:
            continue
        if target and not os.path.exists(target) or anchor and anchor not in anchors(text_of(target) if target else text):
            yield "%s: the link %s leads nowhere" % (name, path + ("#" + anchor if anchor else ""))


def elsewhere():
    """The commands of tests/docs/elsewhere, each with the script that runs it."""
    return {command: script for script, command in (line.split(": ", 1) for line in listed("elsewhere"))}


def commands_of_blocks(text):
    """The commands of a page's blocks ```sh, without their comments."""
    lines = [line for block in SH_BLOCK.findall(text) for line in block.splitlines()]
    return [re.sub(r"\s+#.*", "", line).strip() for line in lines if line.strip()]


def idle_commands(name, text):
    """A line for each command that a page shows and nobody runs."""
    if re.search(r"(?m)^    \$ ", text) and name not in shown.pages():
        yield "%s: tests/docs/test_shown.py doesn't run its commands" % name
    for command in commands_of_blocks(text):
        if command not in elsewhere() and not shown.can_run(command):
            yield "%s: nothing runs `%s`: name in tests/docs/elsewhere the script that does" % (name, command)


def stale_commands(names):
    """A line for each command of tests/docs/elsewhere that no page shows, or whose script neither the gate nor anybody runs."""
    known = [*runpy.run_path(os.path.join(TOP, ".ci", "steps.py"))["programs"](), text_of("CONTRIBUTING.md")]
    listed = {command for name in names for command in commands_of_blocks(text_of(name))}
    for command, script in elsewhere().items():
        if command not in listed:
            yield "tests/docs/elsewhere: no page shows `%s`" % command
        names = (script, script[:-len(".py")].replace("/", "."))  # by its place, or as a module
        if not os.path.exists(os.path.join(TOP, script)) or not any(name in place for name in names for place in known):
            yield "tests/docs/elsewhere: %s is no step of the gate, and CONTRIBUTING doesn't have it on demand" % script


def long_or_wide(name, text):
    """A line for a README that is too long, and for each line that is too wide: of another page than README no code and no row."""
    lines, in_code = text.splitlines(), False
    if name == "README.md" and len(lines) > MOST_LINES:
        yield "%s: %d lines: it may have %d" % (name, len(lines), MOST_LINES)
    for number, line in enumerate(lines if name.endswith(".md") and PAGES.fullmatch(name) else [], 1):
        is_fence = line.lstrip().startswith("```")
        is_apart = in_code or is_fence or line.startswith(("    ", "|"))
        in_code ^= is_fence
        if len(line) > WIDTH and (name == "README.md" or not is_apart):
            yield "%s:%d: %d characters: it may have %d" % (name, number, len(line), WIDTH)


def dependencies():
    """Of each crate of the product, those of them that it depends on."""
    product = text_of("crates.txt").split("# Tests")[0]
    return {name: others for name, others in crates_of(TOP).items() if "\n%s:" % name in product}


def below(crates, name):
    """All that a crate depends on."""
    return set(crates[name]).union(*(below(crates, other) for other in crates[name]))


def level(crates, name):
    """How many crates are below a crate, one upon the other."""
    return max((level(crates, other) + 1 for other in crates[name]), default=0)


def arrows(crates, name):
    """What a crate depends on, but for those that it reaches by another."""
    reached = set().union(*(below(crates, other) for other in crates[name]))
    return [other for other in crates[name] if other not in reached]


def picture():
    """The crates by their levels, each with those to which its arrows lead."""
    crates = dependencies()
    width = max(map(len, crates))
    lines, last = [], None
    for name in sorted(crates, key=lambda name: -level(crates, name)):
        others = arrows(crates, name)
        number = level(crates, name)
        arrow = "--> " + ", ".join(others) if others else ""
        lines.append(("%3s  %-*s %s" % ("" if number == last else number, width, name, arrow)).rstrip())
        last = number
    return "```text\n%s\n```\n" % "\n".join(lines)


def wrong_picture(name, text):
    """A line for a page of the crates that hasn't their picture."""
    if name.endswith("ARCHITECTURE.md") and picture() not in text:
        yield "%s: the picture of the crates has to be\n%s" % (name, picture())


def layers(text):
    """The crates of the boxes of a page, the highest first."""
    boxes = re.split(r"(?m)^\+-[-+]*\+$", text)[1:-1]
    return [re.findall(r"\bcadf\w*", box) for box in boxes]


def wrong_layers(name, text):
    """A line for each crate that the boxes of a page of the crates don't have once, or below what it depends on."""
    if not name.endswith("ARCHITECTURE.md"):
        return
    places = [(crate, height) for height, box in enumerate(layers(text)) for crate in box]
    for crate in PRODUCT:
        own = [height for found, height in places if found == crate]
        if len(own) != 1:
            yield "%s: %d of its layers have %s" % (name, len(own), crate)
        for other in sorted(other for other, height in places if own and height < own[0] and other in crates_of(TOP)[crate]):
            yield "%s: %s is above %s, which depends on it" % (name, other, crate)


def rows(text, heading):
    """The names in code of the first cells of the rows below this heading of a table, wherever it stands, and those of the second."""
    tables = re.findall(r"(?m)^%s\n\|[-|]+\n((?:\|.*\n)*)" % re.escape(heading), text)
    cells = [row.split(" | ") for table in tables for row in table.splitlines()]
    return [(re.findall(r"`(\w+)`", first), re.findall(r"`(\w+)`", second)) for first, second, *_ in cells]


def wrong_rows(name, text):
    """A line for each crate that the tables of a page of the crates don't have in one row, or of which the row has other arrows."""
    if not name.endswith("ARCHITECTURE.md"):
        return
    crates, owners = dependencies(), [crate for first, _ in rows(text, OWNERS) for crate in first]
    for crate in PRODUCT:
        if owners.count(crate) != 1:
            yield "%s: %d rows say what %s owns" % (name, owners.count(crate), crate)
    told = Counter((crate, *sorted(second)) for first, second in rows(text, ARROWS) for crate in first)
    wanted = Counter((crate, *sorted(arrows(crates, crate))) for crate in crates if crates[crate])
    for crate, *others in (told - wanted) + (wanted - told):
        yield "%s: one row has to say what the arrows of %s are for, and here %d say those to %s" % (
            name, crate, told[(crate, *others)], " and ".join(others))


OWNERS, ARROWS = "| Crate | Owns | Public names |", "| From | To | Because |"
FAULTS = (long_sentences, phrases, dead_links, idle_commands, wrong_picture, wrong_layers, wrong_rows, long_or_wide)
LONG = " ".join(["word"] * MOST_WORDS)
BOXES = "docs/ARCHITECTURE.md"
PRODUCT = [name for name in crates_of(TOP) if name.startswith("cadf")]  # each after those that it depends on
OWNER, ARROW = "| `cadf_words` | x | x |\n", "| `cadf_scan` | `cadf_atom` | x |\n"
TABLES = "%s\n|---|\n%s\n%s\n|---|\n%s\n" % (
    OWNERS, "".join(OWNER.replace("cadf_words", crate) for crate in PRODUCT),
    ARROWS, "".join("| `%s` | %s | x |\n" % (crate, ", ".join("`%s`" % other for other in arrows(dependencies(), crate)))
                    for crate, others in dependencies().items() if others))
RIGHT = picture() + TABLES + "+--+\n" + "".join("| %s |\n+--+\n" % crate for crate in reversed(PRODUCT))
# A page, and how many faults are found in it, by those of FAULTS that find any.
TRIALS = [
    ("right.md", LONG + ".\n- %s\n- %s\n# %s\n| %s | x |\n\n    %s x\n" % ((LONG,) * 5), {}),
    ("right.md", "See `%s x` in [%s](#a-b), 1.5 or a.b too\n\n# A b!\n" % (LONG, "`x y`"), {}),
    ("long.md", LONG + " x.\n", {long_sentences: 1}),
    ("long.md", "  - x\n    " + LONG + "\n", {long_sentences: 1}),
    ("long.md", LONG + "\nx e.txt 1.5 `a. b`.\n", {long_sentences: 1}),
    ("long.1", ".SH NAME\n%s\n.B x\ny.\n.TP\n.B z\n%s\n" % (LONG, LONG), {long_sentences: 1}),
    ("phrase.md", "A want\nof memory.\n\n| want of memory | `want of memory` |\n", {phrases: 2}),
    ("link.md", "[a](docs/NOWHERE.md) [b](docs/FORMATS.md#nowhere) [c](#nowhere) [d](CONTRIBUTING.md#the-gate)\n", {dead_links: 3}),
    ("command.md", "    $ cadf\n\n```sh\nno-such-command   # why\npython3 -m tests.no\npython3 -m tests\n```\n", {idle_commands: 3}),
    (BOXES, RIGHT, {}),
    (BOXES, RIGHT.replace("  0  cadf_", "  1  cadf_"), {wrong_picture: 1}),
    (BOXES, RIGHT.replace("| cadf_words |", "| |"), {wrong_layers: 1}),
    (BOXES, RIGHT.replace("| cadf_words |", "| cadf_words, cadf_words |"), {wrong_layers: 1}),
    (BOXES, RIGHT.replace("| cadf_words |", "| |").replace("+--+", "+--+\n| cadf_words |\n+--+", 1), {wrong_layers: 1}),
    (BOXES, RIGHT.replace(OWNER, OWNER * 2), {wrong_rows: 1}),
    (BOXES, RIGHT.replace(OWNER, ""), {wrong_rows: 1}),
    (BOXES, RIGHT.replace(ARROW, ARROW * 2), {wrong_rows: 1}),
    (BOXES, RIGHT.replace(ARROW, ""), {wrong_rows: 1}),
    (BOXES, RIGHT.replace(ARROW, ARROW.replace("cadf_atom", "cadf_line")), {wrong_rows: 2}),
    ("README.md", "x\n\n" * 101, {long_or_wide: 1}),
    ("README.md", "    " + "x" * 117 + "\n", {long_or_wide: 1}),
    ("docs/WIDE.md", "%s\n\n    %s\n\n| %s |\n\n```\n%s\n```\n" % (("x" * 121,) * 4), {long_or_wide: 1}),
]


def blind_faults():
    """A line for each trial in which not just the right faults are found."""
    for name, text, expected in TRIALS:
        found = Counter(fault.__name__ for fault in FAULTS for _ in fault(name, text))
        if found != {fault.__name__: count for fault, count in expected.items()}:
            yield "the trial %s %r: found %r" % (name, text[:40], dict(found))
    if len(list(words_of_programs("tools/x", "a\nis_contested\nContested, uncontested\n"))) != 2:
        yield "the words of a program are found otherwise"


def main():
    if shutil.which("git") is None:
        return print("skipped: git, which lists the pages, isn't there")
    names = tracked()
    pages = [name for name in names if PAGES.fullmatch(name)]
    found = [*blind_faults(), *stale_commands(pages)]
    for name in names:
        if name in pages:
            found += [line for fault in FAULTS for line in fault(name, text_of(name))]
        elif name.endswith(".md"):
            found += dead_links(name, text_of(name))
        elif PROGRAMS.fullmatch(name):
            found += words_of_programs(name, text_of(name))
    print("".join("pages: %s\n" % line for line in found), end="")
    if found:
        sys.exit("pages: %d faults" % len(found))
    return print("pages: %d pages have no fault, and each of %d trials was judged rightly" % (len(pages), len(TRIALS)))


if __name__ == "__main__":
    main()
