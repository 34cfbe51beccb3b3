"""Looks up what the pages state as code: options, commands, files, words, metrics, modes and messages, in what the sources have.

    python3 -m tests.docs.stated [PAGE..]      of README, CONTRIBUTING, docs/*.md, unless pages are given

Each piece of code in a text or a table is one of these, or stands in tests/docs/words with a reason:

- a file or a folder of the repository, or a command of it, each of whose options the program has;
- an option alone: of a program that is named near it;
- a name: each word of it is a word of the programs, the crates, the units or the tests;
- a message: a text of a source has these words, and something that differs where the page has `N`, `FILE` or a number.

The numbers beside a unit, the statuses and the modes are in tests/docs/numbers, each with the constant, the default, the setting or
the measurement that it is from, and with how often a page has it. So one that is changed is told, though it be another one's number.
"""
import ast
import collections
import fnmatch
import functools
import os
import re
import runpy
import subprocess
import sys

from tests import TOP, text_of, tracked
from tests.docs import promises
from tests.tables import rows
from tests.tables.completions import COMMANDS
from tests.tables.synopses import synopsis

PAGES = re.compile(r"(README|CONTRIBUTING|docs/\w+)\.md")
PROGRAM = re.compile(r"(tools|build|install|bench|\.ci|demo|test|examples)(/[\w.-]+)?|tests/(?:\w+/)*\w+\.(py|sh)|share/cadf/\w+\.py|bindings/python/.*\.py")
SPOKEN = re.compile(r"(tools|share|build|install|bindings|crates/\w+/(?:src|specs|proofs)|examples|\.ci|tests/reference|demo|test|bench)(?:/.*)?")
OPTION = re.compile(r"(?<![\w-])--[a-z][a-z-]*")
CODE = re.compile(r"`([^`]+)`")
WORD = re.compile(r"\w+")
VALUE = re.compile(r"\d[\d,.:TZ+-]*|\u2026")  # what differs from one to another
NAMED = re.compile(r"\b[A-Z]+\b")  # what stands for such a value in a page
FORMAT = re.compile(r"%[-+ 0#,.\d]*[sdrxf]|%\(\w+\)s|\{[^{}]*\}|\$\{[^}]*\}|\d[\d,.:TZ-]*")


def unbroken(text):
    """The text of a page without its blocks of code."""
    text = re.sub(r"(?ms)^ *```.*?^ *```$", "", text)
    return re.sub(r"(?m)^(?:    |\t).*$", "", text)


@functools.lru_cache(None)
def names():
    """The tracked files and their folders."""
    files = tracked()
    return {*files, *(os.path.dirname(name) for name in files), *(os.path.dirname(os.path.dirname(name)) for name in files)}


@functools.lru_cache(None)
def sources():
    """The texts that say what there is: programs, crates, units, vectors; none of them is a page or a test."""
    found = {}
    for name in tracked():
        if SPOKEN.fullmatch(name) and not name.endswith((".md", ".png", ".cadf", ".json", ".jsonl")):
            try:
                found[name] = text_of(name)
            except UnicodeDecodeError:
                pass
    return found


@functools.lru_cache(None)
def words():
    """All words of the sources, of the names of files, and of tests."""
    tests = (re.findall(r"def (test_\w+)", text_of(name)) for name in names() if re.fullmatch(r"(tests|bindings)/.*\.py", name))
    return {word for text in (*sources().values(), *names()) for word in WORD.findall(text)}.union(*tests)


@functools.lru_cache(None)
def elsewhere():
    """The lines of tests/docs/words: by how a piece of code begins, and as a whole, of any page or of one."""
    lines = [line.partition("   # ")[0] for line in text_of("tests/docs/words").splitlines() if line and not line.startswith("# ")]
    return {line[:-len(" ..")] for line in lines if line.endswith(" ..")}, set(lines)


@functools.lru_cache(None)
def texts():
    """The texts of the sources, each with a zero byte where it says something that differs."""
    found = set()
    for name, text in sources().items():
        if name.endswith(".py") or text.startswith("#!/usr/bin/env python3"):
            values = (node.value for node in ast.walk(ast.parse(text)) if isinstance(node, ast.Constant))
            found.update(value if isinstance(value, str) else value.decode("latin-1") for value in values if isinstance(value, (str, bytes)))
        elif name.endswith((".rt", ".antt")):
            found.update(re.findall(r'"((?:[^"\\\n]|\\.)*)"', text))
        else:
            found.update(text.splitlines())
    return {FORMAT.sub("\0", text) for text in found}


@functools.lru_cache(None)
def help_of(tool):
    """The help of a tool, on a terminal that is wider than a page."""
    words, environment = [os.path.join(TOP, "tools", tool), "--help"], dict(os.environ, COLUMNS="150")
    return subprocess.run(words, check=True, env=environment, stdout=subprocess.PIPE, universal_newlines=True).stdout


@functools.lru_cache(None)
def tools():
    return [name for name in sorted(os.listdir(os.path.join(TOP, "tools"))) if name.startswith("cadf-")]


@functools.lru_cache(None)
def options(program):
    """The options of a program, by its name, its place or its module; None of one that isn't ours."""
    if program == "cadf":
        return {option for name in COMMANDS for option in options("cadf " + name)} | {"--version"}
    if program.startswith("cadf "):
        return {*OPTION.findall(synopsis(program[len("cadf "):])), "--help"}
    if program in tools():
        return set(OPTION.findall(help_of(program)))
    places = [program, program.replace(".", "/") + ".py", program.replace(".", "/") + "/__main__.py"]
    place = next((place for place in places if PROGRAM.fullmatch(place) and os.path.isfile(os.path.join(TOP, place))), None)
    beside = text_of(".ci", "steps.py") if program.startswith(".ci/") else ""
    return place and {*OPTION.findall(text_of(place) + beside), "--help", "--version"}


def program_of(code):
    """The program of ours that a command line begins with, or None."""
    parts = [part for part in code.split() if not re.fullmatch(r"[A-Z]+=.*", part)]
    if parts[:1] == ["python3"]:
        parts = [part for part in parts[1:] if part != "-m"]
    if parts[:1] == ["cadf"] and parts[1:] and parts[1] in COMMANDS:
        return "cadf " + parts[1]
    return parts[0] if parts and options(parts[0]) else None


def programs_in(text):
    """The programs of ours that a text names."""
    found = {program_of(code) for code in [*CODE.findall(text), *re.findall(r"(?m)^ +(?:\$ )?(.*)$", text)]} | {name for name in tools() if re.search(r"\b%s\b" % name, text)}
    return found - {None}


def is_file(code):
    """Whether a piece of code is a file, a folder or a pattern of files that is there."""
    path = re.sub(r"[A-Z]{2,}", "*", code.rstrip("/"))
    return any(fnmatch.fnmatchcase(name, pattern) for pattern in (path, "*/" + path) for name in names())


@functools.lru_cache(None)
def all_texts():
    return "\n".join(texts())


@functools.lru_cache(None)
def is_said(said):
    """Whether a text of the sources says this: it has the same words, something at each zero byte, and anything in place of `..`."""
    pieces = [piece.strip() for piece in re.split(r"\0|\.\.", said) if len(piece.strip()) > 1]
    if not pieces or not all(piece in all_texts() for piece in pieces):
        return False
    words_of = re.escape(said.strip(" ")).replace("\\.\\.", ".*").replace("\0", r"\W*\0\W*").replace(r"\ \W", r"\W").replace(r"\W*\ ", r"\W*")
    pattern = re.compile(r"(?<!\w)" * said[0].isalnum() + words_of + r"(?!\w)" * said[-1].isalnum(), re.S)
    return any(pattern.search(text) for text in texts() if all(piece in text for piece in pieces))


@functools.lru_cache(None)
def faults():
    """The last words of the command's refusals, as the worked rows have them."""
    return {wanted.error.decode()[:-1].split(": ")[-1] for *_, wanted in rows.all_rows() if wanted.status}


def is_path(code):
    """Whether a piece of code is the path of a file in a folder of the repository, there or not."""
    folder, _, name = code.rpartition("/")
    return folder.split("/")[0] in {os.path.basename(each) for each in names()} - {""} and bool(re.fullmatch(r"[\w-]+\.\w+", name))


def is_message(code):
    """Whether a text of the sources has what a piece of code says: all of it, or each part between colons."""
    def is_part(part):
        part = VALUE.sub("\0", part)
        return is_said(part) or is_said(NAMED.sub("\0", part))

    *before, last = [part for part in code.split(": ") if NAMED.sub("", VALUE.sub("", part)).strip(" :.")] or [""]
    return is_part(code) or ": " in code and (is_part(last) if " " in last else last in faults()) and all(
        is_part(part) if " " in part else is_spoken(part) for part in before)


def is_spoken(code):
    """Whether each word of a piece of code is one of the sources, and each number a mode or another word there."""
    found = set(WORD.findall(re.sub(r"\d{4}-\d\d[\w:.+-]*|-?\d+\.\d+", "", code)))
    return all(word in words() or word.startswith("cadf_") and word[len("cadf_"):] in texts() or re.fullmatch("0[0-7]{3}|[0-7]{3}", word) and is_mode(word)
               for word in found)


def is_mode(word):
    return "0o" + word.lstrip("0") in words()


def why_not(page, code, near):
    """What is wrong with a piece of code of a page, by the programs that are named near it; None if it is stated elsewhere too."""
    first, whole = elsewhere()
    program = program_of(code)
    if {code, "%s: %s" % (short(page), code)} & whole:
        return None
    if program:
        wrong = set(OPTION.findall(code)) - options(program)
        return "%s has no %s" % (program, " ".join(sorted(wrong))) if wrong else None
    if any(code.startswith(each + " ") or code == each for each in first):
        return None
    if code.startswith("--"):
        wrong = [option for option in OPTION.findall(code) if not any(option in options(each) for each in near)]
        return "no program that is named near it has %s" % " ".join(wrong) if wrong else None
    is_word = " " not in code or code[0] in "[{(\"" or os.path.join(TOP, page) in promises.PAGES
    if is_file(code) or is_message(code) or is_word and is_spoken(code) and not is_path(code):
        return None
    return "nothing says it"


def places(text):
    """The paragraphs and rows of a page, each with the programs that it, the three before it, its heading or the first paragraphs name."""
    first = programs_in("\n\n".join(text.split("\n## ")[0].split("\n\n")[:3]))
    for part in re.split(r"\n(?=## )", text):
        head = programs_in(part.split("\n\n")[0])
        before = []
        for place in re.split(r"\n(?=\n|\||- |\d\. )", part):
            own = programs_in(place)
            yield place, set().union(own, first, head, *before)
            before = [own, *before[:2]] if own else before


def unstated(name, text):
    """Yields each piece of code of a page that is stated nowhere else, and why."""
    for place, near in places(re.sub(r"(?m)^ *```.*$", "", text)):
        for code in sorted({" ".join(found.split()) for found in CODE.findall(unbroken(place))}):
            wrong = why_not(name, code, near)
            if wrong:
                yield code, wrong


# ---- Numbers

UNITS = r"bytes?|[KMGT]i?B|ms|s|seconds?|minutes?|hours?|days|weeks|years|windows|levels|deep|steps?|cells|digits|characters|bits|percent|times"
NUMBER = re.compile(r"(?<![\w.,^-])(\d[\d,]*(?:\.\d+)?|2\^\d+)\s+(%s)\b|\b(status|mode)(?:es)?(?:\s+(?:is|was|stays))?\s+(\d+)\b" % UNITS)
SCALES = {"KB": 1000, "MB": 1000 ** 2, "GB": 1000 ** 3, "KiB": 1 << 10, "MiB": 1 << 20, "GiB": 1 << 30, "minutes": 60, "hours": 3600, "days": 86400}
SUFFIX = {"K": 1 << 10, "M": 1 << 20, "G": 1 << 30, "d": 86400, "h": 3600, "min": 60, "": 1}


def short(name):
    """How tests/docs/numbers calls a page."""
    return os.path.basename(name)[:-len(".md")]


def counted(name, text):
    """How often a page has each number with its unit, but for those that bench/figures.py has."""
    text, figures = unbroken(text), runpy.run_path(os.path.join(TOP, "bench", "figures.py"))
    is_measured = figures["MEASURED"].search if os.path.join(TOP, name) in figures["FIGURES"] else lambda said: False
    found = (tuple(each for each in (number[3], number[4], number[1], number[2]) if each) for number in NUMBER.finditer(text))
    return collections.Counter(said for said in map(" ".join, found) if not is_measured(said))


def listed():
    """The lines of tests/docs/numbers: what a number is from, the number with its unit, and how often each page has it."""
    for line in text_of("tests/docs/numbers").splitlines():
        if line and not line.startswith("#"):
            source, numbers, places = line.split(": ")
            counts = {each.split(" ")[0]: int((each.split(" ") + ["1"])[1]) for each in places.split(", ")}
            yield from ((source, number, counts) for number in numbers.split(", "))


def constants(name):
    """The numbers that a program names, by their names."""
    found = {}
    for node in ast.parse(text_of(name)).body:
        if isinstance(node, ast.Assign):
            try:
                value = eval(compile(ast.Expression(node.value), name, "eval"), {}, found)  # pylint: disable=eval-used
            except Exception:  # pylint: disable=broad-except
                continue  # it is no number, or made of what is imported
            for target in node.targets:
                names_of, values = (target.elts, value) if isinstance(target, ast.Tuple) else ([target], [value])
                found.update((each.id, one) for each, one in zip(names_of, values) if isinstance(each, ast.Name))
    return found


def value_of(source):
    """What a constant, the default of an option or a setting of a unit has; None if the source is a reason."""
    factor, _, source = source.rpartition(" * ")
    place, _, name = source.partition(" ")
    if name.startswith("--"):
        value = int(re.search(r"\n  %s\b(?:.|\n(?!  -))*?\(default:\s+(\d+)" % name, help_of(place))[1])
    elif re.search(r"\.(service|timer|tmpfiles)$", place):
        value = re.search(r"(?m)\b%s[= ].*?\b(\d+)([KMGdh]?)$" % re.escape(name), text_of("examples", "systemd", place))
        value = int(value[1]) * SUFFIX[value[2]]
    elif place.endswith(".js"):
        value = int(re.search(r"\b%s = (\d+)" % name, text_of("share", "cadf", "report", place))[1])
    elif name.isupper():
        value = constants(next(each for each in names() if each in (place, "share/cadf/%s.py" % place, "tests/reference/%s.py" % place, "tools/" + place)))[name]
    else:
        return os.path.getsize(os.path.join(TOP, place)) if os.path.isfile(os.path.join(TOP, place)) else None
    return value * int(factor or 1)


def is_number(said, value):
    """Whether a number with its unit says this value, of a decimal size nearly."""
    number, unit = said.split(" ") if said[0].isdigit() else said.split(" ")[::-1]
    if unit == "mode":
        return int(number, 8) == value
    wanted = 2 ** int(number[2:]) if number.startswith("2^") else float(number.replace(",", ""))
    wanted *= SCALES.get(unit, 1)
    return wanted == value or unit in ("KB", "MB", "GB") and abs(wanted - value) < value / 12


def wrong_numbers(name, text):
    """Yields each number of a page that has no source, or another one."""
    wanted = collections.Counter()
    for source, said, counts in listed():
        wanted[said] += counts.get(short(name), 0)
        value = value_of(source) if short(name) in counts else None
        if value is not None and not is_number(said, value):
            yield said, "%s is %s" % (source, value)
    found = counted(name, text)
    for said in sorted({*found, *wanted}):
        if found[said] != wanted[said]:
            yield said, "it is there %d times, and tests/docs/numbers has %d with their sources" % (found[said], wanted[said])


def pages():
    return [name for name in tracked() if PAGES.fullmatch(name)]


def main():
    named = sys.argv[1:] or pages()
    found = [(name, *each) for name in named for each in (*unstated(name, text_of(name)), *wrong_numbers(name, text_of(name)))]
    for each in found:
        print("stated: %s: `%s`: %s" % each)
    print("stated: %d pages, %d faults" % (len(named), len(found)))
    return 1 if found else 0


if __name__ == "__main__":
    sys.exit(main())
