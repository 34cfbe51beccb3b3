"""bindings/c/cadf.h and the package for Python without the library: what they hand on, over one that notes what it is given."""
import contextlib
import os
import re
import resource
import subprocess
import sys

import pytest

from install import library_files
from tests import TOP, text_of
from tests.library.declarations import HEADERS, IN_PYTHON, PYTHON, STRICT, called, declared, exported
from tests.machine import put

import cadf  # noqa: E402  by tests.library.declarations

PEDANTIC = ["-pedantic", "-Wall", "-Wextra", "-Werror"]
# What a value of each kind is in a call, where it is given and where it is NULL, and how the noting library prints it.
VALUES = {"bool": ("true", "true"), "uint8_t": ("'E'", "'E'"), "uint64_t": ("9", "9"), "uint8_t *": ("buffer", "NULL"), "size_t *": ("&length", "&length")}
PRINTED = {"bool": ("%d", "{0}"), "uint8_t": ("%d", "{0}"), "uint64_t": ("%d", "(int){0}"), "size_t": ("%d", "(int){0}"), "uint8_t *": ("%d", "{0} != NULL"),
           "const struct cadf_bytes *": ("%d", "{0}->bytes ? (int){0}->length : -1")}
INPUT = "const struct cadf_bytes *"
PROGRAM = '#include "cadf.h"\nint main(void) {\n    struct cadf_bytes four[4] = {cadf_bytes_of("a", 1), cadf_bytes_of("bc", 2), cadf_bytes_of("def", 3), cadf_bytes_of("ghij", 4)};\n    uint8_t buffer[5]; size_t length;\n%s    return 0;\n}\n'


def call(name, kinds, is_given):
    """A call of the function whose inputs have 1, 2, 3 and 4 bytes, or are NULL, and what the noting library has to print of it."""
    words, told, inputs = [], [], 0
    for at, kind in enumerate(kinds):
        if kind == INPUT:
            words.append("four + %d" % inputs if is_given else "NULL")
            told.append(str(inputs + 1 if is_given else 0))
            inputs += 1
        elif kind == "size_t":  # the number of the inputs before it, or the room of the output before it
            is_count = kinds[at - 1] == INPUT
            words.append("2" if is_count else "5")
            told.append(("2" if is_count else "5") if is_given else "0")
        else:
            words.append(VALUES[kind][not is_given])
            told.append({"bool": "1", "uint8_t": str(ord("E")), "uint64_t": "9", "uint8_t *": "1"}.get(kind, ""))
    return "    %s(%s);\n" % (name, ", ".join(words)), " ".join([name, *filter(None, told)])


def noting():
    """A library that prints what each function is given. A macro of a function's name is left out by the parentheses."""
    made = '#include <stdio.h>\n#include "cadf.h"\nuint32_t cadf_version(void) { return 0; }\n'
    for name, kinds, _ in declared():
        words = [(kind, "a%d" % at) for at, kind in enumerate(kinds)]
        shown = [(PRINTED[kind][0], PRINTED[kind][1].format(word)) for kind, word in words if kind in PRINTED]
        if words:
            made += 'int (%s)(%s) {\n    printf("%s %s\\n", %s);\n    *%s = 0;\n    return 0;\n}\n' % (
                name, ", ".join("%s %s" % pair for pair in words), name, " ".join(form for form, _ in shown), ", ".join(value for _, value in shown), words[-1][1])
    return made


@pytest.mark.needs("gcc")
@pytest.mark.parametrize("language, words", [("c", STRICT), ("c", ["-std=c99", *PEDANTIC]), ("c++", ["-std=c++11", *PEDANTIC])])
def test_wrappers(tmp_path, language, words):
    """In C99, C11 and C++11 each function takes NULL for what is nothing, and hands all else on in its order."""
    if language == "c++" and subprocess.run(["gcc", "-x", "c++", "-fsyntax-only", os.devnull], stderr=subprocess.DEVNULL).returncode:
        pytest.skip("g++ isn't there: gcc has no C++ here")
    calls = [call(name, kinds, is_given) for name, kinds, _ in declared() if kinds for is_given in (True, False)]
    (tmp_path / "main").write_text(PROGRAM % "".join(made for made, _ in calls))
    (tmp_path / "noting.c").write_text(noting())
    for command in (["gcc", *STRICT, "-c", "noting.c", "-I", HEADERS], ["gcc", *words, "-I", HEADERS, "-x", language, "main", "-x", "none", "noting.o", "-o", "program"]):
        done = subprocess.run(command, cwd=tmp_path, stderr=subprocess.PIPE, universal_newlines=True)
        assert done.returncode == 0, done.stderr
    said = subprocess.run([tmp_path / "program"], check=True, stdout=subprocess.PIPE, universal_newlines=True).stdout
    assert said.splitlines() == [told for _, told in calls]


@pytest.mark.needs("gcc")
def test_numbers_of_call(tmp_path):
    """bindings/c/call.c takes decimal numbers below 2^64, and refuses any other word where it has a number."""
    (tmp_path / "noting.c").write_text(noting())
    (tmp_path / "file").write_bytes(b"")
    subprocess.run(["gcc", *STRICT, "-I", HEADERS, "noting.c", os.path.join(HEADERS, "call.c"), "-o", "call"], cwd=tmp_path, check=True)
    for number in ("0", "7", "12582912", str(2 ** 64 - 1), "-1", "+1", " 1", "1 ", "3x", "x", "", "007", "0x10", "1.5", str(2 ** 64), "9" * 30):
        is_one = number.isdecimal() and str(int(number)) == number and int(number) < 2 ** 64
        shown = int(number) if is_one and int(number) < 2 ** 31 else -1  # as the noting library prints it
        for words, told in ((["sketch", number, "0"], "sketch %d 0" % shown), (["sketch", "0", number], "sketch 0 %d" % shown),
                            (["rule", "E", "k", number], "rule %d 1 %d" % (ord("E"), shown)), (["rehearse", "g", number], "rehearse 1 %d" % shown)):
            done = subprocess.run([tmp_path / "call", *words, tmp_path / "file"], stdout=subprocess.PIPE, stderr=subprocess.PIPE, universal_newlines=True)
            if is_one:
                assert (done.returncode, done.stderr) == (0, "") and done.stdout.startswith("cadf_%s " % told), (words, done)
            else:
                assert (done.returncode, done.stdout, done.stderr) == (2, "", "cadf: words\n"), (words, done)


def test_functions():
    """The header declares what the crate exports, and so does the package."""
    crate = {name: (words, result) for name, words, result in exported()}
    assert {name: (words, result) for name, words, result in declared()} == crate
    assert dict(called()) == {name: [IN_PYTHON[word] for word in words] for name, (words, _) in crate.items() if words}


def test_versions():
    """The library, the command and the package have one version."""
    number = ".".join(re.findall(r"const (?:MAJOR|MINOR|PATCH): u32 = (\d+);", text_of("crates", library_files.CRATE, "src", "lib.rt")))
    told = re.search(r'\.version\("(.*?)"\)', text_of("crates", "cadf_words", "src", "table.rt")).group(1)
    assert number == told == library_files.version(TOP) == cadf.__version__


def test_package():
    """The package's own tests that need no library."""
    subprocess.run([sys.executable, "-m", "unittest", "tests.test_package"], cwd=PYTHON, check=True, env={**os.environ, "PYTHONDONTWRITEBYTECODE": "1"})


@contextlib.contextmanager
def full():
    """Lets no file be written beyond 20,000 bytes."""
    before = resource.getrlimit(resource.RLIMIT_FSIZE)
    resource.setrlimit(resource.RLIMIT_FSIZE, (20_000, before[1]))
    try:
        yield
    finally:
        resource.setrlimit(resource.RLIMIT_FSIZE, before)


def wheel_of(library, monkeypatch, folder):
    """Makes the wheel in the folder, with these bytes for the library. Returns its path."""
    monkeypatch.setattr(library_files, "link", lambda _, made: put(made, library_files.SONAME, library))
    return folder / library_files.wheel(TOP, str(folder))


def test_wheel(tmp_path, monkeypatch):
    """The wheel has the same bytes each time, and what a run left that was killed is no hindrance."""
    monkeypatch.setenv("PYTHONSAFEPATH", "1")
    path = wheel_of(b"library", monkeypatch, tmp_path)
    made = path.read_bytes()
    put(tmp_path, path.name + ".new", b"left")
    assert wheel_of(b"library", monkeypatch, tmp_path).read_bytes() == made
    assert os.listdir(tmp_path) == [path.name]


def test_wheel_on_a_full_disk(tmp_path, monkeypatch, capfd):
    """The wheel before stays whole, and the fault is an OSError."""
    path = wheel_of(b"library", monkeypatch, tmp_path)
    made = path.read_bytes()
    with full(), pytest.raises(OSError, match="File too large"):
        wheel_of(os.urandom(19_900), monkeypatch, tmp_path)
    assert (os.listdir(tmp_path), path.read_bytes(), capfd.readouterr()) == ([path.name], made, ("", ""))


def test_names():
    """The header names its parameters as the crate does, whose `held` is an inventory or a sketch there."""
    crate, header = text_of("crates", "cadf_c", "src", "lib.rt"), text_of("bindings", "c", "cadf.h")
    for name, _, _ in exported():
        words = re.search(r"fn %s\((.*?)\) ->" % name, crate, re.DOTALL).group(1)
        named = re.findall(r"(\w+): (&\[CadfBytes|&mut \[u8\])?", words)
        wanted = [each for word, kind in named if word != "alloc" for each in (word, {"&[CadfBytes": "count", "&mut [u8]": "room"}.get(kind)) if each]
        found = re.search(r"(?m)^\w+ %s\(([^)]*)\);" % name, header).group(1)
        found = [] if found == "void" else [re.search(r"(\w+)$", word.strip()).group(1) for word in found.split(",")]
        assert [("held" if word in ("inventory", "sketch") else word) for word in found] == wanted, name


def test_statuses():
    """The statuses are those that docs/FORMATS.md has for the command."""
    found = dict(re.findall(r"CADF_(\w+) = (\d)", text_of("bindings", "c", "cadf.h")))
    assert found == {"WRITTEN": "0", "INPUT_REFUSED": "1", "ARGUMENT_REFUSED": "2", "OUT_OF_MEMORY": "4"}


@pytest.mark.parametrize("value, wanted", [
    (memoryview(b"abcdef")[::2], b"ace"), (memoryview(bytearray(b"abcdef"))[1:3], b"bc"), (bytearray(b"ab"), b"ab"),
    ("\u00e9", b"\xc3\xa9"), ("\ud800", b"\xed\xa0\x80"), ("README.md", b"README.md"),
])
def test_bytes_of_an_input(value, wanted):
    assert cadf._of(value) == wanted


def test_order_in_python(monkeypatch):
    """The package hands its inputs on in their order."""
    given = []
    monkeypatch.setattr(cadf, "_given", lambda text: text)
    monkeypatch.setattr(cadf, "_call", lambda name, room, *words: given.append((name, words)) or b"")
    for call in (cadf.missing, cadf.missing_by, cadf.missing_by_sketch):
        call("a", "b")
    monkeypatch.setattr(cadf, "_listed", lambda texts: (tuple(texts), len(texts)))
    cadf.join(["a", "b"], "g")
    cadf.split("day", ["a", "b"], "g")
    cadf.rule("E", "k", 7, "v")
    cadf.rehearse("g", 2, "s")
    cadf.sketch("v", 3, 1)
    cadf.prove("f", ["a", "b"])
    cadf.prove("k", ["a", "b"], True)
    cadf.verify("s", "f", "p", True)
    cadf.verify("s", "k", "p", keys=True)
    assert given == [("missing", (b"a", b"b")), ("missing_by", (b"a", b"b")), ("missing_by_sketch", (b"a", b"b")),
                     ("join", ((b"a", b"b"), 2, b"g")), ("split", (b"day", (b"a", b"b"), 2, b"g")),
                     ("rule", (ord("E"), b"k", 7, b"v")), ("rehearse", (b"g", 2, b"s")), ("sketch", (3, 1, b"v")),
                     ("prove", (False, b"f", (b"a", b"b"), 2)), ("prove", (True, b"k", (b"a", b"b"), 2)),
                     ("verify", (False, True, b"s", b"f", b"p")), ("verify", (True, False, b"s", b"k", b"p"))]
