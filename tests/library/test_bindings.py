"""The library from C and from Python, built over what `rt ci` has left and installed under a folder.

bindings/c/call.c and the package answer each call of examples/vectors, and of generated ones, as the command does.
"""
import json
import os
import re
import shutil
import subprocess
import sys

import pytest

from install import library_files, needs
from tests import TOP, text_of
from tests.command import vectors
from tests.generated.compare import alike, answered
from tests.generated.generate import Case
from tests.library.declarations import HEADERS, PYTHON, STRICT, declared
from tests.machine import ended, put, said, side_by_side
from tests.reference.command import DIRECTORY, Answer, Call, Usage
from tests.reference.events import document
from tests.reference.replica_files import file_of
from tests.reference.rulings import digest_of_value
from tests.reference.shown_texts import log_text
from tests.tools.odd_logs import EVENT

pytestmark = [pytest.mark.xdist_group("bindings"), pytest.mark.timeout(3600), pytest.mark.needs("gcc")]

SECONDS = 300  # that a program may take
GENERATED, SEED = 500, 1
REFUSED = ["-DREFUSES", "-Wl,--wrap=malloc,--wrap=realloc,--wrap=free"]
EXAMPLES = os.path.join(TOP, "examples", "library")
SANITIZED = ["-fsanitize=address,undefined", "-fno-sanitize-recover=all"]


def ran(*words, seconds=SECONDS, **options):
    """Runs a program that has to end well. Returns what it said."""
    status, told = said(*words, timeout=seconds, **options)
    assert status == 0, told
    return told


@pytest.fixture(scope="module")
def prefix(cadf, tmp_path_factory):
    """A folder under which the library is installed."""
    if os.path.isdir(os.path.join(TOP, "crates", "cadf_memory", "out", "rlib")):
        ran(os.path.join(TOP, "build", "library"), "--over-ci", seconds=None)
    elif not os.path.exists(library_files.archive(TOP)):
        pytest.skip("library: it isn't built: rt ci, or build/library")
    folder = str(tmp_path_factory.mktemp("library"))
    ran(os.path.join(TOP, "install", "install"), "--any", folder)
    return folder


@pytest.fixture(scope="module")
def version(cadf):
    return ran(cadf, "--version").strip()


@pytest.fixture(scope="module")
def caller(prefix, tmp_path_factory):
    """The program of bindings/c/call.c."""
    return compiled(prefix, str(tmp_path_factory.mktemp("caller")), "call", "call.c")


def flags(prefix, *words):
    """What pkg-config says of the library under the prefix; what its file says, where it isn't here."""
    place = os.path.join(prefix, "lib", "pkgconfig")
    try:
        return ran("pkg-config", *words, "cadf", env={**os.environ, "PKG_CONFIG_PATH": place}).split()
    except FileNotFoundError:
        return ["-I" + os.path.join(prefix, "include"), "-L" + os.path.join(prefix, "lib"), "-lcadf"]


def compiled(prefix, folder, name, source, *options):
    """The program of a source of bindings/c: with the archive where options say so, else with the shared library."""
    made, archive = os.path.join(folder, name), os.path.join(prefix, "lib", "libcadf.a")
    linked = [archive] if "-static-cadf" in options else [*flags(prefix, "--libs"), "-Wl,-rpath," + os.path.join(prefix, "lib")]
    words = [word for word in options if word != "-static-cadf"]
    ran("gcc", *STRICT, *words, *flags(prefix, "--cflags"), os.path.join(HEADERS, source), *linked, "-o", made)
    return made


def test_files(prefix, version):
    """Each is there, or leads to one that is; that of pkg-config has the version of the command."""
    described = "lib/pkgconfig/cadf.pc"
    for name in ("include/cadf.h", "lib/libcadf.so", "lib/" + library_files.SONAME, described):
        assert os.stat(os.path.join(prefix, name)).st_size, name
    assert "Version: %s\n" % version.split()[1] in text_of(prefix, described)


def test_symbols(prefix):
    """Both libraries show the functions of the header alone; the shared one needs the C library alone, by its own name."""
    names = sorted(name for name, _, _ in declared())
    shared = os.path.join(prefix, "lib", library_files.SONAME)
    for words in (["nm", "-D", "--defined-only", shared], ["nm", "-g", "--defined-only", os.path.join(prefix, "lib", "libcadf.a")]):
        found = sorted(line.split()[2] for line in ran(*words).splitlines() if len(line.split()) == 3)
        assert found == names
    with open(shared, "rb") as file:
        assert list(needs.libraries(file.read())) in ([], ["libc.so.6"])
    told = ran("readelf", "-dlW", shared)
    assert "[%s]" % library_files.SONAME in told and "TEXTREL" not in told and "RWE" not in told


def test_shared(prefix, tmp_path, version):
    ran(compiled(prefix, str(tmp_path), "shared", "test.c"), version)


def test_each_allocation_refused(prefix, tmp_path, version):
    """Under gcc's sanitizers."""
    ran(compiled(prefix, str(tmp_path), "sanitized", "test.c", "-static-cadf", *REFUSED, *SANITIZED), version)


def under_valgrind(*words):
    """Runs a program under valgrind. A call into a buffer that nothing was written to reads nothing of it."""
    ran("valgrind", "-q", "--error-exitcode=9", "--leak-check=full", "--show-leak-kinds=definite", *words)


@pytest.mark.needs("valgrind")
def test_valgrind(prefix, tmp_path, version):
    under_valgrind(compiled(prefix, str(tmp_path), "plain", "test.c", "-static-cadf", "-g"), version)


@pytest.mark.needs("valgrind")
def test_valgrind_of_call(caller):
    under_valgrind(caller, "show", os.path.join(TOP, "examples", "vectors", "both.cadf"))


def environment(prefix):
    shared = os.path.join(prefix, "lib", library_files.SONAME)
    return {**os.environ, "CADF_LIBRARY": shared, "PYTHONPATH": PYTHON, "PYTHONDONTWRITEBYTECODE": "1"}


def shown_program(language):
    """The program in a language that docs/LIBRARY.md shows."""
    return re.search(r"(?ms)^```%s\n(.*?)^```$" % language, text_of("docs", "LIBRARY.md")).group(1)


def test_shown_c(prefix, cadf, tmp_path):
    """The program in C writes what `cadf join` does of its two documents."""
    (tmp_path / "try.c").write_text(shown_program("c"))
    made = ran(compiled(prefix, str(tmp_path), "try", tmp_path / "try.c"))
    rooms = ['{"id": "g", "events": [], "room": "%s"}' % room for room in ("north", "south")]
    for number, room in enumerate(rooms):
        (tmp_path / str(number)).write_text(room)
    assert made == ran(cadf, "join", tmp_path / "0", tmp_path / "1") and made.startswith("CADF-REPLICA 2\n")


def test_shown_rattle():
    """The Rattle is that of the example, which the gate proves and runs."""
    assert shown_program("rust") in text_of("crates", "two_logs", "src", "main.rt")


def test_python(prefix):
    """The tests in Python, of which none may be left out."""
    told = ran(sys.executable, "-m", "unittest", "discover", "-s", "tests", "-t", ".", cwd=PYTHON, env=environment(prefix))
    assert "skipped" not in told


@pytest.fixture(scope="module")
def venv(tmp_path_factory):
    """A folder with a Python and a pip of its own."""
    folder = tmp_path_factory.mktemp("venv")
    if subprocess.run([sys.executable, "-m", "venv", folder], stdout=subprocess.DEVNULL, stderr=subprocess.DEVNULL, check=False).returncode:
        pytest.skip("venv isn't there (Debian: python3-venv)")
    return folder


@pytest.mark.parametrize("kind", ["folder", "wheel"])
def test_installed_by_pip(prefix, venv, tmp_path, kind):
    """The package as pip installs it, without a network, with the program that the page shows: either way it has the library."""
    alone = {**environment(prefix), "PYTHONPATH": ""}
    package = PYTHON if kind == "folder" else str(tmp_path / library_files.wheel(TOP, str(tmp_path)))
    alone.pop("CADF_LIBRARY")
    ran(venv / "bin" / "pip", "install", "-q", "--no-index", "--disable-pip-version-check", "--force-reinstall", package, env=alone)
    program = shown_program("python")
    line = re.search(r"# (Check\(.*\))$", program, re.MULTILINE).group(1)
    assert ran(venv / "bin" / "python", "-c", program, cwd=tmp_path, env=alone).splitlines()[:1] == [line]


def test_pip_says_what_is_lacking(venv, tmp_path):
    """Without a library to carry or to find it installs nothing and says what to do; the package alone, if that is meant."""
    package = shutil.copytree(PYTHON, tmp_path / "package")
    words = [venv / "bin" / "pip", "install", "--no-index", "--disable-pip-version-check", "--force-reinstall", package]
    alone = {**os.environ, "PYTHONPATH": "", "CADF_LIBRARY": "/nowhere/libcadf.so.0"}
    status, told = said(*words, env=alone)
    assert status and "there is no library for the package" in told and "--config-settings library=none" in told, told
    ran(*words, "--config-settings", "library=none", env=alone)
    program = "import cadf\nprint(cadf.__version__, cadf.Site('x'))\ncadf.version()"
    status, told = said(venv / "bin" / "python", "-c", program, cwd=tmp_path, env=alone)
    assert status and told.startswith("%s Site('x')\n" % library_files.version(TOP)) and "ImportError: cadf: no library" in told, told


def test_example(prefix):
    """examples/in-process.py runs, where pycadf is."""
    for python in dict.fromkeys((sys.executable, "/usr/bin/python3")):
        told = ran(python, os.path.join(TOP, "examples", "in-process.py"), env=environment(prefix)) if os.path.exists(python) else ""
    if "is not here" in told:
        pytest.skip("pycadf isn't there (Debian: python3-pycadf)")


@pytest.fixture(scope="module")
def examples(prefix, tmp_path_factory):
    """The programs in C of examples/library, by their names."""
    folder = str(tmp_path_factory.mktemp("examples"))
    return {name: compiled(prefix, folder, name, os.path.join(EXAMPLES, name + ".c")) for name in ("events", "join", "proof")}


def vector(name):
    return os.path.join(TOP, "examples", "vectors", name)


def test_example_of_events(examples, tmp_path):
    """The events in C: of each hour between the times its log, with what has no time, as a ruling."""
    facts = [("e1", "2024-03-01T11:59:59Z", "a"), ("e2", "2024-03-01T12:00:00Z", "a"), ("e2", "2024-03-01T12:00:00Z", "b"), ("e3", "2024-03-01T13:00:00Z", "a")]
    events = [{**EVENT, "id": key, "eventTime": at, "action": action} for key, at, action in facts]
    for properties in ({}, {"name": "n"}):
        atoms = document({"id": "g", "events": events, **properties})[1]
        value, = (atom[2] for atom in atoms if len(atom) == 3 and '"action":"b"' in atom[2])
        for more in (set(), {("U", "E", "e2", digest_of_value(value))}):
            put(tmp_path, "site", file_of("g", atoms | more))
            windows = [{atom for atom in atoms if not (atom[0] == "E" and atom[1] != key)} | more for key in ("e2", "e3")]
            with open(tmp_path / "site", "rb") as site:
                done = ended(examples["events"], ["2024-03-01T12", "2024-03-02"], stdin=site)
            assert (done.status, done.output) == (0, b"".join(log_text("g", each) for each in windows))


def test_example_of_two_sites(examples, tmp_path):
    """The file may be longer than twice the inputs, as that of many short properties."""
    names = [vector("both.cadf"), vector("north.json")]
    for each in (names, names[::-1]):
        assert ran(examples["join"], *each).encode() == read_vector("both.cadf")
    assert said(examples["join"], vector("both.cadf"), vector("cut.json")) == (1, "input 2: not JSON")
    many = {"id": "g", "events": [], **{"%x" % number: 0 for number in range(5000)}}
    put(tmp_path, "many", json.dumps(many, separators=(",", ":")).encode())
    assert ran(examples["join"], str(tmp_path / "many"), vector("size-0.json")).encode() == file_of("g", document(many)[1])


def read_vector(name):
    with open(vector(name), "rb") as file:
        return file.read()


@pytest.mark.parametrize("language", ["c", "py"])
def test_example_of_a_proof(prefix, examples, language):
    """In C and in Python it says what is shown, and what isn't."""
    program = [examples["proof"]] if language == "c" else [sys.executable, os.path.join(EXAMPLES, "proof.py")]
    shown = said(*program, *map(vector, ("size-8.seal", "size-1.json", "there.proof")), env=environment(prefix))
    assert shown == (0, read_vector("there.verified.txt").decode())
    status, told = said(*program, *map(vector, ("size-8.seal", "asked.json", "size-8.proof")), env=environment(prefix))
    assert status == 1 and "fact 2: absent" in told


# ---- beside the command

def number(word):
    """The number that the command reads of a word; 0, which is refused in the same way, for one that it refuses."""
    text = word.decode()
    return int(text) if re.fullmatch(r"[1-9][0-9]{0,17}", text) else 0


def chosen(word):
    """The number of an option of `sketch`: 0 for none, and 2, which is refused in the same way, for one that the command refuses."""
    if word is None:
        return 0
    found = int(word) if re.fullmatch(rb"[1-9][0-9]{0,19}", word) else 0
    return found if 0 < found < 1 << 64 else 2


class InProcess:
    """A call of the command's, as one of the library: its function, and the arguments before the inputs."""

    def __init__(self, words, files):
        from cadf import _library

        found = Call(words)  # Usage: the words are no call
        self.command, self.log = found.command.decode().replace("-", "_"), found.log
        self.names, self.flag, self.of_keys = list(found.files), found.flag, found.of_keys
        self.texts = [files.get(name, DIRECTORY) for name in self.names]
        self.ruling = found.ruling if self.command == "rule" else None
        self.unit = found.unit
        self.sites = number(found.sites) if self.command == "rehearse" else None
        self.sketched = [chosen(found.given.get(option)) for option in (b"--cells", b"--salt")]
        if DIRECTORY in self.texts or self.command not in _library.FUNCTIONS:
            raise Usage  # a file that can't be read: the library reads none
        if self.command == "grew" and not all(self.texts[3:]):
            raise Usage  # a list of no bytes, which is none to the library
        many, two = ("join", "split", "prove", "verify", "growth", "grew", "omit"), self.command.startswith("missing")
        if self.command not in many and len(self.names) != (2 if two else 1):
            raise Usage  # a union: the library joins by a call of its own

    def in_python(self):
        """What the package answers, as the command's answer."""
        import cadf

        first, second = (self.texts + [b""])[0], (self.texts + [b"", b""])[1]
        calls = {
            "join": lambda: cadf.join(self.texts, None if self.log is None else self.log.decode()),
            "split": lambda: cadf.split(self.unit, self.texts, None if self.log is None else self.log.decode()),
            "missing": lambda: cadf.missing(first, second),
            "missing_by": lambda: cadf.missing_by(first, second),
            "missing_by_sketch": lambda: cadf.missing_by_sketch(first, second),
            "sketch": lambda: cadf.sketch(first, *(number or None for number in self.sketched)),
            "inventory": lambda: cadf.inventory(first),
            "seal": lambda: cadf.seal(first),
            "prove": lambda: cadf.prove(first, self.texts[1:], self.of_keys),
            "verify": lambda: cadf.verify(*self.texts, self.flag, self.of_keys),
            "sealed": lambda: cadf.sealed(first),
            "growth": lambda: cadf.growth(first, self.texts[1:]),
            "grew": lambda: cadf.grew(*self.texts),
            "omit": lambda: cadf.omit(first, self.texts[1:]),
            "show": lambda: cadf.show(first, self.flag),
            "check": lambda: cadf._call("check", 16, cadf._given(first)),
            "rule": lambda: cadf.rule(self.ruling[0], self.ruling[1], number(self.ruling[2].encode()), first),
            "rehearse": lambda: cadf.rehearse(self.log.decode(), self.sites, first),
        }
        try:
            return Answer(0, calls[self.command](), b"")
        except cadf.CadfError as error:
            return Answer(error.status, b"", b"cadf: %s\n" % error.text.encode())

    def in_c(self):
        """The words of bindings/c/call.c; None where it has none: an empty log that is given, a name that begins as an option."""
        if self.log == b"" and self.command in ("join", "split"):
            return None
        before = {"join": [self.log or b""], "split": [self.unit.encode(), self.log or b""],
                  "rehearse": [self.log or b"", b"%d" % (self.sites or 0)],
                  "sketch": [b"%d" % number for number in self.sketched]}.get(self.command, [])
        if self.ruling:
            before = [self.ruling[0].encode(), self.ruling[1].encode(), b"%d" % number(self.ruling[2].encode())]
        name = self.command.replace("_", "-")
        if self.flag:
            name = {"show": "conflicts", "verify": "absent"}[name]
        name += "-keys" if self.of_keys else ""
        return [name.encode(), *before, *self.names]


def cases(count, seed):
    """The calls of examples/vectors and generated ones, each with a name."""
    for name, words, files, _ in vectors.calls():
        yield name, words, files
    for place in range(count):
        case = Case(seed, place)
        yield "case %d (%s)" % (place, case.kind), case.words, case.files


def difference(binary, caller, name, words, files):
    """How the library answers otherwise than the command; None where it doesn't, and `left out` for no call of the library."""
    try:
        one = InProcess(words, files)
    except Usage:
        return "left out"
    wanted = answered(binary, words, files)
    if not alike(wanted, one.in_python()):
        return "%s: the package answers %s" % (name, vars(one.in_python()))
    if one.in_c() and not alike(wanted, answered(caller, one.in_c(), files)):
        return "%s: call.c answers otherwise" % name
    return None


def test_beside_the_command(cadf, prefix, caller, monkeypatch):
    monkeypatch.setenv("CADF_LIBRARY", os.path.join(prefix, "lib", library_files.SONAME))
    found = side_by_side(lambda case: difference(cadf, caller, *case), list(cases(GENERATED, SEED)))
    assert [one for one in found if one not in (None, "left out")][:1] == []
    assert found.count(None) > GENERATED // 2
