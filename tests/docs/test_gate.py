"""What the gate says of its steps, and CONTRIBUTING beside what runs on demand and the places of the tree."""
import glob
import os
import re
import runpy
import signal
import subprocess
import sys
import threading
import types

import pytest

from tests import TOP, conftest, skips, text_of, tracked
from tests.conftest import SLOW
from tests.machine import side_by_side
from tests.tools.programs import loaded

CODE = re.compile(r"`([^`]+)`")
STEPS = runpy.run_path(os.path.join(TOP, ".ci", "steps.py"))
NAMES = [name for _, _, steps in STEPS["STAGES"] for name in steps]


def section(name, heading):
    return re.split("\n### |\n## ", text_of(name).split("# %s\n" % heading)[1])[0]


@pytest.fixture(scope="module")
def listed():
    """What the gate says of its steps."""
    return subprocess.run([".ci/run", "--list"], cwd=TOP, check=True, stdout=subprocess.PIPE, universal_newlines=True).stdout


def test_each_step_is_listed(listed):
    """In the order in which the stages have them; those of pytest by its files, and the proofs by no program."""
    assert [line.split("  ")[0] for line in listed.split("== the tests")[0].splitlines() if not line.startswith("== ")] == NAMES


def test_each_step_is_in_the_table():
    """CONTRIBUTING has the stages and their steps, as the gate has them: none is dropped by the one alone."""
    rows = re.findall(r"(?m)^\| ([a-z ]+) \| (`.*`) \|$", section("CONTRIBUTING.md", "The gate"))
    assert [(stage, CODE.findall(names)) for stage, names in rows] == [(stage, list(steps)) for stage, _, steps in STEPS["STAGES"]]


@pytest.mark.parametrize("worker, wanted", [({"workerinput": {}}, [1]), ({}, [])])
def test_no_test_runs_beside_the_main_thread(monkeypatch, worker, wanted):
    """A process of xdist ends there, before it has a test; pytest without xdist runs where it is, and so does a process in its main thread."""
    codes = []
    monkeypatch.setattr(conftest.os, "_exit", codes.append)
    conftest.pytest_configure(types.SimpleNamespace(workerinput={}))
    beside = threading.Thread(target=conftest.pytest_configure, args=[types.SimpleNamespace(**worker)])
    beside.start()
    beside.join()
    assert codes == wanted


@pytest.mark.parametrize("place", STEPS["programs"]())
def test_each_program_says_what_it_shows(place, listed):
    """At least five words of its own, which the list has."""
    said = STEPS["about"](place)
    assert len(said.split()) >= 5 and said in listed


@pytest.mark.needs("git")
def test_each_test_is_listed(listed):
    """Each file of pytest and each program of the steps is in the list, by its place or as a module."""
    names = [name for name in tracked() if re.fullmatch(r"tests/.*/test_\w+\.py", name)]
    assert names and [name for name in names if "\n%s: " % name not in listed] == []


@pytest.mark.parametrize("name", SLOW)
def test_slow_first(name):
    """What pytest begins with is there: a group of tests, or a file."""
    found = set()
    for path in glob.glob(os.path.join(TOP, "tests", "*", "test_*.py")):
        found |= {os.path.basename(path)[:-len(".py")], *re.findall(r'xdist_group\("(\w+)"\)', text_of(path))}
    assert name in found


@pytest.mark.parametrize("commands, passed, failed", [
    (("sleep 2", "true", "true", "true"), ["first", "proofs", "last", "beside"], []),
    (("sleep 2", "true", "true", "false"), ["first", "proofs", "beside"], ["last"]),
    (("sleep 60", "false", "true", "true"), [], ["first", "beside"]),
    (("timeout 1 sleep 60", "sleep 3", "true", "true"), ["first"], ["beside"]),
    (("timeout 1 sleep 60", "true", "sleep 60", "true"), ["first"], ["beside", "proofs"]),
])
def test_stages(commands, passed, failed):
    """No stage waits for what runs beside them. A failed stage ends the run, and a failed step beside them the proofs."""
    gate, names = STEPS["Gate"](), ("beside", "first", "proofs", "last")
    gate.run_stages(*((name, name == "proofs", {name: command}) for name, command in zip(names, commands)))
    assert [step.name for step in gate.ended if not step.status] == passed
    assert [step.name for step in gate.ended if step.status] == failed


def test_table_without_the_kit(monkeypatch, tmp_path, capsys):
    """Steps that need no kit are told where `rt` isn't on PATH."""
    gate = STEPS["Gate"]()
    gate.run_all({"first": "/bin/true"}, False)
    monkeypatch.setenv("PATH", str(tmp_path))
    assert gate.table(0, True) == 0
    assert capsys.readouterr().out.endswith("\n1 passed, 0 failed, 0 skipped\n")


def test_a_program_that_is_not_there(capsys):
    """It is a row of the table, and no traceback: the other steps run."""
    gate = STEPS["Gate"]()
    gate.run_all({"first": "/no/such/program", "second": "/bin/true"}, False)
    assert gate.table(0, True) == 1
    lines = capsys.readouterr().out.splitlines()
    assert "/no/such/program can't be started: No such file or directory" in lines
    assert {line.split()[0]: line[-6:] for line in lines if line.endswith(("FAILED: status 127", "  passed"))} == {"first": "us 127", "second": "passed"}
    assert lines[-1].startswith("1 passed, 1 failed")


@pytest.mark.needs("git")
def test_quick_without_pytest(monkeypatch):
    """It runs nothing, and says what to install: a thousand tests are no skip."""
    monkeypatch.syspath_prepend(os.path.join(TOP, ".ci"))
    quick = loaded(os.path.join(TOP, ".ci", "quick"))
    monkeypatch.setattr(quick.steps, "pytest_words", lambda: None)
    monkeypatch.setattr("sys.argv", ["quick"])
    with pytest.raises(SystemExit, match="^quick: pytest isn't there.*: sudo apt-get install python3-pytest python3-pytest-xdist python3-pytest-timeout$"):
        quick.main()


@pytest.mark.parametrize("said, allowed, may_skip, wanted", [
    ("skipped: strace isn't there", [], True, 0), ("skipped: strace isn't there", [], False, 1), ("skipped: straces aren't there", [], True, 1),
    ("skipped: the moon: it's full", [], True, 1), ("skipped: the moon: it's full", ["the moon"], True, 0),
    ("SKIPPED [3] tests/x/test_y.py:12: strace isn't there", [], True, 0), ("SKIPPED [3] tests/x/test_y.py:12: too slow", [], True, 1),
])
def test_skips_of_the_gate(tmp_path, capsys, said, allowed, may_skip, wanted):
    """A step may leave out what the list names, and what the caller allows. The end says for which names nothing was skipped."""
    (tmp_path / "step").write_text('#!/bin/sh\necho "%s"\n' % said)
    (tmp_path / "step").chmod(0o755)
    gate = STEPS["Gate"](allowed)
    gate.run_all({"first": str(tmp_path / "step")}, False)
    assert gate.table(0, may_skip) == wanted
    *_, names, counts = capsys.readouterr().out.splitlines()
    assert names.startswith("allowed, and not skipped: ") and " zsh" in names and (" strace" in names) == ("strace isn't" not in said)
    assert counts == ("0 passed, 0 failed, 1 skipped" if said.startswith("skipped: ") else "1 passed, 0 failed, 3 skipped")


SKIPPING = "import pytest\n\n\n%s\ndef test_something():\n    pytest.skip(%r)\n"


@pytest.mark.parametrize("above, reason, words, wanted", [
    ("", "strace isn't there", [], 0), ("", "too slow", [], 1), ("", "too slow", ["--allow-skip=too slow"], 0),
    ('@pytest.mark.skip(reason="later")', "", [], 1), ('@pytest.mark.skip(reason="zsh: later")', "", [], 0), ('pytest.importorskip("no_such")', "", [], 2),
])
def test_skips_of_pytest(tmp_path, above, reason, words, wanted):
    """A test, or a file of them, that is skipped for what the list doesn't name has failed."""
    (tmp_path / "test_it.py").write_text(SKIPPING % (above, reason))
    (tmp_path / "pytest.ini").write_text("[pytest]\nmarkers = unbuilt: x\n")
    done = subprocess.run([sys.executable, "-m", "pytest", "-q", "-p", "tests.conftest", "-p", "no:cacheprovider", *words, str(tmp_path)],
                          cwd=TOP, check=False, stdout=subprocess.PIPE, universal_newlines=True)
    assert done.returncode == wanted and ("has no name for it" in done.stdout) == bool(wanted), done.stdout


def test_each_reason_is_on_the_list():
    """What a test of this tree skips for, as far as its text says it, begins with a name of the list."""
    texts = {name: text_of(name) for name in tracked() if re.match(r"(tests|examples)/.*\.py$", name)}
    said = [(name, reason) for name, text in texts.items() for reason in
            re.findall(r'(?:pytest\.skip\(|skipif\(.*reason=|importorskip\(.*reason=|print\("skipped: )"?([^"%][^"]*)"', text)]
    needed = [(name, program) for name, text in texts.items() for words in re.findall(r"mark\.needs\(([^)]*)\)", text) for program in re.findall(r'"([^"]+)"', words)]
    assert len(said) > 20 and len(needed) > 20
    assert [each for each in said + needed if skips.name_of(each[1], [*skips.allowed(), "gcc", "git"]) is None] == []


LOADED = """
import runpy, signal, sys
place = sys.argv[1]
if place.startswith("tests/"):
    runpy.run_module(place[:-len(".py")].replace("/", "."), run_name="loaded")
else:
    sys.path.insert(0, place.rpartition("/")[0])
    runpy.run_path(place, run_name="loaded")
sys.exit(signal.getsignal(signal.SIGCHLD) is signal.SIG_IGN)
"""


def loads_aware(place):
    """Whether a program knows how each one ends that it starts, though its caller ignores SIGCHLD."""
    loaded = subprocess.run([sys.executable, "-B", "-c", LOADED, place], cwd=TOP, check=False, stderr=subprocess.PIPE, text=True,
                            preexec_fn=lambda: signal.signal(signal.SIGCHLD, signal.SIG_IGN))
    return loaded.returncode == 0 or "No module named" in loaded.stderr


@pytest.mark.needs("git")
def test_no_failure_is_lost():
    """Each program of the gate, the benchmarks and the tests that starts others knows how they end, whatever its caller ignores."""
    names = [name for name in tracked() if re.match(r"(\.ci|bench|tests)/", name) and "__main__" in text_of(name) and
             re.search(r"\bsubprocess\b|\brun_apart\b", text_of(name))]
    assert len(names) > 20 and [name for name, is_aware in zip(names, side_by_side(loads_aware, names)) if not is_aware] == []


def on_demand():
    """The programs of the table of what runs on demand, but for pytest. In a row, those of one folder follow each other."""
    for row in re.findall(r"(?m)^\| (`.*?) \|", section("CONTRIBUTING.md", "What runs on demand")):
        folder = ""
        for command in CODE.findall(row):
            place = STEPS["program"](command)
            folder = os.path.dirname(place) or folder
            if place != "pytest" and not place.startswith("-"):
                yield os.path.join(folder, os.path.basename(place))


def test_each_program_on_demand_is_there():
    places = list(on_demand())
    assert len(places) >= 10 and [place for place in places if not (os.path.exists(os.path.join(TOP, place)) or "*" in place)] == []


@pytest.mark.needs("git")
def test_each_release_program_is_on_demand():
    """Each program of tests/release that can be run is in the table; so are those that tests with `--release` need."""
    release = [name for name in tracked() if re.match(r"tests/release/\w+\.(py|sh)$", name)]
    programs = {name for name in release if name.endswith(".sh") or "__main__" in text_of(name)}
    assert sorted(programs - set(on_demand())) == []


@pytest.mark.needs("git")
def test_each_place_is_explained():
    """Each folder and each file at the top, but for what Git reads, is in the table of places."""
    places = {name.split("/")[0] + ("/" if "/" in name else "") for name in tracked()}
    explained = set(CODE.findall(section("CONTRIBUTING.md", "Where things are")))
    assert sorted(places - explained - {".gitignore", "CONTRIBUTING.md"}) == []


@pytest.mark.needs("git")
def test_each_page_has_readers():
    """Each page of docs/ is in the table of pages by reader."""
    pages = [os.path.basename(name)[:-len(".md")] for name in tracked() if re.fullmatch(r"docs/\w+\.md", name)]
    assert [name for name in pages if not re.search(r"\b%s\b" % name, section("CONTRIBUTING.md", "The pages"))] == []
