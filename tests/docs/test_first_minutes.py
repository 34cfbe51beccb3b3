"""The first minutes with the repository: ./demo, ./test and the day of README do what README shows, by each implementation."""
import os
import re
import shutil
import subprocess
import sys
import tempfile

import pytest

from tests import TOP, text_of
from tests.docs import demo_picture
from tests.machine import said
from tests.tools.programs import loaded

SECOND = os.path.join(TOP, "tests", "reference", "cadf")
SAID = {"second": "The command that runs is tests/reference/cadf, the second implementation, in Python. Nothing is proved of it.",
        "installed": r"The command that runs is .*/cadf, cadf 9\.9\."}


LONG = r"(?:about a minute|some \d+ minutes)"


def part(heading):
    """A part of README by its heading."""
    return re.split(r"(?m)^## ", text_of("README.md").split("\n## %s\n" % heading)[1])[0]


def blocks(heading):
    """The texts that a part of README shows."""
    return re.findall(r"(?ms)^```text\n(.*?)^```$", part(heading))


def shown_by(binary, folder):
    """What the demo prints of its command, and what then; nothing is left behind."""
    done = subprocess.run([os.path.join(TOP, "demo"), binary], cwd=folder, env={**os.environ, "TMPDIR": str(folder)}, check=False,
                          stdin=subprocess.DEVNULL, stdout=subprocess.PIPE, stderr=subprocess.PIPE, universal_newlines=True)
    assert (done.returncode, done.stderr, os.listdir(folder)) == (0, "", [])
    return done.stdout.split("\n\n", 1)


def test_demo(tmp_path):
    command, text = shown_by(SECOND, tmp_path)
    assert command.splitlines()[0] == SAID["second"]
    assert text.endswith("\nThree sites, one file, byte for byte.\n")
    assert demo_picture.picture(text) == text_of("docs", "demo.svg")  # python3 -m tests.docs.demo_picture makes it


def test_demo_of_the_built_command(cadf, tmp_path):
    command, text = shown_by(cadf, tmp_path)
    assert re.match(r"The command that runs is .*, cadf \d", command)
    assert demo_picture.picture(text) == text_of("docs", "demo.svg")


def test_picture():
    """Sites that are equal have one colour, and others another; each line stands in it as it was printed."""
    digests = ["%016x" % number for number in range(6)]
    text = "1. <a> & b\n  $ cadf-sync\n    " + " ".join([*digests, digests[0]]) + "\n"
    rows = re.findall(r"(?m)^<text .*?>(.*)</text>$", demo_picture.picture(text))
    assert [re.sub("<.*?>", "", row) for row in rows] == ["1. &lt;a&gt; &amp; b", "  $ cadf-sync", text.splitlines()[2]]
    colours = re.findall('<tspan fill="(#[0-9a-f]{6})">(.*?)</tspan>', rows[2])
    assert [digest for _, digest in colours] == [*digests, digests[0]] and len({colour for colour, _ in colours}) == 6 and colours[0] == colours[-1]


FAKE = '#!/bin/sh\n[ "$*" = --version ] && echo "cadf 9.9" && exit\necho "fake: $*" >&2\nexit 3\n'
KIT = "The kit is here: build/command makes the proved one, in half an hour on 4 idle processors."
OTHER = "The command that runs is crates/cadf/out/cadf, cadf 9.9, of other sources: nothing says what crates/cadf/out/cadf was built of."


@pytest.mark.parametrize("there, wanted", [
    (["crates/cadf/out/cadf", "bin/cadf", "bin/rt"], [OTHER]), (["bin/cadf", "bin/rt"], [SAID["installed"]]),
    (["bin/rt"], [re.escape(SAID["second"]), KIT]), ([], [re.escape(SAID["second"])])])
def test_command_of_the_demo(tmp_path, there, wanted):
    """It takes the built command, else an installed one, else the second implementation, and says so; with a kit also how to get a better one."""
    for name in ("build", "demo", "crates.txt"):  # copied, since they find the others from where they are
        (shutil.copytree if name == "build" else shutil.copy2)(os.path.join(TOP, name), tmp_path / name)
    for name in ("examples", "share", "tools", "tests/reference"):
        (tmp_path / name).parent.mkdir(exist_ok=True)
        (tmp_path / name).symlink_to(os.path.join(TOP, name))
    for name in there:
        (tmp_path / name).parent.mkdir(parents=True, exist_ok=True)
        (tmp_path / name).write_text(FAKE)
        (tmp_path / name).chmod(0o755)
    if wanted[-1] == KIT or not there:
        (tmp_path / "tools").unlink()  # so it ends at the first step
        (tmp_path / "tools").mkdir()
    path = "%s:/usr/bin:/bin" % (tmp_path / "bin")
    status, text = said(str(tmp_path / "demo"), env={**os.environ, "PATH": path})
    lines = text.split("\n\n")[0].splitlines()
    assert len(lines) == len(wanted) and all(re.fullmatch(each, line) for each, line in zip(wanted, lines)), text
    assert status != 0 and text.endswith("\ndemo: a step failed, and the last lines say why\n")


def day(folder):
    """What the ten commands of README print, by the command in this folder."""
    lines = [line[4:] for line in part("A day with it").splitlines() if line.startswith("    ")]
    assert len(lines) == 10
    script = "\n".join(lines).replace("$PWD/tests/reference", folder)
    return subprocess.run(["bash", "-e", "-c", script], cwd=TOP, check=True, stdin=subprocess.DEVNULL, stdout=subprocess.PIPE, universal_newlines=True).stdout


def test_day():
    assert day(os.path.dirname(SECOND)) == blocks("A day with it")[0]


def test_day_of_the_built_command(cadf):
    assert day(os.path.dirname(cadf)) == blocks("A day with it")[0]


def test_contract():
    """The contract that README shows is one of the sources."""
    head = blocks("What is proved")[0].replace("\n", "\n    ").rstrip()
    assert "\n    %s\n    {\n" % head in text_of("crates", "cadf_join", "src", "text_set.rt")


# ---- ./test

@pytest.fixture
def program(monkeypatch):
    """The program ./test, in which a part of steps may be put in place of all."""
    monkeypatch.setattr("sys.path", list(sys.path))
    return loaded(os.path.join(TOP, "test"))


def test_steps_that_are_named():
    status, text = said(os.path.join(TOP, "test"), "--no-build", "rows", "vectors")
    lines = text.splitlines()
    assert status == 0 and lines[0] == "test: what needs no build: about a minute", text
    assert {line.split()[0] for line in lines if re.search(r"\d s  passed: ", line)} == {"rows", "vectors"}
    assert lines[-2:] == ["2 passed, 0 failed, 0 skipped", "test: not tried: what needs a build: --no-build was given"]
    assert said(os.path.join(TOP, "test"), "nothing")[0] == 2


@pytest.mark.parametrize("command, status", [("sleep 1", 0), ("/no/such/program", 1)])
def test_progress(program, monkeypatch, capsys, command, status):
    """It says what runs while it waits; a step that fails is its status."""
    monkeypatch.setattr(program, "BETWEEN", 0.2)
    monkeypatch.setattr(program, "parts", lambda _: [("something", {"slow": (1, command), "quick": (1, "true")})])
    monkeypatch.setattr("sys.argv", ["test", "--no-build"])
    monkeypatch.setattr(program.steps, "stop_with", lambda _: None)
    assert program.main() == status
    said_meanwhile = re.findall(r"(?m)^ +\d+ s  (.*)$", capsys.readouterr().out)
    assert ("slow" in said_meanwhile) == (status == 0)


def test_progress_of_pytest(program):
    """Of a step of pytest it says how much is done, by what that has written last."""
    gate = program.steps.Gate()
    with open(os.path.join(TOP, "README.md"), "rb") as file:
        gate.running[0] = "plain", file
        assert list(gate.told()) == ["plain"]
    with tempfile.TemporaryFile() as file:
        file.write(b"." * 5000 + b" [  7%]\n....F [ 61%]\n..")
        file.flush()
        gate.running[0] = "unbuilt", file
        assert list(gate.told()) == ["unbuilt 61 %"]


@pytest.mark.parametrize("there, with_build, titles, wanted", [
    ([], True, ["what needs no build"], "the command itself: crates/cadf/out/cadf isn't there, nor is rt, of the Rattle kit, which builds it"),
    (["rt"], True, ["what needs no build", "the command before any proof, by the kit"],
     "the built command: crates/cadf/out/cadf isn't there; build/command makes it, in half an hour on 4 idle processors"),
    (["crates/cadf/out/cadf", "crates.txt"], True, ["what needs no build", "the built command, of other sources (nothing says what crates/cadf/out/cadf was built of)"], None),
    (["crates/cadf/out/cadf", "rt"], False, ["what needs no build"], "what needs a build: --no-build was given"),
])
def test_parts(program, monkeypatch, tmp_path, there, with_build, titles, wanted):
    """What can be tried is, and what can't is told with the reason."""
    for name in there:
        (tmp_path / name).parent.mkdir(parents=True, exist_ok=True)
        (tmp_path / name).write_text("cadf:\n" * (name == "crates.txt"))
        (tmp_path / name).chmod(0o755)
    monkeypatch.setattr(program, "TOP", str(tmp_path))
    monkeypatch.setenv("PATH", str(tmp_path))
    assert [title for title, _ in program.parts(with_build)] == titles
    assert list(program.left_out(with_build, True)) == ([wanted] if wanted else [])
    assert list(program.left_out(with_build, False))[1:] == list(program.left_out(with_build, True))


def test_without_pytest(program, monkeypatch, capsys):
    """The time is that of the other steps; pytest's are told as skipped, and at the end what to install. The gate's list of names is not there."""
    monkeypatch.setattr(program.steps, "pytest_words", lambda: None)
    monkeypatch.setattr(program.patience, "slowness", lambda: 8)
    monkeypatch.setattr(program.os, "sched_getaffinity", lambda _: {0})
    monkeypatch.setattr(program, "parts", lambda _: [("something", {"quick": (0.5, "true"), "unbuilt": (100, "pytest -m unbuilt")})])
    monkeypatch.setattr(program.steps, "stop_with", lambda _: None)
    monkeypatch.setattr("sys.argv", ["test", "--no-build"])
    assert program.main() == 0
    lines = capsys.readouterr().out.splitlines()
    assert lines[0] == "test: something: some 4 minutes"
    assert [line.split("  ")[-1] for line in lines if line.startswith("unbuilt ")] == ["skipped: " + program.steps.WITHOUT_PYTEST, "skipped"]
    assert "step             clock processors" in lines and not any(line.startswith("allowed") for line in lines)
    assert lines[-3:-1] == ["1 passed, 0 failed, 1 skipped", "test: not tried: most tests: " + program.steps.WITHOUT_PYTEST]


def test_output_of_test(program, monkeypatch, tmp_path):
    """README shows how it begins and ends where nothing is built and no kit is there; N stands for a count, which README has not."""
    first, beat, *_, counts, last = blocks("See it, test it")[0].splitlines()
    monkeypatch.setattr(program, "TOP", str(tmp_path))
    monkeypatch.setenv("PATH", str(tmp_path))
    assert re.fullmatch(r"test: %s: %s" % (program.NO_BUILD[0], LONG), first) and re.fullmatch(r" +\d s  (\w+) \d+ %", beat).group(1) in program.NO_BUILD[1]
    assert counts == "N passed, 0 failed, 0 skipped" and ["test: not tried: " + what for what in program.left_out(True, True)] == [last]
