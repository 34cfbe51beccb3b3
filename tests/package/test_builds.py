"""build/command and build/library in a small tree, with a stand-in for the kit that sleeps where the kit proves."""
import contextlib
import os
import shutil
import signal
import subprocess
import sys
import time

import pytest

from build.plan import BUSY, SEVERAL, Plan
from build.proving import JOB_MEMORY, PROOF_MEMORY, free_memory
from tests import TOP
from tests.machine import ended

pytestmark = pytest.mark.needs("git")

CRATES = {"low": [], "left": ["low"], "right": ["low"], "apart": [], "cadf": ["left", "right", "apart"]}
RT = '''#!/bin/sh
case $1 in
version) echo "${VERSION:-stand-in}" ;;
doc) echo "$KIT/START-HERE.md" ;;
esac
'''
RATTLE = '''#!/usr/bin/env python3
import os, subprocess, sys
words = sys.argv[1:]
name, jobs, made = (words[words.index(flag) + 1] for flag in ("--crate-name", "--jobs", "-o"))
def tell(what):
    with open(os.environ["TOLD"], "a") as file:
        file.write("%s %s %s %d %d\\n" % (what, name, jobs, os.getpid(), len(os.sched_getaffinity(0))))
tell("begins")
for word in words:
    if word.startswith("dependency=") and not os.path.isdir(word.partition("=")[2]):
        sys.exit("there is no " + word)
if "cadf-build" in made:
    os.makedirs(made, exist_ok=True)
child = subprocess.Popen(["sleep", os.environ.get("PAUSE", "0.05")], start_new_session=True)
child.wait()
if name == os.environ.get("FAILS"):
    sys.exit("not proved")
proved, changed = os.environ.get("CHANGES", " ").split(" ")
if name == proved:
    open("../%s/src/lib.rt" % changed, "a").write("// Changed.\\n")
tell("ends")
if "cadf-build" not in made:
    open(made, "w").write(" ".join(words))
print("logic=proved")
'''
LINK = '''#!/bin/sh
while [ "$1" != -o ]; do shift; done
cp "$3" "$2"
chmod 755 "$2"
'''


def make(tree, *folders):
    """Makes the tree, with these folders of this one, and with its history."""
    for name in folders:
        shutil.copytree(os.path.join(TOP, name), tree / name, ignore=shutil.ignore_patterns("__pycache__"))
    (tree / "kit" / "bin").mkdir(parents=True)
    (tree / "kit" / "rlibs").mkdir()
    for name, text in {"rt": RT, "rattle": RATTLE, "rattle-link": LINK}.items():
        (tree / "kit" / "bin" / name).write_text(text)
        (tree / "kit" / "bin" / name).chmod(0o755)
    for name in CRATES:
        (tree / "crates" / name / "src").mkdir(parents=True)
        more = "// A line of a long crate.\n" * (700 if name == "low" else 0)
        (tree / "crates" / name / "src" / "lib.rt").write_text("//! The crate %s.\n%s" % (name, more))
    (tree / "crates.txt").write_text("".join("%s: %s std\n" % (name, " ".join(uses)) for name, uses in CRATES.items()))
    (tree / ".gitignore").write_text("crates/*/out/\n")
    subprocess.run(["git", "init", "-q"], cwd=tree, check=True)
    commit(tree)


def commit(tree):
    for words in (["add", "."], ["-c", "user.name=n", "-c", "user.email=n@n", "commit", "-qm", "Change"]):
        subprocess.run(["git", *words], cwd=tree, check=True)


class Tree:
    def __init__(self, folder):
        self.folder, self.told = folder, folder / "told"

    def environment(self, more):
        kit = self.path("kit")
        path = str(kit / "bin") + os.pathsep + os.environ["PATH"]
        return {**os.environ, "PATH": path, "KIT": str(kit), "TOLD": str(self.told), **more}

    def start(self, program, *words, **more):
        """Starts a program of the tree, and forgets what was told before."""
        self.told.write_text("")
        return self.start_beside(program, *words, **more)

    def start_beside(self, program, *words, before=(), **more):
        return subprocess.Popen([*before, self.path(program), *words], env=self.environment(more),
                                stdout=subprocess.PIPE, stderr=subprocess.STDOUT, universal_newlines=True)

    def run(self, program, *words, **more):
        """Runs a program of the tree to its end, and answers its status and what it said."""
        child = self.start(program, *words, **more)
        said = child.communicate(timeout=60)[0]
        return child.returncode, said

    def build(self, *words, **more):
        return self.run("build/command", *words, **more)

    def events(self):
        return [line.split() for line in self.told.read_text().splitlines()]

    def begun(self):
        return [event[1] for event in self.events() if event[0] == "begins"]

    def path(self, *parts):
        return self.folder.joinpath(*parts)

    def record(self):
        return self.path("crates/cadf/out/cadf.built").read_text()

    def add(self, path, line="// More.\n"):
        """Adds a line to a file, which need not be there."""
        self.path(path).parent.mkdir(parents=True, exist_ok=True)
        with self.path(path).open("a") as file:
            file.write(line)

    def is_quiet(self):
        """Whether no process that a stand-in was is left, nor one that it started."""
        for name in filter(str.isdigit, os.listdir("/proc")):
            with contextlib.suppress(OSError):
                with open("/proc/%s/environ" % name, "rb") as file:
                    if bytes(self.told) in file.read():
                        return False
        return True


@pytest.fixture
def tree(tmp_path):
    make(tmp_path, "build", "install")
    return Tree(tmp_path)


@pytest.fixture
def built(tree):
    """A tree whose command is built."""
    assert tree.build()[0] == 0
    return tree


@pytest.mark.skipif(free_memory() < 3 * (PROOF_MEMORY + JOB_MEMORY), reason="memory: there is none for three proofs at once")
def test_from_scratch(tree):
    """It keeps to its processors, and proves two crates side by side in their order; what none waits for has one job."""
    status, said = tree.build("3", PAUSE="1")
    most, ended, running, jobs_of = 0, set(), set(), {}
    for what, name, jobs, _, processors in tree.events():
        assert int(jobs) <= 3 and int(processors) <= 3, name
        jobs_of[name] = int(jobs)
        if what == "begins":
            assert ended.issuperset(CRATES[name]), "%s was begun before a crate below it had ended" % name
            running.add(name)
        else:
            running.remove(name)
            ended.add(name)
        most = max(most, len(running))
    assert (status, ended) == (0, set(CRATES)) and most in (2, 3) and "left right;" in said, said
    assert (jobs_of["low"], jobs_of["apart"], jobs_of["cadf"]) == (3, 1, 3)
    for text in ("commit: ", "\nobject: ", "left: logic=proved", "cadf: logic=proved"):
        assert text in tree.record()
    assert " with changes" not in tree.record()
    assert tree.is_quiet()


def test_nothing_to_do(built):
    before = built.record()
    assert (built.build()[0], built.begun(), built.record()) == (0, [], before)


def test_other_processor(built):
    """The command alone is made anew."""
    assert (built.build("--cpu", "x86-64-v3")[0], built.begun()) == (0, ["cadf"])
    assert "processor: x86-64-v3" in built.record()


@pytest.mark.parametrize("file, again", [
    ("crates/left/src/lib.rt", ["cadf", "left"]),
    ("crates/left/specs/Lib.antt", ["cadf", "left"]),
    ("crates/left/proofs/lib/Answers.antt", ["cadf", "left"]),
    ("crates/low/specs/Lib.antt", ["cadf", "left", "low", "right"]),
])
def test_changed(built, file, again):
    """After a change the command is not taken for built, and what stands on it is proved again, and nothing else."""
    built.add(file)
    status, said = built.build("--is-built")
    assert status == 1 and "the sources are others now" in said
    prefix = built.path("prefix")
    assert built.run("install/install", prefix)[0] and not prefix.exists(), "install/install took a command of other sources"
    assert (built.build()[0], sorted(built.begun())) == (0, again)


def test_changed_uses(built):
    """A crate whose line of crates.txt changes is proved again."""
    listed = built.path("crates.txt")
    listed.write_text(listed.read_text().replace("left: low std\n", "left: low std hex\n"))
    assert (built.build()[0], sorted(built.begun())) == (0, ["cadf", "left"])


def test_no_source(built):
    """An editor's link of a file that is open in it, which leads nowhere, is no source; a name that is no text is one."""
    os.symlink("a@host.1:2", built.path("crates/left/src/.#lib.rt"))
    assert built.build("--is-built") == (0, "") and (built.build()[0], built.begun()) == (0, [])
    built.add(os.fsdecode(b"crates/left/src/caf\xe9"))
    assert (built.build()[0], sorted(built.begun())) == (0, ["cadf", "left"])


def test_other_kit(built):
    """Another kit proves everything again."""
    assert (built.build(VERSION="another")[0], sorted(built.begun())) == (0, sorted(CRATES))


def test_no_kit(tree):
    """Without the kit it says so in one line, and so does the first look, also where something of its name can't be run."""
    tree.path("bin").mkdir()
    tree.path("bin/python3").symlink_to(sys.executable)
    for why in (b"No such file or directory", b"Permission denied"):
        assert tree.build(PATH=str(tree.path("bin"))) == (1, "`rt version` answers nothing: the kit isn't on PATH\n")
        done = ended(tree.path("build/try"), ["show"], env={"PATH": str(tree.path("bin"))})
        assert (done.status, done.error) == (1, b"try: the kit isn't on PATH: rt: %s\n" % why)
        tree.path("bin/rt").write_text("")


def test_folder_of_others(tree):
    """Where it may not write it names the file, in one line."""
    lock = tree.path(".git/cadf-build.lock")
    lock.mkdir()
    for program, name in (("build/command", "build"), ("build/library", "library")):
        tree.add("crates.txt", "cadf_c staticlib: left\n" * (name == "library"))
        assert tree.run(program) == (1, "%s: [Errno 21] Is a directory: '%s'\n" % (name, lock))
    assert tree.run("build/hand-over") == (1, "hand-over: [Errno 2] No such file or directory: '%s'\n" % tree.path("kit/bin/rtlib.py"))


@pytest.mark.parametrize("program, words, name", [
    ("build/command", ["0"], "LANES"), ("build/library", ["--jobs", "0"], "--jobs"), ("build/library", ["--jobs", "-1"], "--jobs")])
def test_no_processor(tree, program, words, name):
    status, said = tree.run(program, *words)
    assert (status, said.splitlines()[-1].strip()) == (2, "%s: error: argument %s: 1 or more processors are needed" % (os.path.basename(program), name))


def test_changed_below(built):
    """What stands on a crate that was proved anew is proved again, also where the build ended between them."""
    built.add("crates/low/src/lib.rt")
    assert built.build("1", FAILS="left")[0] == 1
    assert [event[1] for event in built.events() if event[0] == "ends"] == ["low"]
    assert (built.build()[0], sorted(built.begun())) == (0, ["cadf", "left", "right"])


@pytest.mark.parametrize("name", ["right", "cadf"])
def test_changing(built, name):
    """A crate that changes while it or one above it is proved isn't taken for proved."""
    built.add("crates/right/src/lib.rt")
    status, said = built.build(CHANGES=name + " right")
    assert status == 1 and "were changed while they were proved" in said
    assert (built.build()[0], built.begun()) == (0, ["right", "cadf"])


def test_together(tree):
    """A second build waits for the first, and then has nothing to do. What an earlier version left is removed."""
    tree.path(".git/cadf-build/rooms/low").mkdir(parents=True)
    first = tree.start("build/command", PAUSE="1")
    while not tree.begun():
        time.sleep(0.05)
    second = tree.start_beside("build/command")
    said = [child.communicate(timeout=60)[0] for child in (first, second)]
    assert (first.returncode, second.returncode) == (0, 0) and "this one waits" in said[1], said
    assert sorted(tree.begun()) == sorted(CRATES)
    assert not tree.path(".git/cadf-build/rooms").exists()


@pytest.mark.parametrize("before", [[], ["env", "--ignore-signal=CHLD"]], ids=["plain", "SIGCHLD ignored"])
def test_failing(tree, before):
    """A crate that isn't proved ends the build and what runs beside it, also where the caller ignores what programs end with."""
    child = tree.start("build/command", "4", before=before, FAILS="low")
    said = child.communicate(timeout=60)[0]
    assert child.returncode == 1 and "low failed: see crates/low/out/build.log" in said
    assert tree.is_quiet()


@pytest.mark.parametrize("sign", [signal.SIGINT, signal.SIGTERM, signal.SIGKILL])
def test_cut_off(tree, sign):
    """A build that is ended, or killed, leaves what was proved, and the next goes on."""
    child = tree.start("build/command", "4", PAUSE="5")
    while "left" not in tree.begun():
        time.sleep(0.05)
    child.send_signal(sign)
    child.communicate(timeout=60)
    if sign != signal.SIGKILL:
        assert tree.is_quiet()
    assert tree.build()[0] == 0 and "low" not in tree.begun()
    assert tree.path("crates/cadf/out/cadf").exists()
    assert tree.is_quiet()


def library(tree, *words, **more):
    """Runs build/library. Returns the crates that it has proved, and the archive."""
    status, said = tree.run("build/library", *words, **more)
    assert status == 0, said
    return tree.begun(), tree.path("crates/cadf_c/out/libcadf_c.a").read_text()


def test_library_after_the_command(built):
    """It takes over what build/command has proved, and says how long the rest takes by the pace of that, which is kept."""
    built.add("crates/cadf_c/src/lib.rt")
    built.add("crates.txt", "cadf_c staticlib: left low\n")
    mark = built.path(".git/cadf-build/left.made")
    assert "\npace: 1.00\n" in mark.read_text()  # too short to say anything
    mark.write_text(mark.read_text().replace("\npace: 1.00\n", "\npace: 30.00\n"))
    status, said = built.run("build/library", "--jobs", "1")
    assert (status, built.begun()) == (0, ["cadf_c"]), said
    planned = Plan(str(built.folder), "cadf_c").costs["cadf_c"] * SEVERAL / BUSY[1]
    assert "1 of 3 crates to go, about %d min\n" % round(30 * planned / 60) in said


def test_library(tree):
    """The archive that `rt ci` has removed is put back, and nothing is proved, until a crate below, the processor or the kit is another."""
    tree.add("crates/cadf_c/src/lib.rt")
    tree.add("crates.txt", "cadf_c staticlib: left low\n")
    proved, archive = library(tree)
    assert proved == ["low", "left", "cadf_c"]
    for words in ((), ("--over-ci",), ()):
        shutil.rmtree(tree.path("crates/cadf_c/out"))
        assert library(tree, *words) == ([], archive)
    assert library(tree, "--cpu", "x86-64-v3")[0] == ["cadf_c"]
    tree.add("crates/left/specs/Lib.antt")
    assert library(tree)[0] == ["left", "cadf_c"]
    tree.add("crates/left/specs/Lib.antt")
    for name in ("low", "left"):
        tree.path("crates", name, "out/rlib").mkdir(parents=True)
    assert library(tree, "--over-ci")[0] == ["cadf_c"]
    assert library(tree, VERSION="another")[0] == ["low", "left", "cadf_c"]
