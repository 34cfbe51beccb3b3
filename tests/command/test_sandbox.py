"""What docs/OPERATING.md says of the system calls of the command, and the command under the limits that it shows.

The start of a program is what an empty C program calls before its end. The page lists what the command calls after it;
its SystemCallFilter has both, and for a program that is linked with the C library it is to have `readlink` beside them.
"""
import os
import re
import shlex
import shutil
import signal
import subprocess
import sys
import threading

import pytest

from tests import TOP, text_of
from tests.command import commands, large_inputs, small_inputs
from tests.machine import ended, side_by_side

CONFINED = os.path.join(TOP, "tests", "command", "confined.c")
TRACED = re.compile(r"^(\w+)\((.*)")
EMPTY = "int main(void) { return 0; }\n"
# What C libraries call when a program starts; none calls all of it.
START = {"access", "arch_prctl", "execve", "fstat", "mprotect", "newfstatat", "pread64", "prlimit64", "rseq",
         "set_robust_list", "set_tid_address"}
OF_STATIC = "readlink"  # what a static program calls beside the others when it starts
NOT_ALLOWED = 126  # the status of a filter that can't be set
LOG = "north.json"

pytestmark = [pytest.mark.xdist_group("sandbox"), pytest.mark.needs("gcc"), pytest.mark.timeout(600)]


def shown(pattern):
    """What the page shows at the one place of the pattern."""
    found, = re.findall(pattern, text_of("docs", "OPERATING.md"), re.M)
    return found


OWN, ALLOWED = shown(r"^(openat .*)$").split(), shown(r"^SystemCallFilter=(.*)$").split()


def compiled(folder, name, source, *words):
    """The program that gcc makes of the C source."""
    subprocess.run(["gcc", "-O1", "-Wall", "-o", folder / name, "-x", "c", source, *words], check=True)
    return str(folder / name)


def calls_of(folder, binary, words, where):
    """The calls of the system in a run, in their order, each its name and its words."""
    told = folder / ("trace-%d" % threading.get_ident())
    done = ended("strace", ["-f", "-qq", "-o", told, "-e", "signal=none", "-E", "LC_ALL=C", binary, *words], cwd=where)
    assert done.status is not None and told.exists(), done
    lines = [line.split(" ", 1)[1].lstrip() for line in told.read_text(encoding="utf-8", errors="replace").splitlines()]
    return [match.groups() for match in map(TRACED.match, lines) if match]


class Traces:
    """The calls that the command makes after its start, each with a command line that makes it, and its folder."""

    def __init__(self, binary, folder):
        source = folder / "empty.c"
        source.write_text(EMPTY)
        programs = compiled(folder, "empty", source), compiled(folder, "static", source, "-static-pie")
        self.start, self.static_start = ([name for name, _ in calls_of(folder, one, [], folder)][:-1] for one in programs)
        self.wrong, self.examples = [], {}
        small, large = folder / "small", folder / "large"
        for place, inputs in ((small, small_inputs), (large, large_inputs)):
            place.mkdir()
            inputs.prepare(binary, place)
        runs = [(line, small) for kind in ("small", "worked", "large") for line in commands.lines(kind, commands.COMMANDS)]
        runs += [(line, small) for line in commands.refused()]
        runs += [(line, large) for kind in ("limited", "deep") for line in commands.lines(kind, commands.COMMANDS)]
        side_by_side(lambda run: self.note(run, calls_of(folder, binary, run[0].split(), run[1])), runs)

    def note(self, run, calls):
        """Notes the calls of a command line: another start, or a file that is not opened to be read alone, is wrong."""
        start = [name for name, _ in calls[:len(self.start)]]
        if start != self.start:
            self.wrong.append((run[0], start))
        for name, words in calls[len(self.start):]:
            self.examples.setdefault(name, run)
            if name == "openat" and ", O_RDONLY|" not in words:
                self.wrong.append((run[0], words))


@pytest.fixture(scope="module")
def traces(cadf, tmp_path_factory):
    if shutil.which("strace") is None or ended("strace", ["-qq", "-o", os.devnull, "true"]).status:
        pytest.skip("strace isn't there, or not allowed")
    return Traces(cadf, tmp_path_factory.mktemp("traces"))


@pytest.fixture
def allowing(cadf, tmp_path):
    """A program that runs the command, and kills it at any other call than these."""
    def made(calls):
        allowed = "".join("ALLOW(%s)" % call for call in sorted(calls))
        confined = compiled(tmp_path, "confined", CONFINED, "-DALLOWED=" + allowed, '-DPROGRAM="%s"' % cadf)
        if ended(confined, ["--version"]).status == NOT_ALLOWED:
            pytest.skip("seccomp: a filter of system calls isn't allowed")
        return confined

    return made


def test_calls(traces):
    """The page lists the calls that are made, and no others."""
    assert traces.wrong == []
    assert sorted(traces.examples) == sorted(OWN)


def test_filter(traces):
    """The page's filter has what the command calls and what starts it here, and else what starts a program elsewhere."""
    assert {*OWN, *traces.start, *traces.static_start} - {*ALLOWED, OF_STATIC} == set()
    assert set(ALLOWED) == {*OWN, *START}


@pytest.mark.parametrize("module", ["tests.tables.rows", "tests.command.vectors"])
def test_answers(allowing, module):
    """Under the filter the command answers all worked calls."""
    done = subprocess.run([sys.executable, "-m", module, allowing(ALLOWED)], cwd=TOP, check=False,
                          stdout=subprocess.PIPE, stderr=subprocess.STDOUT, universal_newlines=True)
    assert done.returncode == 0, done.stdout


@pytest.mark.parametrize("call", OWN)
def test_killed(traces, allowing, call):
    """Without one of its calls it is killed."""
    line, where = traces.examples[call]
    assert ended(allowing(set(ALLOWED) - {call}), line.split(), cwd=where).status == -signal.SIGSYS


@pytest.mark.needs("bwrap")
def test_bubblewrap(cadf, tmp_path):
    """The page's line of bwrap shows a log of a folder that also has the command."""
    if ended("bwrap", ["--unshare-all", "--ro-bind", "/", "/", "true"]).status:
        pytest.skip("bwrap isn't allowed")
    shutil.copy2(os.path.join(TOP, "examples", "vectors", LOG), tmp_path)
    shutil.copy2(cadf, tmp_path / "cadf")
    environment = {**os.environ, "PATH": "%s%s%s" % (tmp_path, os.pathsep, os.environ["PATH"])}
    line = shown(r"^(bwrap .*)$").replace("FILE", shlex.quote(LOG))
    done = ended("bash", ["-c", line], cwd=tmp_path, env=environment)
    assert done.output == ended(cadf, ["show", LOG], cwd=tmp_path).output, done
