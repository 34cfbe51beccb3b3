"""Runs the steps of the gate: what needs no build, then `rt ci`, then what runs what it has built, side by side; `test` beside all.

    .ci/run [--no-skips] [--allow-skip NAME]..
    .ci/run --list       what each step runs and shows, in the words of its program; nothing is run

Prints a line a step with its times as the step ends, all that a failed step has written, and at the end a table of all
steps with the kit's name, why something was skipped, and `N passed, M failed, K skipped`. A step of pytest counts as its
tests do, any other is one. What was skipped has failed, unless its reason begins with a name of .ci/allowed-skips or
one that is given; with --no-skips always. The last line but one has the names for which nothing was skipped. The first
time is that of the clock, the second that of all processors. A failed stage ends the run: what comes after it stands on
it. A call that is answered wrongly ends the proofs too.
Each step writes to a folder of its own, and leaves nothing in the tree but crates/*/out.
"""
import argparse
import ast
import concurrent.futures
import contextlib
import glob
import os
import re
import signal
import subprocess
import sys
import tempfile
import threading
import time
from typing import NamedTuple

sys.dont_write_bytecode = True  # nothing is written beside the sources; so this stands before what is imported
TOP = os.path.dirname(os.path.dirname(os.path.abspath(__file__)))
sys.path.insert(0, TOP)

from build import record
from build.proving import JOB_MEMORY, PROOF_MEMORY, free_memory
from tests import skips, text_of

CADF = "crates/cadf/out/cadf"
# What the system says of a group of processes that may use all processors and all memory.
UNLIMITED = {
    "/sys/fs/cgroup/cpu.max": "max",
    "/sys/fs/cgroup/memory.max": "max",
    "/sys/fs/cgroup/cpu/cpu.cfs_quota_us": "-1",
    "/sys/fs/cgroup/memory/memory.limit_in_bytes": str(2 ** 63 - 4096),
}

# Each stage: its steps, by name, and whether the first that fails ends the others. The steps of the first are begun before
# the others, which don't wait for them: they take the processors that the others leave idle.
STAGES = [
    ("beside all others", False, {
        "test": "nice -n 19 python3 -m tests",
        "weeks": "nice -n 19 python3 -m tests.simulation.weeks --weeks 2 --today",
    }),
    ("before any build", False, {
        "calls": "python3 -m tests.tables.make --check",
        "headline": "python3 -m tests.docs.headline",
        "mutants": ".ci/mutants --placed",
        "pages": "python3 -m tests.docs.pages",
        "promises": "python3 -m tests.docs.promises",
        "unbuilt": "pytest -m unbuilt",
    }),
    ("proofs", True, {
        "rt ci": "rt ci",
    }),
    ("built programs", False, {
        "built": "pytest -m built",
        "compare": "python3 -m tests.generated.compare",
        "drivers": "python3 -m tests.generated.drivers",
        "liars": "python3 -m tests.generated.liars --count 4000 " + CADF,
        "week": "examples/week.sh",
        "week-of-folders": "examples/week.sh --by day",
        "many-sites": "examples/many-sites.py",
        "parcelled": "examples/parcelled.py",
        "shapes": "bench/shapes.py --gate",
        "rows": "python3 -m tests.tables.rows " + CADF,
        "vectors": "python3 -m tests.command.vectors " + CADF,
        "two-sites": "examples/two-sites.sh",
        "real-pycadf": "examples/real-pycadf.py",
        "producers": "examples/real-producers.py",
    }),
]


def program(command):
    """The place in the tree of what a command runs: its program, or the file of the module of tests that it runs."""
    words = re.sub("^nice -n [0-9]+ ", "", command).split()
    if words[:2] != ["python3", "-m"]:
        return words[0]
    module = words[2].replace(".", "/")
    return module + (".py" if os.path.exists(os.path.join(TOP, module + ".py")) else "/__main__.py")


def programs():
    """The programs of the steps, and the files of pytest, by their places. Of each, the commands of the steps that run it."""
    commands = [command for _, _, steps in STAGES for command in steps.values() if command.split()[0] not in ("pytest", "rt")]
    tests = glob.glob(os.path.join(TOP, "tests", "**", "test_*.py"), recursive=True)
    found = {os.path.relpath(path, TOP): [] for path in sorted(tests)}
    for command in commands:
        found.setdefault(program(command), []).append(command)
    return found


def about(place):
    """What a program says of itself first: the first paragraph of its docstring, or of a shell script's comments."""
    text = text_of(place)
    if text.startswith("#!/bin/sh"):
        said = re.match(r"#!.*\n((?:# \S.*\n)+)", text).group(1).replace("# ", "")
    else:
        said = (ast.get_docstring(ast.parse(text)) or "").split("\n\n")[0]
    return " ".join(said.split())


def show_list():
    """Prints each step with what it runs, and each file of pytest, in the words of the programs."""
    found = programs()
    for title, _, steps in STAGES:
        print("== %s" % title)
        for name, command in steps.items():
            place = program(command)
            print("%-16s %s%s" % (name, command, ": " + about(place) if place in found else ""))
    print("== the tests of pytest: those that use a built program or a broker after `rt ci`, the others before any build")
    for place in (place for place, commands in found.items() if not commands):
        print("%s: %s" % (place, about(place)))


def is_limited():
    """Whether a control group has a share of the machine alone, as in a container."""
    for path, unlimited in UNLIMITED.items():
        if os.path.exists(path):
            with open(path, encoding="ascii") as file:
                if file.read().split()[0] != unlimited:
                    return True
    return False


def lanes_of_proofs():
    """Tells `rt ci` to run a proof on each processor, if memory has room for as many.

    By itself it expects two to three times as much memory as a proof takes, and leaves processors idle.
    """
    lanes = len(os.sched_getaffinity(0))
    has_room = free_memory() >= lanes * (PROOF_MEMORY + JOB_MEMORY)
    return {"RT_JOBS": str(lanes)} if has_room and not is_limited() else {}


# The steps and all that they start run the Python that runs this, without a program that looks for one each time.
ENVIRONMENT = {**lanes_of_proofs(), **os.environ, "PATH": os.path.dirname(sys.executable) + os.pathsep + os.environ["PATH"],
               "PYTHONDONTWRITEBYTECODE": "1"}
# What a step says of what it leaves out, itself or by pytest, and how pytest counts.
SKIPPED = re.compile(r"(?m)^(?:skipped: |SKIPPED \[(\d+)\] [^:\n]*(?::\d+)?: )(.*)$")
COUNTED = re.compile(r"(\d+) (passed|failed|errors?)\b")
PLUGINS = "pytest, xdist, pytest_timeout"
WITHOUT_PYTEST = "pytest isn't there, or not with xdist and timeout: sudo apt-get install python3-pytest python3-pytest-xdist python3-pytest-timeout"
PIECE = 4096  # of what a step has written
ABSENT = 127  # the status of a step whose program isn't there, as a shell has it


def pytest_words():
    """How pytest is run: by this Python or the system's, where Debian's packages are; None without it."""
    for python in (sys.executable, "/usr/bin/python3"):
        if os.path.exists(python) and not subprocess.run([python, "-c", "import " + PLUGINS], stderr=subprocess.DEVNULL).returncode:
            return [python, "-m", "pytest", "-q", "--dist", "loadgroup"]
    return None


def workers(words):
    """How many processes pytest gets: one a processor, and twice as many for all that is unbuilt, which waits for most of its time."""
    return ["-n", str(len(os.sched_getaffinity(0)) * (2 if words[-1] == "unbuilt" else 1))]


class Ended(NamedTuple):
    name: str
    status: int
    seconds: float
    processors: float
    said: str
    is_many: bool  # a step of pytest

    def is_left_out(self):
        """Whether the step says that it has tried nothing."""
        return re.fullmatch("skipped: .*\n", self.said) is not None

    def line(self):
        verdict = {0: "skipped" if self.is_left_out() else "passed", -signal.SIGTERM: "ended by SIGTERM"}.get(self.status, "FAILED: status %d" % self.status)
        return "%-12s %7.1f s %8.1f s  %s" % (self.name, self.seconds, self.processors, verdict)

    def counts(self):
        """How many tests passed and how many failed."""
        if not self.is_many:
            return (0, 1) if self.status else (int(not self.is_left_out()), 0)
        found = COUNTED.findall(self.said.rstrip("\n").rsplit("\n", 1)[-1])
        passed = sum(int(number) for number, what in found if what == "passed")
        failed = sum(int(number) for number, what in found if what != "passed")
        return passed, max(failed, self.status != 0)

    def skips(self):
        """What was left out and why, with how many tests that are."""
        return [(int(number or 1), why) for number, why in SKIPPED.findall(self.said)]


def wait_for(child):
    """Waits for a process. Returns its status, negative for a signal, and the seconds that it and its own took of all processors."""
    _, ending, used = os.wait4(child.pid, 0)
    child.returncode = -os.WTERMSIG(ending) if os.WIFSIGNALED(ending) else os.WEXITSTATUS(ending)
    return child.returncode, used.ru_utime + used.ru_stime


class Gate:
    """The steps so far, and those that run now."""

    def __init__(self, allowed=()):
        self.ended, self.running, self.lock, self.pytest = [], {}, threading.Lock(), pytest_words()
        self.allowed = list(allowed)  # what may be skipped beside the names of the list
        self.is_ended = False  # whether a step that fails now ends all others
        self.is_over = False

    def run(self, step):
        """Runs a step in a process group of its own; its last line says what it did."""
        name, command = step
        begun, words, environment = time.monotonic(), command.split(), ENVIRONMENT
        is_many = words[0] == "pytest"
        if is_many:
            if not self.pytest:
                return self.say(Ended(name, 0, 0, 0, "skipped: %s\n" % WITHOUT_PYTEST, is_many))
            words[:1] = self.pytest + workers(words) + ["--allow-skip=" + name for name in self.allowed]
            environment = {**ENVIRONMENT, "PATH": os.path.dirname(self.pytest[0]) + os.pathsep + ENVIRONMENT["PATH"]}  # for the tools too
        with tempfile.TemporaryFile("w+", errors="replace") as log:
            try:
                child = subprocess.Popen(words, cwd=TOP, env=environment, stdin=subprocess.DEVNULL, stdout=log,
                                         stderr=subprocess.STDOUT, start_new_session=True)
            except OSError as error:
                return self.say(Ended(name, ABSENT, 0, 0, "%s can't be started: %s\n" % (words[0], error.strerror), is_many))
            with self.lock:
                self.running[child.pid] = name, log
            if self.is_over:
                self.end()
            status, processors = wait_for(child)
            with self.lock:
                del self.running[child.pid]
            log.seek(0)
            return self.say(Ended(name, status, time.monotonic() - begun, processors, log.read(), is_many))

    def told(self):
        """The names of the steps that run, those of pytest with how much is done."""
        with self.lock:
            for name, log in self.running.values():
                end = os.fstat(log.fileno()).st_size
                done = re.findall(rb"\[ *(\d+)%\]", os.pread(log.fileno(), PIECE, max(0, end - PIECE)))  # moves no place of the file
                yield name + (" %d %%" % int(done[-1]) if done else "")

    def say(self, ended):
        """Prints a step's line, and what it wrote where it failed."""
        with self.lock:
            self.ended.append(ended)
            if ended.status:
                sys.stdout.write(ended.said)
            last = ended.said.rstrip("\n").rsplit("\n", 1)[-1].removeprefix("skipped: ")
            print("%s%s" % (ended.line(), "" if ended.status else ": " + last), flush=True)
        if ended.status and self.is_ended:
            self.end()
        return ended

    def run_all(self, steps, is_ended):
        """Runs the steps side by side, if so until one fails."""
        self.is_ended = is_ended
        with concurrent.futures.ThreadPoolExecutor(os.cpu_count()) as pool:
            list(pool.map(self.run, steps.items()))

    def run_stages(self, beside, *stages):
        """Runs the stages one after the other, until one has failed, and the steps of the first beside all others."""
        with concurrent.futures.ThreadPoolExecutor() as pool:
            waiting = pool.map(self.run, beside[2].items())
            for title, is_ended, steps in stages:
                if any(step.status for step in self.ended):
                    self.end()
                    break
                print("== %s" % title, flush=True)
                self.run_all(steps, is_ended)
            list(waiting)

    def end(self):
        """Ends every process that a step has started, or starts from now on."""
        self.is_over = True
        for group in list(self.running):
            with contextlib.suppress(ProcessLookupError):
                os.killpg(group, signal.SIGTERM)

    def stop(self, *_):
        self.end()
        os._exit(130)

    def table(self, begun, may_skip, is_gate=True):
        """Prints the whole as a table, with the kit; of a gate also the names for which nothing was skipped. Returns the exit status."""
        print("\n%s, %d processors" % (record.answer(["rt", "version"], TOP) or "without the kit", os.cpu_count()))
        print("%-12s %9s %10s" % ("step", "clock", "processors"))
        for step in self.ended:
            print(step.line())
        used = sum(step.processors for step in self.ended)
        print("%-12s %7.1f s %8.1f s" % ("all", time.monotonic() - begun, used))
        left_out = [(step.name, *skip) for step in self.ended for skip in step.skips()]
        names = [*skips.allowed(), *self.allowed]
        found = {why: skips.name_of(why, names) for _, _, why in left_out}
        for name, _, why in left_out:
            print("%s: %s: %s" % ("skipped" if found[why] else "skipped, and %s doesn't name it" % skips.LIST, name, why))
        if is_gate:
            print("allowed, and not skipped: " + " ".join(name for name in names if name not in found.values()))
        passed, failed = map(sum, zip(*(step.counts() for step in self.ended)))
        print("%d passed, %d failed, %d skipped" % (passed, failed, sum(number for _, number, _ in left_out)))
        return 1 if failed or left_out and not may_skip or None in found.values() else 0


def stop_with(gate):
    """Ends what a gate has started where this program is ended."""
    for number in (signal.SIGINT, signal.SIGTERM):
        signal.signal(number, gate.stop)


def main():
    parser = argparse.ArgumentParser(description=__doc__, formatter_class=argparse.RawDescriptionHelpFormatter)
    parser.add_argument("--no-skips", action="store_true", help="what was skipped has failed")
    parser.add_argument("--list", action="store_true", help="say what each step runs and shows, and run nothing")
    parser.add_argument("--allow-skip", action="append", default=[], metavar="NAME", help="allow skips for this too")
    options = parser.parse_args()
    if options.list:
        return show_list()
    gate, begun = Gate(options.allow_skip), time.monotonic()
    stop_with(gate)
    gate.run_stages(*STAGES)
    return gate.table(begun, not options.no_skips)


if __name__ == "__main__":
    sys.exit(main())
