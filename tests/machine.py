"""Built programs, run on a machine that fails: one of their calls, or all from one on. The C of it is machine.c."""
import concurrent.futures
import os
import subprocess
import threading
from typing import NamedTuple, Optional

from tests import TOP, patience

CRATES = os.path.join(TOP, "crates")
SECONDS = 60  # on an idle machine
REFUSED, REFUSED_UNTOLD = 2, (2,)  # exit statuses of a refused command line


class Answer(NamedTuple):
    status: Optional[int]
    output: bytes
    error: bytes

    def __str__(self):
        return "status %s, %d bytes from %r, error %r" % (self.status, len(self.output), self.output[:40], self.error[:80])


class Fault(NamedTuple):
    call: str  # grow, read, write (to standard output), tell (to standard error)
    way: str  # refused, fails, interrupted, nothing, short
    place: int
    on: bool = False  # all calls behind that place fail too

    def __str__(self):
        return "%s %d %s%s" % (self.call, self.place, self.way, " and all behind it" if self.on else "")


class Calls(NamedTuple):
    """How many calls a run made of each kind, and the descriptor of the last that failed."""
    grow: int
    read: int
    write: int
    tell: int
    failed: int


def built(program):
    """The binary that the gate has built of that crate."""
    return os.path.join(CRATES, program, "out", program)


def compiled(folder, name):
    """A library that programs in the folder preload, compiled from NAME.c below tests/: the path may have no blank."""
    library = "./%s.so" % os.path.basename(name)
    source = os.path.join(TOP, "tests", name + ".c")
    subprocess.run(["gcc", "-O1", "-Wall", "-shared", "-fPIC", "-o", library, source], cwd=folder, check=True)
    return library


def put(folder, name, content):
    """Writes a file in the folder. Returns its path."""
    path = os.path.join(folder, name)
    with open(path, "wb") as file:
        file.write(content)
    return path


def ended(binary, words, **options):
    """What the binary answers."""
    try:
        done = subprocess.run([binary, *words], capture_output=True, timeout=patience.seconds(SECONDS), **options)
    except subprocess.TimeoutExpired:
        return Answer(None, b"", b"no answer in %d seconds" % patience.seconds(SECONDS))
    return Answer(done.returncode, done.stdout, done.stderr)


def said(*words, **options):
    """The status of a program, and all that it says."""
    done = subprocess.run(words, check=False, stdin=subprocess.DEVNULL, stdout=subprocess.PIPE, stderr=subprocess.STDOUT, **options)
    return done.returncode, done.stdout.decode("utf-8", "replace")


def untold(right, status):
    """The status, where standard error can't be written and this one is right: that one for each that is let through."""
    return right if right == REFUSED and status in REFUSED_UNTOLD else status


class Machine:
    """Runs programs in a folder, each with at most one fault."""

    def __init__(self, folder):
        self.folder = folder
        self.library = compiled(folder, "machine")

    def run(self, binary, words, fault=None, text=b""):
        """What the binary answers, and its calls: None where it didn't come to its end."""
        told = os.path.join(self.folder, "told-%d" % threading.get_ident())
        environment = {"LD_PRELOAD": self.library, "FAULT_TOLD": told}
        if fault:
            environment["FAULT"] = "%s %s %d %d" % (fault.call, fault.way, fault.place, fault.on)
        answer = ended(binary, words, input=text, cwd=self.folder, env=environment)
        try:
            with open(told) as report:
                calls = Calls(*map(int, report.read().split()))
            os.remove(told)
        except FileNotFoundError:
            calls = None
        return answer, calls


def side_by_side(work, items):
    """What the work gives for each of the items, in their order, done on all processors."""
    with concurrent.futures.ThreadPoolExecutor(os.cpu_count()) as pool:
        return list(pool.map(work, items))
