"""Runs tools and the second implementation as forks of one process, which has imported them once; a run may fail at one of its calls.

Calls are those that change a disk: a file is made or opened to be written, written by os.write, synced, renamed, linked, removed, or cut.
A run's plan says at which of them, or at which sync, counted over all its processes, all processes of that machine are killed, or from
which on its disk is full. What the C of Python writes into a file is seen by the sync that follows.
"""
import ast
import contextlib
import errno
import gc
import glob
import importlib
import mmap
import os
import pickle
import shlex
import signal
import stat
import struct
import subprocess
import sys
import tempfile
import threading
import traceback
from typing import NamedTuple

from tests import TOP
from tests.tools import far_side
from tests.tools.programs import loaded

REFERENCE = os.path.join(TOP, "tests", "reference", "cadf")
LOG, ALIVE, ANSWERS = KEPT = 900, 901, 902  # descriptors that every process keeps: of the calls so far, of a pipe that is open while one lives, of what a run answers
WRITES = os.O_WRONLY | os.O_RDWR | os.O_CREAT | os.O_TRUNC
CHANGES = ("open", "os.rename", "os.link", "os.remove", "os.mkdir", "os.rmdir", "os.truncate")
RUNS, KILLED, FULL, CUT = range(4)
PAGE = struct.Struct("5l")  # calls and syncs so far, at which the fault is, which one it is, and the machine that it hit, from 1


class Plan(NamedTuple):
    """What becomes of a run at its call of that number; of CUT, at its sync."""
    way: int = RUNS
    call: int = 0


class Done(NamedTuple):
    """How a run ended: its status, negative for a signal, what it wrote, its calls, and the machine that a fault hit, or None."""
    status: int
    output: bytes
    said: str
    calls: int
    syncs: int
    hit: int


def main_of(module):
    """The code that a program runs if it isn't imported: its last statement."""
    with open(module.__file__, encoding="utf-8") as file:
        return compile(ast.Module(ast.parse(file.read()).body[-1].body, []), module.__file__, "exec")


class Processes:
    """The tools of a folder, imported; each run is a fork. `machines` are the folders that are a machine's disk each."""

    def __init__(self, tools):
        os.environ.update(CADF=REFERENCE, TOOLS=tools)
        self.tools, self.machines, self.machine, self.page = tools, [], None, mmap.mmap(-1, mmap.PAGESIZE)
        share = os.path.join(os.path.dirname(tools), "share", "cadf")
        sys.path.insert(0, share)
        for path in glob.glob(os.path.join(share, "*.py")):
            importlib.import_module(os.path.basename(path)[:-len(".py")])
        self.reference = loaded(REFERENCE)
        self.modules = {os.path.basename(path): loaded(path) for path in glob.glob(os.path.join(tools, "cadf-*"))}
        self.mains = {name: main_of(module) for name, module in self.modules.items()}
        self.write = os.write
        os.write, os.fsync = self.written, self.synced
        sys.addaudithook(self.heard)
        gc.freeze()
        forks = self

        class Forked(subprocess.Popen):
            """A program that is started: a fork, if it is one of these."""

            def _execute_child(self, args, executable, preexec_fn, close_fds, pass_fds, cwd, env, *rest):
                work = forks.work_of(list(map(os.fsdecode, args)))
                if work is None:
                    return super()._execute_child(args, executable, preexec_fn, close_fds, pass_fds, cwd, env, *rest)
                streams = rest[3:9]  # stdin, stdout and stderr: of this end and the child's in turn, as the system orders them
                child = os.fork()
                if not child:
                    forks.become(work, (streams[0], streams[3], streams[5]), pass_fds, preexec_fn)
                self.pid, self._child_created = child, True
                self._close_pipe_fds(*streams)

        subprocess.Popen = Forked

    # Programs

    def work_of(self, words):
        """What these words run, without arguments; None for another program."""
        if words[0] == REFERENCE:
            return lambda: self.reference.main(list(map(os.fsencode, words[1:])))
        if words[0] == "wire":  # --rsh: the far side, by a link that may fail
            far = shlex.split(words[-1])
            link = words[1:words.index("--")]
            return lambda: far_side.main(*link, shlex.join(far)) if link else self.program(far[0], far[1:])
        path = words[1] if words[0] == sys.executable else ""
        if os.path.dirname(path) == self.tools:
            return lambda: self.program(os.path.basename(path), words[2:])
        return None

    def program(self, name, words):
        """Runs a tool to its end. One that serves is on the machine whose disk its site is on."""
        if "--serve" in words:
            os.setpgid(0, 0)
            self.machine = self.machine_of(words[-1])
        sys.argv, sys.modules["__main__"] = [os.path.join(self.tools, name), *words], self.modules[name]
        exec(self.mains[name], vars(self.modules[name]))
        return 0

    def machine_of(self, path):
        """The number of the machine on whose disk a path is, or None."""
        path = os.path.abspath(path)
        return next((number for number, root in enumerate(self.machines) if path.startswith(root + os.sep)), None)

    def become(self, work, streams, kept=(), begin=None):
        """Has this process, a fork, be as one that was just started, and do its work. It ends with it.

        `streams` are descriptors for standard input, output and error, -1 for the parent's; `begin` is called before others are closed.
        """
        status = 255
        try:
            gc.freeze()  # what was the parent's is removed by nobody
            for number, stream in enumerate(streams):
                if stream >= 0:
                    os.dup2(stream, number)
            if begin:
                begin()
            self.close_others(kept)
            toolkit = sys.modules["cadf_toolkit"]
            toolkit.CONFINE = toolkit.Stopped.held = toolkit.Progress.shown = None  # nothing else of a module do tools set
            for number in (*toolkit.STOPPING, signal.SIGALRM, signal.SIGCHLD):
                if signal.getsignal(number) is not signal.SIG_IGN:
                    signal.signal(number, signal.SIG_DFL)
            status = work() or 0
        except SystemExit as ended:
            status = ended.code or 0
        except BaseException:
            traceback.print_exc()
            status = 1
        finally:
            with contextlib.suppress(BaseException):
                sys.stdout.flush()
            os._exit(status)

    def close_others(self, kept):
        """Closes all descriptors but those of the streams and those that are kept."""
        for number in map(int, os.listdir("/dev/fd")):
            if number > 2 and number not in (*kept, *KEPT):
                with contextlib.suppress(OSError):
                    os.close(number)
        sys.stdin, sys.stdout = open(0, encoding="utf-8", closefd=False), open(1, "w", encoding="utf-8", closefd=False)
        sys.stderr = open(2, "w", 1, encoding="utf-8", errors="backslashreplace", closefd=False)

    # Calls

    def heard(self, event, words):
        """Notes a call that changes a file of a machine, before it is made."""
        if self.machine is None or event not in CHANGES:
            return
        if event == "open":
            path, _, flags = words
            if isinstance(path, int) or not flags & WRITES or os.fsdecode(path).startswith(("/dev/", "/proc/")):
                return
        elif event in ("os.rename", "os.link"):
            self.note(event, *(self.place(*each) for each in zip(words[:2], words[2:])))
        elif event == "os.remove":
            self.note(event, self.place(*words))
        self.count(words[0])

    def place(self, name, folder):
        """The path of a name in an open folder, or -1, with the number and the count of names of its file, or None."""
        if folder in (-1, None):
            folder = os.getcwd()
        else:
            folder = os.readlink("/proc/self/fd/%d" % folder)
        path = os.path.join(folder, os.fsdecode(name))
        try:
            found = os.stat(path, follow_symlinks=path.startswith("/dev/fd/"))
        except OSError:
            return path, None, 0
        return path, found.st_ino, found.st_nlink

    def note(self, *record):
        data = pickle.dumps(record)
        self.write(LOG, struct.pack("l", len(data)) + data)

    def count(self, name, is_sync=False):
        """Counts a call, and has it fail as it is planned."""
        calls, syncs, at, way, hit = PAGE.unpack_from(self.page)
        calls, syncs = calls + 1, syncs + is_sync
        is_hit = way != RUNS and (syncs if way == CUT else calls) >= at and (not hit or hit == self.machine + 1)
        PAGE.pack_into(self.page, 0, calls, syncs, at, way, self.machine + 1 if is_hit else hit)
        if is_hit and way != FULL:
            os.killpg(0, signal.SIGKILL)
            threading.Event().wait()
        if is_hit:
            raise OSError(errno.ENOSPC, os.strerror(errno.ENOSPC), name if isinstance(name, (str, bytes)) else None)

    def written(self, file, data):
        if self.machine is not None and stat.S_ISREG(os.fstat(file).st_mode):
            self.count(None)
        return self.write(file, data)

    def synced(self, number):
        """Notes what a file or a folder has when it is synced; no disk is waited for."""
        found, path = os.fstat(number), os.readlink("/proc/self/fd/%d" % number)
        if self.machine is None:
            return
        self.count(None, True)
        if stat.S_ISDIR(found.st_mode):
            self.note("names", path, {name: os.stat(name, dir_fd=number, follow_symlinks=False).st_ino for name in os.listdir(number)})
        else:
            with open("/dev/fd/%d" % number, "rb") as copy:
                self.note("content", found.st_ino, copy.read())

    # Runs

    def run(self, machine, work, plan=Plan()):
        """Runs work, or the words of a tool, on a machine to its end and that of all that it has started. Returns how it ended, and the calls."""
        if not callable(work):
            work = self.work_of([sys.executable, os.path.join(self.tools, work[0]), *work[1:]])
        PAGE.pack_into(self.page, 0, 0, 0, plan.call, plan.way, 0)
        with tempfile.TemporaryFile() as log, tempfile.TemporaryFile() as output, tempfile.TemporaryFile() as said:
            reading, writing = os.pipe()
            os.dup2(log.fileno(), LOG)
            os.dup2(writing, ALIVE)
            os.close(writing)
            child = os.fork()
            if not child:
                os.setpgid(0, 0)
                self.machine = machine
                os.environ["TMPDIR"] = tempfile.tempdir = os.path.join(self.machines[machine], "tmp")
                os.chdir(self.machines[machine])
                self.become(work, (os.open(os.devnull, os.O_RDONLY), output.fileno(), said.fileno()))
            os.close(ALIVE)
            while os.read(reading, 1):
                pass
            os.close(reading)
            _, status = os.waitpid(child, 0)
            status = os.waitstatus_to_exitcode(status)
            calls, syncs, _, _, hit = PAGE.unpack_from(self.page)
            log.seek(0), output.seek(0), said.seek(0)
            data, records = log.read(), []
            while data:
                size, = struct.unpack_from("l", data)
                records.append(pickle.loads(data[8:8 + size]))
                data = data[8 + size:]
            return Done(status, output.read(), said.read().decode("utf-8", "replace"), calls, syncs, hit - 1 if hit else None), records
