"""Proves targets and the crates that they need, side by side.

    with Build(TOP, Plan(TOP, "cadf"), {"cadf"}, lanes) as build:
        build.run(lambda name, libraries, jobs: words)

Each proof is a call of the kit's compiler, in a process group of its own. However a build ends, nothing of it runs on.
A crate that was proved is kept (build/kept.py); the output of a proof is in crates/NAME/out/build.log.
"""
import argparse
import fcntl
import os
import shutil
import signal
import subprocess
import sys
import time

from build import record
from build.compiler import Compiler
from build.kept import Kept

# What a proof takes of memory at most, and what each of its jobs takes besides.
PROOF_MEMORY, JOB_MEMORY = 3 * 2 ** 30, 2 ** 29
# The seconds after which the pace of a build says something of what is left.
PACED = 60
# The seconds between two looks at what runs, and how many of them pass before what is urgent is chosen anew.
LOOK, LOOKS = 0.05, 10
# The nice level of the proofs that aren't urgent.
LATER = 19
# What ends a build in an orderly way.
SIGNALS = (signal.SIGINT, signal.SIGTERM, signal.SIGHUP)
# By its environment a process is known for one of a build's, also after the build was killed.
MARK = "CADF_BUILD"

CHANGED = "sources were changed while they were proved: build again, what is still as it was proved is kept"


class Failed(Exception):
    """A crate was not proved, or the build was told to end."""


def free_memory():
    with open("/proc/meminfo", encoding="ascii") as file:
        found = [int(line.split()[1]) for line in file if line.startswith("MemAvailable:")]
    return 1024 * found[0] if found else 0


def processes(mark):
    """The processes whose environment has the mark."""
    wanted = ("%s=%s" % (MARK, mark)).encode()
    for name in filter(str.isdigit, os.listdir("/proc")):
        try:
            with open("/proc/%s/environ" % name, "rb") as file:
                if any(one.startswith(wanted) for one in file.read().split(b"\0")):
                    yield int(name)
        except OSError:
            continue


def end(mark):
    """Ends all processes of a build, or of one of its proofs."""
    for sign in [signal.SIGTERM] + 50 * [signal.SIGKILL]:
        left = list(processes(mark))
        for process in left:
            try:
                os.kill(process, sign)
            except ProcessLookupError:
                pass
        if not left:
            return
        time.sleep(0.1)


def prioritize(group, is_urgent):
    """Lets an urgent proof go before the others, and not before what the build itself has to let go first.

    Who may not raise a priority leaves it low.
    """
    try:
        os.setpriority(os.PRIO_PGRP, group, os.nice(0) if is_urgent else LATER)
    except OSError:
        pass


def lanes(word):
    """How many processors a word of a command line asks for."""
    if int(word) < 1:
        raise argparse.ArgumentTypeError("1 or more processors are needed")
    return int(word)


def minutes(seconds):
    return "%d s" % seconds if seconds < 90 else "%d min" % round(seconds / 60)


class Proof:
    """A call of the compiler that proves a crate."""

    def __init__(self, name, folder, jobs, words, mark, sources):
        self.name, self.jobs, self.mark, self.sources = name, jobs, mark, sources
        self.log = os.path.join(folder, "out", "build.log")
        os.makedirs(os.path.dirname(self.log), exist_ok=True)
        with open(self.log, "wb") as log:
            self.child = subprocess.Popen(words, cwd=folder, env={**os.environ, MARK: mark}, stdin=subprocess.DEVNULL, stdout=log,
                                          stderr=subprocess.STDOUT, preexec_fn=os.setpgrp)

    def verdict(self):
        with open(self.log, encoding="utf-8", errors="replace") as log:
            return "".join(line.strip() for line in log if line.startswith("logic="))

    def stop(self):
        end(self.mark)
        self.child.wait()


class Build:
    """While it is open no other build works in the tree. What is made of a target is kept by who asked for it."""

    def __init__(self, top, plan, targets, lanes):
        self.top, self.plan, self.targets, self.lanes, self.memory = top, plan, set(targets), lanes, 0
        self.kept, self.compiler = Kept(top), Compiler(top)
        self.running, self.verdicts, self.is_stopped = {}, {}, False
        self.begun, self.kept_before, self.pace_before = 0, set(), 1.0
        self.lock = self.usual = None

    def __enter__(self):
        """Holds the tree, so that a second build waits until this one has ended, and ends what a killed one left running."""
        self.lock = open(self.kept.folder + ".lock", "w", encoding="utf-8")
        try:
            fcntl.flock(self.lock, fcntl.LOCK_EX | fcntl.LOCK_NB)
        except BlockingIOError:
            print("build: another build works here, and this one waits for it", flush=True)
            fcntl.flock(self.lock, fcntl.LOCK_EX)
        end(os.path.join(self.kept.folder, ""))
        self.kept.tidy()
        self.begun, self.memory = time.monotonic(), free_memory()
        self.usual = {sign: signal.signal(sign, self.stop) for sign in SIGNALS}
        return self

    def __exit__(self, *_):
        for proof in self.running.values():
            proof.stop()
        for sign, handler in self.usual.items():
            signal.signal(sign, handler)
        self.lock.close()

    def stop(self, *_):
        self.is_stopped = True

    def jobs(self, name, waiting):
        """How many jobs the crate's proof gets: as the plan says, or what memory has room for beside what the others may take."""
        left = self.memory - sum(PROOF_MEMORY + proof.jobs * JOB_MEMORY for proof in self.running.values())
        planned = self.plan.jobs(name, {*waiting, *self.running} - {name}, self.lanes)
        return min(planned, (left - PROOF_MEMORY) // JOB_MEMORY)

    def words(self, name, jobs, make_target):
        """The call that proves the crate."""
        libraries = {other: self.kept.library(other) for other in self.plan.below(name)}
        if name in self.targets:
            return make_target(name, libraries, jobs)
        return self.compiler.library(name, libraries, jobs, self.kept.library(name))

    def start(self, waiting, make_target):
        """Begins the crates that can be proved now, as many as the plan has at once and memory has room for."""
        for name in list(self.plan.next(waiting, set(self.verdicts), self.running, self.lanes)):
            jobs = max(self.jobs(name, waiting), 0 if self.running else 1)
            if jobs < 1:
                return
            self.kept.forget(name)
            folder, mark = os.path.join(self.top, "crates", name), os.path.join(self.kept.folder, name, "")
            self.running[name] = Proof(name, folder, jobs, self.words(name, jobs, make_target), mark, self.sources(name))
            waiting.discard(name)

    def sources(self, name):
        return record.digest_of_sources(self.top, [name])

    def take_in(self):
        """Takes in the crates whose proofs have ended. Raises Failed where one is not proved."""
        for proof in [one for one in self.running.values() if one.child.poll() is not None]:
            del self.running[proof.name]
            proof.stop()
            if proof.child.returncode != 0:
                raise Failed("%s failed: see crates/%s/out/build.log" % (proof.name, proof.name))
            if proof.sources != self.sources(proof.name):
                raise Failed(CHANGED)
            if proof.name not in self.targets:
                self.kept.keep(proof.name, proof.sources, proof.verdict(), self.pace())
            self.verdicts[proof.name] = proof.verdict()
            self.say("%s is proved" % proof.name, "\n")

    def pace(self):
        """How many times as long as planned it takes: so far, or as long as that says nothing, the build before."""
        since = time.monotonic() - self.begun
        planned = self.plan.left(self.kept_before, self.lanes) - self.plan.left(self.verdicts, self.lanes)
        return since / planned if since > PACED and planned > PACED else self.pace_before

    def left(self):
        """The seconds that are left, by the plan and by the pace."""
        return self.plan.left(self.verdicts, self.lanes) * self.pace()

    def say(self, text, end_of_line):
        line = "%5.0f s  %s" % (time.monotonic() - self.begun, text)
        if sys.stdout.isatty():
            width = shutil.get_terminal_size().columns - 1
            line = "\r" + line[:width].ljust(width)
        print(line, end=end_of_line, flush=True)

    def progress(self, waiting):
        names = " ".join(sorted(self.running))
        self.say("proving %s; %d of %d crates to go, about %s" % (
            names, len(waiting) + len(self.running), len(self.plan.names), minutes(self.left())),
            "" if sys.stdout.isatty() else "\n")

    def wait(self):
        """Waits for a proof to end, at most half a second."""
        for _ in range(LOOKS):
            if self.is_stopped or any(proof.child.poll() is not None for proof in self.running.values()):
                return
            time.sleep(LOOK)

    def run(self, make_target):
        """Proves the crates that are not kept, and the targets. Returns the verdicts. Raises Failed."""
        self.kept_before = self.kept.names(self.plan.names - self.targets)
        self.verdicts = {name: self.kept.verdict(name) for name in self.kept_before}
        self.pace_before = self.kept.pace(self.kept_before)
        waiting = self.plan.names - self.kept_before
        while waiting or self.running:
            before = set(self.running)
            self.start(waiting, make_target)
            urgent = self.plan.urgent(self.running, waiting)
            for name, proof in self.running.items():
                prioritize(proof.child.pid, name in urgent)
            if sys.stdout.isatty() or set(self.running) - before:
                self.progress(waiting)
            self.wait()
            self.take_in()
            if self.is_stopped:
                raise Failed("ended before all was proved; the crates that were proved are kept")
        if self.kept.names(self.plan.names) != self.plan.names - self.targets:
            raise Failed(CHANGED)
        return self.verdicts
