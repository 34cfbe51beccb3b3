"""Runs a program in Python of which one call fails or is the last: what it leaves then, and what the next run makes of it.

What a kill before a call leaves is the folder as it is then. So one run whose folder is copied before each call shows what
a kill before each of them leaves.
"""
import os
import sys

from tests.machine import ended

# Runs a program, whose call of that number fails or is its last, or which copies its folder before each call. It tells each
# call, up to that one, in a file.
FAULTY = """
import errno, importlib, os, runpy, signal, sys
told, functions, way, last, script = sys.argv[1], sys.argv[2], sys.argv[3], int(sys.argv[4]), sys.argv[5]
told = os.open(told, os.O_CREAT | os.O_TRUNC | os.O_WRONLY, 0o600)
write = os.write
count = 0
def wrapped(call):
    def counted(*words, **options):
        global count
        count += 1
        write(told, call.__name__.encode() + b" ")
        if way == "copied":
            os.spawnlp(os.P_WAIT, "cp", "cp", "-a", ".", "%s-%d" % (os.getcwd(), count))
        if count == last:
            if way == "killed":
                os.kill(os.getpid(), signal.SIGKILL)
            raise OSError(errno.EIO, "Input/output error")
        return call(*words, **options)
    return counted
sys.argv = sys.argv[5:]
for function in functions.split():
    module, _, name = function.rpartition(".")
    module = importlib.import_module(module)
    setattr(module, name, wrapped(getattr(module, name)))
runpy.run_path(script, run_name="__main__")
"""


def calls_of(functions, program, words, way="runs", place=0, told="calls", **options):
    """Runs a program with a call that fails or is its last: what it answers, and the names of its calls so far.

    `way` is `runs`, `failed`, `killed` or `copied`: the folder FOLDER of the run is then copied to FOLDER-1, FOLDER-2 and so
    on, before each call. `functions` are the calls that count, by their names in Python; the file `told` is written.
    """
    done = ended(sys.executable, ["-c", FAULTY, told, functions, way, str(place), program, *words], **options)
    with open(os.path.join(options.get("cwd", "."), told), encoding="ascii") as file:
        return done, file.read().split()
