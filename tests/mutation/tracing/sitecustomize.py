"""Has each Python that a test starts write down which lines of the mutated programs it runs: `TEST FILE:LINE`, each once.

On PYTHONPATH, with TRACED_INTO the folder of what is written. A program is known by its name and its folder's, since tests
run copies too.
"""
import os
import sys
import threading

INTO, NAMES = os.environ.get("TRACED_INTO"), os.environ.get("TRACED_NAMES", "")
KNOWN = {tuple(name.split("/")[-2:]): name for name in NAMES.split(":")}
FILES, SEEN = {}, set()  # of a code's file the program's name, or None; what was written


def name_of(file):
    """The program that this file is, or a copy of it; None for any other."""
    if file not in FILES:
        FILES[file] = KNOWN.get(tuple(os.path.abspath(file).split("/")[-2:]))
    return FILES[file]


def write(line):
    """Appends a line to the process's file, which a program may not keep open."""
    try:
        file = os.open(os.path.join(INTO, str(os.getpid())), os.O_WRONLY | os.O_CREAT | os.O_APPEND | os.O_CLOEXEC, 0o666)
    except OSError:
        return  # no descriptor, no room, another user: the line is another test's
    try:
        os.write(file, line.encode("utf-8", "surrogateescape"))
    except OSError:
        pass
    os.close(file)


def traced(frame, event, _):
    """Is called for each line of a mutated program's frame, and for the frame."""
    name = name_of(frame.f_code.co_filename)
    if name is None:
        return None
    if event in ("line", "call"):
        test = os.environ.get("PYTEST_CURRENT_TEST", "").rpartition(" (")[0]
        if (test, name, frame.f_lineno) not in SEEN:
            SEEN.add((test, name, frame.f_lineno))
            write("%s\t%s:%d\n" % (test, name, frame.f_lineno))
    return traced


if INTO:
    sys.settrace(traced)
    threading.settrace(traced)
