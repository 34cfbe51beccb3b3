"""Work on many items, by several children of a tool's process at once: each is the program as it stands, so nothing is started anew."""
import contextlib
import functools
import os
import pickle
import signal

from cadf_toolkit import NOT_NOW, Fault, hold_signals, release_signals

FEWEST = 4  # items of a child: fewer aren't worth it


def usable():
    """How many processors this process may use."""
    return len(os.sched_getaffinity(0))


def made(make, item):
    """What is made of an item, or the exception that says why nothing is, as a child can tell it."""
    try:
        return make(item)
    except Fault as fault:
        return Fault(str(fault), fault.status)
    except Exception as fault:
        return fault


def work(make, items, writing):
    """What a child does. It ends once nobody reads it."""
    try:
        release_signals()
        with open(writing, "wb") as file:
            for item in items:
                pickle.dump(made(make, item), file)
                file.flush()
    finally:
        os._exit(0)  # nothing of the parent's is closed or removed


@contextlib.contextmanager
def child(make, items):
    """A child, as an open file of what it makes of the items."""
    reading, writing = os.pipe()
    hold_signals()
    try:
        number = os.fork()
        if not number:
            work(make, items, writing)
    except OSError:
        raise Fault("a process: " + NOT_NOW) from None
    finally:
        os.close(writing)
        release_signals()
    try:
        with open(reading, "rb") as file:
            yield file
    finally:
        os.kill(number, signal.SIGTERM)
        os.waitpid(number, 0)


def made_by_children(make, items, most):
    """Yields what is made of each of the items, or the exception that says why nothing is, in their order, by at most so many children."""
    count = min(most, len(items) // FEWEST)
    if count < 2:
        yield from map(functools.partial(made, make), items)
        return
    with contextlib.ExitStack() as steps:
        files = [steps.enter_context(child(make, items[number::count])) for number in range(count)]
        for number in range(len(items)):
            try:
                found = pickle.load(files[number % count])
            except (EOFError, pickle.UnpicklingError):
                raise Fault("a process: it ended before its work: try again") from None
            yield found
