"""How long a test waits: limits in seconds are those of an idle machine, and grow with what a loop takes here.

So no limit fails a right program on a slow or a busy machine, and each still ends one that hangs.
"""
import functools
import time

LOOPS, SECONDS = 10 ** 6, 0.04  # a loop of so many turns takes so long on an idle processor of 2.5 GHz
MOST = 8  # times as long as there, so that what hangs ends while somebody waits


def loop():
    """The seconds that the loop takes."""
    begun = time.monotonic()
    for _ in range(LOOPS):
        pass
    return time.monotonic() - begun


@functools.lru_cache(None)
def slowness():
    """How many times as long as on that processor the loop takes, measured when it is asked for first: from 1 to MOST."""
    return min(MOST, max(1.0, sorted(loop() for _ in range(3))[1] / SECONDS))


def seconds(limit):
    """A limit in seconds of an idle machine, as it is here."""
    return limit * slowness()
