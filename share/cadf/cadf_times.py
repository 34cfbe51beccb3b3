"""Times, as a person types them, and windows by them: when one begins and ends, how far it is from now, and which are begun.

All are nanoseconds, as of `cadf_logs.instant`.
"""
import argparse
import datetime
import itertools
import json
import re
import time
from typing import NamedTuple, Optional

from cadf_logs import instant, utc

UNITS = {"month": len("2024-03"), "day": len("2024-03-01"), "hour": len("2024-03-01T12")}  # with the length of a window's name
WINDOW, SHARED = r"[0-9]{4}-[0-9]{2}(?:-[0-9]{2}(?:T[0-9]{2})?)?", "shared"  # the names of windows; of the part of what has no time
SECOND = 10 ** 9
STEPS = {"s": SECOND, "min": 60 * SECOND, "h": 3600 * SECOND, "d": 86400 * SECOND, "w": 7 * 86400 * SECOND}
DAYS = {"now": None, "today": 0, "yesterday": -1, "tomorrow": 1}
RELATIVE = re.compile(r"(now|today|yesterday|tomorrow)?(?:([+-])([0-9]{1,6})(s|min|h|d|w))?")
EPOCH = datetime.date(1970, 1, 1).toordinal() * STEPS["d"]
REST = {len("2024-03"): "-01", len("2024-03-01T12"): ":00Z"}  # what makes an instant of a month's or an hour's name
NEVER = 2 ** 100  # after all
NEAR = 3 * STEPS["d"]  # how far a window may be from now that gets events each day, of senders that are late too
FIRST, AFTER = (day * STEPS["d"] for day in (1, datetime.date.max.toordinal() + 1))  # of the years that can be spelled


def now():
    """The instant of the call."""
    return EPOCH + time.time_ns()


def begin(window):
    """The instant at which a window of that name begins; None if it is none of the calendar."""
    return instant(window + REST.get(len(window), ""))


def end(window):
    """The instant before which a window of that name ends, which is one of the calendar."""
    if len(window) == len("2024-03"):
        year, month = int(window[:4]), int(window[5:])
        after = begin("%04d-%02d" % (year + month // 12, month % 12 + 1))
        return NEVER if after is None else after  # after the year 9999
    return begin(window) + (STEPS["d"] if len(window) == len("2024-03-01") else STEPS["h"])


def window_of(at, unit):
    """The window of that unit in which an instant is."""
    return utc(at)[:UNITS[unit]]


def distance(window, at):
    """How far a window is from an instant: 0 if it has it."""
    first = begin(window)
    return NEVER if first is None else max(first - at, at - end(window) + 1, 0)


def read(text, at):
    """The instant that a person typed, if it is that instant now: a time, a month, or a number of steps from a day or now. None: it is no time."""
    found = RELATIVE.fullmatch(text)
    if not text or not found:
        return begin(text)
    day, sign, count, step = found.groups()
    if DAYS.get(day) is not None:
        at = at // STEPS["d"] * STEPS["d"] + DAYS[day] * STEPS["d"]
    return at + int((sign or "+") + (count or "0")) * STEPS.get(step, 0)


def time_typed(text):
    """Reads a time of a command line, of the years 1 to 9999."""
    found = read(text, now())
    if found is None or not FIRST <= found < AFTER:
        raise argparse.ArgumentTypeError("not a time, as 2024-03-01, 2024-03-01T12:00Z, yesterday or now+1d: %s" % json.dumps(text))
    return found


class Bounds(NamedTuple):
    """Instants before and after which nothing is taken, or None."""
    not_before: Optional[int] = None
    not_after: Optional[int] = None

    def has(self, window):
        """Whether a window has an instant within them."""
        if self == (None, None):
            return True
        first = begin(window)
        return first is not None and (self.not_after is None or first <= self.not_after) and (self.not_before is None or end(window) > self.not_before)


def nearest(windows, at):
    """The windows in order of how far they are from an instant."""
    return sorted(windows, key=lambda window: (distance(window, at), window))


def most_near(unit):
    """How many windows of a unit may be near now; of none, a day's."""
    return 2 * NEAR // STEPS["h" if unit == "hour" else "d"] + 2 if unit != "month" else 2


def is_far(window):
    """Whether a window is so far from now that others than who sends old events bring it nothing any more."""
    return distance(window, now()) > NEAR


def first_within(windows, sizes, most):
    """Those of some windows that are nearest to now, until they have so many bytes together: the one that goes beyond is the last."""
    before, found = 0, set()
    for window in nearest(windows, now()):
        if before >= most:
            break
        found.add(window)
        before += sizes[window]
    return found


def chosen(wanted, most, each):
    """Which windows are begun, of the lists of what each sender's events are of: the nearest to now first, and the senders in turn.

    At most so many, and of each sender at most so many that are far from now: of others there are few, which somebody begins in any case.
    """
    at = now()
    turns = itertools.zip_longest(*(nearest(windows, at)[:own + len(windows) - sum(map(is_far, windows))] for windows, own in zip(wanted, each)))
    found = dict.fromkeys(window for turn in turns for window in turn if window is not None)
    return set(itertools.islice(found, most))
