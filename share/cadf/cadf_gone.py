"""What a site keeps: all that has no time, windows from its floor on, and those below it that are held; and what went.

A site that is a folder says so in a file `gone.DIGITS`, which its file `site` names; docs/FORMATS.md has the form. A site that forgot and
erased nothing has none. Facts that aren't kept are neither taken nor exchanged: all tools ask here, by

  Folder.gone()          what a folder says: a Gone
  Gone.kept              what it keeps: a Kept
  kept_told(members, ..) what the other end of an exchange says that it keeps
"""
import json
import re
from typing import NamedTuple, Optional

from cadf_times import SHARED, UNITS, WINDOW
from cadf_toolkit import with_digest

FIRST = "CADF-GONE 1\n"
FILE = re.compile(r"gone\.([0-9a-f]{64})")
FLOOR, HOLD, RELEASE, ERASE = "T", "H", "R", "E"  # the letters of acts
WHEN_AND_WHO = r'([0-9]{4}-[0-9]{2}-[0-9]{2}T[0-9]{2}:[0-9]{2}:[0-9]{2}Z) (\[".*"\])'
ACT, ERASURE = re.compile(r"([THR]) (%s) %s" % (WINDOW, WHEN_AND_WHO)), re.compile("E " + WHEN_AND_WHO)
ROOTS = r" (0|[1-9][0-9]{0,19}) ([0-9a-f]{64}) (0|[1-9][0-9]{0,19}) ([0-9a-f]{64})"
WENT = re.compile(r"G (%s) ([1-9][0-9]{0,19}) ([0-9a-f]{64}) ([1-9][0-9]{0,19}) ([0-9a-f]{64})" % WINDOW)
TOUCHED = re.compile(r"X (%s|%s)(%s)(%s)" % (SHARED, WINDOW, ROOTS, ROOTS))
MALFORMED = (ValueError, TypeError, IndexError, RecursionError)
MOST = 2 ** 64  # above all counts
MOST_HELD = 1000  # windows below the floor, so that the first line of an exchange has them
NOT_KEPT = "%s: it keeps from %s on"
LOST = "put the file of this name back from a backup of the site, or make the site anew as the guide says under `A damaged site`"


class Kept(NamedTuple):
    """What is kept: all, or from a window on, with those before it that are held."""
    floor: Optional[str] = None
    held: frozenset = frozenset()

    def has(self, part):
        """Whether a part of that name is kept."""
        return self.floor is None or part == SHARED or part >= self.floor or part in self.held

    def members(self):
        """What the first line of an exchange says of it."""
        below = sorted(window for window in self.held if window < self.floor) if self.floor else []
        return {**({"kept_from": self.floor} if self.floor else {}), **({"held": below} if below else {})}


ALL = Kept()


def kept_told(members, unit):
    """What the other end of an exchange keeps, by its first line. ValueError: it may not say so."""
    floor, held = members.get("kept_from"), members.get("held", [])
    if floor is None and not held:
        return ALL
    names = [floor, *held] if isinstance(held, list) and len(held) <= MOST_HELD else [None]
    if not all(isinstance(name, str) and is_window(name, unit) for name in names) or any(name >= floor for name in held):
        raise ValueError
    return Kept(floor, frozenset(held))


def is_window(name, unit):
    """Whether a window of that unit may have the name."""
    return unit in UNITS and len(name) == UNITS[unit] and re.fullmatch(WINDOW, name) is not None


class Gone:
    """What the file says: a log, by the canonical text of its name, a unit, and lines of acts, each with those of what went by it.

    `kept` is what is kept, and `windows` has of each window that went what a seal of a folder has of one. `erased` has, in the order of acts, each
    part of which facts were erased, and both texts that a seal has of it, before and after.
    """

    def __init__(self, log, unit, lines=()):
        self.log, self.unit, self.lines, self.kept, self.windows, self.erased = log, unit, [], ALL, {}, []
        for line in lines:
            self.add(line)

    @classmethod
    def read(cls, data, log, unit):
        """Reads the file of a folder of that log and unit. None if it is no such file."""
        head = ("%sL %s\nB %s\n" % (FIRST, log, unit)).encode()
        try:
            found = cls(log, unit, data[len(head):data.rfind(b"Z ")].decode().split("\n")[:-1])
        except MALFORMED:
            return None
        return found if found.lines and found.bytes() == data else None

    def bytes(self):
        return with_digest("".join(["%sL %s\nB %s\n" % (FIRST, self.log, self.unit), *(line + "\n" for line in self.lines)]).encode())

    def digits(self):
        """The digits of its last line, by which it is named."""
        return self.bytes()[-65:-1].decode()

    def add(self, line):
        """Adds a line. One of MALFORMED: it is none, or doesn't go on from those before."""
        act, erasure = ACT.fullmatch(line), ERASURE.fullmatch(line)
        if act:
            self.act(act[1], act[2], act[4])
        elif erasure:
            check_words(erasure[2])
        elif line.startswith("X"):
            self.touch(TOUCHED.fullmatch(line))
        else:
            self.go(WENT.fullmatch(line))
        self.lines.append(line)

    def act(self, letter, window, text):
        floor, held = self.kept
        is_right = {FLOOR: floor is None or window >= floor, HOLD: (floor is None or window >= floor) and window not in held, RELEASE: window in held}[letter]
        check_words(text)
        if not is_right or not is_window(window, self.unit):
            raise ValueError
        self.kept = Kept(window, held) if letter == FLOOR else Kept(floor, held | {window} if letter == HOLD else held - {window})

    def go(self, found):
        window = found[1] if found else ""
        last = WENT.fullmatch(self.lines[-1]) if self.lines else None
        is_of_erasure = bool(self.lines) and self.lines[-1][0] in "EX"
        if not is_window(window, self.unit) or self.kept.has(window) or window in self.windows or last and last[1] >= window \
                or max(int(found[2]), int(found[4])) >= MOST or is_of_erasure:
            raise ValueError
        self.windows[window] = found[0].split(" ", 2)[2]

    def touch(self, found):
        part, last = found[1], self.lines[-1]
        is_first, before = last.startswith(ERASE), TOUCHED.fullmatch(last)
        is_in_order = is_first or before is not None and (before[1] != SHARED, before[1]) < (part != SHARED, part)
        counts = [int(found[place]) for place in (3, 5, 8, 10)]
        if not is_in_order or part != SHARED and not is_window(part, self.unit) or not self.kept.has(part) or max(counts) >= MOST or counts[0] <= counts[2]:
            raise ValueError
        self.erased.append((part, found[2][1:], found[7][1:]))

    def after(self, letter, window, when, who, why):
        """What a further act makes of it: the floor rises, or a window is held or released."""
        return Gone(self.log, self.unit, [*self.lines, "%s %s %s %s" % (letter, window, when, words_text(who, why))])

    def after_erasure(self, when, who, why):
        """What an erasure makes of it, to which a line is added for each part that it touched."""
        return Gone(self.log, self.unit, [*self.lines, "%s %s %s" % (ERASE, when, words_text(who, why))])


def words_text(who, why):
    """The canonical text of who does something and why."""
    if not isinstance(who, str) or not isinstance(why, str):
        raise TypeError
    return json.dumps([who, why], ensure_ascii=False, separators=(",", ":"))


def check_words(text):
    """One of MALFORMED: it isn't the canonical text of who does something and why."""
    if text != words_text(*json.loads(text)):
        raise ValueError


def file_name(digits):
    return "gone." + digits
