"""What each sender has cost lately: a ledger for each, in a file of the spool, or of a peer of a site.

A ledger has a level for each kind of cost. A cost is added to it when it is known, and in a day the level falls by the limit.
A sender whose level has reached a limit waits: what is begun below it is ended, so that a file may go beyond, and others of
that sender wait until this is paid back. Between two looks at most a day counts, and none if the clock was set back.

A user is a sender. So are the publishers of a bus whose names have one of a few numbers: they may cost an equal share of what a bus
may, and more as long as all of them together haven't cost that. A bus may cost what a user may, and of bytes and seconds several times as much.
"""
import contextlib
import os
import re
import time

from cadf_site import ALL
from cadf_spool import is_there, within

FILE = ".ledgers"  # of set-aside/, where no sender may be
DAY = 86400
KINDS = ("bytes", "files", "windows", "seconds", "rereads")
OF_TAKE = {"windows": ALL, "rereads": 10 ** 15 - 1}  # of which a take is told how much is left, at most so much: what is beyond waits, and no file stays for it
LEVELS = r" ([0-9]{1,20}\.[0-9]{3})" * (1 + len(KINDS)) + "\n"  # when they were noted, and of each kind one
LINE = re.compile("([0-9]{1,10})" + LEVELS)
MOST = 4096  # ledgers; who comes later shares one
OTHERS = 2 ** 32 - 1  # no user has this number
PUBLISHERS = 64  # numbers of publishers, whose names are claimed and can be forged
BUS = 2 ** 32  # the first of their senders' numbers, after which comes that of all together
ALL_OF_BUS = BUS + PUBLISHERS
OF_MANY = {"bytes": 8, "seconds": 8}  # times what one sender may cost, for one who passes on what many have sent
LONGEST = MOST * 128  # bytes of the file


def is_of_bus(user):
    return BUS <= user < ALL_OF_BUS


def sender_shown(user):
    """A sender, in words."""
    return "bus-%d" % (user - BUS) if is_of_bus(user) else "user %d" % user


class Levels:
    """The levels of senders, by sender and kind, and the limits of a day, by kind."""

    def __init__(self, limits):
        self.limits, self.levels = limits, {}

    def put(self, sender, noted, levels):
        """Has a sender have the levels that were noted then, so far as they haven't fallen since. Both are texts."""
        days = min(max(0, time.time() - float(noted)), DAY) / DAY
        left = {kind: float(level) - days * self.limit(sender, kind) for kind, level in zip(KINDS, levels)}
        self.levels[sender] = {kind: level for kind, level in left.items() if level > 0}

    def line(self, sender, now):
        """A sender's levels, and when they are noted."""
        own = self.levels.get(sender, {})
        return "%s %.3f %s\n" % (sender, now, " ".join("%.3f" % own.get(kind, 0) for kind in KINDS))

    def limit(self, _, kind):
        """What a sender may cost in a day."""
        return self.limits[kind]

    def counted(self, sender):
        """Who is charged with what a sender costs."""
        return {sender}

    def level(self, sender, kind):
        return self.levels.get(sender, {}).get(kind, 0)

    def charge(self, sender, kind, amount):
        """Adds a cost of a sender's."""
        for each in self.counted(sender):
            own = self.levels.setdefault(each, {})
            own[kind] = own.get(kind, 0) + amount

    def room(self, sender, kind):
        """How much a sender may cost more, alone or with others."""
        return max(self.limit(each, kind) - self.level(each, kind) for each in self.counted(sender))

    def reached(self, sender, more):
        """The first kind of which a sender has reached the limit, with more that is to come, by kind; or None."""
        return next((kind for kind in KINDS if kind not in OF_TAKE and more.get(kind, 0) >= self.room(sender, kind)), None)

    def left(self, sender, kind):
        """How much is left to a sender of a kind of which a take is told."""
        return min(OF_TAKE[kind], max(0, int(self.room(sender, kind))))


class Ledgers(Levels):
    """Those of a spool, by user."""

    def __init__(self, folder, limits):
        super().__init__(limits)
        self.folder = folder
        with contextlib.suppress(FileNotFoundError), open(FILE, encoding="utf-8", errors="replace", opener=within(folder)) as file:
            for user, noted, *levels in LINE.findall(file.read(LONGEST)):
                self.put(int(user), noted, levels)

    def limit(self, user, kind):
        return self.limits[kind] * (OF_MANY.get(kind, 1) if user >= BUS else 1) / (PUBLISHERS if is_of_bus(user) else 1)

    def counted(self, user):
        """Publishers of a bus, and all of them; a user, or those who share a ledger if there are too many."""
        if is_of_bus(user):
            return {user, ALL_OF_BUS}
        return {user if user in self.levels or len(self.levels) < MOST else OTHERS}

    def write(self):
        """Writes the levels that aren't zero, if they can be."""
        now = time.time()
        if not self.levels and not is_there(FILE, self.folder):
            return
        with contextlib.suppress(OSError), open(FILE + ".new", "w", encoding="utf-8", opener=within(self.folder)) as file:
            file.writelines(self.line(user, now) for user, own in sorted(self.levels.items()) if own)
            file.flush()
            os.rename(FILE + ".new", FILE, src_dir_fd=self.folder, dst_dir_fd=self.folder)
