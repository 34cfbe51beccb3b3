"""What a peer of an exchange has cost a site that is a folder, lately: its ledger is a line of the site's `.state`."""
import collections
import contextlib
import os
import re
import time

import cadf_state
from cadf_budget import seconds_spent
from cadf_ledgers import LEVELS, Levels
from cadf_site import SHARED, Folder, Taking, file_name
from cadf_times import first_within, is_far
from cadf_toolkit import Fault

NAME = re.compile("[A-Za-z0-9][A-Za-z0-9._-]{0,63}")
LINE = re.compile("L (%s)" % NAME.pattern + LEVELS)
OFTEN = 10  # seconds of the processor after which a session notes what it has cost


class PeerLedger(Levels):
    """A peer's levels, with what other sessions of that peer have noted, and what this one has cost since it last noted something."""

    def __init__(self, site, name, limits):
        super().__init__(limits)
        self.site, self.name, self.costs, self.spent = site, name, collections.Counter(), seconds_spent()
        with contextlib.suppress(OSError, Fault), Folder(site) as folder:
            self.read(cadf_state.lines_of(folder))

    def read(self, lines):
        self.levels.clear()
        for found in filter(None, map(LINE.fullmatch, lines)):
            self.put(found[1], found[2], found.groups()[2:])

    def add(self, kind, amount):
        """Charges the peer."""
        self.charge(self.name, kind, amount)
        self.costs[kind] += amount

    def add_seconds(self):
        """Charges it with the processor time since the last call. Notes that now and then."""
        spent = seconds_spent()
        self.add("seconds", spent - self.spent)
        self.spent = spent
        if self.costs["seconds"] > OFTEN:
            self.note()

    def note(self):
        """Notes what the session has cost, if the site is there and can be written to."""
        with contextlib.suppress(OSError, Fault), Folder(self.site) as folder, Taking(folder, None):
            lines = cadf_state.lines_of(folder)
            self.read(lines)
            for kind, amount in self.costs.items():
                self.charge(self.name, kind, amount)
            self.costs.clear()
            others = [line for line in lines if not (LINE.fullmatch(line) and LINE.fullmatch(line)[1] == self.name)]
            cadf_state.write(folder, others + ["L " + self.line(self.name, time.time())])

    # What is taken

    def windows(self):
        """How many far windows the peer may begin."""
        return self.left(self.name, "windows")

    def files(self, items):
        """The sizes of the files that the site has of the items' windows, by window and name."""
        found = {}
        with contextlib.suppress(Fault), Folder(self.site) as folder:
            index = folder.index()
            for part in {each.part for each in items} - {SHARED}:
                for name in [file_name(part, digest) for digest in (index.digests(part) if index else ())]:
                    found.setdefault(part, {})[name] = 0
                    with contextlib.suppress(FileNotFoundError):
                        found[part][name] = os.stat(name, dir_fd=folder.descriptor, follow_symlinks=False).st_size
        return found

    def beyond(self, items):
        """The windows of the items for which the peer has cost too much, by the kind of that cost."""
        far = {part: sum(sizes.values()) for part, sizes in self.files(items).items() if is_far(part)}
        found = dict.fromkeys(far.keys() - first_within(far.keys(), far, self.left(self.name, "rereads")), "rereads")
        room = self.room(self.name, "bytes")
        for each in items:
            if each.part not in found and room <= 0:
                found[each.part] = "bytes"
            room -= each.length * (each.part not in found)
        return found

    @contextlib.contextmanager
    def charged(self, items):
        """A context in which the items are taken, for what then the peer is charged, also if that ends before all of them are."""
        before = self.files(items)
        try:
            yield
        finally:
            after = self.files(items)
            self.add("bytes", sum(each.length for each in items))
            self.add("windows", len(list(filter(is_far, after.keys() - before.keys()))))
            self.add("rereads", sum(sum(before[part].values()) for part in before if is_far(part) and after.get(part) != before[part]))
            self.note()
