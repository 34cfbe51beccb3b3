"""What is kept of the crates that were proved: the library of each, and a mark that says of what it was made.

All is in one folder, where no other tool looks for sources. A library of statements fits only the libraries that it was made
over, so a mark names the marks of those.
"""
import os
import shutil
import time

from build import record
from build.plan import crates_of


def place(top):
    """The folder: beside the history, or a hidden one at the top."""
    history = os.path.join(top, ".git")
    return os.path.join(history, "cadf-build") if os.path.isdir(history) else os.path.join(top, ".build")


class Kept:
    def __init__(self, top):
        self.top, self.folder, self.uses, self.kit = top, place(top), crates_of(top), record.kit(top)

    def library(self, name):
        return os.path.join(self.folder, name + ".rlib")

    def mark(self, name):
        return os.path.join(self.folder, name + ".made")

    def archive(self, name):
        """The library for C, if the crate is one; its record is beside it."""
        return os.path.join(self.folder, "lib%s.a" % name)

    def state(self, name, sources):
        """What the library is made of: these sources, this kit, and the libraries of the crates that it uses."""
        below = {"over " + other: record.digest_of_file(self.mark(other)) for other in self.uses[name]}
        return {"sources": sources, "kit": self.kit, **below}

    def is_kept(self, name):
        """Whether the library was made of what is there now. Those that it uses are kept."""
        mark = record.read_file(self.mark(name))
        return os.path.exists(self.library(name)) and self.state(name, record.digest_of_sources(self.top, [name])).items() <= mark.items()

    def names(self, wanted):
        """Which of these crates are kept, with all that they use."""
        found = set()
        for name, uses in self.uses.items():
            if name in wanted and found.issuperset(uses) and self.is_kept(name):
                found.add(name)
        return found

    def verdict(self, name):
        return record.read_file(self.mark(name))["verdict"]

    def tidy(self):
        """Removes all that is no crate's: what an earlier version or a killed proof left there."""
        ours = {path for name in self.uses
                for path in (self.library(name), self.mark(name), self.archive(name), self.archive(name) + ".built")}
        for item in list(os.scandir(self.folder)) if os.path.isdir(self.folder) else []:
            if item.path not in ours and item.is_dir(follow_symlinks=False):
                shutil.rmtree(item.path)
            elif item.path not in ours:
                os.remove(item.path)

    def forget(self, name):
        """Removes the mark of a library that is about to be made anew."""
        os.makedirs(self.folder, exist_ok=True)
        if os.path.exists(self.mark(name)):
            os.remove(self.mark(name))

    def pace(self, names):
        """How many times as long as planned the last build took that kept one of these crates, as it said then."""
        marks = [record.read_file(self.mark(name)) for name in names]
        return max(((int(mark["time"]), float(mark.get("pace", 1))) for mark in marks), default=(0, 1.0))[1]

    def keep(self, name, sources, verdict, pace):
        """Writes the mark of a library that was made of these sources, at that pace. It has the time, so that no two are alike."""
        record.write_file(self.mark(name), {**self.state(name, sources), "verdict": verdict, "pace": "%.2f" % pace, "time": str(time.time_ns())})
