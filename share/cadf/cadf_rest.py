"""What a take into a folder leaves: events of windows beyond its limits and out of its bounds of time, and rulings, which go to a file of each sender.

The windows that are there are taken, and of new ones those that are nearest to now, of the senders in turn. Whatever comes to a
window, later calls read all of it again, and settling writes it: of windows far from now, to which little comes, that costs whoever
sends it, and each sender may have so many bytes read again.
"""
import contextlib
import os
import re
import subprocess
import tempfile

import cadf_site
from cadf_gone import ALL
from cadf_link import Store
from cadf_rulings import file_of_atoms
from cadf_times import chosen, first_within, is_far
from cadf_toolkit import LARGEST, REFUSED, USAGE, Fault, another_program, cadf, grouped, name_shown, naming_temporary, new_file, opened, say, sync
from cadf_welcome import rulings_in, without

AT_ONCE = 200  # files that are joined at once
COUNTED = re.compile(rb" atoms (\d+) conflicts \d+\n$")  # what cadf says of a file that it checks
WHAT_NEXT = ": look at their "
WHY = ("%d new windows beyond the limits", "%d windows out of bounds", "%d far windows that would be read again", "%d windows that the site keeps no more",
       "%d rulings that aren't welcome")
BUT_FORGOTTEN = ", but nothing that is older than %s, from where the site keeps: --rest has the others taken"
THERE = "it is there: name another file by --rest, or move it away"


class Parts:
    """Parts of split files, by their names, in a private file, and how many rulings are among them."""

    def __init__(self):
        self.store, self.items, self.rulings = Store(), {}, 0

    def put_rulings(self, log, rulings):
        """Writes these rulings, if there are some."""
        if rulings:
            self.rulings += len(rulings)
            with naming_temporary():
                data = file_of_atoms(b"L %s\n" % log.encode(), rulings)
                self.items.setdefault(cadf_site.SHARED, []).append(self.store.put(cadf_site.SHARED, "facts", data))

    def put(self, part, parts):
        """Copies the next part of a split file."""
        with naming_temporary(), open(self.store.begin(), "wb", closefd=False) as output:
            parts.copy(output)
        self.items.setdefault(part, []).append(self.store.item(part, "facts"))


class Rest:
    """The limits of a take that leaves what is beyond them to files: the limits, the files, and how many inputs in turn each sender has.

    `each` says how many far windows each sender may begin, and `begun` afterwards of how many of those that were begun each has events.
    `rereads` says how many bytes of far windows that are there each sender may have read again, if there is such a limit, and `reread`
    afterwards how many each has: those who bring something to one window share its bytes.
    """
    kept, erased = ALL, 0  # by the site; how many facts were left out, since it erased them

    def __init__(self, name, most, each, bounds, senders, welcome=None, rereads=None):
        self.most, self.each, self.bounds, self.senders, self.welcome, self.rulings = most, each, bounds, senders, welcome, set()
        self.rereads, self.reread = rereads, []
        self.names = [name] if len(senders) == 1 else ["%s.%d" % (name, number) for number in range(1, len(senders) + 1)]
        self.apart, self.left, self.begun = Parts(), [], []
        for file in filter(os.path.lexists, self.names):
            raise Fault("%s: %s" % (name_shown(file), THERE), USAGE)

    def without_unwelcome(self, file, *words):
        """What an open file has but for new rulings that aren't welcome, which are kept apart, in pieces; None if it has no such."""
        unwelcome = self.welcome.new(file, *words)
        self.rulings |= unwelcome
        return without(file, unwelcome) if unwelcome else None

    def is_apart(self, part, is_there):
        return part != cadf_site.SHARED and not (is_there and self.may_be_taken(part) and not self.is_charged(part))

    def may_be_taken(self, part):
        """Whether a window is kept, and of the times that are taken."""
        return self.kept.has(part) and self.bounds.has(part)

    def is_charged(self, part):
        """Whether who brings something to a window that is there is charged for that."""
        return self.rereads is not None and is_far(part)

    def keeps(self, part, parts, is_there):
        """Keeps the next part apart that is a new window, out of bounds, or far and there. False: it is to be taken."""
        if self.is_apart(part, is_there):
            self.apart.put(part, parts)
            return True
        return False

    @contextlib.contextmanager
    def finished(self, taking, inputs):
        """Takes the windows that are chosen, and has the rest on the disk before the site names them. A take that fails leaves no rest."""
        within = set(filter(self.may_be_taken, self.apart.items))
        self.sizes = {part: sum(sizes.values()) for part in within for sizes in [taking.sizes(part)] if sizes}
        if len(self.senders) == 1:
            self.apart.put_rulings(taking.index.log, self.rulings)
        senders = [self.apart] if len(self.senders) == 1 else list(self.parts_of_senders(taking, inputs)) if self.apart.items or self.rulings else []
        begun = chosen([(within - self.sizes.keys()).intersection(each.items) for each in senders], self.most, self.each)
        again = set().union(*(first_within(self.sizes.keys() & each.items.keys(), self.sizes, most) for each, most in zip(senders, self.rereads or ())))
        taken = begun | again
        self.begun = [len(set(filter(is_far, begun)).intersection(each.items)) for each in senders] or [0] * len(self.senders)
        for part in sorted(taken):
            for item in self.apart.items[part]:
                with taking.new_file() as output:
                    output.writelines(item.blocks())
                taking.keep(part, digest_of(item))
        changed = again & taking.changed.keys()  # and not what brings nothing
        shares = {part: self.sizes[part] // sum(part in each.items for each in senders) for part in changed}
        self.reread = [sum(shares[part] for part in changed.intersection(each.items)) for each in senders] or [0] * len(self.senders)
        left = [{part: items for part, items in each.items.items() if part not in taken} for each in senders]
        try:
            for name, parts, own in zip(self.names, left, senders):
                if parts:
                    self.write(name, parts, inputs, own.rulings)
            yield
        except BaseException:
            for name in self.names:
                with contextlib.suppress(FileNotFoundError):
                    os.unlink(name)
            raise

    def parts_of_senders(self, taking, inputs):
        """Yields what was kept apart of each sender's inputs."""
        inputs = iter(inputs)
        for count in self.senders:
            found = Parts()
            own = [next(inputs) for _ in range(count)]
            for group in grouped(own, lambda each: os.fstat(each.file.fileno()).st_size, cadf_site.MOST_AT_ONCE):
                with cadf_site.split(taking.words(None, None), group, [taking.lock]) as parts, open(os.devnull, "wb") as nothing:
                    parts.head()
                    for part in parts.names():
                        if part in self.apart.items:
                            found.put(part, parts)
                        elif part == cadf_site.SHARED and self.rulings:
                            with tempfile.TemporaryFile() as file:
                                parts.copy(file)
                                file.flush()
                                found.put_rulings(taking.index.log, rulings_in(file) & self.rulings)
                        else:
                            parts.copy(nothing)
            yield found

    def write(self, name, parts, inputs, rulings):
        """Writes what is left of a sender, and notes how much it is."""
        with new_file(name + ".new", inputs) as file:
            join([item for items in parts.values() for item in items], file, name)
            if os.fstat(file).st_size > LARGEST:
                raise Fault("%s: the files leave more than 2^30 bytes: give fewer" % name_shown(name), REFUSED)
            os.fsync(file)
            os.rename(name + ".new", name)
        with opened([name]) as found:
            counted = COUNTED.search(cadf(["check"], found, subprocess.PIPE))
        if not counted:
            raise another_program("answer of `cadf check`")
        windows = parts.keys() - {cadf_site.SHARED}
        within, there, kept = sum(map(self.may_be_taken, windows)), len(windows & self.sizes.keys()), sum(map(self.kept.has, windows))
        self.left.append((name, int(counted[1]), within - there, kept - within, there, len(windows) - kept, rulings))
        sync(os.path.dirname(os.path.abspath(name)))

    def tell(self):
        """Says what is left, a line a file. Returns whether there is some."""
        for name, facts, *counts in self.left:
            why = [words % count for count, words in zip(counts, WHY) if count]
            what = "times" if any(counts[:4]) else "keys"
            say("%s: %d facts wait, of %s%s%s; `cadf-take --windows all SITE FILE` takes them%s" % (
                name_shown(name), facts, " and ".join(why), WHAT_NEXT, what, BUT_FORGOTTEN % self.kept.floor if counts[3] else ""))
        return bool(self.left)


def digest_of(item):
    """The digits on the last line of a replica file."""
    return os.pread(item.file.fileno(), 64, item.begin + item.length - 65).decode()


def join(items, output, where=None):
    """Writes the union of replica files to an open file, of which `where` is the name if it isn't a temporary one."""
    store = Store()
    while len(items) > AT_ONCE:
        groups = [items[at:at + AT_ONCE] for at in range(0, len(items), AT_ONCE)]
        items = []
        for group in groups:
            join(group, store.begin())
            items.append(store.item("what is left", "facts"))
    with contextlib.ExitStack() as files:
        cadf(["join"], [files.enter_context(each.opened(each.part)) for each in items], output, where=where)
