"""Keys of events that are in several windows of a site that is a folder.

An event that has a body in one window and another body in a second is whole in neither: each window alone would show its own body
and hide that another contradicts it. So these keys are found first, over all windows, and their facts are put together.
"""
import contextlib
import hashlib
import itertools
import json
import os
import resource
import tempfile
from typing import NamedTuple

from cadf_logs import utc
from cadf_site import CHANGED, DAMAGED, SHARED, TRIES, UNITS, Folder, is_folder, made_of_parts, tell_damaged
from cadf_toolkit import LAST_LINE, REFUSED, Fault, Input, cadf, in_order, most_files, opened, undigested, with_digest

AT_ONCE = 256  # files that one call is given, where as many may be open
LARGEST = 2 ** 28  # bytes of windows whose common keys are put together at once
KEY, NODES, RULINGS = b"\n[2,0,", b'\n[1,0,"E"]\n', b'\n[1,0,"U"]\n'
RULED, RULED_KEY = b'\n[2,0,"E"]\n', b"\n[3,0,"  # in a file of rulings


# ---- The files of windows

def spelled(identifier):
    """The JSON text of a key as files have it, in bytes."""
    return json.dumps(identifier, ensure_ascii=False).encode()


def contents(digest, each):
    """The lines of a site's file before its digest line, which has to be the one of these digits."""
    with each.judged(), each.reading() as file:
        lines, last = file.read(max(0, os.fstat(file.fileno()).st_size - LAST_LINE)), file.read()  # so that the lines aren't copied
    if last != b"Z %s\n" % digest.encode() or lines[-1:] not in (b"\n", b"") or hashlib.sha256(lines).hexdigest() != digest:
        raise Fault("%s: %s" % (each.name, DAMAGED), REFUSED)
    return lines


def lines_of(data, keys):
    """The lines of these keys in a window's file."""
    return [lines for key, lines in keys_in(data) if key in keys]


def keys_in(data, begin=KEY):
    """Yields the keys of a window's file in their order, as JSON texts, each with its lines."""
    place, end = data.find(begin) + 1, len(data)
    while 0 < place < end:
        after = data.find(begin, place) + 1 or end
        lines = data[place:after]
        yield lines[len(begin) - 1:lines.index(b"\n") - 1], lines
        place = after


def rulings_of(name):
    """Yields the keys of events in a file of rulings, each with its lines."""
    with open(name, "rb") as file:
        yield from rulings_in(undigested(file.read()))


def rulings_in(data):
    """Yields the keys of events on which lines of a file rule, each with its lines."""
    begin = data.find(RULINGS)
    place = data.find(RULED, begin) if begin >= 0 else begin
    end = data.find(KEY, place + 1) + 1 or len(data)
    yield from keys_in(data[place:end], RULED_KEY) if place >= 0 else ()


# ---- What is put together

class Read(NamedTuple):
    """What was read of a part: its name with the digests of its files, the file of its keys, and that of its rulings, in a list."""
    files: tuple
    keys: str
    rulings: list


def at_once():
    """How many files one call is given: `cadf` opens each once more."""
    most = most_files()
    return AT_ONCE if most == resource.RLIM_INFINITY else min(AT_ONCE, most // 2 - 32)


def keys_of(part, read):
    """Yields the keys of a part that was read, each as a line with its name."""
    with open(read.keys, "rb") as keys:
        yield from (b"%s\t%s\n" % (key[:-1], part.encode()) for key in keys)


class Files:
    """Replica files that are made in a new folder in `folder`, which is private."""

    def __init__(self, folder):
        self.folder, self.count = tempfile.mkdtemp(dir=folder), 0

    def new_name(self):
        self.count += 1
        return os.path.join(self.folder, str(self.count))

    def join(self, inputs):
        """Makes a file of what the inputs hold. Returns its name."""
        name = self.new_name()
        with open(name, "xb") as output:
            cadf(["join"], inputs, output.fileno())
        return name

    def joined(self, names):
        """Joins files in rounds. Returns the name of the one that is left, in a list that is empty for no files."""
        most = max(2, at_once())
        while len(names) > 1:
            made = []
            for start in range(0, len(names), most):
                with opened(names[start:start + most]) as inputs:
                    made.append(self.join(inputs))
            for name in names:
                os.unlink(name)
            names = made
        return names


class Windows(Files):
    """What is made of windows of a site that is a folder, as they stood at one moment, and what has to be known of all to make it.

    `common` has the keys that are in several windows, as JSON texts, `facts` lists of names of replica files that have all of
    their facts, each key in those of one list, and `rulings` that of one of all rulings of the site, if there are any. `made` has by
    part, in order, what `make` gives of the windows of a range, and of the shared part if that is wanted. It is given this
    object, a part with the digests of its files, and these as inputs. Only those are open meanwhile: a program that is started costs as much as there
    are open files. `damaged` has why parts are left out of all this.
    """

    def __init__(self, name, limits, folder, make, with_shared=True):
        super().__init__(folder)
        self.make, self.kept, self.split, self.damaged = make, {}, ([], {}), {}
        with Folder(name, self.damaged) as site:
            for _ in range(TRIES):
                index = site.site()
                self.head, self.unit = b"L %s\n" % index.log.encode(), index.unit
                read = made_of_parts([site], None, self.read)
                self.rulings = read[SHARED].rulings if SHARED in read else []
                self.common_in = self.common_of({part: each for part, each in read.items() if part != SHARED})
                self.common = frozenset().union(*self.common_in.values())
                self.wanted = {*self.within(limits, read), *([SHARED] if with_shared and SHARED in read else [])}
                found = made_of_parts([site], [part for part in read if part in self.wanted or part in self.common_in], self.of_part)
                if all(files == read[part].files for part, (files, _, _) in found.items()):
                    break
            else:
                raise Fault(CHANGED % site.shown())
        self.made = {part: made for part, (_, made, _) in found.items() if part in self.wanted}
        self.facts = list(self.common_facts([name for _, _, facts in found.values() for name in facts]))

    def read(self, part, files):
        """Reads the files of a part, unless it was read with the same ones."""
        key = part, *files
        if key not in self.kept:
            data = [contents(digest, each) for digest, each in files.items()]
            name, rulings = None, []
            if part == SHARED:
                places = [(each, each.find(RULINGS)) for each in data]
                rulings = self.joined([self.put([each[place + 1:]]) for each, place in places if place >= 0])
            else:
                name = self.new_name()
                with open(name, "xb") as output:
                    output.writelines({name + b"\n" for each in data for name, _ in keys_in(each)})
            self.kept[key] = Read(key, name, rulings)
        return self.kept[key]

    def of_part(self, part, files):
        """What is made of a part, and the file of its facts of common keys, unless that was made of the same ones."""
        common = self.common_in.get(part, frozenset())
        key = part, *files
        known = key, tuple(self.rulings), common
        if known not in self.kept:
            facts = [self.put([NODES[1:], *lines]) for lines in (lines_of(contents(*each), common) for each in files.items() if common) if lines]
            self.kept[known] = key, self.make(self, key, list(files.values())) if part in self.wanted else None, facts
        return self.kept[known]

    def ruled(self, window):
        """The name of a file of the rulings of the keys of a window, which alone settle what it shows, in a list. It is named with its files."""
        if window not in self.kept:
            return []  # it has changed since it was read, so what is made of it isn't used
        with open(self.kept[window].keys, "rb") as keys:
            return self.ruled_of(key[:-1] for key in keys)

    def ruled_of(self, keys):
        """The name of a file of the rulings of these keys of events, in a list that is empty if there are none."""
        if self.rulings != self.split[0]:
            self.split = self.rulings, {key: lines for name in self.rulings for key, lines in rulings_of(name)}
        lines = [self.split[1][key] for key in sorted(set(keys) & self.split[1].keys(), key=json.loads)] if self.split[1] else []
        return [self.put([RULINGS[1:], RULED[1:], *lines])] if lines else []

    def within(self, limits, parts):
        """The windows among the parts that have an instant of the range, in order of time."""
        length = UNITS[self.unit]
        first = "" if limits.first is None else utc(limits.first)[:length]
        last = "~" if limits.until is None else utc(limits.until - 1)[:length]
        return [part for part in parts if part != SHARED and first <= part <= last]

    def tell_damaged(self, limits):
        """Says which parts were left out. Returns the status: rulings and the windows of the range were asked for."""
        return tell_damaged(self.damaged, [SHARED, *self.within(limits, self.damaged)])

    def log(self):
        """The log's name."""
        return json.loads(self.head[len("L "):])

    def put(self, lines):
        """Writes a replica file of these lines. Returns its name."""
        data, name = b"CADF-REPLICA 2\n" + self.head + b"".join(lines), self.new_name()
        with open(name, "xb") as output:
            output.write(with_digest(data))
        return name

    def put_layers(self, found):
        """Yields the names of replica files of lists of lines by key, as JSON text: as few files as have each key once."""
        for layer in range(max(map(len, found.values()), default=0)):
            keys = sorted((key for key, lines in found.items() if len(lines) > layer), key=json.loads)
            yield self.put([NODES[1:], *(found[key][layer] for key in keys)])

    def common_of(self, read):
        """The keys that are in several windows, by window."""
        found = {part.encode(): set() for part in read}
        lines = in_order(itertools.chain.from_iterable(keys_of(*item) for item in read.items()), self.folder)
        for key, group in itertools.groupby(lines, lambda line: line.rpartition(b"\t")[0]):
            parts = [line[len(key) + 1:-1] for line in group]
            if len(parts) > 1:
                for part in parts:
                    found[part].add(key)
        return {part.decode(): frozenset(keys) for part, keys in found.items() if keys}

    def common_facts(self, names):
        """Yields lists of names of files that have the facts of the common keys, each key in those of one list, of those of each window."""
        count = -(-sum(map(os.path.getsize, names)) // LARGEST)
        if count == 1:
            yield self.few(names)
            return
        group = {key: place % count for place, key in enumerate(sorted(self.common))}
        for number in range(count):
            yield self.few(list(self.of_group(names, group, number)))

    def few(self, names):
        """The names of files that hold what these do, of which one call is given all."""
        return names if len(names) < at_once() else self.joined(names)

    def of_group(self, names, group, number):
        """Yields files of what these files hold of the keys of one group."""
        for name in names:
            with open(name, "rb") as file:
                lines = [lines for key, lines in keys_in(undigested(file.read())) if group[key] == number]
            if lines:
                yield self.put([NODES[1:], *lines])


@contextlib.contextmanager
def opened_within(names, limits, folder, folders):
    """Opens files for a call, and of a site that is a folder one of what a range needs of it. Its Windows are added to `folders`.

    This is the shared part, the windows of the range, and all facts of the keys that are in several windows.
    """
    with contextlib.ExitStack() as files:
        found = []
        for name in names:
            if is_folder(name):
                windows = Windows(name, limits, folder, lambda windows, _, inputs: windows.join(inputs))
                folders.append(windows)
                together, = windows.joined([windows.put([]), *windows.made.values(), *itertools.chain(*windows.facts)])
                found.append(Input(name, files.enter_context(opened([together]))[0].file))
            else:
                found += files.enter_context(opened([name]))
        yield found
