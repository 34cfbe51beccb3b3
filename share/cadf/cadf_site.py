"""Sites that are folders of windows: reading one as it stood at one moment, and taking files into one.

docs/FORMATS.md has the form of a site folder. Its file `site` names the files that count, and is replaced by a rename: that is
the moment of a take. A reader needs no lock. A tool imports this as it imports cadf_toolkit, and uses

  is_folder(name)            whether the name is of a folder
  Folder(name).index()       what its file `site` says: an Index, or None if there is none
  opened_parts(folder, ..)   its files as inputs, all or those of some parts, as it stood at one moment
  made_of_parts(folders, ..) what is made of the files of each part, as each folder stood at one moment
  take(..), settle(..)       take inputs into a folder, and join the files of each window
"""
import bisect
import collections
import contextlib
import errno
import hashlib
import itertools
import json
import os
import re
import stat
import subprocess
import tempfile

from cadf_children import made_by_children
import cadf_erased
import cadf_gone
from cadf_times import SHARED, UNITS, WINDOW, Bounds, window_of
from cadf_toolkit import (CADF, DIFFERS, DONE, FAILED, IN_THE_WAY, LARGEST, LAST, MEMORY, NOT_ITS_FAULT, REFUSED, Fault, Input, Refusal, allow_inputs,
                          another_program, as_input, cadf, check_end, check_lock, grouped, last_digest, log_name, name_shown, new_lock, open_descriptor, opened_file,
                          other_log, say, started_cadf, sync, wait_for_lock, whole_number, with_digest)

ALL = 10 ** 9 - 1  # windows that a take may begin if a person allows all
INDEX, LOCK, WORKING, ROOM = "site", ".lock", ".new", ".room"
LEAST_ROOM = 2 ** 20  # bytes that are kept for a forgetting on a full disk
HEAD = re.compile(rb"CADF-SITE [12]\nL (.*)\nB (month|day|hour)\n(?:G ([0-9a-f]{64})\n(?:E ([0-9a-f]{64})\n)?)?")
OTHER_VERSION = re.compile(rb"CADF-SITE (?!1\n|2\n)[0-9]{1,6}\n")
PART = r"(?:%s|%s)" % (SHARED, WINDOW)
DIGITS = r"[0-9a-f]{64}"
SECOND = b"CADF-REPLICA 2\n"  # as a file of a window begins: in this format facts have one file
ENTRY = re.compile(("F (%s) %s\n" % (PART, DIGITS)).encode())
NAME_LINE = re.compile(("P (%s)\n" % PART).encode())  # of a split file
WINDOW_FILE = re.compile(r"%s\.%s\.cadf" % (PART, DIGITS))
NOTHING = 3  # lines of a replica file without facts
LONGEST_INDEX = 2 ** 28  # bytes
TRIES = 100  # of a reader, before takes that never end are a fault
FEWER_FILES = "raise that (ulimit -n), or settle the site"
CHANGED = "%%s: it changed at each of %d looks: try again" % TRIES
MOST_NEW = 400  # windows that a take begins, unless more are allowed
TOO_MANY_NEW = "the files make more than %d new windows: if that is meant, allow it by --windows N; --rest FILE has all else taken"
OUTSIDE = "the files have events of the window %s, which --not-before or --not-after leaves out: --rest FILE has all else taken"
FORGOTTEN = "the files have events of the window %s, and the site keeps from %s on: no take brings them: --rest FILE has all else taken"
MOST_NAMED = 20  # strangers, or parts that are left out
PIECE = 2 ** 16  # bytes of a line that are held at once
MOST_AT_ONCE = 2 ** 28  # bytes of inputs that are split at once, if there are several, so that a part's file doesn't grow with their number
MOST_SEEN = 2 ** 20  # bytes of a window's smaller files, in which a take looks for what it brings
SEVERAL = 7  # files of a size that are joined into one
SMALLEST = 2 ** 12  # bytes below which all files count as of one size
MOST_JOINED = 2 ** 24  # bytes that a take joins; more is left to --settle
MOST_SETTLED = 2 ** 28  # bytes that are joined before `site` is replaced, so that a settling that is killed goes on from there
NO_SITE = "no site in it: `cadf-take --by day SITE/ FILE..` makes one"
DAMAGED = "the site is damaged: `cadf-sync --repair SITE/ HOST:SITE` mends it, or restore it as the guide says under `A damaged site`"
LOST = "the site is damaged: restore it as the guide says under `A damaged site`"  # which names its windows no more
LATER = "a later release wrote it: have that one, or a newer one, here"
KEEPS = "%s keeps from %s on: what was older went"
NO_FILE = "not a regular file: "
TOO_LONG_LIST = "%s: its list of what went or was erased would have more than %d bytes, and no tool would read it: nothing went: name fewer events, without those of most facts"
OTHER_CONTENT = "it holds something else than its name says: " + DAMAGED


def file_name(part, digest):
    return "%s.%s.cadf" % (part, digest)


def entry_line(part, digest):
    return ("F %s %s\n" % (part, digest)).encode()


def order(part):
    """The place of a part: `shared` first, then windows in order of time."""
    return part != SHARED, part


def other_unit(unit, wanted):
    """Why what has windows of that unit is refused."""
    return "other unit: its windows are one %s each, and not one %s" % (unit, wanted)


class Index:
    """What the file `site` says: a log, by the canonical text of its name, a unit, files, by part and digest, and digits: of the file of what went and
    of the list of what was erased, or None.

    It is held by its lines, in the order of their bytes, in which `shared` is last. A take needs few of them.
    """

    def __init__(self, log, unit, lines=(), gone=None, erased=None):
        self.log, self.unit, self.lines, self.gone, self.erased = log, unit, sorted(lines), gone, erased

    @classmethod
    def read(cls, data):
        """Reads the file. None if it is no such file."""
        head, cut = HEAD.match(data), data.rfind(b"Z ")
        if not head or data[cut:] != b"Z %s\n" % hashlib.sha256(data[:cut]).hexdigest().encode():
            return None
        try:
            log_name(head[1].decode())
        except ValueError:
            return None
        index = cls(head[1].decode(), head[2].decode(), data[head.end():cut].splitlines(True), *(digits and digits.decode() for digits in head.groups()[2:]))
        return index if index.is_well_formed() and b"".join(index.bytes()) == data else None

    def is_well_formed(self):
        """Whether the lines are different ones, and of windows of the unit."""
        width = UNITS[self.unit]
        return all(one < other for one, other in zip(self.lines, self.lines[1:])) and all(
            found and len(found[1]) in (width, len(SHARED)) for found in map(ENTRY.fullmatch, self.lines))

    def name(self):
        """The log's name."""
        return json.loads(self.log)

    def bytes(self):
        """Yields the lines of the file."""
        first = bisect.bisect_left(self.lines, b"F " + SHARED.encode())
        hash_all = hashlib.sha256()
        lists = "".join("%s %s\n" % each for each in (("G", self.gone), ("E", self.erased)) if each[1])
        head = [("CADF-SITE %d\nL %s\nB %s\n%s" % (2 if lists else 1, self.log, self.unit, lists)).encode()]
        for line in itertools.chain(head, itertools.islice(self.lines, first, None), itertools.islice(self.lines, first)):
            hash_all.update(line)
            yield line
        yield b"Z %s\n" % hash_all.hexdigest().encode()

    def parts(self):
        """The digests of the files of each part, by its name, in the order of the file."""
        found = {SHARED: []}
        for line in self.lines:
            part, digest = line[2:-1].decode().split(" ")
            found.setdefault(part, []).append(digest)
        return {part: digests for part, digests in found.items() if digests}

    def entries(self):
        """The part and the digest of each file, in the order of the file."""
        return [(part, digest) for part, digests in self.parts().items() for digest in digests]

    def digests(self, part):
        """The digests of the files of a part."""
        begin = ("F %s " % part).encode()
        first, end = (bisect.bisect_left(self.lines, each) for each in (begin, begin + b"g"))
        return [line[len(begin):-1].decode() for line in self.lines[first:end]]

    def has(self, name):
        """Whether a file of that name is one of the site."""
        if not WINDOW_FILE.fullmatch(name):
            return name in self.lists()
        line = entry_line(*name[:-len(".cadf")].split("."))
        place = bisect.bisect_left(self.lines, line)
        return self.lines[place:place + 1] == [line]

    def lists(self):
        """The names of the file of what went, and of the list of what was erased, if there are any."""
        return [module.file_name(digits) for module, digits in ((cadf_gone, self.gone), (cadf_erased, self.erased)) if digits]

    def names(self):
        """The names of the files."""
        return [*(file_name(*entry) for entry in self.entries()), *self.lists()]

    def with_parts(self, parts):
        """The index that has these digests for these parts."""
        others = {part.encode() for part in parts}
        lines = [line for line in self.lines if line.split(b" ", 2)[1] not in others]
        lines += [entry_line(part, digest) for part, digests in parts.items() for digest in digests]
        return Index(self.log, self.unit, lines, self.gone, self.erased)


def state_of(found):
    """What is another one of a file once it is written to, by what the system says of it."""
    return found.st_dev, found.st_ino, found.st_size, found.st_mtime_ns, found.st_ctime_ns


class Folder:
    """A folder that is open: whatever is renamed around it, names are looked up in it.

    With a dictionary `damaged` it is read so far as it can be: a part of which a file is damaged is noted there, and left out.
    """

    def __init__(self, name, damaged=None):
        self.name, self.read, self.files = name.rstrip("/") or "/", (None, None), contextlib.ExitStack()
        self.lists = {}  # of the file of what went, and of the list of what was erased, the digits of the one that was read last, and what it says
        self.damaged = damaged  # why parts are left out, by part; None if all of them are needed
        try:
            self.descriptor = os.open(name, os.O_RDONLY | os.O_DIRECTORY)
            self.found = os.fstat(self.descriptor)
        except OSError as fault:
            said = fault.strerror
            if fault.errno == errno.ENOTDIR:
                said += ": `cadf-take --by day NEW/ %s` makes a folder of a site's file" % name_shown(self.name)
            elif fault.errno == errno.ENOENT:
                said += ": is that its name? `cadf-take --by day SITE/ FILE..` makes a new site"
            raise Fault("%s: %s" % (name_shown(name), said)) from None

    def __enter__(self):
        return self

    def __exit__(self, *_):
        self.files.close()
        os.close(self.descriptor)

    def give(self, file, mode):
        """Gives a new file the folder's owner and group, as far as the caller may and its user namespace has them, and this mode."""
        for user, group in ((self.found.st_uid, -1), (-1, self.found.st_gid)):
            with contextlib.suppress(OSError):
                os.fchown(file, user, group)
        os.fchmod(file, mode)

    def path(self, name):
        return os.path.join(self.name, name)

    def shown(self, name=""):
        return name_shown(self.path(name) if name else self.name)

    @contextlib.contextmanager
    def naming(self):
        """A context in which an OSError that has a name in the folder, or none, is given the path of it."""
        try:
            yield
        except OSError as fault:
            if fault.filename != CADF:
                fault.filename = self.path(fault.filename) if isinstance(fault.filename, str) else self.name
            raise

    def open(self, name, flags, mode=0o600):
        return os.open(name, flags | os.O_NOFOLLOW, mode, dir_fd=self.descriptor)

    @contextlib.contextmanager
    def reading(self, name):
        """A context in which what the system refuses of a file is told of its path, unless it isn't there."""
        try:
            yield
        except FileNotFoundError:
            raise
        except OSError as fault:
            if fault.errno in NOT_ITS_FAULT:
                raise
            is_other = fault.errno in (errno.ELOOP, errno.EINVAL, errno.EISDIR)
            advice = LOST if name == INDEX else cadf_gone.LOST if is_list(name) else DAMAGED
            said = NO_FILE + advice if is_other else fault.strerror
            raise Fault("%s: %s" % (self.shown(name), said)) from None

    def input(self, name):
        """A file of the folder as an input. Raises FileNotFoundError if it isn't there."""
        with self.reading(name):
            return Input(self.path(name), opened_file(name, os.O_NOFOLLOW, self.descriptor), damaged=DAMAGED)

    def index(self):
        """What `site` says, or None if it isn't there. It is read once, until another file has its name or it is written to."""
        if not self.is_as_read():
            try:
                file = self.input(INDEX).file
            except FileNotFoundError:
                return None
            with contextlib.ExitStack() as files, self.reading(INDEX):
                files.enter_context(file)
                state = state_of(os.fstat(file.fileno()))
                data = file.read(LONGEST_INDEX)
                if OTHER_VERSION.match(data):
                    raise Fault("%s: %s" % (self.shown(INDEX), LATER), REFUSED)
                found = Index.read(data)
                self.read = state, found and found.with_parts(dict.fromkeys(self.damaged or (), ()))
                self.files.close()  # the one read stays open, so that no other file gets its number
                self.files = files.pop_all()
        if self.read[1] is None:
            raise Fault("%s: not the file of a site: %s" % (self.shown(INDEX), LOST), REFUSED)
        return self.read[1]

    def is_as_read(self):
        """Whether `site` is the file that was read last, and wasn't written to."""
        with contextlib.suppress(OSError):
            return state_of(os.stat(INDEX, dir_fd=self.descriptor, follow_symlinks=False)) == self.read[0]
        return False

    def check(self, part):
        """Raises why a part is left out, if it is."""
        if part in (self.damaged or ()):
            raise self.damaged[part]

    def is_of(self, part, fault):
        """Whether a fault is of a file of a part, which it names, and so says nothing of other parts."""
        return fault.status != MEMORY and str(fault).startswith(self.shown(part + ".").rstrip('"'))

    @contextlib.contextmanager
    def leaving_out(self, part):
        """A context in which a part of which a file is found to be damaged is left out, if not all parts are needed."""
        try:
            yield
        except Fault as fault:
            if self.damaged is None or not self.is_of(part, fault):
                raise
            self.damaged[part] = fault
            self.read = self.read[0], self.read[1].with_parts({part: ()})

    def is_site(self):
        """Whether a `site` is there."""
        try:
            os.stat(INDEX, dir_fd=self.descriptor, follow_symlinks=False)
        except FileNotFoundError:
            return False
        return True

    def site(self):
        """What `site` says. Raises that it isn't there."""
        index = self.index()
        if index is None:
            raise self.no_site()
        return index

    def gone(self):
        """What went of it, and what it keeps, by the file that `site` names. Raises that this can't be read: then nobody knows what is to be taken."""
        return self.listed(cadf_gone, lambda index: index.gone, lambda data, index: cadf_gone.Gone.read(data, index.log, index.unit)) \
            or cadf_gone.Gone(self.site().log, self.site().unit)

    def erased(self):
        """What was erased of it, by the list that `site` names. Raises that this can't be read, as of what went."""
        return self.listed(cadf_erased, lambda index: index.erased, lambda data, index: cadf_erased.Erased.read(data, index.log)) \
            or cadf_erased.Erased(self.site().log)

    def listed(self, module, digits_of, read):
        """What such a file says that `site` names by its digits. None: it names none. Raises that this can't be read."""
        for _ in range(TRIES):
            index = self.site()
            digits, known = digits_of(index), self.lists.get(module)
            if digits is None or known and known[0] == digits:
                return digits and known[1]
            name = module.file_name(digits)
            try:
                with self.input(name).file as file:
                    found = read(file.read(LONGEST_INDEX), index)
            except FileNotFoundError:
                if digits_of(self.site()) != digits:
                    continue
                raise Fault("%s: not there: %s" % (self.shown(name), cadf_gone.LOST), REFUSED) from None
            if found is None or found.digits() != digits:
                raise Fault("%s: damaged, or of a later release: %s" % (self.shown(name), cadf_gone.LOST), REFUSED)
            self.lists[module] = digits, found
            return found
        raise Fault(CHANGED % self.shown())

    def no_site(self):
        """The fault that `site` isn't there. It was lost if files of windows are: a first take, which may be at work, writes it before them."""
        if any(map(WINDOW_FILE.fullmatch, os.listdir(self.descriptor))) and not self.is_site():
            return Fault("%s: it is not there, and files of windows are: %s" % (self.shown(INDEX), LOST), REFUSED)
        return Fault("%s: %s" % (self.shown(), NO_SITE), REFUSED)


def is_list(name):
    """Whether a file of that name may be one of what went, or of what was erased."""
    return any(module.FILE.fullmatch(name) for module in (cadf_gone, cadf_erased))


def number_of_windows(text):
    """Reads how many windows may be begun: a number, or `all`."""
    return ALL if text == "all" else whole_number(0, ALL)(text)


# ---- Reading

def is_folder(name):
    return name.endswith("/") or os.path.isdir(name)


@contextlib.contextmanager
def opened_parts(folder, parts):
    """Opens the files that the folder's `site` names at one moment, or those of some parts, which are different ones.

    Yields what it says, and the inputs by their entries. Takes that come meanwhile change nothing of it.
    """
    with contextlib.ExitStack() as files:
        for _ in range(TRIES):
            index, inputs, missing = folder.site(), {}, []
            entries = index.entries() if parts is None else [(part, digest) for part in parts for digest in index.digests(part)]
            allow_inputs(len(entries), FEWER_FILES)
            for entry in entries:
                with folder.leaving_out(entry[0]):
                    try:
                        inputs[entry] = folder.input(file_name(*entry))
                        files.enter_context(inputs[entry].file)
                    except FileNotFoundError:
                        missing.append(entry)
            now = folder.site()
            if now is index or now.lines == index.lines:
                if not missing:
                    yield index, inputs
                    return
                for entry in missing:
                    with folder.leaving_out(entry[0]):
                        raise Fault("%s: not there: %s" % (folder.shown(file_name(*entry)), DAMAGED))
            files.close()
    raise Fault(CHANGED % folder.shown())


def made_or_left_out(folders, parts, make, jobs):
    """Yields each of some parts with what is made of it, by so many children of this process; with None, if it is left out of one of the folders."""
    with contextlib.closing(made_by_children(make, parts, jobs)) as results:
        for part, found in zip(parts, results):
            kept = None
            with contextlib.ExitStack() as steps:
                for folder in folders:
                    steps.enter_context(folder.leaving_out(part))
                if isinstance(found, Exception):
                    raise found
                kept = found
            yield part, kept


def made_of_parts(folders, parts, make, jobs=1):
    """What is made of the files of each part of some folders, or of some parts, as each stood at one moment; by part.

    `make` is given a part and, of each folder, its files as inputs, by digest. Those of one part are open at a time: a program
    that is started costs as much as there are open files. If a part changes meanwhile, it is made again, and no other.
    So many children of this process share the work.
    """
    made = {}

    def made_of(part):
        with contextlib.ExitStack() as files:
            now, inputs = zip(*(files.enter_context(opened_parts(folder, [part])) for folder in folders))
            for folder in folders:
                folder.check(part)
            return files_of(part, now), make(part, *({digest: each for (_, digest), each in found.items()} for found in inputs))

    for _ in range(TRIES):
        indexes = [folder.site() for folder in folders]
        names = dict.fromkeys(itertools.chain(*(index.parts() for index in indexes)) if parts is None else parts)
        keys = {part: files_of(part, indexes) for part in names if not any(part in (folder.damaged or ()) for folder in folders)}
        made.update(found for _, found in made_or_left_out(folders, [part for part, key in keys.items() if key not in made], made_of, jobs) if found)
        if made.keys() >= set(keys.values()):
            return {part: made[key] for part, key in keys.items()}
    raise Fault(CHANGED % ", ".join(folder.shown() for folder in folders))


def names_shown(parts):
    """The names of parts in order; of many the first ones, and how many there are."""
    names = sorted(parts, key=order)
    return ", ".join(names[:MOST_NAMED]) + (" and others, %d in all" % len(names) if len(names) > MOST_NAMED else "")


def tell_damaged(damaged, asked):
    """Says which parts were left out. Returns the status, by those that were asked for."""
    for part in sorted(damaged, key=order)[:MOST_NAMED]:
        say("left out %s: %s" % (part, damaged[part]))
    if len(damaged) > MOST_NAMED:
        say("left out %s" % names_shown(damaged))
    return REFUSED if any(part in damaged for part in asked) else DIFFERS if damaged else DONE


def floor_of(name, first=None):
    """What is said of a folder that forgot some of what is asked for, from an instant on, or that this can't be read, and the status; no words if it forgot nothing."""
    try:
        with Folder(name) as folder:
            unit, floor = folder.site().unit, folder.gone().kept.floor
    except Fault as fault:
        return str(fault), fault.status
    is_asked = floor is not None and (first is None or window_of(first, unit) < floor)
    return KEEPS % (name_shown(name), floor) if is_asked else "", DONE


def tell_floor(*words):
    """Says it. Returns the status."""
    said, status = floor_of(*words)
    if said:
        say(said)
    return status


def files_of(part, indexes):
    """A part, with the digests of its files in each folder."""
    return (part, *(tuple(index.digests(part)) for index in indexes))


def parts_in(unit, log, inputs):
    """The parts of which the inputs together hold facts, each with the digest of these."""
    with split(["--by", unit, "--log=" + log], inputs) as parts, open(os.devnull, "wb") as nothing:
        parts.head()
        return {part: parts.copy(nothing) for part in parts.names()}


def check_part(index, part, files):
    """The digest of what the files of a part hold together, by their digests. Raises why one is refused, or that it holds something else than its name says."""
    found = parts_in(index.unit, index.name(), list(files.values()))
    if list(found) != [part] or any((each.first(len(SECOND)), last_digest(each.file)) != (SECOND, digest) for digest, each in files.items()):
        for digest, each in files.items():
            check_window(index, (part, digest), each)
    return found[part]


def check_window(index, entry, file):
    """Raises why a file of a folder is refused, or that it holds something else than its name says."""
    if list(parts_in(index.unit, index.name(), [file]).items()) != [entry]:
        raise Fault("%s: %s" % (file.name, OTHER_CONTENT), REFUSED)


def fault_of(folder, index, entry):
    """Why a file that a folder's `site` names is refused, or None."""
    try:
        file = folder.input(file_name(*entry))
    except FileNotFoundError:
        return Fault("%s: not there: %s" % (folder.shown(file_name(*entry)), DAMAGED))
    except Fault as fault:
        return fault
    with file.file:
        try:
            return check_window(index, entry, file)
        except Fault as fault:
            return fault


def judged(folder):
    """What a folder's `site` says, and why files that it names are refused, by part and digest, as it stood at one moment."""
    faults = {}
    for _ in range(TRIES):
        index = folder.site()
        for entry in index.entries():
            if entry not in faults:
                faults[entry] = fault_of(folder, index, entry)
        if folder.site().lines == index.lines:
            return index, {entry: faults[entry] for entry in index.entries() if faults[entry]}
    raise Fault(CHANGED % folder.shown())


def check_labels(unit, log, labels, inputs):
    """Raises that an input holds facts of another part than its own one of these.

    All are split at once. What then has the digest of an input, which is the only one of that part, holds just what that does.
    """
    found, own = parts_in(unit, log, inputs), collections.defaultdict(list)
    for label, each in zip(labels, inputs):
        own[label].append(each)
    for label, those in own.items():
        if len(those) == 1 and label in found and found[label] == last_digest(those[0].file):
            continue
        others = (found if len(own) == 1 else parts_in(unit, log, those)).keys() - {label}
        if others:
            names, advice = ", ".join(sorted({each.name for each in those})), those[0].advice
            raise Fault("%s: it has facts of %s%s" % (names, ", ".join(sorted(others)[:MOST_NAMED]), ": " + advice if advice else ""), REFUSED)


def empty_file(log):
    """The bytes of a replica file of the log, by its canonical text, that has no facts."""
    return with_digest(("CADF-REPLICA 2\nL %s\n" % log).encode())


def without_facts(log, name):
    """Such a file as an input of that name."""
    return as_input(empty_file(log), name)


def nothing_of(log):
    """The digits of its last line."""
    return empty_file(log)[-65:-1].decode()


# ---- Taking

class NoSplit(Exception):
    """What was to be a split file is none."""


class Parts:
    """Reads a split file, and so the files of its parts, one after another."""

    def __init__(self, stream):
        self.stream, self.hash = stream, hashlib.sha256()

    def line(self, pattern):
        """What the pattern finds in the next line, which is noted for the digest at the end."""
        line = self.stream.readline()
        found = re.fullmatch(pattern, line)
        if not found:
            raise NoSplit
        self.hash.update(line)
        return found[1].decode()

    def head(self):
        """The canonical text of the log's name, and the unit."""
        self.line(rb"(CADF-SPLIT 1)\n")
        return self.line(rb"L (.*)\n"), self.line(rb"B (.*)\n")

    def names(self):
        """Yields the name of each part; its file is read by `copy` before the next."""
        for line in self.stream:
            if line.startswith(b"Z "):
                break
            found = NAME_LINE.fullmatch(line)
            if not found:
                raise NoSplit
            self.hash.update(line)
            yield found[1].decode()
        else:
            raise NoSplit
        if line != b"Z %s\n" % self.hash.hexdigest().encode() or self.stream.read(1):
            raise NoSplit

    def copy(self, output):
        """Writes the part's file, a piece of a line at a time. Returns the digest on its last line."""
        for piece in iter(lambda: self.stream.readline(PIECE), b""):
            output.write(piece)
            found = LAST.fullmatch(piece)  # no other line ends so
            if found:
                self.hash.update(piece)
                return found[1].decode()
        raise NoSplit


@contextlib.contextmanager
def split(words, inputs, keep=()):
    """The split file that cadf writes of the inputs. At the end of the context it was read whole."""
    with started_cadf(["split", *words], inputs, subprocess.PIPE, keep) as child:
        try:
            yield Parts(child.stdout)
            is_whole = True
        except NoSplit:
            is_whole = False
        check_end(child, child.stderr.read(), inputs)
    if not is_whole:
        raise another_program("split file")


def size_class(size):
    """How often a file's size can be divided by seven; files of one class are joined."""
    count = 0
    while size >= SMALLEST:
        size, count = size // SEVERAL, count + 1
    return count


def to_join(sizes, most):
    """The files of a window, by digest and size, that are to be joined now: seven of one class, the smallest class first."""
    classes = {}
    for digest, size in sorted(sizes.items(), key=lambda item: (item[1], item[0])):
        classes.setdefault(size_class(size), []).append(digest)
    for _, digests in sorted(classes.items()):
        chosen = digests[:SEVERAL]
        if len(chosen) == SEVERAL and sum(sizes[digest] for digest in chosen) <= most:
            return chosen
    return None


class Taking:
    """A folder that is locked for a take: what its `site` says, and the files of each part that will be others."""

    def __init__(self, folder, wait):
        self.folder = folder
        self.lock = self.opened_lock()
        try:
            wait_for_lock(self.lock, folder.path(LOCK), wait)
            self.check_lock()
            self.index = folder.index()
            self.kept = folder.gone().kept if self.index else cadf_gone.ALL
            self.erased = folder.erased() if self.index else cadf_erased.Erased(None)
        except BaseException:
            os.close(self.lock)
            raise
        self.changed, self.made = {}, set()

    def __enter__(self):
        return self

    def __exit__(self, *_):
        os.close(self.lock)

    def opened_lock(self):
        """The lock's file, which is made if it isn't there, for a group if that may write to the folder."""
        mode = 0o660 if self.folder.found.st_mode & stat.S_IWGRP else 0o600
        try:
            return new_lock(LOCK, lambda file: self.folder.give(file, mode), self.folder.descriptor)
        except FileExistsError:
            return self.folder.open(LOCK, os.O_RDWR | os.O_NONBLOCK)

    def check_lock(self):
        """Raises that the lock was removed: another taker may be at the folder."""
        check_lock(self.lock, self.folder.path(LOCK), LOCK, self.folder.descriptor)

    def digests(self, part):
        """The digests of the files of a part."""
        return self.changed[part] if part in self.changed else self.index.digests(part)

    # What else is in the folder

    def stale(self):
        """The names of what a taker left and `site` doesn't name, and the names of what is no taker's."""
        left, strangers = [], []
        with os.scandir(self.folder.descriptor) as files:
            for file in files:
                if WINDOW_FILE.fullmatch(file.name) or is_list(file.name):
                    if self.index is None or not self.index.has(file.name):
                        left.append(file.name)
                elif file.name == WORKING:
                    left.append(file.name)
                elif not file.name.startswith(".") and file.name != INDEX:
                    strangers.append(file.name)
        return left, strangers

    def begin(self):
        """Removes what earlier takes left: files that were joined since, or of a take that was killed. Names strangers.

        Files of windows without a `site` are no take's.
        """
        left, strangers = self.stale()
        if self.index is None and set(left) - {WORKING}:
            raise self.folder.no_site()
        if left:
            os.fsync(self.folder.descriptor)  # a call that was killed may have put the `site` there that no longer names them
        strangers += [name for name in left if not self.is_removed(name)]
        if WORKING in strangers:
            raise Fault("%s: %s" % (self.folder.shown(WORKING), IN_THE_WAY))
        for name in sorted(strangers)[:MOST_NAMED]:
            say("%s: no file of the site: it is passed over" % self.folder.shown(name))
        if len(strangers) > MOST_NAMED:
            say("%s: %d more are no files of the site" % (self.folder.shown(), len(strangers) - MOST_NAMED))

    def is_removed(self, name):
        """Removes a name, if it is there. False if it is a folder's."""
        try:
            with contextlib.suppress(FileNotFoundError):
                os.unlink(name, dir_fd=self.folder.descriptor)
        except (IsADirectoryError, PermissionError):
            return False
        return True

    @contextlib.contextmanager
    def undone(self):
        """Leaves nothing of a take that is refused or fails: removes what it made, unless a `site` names it that a power cut may leave."""
        is_first = self.index is None
        try:
            yield
        except BaseException:
            with contextlib.suppress(OSError, Fault):
                now = self.folder.index()
                for name in self.made - {INDEX}:
                    if not any(index.has(name) for index in (self.index, now) if index):
                        self.is_removed(name)
                self.is_removed(WORKING)
                if is_first and now and not now.lines:
                    os.unlink(INDEX, dir_fd=self.folder.descriptor)
            raise

    # Files

    @contextlib.contextmanager
    def new_file(self):
        """A new file, which has no name that counts yet."""
        file = self.folder.open(WORKING, os.O_WRONLY | os.O_CREAT | os.O_EXCL)
        with os.fdopen(file, "wb") as output:
            yield output
            output.flush()
            self.folder.give(file, 0o666 & self.folder.found.st_mode)

    def name(self, name):
        """Gives the new file its name, once it is on the disk."""
        with open_descriptor(self.folder.open(WORKING, os.O_RDONLY)) as file:
            os.fsync(file)
        self.made.add(name)
        os.rename(WORKING, name, src_dir_fd=self.folder.descriptor, dst_dir_fd=self.folder.descriptor)

    def size(self, name):
        """The bytes of a file of the folder. Fault: it isn't there, or it is a link or the like."""
        try:
            found = os.stat(name, dir_fd=self.folder.descriptor, follow_symlinks=False)
        except FileNotFoundError:
            raise Fault("%s: not there: %s" % (self.folder.shown(name), DAMAGED)) from None
        if not stat.S_ISREG(found.st_mode):
            raise Fault("%s: %s%s" % (self.folder.shown(name), NO_FILE, DAMAGED))
        return found.st_size

    def sizes(self, part):
        """The sizes of a part's files, by digest."""
        return {digest: self.size(file_name(part, digest)) for digest in self.digests(part)}

    @contextlib.contextmanager
    def files(self, part, digests):
        """Opens files of a part, as inputs."""
        with contextlib.ExitStack() as files:
            inputs = [self.folder.input(file_name(part, digest)) for digest in digests]
            for each in inputs:
                files.enter_context(each.file)
            yield inputs

    def cadf(self, words, inputs, output):
        """Runs cadf on files of the site. A refusal of one is a fault of the site, and of no file that is taken."""
        try:
            return cadf(words, inputs, output, [self.lock], self.folder.name)
        except Refusal as fault:
            raise Fault(str(fault), FAILED if fault.status == REFUSED else fault.status) from None

    # The steps of a take

    def left_of(self, inputs):
        """What is left of inputs without what was erased, and how many facts are left out, as cadf_erased.left_of has it."""
        return cadf_erased.left_of(self.erased, inputs, [self.lock])

    def words(self, unit, log):
        """The words of a split, by the site's unit and log, or these ones, if there is no site yet."""
        unit, log = (self.index.unit, self.index.name()) if self.index else (unit, log)
        return ["--by", unit, *([] if log is None else ["--log=" + log])]

    def add(self, words, inputs, limits):
        """Writes each part of what the inputs hold as a new file, unless the part's files hold it already, or the limits keep it apart."""
        with split(words, inputs, [self.lock]) as parts:
            log, unit = parts.head()
            if self.index is None:
                self.put(Index(log, unit))
            for part in parts.names():
                if part == SHARED or not limits.keeps(part, parts, bool(self.digests(part))):
                    with self.new_file() as output:
                        digest = parts.copy(output)
                    if part == SHARED and limits.welcome:
                        digest = self.without_unwelcome(limits, inputs, digest)
                    self.keep(part, digest)

    def without_unwelcome(self, limits, inputs, digest):
        """Takes new rulings that aren't welcome out of the new file, and has the limits keep them. Returns its digest."""
        with self.folder.input(WORKING).file as new, self.files(SHARED, self.digests(SHARED)) as own:
            pieces = limits.without_unwelcome(new, [each.file for each in own], self.index.name(), inputs, self.folder.name)
            if pieces is None:
                return digest
            self.is_removed(WORKING)
            with self.new_file() as output:
                output.writelines(pieces)
        with self.folder.input(WORKING).file as new:
            return last_digest(new)

    def keep(self, part, digest):
        """Keeps the new file as one of a part's, unless these hold it already. Each of them has to be there."""
        size = self.size(WORKING)
        if digest == nothing_of(self.index.log):
            os.unlink(WORKING, dir_fd=self.folder.descriptor)  # what there was of rulings wasn't welcome
            return
        if size > LARGEST:
            raise Fault("%s: the files bring more than 2^30 bytes of %s at once: give fewer" % (self.folder.shown(), part), REFUSED)
        sizes = self.sizes(part)
        if sizes.get(digest, size) != size:
            raise Fault("%s: %s" % (self.folder.shown(file_name(part, digest)), OTHER_CONTENT))
        if digest in sizes or self.is_held(part, sizes, size):
            os.unlink(WORKING, dir_fd=self.folder.descriptor)
        else:
            self.name(file_name(part, digest))
            self.changed[part] = [*sizes, digest]

    def is_held(self, part, sizes, size):
        """Whether the smaller files of a part, which has files of these sizes, hold all of the new file, of that size."""
        sizes = sorted((own, digest) for digest, own in sizes.items())
        total = itertools.accumulate(own for own, _ in sizes)
        small = [entry for entry, sum_here in zip(sizes, total) if sum_here <= MOST_SEEN]
        if size > sum(own for own, _ in small):
            return False  # also where there are none
        with self.files(part, [digest for _, digest in small]) as files, self.folder.input(WORKING).file as new, \
                tempfile.TemporaryFile(dir=self.folder.path("")) as together:
            held = files[0]
            if len(files) > 1:
                self.cadf(["join"], files, together.fileno())
                held = Input(self.folder.name, together)
            return self.cadf(["missing"], [Input(self.folder.path(WORKING), new), held], subprocess.PIPE).count(b"\n") == NOTHING

    def join(self, part, digests):
        """Joins files of a part into one, which is in their place. Another file of the part may be that one."""
        with self.files(part, digests) as inputs, self.new_file() as output:
            try:
                self.cadf(["join"], inputs, output.fileno())
            except Fault:
                self.is_removed(WORKING)  # the next part goes on
                raise
        with self.folder.input(WORKING).file as file:
            digest = last_digest(file)
        self.name(file_name(part, digest))
        self.changed[part] = [each for each in self.digests(part) if each not in (*digests, digest)] + [digest]

    def join_by_size(self):
        """Joins files of each part that has new ones, seven of a size into one, as long as there are such."""
        left = MOST_JOINED
        for part in sorted(self.changed):
            sizes = self.sizes(part)
            while (chosen := to_join(sizes, left)):
                left -= sum(sizes[digest] for digest in chosen)
                self.join(part, chosen)
                sizes = self.sizes(part)

    def settle(self):
        """Joins the files of each part into one, or into as few as can be read. Returns how many files of which parts are left.

        Leaves out parts of which a file is damaged.
        """
        done, large = 0, {}
        for part in self.index.parts():
            with self.folder.leaving_out(part):
                done += self.settle_part(part)
                if len(self.digests(part)) > 1:
                    large[part] = len(self.digests(part))
            if done > MOST_SETTLED:
                self.put_changed()
                done = 0
        self.put_changed()
        return large

    def settle_part(self, part):
        """The same of one part. Returns the bytes that were joined."""
        sizes, done = self.sizes(part), 0  # each file of it has to be there
        rising = sorted(sizes, key=lambda digest: (sizes[digest], digest))
        for group in grouped(rising, sizes.get, LARGEST):  # each makes one file that cadf reads
            if len(group) > 1:
                self.join(part, group)
                done += sum(sizes[digest] for digest in group)
        return done

    def put_changed(self):
        """Replaces `site` by one that names the files that there are now, unless it does."""
        index = self.index.with_parts(self.changed)
        if index.lines != self.index.lines:
            self.put(index)
        else:
            os.fsync(self.folder.descriptor)  # a call that was killed may have put it there

    def forget(self, gone, erased=None):
        """Replaces `site` by one that names this file of what went, this list of what was erased or the one before, and files of what is kept; then the others go."""
        erased = erased or self.erased
        if max(len(each.bytes()) for each in (gone, erased)) > LONGEST_INDEX:
            raise Fault(TOO_LONG_LIST % (self.folder.shown(), LONGEST_INDEX), REFUSED)
        self.give_up_room()
        before, self.kept, self.erased = self.index, gone.kept, erased
        for module, each in ((cadf_gone, gone), *([(cadf_erased, erased)] if erased.names else [])):
            if not before.has(module.file_name(each.digits())):
                with self.new_file() as output:
                    output.write(each.bytes())
                self.name(module.file_name(each.digits()))
        lines = [entry_line(*entry) for entry in before.with_parts(self.changed).entries() if gone.kept.has(entry[0])]
        self.put(Index(before.log, before.unit, lines, gone.digits(), erased.digits() if erased.names else None))
        for name in before.names():
            if not self.index.has(name):
                self.is_removed(name)
        self.keep_room()

    def give_up_room(self):
        """Gives up the room that a full disk has for what is written when something goes."""
        self.is_removed(ROOM)

    def keep_room(self):
        """Has room on the disk for the next forgetting, if there is some now."""
        size = max(LEAST_ROOM, 4 * os.stat(INDEX, dir_fd=self.folder.descriptor).st_size)
        with contextlib.suppress(OSError), open_descriptor(self.folder.open(ROOM, os.O_WRONLY | os.O_CREAT)) as file:
            self.folder.give(file, 0o600)
            os.posix_fallocate(file, 0, size)

    def put(self, index):
        """Replaces `site`, all that it names being on the disk."""
        os.fsync(self.folder.descriptor)
        with self.new_file() as output:
            output.writelines(index.bytes())
        self.check_lock()
        self.name(INDEX)
        os.fsync(self.folder.descriptor)
        self.index, self.changed = index, {}


def check(folder, index, unit, log):
    """Raises that what a folder's `site` says is of another unit or log, or that there is none, and no unit to make it by."""
    if index is None and unit is None:
        raise folder.no_site()
    if index and unit not in (None, index.unit):
        raise Fault("%s: %s" % (folder.shown(), other_unit(index.unit, unit)), REFUSED)
    if index and log not in (None, index.name()):
        raise Fault("%s: %s" % (folder.shown(), other_log(index.name())), REFUSED)


def check_site(name, unit, log):
    """Raises, before anything is read, why nothing can be taken into the folder of that name. It may be missing, if there is a unit."""
    if unit is None or os.path.isdir(name):
        with Folder(name) as folder:
            check(folder, folder.index(), unit, log)


def check_file(name):
    """Raises that the site's file of that name is one of a folder: it would then hold something else than its name says."""
    folder, own = os.path.split(name)
    if WINDOW_FILE.fullmatch(own) and os.path.lexists(os.path.join(folder, INDEX)):
        raise Fault("%s: a file of the folder %s, which a take would damage: name the folder as SITE" % (name_shown(name), name_shown(folder or ".")), REFUSED)


@contextlib.contextmanager
def taking(name, unit, log, wait, damaged=None):
    """Locks a folder for a take, unless it is of another unit or log."""
    with Folder(name, damaged) as folder, folder.naming():
        if unit is None and not folder.is_site():
            raise folder.no_site()
        with Taking(folder, wait) as found:
            check(folder, found.index, unit, log)
            found.begin()
            with found.undone():
                yield found


class Limits:
    """The limits of a take that is of all or nothing: how many windows it may begin, of which times they are, and which rulings are welcome, if not all."""

    kept, erased = cadf_gone.ALL, 0  # by the site; how many facts were left out, since it erased them

    def __init__(self, most=MOST_NEW, bounds=Bounds(), welcome=None):
        self.most, self.bounds, self.welcome, self.begun = most, bounds, welcome, set()

    def without_unwelcome(self, *words):
        """Raises that there are new rulings that aren't welcome."""
        unwelcome = self.welcome.new(*words)
        if unwelcome:
            raise self.welcome.fault(unwelcome)

    def keeps(self, part, _, is_there):
        """Raises why nothing is taken, as the next part shows. Keeps none apart."""
        if not self.kept.has(part):
            raise Fault(FORGOTTEN % (part, self.kept.floor), REFUSED)
        if not self.bounds.has(part):
            raise Fault(OUTSIDE % part, REFUSED)
        if not is_there:
            self.begun.add(part)
        if len(self.begun) > self.most:
            raise Fault(TOO_MANY_NEW % self.most, REFUSED)
        return False

    @contextlib.contextmanager
    def finished(self, *_):
        """Nothing was kept apart."""
        yield


def take(name, inputs, unit=None, log=None, wait=None, limits=None):
    """Takes the inputs into the folder of that name, within the limits. Makes it, by the unit, if it is not there yet."""
    limits = limits or Limits()
    if unit is not None:
        with contextlib.suppress(FileExistsError):
            os.mkdir(name, 0o700)
    with taking(name, unit, log, wait) as found:
        if found.index is None:
            with contextlib.suppress(PermissionError):  # who may go through a folder may not read it
                sync(os.path.dirname(os.path.abspath(name)))
        limits.kept = found.kept
        with found.left_of(inputs) as (inputs, limits.erased):
            for group in grouped(inputs, lambda each: os.fstat(each.file.fileno()).st_size, MOST_AT_ONCE):
                found.add(found.words(unit, log), group, limits)
            with limits.finished(found, inputs):
                found.join_by_size()
                found.put_changed()


def settle(name, wait=None, told=None):
    """Joins the files of each window of the folder of that name. Says which are too large for one file, or damaged. Returns the status.

    `told` is given the folder, and the digests of the files of each part before and after.
    """
    damaged = {}
    with taking(name, None, None, wait, damaged) as found:
        before = found.index.parts()
        large = found.settle()
        found.keep_room()
        if told is not None:
            told(found.folder, before, found.index.parts())
    for part, count in large.items():
        say("%s: the window %s is larger than a file may be, and has %d files" % (name_shown(name), part, count))
    return tell_damaged(damaged, damaged)
