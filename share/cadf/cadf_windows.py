"""A site by its windows, as an exchange needs it: the digest of each, a summary of it, and what it has beyond another's.

A site is a file, which is one window `all` or is split by a unit, or a folder. All that is written here is in private files
that go with the call. The digests of windows of several files are kept in a folder's index.
"""
import contextlib
import datetime
import hashlib
import heapq
import itertools
import json
import os
import re
import secrets
import subprocess
import tempfile

import cadf_erased
import cadf_gone
import cadf_site
from cadf_index import files_of, size_of
from cadf_index_file import beside, forget_kinds, keep, kept
from cadf_link import ENOUGH, Item, Store
from cadf_logs import UNREADABLE, atoms
from cadf_toolkit import (DIFFERS, LAST, LAST_LINE, MEMORY, Fault, Input, Refusal, another_program, cadf, check_end, is_costly, last_digest, naming, opened_file,
                          started_cadf, with_digest)

ALL, SHARED = "all", cadf_site.SHARED
UNITS = {length: unit for unit, length in cadf_site.UNITS.items()}
UNIONS = "union 1"  # the kind under which the index keeps them
WITHOUT, MOST_LISTS = "without ", 8  # how the kinds begin under which it keeps what is left without a list, and for how many lists
DIGEST_BYTES, CELL_BYTES = 65, 81  # of a line
NODE = re.compile(rb"\[([1-9][0-9]*),([01]),")
BLOCK = 2 ** 16  # bytes that are read at once
CELLS, MOST_CELLS = 198, 12582912
TOO_FEW = "too few cells: ask for "


def unit_of(window):
    """The unit of a window of that name, or None."""
    return UNITS.get(len(window)) if re.fullmatch(cadf_site.WINDOW, window) else None


def is_time(window):
    """Whether a window of that name is of the calendar.

    It may be of the year 0000, which `datetime` doesn't have, and whose months are as long as those of 0400.
    """
    try:
        return unit_of(window) is not None and bool(datetime.datetime.strptime(window.replace("0000-", "0400-"), "%Y-%m-%dT%H"[:len(window) - 2]))
    except ValueError:
        return False


def is_part(name, unit):
    """Whether parts by that unit may have this name."""
    return name == ALL if unit is None else name == SHARED or unit_of(name) == unit


def check_digest(input, digest):
    """Raises that the last line of a window's file isn't of its name. A file without such a line is left to cadf, which has more words."""
    with contextlib.suppress(OSError):
        if last_digest(input.file) not in (digest, None):
            raise Fault("%s: %s" % (input.name, cadf_site.OTHER_CONTENT))


def union_digest(inputs):
    """The digits of the last line of the union's replica file, which may be larger than one that is read, and isn't kept."""
    if len(inputs) == 1:
        return last_digest(inputs[0].file)
    with started_cadf(["join"], inputs, subprocess.PIPE) as child:
        last = b""
        for block in iter(lambda: child.stdout.read(BLOCK), b""):
            last = (last + block)[-LAST_LINE:]
        check_end(child, child.stderr.read(), inputs)
    found = LAST.fullmatch(last)
    if not found:
        raise another_program("replica file")
    return found[1].decode()


def made(words, inputs, name):
    """What cadf makes of the inputs, as an input of that name."""
    file = tempfile.TemporaryFile()
    cadf(words, inputs, file.fileno())
    return Input(name, file)


# ---- Sites

class AllKept:
    """A site that forgot and erased nothing."""

    def kept(self):
        """What it keeps."""
        return cadf_gone.ALL

    def erased(self):
        """The list of what it erased."""
        return cadf_erased.Erased(json.dumps(self.log, ensure_ascii=False))


class NoSite(AllKept):
    """A site that is not there yet."""
    log = unit = None

    def digests(self, *_):
        return {}

    def files(self, *_):
        return contextlib.nullcontext([])


class FileSite(AllKept):
    """A site that is a file, as it is when it is opened. Its windows by a unit are those of `cadf split`."""
    unit = None

    def __init__(self, input):
        self.input, self.parts = input, {}
        if input.first(len(cadf_site.SECOND)) != cadf_site.SECOND or None in (input.log(), last_digest(input.file)):
            self.input = made(["join"], [input], input.name)
        self.log = self.input.log()

    def digests(self, unit, is_wanted):
        """The digest of each part by that unit that is wanted."""
        if unit is None:
            return {ALL: last_digest(self.input.file)}
        if not self.parts:
            self.split(unit)
        return {part: last for part, (_, last) in self.parts.items() if is_wanted(part)}

    def split(self, unit):
        store = Store()
        with cadf_site.split(["--by", unit], [self.input]) as parts:
            parts.head()
            for part in parts.names():
                with open(store.begin(), "wb", closefd=False) as output:
                    last = parts.copy(output)
                self.parts[part] = store.item(part, "facts"), last

    @contextlib.contextmanager
    def files(self, part, only=None):
        """The files of a part as inputs: one, or none; of a folder's file of certain digits always none."""
        if only is not None:
            yield []
        elif part == ALL:
            yield [self.input]
        elif part not in self.parts:
            yield []
        else:
            with self.parts[part][0].opened("%s of %s" % (part, self.input.name)) as input:
                yield [input]


class LeftOut(Fault):
    """Why one part can't be read, which says nothing of others: a file of it is damaged; or by the status MEMORY, it is too costly."""


class FolderSite:
    """A site that is a folder. Each part is as it is when it is opened."""

    def __init__(self, folder):
        index = folder.site()
        self.folder, self.log, self.unit = folder, index.name(), index.unit

    def kept(self):
        """What it keeps now."""
        return self.folder.gone().kept

    def erased(self):
        """The list of what it has erased now."""
        return self.folder.erased()

    def digests(self, _, is_wanted):
        """The digest of each part that is wanted."""
        parts, new, found = self.folder.site().parts(), {}, {}
        known = kept(self.folder, UNIONS, [beside]) if any(len(files) > 1 for files in parts.values()) else {}
        for part, files in parts.items():
            if not is_wanted(part):
                continue
            key = files_of(files)
            if len(files) > 1 and key not in known:
                with contextlib.suppress(LeftOut), self.opened(part) as inputs:
                    key, size = files_of(digest for _, digest in inputs), size_of({digest: each for (_, digest), each in inputs.items()})
                    known[key] = new[key] = union_digest(list(inputs.values())), size, 0
            # A part that can't be read is equal to none, so it is asked for, and why is found again.
            found[part] = files[0] if len(files) == 1 else known[key][0] if key in known else secrets.token_hex(32)
        keep(self.folder, UNIONS, new, [beside])
        return found

    @contextlib.contextmanager
    def opened(self, part):
        """The files of a part as inputs, by part and digest. LeftOut: why they can't be read, as is found here or in the context."""
        try:
            with cadf_site.opened_parts(self.folder, [part]) as (_, inputs):
                for (_, digest), each in inputs.items():
                    check_digest(each, digest)
                yield inputs
        except Fault as fault:
            if not is_costly(fault) and not self.folder.is_of(part, fault):
                raise
            raise LeftOut(str(fault), MEMORY if is_costly(fault) else fault.status) from None

    @contextlib.contextmanager
    def files(self, part, only=None):
        """The files of a part as inputs; or the one of these digits, if `site` names it."""
        with self.opened(part) as inputs:
            yield [each for (_, digest), each in inputs.items() if only in (None, digest)]


class WithoutErased:
    """A site as another one may have it that erased what is on a list: without that. A part that has nothing else isn't there."""

    def __init__(self, windows, listed):
        self.windows, self.listed, self.log, self.unit = windows, listed, windows.log, windows.unit
        self.kept, self.erased = windows.kept, windows.erased
        self.folder = getattr(windows, "folder", None)
        self.has_keys = bool(listed.keys())
        self.counts = {}  # by part: how many facts the list leaves out

    def is_asked(self, part):
        """Whether the list may leave out something of a part: without keys it does so of rulings alone."""
        return self.has_keys or part in (SHARED, ALL)

    def digests(self, unit, is_wanted):
        """The digest of what is left of each part that is wanted, if something is. The folder's index keeps them by the list."""
        kind, new, parts = WITHOUT + self.listed.digits(), {}, self.folder.site().parts() if self.folder else {}
        known, found = kept(self.folder, kind, [beside]) if self.folder else {}, {}
        for part, digest in self.windows.digests(unit, is_wanted).items():
            key = files_of(parts.get(part, ()))
            row = known.get(key) if part in parts else None
            if not self.is_asked(part):
                found[part] = digest
                continue
            if row is None:
                with contextlib.suppress(LeftOut), self.windows.files(part) as own, self.left(own) as left:
                    count = cadf_erased.facts_in(own) - cadf_erased.facts_in(left) if last_digest(left[0].file) != digest else 0
                    row = "%s %d" % (last_digest(left[0].file), count), sum(os.fstat(each.file.fileno()).st_size for each in own), 0
                    new[key] = row
            left, count = row[0].split(" ") if row else (digest, "0")  # a part that can't be read is equal to none
            self.counts[part] = int(count)
            if left != cadf_site.nothing_of(self.erased().log):
                found[part] = left
        if self.folder and new:
            keep(self.folder, kind, new, [beside])
            forget_kinds(self.folder, WITHOUT, kind, MOST_LISTS)
        return found

    @contextlib.contextmanager
    def left(self, inputs):
        """What the list leaves of inputs together, as one."""
        with self.listed.opened() as listed, cadf_erased.nothing(self.listed.log) as empty:
            found = cadf_erased.omitted(listed, empty, inputs)
            with found.file:
                yield [found]

    @contextlib.contextmanager
    def files(self, part, only=None):
        """What is left of the files of a part, as inputs."""
        with self.windows.files(part, only) as own:
            if not own or not self.is_asked(part):
                yield own
                return
            with self.left(own) as left:
                yield left if last_digest(left[0].file) != cadf_site.nothing_of(self.listed.log) else []


def is_wanted(part, since):
    return part == SHARED or since is None or part >= since


def parts_of(name):
    """The names of the parts of a site that is a folder; of another, none."""
    if not os.path.isdir(name):
        return set()
    with cadf_site.Folder(name) as folder:
        index = folder.index()
    return set(index.parts()) if index else set()


@contextlib.contextmanager
def opened_windows(name):
    """Opens a site, of either kind, or one that is not there."""
    with naming(name), contextlib.ExitStack() as files:
        if not os.path.lexists(name.rstrip("/") or "/"):
            yield NoSite()
        elif cadf_site.is_folder(name):
            is_begun = all(each.startswith(".") for each in os.listdir(name))  # as a first take leaves it that ended early
            yield NoSite() if is_begun else FolderSite(files.enter_context(cadf_site.Folder(name)))
        else:
            input = Input(name, files.enter_context(opened_file(name, os.O_NOFOLLOW)))
            yield FileSite(input)


# ---- What an exchange says of a window

def sketch(store, part, inputs, cells):
    """An item of a window's sketch, or of its inventory if that is no longer. `cells` is None for the inventory."""
    if cells is not None and not is_small(inputs, cells):
        cadf(["sketch", "--cells=%d" % cells, "--salt=%d" % (secrets.randbits(64) | 1)], inputs, store.begin())
        item = store.item(part, "sketch")
        lines = os.pread(item.file.fileno(), 2 ** 15, item.begin).split(b"\n")
        facts, log_line = int(lines[3].split(b" ")[1]), lines[1]
        if item.length < len(b"CADF-INVENTORY 1\n\n") + len(log_line) + DIGEST_BYTES * facts + LAST_LINE:
            return item
        store.end = item.begin
    cadf(["inventory"], inputs, store.begin())
    return store.item(part, "inventory")


def fitting(item, limit):
    """The item, if a message of so many bytes may have it. LeftOut: its window is too large for an exchange, which says nothing of others."""
    if not item.fits(limit):
        raise LeftOut(item.too_large(limit), MEMORY)
    return item


def is_small(inputs, cells):
    """Whether files have so few lines that their inventory is no longer than a sketch, which it may be all the same.

    What can't be read is left to cadf to refuse.
    """
    most, count = cells * CELL_BYTES // DIGEST_BYTES, 0
    for each in inputs:
        with contextlib.suppress(OSError), open(each.path(), "rb") as file:
            for block in iter(lambda: file.read(BLOCK), b""):
                count += block.count(b"\n")
                if count > most:
                    return False
    return True


def cells_of(item):
    """The number of cells of a sketch, by its third line."""
    found = re.match(rb"[^\n]*\n[^\n]*\nS ([1-9][0-9]{0,7}) ", os.pread(item.file.fileno(), 2 ** 14, item.begin))
    return int(found[1])


def has_facts(item):
    """Whether a replica file of ours, or one that was read, has a fact."""
    lines = os.pread(item.file.fileno(), min(item.length, 2 ** 14), item.begin).split(b"\n")
    return not (len(lines) > 2 and lines[2].startswith(b"Z "))


def is_intact(input):
    """Whether the last line of a replica file has the digest of the others, all of which can be read."""
    hash_all, length = hashlib.sha256(), os.fstat(input.file.fileno()).st_size - LAST_LINE
    with contextlib.suppress(OSError):
        for block in Item(input.name, "facts", input.file, 0, length).blocks():
            hash_all.update(block)
        return hash_all.hexdigest() == last_digest(input.file)
    return False


def whole(store, part, inputs):
    """An item of all facts of a window. A damaged file is refused under its name; the other end would say that it got it so."""
    if len(inputs) == 1:
        if not is_intact(inputs[0]):
            cadf(["inventory"], inputs)
        return store.copied(Item(part, "facts", inputs[0].file, 0, os.fstat(inputs[0].file.fileno()).st_size))
    cadf(["join"], inputs, store.begin())
    return store.item(part, "facts")


def beyond(store, part, inputs, item, name):
    """An item of what a window has beyond a sketch or an inventory, `facts`; or `more` with the cells to ask for.

    LeftOut: a file of the window, or what was sent, is damaged.
    """
    with item.opened_from(name) as asked:
        command = "missing-by-sketch" if item.kind == "sketch" else "missing-by"
        try:
            cadf([command], [*inputs, asked], store.begin(), union=len(inputs))
            return store.item(part, "facts")
        except Refusal as fault:
            if fault.said.startswith(TOO_FEW):
                return store.put(part, "more", fault.said[len(TOO_FEW):].encode())
            raise LeftOut(str(fault), fault.status) if fault.place == len(inputs) + 1 else fault from None


class Piece:
    """A replica file that is written to a store line by line."""

    def __init__(self, store, lines):
        self.store, self.hash, self.size = store, hashlib.sha256(), 0
        self.file = open(store.begin(), "wb", closefd=False)
        self.put(lines)

    def put(self, lines):
        self.hash.update(lines)
        self.size += self.file.write(lines)

    def item(self, part, kind):
        with self.file:
            self.file.write(b"Z %s\n" % self.hash.hexdigest().encode())
        return self.store.item(part, kind)


def pieces(store, item, most, leave_out):
    """Yields the item; or if it is longer than so many bytes, items that are not, and have its facts together: all but the last are `some`.

    Each has as many of its lines as go into it, after those of the nodes above its first. It is made when it is asked for. A fact
    that goes into none, or has more above it than half of one, is left out, so that the items together have at most twice the bytes:
    `leave_out` is told how many it has.
    """
    if item.length <= most:
        yield item
        return
    piece, above, done, room = None, [], 0, most - LAST_LINE  # the nodes on the way to a fact, and how many of them the piece has
    with open("/dev/fd/%d" % item.file.fileno(), "rb") as lines:
        lines.seek(item.begin)
        head = lines.readline() + lines.readline()
        for line in itertools.takewhile(lambda line: not line.startswith(b"Z"), lines):
            depth, mark = NODE.match(line).groups()
            above[int(depth) - 1:] = [line]
            done = min(done, int(depth) - 1)
            if mark == b"0":
                continue
            if piece is None or piece.size + sum(map(len, above[done:])) > room:
                before = len(head) + sum(map(len, above[:-1]))
                if before > room // 2 or before + len(line) > room:
                    leave_out(before + len(line))
                    continue
                if piece:
                    yield piece.item(item.part, "some")
                    store.renew(ENOUGH)
                piece, done = Piece(store, head), 0
            piece.put(b"".join(above[done:]))
            done = len(above)
    yield (piece or Piece(store, head)).item(item.part, "facts")


def too_long(left_out, most):
    """The fault that facts of these bytes were left out, of which an end reads fewer at once."""
    return Fault("left out %d facts, of %d bytes at most: the end that lacks them reads %d at once: raise --limit and --facts there"
                 % (len(left_out), max(left_out), most), DIFFERS)


def first_fact(item):
    """The first fact of a replica file of format 2 that is not above the one after it, as texts; None if it has none, or is no such file.

    Of pieces that are handed out these rise, though several may begin with one event's body.
    """
    found = None
    with open("/dev/fd/%d" % item.file.fileno(), "rb") as lines, contextlib.suppress(TypeError, *UNREADABLE):
        lines.seek(item.begin)
        for fact in atoms(itertools.takewhile(lambda line: not line.startswith(b"Z"), lines)):
            if found is not None and fact[:len(found)] != found:
                break
            found = fact
    return found


class Held:
    """The digests of the facts of some inputs, which are added to, in a private file."""

    def __init__(self, inputs):
        self.file = tempfile.TemporaryFile()
        self.file.writelines(digests(inputs))

    def add(self, inputs):
        """Adds the facts of some inputs. Returns how many were not there."""
        self.file.seek(0)
        together = tempfile.TemporaryFile()
        together.writelines(digest for digest, _ in itertools.groupby(heapq.merge(self.file, digests(inputs))))
        count = (together.tell() - self.file.tell()) // DIGEST_BYTES
        self.file = together
        return count


def digests(inputs):
    """Yields the lines of the digests of the facts of some inputs, which rise."""
    if not inputs:
        return
    with made(["inventory"], inputs, "the inventory").file as file:
        file.seek(0)
        yield from itertools.takewhile(lambda line: not line.startswith(b"Z"), itertools.islice(file, 2, None))
