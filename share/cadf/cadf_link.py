"""What two ends of cadf-sync write to each other: first lines, messages of items, and the limits that hold for both.

docs/FORMATS.md has the form. Nothing that is read is trusted: each number has a limit, each wait an end.
"""
import contextlib
import errno
import json
import os
import re
import select
import tempfile
import threading
import time
from typing import NamedTuple

from cadf_site import PART
from cadf_toolkit import FAILED, LARGEST, REFUSED, Fault, Input, grouped, is_log_name, printable, started_thread, write_all

VERSION = 1
FIRST_WORD = b"CADF-SYNC "
FIRST = re.compile(rb"CADF-SYNC ([1-9][0-9]{0,5}) (\{.*\})")
HEAD = re.compile(rb"([a-z]{1,16}) (0|[1-9][0-9]{0,9})")
ENTRY = re.compile((r"(all|%s) ([a-z]{1,16}) (0|[1-9][0-9]{0,9})\n" % PART).encode())
LEAST = 2 ** 20  # bytes, below which no limit of a message may be
MOST_FACTS = 2 ** 26  # bytes of an item of facts, unless more are allowed
ENOUGH = 2 ** 24  # bytes after which another message begins: what it brought is taken before a link may be cut
LONGEST = 86400  # seconds of silence
LONGEST_FIRST, LONGEST_HEAD, LONGEST_ENTRY = 2 ** 15, 32, 64  # bytes of a line
LONGEST_TEXT = 2000  # characters of what the other end says
MOST_ITEMS = 10000  # of a message
OF_ITEMS = "ask", "answer", "take"  # the messages that have items
MOST_WAITS = 1000  # of an end that works, one after another
BEAT = 10  # seconds between two signs of life of an end that works
BLOCK, PIECE = 2 ** 16, 4096  # bytes that are read at once; that have to come in time, and go without blocking
LOOK = 100  # milliseconds between two looks whether a wait goes on
# Of what is as long as a message may be: how many lines come before those of digests or cells, and how long each of these and the last line is.
LONG_KINDS = {"inventory": (2, (64, 66)), "sketch": (4, (80, 66))}
LONGEST_BEFORE = 2 ** 13  # bytes of a line before them, as that of the log's name
CAME_SO = "it came so, and no file here is at fault: tell the operator of the end that sent it"


def check_room(file, length):
    """Raises that a file can't have so many bytes more, where the system knows it: before they are waited for, or fill the disk."""
    found = os.fstatvfs(file.fileno())
    if found.f_blocks and length > found.f_bfree * found.f_frsize:
        raise OSError(errno.ENOSPC, "%s for %d bytes" % (os.strerror(errno.ENOSPC), length))


class Item(NamedTuple):
    """What a message says of a part: of that kind, with the bytes of a file from that place on."""
    part: str
    kind: str
    file: object = None
    begin: int = 0
    length: int = 0

    def line(self):
        return b"%s %s %d\n" % (self.part.encode(), self.kind.encode(), self.length)

    def fits(self, limit):
        """Whether a message of so many bytes may have it."""
        return len(self.line()) + self.length + len("\n") <= limit

    def too_large(self, limit):
        """What is said of one that no such message may have."""
        return "%s: its %s is too large for a message of %d bytes: raise --limit at both ends, or have smaller windows" % (self.part, self.kind, limit)

    def blocks(self):
        """Yields the bytes."""
        at, end = self.begin, self.begin + self.length
        while at < end:
            block = os.pread(self.file.fileno(), min(BLOCK, end - at), at)
            if not block:
                raise Fault("%s: it became shorter while it was read" % self.part)
            at += len(block)
            yield block

    def content(self, most=LARGEST):
        return b"".join(self._replace(length=min(most, self.length)).blocks())

    def opened_from(self, peer):
        """The bytes that a peer sent, as an input of their own."""
        return self.opened("%s%s from %s" % ("" if self.kind in ("facts", "some") else "the %s of " % self.kind, self.part, peer), CAME_SO)

    @contextlib.contextmanager
    def opened(self, name, advice=None):
        """The bytes as an input of their own."""
        with tempfile.TemporaryFile() as copy:
            check_room(copy, self.length)
            for block in self.blocks():
                copy.write(block)
            copy.flush()
            yield Input(name, copy, advice)


class Store:
    """A private file to which items are written one after another. It goes with the call."""

    def __init__(self):
        self.file, self.end = tempfile.TemporaryFile(buffering=0), 0

    def begin(self):
        """Returns the descriptor to which the next item is written."""
        self.file.truncate(self.end)
        self.file.seek(self.end)
        return self.file.fileno()

    def item(self, part, kind):
        """The item of what was written since."""
        begin, self.end = self.end, os.fstat(self.file.fileno()).st_size
        return Item(part, kind, self.file, begin, self.end - begin)

    def renew(self, most):
        """Has another file for what comes next, if this one has more bytes: it goes with its items."""
        if self.end > most:
            self.file, self.end = tempfile.TemporaryFile(buffering=0), 0

    def put(self, part, kind, content=b""):
        """Writes an item of these bytes."""
        write_all(self.begin(), content)
        return self.item(part, kind)

    def copied(self, item):
        """Writes an item of the bytes of another."""
        file = self.begin()
        check_room(self.file, item.length)
        for block in item.blocks():
            write_all(file, block)
        return self.item(item.part, item.kind)


def batches(items, limit):
    """The items in lists that are messages of at most so many bytes, and of about as many as one should have."""
    def size_of(item):
        if not item.fits(limit):
            raise Fault(item.too_large(limit), REFUSED)
        return len(item.line()) + item.length

    return grouped(items, size_of, min(limit, ENOUGH) - len("\n"), MOST_ITEMS)


def no_items(word):
    """What is said of a message of that word that has no items, or others than it may have."""
    return "no items that may answer" if word == "answer" else "no items that may be in a request `%s`" % word


class Lines:
    """What came of the lines of an item, which are judged by their lengths."""

    def __init__(self, name, kind):
        self.name, self.number, self.length = name, 1, 0  # of the line that comes, and how much of it has come
        self.before, self.lengths = LONG_KINDS[kind]

    def add(self, data):
        """Raises that a line isn't as long as one of its kind is, as soon as that is known."""
        *ended, last = data.split(b"\n")
        for line in ended:
            self.add_to_line(len(line))
            if self.number > self.before and self.length not in self.lengths:
                self.refuse()
            self.number, self.length = self.number + 1, 0
        self.add_to_line(len(last))

    def add_to_line(self, length):
        self.length += length
        if self.length > (max(self.lengths) if self.number > self.before else LONGEST_BEFORE):
            self.refuse()

    def refuse(self):
        raise Wrong("%s: line %d: shape: no line of such a file is so long, or so short" % (self.name, self.number))


class Judged:
    """What came of a message of items, which is judged before all of it is there. What isn't refused here may be so later."""

    def __init__(self, peer, word, check):
        self.peer, self.check, self.table, self.items = peer, check, b"", None  # of what is in the table: how much of it is to come, and its lines
        self.refusal = "%s: %s" % (peer, no_items(word))

    def add(self, data):
        """Adds further bytes. Raises what is known to be wrong."""
        if self.items is None:
            self.table += data
            table, is_whole, data = (b"\n" + self.table).partition(b"\n\n")
            if not is_whole:
                if len(table) > MOST_ITEMS * LONGEST_ENTRY:
                    raise Wrong(self.refusal)
                return
            self.begin([line + b"\n" for line in table.split(b"\n")[1:]])
        while data and self.items:
            length, lines = self.items.pop(0)
            if lines:
                lines.add(data[:length])
            if length > len(data):
                self.items.insert(0, (length - len(data), lines))
            data = data[length:]

    def begin(self, table):
        """Begins the items of a table."""
        self.table, self.items, found = b"", [], [ENTRY.fullmatch(line) for line in table]
        if not 0 < len(found) <= MOST_ITEMS or not all(found):
            raise Wrong(self.refusal)
        for part, kind, length in ((each[1].decode(), each[2].decode(), int(each[3])) for each in found):
            self.check(part, kind, length)
            self.items.append((length, Lines("%s: the %s of %s" % (self.peer, kind, part), kind) if kind in LONG_KINDS else None))


class Message(NamedTuple):
    """A message that was read whole: its word, and a private file of its bytes."""
    word: str
    file: object
    length: int

    def content(self, most=LARGEST):
        """Its bytes, at most so many."""
        return os.pread(self.file.fileno(), min(most, self.length), 0)

    def items(self, kinds):
        """Its items, which are of these kinds. None if it has none, or they are not what its bytes are."""
        with open("/dev/fd/%d" % self.file.fileno(), "rb") as lines:
            found, begin = [], 0
            while (line := lines.readline(LONGEST_ENTRY)) != b"\n":
                begin += len(line)
                entry = ENTRY.fullmatch(line)
                if not entry or entry[2].decode() not in kinds or len(found) == MOST_ITEMS:
                    return None
                found.append((entry[1].decode(), entry[2].decode(), int(entry[3])))
            begin += len(line)
        items = []
        for part, kind, length in found:
            items.append(Item(part, kind, self.file, begin, length))
            begin += length
        return items if begin == self.length and items else None


class Limits(NamedTuple):
    """Bytes of a message, seconds of silence, bytes and seconds of a session, bytes of an item of facts."""
    limit: int
    timeout: int
    most: int
    session: int
    facts: int


class Told(Fault):
    """A fault that the other end tells, which then ends by itself."""


class Wrong(Fault):
    """The other end says what it may not say."""

    def __init__(self, text):
        super().__init__(text, REFUSED)


class Link:
    """One end of a connection, by the descriptors from which it is read and to which it is written."""

    def __init__(self, reading, writing, peer, limits):
        self.reading, self.writing, self.peer, self.limits = reading, writing, peer, limits
        self.ahead, self.received, self.sent, self.is_stopped, self.faults = b"", 0, 0, False, []
        self.limit, self.facts, self.beat = LARGEST, LARGEST, BEAT  # for the other end: bytes of a message and of facts, seconds between two signs of life
        self.progress, self.begun = lambda: None, time.monotonic()

    # ---- Bytes

    def ready(self, file, event, ending):
        """Waits until the file can be read or written, at most until that time."""
        waiting = select.poll()
        waiting.register(file, event)
        while not waiting.poll(LOOK):
            self.progress()
            if self.is_stopped:
                raise Fault("%s: stopped" % self.peer)
            self.check_session()  # which what is sent meanwhile may end
            if time.monotonic() >= ending:
                raise Fault("%s: silent for %g seconds: try again, or wait longer by --timeout" % (self.peer, self.limits.timeout))

    def check_session(self):
        if self.received + self.sent > self.limits.most:
            raise Wrong("%s: more than %d bytes in one session: if that is meant, raise --most" % (self.peer, self.limits.most))
        if time.monotonic() > self.begun + self.limits.session:
            raise Fault("%s: the session has lasted %d seconds: make the call again, or raise --session at both ends" % (self.peer, self.limits.session))

    def ending(self):
        return time.monotonic() + self.limits.timeout

    def read(self, ending):
        """Reads some bytes ahead. False at the end of the connection."""
        self.ready(self.reading, select.POLLIN, ending)
        block = os.read(self.reading, BLOCK)
        self.received += len(block)
        self.check_session()
        self.ahead += block
        return bool(block)

    def line(self, longest):
        """The next line, without its line feed, whole in time. None at the end of the connection."""
        ending, begun = self.ending(), time.monotonic()
        while b"\n" not in self.ahead:
            if len(self.ahead) >= longest:
                raise Wrong("%s: a line without an end: %s" % (self.peer, shown(self.ahead)))
            if not self.read(ending):
                if self.ahead:
                    raise Fault("%s: cut in a line after %.1f seconds: %s: make the call again" % (self.peer, time.monotonic() - begun, shown(self.ahead)))
                return None
        line, _, self.ahead = self.ahead.partition(b"\n")
        if len(line) >= longest:
            raise Wrong("%s: a line that is too long: %s" % (self.peer, shown(line)))
        return line

    def receive(self, length, judge=lambda _: None):
        """A private file of the next bytes, which are judged as they come. Of each piece all has to come in time."""
        file = tempfile.TemporaryFile()
        check_room(file, length)
        while length:
            ending = self.ending()
            while len(self.ahead) < min(length, PIECE):
                if not self.read(ending):
                    raise Fault("%s: cut in a message, of which %d bytes lack: make the call again" % (self.peer, length - len(self.ahead)))
            block, self.ahead = self.ahead[:length], self.ahead[length:]
            judge(block)
            file.write(block)
            length -= len(block)
        file.flush()
        return file

    def send(self, data):
        """Writes all the bytes, each piece in time."""
        for begin in range(0, len(data), PIECE):
            piece, ending = data[begin:begin + PIECE], self.ending()
            while piece:
                self.ready(self.writing, select.POLLOUT, ending)
                try:
                    count = os.write(self.writing, piece)
                except BrokenPipeError:
                    raise Fault("%s: it ended: make the call again" % self.peer) from None
                self.sent += count
                self.check_session()
                piece = piece[count:]

    # ---- Messages

    def send_message(self, word, content=b"", items=()):
        """Writes a message of these bytes, or of items."""
        table = b"".join(each.line() for each in items) + b"\n" if items else content
        self.send(b"%s %d\n" % (word.encode(), len(table) + sum(each.length for each in items)) + table)
        for each in items:
            for block in each.blocks():
                self.send(block)

    def message(self, words):
        """The next message, whose word is one of these. None at the end of the connection. Signs of life are passed over."""
        for _ in range(MOST_WAITS + 1):
            line = self.line(LONGEST_HEAD)
            if line is None:
                return None
            head = HEAD.fullmatch(line)
            word, length = (head[1].decode(), int(head[2])) if head else (None, 0)
            if word == "wait" and length == 0:
                continue
            if word not in words:
                raise Wrong("%s: no message that it may send: %s" % (self.peer, shown(line)))
            if length > self.limits.limit:
                raise Wrong("%s: a message of %d bytes, and --limit is %d" % (self.peer, length, self.limits.limit))
            judged = [Judged(self.peer, word, self.check_facts).add] if word in OF_ITEMS else []
            return Message(word, self.receive(length, *judged), length)
        raise Wrong("%s: it says that it works, again and again, and nothing else" % self.peer)

    @contextlib.contextmanager
    def beside(self, work):
        """Has the work done meanwhile, in a thread. It is stopped at the end. Yields a list that gets its fault."""
        faults = []

        def run():
            try:
                work()
            except (Fault, OSError) as fault:
                faults.append(fault)

        thread = started_thread(run)
        try:
            yield thread, faults
        finally:
            self.is_stopped = True
            thread.join()
            self.is_stopped = False

    @contextlib.contextmanager
    def busy(self):
        """Writes a sign of life now and then while this end works. What it meets is raised by check_peer."""
        done = threading.Event()

        def beat():
            while not done.wait(self.beat):
                self.send(b"wait 0\n")

        with self.beside(beat) as (_, self.faults):
            try:
                yield
            finally:
                done.set()

    def check_peer(self):
        """Raises that the other end is gone, as a sign of life has found."""
        if self.faults:
            raise self.faults[0]

    def asked(self, word, answer, items=(), content=b""):
        """Sends a request of items, or of bytes, and reads its answer meanwhile, which has that word."""
        with self.beside(lambda: self.send_message(word, content, items)) as (thread, faults):
            found = self.answer(answer)
            thread.join(self.limits.timeout)
            is_early = thread.is_alive()
        if is_early or faults:
            raise Wrong("%s: it answers before it was asked" % self.peer)
        return found

    def check_facts(self, part, kind, length):
        """Raises that an item has more facts than this end takes at once."""
        if kind in ("facts", "some") and length > self.limits.facts:
            raise Wrong("%s: %s: facts of %d bytes, and --facts is %d" % (self.peer, part, length, self.limits.facts))

    def answer(self, word):
        """The answer to a request that was sent, which has that word. Raises the fault that the other end tells."""
        found = self.message((word, "fault"))
        if found is None:
            raise Fault("%s: the connection ended: make the call again" % self.peer)
        if found.word == "fault":
            raise fault_of(self.peer, found)
        return found

    # ---- First lines

    def send_first(self, version, **members):
        text = json.dumps(members, ensure_ascii=True, separators=(",", ":"), sort_keys=True)
        self.send(b"CADF-SYNC %d %s\n" % (version, text.encode()))

    def own(self, **members):
        """The members of a first line, with the limits of this end."""
        return dict(members, limit=self.limits.limit, facts=self.limits.facts, timeout=self.limits.timeout)

    def keep_to(self, members):
        """Keeps to the limits of the other end, by the members of its first line."""
        self.limit = number_of(members, "limit", LEAST, LARGEST)
        self.facts = number_of({"facts": self.limit, **members}, "facts", LEAST, LARGEST)
        self.beat = min(BEAT, number_of(members, "timeout", 1, LONGEST) / 4)

    def first(self):
        """The version and the members of the other end's first line. None at the end of the connection, bytes if it is no such line."""
        try:
            line = self.line(LONGEST_FIRST)
        except Fault as fault:
            if not isinstance(fault, Wrong) and FIRST_WORD.startswith(self.ahead[:len(FIRST_WORD)]):
                raise
            return self.ahead
        if line is None:
            return None
        found = FIRST.fullmatch(line)
        try:
            return (int(found[1]), json.loads(found[2])) if found else line
        except (ValueError, RecursionError):
            return line


def most_of_facts(limit, facts):
    """The bytes that an item of facts may have, for an end that reads so many of a message, and so many of such an item."""
    return min(limit - LONGEST_ENTRY - len("\n"), facts)


def number_of(members, name, least, most):
    """The number of a first line's member."""
    value = members.get(name)
    if type(value) is not int or not least <= value <= most:
        raise Wrong("no %s from %d to %d in the first line" % (name, least, most))
    return value


def text_of(members, name):
    """The text of a first line's member, or None for null and for none. A log's is an identifier."""
    value = members.get(name)
    if value is not None and (not isinstance(value, str) or len(value) > LONGEST_FIRST or name == "log" and not is_log_name(value)):
        raise Wrong("no text in the first line: %s" % name)
    return value


def shown(data):
    """The first of some bytes, as text that can be printed."""
    return printable(json.dumps(data[:200].decode("utf-8", "backslashreplace"), ensure_ascii=False))


def told_fault(fault):
    """A fault as the other end is told it."""
    return b"%d %s" % (fault.status, str(fault).encode("utf-8", "backslashreplace"))


def fault_of(peer, told, statuses="134"):
    """The fault that the other end tells by a text, a message or an item: a digit, the status, which is one of these, and a text."""
    text = told if isinstance(told, str) else told.content(4 * LONGEST_TEXT).decode("utf-8", "backslashreplace")
    status = int(text[0]) if text[:1] and text[0] in statuses else FAILED
    said = printable(text[2:LONGEST_TEXT])
    return Told(said if said.startswith(peer + ": ") else "%s: %s" % (peer, said), status)
