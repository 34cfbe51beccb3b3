"""What the tools around cadf have in common: statuses, names as they are printed, inputs, calls of cadf, locks, new files.

A tool imports it from ../share/cadf beside the folder that the tool is in, so in the sources and under any prefix.
"""
import argparse
import codecs
import contextlib
import errno
import fcntl
import hashlib
import io
import json
import os
import re
import resource
import select
import shutil
import signal
import stat
import subprocess
import sys
import tempfile
import threading
import time

DONE, REFUSED, USAGE, FAILED, MEMORY, DIFFERS = range(6)  # the manual page says what each means
CADF = os.environ.get("CADF") or "cadf"
CONFINE = None  # what a tool has each `cadf` do before it begins, as cadf_budget has it
HERE = os.path.dirname(os.path.realpath(__file__))
sys.executable = sys.executable or os.path.realpath("/proc/self/exe")  # Python can't tell if PATH isn't set
STOPPING = (signal.SIGHUP, signal.SIGINT, signal.SIGTERM)
LOCK_MODES = (stat.S_IFREG | 0o600, stat.S_IFREG | 0o660)
PATIENCE = 1  # seconds before a lock that is held is worth a line
PAUSE = 0.05  # seconds between two looks at a lock
BEGUN, QUIET, BETWEEN_LINES = time.monotonic(), 2, 0.2  # seconds before progress is worth a line, and between two
CLEARED = "\r\x1b[K"  # what empties the line of a terminal
NOT_ITS_FAULT = (errno.EMFILE, errno.ENFILE, errno.ENOMEM)  # of a file that can't be opened now
NOT_REGULAR = "not a regular file; what a pipe brings is taken from standard input, as `-`"
FULL = (errno.ENOSPC, errno.EDQUOT, errno.EFBIG)  # of a write for which there is no room
NO_ROOM = ": make room there, or name another folder by TMPDIR"
NOT_NOW = "it can't be started now: try again, or allow more files and processes"
MORE_FILES = "allow more open files (ulimit -n), or give fewer at once"
BESIDE_INPUTS = 64  # files that are open beside inputs
OPEN_AT_LEAST = 16  # of these, in a program that opens its inputs and little else
IN_THE_WAY = "in the way of a new file: move it away, and make the call again"
OUT_OF_MEMORY = "out of memory"  # made once: no text is made while memory is out
OUT_OF_TIME = "it took more processor time than it may: give more by --time"

# What else a file may be, by its first bytes, and what reads it.
OTHER_KINDS = {
    b"CADF-INVENTORY ": "an inventory, which holds no facts: `cadf missing-by SITE INVENTORY` answers it",
    b"CADF-SKETCH ": "a sketch, which holds no facts: `cadf missing-by-sketch SITE SKETCH` answers it",
    b"CADF-SEALED ": "a list of what was sealed, which holds no facts: `cadf growth LIST FILE` makes a proof by it",
    b"CADF-ERASED ": "a list of what was erased, which holds no facts: `cadf omit LIST FILE` leaves that out",
    b"CADF-SITE-GROWTH ": "a proof of growth, which holds no facts: `cadf-seal --grew OLD NEW PROOF` reads it",
    b"CADF-SITE-PROOF ": "a proof, which holds no facts: `cadf-seal --verify SEAL FACTS PROOF` reads it",
    b"CADF-PROOF ": "a proof, which holds no facts: `cadf verify SEAL FACTS PROOF` reads it",
    b"CADF-SITE-SEAL ": "the seal of a folder, which holds no facts: `cadf-seal --compare SEAL SITE/` reads it",
    b"CADF-SEAL ": "a seal, which holds no facts: take the site's file",
    b"CADF-SITE ": "the file `site` of a folder: name the folder, or the files that it names",
    b"CADF-SPLIT ": "a split file, which no command reads: take the files that it was made of",
    b'{"conflicts":': "a conflict list, which cadf writes and does not read: take the site's file",
    b"learn ": "a script: `cadf rehearse` reads it",
    b"<!doctype html>": "a page of cadf-report: take the site's file",
}
# What a command writes, and how that begins.
WRITTEN = {
    "check": ("answer of `cadf check`", b'ok "'),
    "join": ("replica file", b"CADF-REPLICA "),
    "missing": ("replica file", b"CADF-REPLICA "),
    "missing-by": ("replica file", b"CADF-REPLICA "),
    "missing-by-sketch": ("replica file", b"CADF-REPLICA "),
    "inventory": ("inventory", b"CADF-INVENTORY "),
    "sketch": ("sketch", b"CADF-SKETCH "),
    "seal": ("seal", b"CADF-SEAL "),
    "prove": ("proof", b"CADF-PROOF "),
    "sealed": ("list of what is sealed", b"CADF-SEALED "),
    "growth": ("proof of growth", b"CADF-PROOF "),
}
LONGEST_BEGIN = max(len(begin) for _, begin in WRITTEN.values())
LAST, LAST_LINE = re.compile(rb"Z ([0-9a-f]{64})\n"), 67  # of each of them that is a file, and its bytes
OF_FACTS = {b"CADF-REPLICA ": "a replica file: `cadf-take SITE FILE` takes it as it is"}
OF_LINES = "lines of JSON: `cadf-from-openstack --log ID FILE` makes a document of them"
LARGEST = 2 ** 30  # bytes that cadf reads of a file
LONGEST_FIRST = 2 ** 16  # bytes in which a first line is looked for
LONGEST_NAME = 1024  # bytes of a log's identifier
OF_NO_KIND = re.compile("version|not JSON|event 0: ")  # what cadf says of them
DAMAGED = "the file is damaged: fetch it again, or restore it as the guide says under `A damaged site`"
OTHER_TIME = "seal and proof are of other facts: have both made of the site as it was at one time"
NO_SET = "no site has such a proof, so it was changed: have it made again"
FOR_OTHERS = "it was made for other facts: have a proof made of just these"
OTHER_GROWTH = "the two seals and the proof don't belong together: have the proof made again, from this earlier seal to this later one"
GONE = "it was sealed, and isn't there any more: ask the site's people why; --erased LIST allows what they had erased"
# What to do about a refusal, by how its text begins.
ADVICE = {
    "too large": "no file above 2^30 bytes is read; give smaller ones to a site's folder: cadf-take --by day SITE/ FILE..",
    "no log named": "an event by itself names none: give a file that does, or --log ID if the tool takes it",
    "log name": "an identifier has 1 to 1,024 bytes of UTF-8, and no control character",
    "other log": "one site has one log; `cadf check FILE` says which log a file is of",
    "other count": OTHER_TIME,
    "other root": OTHER_TIME,
    "no tree": NO_SET,
    "order": NO_SET,
    "neighbour hidden": NO_SET,
    "not needed": FOR_OTHERS,
    "not shown": FOR_OTHERS,
    **{"%s: %s" % (tree, cause): advice for tree in ("facts", "keys")
       for cause, advice in (("other count", OTHER_GROWTH), ("other root", OTHER_GROWTH), ("gone", GONE))},
    "digest": DAMAGED,
    "truncated": DAMAGED,
    "trailing bytes": DAMAGED,
    "log line": DAMAGED,
    "line ": DAMAGED,
    "version": "a later release wrote it, or line ends were changed on the way: fetch it again, or have `cadf show` of it sent",
}


class Fault(Exception):
    """Why a call ends, and its status."""

    def __init__(self, text, status=FAILED):
        super().__init__(text)
        self.status = status


class Refusal(Fault):
    """What `cadf` said of its input of that number, or of none: `said` has its own words, without number and advice."""

    def __init__(self, said, status, place, inputs):
        self.said, self.place = said, place
        which = inputs[place - 1] if place else inputs[-1] if inputs and said == "no log named" else None
        if which and said == "read fault":
            which.check_readable()
        text = "%s: %s" % (said, which.advice) if which and which.advice else explained(said, which)
        super().__init__("%s: %s" % (which.name, text) if which else text, status)


# ---- What is printed

def name_shown(name):
    """The name of a file as text that can be printed."""
    text = os.fsencode(name).decode("utf-8", "backslashreplace")
    return text if text and text.isprintable() else json.dumps(text)


def printable(text):
    """The text with escapes of JSON in the place of what can't be printed, as what a terminal takes for a command, and what turns other characters."""
    return text if text.isprintable() else "".join(each if each.isprintable() else json.dumps(each)[1:-1] for each in text)


def printable_lines(text):
    """The same of each line of a text."""
    return "\n".join(map(printable, text.split("\n")))


class Terminal(io.RawIOBase):
    """A terminal that is written to, by its descriptor and its encoding: what can't be printed is escaped."""

    def __init__(self, file, encoding):
        self.file, self.encoding, self.decode = file, encoding, codecs.getincrementaldecoder("utf-8")("backslashreplace").decode

    def writable(self):
        return True

    def isatty(self):
        return True

    def fileno(self):
        return self.file

    def write(self, data):
        write_all(self.file, printable_lines(self.decode(bytes(data))).encode(self.encoding, "backslashreplace"))
        return len(data)


def is_log_name(text):
    """Whether the text may be a log's identifier."""
    return 0 < len(text.encode("utf-8", "replace")) <= LONGEST_NAME and not re.search("[\0-\x1f\x7f\ud800-\udfff]", text)


def log_name(text):
    """The log's identifier of this canonical text. ValueError: it is none."""
    name = json.loads(text) if text.startswith('"') else ""
    if not is_log_name(name) or json.dumps(name, ensure_ascii=False) != text:
        raise ValueError
    return name


def tool():
    """The name under which the tool was called."""
    return os.path.basename(sys.argv[0])


def note(text):
    """Writes what was found, as a line on standard error."""
    print("%s%s" % (CLEARED if Progress.shown else "", printable_lines(str(text))), file=sys.stderr, flush=True)


def say(text):
    """Writes a line to standard error that begins with the tool's name. A failure there changes no status."""
    with contextlib.suppress(OSError):
        note("%s: %s" % (tool(), text))


def why(fault):
    """The name of the file and the system's words of an OSError. One without a name is of what is printed, unless something isn't there."""
    if fault.errno in (errno.EMFILE, errno.ENFILE) and NOT_NOW not in fault.strerror:  # no file is at fault, whatever its name
        return "%s: %s" % (fault.strerror, MORE_FILES)
    if isinstance(fault.filename, str):
        return "%s: %s" % (name_shown(fault.filename), fault.strerror)
    if fault.errno == errno.ENOENT:
        return fault.strerror + NO_ROOM if fault.strerror.startswith("No usable") else "the working folder: " + fault.strerror
    return "standard output: write fault: %s" % fault.strerror


@contextlib.contextmanager
def naming(name, numbers=None, advice=""):
    """A context in which an OSError, or one of these numbers, without the name of a file is given this one.

    But for the one that no folder is found for temporary files.
    """
    try:
        yield
    except OSError as fault:
        is_told = isinstance(fault.filename, str) or fault.filename is None and fault.errno == errno.ENOENT
        if not is_told and (numbers is None or fault.errno in numbers):
            fault.filename, fault.strerror = name, "%s%s" % (fault.strerror, advice)
        raise


def naming_temporary():
    """A context in which a write that finds no room is told of the folder of temporary files, unless its file has a name."""
    return naming(tempfile.gettempdir(), FULL, NO_ROOM)


class Progress:
    """A line on a terminal that says what a call is at, once it has lasted. A timer writes it, whatever the call waits for."""

    shown = None  # the one that has the line: one that begins within it has none

    def __init__(self, what=""):
        self.begun, self.what, self.number, self.is_written = time.monotonic(), what, None, False

    def __enter__(self):
        if Progress.shown is None and sys.stderr is not None and sys.stderr.isatty():
            Progress.shown = self
            signal.signal(signal.SIGALRM, self.write)
            signal.setitimer(signal.ITIMER_REAL, max(BETWEEN_LINES, BEGUN + QUIET - self.begun), BETWEEN_LINES)
        return self

    def __exit__(self, *_):
        if Progress.shown is self:
            signal.setitimer(signal.ITIMER_REAL, 0)
            signal.signal(signal.SIGALRM, signal.SIG_DFL)
            Progress.shown = None
            if self.is_written:
                self.write_line("")

    def tell(self, what):
        self.what, self.number = what, None

    def count(self, number, what):
        """Says how many of something there are so far."""
        self.what, self.number = what, number

    def write(self, *_):
        self.is_written = True
        said = self.what if self.number is None else "%s: %s" % (self.what, format(self.number, ","))
        self.write_line("%s: %s: %d s" % (tool(), said, time.monotonic() - self.begun))

    def write_line(self, text):
        with contextlib.suppress(OSError):
            os.write(2, (CLEARED + printable(text)[:(os.get_terminal_size(2).columns or 80) - 1]).encode("utf-8", "replace"))


# ---- Words

def version():
    """The version, with the commit that it was made of."""
    with contextlib.suppress(OSError), open(os.path.join(HERE, "version"), encoding="utf-8") as file:
        return file.read().strip()
    commit = ""
    with contextlib.suppress(OSError):  # there may be no git
        commit = subprocess.run(["git", "-C", HERE, "describe", "--always", "--dirty", "--abbrev=12"], stdin=subprocess.DEVNULL,
                                stdout=subprocess.PIPE, stderr=subprocess.DEVNULL, text=True, check=False).stdout.strip()
    return "of the sources, commit %s" % (commit or "unknown")


class Version(argparse.Action):
    def __call__(self, parser, *_):
        parser._print_message("%s %s\n" % (parser.prog, version()), sys.stdout)
        parser.exit()


class Help(argparse.RawDescriptionHelpFormatter):
    """The layout of a help text: of at most 100 columns, also on a wider terminal."""

    def __init__(self, prog):
        super().__init__(prog, width=min(shutil.get_terminal_size().columns, 102) - 2)


class Parser(argparse.ArgumentParser):
    """The parser of a tool's words. What it repeats of them can be printed."""

    def __init__(self, description, usage):
        if sys.getfilesystemencoding() != "utf-8":  # as cadf has words and names, whatever the locale says
            os.execv(sys.executable, [sys.executable, "-X", "utf8", *sys.argv])
        super().__init__(prog=tool(), description=description, usage=usage, allow_abbrev=False, formatter_class=Help)
        self._negative_number_matcher = re.compile("-[0-9]{1,6}(s|min|h|d|w)")  # a time before now is no option
        self.add_argument("--version", action=Version, nargs=0, help="print the version and the commit, and exit")

    def parse_args(self, args=None, namespace=None):
        """Reads the words. A file called `--` is named `./--`, since up to Python 3.12 argparse drops it after another file's name."""
        words = list(sys.argv[1:] if args is None else args)
        first = words.index("--") + 1 if "--" in words else len(words)
        words[first:] = ["./--" if word == "--" else word for word in words[first:]]
        return super().parse_args(words, namespace)

    def _get_value(self, action, text):
        """The value of a word. An option has one: what is empty is a variable of a script that isn't set."""
        if action.option_strings and not text:
            raise argparse.ArgumentError(action, "it is empty")
        return super()._get_value(action, text)

    def _print_message(self, message, file=None):
        """Prints help, the version or what is refused. Help that can't be written ends the call as any other fault."""
        if file is sys.stderr:
            super()._print_message(message, file)
        elif ended(lambda: print(message, end="")):
            os._exit(FAILED)

    def error(self, message):
        if sys.stderr is None:
            self.exit(USAGE)  # what argparse would say it to isn't there
        super().error(printable(message))


def whole_number(least, most):
    """Reads a whole number between these, in digits alone."""
    def number(text):
        if not re.fullmatch("[0-9]{1,19}", text) or not least <= int(text) <= most:
            raise argparse.ArgumentTypeError("not a whole number from %d to %d" % (least, most))
        return int(text)
    return number


def number_of_seconds(text):
    """Reads a number of seconds, below 2^31, in digits with a point or without."""
    if not re.fullmatch(r"[0-9]{1,10}(\.[0-9]{1,9})?", text) or float(text) >= 2 ** 31:
        raise argparse.ArgumentTypeError("not a number of seconds")
    return float(text)


def site_name(text):
    """The name of a site, as a word of a command line. ArgumentTypeError: it is empty, or would be standard input, which is no site."""
    if not text:
        raise argparse.ArgumentTypeError("it is empty")
    if text == "-":
        raise argparse.ArgumentTypeError("a site is replaced, so it cannot be standard input; ./- is a file of that name")
    return text


# ---- Inputs

class Input:
    """A regular file that is open for reading, and its name. `cadf` is given its descriptor, so it reads the file that was judged.

    `advice` is what to do if it is refused, if it is no file of the caller's, and `damaged` if it is damaged.
    """

    def __init__(self, name, file, advice=None, damaged=DAMAGED):
        self.name, self.file, self.advice, self.damaged = name_shown(name), file, advice, damaged

    def path(self):
        path = "/dev/fd/%d" % self.file.fileno()
        if not os.path.lexists(path):
            raise Fault("%s: not there, and files are given to cadf by it: mount /proc" % path)
        return path

    @contextlib.contextmanager
    def judged(self):
        """A context in which a read that fails by the file's own fault is a Fault that names it: others may be read."""
        try:
            yield
        except OSError as fault:
            if fault.errno in NOT_ITS_FAULT:
                raise
            raise Fault("%s: %s" % (self.name, fault.strerror)) from None

    def bytes_at(self, begin, count):
        """At most so many bytes at a place. Raises the system's words if they can't be read."""
        with self.judged():
            return os.pread(self.file.fileno(), count, begin)

    def first(self, count):
        """The first bytes. Raises the system's words if they can't be read."""
        return self.bytes_at(0, count)

    def last_digest(self):
        """The digits of the last line, if it is a replica file's."""
        with self.judged():
            return last_digest(self.file)

    def check_readable(self):
        """Raises the system's words if it can't be opened as `cadf` opens it, or not be read to its end."""
        with self.judged(), self.reading() as file:
            while file.read(2 ** 20):
                pass

    def log(self):
        """The log that it names as a replica file does, or None."""
        try:
            return log_name(self.first(LONGEST_FIRST).split(b"\n")[1][len("L "):].decode())
        except (IndexError, ValueError):
            return None

    @contextlib.contextmanager
    def reading(self):
        """The file from its beginning. What the system refuses of it has its name."""
        with naming(self.name), open(self.path(), "rb") as file:
            yield file

    def whole(self):
        """All its bytes. Fault: they can't be read, while others may be."""
        with self.judged(), self.reading() as file:
            return file.read()

    def kind(self):
        """What else the file is than one of facts, or None."""
        first = self.first(LONGEST_FIRST)
        return kind_of(first) or (OF_LINES if are_lines(first) else None)


@contextlib.contextmanager
def as_input(data, name):
    """These bytes as an input of that name."""
    with tempfile.TemporaryFile() as file:
        file.write(data)
        file.flush()
        yield Input(name, file)


def with_digest(lines):
    """The bytes of a file of these lines, with its digest line."""
    return lines + b"Z %s\n" % hashlib.sha256(lines).hexdigest().encode()


def undigested(data):
    """The lines of a replica file before its digest line."""
    return data[:data.rfind(b"\nZ ") + 1]


def last_digest(file):
    """The digits of the last line of an open replica file, or None if it is none."""
    size = os.fstat(file.fileno()).st_size
    found = LAST.fullmatch(os.pread(file.fileno(), LAST_LINE, max(0, size - LAST_LINE)))
    return found[1].decode() if found else None


def kind_of(first, others=()):
    """What else than facts begins with these bytes, or than what is read in place of facts, or None."""
    return next((words for begin, words in {**OTHER_KINDS, **dict(others)}.items() if first.startswith(begin)), None)


def are_lines(first):
    """Whether these bytes begin with a value of JSON in a line of its own, and go on."""
    line, _, rest = first.partition(b"\n")
    try:
        json.loads(line.decode("utf-8-sig"))
    except (ValueError, RecursionError):
        return False
    return bool(rest.strip())


def copy_of(pipe):
    """What can be read once, as a private file; of what is too large only so much that this shows.

    OSError: it can't be read, or the copy not be written.
    """
    copy = tempfile.TemporaryFile()
    with naming_temporary():
        for block in iter(lambda: pipe.read(min(2 ** 16, LARGEST + 1 - copy.tell())), b""):
            copy.write(block)
        copy.flush()
    return copy


def opened_file(name, flags=0, folder=None):
    """A regular file that is open for reading. OSError: it can't be opened, or is anything else, which isn't waited for."""
    file = open(name, "rb", opener=lambda path, own: os.open(path, own | flags | os.O_NONBLOCK, dir_fd=folder))
    mode = os.fstat(file.fileno()).st_mode
    if not stat.S_ISREG(mode):
        file.close()
        raise OSError(errno.EISDIR if stat.S_ISDIR(mode) else errno.EINVAL, "Is a directory" if stat.S_ISDIR(mode) else NOT_REGULAR)
    return file


def opened_or_copied(name):
    """A regular file that is open for reading, or a copy of what a pipe brings. OSError: it is neither, or can't be opened."""
    with open(name, "rb") as file:
        return copy_of(file) if stat.S_ISFIFO(os.fstat(file.fileno()).st_mode) else opened_file(name)


def grouped(items, size_of, most_bytes, most_items=sys.maxsize):
    """Yields the items in lists of at most so many bytes and so many items. One that is larger by itself is alone in its list."""
    group, size = [], 0
    for each in items:
        more = size_of(each)
        if group and (size + more > most_bytes or len(group) == most_items):
            yield group
            group, size = [], 0
        group.append(each)
        size += more
    if group:
        yield group


def most_files():
    """Has the system allow as many open files as it can, since `cadf` opens each once more. Returns how many."""
    _, most = resource.getrlimit(resource.RLIMIT_NOFILE)
    with contextlib.suppress(ValueError):  # it allows fewer by now: fs.nr_open was lowered
        resource.setrlimit(resource.RLIMIT_NOFILE, (most, most))
    return resource.getrlimit(resource.RLIMIT_NOFILE)[0]


def allow_inputs(count, advice=MORE_FILES, beside=BESIDE_INPUTS):
    """Has the system allow as many inputs to be open, beside others. Refuses more than it can, which says nothing of any of them."""
    most = most_files()
    wanted = 2 * count + beside  # `cadf` opens each once more
    if most != resource.RLIM_INFINITY and wanted > most:
        raise Fault("%d files are to be open, and the system allows %d: %s" % (wanted, most, advice))


@contextlib.contextmanager
def opened(names, pipes=False):
    """Opens the files of these names for a call. `-` is standard input, which is copied, since it can be read once.

    Fault: one of them can't be opened, or they are more than may be open.
    """
    allow_inputs(len(names), beside=OPEN_AT_LEAST)
    with contextlib.ExitStack() as files:
        inputs = []
        for name in names:
            try:
                file = copy_of(open(0, "rb", closefd=False)) if name == "-" else (opened_or_copied if pipes else opened_file)(name)
            except OSError as fault:
                name = fault.filename or ("standard input" if name == "-" else name)
                raise Fault("%s: %s" % (name_shown(name), fault.strerror)) from None
            inputs.append(Input("standard input" if name == "-" else name, files.enter_context(file)))
        yield inputs


# ---- Calls of cadf

def refusal(said, status, inputs):
    """The refusal that `cadf` wrote to standard error."""
    text = re.sub("^cadf: ", "", said.strip()) or "cadf ended with %d" % status
    named = re.match(r"input (\d+): (.*)", text, re.DOTALL)
    if named and 0 < int(named[1]) <= len(inputs):
        return Refusal(named[2], status, int(named[1]), inputs)
    return Refusal(text, status, None, inputs)


def other_log(log):
    """Why a file of that log is refused."""
    return with_advice("other log: %s" % json.dumps(log))


def with_advice(text):
    """The text, with what to do next: by how it begins, behind the number of a fact."""
    cause = re.sub(r"^fact \d+: ", "", text)
    return next(("%s: %s" % (text, advice) for begin, advice in ADVICE.items() if cause.startswith(begin)), text)


def explained(said, which):
    """What `cadf` said of an input, or what else than a file of facts it is, with what to do next."""
    is_lost = which and said == "not JSON" and which.name.endswith(".cadf")  # as a site's file that a shell has emptied
    text = (which.kind() if which and OF_NO_KIND.match(said) else None) or (said + ": " + DAMAGED if is_lost else with_advice(said))
    return text.replace(DAMAGED, which.damaged) if which else text


@contextlib.contextmanager
def started(words, **options):
    """Starts a program, which doesn't outlive the call. A tool that is asked to end ends what it has started itself.

    OSError: it can't be started.
    """
    hold_signals()  # until the program is known that is to be ended
    try:
        child = subprocess.Popen(words, **options)
    except BaseException as fault:
        if isinstance(fault, OSError) and fault.filename is None:
            fault.filename, fault.strerror = words[0], "%s: %s" % (fault.strerror, NOT_NOW)
        elif isinstance(fault, OSError) and fault.filename == CADF:
            fault.strerror += ": name the command by CADF, or put it on PATH"
        release_signals()
        raise
    with child:
        try:
            release_signals()
            with Progress(" ".join(map(os.path.basename, words[:2]))):
                yield child
        except BaseException:
            child.terminate()
            raise


def started_thread(work, *words):
    """Starts a thread, which doesn't outlive the program. Fault: it can't be started."""
    thread = threading.Thread(target=work, args=words, daemon=True)
    try:
        thread.start()
    except RuntimeError:
        raise Fault("a thread: " + NOT_NOW) from None
    return thread


def heard(child):
    """What a cadf-take that was started writes to standard error, but that it waits for a lock: that is said at once."""
    lines = []
    for line in child.stderr:
        lines.append(line.decode("utf-8", "backslashreplace"))
        if lines[-1].startswith("cadf-take: waits for "):
            say(lines.pop().removeprefix("cadf-take: ").rstrip())
    return "".join(lines)


def started_cadf(words, inputs, output, keep=(), union=1):
    """Starts `cadf` with these words over open inputs, of which the first so many are FROM together.

    `keep` has further descriptors that it inherits, as that of a lock.
    """
    paths = [each.path() for each in inputs]
    more = [word for path in paths[1:union] for word in ("--from", path)]
    # With the signals that Python ignores, a limit on a file's size is a failed write of the command, not its end.
    return started([CADF, *words, *more, "--", *paths[:1], *paths[union:]], stdin=subprocess.DEVNULL, stdout=output,
                   stderr=subprocess.PIPE, restore_signals=False, preexec_fn=CONFINE, pass_fds=[*keep, *(each.file.fileno() for each in inputs)])


def check_end(child, said, inputs):
    """Raises the Refusal of `cadf`, which has written `said` to standard error, or the Fault that it ended otherwise, if it did."""
    status = child.wait()
    if status not in (DONE, REFUSED, USAGE, FAILED, MEMORY):
        why_ended = ": " + OUT_OF_TIME if status == -signal.SIGXCPU else ""
        raise Fault("%s: ended by %s%s" % (CADF, "status %d" % status if status > 0 else "signal %d" % -status, why_ended))
    if status:
        raise refusal(said.decode("utf-8", "backslashreplace"), status, inputs)


def is_costly(fault):
    """Whether a program took more than it may, or more memory than there is: that says nothing of what others are run for."""
    return fault.status == MEMORY or OUT_OF_TIME in str(fault)


def another_program(kind, name=None):
    """The Fault that CADF, or the program of that name, has written no such thing: it isn't `cadf`."""
    return Fault("%s: what it writes is no %s" % (name_shown(name or CADF), kind))


def command_version():
    """Returns what CADF says of its version: `cadf` with a version, or `cadf, second implementation`."""
    with started([CADF, "--version"], stdin=subprocess.DEVNULL, stdout=subprocess.PIPE, stderr=subprocess.PIPE) as child:
        said, fault = child.communicate()
    check_end(child, fault, [])
    if not re.fullmatch(rb"cadf(?: [^ \n]+|, second implementation)\n", said):
        raise another_program("answer of `cadf --version`")
    return said.decode("utf-8", "replace").strip()


def check_written(command, first, last=None):
    """Raises that what CADF has written doesn't begin as what this command writes or, if its last bytes are given, doesn't end so."""
    kind, begin = WRITTEN.get(command, ("", b""))
    is_cut = last is not None and begin.startswith(b"CADF-") and not LAST.fullmatch(last)
    if is_cut or not first.startswith(begin):
        raise another_program(kind)


def cadf(words, inputs, output=subprocess.DEVNULL, keep=(), where=None, union=1):
    """Runs `cadf` with these words over open inputs, as `started_cadf`. Returns what it wrote, if `output` is a pipe.

    `where` names the file that is written, by a descriptor, so that a failed write is told with the system's words; else it is
    a temporary one. Refusal: what `cadf` refuses. Fault: it ended otherwise, could not write, or wrote what this command
    doesn't. OSError: it can't be started.
    """
    begin = os.lseek(output, 0, os.SEEK_CUR) if output >= 0 else 0
    with started_cadf(words, inputs, output, keep, union) as child:
        written, said = child.communicate()
        if output >= 0 and said.strip() == b"cadf: write fault":
            raise Fault("%s: write fault%s%s" % (name_shown(where or tempfile.gettempdir()), write_fault(output), "" if where else NO_ROOM))
        check_end(child, said, inputs)
    if output >= 0:
        with open("/dev/fd/%d" % output, "rb") as file:
            file.seek(begin)
            first = file.read(LONGEST_BEGIN)
            file.seek(max(begin, os.fstat(output).st_size - LAST_LINE))
            check_written(words[0], first, file.read())
    elif written is not None:
        check_written(words[0], written, written[-LAST_LINE:])
    return written


def log_of(inputs):
    """The log that `cadf` says that the files are of."""
    answer = cadf(["check"], inputs, subprocess.PIPE)
    return json.JSONDecoder().raw_decode(answer.decode(), len("ok "))[0]


def in_order(lines, folder):
    """Yields the distinct ones of some lines, in the order of their bytes. What takes much memory goes into files of the folder."""
    words = ["sort", "-u", "--buffer-size=64M", "--temporary-directory=" + folder]
    with started(words, stdin=subprocess.PIPE, stdout=subprocess.PIPE, env=dict(os.environ, LC_ALL="C")) as child:
        with contextlib.suppress(BrokenPipeError), child.stdin:
            child.stdin.writelines(lines)
        yield from child.stdout
        if child.wait():
            raise Fault("sort: it could not put the lines in order")


def write_fault(file):
    """Why nothing more can be written to an open file, in the system's words, if it still can't be."""
    try:
        os.write(file, b"\n" * 4096)
    except OSError as fault:
        return ": " + fault.strerror
    return ""


# ---- Files that are written

def write_all(file, data):
    """Writes all the bytes to an open file."""
    while data:
        data = data[os.write(file, data):]


def sync(name):
    """Waits until the file, or the names in the folder, are on the disk."""
    with open_descriptor(os.open(name, os.O_RDONLY)) as file:
        os.fsync(file)


@contextlib.contextmanager
def open_descriptor(file):
    """Closes the descriptor at the end."""
    try:
        yield file
    finally:
        os.close(file)


def new_lock(name, give, folder=None):
    """Opens a lock's new file, by its path, or by a name in an open folder. FileExistsError: it is there.

    `give` gives it its group and mode. It gets its name after that, if the file system can do so: a call that is killed between
    would leave a lock that others of the group can't open.
    """
    try:
        file = os.open(os.path.dirname(name) or ".", os.O_RDWR | os.O_TMPFILE, 0o600, dir_fd=folder)
        try:
            give(file)
            os.link("/dev/fd/%d" % file, name, src_dir_fd=file, dst_dir_fd=folder)  # with a folder it follows the link in /dev/fd
        except BaseException:
            os.close(file)
            raise
    except FileExistsError:
        raise
    except OSError:  # as where no file can be without a name, or get one by a link
        file = os.open(name, os.O_RDWR | os.O_CREAT | os.O_EXCL, 0o600, dir_fd=folder)
        give(file)
    return file


def wait_for_lock(file, name, seconds):
    """Waits for the lock of an open file, at most so long, without limit for None. Who can read the file can hold the lock.

    Fault: others may read the file, or the time is over.
    """
    if os.fstat(file).st_mode not in LOCK_MODES:
        raise Fault("%s: it has to be a file of mode 0600, or 0660 for a group: who can read it can hold it" % name_shown(name))
    begun, told = time.monotonic(), False
    while True:
        try:
            return fcntl.flock(file, fcntl.LOCK_EX | fcntl.LOCK_NB)
        except BlockingIOError:
            waited = time.monotonic() - begun
        except OSError as fault:
            raise Fault("%s: %s: callers take turns by this lock: have it on a file system with locks" % (name_shown(name), fault.strerror)) from None
        if seconds is not None and waited >= seconds:
            raise Fault("%s: another call holds this lock: try again, or wait longer by --wait" % name_shown(name))
        if waited >= PATIENCE and not told:
            say("waits for %s, which another call holds" % name_shown(name))
            told = True
        time.sleep(PAUSE)


def check_lock(file, path, name=None, folder=None):
    """Raises that a lock that is held isn't the file of that path any more, or of a name in an open folder: another call may hold that one."""
    with contextlib.suppress(FileNotFoundError):
        if os.path.samestat(os.fstat(file), os.stat(name or path, dir_fd=folder, follow_symlinks=False)):
            return
    raise Fault("%s: it was removed meanwhile: make the call again, and leave this file where it is" % name_shown(path))


@contextlib.contextmanager
def new_file(name, inputs):
    """A new private file. What a killed call left there goes first; unless it was renamed, the file goes at the end.

    Fault: it is one of the inputs, or a folder. OSError: it can't be made.
    """
    try:
        for each in inputs:
            if os.path.samestat(os.lstat(name), os.fstat(each.file.fileno())):
                raise Fault("%s: the union is written there; rename it first" % each.name, USAGE)
        os.unlink(name)
    except FileNotFoundError:
        pass
    except IsADirectoryError:
        raise Fault("%s: %s" % (name_shown(name), IN_THE_WAY)) from None
    with open_descriptor(os.open(name, os.O_WRONLY | os.O_CREAT | os.O_EXCL, 0o600)) as file:
        try:
            yield file
        finally:
            with contextlib.suppress(OSError):
                os.unlink(name)


# ---- The end of a call

class Stopped(BaseException):
    """A signal asked the call to end. No part of the call takes that for a fault of a file, and goes on with the next."""

    held = None  # the signals that have come since hold_signals

    def __init__(self, number):
        super().__init__("stopped by %s" % signal.Signals(number).name)
        self.status = 128 + number


def hold_signals():
    """Has a signal that asks the call to end wait until release_signals. It reaches the main thread alone."""
    if threading.current_thread() is threading.main_thread():
        Stopped.held = []


def release_signals():
    if threading.current_thread() is threading.main_thread():
        held, Stopped.held = Stopped.held, None
        if held:
            stop(held[0], None)


@contextlib.contextmanager
def temporary_folder(folder=None):
    """A private folder in that one, or where temporary files are, which goes at the end. A signal that asks the call to end waits meanwhile."""
    with contextlib.ExitStack() as steps:
        hold_signals()
        steps.callback(release_signals)
        name = steps.enter_context(tempfile.TemporaryDirectory(dir=folder))
        steps.callback(hold_signals)
        release_signals()
        yield name


def stop(number, _):
    if Stopped.held is not None:
        Stopped.held.append(number)
        return
    for each in STOPPING:
        signal.signal(each, signal.SIG_IGN)
    raise Stopped(number)


def raise_later(found):
    """Has a signal come again whose Stopped was raised where Python passes over it, as while an object is removed."""
    if not isinstance(found.exc_value, Stopped):
        sys.__unraisablehook__(found)
        return
    number = found.exc_value.status - 128
    signal.signal(number, stop)
    threading.Timer(PAUSE, os.kill, (os.getpid(), number)).start()


def ask_to_end(handler):
    """Has the signals that ask a program to end call this. One that is ignored, as by nohup, stays so."""
    for number in STOPPING:
        if signal.getsignal(number) is not signal.SIG_IGN:
            signal.signal(number, handler)


def prepare_streams():
    """Has a write to standard output go on that is cut short, and escapes what it can't encode. No file gets the number of a closed standard input.

    A program that had the streams before may have left them so that a read of what is still to come looks like the end.
    """
    for number in range(3):
        with contextlib.suppress(OSError):
            os.set_blocking(number, True)
    if isinstance(getattr(sys.stdout, "buffer", None), io.RawIOBase):  # as with PYTHONUNBUFFERED
        sys.stdout = open(1, "w", encoding=sys.stdout.encoding, closefd=False)
    if sys.stdout.isatty():
        raw = io.BufferedWriter(Terminal(1, sys.stdout.encoding))
        sys.stdout = io.TextIOWrapper(raw, encoding="utf-8", errors="backslashreplace", line_buffering=True)
    elif isinstance(sys.stdout, io.TextIOWrapper):
        sys.stdout.reconfigure(errors="backslashreplace")  # as standard error does, whatever PYTHONIOENCODING says
    if sys.stdin is None:
        os.open(os.devnull, os.O_WRONLY)  # what reads it fails


def is_unread():
    """Whether standard output is a pipe that nobody reads any more."""
    looking = select.poll()
    looking.register(1, 0)
    return any(found & select.POLLERR for _, found in looking.poll(0))


def ended(run, *words):
    """Runs a tool's work. Returns the status; why the call ended is said on standard error.

    A signal that asks it to end is a fault like others: what the call has begun is ended, and new files are removed.
    """
    if sys.stderr is None:
        return FAILED  # what is found couldn't be said
    try:
        try:
            ask_to_end(stop)
            signal.signal(signal.SIGCHLD, signal.SIG_DFL)  # where the caller's caller ignores it, each program that fails seems to end well
            sys.unraisablehook = raise_later
            os.umask(os.umask(0o077) & 0o077)  # what is made is its owner's to read and write, whatever the caller's mask says
            if sys.stdout is None:
                raise OSError(errno.EBADF, os.strerror(errno.EBADF))
            prepare_streams()
            most_files()
            status = run(*words)
            sys.stdout.flush()
            return status
        finally:
            ask_to_end(signal.SIG_DFL)  # why the call ended is told, and nothing is left that has to be ended
    except (Fault, Stopped) as fault:
        status, said = fault.status, str(fault)
    except OSError as fault:
        status, said = (MEMORY, OUT_OF_MEMORY) if fault.errno == errno.ENOMEM else (FAILED, why(fault))
        if isinstance(fault, BrokenPipeError) and is_unread():
            return status  # who has read enough, as `head`, needn't be told
    except MemoryError:
        status, said = MEMORY, OUT_OF_MEMORY
    say(said)
    return status
