"""What was erased of a log: a list of names of keys and of facts, and what it leaves of files. docs/FORMATS.md has the form.

A site that is a folder names its list in its file `site`; one that erased nothing has none. What the list leaves out is neither taken nor
kept. Which facts these are `cadf omit` says, and nothing else. A tool imports this as it imports cadf_toolkit, and uses

  Folder.erased()            the list of a folder: an Erased
  read(input, log)           the list that a file has
  left_of(listed, inputs)    what a list leaves of inputs, and how many facts it leaves out
  names_of(inputs)           the names of the facts and of the keys that files have together
  keys_in_file(input, log)   the keys that a file of keys has, as keys_file(log, keys) makes it
"""
import contextlib
import hashlib
import json
import os
import re
import subprocess
import tempfile

from cadf_toolkit import REFUSED, Fault, Input, another_program, as_input, cadf, grouped, log_name, other_log, with_digest

FILE = re.compile(r"erased\.([0-9a-f]{64})")
HEAD = "CADF-ERASED 1\nL %s\n"
NAME = re.compile(rb"[FK] [0-9a-f]{64}")
LINE = 67  # bytes of a name's line
COUNTED = re.compile(rb" atoms (\d+) conflicts \d+\n$")  # what cadf says of files that it checks
KEYS, KEY = b"CADF-KEYS 1", re.compile(rb'\["[EGMPR]","[^\n]*"\]')  # how a file of keys begins, and a line of one
NO_KEYS = "%s: no file of keys, as `cadf-events --keys SITE` writes it"
NOT_WHOLE = "%s: it is damaged, or not whole: have it written again"
MOST_AT_ONCE = 2 ** 28  # bytes of inputs that are looked at together
LIST = "the list of what was erased"


def digest_name(letter, *texts):
    """The name in a list of what has these texts: `K` of a key, which is a letter and a text, and `F` of a fact."""
    return letter + hashlib.sha256(json.dumps(texts, ensure_ascii=False, separators=(",", ":")).encode()).hexdigest().encode()


def name_of_key(letter, key):
    """The name of a key in a list."""
    return digest_name(b"K ", letter, key)


def name_of_fact(atom):
    """The name of a fact in a list, by its texts."""
    return digest_name(b"F ", *atom)


class Erased:
    """A list of what was erased of a log, by the canonical text of its name: lines without their line feeds."""

    def __init__(self, log, names=()):
        self.log, self.names, self.made = log, frozenset(names), None

    @classmethod
    def read(cls, data, log):
        """Reads the list of a folder of that log. None if it is no such list."""
        begin, end = len((HEAD % log).encode()), data.rfind(b"Z ")
        found = cls(log, data[begin:end].split(b"\n")[:-1])
        return found if all(map(NAME.fullmatch, found.names)) and found.bytes() == data else None

    def bytes(self):
        """The file. It is made once: a list may have millions of lines."""
        if self.made is None:
            self.made = with_digest((HEAD % self.log).encode() + b"".join(name + b"\n" for name in sorted(self.names)))
        return self.made

    def size_with(self, more):
        """How many bytes the list would have with so many names more, or the own ones."""
        return len(self.bytes()) + LINE * max(0, more)

    def digits(self):
        """The digits of its last line, by which it is named."""
        return self.bytes()[-65:-1].decode()

    def with_names(self, names):
        """The list that has these names too."""
        return Erased(self.log, self.names.union(names))

    def keys(self):
        """The names of keys that it has."""
        return {name for name in self.names if name.startswith(b"K")}

    def opened(self):
        """The list as an input."""
        return as_input(self.bytes(), LIST)


def file_name(digits):
    return "erased." + digits


def nothing(log):
    """A replica file of the log, by its canonical text, without facts, as an input: it names the log before others do."""
    return as_input(with_digest(("CADF-REPLICA 2\nL %s\n" % log).encode()), "a file without facts")


def read(input, log):
    """The list that a file has, of a log by the canonical text of its name. Fault: `cadf` refuses it."""
    with nothing(log) as empty:
        cadf(["omit"], [input, empty])
    found = Erased.read(input.whole(), log)
    if found is None:
        raise Fault("%s: no list of what was erased" % input.name, REFUSED)
    return found


def facts_in(inputs, keep=()):
    """How many facts files have together."""
    found = COUNTED.search(cadf(["check"], inputs, subprocess.PIPE, keep))
    if not found:
        raise another_program("answer of `cadf check`")
    return int(found[1])


def names_of(inputs):
    """The names of the facts, and of their keys, that files have together."""
    return set(filter(NAME.fullmatch, cadf(["sealed"], inputs, subprocess.PIPE).split(b"\n")))


def omitted(listed, empty, inputs, keep=()):
    """What an open list leaves of inputs together, as an input that has the name of the first."""
    file = tempfile.TemporaryFile()
    cadf(["omit"], [listed, empty, *inputs], file.fileno(), keep)
    return Input(inputs[0].name, file, inputs[0].advice, inputs[0].damaged)


@contextlib.contextmanager
def left_of(listed, inputs, keep=()):
    """What a list leaves of inputs, each in its place and under its name, and how many facts it leaves out of all. `keep` is as of `cadf`.

    An input of which nothing goes is as it was.
    """
    if not listed.names:
        yield inputs, 0
        return
    left, count = [], 0
    with contextlib.ExitStack() as files:
        opened, empty = files.enter_context(listed.opened()), files.enter_context(nothing(listed.log))
        for group in grouped(inputs, lambda each: os.fstat(each.file.fileno()).st_size, MOST_AT_ONCE):
            with omitted(opened, empty, group, keep).file as file:
                gone = facts_in([empty, *group], keep) - facts_in([Input(LIST, file)], keep)
            count += gone
            for each in group:
                own = omitted(opened, empty, [each], keep) if gone else each
                if own is not each:
                    files.enter_context(own.file)
                left.append(own)
        yield left, count


# ---- Files of keys

def keys_in_file(input, log):
    """The keys that a file of keys has, each a letter and a text, for a site of that log. Fault: it is refused."""
    data = input.whole()
    lines = data.split(b"\n")
    if lines[0] != KEYS or len(lines) < 2:
        raise Fault(NO_KEYS % input.name, REFUSED)
    try:
        own = log_name(lines[1].removeprefix(b"L ").decode()) if lines[1].startswith(b"L ") else None
        keys = [(letter, key) for letter, key in map(json.loads, filter(KEY.fullmatch, lines[2:-2]))]
        is_whole = own is not None and data == keys_file(own, keys)
    except (ValueError, RecursionError):  # also of a text that has no UTF-8
        is_whole = False
    if not is_whole:
        raise Fault(NOT_WHOLE % input.name, REFUSED)
    if own != log:
        raise Fault("%s: %s" % (input.name, other_log(own)), REFUSED)
    return keys


def keys_file(log, keys):
    """The file of keys of a log, each a letter and a text, which may come in any order."""
    lines = {json.dumps(key, ensure_ascii=False, separators=(",", ":")).encode() for key in keys}
    return with_digest(b"".join(line + b"\n" for line in [KEYS, b"L " + json.dumps(log, ensure_ascii=False).encode(), *sorted(lines)]))
