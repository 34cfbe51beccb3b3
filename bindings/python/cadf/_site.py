"""Sites. Each call starts the tool that does its work, so it is of one implementation with the tools, with their locks and files."""
import contextlib
import csv
import datetime
import html
import itertools
import json
import os
import re
import signal
import subprocess
import warnings
from typing import Any, Dict, Iterable, Iterator, List, Mapping, NamedTuple, Optional, Sequence, Tuple, Union

from ._errors import ERRORS, CadfError, CadfWarning, Failed, WrongArgument
from ._inputs import Input, bytes_of

Path = Union[str, "os.PathLike[str]"]
Time = Union[str, datetime.date]

DONE, LEFT = 0, 5
# What events are asked by: options of cadf-events, which may be given several times.
KINDS = ("id", "initiator", "target", "observer", "action", "outcome", "type", "via", "grep", "match")
CONTRADICTED = re.compile(rb'\{"contradicted":(\d+),"event":(.*)\}\n', re.DOTALL)  # an event's own text begins with its action
MOST_ROWS, LONGEST_SHOWN = 20, 200  # rows of a table in a notebook, and characters of a field


# ---- Calls of tools

class Given(NamedTuple):
    """An input of a tool: the name by which it opens it, and the descriptor of one that is in memory."""

    name: str
    file: Optional[int] = None


def given(value: Union[Input, "os.PathLike[str]"], files: contextlib.ExitStack) -> Given:
    """An input as a tool is given it: a file by its name, and bytes or a text in memory, as long as `files` is open."""
    if isinstance(value, os.PathLike):
        return Given(name_of(value))
    data, file = bytes_of(value), os.memfd_create("cadf")
    files.callback(os.close, file)
    with open(file, "wb", closefd=False) as output:
        output.write(data)
    return Given("/dev/fd/%d" % file, file)


def name_of(path: Path) -> str:
    """The name of a file as a word of a command line: `-` would be standard input."""
    name = os.fsdecode(path)
    return "./-" if name == "-" else name


class Call:
    """A call of a tool by its words. The status is known once all lines are read."""

    def __init__(self, words: Sequence[str], inputs: Sequence[Given] = (), is_told: bool = True) -> None:
        self.words, self.inputs, self.is_told, self.status = words, inputs, is_told, DONE

    def lines(self) -> Iterator[bytes]:
        """Yields what the tool writes. If that isn't read to its end, the tool is ended."""
        if signal.getsignal(signal.SIGCHLD) is signal.SIG_IGN:
            raise Failed("%s: SIGCHLD is ignored here, so nobody would know how it ends" % self.words[0])
        with contextlib.ExitStack() as files:
            said = files.enter_context(os.fdopen(os.memfd_create("cadf"), "w+b"))
            descriptors = [each.file for each in self.inputs if each.file is not None]
            try:
                child = files.enter_context(subprocess.Popen(
                    self.words, stdin=subprocess.DEVNULL, stdout=subprocess.PIPE, stderr=said, pass_fds=descriptors))
            except OSError as fault:
                raise Failed("%s: %s: install the tools, and have them on PATH" % (self.words[0], fault.strerror)) from None
            assert child.stdout
            try:
                yield from child.stdout
                self.status = child.wait()
            except BaseException:
                child.terminate()
                raise
            said.seek(0)
            self.judge(said.read().decode("utf-8", "backslashreplace").splitlines())

    def judge(self, said: List[str]) -> None:
        """Raises why the tool has ended, or warns of what is left, by its lines on standard error."""
        name = self.words[0] + ": "
        own = [line[len(name):] for line in said if line.startswith(name)]
        if self.status not in (DONE, LEFT):
            raise self.error("; ".join(own or said[-1:]) or "%sended with %d" % (name, self.status))
        for line in own if self.is_told else ():
            warnings.warn(line, CadfWarning, stacklevel=5)

    def error(self, text: str) -> CadfError:
        """The error of that text, with the number of the input that it names."""
        kind = ERRORS.get(self.status, Failed)
        for number, each in enumerate(self.inputs, 1):
            if text.startswith(each.name + ": "):
                found = kind("input %d: %s" % (number, text[len(each.name) + 2:]))
                if each.file is None:  # a file is told by its name
                    found.text, found.args = text, (text,)
                return found
        return kind(re.sub("^error: ", "", text))

    def whole(self) -> bytes:
        """All that the tool writes."""
        return b"".join(self.lines())


def option(name: str, value: object) -> List[str]:
    """The word of an option, if it is given."""
    return [] if value is None else ["--%s=%s" % (name.replace("_", "-"), value)]


def time_option(name: str, value: Optional[Time]) -> List[str]:
    """The word of an option that is a time. WrongArgument: it has no offset, so nobody knows which one is meant."""
    if isinstance(value, datetime.datetime) and value.utcoffset() is None:
        raise WrongArgument("%s: a time without an offset: give it one, as datetime.timezone.utc" % name)
    return option(name, value.isoformat() if isinstance(value, datetime.date) else value)


# ---- What is found

def table(head: Iterable[str], rows: Iterable[Iterable[object]]) -> str:
    """A table of HTML with the first rows. What can't be printed, as what turns other characters, is escaped as in JSON; long texts are cut."""
    def line(kind: str, fields: Iterable[object]) -> str:
        texts = (text[:LONGEST_SHOWN] + ".." * (len(text) > LONGEST_SHOWN) for text in map(str, fields))
        shown = ("".join(each if each.isprintable() else json.dumps(each)[1:-1] for each in text) for text in texts)
        return "<tr>%s</tr>" % "".join("<{0}>{1}</{0}>".format(kind, html.escape(text)) for text in shown)

    found = list(itertools.islice(rows, MOST_ROWS + 1))
    note = "<caption>the first %d</caption>" % MOST_ROWS if len(found) > MOST_ROWS else ""
    return "<table>%s%s%s</table>" % (note, line("th", head), "".join(line("td", row) for row in found[:MOST_ROWS]))


class Event(Dict[str, Any]):
    """An event, by the members of its JSON. `contradicted` is how many bodies it has that contradict, of which this is one; 0 for none."""

    contradicted = 0


class Events:
    """The events that answer a question, in the order of their times. Each iteration asks anew, of the site as it stands then."""

    def __init__(self, words: Sequence[str], site: str) -> None:
        self._words, self._site = words, site

    def _found(self) -> Iterator[Tuple[int, bytes]]:
        """Yields how many bodies an event has that contradict, and its text."""
        for line in Call([*self._words, "--", self._site]).lines():
            open_body = CONTRADICTED.fullmatch(line)
            yield (int(open_body[1]), open_body[2]) if open_body else (0, line[:-1])

    def __iter__(self) -> Iterator[Event]:
        for contradicted, body in self._found():
            event = Event(json.loads(body))
            if contradicted:
                event.contradicted = contradicted
            yield event

    def bodies(self) -> Iterator[bytes]:
        """Yields the canonical text of each event, of which nothing is parsed."""
        return (body for _, body in self._found())

    def _repr_html_(self) -> str:
        call = Call([*self._words, "--format=csv", "-n", str(MOST_ROWS + 1), "--", self._site], is_told=False)
        head, *rows = csv.reader(call.whole().decode().splitlines(True))
        return table(head, rows)


class Conflicts:
    """The keys with several values, as dictionaries. Each iteration asks anew, of the site as it stands then.

    Each has its `letter`, its `key`, its `state`, which is "open", "settled" or "unknown", and its `values` in order: the `value`, its
    `digest`, and whether it is `ruled`.
    """

    def __init__(self, site: str) -> None:
        self._site = site

    def __iter__(self) -> Iterator[Dict[str, Any]]:
        return map(json.loads, Call(["cadf-conflicts", "--format=jsonl", "--", self._site], is_told=False).lines())

    def _repr_html_(self) -> str:
        return table(("state", "letter", "key", "values"), ((each["state"], each["letter"], each["key"], len(each["values"])) for each in self))


# ---- Sites

class Site:
    """A site by its path: a replica file, or a folder of windows. It keeps nothing of what the site holds, and any number may be of one.

    >>> site = Site("north/")
    >>> site.take('{"id": "audit", "name": "a", "events": []}', by="day")
    True
    >>> site.take('{"id": "audit", "name": "b", "events": []}')
    True
    >>> conflict, = site.conflicts()
    >>> [each["value"] for each in conflict["values"]]
    ['a', 'b']
    >>> site.rule([(conflict, 2)], by="ann", why="asked at north")
    >>> [each["state"] for each in site.conflicts()]
    ['settled']
    >>> site.seal().decode().splitlines()[:3]
    ['CADF-SITE-SEAL 1', 'L "audit"', 'B day']

    A call raises a CadfError as the functions of this module do, Failed too. What a tool has done and has still to say of it, with status
    5, is a CadfWarning.
    """

    def __init__(self, path: Path) -> None:
        self.path = name_of(path)

    def __repr__(self) -> str:
        return "Site(%r)" % self.path

    def events(self, since: Optional[Time] = None, until: Optional[Time] = None, *, contradicted: str = "mark", reverse: bool = False,
               failed: bool = False, late: Optional[str] = None, **where: Union[str, Iterable[str]]) -> Events:
        """Returns the events from `since` on and before `until` that answer a question, of a folder by its index.

        Times are texts as cadf-events takes them, or of `datetime`. Patterns, in which `*` stands for any characters, are given by what they
        match: id, initiator, target, observer, action, outcome, type, via; and also grep and match. Several of one are alternatives. Bodies
        that contradict are among the others, alone, or left out: `contradicted` is "mark", "only" or "hide".

        >>> [event["action"] for event in Site("south/").events("2024-03", initiator=["u*", "v"], contradicted="hide")]
        ['read', 'create']
        """
        strange = sorted(where.keys() - set(KINDS))
        if strange:
            raise TypeError("events are asked by %s, and not by %s" % (", ".join(KINDS), strange[0]))
        words = ["cadf-events", "--format=jsonl", "--contradicted=" + contradicted, *["--reverse"] * reverse, *["--failed"] * failed]
        words += [*time_option("since", since), *time_option("until", until), *option("late", late)]
        for kind, patterns in where.items():
            words += [word for each in ([patterns] if isinstance(patterns, str) else patterns) for word in option(kind, each)]
        return Events(words, self.path)

    def take(self, *inputs: Union[Input, "os.PathLike[str]"], by: Optional[str] = None, log: Optional[str] = None, wait: Optional[float] = None,
             windows: Union[int, str, None] = None, not_before: Optional[Time] = None, not_after: Optional[Time] = None,
             rest: Optional[Path] = None) -> bool:
        """Takes inputs into the site, whole or not at all: bytes and texts, and files that a `pathlib.Path` names.

        `by` makes a folder, by "month", "day" or "hour". Other calls are waited for, at most `wait` seconds. With `rest` what is beyond the
        limits is written to that file, and all else is taken: False. Refused: an input is refused, or beyond the limits.
        """
        words = ["cadf-take", *option("by", by), *option("log", log), *option("wait", wait), *option("windows", windows)]
        words += [*time_option("not_before", not_before), *time_option("not_after", not_after)]
        words += option("rest", None if rest is None else name_of(rest))
        with contextlib.ExitStack() as files:
            found = [given(each, files) for each in inputs]
            call = Call([*words, "--", self.path, *(each.name for each in found)], found)
            call.whole()
        return call.status == DONE

    def conflicts(self) -> Conflicts:
        """Returns the keys with several values, those that a ruling settles too."""
        return Conflicts(self.path)

    def rule(self, choices: Iterable[Tuple[Mapping[str, Any], int]], *, by: Optional[str] = None, why: Optional[str] = None,
             at: Optional[Time] = None, sign: Optional[Path] = None, again: bool = False) -> None:
        """Rules that the log is to show these values, each a conflict and the place of the value, from 1; and takes the rulings and their records.

        `by` is who rules, or else user@host. `sign` is a file with a key, by which ssh-keygen signs. Refused: the site has another value at
        that place by now, or another one is ruled and not `again`. A ruling can't be taken back.
        """
        lines = ["%s %s %d %s\n" % (conflict["letter"], json.dumps(conflict["key"]), place, digest_at(conflict, place)) for conflict, place in choices]
        with contextlib.ExitStack() as files:
            chosen = given("".join(lines), files)
            words = ["cadf-conflicts", "--rule=" + chosen.name, *option("as", by), *option("why", why), *time_option("at", at)]
            words += [*option("sign", None if sign is None else name_of(sign)), *["--again"] * again]
            rulings = Call([*words, "--", self.path], [chosen]).whole()
        self.take(rulings)

    def seal(self) -> bytes:
        """Returns the seal of all that the site holds now."""
        return Call(["cadf-seal", "--", self.path]).whole()


def digest_at(conflict: Mapping[str, Any], place: int) -> str:
    """The digest of a conflict's value at a place. WrongArgument: it has none there."""
    values: Sequence[Mapping[str, str]] = conflict["values"]
    if isinstance(place, bool) or not 0 < place <= len(values):
        raise WrongArgument("place")
    return values[place - 1]["digest"]
