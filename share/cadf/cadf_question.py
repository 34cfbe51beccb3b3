"""What is asked of events: a question of a command line, and whether an event answers it.

Conditions of one kind are alternatives, and an event has to meet each kind that is asked. A pattern is a whole text, in which `*`
stands for any characters. What an event has for a pattern to match are its traits, which an index may keep.
"""
import argparse
import json
import re
import shlex
from typing import NamedTuple

from cadf_logs import Range, instant, utc
from cadf_times import SECOND, STEPS, time_typed

ROLES = ("initiator", "target", "observer")
TRAITS = ("action", "outcome", "type", *ROLES, "via")
LENGTHS = {"hour": 3600, "day": 86400}  # in seconds
COUNTED = (*LENGTHS, "action", "outcome", "type", *ROLES)
FAILED = ("failure", "failure/*")
KINDS = {"id": "identifier", "initiator": "initiator, by identifier or name", "target": "target, by identifier or name", "action": "action",
         "outcome": "outcome", "type": "event type", "observer": "observer, by identifier or name", "via": "reporter in a chain, by identifier or name"}
DURATION = re.compile("([0-9]{1,6})(%s)" % "|".join(STEPS))


class Pattern:
    """A text in which `*` stands for any characters."""

    def __init__(self, text):
        self.parts = text.split("*")

    def matches(self, text):
        first, *middle = self.parts
        if not middle:
            return text == first
        last, place = middle.pop(), len(first)
        if not text.startswith(first):
            return False
        for part in middle:
            found = text.find(part, place)
            if found < 0:
                return False
            place = found + len(part)
        return place + len(last) <= len(text) and text.endswith(last)

    def is_plain(self):
        return len(self.parts) == 1

    def text(self):
        return "*".join(self.parts)

    def longest(self):
        """The longest of the texts that stand in whatever it matches, as JSON spells it."""
        return spelled(max(self.parts, key=len))


class Member(NamedTuple):
    """The names on the way to a member of an event, and what its value has to match."""
    names: tuple
    pattern: Pattern

    def text(self):
        return "".join("/" + name.replace("~", "~0").replace("/", "~1") for name in self.names) + "=" + self.pattern.text()

    def matches(self, value):
        for name in self.names:
            if isinstance(value, list) and re.fullmatch("0|[1-9][0-9]{0,8}", name) and int(name) < len(value):
                value = value[int(name)]
            elif isinstance(value, dict) and name in value:
                value = value[name]
            else:
                return False
        return self.pattern.matches(value if isinstance(value, str) else canonical(value))


def canonical(value):
    return json.dumps(value, ensure_ascii=False, sort_keys=True, separators=(",", ":"))


def spelled(text):
    """How JSON spells a text, without the quotes."""
    return json.dumps(text, ensure_ascii=False)[1:-1]


# ---- What an event has

def texts(value):
    return [value] if isinstance(value, str) else []


def party(holder, role):
    """The identifiers of what has a role in an event or a step, and its name."""
    own, other = holder.get(role), holder.get(role + "Id")
    found = (own.get("id"), other, own.get("name")) if isinstance(own, dict) else (other,)
    return [each for each in found if isinstance(each, str)]


def steps(event):
    """Yields the steps of an event's chains."""
    for chain in (event.get("reporterchain") or [], *(event.get("reporterchains") or [])):
        yield from chain


def traits(event, its_steps):
    """What an event with these steps has that a pattern may match, as lists of texts."""
    found = {"action": texts(event.get("action")), "outcome": texts(event.get("outcome")), "type": texts(event.get("eventType"))}
    for role in ROLES:
        found[role] = party(event, role)
    via = set()
    for step in its_steps:
        via.update(party(step, "reporter"))
    found["via"] = sorted(via)
    return found


def counted_by(by, event):
    """What an event is counted by: the hour or the day of its instant, by its beginning, or what it has of a kind first."""
    if by in LENGTHS:
        return utc(instant(event["eventTime"]) // (LENGTHS[by] * SECOND) * LENGTHS[by] * SECOND)
    return traits(event, ())[by][0]


class Question:
    """What is asked: patterns by the names of traits and `id`, texts, members, how late the last report is, and from when until when."""

    def __init__(self, limits, patterns=None, grep=(), members=(), late=None):
        self.limits, self.patterns, self.texts = limits, {kind: found for kind, found in (patterns or {}).items() if found}, grep
        self.grep, self.members, self.late = [spelled(text).encode() for text in grep], {}, late
        for member in members:
            self.members.setdefault(member.names, []).append(member)
        self.is_all = not (self.patterns or grep or members or late is not None)
        self.has_ids = all(pattern.is_plain() for pattern in self.patterns.get("id", ()))  # whole ones, if any
        self.is_indexed = self.has_ids and not (grep or members or late is not None)  # an index can answer it

    def words(self):
        """Spells what is asked beside times, as words of a command line."""
        asked_of = {**self.patterns, "match": [each for group in self.members.values() for each in group]}
        found = [(kind, each.text()) for kind, own in asked_of.items() for each in own] + [("grep", text) for text in self.texts]
        found += [("late", "%ds" % (self.late // SECOND))] if self.late is not None else []
        return shlex.join(word for kind, text in found for word in ("--" + kind, text))

    def has_key(self, identifier):
        return any_matches(self.patterns.get("id"), [identifier])

    def has_traits(self, found):
        return all(any_matches(self.patterns.get(kind), own) for kind, own in found.items())

    def is_late(self, event):
        reported = [instant(step["reporterTime"]) for step in steps(event) if "reporterTime" in step]
        return bool(reported) and max(reported) - instant(event["eventTime"]) >= self.late

    def has(self, event, line):
        """Whether the event answers the question, by its value and the bytes of its line."""
        return self.limits.has(event) and (self.is_all or (
            self.has_key(event["id"]) and self.has_traits(traits(event, steps(event)))
            and (not self.grep or any(text in line for text in self.grep))
            and all(any(member.matches(event) for member in group) for group in self.members.values())
            and (self.late is None or self.is_late(event))))


def any_matches(patterns, found):
    """Whether one of the texts matches one of the patterns, or there are none of these."""
    return patterns is None or any(pattern.matches(text) for text in found for pattern in patterns)


# ---- Words of a command line

def text_typed(text):
    """Reads a text of a command line."""
    try:
        text.encode()
    except UnicodeEncodeError:
        raise argparse.ArgumentTypeError("not UTF-8") from None
    return text


def pattern_typed(text):
    """Reads a pattern of a command line."""
    return Pattern(text_typed(text))


def member_typed(text):
    """Reads a JSON pointer to a member of an event, `=` and the pattern of its value."""
    pointer, mark, value = text_typed(text).partition("=")
    if not mark or not re.fullmatch("(?:/(?:[^/~]|~[01])*)+", pointer):
        raise argparse.ArgumentTypeError("not a member and its value, as /initiator/host/address=10.0.0.*")
    return Member(tuple(name.replace("~1", "/").replace("~0", "~") for name in pointer.split("/")[1:]), Pattern(value))


def duration_typed(text):
    """Reads a duration in nanoseconds."""
    found = DURATION.fullmatch(text)
    if not found:
        raise argparse.ArgumentTypeError("not a duration, as 90s, 5min, 1h, 7d or 2w")
    return int(found[1]) * STEPS[found[2]]


def add_question(parser):
    """Adds the options by which something is asked of events."""
    parser.add_argument("--since", metavar="TIME", type=time_typed, help="only events from that instant on")
    parser.add_argument("--until", metavar="TIME", type=time_typed, help="only events before that instant")
    for kind, said in KINDS.items():
        parser.add_argument("--" + kind, metavar="PATTERN", type=pattern_typed, action="append", default=[], help="only events with this " + said)
    parser.add_argument("--failed", action="store_true", help="the same as --outcome failure --outcome 'failure/*'")
    parser.add_argument("--late", metavar="DURATION", type=duration_typed, help="only events last reported so long after their time, as 90s, 5min, 1h, 7d or 2w")
    parser.add_argument("--grep", metavar="TEXT", type=text_typed, action="append", default=[], help="only events whose line has this text, as JSON spells it")
    parser.add_argument("--match", metavar="/MEMBER=PATTERN", type=member_typed, action="append", default=[],
                        help="only events whose member at this JSON pointer is such a text, or has such a JSON text")


def asked(options):
    """The question that the options ask."""
    patterns = {kind: getattr(options, kind) for kind in KINDS}
    if options.failed:
        patterns["outcome"] = [*patterns["outcome"], *map(Pattern, FAILED)]
    return Question(Range(options.since, options.until), patterns, options.grep, options.match, options.late)
