"""What is asked of a log: facts with much to ask for, questions as options of cadf-events, and plain Python that says which events answer."""
import json
import os
import re
import sys

from tests import TOP
from tests.reference.events import document
from tests.reference.json_text import spelled
from tests.reference.rulings import digest_of_value, ruled_value
from tests.reference.shown_texts import event_shown, parts_by_carrier, values_by_key, values_shown
from tests.reference.times import time_of
from tests.tools.odd_logs import NAMES

sys.path.insert(0, os.path.join(TOP, "share", "cadf"))
from cadf_logs import Range
from cadf_question import FAILED, Pattern, Question, duration_typed, member_typed
from cadf_times import read

LOG = 'north "1" \u00e9'
TIMES = ["0001-01-01T00:00:00+14:00", "1969-12-31T23:59:59.5Z", "2024-02-29T23:59:59.999999999Z", "2024-03-01T00:30:00+01:00",
         "2024-03-01T00:00:00Z", "2024-03-01T12:00:00Z", "2024-03-02T01:00:00Z", "9998-12-31T23:59:59-14:00"]
BOUNDS = ["2024-03-01", "2024-03-02", "2024-03", "2024-03-01T11:30", "2024-03-01T12:00:00Z", "2024-02-29T23:59:59.999999999Z", "0001-01-01", "2024-03-01T00"]
TEXTS = ["alice", "bob", "alice@x", "a\"b\\c", "*", "\u00e9", "tab\u0085", *NAMES[:4]]
ACTIONS, OUTCOMES = ["read", "read/list", "create", NAMES[0]], ["success", "failure", "failure/locked", "pending", "unknown"]
TRAITS = ("id", "action", "outcome", "type", "initiator", "target", "observer", "via")
LATE = {"0s": 0, "1s": 10 ** 9, "5min": 300 * 10 ** 9, "1d": 86400 * 10 ** 9, "2w": 14 * 86400 * 10 ** 9}
FORMS = {len("2024-03"): "-01T00:00:00Z", len("2024-03-01"): "T00:00:00Z", len("2024-03-01T00"): ":00:00Z", len("2024-03-01T11:30"): ":00Z"}


# ---- Facts

def entity(chance, role):
    """The members of an event or a step for what has a role."""
    one, other = chance.choice(TEXTS), chance.choice(TEXTS)
    return chance.choice([{role + "Id": one}, {role: {"id": one, "name": other}}, {role: {"id": one, "name": 7}, role + "Id": other}])


def chain(chance):
    steps = [{"role": "relay", **entity(chance, "reporter"), **chance.choice([{}, {"reporterTime": chance.choice(TIMES[1:7])}])} for _ in range(chance.randrange(3))]
    return [*steps, {"role": "observer", "reporterId": chance.choice(TEXTS)}] * chance.randrange(2)


def event(chance, identifier):
    found = {"id": identifier, "eventType": chance.choice(["activity", "monitor", "control"]), "eventTime": chance.choice(TIMES),
             "action": chance.choice(ACTIONS), "outcome": chance.choice(OUTCOMES), "reporterchain": chain(chance), "reporterchains": [chain(chance), chain(chance)],
             "n": chance.choice([1, -2 ** 63, True, None, "1", {"a/b": ["x", {"~c": NAMES[4]}]}, ["x", 0]])}
    for role in ("initiator", "target", "observer"):
        found.update(entity(chance, role))
    return {**found, **chance.choice([{}, {"tags": [chance.choice(TEXTS)]}])}


def facts(chance, count=24):
    """Events with few identifiers and times, so that bodies contradict within a window and across; and rulings of some."""
    names = ["e%d" % number for number in range(count // 2)] + NAMES[:count // 6]
    atoms = document({"id": LOG, "events": [event(chance, chance.choice(names)) for _ in range(count)], "resources": [{"id": "r"}]})[1]
    for (letter, name), values in values_by_key(atoms).items():
        for value in values:
            if letter == "E" and chance.random() < 0.3:
                atoms = atoms | {("U", "E", name, digest_of_value(value))}
    return atoms


def shown(atoms):
    """The events that the log shows, and the values of open keys, each with how many of its key there are."""
    parts, single = parts_by_carrier(atoms), values_shown(atoms)
    every = [(name, values) for (letter, name), values in values_by_key(atoms).items() if letter == "E"]
    log = [event_shown(name, single["E", name], parts) for name, _ in every if ("E", name) in single]
    contradicted = [(len(values), event_shown(name, value, parts)) for name, values in every
                    if len(values) > 1 and ruled_value(atoms, "E", name, values) is None for value in values]
    return log, contradicted


# ---- Questions

def cut(chance, text):
    """A pattern that the text may match, or the text."""
    first, last = sorted((chance.randrange(len(text) + 1), chance.randrange(len(text) + 1)))
    return chance.choice([text, text, text[:first] + "*", "*" + text[last:], text[:first] + "*" + text[last:], "*" + text[first:last] + "*", "*"])


def question(chance, atoms):
    """Options of a question, in pairs, of what events have."""
    log, contradicted = shown(atoms)
    events, found = log + [each for _, each in contradicted], []
    for kind in chance.sample(TRAITS, chance.choice([0, 1, 1, 2])):
        texts = [text for each in chance.sample(events, 3) for text in sorted(traits(each)[kind])] or ["none"]
        found += [("--" + kind, cut(chance, chance.choice(texts))) for _ in range(chance.randrange(1, 3))]
    odd = [("--failed", None), ("--late", chance.choice(list(LATE))), ("--grep", chance.choice([*TEXTS, "reporterTime", "e1"])),
           ("--match", chance.choice(["/n=1", "/n=*", "/n/a~1b/1/~0c=*onerror*", "/n/a~1b=[*]", "/n/0=x", "/n/1=0", "/n=true", "/n=null", "/tags/0=a*", "/id=e1"]))]
    found += chance.sample(odd, chance.choice([0, 0, 0, 1, 2]))
    return found + [(name, chance.choice(BOUNDS)) for name in ("--since", "--until") if chance.random() < 0.3]


def words(options):
    return [word for name, value in options for word in ([name] if value is None else [name + "=" + value])]


def posed(options):
    """The question of these options."""
    given = {}
    for name, value in options:
        given.setdefault(name[2:], []).append(value)
    patterns = {kind: [Pattern(value) for value in given.get(kind, ())] for kind in TRAITS}
    if "failed" in given:
        patterns["outcome"] += map(Pattern, FAILED)
    bounds = [read(given[name][0], 0) if name in given else None for name in ("since", "until")]
    return Question(Range(*bounds), patterns, given.get("grep", ()), [member_typed(value) for value in given.get("match", ())],
                    duration_typed(given["late"][0]) if "late" in given else None)


# ---- Which events answer

def texts(holder, role):
    found = holder.get(role, {})
    return {each for each in (found.get("id"), found.get("name"), holder.get(role + "Id")) if isinstance(each, str)}


def steps(each):
    return [step for own in [each.get("reporterchain", []), *each.get("reporterchains", [])] for step in own]


def traits(each):
    """What patterns of each kind match of an event."""
    return {"id": {each["id"]}, "action": {each["action"]}, "outcome": {each["outcome"]}, "type": {each["eventType"]},
            "via": {text for step in steps(each) for text in texts(step, "reporter")}, **{role: texts(each, role) for role in ("initiator", "target", "observer")}}


def fits(pattern, text):
    return re.fullmatch(".*".join(map(re.escape, pattern.split("*"))), text, re.DOTALL) is not None


def member(each, pointer):
    """The text of the member, or None."""
    for name in pointer.split("/")[1:]:
        name = name.replace("~1", "/").replace("~0", "~")
        try:
            each = each[int(name)] if isinstance(each, list) else each[name]
        except (KeyError, IndexError, TypeError, ValueError):
            return None
    return each if isinstance(each, str) else spelled(each)


def instant(bound):
    return time_of(bound + FORMS.get(len(bound), "")).instant


def is_met(kind, value, each):
    """Whether an event meets a condition."""
    at = time_of(each["eventTime"]).instant
    if kind == "--since":
        return at >= instant(value)
    if kind == "--until":
        return at < instant(value)
    if kind == "--failed":
        return re.fullmatch("failure(/.*)?", each["outcome"], re.DOTALL) is not None
    if kind == "--late":
        return any(time_of(step["reporterTime"]).instant - at >= LATE[value] for step in steps(each) if "reporterTime" in step)
    if kind == "--grep":
        return json.dumps(value, ensure_ascii=False)[1:-1] in spelled(each)
    if kind == "--match":
        text = member(each, value.partition("=")[0])
        return text is not None and fits(value.partition("=")[2], text)
    return any(fits(value, text) for text in traits(each)[kind[2:]])


def answers(options, each):
    """Whether an event answers: conditions of one kind are alternatives, members of one name too, and each kind has to be met."""
    groups = {}
    for name, value in options:
        kind = "--outcome" if name == "--failed" else value.partition("=")[0] if name == "--match" else name
        groups.setdefault(kind, []).append((name, value))
    return all(any(is_met(name, value, each) for name, value in group) for group in groups.values())
