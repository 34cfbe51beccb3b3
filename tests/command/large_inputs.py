"""Inputs for the command under limits: of about 1 MB, as deep as can be read, and small ones beside them."""
import json

from tests.formats import erased_of, in_format
from tests.machine import ended, put

MADE = {"one.cadf": "join log.json", "two.cadf": "join other.json", "both.cadf": "join one.cadf two.cadf",
        "deep.cadf": "join deep.json", "two.inventory": "inventory two.cadf", "no.cadf": "join small.json",
        "no.inventory": "inventory small.json", "two.sketch": "sketch --cells 20001 two.cadf",
        "no.sketch": "sketch --cells 3 small.json", "one.seal": "seal one.cadf", "one.proof": "prove one.cadf one.cadf",
        "no.seal": "seal small.json", "no.proof": "prove small.json small.json", "deep.seal": "seal deep.cadf",
        "deep.proof": "prove deep.json deep.cadf", "no.sealed": "sealed no.cadf", "two.sealed": "sealed two.cadf",
        "two.seal": "seal two.cadf", "one.growth": "growth two.sealed one.cadf", "deep.growth": "growth no.sealed deep.cadf"}
PLAN = "learn 0 %s\nask 1\nanswer 0 1\ndeliver 2 1\n"
EVENTS = 2500


def event(number, tag):
    return {"id": "e%d" % number, "eventType": "activity", "eventTime": "2024-03-01T12:00:00.5+0100", "action": "read/list",
            "outcome": "success", "initiator": {"id": "u%d" % (number % 97), "name": "n" * 40}, "targetId": "t%d" % number,
            "observerId": "s1", "tags": [tag], "reporterchain": [{"reporterId": "s1", "role": "observer"}]}


def nested(depth):
    return '{"a":' * depth + "1" + "}" * depth


def documents():
    """Two documents of about 1 MB, small ones, those that nest as deep as an attachment may, and as JSON may, and scripts."""
    log = {"id": "g", "events": [event(number, "a") for number in range(EVENTS)]}
    other = {"id": "g", "events": [event(number, "b") for number in range(EVENTS // 2, EVENTS + EVENTS // 2)]}
    deep = {"id": "g", "events": [dict(event(1, "a"), attachments=["here"])]}
    log, other, deep = json.dumps(log), json.dumps(other), json.dumps(deep).replace('"here"', nested(100))
    return {"log.json": log, "other.json": other, "small.json": '{"id":"g","events":[]}', "deep.json": deep,
            "deeper.json": nested(127), "plan.script": PLAN % log, "deep.script": PLAN % deep}


def prepare(binary, folder):
    """Puts the inputs into the folder, with what the command makes of them, also in format 1."""
    for name, content in documents().items():
        put(folder, name, content.encode())
    for name, words in MADE.items():
        content = ended(binary, words.split(), cwd=folder).output
        put(folder, name, content)
        if name in ("one.cadf", "two.cadf", "deep.cadf"):
            put(folder, name.replace(".cadf", ".1.cadf"), in_format(1, content))
        if name.endswith(".sealed"):
            put(folder, name.replace(".sealed", ".erased"), erased_of(content))
