"""Inputs for the command: small ones of each kind, those of the worked calls, damaged ones, and one of some 60 events."""
import hashlib
import json

from tests.formats import erased_of, in_format, of_lines
from tests.machine import ended, put

MADE = {"log.cadf": "join log.json", "other.cadf": "join other.json", "both.cadf": "join log.json other.json",
        "many.cadf": "join many.json", "log.inventory": "inventory log.json", "one.cadf": "join one.json",
        "chains.cadf": "join chain.json chains.json", "conflict.cadf": "join chain.json failed.json", "tagged.cadf": "join tagged.json",
        "facts.cadf": "join north.json south.json", "one.inventory": "inventory one.cadf",
        "ruled.cadf": "rule E e1 1 conflict.cadf", "log.sketch": "sketch --cells 12 log.json",
        "few.sketch": "sketch --cells 3 --salt 1 log.json", "one.sketch": "sketch --cells 12 one.cadf",
        "log.seal": "seal log.json", "both.seal": "seal both.cadf", "one.seal": "seal one.cadf", "many.seal": "seal many.cadf",
        "both.proof": "prove both.cadf both.cadf", "event.proof": "prove event.json both.cadf", "chains.proof": "prove chains.cadf one.cadf",
        "many.proof": "prove many.cadf many.cadf", "asked.proof": "prove --keys asked.keys both.cadf",
        "log.sealed": "sealed log.json", "both.sealed": "sealed both.cadf", "one.sealed": "sealed one.cadf",
        "both.growth": "growth log.sealed both.cadf", "log.growth": "growth both.sealed log.cadf",
        "many.growth": "growth log.sealed many.cadf"}


def event(number, **more):
    plain = {"id": "e%d" % number, "eventType": "activity", "eventTime": "2024-03-01T12:00:00+0100", "action": "read",
             "outcome": "success", "initiator": {"id": "u1", "name": "\u00e9\n"}, "targetId": "t1", "observerId": "s1"}
    return dict(plain, **more)


def relays(count):
    return [{"reporterId": "s%d" % number, "role": "relay"} for number in range(count)]


def worked_documents():
    """The inputs of the worked calls."""
    real = {"typeURI": "http://schemas.dmtf.org/cloud/audit/1.0/event", "id": "openstack:7f3e", "eventType": "activity",
            "eventTime": "2014-02-14T01:20:47.932842+0000", "action": "read/list", "outcome": "success", "observer": {"id": "target"},
            "initiator": {"id": "u1", "typeURI": "service/security/account/user"}, "target": {"id": "t1"},
            "reporterchain": [{"role": "modifier", "reporterTime": "2014-02-14T01:20:47.932842+00:00", "reporter": {"id": "target"}}],
            "tags": ["correlation_id?value=9"]}
    one = {"action": "read", "eventTime": "2024-03-01T12:00:00Z", "eventType": "activity", "id": "e1", "initiatorId": "u1",
           "observerId": "s1", "outcome": "success", "targetId": "t1"}
    first, second = {"reporterId": "s1", "role": "observer"}, {"reporterId": "s2", "role": "relay"}
    events = {"real": real, "one": one, "chain": dict(one, reporterchain=[first]), "chains": dict(one, reporterchain=[first, second]),
              "failed": dict(one, outcome="failure", reporterchain=[second]), "tagged": dict(one, tags=["x"])}
    made = {name + ".json": {"id": "g", "events": [content]} for name, content in events.items()}
    north = {"events": [], "id": "g", "name": "north", "resources": [{"typeURI": "storage", "id": "r1"}], "typeURI": 7}
    return dict(made, **{"north.json": north, "south.json": {"events": [], "id": "g", "name": "south"}})


def documents():
    log = {"id": "g", "name": "north", "events": [event(1, reporterchain=relays(2), tags=["x"]), event(2, attachments=[{"a": [1]}])]}
    other = {"id": "g", "name": "south", "resources": [{"id": "r1"}], "metrics": [{"metricId": "m1"}],
             "events": [event(1, reporterchain=relays(3)), event(2, outcome="failure")]}
    many = {"id": "g", "events": [event(number, reporterchain=relays(number % 9), tags=["t%d" % number]) for number in range(60)]}
    return {"log.json": log, "other.json": other, "many.json": many, "event.json": event(3),
            "stranger.json": {"id": "h", "events": []}, **worked_documents()}


def script():
    """A schedule of three sites: an exchange by an inventory and by whole replicas."""
    turns = ["learn 0 " + json.dumps(event(1)), "ask 1", "learn 1 " + json.dumps(event(2)), "answer 0 1", "send 0", "deliver 3 1",
             "deliver 2 1", "deliver 2 1", "send 1", "deliver 4 0", "deliver 4 2"]
    return "".join(turn + "\n" for turn in turns)


def changed(whole):
    """What is whole, with a bit changed in its middle."""
    middle = len(whole) // 2
    return whole[:middle] + bytes([whole[middle] ^ 1]) + whole[middle + 1:]


def inputs_of(name, whole):
    """Further inputs that a whole one gives, by name: a replica file of format 1, and damaged ones."""
    if not name.endswith(".cadf"):
        front, kind = name.split(".")
        found = {"cut." + kind: whole[:-9]} if front == ("both" if kind in ("proof", "growth") else "log") else {}
        if kind == "sealed":
            found.update({front + ".erased": erased_of(whole), "cut.erased": erased_of(whole)[:-9]})
        return found
    old = in_format(1, whole)
    found = {name.replace(".cadf", ".1.cadf"): old}
    if name == "both.cadf":
        found.update({"changed.cadf": changed(whole), "cut.cadf": whole[:-9], "longer.cadf": whole + b"\n" * 9000,
                      "short.cadf": whole[:5], "changed.1.cadf": changed(old), "cut.1.cadf": old[:-9]})
    return found


def wrong_nodes():
    """Files of format 2 with a right digest: a node without a child, and siblings that fall."""
    names = [[1, 0, "P"], [2, 0, "b"], [3, 1, "1"], [2, 0, "a"], [3, 1, "1"]]
    return {"unended.cadf": of_lines(2, *names[:2]), "siblings.cadf": of_lines(2, *names)}


def keys():
    """A key file whose keys are there."""
    lines = b'CADF-KEYS 1\nL "g"\n["E","e1"]\n["P","name"]\n'
    return lines + b"Z %s\n" % hashlib.sha256(lines).hexdigest().encode()


def prepare(binary, folder):
    """Puts the inputs into the folder, with what the command makes of them."""
    for name, content in documents().items():
        put(folder, name, json.dumps(content).encode())
    put(folder, "cut.json", b'{"id":"g","events":[{}')
    put(folder, "asked.keys", keys())
    put(folder, "cut.keys", keys()[:-9])
    put(folder, "plan.script", script().encode())
    put(folder, "bad.script", script().encode() + b"hello")
    for name, content in wrong_nodes().items():
        put(folder, name, content)
    for name, words in MADE.items():
        answer = ended(binary, words.split(), cwd=folder)
        assert answer.status == 0, "cadf %s: %s" % (words, answer)
        put(folder, name, answer.output)
        for other, content in inputs_of(name, answer.output).items():
            put(folder, other, content)
