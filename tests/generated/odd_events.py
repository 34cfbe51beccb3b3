"""Generated steps, events, entities and documents, as they should be and with something odd in them."""
from tests.generated.odd_values import any_value, good_name, good_time, nested, number, odd_name, odd_text, scalar, time
from tests.generated.spelling import Raw
from tests.reference.events import EVENT_URI
from tests.reference.shown_texts import LOG_URI

MEMBERS = ["action", "eventTime", "eventType", "id", "initiator", "initiatorId", "observer", "observerId", "outcome",
           "target", "targetId", "typeURI", "reporterchain", "reporterchains", "tags", "attachments", "x"]
PARTIES = ("initiator", "target", "observer")
ENTITY_MEMBERS = (("resources", "id"), ("geolocations", "id"), ("metrics", "metricId"))
DEEPEST = [("reporterchain", 101), ("attachments", 101), ("reporterchains", 102), ("x", 99), ("tags", 99), ("id", 99),
           ("initiator", 99), ("eventTime", 99), ("typeURI", 99), ("", 99), ("targetId", 99)]
ODD_OUTCOMES = ["", "/", "/success", "success ", "Success", "successes", "success/", "success//", "success\x00", "succes",
                "failure/\x01\x7f", "unknown/" + "x" * 2000, "pending", "success\uff0fpartial"]


def step(chance):
    made = {"role": chance.choice(["observer", "modifier", "relay"])}
    kind = chance.randrange(4)
    if kind in (0, 2):
        made["reporterId"] = chance.choice(["s1", "s2", "s3", 's"', "\U00010000", "\uffff"])
    if kind != 0:
        made["reporter"] = {"id": chance.choice(["target", "r1", "r2"])}
    if kind == 3:
        made["reporter"]["x"] = scalar(chance)
    if chance.random() < 0.4:
        made["reporterTime"] = good_time(chance)
    if chance.random() < 0.2:
        made[chance.choice(["x", "id", "tags", "reporterchain", "\x00", ""])] = any_value(chance, 2)
    return made


def odd_step(chance):
    made, kind = step(chance), chance.randrange(9)
    if kind == 0:
        return scalar(chance)
    if kind == 1:
        made["role"] = chance.choice(["Observer", "observer ", "", None, 1, "relays", "sender", ["relay"], "modifier/x"])
    elif kind == 2:
        made.pop("role")
    elif kind == 3:
        made.pop("reporterId", None)
        made.pop("reporter", None)
    elif kind == 4:
        made["reporterId"] = chance.choice([None, 7, "", odd_name(chance), ["s1"]])
    elif kind == 5:
        identifier = chance.choice([7, None, odd_name(chance)])
        made["reporter"] = chance.choice([None, 7, {}, {"id": identifier}, {"id": identifier}, "target", []])
    elif kind == 6:
        made["reporterTime"] = chance.choice([None, 7, "", time(chance), time(chance), time(chance), [good_time(chance)]])
    elif kind == 7:
        made["deep"] = nested(chance, chance.choice([97, 98, 99, 100, 101]))
    else:
        made["x"] = Raw(number(chance).encode())
    return made


def chain(chance):
    return [step(chance) for _ in range(chance.choice([0, 1, 1, 2, 2, 3, 4]))]


def odd_chain(chance):
    made = chain(chance) or [None]
    made[chance.randrange(len(made))] = odd_step(chance)
    return made


def long_chain(chance):
    """A chain about as long as one may be."""
    count = chance.choice([254, 255, 256, 256, 257, 257, 258, 300])
    made = [{"reporterId": "s1", "role": "observer"}] * count
    if chance.random() < 0.3:
        made[chance.choice([0, count - 1, min(255, count - 1), min(256, count - 1), chance.randrange(count)])] = \
            odd_step(chance)
    return made


def attachment(chance):
    return chance.choice([{}, {"a": 1}, {"a": 2}, {"content": any_value(chance, 2), "typeURI": "x"}, {'"': 1}, {"b": [1]},
                          {"A": None}])


def some(chance, one, least, most):
    return [one(chance) for _ in range(chance.randint(least, most))]


def add_parts(chance, event):
    if chance.random() < 0.3:
        event["reporterchain"] = chance.choice([None, chain(chance), chain(chance), chain(chance)])
    if chance.random() < 0.2:
        event["reporterchains"] = chance.choice([None, some(chance, chain, 0, 3), [None, chain(chance)]])
    if chance.random() < 0.3:
        event["tags"] = chance.choice([None, [], some(chance, good_name, 1, 4)])
    if chance.random() < 0.3:
        event["attachments"] = chance.choice([None, [], some(chance, attachment, 1, 3)])


def event(chance, name=None):
    made = {
        "action": chance.choice(["read", "read/list", "x"]), "eventTime": good_time(chance),
        "eventType": chance.choice(["activity", "monitor", "control"]), "id": name or good_name(chance),
        "outcome": chance.choice(["success", "failure", "unknown", "pending", "success/partial", "failure/", "pending//x"])}
    for party in PARTIES:
        kind = chance.randrange(4)
        if kind != 1:
            made[party + "Id"] = chance.choice(["u1", "u2", "t\u00e9"])
        if kind in (1, 2):
            made[party] = {"id": chance.choice(["target", "u1"])}
            if chance.random() < 0.2:
                made[party][chance.choice(["typeURI", "x", "host"])] = any_value(chance, 2)
    if chance.random() < 0.5:
        made["typeURI"] = EVENT_URI
    add_parts(chance, made)
    if chance.random() < 0.3:
        made[chance.choice(["name", "reason", "severity", "x", "", "\x01", "resources", "log", "duration",
                            "measurements"])] = any_value(chance, 2)
    return made


def odd_party(chance):
    return chance.choice([None, {}, {"id": None}, {"id": 7}, {"id": ""}, {"id": odd_name(chance)}, [], "x", {"Id": "a"}])


def odd_chains(chance):
    return chance.choice([
        [chain(chance), odd_chain(chance)], [odd_chain(chance)], [None, odd_chain(chance)], {}, "x", [7], [{}], [[None]],
        [[], []], [chain(chance), 7], [None], [[[]]]])


def odd_tags(chance):
    return chance.choice([
        {}, "x", 7, [None], [""], ["a", ""], ["a", 7], ["a", odd_name(chance)], [odd_name(chance)], [["a"]], ["a", "a"],
        ["b", "a", "b"]])


def odd_attachments(chance):
    deep = nested(chance, chance.choice([99, 100, 101]))
    return chance.choice([
        {}, "x", 7, [None], [1], [{}, []], [{}, {}], [[]], [{"a": 1}, "x"], [deep], [{"d": deep}], [{"d": deep}]])

# What may be odd in an event: a member, and its new value.
ODDITIES = [
    lambda chance: (chance.choice(MEMBERS), scalar(chance)),
    lambda chance: (chance.choice(["id", "action", "initiatorId", "observerId", "targetId"]), odd_name(chance)),
    lambda chance: (chance.choice(PARTIES), odd_party(chance)),
    lambda chance: ("eventTime", time(chance)),
    lambda chance: ("eventTime", time(chance)),
    lambda chance: ("outcome", chance.choice(ODD_OUTCOMES)),
    lambda chance: ("eventType", chance.choice(
        ["Activity", "activity ", "", "activity/x", "monitor", ["activity"], None])),
    lambda chance: ("typeURI", chance.choice(
        [None, "", EVENT_URI, EVENT_URI + "/", LOG_URI, EVENT_URI.upper(), 1, [EVENT_URI]])),
    lambda chance: deep_member(chance, [-1, 0, 0, 1, 1, 2]),
    lambda chance: ("reporterchain", chance.choice(
        [odd_chain(chance), odd_chain(chance), {}, "x", 7, [None], [[]], [{}]])),
    lambda chance: ("reporterchains", odd_chains(chance)),
    lambda chance: ("tags", odd_tags(chance)),
    lambda chance: ("attachments", odd_attachments(chance)),
    lambda chance: (chance.choice(MEMBERS), Raw(number(chance).encode())),
    lambda chance: (chance.choice(MEMBERS), odd_text(chance)),
]


def deep_member(chance, more):
    """A member that nests about as deep as it may."""
    member, deepest = chance.choice(DEEPEST)
    return member, nested(chance, deepest + chance.choice(more))


def broken(chance, event):
    """The event with one thing odd."""
    if chance.random() < 0.06:
        event.pop(chance.choice(MEMBERS), None)
    else:
        member, value = chance.choice(ODDITIES)(chance)
        event[member] = value
    return event


def entity(chance, key):
    made = {key: good_name(chance)}
    if chance.random() < 0.5:
        made[chance.choice(["typeURI", "x", "id", "metricId", "name"])] = any_value(chance, 2)
    return made


def odd_entity(chance, key):
    made, kind = entity(chance, key), chance.randrange(6)
    if kind == 0:
        return scalar(chance)
    if kind == 1:
        made.pop(key)
    elif kind == 2:
        made[key] = odd_name(chance)
    elif kind == 3:
        made[key] = scalar(chance)
    elif kind == 4:
        made["d"] = nested(chance, chance.choice([98, 99, 100, 101]))
    else:
        return nested(chance, chance.choice([1, 99, 100, 101, 102]))
    return made


def document(chance):
    made = {"id": "g", "events": [event(chance) for _ in range(chance.choice([0, 1, 1, 2, 3, 5]))]}
    for member, key in ENTITY_MEMBERS:
        if chance.random() < 0.3:
            made[member] = chance.choice([None, [entity(chance, key) for _ in range(chance.randint(0, 3))]])
    if chance.random() < 0.3:
        made["typeURI"] = chance.choice([LOG_URI, 7, None])
    for _ in range(chance.choice([0, 0, 1, 2])):
        made[chance.choice(["name", "note", "log", "tags", "a", "A", "z", "\U00010000", "\uffff", "conflicts",
                            "reporterchain"])] = any_value(chance, 2)
    return made


def odd_document(chance):
    made, kind = document(chance), chance.randrange(9)
    if kind < 3:
        made["events"].append(event(chance))
        place = chance.randrange(len(made["events"]))
        made["events"][place] = broken(chance, made["events"][place])
    elif kind == 3:
        made["events"] = chance.choice([None, {}, "x", 7, [None], [[]], [7]])
    elif kind == 4:
        made["id"] = chance.choice([None, 7, "", odd_name(chance), odd_name(chance)])
        if chance.random() < 0.2:
            made.pop("id")
    elif kind == 5:
        made[chance.choice(ENTITY_MEMBERS)[0]] = chance.choice([{}, "x", 0, False, True])
    elif kind == 6:
        member, key = chance.choice(ENTITY_MEMBERS)
        made[member] = [entity(chance, key) for _ in range(chance.randint(0, 2))]
        made[member] += [odd_entity(chance, key), chance.choice([entity, entity, odd_entity])(chance, key)]
    elif kind == 7:
        made[odd_name(chance)] = any_value(chance, 2)
    else:
        made[chance.choice(["p", "q", ""])] = nested(chance, chance.choice([99, 100, 101, 102, 120, 125, 126, 127, 128]))
    return made
