"""Calls of names, words, events and their parts, entities, properties and documents, with what they answer."""
from tests.tables.texts import B1, B3, E3, S0, S1, S2, T3, USUAL, V1, V2, body, document, event, nested

CALLS = {
    "name": ["Name::read", "Name::copy", "Name::as_str"],
    "is_valid_name": ["is_valid_name"],
    "is_reserved": ["is_reserved"],
    "event_type": ["EventType::read"],
    "outcome": ["Outcome::read"],
    "role": ["Role::read"],
    "event": ["Sighting::read", "Sighting::id", "Sighting::body", "Sighting::chains", "Sighting::tags",
              "Sighting::attachments", "Body::text", "Body::instant", "Step::text"],
    "body": ["Body::read"],
    "body_with": ["Body::read_with"],
    "step": ["Step::read"],
    "step_with": ["Step::read_with"],
    "attachment": ["read_attachment"],
    "entity": ["Entity::read", "Entity::kind", "Entity::key", "Entity::text"],
    "property": ["Property::read", "Property::name", "Property::text"],
    "document": ["Document::read", "Document::log", "Document::sightings", "Document::entities", "Document::properties"],
    "document_bytes": ["Document::read_bytes"],
    # On bytes of which a part is repeated: what is before it, the part, how often, what is after it.
    "repeated document_bytes": ["Document::read_bytes"],
    "repeated body_with": ["Body::read_with"],
    "repeated step_with": ["Step::read_with"],
    # What the fault of a reading is shown as.
    "fault document": ["DocumentBytesFault::fmt", "DocumentFault::fmt", "EventFault::fmt", "EntityFault::fmt", "JsonFault::fmt"],
    "fault property": ["PropertyFault::fmt"],
    "fault name": ["NameFault::fmt"],
    "fault time": ["StampFault::fmt"],
    "fault canonical": ["JsonFault::fmt"],
    "fault body": ["TextFault::fmt"],
}

NAMES, EVENTS, DOCUMENTS, CANONICAL, FAULTS = (
    "Names", "Events", "Documents", "Canonical JSON text", "ARCHITECTURE: What faults are shown as")
NOON = 1709294400 * 10**9


def seen(text=B1, *came, name="e1", instant=NOON):
    """The parts of an event: its identifier, instant and body, and what came with it."""
    return [name, instant, text, *came]

USUAL_PARTS = seen(B3, "chain", S0, "tag", T3, name=E3, instant=1392340847932842 * 1000)

# Members of the usual event that are accepted: the body then, and what comes with it.
ACCEPTED = [
    ("outcome", '"success/partial"', seen(body("outcome", '"success/partial"'))),
    ("outcome", '"success/"', seen(body("outcome", '"success/"'))),
    ("outcome", '"pending/a/b"', seen(body("outcome", '"pending/a/b"'))),
    ("eventType", '"monitor"', seen(body("eventType", '"monitor"'))),
    ("eventType", '"control"', seen(body("eventType", '"control"'))),
    ("observer", '{"id":"s2"}', seen(body("observer", '{"id":"s2"}'))),
    ("target", '{"id":"t2","host":null}', seen(body("target", '{"host":null,"id":"t2"}'))),
    ("typeURI", "", seen()),
    ("reporterchain", "null", seen()),
    ("reporterchain", "[]", seen()),
    ("reporterchains", "null", seen()),
    ("reporterchains", "[null,[]]", seen()),
    ("tags", "null", seen()),
    ("tags", "[]", seen()),
    ("attachments", "null", seen()),
    ("attachments", "[]", seen()),
    ("reporterchain", "[%s]" % S1, seen(B1, "chain", S1)),
    ("reporterchains", "[[%s],[],null,[%s,%s]]" % (S1, S1, S2), seen(B1, "chain", S1, "chain", S1, S2)),
    ("reporterchain", '[{"role":"relay","reporter":{"id":"r"},"reporterTime":"2024-03-01T12:00:00.10+0100"}]',
     seen(B1, "chain", '{"reporter":{"id":"r"},"reporterTime":"2024-03-01T12:00:00.1+01:00","role":"relay"}')),
    ("tags", '["b","a","b"]', seen(B1, "tag", "b", "tag", "a", "tag", "b")),
    ("attachments", '[{"b":1,"a":2}]', seen(B1, "attachment", '{"a":2,"b":1}')),
    # The same instant at another offset is another time.
    ("eventTime", '"2024-03-01T13:00:00+01:00"', seen(body("eventTime", '"2024-03-01T13:00:00+01:00"'))),
    ("eventTime", '"2024-03-01T12:30:00+01:00"',
     seen(body("eventTime", '"2024-03-01T12:30:00+01:00"'), instant=NOON - 1800 * 10**9)),
    ("eventTime", '"2024-03-01T12:00:00.000+00:00"', seen()),
    ("eventTime", '"2024-03-01T12:00:00+0000"', seen()),
    # Nesting and the length of chains, at their limits.
    ("x", nested(99), seen(body("x", nested(99)))),
    ("attachments", '[{"a":%s}]' % nested(99), seen(B1, "attachment", '{"a":%s}' % nested(99))),
    ("reporterchain", '[{"reporterId":"s1","role":"relay","a":%s}]' % nested(99),
     seen(B1, "chain", '{"a":%s,"reporterId":"s1","role":"relay"}' % nested(99))),
    ("reporterchains", '[[{"reporterId":"s1","role":"relay","a":%s}]]' % nested(99),
     seen(B1, "chain", '{"a":%s,"reporterId":"s1","role":"relay"}' % nested(99))),
    ("reporterchain", "[%s]" % ",".join([S1] * 256), seen(B1, "chain", *[S1] * 256)),
]

# Members of the usual event that are refused.
REFUSED = [
    ("x", nested(100), ["TooDeep"]),
    ("attachments", '[{"a":%s}]' % nested(100), ["TooDeep"]),
    ("reporterchain", '[{"reporterId":"s1","role":"relay","a":%s}]' % nested(100), ["TooDeep"]),
    ("reporterchains", '[[{"reporterId":"s1","role":"relay","a":%s}]]' % nested(100), ["TooDeep"]),
    ("typeURI", '"x"', ["TypeUri"]),
    ("typeURI", "null", ["TypeUri"]),
    ("id", "", ["Id"]),
    ("id", '""', ["Id"]),
    ("id", '"%s"' % ("a" * 1025), ["Id"]),
    ("id", '"%s"' % ("\u00e9" * 512 + "n"), ["Id"]),
    ("id", '"a\x7fb"', ["Id"]),
    ("eventType", '"Activity"', ["EventType"]),
    ("eventTime", '"now"', ["EventTime"]),
    ("action", "", ["Action"]),
    ("action", '"a\\u007f"', ["Action"]),
    ("outcome", '"successes"', ["Outcome"]),
    ("outcome", '"Success"', ["Outcome"]),
    ("initiatorId", "", ["Initiator"]),
    ("targetId", "7", ["Target"]),
    ("initiator", "null", ["Initiator"]),
    ("observer", "{}", ["Observer"]),
    ("observer", '{"id":7}', ["Observer"]),
    ("reporterchain", "7", ["Chain", 0, 0]),
    ("reporterchain", '[{"reporterId":"s1","role":"sender"}]', ["Chain", 0, 1]),
    ("reporterchain", '[{"role":"relay"}]', ["Chain", 0, 1]),
    ("reporterchain", '[{"reporterId":"s1","reporterTime":null,"role":"relay"}]', ["Chain", 0, 1]),
    ("reporterchains", "7", ["Chain", 1, 0]),
    ("reporterchains", "[[],7]", ["Chain", 2, 0]),
    ("reporterchains", '[[],[{"reporterId":"s1","role":"relay","reporterTime":"now"}]]', ["Chain", 2, 1]),
    ("reporterchain", "[%s]" % ",".join([S1] * 257), ["Chain", 0, 257]),
    ("reporterchain", "[7,%s]" % ",".join([S1] * 257), ["Chain", 0, 1]),
    ("tags", "7", ["Tag", 0]),
    ("tags", '["a",""]', ["Tag", 2]),
    ("attachments", "{}", ["Attachment", 0]),
    ("attachments", "[1]", ["Attachment", 1]),
]

WHOLE = ["18446744073709551615", "-9223372036854775808", '"1.5"']
NOT_WHOLE = ["1.5", "1e3", "18446744073709551616", "-9223372036854775809"]
MEASURED = '[{"metricId":"m1","result":%s}]'

# Texts of bodies, steps and attachments, and why others are none.
NO_BODIES = [
    ("{", "NotCanonical"), ('{"action": "read"}', "NotCanonical"), ('{"action":"read"}', "NotThis"), ("[]", "NotThis"),
    (body("eventTime", '"2024-03-01T12:00:00.0Z"'), "NotThis"), (B1.replace('"init', '"id":"e1","init'), "NotThis"),
    (body("x", nested(100)), "NotThis"),
]
NO_STEPS = [("7 ", "NotCanonical"), ("7", "NotThis"),
            ('{"reporterId":"s1","reporterTime":"2024-03-01T12:00:00+00:00","role":"relay"}', "NotThis")]

# Entities, their keys and texts, and why others are none.
ENTITIES = [
    ("geolocation", '{ "city":"x","id":"p1"}', "p1", '{"city":"x","id":"p1"}'),
    ("resource", '{"typeURI":"storage","id":"r1"}', "r1", '{"id":"r1","typeURI":"storage"}'),
    ("metric", '{"unit":"ms","metricId":"m1"}', "m1", '{"metricId":"m1","unit":"ms"}'),
    ("resource", '{"a":%s,"id":"r1"}' % nested(99), "r1", '{"a":%s,"id":"r1"}' % nested(99)),
]
NO_ENTITIES = [
    ("resource", "[]", "NotObject"), ("resource", '{"metricId":"m"}', "Id"), ("metric", '{"id":"m"}', "Id"),
    ("geolocation", '{"id":""}', "Id"), ("resource", '{"a":%s}' % nested(100), "TooDeep"),
]
PROPERTIES = [("name", "null", "null"), ("x", nested(100), nested(100)), ("x", '{"b": 1,"a":2}', '{"a":2,"b":1}')]
NO_PROPERTIES = [("", "1", "Name"), ("events", "1", "Name"), ("typeURI", "1", "Name"), ("x", nested(101), "TooDeep"),
                 ("a" * 1025, "1", "Name")]

# Documents, and their parts: the log, the events, the entities, the properties.
PARTS = [
    ('{"events":[],"geolocations":null,"id":"g","metrics":[{"unit":"ms","metricId":"m1"}],"name":"north",'
     '"resources":[{"typeURI":"storage","id":"r1"}],"typeURI":7}',
     ["log", "g", "resource", "r1", '{"id":"r1","typeURI":"storage"}', "metric", "m1", '{"metricId":"m1","unit":"ms"}',
      "property", "name", '"north"']),
    (' {"name":"north" , "events" : [ %s, %s ], "resources":[{"typeURI":"storage","id":"r1"}],"id":"g"}\n' % (V1, V2),
     ["log", "g", "event", *seen(), "event", *seen(name="e2"), "resource", "r1", '{"id":"r1","typeURI":"storage"}',
      "property", "name", '"north"']),
    ('{ "events" : [ {"targetId":"t1","outcome":"success","id":"e1","observerId":"s1","initiatorId":"u1",'
     '"eventType":"activity","eventTime":"2024-03-01T12:00:00.000+00:00","action":"read"} ], "id":"g" }',
     ["log", "g", "event", *seen()]),
    (event(tags="[]"), ["no log", "event", *seen()]),
    (event(tags='["x"]'), ["no log", "event", *seen(B1, "tag", "x")]),
    ('{"id":"g","events":[],"events":[]}', ["log", "g"]),
    # The name `events` within a member, or spelled with an escape.
    (event(x='{"events":[]}'), ["no log", "event", *seen(body("x", '{"events":[]}'))]),
    (event(x='"\\u0041"'), ["no log", "event", *seen(body("x", '"A"'))]),
    ('{"id":"g","\\u0065vents":[%s]}' % V1, ["log", "g", "event", *seen()]),
    # Properties whose names rise, then don't.
    ('{"b":{"d":1,"c":{"z":0,"y":[]}},"id":"g","c":2,"events":[],"a":{"c":0,"b":1},"b":4,"d":[]}',
     ["log", "g", "property", "a", '{"b":1,"c":0}', "property", "b", "4", "property", "c", "2", "property", "d", "[]"]),
    # Entities of tiny objects, of names that don't rise, and with a fraction that a later member of its name replaces.
    ('{"resources":[{"x":[{"b":1,"a":2},{}],"id":"r1"},{"id":"r2","a":1.5,"a":[null]}],"b":1,"id":"g",'
     '"metrics":null,"geolocations":[{"id":"p1","n":[{"a":1},{"a":1}]}],"a":{},"events":[]}',
     ["log", "g", "resource", "r1", '{"id":"r1","x":[{"a":2,"b":1},{}]}', "resource", "r2", '{"a":[null],"id":"r2"}',
      "geolocation", "p1", '{"id":"p1","n":[{"a":1},{"a":1}]}', "property", "a", "{}", "property", "b", "1"]),
    ('{"metrics":[{"metricId":"m","metricId":"n"}],"id":"g","resources":[],"events":[%s]}' % V1,
     ["log", "g", "event", *seen(), "metric", "n", '{"metricId":"n"}']),
    # Lists that are null, and lists that a later member of their name replaces.
    ('{"id":"g","events":[],"resources":null,"geolocations":null,"metrics":null}', ["log", "g"]),
    ('{"id":"g","resources":[7],"events":[%s],"resources":[{"id":"r"}]}' % V1,
     ["log", "g", "event", *seen(), "resource", "r", '{"id":"r"}']),
    ('{"id":"g","resources":{"a":1.5},"events":[],"resources":[]}', ["log", "g"]),
]

# Texts of values that are no documents. What is judged first is told first.
NO_DOCUMENTS = [
    ('{"events":[{}]}', ["LogId"]),
    ('{"id":"g","events":[{}],"metrics":1}', ["NotList", "Metrics"]),
    ('{"id":"g","events":[{}],"resources":{},"geolocations":1}', ["NotList", "Resources"]),
    ('{"id":"g","events":[],"geolocations":1}', ["NotList", "Geolocations"]),
    ('{"id":"g","events":[{},7],"resources":[{}],"b\\u0001":2}', ["Event", 1, "Id"]),
    ('{"b\\u0001":2,"events":[7,{}],"id":"g"}', ["Event", 1, "NotObject"]),
    (document(V1, event(action="")), ["Event", 2, "Action"]),
    (document(event(reporterchains="[[%s,7]]" % S1)), ["Event", 1, "Chain", 1, 2]),
    ('{"id":"g","events":[],"resources":[{}]}', ["Entity", "Resource", 1, "Id"]),
    ('{"id":"g","events":[],"geolocations":[{"id":"p","a":%s}]}' % nested(100), ["Entity", "Geolocation", 1, "TooDeep"]),
    ('{"id":"g","events":[],"metrics":[{"metricId":"m"},7]}', ["Entity", "Metric", 2, "NotObject"]),
    ('{"id":7,"events":[{}],"resources":7}', ["LogId"]),
    ('{"id":"g","events":[{}],"resources":[{}],"metrics":7}', ["NotList", "Metrics"]),
    ('{"id":"g","events":[],"resources":"null"}', ["NotList", "Resources"]),
    ('{"metrics":[7],"geolocations":[7],"resources":[{"id":"r"},[]],"id":"g","events":[]}', ["Entity", "Resource", 2, "NotObject"]),
    ('{"metrics":[7],"geolocations":[{"id":7}],"id":"g","events":[]}', ["Entity", "Geolocation", 1, "Id"]),
    ('{"id":"g","events":[],"metrics":[{"id":"m"}],"b\\u0001":2}', ["Entity", "Metric", 1, "Id"]),
    ('{"id":"g","events":[],"resources":[{"id":"r","id":""}]}', ["Entity", "Resource", 1, "Id"]),
    ('{"id":"g","events":[],"resources":[{"a":%s}]}' % nested(100), ["Entity", "Resource", 1, "TooDeep"]),
    ('{"id":"g","events":[],"a":1,"b\\u0001":2}', ["Property", 2]),
    ('{"b\\u0001":2,"metrics":[7],"events":[],"id":"g"}', ["Entity", "Metric", 1, "NotObject"]),
    ("[]", ["Event", 0, "NotObject"]),
    (' [ {"a":1} , {"a":1} ] ', ["Event", 0, "NotObject"]),
    ('[{"id":"g","events":[]},{"a":1,"a":2}]', ["Event", 0, "NotObject"]),
    ('{"id":"g","events":{}}', ["NotList", "Events"]),
    ('{"id":"g","events":null}', ["NotList", "Events"]),
    ("7", ["Event", 0, "NotObject"]),
    ('{"id":"g","id":"g"}', ["Event", 0, "EventType"]),
    ("{}", ["Event", 0, "Id"]),
    ('{"typeURI":7,"id":"e1"}', ["Event", 0, "TypeUri"]),
    ('{"id":"e1","eventType":"activity","eventTime":"2024"}', ["Event", 0, "EventTime"]),
    (event(action=""), ["Event", 0, "Action"]),
]

# Texts that spell no value. What is no JSON is told before a number that is not whole, wherever the two stand.
NO_VALUES = [
    ("", "NotJson"),
    ("[1.5]", "NotWhole"),
    ('[{"a":1},{"a":1}', "NotJson"),
    ('{"id":"g","a":[{"b":0.5}]}', "NotWhole"),
    ('{"id":"g","events":[]', "NotJson"),
    ('{"id":"g","events":[{}]} {}', "NotJson"),
    ('{"id":"g","events":[{}],"a":1.0}', "NotWhole"),
    ('{"id":"g","events":[],"resources":[{"id":"r","a":1.5}]}', "NotWhole"),
    ('{"a":1.5,"id":"g","events":[', "NotJson"),
    ("[1.5,{]", "NotJson"),
    ("CADF-REPLICA 1\n", "NotJson"),
]

# An event, a body or a step may have more values than these: it is judged as a small one.
MOST = 16384


def large(text, member="typeURI"):
    """The text of an event behind a member of more values, which a later member of its name replaces: what is repeated is
    taken out."""
    return '{"%s":[' % member, "0,", MOST, "0]," + text[1:]


def within(before, repeated, after):
    """A text of which a part is repeated, between others."""
    start, part, count, end = repeated
    return before + start, part, count, end + after


def in_log(repeated, before="", after=""):
    """A log with that event, behind others and before others."""
    return within('{"id":"g","events":[' + before, repeated, after + "]}")

# The beginnings of the usual event with a further member, a list.
LISTED, CHAINED = V1[:-1] + ',"reporterchains":[', V1[:-1] + ',"reporterchain":[%s,' % S1
TAGGED, ATTACHED = V1[:-1] + ',"tags":[', V1[:-1] + ',"attachments":['
IN_STEP = '{"reporterId":"s1","role":"relay","a":['
OF_STEP = '],"a":0,"reporterTime":"2024-03-01T12:00:00.10+0100"}'
STEP = '{"a":0,"reporterId":"s1","reporterTime":"2024-03-01T12:00:00.1+01:00","role":"relay"}'
NO_ACTION = event(action="")

# Documents with such an event that are accepted, and their parts.
LARGE_PARTS = [
    # As many values as a tree has, and one more: the object, nine members, the list and its items.
    (in_log((LISTED, "null,", MOST - 12, "null]}")), ["log", "g", "event", *seen()]),
    (in_log((LISTED, "null,", MOST - 11, "null]}")), ["log", "g", "event", *seen()]),
    (in_log((LISTED, "null,", MOST, "[%s,%s]]}" % (S1, S2))), ["log", "g", "event", *seen(B1, "chain", S1, S2)]),
    (in_log((V1[:-1] + ',"x":[', "0,", MOST, "0]}")), ["log", "g", "event", *seen(body("x", "[%s0]" % ("0," * MOST)))]),
    # Many values in an attachment, in a step, and in both members with chains.
    (in_log((ATTACHED + '{"b":[', "0,", MOST, '0],"b":2,"a":{}},{}]}')),
     ["log", "g", "event", *seen(B1, "attachment", '{"a":{},"b":2}', "attachment", "{}")]),
    (in_log((CHAINED + IN_STEP, "0,", MOST, "0" + OF_STEP + "]}")),
     ["log", "g", "event", *seen(B1, "chain", S1, STEP)]),
    (in_log((LISTED + "[%s],[" % S1 + IN_STEP, "0,", MOST, "0" + OF_STEP + '],[]],"reporterchain":[%s]}' % S2)),
     ["log", "g", "event", *seen(B1, "chain", S2, "chain", S1, "chain", STEP)]),
    # Other events before it and after it, and members of the log.
    (in_log(large(V2), before=V1 + ",", after="," + USUAL),
     ["log", "g", "event", *seen(), "event", *seen(name="e2"), "event", *USUAL_PARTS]),
    (within('{"resources":[{"id":"r"}],"events":[', large(V1), '],"id":"h","id":"g","name":"north"}'),
     ["log", "g", "event", *seen(), "resource", "r", '{"id":"r"}', "property", "name", '"north"']),
    (within('{"id":"g","events":[', large(V1), '],"\\u0065vents":[%s]}' % V2), ["log", "g", "event", *seen(name="e2")]),
    # Of two members of one name the later one counts, also if the other has a fraction.
    (in_log(large(V1[:-1] + ',"outcome":"failure"}')), ["log", "g", "event", *seen(body("outcome", '"failure"'))]),
    (in_log(large(V1[:-1] + ',"x":{"a":1.5,"a":1}}')), ["log", "g", "event", *seen(body("x", '{"a":1}'))]),
    (in_log(large(V1[:-1] + ',"x":1.5,"x":1}')), ["log", "g", "event", *seen(body("x", "1"))]),
    # Such an event by itself.
    (large(V1), ["no log", "event", *seen()]),
    ((LISTED, "null,", MOST, "[%s]]}" % S1), ["no log", "event", *seen(B1, "chain", S1)]),
    (large(event(x='"\\u0041"')), ["no log", "event", *seen(body("x", '"A"'))]),
]

# Documents with such an event that are refused.
LARGE_REFUSED = [
    (in_log((LISTED, "null,", MOST, "7]}")), ["Event", 1, "Chain", MOST + 1, 0]),
    (in_log((LISTED, "[],", MOST, "[%s,{}]]}" % S1)), ["Event", 1, "Chain", MOST + 1, 2]),
    (in_log((TAGGED, '"a",', MOST, '""]}')), ["Event", 1, "Tag", MOST + 1]),
    (in_log((ATTACHED, "{},", MOST, "1]}")), ["Event", 1, "Attachment", MOST + 1]),
    (in_log((CHAINED + IN_STEP, "0,", MOST, '0],"reporterTime":7}]}')), ["Event", 1, "Chain", 0, 2]),
    (in_log((LISTED + "[%s],[" % S1 + IN_STEP, "0,", MOST, '0],"role":"sender"}]]}')), ["Event", 1, "Chain", 2, 1]),
    (in_log(large(V1[:-1] + ',"id":""}')), ["Event", 1, "Id"]),
    # A value of many values that is no event.
    (in_log(("[", "0,", MOST, "0]")), ["Event", 1, "NotObject"]),
    (in_log(("[", "0,", MOST, "0]"), before=V1 + ",", after="," + NO_ACTION), ["Event", 2, "NotObject"]),
    # The first event that is refused is named, whichever is large; what is told before an event is told first.
    (in_log(large(V1), before=V2 + ",", after="," + NO_ACTION), ["Event", 3, "Action"]),
    (in_log(large(V1), after=",7"), ["Event", 2, "NotObject"]),
    (in_log(large(event(outcome="")), before=NO_ACTION + ","), ["Event", 1, "Action"]),
    (in_log(large(V1), before=NO_ACTION + ","), ["Event", 1, "Action"]),
    (in_log(large(event(outcome="")), after="," + NO_ACTION), ["Event", 1, "Outcome"]),
    (within('{"events":[', large(event(outcome="")), "]}"), ["LogId"]),
    (within('{"events":[', large(event(outcome="")), '],"id":"g","metrics":{}}'), ["NotList", "Metrics"]),
    (within('{"resources":[7],"id":"g","events":[', large(event(outcome="")), "]}"), ["Event", 1, "Outcome"]),
    (within('{"resources":[7],"id":"g","events":[', large(V1), "]}"), ["Entity", "Resource", 1, "NotObject"]),
    (within('{"b\\u0001":2,"id":"g","events":[', large(V1), "]}"), ["Property", 1]),
    # Such an event by itself.
    (large(NO_ACTION), ["Event", 0, "Action"]),
    (large(event(x=nested(100))), ["Event", 0, "TooDeep"]),
    ((LISTED, "null,", MOST, "7]}"), ["Event", 0, "Chain", MOST + 1, 0]),
    ((TAGGED, '"a",', MOST, '""]}'), ["Event", 0, "Tag", MOST + 1]),
    ((ATTACHED, "{},", MOST, "1]}"), ["Event", 0, "Attachment", MOST + 1]),
    (("[", "0,", MOST, "0]"), ["Event", 0, "NotObject"]),
]

# Texts with such an event that spell no value.
LARGE_VALUES = [
    (within('{"id":"g","events":[', large(V1), "]"), "NotJson"),
    (within('{"id":"g","events":[', large(V1), "]} {}"), "NotJson"),
    (('{"id":"g","events":[{"x":[', "0,", MOST, "0"), "NotJson"),
    (in_log(large(V1[:-1] + ',"x":1.5}')), "NotWhole"),
    (in_log(("[", "0,", MOST, "0.5]")), "NotWhole"),
    (in_log(large(V1), after=',{"x":0.5}'), "NotWhole"),
    (in_log(large(V1[:-1] + ',"x":0.5}'), after=",{]"), "NotJson"),
    (large(V1[:-1] + ',"x":1.5}'), "NotWhole"),
    (large(V1 + " {}"), "NotJson"),
    (large(V1[:-1]), "NotJson"),
]

# Bodies and steps of many values, and texts that are none.
NO_BODY_LISTS = [
    (body("outcome", '"x"')[:-1] + ',"x":[', "0,", MOST, "0]}"),
    (body("eventTime", '"2024-03-01T12:00:00.0Z"')[:-1] + ',"x":[', "0,", MOST, "0]}"),
    (B1.replace('"init', '"id":"e1","init')[:-1] + ',"x":[', "0,", MOST, "0]}"),
    (body("x", nested(100))[:-1] + ',"y":[', "0,", MOST, "0]}"),
    (B1[:-1] + ',"x":[ ', "0,", MOST, "0]}"),
    (B1[:-1] + ',"x":[', "0,", MOST, '0],"x":0}'),
    (B1[:-1] + ',"x":[', "0,", MOST, "0.5]}"),
    ("[", "0,", MOST, "0]"),
]
NO_STEP_LISTS = [
    (S1.replace("observer", "sender")[:-1] + ',"x":[', "0,", MOST, "0]}"),
    ('{"reporterId":"s1","reporterTime":"2024-03-01T12:00:00+00:00","role":"relay","x":[', "0,", MOST, "0]}"),
    (S1[:-1] + ',"x":%s,"y":[' % nested(100), "0,", MOST, "0]}"),
    (S1[:-1] + ',"x":[', "0 ,", MOST, "0]}"),
    ("[", "0,", MOST, "0]"),
]

# Documents, and what the fault of each is shown as.
SHOWN = [
    ("[]", "event 0: not an object"),
    (event(x=nested(100)), "event 0: too deep"),
    (event(typeURI="7"), "event 0: typeURI"),
    (event(id=""), "event 0: id"),
    (event(eventType=""), "event 0: eventType"),
    (event(eventTime=""), "event 0: eventTime"),
    (event(action=""), "event 0: action"),
    (event(outcome=""), "event 0: outcome"),
    (event(initiatorId=""), "event 0: initiator"),
    (event(targetId=""), "event 0: target"),
    (event(observerId=""), "event 0: observer"),
    (event(reporterchain="[%s]" % ",".join([S1] * 257)), "event 0: chain 0 step 257"),
    (document(V1, event(reporterchains="[[%s,%s,7]]" % (S1, S2))), "event 2: chain 1 step 3"),
    (event(tags='["a",""]'), "event 0: tag 2"),
    (event(attachments="[1]"), "event 0: attachment 1"),
    ('{"events":[]}', "log id"),
    ('{"id":"g","events":7}', "events is not a list"),
    ('{"id":"g","events":[],"resources":7}', "resources is not a list"),
    ('{"id":"g","events":[],"geolocations":7}', "geolocations is not a list"),
    ('{"id":"g","events":[],"metrics":7}', "metrics is not a list"),
    ('{"id":"g","events":[],"resources":[{}]}', "resource 1: id"),
    ('{"id":"g","events":[],"geolocations":[{"id":"p"},%s]}' % nested(101), "geolocation 2: not an object"),
    ('{"id":"g","events":[],"geolocations":[{"id":"p"},{"a":%s}]}' % nested(100), "geolocation 2: too deep"),
    ('{"id":"g","events":[],"metrics":[{"metricId":"m"},{"metricId":"n"},7]}', "metric 3: not an object"),
    ('{"id":"g","events":[],"a":1,"b":2,"c":3,"d\\u0001":4}', "property 4"),
    ("{", "not JSON"),
    ("[1.5]", "a number is not whole"),
]


def words():
    """Names, and the words that an event chooses from."""
    for text in ("a" * 1024, "a", "openstack:audit", "é", "\x80 "):
        yield "name", [text], ["ok", text], NAMES
        yield "is_valid_name", [text], [True], NAMES
    for text, fault in (("a" * 1025, "TooLong"), ("é" * 513, "TooLong"), ("", "Empty"), ("a\x7f", "Control"), ("\n", "Control"),
                        ("\x1fa", "Control")):
        yield "name", [text], ["err", fault], NAMES
        yield "is_valid_name", [text], [False], NAMES
    for text in ("id", "typeURI", "events", "resources", "geolocations", "metrics"):
        yield "is_reserved", [text], [True], DOCUMENTS
    for text in ("name", "ID", ""):
        yield "is_reserved", [text], [False], DOCUMENTS
    for call, text, found in (
            ("event_type", "activity", "Activity"), ("event_type", "monitor", "Monitor"), ("event_type", "control", "Control"),
            ("outcome", "success/partial", "Success"), ("outcome", "success", "Success"), ("outcome", "failure", "Failure"),
            ("outcome", "unknown/", "Unknown"), ("outcome", "pending", "Pending"),
            ("role", "observer", "Observer"), ("role", "modifier", "Modifier"), ("role", "relay", "Relay")):
        yield call, [text], ["some", found], EVENTS
    for call, text in (("event_type", "Activity"), ("event_type", ""), ("outcome", "successes"), ("outcome", "/success"),
                       ("role", "sender"), ("role", "Relay")):
        yield call, [text], ["none"], EVENTS


def events():
    """Events and their parts."""
    yield "event", [V1], ["ok", *seen()], EVENTS
    yield "event", [USUAL], ["ok", *USUAL_PARTS], EVENTS
    for name, value, parts in ACCEPTED:
        yield "event", [event(**{name: value})], ["ok", *parts], EVENTS
    for name, value, fault in REFUSED:
        yield "event", [event(**{name: value})], ["err", *fault], EVENTS
    yield "event", ["[]"], ["err", "NotObject"], EVENTS
    for number in WHOLE:
        yield "event", [event(measurements=MEASURED % number)], ["ok", *seen(body("measurements", MEASURED % number))], EVENTS
    for number in NOT_WHOLE:
        yield "event", [event(measurements=MEASURED % number)], ["err", "NotWhole"], CANONICAL


def parts():
    """Bodies, steps and attachments by their texts; entities and properties."""
    for text in B1, body("x", nested(99)):
        yield "body", [text], ["ok", NOON, text], EVENTS
        yield "body_with", [text], ["some", NOON, text], EVENTS
    for text, fault in NO_BODIES:
        yield "body", [text], ["err", fault], EVENTS
        yield "body_with", [text], ["none"], EVENTS
    yield "step", [S1], ["ok", S1], EVENTS
    yield "step_with", [S1], ["some", S1], EVENTS
    for text, fault in NO_STEPS:
        yield "step", [text], ["err", fault], EVENTS
        yield "step_with", [text], ["none"], EVENTS
    yield "attachment", ['{"a":1}'], ["ok", '{"a":1}'], EVENTS
    for text, fault in (("[]", "NotThis"), ('{ "a":1}', "NotCanonical"), ('{"a":%s}' % nested(100), "NotThis")):
        yield "attachment", [text], ["err", fault], EVENTS
    for kind, text, key, spelled in ENTITIES:
        yield "entity", [kind, text], ["ok", kind, key, spelled], DOCUMENTS
    for kind, text, fault in NO_ENTITIES:
        yield "entity", [kind, text], ["err", fault], DOCUMENTS
    for name, text, spelled in PROPERTIES:
        yield "property", [name, text], ["ok", name, spelled], DOCUMENTS
    for name, text, fault in NO_PROPERTIES:
        yield "property", [name, text], ["err", fault], DOCUMENTS


def documents():
    """Documents, by their value and by their bytes."""
    for text, found in PARTS:
        yield "document", [text], ["ok", *found], DOCUMENTS
        yield "document_bytes", [text], ["ok", *found], DOCUMENTS
    for text, fault in NO_DOCUMENTS:
        yield "document", [text], ["err", *fault], DOCUMENTS
        yield "document_bytes", [text], ["err", "Document", *fault], DOCUMENTS
    for text, fault in NO_VALUES:
        yield "document", [text], ["err", fault], DOCUMENTS
        yield "document_bytes", [text], ["err", "Json", fault], DOCUMENTS
    yield "document_bytes", [b'{"id":"\xff"}'], ["err", "Json", "NotJson"], DOCUMENTS


def large_documents():
    """Documents with an event of more values than a tree has, and such bodies and steps."""
    for name, value, found in ACCEPTED:
        one = large(event(**{name: value}), "id" if name == "typeURI" else "typeURI")
        yield "repeated", ["document_bytes", *in_log(one)], ["ok", "log", "g", "event", *found], EVENTS
    for name, value, fault in REFUSED:
        one = large(event(**{name: value}), "typeURI" if name == "id" else "id")
        yield "repeated", ["document_bytes", *in_log(one)], ["err", "Document", "Event", 1, *fault], EVENTS
    for text, found in LARGE_PARTS:
        yield "repeated", ["document_bytes", *text], ["ok", *found], DOCUMENTS
    for text, fault in LARGE_REFUSED:
        yield "repeated", ["document_bytes", *text], ["err", "Document", *fault], DOCUMENTS
    for text, fault in LARGE_VALUES:
        yield "repeated", ["document_bytes", *text], ["err", "Json", fault], DOCUMENTS
    for call, whole, text in (("body_with", [NOON], B1), ("step_with", [], S1)):
        before, many = text[:-1] + ',"x":[', "0," * MOST
        yield "repeated", [call, before, "0,", MOST, "0]}"], ["some", *whole, before + many + "0]}"], EVENTS
    for text in NO_BODY_LISTS:
        yield "repeated", ["body_with", *text], ["none"], EVENTS
    for text in NO_STEP_LISTS:
        yield "repeated", ["step_with", *text], ["none"], EVENTS


def faults():
    """What faults are shown as."""
    for text, shown in SHOWN:
        yield "fault", ["document", text], ["some", shown], DOCUMENTS
    for what, text, shown in (
            ("name", "", "empty"), ("name", "a" * 1025, "too long"), ("name", "\n", "control character"),
            ("time", "", "not a time"), ("time", "2024-03-01T12:00:60Z", "no such time"),
            ("time", "2024-03-01T00:00:00+15:00", "offset"), ("canonical", " 7", "not canonical"),
            ("body", " 7", "not canonical"), ("body", "7", "another value")):
        yield "fault", [what, text], ["some", shown], FAULTS
    for name, text, shown in (("id", "1", "name"), ("x", nested(101), "too deep")):
        yield "fault", ["property", name, text], ["some", shown], FAULTS
    yield "fault", ["document", V1], ["none"], DOCUMENTS

ROWS = [row for rows in (words, events, parts, documents, large_documents, faults) for row in rows()]
