"""Worked rows of documents: what each is shown as, and why one is refused.

    from document_rows import WRITTEN, REFUSED
"""
from tests.tables.event_calls import MEASURED, NOT_WHOLE, REFUSED as MEMBERS_REFUSED, WHOLE
from tests.tables.json_calls import NO_TIMES, SPELLED_TIMES
from tests.tables.texts import EVT, S1, S2, S3, USUAL, V1, V2, VF, conflicts, document, entry, event, log, nested, quoted
from tests.tables.worked_files import R1

USUAL_SHOWN = (
    '{"action":"read/list","eventTime":"2014-02-14T01:20:47.932842Z","eventType":"activity","id":"openstack:7f3e",'
    '"initiator":{"id":"u1","typeURI":"service/security/account/user"},"observer":{"id":"target"},"outcome":"success",'
    '"reporterchain":[{"reporter":{"id":"target"},"reporterTime":"2014-02-14T01:20:47.932842Z","role":"modifier"}],'
    '"tags":["correlation_id?value=9"],"target":{"id":"t1"},"typeURI":"%s"}' % EVT)


def at(time, name="e1"):
    """The usual event at that time, with that identifier."""
    return event(eventTime='"%s"' % time, id='"%s"' % name)


ONE, BOTH = event(reporterchain="[%s]" % S1), event(reporterchain="[%s,%s]" % (S1, S2),
                                                     reporterchains="[[%s],[%s,%s]]" % (S1, S1, S2))
FORKED = event(reporterchain="[%s,%s]" % (S1, S2), reporterchains="[[%s,%s],[%s,%s]]" % (S1, S2, S1, S3))
FAILED = event(outcome='"failure"', reporterchain="[%s]" % S2)
LATER, EARLIER = at("2024-03-01T13:00:00+01:00"), at("2024-03-01T12:30:00+01:00", "e3")
SAME_TIME = document(at("2024-03-01T12:00:00+0000"), at("2024-03-01T12:00:00.000+00:00"))
NORTH = '{"events":[],"id":"g","name":"north","resources":[{"typeURI":"storage","id":"r1"}],"typeURI":7}'

# Documents, and the logs that they are shown as.
SHOWN = [
    ("no event", document(), log()),
    ("an event with its members in any order, and blanks",
     '{ "events" : [ {"targetId":"t1","outcome":"success","id":"e1","observerId":"s1","initiatorId":"u1",'
     '"eventType":"activity","eventTime":"2024-03-01T12:00:00Z","action":"read"} ], "id":"g" }', log(V1)),
    ("the usual producer's event", document(USUAL), log(USUAL_SHOWN)),
    ("a log as it is shown", log(USUAL_SHOWN), log(USUAL_SHOWN)),
    ("one time in two spellings", SAME_TIME, log(V1)),
    ("events in any order, one of them twice", document(V2, V1, V2), log(V1, V2)),
    ("an event with two bodies", document(V1, VF, V2), log(V2)),
    ("events in the order of instants", document(LATER, V2, EARLIER), log(EARLIER, LATER, V2)),
    ("the same from another order", document(V2, EARLIER, LATER), log(EARLIER, LATER, V2)),
    ("one instant at two offsets", document(LATER, V1), log()),
    ("a property and a resource", NORTH, log(name='"north"', resources="[%s]" % R1)),
    ("an outcome with a path", document(event(outcome='"success/partial"')), log(event(outcome='"success/partial"'))),
    ("tags that are null", document(event(tags="null")), log(V1)),
    ("a chain that is empty among others", document(event(reporterchains="[[%s],[],[%s,%s]]" % (S1, S1, S2))), log(BOTH)),
    ("a log with chains as it is shown", log(BOTH), log(BOTH)),
    ("chains of one length", document(event(reporterchains="[[%s,%s],[%s,%s]]" % (S1, S3, S1, S2))), log(FORKED)),
    ("empty chains beside them", document(event(reporterchains="[[%s,%s],[],[%s,%s],[]]" % (S1, S3, S1, S2))), log(FORKED)),
    ("an empty chain before them",
     document(event(reporterchain="[]", reporterchains="[[%s,%s],[%s,%s]]" % (S1, S3, S1, S2))), log(FORKED)),
    ("chains in both members",
     document(event(reporterchain="[%s,%s]" % (S1, S3), reporterchains="[[%s,%s]]" % (S1, S2))), log(FORKED)),
    ("two bodies with their chains", document(ONE, FAILED), log()),
]
SHOWN += [("the time " + time, document(at(time)), log(at(shown))) for time, _, _, shown in SPELLED_TIMES]
SHOWN += [("the number " + number, document(event(measurements=MEASURED % number)), log(event(measurements=MEASURED % number)))
          for number in WHOLE]

# Documents, and their conflicts.
TOLD = [
    ("no event", document(), conflicts()),
    ("one time in two spellings", SAME_TIME, conflicts()),
    ("two bodies with their chains", document(ONE, FAILED), conflicts(entry("E", "e1", FAILED, ONE))),
    ("one instant at two offsets", document(LATER, V1), conflicts(entry("E", "e1", V1, LATER))),
]

# Documents at the limits of names, nesting and chains, and the logs that they are shown as.
AT_LIMITS = [(name, document(one), log(one)) for name, one in [
    ("a name of 1,024 bytes", event(id='"%s"' % ("n" * 1024))),
    ("a name of 512 characters of two bytes", event(id='"%s"' % ("\u00e9" * 512))),
]]

# Events of a document, and why it is refused.
FAULTS = {"TooDeep": "too deep", "TypeUri": "typeURI", "Id": "id", "EventType": "eventType", "EventTime": "eventTime", "Action": "action",
          "Outcome": "outcome", "Initiator": "initiator", "Target": "target", "Observer": "observer", "Chain": "chain %d step %d",
          "Tag": "tag %d", "Attachment": "attachment %d"}
EVENTS_REFUSED = [("the number " + number, event(measurements=MEASURED % number), "a number is not whole") for number in NOT_WHOLE]
EVENTS_REFUSED += [("the time " + time, event(eventTime=quoted(time)), "event 1: eventTime") for time, _ in NO_TIMES]
EVENTS_REFUSED += [("%s as %.40s" % (name, value), event(**{name: value}), "event 1: " + FAULTS[fault] % tuple(places))
                   for name, value, (fault, *places) in MEMBERS_REFUSED]

# Inputs, and why they are refused.
DOCUMENTS_REFUSED = [(name, document(one), said) for name, one, said in EVENTS_REFUSED] + [
    ("four bytes of a file's first line", "CADF", "not JSON"),
    ("five bytes of a file's first line", "CADF-", "truncated"),
    ("no byte", "", "not JSON"),
    ("a list that isn't ended, with a fraction", "[1.5", "not JSON"),
    ("a list with a fraction", "[1.5]", "a number is not whole"),
    ("bytes that are no text", '"\udcff"', "not JSON"),
    ("a log without an identifier", '{"events":[]}', "log id"),
    ("events that are an object", '{"id":"g","events":{}}', "events is not a list"),
    ("a second event without an action", document(V1, event(action="", id='"e2"')), "event 2: action"),
    ("a resource without an identifier", document(more=',"resources":[{"typeURI":"x"}]'), "resource 1: id"),
    ("a list", "[]", "event 0: not an object"),
    ("events that aren't ended", '{"events":[', "not JSON"),
    ("127 lists", nested(127), "event 0: not an object"),
    ("128 lists", nested(128), "not JSON"),
]

WRITTEN = [(name, "show", [text], output) for name, text, output in SHOWN + AT_LIMITS]
WRITTEN += [(name, "show --conflicts", [text], output) for name, text, output in TOLD]
REFUSED = [(name, "show", [text], "input 1: " + said) for name, text, said in DOCUMENTS_REFUSED]
