"""Texts that the tables of calls share, and what makes others of them: documents, files, the two texts that are shown, faults.

    from texts import B1, V1, event
"""
import hashlib
import json

EVT = "http://schemas.dmtf.org/cloud/audit/1.0/event"
LOG_TYPE = "http://schemas.dmtf.org/cloud/audit/1.0/log"

# The usual event: its body, the whole of it, and it under another identifier or with another outcome.
B1 = ('{"action":"read","eventTime":"2024-03-01T12:00:00Z","eventType":"activity","initiatorId":"u1","observerId":"s1",'
      '"outcome":"success","targetId":"t1"}')
BF = B1.replace("success", "failure")
V1 = ('{"action":"read","eventTime":"2024-03-01T12:00:00Z","eventType":"activity","id":"e1","initiatorId":"u1",'
      '"observerId":"s1","outcome":"success","targetId":"t1","typeURI":"%s"}' % EVT)
V2 = V1.replace('"e1"', '"e2"')
VF = V1.replace("success", "failure")

# Steps of chains.
S1 = '{"reporterId":"s1","role":"observer"}'
S2 = '{"reporterId":"s2","role":"relay"}'
S3 = '{"reporterId":"s3","role":"relay"}'

# The event of a usual producer: its identifier, the whole of it, its body, the step of its chain and its tag.
E3 = "openstack:7f3e"
USUAL = (
    '{"typeURI":"%s","id":"openstack:7f3e","eventType":"activity","eventTime":"2014-02-14T01:20:47.932842+0000",'
    '"action":"read/list","outcome":"success","observer":{"id":"target"},'
    '"initiator":{"id":"u1","typeURI":"service/security/account/user"},"target":{"id":"t1"},'
    '"reporterchain":[{"role":"modifier","reporterTime":"2014-02-14T01:20:47.932842+00:00","reporter":{"id":"target"}}],'
    '"tags":["correlation_id?value=9"]}' % EVT)
B3 = ('{"action":"read/list","eventTime":"2014-02-14T01:20:47.932842Z","eventType":"activity",'
      '"initiator":{"id":"u1","typeURI":"service/security/account/user"},"observer":{"id":"target"},'
      '"outcome":"success","target":{"id":"t1"}}')
S0 = '{"reporter":{"id":"target"},"reporterTime":"2014-02-14T01:20:47.932842Z","role":"modifier"}'
T3 = "correlation_id?value=9"

MEMBERS = {
    "action": '"read"', "eventTime": '"2024-03-01T12:00:00Z"', "eventType": '"activity"', "id": '"e1"',
    "initiatorId": '"u1"', "observerId": '"s1"', "outcome": '"success"', "targetId": '"t1"', "typeURI": '"%s"' % EVT}


def event(**changed):
    """The usual event with these members, whose values are JSON; without one whose value is empty."""
    members = {**MEMBERS, **changed}
    return "{" + ",".join('"%s":%s' % (name, members[name]) for name in sorted(members) if members[name]) + "}"


def body(name, value):
    """The body of the usual event with that member, whose value is canonical JSON."""
    members = {**MEMBERS, name: value}
    return "{" + ",".join('"%s":%s' % (one, members[one]) for one in sorted(members) if one not in ("id", "typeURI")) + "}"


def nested(depth, inner=""):
    """So many lists in one another, around `inner`."""
    return "[" * depth + inner + "]" * depth


def document(*events, log="g", more=""):
    """A log document with these events; `more` are further members, each behind a comma."""
    return '{"id":"%s","events":[%s]%s}' % (log, ",".join(events), more)


def quoted(text):
    """The text as canonical JSON."""
    return json.dumps(text, ensure_ascii=False)


def line(*texts):
    """The canonical text of a list of texts: an atom's line, without its line feed."""
    return "[" + ",".join(quoted(text) for text in texts) + "]"


def data(text):
    """The bytes of a text, in which a lone half of a pair stands for a byte that is no part of UTF-8; bytes are themselves."""
    return text if isinstance(text, bytes) else text.encode("utf-8", "surrogateescape")


def digits(text):
    """The digits of the text's digest."""
    return hashlib.sha256(data(text)).hexdigest()

# Atoms: the usual event, others of its identifier, and chains.
C1, C2, CF = line("E", "e1", B1), line("E", "e2", B1), line("E", "e1", BF)
K1, KF = line("E", "e1", B1, "C", S1), line("E", "e1", BF, "C", S2)


def lined(first, *lines, log="g"):
    """The file with that first line and these lines, and its digest line."""
    text = "".join(one + "\n" for one in (first, "L " + quoted(log)) + lines)
    return text + "Z " + digits(text) + "\n"


def replica(*lines, log="g"):
    """The replica file of format 1 with these lines."""
    return lined("CADF-REPLICA 1", *lines, log=log)


def tree(*nodes, log="g"):
    """The replica file of format 2 with these nodes, each a depth, a mark and an element, or a line."""
    lines = [node if isinstance(node, str) else "[%d,%d,%s]" % (node[0], node[1], quoted(node[2])) for node in nodes]
    return lined("CADF-REPLICA 2", *lines, log=log)


def inventory(*lines, log="g"):
    """The inventory file with these lines of digits."""
    return lined("CADF-INVENTORY 1", *lines, log=log)


def log(*events, log="g", **more):
    """The log text with these events; `more` are its properties, and the lists of its entities."""
    members = {"geolocations": "[]", "metrics": "[]", "resources": "[]", **more}
    members.update(events="[%s]" % ",".join(events), id=quoted(log), typeURI=quoted(LOG_TYPE))
    return "{%s}\n" % ",".join("%s:%s" % (quoted(name), members[name]) for name in sorted(members))


def conflicts(*entries, rulings=(), log="g"):
    """The conflict text with these entries."""
    listed = ",".join(line(*ruling) for ruling in rulings)
    return '{"conflicts":[%s],"log":%s,"rulings":[%s]}\n' % (",".join(entries), quoted(log), listed)


def entry(letter, key, *values, ruled=""):
    """The entry of a key; `ruled` is the digest of the value that the log shows."""
    member = '"ruled":"%s",' % ruled if ruled else ""
    return '{"key":"%s","kind":"%s",%s"values":[%s]}' % (key, letter, member, ",".join(values))

# How faults of files and of their lines are shown.
SHOWN = {"Version": "version", "LogLine": "log line", "Digest": "digest", "Truncated": "truncated", "Trailing": "trailing bytes",
         "TooLarge": "too large", "ReadFault": "read fault"}
CAUSES = {"NotUtf8": "not UTF-8", "Json": "not JSON", "NotCanonical": "not canonical", "Shape": "shape", "Order": "order",
          "Ungrounded": "ungrounded", "Unended": "unended"}


def said(fault):
    """How a fault is shown: that of a line is `Line`, its number and its cause."""
    name, *line = fault.split()
    return "line %s: %s" % (line[0], CAUSES[line[1]]) if line else SHOWN[name]


def refused(fault):
    """The answer of a driver that refuses with that fault."""
    return ["err", *fault.split()]

# What rows of the driver of files share: how many bytes a read or a write has, a limit above all files, and headings.
PIECES = [1, 7, 4096]
LIMIT = 1 << 20
WHOLE = (LIMIT, 4096, 0)
LIMITS, SINKS = "ARCHITECTURE: Limits, and files in pieces", "ARCHITECTURE: Sources and sinks"
