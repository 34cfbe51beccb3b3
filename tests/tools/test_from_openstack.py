"""What tools/cadf-from-openstack makes of each kind of line, and of the recorded events in examples/real.

- Each kind of line holds the same event; each rule, applied and left out; each bad line costs itself alone, whatever
  memory or time it would take, and swallows no other.
- The recorded events: how many are kept, that they differ from what was read by the rules alone, that the binary
  accepts each one kept and refuses each one set aside, that any cutting of the input gives the same log, and so do
  relays.
- Its checks of events beside those of the second implementation.
- The file of what is set aside, full documents, files that can't be read or written, and a limit of memory.
"""
import base64
import copy
import glob
import hashlib
import json
import os
import random
import re
import resource
import stat
import subprocess
import tempfile
import threading
import time

import pytest

from tests import TOP
from tests.machine import ended
from tests.reference import events as second
from tests.tools.copies import copied
from tests.tools.programs import loaded, tool

TOOL = tool("cadf-from-openstack")
REAL = sorted(glob.glob(os.path.join(TOP, "examples", "real", "*.jsonl")))
EVENT = {"typeURI": second.EVENT_URI, "id": "e", "eventType": "activity", "eventTime": "2024-03-01T12:00:00.000001+0000",
         "action": "read", "outcome": "success", "initiator": {"id": "u", "name": "Jörg 'x' \"y\"\n\u2028\U0001f600", "n": None},
         "target": {"id": "t", "shared": True}, "observer": {"id": "o"}, "empty": "", "list": [1, "a", []]}
STEP = {"role": "relay", "reporterId": "r", "reporterTime": "2024-03-01T12:00:01+0000"}
KEPT_AT_LEAST = 0.96
NOTIFIED = {"message_id": "m", "publisher_id": "p", "event_type": "audit.http.request", "priority": "INFO"}
LOG = "2026-11-25 12:00:00.123 7 INFO %s [req-1 - - - - -] "


def event(**members):
    return dict(copy.deepcopy(EVENT), **members)


def without(*members):
    return {name: part for name, part in EVENT.items() if name not in members}


def nested(levels):
    return json.loads("[" * levels + "]" * levels)


def notification(payload):
    return dict(NOTIFIED, payload=payload)


def envelope(payload):
    return {"oslo.version": "2.0", "oslo.message": json.dumps(notification(payload))}


def middleware_line(payload, context="None"):
    return (LOG % "keystonemiddleware.audit" + "Event type: audit.http.request, Context: %s, Payload: %s" % (context, payload))

# Each line holds the event alone, however it is wrapped.
WRAPPED = [
    ("an event", json.dumps(EVENT)),
    ("a list", json.dumps([EVENT])),
    ("a document", json.dumps({"id": "other", "typeURI": "x", "events": [EVENT], "resources": [], "metrics": None})),
    ("a notification", json.dumps(notification(EVENT))),
    ("an envelope", json.dumps(envelope(EVENT))),
    ("a list of envelopes", json.dumps([envelope(EVENT)])),
    ("keystonemiddleware's logger", middleware_line(EVENT)),
    ("with a context", middleware_line(EVENT, {"user": "it's {", "roles": ["a", ("b",)], 1: None})),
    ("with a context that looks like a payload", middleware_line(EVENT, {"x": "', Payload: {'id': 'forged'}"})),
    ("driver = log", LOG % "oslo.messaging.notification.audit.http.request" + json.dumps(notification(EVENT))),
    ("an unsent notification", LOG % "oslo_messaging.notify.messaging" + "Could not send notification to notifications. "
     "Payload=%s: kombu.exceptions.OperationalError: {x} [Errno 111]" % notification(EVENT)),
    ("an unsent envelope", LOG % "x" + "Payload=%s" % envelope(EVENT)),
    ("by syslog", "<134>Nov 25 12:00:00 host nova-api[1]: " + json.dumps(notification(EVENT))),
    ("an entry of what was set aside", json.dumps({"file": "f", "line": 1, "faults": ["id"], "event": EVENT})),
    ("an entry of a text", json.dumps({"file": "f", "line": 1, "faults": ["id"], "text": json.dumps(envelope(EVENT))})),
    ("the end of a line of Windows", json.dumps(EVENT) + "\r"),
    ("blanks", " \t" + json.dumps(EVENT) + " "),
]

# Lines that hold no event: passed over, or set aside with these faults. A fault `..` stands for any text after.
NO_EVENTS = [
    ("nova's own", json.dumps(envelope({"instance_id": "i", "memory_mb": 512})), None),
    ("a basic notification of keystone", json.dumps(notification({"resource_info": "x"})), None),
    ("a line of a log", LOG % "nova" + "started {'a': 1}", None),
    ("a line of syslog", "Nov 25 12:00:00 host nova[1]: RESP BODY: {\"server\": {}}", None),
    ("a request in quotes", LOG % "nova" + '1.2.3.4 "GET /%s HTTP/1.1"' % json.dumps(notification(EVENT)), ["not JSON, and .."]),
    ("a header in quotes", LOG % "nova" + "agent 'Payload: %s'" % EVENT, ["not JSON, and .."]),
    ("no value of Python", middleware_line("{'id': <object>}"), ["no value of Python .."]),
    ("two numbers of Python", middleware_line(str(EVENT)[:-1] + ", 'n': 1 2}"), ["not JSON at .."]),
    ("a broken text of Python", middleware_line("{'id': '\\x1'}"), ["no text of Python"]),
    ("garbage", "garbage", ["not JSON, and .."]),
    ("a text", '"text"', ["not JSON, and .."]),
    ("cut off", json.dumps(envelope(EVENT))[:50], ["not JSON at .."]),
    ("no message", '{"oslo.version": "2.0", "oslo.message": "{"}', ["not JSON at .."]),
    ("no UTF-8", b'\xff{"a":1}', ["not UTF-8"]),
    ("no UTF-8 within", json.dumps(EVENT).encode().replace(b"read", b"re\xffad"), ["not UTF-8"]),
    ("a control character", json.dumps(EVENT).replace("read", "re\1ad"), ["not JSON at .."]),
    ("100,000 brackets", "[" * 100000, ["nested too deep"]),
    ("100,000 brackets in a member", json.dumps(EVENT)[:-1] + ',"n":' + "[" * 100000 + "]" * 100000 + "}", ["nested too deep"]),
    ("100,000 brackets of Python", middleware_line("{'a':" + "(" * 100000 + ")" * 100000 + "}"), ["nested too deep"]),
    ("100 levels", json.dumps(event(n=nested(100))), ["too deep"]),
    ("half of a pair", json.dumps(EVENT).replace("read", "\\ud800"), ["action", "half of a surrogate pair"]),
    ("half of a pair in a member", json.dumps(event(n="\ud800")), ["half of a surrogate pair"]),
    ("null as the initiator", json.dumps(event(initiator=None)), ["initiator"]),
    ("no identifier", json.dumps(without("id")), ["id"]),
    ("all of it", "{}", ["id", "eventType", "eventTime", "action", "outcome", "target", "observer"]),
    ("parts", json.dumps(event(tags=["a", "", 3], attachments=[{}, 1], reporterchain=[STEP] * 257 + [1], reporterchains=[[5], 6])),
     ["chain 0 step 257", "chain 1 step 1", "chain 2 step 0", "tag 2", "tag 3", "attachment 2"]),
    ("a number as the identifier", json.dumps(event(id=1.5)), ["id"]),
    ("no object", "[[]]", ["not an object"]),
    ("resources", json.dumps({"id": "g", "events": [], "resources": [{"id": "r"}]}), ["resources: no event"]),
    ("properties", json.dumps({"id": "g", "events": [], "name": "n", "x": 1.5, "metrics": []}),
     ["name: no event", "x: no event", "/x: a number is not whole"]),
    ("base64", json.dumps({"faults": [], "base64": "/w=="}), ["not UTF-8"]),
    ("an entry of no file", json.dumps({"faults": [], "event": 1, "file": [], "line": 1}), ["not an object"]),
    ("an entry of no line", json.dumps({"faults": [], "event": 1, "file": "f", "line": 1.5}), ["not an object"]),
]

PENDING = {"outcome": "pending", "requestPath": "/v2"}
LOCAL = "2024-03-01T12:00:00"
# An event as it was read, the same as the rules mend it (None if it is as it was), and the rules.
MENDED = [
    (event(**PENDING), event(id="e#request", **PENDING), ["request"]),
    (event(id="e#request", **PENDING), None, []),
    (event(outcome="pending/x", requestPath="/"), None, []),
    (event(outcome="pending"), None, []),
    (event(requestPath="/"), None, []),
    (event(id="i" * 1016, **PENDING), event(id="i" * 1016 + "#request", **PENDING), ["request"]),
    (event(id="i" * 1017, **PENDING), None, []),
    (event(reporterchain=[STEP], tags=["a"], **PENDING), event(id="e#request", reporterchain=[STEP], tags=["a"], **PENDING),
     ["request"]),
    (event(eventTime=LOCAL + ".123456789"), event(eventTime=LOCAL + ".123456789Z"), ["time"]),
    (event(reporterchain=[dict(STEP, reporterTime=LOCAL)]), event(reporterchain=[dict(STEP, reporterTime=LOCAL + "Z")]), ["time"]),
    (event(reporterchains=[[dict(STEP, reporterTime=LOCAL)], None]),
     event(reporterchains=[[dict(STEP, reporterTime=LOCAL + "Z")], None]), ["time"]),
    (without("initiator"), dict(without("initiator"), initiatorId="unknown"), ["initiator"]),
    (dict(without("initiator"), initiatorId="u"), None, []),
    (event(n=1.5), event(n="1.5"), ["number"]),
    (event(n=[{"m": 2 ** 64}]), event(n=[{"m": str(2 ** 64)}]), ["number"]),
    (event(n=[2 ** 64 - 1, -2 ** 63, 0]), None, []),
    (event(n=-2 ** 63 - 1), event(n=str(-2 ** 63 - 1)), ["number"]),
    (event(n=float("nan"), m=float("-inf")), event(n="NaN", m="-Infinity"), ["number"]),
    (event(reporterchain=[dict(STEP, n=0.5)]), event(reporterchain=[dict(STEP, n="0.5")]), ["number"]),
    (event(events=[], payload={}, faults=[], n=1), None, []),
    (dict(without("initiator"), id="x", eventTime=LOCAL, n=1.5, **PENDING),
     dict(without("initiator"), id="x#request", eventTime=LOCAL + "Z", n="1.5", initiatorId="unknown", **PENDING),
     ["request", "time", "initiator", "number"]),
]
# Numbers as they are written, which Python would write otherwise.
SPELLED = ["1.50", "1e5", "1E+2", "-0", "-0.0", "9" * 5000, "1e400", "0.1e-7"]


class Done:
    """What a call of the tool did."""

    def __init__(self, answer, entries):
        self.status, self.output, self.error = answer
        self.entries = entries
        try:
            self.events = json.loads(self.output)["events"]
        except ValueError:
            self.events = None
        self.counts = self.error.decode().strip().rpartition("\n")[2]


def read(data, *options, **more):
    """What the tool makes of standard input, and the entries that it sets aside."""
    if os.path.exists("aside"):
        os.remove("aside")
    data = data.encode() if isinstance(data, str) else data
    answer = ended(TOOL, ["--log", "g", "--set-aside", "aside", *options], input=data, **more)
    with open("aside", encoding="utf-8") as lines:
        return Done(answer, [json.loads(line) for line in lines])


def wrong_copy(right, instead):
    """The place of a copy of the tool that has another text in one place."""
    tools = copied(tempfile.mkdtemp(dir=os.getcwd()), right, instead)
    return os.path.join(tools, "cadf-from-openstack")


def is_accepted(cadf, text):
    """Whether cadf accepts a document of the one event."""
    put("one.json", b'{"id":"g","events":[' + text + b"]}")
    return ended(cadf, ["check", "one.json"]).status == 0


def log_of(cadf, *documents):
    """The replica file of these documents."""
    for number, document in enumerate(documents):
        put("%d.json" % number, document)
    return ended(cadf, ["join", *("%d.json" % number for number in range(len(documents)))]).output


@pytest.fixture(autouse=True)
def own_folder(tmp_path, monkeypatch):
    """Each test works in a folder of its own."""
    monkeypatch.chdir(tmp_path)


def put(name, data):
    with open(name, "wb") as file:
        file.write(data)


def lines_of(values):
    return "".join(json.dumps(value) + "\n" for value in values)


def counts(kept=0, aside=0, notifications=0, lines=0, rules=()):
    mended = ", ".join("%s %d" % (rule, rules.count(rule)) for rule in ("request", "time", "initiator", "number"))
    return "cadf-from-openstack: kept %d, set aside %d, passed over %d notifications and %d lines of a log; %s" % (
        kept, aside, notifications, lines, mended)


def is_like(faults, wanted):
    return len(faults) == len(wanted) and all(
        fault.startswith(want[:-2]) if want.endswith("..") else fault == want for fault, want in zip(faults, wanted))


def test_wrapped():
    """Each kind of line that holds the event, without a line feed at its end."""
    for number, (_, line) in enumerate(WRAPPED):
        put("wrapped-%d" % number, line.encode())
    done = read(b"", *("wrapped-%d" % number for number in range(len(WRAPPED))))
    assert (done.status, len(done.events), done.counts) == (0, len(WRAPPED), counts(len(WRAPPED)))
    for (what, _), found in zip(WRAPPED, done.events):
        assert found == EVENT, what


def test_bad_lines(cadf):
    """All kinds of lines without an event in one file: each costs itself alone, and is refused as it is."""
    data, kept, aside, passed = b"", 0, 0, 0
    for number, (what, line, faults) in enumerate(NO_EVENTS):
        good = json.dumps(event(id=str(number))).encode()
        data += (line if isinstance(line, bytes) else line.encode("utf-8", "surrogatepass")) + b"\n" + good + b"\n"
        kept, aside, passed = kept + 1, aside + (faults is not None), passed + (faults is None)
    done = read(good + b"\n" + data)
    assert (done.status, len(done.events), len(done.entries), done.counts) == (1, kept + 1, aside, counts(kept + 1, aside, 2, passed - 2))
    wanted = [(2 * number + 2, faults) for number, (_, _, faults) in enumerate(NO_EVENTS) if faults is not None]
    for entry, (line, faults) in zip(done.entries, wanted):
        assert (entry["file"], entry["line"]) == ("-", line), "line %d" % line
        assert is_like(entry["faults"], faults), (line, entry["faults"])
    for entry in done.entries:
        assert not is_kept_as_it_is(cadf, entry), entry["faults"]


def is_kept_as_it_is(cadf, entry):
    """Whether cadf accepts what was set aside as it is."""
    if "event" in entry or "document" in entry:
        return is_accepted(cadf, json.dumps(entry.get("event", entry.get("document"))).encode())
    return is_accepted(cadf, entry["text"].encode("utf-8", "surrogatepass") if "text" in entry else b"\xff")


def test_rules():
    """Each rule, applied and left out. A document that was written, read again, is written the same."""
    done = read(lines_of(was for was, _, _ in MENDED))
    rules = [rule for _, _, each in MENDED for rule in each]
    assert (done.status, len(done.events), done.counts) == (0, len(MENDED), counts(len(MENDED), rules=rules))
    for found, (was, mended, each) in zip(done.events, MENDED):
        assert found == (was if mended is None else mended), (each, was)
    assert read(done.output, "--whole").output == done.output
    text = json.dumps(event(n=["%"]))
    done = read(text.replace('"%"', ", ".join(SPELLED)))
    assert done.events == [event(n=SPELLED)]


@pytest.mark.parametrize("rule", ["request", "time", "initiator", "number"])
def test_rule_left_out(cadf, rule):
    """Its events are set aside as they were read, or kept so, and mended once it is there again."""
    changed = [(was, mended) for was, mended, rules in MENDED if rules == [rule]]
    done = read(lines_of(was for was, _ in changed), "--without", rule)
    if rule == "request":
        assert (done.status, done.events) == (0, [was for was, _ in changed])
        return
    assert (done.status, done.events, len(done.entries)) == (1, [], len(changed))
    for entry in done.entries:
        assert not is_kept_as_it_is(cadf, entry)
    assert read(open("aside", "rb").read()).events == [mended for _, mended in changed]


def test_places():
    """Without the rule on numbers each number that isn't whole is named by its place."""
    value = dict(without("id"), n={"a/b": [1, 1.5, {"c~": float("nan")}]}, z=-0.0, tags=["1.5"])
    done = read(json.dumps(value), "--without", "number")
    assert [entry["faults"] for entry in done.entries] == [["id"] + ["%s: a number is not whole" % place for place in ("/n/a~1b/1", "/n/a~1b/2/c~0", "/z")]]


def test_texts():
    """A file is lines, and each costs itself alone. A text over several lines is read by --whole."""
    pretty = json.dumps({"id": "g", "events": [event(id="a"), event(id="b")]}, indent=1)
    one, whole, lines = json.dumps(event(id="c")), ["--whole"], len({line for line in pretty.split("\n") if line.strip() != "[]"})
    for what, data, words, kept, aside in (
            ("pretty", pretty, whole, "ab", 0), ("pretty twice", pretty + "\n\n" + pretty, whole, "abab", 0),
            ("a byte order mark", "\ufeff" + pretty, whole, "ab", 0), ("a byte order mark and a line", "\ufeff" + one, [], "c", 0),
            ("pretty, then a line", pretty + "\n" + one, whole, "abc", 0), ("cut off", pretty[:-40], whole, "", 1),
            ("an event, pretty", json.dumps(event(id="d", events=[]), indent=2), whole, "d", 0), ("blanks", "\n \n", whole, "", 0),
            ("pretty, as lines", pretty, [], "", lines), ("a torn first line", '{"payload":\n' + one, [], "c", 1),
            ("two lines after it", '{"a":\n%s\n%s' % (one, one), [], "cc", 1), ("brackets first", "[" * 1000 + "\n" + one + "\n" + one, [], "cc", 1),
            ("garbage first", "x\n" + one, [], "c", 1), ("garbage last", one + "\nx", [], "c", 1), ("a line feed got lost", one + one, [], "cc", 0),
            ("nothing", "", [], "", 0), ("blank lines", "\n \n" + one + "\n\n", [], "c", 0)):
        done = read(data, *words)
        assert ("".join(each["id"] for each in done.events), len(done.entries), done.status) == (kept, aside, min(aside, 1)), what
    assert "-: if this file is one text over several lines, read it with --whole" in read(pretty).error.decode()


def test_swallowing():
    """A line that begins a value and a later one that ends it don't swallow the line between them, whatever the file's name."""
    first = json.dumps(event(id="harmless"))[:-1] + ', "x":\n'
    text = first + json.dumps(envelope(event(id="victim"))) + "\n}\n"
    for name in ("bus.jsonl", "bus.ndjson", "bus.log", "bus", "bus.json", "-"):
        put(name if name != "-" else "stdin", text.encode())
        done = read(text, "--", name)
        assert [each["id"] for each in done.events] == ["victim"], "swallowed in " + name
        assert [entry["line"] for entry in done.entries] == [1, 3], "swallowed in " + name
    wrong = wrong_copy("all_of(file, longest) if is_whole else all_lines(file, longest)", "all_of(file, longest)")
    assert [each["id"] for each in json.loads(ended(wrong, ["--log", "g", "bus.jsonl"]).output)["events"]] == ["harmless"]
    for name, status in (("bus.jsonl", 2), ("bus.ndjson", 2), ("bus.log", 2), ("bus.json", 0)):
        assert ended(TOOL, ["--log", "g", "--whole", name]).status == status, "--whole " + name


def test_brackets():
    """Millions of brackets, as JSON over lines and as Python writes them, cost no more than to be read."""
    for what, text in (("JSON", "[" * 2000000), ("Python", middleware_line("{'a':" + "(" * 2000000))):
        done = read(text, preexec_fn=lambda: resource.setrlimit(resource.RLIMIT_CPU, (3, 3)))
        assert (done.status, [entry["faults"] for entry in done.entries]) == (1, [["nested too deep"]]), "brackets of " + what


def limited(mib):
    """Words for a call with so much memory."""
    return {"preexec_fn": lambda: resource.setrlimit(resource.RLIMIT_AS, (mib << 20, mib << 20))}


def dense_lines():
    """Lines of 4 MB that take more than 20 bytes of memory a byte to be read, and what they are."""
    for what, part in (("objects", '{"":0},'), ("lists", "[[[]]],"), ("deep objects", '{"":' * 90 + "0" + "}" * 90 + ",")):
        yield what, '[%s0]' % (part * (4000000 // len(part)))
    yield "names", '{%s"z":0}' % "".join('"%04x":0,' % number for number in range(400000))
    yield "values", "{}" * 2000000


def test_bombs():
    """Lines that would take much memory or time cost themselves alone, with 20 bytes of memory a byte; so do lines without an end."""
    good = json.dumps(event(id="good")) + "\n"
    for what, line in dense_lines():
        done = read(line + "\n" + good, **limited(130))
        assert done.status == 1, what
        assert [each["id"] for each in done.events] == ["good"], what
        assert [entry["faults"] for entry in done.entries] == [["takes more than 18 times its size of memory"]], what
        assert done.entries[0]["text"] == line, what
    less, scarce = read(next(dense_lines())[1] + "\n" + good, **limited(60)), ["takes more memory than there is"]
    assert ([each["id"] for each in less.events], [entry["faults"] for entry in less.entries]) == (["good"], [scarce])
    wrong = wrong_copy("MEMORY = 18 ", "MEMORY = 99 ")
    put("dense", next(dense_lines())[1].encode())
    ended(wrong, ["--log", "g", "--set-aside", "wrong.aside", "dense"], **limited(130))
    with open("wrong.aside", encoding="utf-8") as lines:
        assert [json.loads(line)["faults"] for line in lines] == [scarce]
    path = '"%s":[%s]' % ("x" * 100000, ",".join(["1.5"] * 20000))
    done = read(json.dumps(EVENT)[:-1] + ",%s}\n" % path, "--without", "number", **limited(100))
    assert done.status == 1
    assert len(done.entries[0]["faults"]) == 101
    assert done.entries[0]["faults"][99:] == ["/%s..: a number is not whole" % ("x" * 999), "and 19900 more"]
    wrong = wrong_copy("MOST_NAMED, LONGEST_NAMED = 100, 1000", "MOST_NAMED, LONGEST_NAMED = 10 ** 9, 10 ** 9")
    put("path", (json.dumps(EVENT)[:-1] + ",%s}" % path).encode())
    assert ended(wrong, ["--log", "g", "--without", "number", "path"], **limited(100)).status == 4
    assert len(read(json.dumps(EVENT)[:-1] + ",%s}" % path, **limited(100)).events[0]["x" * 100000]) == 20000
    with open("sparse", "wb") as file:
        file.truncate(1 << 30)
        file.seek(0, os.SEEK_END)
        file.write(b"\n" + good.encode())
    for words, longest in (([], 1 << 26), (["--longest", "4096"], 4096)):
        done = read(b"", *words, "sparse", **limited(250 if longest > 4096 else 60))
        assert done.status == 1
        assert [each["id"] for each in done.events] == ["good"]
        assert done.entries == [{"file": "sparse", "line": 1, "faults": ["longer than %d bytes: see --longest" % longest]}]
    wrong = wrong_copy("line = file.readline(longest + 2)", "line = file.readline()")
    assert ended(wrong, ["--log", "g", "sparse"], **limited(250)).status == 4
    os.remove("sparse")


def test_deep_numbers():
    """Numbers that lie deep, under long names, take no more time than others, and the first of them are named."""
    deep = '{"%s":' % ("n" * 1000) * 290 + "[" + ",".join(["1.5"] * 40000) + "]" + "}" * 290
    done = read('{"events":[],"x":%s}\n' % deep + json.dumps(event(id="good")), preexec_fn=lambda: resource.setrlimit(resource.RLIMIT_CPU, (5, 5)))
    assert (done.status, [each["id"] for each in done.events]) == (1, ["good"])
    assert done.entries[0]["faults"] == ["x: no event", *["/x/%s..: a number is not whole" % ("n" * 997)] * 99, "and 39901 more"]


def test_longest():
    """The longest line, to the byte, with each of the ends of a line; and the longest text of --whole."""
    line = json.dumps(event(id="a")).ljust(1000)
    for size, is_kept in ((1000, True), (999, False), (998, False)):
        for end in ("\n", "\r\n", ""):
            done = read("x\n" + line + end, "--longest", str(size))
            assert len(done.events) == int(is_kept), "%d of 1000 %r" % (size, end)
            assert len(done.entries) == 2 - is_kept, "%d of 1000 %r" % (size, end)
            assert done.entries[-1]["line"] == 2 - is_kept, "%d of 1000 %r" % (size, end)
        done = read(line + "\n" + line, "--longest", str(size))
        assert len(done.events) == 2 * is_kept, "%d twice" % size
        assert len(read(line, "--whole", "--longest", str(size)).events) == int(is_kept), "%d whole" % size
    assert len(read(line[:-1] + "\r" + line, "--longest", "1000").entries) == 1
    entry = read(line, "--longest", "999").entries[0]
    again = read(json.dumps(entry) + "\n").entries[0]
    assert (again["event"], read(json.dumps(again)).entries) == (entry, [again])
    for words in (["--longest", "0"], ["--longest", str(2 ** 30 + 1)], ["--longest", "x"], ["--x\x1b[2J"]):
        done = ended(TOOL, ["--log", "g", *words])
        assert done.status == 2
        assert b"\x1b" not in done.error


def test_several():
    """What is refused of one line is one entry, whose events are read again; a line of tiny values takes little time."""
    bad = [without("id"), event(id="x", tags=["", "a", ""]), 1.5, "text"]
    done = read(json.dumps([event(id="a"), *bad, event(id="b")]))
    assert done.status == 1
    assert [each["id"] for each in done.events] == ["a", "b"]
    assert done.counts == counts(2, 4)
    assert done.entries == [{"file": "-", "line": 1, "faults": ["event 1: id", "event 2: tag 1", "event 2: tag 3", "event 3: not an object", "event 4: not an object"], "document": {"events": bad}}]
    assert read(json.dumps(done.entries[0])).entries == done.entries
    lines = "".join("%s%s\n" % ("{}" * 30000, " " * number) for number in range(3))
    done = read(lines, preexec_fn=lambda: resource.setrlimit(resource.RLIMIT_CPU, (20, 20)))
    assert (done.status, len(done.entries), done.counts, len(done.entries[0]["faults"])) == (1, 3, counts(aside=90000), 101)


def test_publishers(tool=TOOL):
    """Each event is in the documents of its publisher's number alone, and of none's if its notification names none; together they are the one document."""
    named = {"nova.a": [notification(event(id="a%d" % number)) for number in range(4)], "": [envelope(event(id="b")), event(id="c")], "nova.b": [notification([event(id="d"), event(id="e")])]}
    lines = [dict(each, publisher_id=name) if name and isinstance(each, dict) else each for name in named for each in named[name]]
    lines[2] = {"oslo.version": "2.0", "oslo.message": json.dumps(lines[2])}
    lines[4] = json.loads(json.dumps(lines[4]).replace('\\"publisher_id\\": \\"p\\", ', ""))
    lines.append(dict(notification(event(id="f")), publisher_id=[1]))  # which names nobody
    number_of = {name: int.from_bytes(hashlib.blake2b(name.encode(), digest_size=8).digest(), "big") % 5 for name in named}
    assert len(set(number_of.values())) == 3
    done = ended(tool, ["--log", "g", "--split", "part-", "--publishers", "5"], input=lines_of(lines).encode())
    found = {name: [each["id"] for each in json.loads(open(name, encoding="utf-8").read())["events"]] for name in sorted(glob.glob("part-*.json"))}
    wanted = {"nova.a": ["a0", "a1", "a2", "a3"], "": ["b", "c", "f"], "nova.b": ["d", "e"]}
    assert done.status == 0 and found == {"part-%02d-0001.json" % number_of[name]: ids for name, ids in wanted.items()}
    assert (ended(tool, ["--log", "g", "--split", "none-", "--publishers", "5"], input=b"").status, len(glob.glob("none-*"))) == (0, 1)
    done = ended(tool, ["--log", "g", "--split", "size-", "--publishers", "5", "--size", "4096"], input=lines_of(event(id="e%d" % number, n="x" * 1000) for number in range(5)).encode())
    assert done.status == 0 and sorted(glob.glob("size-*")) == ["size-%02d-%04d.json" % (number_of[""], number) for number in (1, 2)]
    for words in (["--publishers", "5"], ["--split", "x-", "--publishers", "0"], ["--split", "x-", "--publishers", "101"]):
        assert ended(tool, ["--log", "g", *words]).status == 2


@pytest.mark.parametrize("right, wrong", [
    ("publisher=publisher if isinstance(publisher, str) else \"\")", "publisher=\"\")"), ("self.documents.add(kept, item.publisher)", "self.documents.add(kept, \"\")"),
    ("for each in self.found.values() or [self.of(\"\")]:", "for each in self.found.values():")])
def test_publishers_that_are_wrong_are_found(right, wrong):
    with pytest.raises(AssertionError):
        test_publishers(wrong_copy(right, wrong))


def relayed(value, number):
    """The event as a relay hands it on."""
    value = copy.deepcopy(value)
    value["reporterchain"] = (value.get("reporterchain") or []) + [dict(STEP, reporterId="relay-%d" % number)]
    value["tags"] = (value.get("tags") or []) + ["via-%d" % number]
    return value


@pytest.fixture(scope="module")
def texts():
    """The recorded events, a line each."""
    return [line for name in REAL for line in open(name, encoding="utf-8")]


def test_real(cadf, texts):
    """Most recorded events are kept, as the rules alone make them, with no conflict."""
    done = read("".join(texts))
    assert (done.status, len(done.events) + len(done.entries), read("".join(texts)).output) == (1, len(texts), done.output)
    assert len(done.events) >= KEPT_AT_LEAST * len(texts)
    put("0.json", done.output)
    assert ended(cadf, ["check", "0.json"]).output.split()[-1:] == [b"0"]
    for entry in done.entries:
        assert not is_kept_as_it_is(cadf, entry)
    aside = {entry["line"] for entry in done.entries}
    mended = iter(done.events)
    for number, text in enumerate(texts, 1):
        if number not in aside:
            assert next(mended) == by_the_rules(json.loads(text, parse_float=str, parse_constant=str)), number


def by_the_rules(event):
    """The recorded event by the rules' own words."""
    wanted = dict(event)
    if event.get("outcome") == "pending" and "requestPath" in event:
        wanted["id"] += "#request"
    if re.fullmatch(r".{19}(\.[0-9]+)?", event["eventTime"]):
        wanted["eventTime"] += "Z"
    if "initiator" not in event and "initiatorId" not in event:
        wanted["initiatorId"] = "unknown"
    return wanted


def test_cutting(cadf, texts):
    """Shuffled parts of the input, wrapped in other ways, with copies by relays: one log, and no conflict more."""
    chance = random.Random(5)
    wanted = log_of(cadf, read("".join(texts)).output)
    shuffled = chance.sample(texts, len(texts))
    half = len(texts) // 2
    parts = [read("".join(part)).output for part in (shuffled[:half], shuffled[half:])]
    assert log_of(cadf, *parts) == wanted
    wrapped = [chance.choice([envelope, notification])(json.loads(text)) for text in shuffled if "NaN" not in text]
    assert log_of(cadf, read(lines_of(wrapped)).output, *parts) == wanted
    copies = [relayed(json.loads(text), number % 3) for number, text in enumerate(shuffled) if "\"reporterchain\": [{" not in text
              or text.count("\"role\"") < 9]
    put("relayed.json", log_of(cadf, *parts, read(lines_of(copies)).output))
    assert ended(cadf, ["check", "relayed.json"]).output.split()[-1:] == [b"0"]


def test_many_lines():
    """Of a file of 10,000 lines no event is lost: all are there, in their order."""
    done = read(lines_of(event(id="e%d" % number) for number in range(10000)))
    assert (done.status, done.counts) == (0, counts(10000))
    assert [each["id"] for each in done.events] == ["e%d" % number for number in range(10000)]


ODD = [None, True, 0, [], {}, "", "x", "a\n", "a\x7f", "é" * 512, "é" * 512 + "a", "a" * 1025, [[]], {"id": "x"}, {"id": ""}, {"id": None},
       ["a", ""], [None], [{}], [[{}]], "2024-02-30T00:00:00Z", "2024-02-29T23:59:59.123456789+14:00", "2024-02-29T23:59:59+14:01",
       "2024-02-29T23:59:59.1234567890Z", "9999-01-01T00:00:00Z", "0000-01-01T00:00:00Z", "2024-01-01T24:00:00Z",
       "2024-01-01T00:00:60Z", "2024-01-01T00:00:00-1360", "2024-01-01T00:00:00Z", "٢٠٢٤-01-01T00:00:00Z", "success/", "pending/x",
       "successful", [STEP], [dict(STEP, reporterTime="x")], [STEP] * 256, [STEP] * 257, [[STEP] * 257], [dict(STEP, role="x")]]
NAMES = [*EVENT, "initiatorId", "targetId", "reporterchain", "reporterchains", "tags", "attachments"]


def test_checks(texts):
    """The tool finds the first fault of an event that the second implementation finds, where up to three members are odd."""
    hypothesis = pytest.importorskip("hypothesis", reason="hypothesis isn't there (Debian: python3-hypothesis)")
    choices, faults_of = hypothesis.strategies, loaded(TOOL).faults_of
    base = [json.loads(line, parse_float=str, parse_constant=str) for line in texts]
    odd = choices.one_of(choices.just("absent"), choices.sampled_from(ODD), choices.integers(97, 104).map(nested))

    @hypothesis.settings(max_examples=2000)
    @hypothesis.given(choices.sampled_from(base), choices.dictionaries(choices.sampled_from(NAMES), odd, max_size=3))
    def is_alike(event, members):
        value = {name: part for name, part in {**event, **members}.items() if part != "absent"}
        try:
            second.event_atoms(value, 0)
            wanted = []
        except second.Fault as fault:
            wanted = [fault.said[len("event 0: "):]]
        assert list(faults_of(value))[:1] == wanted

    is_alike()


def test_aside():
    """The file of what is set aside: of its owner alone, appended to, ended where it was cut off, and read again."""
    bad = json.dumps(without("id")) + "\n" + json.dumps(event(id="", n=float("nan"))) + "\n\xff\n"
    data = bad.encode("latin-1")
    mended = dict(without("initiator"), id="", n=[1.5])
    assert [entry["event"] for entry in read(json.dumps(mended)).entries] == [mended]
    first = read(data)
    kept = open("aside", "rb").read()
    assert stat.S_IMODE(os.stat("aside").st_mode) == 0o600
    again = read(kept)
    assert (again.entries, len(again.entries)) == (first.entries, 3)
    os.chmod("aside", 0o644)
    put("aside", kept[:-1])
    ended(TOOL, ["--log", "g", "--set-aside", "aside"], input=data)
    assert (open("aside", "rb").read(), stat.S_IMODE(os.stat("aside").st_mode)) == (kept * 2, 0o600)
    put("fixed", kept.replace(b'"event": {', b'"event": {"id": "f", ', 1))
    assert [each["id"] for each in read(open("fixed", "rb").read()).events] == ["f"]
    assert ended(TOOL, ["--log", "g", "--set-aside", "aside", "aside"]).status == 2


def test_two_runs_set_aside_at_once(monkeypatch):
    """Of two runs that set aside into one file each entry is whole, also if the other run comes while a long one is written."""
    program, write, others = loaded(TOOL), os.write, []
    first, second = (program.SetAside("shared") for _ in range(2))

    def add_second(line):
        second.add(("b", line), ["id"], "event", {})
        second.sync()

    def slow(file, data):
        if not others:
            others.append(threading.Thread(target=add_second, args=(1,)))
            others[0].start()
            others[0].join(0.5)
        return write(file, data)

    monkeypatch.setattr(program.os, "write", slow)
    first.add(("a", 1), ["id"], "event", {"x": "y" * 200000})
    others[0].join()
    first.put('{"torn": ')
    first.flush()
    os.close(first.descriptor)  # as of a run that is killed
    add_second(2)
    lines = [line for line in open("shared", encoding="utf-8")]
    assert [line[:9] for line in lines] == ['{"file": '] * 2 + ['{"torn": '] + ['{"file": ']
    assert [json.loads(line)["file"] for line in lines if "torn" not in line] == ["a", "b", "b"]


def test_what_is_set_aside_is_written_in_batches(monkeypatch):
    """Short lines that are refused cost no call of the system each."""
    program, write, sizes = loaded(TOOL), os.write, []
    monkeypatch.setattr(program.os, "write", lambda file, data: (sizes.append(len(data)), write(file, data))[1])
    aside = program.SetAside("aside")
    for number in range(5000):
        aside.add(("a", number), ["x"], "text", b"%d" % number)
    aside.sync()
    assert len(sizes) <= 2 * sum(sizes) // program.BLOCK + 2 and [json.loads(line)["line"] for line in open("aside", "rb")] == list(range(5000))


def test_equal_lines_are_judged_once(monkeypatch):
    """What comes again costs its bytes."""
    put("many", b"{}\n" * 1000 + b"x\n" * 1000 + b"y\n")
    program, judged = loaded(TOOL), []
    run = program.Run(list(program.RULES), program.Documents("g", "made", 2 ** 20), program.SetAside("aside"), 2 ** 20, False)
    right = run.judged
    run.judged = lambda data: (judged.append(data), right(data))[1]
    run.read("many")
    assert judged == [b"{}", b"x", b"y"] and run.counts["set aside"] == 2001


def test_equal_lines_are_set_aside_once():
    """All are counted. Of lines of control characters, of which each would be six bytes as text, what is set aside is a third longer."""
    first, second, zeros = b"x\n" * 1000, json.dumps({"id": 1}).encode() + b"\n", bytes(2 ** 16) + b"\n"
    done = read(first + second + first + zeros + second + zeros + b"y\n")
    assert done.counts == counts(0, 2005) and [entry["line"] for entry in done.entries] == [1, 1001, 2002, 2005]
    assert base64.b64decode(done.entries[2]["base64"]) == zeros[:-1] and os.stat("aside").st_size < len(zeros) * 3 // 2


def short_lines(count):
    """Lines that are too short for an event, of four faults, and each other than the others; and the fault that each has first."""
    kinds = [(b"x%d", "not JSON, and no line of a log"), (b"[%d]", "not an object"), (b'{"a":%d}', "id"), (b"\xff%d", "not UTF-8")]
    return [(kind % number, fault) for number, (kind, fault) in zip(range(count), kinds * count)]


def test_short_lines_are_set_aside_many_in_an_entry(tool=TOOL):
    """After a hundred entries, with all that they were; so what is set aside of them, and its entries, are about as long as they. Mended, they are read one by one."""
    lines = short_lines(20000)
    put("many", b"".join(line + b"\n" for line, _ in lines))
    for name in glob.glob("aside*"):
        os.unlink(name)
    assert ended(tool, ["--log", "g", "--set-aside", "aside", "many"]).error.decode().splitlines()[-1] == counts(aside=20000)
    entries, found = [json.loads(line) for line in open("aside", "rb")], {}
    for entry in entries[100:]:
        data = base64.b64decode(entry["base64"]) if "base64" in entry else entry["text"].encode()
        own = data.split(b"\n")[:-1]
        assert entry["line"] == entry["lines"][0] and len(own) == len(entry["lines"]) and len(entry["faults"]) == 1
        found.update((place, (line, entry["faults"][0])) for place, line in zip(entry["lines"], own))
    assert found == dict(enumerate(lines[100:], 101)) and [entry["line"] for entry in entries[:100]] == list(range(1, 101))
    assert len(entries) < 120 and os.stat("aside").st_size < 3 * os.stat("many").st_size
    kept = {"file": "many", "line": 7, "faults": ["id"], "lines": [7, 8], "text": json.dumps(event(id="a")) + "\n" + json.dumps(event(id="b")) + "\n"}
    put("mended", json.dumps(kept).encode())
    assert [each["id"] for each in json.loads(ended(tool, ["--log", "g", "mended"]).output)["events"]] == ["a", "b"]


def test_short_lines_of_many_faults_are_held_no_longer_than_others():
    """So is what waits for its entry: of a hundred faults at most."""
    program = loaded(TOOL)
    aside = program.SetAside("aside")
    for number in range(1000):
        aside.add_short(("a", number), "fault %d" % number, b"x")
        assert len(aside.batches) <= program.MOST_BATCHES
    aside.sync()
    assert [json.loads(line)["faults"] for line in open("aside", "rb")] == [["fault %d" % number] for number in range(1000)]


def seconds_of(*lines):
    """The processor time of what is made of lines, of a program that runs already; for a byte, and the best of three."""
    program, found = loaded(TOOL), []
    data = b"".join(line + b"\n" for line in lines)
    put("timed", data)
    for _ in range(3):
        for name in glob.glob("made*") + glob.glob("aside"):
            os.unlink(name)
        begun = time.process_time()
        run = program.Run(list(program.RULES), program.Documents("g", "made", 2 ** 30), program.SetAside("aside"), 2 ** 24, False)
        run.read("timed")
        run.aside.sync()
        found.append(time.process_time() - begun)
    return min(found) / len(data)


def test_lines_that_are_refused_cost_at_most_20_times_an_event():
    """By processor time for a byte, beside messages of 1,200 bytes with an event; measured are 12 to 16 times."""
    member = {"addresses": [{"url": "http://%s.example:8774/v2.1" % name, "name": name} for name in ("admin", "private", "public")], "path": "/v2.1/" + "p" * 300}
    ordinary = seconds_of(*(json.dumps(notification(event(id="e%d" % number, reporterchain=[STEP], **member))).encode() for number in range(2000)))
    dear = {kind: seconds_of(*(kind % number for number in range(20000))) / ordinary for kind in (b"x%d", b'{"a":%d}', b"[%d]", b"[{},%d,{},{},{},{}]", b"\xff%d")}
    assert max(dear.values()) <= 20, dear


@pytest.mark.parametrize("right, wrong", [
    ("self.aside.add_short(origin, refused[0].faults[0], data)", "self.refuse(origin, refused, len(data))"),
    ("places.append(place)", "places[:] = [place]"),
    ("for line in data.split(b\"\\n\") if line for item in self.items(line)]", "for line in data.split(b\"\\n\")[:1] for item in self.items(line)]"),
    ("        self.add_batches()\n        self.flush()", "        self.flush()")])
def test_short_lines_that_are_set_aside_wrong_are_found(right, wrong):
    with pytest.raises(AssertionError):
        test_short_lines_are_set_aside_many_in_an_entry(wrong_copy(right, wrong))


SET_ASIDE = {"event": {}, "document": {"events": [{}]}, "text": "{}", "base64": "e30="}


@pytest.mark.parametrize("name", SET_ASIDE)
def test_entry_names_no_file(name):
    """A message of a bus that looks like an entry is set aside under the file and the line where it is, whatever it names."""
    lines = lines_of([event(id="a"), {"file": "another.jsonl", "line": 7, "faults": [], name: SET_ASIDE[name]}])
    put("bus.jsonl", lines.encode())
    ended(TOOL, ["--log", "g", "--set-aside", "of-bus", "bus.jsonl"])
    entries = [json.loads(line) for line in open("of-bus", "rb")]
    assert [(entry["file"], entry["line"], entry["event"]) for entry in entries] == [("bus.jsonl", 2, {})]


def test_odd_entries():
    """A line that looks like an entry, with a member that no entry has beside one that it has, costs itself alone."""
    odd = [{"faults": [], other: value, name: right} for name, right in SET_ASIDE.items() for other in SET_ASIDE if other != name
           for value in (None, 5, 1.5, "x", [], {}, {"events": {}})]
    done = read("".join(lines_of([each, event(id=str(number))]) for number, each in enumerate(odd)))
    assert (done.status, done.counts) == (1, counts(len(odd), len(odd)))
    assert [entry["line"] for entry in done.entries] == list(range(1, 2 * len(odd), 2))


NOWHERE = "cadf-from-openstack: what was set aside is written nowhere: --set-aside FILE keeps it, to be mended"


def test_unasked():
    """Without a file for it, what is set aside is named by its line and the checks that failed, with nothing of the event."""
    data = (json.dumps(without("id")) + "\n" + json.dumps(event(id="", n=float("nan"))) + "\n\xff\n").encode("latin-1")
    done = ended(TOOL, ["--log", "g"], input=data)
    assert done.status == 1
    assert done.error.decode().splitlines() == [ "cadf-from-openstack: -: line %d: set aside: %s" % each for each in ((1, "id"), (2, "id"), (3, "not UTF-8"))] + [NOWHERE, counts(aside=3)]
    private = "a@example.com\x1b[2J"
    lines = lines_of([event(n={private: 1.5}), {"id": "g", "events": [], private: [1.5]}, [{private: 1, "id": private}] * 2,
                      {"faults": [], "event": {}, "file": private, "line": 9}])
    done = ended(TOOL, ["--log", "g", "--without", "number"], input=lines.encode())
    said = done.error.decode().splitlines()
    assert done.status == 1
    assert len(said) == 6
    assert said[:2] == [ "cadf-from-openstack: -: line 1: set aside: a number is not whole", "cadf-from-openstack: -: line 2: set aside: no event, a number is not whole"]
    assert private[:5] not in done.error.decode()
    wrong = wrong_copy("return found[1] if found else fault", "return fault")
    assert private[:5] in ended(wrong, ["--log", "g", "--without", "number"], input=lines.encode()).error.decode()
    done = ended(TOOL, ["--log", "g"], input=b"x\n" * 1000)
    assert done.status == 1
    assert done.error.decode().splitlines()[99:] == [ "cadf-from-openstack: -: line 100: set aside: not JSON, and no line of a log", "cadf-from-openstack: further lines that are set aside are counted and not named", NOWHERE, counts(aside=1000)]
    many = json.dumps([event(tags=["a"] * number + [""]) for number in range(150)])
    done = ended(TOOL, ["--log", "g"], input=many.encode())
    assert done.status == 1
    assert not done.error.decode().splitlines()[0].endswith(", event 99: tag 99, and 50 more")
    assert done.error.decode().splitlines()[0].endswith("tag 99, tag 100, and 50 more")
    for kind, text in (("an inventory", "CADF-INVENTORY 1\n"), ("a page of cadf-report", "<!doctype html>\n"), ("a script", "learn 0 {}\n")):
        put("odd", text.encode())
        assert ended(TOOL, ["--log", "g", "odd"]).error.decode().startswith("cadf-from-openstack: odd: it begins as %s" % kind), kind


def test_files():
    """Files that can't be read are named, and the others are taken; what can't be written ends the call."""
    put("-a", json.dumps(event(id="a")).encode())
    put("b\n\u202e", json.dumps(event(id="b")).encode())
    done = ended(TOOL, ["--log", "g", "--", "-a", "absent", ".", "b\n\u202e"])
    assert done.status == 3
    assert [each["id"] for each in json.loads(done.output)["events"]] == ["a", "b"]
    assert done.error.decode().split("\n")[:2] == ["cadf-from-openstack: absent: No such file or directory", "cadf-from-openstack: .: Is a directory"]
    put("c\n", b"x")
    done = ended(TOOL, ["--log", "g", "c\n"])
    assert done.error.decode().split("\n")[0] == 'cadf-from-openstack: "c\\n": line 1: set aside: not JSON, and no line of a log'
    for what, words in (("no log", []), ("an empty log", ["--log", ""]), ("a long name", ["--log", "x" * 1025]), ("no rule", ["--log", "g", "--without", "x"]),
                        ("an option", ["--log", "g", "--x"]), ("a short option", ["--lo", "g"]), ("a size", ["--log", "g", "--size", "1"]), ("a large size", ["--log", "g", "--size", str(2 ** 30 + 1)])):
        done = ended(TOOL, words)
        assert (done.status, done.output) == (2, b""), what
        assert b"1 to 1,024 bytes" in done.error or "name" not in what, what
    with open("/dev/full", "wb") as full:
        done = subprocess.run([TOOL, "--log", "g", "--", "-a"], stdout=full, stderr=subprocess.PIPE)
        assert (done.returncode, done.stderr) == (3, b"cadf-from-openstack: standard output: write fault: No space left on device\n")
    put("d", b"x\n")
    done = ended(TOOL, ["--log", "g", "--set-aside", "/dev/full", "d"])
    assert (done.status, done.error) == (3, b"cadf-from-openstack: /dev/full: write fault: No space left on device\n")
    assert not done.output.endswith(b"}\n")
    with open("one.out", "wb") as output:
        output.write(b"x")
        done = subprocess.run([TOOL, "--log", "g", "one.out"], stdout=output, stderr=subprocess.PIPE)
        assert done.returncode == 2
    for closed, status in (("2>&-", 3), (">&-", 3), ("<&-", 3), ("2>&- <c.json", 3), ("2>&- >&-", 3)):
        put("c.json", json.dumps(event(id="c")).encode())
        done = ended("sh", ["-c", '"$0" --log g %s %s' % ("" if "<" in closed else "d", closed), TOOL])
        assert done.status == status, "closed " + closed
        assert not (b"faults" in done.output or b"cadf-" in done.output), "closed " + closed
    done = ended("sh", ["-c", '"$0" --log g --set-aside both d >both', TOOL])
    assert done.status == 2
    assert ended(TOOL, ["--help"]).status == 0


def test_sizes(cadf):
    """Full documents; and many long lines in little memory."""
    lines = lines_of(event(id="e%d" % number, n="x" * 1000) for number in range(10))
    done = read(lines, "--size", "4096")
    said = done.error.decode()
    assert (done.status, len(done.events)) == (1, 3)
    assert "line 4: the document is full" in said
    assert len(done.output) <= 4096
    room = 4096 - len(read(lines_of([event(n=""), event(n="")])).output)
    for more, status in ((0, 0), (1, 1)):
        done = read(lines_of([event(n=""), event(n="x" * (room + more))]), "--size", "4096")
        assert (done.status, len(done.output) == 4096) == (status, status == 0)
    split = read(lines, "--size", "4096", "--split", "part-")
    names = sorted(glob.glob("part-*.json"))
    assert (split.status, split.output, names, split.counts) == (0, b"", ["part-%04d.json" % number for number in (1, 2, 3, 4)], counts(10))
    assert max(map(os.path.getsize, names)) <= 4096
    assert log_of(cadf, *(open(name, "rb").read() for name in names)) == log_of(cadf, read(lines).output)
    done = read(lines, "--split", "part-")
    assert (done.status, done.error) == (3, b"cadf-from-openstack: part-0001.json: write fault: File exists\n")
    assert read(json.dumps(event(n="x" * 5000)), "--size", "4096").entries[0]["faults"] == ["too large"]
    with open("long", "w", encoding="utf-8") as file:
        file.write('{"a":\n')  # a broken first line
        for number in range(150):
            file.write(json.dumps(event(id="e%d" % number, n="x" * 1000000)) + "\n")
    with open("long.out", "wb") as output:
        done = subprocess.run([TOOL, "--log", "g", "long"], stdout=output, stderr=subprocess.PIPE, **limited(100))
    assert (done.returncode, done.stderr.decode().split("\n")[-2]) == (1, counts(150, 1))
    os.remove("long")
    put("line", b'["' + b"x" * (60 << 20) + b'"]')
    done = ended(TOOL, ["--log", "g", "line"], **limited(100))
    assert (done.status, done.error) == (4, b"cadf-from-openstack: out of memory\n")
