"""What a stranger sends costs later calls of the tools no more than its bytes: counted in programs started, and in bytes that these read and write.

Nothing is timed. Each call is made over a folder of honest facts, and again over one to which a stranger has sent something.
"""
import hashlib
import json
import os
import re
import resource
import shlex
import shutil
import subprocess
import sys

import pytest

from tests import TOP
from tests.machine import ended
from tests.reference.events import document
from tests.reference.replica_files import file_of, read_file
from tests.tools.copies import copied
from tests.tools.test_sync import TRIED

import cadf_lengths
import cadf_plan
import cadf_site

DAYS, EVENTS = 6, 20  # windows of the honest site, and events of each
SHARE = 4  # what a byte of a stranger's may cost, beside an honest one
STARTS, OF_WINDOW = 12, 3  # programs that a call may start more; for each window that the stranger begins
YEARS = range(1900, 1920)
DAYS_SENT = range(1, DAYS + 1)
ALL = [(day, number) for day in DAYS_SENT for number in range(EVENTS)]  # the honest events
EVENT = {"eventType": "activity", "action": "read", "outcome": "success", "initiatorId": "u1", "targetId": "t1", "observerId": "s1"}
# Notes of each call its command, the bytes of the files that it is given, and what it writes.
COUNTING = """#!/bin/sh
size=0
for each; do case $each in /dev/fd/*) size=$((size + $(stat -L -c %%s "$each"))) ;; esac; done
out=$(mktemp %s/out.XXXXXX)
%s "$@" >$out
status=$?
echo "$1 $size $(stat -c %%s $out)" >>%s/count
cat $out
rm $out
exit $status
"""


def honest(day, number, **more):
    return dict(EVENT, id="e%d.%d" % (day, number), eventTime="2024-03-%02dT12:%02d:00Z" % (day, number), requestPath="/v3/" + "p" * 200, **more)


def facts(*events):
    return document({"id": "g", "events": list(events)})[1]


def shared_step(size):
    """An event of whose chains each has one step that is large: of n bytes some n * n / 200 are shown."""
    last = [{"reporterId": "%06d" % number, "role": "relay"} for number in range(size // 2 // 90)]
    [body] = facts(honest(1, 0, tags=[]))
    step = json.dumps({"reporterId": "s", "role": "observer", "x": "y" * (size // 2)}, separators=(",", ":"))
    body = (body[0], "long", body[2])
    return {body, *((*body, "C", step, json.dumps(each, separators=(",", ":"))) for each in last)}


def rulings(count):
    """Rulings of keys that nobody has."""
    return {("U", "E", "k%07d" % number, hashlib.sha256(b"%d" % number).hexdigest()) for number in range(count)}


ATTACKS = {"chains that share a large step": lambda: shared_step(120000), "rulings of no key": lambda: rulings(2000),
           "a window for each event": lambda: facts(*(dict(honest(1, 0), id="w%d" % number, eventTime="%d-01-01T00:00:00Z" % number) for number in YEARS)),
           "events of a day": lambda: facts(*(dict(honest(2, 0), id="x%d" % number) for number in range(100))),
           "another body of each event": lambda: facts(*(dict(honest(day, number), outcome="failure") for day, number in ALL)),
           "a body in another window of each event": lambda: facts(*(dict(honest(day, number), eventTime="2024-04-%02dT00:00:00Z" % day) for day, number in ALL)),
           "rulings of each key": lambda: {("U", "E", "e%d.%d" % each, hashlib.sha256(b"x").hexdigest()) for each in ALL},
           "an event in each window": lambda: facts(*(dict(honest(day, 0), id="one") for day in DAYS_SENT))}
BEGUN = {"a window for each event": len(YEARS), "a body in another window of each event": DAYS}  # windows


class Place:
    """A folder with the tools, a site that is a folder, and a command that counts."""

    def __init__(self, path, cadf, tools):
        self.path, self.tools, self.cadf = path, tools, cadf
        self.put("honest.cadf", facts(*(honest(day, number) for day in range(1, DAYS + 1) for number in range(EVENTS))))
        self.put("more.cadf", facts(dict(honest(3, 0), id="more")))
        self.run("cadf-take", "--by=day", "site/", "honest.cadf")
        self.run("cadf-take", "--by=day", "other/", "honest.cadf", "more.cadf")

    def put(self, name, atoms):
        (self.path / name).write_bytes(file_of("g", atoms))

    def run(self, tool, *words, cadf=None, **options):
        found = ended(sys.executable, [os.path.join(self.tools, tool), *words], env=dict(os.environ, CADF=cadf or self.cadf), cwd=self.path, **options)
        assert found.status in (0, 5), found
        return found

    def counted(self, tool, *words):
        """How many programs a call starts, and how many bytes these read and write."""
        counting = self.path / "counting"
        counting.write_text(COUNTING % (self.path, shlex.quote(self.cadf), self.path))
        counting.chmod(0o755)
        (self.path / "count").write_text("")
        self.run(tool, *words, cadf=str(counting))
        calls = [line.split() for line in (self.path / "count").read_text().splitlines()]
        return len(calls), sum(int(read) + int(written) for _, read, written in calls)


# Each of the calls, over the folder `site/`; what they change is a copy.
CALLS = {
    "events": ("cadf-events", "--no-index", "site/"), "events by an index": ("cadf-events", "site/"),
    "events of a day": ("cadf-events", "--since=2024-03-02", "--until=2024-03-03", "site/"), "seal": ("cadf-seal", "site/"),
    "conflicts": ("cadf-conflicts", "site/"), "report": ("cadf-report", "site/"), "agree": ("cadf-agree", "site/", "other/"),
    "sync": ("cadf-sync", "--conflicts", "site/", "other/"), "take": ("cadf-take", "site/", "more.cadf")}


OF_CONFLICTS = ("conflicts", "sync")  # which read what has conflicts alone
LATER = ("sync",)  # which once read windows to which something came, for that their sender is charged: it is made a second time


@pytest.fixture(scope="module")
def tools(tmp_path_factory):
    """The tools, whose commands may note their calls."""
    return copied(str(tmp_path_factory.mktemp("tools")), *TRIED[2:])


def costs(path, cadf, tools, attack=None, names=tuple(CALLS)):
    """What calls cost after an attack, by their names; and the bytes of the site, and of the attack."""
    place = Place(path, cadf, tools)
    size = sum(each.stat().st_size for each in (path / "site").iterdir())
    if attack:
        place.put("sent.cadf", ATTACKS[attack]())
        for site in "site/", "other/":
            place.run("cadf-take", site, "sent.cadf")
    found = {}
    for name in names:
        shutil.copytree(path / "site", path / "kept")
        shutil.copytree(path / "other", path / "kept-other")
        if name in LATER:
            place.run(*CALLS[name])
        found[name] = place.counted(*CALLS[name])
        for each in "site", "other":
            shutil.rmtree(path / each)
        (path / "kept").rename(path / "site")
        (path / "kept-other").rename(path / "other")
    return found, size, (path / "sent.cadf").stat().st_size if attack else 0


@pytest.fixture(scope="module")
def before(tmp_path_factory, cadf, tools):
    """What the calls cost without any attack."""
    return costs(tmp_path_factory.mktemp("before"), cadf, tools)[0]


def check_costs(path, cadf, tools, attack, before, names=tuple(CALLS)):
    after, size, sent = costs(path, cadf, tools, attack, names)
    starts = STARTS + OF_WINDOW * BEGUN.get(attack, 0)
    shares = {name: sent / (size / DAYS if name == "events of a day" else size) for name in names}  # of the bytes that the call reads
    least = {name: size if name in OF_CONFLICTS else read for name, (_, read) in before.items()}
    dear = {name: (before[name], found) for name, found in after.items()
            if found[0] > before[name][0] + starts or found[1] > least[name] * (1 + SHARE * shares[name]) + 2 ** 16}
    assert dear == {}, "honest %d bytes, sent %d" % (size, sent)


@pytest.mark.xdist_group("costs")
@pytest.mark.parametrize("attack", ATTACKS)
def test_what_a_stranger_sends_costs_its_bytes(tmp_path, cadf, tools, before, attack):
    check_costs(tmp_path, cadf, tools, attack, before)


@pytest.mark.xdist_group("costs")
@pytest.mark.parametrize("attack, right, wrong", [
    ("chains that share a large step", "return {key: each for key, each in found.items() if each.size > most}", "return {}"),
    ("rulings of no key", "opened(windows.ruled(window))", "opened(windows.rulings)"),
    ("a body in another window of each event", "return names if len(names) < at_once() else self.joined(names)", "return self.joined(self.joined(names) + [self.put([])])")])
def test_tools_that_cost_more_are_caught(tmp_path, cadf, before, attack, right, wrong):
    wrongs = copied(str(tmp_path / "copy"), right, wrong, *TRIED[2:])
    (tmp_path / "place").mkdir()
    with pytest.raises(AssertionError):
        check_costs(tmp_path / "place", cadf, wrongs, attack, before, ("events", "events by an index"))


@pytest.mark.xdist_group("costs")
def test_an_event_in_each_window_costs_what_its_sender_may(tmp_path, cadf, tools):
    """Of windows that have their roots kept a seal reads those again to which a stranger has brought something: as many bytes as a sender may, and a window."""
    place = Place(tmp_path, cadf, tools)
    place.run("cadf-take", "site/", "more.cadf")
    place.counted(*CALLS["seal"])
    files = [each.stat().st_size for each in (tmp_path / "site").glob("2024-*")]
    sent = facts(*(dict(honest(day, 0), id="y") for day in range(1, DAYS + 1)))
    place.put("sent.cadf", sent)
    place.run("cadf-take", "--rest", "rest", "--senders", "1", "--sender-rereads", "1", "site/", "sent.cadf")
    assert len(list((tmp_path / "site").glob("2024-*"))) == len(files) + 1  # else there is nothing to read
    _, size = place.counted(*CALLS["seal"])
    assert 0 < size <= SHARE * (max(files) + (tmp_path / "sent.cadf").stat().st_size), (size, files)


@pytest.mark.xdist_group("costs")
def test_a_conflict_in_each_window_costs_its_bytes(tmp_path, cadf, tools):
    """The numbers of conflicts, which each timer makes, are of the keys alone that the index names, and of no other facts of their windows."""
    place = Place(tmp_path, cadf, tools)
    place.put("sent.cadf", facts(*(dict(honest(day, 0), id="one") for day in DAYS_SENT)))
    for site in "site/", "other/":
        place.run("cadf-take", site, "sent.cadf", "more.cadf")
    assert place.run(*CALLS["sync"]).output.endswith(b"; 1 open conflicts\n")
    starts, size = place.counted(*CALLS["sync"])
    assert (starts, size <= SHARE * (tmp_path / "sent.cadf").stat().st_size) == (1, True), size


@pytest.mark.xdist_group("costs")
def test_what_looks_like_a_record_is_read_alone(tmp_path, cadf, tools, monkeypatch):
    """Who looks for the records of rulings reads each window once in which an event has their action, and then that event's lines; also once files were joined."""
    place = Place(tmp_path, cadf, tools)
    sent = facts(*(dict(honest(day, 0), id="r%d" % day, action="evaluate/ruling") for day in DAYS_SENT))
    place.put("sent.cadf", sent)
    place.run("cadf-take", "site/", "sent.cadf", "more.cadf")
    place.run("cadf-conflicts", "site/")
    right, read = cadf_plan.located, []
    monkeypatch.setattr(cadf_plan, "located", lambda files: read.append(files) or right(files))

    def found():
        read.clear()
        with cadf_site.Folder(str(tmp_path / "site"), {}) as folder:
            names = cadf_plan.picked(folder, (), str(tmp_path)).names
        with open(tmp_path / "site" / "site", encoding="utf-8") as lines:
            count = len([line for line in lines if line.startswith("F 2024")])
        return set().union(*(read_file(open(name, "rb").read())[1] for name in names)), len(read), count

    assert found() == (sent, 0, 2 * DAYS)
    place.run("cadf-take", "--settle", "site/")
    assert found() == (sent, DAYS, DAYS)
    assert found() == (sent, 0, DAYS)


@pytest.mark.xdist_group("costs")
def test_what_settling_joins_is_not_read_again(tmp_path, cadf, tools):
    """Roots that are kept stay those of the windows whose files were joined, which have the same facts; and a window of one file has its digest by its name."""
    place = Place(tmp_path, cadf, tools)
    place.put("sent.cadf", facts(*(dict(honest(day, 0), id="y%d" % day) for day in range(1, DAYS + 1))))
    for site in "site/", "other/":
        place.run("cadf-take", site, "more.cadf", "sent.cadf")
    place.run("cadf-take", "--settle", "other/")
    seal = place.run("cadf-seal", "site/").output
    assert place.counted("cadf-agree", "site/", "other/") == (0, 0)  # the seal has kept what it has read
    place.run("cadf-take", "--settle", "site/")
    assert len(list((tmp_path / "site").glob("2024-*"))) == 3 * DAYS  # what was joined goes at the next take
    assert place.counted("cadf-seal", "site/") == place.counted("cadf-agree", "site/", "other/") == (0, 0)
    assert place.run("cadf-seal", "site/").output == place.run("cadf-seal", "--full", "site/").output == seal


# ---- An event whose texts are long

SAID = r'(?m)^cadf-[a-z]+: left out %s, whose texts have \d+ bytes: give more by --largest, or have `cadf show` write it$'
CHAINS = 200000 // 2 // 90  # of such an event of 200 KB, which would be 170 MB of text


def left_out(found, what):
    """Whether a call said once that just this was left out, with status 5."""
    return found.status == 5 and len(re.findall(SAID % re.escape(what), found.error.decode())) == found.error.count(b"left out ") == 1


@pytest.mark.parametrize("is_folder", [True, False])
@pytest.mark.parametrize("tool", ["cadf-events", "cadf-report"])
def test_nobody_hides_an_event_by_chains(tmp_path, cadf, tools, tool, is_folder):
    """Chains that a stranger adds to another's event are left out and counted, and its own members are shown, in memory of the bytes that there are."""
    place = Place(tmp_path, cadf, tools)
    place.put("sent.cadf", shared_step(200000))
    place.run("cadf-take", "site/", "sent.cadf")
    (tmp_path / "file.cadf").write_bytes(subprocess.run([cadf, "join", "honest.cadf", "sent.cadf"], cwd=tmp_path, stdout=subprocess.PIPE, check=True).stdout)
    limits = {"preexec_fn": lambda: resource.setrlimit(resource.RLIMIT_AS, (2 ** 29, 2 ** 29))}
    found = place.run(tool, "site/" if is_folder else "file.cadf", **limits)
    assert left_out(found, '%d chains, tags and attachments of the event "long"' % CHAINS), found
    if tool == "cadf-events":
        lines = [json.loads(line) for line in found.output.splitlines()]
        own = dict(honest(1, 0), id="long", typeURI="http://schemas.dmtf.org/cloud/audit/1.0/event")
        assert len(lines) == DAYS * EVENTS + 1 and [each for each in lines if each["id"] == "long"] == [own]
        none = place.run(tool, "--since=2024-03-05", "site/" if is_folder else "file.cadf", **limits)
        assert none.status == 0 and none.error == b""  # it is of no event of the range
    else:
        assert b"Left out: chains, tags and attachments of 1 events whose texts are long." in found.output


@pytest.mark.parametrize("is_folder", [True, False])
def test_nobody_hides_an_event_by_a_long_body(tmp_path, cadf, tools, is_folder):
    """Another body that is too long by itself is left out and counted, and the event is shown as one that it contradicts; of one such body the event is named alone."""
    place = Place(tmp_path, cadf, tools)
    long = {"requestPath": "/" + "p" * 10000}
    place.put("sent.cadf", facts(dict(honest(1, 1), **long), dict(honest(2, 0), id="alone", **long)))
    place.run("cadf-take", "site/", "sent.cadf")
    (tmp_path / "file.cadf").write_bytes(subprocess.run([cadf, "join", "honest.cadf", "sent.cadf"], cwd=tmp_path, stdout=subprocess.PIPE, check=True).stdout)
    found = place.run("cadf-events", "--largest=9000", "--contradicted=mark", "site/" if is_folder else "file.cadf")
    lines = [json.loads(line) for line in found.output.splitlines()]
    own = dict(honest(1, 1), typeURI="http://schemas.dmtf.org/cloud/audit/1.0/event")
    assert len(lines) == DAYS * EVENTS and [each for each in lines if "contradicted" in each] == [{"contradicted": 2, "event": own}]
    said = found.error.decode()
    assert found.status == 5 and "left out the event \"alone\", whose" in said and "left out 1 of 2 bodies of the event \"e1.1\", whose" in said


def test_nobody_hides_an_event_as_one_that_is_left_out(tmp_path, cadf, tools):
    """Bodies that begin as what stands in the place of a long one, as far as a sender can know it, are shown."""
    place = Place(tmp_path, cadf, tools)
    forged = [dict(honest(1, 0), id="mine", initiatorId="%s%d bytes, %064d" % (cadf_lengths.LEFT_OUT, size, size)) for size in (1, 2)]
    place.put("sent.cadf", facts(*forged))
    place.run("cadf-take", "site/", "sent.cadf")
    found = place.run("cadf-events", "--contradicted=only", "site/")
    shown = [json.loads(line) for line in found.output.splitlines()]
    assert found.status == 5 and [each["event"]["initiatorId"] for each in shown] == [each["initiatorId"] for each in forged]


@pytest.mark.parametrize("kind", ["replica", "document", "several files"])
def test_largest(tmp_path, cadf, tools, kind):
    """Of each kind of file an event's tags are left out just if its texts have more bytes, and facts that two files have count once."""
    place = Place(tmp_path, cadf, tools)
    event = dict(honest(1, 0), id="long", tags=["t%05d" % number for number in range(3000)])
    (tmp_path / "long.json").write_text(json.dumps({"id": "g", "events": [event, honest(1, 1)]}))
    [body] = [atom[2] for atom in facts(event) if len(atom) == 3]
    size = len(body) + 1 + 3000 * len("t00000,")
    names = ["long.json"]
    if kind == "replica":
        (tmp_path / "long.cadf").write_bytes(subprocess.run([cadf, "join", "long.json"], cwd=tmp_path, stdout=subprocess.PIPE, check=True).stdout)
        names = ["long.cadf"]
    elif kind == "several files":
        place.put("one.cadf", facts(dict(event, tags=event["tags"][:2000])))
        place.put("two.cadf", facts(dict(event, tags=event["tags"][1000:]), honest(1, 1)))
        for name in "one.cadf", "two.cadf":
            place.run("cadf-take", "--by=day", "long/", name)
        names = ["long/"]
    for most, status in (size, 0), (size - 1, 5):
        found = place.run("cadf-events", "--largest=%d" % most, *names)
        tags = [json.loads(line).get("tags") for line in found.output.splitlines()]
        assert (found.status, tags) == (status, [event["tags"] if status == 0 else None, None]), (found, most)
        assert status == 0 or left_out(found, '3000 chains, tags and attachments of the event "long"')


def test_all_events_of_a_file_are_long(tmp_path, cadf, tools):
    """What is left is the file of the other facts."""
    place = Place(tmp_path, cadf, tools)
    place.put("long.cadf", shared_step(20000) | document({"id": "g", "events": [], "name": "x"})[1])
    found = place.run("cadf-events", "--largest=100", "long.cadf")
    assert (found.status, found.output) == (5, b"") and left_out(found, 'the event "long"')
