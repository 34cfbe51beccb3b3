"""cadf-sync: two sites hold the union, whatever the other end says, and whenever the connection ends.

What sites have to hold is made by the second implementation. The far side is tests/tools/far_side.py where bytes are
counted, cut or made up, and a real sshd on loopback where there is one.
"""
import datetime
import hashlib
import json
import os
import pathlib
import random
import re
import resource
import shlex
import shutil
import signal
import socket
import subprocess
import sys
import tempfile
import threading
import time

import pytest

from tests import TOP, patience
from tests.machine import ended, side_by_side
from tests.reference.events import document
from tests.reference.inventory_files import inventory_of
from tests.reference.json_text import spelled
from tests.reference.replica_files import file_of, read_file
from tests.reference.split_files import parts_of
from tests.tools import others
from tests.tools.copies import copied, is_caught
from tests.tools.programs import loaded

sys.path.insert(0, os.path.join(TOP, "share", "cadf"))
import cadf_link
import cadf_site
import cadf_windows

TOOLS = os.path.join(TOP, "tools")
REFERENCE = os.path.join(TOP, "tests", "reference", "cadf")
FAR = os.path.join(TOP, "tests", "tools", "far_side.py")
MOST_DIFFERING, MOST_EQUAL, MOST_TURNS = 100000, 40000, 6  # bytes both ways beyond the answers, turns of the line
CUTS, MADE_AGAIN = 25, 5  # random bytes at which a link is cut; each of so many calls is made again
FIRST = b'CADF-SYNC 1 {"facts":67108864,"file":true,"keeps":true,"limit":1073741824,"log":"g","next":true,"timeout":60,"unit":null,"windows":400,"writes":true}\n'
# Tools that know messages of few bytes, so that few facts make many of them, and whose commands may note their calls.
TRIED = ("LEAST = 2 ** 20", "LEAST = 2 ** 10", "        change_only(None)\n", "")
EVENT = {"eventType": "activity", "action": "read", "outcome": "success", "initiatorId": "u1", "targetId": "t1",
         "observerId": "s1"}


def facts(*keys, log="g"):
    """The atoms of events of these numbers, on 28 days, each with a tag."""
    events = [dict(EVENT, id="e%d" % key, eventTime="2024-03-%02dT12:00:00Z" % (1 + key % 28), tags=["t"]) for key in keys]
    return document({"id": log, "events": events, "name": "x"})[1]


def many(*keys):
    """The bodies of the same events, of which many are made fast."""
    body = next(atom[2] for atom in facts(0) if atom[0] == "E" and len(atom) == 3)
    return {("E", "e%d" % key, body.replace("2024-03-01", "2024-03-%02d" % (1 + key % 28))) for key in keys}


class Sites:
    """A folder with sites, and the tool over them."""

    def __init__(self, path, cadf=REFERENCE, tools=TOOLS, wait=20):
        self.path, self.cadf, self.tools, self.patience = path, cadf, tools, round(patience.seconds(wait))

    def put(self, name, atoms, log="g"):
        (self.path / name).write_bytes(file_of(log, atoms))

    def holds(self, name):
        return read_file((self.path / name).read_bytes())[1]

    def environment(self):
        return dict(os.environ, CADF=self.cadf, TOOLS=self.tools)

    def runs(self, tool, *words, **options):
        """What a tool answers, which the Python of the tests runs."""
        return ended(sys.executable, [os.path.join(self.tools, tool), *words], env=self.environment(), cwd=self.path, **options)

    def sync(self, *words):
        return self.runs("cadf-sync", *words)

    def far(self, *words):
        """What `--rsh` is to be for a mode of far_side.py."""
        return "--rsh=" + shlex.join([sys.executable, FAR, *map(str, words)])

    def lied_to(self, data, *words, mode="says", timeout=None):
        """What the tool answers if the far side writes this. Its site has to stay as it was."""
        (self.path / "lie").write_bytes(data)
        before = sorted((each.name, each.read_bytes()) for each in self.path.iterdir())
        answer = self.sync("--timeout=%d" % (timeout or self.patience), *words, self.far(mode, self.path / "lie"), "here.cadf", "h:there.cadf")
        assert sorted((each.name, each.read_bytes()) for each in self.path.iterdir()) == before
        return answer

    def served(self, data, *words):
        """What the serving end answers."""
        return self.runs("cadf-sync", "--serve", "--timeout=20", *words, "here.cadf", input=data)


@pytest.fixture(scope="session")
def tools(tmp_path_factory):
    """The tools, with what they import compiled: most of these tests are starts of them. They are TRIED."""
    folder = str(tmp_path_factory.mktemp("tools"))
    return copied(folder, *TRIED)


@pytest.fixture
def sites(tmp_path, tools):
    return Sites(tmp_path, tools=tools)


def said(answer):
    return answer.error.decode()


# ---- What both sites hold

@pytest.mark.parametrize("way, here, there", [
    ((), (1, 2, 3, 4), (1, 2, 3, 4)), (("--pull",), (1, 2, 3, 4), (3, 4)), (("--push",), (1, 2, 3), (1, 2, 3, 4)),
])
def test_two_files(sites, way, here, there):
    sites.put("here.cadf", facts(1, 2, 3))
    sites.put("there.cadf", facts(3, 4))
    answer = sites.sync(*way, "here.cadf", "there.cadf")
    assert (answer.status, answer.error) == (0, b"")
    new = 2 if way != ("--push",) else 0, 4 if way != ("--pull",) else 0
    assert answer.output.decode().startswith("took %d facts here, %d there; 1 of 1 windows differed; " % new)
    assert (sites.path / "here.cadf").read_bytes() == file_of("g", facts(*here))
    assert (sites.path / "there.cadf").read_bytes() == file_of("g", facts(*there))


def test_equal_sites_cost_a_line(sites):
    for name in ("here.cadf", "there.cadf"):
        sites.put(name, facts(1, 2))
    answer = sites.sync("--json", "here.cadf", "there.cadf")
    told = json.loads(answer.output)
    assert told["bytes_sent"] + told["bytes_received"] < 400
    assert {name: told[name] for name in ("taken_here", "taken_there", "windows", "windows_differed")} == {
        "taken_here": 0, "taken_there": 0, "windows": 1, "windows_differed": 0}
    assert not (sites.path / "here.cadf.lock").exists()


@pytest.mark.parametrize("words, name", [(("there.cadf", "new.cadf"), "new.cadf"), (("--pull", "new.cadf", "there.cadf"), "new.cadf")])
def test_a_site_that_is_not_there_is_made(sites, words, name):
    sites.put("there.cadf", facts(1, 2))
    assert sites.sync("--quiet", *words) == (0, b"", b"")
    assert (sites.path / name).read_bytes() == file_of("g", facts(1, 2))


@pytest.mark.parametrize("words, name", [(("--push", "none/", "there.cadf"), "none/"), (("--pull", "there.cadf", "none.cadf"), "none.cadf")])
def test_a_site_to_take_from_that_is_not_there(sites, words, name):
    """A name that is mistyped, or a disk that isn't mounted, is no success that brings nothing."""
    sites.put("there.cadf", facts(1, 2))
    assert sites.sync(*words) == (1, b"", ("cadf-sync: %s: it is not there, so it has nothing to send: is that its name?\n" % name).encode())
    assert os.listdir(sites.path) == ["there.cadf"]


def synced_read_alone(folders, here, there):
    """A call for both ways, where the folder `still` can't be written to: its status, its output, and what it said."""
    words = [sys.executable, os.path.join(folders.tools, "cadf-sync"), here, there]
    answer = ended("unshare", ["-rm", "sh", "-c", "mount --bind still still && mount -o remount,bind,ro still && exec \"$@\"", "-", *words],
                   env=folders.environment(), cwd=folders.path)
    if b"unshare:" in answer.error or b"mount:" in answer.error:
        pytest.skip("unshare: no file system of one's own can be mounted")
    return answer.status, answer.output, said(answer)


READ_ALONE = "cadf-sync: %s: it can't be written to, so nothing was brought here; the other site got what it lacked%s: use --push if that is meant, "


@pytest.mark.needs("unshare")
@pytest.mark.parametrize("here", ["still/here.cadf", "still/"])
def test_a_site_here_that_cannot_be_written_to(folders, here):
    """The other one gets what it lacks all the same."""
    if here != "still/":
        (folders.path / "still").mkdir()
    folders.put(here, facts(1, 2))
    folders.put("there.cadf", facts(2, 3))
    status, output, line = synced_read_alone(folders, here, "there.cadf")
    assert status == 1 and output.startswith(b"took 0 facts here, 2 there; ") and line.startswith(READ_ALONE % (here, ""))
    assert folders.holds(here) == facts(1, 2) and folders.holds("there.cadf") == facts(1, 2, 3)


@pytest.mark.needs("unshare")
def test_a_damaged_site_here_that_cannot_be_written_to(folders):
    """What was left out isn't said to be there."""
    old, window = facts(1, 29, 2, 3, 59), "2024-03-04"
    folders.put("still/", old)
    folders.put("there/", facts(1, 57, 2, 3, 31))
    changed(next((folders.path / "still").glob(window + ".*")))
    status, output, lines = synced_read_alone(folders, "still/", "there/")
    assert status == 1 and b"; 1 were left out; " in output
    assert ("\n" + READ_ALONE % ("still/", ", but for 1 windows that were left out")) in lines
    assert folders.holds("there/") == facts(1, 57, 2, 3, 31) | (old - parts_of(old, "day")[window])


def test_since_leaves_older_windows(sites):
    sites.put("here.cadf", facts(1, 10))
    sites.put("there.cadf", facts(2, 11))
    assert sites.sync("--since=2024-03-11", "here.cadf", "there.cadf").status == 0
    assert sites.holds("here.cadf") == facts(1, 10, 11) and sites.holds("there.cadf") == facts(2, 10, 11)


@pytest.mark.parametrize("window", ["0000-12", "0000-12-31", "0000-12-31T10", "9999-01", "9999-01-01", "9999-01-01T13"])
def test_since_the_first_and_the_last_window(sites, window):
    """The windows of the first and the last instant that a time can have are of the years 0000 and 9999."""
    events = [dict(EVENT, id=time, eventTime=time) for time in ("0001-01-01T00:00:00+14:00", "9998-12-31T23:59:59-14:00")]
    sites.put("there.cadf", document({"id": "g", "events": events})[1])
    assert sites.sync("--pull", "--since=" + window, "here.cadf", "there.cadf").status == 0
    assert {atom[1] for atom in sites.holds("here.cadf")} == {event["id"] for event in events if window[0] == "0" or event["id"][0] == "9"}


def test_names_are_quoted_for_the_far_shell(sites):
    """A name with what a shell would run is a name there too."""
    name = "it's; touch wrong #.cadf"
    sites.put("here.cadf", facts(1))
    sites.put(name, facts(2))
    (sites.path / "shell").write_text('#!/bin/sh\n[ "$1 $2" = "-- h" ] && PATH=%s:$PATH exec sh -c "$3"\n' % shlex.quote(sites.tools))
    (sites.path / "shell").chmod(0o755)
    answer = sites.sync("--rsh=./shell", "here.cadf", "h:" + name)
    assert answer.status == 0, answer
    assert sites.holds("here.cadf") == sites.holds(name) == facts(1, 2) and not (sites.path / "wrong").exists()


def test_a_refusal_of_the_far_end_is_one_line(sites):
    sites.put("here.cadf", facts(1))
    (sites.path / "script").write_text("learn 0 {}\n")
    assert sites.sync("here.cadf", "script") == (1, b"", b"cadf-sync: script: a script: `cadf rehearse` reads it\n")


def numbers(path, labels):
    """What a file of metrics says, by names, of a run that has just succeeded; all its values have these labels first."""
    found = dict(line.rsplit(" ", 1) for line in path.read_text().splitlines() if not line.startswith("#"))
    assert path.stat().st_mode & 0o777 == 0o644 and abs(int(found.pop("cadf_last_success_timestamp_seconds" + labels)) - time.time()) < 60
    assert all(name.partition("{")[2].startswith(labels[1:-1]) for name in found), found
    return {name.replace(labels[:-1], "{").replace("{}", "")[len("cadf_"):]: int(value) for name, value in found.items()}


def failed(*keys):
    """The same events as in `facts`, with another outcome."""
    return {(*atom[:2], atom[2].replace('"outcome":"success"', '"outcome":"failure"'), *atom[3:]) for atom in facts(*keys) if atom[0] == "E"}


UNSEEN = "ruled keys at which nobody here has looked: `cadf-conflicts --values SITE`, and then `cadf-conflicts --seen SITE`"


def ruling(key):
    """The ruling of the event of this number as `facts` has it."""
    [body] = [atom[2] for atom in facts(key) if atom[:1] == ("E",) and len(atom) == 3]
    return {("U", "E", "e%d" % key, hashlib.sha256(body.encode()).hexdigest())}


def test_conflicts_and_metrics(sites):
    """Open conflicts of the first site end with 5; the numbers of a run are in a file that a failed run leaves."""
    other = failed(2)
    sites.put("here.cadf", facts(1, 2))
    sites.put("there.cadf", other)
    answer = sites.sync("--conflicts", "--metrics=m.prom", "here.cadf", "there.cadf")
    assert answer.status == 5 and answer.output.endswith(b"; 1 open conflicts\n"), answer
    assert numbers(sites.path / "m.prom", '{tool="cadf-sync",site="here.cadf",peer="there.cadf"}') == {
        "facts_taken_total": 2, "facts_lacked_by_peer": 5, "windows_not_kept_by_peer": 0, "facts_erased_by_peer": 0, "open_conflicts": 1, "largest_window_bytes": len(file_of("g", facts(1, 2) | other))}
    text = (sites.path / "m.prom").read_text()
    assert sites.sync("--metrics=m.prom", "here.cadf", "none/none.cadf").status != 0
    assert (sites.path / "m.prom").read_text() == text and sorted(os.listdir(sites.path)) == sorted(
        ["m.prom", *(name + end for name in ("here.cadf", "there.cadf") for end in ("", ".before", ".lock"))])
    assert sites.runs("cadf-agree", "--metrics=a.prom", "here.cadf", "there.cadf").status == 0
    assert 'cadf_facts_lacked{tool="cadf-agree",sites="here.cadf there.cadf",site="here.cadf",of="there.cadf"} 0\n' in (sites.path / "a.prom").read_text()


KILLED = """
import os, sys
sys.path.insert(0, sys.argv[1])
import cadf_metrics
os.rename = lambda *_: os._exit(9)
cadf_metrics.write(sys.argv[2], {}, [])
"""


def test_metrics_that_cannot_be_written(sites):
    """What was taken is said all the same: the next call finds both sites equal."""
    sites.put("here.cadf", facts(1))
    answer = sites.runs("cadf-sync", "--metrics=none/m.prom", "here.cadf", "there.cadf")
    assert (answer.status, said(answer)) == (3, "cadf-sync: none/m.prom.new: No such file or directory\n")
    assert answer.output.startswith(b"took 0 facts here, 3 there; ")


def test_metrics_of_a_run_that_is_killed(sites):
    """A run that is killed before the rename leaves FILE.new alone, which the next one replaces. A link there is not followed."""
    share, links = os.path.join(TOP, "share", "cadf"), [sites.path / "here.cadf", sites.path / "here.cadf.before"]
    for name in ("here.cadf", "there.cadf"):
        sites.put(name, facts(1, 2))
    shutil.copyfile(*links)
    (sites.path / "m.prom.new").symlink_to(links[1])
    for _ in range(2):
        assert sites.runs("cadf-sync", "--metrics=m.prom", "here.cadf", "there.cadf").status == 0
        assert sorted(os.listdir(sites.path)) == ["here.cadf", "here.cadf.before", "m.prom", "there.cadf"]
        for _ in range(2):
            assert ended(sys.executable, ["-c", KILLED, share, str(sites.path / "m.prom")]).status == 9
            assert sorted(each for each in os.listdir(sites.path) if each.startswith("m.")) == ["m.prom", "m.prom.new"]
    assert links[0].read_bytes() == links[1].read_bytes() and not (sites.path / "m.prom").is_symlink()


@pytest.mark.parametrize("words, part", [
    (("a.cadf",), "two SITEs"), (("a.cadf", "b.cadf", "c.cadf"), "two SITEs"), (("h:a.cadf", "b.cadf"), "the first SITE is on this machine"),
    (("a.cadf", "--", "-oProxyCommand=x:b.cadf"), "doesn't begin with `-`"), (("a.cadf", "[-x]:b.cadf"), "doesn't begin with `-`"),
    (("a.cadf", ":b.cadf"), "no HOST:SITE"), (("a.cadf", "h::b"), "no HOST:SITE"), (("a.cadf", "h:"), "no HOST:SITE"),
    *((("--since=" + window, "a.cadf", "b.cadf"), "WINDOW is") for window in ("2024", "2024-13", "2024-31-03", "2024-03-01T24", "0000-13", "0000-02-30")),
    (("--pull", "--push", "a.cadf", "b.cadf"), "not allowed with"),
    (("--limit=2000000000", "a.cadf", "b.cadf"), "--limit"), (("--rsh=ssh 'a", "a.cadf", "h:b.cadf"), "--rsh"), (("--rsh= ", "a.cadf", "h:b.cadf"), "--rsh names no command"), (("--serve", "a.cadf", "b.cadf"), "--serve has one SITE"),
])
def test_usage(sites, words, part):
    answer = sites.sync(*words)
    assert answer.status == 2 and part in said(answer)


def test_a_colon_after_a_slash_is_of_this_machine(sites):
    sites.put("a.cadf", facts(1))
    sites.put("h:b.cadf", facts(2))
    assert sites.sync("a.cadf", "./h:b.cadf").status == 0
    assert sites.holds("h:b.cadf") == facts(1, 2)


@pytest.mark.parametrize("here, there, words, part", [
    (None, None, (), "neither site is there"), ("g", "h", (), "other log"), ("g", "junk", (), "version"), (None, "odd", (), "there.cadf: log line"),
])
def test_refused_sites(sites, here, there, words, part):
    for name, log in (("here.cadf", here), ("there.cadf", there)):
        if log == "junk":
            (sites.path / name).write_bytes(b"CADF-OTHER 1\n")
        elif log == "odd":
            (sites.path / name).write_bytes(file_of("g", facts(1)).replace(b'"g"', b"7"))
        elif log:
            sites.put(name, facts(1, log=log), log)
    before = {each.name: each.read_bytes() for each in sites.path.iterdir()}
    answer = sites.sync(*words, "here.cadf", "there.cadf")
    assert answer.status == 1 and part in said(answer) and "stopped by" not in said(answer), answer
    assert {each.name: each.read_bytes() for each in sites.path.iterdir()} == before


# ---- A far side that lies

def message(word, content=b""):
    return b"%s %d\n%s" % (word, len(content), content)


def items(*found):
    """The bytes of a message of items, each (part, kind, content)."""
    return b"".join(b"%s %s %d\n" % (part, kind, len(content)) for part, kind, content in found) + b"\n" + b"".join(each[2] for each in found)


DIGEST = b"0" * 64
LIST = message(b"list", b"W all %s\n" % DIGEST)
OTHER = file_of("h", facts(9, log="h"))
GOOD = file_of("g", facts(9))


def first(**members):
    return b"CADF-SYNC 1 %s\n" % json.dumps(dict({"limit": 2 ** 30, "timeout": 60, "log": "g", "unit": None, "writes": True}, **members)).encode()


def answered(*found):
    return FIRST + LIST + message(b"answer", items(*found))


def handed_out(*files):
    """The answers of a far side that hands out these files of one part, and says that more is to come."""
    return FIRST + LIST + b"".join(message(b"answer", items((b"all", b"some", each))) for each in files)


PIECES = [file_of("g", facts(key)) for key in range(40, 45)]
NO_MORE = message(b"answer", items((b"all", b"none", b"")))  # for the other question
SKETCHED = (b"all", b"inventory", inventory_of("g", []))
CAME_SO = ": it came so, and no file here is at fault: tell the operator of the end that sent it\n"
LEFT_OUT = "left out all: the %s of all from h:there.cadf: %s" + CAME_SO
LIES = {
    "a greeting": (b"Welcome to h!\n", 1, 'the far shell prints "Welcome to h!"'),
    "a greeting without a line feed": (b"Welcome " + FIRST, 1, 'the far shell prints "Welcome ": what runs at its start'),
    "a greeting first": (b"Last login\r\n" + FIRST, 1, "the far shell prints"),
    "colours": (b"\x1b[31mred\n", 1, 'the far shell prints "\\u001b[31mred"'),
    "zeros": (b"\0" * 40000, 1, "the far shell prints"),
    "a line without an end": (b"CADF-SYNC 1 {" + b" " * 40000, 1, "the far shell prints"),
    "version 2": (b"CADF-SYNC 2 {}\n", 1, "speaks version 2 of the exchange"),
    "version 0": (b"CADF-SYNC 0 {}\n", 1, "the far shell prints"),
    "no object": (b"CADF-SYNC 1 []\n", 1, "the far shell prints"),
    "deep": (b"CADF-SYNC 1 {\"a\":" + b"[" * 9000 + b"]" * 9000 + b"}\n", 1, "the far shell prints"),
    "no limit": (b"CADF-SYNC 1 {}\n", 1, "no limit from "),
    "a limit of 30,000 digits": (b'CADF-SYNC 1 {"limit":' + b"9" * 30000 + b"}\n", 1, "limit"),
    "a log that is no text": (first(log="\ud800"), 1, "no text in the first line: log"),
    "facts -1": (first(facts=-1), 1, "no facts from "),
    "limit -1": (first(limit=-1), 1, "no limit"),
    "limit true": (first(limit=True), 1, "no limit"),
    "limit 2^40": (first(limit=2 ** 40), 1, "no limit"),
    "timeout 0": (first(timeout=0), 1, "no timeout"),
    "timeout 1.5": (first(timeout=1.5), 1, "no timeout"),
    "unit": (first(unit="week"), 1, "no unit"),
    "log 7": (first(log=7), 1, "no text in the first line: log"),
    "other log": (first(log="h"), 1, 'other log: "h"'),
    "read only": (first(writes=False), 1, "use --pull"),
    "a fault at first": (first(fault="1 \x1b]0;title\x07no"), 1, "\\u001b]0;title\\u0007no"),
    "a fault of no status": (first(fault="no"), 3, "h:there.cadf: "),
    "a fault that is no text": (first(fault="1 \ud800"), 1, "h:there.cadf: \\ud800"),
    "another word": (FIRST + message(b"answer"), 1, "no message that it may send"),
    "a shell's word": (FIRST + b"rm -rf\n", 1, "no message that it may send"),
    "a length of 20 digits": (FIRST + b"list 10000000000000000000\n", 1, "no message that it may send"),
    "a negative length": (FIRST + b"list -1\n", 1, "no message that it may send"),
    "a length with a zero": (FIRST + b"list 05\nxxxxx", 1, "no message that it may send"),
    "a length of 2^31": (FIRST + b"list 2147483648\n", 1, "--limit is 1073741824"),
    "a wait with bytes": (FIRST + b"wait 1\nx", 1, "no message that it may send"),
    "waits": (FIRST + b"wait 0\n" * 1001, 1, "it says that it works"),
    "a path": (FIRST + message(b"list", b"W ../../x %s\n" % DIGEST), 1, "no list of windows"),
    "a window without a unit": (FIRST + message(b"list", b"W 2024-03-01 %s\n" % DIGEST), 1, "no list of windows"),
    "other digits": (first(unit="day") + message(b"list", b"W %s %s\n" % ("\u0662\u0660\u0662\u0664-\u0660\u0663-\u0660\u0661".encode(), DIGEST)), 1, "no list"),
    "a short digest": (FIRST + message(b"list", b"W all 00\n"), 1, "no list of windows"),
    "twice": (FIRST + message(b"list", b"W all %s\n" % DIGEST * 2), 1, "no list of windows"),
    "windows that fall": (first(unit="day") + message(b"list", b"W 2024-03-02 %s\nW 2024-03-01 %s\n" % (DIGEST, DIGEST)), 1, "no list"),
    "a day that is a path": (first(unit="day") + message(b"list", b"W 2024-03-0/ %s\n" % DIGEST), 1, "no list of windows"),
    "no number of windows": (first(windows=-1), 1, "no windows from 0 to 1000000 in the first line"),
    "no line feed at last": (FIRST + message(b"list", b"W all %s" % DIGEST), 1, "no list of windows"),
    "a fault with escapes": (FIRST + message(b"fault", b"4 \x1b[2J"), 4, "\\u001b[2J"),
    "a fault that says all is done": (FIRST + message(b"fault", b"5 all is done"), 3, "h:there.cadf: all is done"),
    "a fault of two lines": (FIRST + message(b"fault", b"4 no\ncadf-sync: all is well"), 4, "no\\ncadf-sync: all is well"),
    "no items": (FIRST + LIST + message(b"answer"), 1, "no items that may answer"),
    "lengths that lie": (FIRST + LIST + message(b"answer", b"all facts 900\n\nx"), 1, "no items that may answer"),
    "no kind": (answered((b"all", b"shell", b"")), 1, "no items that may answer"),
    "another part": (answered((b"shared", b"facts", GOOD)), 1, "no answer for inventory of all: facts of shared"),
    "another kind": (answered((b"all", b"sketch", b"")), 1, "no answer for inventory of all: sketch of all"),
    "ten thousand items": (FIRST + LIST + message(b"answer", items(*[(b"all", b"none", b"")] * 10001)), 1, "no items that may answer"),
    "a conflict list": (answered((b"all", b"facts", b'{"conflicts":[],"rulings":[]}'), SKETCHED), 1, "all from h:there.cadf: event 0: id" + CAME_SO),
    "too many items": (answered(*[(b"all", b"none", b"")] * 3), 1, "no items that may answer"),
    "cells after an inventory": (answered((b"all", b"more", b"300")), 1, "no answer for inventory of all: more of all"),
    "facts that are none": (answered((b"all", b"facts", b"\x7fELF"), SKETCHED), 1, "all from h:there.cadf: not JSON"),
    "facts of another log": (answered((b"all", b"facts", OTHER), SKETCHED), 1, 'other log: "h"'),
    "more to come, and no way to ask for it": (first() + LIST + message(b"answer", items((b"all", b"some", file_of("g", facts(1))))), 1, "no answer for inventory of all: some of all"),
    "more facts than are read at once": (answered((b"all", b"facts", b"x" * 70000000)), 1, "all: facts of 70000000 bytes, and --facts is 67108864"),
    "more to come, and another item": (answered((b"all", b"some", GOOD), SKETCHED), 1, "no answer for inventory of all: some of all"),
    "nothing more where more was to come": (handed_out(GOOD) + message(b"answer", items((b"all", b"none", b""))), 1, "no answer for next of all: none of all"),
    "more of another part": (handed_out(GOOD) + message(b"answer", items((b"shared", b"facts", GOOD))), 1, "no answer for next of all: facts of shared"),
    "a piece again and again": (handed_out(GOOD, GOOD), 1, "all: it sends again what it sent, or nothing, and says that more is to come"),
    "pieces without facts": (handed_out(file_of("g", set())), 1, "all: it sends again what it sent, or nothing, and says that more is to come"),
    "pieces that fall": (handed_out(*PIECES[:0:-1]), 1, "all: it sends again what it sent, or nothing, and says that more is to come"),
    "pieces without an end": (handed_out(*PIECES), 1, "all: it sends little at a time, and says that more is to come"),
    "pieces that are cut": (handed_out(GOOD) + message(b"answer", items((b"all", b"facts", PIECES[0][:-9]), )) + NO_MORE, 1, "all from h:there.cadf: truncated" + CAME_SO),
    "pieces of another log": (handed_out(GOOD) + message(b"answer", items((b"all", b"facts", OTHER))) + NO_MORE, 1, 'other log: "h"'),
    "facts that are cut": (answered((b"all", b"facts", GOOD[:-9]), SKETCHED), 1, "all from h:there.cadf: truncated" + CAME_SO),
    "facts that were changed": (answered((b"all", b"facts", GOOD.replace(b"u1", b"u2")), SKETCHED), 1, "all from h:there.cadf: digest" + CAME_SO),
    "an inventory that is none": (answered((b"all", b"none", b""), (b"all", b"inventory", b"x\n")), 1, LEFT_OUT % ("inventory", "version")),
    "an inventory that is damaged": (answered((b"all", b"none", b""), (b"all", b"inventory", inventory_of("g", [])[:-2] + b"x\n")), 1, LEFT_OUT % ("inventory", "digest")),
    "an inventory of another log": (answered((b"all", b"none", b""), (b"all", b"inventory", inventory_of("h", []))), 1, LEFT_OUT % ("inventory", "other log")),
    "a sketch that is none": (answered((b"all", b"none", b""), (b"all", b"sketch", b"x\n")), 1, LEFT_OUT % ("sketch", "version")),
    "damage": (answered((b"all", b"fault", b"3 \x1b[2Jbroken"), SKETCHED), 1, "left out all: h:there.cadf: \\u001b[2Jbroken\n"),
    "damage of no status": (answered((b"all", b"fault", b""), (b"all", b"fault", b"1 " + b"x" * 9000)), 1, "left out all: h:there.cadf: \n"),
    "a number that is none": (answered((b"all", b"none", b""), SKETCHED) + message(b"taken", b"-1\n"), 1, "no number of facts"),
}


@pytest.mark.parametrize("kind", LIES)
def test_a_far_side_that_lies(sites, kind):
    sites.put("here.cadf", facts(1))
    data, status, part = LIES[kind]
    answer = sites.lied_to(data)
    assert answer.status == status and part in said(answer), answer
    assert all(line.startswith("cadf-sync: ") and line.isprintable() for line in said(answer).splitlines()) and said(answer).count("\n") == 1 + ("left out all" in part)


@pytest.mark.parametrize("mode, data, words, part", [
    ("mute", b"", (), "silent for 1 seconds"),
    ("says", FIRST + b"list 500\nW all", (), "silent for 1 seconds"),
    ("mute", FIRST, (), "silent for 1 seconds"),
    ("endless", FIRST + b"wait 0\n", (), "it says that it works"),
    ("endless", b"a greeting without an end", (), "the far shell prints"),
    ("endless", FIRST + b"list 1000000000\nW all\n", ("--most=5000000",), "more than 5000000 bytes in one session"),
    ("endless", FIRST + LIST + b"answer 1000000\nall facts 0\n", (), "no items that may answer"),
    ("drips", FIRST, (), "silent for 1 seconds"),
    ("drips", FIRST, ("--timeout=20", "--session=2"), "h:there.cadf: the session has lasted 2 seconds: make the call again, or raise --session"),
    ("streams", FIRST + b"list 1000000000\nW all\n", ("--session=2",), "the session has lasted 2 seconds"),
    ("mute", b"Press a key: ", ("--timeout=5",), 'the far shell prints "Press a key: "'),
])
def test_a_far_side_without_an_end(sites, mode, data, words, part):
    sites.put("here.cadf", facts(1))
    answer = sites.lied_to(data, *words, mode=mode, timeout=20 if mode == "endless" else 1)
    assert answer.status in (1, 3) and part in said(answer), answer


INVENTORY, SKETCH = b'CADF-INVENTORY 1\nL "g"\n', b'CADF-SKETCH 1\nL "g"\nS 3000000 1 %s\nC %s\n' % (DIGEST, b" ".join([b"0"] * 65))
OF_ITS_KIND = {
    "an inventory's line without an end": (b"inventory", INVENTORY + b"a" * 67, 3), "an inventory's short lines": (b"inventory", INVENTORY + b"a" * 64 + b"\n\n", 4),
    "a cell without an end": (b"sketch", SKETCH + (b"0" * 80 + b"\n") * 2 + b"0" * 81, 7), "short cells": (b"sketch", SKETCH + b"0\n", 5),
    "a log's name without an end": (b"sketch", b"CADF-SKETCH 1\nL " + b"g" * 9000, 2)}


def announced(word, kind, data):
    """The beginning of a message of a gigabyte, of which no more comes."""
    table = b"all none 0\n" * (word == b"answer") + b"all %s 999999000\n\n" % kind
    return b"%s %d\n" % (word, len(table) + 999999000) + table + data + b"-" * 5000


@pytest.mark.parametrize("kind", OF_ITS_KIND)
def test_a_line_that_is_none_of_its_kind(sites, kind):
    """It ends the exchange as it comes, at either end, and not when all that was announced has come."""
    sites.put("here.cadf", facts(1))
    kind, data, line = OF_ITS_KIND[kind]
    answer = sites.lied_to(FIRST + LIST + announced(b"answer", kind, data), mode="mute", timeout=20)
    wanted = "the %s of all: line %d: shape: no line of such a file is so long, or so short" % (kind.decode(), line)
    assert (answer.status, said(answer)) == (1, "cadf-sync: h:there.cadf: %s\n" % wanted)
    answer = sites.served(hello() + announced(b"ask", kind, data))
    assert answer.status == 1 and answer.output.endswith(b"1 the peer: " + wanted.encode()), answer


def test_facts_that_are_too_long_are_not_waited_for(sites):
    sites.put("here.cadf", facts(1))
    answer = sites.lied_to(FIRST + LIST + announced(b"answer", b"facts", b""), mode="mute", timeout=20)
    assert answer.status == 1 and said(answer).endswith("all: facts of 999999000 bytes, and --facts is 67108864\n"), answer


@pytest.mark.parametrize("kind, right, wrong", [
    ("an inventory's line without an end", "            judge(block)\n", ""), ("short cells", "and self.length not in self.lengths:", "and False:"),
    ("a log's name without an end", "else LONGEST_BEFORE):", "else LARGEST):"), (None, "            self.check(part, kind, length)\n", "")])
def test_a_wrong_judge_is_caught(tmp_path, kind, right, wrong):
    (tmp_path / "sites").mkdir()
    sites = Sites(tmp_path / "sites", tools=copied(str(tmp_path / "copy"), *TRIED, right, wrong))
    with pytest.raises(AssertionError):
        test_a_line_that_is_none_of_its_kind(sites, kind) if kind else test_facts_that_are_too_long_are_not_waited_for(sites)


def test_a_small_limit_is_refused(sites):
    """One below 2^20 bytes of a message, of a peer's or of this end's own."""
    sites.put("here.cadf", facts(1))
    sites.tools = TOOLS
    answer = sites.lied_to(first(limit=2 ** 20 - 1))
    assert (answer.status, said(answer)) == (1, "cadf-sync: no limit from 1048576 to 1073741824 in the first line\n")
    answer = sites.served(hello(limit=2 ** 20 - 1))
    assert answer.status == 1 and b"no limit from 1048576 to 1073741824 in the first line" in answer.output
    for word in "--limit", "--facts":
        answer = sites.sync("%s=%d" % (word, 2 ** 20 - 1), "here.cadf", "there.cadf")
        assert answer.status == 2 and "not a whole number from 1048576 to 1073741824" in said(answer)


def test_limits_of_the_far_end(sites):
    """What the caller allows holds there too, unless a key fixes the command there."""
    sites.put("here.cadf", facts(1))
    (sites.path / "shell").write_text('#!/bin/sh\nshift\necho "$@" >words\n')
    (sites.path / "shell").chmod(0o755)
    for words, told in ((), ""), (("--windows=7", "--session=100000"), " --windows=7 --session=100000"):
        sites.sync(*words, "--rsh=./shell", "here.cadf", "h:there.cadf")
        assert (sites.path / "words").read_text() == "h cadf-sync --serve%s -- there.cadf\n" % told


@pytest.mark.parametrize("here, part", [("here.cadf", ": "), ("here.json", ": write fault: ")])
def test_no_room_for_what_is_temporary(sites, here, part):
    """The full disk that is named is that of the folder of temporary files, and not the site's."""
    sites.put("here.cadf", facts(1))
    (sites.path / "here.json").write_text(json.dumps({"id": "g", "events": [], "name": "x"}))
    answer = sites.runs("cadf-sync", here, "there.cadf", preexec_fn=lambda: resource.setrlimit(resource.RLIMIT_FSIZE, (60, 60)))
    assert answer.status == 3 and "cadf-sync: %s%sFile too large: make room there, or name another folder by TMPDIR\n" % (tempfile.gettempdir(), part) in said(answer)


def test_no_folder_for_what_is_temporary(sites):
    """The site is not named for it."""
    sites.put("here.cadf", facts(1))
    answer = sites.runs("cadf-sync", "here.cadf", "there.cadf", preexec_fn=lambda: resource.setrlimit(resource.RLIMIT_FSIZE, (0, 0)))
    assert answer.status == 3 and said(answer).startswith("cadf-sync: No usable temporary directory found in ")
    assert said(answer).endswith(": make room there, or name another folder by TMPDIR\n")


def test_a_last_line_that_cannot_be_written(sites):
    """It is not tried again at the end, which would be another status."""
    sites.put("here.cadf", facts(1))
    words = [sys.executable, os.path.join(sites.tools, "cadf-sync"), "here.cadf", "there.cadf"]
    answer = ended("sh", ["-c", '"$@" >/dev/full', "-", *words], env=sites.environment(), cwd=sites.path)
    assert (answer.status, said(answer)) == (3, "cadf-sync: standard output: write fault: No space left on device\n")


# Runs a program whose thread of that number can't be started.
THREADLESS = """
import runpy, sys, threading
start, left = threading.Thread.start, [None] * int(sys.argv[1])
def started(thread):
    if not left:
        raise RuntimeError("can't start new thread")
    left.pop()
    start(thread)
threading.Thread.start, sys.argv = started, sys.argv[2:]
runpy.run_path(sys.argv[0], run_name="__main__")
"""


@pytest.mark.parametrize("number", range(4))
def test_a_thread_that_cannot_be_started(sites, number):
    sites.put("here.cadf", facts(1))
    sites.put("there.cadf", facts(2))
    answer = ended(sys.executable, ["-c", THREADLESS, str(number), os.path.join(sites.tools, "cadf-sync"), "here.cadf", "there.cadf"],
                   env=sites.environment(), cwd=sites.path)
    assert (answer.status, said(answer)) == (3, "cadf-sync: a thread: it can't be started now: try again, or allow more files and processes\n")


LARGE = 2 ** 21  # bytes for which there is no room


def test_no_room_after_a_part_was_taken(folders):
    """The line has the folder that is full, what to do, and what was taken, which stays."""
    parts = {part.encode(): file_of("g", own) for part, own in parts_of(facts(1, 2), "day").items()}
    days = sorted(set(parts) - {b"shared"}, reverse=True)  # as they are asked for: the nearest to now first
    folders.put("here/", facts())
    listed = b"".join(b"W %s %s\n" % (part, parts[part][-65:-1] if part == b"shared" else DIGEST) for part in [b"shared", *reversed(days)])
    (folders.path / "lie").write_bytes(
        first(unit="day") + message(b"list", listed) + message(b"answer", items((days[0], b"facts", parts[days[0]])))
        + message(b"answer", items((days[1], b"facts", b"0" * LARGE))))
    answer = folders.runs("cadf-sync", "--pull", folders.far("says", folders.path / "lie"), "here/", "h:there/",
                          preexec_fn=lambda: resource.setrlimit(resource.RLIMIT_FSIZE, (LARGE, LARGE)))
    assert (answer.status, said(answer)) == (3, "cadf-sync: %s: File too large: make room there, or name another folder by TMPDIR; "
                                             "taken before that: at least 2 facts here, 0 there\n" % tempfile.gettempdir())
    assert folders.holds("here/") == facts() | read_file(parts[days[0]])[1]


@pytest.mark.needs("unshare")
def test_room_is_asked_for_before_a_message_is_read(sites, tmp_path):
    """A message larger than the free room of TMPDIR ends the call before its bytes are waited for."""
    sites.put("here.cadf", facts(1))
    (sites.path / "lie").write_bytes(FIRST + b"list 1000000000\n")
    (sites.path / "small").mkdir()
    words = [sys.executable, os.path.join(sites.tools, "cadf-sync"), sites.far("mute", "lie"), "here.cadf", "h:there.cadf"]
    answer = ended("unshare", ["-rm", "sh", "-c", "mount -t tmpfs -o size=1m none small && TMPDIR=$PWD/small exec \"$@\"", "-", *words],
                   env=sites.environment(), cwd=sites.path)
    if b"unshare:" in answer.error or b"mount:" in answer.error:
        pytest.skip("unshare: no file system of one's own can be mounted")
    assert (answer.status, said(answer)) == (3, "cadf-sync: %s/small: No space left on device for 1000000000 bytes: "
                                             "make room there, or name another folder by TMPDIR\n" % tmp_path)


def test_a_fault_is_heard_while_much_is_written(sites):
    """The far side reads nothing of a request that no pipe holds, and says why."""
    sites.put("here.cadf", facts(*range(3000)))
    answer = sites.lied_to(FIRST + message(b"list") + message(b"fault", b"1 enough"), "--push", mode="mute")
    assert (answer.status, said(answer)) == (1, "cadf-sync: h:there.cadf: enough\n")


def test_a_session_ends_while_much_is_written(sites):
    """The limit that a request comes to is named, and not that no answer comes."""
    sites.put("here.cadf", facts(*range(3000)))
    answer = sites.lied_to(FIRST + message(b"list"), "--push", "--most=20000", mode="mute", timeout=3)
    assert answer.status == 1 and "more than 20000 bytes in one session: if that is meant, raise --most\n" in said(answer)


@pytest.mark.parametrize("rsh, status, part", [
    ("true", 3, "it ended with status 0 before its first line"), ("false", 3, "it ended with status 1 before its first line"),
    ("./none", 3, "./none: No such file or directory"),
    ("sh -c 'exit 127'", 3, "status 127 before its first line: is cadf-sync installed"), ("sh -c 'exit 255'", 3, "status 255 before its first line: ssh could not connect"), ("sh -c 'echo \x1b[2Jno key >&2; exit 255'", 3, "no key"),
    ("sh -c 'printf \"no route\\r\\n\" >&2'", 3, "h:there.cadf: no route\n"), ("sh -c 'printf CADF-SY'", 3, ': "CADF-SY": make the call again\n'),
    ("sh -c 'printf Welcome'", 1, ': the far shell prints "Welcome": what runs at its start'),
])
def test_a_far_side_that_is_not_there(sites, rsh, status, part):
    sites.put("here.cadf", facts(1))
    answer = sites.sync("--rsh=" + rsh, "here.cadf", "h:there.cadf")
    assert answer.status == status and part in said(answer) and "\x1b" not in said(answer), answer


def test_a_far_shell_that_leaves_a_program(sites):
    """Whoever is left there with standard error, as an agent, is not waited for."""
    sites.put("here.cadf", facts(1))
    sites.put("there.cadf", facts(2))
    (sites.path / "shell").write_text('#!/bin/sh\nsleep 3600 </dev/null >/dev/null &\necho $! >left\nPATH=%s:$PATH exec sh -c "$3"\n' % shlex.quote(sites.tools))
    (sites.path / "shell").chmod(0o755)
    begun = time.monotonic()
    answer = sites.sync("--quiet", "--rsh=./shell", "here.cadf", "h:there.cadf")
    os.kill(int((sites.path / "left").read_text()), signal.SIGKILL)
    assert answer == (0, b"", b"") and time.monotonic() - begun < patience.seconds(20)


# ---- A caller that lies

def hello(**members):
    return b"CADF-SYNC 1 %s\n" % json.dumps(dict({"limit": 2 ** 30, "timeout": 60, "log": "g", "since": None, "site": "here.cadf", "unit": None}, **members)).encode()


CALLS = {
    "a shell's words": (b"id\n", 1, "no first line of cadf-sync"),
    "no line feed": (b"CADF-SYNC 1 {}", 3, "cut in a line"),
    "too long": (b"C" * 40000, 1, "no first line of cadf-sync"),
    "no site": (hello(site=None), 1, "another site"),
    "another site": (hello(site="/etc/passwd"), 1, "another site"),
    "a site above": (hello(site="../here.cadf"), 1, "another site"),
    "another log": (hello(log="h"), 1, "other log"),
    "no unit": (hello(unit="week"), 1, "no unit or no window"),
    "no window": (hello(since="../x"), 1, "no unit or no window"),
    "no limit": (hello(limit=0), 1, "no limit"),
    "a list as a site": (hello(site=["here.cadf"]), 1, "no text in the first line: site"),
    "another word": (hello() + message(b"shell", b"id"), 1, "no message that it may send"),
    "too large": (hello() + b"take 1073741825\n", 1, "--limit is 1073741824"),
    "cut": (hello() + b"take 100\nall", 3, "cut in a message"),
    "no items": (hello() + message(b"ask"), 1, "no items that may be in a request `ask`"),
    "a path": (hello() + message(b"ask", items((b"../x", b"whole", b""))), 1, "no items"),
    "another unit's window": (hello() + message(b"ask", items((b"2024-03-01", b"whole", b""))), 1, "no items"),
    "facts that are asked": (hello() + message(b"ask", items((b"all", b"facts", GOOD))), 1, "no items"),
    "no number of cells": (hello() + message(b"ask", items((b"all", b"tell", b"7"))), 1, "no number of cells"),
    "too many cells": (hello() + message(b"ask", items((b"all", b"tell", b"999999999"))), 1, "no number of cells"),
    "more, and nothing was asked": (hello() + message(b"ask", items((b"all", b"next", b""))), 1, "all: nothing more of it was to come"),
    "more after all of it": (hello() + message(b"ask", items((b"all", b"whole", b""), (b"all", b"next", b""))), 1, "all: nothing more of it was to come"),
    "no facts": (hello() + message(b"take", items((b"all", b"facts", b"x"))), 1, "all from the caller: not JSON"),
    "facts of another log": (hello() + message(b"take", items((b"all", b"facts", OTHER))), 1, 'other log: "h"'),
    "facts and none": (hello() + message(b"take", items((b"all", b"facts", GOOD), (b"all", b"facts", b"{"))), 1, "not JSON"),
    "facts that are kept, and others that are none": (hello() + message(b"take", items((b"all", b"some", GOOD))) + message(b"take", items((b"all", b"facts", b"{"))), 1,
                                                      "not JSON"),
    "facts that are kept, and a cut": (hello() + message(b"take", items((b"all", b"some", GOOD))) + b"take 100\nall", 3, "cut in a message"),
    "waits": (hello() + b"wait 0\n" * 1001, 1, "it says that it works"),
}


@pytest.mark.parametrize("kind", CALLS)
def test_a_caller_that_lies(sites, kind):
    sites.put("here.cadf", facts(1))
    before = sorted((each.name, each.read_bytes()) for each in sites.path.iterdir())
    data, status, part = CALLS[kind]
    answer = sites.served(data)
    assert answer.status == status and part in answer.output.decode(), answer
    assert answer.error == b"" and (b"fault" in answer.output.splitlines()[0] or b"\nfault " in answer.output)
    assert sorted((each.name, each.read_bytes()) for each in sites.path.iterdir()) == before


def test_a_caller_of_a_later_version(sites):
    """It is answered in the version that both speak."""
    sites.put("here.cadf", facts(1))
    answer = sites.served(hello().replace(b"CADF-SYNC 1", b"CADF-SYNC 2") + message(b"list"))
    assert answer.status == 0 and answer.output.startswith(b"CADF-SYNC 1 {") and b"\nlist 71\nW all " in answer.output, answer


@pytest.mark.parametrize("between, part", [((), b"shared"), (((b"2024-03-02", b"tell", b"3"),), b"2024-03-02"), (((b"shared", b"whole", b""),), b"2024-03-02")])
def test_more_of_what_is_not_handed_out(sites, between, part):
    """What is handed out is of one part, and until something else is asked for."""
    sites.put("here.cadf", facts(*range(1, 196, 28)))
    asked = [((b"2024-03-02", b"whole", b""),), ((b"2024-03-02", b"next", b""),), between, ((part, b"next", b""),)]
    answer = sites.served(hello(limit=1024, unit="day") + message(b"list") + b"".join(message(b"ask", items(*each)) for each in asked if each))
    assert answer.status == 1 and answer.output.count(b"\n2024-03-02 some ") == 2
    assert answer.output.endswith(b"1 %s: nothing more of it was to come" % part), answer


def test_a_caller_that_sends_no_sketch(sites):
    """It is told so of this part, as of one that is damaged here."""
    sites.put("here.cadf", facts(1))
    told = "1 the sketch of all from the caller: version" + CAME_SO.rstrip()
    assert sites.served(hello() + message(b"ask", items((b"all", b"sketch", b"x\n")))) == (0, FIRST.replace(b"60", b"20") + message(b"answer", items((b"all", b"fault", told.encode()))), b"")


@pytest.mark.parametrize("log", ["\0", "\ud800", "", "x" * 1025])
def test_a_log_that_is_none(sites, log):
    """An end without a site would have its log from the other one."""
    document = json.dumps({"id": "g", "events": []}).encode()
    answer = sites.served(hello(log=log) + message(b"take", items((b"all", b"facts", document))))
    assert (answer.status, answer.error, os.listdir(sites.path)) == (1, b"", []) and b"no text in the first line: log" in answer.output
    answer = sites.lied_to(first(log=log) + LIST + message(b"answer", items((b"all", b"facts", document))))
    assert (answer.status, answer.error) == (1, b"cadf-sync: no text in the first line: log\n")


def test_facts_if_neither_site_is_there(sites):
    """No end has named a log, so the facts are refused, though a document names one."""
    document = json.dumps({"id": "g", "events": []}).encode()
    answer = sites.served(hello(log=None) + message(b"take", items((b"all", b"facts", document))))
    assert (answer.status, answer.error, os.listdir(sites.path)) == (1, b"", [])
    assert answer.output.endswith(b"1 neither site is there: take a file into one by cadf-take")


def test_a_site_that_is_read_alone(sites):
    sites.put("here.cadf", facts(1))
    answer = sites.served(hello() + message(b"take", items((b"all", b"facts", GOOD))), "--read-only")
    assert answer.status == 1 and b"use --pull" in answer.output and sites.holds("here.cadf") == facts(1)
    assert b'"writes":false' in answer.output


def test_no_work_for_a_caller_that_is_gone(sites):
    """Of many items of a request none is begun once a sign of life finds no reader."""
    sites.put("here.cadf", facts(1))
    (sites.path / "slow").write_text('#!/bin/sh\n[ $1 = missing-by ] && echo >>told && sleep 0.5\nexec %s "$@"\n' % shlex.quote(REFERENCE))
    (sites.path / "slow").chmod(0o755)
    with subprocess.Popen([sys.executable, os.path.join(sites.tools, "cadf-sync"), "--serve", "here.cadf"], stdin=subprocess.PIPE, stdout=subprocess.PIPE,
                          stderr=subprocess.PIPE, cwd=sites.path, env=dict(sites.environment(), CADF="./slow")) as child:
        child.stdin.write(hello(timeout=1) + message(b"ask", items(*[(b"all", b"inventory", inventory_of("g", []))] * 8)))
        child.stdin.close()
        assert child.stdout.readline() == FIRST
        child.stdout.close()
        assert child.stderr.read() == b"cadf-sync: the peer: it ended: make the call again\n"
    assert child.returncode == 3 and len((sites.path / "told").read_text()) < 8


def test_a_silent_caller(sites):
    sites.put("here.cadf", facts(1))
    reading, writing = os.pipe()
    answer = sites.runs("cadf-sync", "--serve", "--timeout=1", "here.cadf", stdin=reading)
    os.close(writing)
    os.close(reading)
    assert answer.status == 3 and b"silent for 1 seconds" in answer.output


def test_a_caller_without_an_end(sites):
    """Whoever asks again and again, never silent, has the serving end for as long as a session may last."""
    sites.put("here.cadf", facts(1))
    (sites.path / "shell").write_text('#!/bin/sh\n(cat hello; while printf "wait 0\\nlist 0\\n"; do sleep 0.2; done) | %s\n' % shlex.join(
        [sys.executable, os.path.join(sites.tools, "cadf-sync"), "--serve", "--session=3", "here.cadf"]))
    (sites.path / "hello").write_bytes(hello())
    answer = ended("sh", ["shell"], env=sites.environment(), cwd=sites.path)
    assert answer.status == 3 and b"\nfault " in answer.output and b"the peer: the session has lasted 3 seconds" in answer.output


@pytest.mark.parametrize("wrong", ["{}['x']", "int('x')", "[][0]", "None.digests", "(lambda n: n(n))(lambda n: n(n))"])
def test_whatever_the_serving_end_meets_is_told(sites, wrong):
    """A fault of its own program too ends the exchange by a line that says so, and not by a connection that is gone."""
    sites.tools = copied(str(sites.path / "wrong"), *TRIED, "        found = self.end.digests(self.since, self.kept_there)\n", "        found = %s\n" % wrong)
    sites.put("here.cadf", facts(1))
    answer = sites.served(hello() + message(b"list"))
    assert (answer.status, answer.error) == (3, b"") and answer.output.startswith(FIRST.replace(b"60", b"20") + b"fault "), answer
    assert answer.output.endswith(b": cadf-sync itself is at fault, and no file: report this line"), answer


def test_a_serving_end_that_is_stopped_says_so(sites):
    sites.put("here.cadf", facts(1))
    with subprocess.Popen([sys.executable, os.path.join(sites.tools, "cadf-sync"), "--serve", "here.cadf"], stdin=subprocess.PIPE, stdout=subprocess.PIPE,
                          stderr=subprocess.PIPE, cwd=sites.path, env=sites.environment()) as child:
        child.stdin.write(hello() + message(b"list"))
        child.stdin.flush()
        assert [child.stdout.readline() for _ in range(3)][1] == b"list 71\n"
        child.terminate()
        assert child.stdout.read() == message(b"fault", b"3 stopped by SIGTERM") and child.wait(30) == 143


# ---- Folders, by the built command

def index_of(parts):
    """The file `site` that names these files, by part, as FORMATS writes it."""
    text = 'CADF-SITE 1\nL "g"\nB day\n' + "".join("F %s %s\n" % each for each in sorted(parts, key=lambda each: (each[0] != "shared", each)))
    return text.encode() + b"Z %s\n" % hashlib.sha256(text.encode()).hexdigest().encode()


def settled(atoms):
    """What a settled folder of these atoms has, by name."""
    files = {part: file_of("g", own) for part, own in parts_of(atoms, "day").items()}
    digests = {part: data[-65:-1].decode() for part, data in files.items()}
    named = {"%s.%s.cadf" % (part, digests[part]): data for part, data in files.items()}
    return dict(named, site=index_of(digests.items()))


class Folders(Sites):
    """The same with sites that are folders, if their names end with a slash."""

    def put(self, name, atoms, log="g"):
        if not name.endswith("/"):
            return super().put(name, atoms, log)
        (self.path / name).mkdir(mode=0o700)
        for each, data in settled(atoms).items():
            (self.path / name / each).write_bytes(data)

    def files(self, name):
        """What the folder's `site` names, and `site`, by name."""
        index = cadf_site.Index.read((self.path / name / "site").read_bytes())
        named = ["site", *(cadf_site.file_name(*entry) for entry in index.entries())]
        return {each: (self.path / name / each).read_bytes() for each in named}

    def holds(self, name):
        if not name.endswith("/"):
            return super().holds(name)
        return set().union(*(read_file(data)[1] for each, data in self.files(name).items() if each != "site"))

    def takes(self, name, *words):
        """Has cadf-take do this with a site."""
        assert self.runs("cadf-take", *words[:-1], name, *words[-1]).status == 0

    def settle(self, name):
        self.takes(name, "--settle", [])
        self.takes(name, "--settle", [])
        return self.files(name)

    def equal(self, *words, tells=""):
        """What the tool says, in JSON, of an exchange that has to succeed, and to tell no more than this."""
        answer = self.sync("--json", *words)
        assert (answer.status, answer.error.decode()) == (0, tells), answer
        return json.loads(answer.output)

    def counted(self, *words):
        """The bytes to the far side, from it, and the turns of an exchange, counted at the pipe."""
        self.equal(self.far("count", self.path / "counts"), *words)
        return list(map(int, (self.path / "counts").read_text().split()))


@pytest.fixture
def folders(tmp_path, cadf, tools):
    return Folders(tmp_path, cadf, tools)


@pytest.mark.parametrize("here, there", [("here/", "there/"), ("here/", "there.cadf"), ("here.cadf", "there/")])
def test_folders(folders, here, there):
    """Folders and files meet; a settled folder is a function of its facts."""
    folders.put(here, facts(1, 2, 3))
    folders.put(there, facts(3, 4, 31))
    union = facts(1, 2, 3, 4, 31)
    assert folders.equal(here, there)["windows_differed"] == 4
    assert folders.holds(here) == folders.holds(there) == union
    for name in (here, there):
        if name.endswith("/"):
            assert folders.settle(name) == settled(union)
        else:
            assert (folders.path / name).read_bytes() == file_of("g", union)
    assert folders.equal(here, there)["windows_differed"] == 0


@pytest.mark.parametrize("way, here, there", [("--pull", (1, 2, 3, 4), (3, 4)), ("--push", (1, 2, 3), (1, 2, 3, 4))])
def test_folders_one_way(folders, way, here, there):
    folders.put("here/", facts(1, 2, 3))
    folders.put("there/", facts(3, 4))
    folders.equal(way, "here/", "there/")
    assert folders.holds("here/") == facts(*here) and folders.holds("there/") == facts(*there)


def test_a_folder_that_is_not_there_is_made(folders):
    folders.put("there/", facts(1, 2))
    folders.equal("--pull", "new/", "there/")
    assert folders.files("new/") == settled(facts(1, 2))


def test_windows_of_several_files_are_compared_by_their_union(folders):
    """The digest of a union is kept in the folder's index, so equal windows are not read again; an index that isn't trusted serves nobody."""
    folders.put("here/", facts(1, 29, 57))
    folders.put("there/", facts(1))
    for key in (29, 57):
        folders.put("%d.cadf" % key, facts(key))
        folders.takes("there/", ["%d.cadf" % key])
    assert len(folders.files("there/")) > len(folders.files("here/"))
    assert folders.equal("here/", "there/")["windows_differed"] == 0
    index = folders.path / "there" / ".index"
    assert index.is_file()
    own, folders.cadf = folders.cadf, "false"
    assert folders.equal("here/", "there/")["windows_differed"] == 0
    folders.cadf = own
    index.chmod(0o666)
    answer = folders.sync("here/", "there/")
    assert answer.status == 0 and b"it is passed over\n" in answer.error


def test_another_program_has_no_union_of_files(folders):
    """It is named, and the windows are taken for equal or different by no digest of its."""
    folders.put("here/", facts(1))
    folders.put("29.cadf", facts(29))
    folders.takes("here/", ["29.cadf"])
    folders.cadf = "true"
    assert folders.sync("here/", "new.cadf") == (3, b"", b"cadf-sync: true: what it writes is no replica file\n")


def test_a_folder_whose_first_take_ended_early_is_made(folders):
    """A call that was killed or refused before there was a site is made again and completes."""
    folders.put("here/", facts(1, 2, 3))
    (folders.path / "there").mkdir(mode=0o700)
    for name in (".lock", ".new"):
        (folders.path / "there" / name).touch(0o600)
    folders.equal("here/", "there/")
    assert folders.holds("there/") == facts(1, 2, 3)
    (folders.path / "there" / "site").unlink()
    answer = folders.sync("here/", "there/")
    assert answer.status == 1 and "there/site: it is not there, and files of windows are: the site is damaged" in said(answer)
    for name in (folders.path / "there").glob("*.cadf"):
        name.rename(name.with_suffix(".txt"))
    answer = folders.sync("here/", "there/")
    assert answer.status == 1 and "no site in it" in said(answer)


DAMAGED = "digest: the file is damaged: fetch it again, or restore it as the guide says under `A damaged site`\n"
WINDOW = "digest: the site is damaged: `cadf-sync --repair SITE/ HOST:SITE` mends it, or restore it as the guide says under `A damaged site`\n"


def test_a_damaged_file_is_named_where_it_is(folders):
    """Though the other end lacks all of it, which is then sent as it is, and would be refused there."""
    folders.put("here.cadf", facts(1, 2))
    path = folders.path / "here.cadf"
    path.write_bytes(path.read_bytes().replace(b"read", b"reap"))
    assert folders.sync("--push", "here.cadf", "new.cadf") == (1, b"", b"cadf-sync: here.cadf: " + DAMAGED.encode())


def changed(path):
    path.write_bytes(path.read_bytes().replace(b"read", b"reap"))


def linked(path):
    path.rename(path.parent.with_suffix(".moved"))
    path.symlink_to(path.parent.with_suffix(".moved"))


def replaced(path):
    shutil.copyfile(next(path.parent.glob("2024-03-02.*")), path)


DAMAGES = {"changed": (changed, WINDOW), "gone": (os.unlink, "not there: the site is damaged: "), "another": (replaced, "it holds something else than its name says: "),
           "a link": (linked, "not a regular file: the site is damaged: ")}


@pytest.mark.parametrize("way, damaged, kind", [
    *(((), name, kind) for name in ("here/", "there/") for kind in DAMAGES),
    *((way, name, "changed") for way in (("--push",), ("--pull",)) for name in ("here/", "there/"))])
def test_a_damaged_window_is_left_out(folders, way, damaged, kind):
    """The others are exchanged; the call says where the damage is, and ends with 1. Once the window is restored the call completes."""
    old = {"here/": facts(1, 29, 2, 3, 59), "there/": facts(1, 57, 2, 3, 31)}
    union, window = old["here/"] | old["there/"], "2024-03-04"
    new = {"here/": old["here/"] if way == ("--push",) else union, "there/": old["there/"] if way == ("--pull",) else union}
    for name, atoms in old.items():
        folders.put(name, atoms)
    before = {name: {each: data for each, data in folders.files(name).items() if each.startswith(window)} for name in old}
    [(each, data)] = before[damaged].items()
    damage, part = DAMAGES[kind]
    damage(folders.path / damaged / each)
    answer = folders.sync("--metrics=m.prom", *way, "here/", "there/")
    assert answer.status == 1 and b"; 2 of 4 windows differed; 1 were left out; " in answer.output, answer
    lines = said(answer).splitlines(True)
    assert lines[0].startswith("cadf-sync: left out %s: %s%s%s: %s" % (window, "there/: " if damaged == "there/" else "", damaged, each, part)), answer
    assert lines[1:] == ["cadf-sync: left out 1 of 2 windows that differ: mend each at the end that its line names, by cadf-sync --repair or as the guide says under `A damaged site`, and make the call again\n"]
    (folders.path / damaged / each).unlink(missing_ok=True)
    (folders.path / damaged / each).write_bytes(data)
    for name in old:
        assert folders.holds(name) == new[name] - (parts_of(union, "day")[window] - old[name])
        assert before[name].items() <= folders.files(name).items()
    assert not (folders.path / "m.prom").exists()
    folders.equal(*way, "here/", "there/")
    assert {name: folders.holds(name) for name in old} == new


@pytest.mark.parametrize("way, damaged", [("--push", "here/"), ("--push", "there/"), ("--pull", "here/"), ("--pull", "there/")])
def test_a_damaged_window_of_several_files_is_left_out(folders, way, damaged):
    """Its digest can't be made, so it is looked for whatever the other end has, also where nothing would be lacked."""
    for name in ("here/", "there/"):
        folders.put(name, facts(1, 29))
        folders.put("more.cadf", facts(57))
        folders.takes(name, ["more.cadf"])
    folders.put("more.cadf", facts(2))
    folders.takes("here/" if way == "--push" else "there/", ["more.cadf"])
    path = max((folders.path / damaged).glob("2024-03-02.*"), key=os.path.getsize)
    changed(path)
    answer = folders.sync(way, "here/", "there/")
    peer = "there/: " if damaged == "there/" else ""
    assert answer.status == 1 and said(answer).startswith("cadf-sync: left out 2024-03-02: %s%s: %s" % (peer, path.relative_to(folders.path), WINDOW)), answer
    assert folders.files("here/").keys() >= {each for each in folders.files("there/") if each.startswith("2024-03-03")} != set()


def test_a_bad_inventory_leaves_out_its_window(folders):
    """What the peer sends of the others is taken."""
    parts = {part.encode(): file_of("g", own) for part, own in parts_of(facts(1, 2), "day").items()}
    shared, bad, good = sorted(parts, key=lambda part: (part != b"shared", part))
    folders.put("here/", facts(1))
    listed = b"".join(b"W %s %s\n" % (part, DIGEST if part == bad else parts[part][-65:-1]) for part in (shared, bad, good))
    (folders.path / "lie").write_bytes(first(unit="day") + message(b"list", listed) + message(b"answer", items(
        (bad, b"none", b""), (bad, b"inventory", inventory_of("g", [])[:-2] + b"x\n"), (good, b"facts", parts[good]))))
    answer = folders.sync(folders.far("says", folders.path / "lie"), "here/", "h:there/")
    assert answer.status == 1 and folders.holds("here/") == facts(1, 2)
    assert said(answer).splitlines()[0] + "\n" == "cadf-sync: left out 2024-03-02: the inventory of 2024-03-02 from h:there/: digest" + CAME_SO


@pytest.mark.parametrize("there", ["there/", "h:there/"])
def test_new_windows_are_counted_where_they_begin(folders, there):
    """What --windows allows holds for the far site too, on this machine and on another: those nearest to now go, and the others with the next call."""
    folders.put("here/", facts(1, 2, 3))
    (folders.path / "shell").write_text("#!/bin/sh\nPATH=%s:$PATH exec sh -c \"$3\"\n" % shlex.quote(folders.tools))
    (folders.path / "shell").chmod(0o755)
    words = ["--push", "--windows=2", "--rsh=./shell", "here/", there]
    answer = folders.sync(*words)
    assert answer.status == 5 and said(answer).startswith("cadf-sync: %s: left out 1 of 3 windows that are new there, and sent the 2 nearest to now: " % there)
    assert b"; 4 of 4 windows differed; 1 were left out; " in answer.output and folders.holds("there/") == facts(2, 3)
    assert folders.sync(*words).status == 0 and folders.holds("there/") == facts(1, 2, 3)


def test_a_far_end_that_begins_few_windows(folders, monkeypatch):
    """A command that is fixed there has a limit of its own, whatever the caller allows."""
    folders.put("here/", facts(*range(1, 9)))
    (folders.path / "shell").write_text("#!/bin/sh\nexec %s --serve --windows=$WINDOWS there/\n" % (
        shlex.join([sys.executable, os.path.join(folders.tools, "cadf-sync")])))
    (folders.path / "shell").chmod(0o755)
    monkeypatch.setenv("WINDOWS", "3")
    answer = folders.sync("--push", "--windows=all", "--rsh=./shell", "here/", "h:there/")
    assert answer.status == 5 and "h:there/: left out 5 of 8 windows that are new there, and sent the 3 nearest to now: " in said(answer)
    assert folders.holds("there/") == facts(6, 7, 8)
    monkeypatch.setenv("WINDOWS", "9")
    assert folders.sync("--push", "--rsh=./shell", "here/", "h:there/").status == 0
    assert folders.holds("there/") == facts(*range(1, 9))
    monkeypatch.setenv("WINDOWS", "all")
    assert "--serve always has a limit" in said(folders.sync("--push", "--rsh=./shell", "here/", "h:there/"))


@pytest.mark.parametrize("ends", [("south/", "north/"), ("north/", "south/")])
def test_two_files_stop_no_exchange(folders, ends):
    """A site with more new windows than a call may begin: those that both have are exchanged, and of the new ones the nearest to now."""
    folders.put("south/", facts(1))
    folders.put("north/", facts(1, 29, *range(3, 8)))
    answer = folders.sync("--windows=3", *ends)
    assert answer.status == 5 and ": left out 2 of 5 windows that are new " in said(answer) and b"2 were left out" in answer.output
    assert folders.holds("south/") == facts(1, 29, 5, 6, 7)
    assert folders.sync("--windows=3", *ends).status == 0 and folders.holds("south/") == facts(1, 29, *range(3, 8))


def test_a_first_exchange_on_this_machine_has_no_limit(folders, tmp_path):
    """As of a site of many days with its backup. A later one has it, unless a person allows all."""
    folders.tools = copied(tmp_path / "few", "MOST_NEW = 400", "MOST_NEW = 2")
    folders.put("here/", facts(1, 2, 3))
    folders.equal("--push", "here/", "backup/")
    folders.put("more.cadf", facts(*range(1, 9)))
    folders.takes("here/", "--windows=9", ["more.cadf"])
    assert folders.sync("--push", "here/", "backup/").status == 5 and folders.holds("backup/") == facts(1, 2, 3, 7, 8)
    folders.equal("--push", "--windows=all", "here/", "backup/")
    assert folders.holds("backup/") == facts(*range(1, 9))


def test_facts_of_another_window_than_they_say(folders):
    """A window that is left as it is by --since can't be changed under another's name, and no conflict be hidden: nothing of it is taken."""
    folders.put("here/", facts(1))
    before = folders.files("here/")
    lie = parts_of(facts(29) | failed(1), "day")["2024-03-02"]
    (folders.path / "lie").write_bytes(first(unit="day") + message(b"list", b"W 2024-03-05 %s\n" % DIGEST) + message(b"answer", items(
        (b"2024-03-05", b"facts", file_of("g", lie)))))
    answer = folders.sync("--since=2024-03-05", "--pull", folders.far("says", folders.path / "lie"), "here/", "h:there/")
    assert (answer.status, folders.files("here/")) == (1, before)
    assert said(answer) == "cadf-sync: 2024-03-05 from h:there/: it has facts of 2024-03-02" + CAME_SO


SWAPPED = {"two windows": lambda one, other: [(b"2024-03-02", other), (b"2024-03-03", one)],
           "one of two": lambda one, other: [(b"2024-03-02", one | other), (b"2024-03-03", other)],
           "a piece": lambda one, other: [(b"2024-03-02", one), (b"2024-03-03", other), (b"2024-03-02", other)]}
DOCUMENT = json.dumps({"id": "g", "events": [dict(EVENT, id="d", eventTime="2024-03-09T00:00:00Z")]}).encode()  # which has no digest


def test_two_windows_that_are_swapped(folders):
    """Each item of a message has to be of its own window, though that of another item be its. What is right is taken."""
    folders.put("here/", facts(4))
    one, other = (parts_of(facts(1, 2), "day")["2024-03-0%d" % day] for day in (2, 3))
    hello = b'CADF-SYNC 1 {"limit":1073741824,"log":"g","site":"here/","timeout":20,"unit":"day","since":null}\n'
    for kind, made in {**SWAPPED, "a document": lambda one, _: [(b"2024-03-02", one), (b"2024-03-03", DOCUMENT)], "none": lambda one, other: [(b"2024-03-02", one), (b"2024-03-03", other), (b"2024-03-02", one)]}.items():
        sent = [(part, b"facts", atoms if atoms is DOCUMENT else file_of("g", atoms)) for part, atoms in made(one, other)]
        before = folders.files("here/")
        answer = folders.runs("cadf-sync", "--serve", "--timeout=20", "here/", input=hello + message(b"take", items(*sent)))
        if kind == "none":
            assert answer.status == 0 and folders.holds("here/") == facts(4) | one | other, answer
        else:
            assert answer.status == 1 and folders.files("here/") == before and b" from the caller: it has facts of 2024-03-0" in answer.output, (kind, answer)


def test_a_caller_that_sends_more_windows_than_it_may(folders):
    """The end that is served takes what is of windows that are there, and of new ones the nearest to now."""
    folders.put("here/", facts(1))
    parts = parts_of(facts(29, 3, 4), "day")
    sent = [(part.encode(), b"facts", file_of("g", atoms)) for part, atoms in parts.items() if part != "shared"]
    hello = b'CADF-SYNC 1 {"limit":1073741824,"log":"g","site":"here/","timeout":20,"unit":"day","since":null}\n'
    answer = folders.runs("cadf-sync", "--serve", "--timeout=20", "--windows=1", "here/", input=hello + message(b"take", items(*sent)))
    assert answer.status == 0 and answer.output.endswith(message(b"taken", b"4\n")) and b'"windows":1,' in answer.output
    assert said(answer) == "cadf-sync: the caller: left out 1 new windows, beyond the 1 that a call may begin\n" and folders.holds("here/") == facts(1, 29, 4)


def test_a_push_that_is_refused_says_what_was_pulled(folders):
    """The facts that were taken here stay, though the other end can't take those of this one."""
    folders.put("here/", facts(1, 2, 3))
    folders.put("there/", facts(4))
    (folders.path / "there" / ".lock").touch(0o644)
    (folders.path / "there" / ".lock").chmod(0o644)
    answer = folders.sync("here/", "there/")
    assert answer.status == 3 and said(answer).endswith("; taken before that: at least 2 facts here, 0 there\n")
    assert folders.holds("here/") == facts(1, 2, 3, 4) and folders.holds("there/") == facts(4)


@others.needed
def test_each_member_of_a_group_exchanges(cadf, tools):
    """What one member's run keeps in a folder serves the others; where they can't read it, it stops none of them."""
    with others.open_folder() as path:
        own = Folders(pathlib.Path(path), cadf)
        own.tools, own.cadf = others.shared_tools(path, os.path.join(tools, "cadf-sync"), cadf)
        own.put("29.cadf", facts(29))
        for name in ("here/", "there/"):
            own.put(name, facts(1))
            own.takes(name, ["29.cadf"])
            for each in (own.path / name, *(own.path / name).iterdir()):
                os.chown(each, others.CALLER, others.GROUP)
                each.chmod(0o660 if each.is_file() else 0o2770)
        said = [b""]
        for user in (others.CALLER, others.OTHER, None, others.CALLER):
            index = own.path / "here" / ".index"
            if user is None:  # as a run by root left it
                index.chmod(0o600)
                os.chown(index, others.SENDER, others.SENDER)
                said = [b"cadf-sync: here/.index: others could have written it: its owner or its mode isn't that of the site: it is passed over"] * 2 + [b""]
                continue
            program, *words = others.as_user(user, others.GROUP, others.PYTHON, os.path.join(own.tools, "cadf-sync"), "--quiet", "here/", "there/")
            status, output, error = ended(program, words, env=own.environment(), cwd=own.path)
            assert (status, output, error.split(b"\n")) == (0, b"", said)
            found = index.stat()
            assert (found.st_mode & 0o777, found.st_gid) == (0o660, others.GROUP) or found.st_uid == others.SENDER


NARROW = """#!/bin/sh
# Reads no file of more bytes than these, as cadf none of more than 2^30. By `missing` cadf-take reads what it joined of small files.
[ $1 = missing ] || for each; do
    case $each in /dev/fd/*) [ $(stat -L -c %%s $each) -le %d ] || { echo "cadf: input 1: too large" >&2; exit 1; } ;; esac
done
exec %s "$@"
"""
NARROW_BYTES = 3000


@pytest.mark.parametrize("there", [(), (1, 197)])
@pytest.mark.parametrize("way", ["--pull", "--push"])
def test_a_window_larger_than_a_file_may_be(folders, way, there):
    """A window of several files, of which no file is made that can't be read, goes by parts."""
    names = ("here/", "there/") if way == "--push" else ("there/", "here/")
    for name, keys in zip(names, ((), there)):
        folders.put(name, facts(*keys))
    for begin in (1, 197, 393):
        folders.put("more.cadf", facts(*range(begin, begin + 196, 28)))
        folders.takes(names[0], ["more.cadf"])
    assert len(file_of("g", facts(*range(1, 589, 28)))) > NARROW_BYTES * 3 // 2
    (folders.path / "narrow").write_text(NARROW % (NARROW_BYTES, shlex.quote(folders.cadf)))
    (folders.path / "shell").write_text("#!/bin/sh\nexec %s --serve --limit=%d there/\n" % (
        shlex.join([sys.executable, os.path.join(folders.tools, "cadf-sync")]), NARROW_BYTES))
    for name in ("narrow", "shell"):
        (folders.path / name).chmod(0o755)
    folders.cadf = str(folders.path / "narrow")
    folders.equal("--limit=%d" % NARROW_BYTES, "--rsh=./shell", way, "here/", "h:there/")
    assert folders.holds("here/") == folders.holds("there/") == facts(*range(1, 589, 28))


def test_metrics_of_folders(folders):
    """All open conflicts of the site count, also those of a window that no run has changed; and facts go on being counted from run to run."""
    folders.put("here/", facts(1, 2, 3) | failed(1))
    folders.put("there/", facts(2, 3) | failed(2, 3) | ruling(3))
    largest = len(file_of("g", facts(2) - facts())) + len(file_of("g", failed(2)))  # two files of one window
    tells = "cadf-sync: here/: 1 %s\n" % UNSEEN
    for there in (4, 0):
        folders.equal("--metrics=m.prom", "here/", "there/", tells=tells)
        assert numbers(folders.path / "m.prom", '{tool="cadf-sync",site="here/",peer="there/"}') == {
            "facts_taken_total": 5, "facts_lacked_by_peer": there, "windows_not_kept_by_peer": 0, "facts_erased_by_peer": 0, "open_conflicts": 2, "unseen_rulings": 1, "largest_window_bytes": largest}
    folders.put("more.cadf", facts(4))
    folders.takes("there/", ["more.cadf"])
    folders.equal("--metrics=m.prom", "here/", "there/", tells=tells)
    text = (folders.path / "m.prom").read_text()
    assert "# TYPE cadf_facts_taken_total counter\n" in text and "# TYPE cadf_open_conflicts gauge\n" in text
    assert numbers(folders.path / "m.prom", '{tool="cadf-sync",site="here/",peer="there/"}')["facts_taken_total"] == 5 + len(facts(4) - facts())


@pytest.mark.parametrize("more, status, told", [
    (set(), 0, "0 open conflicts"), (failed(1), 5, "1 open conflicts"), (failed(1) | ruling(1), 5, "0 open conflicts; 1 " + UNSEEN)], ids=["none", "open", "ruled unseen"])
def test_conflicts_of_a_folder(folders, more, status, told):
    """What is open, and ruled keys at which nobody here has looked, which no longer are once somebody has."""
    folders.put("here/", facts(1, 2) | more)
    folders.put("there/", facts(1, 2))
    answer = folders.sync("--conflicts", "here/", "there/")
    assert (answer.status, answer.output.decode().endswith("; %s\n" % told)) == (status, True), answer
    if UNSEEN in told:
        assert folders.runs("cadf-conflicts", "--seen", "here/").status == 0
        answer = folders.sync("--conflicts", "here/", "there/")
        assert (answer.status, answer.output.endswith(b" received; 0 open conflicts\n")) == (0, True), answer


COSTLY = """#!/bin/sh
# Has no memory for such a command over files with the event e9.
case $1 in %s) for each; do
    case $each in /dev/fd/*) if grep -q '"e9"' $each; then echo "cadf: out of memory" >&2; exit 4; fi ;; esac
done ;; esac
exec %s "$@"
"""


def has_costly_calls(folders, command):
    (folders.path / "costly").write_text(COSTLY % (command, shlex.quote(folders.cadf)))
    (folders.path / "costly").chmod(0o755)
    folders.cadf = str(folders.path / "costly")


SHORT_OF_MEMORY = "left out 2024-03-10: %sout of memory: have more of it, or give more by --memory\n"
# Of a window that costs too much: the command that does, what both ends have of it at first and then, and who says so.
COSTS = {
    "to judge there": ("split", (9,), (), (9,), (), "there/: cadf-sync: " + SHORT_OF_MEMORY % ""),
    "to judge here": ("split", (), (9,), (), (9,), SHORT_OF_MEMORY % ""),
    "to take there": ("missing", (37,), (9, 65), (9, 37, 65), (9, 65), "there/: cadf-sync: " + SHORT_OF_MEMORY % ""),
    "to ask for": ("inventory", (9,), (37,), (9,), (37,), SHORT_OF_MEMORY % ""),
    "to answer": ("missing-by", (37,), (9,), (37,), (9,), SHORT_OF_MEMORY % "there/: ")}


@pytest.mark.parametrize("cost", COSTS)
def test_a_window_that_costs_too_much(folders, cost):
    """A stranger's window, for which a program at either end takes more than it may, is named and left out; no other is. The next call tries it again."""
    command, here, there, here_then, there_then, tells = COSTS[cost]
    right = folders.cadf
    folders.put("here/", facts(1, *here))
    folders.put("there/", facts(2, *there))
    has_costly_calls(folders, command)
    answer = folders.sync("--json", "here/", "there/")
    assert (answer.status, said(answer), json.loads(answer.output or "{}").get("windows_left_out")) == (5, "cadf-sync: " + tells, 1), answer
    assert folders.holds("here/") == facts(1, 2, *here_then) and folders.holds("there/") == facts(1, 2, *there_then)
    taken = [len(facts(1, 2, *then)) - len(facts(first, *had)) for first, had, then in ((1, here, here_then), (2, there, there_then))]
    assert [json.loads(answer.output)[name] for name in ("taken_here", "taken_there")] == taken, answer
    folders.cadf = right
    folders.equal("here/", "there/")
    assert folders.holds("here/") == folders.holds("there/") == facts(1, 2, *here, *there)


@pytest.mark.parametrize("here, there, words", [(18000, 18000, []), (18000, 18000, ["--pull"]), (18000, 0, []), (0, 18000, [])])
def test_a_window_of_more_facts_than_a_message_says(folders, here, there, words):
    """A stranger's window whose digests no message has, at one end or both, is named and left out if they are needed; no other is."""
    more = {"here/": range(9, 9 + 28 * here, 28), "there/": range(9 + 28 * 18000, 9 + 28 * 18000 + 28 * there, 28)}
    for name, own in (("here/", 1), ("there/", 2)):
        folders.put(name, many(own, 9 + 28 * (40000 + own), *more[name]))
    limit = ["--limit=%d" % 2 ** 20]  # of the end that is to hear the digests: of a pull the other one
    has_shell(folders, folders.tools, *(limit if words else []), "there/")
    answer = folders.sync("--json", *(words or limit), "--rsh=./shell", "here/", "h:there/")
    told, is_left = json.loads(answer.output or "{}"), bool(here and there)
    assert answer.status == (5 if is_left else 0) and told.get("windows_left_out") == int(is_left), answer
    assert not is_left or re.match("cadf-sync: left out 2024-03-10: .*is too large for a message of 1048576 bytes: raise --limit at both ends", said(answer))
    assert many(1, 2) <= folders.holds("here/") and (words or many(1, 2) <= folders.holds("there/"))


def test_pieces_of_a_window_that_costs_too_much(folders):
    """Those that came together and cost no more than they may are taken, and no others are counted."""
    here, there = (facts(*range(9 + 28 * first, 9 + 28 * end, 28)) for first, end in ((0, 20), (20, 60)))
    folders.put("here/", here)
    folders.put("there/", there)
    has_costly_calls(folders, "missing")
    has_shell(folders, folders.tools, "--facts=%d" % PIECE_BYTES, "there/")
    answer = folders.sync("--json", "--push", "--rsh=./shell", "here/", "h:there/")
    grown = folders.holds("there/") - there
    assert (answer.status, said(answer), json.loads(answer.output)["taken_there"]) == (5, "cadf-sync: h:there/: cadf-sync: " + SHORT_OF_MEMORY % "", len(grown)), answer
    assert facts() < grown | facts() < here and grown.isdisjoint(facts(9) - facts())


@pytest.mark.parametrize("cost, right, wrong", [
    ("to judge there", "if not self.is_folder() or not is_costly(fault):", "if True:"), ("to judge there", "            self.costly |= costly\n", ""),
    ("to judge here", "return items[:len(items) // 2], items[len(items) // 2:]", "return items[:len(items) // 2], ()"),
    ("to take there", "for half in self.halves(group, fault) for each", "for half in () for each"), (None, "self.counted = None  # of", "pass  # of"),
    ("to ask for", "if not is_costly(fault) and not self.", "if not self."), ("to answer", 'self.costly if fault.status == MEMORY else', 'self.left if True else')])
def test_exchanges_that_a_costly_window_ends_are_caught(tmp_path, cadf, cost, right, wrong):
    folders = Folders(tmp_path, cadf, copied(str(tmp_path / "tools"), *TRIED, right, wrong))
    with pytest.raises(AssertionError):
        test_a_window_that_costs_too_much(folders, cost) if cost else test_pieces_of_a_window_that_costs_too_much(folders)


@pytest.mark.parametrize("words, right, wrong", [
    ([], "return fitting(self.answer_item(store, each), self.link.limit)", "return self.answer_item(store, each)"),
    (["--pull"], "fitting(sketch(self.store, part, own, None if is_last else cells), self.far.link.limit)", "sketch(self.store, part, own, None if is_last else cells)")])
def test_exchanges_that_a_large_window_ends_are_caught(tmp_path, cadf, words, right, wrong):
    folders = Folders(tmp_path, cadf, copied(str(tmp_path / "tools"), *TRIED, right, wrong))
    with pytest.raises(AssertionError):
        test_a_window_of_more_facts_than_a_message_says(folders, 18000, 18000, words)


def test_metrics_of_more_windows_than_files_may_be_open(folders):
    """What an exchange can do is counted too: 28 windows and what is of no time, and 100 files."""
    for name in ("here/", "there/"):
        folders.put(name, facts(*range(28), 56))
    answer = folders.runs("cadf-sync", "--quiet", "--metrics=m.prom", "here/", "there/", preexec_fn=lambda: resource.setrlimit(resource.RLIMIT_NOFILE, (100, 100)))
    assert answer == (0, b"", b"")
    assert numbers(folders.path / "m.prom", '{tool="cadf-sync",site="here/",peer="there/"}')["largest_window_bytes"] == len(file_of("g", facts(0, 56) - facts()))


def test_metrics_of_a_spool(folders):
    """What a spool brings into a folder: one file is good, one is set aside."""
    (folders.path / "spool").mkdir()
    (folders.path / "spool" / "good.cadf").write_bytes(file_of("g", facts(1, 2) | failed(2)))
    (folders.path / "spool" / "bad.cadf").write_bytes(file_of("g", facts(3))[:-9])
    words = ["--by=day", "--log=g", "--unchanged=0", "--metrics=m.prom", "here/", "spool"]
    assert folders.runs("cadf-spool", *words).status == 1
    assert numbers(folders.path / "m.prom", '{tool="cadf-spool",site="here/"}') == {
        "facts_taken_total": 7, "facts_erased_total": 0, "open_conflicts": 1, "unseen_rulings": 0, "set_aside_oldest_timestamp_seconds": int((folders.path / "spool" / "set-aside" / "bad.cadf").stat().st_mtime), 'files{,became="taken"}': 1, 'files{,became="set aside"}': 1, 'files{,became="waiting"}': 0,
        "set_aside_files": 1, "set_aside_bytes": len(file_of("g", facts(3))[:-9]) + len((folders.path / "spool" / "set-aside" / "bad.cadf.reason").read_bytes()),
        "largest_window_bytes": len(file_of("g", facts(2) - facts() | failed(2)))}


@pytest.mark.parametrize("words, part", [
    (("--since=2024-03", "here/", "there/"), "name such a one"), (("here/", "months/"), "have both by one unit"),
    (("there/", "--", "few/"), None),
])
def test_refused_folders(folders, words, part):
    folders.put("here/", facts(1, 2))
    folders.put("few/", facts(8))
    folders.put("there/", facts(1, 2, 3))
    folders.put("m.cadf", facts(1))
    folders.takes("months/", "--by=month", ["m.cadf"])
    before = folders.files("few/")
    answer = folders.sync(*words)
    assert (answer.status, part in said(answer)) == (1, True) if part else answer.status == 0, answer
    assert (folders.files("few/") == before) is bool(part)


def test_a_first_push_has_no_copy_of_all(folders):
    """No file is made that is larger than what goes in a message, though all of the site goes."""
    folders.put("here/", facts(*range(1, 600)))
    (folders.path / "shell").write_text("#!/bin/sh\nexec %s --serve --limit=20000 there/\n" % (
        shlex.join([sys.executable, os.path.join(folders.tools, "cadf-sync")])))
    (folders.path / "shell").chmod(0o755)
    words = ["--quiet", "--push", "--rsh=./shell", "here/", "h:there/"]
    answer = folders.runs("cadf-sync", *words, preexec_fn=lambda: resource.setrlimit(resource.RLIMIT_FSIZE, (40000, 40000)))
    assert answer == (0, b"", b"") and folders.holds("there/") == facts(*range(1, 600))


def test_three_sites_in_a_ring(folders):
    """After two rounds all hold what one of them held."""
    names = ["a/", "b.cadf", "c/"]
    for number, name in enumerate(names):
        folders.put(name, facts(number, number + 1, 20 + number))
    for _ in range(2):
        for here, there in zip(names, names[1:] + names[:1]):
            folders.equal(here, there)
    union = facts(0, 1, 2, 3, 20, 21, 22)
    assert [folders.holds(name) for name in names] == [union] * 3
    assert folders.settle("a/") == folders.settle("c/") == settled(union)


def test_two_calls_at_once_in_both_directions_end(folders):
    for number in range(3):
        here, there = "here%d/" % number, "there%d/" % number
        folders.put(here, facts(*range(1, 20)))
        folders.put(there, facts(*range(10, 30)))
        done = side_by_side(lambda words: folders.sync(*words), [(here, there), (there, here)])
        assert [each.status for each in done] == [0, 0], done
        assert folders.holds(here) == folders.holds(there) == facts(*range(1, 30))


def test_takes_meanwhile_lose_nothing(folders):
    """Others take into both sites while they are made equal again and again."""
    names = ["here/", "there.cadf"]
    for number, name in enumerate(names):
        folders.put(name, facts(100 + number))
    keys = range(1, 25)
    for key in keys:
        folders.put("%d.cadf" % key, facts(key))
    taking = threading.Thread(target=lambda: [folders.takes(names[key % 2], ["%d.cadf" % key]) for key in keys])
    taking.start()
    while taking.is_alive():
        folders.equal(*names)
    taking.join()
    folders.equal(*names)
    assert folders.holds(names[0]) == folders.holds(names[1]) == facts(100, 101, *keys)


def test_a_connection_that_is_cut(folders):
    """At random bytes: both files are the old or the new ones. Made again, the call completes. Of folders tests/simulation has such links."""
    names, old, union = ("here.cadf", "there.cadf"), [facts(*range(1, 6)), facts(*range(4, 9))], facts(*range(1, 9))

    def begun(folder):
        own = Folders(folders.path / folder, folders.cadf, folders.tools)
        own.path.mkdir()
        for name, atoms in zip(names, old):
            own.put(name, atoms)
        return own

    whole = begun("whole")
    total = sum(whole.counted(names[0], "h:" + names[1])[:2])
    assert whole.holds(names[0]) == whole.holds(names[1]) == union

    def cut(number):
        chance, own = random.Random(number), begun(str(number))
        answer = own.sync("--timeout=20", own.far("cut", chance.randrange(1, total)), names[0], "h:" + names[1])
        found = [own.holds(name) for name in names]
        is_valid = answer.status == 3 and len(said(answer).splitlines()) < 3 and found[0] in (old[0], union) and found[1] in (old[1], union)
        if not is_valid or number % MADE_AGAIN:
            return is_valid or answer
        made_again = own.sync("--quiet", *names)
        return made_again == (0, b"", b"") and own.holds(names[0]) == own.holds(names[1]) == union or made_again

    assert side_by_side(cut, range(CUTS)) == [True] * CUTS


def year(number, length=365):
    """That many atoms, an event each, on the days of a year, or on so many days."""
    days = [str(datetime.date(2023, 1, 1) + datetime.timedelta(days=day)) for day in range(length)]
    return {("E", "e%d" % key, spelled(dict(EVENT, eventTime=days[key % length] + "T12:00:00Z"))) for key in range(number)}


def test_bytes_and_turns(folders):
    """Of two folders of 365 windows and 10^5 facts, counted at the pipe."""
    atoms = year(100000)
    day = sorted(atom for atom in atoms if '"eventTime":"2023-05-05T' in atom[2])
    folders.put("here/", atoms)
    subprocess.run(["cp", "-a", "here", "there"], cwd=folders.path, check=True)
    whole = folders.files("here/")
    for name, lacking in (("here/", day[:50]), ("there/", day[50:100])):
        [old] = [each for each in whole if each.startswith("2023-05-05.")]
        data = file_of("g", set(day) - set(lacking))
        (folders.path / name / ("2023-05-05.%s.cadf" % data[-65:-1].decode())).write_bytes(data)
        index = whole["site"].replace(old[11:-5].encode(), data[-65:-1])
        (folders.path / name / "site").write_bytes(index[:-67] + b"Z %s\n" % hashlib.sha256(index[:-67]).hexdigest().encode())
    answers = len(file_of("g", set(day[:50]))) + len(file_of("g", set(day[50:100])))
    sent, received, turns = folders.counted("here/", "h:there/")
    assert sent + received - answers <= MOST_DIFFERING and turns <= MOST_TURNS, (sent, received, turns)
    assert folders.settle("here/") == folders.settle("there/") == whole
    sent, received, turns = folders.counted("here/", "h:there/")
    assert sent + received <= MOST_EQUAL and turns == 1, (sent, received, turns)


def test_turns_of_many_windows(folders):
    """Of 1,000 windows that all differ, one by more than any sketch shows."""
    first, many = year(1000, 1000), {("E", "x%d" % key, spelled(dict(EVENT, eventTime="2023-05-05T12:00:00Z"))) for key in range(900)}
    here, there = first | set(sorted(many)[:500]), year(2000, 1000) - first | set(sorted(many)[300:])
    folders.put("here/", here)
    folders.put("there/", there)
    _, _, turns = folders.counted("here/", "h:there/")
    assert turns <= MOST_TURNS
    assert folders.holds("here/") == folders.holds("there/") == here | there


def test_small_messages(folders):
    """With a small limit an exchange takes more messages, and ends equal."""
    folders.put("here/", facts(*range(1, 60)))
    folders.put("there/", facts(*range(40, 90)))
    folders.equal("--limit=3000", "here/", "there/")
    assert folders.holds("here/") == folders.holds("there/") == facts(*range(1, 90))


ASKED = len("ask 12\nall next 0\n\n")  # bytes of a request for a further piece
PIECE_BYTES = 3000


def has_shell(sites, tools, *words):
    """Has `--rsh=./shell` reach the serving end of these tools, with these words."""
    (sites.path / "shell").write_text("#!/bin/sh\nexec %s\n" % shlex.join([sys.executable, os.path.join(tools, "cadf-sync"), "--serve", *words]))
    (sites.path / "shell").chmod(0o755)


def has_counted_calls(sites):
    """Has the words of each call of the command be counted, at both ends."""
    (sites.path / "counting").write_text("#!/bin/sh\necho $1 >>calls\nexec %s \"$@\"\n" % shlex.quote(sites.cadf))
    (sites.path / "counting").chmod(0o755)
    sites.cadf = "./counting"


@pytest.mark.parametrize("here", [(), (1, 2)])
def test_each_piece_costs_one_short_request(sites, here):
    """Facts that are longer than a message are looked for once, and what this end holds is told once."""
    old, union = facts(*here) if here else set(), facts(*range(1, 100))
    sites.put("there.cadf", union)
    if here:
        sites.put("here.cadf", old)
    has_counted_calls(sites)
    answer = sites.sync("--quiet", "--pull", "--limit=%d" % PIECE_BYTES, sites.far("count", "counts"), "here.cadf", "h:there.cadf")
    assert answer == (0, b"", b"") and (sites.path / "here.cadf").read_bytes() == file_of("g", union)
    sent, _, turns = map(int, (sites.path / "counts").read_text().split())
    pieces, calls = turns - 1, (sites.path / "calls").read_text().split()
    assert pieces >= len(file_of("g", union - old)) // PIECE_BYTES > 5
    assert sent < 300 + len(inventory_of("g", old)) + pieces * ASKED, (sent, pieces)
    assert calls.count("missing-by") == bool(here) and calls.count("inventory") <= 3, calls


@pytest.mark.parametrize("way", ["--pull", "--push"])
def test_an_event_of_many_pieces(sites, way):
    """Each piece begins with the event's body, and the chains above its first fact, and gets on all the same."""
    steps = [{"reporterId": "r%d" % number, "role": "relay"} for number in range(4)]
    event = dict(EVENT, id="e1", eventTime="2024-03-01T12:00:00Z", tags=["%07d" % number for number in range(900)],
                 reporterchains=[steps[:2], steps[:3], steps, *([steps[0], {"reporterId": "s%03d" % number, "role": "relay"}] for number in range(200))])
    union = document({"id": "g", "events": [event]})[1]
    names = ("new.cadf", "full.cadf") if way == "--pull" else ("full.cadf", "new.cadf")
    sites.put("full.cadf", union)
    has_shell(sites, sites.tools, "--limit=%d" % PIECE_BYTES, names[1])
    assert sites.sync("--quiet", way, "--limit=%d" % PIECE_BYTES, "--rsh=./shell", names[0], "h:" + names[1]) == (0, b"", b"")
    assert sites.holds("new.cadf") == union


def test_pieces_of_a_window_whose_inventory_is_longer_than_a_message(sites):
    """A site that has nothing of a window gets it, whatever both ends allow of a message."""
    union = facts(*range(1, 60))
    assert len(inventory_of("g", union)) > PIECE_BYTES
    sites.put("there.cadf", union)
    has_shell(sites, sites.tools, "--limit=%d" % PIECE_BYTES, "there.cadf")
    assert sites.sync("--quiet", "--pull", "--limit=%d" % PIECE_BYTES, "--rsh=./shell", "here.cadf", "h:there.cadf") == (0, b"", b"")
    assert (sites.path / "here.cadf").read_bytes() == file_of("g", union)


NOT_KEPT = {"serving": (", keeps=True", "", '("facts", "some"))', '("facts",))'), "calling": ("if after and self.keeps:", "if False:")}


@pytest.mark.parametrize("older", [None, *NOT_KEPT])
def test_messages_into_a_file_are_joined_together(folders, older):
    """A take of a file costs what it holds. With an older end it is made for each message, which brings the same."""
    union = facts(*range(1, 40))
    tools = dict.fromkeys(("calling", "serving"), folders.tools)
    if older:
        tools[older] = copied(str(folders.path / "older"), *NOT_KEPT[older], *TRIED)
    folders.put("here.cadf", union)
    folders.put("there.cadf", facts(1, 2))
    has_counted_calls(folders)
    has_shell(folders, tools["serving"], "--limit=%d" % PIECE_BYTES, "there.cadf")
    folders.tools = tools["calling"]
    answer = folders.sync("--json", "--push", "--rsh=./shell", "here.cadf", "h:there.cadf")
    assert (answer.status, answer.error, json.loads(answer.output)["taken_there"]) == (0, b"", len(union - facts(1, 2)))
    assert (folders.path / "there.cadf").read_bytes() == file_of("g", union)
    takes = (folders.path / "calls").read_text().split().count("join")
    assert takes > 2 if older else takes == 1


def pieces_of(data, most):
    """What cadf_windows makes of a replica file of these bytes: the items as files, with their kinds; what was left out; the most bytes at a time."""
    store, left_out, found, held = cadf_link.Store(), [], [], 0
    store.put("all", "facts", data)
    for each in cadf_windows.pieces(cadf_link.Store(), cadf_link.Item("all", "facts", store.file, 0, len(data)), most, left_out.append):
        found.append((each.kind, each.content()))
        held = max(held, os.fstat(each.file.fileno()).st_size)
    return found, left_out, held


@pytest.mark.parametrize("body, tags, most", [(500, 2000, 4000), (1500, 900, 4000), (3000, 900, 4000), (5000, 900, 4000), (10, 400, 1024)])
def test_pieces_cost_their_bytes(body, tags, most):
    """A small limit, and an event whose body each tag has above it: the pieces have all facts but those that are left out, and few bytes."""
    event = dict(EVENT, id="e1", eventTime="2024-03-01T12:00:00Z", x="y" * body, tags=["%07d" % number for number in range(tags)])
    atoms = document({"id": "g", "events": [event, dict(EVENT, id="e2", eventTime="2024-03-01T12:00:00Z")]})[1]
    data = file_of("g", atoms)
    found, left_out, _ = pieces_of(data, most)
    held = [read_file(each)[1] for _, each in found]
    assert [kind for kind, _ in found] == ["some"] * (len(found) - 1) + ["facts"] and max(len(each) for _, each in found) <= most
    assert sum(len(each) for _, each in found) <= 3 * len(data) + most
    assert len(set().union(*held)) == len(atoms) - len(left_out) and (not left_out) is (body < most // 2)
    assert any(atom[1] == "e2" for atom in set().union(*held))


@pytest.mark.parametrize("right, wrong", [("before > room // 2 or ", ""), ("                    leave_out(before + len(line))\n", "")])
def test_wrong_pieces_are_caught(monkeypatch, tmp_path, right, wrong):
    monkeypatch.setattr(sys.modules[__name__], "cadf_windows", loaded(os.path.join(copied(str(tmp_path), right, wrong), "..", "share", "cadf", "cadf_windows.py")))
    with pytest.raises(AssertionError):
        test_pieces_cost_their_bytes(3000, 900, 4000)


def test_pieces_are_made_as_they_are_sent(sites):
    """Pushed in many messages, no temporary file has more bytes than what one end may hold of them: three messages, and what differs."""
    sites.put("here.cadf", facts(*range(1, 2000)))
    sites.put("there.cadf", facts(1))
    data = os.path.getsize(sites.path / "here.cadf")
    found, left_out, held = pieces_of((sites.path / "here.cadf").read_bytes(), PIECE_BYTES)
    assert len(found) > 100 and not left_out and held < 2 * data  # the files of pieces that are gone, go
    begun = []
    made = cadf_windows.pieces(Counted(begun), *counted_item(sites.path / "here.cadf"), PIECE_BYTES, None)
    next(made)
    assert len(begun) == 1  # the others aren't written before they are asked for


class Counted(cadf_link.Store):
    """A store that notes each item that is begun."""

    def __init__(self, begun):
        super().__init__()
        self.begun = begun

    def begin(self):
        self.begun.append(self.end)
        return super().begin()


def counted_item(path):
    file = open(path, "rb")
    return [cadf_link.Item("all", "facts", file, 0, os.path.getsize(path))]


def test_a_fact_that_is_too_long_is_left_out(sites):
    """Pushed, and pulled: its window is named with what to do, all other facts are exchanged, and the status is 5."""
    long = document({"id": "g", "events": [dict(EVENT, id="long", eventTime="2024-03-01T12:00:00Z", x="y" * PIECE_BYTES)]})[1]
    for way, here, there in ("--push", "full.cadf", "new1.cadf"), ("--pull", "new2.cadf", "full.cadf"):
        sites.put("full.cadf", facts(*range(1, 60)) | long)
        has_shell(sites, sites.tools, "--limit=%d" % PIECE_BYTES, there)
        answer = sites.sync("--json", way, "--limit=%d" % PIECE_BYTES, "--rsh=./shell", here, "h:" + there)
        assert answer.status == 5 and json.loads(answer.output)["windows_left_out"] == 1, answer
        assert re.fullmatch(r"cadf-sync: all: (h:full.cadf: )?left out 1 facts, of \d+ bytes at most: the end that lacks them reads %d at once: raise --limit and --facts there\n"
                            % (PIECE_BYTES - 65), said(answer)), answer
        assert sites.holds("new1.cadf" if way == "--push" else "new2.cadf") == facts(*range(1, 60))


SPENT = {"memory": ("--memory=1", "out of memory: have more of it, or give more by --memory"), "time": ("--time=1", "it took more processor time than it may: give more by --time")}


@pytest.mark.parametrize("kind", SPENT)
def test_budget_of_an_exchange(sites, kind):
    """A program that takes more than it may is ended, at either end, and the line says how to give more. It changes no file."""
    word, part = SPENT[kind]
    for name in ("here.cadf", "there.cadf"):
        sites.put(name, facts(len(name)))
    (sites.path / "dear").write_text(DEAR % ("data = bytearray(2 ** 33)" if kind == "memory" else "while True: pass"))
    (sites.path / "dear").chmod(0o755)
    sites.cadf, sites.tools = str(sites.path / "dear"), TOOLS
    if kind == "memory":
        word = "--memory=%d" % 2 ** 31
    answer = sites.sync(word, "here.cadf", "there.cadf")
    assert (answer.status, said(answer).count("\n")) == (4 if kind == "memory" else 3, 1) and said(answer).endswith(part + "\n"), answer


DEAR = """#!/usr/bin/python3
import os, sys
try:
    %s
except MemoryError:
    sys.stderr.write("cadf: out of memory\\n")
    sys.exit(4)
"""


def test_no_program_of_an_exchange_changes_a_file(sites, tools=TOOLS):
    """Where the system has Landlock, what reads a peer's bytes makes, changes and removes nothing."""
    from cadf_budget import LIBC, MAKE_RULES
    if LIBC is None or LIBC.syscall(MAKE_RULES, None, 0, 1) < 1:
        pytest.skip("Landlock: this kernel has none")
    for name in ("here.cadf", "there.cadf"):
        sites.put(name, facts(len(name)))
    (sites.path / "odd").write_text("#!/bin/sh\n(echo x >made; echo x >>here.cadf; rm -f there.cadf) 2>/dev/null\nexec %s \"$@\"\n" % shlex.quote(REFERENCE))
    (sites.path / "odd").chmod(0o755)
    sites.cadf, sites.tools = str(sites.path / "odd"), tools
    answer = sites.sync("--push", "--quiet", "here.cadf", "none/there.cadf")  # the far end judges the facts, and can't take them
    assert answer.status == 3 and not (sites.path / "made").exists() and sites.holds("here.cadf") == facts(len("here.cadf")) and sites.holds("there.cadf"), answer


def test_programs_that_change_files_are_caught(sites):
    with pytest.raises(AssertionError):
        test_no_program_of_an_exchange_changes_a_file(sites, sites.tools)  # which are TRIED


def large(number):
    """That many atoms, an event of some 900 bytes each, on as many days."""
    return {(*atom[:2], atom[2].replace('"u1"', '"%s"' % ("u" * 700))) for atom in year(number, number)}


def test_few_questions_are_sent_in_vain(sites):
    """Of many windows an answer has a few, and the questions for the others aren't sent each time."""
    windows, limit = 120, 10000
    sites.put("there.cadf", large(windows))
    assert sites.sync("--quiet", "--pull", "--since=2023-01-01", "--limit=%d" % limit, sites.far("count", "counts"), "here.cadf", "h:there.cadf") == (0, b"", b"")
    assert sites.holds("here.cadf") == large(windows)
    sent, received, turns = map(int, (sites.path / "counts").read_text().split())
    assert turns > received // limit > 8
    assert sent < 300 + 3 * windows * len("2023-01-01 whole 0\n"), sent


FILES = 500  # that may be open at once: those of a call of cadf-take, and not of all that is exchanged


@pytest.mark.parametrize("words", [("--pull", "--limit=1500"), ("--push", "--since=2023-01-01")])
def test_more_messages_and_windows_than_files_may_be_open(sites, words):
    """What waits to be taken, and what waits to be sent, are in few files."""
    atoms = large(FILES + 100)
    sites.put("there.cadf" if words[0] == "--pull" else "here.cadf", atoms)
    answer = sites.runs("cadf-sync", "--quiet", *words, "here.cadf", "there.cadf", preexec_fn=lambda: resource.setrlimit(resource.RLIMIT_NOFILE, (FILES, FILES)))
    assert answer == (0, b"", b"") and sites.holds("here.cadf") == sites.holds("there.cadf") == atoms


@pytest.mark.parametrize("way", ["--pull", "--push"])
def test_what_is_held_is_counted_once(folders, way):
    """A folder reads what it held of a window for the first of its pieces, and not for each."""
    old, union = facts(1, 29), facts(*range(1, 1681, 28))
    for name, atoms in zip(("here/", "there/"), (old, union) if way == "--pull" else (union, old)):
        folders.put(name, atoms)
    has_counted_calls(folders)
    has_shell(folders, folders.tools, "--limit=%d" % PIECE_BYTES, "there/")
    assert folders.equal("--limit=%d" % PIECE_BYTES, "--rsh=./shell", way, "here/", "h:there/")["taken_here" if way == "--pull" else "taken_there"] == len(union - old)
    assert folders.holds("here/") == folders.holds("there/") == union
    calls = (folders.path / "calls").read_text().split()
    takes = calls.count("split")
    assert takes > 4 and calls.count("inventory") <= takes + 3, calls  # of each piece; of what is asked by; of what was held, at the first piece and the last


def test_pieces_before_a_cut_stay(folders):
    """A folder keeps the pieces that came, and the next call brings the others."""
    union = facts(*range(1, 1177, 28))
    folders.put("here/", facts())
    folders.put("there/", union)
    answer = folders.sync("--pull", "--limit=%d" % PIECE_BYTES, folders.far("cut", len(file_of("g", union)) * 2 // 3), "here/", "h:there/")
    found = folders.holds("here/")
    assert answer.status == 3 and facts() < found < union
    assert said(answer).endswith("; taken before that: at least %d facts here, 0 there\n" % len(found - facts()))
    assert folders.equal("--pull", "here/", "there/")["taken_here"] == len(union - found)
    assert folders.holds("here/") == union


@pytest.mark.parametrize("way", ["--pull", "--push"])
def test_signs_of_life(tmp_path, way, tools):
    """An end whose command takes longer than the other waits says that it works."""
    slow = tmp_path / "slow"
    slow.write_text("#!/bin/sh\n[ $1 = missing-by ] && sleep 8\nexec %s \"$@\"\n" % shlex.quote(REFERENCE))
    slow.chmod(0o755)
    own = Sites(tmp_path, str(slow), tools)
    own.put("here.cadf", facts(1))
    own.put("there.cadf", facts(2))
    assert own.sync("--quiet", "--timeout=6", way, "here.cadf", "there.cadf") == (0, b"", b"")


# ---- Tools that do wrong are caught

WRONG = [
    ("        if site is None or os.path.abspath(site) != os.path.abspath(self.site):\n", "        if False:\n",
     lambda sites: test_a_caller_that_lies(sites, "another site")),
    ("        if self.options.read_only:\n", "        if False:\n", lambda sites: test_a_site_that_is_read_alone(sites)),
    ("        if items is None or not all(is_part(each.part, self.end.unit) for each in items):\n", "        if items is None:\n",
     lambda sites: test_a_caller_that_lies(sites, "another unit's window")),
    ("                if log not in (None, self.log):\n", "                if False:\n",
     lambda sites: test_a_caller_that_lies(sites, "facts of another log")),
    ("            if length > self.limits.limit:\n", "            if False:\n", lambda sites: test_a_far_side_that_lies(sites, "a length of 2^31")),
    ("        for _ in range(MOST_WAITS + 1):\n", "        for _ in range(MOST_WAITS + 10):\n", lambda sites: test_a_far_side_that_lies(sites, "waits")),
    (" or len(found) == MOST_LISTED \\\n                        or before is not None and cadf_site.order(listed[1]) <= before:\n", ":\n",
     lambda sites: test_a_far_side_that_lies(sites, "twice")),
    ("not is_part(listed[1], unit)", "False", lambda sites: test_a_far_side_that_lies(sites, "a window without a unit")),
    ("answer.part != asked.part or answer.kind not in ANSWERS[asked.kind] or is_early", "False",
     lambda sites: test_a_far_side_that_lies(sites, "another part")),
    ("said if said.startswith(peer + \": \") else ", "", test_a_refusal_of_the_far_end_is_one_line),
    ("printable(text[2:LONGEST_TEXT])", "text[2:LONGEST_TEXT]",
     lambda sites: test_a_far_side_that_lies(sites, "a fault of two lines")),
    ("shlex.join([\"cadf-sync\", *serve, site])", "\" \".join([\"cadf-sync\", *serve, site])", test_names_are_quoted_for_the_far_shell),
    ("            while not done.wait(self.beat):\n", "            while not done.wait(1000):\n",
     lambda sites: test_signs_of_life(sites.path, "--pull", sites.tools)),
    ("        with self.beside(lambda: self.send_message(word, content, items)) as (thread, faults):\n",
     "        self.send_message(word, content, items)\n        with self.beside(lambda: None) as (thread, faults):\n",
     test_a_fault_is_heard_while_much_is_written),
    ("part == SHARED or since is None or part >= since", "True", test_since_leaves_older_windows),
    (" and not (is_over.is_set() and line == b\"cadf-sync: stopped by SIGTERM\\n\")", "",
     lambda sites: test_refused_sites(sites, None, None, (), "neither site is there")),
    ("self.pushed.append(found)", "self.pulled.append(found)", lambda sites: test_two_files(sites, (), (1, 2, 3, 4), (1, 2, 3, 4))),
    ("        if found is None or found.part != part:\n", "        if found is None:\n",
     lambda sites: test_more_of_what_is_not_handed_out(sites, (), b"shared")),
    ("            return self.handed_out(each.part)\n        self.rest = iter(())\n", "            return self.handed_out(each.part)\n",
     lambda sites: test_more_of_what_is_not_handed_out(sites, ((b"2024-03-02", b"tell", b"3"),), b"2024-03-02")),
    (" and fact[:len(found)] != found:", ":", lambda sites: test_an_event_of_many_pieces(sites, "--pull")),
    (" or before and fact <= before[0]:", ":", lambda sites: test_a_far_side_that_lies(sites, "a piece again and again")),
    ("            if before and before[1] + answer.length < least:\n", "            if False:\n", lambda sites: test_a_far_side_that_lies(sites, "pieces without an end")),
    (" or not self.hands_out)", ")", lambda sites: test_a_far_side_that_lies(sites, "more to come, and no way to ask for it")),
]


WRONG_OF_FOLDERS = [
    ("piece.item(item.part, \"some\")", "piece.item(item.part, \"facts\")", lambda folders: test_a_window_larger_than_a_file_may_be(folders, "--pull", ())),
    ("piece, done = Piece(store, head), 0", "piece, done = Piece(store, head), max(done, 1)", lambda folders: test_a_window_larger_than_a_file_may_be(folders, "--push", ())),
    ("len(digests & ruled[key]) != 1", "1", test_metrics_of_folders),
    ("windows = nearest((part for part in parts if part != cadf_site.SHARED), now())", "windows = [part for part in parts if part != cadf_site.SHARED]",
     lambda folders: test_two_files_stop_no_exchange(folders, ("south/", "north/"))),
    ("            if self.unit is not None:\n                cadf_site.check_labels(", "            if False:\n                cadf_site.check_labels(", test_facts_of_another_window_than_they_say),
    ("parts_in(unit, log, those)).keys() - {label}", "{}).keys() - own.keys()", test_two_windows_that_are_swapped),
    ("label in found and found[label] == last_digest(those[0].file):", "label in found:", test_two_windows_that_are_swapped),
    ("label in found and found[label] == last_digest(those[0].file):", "found.get(label) == last_digest(those[0].file):", test_two_windows_that_are_swapped),
    ("self.welcome_in(self.within_limit(self.kept_in(items, peer), peer), peer)", "self.welcome_in(items, peer)", test_a_caller_that_sends_more_windows_than_it_may),
]


@pytest.mark.parametrize("number", range(len(WRONG)))
def test_wrong_tools_are_caught(tmp_path, number):
    *texts, check = WRONG[number]
    (tmp_path / "sites").mkdir()
    is_caught(tmp_path, [*texts, *TRIED], check, lambda tools: Sites(tmp_path / "sites", tools=tools, wait=3))


@pytest.mark.parametrize("number", range(len(WRONG_OF_FOLDERS)))
def test_wrong_tools_over_folders_are_caught(tmp_path, cadf, number):
    *texts, check = WRONG_OF_FOLDERS[number]
    (tmp_path / "sites").mkdir()
    is_caught(tmp_path, [*texts, *TRIED], check, lambda tools: Folders(tmp_path / "sites", tools=tools, wait=3, cadf=cadf))


# ---- By a real sshd, on loopback

SSHD_SETTINGS = """
Port {port}
ListenAddress 127.0.0.1
HostKey "{folder}/host"
PidFile none
AuthorizedKeysFile "{folder}/keys"
StrictModes no
UsePAM no
PasswordAuthentication no
PermitRootLogin prohibit-password
AllowTcpForwarding yes
SetEnv PATH="{tools}:{path}" CADF="{cadf}"
Subsystem sftp internal-sftp
"""
PRIVILEGES = "/run/sshd"  # a folder without which an sshd of root doesn't start


def free_port():
    with socket.socket() as one:
        one.bind(("127.0.0.1", 0))
        return one.getsockname()[1]


class Ssh(Sites):
    """Sites that are reached by an sshd, with a key that may do all, and one that may serve `there.cadf`."""

    def __init__(self, path):
        super().__init__(path)
        self.port = free_port()
        for name in ("host", "all", "one"):
            subprocess.run(["ssh-keygen", "-q", "-t", "ed25519", "-N", "", "-f", path / name], check=True)
        forced = 'restrict,command="cadf-sync --serve %s" ' % shlex.quote(str(path / "there.cadf"))
        (path / "keys").write_bytes(forced.encode() + (path / "one.pub").read_bytes() + (path / "all.pub").read_bytes())
        (path / "settings").write_text(SSHD_SETTINGS.format(port=self.port, folder=path, tools=TOOLS, path=os.environ["PATH"], cadf=REFERENCE))

    def ssh(self, key):
        """The words that reach the sshd by a key."""
        return ["ssh", "-F", "none", "-p", str(self.port), "-i", str(self.path / key), "-o", "IdentitiesOnly=yes", "-o", "BatchMode=yes",
                "-o", 'UserKnownHostsFile="%s"' % (self.path / "known")]

    def sync_by(self, key, *words):
        return self.sync("--rsh=" + shlex.join(self.ssh(key)), *words)

    def asks(self, *words, data=b""):
        """What a client gets that asks for something else with the key that is restricted."""
        return ended(self.ssh("one")[0], [*self.ssh("one")[1:], *words], input=data)


@pytest.fixture
def ssh(tmp_path):
    if not os.geteuid():
        os.makedirs(PRIVILEGES, 0o755, exist_ok=True)  # it stays: the sshd of another run resets each connection without it
    found = Ssh(tmp_path)
    with subprocess.Popen([shutil.which("sshd", path="/usr/sbin:" + os.environ["PATH"]), "-D", "-q", "-f", tmp_path / "settings"]) as child:
        try:
            for _ in range(100):
                with socket.socket() as one:
                    if one.connect_ex(("127.0.0.1", found.port)) == 0:
                        break
                time.sleep(0.1)
            with open(tmp_path / "known", "wb") as known:
                subprocess.run(["ssh-keyscan", "-p", str(found.port), "127.0.0.1"], stdout=known, stderr=subprocess.DEVNULL, check=True)
            yield found
        finally:
            child.terminate()


@pytest.mark.needs("ssh", "ssh-keygen", "/usr/sbin/sshd")
def test_ssh(ssh):
    """An open key exchanges; a restricted one exchanges with its site alone, and nothing else is done for it."""
    ssh.put("here.cadf", facts(1))
    ssh.put("there.cadf", facts(2))
    ssh.put("other.cadf", facts(3))
    there, other = "127.0.0.1:%s" % (ssh.path / "there.cadf"), "127.0.0.1:%s" % (ssh.path / "other.cadf")
    for key, keys in (("all", (1, 2)), ("one", (1, 2, 4))):
        ssh.put("here.cadf", facts(1, keys[-1]))
        answer = ssh.sync_by(key, "here.cadf", there)
        assert (answer.status, answer.error) == (0, b""), answer
        assert ssh.holds("here.cadf") == ssh.holds("there.cadf") == facts(*keys)
    before = sorted((each.name, each.read_bytes()) for each in ssh.path.iterdir())
    answer = ssh.sync_by("one", "here.cadf", other)
    assert answer.status == 1 and "another site than the one that is served here" in said(answer), answer
    wrong = shlex.quote(str(ssh.path / "wrong"))
    assert ssh.asks("-tt", "127.0.0.1", "touch", wrong, data=b"touch %s\nexit\n" % wrong.encode()).status not in (0, None)
    for words in (["127.0.0.1"], ["127.0.0.1", "touch", wrong], ["-s", "127.0.0.1", "sftp"],
                  ["127.0.0.1", "cadf-sync", "--serve", shlex.quote(str(ssh.path / "other.cadf"))]):
        answer = ssh.asks(*words, data=b"touch %s\nexit\n" % wrong.encode())
        assert answer.status not in (0, None) and b"no first line of cadf-sync" in answer.output, (words, answer)
    answer = ssh.asks("-W", "127.0.0.1:%d" % ssh.port, "127.0.0.1")
    assert answer.status not in (0, None) and b"prohibited" in answer.error and b"SSH-2.0" not in answer.output, answer
    answer = ssh.asks("-o", "ExitOnForwardFailure=yes", "-N", "-R", "127.0.0.1:%d:127.0.0.1:%d" % (free_port(), ssh.port), "127.0.0.1")
    assert answer.status not in (0, None) and b"remote port forwarding failed" in answer.error, answer
    assert sorted((each.name, each.read_bytes()) for each in ssh.path.iterdir()) == before


@pytest.mark.needs("ssh", "ssh-keygen", "/usr/sbin/sshd")
def test_ssh_that_compresses(ssh):
    """Few bytes go over the line; the numbers that are printed and the limits are of what was unpacked."""
    event = {"id": "large", "eventType": "activity", "eventTime": "2024-03-01T00:00:00Z", "action": "read", "outcome": "success", "initiatorId": "i",
             "targetId": "t", "observerId": "o", "more": "x" * 2 ** 22}
    ssh.put("there.cadf", document({"id": "g", "events": [event]})[1])
    ssh.put("here.cadf", facts(1))
    words = ["--rsh=" + shlex.join([*ssh.ssh("all"), "-C", "-v"]), "here.cadf", "127.0.0.1:%s" % (ssh.path / "there.cadf")]
    answer = ssh.sync("--most=%d" % 2 ** 21, *words)
    assert answer.status == 1 and ssh.holds("here.cadf") == facts(1), answer
    answer = ssh.sync(*words)
    over, unpacked = re.search(rb"Transferred: sent \d+, received (\d+) bytes", answer.error), re.search(rb"([0-9,]+) received", answer.output)
    assert answer.status == 0 and int(over[1]) < 2 ** 17 and int(unpacked[1].replace(b",", b"")) > 2 ** 22, answer
