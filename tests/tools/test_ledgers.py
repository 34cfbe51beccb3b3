"""What a sender may cost a spool in a day: bytes, files, windows and processor time. What is beyond stays with its sender, and is named.

A test has the tool take the files of whoever runs it for those of another user: it is told another number for its own.
"""
import collections
import contextlib
import datetime
import functools
import hashlib
import io
import itertools
import json
import os
import sys
import time
import types

import pytest

from tests import TOP
from tests.machine import ended
from tests.reference.replica_files import file_of, read_file
from tests.tools import others
from tests.tools.copies import is_caught
from tests.tools.programs import tool
from tests.tools.test_rest import atoms_of, days, event
from tests.tools.test_spool import Spools, content, held, put, shared

sys.path.insert(0, os.path.join(TOP, "share", "cadf"))
import cadf_ledgers
import cadf_rest
import cadf_spool

__all__ = ["shared"]
NONE = dict.fromkeys(cadf_ledgers.KINDS, 10 ** 12)  # limits that nobody reaches
USER = os.getuid()
BUS = 2 ** 32


class Place(Spools):
    """A folder `site` of days, and a spool in which the files are another user's."""

    def __init__(self, cadf, folder, tools=None):
        super().__init__(cadf, folder, tools)
        self.place = self.site()
        self.spool = os.path.join(self.place, "spool")

    def send(self, name, *events):
        put(os.path.join(self.spool, name), json.dumps({"id": "g", "events": events}).encode())

    def lines(self, name, data):
        put(os.path.join(self.spool, name), data)

    def run_once(self, budget=(), **limits):
        """The names of what still is in the spool after a run, and what that said."""
        program, said = self.program(), []
        program.say = said.append
        run = program.Run(program.Spool(self.spool), os.path.join(self.place, "site"), "g", program.Budget(0, 2 ** 30, 60, 2 ** 32)._replace(**dict(budget)), "day",
                          ["--windows=400"], {**NONE, **limits})
        right = os.geteuid
        os.geteuid = lambda: right() + 1
        try:
            run.run()
        finally:
            os.geteuid = right
            os.close(run.spool.lock)
        return sorted(name for name in os.listdir(self.spool) if "." in name[1:] and name[0] != "."), said

    def holds(self):
        folder = os.path.join(self.place, "site")
        names = [name for name in os.listdir(folder) if name.endswith(".cadf")]
        return set().union(*(read_file(content(os.path.join(folder, name)))[1] for name in names))

    def a_day_later(self):
        """Has a day be over since the ledgers were written."""
        path = os.path.join(self.spool, "set-aside", cadf_ledgers.FILE)
        lines = [line.split() for line in content(path).decode().splitlines()]
        put(path, "".join("%s %.3f %s\n" % (line[0], float(line[1]) - 86400, " ".join(line[2:])) for line in lines).encode())


@pytest.fixture
def place(cadf, tmp_path):
    return Place(cadf, tmp_path)


def stay(count, why):
    return "user %d: %d files stay where they are: %s" % (USER, count, why)


def users(text, monkeypatch):
    """Has the system have these subordinate numbers of users."""
    right = open
    monkeypatch.setattr("builtins.open", lambda name, *words, **options: io.StringIO(text) if name == "/etc/subuid" else right(name, *words, **options))


@contextlib.contextmanager
def without_blocks():
    """Has the system tell of no blocks of files in an open folder, as file systems do that allot them later, or elsewhere."""
    def told(path, **options):
        found = right(path, **options)
        names = [name for name in dir(found) if name.startswith("st_")] if "dir_fd" in options else []
        return types.SimpleNamespace(**{name: getattr(found, name) * (name != "st_blocks") for name in names}) if names else found

    right = os.stat
    os.stat = told
    try:
        yield
    finally:
        os.stat = right


# ---- The ledgers

def test_levels(tmp_path):
    """A level falls by the limit in a day; a clock that was set forward counts as a day, and one that was set back as nothing."""
    folder, limits = os.open(tmp_path, os.O_RDONLY), dict(NONE, bytes=100, files=10)
    ledgers = cadf_ledgers.Ledgers(folder, limits)
    assert ledgers.reached(7, {}) is None and ledgers.reached(7, {"bytes": 100}) == "bytes"
    ledgers.charge(7, "bytes", 250)
    ledgers.charge(7, "windows", 3)
    ledgers.charge(8, "files", 9.5)
    ledgers.write()
    assert (tmp_path / ".ledgers").stat().st_mode & 0o777 == 0o600
    for seconds, level, why in (0, 250, "bytes"), (43200, 200, "bytes"), (86400, 150, "bytes"), (10 ** 9, 150, "bytes"), (-10 ** 9, 250, "bytes"):
        right = time.time
        cadf_ledgers.time.time = lambda: right() + seconds
        try:
            found = cadf_ledgers.Ledgers(folder, limits)
        finally:
            cadf_ledgers.time.time = right
        assert abs(found.level(7, "bytes") - level) < 1 and found.reached(7, {}) == why and found.reached(8, {"files": 1}) == ("files" if seconds <= 0 else None)
    assert cadf_ledgers.Ledgers(folder, dict(limits, windows=5)).left(7, "windows") == 2 and ledgers.left(9, "windows") == cadf_ledgers.ALL
    (tmp_path / ".ledgers").write_text("7 x\n8 " + "9" * 400 + "\n")
    assert cadf_ledgers.Ledgers(folder, limits).levels == {}
    os.close(folder)


def test_more_senders_than_ledgers(tmp_path):
    """Numbers of users cost no room without end: who comes later shares a ledger."""
    folder = os.open(tmp_path, os.O_RDONLY)
    ledgers = cadf_ledgers.Ledgers(folder, dict(NONE, bytes=10))
    for user in range(cadf_ledgers.MOST + 100):
        ledgers.charge(user, "bytes", 9.5)
    ledgers.write()
    assert len(ledgers.levels) <= cadf_ledgers.MOST + 1 and ledgers.reached(0, {}) is None and ledgers.reached(10 ** 6, {}) == "bytes"
    assert len(cadf_ledgers.Ledgers(folder, dict(NONE, bytes=10)).levels) == len(ledgers.levels)
    os.close(folder)


def test_a_user_with_many_numbers_is_one_sender(monkeypatch):
    """Whoever has numbers for containers could else send as each of them."""
    users("root:100000:10\n%d:100010:65536\nnobody-of-that-name:300000:10\nodd\n" % USER, monkeypatch)
    assert [cadf_spool.sender_of.__wrapped__(owner) for owner in (99999, 100000, 100009, 100010, 165545, 165546, 300001)] == [99999, 0, 0, USER, USER, 165546, 300001]


# ---- A spool

def test_bytes_of_a_day(place):
    """What is written of a sender's files counts, and not what they are: of a sparse file of zeros what is set aside. The others come a day later."""
    place.lines("0.jsonl", bytes(2 ** 20) + b"\n")
    for number in range(1, 4):
        place.send("%d.json" % number, event("e%d" % number, "2024-03-01T12:00:00Z"))
    left, said = place.run_once(bytes=2 ** 20)
    assert left == ["1.json", "2.json", "3.json"] and stay(3, "more than --sender-bytes a day") in said
    assert place.run_once(bytes=2 ** 20)[0] == left
    place.a_day_later()
    assert place.run_once(bytes=2 ** 20)[0] == [] and place.holds() == atoms_of(*(event("e%d" % number, "2024-03-01T12:00:00Z") for number in range(1, 4)))


def test_bytes_of_a_day_of_any_file_system(place):
    with without_blocks():
        test_bytes_of_a_day(place)


def test_a_sparse_file_costs_what_is_written_of_it(place):
    """Holes stay holes in the copy, which counts as the blocks that are none: the next run takes what waits."""
    path = os.path.join(place.spool, "0.json")
    put(path, b"{")
    os.truncate(path, 2 ** 24)
    place.send("1.json", event("e", "2024-03-01T12:00:00Z"))
    with without_blocks():
        assert place.run_once(bytes=2 ** 20)[0] == ["1.json"]  # as long as nobody has looked, the other may be what its size says
        assert place.run_once(bytes=2 ** 20)[0] == [] and place.holds() == atoms_of(event("e", "2024-03-01T12:00:00Z"))
    assert "0.json" in os.listdir(os.path.join(place.spool, "set-aside"))


def test_a_file_of_more_than_a_day(place):
    """It is taken all the same, if nothing was before it: else it would never be. Others wait until that is paid back."""
    place.send("a.json", *(event("e%d" % number, "2024-03-01T12:00:00Z") for number in range(200)))
    place.send("b.json", event("b", "2024-03-01T12:00:00Z"))
    assert place.run_once(bytes=10 ** 4)[0] == ["b.json"] and len(place.holds()) == 200
    place.a_day_later()
    assert place.run_once(bytes=10 ** 4)[0] == ["b.json"]
    for _ in range(20):
        place.a_day_later()
        place.run_once(bytes=10 ** 4)
    assert atoms_of(event("b", "2024-03-01T12:00:00Z")) <= place.holds()


def test_files_of_a_day(place):
    """An empty file costs its name, and that of what is made of it."""
    for number in range(60):
        place.lines("%02d.log" % number, b"")
    left, said = place.run_once(files=10)
    made = [len(held(os.path.join(place.spool, part))) for part in ("taken", "taking")]
    assert len(left) == 50 and sum(made) == 10 and made[0] == 5 and stay(50, "more than --sender-files a day") in said


def test_windows_of_a_day(place):
    """Of two runs and of two files together a sender begins as many windows as one may in a day; the other events wait, and come a day later."""
    for number in (1, 2):
        place.send("%d.json" % number, *days("2024-0%d-01" % number, 3, "a%d" % number))
        assert place.run_once(windows=4)[0] == []
        assert len(place.holds()) == min(4, 3 * number)
    wait = read_file(content(os.path.join(place.spool, "set-aside", "waits-%d.cadf" % USER)))[1]
    assert len(wait) == 2 and wait | place.holds() == atoms_of(*days("2024-01-01", 3, "a1"), *days("2024-02-01", 3, "a2"))
    place.a_day_later()
    place.send("3.json", *days("2024-05-01", 3))
    assert place.run_once(windows=4)[0] == [] and len(place.holds()) == 7


def test_old_windows_of_a_day(place):
    """An event for each old window has as many bytes of them read again as a sender may cause in a day, the nearest to now; the others wait, once each."""
    place.send("0.json", *days("2024-03-01", 6))
    place.run_once()
    size = max(len(own) for name, own in held(os.path.join(place.place, "site")).items() if name.startswith("2024-"))
    more = days("2024-03-01", 6, "y")
    for number, sent in (1, more), (2, more[:4]):
        place.send("%d.json" % number, *sent)
        assert place.run_once(rereads=2 * size)[0] == [] and place.holds() == atoms_of(*days("2024-03-01", 6), *more[4:])
        wait = os.path.join(place.spool, "set-aside", "waits-%d.cadf" % USER)
        assert read_file(content(wait))[1] == atoms_of(*more[:4]) and b"4 far windows that would be read again" in content(wait + ".reason")
    place.a_day_later()
    place.send("3.json", *days("2024-03-01", 6, "z"))
    assert place.run_once(rereads=2 * size)[0] == [] and len(place.holds()) == 6 + 2 + 1  # a window was large by then


def test_processor_time_of_a_day(place):
    for name in "ab":
        place.lines(name + ".jsonl", b"x\n" * 2000)
    place.run_once(seconds=10 ** 6)
    spent = float(content(os.path.join(place.spool, "set-aside", cadf_ledgers.FILE)).split()[5])
    assert spent > 0.01  # two starts of Python at least
    place.lines("c.jsonl", b"x\n")
    left, said = place.run_once(seconds=spent / 2)
    assert left == ["c.jsonl"] and stay(1, "more than --sender-seconds a day") in said


def test_many_files_of_one_name(place):
    """A further one doesn't have all of them looked for: the days' files are in taken/, and each run would pay for it."""
    place.run_once()
    program = place.program()
    for name in ["a.json"] + ["a-%d.json" % number for number in range(2, 3000)]:
        put(os.path.join(place.spool, "taken", name), b"")
    spool, looked = program.Spool(place.spool), []
    right, spool.is_used = spool.is_used, lambda name: looked.append(name) or right(name)
    names = set()
    for _ in range(3):
        names.add(spool.unused("a.json"))
        put(os.path.join(place.spool, "taken", max(names)), b"")
    os.close(spool.lock)
    assert len(names) == 3 and len(looked) < 300 and not names & {"a-%d.json" % number for number in range(3000)}


def test_hard_links(place):
    """A file under several names stays until it has one: each name would be a copy."""
    place.send("a.json", event("a", "2024-03-01T12:00:00Z"))
    place.send("one.json", event("one", "2024-03-01T12:00:00Z"))
    for number in range(10):
        os.link(os.path.join(place.spool, "a.json"), os.path.join(place.spool, "%d.json" % number))
    left, said = place.run_once()
    assert len(left) == 11 and place.holds() == atoms_of(event("one", "2024-03-01T12:00:00Z")) and stay(11, "each has more than one name (hard links)") in said
    for number in range(10):
        os.unlink(os.path.join(place.spool, "%d.json" % number))
    assert place.run_once()[0] == [] and len(place.holds()) == 2


def test_a_cap_keeps_files_with_their_sender(place):
    """Who has more in set-aside/ than may be there sends nothing more until that was looked at."""
    place.lines("a.jsonl", b"".join(b"x%d\n" % number for number in range(10 ** 4)))  # some 60,000 bytes, and no fewer are set aside
    place.run_once()
    place.send("b.json", event("b", "2024-03-01T12:00:00Z"))
    left, said = place.run_once({"waiting": 3 * 10 ** 4})
    assert left == ["b.json"] and any("and more than an equal share is theirs" in line for line in said)
    assert place.run_once({"waiting": 10 ** 6})[0] == []


def test_no_file_without_bytes_makes_others_wait(place):
    """What is large on no disk fills no cap: a sparse file that is set aside counts as what it takes."""
    with open(os.path.join(place.spool, "a.json"), "wb") as file:
        file.truncate(2 ** 40)
    place.run_once()
    place.send("b.json", event("b", "2024-03-01T12:00:00Z"))
    assert "a.json" in os.listdir(os.path.join(place.spool, "set-aside")) and place.run_once({"waiting": 10 ** 5})[0] == []


def test_files_that_nobody_closes(place):
    """Of files that wait without end no more are claimed than may be made in a day, and few are named."""
    with contextlib.ExitStack() as writers:
        for number in range(300):
            writers.enter_context(open(os.path.join(place.spool, "%03d.jsonl" % number), "wb"))
        for _ in range(2):
            left, said = place.run_once(files=200)
            assert len(left) == 100 and 50 < len(said) < 110 and stay(100, "more than --sender-files a day") in said


def test_a_line_that_is_long(place):
    """A line of more than --longest is named, and its file is kept."""
    place.lines("a.jsonl", json.dumps(event("a", "2024-03-01T12:00:00Z")).encode() + b"\n" + b"[" * 5000 + b"\n")
    place.run_once({"longest": 4096})
    entry = json.loads(content(os.path.join(place.spool, "set-aside", "a.jsonl")))
    assert entry["faults"] == ["longer than 4096 bytes: see --longest"] and len(content(os.path.join(place.spool, "taken", "a.jsonl"))) > 5000
    assert place.holds() == atoms_of(event("a", "2024-03-01T12:00:00Z"))


def test_the_sender_of_a_copy_is_known(place):
    """A run that ends after a copy is in its sender's place, which is the caller's file, knows at the next run whose it was."""
    program = place.program()
    place.send("a.json", event("a", "2024-03-01T12:00:00Z"))
    spool = program.Spool(place.spool)
    spool.claim("a.json")
    spool.users["a.json"] = 12345
    spool.put_senders(spool.users, spool.taking)
    os.close(spool.lock)
    again = program.Spool(place.spool)
    assert again.user("a.json") == 12345 and again.claimed() == ["a.json"]


def test_what_has_rulings_is_taken_alone(place):
    """With --rulings-by each signature costs a program, so a stranger's file of few bytes is no part of a group, of which each sender pays by its bytes."""
    ruling = ("U", "E", "b", "0" * 64)
    for name in ("a.json", "c.json", "d.json"):
        place.send(name, event(name, "2024-03-01T12:00:00Z"))
    put(os.path.join(place.spool, "b.cadf"), file_of("g", {ruling}))
    put(os.path.join(place.folder, "allowed"), b"")
    groups = []
    for rulings in (["--no-rulings"], ["--rulings-by=" + os.path.join(place.folder, "allowed")]):
        program = place.program()
        run = program.Run(program.Spool(place.spool), os.path.join(place.place, "site"), "g", program.Budget(0, 2 ** 30, 60, 2 ** 32), "day", ["--windows=400"], NONE, rulings)
        right, run.take = run.take, lambda files: groups.append(list(files)) or right(files)
        assert run.run() == 0
        os.close(run.spool.lock)
        for name in os.listdir(os.path.join(place.spool, "taken")):
            os.rename(os.path.join(place.spool, "taken", name), os.path.join(place.spool, name))
    assert groups == [["a.json", "b.cadf", "c.json", "d.json"], ["a.json"], ["b.cadf"], ["c.json", "d.json"]]


def test_what_arrives_in_a_long_run_has_its_turn(place):
    """It is claimed each minute, here before each file, and isn't last: who has sent much keeps it out for a minute, and not for a day's seconds."""
    for number in range(5):
        place.send("b%d.json" % number, event("b%d" % number, "2024-03-01T12:00:00Z"))
    program = place.program()
    program.MOST_SECONDS = -1
    run, names = program.Run(program.Spool(place.spool), os.path.join(place.place, "site"), "g", program.Budget(0, 2 ** 30, 60, 2 ** 32), "day", ["--windows=400"], NONE), []
    right = run.prepared

    def prepared(number, name):
        if not names:
            place.send("a.json", event("a", "2024-03-01T12:00:00Z"))
        names.append(name)
        return right(number, name)

    run.prepared = prepared
    assert run.run() == 0
    os.close(run.spool.lock)
    assert names[:2] == ["b0.json", "a.json"] and len(names) == 6 and len(place.holds()) == 6


@pytest.mark.parametrize("is_failing, wanted", [
    (lambda names: "b" in names, {"a": 1, "b": 1 + 2, "c": 0.25, "d": 0.75}),  # the group and a half failed for b, which then failed alone
    (lambda names: {"a", "c"} <= names, {"a": 0.5 + 1 / 6, "b": 0.5 + 1 / 6, "c": 0.25 + 1 / 6, "d": 0.75 + 3 / 6})])
def test_a_group_that_fails_costs_who_is_at_fault(place, is_failing, wanted):
    """Its seconds are those of the file at fault, or if none fails alone, of all by their bytes."""
    place.run_once()
    program = place.program()
    run = program.Run(program.Spool(place.spool), os.path.join(place.place, "site"), "g", program.Budget(0, 2 ** 30, 60, 2 ** 32), "day", [], NONE)
    sizes, charged, begun = {"a": 1, "b": 1, "c": 1, "d": 3}, collections.Counter(), itertools.count(0, 0.5)
    program.seconds_spent = lambda: next(begun) * 2
    run.sender, run.sizes = lambda name, made: name, lambda name, made: collections.Counter({name: sizes[name]})
    run.taken = lambda site, names, counts=None: program.Ended(4 if is_failing(set(names)) else 0, b"", "", False)
    run.charge = lambda user, kind, seconds: charged.update({user: seconds})
    run.spool.move, run.leave, run.facts, run.fault_alone = lambda *words: None, lambda *words: None, collections.Counter(), lambda done: program.Waits("no")
    run.take({name: [name] for name in "abcd"})
    os.close(run.spool.lock)
    assert {name: round(seconds, 6) for name, seconds in charged.items()} == {name: round(seconds, 6) for name, seconds in wanted.items()}


def test_facts_that_wait_cost_their_sender_time(place):
    """What is joined to facts that wait is read each time."""
    place.run_once()
    program = place.program()
    run = program.Run(program.Spool(place.spool), os.path.join(place.place, "site"), "g", program.Budget(0, 2 ** 30, 60, 2 ** 32), "day", [], NONE)
    charged = []
    run.charge, run.keep = lambda *words: charged.append(words), lambda *words: None
    program.seconds_spent = iter([1, 5]).__next__
    with run.spool.working():
        put(os.path.join(place.spool, "taking", program.REST), b"")
        run.keep_rest({USER: []}, "cadf-take: x/rest: 3 facts wait, of 3 windows" + cadf_rest.WHAT_NEXT)
    os.close(run.spool.lock)
    assert charged == [(USER, "seconds", 4)]


def test_a_bus_makes_nobodys_share_of_the_cap_less(place):
    """However many publishers have facts that wait, they are one sender beside users."""
    place.run_once()
    program = place.program()
    spool = program.Spool(place.spool)
    for name, user in [("waits-bus-%d.cadf" % number, BUS + number) for number in range(20)] + [("waits-7.cadf", 7)]:
        put(os.path.join(place.spool, "set-aside", name), bytes(10 ** 4))
        spool.add_sender(name, user)
    assert spool.beyond_cap(10 ** 5) == {USER}  # a half is free to user 7
    os.close(spool.lock)


# ---- Publishers of a bus

def published(publisher, *events):
    """Lines of a listener: an envelope each, of a publisher, or of none."""
    named = {} if publisher is None else {"publisher_id": publisher}
    return b"".join(json.dumps({"oslo.version": "2.0", "oslo.message": json.dumps({"event_type": "x", **named, "payload": each})}).encode() + b"\n" for each in events)


def number_of(publisher):
    return int.from_bytes(hashlib.blake2b(publisher.encode(), digest_size=8).digest(), "big") % 64


LOUD, QUIET = "identity.north-1", "compute.north-2"


def test_levels_of_publishers(tmp_path):
    """Each number may cost a share in a day, and more as long as all together haven't cost what a bus may: eight times the bytes of a user."""
    folder, limits = os.open(tmp_path, os.O_RDONLY), dict(NONE, bytes=800, windows=64)
    ledgers = cadf_ledgers.Ledgers(folder, limits)
    ledgers.charge(BUS, "bytes", 6000)
    ledgers.charge(BUS, "windows", 63)
    assert [ledgers.reached(BUS, {"bytes": more}) for more in (399, 400)] == [None, "bytes"] and ledgers.left(BUS, "windows") == ledgers.left(BUS + 1, "windows") == 1
    ledgers.charge(BUS, "bytes", 400)
    ledgers.charge(BUS, "windows", 1)
    assert [ledgers.reached(user, {}) for user in (BUS, BUS + 1, BUS + 63, 7)] == ["bytes", None, None, None]
    assert [ledgers.left(user, "windows") for user in (BUS, BUS + 1, 7)] == [0, 1, 64]
    ledgers.charge(BUS + 1, "bytes", 100)
    ledgers.charge(BUS + 1, "windows", 1)
    assert [ledgers.reached(user, {}) for user in (BUS + 1, BUS + 2)] == ["bytes", None] and ledgers.left(BUS + 1, "windows") == 0
    ledgers.write()
    right = time.time
    cadf_ledgers.time.time = lambda: right() + 86400
    try:
        found = cadf_ledgers.Ledgers(folder, limits)
    finally:
        cadf_ledgers.time.time = right
    assert abs(found.level(BUS, "bytes") - 6300) < 1 and abs(found.level(BUS + 64, "bytes") - 100) < 1 and found.level(BUS + 1, "bytes") < 1
    assert found.reached(BUS, {}) is None  # of what all may cost much is free again
    os.close(folder)


class Bus(Place):
    """The same, but the files are the caller's own, as a listener's are."""

    def admits(self, *words):
        return ended(sys.executable, [tool("cadf-admit"), *words], cwd=self.place, env={**os.environ, "CADF": self.cadf})

    def run_once(self, budget=(), **limits):
        program, said = self.program(), []
        program.say = said.append
        run = program.Run(program.Spool(self.spool), os.path.join(self.place, "site"), "g", program.Budget(0, 2 ** 30, 60, 2 ** 32)._replace(**dict(budget)), "day",
                          ["--windows=400"], {**NONE, **limits})
        try:
            run.run()
        finally:
            os.close(run.spool.lock)
        return held(self.spool), said


@pytest.fixture
def bus(cadf, tmp_path):
    return Bus(cadf, tmp_path)


def test_a_publisher_that_costs_much_waits_alone(bus):
    """What one sends beyond a day's bytes waits in taking/, and comes later; another's, and what names nobody, is in the site within the run."""
    first, more = [[event("%s%d" % (key, number), "2024-03-01T12:00:00Z") for number in range(300)] for key in "ab"]
    quiet, nobody = event("quiet", "2024-03-01T12:00:00Z"), event("nobody", "2024-03-01T12:00:00Z")
    bus.lines("1.jsonl", published(LOUD, *first))
    files, said = bus.run_once(bytes=5000)
    assert bus.holds() == atoms_of(*first) and sorted(files) == ["taken/1.jsonl"]
    bus.lines("2.jsonl", published(LOUD, *more[:9]) + published(QUIET, quiet) + published(LOUD, *more[9:]) + published(None, nobody))
    own = "bus-%d.json" % number_of(LOUD)
    for _ in range(2):
        files, said = bus.run_once(bytes=5000)
        assert bus.holds() == atoms_of(*first, quiet, nobody) and sorted(files) == ["taken/1.jsonl", "taken/2.jsonl", "taking/" + own]
        assert "bus-%d: 1 files stay in taking/: more than --sender-bytes a day" % number_of(LOUD) in said
        assert os.stat(os.path.join(bus.spool, "taking", own)).st_mode & 0o777 == 0o600
    for _ in range(20):
        bus.a_day_later()
        files, _ = bus.run_once(bytes=5000)
    assert bus.holds() == atoms_of(*first, *more, quiet, nobody) and sorted(files) == ["taken/1.jsonl", "taken/2.jsonl", "taken/" + own]


def test_a_publisher_that_costs_much_on_any_file_system(bus):
    with without_blocks():
        test_a_publisher_that_costs_much_waits_alone(bus)


def test_a_message_of_one_who_waits_alone(bus):
    """A file of which all waits is taken, so that it isn't read again."""
    bus.lines("1.jsonl", published(LOUD, *(event("a%d" % number, "2024-03-01T12:00:00Z") for number in range(300))))
    bus.run_once(bytes=5000)
    bus.lines("2.jsonl", published(LOUD, event("b", "2024-03-01T12:00:00Z")))
    files, _ = bus.run_once(bytes=5000)
    assert sorted(files) == ["taken/1.jsonl", "taken/2.jsonl", "taking/bus-%d.json" % number_of(LOUD)]


def test_windows_of_publishers(bus):
    """What one begins beyond what all may waits, by its number; another begins its share. Windows near now are begun by each."""
    now = datetime.datetime.now(datetime.timezone.utc).strftime("%Y-%m-%dT%H:%M:%SZ")
    many, old, recent = days("2024-01-01", 70), days("1999-01-01", 2, "old"), event("recent", now)
    bus.lines("1.jsonl", published(LOUD, *many))
    bus.run_once(windows=64)
    assert bus.holds() == atoms_of(*many[-64:])
    bus.lines("2.jsonl", published(LOUD, event("more", "1998-01-01T00:00:00Z"), recent) + published(QUIET, *old))
    bus.run_once(windows=64)
    assert bus.holds() == atoms_of(*many[-64:], old[1], recent)
    waits = {"bus-%d" % number_of(publisher): "waits-bus-%d.cadf" % number_of(publisher) for publisher in (QUIET, LOUD)}
    found = [read_file(content(os.path.join(bus.spool, "set-aside", name)))[1] for name in waits.values()]
    assert found == [atoms_of(old[0]), atoms_of(*many[:6], event("more", "1998-01-01T00:00:00Z"))]
    listed = [line.split("\t") for line in bus.admits("spool").output.decode().splitlines()]
    assert {row[0]: row[3] for row in listed} == waits


# ---- Two senders

def of_a_user(shared, name, data, user):
    shared.send(name, data)
    os.chown(os.path.join(shared.spool, name), user, others.GROUP)


def text(*keys):
    return json.dumps({"id": "g", "events": [event(key, "2024-03-01T12:00:00Z") for key in keys]}).encode()


@others.needed
def test_one_sender_costs_another_nothing(shared):
    """One sends sparse files, links, files without end and junk, before the honest one by name: the honest event is in the site within one run, and the
    stranger has cost what one may in a day, and a file more."""
    for number in range(30):
        of_a_user(shared, "0%02d.jsonl" % number, b"".join(b"%d.%d\n" % (number, each) for each in range(2000)), others.SENDER)
    with open(os.path.join(shared.spool, "00.jsonl"), "wb") as file:
        file.truncate(2 ** 22)
        os.chown(file.fileno(), others.SENDER, others.GROUP)
    for number in range(10):
        os.link(os.path.join(shared.spool, "000.jsonl"), os.path.join(shared.spool, "00-%d.log" % number))
    of_a_user(shared, "z.json", text("honest"), others.OTHER)
    most = 10 ** 6
    done = shared.takes_own("--unchanged", "0", "--sender-bytes", str(most))
    assert done.status in (0, 5) and atoms_of(event("honest", "2024-03-01T12:00:00Z")) <= read_file(content(shared.own))[1], done
    paths = [os.path.join(at, name) for at, _, names in os.walk(shared.spool) for name in names]
    written = sum(os.lstat(path).st_blocks * 512 for path in paths if os.lstat(path).st_uid == others.CALLER)
    left = [path for path in paths if os.lstat(path).st_uid == others.SENDER and os.path.dirname(path) == shared.spool]
    assert written < most + 6 * 10 ** 6 and len(left) > 20 and b"user %d: " % others.SENDER in done.error and b"user %d: " % others.OTHER not in done.error


@others.needed
def test_files_that_are_claimed_wait_if_their_sender_has_cost_too_much(shared):
    """What was claimed as small and became large: the rest of the sender's files wait in taking/, and come later. Another's don't wait."""
    for name in ("a.jsonl", "b.jsonl", "c.jsonl"):
        of_a_user(shared, name, b"".join(b"%s%d\n" % (name.encode(), each) for each in range(3000)), others.SENDER)
    of_a_user(shared, "d.json", text("honest"), others.OTHER)
    done = shared.takes_own("--unchanged", "0", "--sender-bytes", "100000")
    assert b"user %d: 2 files stay in taking/: more than --sender-bytes a day" % others.SENDER in done.error and done.status == 0, done
    assert sorted(held(os.path.join(shared.spool, "taken"))) == ["a.jsonl", "d.json"] and sorted(held(os.path.join(shared.spool, "taking"))) != []
    assert atoms_of(event("honest", "2024-03-01T12:00:00Z")) <= read_file(content(shared.own))[1]


# ---- Copies that do wrong

@pytest.mark.parametrize("check, texts", [
    (test_files_that_nobody_closes, ["if self.named <= MOST_SAID:", "if True:"]),
    (test_no_file_without_bytes_makes_others_wait, ["for name, size in self.bytes_waiting().items():", "for name, size in ((name, each.st_size) for name, each in self.waiting().items()):"]),
    (test_what_arrives_in_a_long_run_has_its_turn, ["            self.claim_arrived()\n\n", ""]),
    (test_many_files_of_one_name, ["+= 2 ** (tries // FEW_OF_A_NAME)", "+= 1"]),
    (test_hard_links, ["found.st_nlink > 1", "found.st_nlink > 100"]),
    (test_bytes_of_a_day, ["if (made or part != self.spool.taking) and is_there(each, part):", "if False:"]),
    (test_bytes_of_a_day_of_any_file_system, ["max(found.st_blocks * 512, found.st_size if written is None else written)", "found.st_blocks * 512"]),
    (test_a_sparse_file_costs_what_is_written_of_it, ["found.st_size if written is None else written", "found.st_size"]),
    (test_files_of_a_day, ["coming[user].update(bytes=found.st_size, files=1)", "coming[user].update(bytes=found.st_size)"]),
    (test_windows_of_a_day, ["self.charge(user, kind, int(amount))", "self.charge(user, kind, 0)"]),
    (test_old_windows_of_a_day, ["changed = again & taking.changed.keys()", "changed = set()"]),
    (test_old_windows_of_a_day, ["if before >= most:", "if False:"]),
    (test_processor_time_of_a_day, ["self.ledgers.charge(user, kind, amount)", "self.ledgers.charge(user, kind, (kind != \"seconds\") * amount)"]),
    (test_a_cap_keeps_files_with_their_sender, ["size > most / len(sizes)", "size > most * 1000"]),
    (test_what_has_rulings_is_taken_alone, ["is_alone = any(map(self.may_be_dear, made))", "pass"]),
    (test_a_bus_makes_nobodys_share_of_the_cap_less, ["os.geteuid() if is_of_bus(user) else user] += size", "user] += size"]),
    (test_a_line_that_is_long, ["\"--longest=%d\" % self.budget.longest,", ""]),
    (test_the_sender_of_a_copy_is_known, ["else self.users.get(name, owner)", "else owner"])])
def test_a_wrong_version_is_caught(cadf, tmp_path, check, texts):
    is_caught(tmp_path, texts, check, functools.partial(Place, cadf, tmp_path))


@pytest.mark.parametrize("texts", [["            self.charge_seconds(self.failed, sizes)\n            self.failed = 0\n", ""], ["self.failed += spent", "pass"]])
def test_a_wrong_price_of_a_group_is_caught(cadf, tmp_path, texts):
    is_caught(tmp_path, texts, test_a_group_that_fails_costs_who_is_at_fault, functools.partial(Place, cadf, tmp_path),
              lambda names: "b" in names, {"a": 1, "b": 1 + 2, "c": 0.25, "d": 0.75})


@pytest.mark.parametrize("check, texts", [
    (test_a_publisher_that_costs_much_on_any_file_system, ["max(found.st_blocks * 512, found.st_size if written is None else written)", "found.st_blocks * 512"]),
    (test_a_publisher_that_costs_much_waits_alone, ["[\"--publishers=%d\" % PUBLISHERS]", "[]"]),
    (test_a_publisher_that_costs_much_waits_alone, ["self.spool.users[own] = user\n", "pass\n"]),
    (test_a_publisher_that_costs_much_waits_alone, ["os.fchmod(file, 0o600)\n", "pass\n"]),
    (test_a_message_of_one_who_waits_alone, [" or [self.empty(\"%d-\" % number)]", ""]),
    (test_windows_of_publishers, ["[:own + len(windows) - sum(map(is_far, windows))]", "[:own]"])])
def test_a_wrong_version_of_a_bus_is_caught(cadf, tmp_path, check, texts):
    is_caught(tmp_path, texts, check, functools.partial(Bus, cadf, tmp_path))
