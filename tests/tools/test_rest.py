"""One stranger stops nobody: what a take leaves to a file, what of it a spool keeps, and what cadf-admit makes of that."""
import datetime
import functools
import json
import os
import sys

import pytest

from tests.machine import ended
from tests.reference.events import document
from tests.reference.replica_files import read_file
from tests.reference.split_files import parts_of
from tests.tools.copies import is_caught
from tests.tools.faulty import calls_of
from tests.tools.odd_logs import EVENT
from tests.tools.programs import tool

CALLS = "os.open os.rename os.unlink os.fsync"


def event(key, time):
    return dict(EVENT, id=key, eventTime=time)


def days(first, count, key="x"):
    """An event on each of so many days."""
    return [event("%s%d" % (key, number), "%sT12:00:00Z" % (datetime.date.fromisoformat(first) + datetime.timedelta(number)))
            for number in range(count)]


def atoms_of(*events):
    return document({"id": "g", "events": list(events)})[1]


class Place:
    """A folder with a site, files and a spool."""

    def __init__(self, cadf, path, tools=None):
        self.cadf, self.path, self.tools = cadf, path, tools or os.path.dirname(tool("cadf-take"))
        path.mkdir(exist_ok=True)

    def put(self, name, *events):
        (self.path / name).write_text(json.dumps({"id": "g", "events": events}))
        return name

    def run(self, name, *words, **options):
        return ended(sys.executable, [os.path.join(self.tools, name), *words], cwd=self.path, env={**os.environ, "CADF": self.cadf}, **options)

    def takes(self, *words, status=0):
        done = self.run("cadf-take", *words)
        assert done.status == status and b"Traceback" not in done.error, done
        return done.error.decode()

    def site(self, name="site"):
        """What the site holds, as its file `site` says."""
        names = [line.split()[1:] for line in (self.path / name / "site").read_text().splitlines() if line.startswith("F ")]
        files = [read_file((self.path / name / ("%s.%s.cadf" % tuple(each))).read_bytes())[1] for each in names]
        return set().union(*files)

    def file(self, name):
        """What a replica file holds: nothing, if it isn't there."""
        path = self.path / name
        return read_file(path.read_bytes())[1] if path.exists() else set()

    def spool(self, *words):
        return self.run("cadf-spool", "--unchanged", "0", *words, "--by", "day", "--log", "g", "site", "spool")

    def admit(self, *words):
        return self.run("cadf-admit", *words)

    def lines(self):
        """What cadf-admit lists, by the names of files."""
        done = self.admit("spool")
        rows = [line.split("\t") for line in done.output.decode().splitlines()]
        assert done.status == (5 if rows else 0) and done.error == b""
        return {row[3]: row for row in rows}


@pytest.fixture
def place(cadf, tmp_path):
    return Place(cadf, tmp_path)


# ---- A take

def test_windows_that_are_there_and_the_nearest_to_now(place):
    """Of what a batch brings, windows that are there are taken, and of new ones the nearest to now; the rest is whole in its file."""
    place.takes("--by", "day", "site", place.put("a", event("a", "2024-03-01T00:00:00Z")))
    here, near, far = event("b", "2024-03-01T12:00:00Z"), event("c", "2024-02-29T12:00:00Z"), [event("d", "2023-01-01T00:00:00Z"), event("e", "2999-01-01T00:00:00Z")]
    batch = place.put("batch", here, near, *far)
    assert "more than 1 new windows" in place.takes("--windows", "1", "site", batch, status=1)
    said = place.takes("--windows", "1", "--rest", "rest", "site", batch, status=5)
    assert said == "cadf-take: rest: 2 facts wait, of 2 new windows beyond the limits: look at their times; `cadf-take --windows all SITE FILE` takes them\n"
    assert place.site() == atoms_of(event("a", "2024-03-01T00:00:00Z"), here, near) and place.file("rest") == atoms_of(*far)
    assert os.stat(place.path / "rest").st_mode & 0o777 == 0o600
    place.takes("--windows", "all", "site", "rest")
    assert place.site() >= atoms_of(*far)


def test_bounds_of_time(place):
    """Windows out of the bounds are left, also those that are there; of a window within which a bound is, all is taken."""
    old, within, cut, later = days("2024-02-28", 4)
    place.takes("--by", "day", "site", place.put("a", old))
    bounds = ["--not-before", "2024-02-29", "--not-after", "2024-03-01T06:00Z"]
    place.put("more", dict(old, id="again"), within, cut, later)
    assert "the window 2024-02-28" in place.takes(*bounds, "site", "more", status=1) and place.site() == atoms_of(old)
    said = place.takes(*bounds, "--rest", "rest", "site", "more", status=5)
    assert said.startswith("cadf-take: rest: 2 facts wait, of 2 windows out of bounds: ")
    assert place.site() == atoms_of(old, within, cut) and place.file("rest") == atoms_of(dict(old, id="again"), later)
    place.takes("--not-after", "now+1d", "--rest", "none", "site", place.put("now", event("now", datetime.datetime.utcnow().strftime("%Y-%m-%dT%H:%M:%SZ"))))
    assert not (place.path / "none").exists()


@pytest.mark.parametrize("most, each", [("2", "2"), ("3", "1")])
def test_senders_take_turns(place, most, each):
    """Each sender begins its nearest windows, as many as one may, in turns; each rest is that of one sender's files."""
    many, few, both = days("2024-01-01", 9), event("few", "1990-01-01T00:00:00Z"), event("both", "2024-01-01T00:00:00Z")
    files = [place.put("1", *many[:5]), place.put("2", *many[5:]), place.put("3", few, both)]
    said = place.takes("--by", "day", "--windows", most, "--sender-windows", each, "--senders", "2,1", "--rest", "rest", "site", *files, status=5)
    assert place.site() == atoms_of(many[8], both, many[0]) and len(said.splitlines()) == 2
    again = place.put("4", event("new", "2024-06-01T00:00:00Z")), place.put("5", *days("2024-07-01", 3), event("new", "2024-06-01T00:00:00Z"))
    done = place.run("cadf-take", "--sender-windows", "1,2", "--senders", "1,1", "--rest", "rests", "site", *again)
    assert (done.status, done.output) == (5, b"begun 1,3\n") and len(place.site()) == 6
    assert place.file("rest.1") == atoms_of(*many[1:8]) and place.file("rest.2") == atoms_of(few)


def test_far_windows_that_are_read_again(place):
    """Of windows that are there and far from now those that are nearest are taken, until they have as many bytes as their sender may have read again."""
    now = datetime.datetime.utcnow()
    recent = [event("r%d" % number, (now - datetime.timedelta(hours=30 * number)).strftime("%Y-%m-%dT%H:%M:%SZ")) for number in range(3)]
    old = days("2024-01-01", 4)
    place.takes("--by", "day", "site", place.put("a", *old, *recent))
    sizes = {each.name.split(".")[0]: each.stat().st_size for each in (place.path / "site").glob("2024-01*")}
    more, late = days("2024-01-01", 4, "y"), [dict(each, id="l" + each["id"]) for each in recent]
    words = ["--rest", "rest", "--senders", "1,1", "--sender-rereads"]
    done = place.run("cadf-take", *words, "%d,0" % (sizes["2024-01-04"] + 1), "site", place.put("b", *more, *late), place.put("c", *days("2024-01-01", 1, "z")))
    assert (done.status, done.output.decode()) == (5, "begun 0,0\nreread %d,0\n" % (sizes["2024-01-04"] + sizes["2024-01-03"]))
    said = done.error.decode().splitlines()
    assert said[0] == "cadf-take: rest.1: 2 facts wait, of 2 far windows that would be read again: look at their times; `cadf-take --windows all SITE FILE` takes them"
    assert place.site() == atoms_of(*old, *recent, *late, *more[2:]) and place.file("rest.1") == atoms_of(*more[:2]) and len(place.file("rest.2")) == 1
    done = place.run("cadf-take", "--rest", "none", "--senders", "1", "--sender-rereads", "1000000", "site", "a")
    assert (done.status, done.output, done.error) == (0, b"begun 0\nreread 0\n", b"")  # what brings nothing costs nothing
    place.takes("--windows", "all", "site", "rest.1", "rest.2")
    assert place.site() >= atoms_of(*more, *days("2024-01-01", 1, "z"))


def test_no_rest(place):
    """If all is taken there is no file of the rest, and the status is 0; with no rest but other senders too."""
    place.takes("--by", "day", "--rest", "rest", "--senders", "1,1", "site", place.put("1", *days("2024-01-01", 2)), place.put("2", *days("2024-02-01", 2)))
    assert sorted(os.listdir(place.path)) == ["1", "2", "site"]


@pytest.mark.parametrize("words, status, said", [
    (["--rest", "there", "site", "a"], 2, "there: it is there: name another file"), (["--senders", "1", "site", "a"], 2, "go with --rest"),
    (["--rest", "r", "--senders", "2", "site", "a"], 2, "--senders has to count the FILEs"),
    (["--rest", "r", "--senders", "1", "--sender-windows", "1,2", "site", "a"], 2, "a number for all, or one for each sender"), (["--rest", "r", "new.cadf", "a"], 2, "SITE that is a folder"),
    (["--settle", "--rest", "r", "site"], 2, "--settle goes with one SITE"), (["--not-after", "soon", "site", "a"], 2, "not a time"),
    (["--windows", "0", "--rest", "absent/r", "site", "a"], 3, "absent/r")])
def test_words(place, words, status, said):
    place.takes("--by", "day", "site", place.put("before", *days("2024-01-01", 1, "before")))
    place.put("a", *days("2024-02-01", 1))
    (place.path / "there").write_text("x")
    assert said in place.takes(*words, status=status)
    assert place.site() == atoms_of(*days("2024-01-01", 1, "before")) and (place.path / "there").read_text() == "x" and not (place.path / "r").exists()


def test_the_rest_is_there_before_the_site(place):
    """Wherever a take is killed, the site is the one before or holds with the rest all that came. One whose call fails leaves no rest alone."""
    words = ["--by", "day", "--windows", "1", "--rest", "rest", "site", place.put("a", *days("2024-01-01", 3))]
    wanted, path = atoms_of(*days("2024-01-01", 3)), os.path.join(place.tools, "cadf-take")
    done, calls = calls_of(CALLS, path, words, "copied", told=".calls", cwd=place.path, env={**os.environ, "CADF": place.cadf})
    assert done.status == 5 and len(calls) > 10
    for number in range(1, len(calls) + 1):
        copy = Place(place.cadf, place.path.parent / ("%s-%d" % (place.path.name, number)), place.tools)
        has_site = (copy.path / "site" / "site").exists() and copy.site()
        assert not has_site or copy.site() | copy.file("rest") == wanted, calls[:number]


# ---- A spool

def message(each):
    """A line of a listener's file."""
    return json.dumps({"oslo.version": "2.0", "oslo.message": json.dumps({"event_type": "audit.http.request", "publisher_id": "x", "payload": each})}) + "\n"


def arrives(place, name, *events):
    (place.path / "spool").mkdir(mode=0o700, exist_ok=True)
    (place.path / "spool" / name).write_text("".join(map(message, events)))


def waiting():
    """The name of the file of what waits of the messages, whose publisher's number is 15."""
    return "waits-bus-15.cadf"


def test_401_hostile_messages_keep_no_honest_one_out(place):
    """Of a batch with 1,000 honest messages of a day and 401 of 401 other days the honest ones are in the site within one run."""
    honest = [event("honest%d" % number, "2024-03-01T12:%02d:%02dZ" % divmod(number, 60)) for number in range(1000)]
    hostile = days("1900-01-01", 401, "evil")
    arrives(place, "bus.jsonl", *honest, *hostile)
    done = place.spool("--metrics", "m.prom")
    wait = place.file("spool/set-aside/" + waiting())
    assert done.status == 0 and done.error.decode().endswith("cadf-spool: taken 1, set aside 0, waiting 0\n")
    assert atoms_of(*honest) <= place.site() and len(place.site() - atoms_of(*honest)) == 99
    assert place.site() | wait == atoms_of(*honest, *hostile) and not place.site() & wait and os.listdir(place.path / "spool" / "taken") == ["bus.jsonl"]
    numbers = (place.path / "m.prom").read_text()
    assert "\ncadf_set_aside_files{" in numbers and [line.split()[1] for line in numbers.splitlines() if line.startswith(("cadf_set_aside_files{", "cadf_facts_taken_total{"))] == ["1099", "1"]
    user, count, _, _, cause = place.lines()[waiting()]
    assert (count, cause) == ("302 facts", "302 facts wait, of 302 new windows beyond the limits")


def test_what_waits_waits_once(place):
    """Facts that come again wait once, in one file, and a sender's file of that name is claimed under another."""
    place.takes("--by", "day", "site", place.put("a", *days("2024-01-01", 1)))
    for name in ("1.jsonl", "2.jsonl", "waits-bus-15.jsonl"):
        arrives(place, name, *days("2024-02-01", 3, "y"))
        assert place.spool("--windows", "0").status == 0
        assert place.file("spool/set-aside/" + waiting()) == atoms_of(*days("2024-02-01", 3, "y"))
    arrives(place, "3.jsonl", event("z", "2024-03-01T00:00:00Z"))
    assert place.spool("--windows", "0").status == 0
    assert place.file("spool/set-aside/" + waiting()) == atoms_of(*days("2024-02-01", 3, "y"), event("z", "2024-03-01T00:00:00Z"))
    assert list(place.lines()) == [waiting()] and place.site() == atoms_of(*days("2024-01-01", 1))
    (place.path / "spool" / "set-aside" / waiting()).write_text("x")  # as by an editor
    arrives(place, "4.jsonl", event("z", "2024-03-01T00:00:00Z"))
    assert place.spool("--windows", "0").status == 0
    assert place.lines()[waiting()][1] == "damaged" and place.file("spool/set-aside/waits-bus-15-2.cadf") == atoms_of(event("z", "2024-03-01T00:00:00Z"))


def test_a_sender_takes_no_name_of_what_waits(place):
    """A file of such a name would be taken for facts of another's."""
    (place.path / "spool").mkdir(mode=0o700)
    (place.path / "spool" / "waits-7.cadf").write_text("CADF-")
    assert place.spool().status == 1 and list(place.lines()) == ["odd-name.cadf"]


def test_bounds_of_a_spool(place):
    arrives(place, "a.jsonl", *days("2024-02-01", 2), event("late", "2999-01-01T00:00:00Z"))
    assert place.spool("--not-after", "now+1d", "--not-before", "2024-02-02").status == 0
    assert place.site() == atoms_of(days("2024-02-01", 2)[1]) and place.file("spool/set-aside/" + waiting()) == atoms_of(days("2024-02-01", 2)[0], event("late", "2999-01-01T00:00:00Z"))
    assert place.run("cadf-spool", "--not-after", "never", "site", "spool").status == 2


def test_more_waits_than_may(place):
    """Lines that wait are no failure; more bytes of them than allowed are 5, and keep nothing from being taken."""
    arrives(place, "a.jsonl", *days("2024-02-01", 1))
    with open(place.path / "spool" / "a.jsonl", "a", encoding="utf-8") as file:
        file.write("x\n")
    assert place.spool("--waiting", "10000").status == 0
    arrives(place, "b.jsonl", *days("2024-02-01", 2))
    done = place.spool("--waiting", "10")
    assert done.status == 5 and b"set-aside: " in done.error and b" bytes, more than --waiting: " in done.error
    assert place.site() == atoms_of(*days("2024-02-01", 2))


def test_a_bus_fills_no_disk_by_what_is_refused(place):
    """Once more waits than may, what is refused of the caller's own files is in taken/ alone, and is named; what is right is taken."""
    for name, day in ("a.jsonl", "2024-02-01"), ("b.jsonl", "2024-02-02"):
        arrives(place, name, *days(day, 1))
        with open(place.path / "spool" / name, "a", encoding="utf-8") as file:
            file.write("%s is no event\n" % name)
        done = place.spool("--waiting", "1000")
        assert done.status == 5 and place.site() >= atoms_of(*days(day, 1))
    assert b"b.jsonl: what of it is refused is in taken/ alone, since set-aside/ has more than --waiting" in done.error and list(place.lines()) == ["a.jsonl"]
    assert (place.path / "spool" / "taken" / "b.jsonl").read_text().endswith("b.jsonl is no event\n")


def test_who_fills_set_aside_has_no_other_lose_refused_lines(place):
    """Where somebody else has more than an equal share, what is refused of the caller's own files is set aside, and somebody mends it."""
    arrives(place, "0.jsonl", *days("2024-02-01", 1))
    assert place.spool().status == 0
    (place.path / "spool" / "set-aside" / "much").write_bytes(b"-" * 10 ** 5)
    (place.path / "spool" / "set-aside" / ".senders").write_text("%d much\n" % (os.getuid() + 1))
    (place.path / "spool" / "a.jsonl").write_text("no event\n")
    done = place.spool("--waiting", "50000")
    assert done.status == 5 and sorted(place.lines()) == ["a.jsonl", "much"], done


# ---- cadf-admit

def test_admit(place):
    """It lists what waits by sender and cause, writes its lines, takes facts, puts back what was refused, and drops."""
    place.takes("--by", "day", "site", place.put("before", *days("2024-01-01", 1, "before")))
    assert place.run("cadf-admit", "spool").status == 3
    arrives(place, "a.jsonl", *days("2024-02-01", 2))
    (place.path / "spool" / "odd.jsonl").write_text("x\n")
    (place.path / "spool" / "cut.json").write_text("{")
    assert place.spool("--windows", "0").status == 1
    rows = place.lines()
    assert {name: row[1:3] + row[4:] for name, row in rows.items()} == {
        "cut.json": ["0 lines", "1 bytes", "not JSON"], "odd.jsonl": ["1 lines", rows["odd.jsonl"][2], "not JSON, and no line of a log"],
        waiting(): ["2 facts", rows[waiting()][2], "2 facts wait, of 2 new windows beyond the limits"]}
    assert rows[waiting()][0] == "bus-15" and rows["cut.json"][0] == rows["odd.jsonl"][0] and list(rows) == [waiting(), "cut.json", "odd.jsonl"]
    shown = place.admit("--lines", "spool", "waits-*")
    assert document(json.loads(shown.output))[1] == atoms_of(*days("2024-02-01", 2)) and shown.status == 0
    assert json.loads(place.admit("--lines", "spool", "odd.jsonl").output)["faults"] == ["not JSON, and no line of a log"]
    (place.path / "spool" / "cut.json").write_text("another")
    done = place.admit("--take", "site", "spool", "*")
    assert done.status == 1 and done.error == b"cadf-admit: cut.json: the spool has another file of that name: have that taken before\n"
    assert list(place.lines()) == ["cut.json"] and (place.path / "spool" / "odd.jsonl").exists()
    assert place.site() == atoms_of(*days("2024-01-01", 1, "before"), *days("2024-02-01", 2))
    assert place.admit("--drop", "spool", "cut.json") == (0, b"", b"") and place.lines() == {}
    assert sorted(os.listdir(place.path / "spool" / "set-aside")) == [".ledgers", ".senders"]


def test_admit_into_a_site_that_refuses(place):
    """What can't be taken stays."""
    arrives(place, "a.jsonl", *days("2024-02-01", 2))
    assert place.spool("--windows", "1").status == 0
    (place.path / "other").mkdir()
    for words, status, said in ((["--take", "other"], 1, b"no site in it"), (["--take", "site", "--windows", "0"], 1, b"more than 0 new windows"), (["--take", "absent.cadf"], 0, b"")):
        done = place.admit(*words, "spool", waiting())
        assert (done.status, said in done.error) == (status, True), done
        assert (list(place.lines()) == [waiting()]) is (status != 0)


@pytest.mark.parametrize("words, status, said", [
    (["--drop", "spool"], 2, b"no NAME"), (["--windows", "1", "spool", "x"], 2, b"--windows goes with --take"), (["--drop", "--lines", "spool", "x"], 2, b"not allowed"),
    (["--drop", "spool", "x"], 3, b"x: no such file in set-aside/"), (["--drop", "spool", "../x"], 3, b"no such file"), (["absent"], 3, b"absent"), (["--drop", "spool", ""], 3, b"no such file")])
def test_words_of_admit(place, words, status, said):
    arrives(place, "a.jsonl", *days("2024-02-01", 1))
    done = place.admit(*words)
    assert (done.status, said in done.error, b"Traceback" in done.error) == (status, True, False), done


def test_names_on_a_terminal(place):
    """A name or a cause that would move a terminal's cursor is escaped."""
    (place.path / "spool").mkdir(mode=0o700)
    assert place.spool().status == 0
    (place.path / "spool" / "set-aside" / "a\x1b[2J\u202e").write_text(json.dumps({"faults": ["\x9b", "\n"]}) + "\n")
    done = place.admit("spool")
    name, cause = done.output.decode()[:-1].split("\t")[3:]
    assert done.status == 5 and name.isprintable() and cause.isprintable() and name.startswith("a\\") and "[2J\\u202e" in name


def odd_files(place):
    """Has a stranger send what nobody can read or open as a file, beside an honest file that is refused."""
    spool = place.path / "spool"
    spool.mkdir(mode=0o700)
    os.mkfifo(spool / "fifo.json")
    os.symlink("/etc/passwd", spool / "link.json")
    (spool / "half.json").write_text("{")
    assert place.spool().status == 1
    (spool / "set-aside" / "secret.json").write_text("x")
    os.chmod(spool / "set-aside" / "secret.json", 0)


def test_what_can_t_be_read_hides_no_other_file(place):
    """It is listed, and dropped as any."""
    odd_files(place)
    os.symlink("nowhere", place.path / "spool" / "set-aside" / "secret2.json")  # whom nobody, and root neither, can read
    rows = place.lines()
    assert {name: rows.get(name, [None] * 5)[1] for name in ("fifo.json", "link.json", "half.json", "secret2.json")} == {
        "fifo.json": "unread", "link.json": "unread", "half.json": "0 lines", "secret2.json": "unread"}
    assert rows["link.json"][4] == "not a regular file: put a copy of the file itself there" and rows["half.json"][0] == rows["link.json"][0]
    done = place.admit("--lines", "spool", "*")
    assert done.status == 3 and b"{" in done.output and b"fifo.json: " in done.error and b"Traceback" not in done.error, done
    assert place.admit("--drop", "spool", "*") == (0, b"", b"") and place.lines() == {}
    assert sorted(os.listdir(place.path / "spool" / "set-aside")) == [".senders"]


def test_a_star_in_a_name_stands_for_no_other_file(place):
    """What is set aside has another name then: by its own a person would drop everybody's files."""
    spool = place.path / "spool"
    spool.mkdir(mode=0o700)
    for name in ("*", "a*.json", "half.json"):
        (spool / name).write_text("{")
    place.spool()
    assert sorted(place.lines()) == ["half.json", "odd-name.json", "odd-name.jsonl"]


# ---- Copies that do wrong

@pytest.mark.parametrize("check, texts", [
    (test_windows_that_are_there_and_the_nearest_to_now, ["key=lambda window: (distance(window, at), window)", "key=lambda window: window"]),
    (test_windows_that_are_there_and_the_nearest_to_now, ["(is_there and self.may_be_taken(part) and not self.is_charged(part))", "False"]),
    (test_far_windows_that_are_read_again, ["return self.rereads is not None and is_far(part)", "return self.rereads is not None"]),
    (test_far_windows_that_are_read_again, ["return self.rereads is not None and is_far(part)", "return False"]),
    (test_far_windows_that_are_read_again, ["changed = again & taking.changed.keys()", "changed = again"]),
    (test_bounds_of_time, ["first <= self.not_after", "first < self.not_after - 10 ** 15"]),
    (test_bounds_of_time, ["(is_there and self.may_be_taken(part) and not self.is_charged(part))", "is_there"]),
    (functools.partial(test_senders_take_turns, most="2", each="2"), [
        "itertools.zip_longest(*(nearest(windows, at)[:own + len(windows) - sum(map(is_far, windows))] for windows, own in zip(wanted, each)))",
        "[nearest(windows, at)[:own] for windows, own in zip(wanted, each)]"]),
    (functools.partial(test_senders_take_turns, most="3", each="1"), ["nearest(windows, at)[:own + len(windows) - sum(map(is_far, windows))]", "nearest(windows, at)"]),
    (test_the_rest_is_there_before_the_site, ["zip(self.names, left, senders):\n                if parts:\n                    self.write(name, parts, inputs, own.rulings)\n            yield\n",
                                              "[]:\n                pass\n            yield\n            for name, parts, own in zip(self.names, left, senders):\n"
                                              "                if parts:\n                    self.write(name, parts, inputs, own.rulings)\n"]),
    (test_401_hostile_messages_keep_no_honest_one_out, ["if counts and (by or", "if False and (by or"]),
    (test_a_sender_takes_no_name_of_what_waits, ["or name.startswith(WAITS):", ":"]),
    (test_what_waits_waits_once, ["return done.status == DONE\n\n    def empty", "return True\n\n    def empty"]),
    (test_a_bus_fills_no_disk_by_what_is_refused, ["        self.is_full = os.geteuid() in beyond\n", ""]),
    (test_who_fills_set_aside_has_no_other_lose_refused_lines, ["self.is_full = os.geteuid() in beyond", "self.is_full = bool(beyond)"]),
    (test_what_can_t_be_read_hides_no_other_file, ["if not stat.S_ISDIR(each.st_mode)}", "if stat.S_ISREG(each.st_mode)}"]),
    (test_what_can_t_be_read_hides_no_other_file, ["        except (Fault, OSError) as error:", "        except Fault as error:"]),
    (test_a_star_in_a_name_stands_for_no_other_file, [" and \"*\" not in name", ""]),
    (test_more_waits_than_may, ["if waiting > self.budget.waiting:", "if False:"]),
    (test_admit, ["if is_there(name, spool.folder):", "if False:"]),
    (test_admit_into_a_site_that_refuses, ["        if child.returncode:\n            raise Fault(said, child", "        if False:\n            raise Fault(said, child"]),
])
def test_a_wrong_version_is_caught(cadf, tmp_path, check, texts):
    is_caught(tmp_path, texts, lambda tools: check(Place(cadf, tmp_path / "place", tools)), lambda tools: tools)
