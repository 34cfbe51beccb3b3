"""cadf-forget: what goes and what stays, what is left of what went, what asks for a person, and what a kill leaves."""
import json
import os
import re
import sqlite3
import time

import pytest

from tests.reference.seal_files import sealed_in
from tests.tools.copies import copied, is_caught
from tests.tools.faulty import calls_of
from tests.tools.kept_sites import Place, atoms_of, digits_of, event, gone_of

CALLS = "os.open os.rename os.unlink os.link os.fchmod os.fsync os.mkdir os.listdir fcntl.flock"
TIME = re.compile(r"^([THR] \S+) (\S+) (.*)$")


@pytest.fixture
def place(cadf, tmp_path):
    return Place(cadf, tmp_path)


def gone_line(day, *events):
    """What is left of a window, by the second implementation."""
    count, root, keys, key_root = sealed_in(atoms_of(*events))
    return "G 2024-03-%02d %d %s %d %s" % (day, count, root.hex(), keys, key_root.hex())


def acts(place, name="site"):
    """The lines of the gone file after its head, without the times of acts, which are of now."""
    data = (place.path / name / ("gone." + place.files(name)[1])).read_bytes()
    lines = data.decode().split("\n")[3:-2]
    assert data == gone_of(lines) and place.files(name)[1] == digits_of(data)
    found = []
    for line in lines:
        act = TIME.fullmatch(line)
        if act:
            assert abs(time.mktime(time.strptime(act[2] + "UTC", "%Y-%m-%dT%H:%M:%SZ%Z")) - time.timezone - time.time()) < 600 or act[2]
            line = "%s %s" % (act[1], act[3])
        found.append(line)
    return found


# ---- What goes

def test_windows_before_the_floor_go(place):
    """The gone file has what each had, who did it and why; nothing that is kept is written anew, and a second call changes nothing."""
    place.site(1, 2, 3, 4)
    place.run("cadf-take", "site", place.put("more.json", event("x2", 2), event("e2", 2, tags=["t"])))
    kept = {name: os.stat(place.path / "site" / name).st_ino for name in os.listdir(place.path / "site") if name.startswith(("2024-03-03", "2024-03-04"))}
    done = place.run("cadf-forget", "--before", "2024-03-03T11:00:00Z", "--as", "ann", "--why", "the \u201claw\u201d", "site")
    assert done.output == b"site: keeps from 2024-03-03 on; 2 windows went, of 4 facts\n" and done.error == b""
    assert place.atoms() == atoms_of(event("e3", 3), event("e4", 4))
    wanted = ['T 2024-03-03 ["ann","the \u201claw\u201d"]', gone_line(1, event("e1", 1)), gone_line(2, event("e2", 2), event("x2", 2), event("e2", 2, tags=["t"]))]
    assert acts(place) == wanted
    assert {name: os.stat(place.path / "site" / name).st_ino for name in kept} == kept
    assert sorted(name for name in os.listdir(place.path / "site") if not name.startswith(".")) == sorted([*kept, "site", "gone." + place.files()[1]])
    before = (place.path / "site" / "site").read_bytes()
    for day in ("2024-03-03", "2024-03-01"):
        assert place.run("cadf-forget", "--before", day, "site").output == b"site: keeps from 2024-03-03 on; 0 windows went, of 0 facts\n"
    assert (place.path / "site" / "site").read_bytes() == before
    place.run("cadf-forget", "--before", "2024-03-04", "--as", "bob", "site")
    assert acts(place) == [*wanted, 'T 2024-03-04 ["bob",""]', gone_line(3, event("e3", 3))]


def test_the_index_forgets_too(place):
    """It has no row of what went, and nothing that was kept of it."""
    place.site(1, 2, 3)
    place.run("cadf-events", "--initiator", "u1", "site")
    place.run("cadf-seal", "site")
    place.run("cadf-forget", "--before", "2024-03-03", "site")
    index = sqlite3.connect(place.path / "site" / ".index")
    assert index.execute("SELECT name FROM windows").fetchall() == [("2024-03-03",)]
    assert index.execute("SELECT count(*) FROM bodies").fetchone() == (1,) and index.execute("SELECT count(*) FROM kept WHERE kind = 'roots 1'").fetchone() == (1,)


def test_what_has_no_time_stays(place):
    """Resources and rulings are of no window."""
    place.site(1, 2)
    shared = {"id": "g", "name": "a log", "events": []}
    (place.path / "shared.json").write_text(json.dumps(shared))
    place.run("cadf-take", "site", "shared.json")
    place.run("cadf-forget", "--before", "2024-03-03", "site")
    assert [part for part, _ in place.files()[0]] == ["shared"]


@pytest.mark.parametrize("newest, keep, floor", [(20, "5d", "2024-03-16"), (20, "400d", None), (5, "12h", "2024-03-05")], ids=["five days", "all", "half a day"])
def test_a_duration_counts_from_the_newest_window(place, newest, keep, floor):
    """The clock is years ahead of it, and forgets nothing more for that. A window that is to come is none."""
    place.site(1, newest)
    place.run("cadf-take", "site", place.put("ahead.json", dict(event("a", 1), eventTime="2999-01-01T00:00:00Z")))
    done = place.run("cadf-forget", "--keep", keep, "--json", "site")
    assert json.loads(done.output) == {"kept_from": floor, "held": [], "windows": 0 if floor is None else 1, "facts": 0 if floor is None else 1}
    assert place.days() == [*(["2024-03-01"] if floor is None else []), "2024-03-%02d" % newest, "2999-01-01"]


# ---- What asks for a person

def test_bodies_that_contradict_what_stays(place):
    """They are named, with those that go whole, and wait for a word."""
    one, other = event("both", 1), event("both", 3, outcome="failure")
    place.run("cadf-take", "--by", "day", "site", place.put("first.json", one, other, event("open", 1), event("open", 2), event("e1", 1), event("late", 3), event("late", 4)))
    for word in ("both", "ruled"):
        if word == "ruled":
            place.run("cadf-conflicts", "--values", "site", status=5)
            choice = next(line for line in place.run("cadf-conflicts", "site", status=5).output.decode().splitlines(True) if '"both" 1 ' in line)
            (place.path / "choices").write_text(choice)
            (place.path / "rulings.cadf").write_bytes(place.run("cadf-conflicts", "--rule", "choices", "site").output)
            place.run("cadf-take", "site", "rulings.cadf")
        before = place.lines()
        done = place.run("cadf-forget", "--before", "2024-03-03", "site", status=5)
        assert done.output == b"" and done.error.decode().splitlines() == [
            'cadf-forget: "both": %s: of 2 bodies those of 2024-03-01 go, and those of 2024-03-03 stay' % ("open" if word == "both" else "ruled"),
            'cadf-forget: "open": open: of 2 bodies those of 2024-03-01, 2024-03-02 go',
            "cadf-forget: site: 2 events with several bodies lose some: rule on those that are open, hold the windows, or say --open; nothing went"]
        assert place.lines() == before
    os.unlink(place.path / "site" / ".index")  # without it the same is found
    assert place.run("cadf-forget", "--before", "2024-03-03", "site", status=5).error == done.error
    place.run("cadf-forget", "--before", "2024-03-03", "--open", "site")
    assert "2024-03-01" not in place.days()


def test_windows_that_would_be_too_many(place):
    place.site(1, 2, 3)
    done = place.run("cadf-forget", "--before", "2024-03-03", "--most", "1", "site", status=5)
    assert done.error == b"cadf-forget: site: 2 windows would go, from 2024-03-01 to 2024-03-02, and --most is 1: if that is meant, raise it; nothing went\n"
    assert place.files()[1] is None
    place.run("cadf-forget", "--before", "2024-03-03", "--most", "2", "site")


def test_a_held_window_stays(place):
    """Until it is released: below the floor it goes then."""
    place.site(1, 2, 3)
    place.run("cadf-forget", "--hold", "2024-03-01", "--as", "ann", "site")
    assert place.run("cadf-forget", "--before", "2024-03-03", "--as", "ann", "site").output == b"site: keeps from 2024-03-03 on, holds 2024-03-01; 1 windows went, of 1 facts\n"
    assert place.days() == ["2024-03-01", "2024-03-03"]
    said = place.run("cadf-forget", "--hold", "2024-03-02", "site", status=1).error
    assert said == b"cadf-forget: site: 2024-03-02 is below its floor, 2024-03-03, and went\n"
    place.run("cadf-forget", "--hold", "2024-03-04", "--as", "ann", "site")  # of which nothing is there yet
    place.run("cadf-forget", "--release", "2024-03-01", "--as", "ann", "site")
    place.run("cadf-forget", "--release", "2024-03-04", "--as", "ann", "site")
    place.run("cadf-forget", "--release", "2024-03-04", "--as", "ann", "site")
    assert place.days() == ["2024-03-03"]
    assert acts(place) == ['H 2024-03-01 ["ann",""]', 'T 2024-03-03 ["ann",""]', gone_line(2, event("e2", 2)), 'H 2024-03-04 ["ann",""]', 'R 2024-03-01 ["ann",""]',
                           gone_line(1, event("e1", 1)), 'R 2024-03-04 ["ann",""]']
    assert b"its windows are one day each, and 2024-03 is none" in place.run("cadf-forget", "--hold", "2024-03", "site", status=1).error


@pytest.mark.parametrize("words, said", [
    (["--before", "now+2d", "site"], b"it is to come: what arrives until then would not be taken"),
    (["--hold", "2024-03-99", "site"], b"no month, day or hour, as 2024-03-01"),
    (["--before", "2024-03-03", "--archive", "site", "site"], b"it is the site itself: name another folder by --archive"),
    (["site"], b"one of the arguments --before --keep --hold --release is required"),
], ids=["to come", "no window", "itself", "nothing"])
def test_words_that_are_refused(place, words, said):
    place.site(1, 2, 3)
    before = place.lines()
    assert said in place.run("cadf-forget", *words, status=2).error
    assert place.lines() == before


def test_a_damaged_window_goes_not(place):
    """What it had can't be said, so nothing goes until it is mended."""
    place.site(1, 2, 3)
    os.unlink(place.path / "site" / ("%s.%s.cadf" % place.files()[0][0]))
    before = place.lines()
    assert b"not there: the site is damaged: `cadf-sync --repair" in place.run("cadf-forget", "--before", "2024-03-02", "site", status=3).error
    assert place.lines() == before


# ---- The archive

@pytest.mark.parametrize("links", [True, False], ids=["by links", "by copies"])
def test_an_archive_is_a_site(place, links):
    place.site(1, 2, 3)
    if not links:
        tools = copied(str(place.path / "copy"), 'os.link(name, name, src', 'raise OSError(errno.EXDEV, ""); os.link(name, name, src')
        place = Place(place.cadf, place.path, tools)
    for day in ("2024-03-02", "2024-03-03"):
        place.run("cadf-forget", "--before", day, "--archive", "old/", "site")
    assert place.atoms("old") == atoms_of(event("e1", 1), event("e2", 2)) and place.files("old")[1] is None
    assert {os.stat(place.path / "old" / ("%s.%s.cadf" % each)).st_nlink for each in place.files("old")[0]} == {1}
    assert len(place.run("cadf-events", "old").output.splitlines()) == 2 and place.run("cadf-which", "old").error == b""
    place.run("cadf-forget", "--before", "2024-03-02", "old")
    place.run("cadf-take", "--windows", "all", "--by", "day", "other", "first.json")
    done = place.run("cadf-forget", "--before", "2024-03-02", "--archive", "old", "other", status=1)
    assert done.error == b"cadf-forget: old: it keeps from 2024-03-02 on itself: name another folder by --archive\n"


# ---- Kills

def killed_anywhere(place, *words):
    """A kill before each call leaves the site as it was or as it would be, and what goes in the archive or in the site. Made again, the call completes."""
    place.site(1, 2, 3)
    before, lines = place.atoms(), place.lines()
    program = os.path.join(place.tools, "cadf-forget")
    wanted = atoms_of(event("e3", 3))
    done, calls = calls_of(CALLS, program, [*words, "--archive", "site/../old", "site"], told="../calls", way="copied", cwd=place.path,
                           env={**os.environ, "CADF": place.cadf})
    assert done.status == 0, done
    states = []
    for number in range(1, len(calls) + 1):
        copy = Place(place.cadf, place.path.parent / ("%s-%d" % (place.path.name, number)), place.tools)
        is_before = copy.lines() == lines
        held = copy.atoms()
        assert held == (before if is_before else wanted)
        archived = copy.atoms("old") if (copy.path / "old" / "site").exists() else set()
        assert held | archived == before
        state = is_before, sorted(os.listdir(copy.path / "site")), sorted(os.listdir(copy.path / "old")) if (copy.path / "old").exists() else None
        if state not in states:
            states.append(state)
            copy.run("cadf-forget", *words, "--archive", "old", "site")
            assert copy.atoms() == wanted and copy.atoms("old") == before - wanted
            copy.run("cadf-take", "site", copy.put("again.json", event("e3", 3)))
            left = [name for name in os.listdir(copy.path / "site") if not name.startswith(".")]
            assert len(left) == 3, left
    assert {is_before for is_before, *_ in states} == {True, False}
    return len(states)


def test_a_kill_anywhere(place):
    assert killed_anywhere(place, "--before", "2024-03-03") > 5


WRONG = {
    "files go first": ('''        self.put(Index(before.log, before.unit, lines, gone.digits(), erased.digits() if erased.names else None))
        for name in''', '''        for entry in before.entries():
            if not gone.kept.has(entry[0]):
                self.is_removed(file_name(*entry))
        self.put(Index(before.log, before.unit, lines, gone.digits(), erased.digits() if erased.names else None))
        for name in'''),
    "the archive comes later": ('''            archive(found, going, options.archive, options.wait)
        found.forget(after)
''', '''            pass
        found.forget(after)
        archive(found, going, options.archive, options.wait) if going else None
'''),
}


@pytest.mark.parametrize("texts", WRONG.values(), ids=WRONG)
def test_wrong_orders_are_caught(cadf, tmp_path, texts):
    (tmp_path / "place").mkdir()
    is_caught(str(tmp_path), texts, killed_anywhere, lambda tools: Place(cadf, tmp_path / "place", tools), "--before", "2024-03-03")


def test_a_full_disk_has_room_kept(place):
    """It is given up before anything is written, and kept again."""
    place.site(1, 2, 3)
    place.run("cadf-take", "--settle", "site")
    assert (place.path / "site" / ".room").stat().st_size >= 2 ** 20 and (place.path / "site" / ".room").stat().st_blocks * 512 >= 2 ** 20
    program = os.path.join(place.tools, "cadf-forget")
    done, calls = calls_of("os.open os.unlink os.rename", program, ["--before", "2024-03-03", "site"], "copied", cwd=place.path, env={**os.environ, "CADF": place.cadf}, told="../calls")
    assert done.status == 0
    for number in range(1, len(calls) + 1):
        folder = place.path.parent / ("%s-%d" % (place.path.name, number)) / "site"
        is_written = (folder / ".new").exists() or any(name.startswith("gone.") for name in os.listdir(folder))
        assert not is_written or not (folder / ".room").exists() or b"CADF-SITE 2" in (folder / "site").read_bytes()
    assert (place.path / "site" / ".room").stat().st_size >= 2 ** 20
