"""cadf-which --scrub: a share of a folder a night, what it finds, what it keeps, and its numbers."""
import contextlib
import functools
import os
import re
import sqlite3
import time

import pytest

from tests.tools.copies import is_caught
from tests.tools.test_damage import changed, file_of
from tests.tools.test_site_folders import EVENT, Site, with_digest
from tests.tools.test_tools_of_folders import Sites

CLOCK = "import os, time\nnow = time.time\ntime.time = lambda: now() + float(os.environ['CLOCK'])\n"
DAY = 86400
DAYS = ["2024-03-%02d" % day for day in range(1, 7)]


@pytest.fixture(autouse=True)
def command(cadf, monkeypatch):
    """Has the tools run the command that is tried."""
    monkeypatch.setattr(Site, "command", cadf)


class Scrubs(Sites):
    """A folder of six days of as many bytes, and nights."""

    def __init__(self, path, *words):
        super().__init__(path, *words)
        (path / "sitecustomize.py").write_text(CLOCK)
        self.environment["PYTHONPATH"] = str(path)
        self.at(0)
        self.north.takes({"id": "g", "events": [dict(EVENT, id="e", eventTime=day + "T00:00:00Z") for day in DAYS]})

    def at(self, night):
        self.environment["CLOCK"] = str(DAY * night)

    def scrub(self, night, *words):
        self.at(night)
        return self.run("which", "--scrub", *words, "north/")

    def numbers(self):
        return {name: int(value) for name, value in re.findall(r"(?m)^cadf_(\w+){.*} (\d+)$", (self.path / "m.prom").read_text())}

    def state(self):
        """The lines of the state, by letter and part."""
        data = (self.north.folder / ".state").read_bytes()
        assert data.startswith(b"CADF-STATE 1\n") and data == with_digest(data[:data.rfind(b"Z ")])
        found = [line.split(" ") for line in data.decode().splitlines()[1:-1]]
        assert {(line[1], line[2]) for line in found if line[0] == "S"} <= {(part, digest) for part, digests in self.north.files().items() for digest in digests}
        return {(line[0], line[1]): int(line[3]) for line in found}


@pytest.fixture
def scrubs(tmp_path):
    return Scrubs(tmp_path)


def test_a_share_a_night(scrubs):
    """Three nights read all of it, a third each, and the fourth what the first has read."""
    nights = []
    for night in range(1, 5):
        assert scrubs.scrub(night, "--share", "1/3", "--metrics", "m.prom") == (0, "", [])
        nights.append(scrubs.read())
        since = time.time() + DAY * max(0, night - 2) if night > 2 else file_of(scrubs.north, DAYS[0]).stat().st_mtime
        assert abs(scrubs.numbers()["oldest_scrub_timestamp_seconds"] - since) < DAY / 2 and scrubs.numbers()["damaged_windows"] == 0
    assert [len(read) for read in nights] == [2, 2, 2, 2] and set.union(*nights[:3]) == set(DAYS) and nights[3] == nights[0]
    assert set(scrubs.state()) == {("S", day) for day in DAYS}


def test_damage_is_named_each_night(scrubs):
    """Until it is mended, beside the share; no night is used up by it. The time is that of the night that found it."""
    assert scrubs.scrub(1) == (0, "", []) and scrubs.read() == set(DAYS)
    path = file_of(scrubs.north, DAYS[0])
    data = path.read_bytes()
    changed(path)
    seen = set()
    for night in range(2, 8):
        status, output, lines = scrubs.scrub(night, "--share", "1/6", "--metrics", "m.prom")
        read = scrubs.read()
        seen |= read - {DAYS[0]}
        is_found = night > 2 or DAYS[0] in read
        assert (status, output, len(lines), scrubs.numbers()["damaged_windows"]) == (is_found, "", is_found, is_found), lines
        assert not is_found or lines[0].startswith("north/%s: digest: " % path.name)
    assert seen == set(DAYS[1:])
    path.unlink()
    status, _, lines = scrubs.scrub(8, "--share", "1/6")
    assert status == 1 and lines == ["north/%s: not there: the site is damaged: `cadf-sync --repair SITE/ HOST:SITE` mends it, or restore it as the guide says under `A damaged site`" % path.name]
    assert ("D", DAYS[0]) in scrubs.state() and abs(scrubs.state()["D", DAYS[0]] - time.time() - 2 * DAY) < DAY / 2
    path.write_bytes(data)
    assert scrubs.scrub(9, "--share", "1/6", "--metrics", "m.prom")[0] == 0 and scrubs.numbers()["damaged_windows"] == 0
    assert ("D", DAYS[0]) not in scrubs.state()


def test_a_clock_that_was_ahead(scrubs):
    """What was seen in a time that is still to come was seen never: all is read again, and the numbers say so."""
    assert scrubs.scrub(5000)[0] == 0
    assert scrubs.scrub(1, "--share", "1/6", "--metrics", "m.prom") == (0, "", [])
    assert len(scrubs.read()) == 1 and abs(scrubs.numbers()["oldest_scrub_timestamp_seconds"] - time.time()) < DAY / 2
    for path in scrubs.north.folder.glob("2024-*"):
        os.utime(path, (2 ** 33, 2 ** 33))
    (scrubs.north.folder / ".state").unlink()
    assert scrubs.scrub(2, "--share", "1/6", "--metrics", "m.prom") == (0, "", []) and scrubs.numbers()["oldest_scrub_timestamp_seconds"] == 0


def test_a_state_that_is_damaged_or_has_more(scrubs):
    """A damaged one is told, and made anew. Lines of letters that scrubbing doesn't know stay."""
    state = scrubs.north.folder / ".state"
    state.write_bytes(with_digest(b"CADF-STATE 1\nX of another\n"))
    assert scrubs.scrub(1) == (0, "", []) and state.read_bytes().count(b"\nX of another\n") == 1
    data = state.read_bytes()
    for wrong in (data[:-1], data.replace(b"S 2024", b"S 2025", 1), b"", with_digest(b"CADF-STATE 2\n")):
        state.write_bytes(wrong)
        said = "cadf-which: north/.state: not the file of what a site knows, or damaged: what it had is not known any more"
        status, output, lines = scrubs.scrub(2)
        assert (status, output, set(lines)) == (0, "", {said}) and set(scrubs.state()) == {("S", day) for day in DAYS}
    (scrubs.north.folder / ".state.new").write_text("what a kill has left")
    assert scrubs.scrub(3) == (0, "", []) and not (scrubs.north.folder / ".state.new").exists()


def test_files_that_go_meanwhile(scrubs):
    """A take that joins what is being read: no file of it is damaged, and those that went are kept no longer."""
    more = [scrubs.north.put({"id": "g", "events": [dict(EVENT, id=str(number), eventTime=DAYS[0] + "T00:00:00Z")]}) for number in range(7)]
    scrubs.north.take(files=more[:1])
    assert scrubs.scrub(1)[0] == 0 and sum(key[0] == "S" for key in scrubs.state()) == 6
    late = scrubs.path / "late"
    late.write_text("#!/bin/sh\nmkdir %s/once 2>/dev/null && CADF=%s %s --settle north/ && rm -f %s && CADF=%s %s north/ %s\nexec %s \"$@\"\n" % (
        scrubs.path, Site.command, os.path.join(scrubs.tools, "cadf-take"), " ".join(map(str, scrubs.north.folder.glob(DAYS[0] + ".*"))),
        Site.command, os.path.join(scrubs.tools, "cadf-take"), more[1], Site.command))
    late.chmod(0o755)
    scrubs.environment["CADF"] = str(late)
    assert scrubs.scrub(2) == (0, "", []) and (scrubs.path / "once").is_dir()


WRONG = {
    "a body that lacks": "DELETE FROM bodies WHERE rowid = (SELECT min(rowid) FROM bodies)",
    "a body of another time": "UPDATE bodies SET second = second + 1 WHERE rowid = 1",
    "a body of another action": "UPDATE others_texts SET text = replace(text, 'read', 'reap')",
    "a body that isn't there": "INSERT INTO bodies SELECT window, zeroblob(16), second, nanosecond, initiator, target, others FROM bodies WHERE rowid = 1",
    "an open key that isn't told": "DELETE FROM several", "a place that lacks": "DELETE FROM places", "another place": "UPDATE places SET begin = begin + 1",
    "other bytes": "UPDATE windows SET bytes = bytes + 1", "another root": "UPDATE kept SET value = substr(value, 1, 65) || 'x' || substr(value, 67) WHERE kind = 'roots 1'",
    "another root of keys": "UPDATE kept SET value = substr(value, 1, length(value) - 1) || 'x' WHERE kind = 'roots 1'"}


@pytest.mark.parametrize("wrong", WRONG)
def test_a_wrong_index_is_told_and_made_anew(scrubs, wrong):
    """Of the windows that are read: what it has of them then is what one has that is made anew."""
    scrubs.north.takes({"id": "g", "events": [dict(EVENT, id="e", eventTime=DAYS[0] + "T01:00:00Z")]})
    assert scrubs.run("conflicts", "north/")[0] == 5 and scrubs.run("seal", "north/")[0] == 0 and scrubs.scrub(1) == (0, "", [])
    index = scrubs.north.folder / ".index"
    with contextlib.closing(sqlite3.connect(index)) as connection:
        before = contents(connection)
        connection.execute(WRONG[wrong])
        connection.commit()
        assert contents(connection) != before
    status, output, lines = scrubs.scrub(2)
    assert (status, output) == (5, "") and all(re.match(r"north/\.index: it had something else of 2024-03-0\d than the window's files: it was made anew: ", line) for line in lines)
    with contextlib.closing(sqlite3.connect(index)) as connection:
        assert contents(connection) == before or wrong.startswith("another root")
    assert scrubs.scrub(3) == (0, "", []) and scrubs.run("seal", "north/")[0] == 0
    index.unlink()
    assert scrubs.scrub(4) == (0, "", []) and not index.exists()


def contents(connection):
    """What an index has, without its numbers."""
    texts = "(SELECT text FROM {0}_texts WHERE id = {0})"
    rows = "SELECT name, key, second, nanosecond, %s, %s, %s, bytes FROM bodies JOIN windows ON windows.id = window" % tuple(
        texts.format(column) for column in ("initiator", "target", "others"))
    return [sorted(connection.execute(each)) for each in (rows, "SELECT key FROM several", "SELECT key, digest, begin, length, hash FROM places",
                                                          "SELECT kind, files, value FROM kept WHERE kind = 'roots 1'")]


@pytest.mark.parametrize("words, said", [
    (["--scrub", "--share", "2/1", "north/"], "not a share, as 1/30"), (["--scrub", "--share", "0/1", "north/"], "not a share, as 1/30"),
    (["--share", "1/2", "north/"], "--share and --metrics go with --scrub"), (["--scrub", "north/", "south/"], "--scrub goes with one SITE, --share and --metrics"),
    (["--scrub", "--log", "g", "north/"], "--scrub goes with one SITE, --share and --metrics")])
def test_words(scrubs, words, said):
    status, output, lines = scrubs.run("which", *words)
    assert (status, output) == (2, "") and lines[-1].endswith(said)


def test_a_file_is_no_folder(scrubs):
    assert scrubs.run("which", "--scrub", "1.json") == (3, "", ["cadf-which: 1.json: Not a directory: `cadf-take --by day NEW/ 1.json` makes a folder of a site's file"])


@pytest.mark.parametrize("check, right, wrong", [
    (test_a_share_a_night, "(entry not in self.damaged, self.seen[entry])", "self.damaged"),
    (test_damage_is_named_each_night, "            if entry in self.damaged:\n                yield entry\n            elif left", "            if left"),
    (test_damage_is_named_each_night, "times.setdefault((DAMAGED, *entry), self.now)", "times[(DAMAGED, *entry)] = self.now"),
    (test_a_clock_that_was_ahead, "if at <= self.now), 0)", "), 0)"),
    (functools.partial(test_a_wrong_index_is_told_and_made_anew, wrong="a body that isn't there"),
     "collections.Counter(rows) == collections.Counter(", "set(map(tuple, rows)) >= set("),
    (functools.partial(test_a_wrong_index_is_told_and_made_anew, wrong="an open key that isn't told"), " and set(counted) == set(several)", ""),
    (functools.partial(test_a_wrong_index_is_told_and_made_anew, wrong="another root"), "                    bad.add(key)", "                    pass"),
])
def test_a_wrong_version_is_caught(tmp_path, check, right, wrong):
    is_caught(tmp_path, (right, wrong), check, functools.partial(Scrubs, tmp_path))
