"""The index beside a site's windows: what it says beside plain Python over the site's facts, and what a wrong one does."""
import collections
import contextlib
import json
import os
import random
import shutil
import sqlite3
import subprocess
import sys

import pytest

from tests import TOP
from tests.reference.events import document
from tests.reference.shown_texts import event_shown, parts_by_carrier
from tests.reference.split_files import parts_of
from tests.reference.times import time_of
from tests.tools.asked import LOG, TRAITS, answers, event, facts, posed, question, traits
from tests.tools.test_events import folder_of

import cadf_children
import cadf_index
import cadf_index_file
from cadf_keys import spelled
from cadf_logs import instant, utc
from cadf_site import Folder, file_name
from cadf_toolkit import Fault

UNITS = ("month", "day", "hour")
KEPT = [each for each in TRAITS if each != "id"]
DAY = 86400 * 10 ** 9
PASSED = "it is passed over"
MAKE = """
import sys
sys.path.insert(0, sys.argv[1])
import cadf_index_file, cadf_site
cadf_index_file.PATIENCE = 0.1
with cadf_site.Folder(sys.argv[2]) as folder:
    print(cadf_index_file.planned(folder, lambda index, site: sorted(index.several())))
"""


@pytest.fixture(autouse=True)
def cache(monkeypatch, tmp_path):
    """No index of the caller's own is made elsewhere."""
    monkeypatch.setenv("XDG_CACHE_HOME", str(tmp_path / "cache"))
    return tmp_path / "cache" / "cadf"


def planned(folder, make=lambda index, _: rows_of(index)):
    with Folder(str(folder)) as site:
        return cadf_index_file.planned(site, make)


def rows_of(index):
    """All that it has, without its numbers."""
    texts = [dict(index.run("SELECT id, text FROM %s_texts" % column)) for column in cadf_index.COLUMNS]
    bodies = index.run("SELECT name, key, second, nanosecond, initiator, target, others FROM bodies JOIN windows ON windows.id = window").fetchall()
    assert list(map(set, texts)) == [{row[place] for row in bodies} - {0} for place in (4, 5, 6)]
    several = {each: index.windows_with(each) for each in index.several()}
    places = sorted(index.places(several).items())
    assert sum(len(own) for _, own in places) == index.run("SELECT count(*) FROM places").fetchone()[0]
    return sorted((*row[:4], *(own.get(number) for own, number in zip(texts, row[4:]))) for row in bodies), sorted(several.items()), places


def bodies_of(atoms):
    """Each body, as an event that a log would show."""
    parts = parts_by_carrier(atoms)
    return [event_shown(*atom[1:], parts) for atom in sorted(atoms) if atom[0] == "E" and len(atom) == 3]


def key(each):
    return cadf_index.key_of(spelled(each["id"]))


# ---- What it says

@pytest.mark.parametrize("seed", range(6))
def test_keys_and_counts(tmp_path, seed):
    """Of each question it names the keys of each window that have a body that answers, and counts those that have no other body."""
    chance = random.Random(seed)
    atoms, unit = facts(chance, 60), UNITS[seed % 3]
    folder, every, windows = folder_of(tmp_path / "site", atoms, unit, chance), bodies_of(atoms), collections.defaultdict(list)
    for part, own in parts_of(atoms, unit).items():
        windows[part] = bodies_of(own) if part != "shared" else []
    counts = collections.Counter(each["id"] for each in every)
    for _ in range(40):
        options = [(name, value) for name, value in question(chance, atoms) if name[2:] in (*KEPT, "since", "until")]

        def check(index, site, options=options):
            index.ask(posed(options))
            for part, own in windows.items():
                answering = {key(each) for each in own if answers(options, each)}
                assert keys_in(index.keys(part)) == answering, (options, part)
                assert index.keys_of_several().get(part, set()) == {key(each) for each in own if answers(options, each) and counts[each["id"]] > 1}
            assert index.keys_unknown() == {}
            plain = [each for each in every if answers(options, each) and counts[each["id"]] == 1]
            for by in ("action", "outcome", "type"):
                assert index.counts(by) == collections.Counter(traits(each)[by].pop() for each in plain)
            assert sum(index.counts("hour").values()) == sum(index.counts("initiator").values()) == len(plain)
            assert index.counts("day") == collections.Counter(day_of(each) for each in plain)
            return True

        assert planned(folder, check)
    several = {name: {part for part, own in windows.items() if name in [each["id"] for each in own]} for name, count in counts.items() if count > 1}
    assert planned(folder, lambda index, _: {each: index.windows_with(each) for each in index.several()}) == {key({"id": name}): parts for name, parts in several.items()}


def day_of(each):
    """The day in which an event is, by its first instant."""
    return utc(instant("1970-01-01") + time_of(each["eventTime"]).instant // DAY * DAY)


def keys_in(joined):
    assert len(joined) % 16 == 0
    return {joined[place:place + 16] for place in range(0, len(joined), 16)}


@pytest.mark.parametrize("identifiers", [["e1"], ["e1", "e2"], ["e1", "nobody"], ["e*"]])
def test_identifiers(tmp_path, identifiers):
    """Whole identifiers are looked up; patterns of them are left to who reads the files."""
    atoms = facts(random.Random(1))
    folder = folder_of(tmp_path / "site", atoms, "day", random.Random(1))

    def check(index, site):
        index.ask(posed([("--id", each) for each in identifiers]))
        found = set().union(*(keys_in(index.keys(part)) for part in site.parts()))
        assert found == {key(each) for each in bodies_of(atoms) if each["id"] in identifiers or identifiers == ["e*"]}
        return True

    assert planned(folder, check)


def test_what_is_not_known_may_answer(tmp_path, monkeypatch):
    """A body that is too large to be looked at, or has a text too long to be kept, may answer any question, and isn't counted."""
    atoms = facts(random.Random(2))
    for name, value in (("LARGEST_BODY", 100), ("LONGEST_TEXT", 30)):
        monkeypatch.setattr(cadf_index, name, value)
        folder = folder_of(tmp_path / name, atoms, "day", random.Random(2))

        def check(index, site):
            index.ask(posed([("--action", "read"), ("--since", "2024-03-01"), ("--initiator", "alice")]))
            least = {key(each) for each in bodies_of(atoms) if answers([("--action", "read"), ("--since", "2024-03-01"), ("--initiator", "alice")], each)}
            assert least <= set().union(*index.keys_unknown().values()) and not index.counts("action")
            return True

        assert planned(folder, check)


def test_places(tmp_path):
    """Of each key with several bodies it says where its lines are, in all files of its windows and in no other; other bytes there are refused."""
    chance = random.Random(11)
    atoms = facts(chance, 60)
    folder = folder_of(tmp_path / "site", atoms, "day", chance)
    places, every = planned(folder, lambda index, _: (index.places(index.several()), index.places()))
    assert places == every
    found, names = collections.defaultdict(set), {(part, digest): file_name(part, digest) for part, own in windows_in(folder).items() for digest in own}
    with Folder(str(folder)) as site:
        for entry, own in places.items():
            each = site.input(names[entry])
            for key, place in own.items():
                lines, = cadf_index.lines_at(each, [place])
                name, = keys_of(lines)
                assert cadf_index.key_of(spelled(name)) == key
                found[name].add(entry)
                with pytest.raises(Fault):
                    list(cadf_index.lines_at(each, [(place[0] + 1, *place[1:])]))
            each.file.close()
    every = collections.defaultdict(set)
    for entry, name in names.items():
        for key in keys_of((tmp_path / "site" / name).read_bytes()):
            every[key].add(entry)
    counts = collections.Counter(each["id"] for each in bodies_of(atoms))
    assert found == {key: entries for key, entries in every.items() if counts[key] > 1} and found


def keys_of(data):
    """The keys of events in lines of a file."""
    return [json.loads(line)[2] for line in data.split(b"\n") if line.startswith(b"[2,0,")]


def test_children_make_the_same(tmp_path, monkeypatch):
    """An index that several children of the process have made is the one that a single process makes; what one of them refuses is refused."""
    atoms = facts(random.Random(12), 60)
    folder = tmp_path / "site"
    folder_of(folder, atoms, "hour", random.Random(12))
    other = shutil.copytree(folder, tmp_path / "other")
    assert len(windows_in(folder)) > 6
    counts = []
    monkeypatch.setattr(cadf_children, "FEWEST", 2)
    fork = os.fork
    monkeypatch.setattr(os, "fork", lambda: counts.append(1) or fork())
    monkeypatch.setattr(cadf_index, "usable", lambda: 3)
    rows = planned(folder)
    assert len(counts) == 3
    monkeypatch.setattr(cadf_index, "usable", lambda: 1)
    assert planned(other) == rows and len(counts) == 3
    (folder / ".index").unlink()
    monkeypatch.setattr(cadf_index, "usable", lambda: 3)
    part, digests = sorted(windows_in(folder).items())[-1]
    with open(folder / file_name(part, digests[0]), "r+b") as file:
        file.seek(-70, os.SEEK_END)
        file.write(b"#")
    with pytest.raises(Fault, match=part):
        planned(folder)


# ---- How it is kept

def change(folder, atoms):
    """Has the folder be one of these facts."""
    for each in folder.iterdir():
        if not each.name.startswith("."):
            each.unlink()
    folder_of(folder.parent / "other", atoms, "day", random.Random(4))
    shutil.copytree(folder.parent / "other", folder, dirs_exist_ok=True)
    shutil.rmtree(folder.parent / "other")


def test_only_changed_windows_are_read_again(tmp_path, monkeypatch):
    """It becomes what a new one is, and reads the files of those windows that have others; nothing is left of what went."""
    chance, read_files = random.Random(3), []
    contents = cadf_index.contents
    monkeypatch.setattr(cadf_index, "contents", lambda digest, each: read_files.append(digest) or contents(digest, each))
    atoms = frozenset(facts(chance, 60))
    folder = tmp_path / "site"
    folder_of(folder, atoms, "day", random.Random(4))
    for step in range(4):
        planned(folder)
        before, read_files[:] = windows_in(folder), []
        part = chance.choice([name for name in parts_of(atoms, "day") if name != "shared"])
        more = dict(event(chance, "new%d" % step), eventTime="2024-05-05T00:00:00Z")
        atoms = (atoms - set(parts_of(atoms, "day")[part])) | document({"id": LOG, "events": [more]})[1]
        change(folder, atoms)
        now = windows_in(folder)
        rows = planned(folder)
        assert sorted(read_files) == sorted(digest for name, digests in now.items() if before.get(name) != digests for digest in digests)
        shutil.copytree(folder, tmp_path / ("new%d" % step), ignore=lambda *_: [".index"])
        assert rows == planned(tmp_path / ("new%d" % step))
    read_files[:] = []
    assert planned(folder) == rows and not read_files


class Whole:
    """Chance by which a folder has one file a part."""
    randrange, choice = (lambda *_: 1), (lambda _, each: each[0])


def test_windows_whose_files_were_joined(tmp_path, monkeypatch):
    """What it has of them stays, as what else is kept of them does; those are read again in which a key has several bodies, whose places are others."""
    chance, read_files, folder = random.Random(9), [], tmp_path / "site"
    plain = [dict(event(chance, "plain%d" % number), eventTime="2024-06-%02dT00:00:00Z" % (1 + number % 5)) for number in range(30)]
    atoms = facts(chance, 60) | document({"id": LOG, "events": plain})[1]
    folder_of(folder, atoms, "day", chance)
    several = planned(folder, lambda index, _: index.windows_of_several())
    with Folder(str(folder)) as site:
        before = site.site().parts()
        cadf_index_file.keep(site, "root 1", {cadf_index.files_of(files): ("7 x", 1, 5) for files in before.values()})
    (folder / ".index").rename(tmp_path / "index")
    shutil.rmtree(folder)
    folder_of(folder, atoms, "day", Whole())
    (tmp_path / "index").rename(folder / ".index")
    with Folder(str(folder)) as site:
        after = site.site().parts()
        cadf_index_file.carry_over(site, before, after)
        kept = cadf_index_file.kept(site, "root 1")
    sizes = {part: (folder / file_name(part, *files)).stat().st_size if files != before[part] else 1 for part, files in after.items()}
    assert kept == {cadf_index.files_of(files): ["7 x", sizes[part], 5] for part, files in after.items()}
    contents = cadf_index.contents
    monkeypatch.setattr(cadf_index, "contents", lambda digest, each: read_files.append(digest) or contents(digest, each))
    rows, joined = planned(folder), {part: files for part, files in after.items() if files != before[part] and part != "shared"}
    assert sorted(read_files) == sorted(files[0] for part, files in joined.items() if part in several) and joined.keys() - several
    shutil.copytree(folder, tmp_path / "new", ignore=lambda *_: [".index"])
    assert rows == planned(tmp_path / "new")


def windows_in(folder):
    with Folder(str(folder)) as site:
        return {part: digests for part, digests in site.site().parts().items() if part != "shared"}


def test_nothing_is_left_of_a_person_who_went(tmp_path):
    folder = tmp_path / "site"
    person = document({"id": LOG, "events": [dict(event(random.Random(0), "e1"), initiatorId="Rosalind", eventTime="2024-03-01T00:00:00Z")]})[1]
    folder_of(folder, person | facts(random.Random(5)), "day", random.Random(5))
    planned(folder)
    assert b"Rosalind" in (folder / ".index").read_bytes()
    change(folder, facts(random.Random(5)))
    planned(folder)
    assert b"Rosalind" not in (folder / ".index").read_bytes() and not (folder / ".index-journal").exists()


def test_a_quarter_of_the_bytes(tmp_path):
    """Of events as OpenStack's services write them the index has at most a quarter of the bytes."""
    chance = random.Random(6)

    def name(count):
        """One of so many identifiers."""
        return "%032x" % random.Random(chance.randrange(count)).getrandbits(128)

    events = [{"id": name(10 ** 9), "eventType": "activity", "eventTime": "2024-03-%02dT%02d:%02d:%02d.%06dZ" % (
        1 + number // 1500, chance.randrange(24), chance.randrange(60), chance.randrange(60), chance.randrange(10 ** 6)),
        "action": chance.choice(["read/list", "create", "authenticate", "update/add"]), "outcome": chance.choice(["success", "success", "failure"]),
        "initiator": {"id": name(200), "name": "user%d" % chance.randrange(200), "typeURI": "service/security/account/user", "project_id": name(20),
                      "host": {"address": "10.0.%d.%d" % (chance.randrange(9), chance.randrange(250)), "agent": "python-keystoneclient " + name(9)}},
        "target": {"id": name(10 ** 9), "typeURI": "service/compute/servers", "name": "server-%d" % chance.randrange(10 ** 4)},
        "observer": {"id": name(3), "name": "nova", "typeURI": "service/compute"}, "requestPath": "/v2.1/servers/" + name(10 ** 9),
        "reason": {"reasonCode": "200", "reasonType": "HTTP"}, "tags": ["correlation_id?value=" + name(10 ** 9)],
        "reporterchain": [{"role": "modifier", "reporterTime": "2024-03-31T00:00:00.%06dZ" % chance.randrange(10 ** 6), "reporterId": name(3)}]}
        for number in range(4500)]
    folder = tmp_path / "site"
    folder_of(folder, document({"id": LOG, "events": events})[1], "day", random.Random(0))
    planned(folder)
    size = sum(each.stat().st_size for each in folder.iterdir() if each.name.endswith(".cadf"))
    assert (folder / ".index").stat().st_size < size / 4


# ---- Which one is trusted

def plant(wrong, path):
    """Has an index be wrong in one way."""
    if wrong == "wider":
        os.chmod(path, 0o666)
    elif wrong == "link":
        os.rename(path, str(path) + "ed")
        os.symlink(os.path.basename(path) + "ed", path)
    elif wrong == "names":
        os.link(path, str(path) + "ed")
    elif wrong == "fifo":
        os.unlink(path)
        os.mkfifo(path, 0o600)
    elif wrong == "folder":
        os.unlink(path)
        os.mkdir(path, 0o700)
    elif wrong == "journal":
        os.symlink("site", str(path) + "-journal")
    elif wrong == "owner":
        os.chown(path, 65534, -1)
    elif wrong == "text":
        with open(path, "wb") as file:
            file.write(b"\0" * 4096)
    elif wrong == "cut":
        os.truncate(path, os.path.getsize(path) // 2)
    else:
        with sqlite3.connect(path) as connection:
            connection.execute(wrong)
        connection.close()


@pytest.mark.parametrize("wrong", ["wider", "link", "names", "fifo", "folder", "journal", "text", "cut", pytest.param("owner", marks=pytest.mark.root),
                                   "PRAGMA user_version = 1", "PRAGMA application_id = 7", "PRAGMA journal_mode = wal", "DROP TABLE several",
                                   "CREATE VIEW odd AS SELECT 1", "CREATE TRIGGER odd AFTER DELETE ON windows BEGIN DELETE FROM bodies; END"])
def test_a_wrong_one_is_passed_over(tmp_path, capsys, cache, wrong):
    """It is told, stays as it is, and the answer is that of one elsewhere."""
    folder = tmp_path / "site"
    folder_of(folder, facts(random.Random(7)), "day", random.Random(7))
    rows = planned(folder)
    plant(wrong, folder / ".index")
    names = sorted(os.listdir(folder))
    assert not capsys.readouterr().err and planned(folder) == rows
    said = capsys.readouterr().err.splitlines()
    assert len(said) == 2 and str(folder / ".index") in said[0] and said[0].endswith(PASSED) and cadf_index_file.MADE in said[1], said
    assert sorted(os.listdir(folder)) == names and os.listdir(cache)
    os.chmod(cache, 0o777)
    assert planned(folder) is None and len(capsys.readouterr().err.splitlines()) == 2


@pytest.mark.parametrize("page", range(0, 12))
def test_a_damaged_page(tmp_path, capsys, page):
    """Where SQLite says that it is damaged, another one is made."""
    folder = tmp_path / "site"
    folder_of(folder, facts(random.Random(8)), "day", random.Random(8))
    rows = planned(folder)
    with open(folder / ".index", "r+b") as file:
        file.seek(4096 * page)
        file.write(random.Random(page).randbytes(64))
    assert planned(folder) == rows and capsys.readouterr().err.count(PASSED) <= 1


@pytest.mark.needs("strace")
@pytest.mark.parametrize("fault, step", [("signal=KILL", 4), ("error=ENOSPC", 6), ("error=EIO", 7), pytest.param("signal=KILL", 1, marks=pytest.mark.release)])
def test_each_write_is_the_last_or_fails(tmp_path, capsys, fault, step):
    """Whatever call to change the disk ends the program or fails, the next call has the right answer by the same index."""
    begun, calls = tmp_path / "begun", "pwrite64,write,fsync,fdatasync,unlink,ftruncate"
    folder_of(begun, facts(random.Random(9), 40), "day", random.Random(9))
    right = planned(shutil.copytree(begun, tmp_path / "right"))
    for number in range(1, 200, step):
        folder = shutil.copytree(begun, tmp_path / str(number))
        names = [word for name in (".index", ".index-journal") for word in ("-P", str(folder / name))]
        done = subprocess.run(["strace", "-qq", "-f", "-o", "/dev/null", *names, "-e", "trace=" + calls, "-e", "inject=%s:%s:when=%d" % (calls, fault, number),
                               sys.executable, "-c", MAKE, os.path.join(TOP, "share", "cadf"), str(folder)], stdout=subprocess.PIPE, stderr=subprocess.PIPE)
        if b"ptrace" in done.stderr:
            pytest.skip("strace isn't allowed")
        assert planned(folder) == right and capsys.readouterr().err == "" and b"Traceback" not in done.stderr, number
        shutil.rmtree(folder)
        if done.returncode == 0 and not done.stderr:
            break
    assert 20 < number < 199


def test_numbers_of_texts():
    """A text keeps its number, also beside others of its hash; one that is too long has none, and an index without further numbers isn't used."""
    with contextlib.closing(sqlite3.connect(":memory:", isolation_level=None)) as connection:
        index, long = cadf_index.EventIndex(connection), (3, "x" * (2 ** 12 + 1))
        first = index.numbers_of("target", {(number // 2, str(number)) for number in range(1200)})
        assert sorted(first.values()) == list(range(1, 1201))
        second = index.numbers_of("target", {(0, "0"), (0, "1"), (0, "2"), long})
        assert second == {(0, "0"): first[0, "0"], (0, "1"): first[0, "1"], (0, "2"): 1201, long: 0}
        connection.execute("INSERT INTO others_texts VALUES (?, 0, '')", (2 ** 63 - 1,))
        with pytest.raises(cadf_index.Untrusted):
            index.numbers_of("others", {(1, "a")})
