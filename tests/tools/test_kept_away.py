"""What a site keeps no more stays away in exchanges: with floors that differ, held windows, old backups, and ends that know of no floor."""
import json
import os
import shutil
import sys

import pytest

from tests import TOP
from tests.reference.replica_files import read_file
from tests.tools.copies import copied, is_caught
from tests.tools.kept_sites import Place, atoms_of, event

sys.path.insert(0, os.path.join(TOP, "share", "cadf"))
import cadf_gone


DEAF = ['    floor, held = members.get("kept_from"), members.get("held", [])\n', "    floor, held = None, []\n"]  # an end that hears of no floor


@pytest.fixture
def place(cadf, tmp_path):
    return Place(cadf, tmp_path)


def events(*days):
    return [event("e%d" % day, day) for day in days]


def sync(place, *words, status=0):
    """What an exchange says at its end, and on the way."""
    done = place.run("cadf-sync", "--json", *words, status=status)
    return json.loads(done.output), done.error.decode()


# ---- Two ends

def floors_that_differ(place):
    """Each end has what it keeps, and both all that both keep; a second call sends nothing, in either direction."""
    place.site(1, 2, 3, 5, name="north")
    place.run("cadf-take", "--by", "day", "south", place.put("south.json", *events(2, 4, 6)))
    place.run("cadf-forget", "--before", "2024-03-04", "north")
    told, said = sync(place, "south", "north/", status=5)
    assert said == ("cadf-sync: north/: it keeps from 2024-03-04 on, and 1 windows here are older: `cadf-forget --before 2024-03-04 south` has them go here too; "
                    "--keeps-longer says that they are to stay\n")
    assert (told["taken_here"], told["taken_there"], told["windows_not_kept_there"]) == (1, 2, 1)
    assert place.atoms("north") == atoms_of(*events(4, 5, 6)) and place.atoms("south") == atoms_of(*events(2, 4, 5, 6))
    for words, status, older in ((["south", "north"], 5, 1), (["north", "south"], 0, 0), (["--keeps-longer", "south", "north"], 0, 1)):
        told, said = sync(place, *words, status=status)
        assert [told[name] for name in ("taken_here", "taken_there", "windows_differed", "windows_not_kept_there")] == [0, 0, 0, older]
        assert bool(said) == (status == 5)
    place.run("cadf-forget", "--before", "2024-03-05", "south")
    assert sync(place, "south", "north")[0]["windows_not_kept_there"] == 0
    assert sync(place, "north", "south", status=5)[0]["windows_not_kept_there"] == 1


def test_floors_that_differ(place):
    floors_that_differ(place)


def test_an_old_backup_brings_nothing_back(place):
    """It hears of the floor from its peers at the next call, and does as they did by the command that is said."""
    place.site(1, 2, 3, name="north")
    shutil.copytree(place.path / "north", place.path / "backup")
    sync(place, "north", "south/")
    for name in ("north", "south"):
        place.run("cadf-forget", "--before", "2024-03-03", name)
    shutil.rmtree(place.path / "north")
    os.rename(place.path / "backup", place.path / "north")
    for words in (["south", "north"], ["north", "south"], ["--push", "north", "south"], ["--pull", "south", "north"]):
        done = place.run("cadf-sync", *words, status=5 if words[-2] == "north" else 0)
        assert place.atoms("south") == atoms_of(*events(3))
    command = done.error.decode() or place.run("cadf-sync", "north", "south", status=5).error.decode()
    words = command.partition("`cadf-forget ")[2].partition("`")[0].split(" ")
    place.run("cadf-forget", *words)
    assert place.atoms("north") == atoms_of(*events(3)) and sync(place, "north", "south")[1] == ""


def test_held_windows(place):
    """A window that both hold is exchanged below the floor of both; one that only one of them holds is not."""
    for name in ("north", "south"):
        place.run("cadf-take", "--by", "day", name, place.put(name + ".json", *events(1, 2, 3)))
    for name, held in (("north", ["2024-03-01", "2024-03-02"]), ("south", ["2024-03-01"])):
        for window in held:
            place.run("cadf-forget", "--hold", window, name)
        place.run("cadf-forget", "--before", "2024-03-03", name)
    place.run("cadf-take", "north", place.put("late.json", event("x1", 1), event("x2", 2)))
    told, _ = sync(place, "north", "south", status=5)
    assert told["taken_there"] == 1 and told["windows_not_kept_there"] == 1
    assert place.atoms("south") == atoms_of(event("x1", 1), *events(1, 3)) and place.atoms("north") == atoms_of(event("x1", 1), event("x2", 2), *events(1, 2, 3))


def test_a_file_and_a_folder(place):
    """A site that is a file keeps all, and gets and gives what the folder keeps."""
    place.site(1, 3, name="north")
    place.run("cadf-forget", "--before", "2024-03-03", "north")
    place.run("cadf-take", "south.cadf", place.put("south.json", *events(2, 4)))
    told, said = sync(place, "south.cadf", "north")
    assert said == "" and (told["taken_here"], told["taken_there"], told["windows_not_kept_there"]) == (1, 1, 0)
    assert place.atoms("north") == atoms_of(*events(3, 4)) and read_file((place.path / "south.cadf").read_bytes())[1] == atoms_of(*events(2, 3, 4))
    assert sync(place, "north", "south.cadf")[0]["windows_differed"] == 0


@pytest.mark.parametrize("calls", [True, False], ids=["that calls", "that is called"])
def test_an_end_that_knows_of_no_floor(place, calls, monkeypatch):
    """As one of an earlier release: what it sends below the floor is counted, and not taken. All else is."""
    place.site(1, 2, 3, name="north")
    place.run("cadf-forget", "--before", "2024-03-03", "north")
    place.run("cadf-take", "--by", "day", "south", place.put("south.json", *events(1, 4)))
    tools = copied(str(place.path / "copy"), *DEAF)
    (place.path / "rsh").write_text('#!/bin/sh\nexec sh -c "$3"\n')
    (place.path / "rsh").chmod(0o700)
    own, far = (tools, place.tools) if calls else (place.tools, tools)
    monkeypatch.setenv("PATH", far + os.pathsep + os.environ["PATH"])
    done = Place(place.cadf, place.path, own).run("cadf-sync", "--push" if calls else "--pull", "--rsh", str(place.path / "rsh"), *(["south", "here:north"] if calls else ["north", "here:south"]))
    assert place.atoms("north") == atoms_of(*events(3, 4))
    assert ("left out 1 windows that are older than 2024-03-03, from where this site keeps" in done.error.decode()) == calls


@pytest.mark.parametrize("members", [
    {"kept_from": "2024-03"}, {"kept_from": "shared"}, {"kept_from": 7}, {"held": ["2024-03-01"]}, {"kept_from": "2024-03-03", "held": ["2024-03-03"]},
    {"kept_from": "2024-03-03", "held": "2024-03-01"}, {"kept_from": "2024-03-03", "held": ["2024-03-01"] * 1001}, {"kept_from": "2024-03-03", "held": [["2024-03-01"]]}])
def test_first_lines_that_may_not_be(members):
    with pytest.raises((ValueError, TypeError)) as refused:
        cadf_gone.kept_told(members, "day")
    assert refused.type is ValueError
    assert cadf_gone.kept_told({"log": "g"}, None) == cadf_gone.ALL


def test_numbers_for_monitoring(place):
    place.site(1, 3, name="north")
    sync(place, "north", "south/")
    place.run("cadf-forget", "--before", "2024-03-03", "--metrics", "forget.prom", "north")
    assert "cadf_windows_forgotten_total{tool=\"cadf-forget\",site=\"north\"} 1\n" in (place.path / "forget.prom").read_text()
    place.run("cadf-sync", "--metrics", "south.prom", "south", "north", status=5)
    place.run("cadf-sync", "--metrics", "north.prom", "north", "south")
    assert 'cadf_windows_not_kept_by_peer{tool="cadf-sync",site="south",peer="north"} 1\n' in (place.path / "south.prom").read_text()
    text = (place.path / "north.prom").read_text()
    assert 'cadf_windows_not_kept_by_peer{tool="cadf-sync",site="north",peer="south"} 0\n' in text
    assert 'cadf_kept_from_timestamp_seconds{tool="cadf-sync",site="north",peer="south"} 1709424000\n' in text  # 2024-03-03


# ---- The spool

def test_what_waits_in_a_spool(place):
    """What is older than the floor waits with its cause; cadf-admit takes what it can, and keeps the rest for a person."""
    place.site(1, 3)
    place.run("cadf-forget", "--before", "2024-03-03", "site")
    (place.path / "spool").mkdir(mode=0o700)
    (place.path / "spool" / "late.jsonl").write_text("".join(json.dumps(each) + "\n" for each in events(1, 3, 4)))
    done = place.run("cadf-spool", "--unchanged", "0", "--log", "g", "site", "spool")
    assert b"1 facts wait, of 1 windows that the site keeps no more" in done.error
    assert place.atoms() == atoms_of(*events(3, 4))
    listed = place.run("cadf-admit", "spool", status=5).output.decode().split("\t")
    assert listed[1] == "1 facts" and listed[4] == "1 facts wait, of 1 windows that the site keeps no more\n"
    path = place.path / "spool" / "set-aside" / listed[3]
    place.run("cadf-take", "--by", "day", "both", place.put("more.json", *events(1, 5)))
    path.write_bytes(place.run_cadf("join", *(str(each) for each in (place.path / "both").iterdir() if each.name.endswith(".cadf"))))
    done = place.run("cadf-admit", "--take", "site", "spool", "waits-*", status=5)
    assert b"1 facts wait, of 1 windows that the site keeps no more" in done.error and place.atoms() == atoms_of(*events(3, 4, 5))
    assert read_file(path.read_bytes())[1] == atoms_of(*events(1))


# ---- What the tools say

def test_tools_say_from_when_a_site_keeps(place):
    """They go on without what went, and say so if that was asked for."""
    place.site(1, 2, 3)
    place.run("cadf-take", "--by", "day", "other", "first.json")
    place.run("cadf-forget", "--before", "2024-03-02", "site")
    said = "site keeps from 2024-03-02 on: what was older went"
    for words, is_said in (([], True), (["--since", "2024-03-01T23:59:59Z"], True), (["--since", "2024-03-02"], False), (["--no-index"], True)):
        done = place.run("cadf-events", *words, "site")
        assert len(done.output.splitlines()) == 2 and done.error.decode() == ("cadf-events: %s\n" % said) * is_said
    done = place.run("cadf-report", "site")
    assert done.error.decode() == "cadf-report: %s\n" % said and (said + ".").encode() in done.output
    assert place.run("cadf-report", "--since", "2024-03-02", "site").error == b""
    assert place.run("cadf-which", "site", "other").error.decode() == said + "\n"
    done = place.run("cadf-agree", "site", "other")
    assert done.error == b"site keeps from 2024-03-02 on: left out 1 windows of other\n"
    place.run("cadf-take", "other", place.put("more.json", event("x3", 3), event("x1", 1)))
    done = place.run("cadf-agree", "other", "site", status=5)
    assert done.error == b"site keeps from 2024-03-02 on: left out 1 windows of other\nsite lacks 1 fact of other\n"
    (place.path / "other.inventory").write_bytes(place.run_cadf("inventory", "first.json"))
    assert place.run("cadf-agree", "site", "other.inventory", status=5).error.decode() == "site lacks 1 fact of other.inventory\n%s\n" % said


def test_tools_go_on_though_nobody_knows_from_when(place):
    """What there is is shown, and what to do is said, with status 1."""
    place.site(1, 2, 3)
    place.run("cadf-forget", "--before", "2024-03-02", "site")
    os.unlink(place.path / "site" / ("gone." + place.files()[1]))
    for words, lines in ((["cadf-events", "site"], 2), (["cadf-report", "site"], None), (["cadf-which", "site"], 0), (["cadf-seal", "site"], 0), (["cadf-sync", "site", "new/"], 0)):
        done = place.run(*words, status=1)
        assert b"not there: put the file of this name back from a backup" in done.error and lines in (None, len(done.output.splitlines())), words


# ---- Ends that do wrong

@pytest.mark.parametrize("texts", [
    DEAF,
    ["own.has(part) and kept.has(part))", "own.has(part))"],
    ["    return count\n\n\ndef more_cells", "    return 0\n\n\ndef more_cells"],
    ["part >= self.floor or", "part > self.floor or"],
], ids=["a floor that isn't heard", "a second call that compares again", "a peer's floor in silence", "the floor's own window"])
def test_a_wrong_end_is_caught(cadf, tmp_path, texts):
    (tmp_path / "place").mkdir()
    is_caught(str(tmp_path), texts, floors_that_differ, lambda tools: Place(cadf, tmp_path / "place", tools))
