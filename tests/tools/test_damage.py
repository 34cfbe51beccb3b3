"""A folder of which a window's file is damaged: the tools answer by the others, and say what isn't known."""
import functools
import json
import os

import pytest

from tests.tools.copies import is_caught
from tests.tools.test_report import Data
from tests.tools.test_site_folders import EVENT, Site, contents
from tests.tools.test_tools_of_folders import Sites, told_on_two_days

FIRST, SECOND = "2024-02-29", "2024-03-01"


@pytest.fixture(autouse=True)
def command(cadf, monkeypatch):
    """Has the tools run the command that is tried."""
    monkeypatch.setattr(Site, "command", cadf)


@pytest.fixture
def sites(tmp_path):
    return Sites(tmp_path)


def file_of(site, part):
    path, = site.folder.glob(part + ".*")
    return path


def changed(path):
    path.write_bytes(path.read_bytes().replace(b"read", b"reap"))


def cut(path):
    os.truncate(path, path.stat().st_size - 1)


def linked(path):
    path.rename(path.parent.with_suffix(".moved"))
    path.symlink_to(path.parent.with_suffix(".moved"))


def left_out(tool, part, lines):
    """Whether these lines say that the part was left out, and nothing else."""
    return len(lines) == 1 and lines[0].startswith("cadf-%s: left out %s: north/%s." % (tool, part, part)) and "damaged" in lines[0]


def keys_of(output):
    return [json.loads(line)["id"] for line in output.splitlines()]


@pytest.mark.parametrize("damage", [changed, cut, os.unlink, linked])
def test_events_of_other_windows_are_shown(sites, damage):
    """What is asked for without the window ends with 5, what is asked for with it with 1; by an index and without."""
    sites.north.takes(contents(0, 2))
    damage(file_of(sites.north, FIRST))
    for words in (), ("--no-index",), ("--id", "e2"), ("--id", "e*"):
        status, output, lines = sites.run("events", *words, "--since", SECOND, "north/")
        assert (status, keys_of(output)) == (5, ["e2"]) and left_out("events", FIRST, lines), (words, lines)
        status, output, lines = sites.run("events", *words, "north/")
        assert (status, keys_of(output)) == (1, ["e2"]) and left_out("events", FIRST, lines), (words, lines)


def test_an_index_from_before_the_damage_knows_the_keys(sites):
    """So what doesn't show the window lacks nothing; what shows it leaves it out, whichever way it finds that."""
    sites.north.takes(told_on_two_days(0), contents(2))
    assert sites.run("events", "north/")[0] == 0
    changed(file_of(sites.north, FIRST))
    status, output, lines = sites.run("events", "--since", SECOND, "north/")
    assert (status, keys_of(output), lines) == (0, ["e2"], [])
    for words in (), ("--failed",), ("--id", "e2"), ("--contradicted", "only"):
        status, output, lines = sites.run("events", *words, "north/")
        assert status in (0, 1) and (status == 0 or left_out("events", FIRST, lines)), (words, lines)
        assert keys_of(output) == (["e2"] if words in ((), ("--id", "e2")) else []), words


def test_a_key_with_a_body_in_a_damaged_window(sites):
    """It is shown by the body that is here, and the line says that another may be there."""
    sites.north.takes(told_on_two_days(0))
    sites.north.takes(told_on_two_days(2))
    for path in sites.north.folder.glob(FIRST + ".*"):
        changed(path)
    for words in (), ("--no-index",):
        status, output, lines = sites.run("events", *words, "--since", SECOND, "north/")
        assert (status, keys_of(output)) == (5, ["e"]) and left_out("events", FIRST, lines)


def bodies(sites):
    """Three keys with two bodies on the second day. Of `w` and `u` a body of the first day is ruled, of `w` and `s` one of the second."""
    events = [dict(EVENT, id=key, eventTime="%sT%02d:00:00Z" % (SECOND, hour)) for key in "suw" for hour in (1, 2)]
    sites.north.takes({"id": "g", "events": events}, {"id": "g", "events": [dict(EVENT, id=key, eventTime=FIRST + "T01:00:00Z") for key in "uw"]})
    lines = [line for line in sites.run("conflicts", "north/")[1].splitlines(True) if line[0] == "E"]
    chosen = [line for line in lines if line.split(" ")[1:3] in (['"u"', "1"], ['"w"', "1"], ['"w"', "2"], ['"s"', "1"])]
    (sites.path / "choices").write_text("".join(chosen))
    status, output, _ = sites.run("conflicts", "--rule", "choices", "--again", "north/")
    assert status == 0
    (sites.path / "rulings.cadf").write_text(output)
    assert sites.north.take(files=[str(sites.path / "rulings.cadf")]).status == 0
    return chosen


def states(output):
    return {line[4:7].strip('"'): line.split(" ")[3].rstrip(",") for line in output.splitlines() if line.startswith("# E ") and ":" in line}


def test_what_a_damaged_window_may_settle_or_open_is_unknown(sites):
    bodies(sites)
    status, output, lines = sites.run("conflicts", "north/")
    assert (status, lines[1:]) == (5, ["cadf-conflicts: open 1, settled 2, unseen 3"]) and "cadf-erase --ruling" in lines[0] and states(output) == {"s": "settled", "u": "settled", "w": "open"}
    changed(file_of(sites.north, FIRST))
    status, output, lines = sites.run("conflicts", "north/")
    assert status == 1 and left_out("conflicts", FIRST, lines[:1]) and lines[1:] == ["cadf-conflicts: open 0, settled 1, unknown 2"]
    assert states(output) == {"s": "settled", "u": "unknown", "w": "unknown"} and not any(line[0] == "E" for line in output.splitlines())


def test_without_its_rulings_no_key_is_settled_or_open(sites):
    chosen = bodies(sites)
    changed(file_of(sites.north, "shared"))
    assert file_of(sites.north, "shared").read_bytes().count(b"read") == 0
    path = file_of(sites.north, "shared")
    path.write_bytes(path.read_bytes().replace(b'"U"', b'"T"'))
    status, output, lines = sites.run("conflicts", "north/")
    assert status == 1 and left_out("conflicts", "shared", lines[:1]) and lines[1:] == ["cadf-conflicts: open 0, settled 0, unknown 3"]
    assert set(states(output).values()) == {"unknown"}
    (sites.path / "choices").write_text(chosen[0])
    status, output, lines = sites.run("conflicts", "--rule", "choices", "--as", "ann", "north/")
    assert (status, output) == (1, "") and left_out("conflicts", "shared", lines)


def test_rulings_beside_a_damaged_window(sites):
    sites.north.takes({"id": "g", "events": [dict(EVENT, id="s", eventTime="%sT%02d:00:00Z" % (SECOND, hour)) for hour in (1, 2)]}, contents(0))
    changed(file_of(sites.north, FIRST))
    status, output, lines = sites.run("conflicts", "north/")
    assert status == 1 and lines[1:] == ["cadf-conflicts: open 1, settled 0"]
    (sites.path / "choices").write_text(next(line for line in output.splitlines(True) if line[0] == "E"))
    status, output, lines = sites.run("conflicts", "--rule", "choices", "--as", "ann", "north/")
    assert status == 5 and output.startswith("CADF-REPLICA 2\n") and left_out("conflicts", FIRST, lines)


def test_files_of_which_the_list_says_which_values_they_hold(sites):
    for site in (sites.north, sites.south):
        site.takes(told_on_two_days(0), told_on_two_days(2))
    changed(file_of(sites.south, FIRST))
    status, output, lines = sites.run("conflicts", "north/", "south/")
    assert status == 1 and lines[0].startswith("cadf-conflicts: left out %s: south/" % FIRST) and output.count("#   in south/") == 1


def test_a_page_says_what_it_lacks(sites):
    sites.north.takes(contents(0, 2))
    changed(file_of(sites.north, FIRST))
    for words, wanted in ((), 1), (("--since", SECOND), 5):
        status, output, lines = sites.run("report", *words, "north/")
        assert status == wanted and left_out("report", FIRST, lines) and "Left out, as damaged: %s.</p>" % FIRST in output


@pytest.mark.parametrize("damage, words", [(changed, ["--full"]), (cut, [])])
def test_a_seal_names_all_damaged_windows(sites, damage, words):
    """There is none of such a folder, whatever roots are kept. An earlier one is compared by the other windows."""
    sites.north.takes(contents(0, 2, name="n"))
    (sites.path / "seal").write_text(sites.run("seal", "north/")[1])
    sites.north.takes(contents(5))
    damage(file_of(sites.north, FIRST))
    file_of(sites.north, "shared").unlink()
    status, output, lines = sites.run("seal", *words, "north/")
    assert (status, output, len(lines)) == (1, "", 3) and lines[2] == "cadf-seal: north/: it has no seal while a window is damaged"
    assert left_out("seal", "shared", lines[:1]) and left_out("seal", FIRST, lines[1:2])
    status, output, lines = sites.run("seal", *words, "--compare", "seal", "north/")
    assert (status, output) == (1, "%s: facts then 2, now 4\n" % SECOND) and left_out("seal", FIRST, lines[2:])


def test_a_kept_root_is_none_of_what_a_scrub_found(sites):
    sites.north.takes(contents(0, 2, name="n"))
    seal = sites.run("seal", "north/")
    changed(file_of(sites.north, FIRST))
    assert sites.run("seal", "north/") == seal and sites.run("which", "--scrub", "north/")[0] == 1
    status, output, lines = sites.run("seal", "north/")
    assert (status, output, len(lines)) == (1, "", 2) and left_out("seal", FIRST, lines[:1])


def test_settling_goes_on_beside_a_damaged_window(sites):
    """The others are settled, and the damaged file stays as it is."""
    for keys in ((0, 2), (3, 5)):
        sites.north.takes(contents(*keys))
    path = next(sites.north.folder.glob(FIRST + ".*"))
    changed(path)
    held = path.read_bytes()
    answer = sites.north.take("--settle")
    assert answer.status == 1 and answer.error.startswith(b"cadf-take: left out %s: " % FIRST.encode()), answer
    assert {part: len(files) for part, files in sites.north.files().items() if files} == {FIRST: 2, SECOND: 1}
    assert path.read_bytes() == held and not (sites.north.folder / ".new").exists()


@pytest.mark.parametrize("damage", [changed, cut, os.unlink, linked])
@pytest.mark.parametrize("other", ["south/", "file.cadf"])
def test_sites_are_compared_by_other_windows(sites, damage, other):
    """A damaged one that is read is named, and the status isn't that of sites that agree or differ. Of one whose name both folders have only that is looked at."""
    sites.file("file.cadf", contents(0, 2, 5))
    sites.north.takes(contents(0, 2))
    sites.south.takes(contents(0, 2, 5))
    damage(file_of(sites.north, FIRST))
    lacks = ["north/ lacks %d facts of %s" % (2 if other == "south/" else 4, other)]
    for words in (["north/", other], [other, "north/"]):
        status, output, lines = sites.run("agree", "--metrics", "m.prom", *words)
        is_read = damage in (os.unlink, linked) or other != "south/"
        assert (status, output, lines[:1]) == (1 if is_read else 5, "", lacks) and (sites.path / "m.prom").exists() != is_read, lines
        assert left_out("agree", FIRST, lines[1:]) if is_read else lines == lacks, lines


@pytest.mark.parametrize("words, is_known", [
    (["conflicts"], False), (["conflicts"], True), (["events"], False), (["events"], True), (["events", "--no-index"], False), (["report"], False),
    (["seal", "--jobs=3"], False), (["seal", "--jobs=3"], True)])
def test_more_damaged_windows_than_looks(sites, words, is_known):
    """Whether the index knows them from before or not."""
    days = ["2024-%02d-%02d" % (1 + day // 28, 1 + day % 28) for day in range(112)]
    sites.north.takes({"id": "g", "events": [dict(EVENT, id=day, eventTime=day + "T00:00:00Z") for day in days]})
    if is_known:
        assert sites.run(*words, "north/")[0] == 0
    for day in days[1:]:
        file_of(sites.north, day).unlink()
    status, output, lines = sites.run(*words, "north/")
    assert status == 1 and len(lines) == 21 + (words[0] == "seal") and lines[20].endswith("2024-01-21 and others, 111 in all"), lines
    shown = json.dumps(Data(output.encode()).data) if words == ["report"] else output
    assert words[0] in ("conflicts", "seal") or days[0] in shown


@pytest.mark.parametrize("words", [(), ("--no-index",), ("--id", "e2"), ("--id", "e0")])
def test_a_window_of_which_a_byte_cannot_be_read(sites, tmp_path, words):
    """It is left out as one that has changed, before it is mapped or written of."""
    sites.north.takes(contents(0, 2))
    assert sites.run("events", *words, "north/")[0] == 0  # the index, if there is one, is from before
    (tmp_path / "sitecustomize.py").write_text(
        "import builtins, os\nreal = open\n\ndef opened(path, *words, **options):\n"
        "    if str(path).startswith('/dev/fd/') and '%s' in os.readlink(path.replace('/dev/fd', '/proc/self/fd')):\n"
        "        raise OSError(5, 'Input/output error')\n    return real(path, *words, **options)\n\nbuiltins.open = opened\n" % FIRST)
    sites.environment["PYTHONPATH"] = str(tmp_path)
    status, output, lines = sites.run("events", *words, "north/")
    wanted = 0 if words == ("--id", "e2") else 1  # by the index the key isn't there
    assert (status, keys_of(output)) == (wanted, [] if words == ("--id", "e0") else ["e2"]), (status, output, lines)
    assert (lines == []) if not wanted else lines[0].endswith("Input/output error") and lines[0].startswith("cadf-events: left out %s: north/" % FIRST)
    if words == ("--no-index",):
        for tool in "conflicts", "report":
            status, output, lines = sites.run(tool, "north/")
            assert status == 1 and lines[0].startswith("cadf-%s: left out %s: north/" % (tool, FIRST))


def test_files_that_cannot_be_opened_now_are_no_damage(sites, tmp_path):
    """Too many open files are no fault of a window."""
    sites.north.takes(contents(0, 2))
    (tmp_path / "sitecustomize.py").write_text(
        "import errno, os\nreal = os.open\n\ndef opened(path, *words, **options):\n"
        "    if str(path).startswith('2024-'):\n        raise OSError(errno.EMFILE, 'Too many open files', path)\n"
        "    return real(path, *words, **options)\n\nos.open = opened\n")
    sites.environment["PYTHONPATH"] = str(tmp_path)
    for tool in "conflicts", "seal":
        status, output, lines = sites.run(tool, "north/")
        assert (status, output) == (3, "") and lines == ["cadf-%s: Too many open files: allow more open files (ulimit -n), or give fewer at once" % tool]


@pytest.mark.parametrize("check, right, wrong", [
    (test_what_a_damaged_window_may_settle_or_open_is_unknown, "and self.rulings(key) - here", "and False"),
    (test_without_its_rulings_no_key_is_settled_or_open, "is_more = SHARED in self.damaged or", "is_more ="),
    (test_rulings_beside_a_damaged_window, "status = REFUSED if told == REFUSED else status", "status = status or told"),
    (test_settling_goes_on_beside_a_damaged_window, "self.is_removed(WORKING)  # the next part goes on", "pass"),
    (test_a_kept_root_is_none_of_what_a_scrub_found, " and bad.isdisjoint((part, digest) for digest in files)", ""),
    (test_a_page_says_what_it_lacks, "for each in self.folders if each.damaged]", "for each in ()]"),
    (test_files_that_cannot_be_opened_now_are_no_damage, "                raise\n            is_other = ", "                pass\n            is_other = "),
])
def test_a_wrong_version_is_caught(tmp_path, check, right, wrong):
    words = [tmp_path] if "cannot" in check.__name__ else []
    is_caught(tmp_path, (right, wrong), check, functools.partial(Sites, tmp_path), *words)
