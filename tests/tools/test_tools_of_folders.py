"""The tools that read a site, where it is a folder: cadf-agree, cadf-which, cadf-conflicts, cadf-report and cadf-spool."""
import functools
import json
import os
import random
import re
import resource
import shlex
import sys

import pytest

from tests import TOP
from tests.machine import ended
from tests.reference.events import document
from tests.reference.replica_files import file_of
from tests.reference.rulings import digest_of_value
from tests.reference.shown_texts import values_by_key
from tests.tools.copies import is_caught
from tests.tools.programs import Told
from tests.tools.test_events import LOG, folder_of
from tests.tools.test_events import facts as facts_of_log
from tests.tools.test_report import Data
from tests.tools.test_site_folders import DAYS, EVENT, TOOLS, Site, atoms_of, contents, index_of, with_digest

# A command that tells which files it is given.
TELLING = """#!/bin/sh
for word; do case $word in /dev/fd/*) readlink "$word" ;; esac; done | %s
exec %s "$@"
"""


class Sites:
    """Two folders, and calls of the tools on them."""

    def __init__(self, path, tools=TOOLS):
        self.path, self.tools = path, tools
        self.north, self.south = Site(path, tools, "north"), Site(path, tools, "south")
        self.south.count = 100  # of its files' names
        self.told = Told()
        telling = path / "telling"
        telling.write_text(TELLING % (self.told.tell, shlex.quote(Site.command)))
        telling.chmod(0o755)
        self.environment = dict(os.environ, CADF=str(telling))

    def run(self, tool, *words, **options):
        self.told.lines()
        answer = ended(os.path.join(self.tools, "cadf-" + tool), [str(word) for word in words], env=self.environment, cwd=self.path, **options)
        return answer.status, answer.output.decode(), answer.error.decode().splitlines()

    def read(self):
        """The windows of the files that the last call has read."""
        names = map(os.path.basename, self.told.lines())
        return {name.split(".")[0] for name in names if name.endswith(".cadf")}

    def file(self, name, *values):
        """A file of what these documents hold."""
        documents = [self.north.put(value) for value in values]
        answer = ended(Site.command, ["join", *documents])
        (self.path / name).write_bytes(answer.output)
        return name


def but_seal(answer):
    """What a call answers, of a page without its line of the seal, which a folder has of its own kind."""
    status, output, said = answer
    return status, re.sub('<div id="seal">.*', "", output), said


@pytest.fixture(autouse=True)
def command(cadf, monkeypatch):
    """Has the tools run the command that is tried."""
    monkeypatch.setattr(Site, "command", cadf)


@pytest.fixture
def sites(tmp_path):
    return Sites(tmp_path)


def told_on_two_days(number):
    """A document of an event that is told on one of two days."""
    return {"id": "g", "events": [dict(EVENT, id="e", eventTime=DAYS[number]), dict(EVENT, id="f", eventTime=DAYS[0])]}


def test_agree_reads_windows_that_differ(sites):
    sites.north.takes(contents(0, 2), contents(name="n"))
    sites.south.takes(contents(0))
    sites.south.takes(contents(3, name="n"))
    said = ["north/ lacks 2 facts of south", "south lacks 2 facts of north/"]
    assert sites.run("agree", "north/", "south") == (5, "", said) and sites.read() == {"2024-02-29", "2024-03-01"}
    assert sites.run("agree", "north/", "south", "south") == (5, "", 2 * said)
    for site in (sites.north, sites.south):
        site.takes(contents(0, 2, 3, name="n"))
    assert sites.run("agree", "north/", "south") == (0, "", []) and "shared" not in sites.read()
    for site in (sites.north, sites.south):
        site.settles()
    assert sites.run("agree", "north/", "south") == (0, "", []) and sites.read() == set()


def test_agree_of_windows_of_several_files(sites):
    """A window is all of its files: those of the north are in its second file, those of the south in its first."""
    sites.north.takes(contents(0))
    sites.north.takes(contents(1))
    sites.south.takes(contents(0))
    sketch = ended(Site.command, ["sketch", sites.file("file.cadf", contents(0))], cwd=sites.path).output
    (sites.path / "sketch").write_bytes(sketch)
    for other in ("south", "sketch"):
        assert sites.run("agree", "north", other) == sites.run("agree", other, "north") == (5, "", ["%s lacks 2 facts of north" % other])


def test_agree_of_a_folder_and_others(sites):
    sites.north.takes(contents(0, 2, name="n"))
    file = sites.file("file.cadf", contents(0, 2, name="n"))
    (sites.path / "inventory").write_bytes(ended(Site.command, ["inventory", file], cwd=sites.path).output)
    (sites.path / "sketch").write_bytes(ended(Site.command, ["sketch", file], cwd=sites.path).output)
    assert sites.run("agree", "north", file, "inventory", "sketch") == (0, "", [])
    sites.south.takes(contents(0), by=("--by", "hour"))
    said = ["north lacks 2 facts of south", "south lacks 3 facts of north"]
    sites.south.takes(contents(3), by=())
    assert sites.run("agree", "north", "south") == (5, "", said)
    (sites.path / "empty").write_text('{"id":"g","events":[]}')
    assert Site(sites.path, name="none").take("--by", "day", files=[str(sites.path / "empty")]).status == 0
    assert sites.run("agree", "none", "north") == (5, "", ["none lacks 5 facts of north"])
    assert sites.run("agree", "none", file) == (5, "", ["none lacks 5 facts of file.cadf"])


def test_which_judges_each_file(sites):
    sites.north.takes(contents(0, 2))
    assert sites.run("which", "--log", "g", "north") == (0, "", [])
    assert sites.run("which", "--log", "h", "north/")[0] == 1
    one, other = sorted(sites.north.folder.glob("2024-*.cadf"))
    held = one.read_bytes(), other.read_bytes()
    one.write_bytes(held[0].replace(b"read", b"reap"))
    damaged = "digest: the site is damaged: `cadf-sync --repair SITE/ HOST:SITE` mends it, or restore it as the guide says under `A damaged site`"
    said = ["north/%s: %s" % (one.name, damaged), "north: not all of its files can be read"]
    assert sites.run("which", "north") == (1, "", said)
    one.write_bytes(held[1])
    status, _, said = sites.run("which", "north")
    assert status == 1 and said[0].startswith("north/%s: it holds something else than its name says" % one.name)


def test_which_names_all_that_is_damaged(sites):
    """A file that isn't there, one that is a link and one that was changed: none keeps the others from being named."""
    sites.north.takes(contents(0, 2, name="n"))
    link, one, other = sorted(sites.north.folder.glob("s*.cadf")) + sorted(sites.north.folder.glob("2024-*.cadf"))
    os.rename(link, sites.path / "held")
    link.symlink_to(sites.path / "held")
    one.unlink()
    other.write_bytes(other.read_bytes().replace(b"read", b"reap"))
    status, output, said = sites.run("which", "north")
    assert (status, output, len(said)) == (3, "", 4) and said[3] == "north: not all of its files can be read"
    for line, file, part in zip(said, (link, one, other), ("not a regular file: the site is damaged", "not there: the site is damaged", "digest: the site is damaged")):
        assert line.startswith("north/%s: %s" % (file.name, part))


@pytest.mark.parametrize("make", [os.mkfifo, os.mkdir])
@pytest.mark.parametrize("name", ["site", "2024-02-29.*"])
def test_what_is_in_the_place_of_a_file_of_a_folder_is_damage(sites, make, name):
    """It is waited for by no tool that reads the folder, and none has it brought as standard input."""
    sites.north.takes(contents(0))
    path = next(sites.north.folder.glob(name))
    path.unlink()
    make(path)
    mends = "" if name == "site" else "`cadf-sync --repair SITE/ HOST:SITE` mends it, or "
    line = "north/%s: not a regular file: the site is damaged: %srestore it as the guide says under `A damaged site`" % (path.name, mends)
    for tool in ("which", "conflicts", "events", "seal"):
        status, output, said = sites.run(tool, "north")
        is_whole = tool == "which" or name == "site"  # the other windows are read without this one
        before = "" if tool == "which" else "cadf-%s: %s" % (tool, "" if is_whole else "left out 2024-02-29: ")
        assert (status, output, said[0]) == (3 if is_whole else 1, "", before + line)


def test_which_without_a_command_names_no_file(sites):
    """Nor does any other tool that reads a folder: what can't be started is no damage."""
    sites.north.takes(contents(0, 2, name="n"))
    sites.environment["CADF"] = "/absent/cadf"
    for words in (["which"], ["conflicts"], ["events"], ["seal"], ["agree", sites.north.put(contents(0))]):
        said = "/absent/cadf: No such file or directory: name the command by CADF, or put it on PATH"
        assert sites.run(*words, "north") == (3, "", ["cadf-%s: %s" % (words[0], said)])


@pytest.mark.parametrize("words", [["conflicts"], ["events"], ["report"], ["agree", "file.cadf"], ["agree", "inventory"], ["seal", "--prove", "file.cadf"]])
def test_no_room_for_temporary_files_is_told_of_their_folder(sites, words):
    """Where there is room for the 4 bytes by which Python tries a folder, and for no more."""
    sites.north.takes(contents(0, 2, name="n"))
    (sites.path / "inventory").write_bytes(ended(Site.command, ["inventory", sites.file("file.cadf", contents(0, 3))], cwd=sites.path).output)
    sites.environment.update(CADF=Site.command, TMPDIR=str(sites.path))
    status, output, said = sites.run(*words, "north", preexec_fn=lambda: resource.setrlimit(resource.RLIMIT_FSIZE, (4, 4)))
    said = [line for line in said if ".index: " not in line]  # an index that can't be written is passed over
    assert (status, output, len(said)) == (3, "", 1)
    assert re.match(r"(cadf-\w+: )?%s.*: File too large: make room there, or name another folder by TMPDIR$" % re.escape(str(sites.path)), said[0]), said


def test_events_that_cannot_be_written_are_no_fault_of_temporary_files(sites):
    sites.north.takes(contents(0, 2))
    answer = ended("sh", ["-c", 'exec "$0" north >/dev/full', os.path.join(TOOLS, "cadf-events")], env=sites.environment, cwd=sites.path)
    assert answer == (3, b"", b"cadf-events: standard output: write fault: No space left on device\n")


FEW = {"preexec_fn": lambda: resource.setrlimit(resource.RLIMIT_NOFILE, (67, 67))}  # to open a file, and not two


def test_agree_has_the_files_of_one_window_open_at_a_time(sites):
    """So it compares folders of more windows than files may be open, as they stood."""
    sites.north.takes(contents(0, 2, name="n"))
    sites.south.takes(contents(3, 5, name="n"))
    said = ["north lacks 4 facts of south", "south lacks 4 facts of north"]
    assert sites.run("agree", "north", "south", **FEW) == (5, "", said)
    min(sites.north.folder.glob("2024-*.cadf")).unlink()
    status, _, said = sites.run("agree", "north", "south", **FEW)
    assert status == 1 and "not there: the site is damaged" in said[-1]


def test_agree_of_a_folder_and_others_has_the_files_of_one_window_open_at_a_time(sites):
    sites.north.takes(contents(0, 2, name="n"))
    sites.south.takes(contents(2, 3), by=("--by", "month"))
    (sites.path / "inventory").write_bytes(ended(Site.command, ["inventory", sites.file("file.cadf", contents(0, 3))], cwd=sites.path).output)
    for other in ("file.cadf", "inventory"):
        said = ["north lacks 2 facts of " + other, other + " lacks 3 facts of north"]
        assert sites.run("agree", "north", other, **FEW) == sites.run("agree", "north", other) == (5, "", said)
        assert sites.run("agree", other, "north", **FEW) == (5, "", said[::-1])
    assert sites.run("agree", "north", "south", **FEW) == (5, "", ["north lacks 2 facts of south", "south lacks 3 facts of north"])


def test_agree_of_a_folder_and_a_sketch_has_the_files_of_one_window_open_at_a_time(sites):
    """Nor are its files joined, which together may be more than is read. As many cells are asked for as by a file of the same facts."""
    sites.north.takes(contents(*range(99), name="n"))
    file = sites.file("file.cadf", contents(*range(99), name="n"))
    for cells, keys in ((33, range(3, 99)), (33, range(99)), (3, range(60)), (198, range(30, 120))):
        sketch = ended(Site.command, ["sketch", "--cells", str(cells), sites.file("other.cadf", contents(*keys))], cwd=sites.path).output
        (sites.path / "sketch").write_bytes(sketch)
        status, output, said = sites.run("agree", file, "sketch")
        assert status in (1, 5) and sites.run("agree", "north", "sketch", **FEW) == (status, output, [line.replace(file, "north") for line in said])
        assert sites.run("agree", "sketch", "north", **FEW) == (status, output, [line.replace(file, "north") for line in said[::-1]])


@pytest.mark.parametrize("words", [["conflicts", "--values"], ["events"], ["events", "--since", DAYS[0][:10]], ["report"], ["report", "--since", DAYS[0][:10]]])
def test_lists_have_the_files_of_one_window_open_at_a_time(sites, words):
    """So a site of more windows than files may be open is listed, also where a key is in several windows."""
    for number in (0, 2):
        sites.north.takes(told_on_two_days(number), contents(1, 3, name="n"))
    wanted = sites.run(*words, "north")
    assert wanted[0] in (0, 5) and wanted[1] and sites.run(*words, "north", **FEW) == wanted


def test_a_report_of_more_windows_than_files_may_be_open(sites):
    """What is made of the windows is joined a few at a time."""
    sites.north.takes({"id": "g", "events": [dict(EVENT, id="e%d" % day, eventTime="2024-%02d-%02dT00:00:00Z" % (4 + day // 28, 1 + day % 28)) for day in range(40)]})
    file = sites.file("file.cadf", json.loads((sites.path / "1.json").read_text()))
    assert but_seal(sites.run("report", "north", **FEW)) == but_seal(sites.run("report", file)) != sites.run("report", file)


MEASURED = """import sys
sys.path.insert(0, sys.argv[1])
import cadf_metrics
print(cadf_metrics.largest_window(sys.argv[2]), cadf_metrics.conflicts(sys.argv[2])[0][2])
"""


@pytest.mark.parametrize("second, count", [(0, 0), (2, 1)])
def test_metrics_have_the_files_of_one_window_open_at_a_time(sites, second, count):
    """All open conflicts count, whichever windows have changed, by the index and without; also of an event of which each of two windows has a body."""
    sites.north.takes(told_on_two_days(0), told_on_two_days(second), contents(2, 5, 8, name="n"))
    wanted = max(path.stat().st_size for path in sites.north.folder.glob("2024-03-01.*.cadf"))
    words = ["-c", MEASURED, os.path.join(TOP, "share", "cadf"), str(sites.north.folder)]
    for _ in range(2):
        assert ended(sys.executable, words, env=sites.environment, **FEW) == (0, b"%d %d\n" % (wanted, count), b"")


@pytest.mark.parametrize("words, call", [(["conflicts", "--values"], "join"), (["events"], "show"), (["report"], "join")])
def test_lists_amid_takes(sites, words, call):
    """All of a take is listed or nothing of it, though it changes a window that was read before, and has a key that becomes common."""
    takes = [told_on_two_days(0), contents(3, 5)], [told_on_two_days(2), contents(6)]
    sites.north.takes(*takes[0])
    wanted = [but_seal(sites.run(*words, sites.file("%d.cadf" % count, *sum(takes[:count], [])))) for count in (1, 2)]
    documents = [sites.north.put(value) for value in takes[1]]
    late = sites.path / "late"
    late.write_text("#!/bin/sh\nif [ $1 = %s ] && mkdir %s 2>%s; then\n  CADF=%s %s %s %s || exit 9\n  CADF=%s %s --settle %s || exit 9\nfi\nexec %s \"$@\"\n" % (call, *map(
        shlex.quote, [str(sites.path / "once"), os.devnull, Site.command, os.path.join(sites.tools, "cadf-take"), str(sites.north.folder)]),
        shlex.join(documents), *map(shlex.quote, [Site.command, os.path.join(sites.tools, "cadf-take"), str(sites.north.folder), Site.command])))
    late.chmod(0o755)
    sites.environment["CADF"] = str(late)
    assert but_seal(sites.run(*words, "north")) in wanted and (sites.path / "once").is_dir()


def test_agree_amid_takes(sites):
    """All of a take is compared or nothing of it, though it changes a window that was compared before."""
    sites.north.takes(contents(0, 2))
    sites.south.takes(contents(3, 5))
    document = sites.north.put(contents(3, 5))
    late = sites.path / "late"
    late.write_text("#!/bin/sh\nif [ $1 = sketch ] && mkdir %s 2>%s; then\n  CADF=%s %s %s %s || exit 9\nfi\nexec %s \"$@\"\n" % tuple(map(shlex.quote, map(str, [
        sites.path / "once", os.devnull, Site.command, os.path.join(sites.tools, "cadf-take"), sites.north.folder, document, Site.command]))))
    late.chmod(0o755)
    sites.environment["CADF"] = str(late)
    said = sites.run("agree", "north", "south")[2]
    assert said in (["south lacks 4 facts of north"], ["north lacks 4 facts of south", "south lacks 4 facts of north"])
    assert (sites.path / "once").is_dir()


def test_which_has_the_files_of_one_window_open_at_a_time(sites):
    """So it judges a site of more windows than files may be open."""
    sites.north.takes(contents(0, 2, name="n"))
    one = min(sites.north.folder.glob("2024-*.cadf"))
    assert sites.run("which", "north", **FEW) == (0, "", [])
    one.write_bytes(one.read_bytes().replace(b"read", b"reap"))
    assert sites.run("which", "north", **FEW) == sites.run("which", "north") != (0, "", [])


def test_a_key_of_two_windows_is_open(sites):
    """What no window shows by itself."""
    sites.north.takes(told_on_two_days(0))
    sites.north.takes(told_on_two_days(2))
    file = sites.file("file.cadf", told_on_two_days(0), told_on_two_days(2))
    assert sites.run("conflicts", "--values", "north/") == sites.run("conflicts", "--values", file)
    status, output, _ = sites.run("conflicts", "north/")
    assert status == 5 and output.count('\nE "e" ') == 2
    (sites.path / "choices").write_text(next(line for line in output.splitlines(True) if line.startswith("E")))
    rulings = ended(os.path.join(sites.tools, "cadf-conflicts"), ["--rule", "choices", "north"], env=sites.environment, cwd=sites.path)
    (sites.path / "rulings.cadf").write_bytes(rulings.output)
    assert rulings.status == 0 and sites.north.take(files=[str(sites.path / "rulings.cadf")]).status == 0
    assert sites.run("conflicts", "north")[0] == 0 and sites.run("conflicts", file, "north")[0] == 5


@pytest.mark.parametrize("seed, unit", enumerate(["month", "day", "hour"]))
def test_conflicts_of_a_folder_are_those_of_its_file(sites, seed, unit):
    """A window that has no conflict isn't read, but looked at; what is cut is left out. One of another site is as its file."""
    chance = random.Random(seed)
    atoms = facts_of_log(chance) | document({"id": LOG, "events": [dict(EVENT, id="alone", eventTime="2024-05-05T12:00:00Z")]})[1]
    folder_of(sites.path / "site", atoms, unit, chance)
    (sites.path / "file").write_bytes(file_of(LOG, atoms))
    listed = sites.run("conflicts", "--values", "file")
    assert listed[0] == 5 and sites.run("conflicts", "--values", "--seen", "site") == listed
    held = sites.run("conflicts", "file", "file")
    assert held == tuple(each.replace("in site", "in file") if type(each) is str else each for each in sites.run("conflicts", "site/", "site"))
    lines = ["%s %s %d %s\n" % (letter, json.dumps(name), place, digest_of_value(value)) for (letter, name), values in values_by_key(atoms).items()
             for place, value in enumerate(sorted(values, key=str.encode), 1)]
    for choices in (lines, *([line] for line in lines[::3])):
        (sites.path / "choices").write_text("".join(choices))
        rule = ["conflicts", "--rule", "choices", "--as", "ann", "--at", "2024-03-01", *["--again"] * (len(choices) > 1)]
        assert sites.run(*rule, "site") == sites.run(*rule, "file")
    alone, = (each for each in (sites.path / "site").iterdir() if b'"alone"' in each.read_bytes() and each.name.endswith(".cadf"))
    alone.write_bytes(alone.read_bytes().replace(b'"alone"', b'"alien"'))
    assert sites.run("conflicts", "--values", "site") == listed
    alone.write_bytes(b"")
    for _ in range(2):
        status, output, said = sites.run("conflicts", "--values", "site")
        assert (status, output, said[1:]) == (1, *listed[1:]) and alone.name in said[0]
        (sites.path / "site" / ".index").unlink()


def test_agree_keeps_digests_of_windows(sites):
    """Windows of other files with the same facts are read once."""
    sites.north.takes(contents(0, 2, 3, name="n"))
    for number in (0, 2, 3):
        sites.south.takes(contents(number, name="n"))
    assert sites.run("agree", "north", "south") == (0, "", []) and sites.read()
    assert sites.run("agree", "north", "south") == (0, "", []) and not sites.read()
    sites.south.takes(contents(4))
    assert sites.run("agree", "north", "south")[0] == 5 and len(sites.read()) == 1


def test_report_of_a_folder_is_that_of_its_file(sites):
    """But for the seal, and the names of two sites that are compared."""
    def page(*words):
        status, output, said = but_seal(sites.run("report", *words))
        made = Data(output.encode())
        names = made.data["union"].pop("names") if made.data["union"] else None
        assert (status, said) == (0, [])
        return names, output.replace(made.block, ""), made.data

    sites.north.takes(told_on_two_days(0))
    sites.north.takes(told_on_two_days(2))
    file = sites.file("file.cadf", told_on_two_days(0), told_on_two_days(2))
    assert page("north/") == page(file)
    pages = [page("--since", DAYS[2], "--against", *names) for names in (("north/", file), (file, "north/"), (file, file))]
    assert [names for names, *_ in pages] == [[file, "north/"], ["north/", file], [file, file]]
    assert pages[0][1:] == pages[1][1:] == pages[2][1:]


@pytest.mark.parametrize("words", [["events"], ["report", "--since", "2024-03-01"]])
@pytest.mark.parametrize("key", ['"x', ""])
def test_right_digests_make_no_right_lines(sites, words, key):
    """A folder that somebody sent has a key that doesn't end with its line. cadf says what is wrong with the file."""
    data = with_digest(('CADF-REPLICA 2\nL "g"\n[1,0,"E"]\n[2,0,%s\n' % key).encode())
    name, digest = "2024-03-01.%s.cadf", data[-65:-1].decode()
    sites.north.folder.mkdir()
    (sites.north.folder / (name % digest)).write_bytes(data)
    (sites.north.folder / "site").write_bytes(index_of({"2024-03-01": [digest]}))
    status, output, said = sites.run(*words, "north")
    assert (status, len(said)) == (1, 1) and said[0].startswith("cadf-%s: left out 2024-03-01: north/%s: line " % (words[0], name % digest))
    assert not output or words[0] == "report"


def arrives(sites, name, value):
    spool = sites.path / "spool"
    spool.mkdir(exist_ok=True)
    (spool / name).write_text(json.dumps(value))


def test_spool_takes_into_a_folder(sites):
    arrives(sites, "a.json", contents(0, name="n"))
    assert sites.run("spool", "--log", "g", "north/", "spool")[0] == 2
    assert sites.run("spool", "--by", "day", "--log", "g", "north/", "spool")[0] == 0
    arrives(sites, "b.json", contents(2))
    assert sites.run("spool", "north", "spool")[0] == 0 and sites.read() == set()
    arrives(sites, "c.json", contents(5))
    assert sites.run("spool", "north", "spool")[0] == 0 and sites.read() == {"2024-03-01"}
    assert sites.north.atoms() == atoms_of(contents(0, 2, 5, name="n"))
    arrives(sites, "d.json", contents(8))
    assert sites.run("spool", "--log", "h", "north", "spool")[0] == 1 and (sites.path / "spool" / "taking" / "d.json").exists()


def test_a_damaged_window_lets_what_arrives_wait(sites):
    sites.north.takes(contents(0, 2))
    path = next(sites.north.folder.glob("2024-02-29.*"))
    path.write_bytes(path.read_bytes().replace(b"read", b"reap"))
    arrives(sites, "a.json", contents(3))
    arrives(sites, "b.json", contents(5))
    status, _, said = sites.run("spool", "north", "spool")
    assert status == 3 and any("a.json: waits: " in line and "digest: the site is damaged" in line for line in said)
    assert (sites.path / "spool" / "taking" / "a.json").exists() and (sites.path / "spool" / "taken" / "b.json").exists()


def test_spool_keeps_what_begins_many_windows(sites):
    """A file of more new windows than one sender may begin is taken as far as it may be, and the rest waits; the others are taken."""
    sites.north.takes(contents(0))
    times = ["%04d-01-01T00:00:00Z" % year for year in range(1000, 1402)]
    arrives(sites, "many.json", {"id": "g", "events": [dict(EVENT, id=time, eventTime=time) for time in times]})
    arrives(sites, "other.json", contents(2))
    status, _, said = sites.run("spool", "north", "spool")
    assert status == 0 and [line for line in said if ": 303 facts wait, of 303 new windows beyond the limits: " in line]
    nearest = {"id": "g", "events": [dict(EVENT, id=time, eventTime=time) for time in times[-99:]]}  # the 100th is the other file's
    assert sites.north.atoms() == atoms_of(contents(0, 2), nearest) and sites.north.left() == []


@pytest.mark.parametrize("check, right, wrong", [
    (test_agree_reads_windows_that_differ, "made_of_parts([each.site for each in sides], parts,", "made_of_parts([each.site for each in sides], sorted(first.index.parts())[1:],"),
    (test_agree_reads_windows_that_differ, "rows[0][0] is not None and rows[0][0] == rows[1][0]", "True"),
    (test_agree_of_windows_of_several_files, "[*site.inputs, sketch.input], len(site.inputs))", "[site.inputs[0], sketch.input])"),
    (test_agree_keeps_digests_of_windows, "rows[0][0] is not None and rows[0][0] == rows[1][0]", "False"),
    (test_which_judges_each_file, "if list(parts_in(index.unit, index.name(), [file]).items()) != [entry]:", "if False:"),
    (test_which_names_all_that_is_damaged, "        return Fault(\"%s: not there: %s\"", "        raise Fault(\"%s: not there: %s\""),
    (test_a_key_of_two_windows_is_open, "range(max(map(len, found.values()), default=0))", "range(1)"),
    (test_a_damaged_window_lets_what_arrives_wait, "FAILED if fault.status == REFUSED else fault.status", "fault.status"),
    (test_spool_takes_into_a_folder, "if cadf_site.is_folder(self.site):", "if False:"),
])
def test_a_wrong_version_is_caught(tmp_path, check, right, wrong):
    is_caught(tmp_path, (right, wrong), check, functools.partial(Sites, tmp_path))
