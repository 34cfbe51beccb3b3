"""cadf-sync --repair: a damaged file of a folder is the one that `site` names again, or its window is told to be in doubt."""
import functools
import os
import shlex
import sys

import pytest

from tests import TOP
from tests.machine import ended
from tests.reference.events import document
from tests.reference.replica_files import file_of as file_of_atoms, read_file
from tests.reference.split_files import parts_of
from tests.tools.copies import is_caught
from tests.tools.faulty import calls_of
from tests.tools.test_damage import FIRST, SECOND, changed, cut, file_of, linked
from tests.tools.test_site_folders import Site, atoms_of, contents, with_digest
from tests.tools.test_sync import first, items, message
from tests.tools.test_tools_of_folders import Sites

MOMENTS = "os.rename os.unlink os.link os.fsync"

DOUBT = ("cadf-sync: north/.damaged-%s: facts of %s that this site alone had may be gone since 2", ": another peer may have them: cadf-sync --repair SITE/ HOST:SITE; "
         "remove this file once they are missed no more")
NOTHING = ": not repaired: the other site has nothing of it: try another one, or restore it as the guide says under `A damaged site`"


@pytest.fixture(autouse=True)
def command(cadf, monkeypatch):
    """Has the tools run the command that is tried."""
    monkeypatch.setattr(Site, "command", cadf)


class Repairs(Sites):
    """Two folders, and calls that may change no file."""

    def __init__(self, *words):
        super().__init__(*words)
        self.environment["CADF"] = Site.command


@pytest.fixture
def sites(tmp_path):
    return Repairs(tmp_path)


def made_folder(path):
    path.unlink()
    path.mkdir()


def named(site):
    """The files that `site` names, with their bytes, and itself."""
    return {name: data for name, data in site.listed().items() if name == "site" or name.split(".")[1] in sum(site.files().values(), [])}


def repairs(sites, *words):
    return sites.run("sync", "--repair", *words, "north/", "south/")


@pytest.mark.parametrize("damage", [changed, cut, os.unlink, linked, made_folder, lambda path: os.truncate(path, 0)])
def test_a_repaired_window_has_the_files_that_are_named(sites, damage):
    """So nothing else has changed. The south has more of the window by now, beside the very file."""
    for site in (sites.north, sites.south):
        site.takes(contents(0, 2, name="n"))
    sites.south.takes(contents(3, 5))
    before, path = named(sites.north), file_of(sites.north, FIRST)
    damage(path)
    held = path.read_bytes() if path.is_file() and not path.is_symlink() else None
    status, output, lines = repairs(sites)
    assert (status, output) == (0, "") and lines[1:] == ["cadf-sync: %s: repaired" % FIRST] and lines[0].startswith("cadf-sync: north/%s: " % path.name)
    assert named(sites.north) == before and sites.run("which", "north/") == (0, "", [])
    beside = path.with_name(".damaged-" + path.name)
    assert beside.read_bytes() == held if held is not None else beside.is_symlink() == (damage is linked) and beside.is_dir() == (damage is made_folder)
    assert repairs(sites) == (0, "", [])


def test_all_facts_of_a_window_that_make_its_file(sites):
    """The south has them in other files, which it joins; what it has of other windows isn't asked for."""
    sites.north.takes(contents(0, 3, 2))
    for keys in ((0,), (3,), (5,)):
        sites.south.takes(contents(*keys))
    before = named(sites.north)
    changed(file_of(sites.north, FIRST))
    assert repairs(sites)[0] == 0 and named(sites.north) == before
    assert sites.south.atoms() == atoms_of(contents(0, 3, 5))


def in_doubt(sites):
    """The north, of whose window the south has another part."""
    sites.north.takes(contents(0, 2))
    sites.south.takes(contents(3, 2))
    path = file_of(sites.north, FIRST)
    changed(path)
    return path


def test_a_window_in_doubt(sites):
    """What the south has is joined. That this isn't all is told, by each scrub too, until the file is there again or a person removes what was kept."""
    path = in_doubt(sites)
    held = path.read_bytes()
    status, output, lines = repairs(sites)
    assert (status, output, len(lines)) == (5, "", 2) and lines[1].startswith(DOUBT[0] % (path.name, FIRST)) and lines[1].endswith(DOUBT[1])
    assert sites.north.atoms() == atoms_of(contents(3, 2)) and path.with_name(".damaged-" + path.name).read_bytes() == held
    assert sites.run("events", "north/")[0] == 0
    for _ in range(2):
        status, output, lines = sites.run("which", "--scrub", "--metrics", "m.prom", "north/")
        assert (status, output, len(lines)) == (5, "", 1) and ("cadf-sync: " + lines[0]).startswith(DOUBT[0] % (path.name, FIRST))
    numbers = (sites.path / "m.prom").read_text()
    assert 'cadf_doubtful_windows{tool="cadf-which",site="north/"} 1\n' in numbers and 'cadf_damaged_windows{tool="cadf-which",site="north/"} 0\n' in numbers
    assert repairs(sites)[0] == 5
    third = Site(sites.path, name="third")
    third.takes(contents(0, 2))
    status, output, lines = sites.run("sync", "--repair", "north/", "third/")
    assert (status, output, lines) == (0, "", ["cadf-sync: %s: repaired" % FIRST]) and sites.north.atoms() == atoms_of(contents(0, 3, 2))
    assert sites.run("which", "--scrub", "north/") == (0, "", [])


def test_a_person_ends_the_doubt(sites):
    path = in_doubt(sites)
    path.unlink()
    assert repairs(sites)[0] == 5
    beside = path.with_name(".damaged-" + path.name)
    assert beside.exists() and beside.read_bytes() == b"" and sites.run("which", "--scrub", "north/")[0] == 5
    beside.unlink()
    assert sites.run("which", "--scrub", "north/") == (0, "", []) and repairs(sites) == (0, "", [])


def test_what_the_other_site_lacks_stays_damaged(sites):
    sites.north.takes(contents(0, 2))
    sites.south.takes(contents(2))
    path = file_of(sites.north, FIRST)
    changed(path)
    before = sites.north.listed()
    status, output, lines = repairs(sites)
    assert (status, output, lines[1:]) == (1, "", ["cadf-sync: %s%s" % (FIRST, NOTHING)]) and sites.north.listed() == before
    assert sites.run("sync", "--repair", "north/", "none/")[0] == 1 and sites.north.listed() == before


def test_a_window_that_is_damaged_there_too(sites):
    """It stays as it is, and the others are repaired."""
    for site in (sites.north, sites.south):
        site.takes(contents(0, 2))
    before = named(sites.north)
    for site in (sites.north, sites.south):
        changed(file_of(site, FIRST))
    changed(file_of(sites.north, SECOND))
    status, output, lines = repairs(sites)
    assert (status, output, lines[3:]) == (1, "", ["cadf-sync: %s: repaired" % SECOND]) and lines[2].startswith("cadf-sync: %s: not repaired: south/: south/%s." % (FIRST, FIRST))
    assert sum(named(sites.north)[name] != data for name, data in before.items()) == 1


def test_several_files_of_a_window(sites):
    """One is whole, one is there by its name, and one is lost: what the south has of the window comes in its place, and the window is in doubt."""
    for keys in ((0, 2), (3,), (6,)):
        sites.north.takes(contents(*keys))
    sites.south.takes(contents(3))
    sites.south.takes(contents(9))
    paths = {path for path in sites.north.folder.glob(FIRST + ".*") if b'"e0"' not in path.read_bytes()}
    for path in paths:
        changed(path)
    assert repairs(sites)[0] == 5 and sites.north.atoms() == atoms_of(contents(0, 2, 3, 9))
    assert sites.run("which", "north/") == (0, "", []) and len(list(sites.north.folder.glob(".damaged-*"))) == 2


def test_a_seal_tells_that_no_fact_lacks(sites):
    """All facts of the window come, in another file than was lost. Without the seal nobody knows that these are all; with a fact more they aren't what was sealed."""
    for keys in ((0, 2), (3,)):
        sites.north.takes(contents(*keys))
    (sites.path / "seal").write_text(sites.run("seal", "north/")[1])
    sites.south.takes(contents(0, 3))
    path = next(path for path in sites.north.folder.glob(FIRST + ".*") if b'"e3"' in path.read_bytes())
    before = sites.north.listed()
    for words, more, status in (([], [], 5), (["--seal", "seal"], [contents(6)], 5), (["--seal", "seal"], [], 0)):
        for name in os.listdir(sites.north.folder):
            os.unlink(sites.north.folder / name)
        for name, data in before.items():
            (sites.north.folder / name).write_bytes(data)
        changed(path)
        if more:
            sites.third = Site(sites.path, name="third")
            sites.third.takes(contents(0, 3), *more)
        answer = sites.run("sync", "--repair", *words, "north/", "third/" if more else "south/")
        assert answer[0] == status and sites.north.atoms() == atoms_of(contents(0, 2), contents(3), *more)
        assert sites.run("which", "--scrub", "north/")[0] == status and path.with_name(".damaged-" + path.name).exists()


def test_a_seal_of_another_site(sites):
    sites.north.takes(contents(0))
    sites.south.takes(contents(0), by=("--by", "hour"))
    (sites.path / "seal").write_text(sites.run("seal", "south/")[1])
    assert sites.run("sync", "--repair", "--seal", "seal", "north/", "south/")[2] == ["cadf-sync: seal: other unit: its windows are one hour each, and not one day"]
    assert sites.run("sync", "--seal", "seal", "north/", "south/")[2][-1].endswith("--seal goes with --repair")


def test_a_site_that_is_a_file(sites):
    """It has no windows of its own to be repaired, but may be what repairs."""
    sites.north.takes(contents(0, 2))
    before = named(sites.north)
    changed(file_of(sites.north, FIRST))
    name = sites.file("file.cadf", contents(0, 2, 5))
    assert sites.run("sync", "--repair", "north/", name)[0] == 0 and named(sites.north) == before
    status, output, lines = sites.run("sync", "--repair", name, "north/")
    assert (status, output) == (1, "") and lines == ["cadf-sync: file.cadf: no folder of windows: of a file no part is repaired: do as the guide says under `A damaged site`"]


def holds(site):
    """The atoms of the windows that a site names, by part; None of one of which a file is damaged."""
    found = {}
    for part, digests in site.files().items():
        held = [site.folder / ("%s.%s.cadf" % (part, digest)) for digest in digests]
        is_whole = all(path.exists() and path.read_bytes() == with_digest(path.read_bytes()[:-67]) for path in held)
        found[part] = set().union(*(read_file(path.read_bytes())[1] for path in held)) if is_whole else None
    return found


@pytest.mark.parametrize("there", [(0, 2), (3, 2)])
def test_a_kill_at_any_moment(tmp_path, there):
    """It leaves the site as it was or as it is to be, and what was damaged is beside before; the next call ends it."""
    work = tmp_path / "work"
    work.mkdir()
    sites = Repairs(work)
    sites.north.takes(contents(0, 2))
    sites.south.takes(contents(*there))
    path = file_of(sites.north, FIRST)
    changed(path)
    held, part = path.read_bytes(), parts_of(atoms_of(contents(there[0])), "day")[FIRST]
    tool = os.path.join(sites.tools, "cadf-sync")
    done, calls = calls_of(MOMENTS, tool, ["--repair", "north/", "south/"], "copied", told="../calls", env=sites.environment, cwd=work)
    assert done.status == (0 if there == (0, 2) else 5) and {"rename", "link", "fsync"} <= set(calls)
    before, is_done = None, []
    for number in range(1, len(calls) + 1):
        copy = Repairs(tmp_path / ("work-%d" % number))
        found = {name: (copy.north.folder / name).read_bytes() for name in os.listdir(copy.north.folder) if name != ".lock"}
        if found == before:
            continue
        before, now = found, holds(copy.north)
        assert now[FIRST] in (None, part) and now[SECOND] == parts_of(atoms_of(contents(2)), "day")[SECOND]
        is_done.append(now[FIRST] is not None)
        assert not is_done[-1] or found[".damaged-" + path.name] == held
        status, _, _ = repairs(copy)
        assert status == done.status and holds(copy.north)[FIRST] == part and (status == 0 or copy.run("which", "--scrub", "north/")[0] == 5)
    assert is_done == sorted(is_done) and set(is_done) == {False, True}


# ---- What the other end may say

NEWER = contents(3)
FILE, WHOLE = file_of_atoms("g", parts_of(atoms_of(contents(0)), "day")[FIRST]), file_of_atoms("g", parts_of(atoms_of(NEWER), "day")[FIRST])
OTHER = file_of_atoms("g", parts_of(atoms_of(contents(2)), "day")[SECOND])
NONE, CAME_SO = (b"none", b""), ": it came so, and no file here is at fault: tell the operator of the end that sent it"


def says(sites, *answers, file=True):
    """A far side that has the window and answers so."""
    part, listed = FIRST.encode(), b"W %s %s\n" % (FIRST.encode(), WHOLE[-65:-1])
    data = first(unit="day", file=file) + message(b"list", listed) + b"".join(message(b"answer", items((part, *answer))) for answer in answers)
    (sites.path / "lie").write_bytes(data)
    words = [sys.executable, os.path.join(TOP, "tests", "tools", "far_side.py"), "says", str(sites.path / "lie")]
    return sites.run("sync", "--repair", "--timeout=20", "--rsh=" + shlex.join(words), "north/", "h:there/")


@pytest.mark.parametrize("answers, status, said", [
    ([(b"facts", FILE)], 0, "%s: repaired" % FIRST),
    ([(b"facts", WHOLE), (b"facts", FILE)], 0, "%s: repaired" % FIRST),
    ([NONE, NONE], 1, FIRST + NOTHING),
    ([(b"facts", WHOLE), NONE], 1, FIRST + NOTHING),
    ([(b"facts", OTHER)], 1, "%s: not repaired: %s from h:there/: it holds something else than its name says: " % (FIRST, FIRST)),
    ([(b"facts", FILE[:-2])], 1, "%s: not repaired: %s from h:there/: truncated%s" % (FIRST, FIRST, CAME_SO)),
    ([(b"facts", b"")], 1, "%s: not repaired: %s from h:there/: not JSON" % (FIRST, FIRST)),
    ([(b"fault", b"1 \x1b[2Jdamaged here too")], 1, "%s: not repaired: h:there/: \\u001b[2Jdamaged here too" % FIRST),
    ([(b"sketch", b"")], 1, "h:there/: no answer for file of %s: sketch of %s" % (FIRST, FIRST)),
    ([(b"facts", file_of_atoms("h", document(dict(contents(0), id="h"))[1]))], 1, "%s: not repaired: %s from h:there/: other log: " % (FIRST, FIRST)),
])
def test_what_another_end_sends_is_judged(sites, answers, status, said):
    """Nothing is put in the place of a file but what has its digits; and what is damaged is kept."""
    sites.north.takes(contents(0, 2))
    before, path = named(sites.north), file_of(sites.north, FIRST)
    changed(path)
    damaged = named(sites.north)
    answer = says(sites, *answers)
    assert (answer[0], answer[1]) == (status, "") and answer[2][1].startswith("cadf-sync: " + said), answer
    assert named(sites.north) == (damaged if status else before)


def test_an_end_of_an_earlier_release(sites):
    """It is asked for no file, but for the window."""
    sites.north.takes(contents(0, 2))
    before = named(sites.north)
    changed(file_of(sites.north, FIRST))
    assert says(sites, (b"facts", FILE), file=None)[0] == 0 and named(sites.north) == before


def test_what_is_asked_for_is_a_file_of_the_site(sites):
    """By its digits, which name nothing else."""
    sites.south.takes(contents(0))
    for digits in (b"../../x", b"0" * 63, b"0" * 64 + b"\n"):
        asked = first(site="south/") + message(b"ask", items((FIRST.encode(), b"file", digits)))
        answer = ended(os.path.join(sites.tools, "cadf-sync"), ["--serve", "south/"], input=asked, env=sites.environment, cwd=sites.path)
        assert answer.status == 1 and b"no digits of a file" in answer.output
    asked = first(site="south/") + message(b"ask", items((FIRST.encode(), b"file", b"0" * 64)))
    answer = ended(os.path.join(sites.tools, "cadf-sync"), ["--serve", "south/"], input=asked, env=sites.environment, cwd=sites.path)
    assert answer.status == 0 and answer.output.endswith(message(b"answer", items((FIRST.encode(), *NONE))))


@pytest.mark.parametrize("words, said", [(["--repair", "--pull", "a/", "b/"], "not allowed with argument"), (["--repair", "--json", "a/", "b/"], "--repair goes with --rsh, --seal and with limits alone")])
def test_words(sites, words, said):
    status, output, lines = sites.run("sync", *words)
    assert (status, output) == (2, "") and said in lines[-1]


@pytest.mark.parametrize("check, right, wrong", [
    (test_a_window_in_doubt, "times.setdefault((DAMAGED, part, digest), int(time.time()))", "pass"),
    (test_a_person_ends_the_doubt, "        if is_marked:", "        if False:"),
    (test_a_seal_tells_that_no_fact_lacks, "sealed([*own, *came]) == self.roots[part]", "True"),
    (test_all_facts_of_a_window_that_make_its_file, "if other and last_digest(other.file) in digests:", "if False:"),
])
def test_a_wrong_version_is_caught(tmp_path, check, right, wrong):
    is_caught(tmp_path, (right, wrong), check, functools.partial(Repairs, tmp_path))
