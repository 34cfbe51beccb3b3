"""Whose rulings a take, a spool and a peer's call take: all, none, or those that are signed."""
import functools
import os

import pytest

from tests.formats import in_format
from tests.machine import ended
from tests.reference.events import document
from tests.reference.replica_files import read_file
from tests.tools.copies import is_caught
from tests.tools.test_rulings import Rulings, canonical, strangers
from tests.tools.test_site_folders import EVENT, Site

pytestmark = pytest.mark.needs("ssh-keygen")


@pytest.fixture(autouse=True)
def command(cadf, monkeypatch):
    """Has the tools run the command that is tried."""
    monkeypatch.setattr(Site, "command", cadf)


@pytest.fixture
def sites(tmp_path):
    return Rulings(tmp_path)


@pytest.mark.parametrize("who, words, is_taken", [("ann", ["--no-rulings"], False), ("ann", ["--rulings-by", "allowed"], True), ("bob", ["--rulings-by", "allowed"], False)])
@pytest.mark.parametrize("version", [1, 2])
def test_a_take(sites, who, words, is_taken, version):
    """Refused whole, or but for the ruling, which is left to a file; one that the site has is no new one."""
    ruling, others = strangers(sites, who)
    (sites.path / "came.cadf").write_bytes(in_format(version, (sites.path / "came.cadf").read_bytes()))
    before = sites.north.atoms()
    if not is_taken:
        said = sites.take(*words, "came.cadf", status=1)
        assert said.startswith('cadf-take: 1 rulings aren\'t welcome, as of E "e": --') and sites.north.atoms() == before
        assert "1 facts wait, of 1 rulings that aren't welcome: look at their keys" in sites.take(*words, "--rest", "rest", "came.cadf", status=5)
        assert read_file((sites.path / "rest").read_bytes()) == ("g", {ruling}) and sites.rulings_in() == set()
    else:
        sites.take(*words, "--rest", "rest", "came.cadf")
        assert not (sites.path / "rest").exists() and sites.rulings_in() == {ruling}
    assert others <= sites.north.atoms()
    sites.take("came.cadf")
    sites.take("--no-rulings", "came.cadf")
    assert sites.rulings_in() == {ruling}


def test_a_take_by_a_record_that_the_site_has(sites):
    """Whichever of both comes first, as from a peer, a signed ruling is taken once both are there."""
    ruling, others = strangers(sites)
    sites.put("ruling.cadf", {ruling})
    sites.put("record.cadf", {atom for atom in read_file((sites.path / "came.cadf").read_bytes())[1] if atom[0] == "E"})
    sites.take("--rulings-by", "allowed", "ruling.cadf", status=1)
    sites.take("--rulings-by", "allowed", "record.cadf")
    sites.take("--rulings-by", "allowed", "ruling.cadf")
    assert sites.rulings_in() == {ruling}


def test_a_take_into_a_file(sites):
    """It is refused whole, unless the ruling is welcome."""
    strangers(sites, "bob")
    before = (sites.path / "both.cadf").read_bytes()
    for words in (["--no-rulings"], ["--rulings-by", "allowed"]):
        assert "rulings aren't welcome" in sites.take(*words, "came.cadf", status=1, site="both.cadf") and (sites.path / "both.cadf").read_bytes() == before
    strangers(sites, "ann")
    sites.take("--rulings-by", "allowed", "came.cadf", site="both.cadf")
    sites.take("--no-rulings", "came.cadf", site="both.cadf")


def test_rulings_of_several_senders(sites):
    """Each sender's rulings are left to that sender's file, beside the windows that are."""
    one, other = ("U", "E", "e", "1" * 64), ("U", "P", "name", "2" * 64)
    far = document({"id": "g", "events": [dict(EVENT, id="far", eventTime="1990-01-01T00:00:00Z")]})[1]
    files = [sites.put("1.cadf", {one}), sites.put("2.cadf", far | {other, one}), sites.put("3.cadf", far)]
    words = ["--no-rulings", "--windows", "0", "--senders", "1,1,1", "--rest", "rest", "north", *files]
    said = ended(os.path.join(sites.tools, "cadf-take"), words, env=sites.environment, cwd=sites.path)
    assert said.status == 5 and b"rest.2: 3 facts wait, of 1 new windows beyond the limits and 2 rulings that aren't welcome: look at their times" in said.error
    assert [read_file((sites.path / ("rest.%d" % number)).read_bytes())[1] for number in (1, 2, 3)] == [{one}, far | {one, other}, far]


@pytest.mark.parametrize("words, is_taken", [((), False), (("--rulings",), True), (("--rulings-by", "allowed"), True), (("--rulings-by", "bob.pub"), False)])
def test_a_spool(sites, words, is_taken):
    """A stranger's ruling waits by default, and all else of the file is taken; a person lists it, looks at it, and takes it."""
    ruling, others = strangers(sites)
    (sites.path / "spool").mkdir()
    os.rename(sites.path / "came.cadf", sites.path / "spool" / "came.cadf")
    status, _, lines = sites.run("spool", "--unchanged", "0", *words, "north/", "spool")
    assert status == 0 and others <= sites.north.atoms() and sites.rulings_in() == ({ruling} if is_taken else set())
    assert is_taken or any("1 rulings that aren't welcome" in line for line in lines), lines
    assert sites.run("admit", "spool")[0] == (0 if is_taken else 5)
    if not is_taken:
        assert canonical(list(ruling[1:])) in sites.run("admit", "--lines", "spool", "*")[1]
        assert sites.run("admit", "--take", "north", "spool", "*")[0] == 0 and sites.rulings_in() == {ruling}


def test_a_spool_for_a_site_that_is_a_file(sites):
    strangers(sites)
    (sites.path / "spool").mkdir()
    os.rename(sites.path / "came.cadf", sites.path / "spool" / "came.cadf")
    status, _, _ = sites.run("spool", "--unchanged", "0", "both.cadf", "spool")
    assert status == 1 and "rulings aren't welcome" in (sites.path / "spool" / "set-aside" / "came.cadf.reason").read_text()


@pytest.mark.parametrize("who, words, is_taken", [
    ("ann", [], True), ("ann", ["--no-rulings"], False), ("ann", ["--rulings-by", "allowed"], True), ("bob", ["--rulings-by", "allowed"], False)])
@pytest.mark.parametrize("north", ["north/", "both.cadf"])
def test_a_peer(sites, who, words, is_taken, north):
    """All else comes. What isn't welcome is told each time, and the status stays 0: somebody has decided so."""
    ruling, others = strangers(sites, who)
    sites.take("came.cadf", site="south")
    for _ in range(2):
        status, output, lines = sites.run("sync", *words, north, "south/")
        assert status == 0 and is_taken == (not lines), lines
        assert is_taken or lines[0].startswith("cadf-sync: south/: left out: 1 rulings aren't welcome, as of E \"e\": --")
    held = sites.north.atoms() if north == "north/" else read_file((sites.path / "both.cadf").read_bytes())[1]
    assert others <= held and {atom for atom in held if atom[0] == "U"} == ({ruling} if is_taken else set())


def test_a_peer_that_is_served(sites):
    """The line in authorized_keys says whose rulings a caller may bring."""
    ruling, others = strangers(sites, "bob")
    sites.take("came.cadf")
    shell = sites.path / "shell"
    shell.write_text("#!/bin/sh\nexec '%s' --serve --no-rulings south/\n" % os.path.join(sites.tools, "cadf-sync"))
    shell.chmod(0o755)
    status, _, lines = sites.run("sync", "--rsh", str(shell), "north/", "h:south/")
    assert status == 0 and any("the caller: left out: 1 rulings aren't welcome" in line for line in lines), lines
    assert others <= sites.south.atoms() and sites.rulings_in("south") == set() and sites.rulings_in() == {ruling}


def test_signatures_of_other_keys_cost_no_program(sites):
    """Nor do those of no form; each of a key that is allowed costs a call of ssh-keygen."""
    ruling, _ = strangers(sites, "bob")
    calls = sites.path / "calls"
    (sites.path / "bin").mkdir()
    (sites.path / "bin" / "ssh-keygen").write_text("#!/bin/sh\necho >>%s\nexec /usr/bin/ssh-keygen \"$@\"\n" % calls)
    (sites.path / "bin" / "ssh-keygen").chmod(0o755)
    sites.environment["PATH"] = "%s:%s" % (sites.path / "bin", os.environ["PATH"])
    sites.take("--rulings-by", "allowed", "came.cadf", status=1)
    assert not calls.exists()
    strangers(sites, "ann")
    sites.take("--rulings-by", "allowed", "came.cadf")
    assert calls.read_text() == "\n"


def test_a_peer_that_sends_a_damaged_file_with_a_ruling(sites):
    """It is judged before anything is cut off: no right digest is made for wrong bytes."""
    strangers(sites)
    sites.take("came.cadf", site="south")
    sites.environment["CADF"] = Site.command
    shell = sites.path / "shell"
    shell.write_text("#!/bin/sh\n'%s' --serve south/ | sed -u 's/^.2,0,.more..$/[2,0,\"less\"]/'\n" % os.path.join(sites.tools, "cadf-sync"))
    shell.chmod(0o755)
    status, _, lines = sites.run("sync", "--no-rulings", "--pull", "--rsh", str(shell), "north/", "h:south/")
    assert status == 1 and any(" from h:south/: digest" in line for line in lines) and not any(atom[:2] == ("P", "less") for atom in sites.north.atoms()), lines


@pytest.mark.parametrize("check, words, right, wrong", [
    (test_a_take_by_a_record_that_the_site_has, [], "(lambda: atoms_in(inputs), lambda: records_of_site(site))", "(lambda: atoms_in(inputs),)"),
    (test_a_take, ["ann", ["--no-rulings"], False, 2], "            left -= rulings_in(each)", "            pass"),
    (test_rulings_of_several_senders, [], "rulings_in(file) & self.rulings", "self.rulings"),
    (test_a_peer_that_sends_a_damaged_file_with_a_ruling, [], 'joined = made(["join"], [each], each.name)', "joined = each"),
])
def test_a_wrong_version_is_caught(tmp_path, check, words, right, wrong):
    is_caught(tmp_path, (right, wrong), check, functools.partial(Rulings, tmp_path), *words)
