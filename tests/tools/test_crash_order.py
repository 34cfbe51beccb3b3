"""What a power cut leaves: what a tool drops, or says that it has done, is on the disk before, as strace sees it.

A run is told by its calls, a letter each, and has to be of a form. Others may come between them.
"""
import json
import os
import re
import subprocess
import sys

import pytest

from tests.tools.programs import tool
from tests.tools.odd_logs import EVENT

pytestmark = pytest.mark.needs("strace")

TRACED = "openat,write,pwrite64,ftruncate,fsync,fdatasync,rename,renameat,renameat2,link,linkat,unlinkat"
GOOD, BAD = json.dumps(dict(EVENT, id="e1")), json.dumps(dict(EVENT, id=""))
RECOVER = "import sys; from tests.tools.programs import loaded; loaded(sys.argv[1]).Spool(sys.argv[2], 1, 1)"


def steps(folder, words, calls, **options):
    """The calls of a run that these patterns match, in their order, a letter each."""
    trace = folder / "trace"
    done = subprocess.run(["strace", "-f", "-y", "-qq", "-s", "8", "-e", "signal=none", "-e", "trace=" + TRACED, "-o", trace, *map(str, words)],
                          stdin=subprocess.DEVNULL, stderr=subprocess.PIPE, **options)
    if b"ptrace" in done.stderr:
        pytest.skip("strace isn't allowed")
    found = []
    for line in trace.read_text(encoding="utf-8", errors="replace").splitlines():
        found += [letter for letter, pattern in calls.items() if re.match(r"\d+ +" + pattern.replace("TMP", re.escape(str(folder))), line)]
    return done.returncode, "".join(found)


def document(key):
    return json.dumps({"id": "g", "events": [dict(EVENT, id=key)]})


@pytest.mark.parametrize("held, form", [
    (None, "mw+srf"),  # a private file, written, synced, renamed, its name synced
    ("e2", "mw+slrf"),  # the old file keeps a name before
    ("e1", "mw+Sf"),  # nothing new: the file goes, and a call that was killed may have put the old one there
])
def test_take(cadf, tmp_path, held, form):
    environment, site = {**os.environ, "CADF": cadf}, tmp_path / "site.cadf"
    (tmp_path / "new.json").write_text(document("e1"))
    if held:
        (tmp_path / "held.json").write_text(document(held))
        subprocess.run([tool("cadf-take"), site, tmp_path / "held.json"], env=environment, check=True)
    calls = {"m": r'openat\(.*/site\.cadf\.new", .*O_CREAT.*, 0600\)', "w": r"write\(\d+<TMP/site\.cadf\.new>", "s": r"fsync\(\d+<TMP/site\.cadf\.new>",
             "l": r'link(at)?\(.*site\.cadf\.before"', "r": r'rename(at|at2)?\(.*/site\.cadf\.new"', "S": r"fsync\(\d+<TMP/site\.cadf>", "f": r"fsync\(\d+<TMP>"}
    status, told = steps(tmp_path, [tool("cadf-take"), site, tmp_path / "new.json"], calls, env=environment)
    assert status == 0 and re.fullmatch(form, told), told


@pytest.mark.parametrize("held, form", [
    (None, "PFw+srF(w+sp)+Fw+srF"),  # the folder's name; a `site` of no window; each window's file, all names, and a `site` of them
    ("e2", "(w+sp)+Fw+srF"),
    ("e1", "w+F"),  # nothing new: a call that was killed may have put it there
    ("e2 e3", "Fuu(w+sp)+Fw+srF"),  # what `site` no longer names goes once that is on the disk: a call that was killed may have put it there
])
def test_take_into_a_folder(cadf, tmp_path, held, form):
    """A file is on the disk before it has its name, and all names that `site` has before it is replaced."""
    environment, site = {**os.environ, "CADF": cadf}, tmp_path / "site"
    (tmp_path / "new.json").write_text(document("e1"))
    if held:
        for key in held.split():
            (tmp_path / "held.json").write_text(document(key))
            subprocess.run([tool("cadf-take"), "--by", "day", site, tmp_path / "held.json"], env=environment, check=True)
        subprocess.run([tool("cadf-take"), "--settle", site], env=environment, check=True)
    calls = {"P": r"fsync\(\d+<TMP>\)", "F": r"fsync\(\d+<TMP/site>\)", "w": r"write\(\d+<TMP/site/\.new>", "s": r"fsync\(\d+<TMP/site/\.new>",
             "p": r'renameat2?\(.*"\.new", .*"2024-03-01\.[0-9a-f]*', "r": r'renameat2?\(.*"\.new", .*"site"', "u": r'unlinkat\(.*"2024-03-01\.'}
    status, told = steps(tmp_path, [tool("cadf-take"), "--by", "day", site, tmp_path / "new.json"], calls, env=environment)
    assert status == 0 and re.fullmatch(form, told), told


def spooled(cadf, folder, name, content, calls):
    """The steps of a run over a spool with one file."""
    spool = folder / "spool"
    spool.mkdir()
    (spool / name).write_text(content)
    words = [tool("cadf-spool"), "--unchanged", "0", "--log", "g", folder / "site.cadf", spool]
    return steps(folder, words, calls, env={**os.environ, "CADF": cadf})


def test_spool_in_part(cadf, tmp_path):
    """What is set aside of a file is on the disk under its name before the rest is taken, and that before the file is let go."""
    calls = {"a": r"write\(\d+<TMP/spool/taking/\.work/0-aside>", "s": r"fsync\(\d+<TMP/spool/taking/\.work/0-aside>", "m": r"renameat\(.*taking.*set-aside>, ",
             "F": r"fsync\(\d+<TMP/spool/set-aside>", "r": r"rename(at|at2)?\(.*site\.cadf\.new", "d": r"fsync\(\d+<TMP>", "t": r"renameat\(.*taken>, ",
             "T": r"fsync\(\d+<TMP/spool/taken>"}
    status, told = spooled(cadf, tmp_path, "lines.jsonl", GOOD + "\n" + BAD + "\n", calls)
    assert status == 0 and re.fullmatch("a+smFrdtT", told), told


def test_spool_refuses(cadf, tmp_path):
    """A copy is on the disk before it is in the place of what was sent. So is why it is set aside before it is, and then its name."""
    calls = {"c": r"write\(\d+<TMP/spool/taking/\.work/copy>", "y": r"fsync\(\d+<TMP/spool/taking/\.work/copy>", "x": r'renameat\(.*"copy", .*taking>, ',
             "w": r"write\(\d+<TMP/spool/set-aside/cut\.json\.reason>", "s": r"fsync\(\d+<TMP/spool/set-aside/cut\.json\.reason>",
             "m": r"renameat\(.*taking.*set-aside>, ", "F": r"fsync\(\d+<TMP/spool/set-aside>"}
    status, told = spooled(cadf, tmp_path, "cut.json", "{", calls)
    assert status == 1 and re.fullmatch("c+yxw+smF", told), told


def test_from_openstack(tmp_path):
    """What is set aside is on the disk before the document ends, which is only then whole."""
    (tmp_path / "lines").write_text(GOOD + "\n" + BAD + "\n")
    words = [tool("cadf-from-openstack"), "--log", "g", "--set-aside", tmp_path / "aside", tmp_path / "lines"]
    calls = {"a": r"write\(\d+<TMP/aside>", "s": r"fsync\(\d+<TMP/aside>", "w": r"write\(\d+<TMP/document>"}
    with open(tmp_path / "document", "wb") as output:
        status, told = steps(tmp_path, words, calls, stdout=output)
    assert status == 1 and re.fullmatch("[aw]*asw+", told), told
    assert len(json.loads((tmp_path / "document").read_bytes())["events"]) == 1


def test_listener_recovers(tmp_path):
    """The torn end of a file is on the disk, with its name, before it is cut off; so is what is left, before it has its name."""
    folder = tmp_path / "spool"
    folder.mkdir(mode=0o700)
    part = folder / "n.jsonl.part"
    part.touch(mode=0o600)
    part.write_bytes(b"{}\n{")
    calls = {"w": r"write\(\d+<TMP/spool/n\.jsonl\.torn>", "s": r"fsync\(\d+<TMP/spool/n\.jsonl\.torn>", "F": r"fsync\(\d+<TMP/spool>", "c": "ftruncate",
             "S": r"fsync\(\d+<TMP/spool/n\.jsonl\.part>", "r": r"rename(at|at2)?\(.*n\.jsonl\.part"}
    status, told = steps(tmp_path, [sys.executable, "-c", RECOVER, tool("cadf-listen"), folder], calls)
    assert status == 0 and re.fullmatch("wsFcSrF", told), told
