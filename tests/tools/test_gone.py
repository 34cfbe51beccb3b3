"""What a site folder keeps no more, as docs/FORMATS.md has its file: what is read of it, and what stays away from the site."""
import os
import re
import sys

import pytest

from tests import TOP
from tests.reference.replica_files import read_file
from tests.tools.kept_sites import Place, atoms_of, digits_of, event, gone_of, with_digest

sys.path.insert(0, os.path.join(TOP, "share", "cadf"))
import cadf_gone

SOME, OTHER = "0" * 64, "f" * 64
ACTS = ['H 2024-03-01 2026-12-01T10:00:00Z ["ann","a case"]', 'T 2024-03-03 2026-12-02T10:00:00Z ["cron",""]', "G 2024-03-02 1 %s 1 %s" % (SOME, OTHER)]


@pytest.fixture
def place(cadf, tmp_path):
    return Place(cadf, tmp_path)


# ---- The file

def test_what_is_read_is_written(place):
    """Lines go on from those before, and nothing else is such a file."""
    data = gone_of(ACTS)
    found = cadf_gone.Gone.read(data, '"g"', "day")
    assert found.bytes() == data and found.kept == ("2024-03-03", {"2024-03-01"}) and list(found.windows) == ["2024-03-02"]
    assert [found.kept.has(part) for part in ("shared", "2024-03-01", "2024-03-02", "2024-03-03", "2024-04-01")] == [True, True, False, True, True]
    further = found.after("R", "2024-03-01", "2026-12-03T10:00:00Z", "b\u2028b", 'be"cause')
    assert further.bytes() == gone_of([*ACTS, 'R 2024-03-01 2026-12-03T10:00:00Z ["b\u2028b","be\\"cause"]'])
    assert further.kept == ("2024-03-03", set())
    assert cadf_gone.Gone.read(data, '"h"', "day") is cadf_gone.Gone.read(data, '"g"', "month") is cadf_gone.Gone.read(data[:-1], '"g"', "day") is None


ERASED = ['E 2026-12-03T10:00:00Z ["ann","request 17"]', "X shared 2 %s 1 %s 1 %s 1 %s" % (SOME, OTHER, OTHER, SOME),
          "X 2024-03-01 3 %s 2 %s 0 %s 0 %s" % (SOME, SOME, OTHER, OTHER), "X 2024-03-04 3 %s 2 %s 2 %s 2 %s" % (SOME, SOME, OTHER, OTHER)]


def test_an_erasure_is_read():
    """It has a line for each part that it touched, also of a held window; other acts may follow, and what is kept is as before."""
    data = gone_of([*ACTS, *ERASED, ERASED[0], ERASED[1]])
    found = cadf_gone.Gone.read(data, '"g"', "day")
    assert found.bytes() == data and found.kept == ("2024-03-03", {"2024-03-01"}) and list(found.windows) == ["2024-03-02"]
    assert found.erased == [tuple([line.split(" ")[1], *(" ".join(line.split(" ")[at:at + 4]) for at in (2, 6))]) for line in [*ERASED[1:], ERASED[1]]]
    assert found.after_erasure("2026-12-04T10:00:00Z", "ann", "").bytes() == gone_of([*ACTS, *ERASED, ERASED[0], ERASED[1], 'E 2026-12-04T10:00:00Z ["ann",""]'])
    assert cadf_gone.Gone.read(gone_of(ERASED[:2]), '"g"', "day").kept == cadf_gone.ALL


WRONG = {
    "what was touched without an erasure": [*ACTS, ERASED[1]],
    "what was touched alone": ERASED[1:2],
    "a falling part": [*ACTS, ERASED[0], ERASED[2], ERASED[1]],
    "a part twice": [*ACTS, *ERASED[:2], ERASED[1]],
    "a part that went": [*ACTS, ERASED[0], ERASED[2].replace("03-01", "03-02")],
    "a part of another unit": [*ACTS, ERASED[0], ERASED[2].replace("03-01", "03")],
    "no fewer facts": [*ACTS, ERASED[0], ERASED[1].replace("shared 2", "shared 1")],
    "too many facts": [*ACTS, ERASED[0], ERASED[1].replace("shared 2", "shared 18446744073709551616")],
    "a zero before a number": [*ACTS, ERASED[0], ERASED[1].replace("shared 2", "shared 02")],
    "who erased in another text": [*ACTS, ERASED[0].replace('","', '", "')],
    "a window that went by an erasure": [*ACTS[:2], ERASED[0], ACTS[2]],
    "no act": [],
    "a floor that falls": [*ACTS, 'T 2024-03-02 2026-12-02T10:00:00Z ["",""]'],
    "another unit": [*ACTS, 'T 2024-04 2026-12-02T10:00:00Z ["",""]'],
    "held below the floor": [*ACTS, 'H 2024-03-02 2026-12-02T10:00:00Z ["",""]'],
    "held twice": [*ACTS[:1], ACTS[0]],
    "released unheld": [*ACTS, 'R 2024-03-05 2026-12-02T10:00:00Z ["",""]'],
    "a held window that went": [*ACTS[:2], ACTS[2].replace("03-02", "03-01")],
    "a kept window that went": [*ACTS, ACTS[2].replace("03-02", "03-03")],
    "one that went twice": [*ACTS, 'T 2024-03-04 2026-12-02T10:00:00Z ["",""]', ACTS[2]],
    "a falling name": [*ACTS, ACTS[2].replace("03-02", "02-02")],
    "no facts": [*ACTS[:2], ACTS[2].replace(" 1 ", " 0 ", 1)],
    "too many": [*ACTS[:2], ACTS[2].replace(" 1 ", " 18446744073709551616 ", 1)],
    "another text": [*ACTS[:1], ACTS[1].replace('["cron",""]', '["cron", ""]')],
    "three words": [*ACTS[:1], ACTS[1].replace('["cron",""]', '["cron","",""]')],
    "a number": [*ACTS[:1], ACTS[1].replace('["cron",""]', '["cron",""],1]')],
    "another letter": [*ACTS, "X"],
    "deep": [*ACTS[:1], 'T 2024-03-03 2026-12-02T10:00:00Z ["",%s""]' % ("[" * 100000)],
}


@pytest.mark.parametrize("lines", WRONG.values(), ids=WRONG)
def test_a_wrong_file_is_none(lines):
    assert cadf_gone.Gone.read(gone_of(lines), '"g"', "day") is None


# ---- What a take leaves

def test_a_take_brings_nothing_that_isnt_kept(place):
    """It is refused whole; with --rest it waits there, said in a line. A held window is taken into, and a site that forgot nothing is of version 1."""
    place.site(1, 2, 3)
    assert place.files()[1] is None
    digits = place.forget(gone_of(ACTS))
    late = [event("x%d" % day, day) for day in (1, 2, 3, 4)]
    said = place.run("cadf-take", "site", place.put("late.json", *late), status=1).error.decode()
    assert said == "cadf-take: the files have events of the window 2024-03-02, and the site keeps from 2024-03-03 on: no take brings them: --rest FILE has all else taken\n"
    assert place.days() == ["2024-03-01", "2024-03-03"]
    said = place.run("cadf-take", "--rest", "rest.cadf", "site", "late.json", status=5).error.decode()
    assert re.fullmatch("cadf-take: rest.cadf: 1 facts wait, of 1 windows that the site keeps no more: look at their times; `cadf-take --windows all SITE FILE` takes them, "
                        "but nothing that is older than 2024-03-03, from where the site keeps: --rest has the others taken\n", said), said
    assert read_file((place.path / "rest.cadf").read_bytes())[1] == atoms_of(late[1])
    assert place.files()[1] == digits and place.atoms() == atoms_of(event("e1", 1), event("e3", 3), *late[:1], *late[2:])
    place.run("cadf-take", "--settle", "site")
    assert place.files()[1] == digits and len(place.files()[0]) == 3


@pytest.mark.parametrize("fault, said", [
    ("lost", "not there: "), ("changed", "damaged, or of a later release: "), ("another", "damaged, or of a later release: "), ("a link", "not a regular file: "),
], ids=["lost", "changed", "another", "a link"])
def test_a_damaged_file_is_told(place, fault, said):
    """Nobody knows then what is to be taken, so nothing is; what to do is said."""
    place.site(1, 2, 3)
    data = gone_of(ACTS)
    digits = place.forget(data if fault != "another" else gone_of(ACTS[:2]), digits=digits_of(data))
    path = place.path / "site" / ("gone." + digits)
    if fault == "changed":
        path.write_bytes(data.replace(b"cron", b"crow"))
    elif fault != "another":
        path.unlink()
    if fault == "a link":
        (place.path / "elsewhere").write_bytes(data)
        path.symlink_to(place.path / "elsewhere")
    before = place.lines()
    done = place.run("cadf-take", "site", place.put("late.json", event("x3", 3)), status=3 if fault == "a link" else 1)
    assert done.error.decode().startswith("cadf-take: site/gone.%s: %s" % (digits, said)) and "put the file of this name back from a backup" in done.error.decode()
    assert place.lines() == before
    if fault != "another":
        path.unlink(missing_ok=True)
        path.write_bytes(data)
        place.run("cadf-take", "site", "late.json")


def test_another_version_of_a_site(place):
    """A later one is told, and is no damage. Version 2 without what went is none."""
    place.site(1)
    lines = place.lines()[:-1]
    for first, said in (("CADF-SITE 3", "a later release wrote it: have that one, or a newer one, here"), ("CADF-SITE 2", "not the file of a site: ")):
        (place.path / "site" / "site").write_bytes(with_digest([first, *lines[1:]]))
        assert said in place.run("cadf-events", "site", status=1).error.decode()


def test_a_stale_file_goes(place):
    """A gone file that `site` doesn't name is of a call that was killed: the next take removes it."""
    place.site(1, 2, 3)
    place.forget(gone_of(ACTS))
    stale = place.path / "site" / ("gone." + SOME)
    stale.write_bytes(b"")
    place.run("cadf-take", "site", place.put("late.json", event("x3", 3)))
    assert not stale.exists() and place.files()[1] == digits_of(gone_of(ACTS))
