"""cadf-seal: lists of what was sealed, proofs of growth by windows beside the second implementation's, what is refused, and what liars try."""
import functools
import os
import stat

import pytest

from tests import text_of
from tests.reference.events import Fault, document
from tests.reference.list_files import ERASED, list_with, read_erased_list, sealed_list_of
from tests.reference.replica_files import file_of
from tests.reference.seal_files import keys_of, leaves_of
from tests.reference.site_growth_files import read_site_growth, site_grown, site_growth_of
from tests.reference.site_seal_files import read_site_seal, site_seal_of
from tests.reference.split_files import parts_of
from tests.tools.copies import is_caught
from tests.tools.test_seal import HEAD, Seals, Site, command, with_digest  # noqa: F401: `command` is a fixture
from tests.tools.test_site_folders import DAYS, EVENT, atoms_of, contents

import cadf_growth
import cadf_toolkit

EARLIER, MORE = contents(0, 2, name="n"), contents(1, 3, 5)
NEW = {"id": "g", "events": [dict(EVENT, id="e0", eventTime="2024-03-05T00:00:00Z")]}  # of a window that isn't there
HELD = [EARLIER, MORE, NEW]
GROWTH_HEAD = HEAD.replace("SEAL", "GROWTH")
OTHERS = "the two seals and the proof don't belong together: have the proof made again, from this earlier seal to this later one"
GONE = "it was sealed, and isn't there any more: ask the site's people why; --erased LIST allows what they had erased"
NOTHING_CHANGED = with_digest(GROWTH_HEAD.encode())
NO_WINDOW = "gone: the later seal has no such window: ask the site's people why; --kept-from WINDOW allows those before the first that is kept"


class Growths(Seals):
    """A site, its seal with lists that are kept, and what it took since."""

    def __init__(self, path, *words):
        super().__init__(path, *words)
        self.site.takes(EARLIER)
        self.kept("old", "--keep", "site")

    def grows(self, *documents):
        for value in documents:
            self.site.takes(value)
        return self.writes("--growth", "old", "--new", "new", "site")

    def lists(self):
        return sorted(each for each in os.listdir(self.site.folder) if each.startswith(".sealed"))

    def says(self, proof, *words, old="old", new="new"):
        self.put("proof", proof)
        return self.run("--grew", *words, old, new, "proof")

    def seals(self, name, *documents, unit="day", log="g"):
        """A file of the seal of the documents' facts."""
        return self.put(name, site_seal_of(log, atoms_of(*documents), unit))


@pytest.fixture
def growths(tmp_path):
    return Growths(tmp_path)


def wanted(path, proof, listed=None, first=None):
    """What the second implementation says of the same: the lines by part, or the refusal."""
    try:
        return site_grown(*(read_site_seal((path / name).read_bytes()) for name in ("old", "new")), read_site_growth(proof),
                          listed and read_erased_list(listed)[1], first)
    except Fault as fault:
        return fault.said


def erased(*documents):
    """The erased list of all facts and keys of the documents."""
    atoms = atoms_of(*documents)
    return list_with(ERASED, "g", leaves_of(atoms), keys_of(atoms))


# ---- What is written

def test_growth(growths):
    """Of windows that changed alone, to the seal that is written beside it; those that are new count as added."""
    proof = growths.grows(MORE, NEW)
    assert proof == site_growth_of("g", atoms_of(EARLIER), atoms_of(*HELD), "day")
    assert (growths.path / "new").read_bytes() == site_seal_of("g", atoms_of(*HELD), "day") == growths.writes("site")
    counts = {part: len(own) - len(parts_of(atoms_of(EARLIER), "day").get(part, ())) for part, own in parts_of(atoms_of(*HELD), "day").items()}
    lines = ["%s: added %d" % (part, count) for part, count in sorted(counts.items()) if count]
    assert len(lines) == 3 and growths.says(proof) == (0, "".join(line + "\n" for line in [*lines, "added %d" % sum(counts.values())]).encode(), [])
    assert wanted(growths.path, proof) == {part: b"added %d\n" % counts[part] for part in ("2024-02-29", "2024-03-01")}


def test_no_change(growths):
    proof = growths.grows()
    assert proof == with_digest(GROWTH_HEAD.encode()) and growths.says(proof) == (0, b"added 0\n", [])


def test_lists_of_what_was_sealed(growths):
    """One for each window, by the root of its facts, as private as the folder; another seal of the same writes none; those of no window of a seal are removed."""
    roots = {part: roots[1].hex() for part, roots in read_site_seal((growths.path / "old").read_bytes())[1].parts.items()}
    assert growths.lists() == sorted(".sealed-" + root for root in roots.values())
    for part, own in parts_of(atoms_of(EARLIER), "day").items():
        path = growths.site.folder / (".sealed-" + roots[part])
        assert path.read_bytes() == sealed_list_of("g", own)
        assert stat.S_IMODE(path.stat().st_mode) == 0o666 & growths.site.folder.stat().st_mode
    before = [os.stat(growths.site.folder / name) for name in growths.lists()]
    assert growths.writes("--keep", "site") == (growths.path / "old").read_bytes()
    assert [os.stat(growths.site.folder / name) for name in growths.lists()] == before
    growths.grows(MORE)
    growths.kept("new", "--keep", "site")
    assert len(growths.lists()) == 5
    assert growths.run("--drop", "new", "site") == (0, b"", ["cadf-seal: lists that were removed: 2"])
    assert len(growths.lists()) == 3 and growths.run("--growth", "new", "site")[0] == 0
    status, output, said = growths.run("--growth", "old", "site")
    assert (status, output) == (1, b"") and said == [
        "cadf-seal: site: it has no list of what 2024-02-29 had when it was sealed, so no growth can be shown of it: `cadf-seal --keep SITE/` keeps lists from now on"]


def test_no_lists_unless_they_are_asked_for(growths):
    names = growths.lists()
    growths.site.takes(MORE)
    growths.writes("site")
    growths.writes("--growth", "old", "site")
    assert growths.lists() == names
    growths.writes("--growth", "old", "--keep", "site")
    assert len(growths.lists()) == 5


def test_a_list_that_is_damaged(growths):
    """It is told of, and what another list says shows nothing: the later proof is refused."""
    growths.site.takes(MORE)
    name = ".sealed-" + read_site_seal((growths.path / "old").read_bytes())[1].parts["2024-02-29"][1].hex()
    path = growths.site.folder / name
    path.write_bytes(path.read_bytes().replace(b"F ", b"F 0", 1))
    status, output, said = growths.run("--growth", "old", "site")
    assert (status, output) == (1, b"") and said[0].startswith("cadf-seal: site/%s: line 3: shape: " % name)
    path.write_bytes(sealed_list_of("g", parts_of(atoms_of(EARLIER), "day")["2024-03-01"]))
    status, output, said = growths.says(growths.grows())
    assert (status, output) == (1, b"") and said[0].startswith("cadf-seal: 2024-02-29 of ")


def test_takes_meanwhile(growths, monkeypatch):
    """The seal and the proof are of one moment, though a take changes what was sealed before."""
    growths.site.takes(MORE)
    real, later = cadf_growth.sealed, [contents(5, 6, 7)]

    def late(inputs):
        if later:
            growths.site.takes(later.pop())
        return real(inputs)

    monkeypatch.setattr(cadf_toolkit, "CADF", Site.command)
    monkeypatch.setattr(cadf_growth, "sealed", late)
    old = read_site_seal((growths.path / "old").read_bytes())[1]
    seal = cadf_growth.SiteSeal('"g"', "day")
    seal.parts = {part: cadf_growth.Roots(*(each.hex() if isinstance(each, bytes) else each for each in roots)) for part, roots in old.parts.items()}
    seal, proof = cadf_growth.grown(str(growths.site.folder), seal)
    assert not later
    growths.put("new", seal.bytes())
    assert growths.says(proof.bytes())[0] == 0


def test_a_site_that_is_a_file(growths):
    """Its list, its proof and what this says are the command's."""
    for name, documents in (("one", [EARLIER]), ("two", HELD)):
        growths.put(name, file_of("g", atoms_of(*documents)))
        growths.kept(name + ".seal", name)
    growths.put("list", growths.command("sealed", "one"))
    growths.put("proof", growths.command("growth", "list", "two"))
    count = len(atoms_of(*HELD)) - len(atoms_of(EARLIER))
    assert growths.run("--grew", "one.seal", "two.seal", "proof") == (0, b"added %d\n" % count, [])
    growths.put("list", erased())
    assert growths.run("--grew", "--erased", "list", "one.seal", "two.seal", "proof") == (0, b"added %d, erased 0\n" % count, [])
    assert growths.run("--grew", "two.seal", "one.seal", "proof") == (1, b"", ["cadf-seal: proof: facts: other count: " + OTHERS])
    assert growths.run("--grew", "one.seal", "two.seal", "two.seal")[2] == ["cadf-seal: two.seal: version: no proof of growth, as `cadf growth` writes it"]


# ---- What is gone

def lost(growths, *documents):
    """The proof that a site makes, with the lists of the first one, that has the facts of these documents alone; its seal is `new`."""
    growths.put("new", site_seal_of("g", atoms_of(*documents), "day"))
    return site_growth_of("g", atoms_of(EARLIER), atoms_of(*documents), "day")


def test_a_fact_that_is_gone(growths):
    """The window is named, and the first fact; a list of what was erased allows it."""
    proof = lost(growths, contents(2, name="n"), MORE, {"id": "g", "name": "n", "events": [dict(EVENT, id="e9", eventTime=DAYS[0])]})
    gone = min(leaf.hex() for leaf in leaves_of(parts_of(atoms_of(contents(0)), "day")["2024-02-29"]))
    assert growths.says(proof) == (1, b"", ["cadf-seal: 2024-02-29 of new: facts: gone: %s: %s" % (gone, GONE)])
    assert wanted(growths.path, proof) == "2024-02-29: input 2: facts: gone: " + gone
    growths.put("list", erased(contents(0)))
    assert growths.says(proof, "--erased", "list") == (0, b"2024-02-29: added 5, erased 2\n2024-03-01: added 2, erased 0\nadded 7, erased 2\n", [])
    growths.put("list", erased(contents(2)))
    status, output, said = growths.says(proof, "--erased", "list")
    assert (status, output) == (1, b"") and "facts: gone: " + gone in said[0]
    growths.put("list", list_with(ERASED, "h", [], []))
    assert growths.says(proof, "--erased", "list")[2][0].startswith('cadf-seal: list: other log')


def test_a_window_that_is_gone(growths):
    """It needs its proof too, also if nothing is left of it."""
    proof = lost(growths, contents(2, name="n"))
    gone = min(leaf.hex() for leaf in leaves_of(parts_of(atoms_of(EARLIER), "day")["2024-02-29"]))
    assert growths.says(proof)[2] == ["cadf-seal: 2024-02-29 of new: facts: gone: %s: %s" % (gone, GONE)]
    growths.put("list", erased(contents(0)))
    assert growths.says(proof, "--erased", "list") == (0, b"2024-02-29: added 0, erased 2\nadded 0, erased 2\n", [])
    for words in ([], ["--kept-from", "2024-03-01"]):
        assert growths.says(NOTHING_CHANGED, *words) == (1, b"", ["cadf-seal: proof: 2024-02-29: " + NO_WINDOW])
        assert wanted(growths.path, NOTHING_CHANGED, first=words[-1] if words else None) == "2024-02-29: gone"


def test_a_window_that_went(growths):
    """The auditor says from when on the site has to keep, and not the site: and it has to be gone as it was sealed, or by a proof of how it grew."""
    left, facts = atoms_of(contents(2, name="n")), parts_of(atoms_of(EARLIER), "day")["2024-02-29"]
    growths.put("new", site_seal_of("g", left, "day", "2024-03-01", facts))
    for words in ([], ["--kept-from", "2024-02-29"]):
        assert growths.says(NOTHING_CHANGED, *words) == (1, b"", ["cadf-seal: new: 2024-02-29: " + NO_WINDOW])
        assert wanted(growths.path, NOTHING_CHANGED, first=words[-1] if words else None) == "2024-02-29: gone"
    assert growths.says(NOTHING_CHANGED, "--kept-from", "2024-03-01") == (0, b"2024-02-29: gone, of 2 facts\nadded 0\n", [])
    assert wanted(growths.path, NOTHING_CHANGED, first="2024-03-01") == {}
    growths.put("newer", site_seal_of("g", left, "day", "2024-03-01", facts))
    assert growths.says(NOTHING_CHANGED, old="new", new="newer") == (0, b"added 0\n", [])
    growths.put("newer", site_seal_of("g", left, "day"))
    assert growths.says(NOTHING_CHANGED, old="new", new="newer") == (1, b"", ["cadf-seal: newer: 2024-02-29: gone then, and not told, or otherwise"])
    grown = parts_of(atoms_of(EARLIER, MORE), "day")["2024-02-29"]
    growths.put("new", site_seal_of("g", left, "day", "2024-03-01", grown))
    assert growths.says(NOTHING_CHANGED, "--kept-from", "2024-03-01") == (1, b"", ["cadf-seal: proof: 2024-02-29: not shown"])
    assert wanted(growths.path, NOTHING_CHANGED, first="2024-03-01") == "2024-02-29: not shown"
    proof = site_growth_of("g", facts, grown, "day")
    assert growths.says(proof, "--kept-from", "2024-03-01") == (0, b"2024-02-29: added 4\n2024-02-29: gone, of 6 facts\nadded 4\n", [])
    assert growths.says(proof, "--kept-from", "2024-03") == (1, b"", ["cadf-seal: --kept-from 2024-03: windows are one day each: name such a one"])
    growths.put("new", site_seal_of("g", atoms_of(contents(0, 2)), "day"))
    status, output, said = growths.says(NOTHING_CHANGED, "--kept-from", "2024-03-01")
    assert (status, output, said) == (1, b"", ["cadf-seal: proof: shared: " + NO_WINDOW])


# ---- What liars try

def test_a_window_that_is_sealed_as_gone_too(growths):
    """A site may write both lines of a window: the proof of what it had is judged all the same."""
    proof = lost(growths, contents(2, name="n"))
    growths.put("old", site_seal_of("g", atoms_of(EARLIER), "day", "2024-03-01", parts_of(atoms_of(EARLIER), "day")["2024-02-29"]))
    gone = min(leaf.hex() for leaf in leaves_of(parts_of(atoms_of(EARLIER), "day")["2024-02-29"]))
    for lie in proof, with_digest((GROWTH_HEAD + "W 2024-02-29\nK\n").encode()):
        assert growths.says(lie)[:2] == (1, b"") and wanted(growths.path, lie).startswith("2024-02-29: input ")
    assert growths.says(proof)[2] == ["cadf-seal: 2024-02-29 of new: facts: gone: %s: %s" % (gone, GONE)]


def test_a_proof_in_part(growths):
    """A window whose line changed is shown, and no other; one in another's place shows nothing."""
    proof = growths.grows(MORE, NEW).decode()
    head, first, second = proof[:proof.index("W ")], proof[proof.index("W "):proof.rindex("W ")], proof[proof.rindex("W "):proof.rindex("Z ")]
    for parts, said in [([first], "2024-03-01: not shown"), ([second], "2024-02-29: not shown"), ([], "2024-02-29: not shown"),
                        (["W shared\nH %s\nK\n" % ("0" * 64), first, second], "shared: not needed"), ([first, second, "W 2024-03-05\n"], "2024-03-05: not needed")]:
        lie = with_digest("".join([head, *parts]).encode())
        assert growths.says(lie) == (1, b"", ["cadf-seal: proof: " + said])
        assert wanted(growths.path, lie) == said
    exchanged = [name + "\n" + body for name, body in ((first.split("\n")[0], second.split("\n", 1)[1]), (second.split("\n")[0], first.split("\n", 1)[1]))]
    lie = with_digest("".join([head, *exchanged]).encode())
    status, output, said = growths.says(lie)
    assert (status, output) == (1, b"") and said[0].startswith("cadf-seal: 2024-02-29 of ") and wanted(growths.path, lie).startswith("2024-02-29: input ")
    status, output, said = growths.says(proof.encode(), old="new", new="old")
    assert (status, output, said) == (1, b"", ["cadf-seal: proof: 2024-03-05: " + NO_WINDOW])


def test_others(growths):
    """The seals and the proof are of one log and one unit, and files of these kinds."""
    proof = growths.grows(MORE)
    log = "other log: \"h\": one site has one log; `cadf check FILE` says which log a file is of"
    unit = "other unit: its windows are one month each, and not one day"
    growths.seals("h", EARLIER, log="h")
    growths.seals("month", EARLIER, unit="month")
    assert growths.says(proof, new="h") == (1, b"", ["cadf-seal: h: " + log])
    assert growths.says(proof, new="month") == (1, b"", ["cadf-seal: month: " + unit])
    assert growths.says(with_digest(GROWTH_HEAD.replace('"g"', '"h"').encode())) == (1, b"", ["cadf-seal: proof: " + log])
    assert growths.says(with_digest(GROWTH_HEAD.replace("day", "month").encode())) == (1, b"", ["cadf-seal: proof: " + unit])
    for words in (["--growth", "h", "site"], ["--drop", "h", "site"]):
        status, output, said = growths.run(*words)
        assert (status, output) == (1, b"") and said[0].startswith("cadf-seal: site: other log")
    status, output, said = growths.says((growths.path / "old").read_bytes())
    assert (status, said) == (1, ["cadf-seal: proof: version: no proof of growth of a folder, as `cadf-seal --growth OLD SITE/` writes it"])


BAD = [("W 2024-03-01\nx\n", 5), ("N\n", 4), ("K\n", 4), ("W 2024-03-01\nK\nK\n", 6), ("W 2024-03-01\nK\nN\nK\n", 7), ("W 2024-03-01\nF %s\n" % ("0" * 64), 5),
       ("W 2024-03\n", 4), ("W shared \n", 4), ("W shared\nP %s\n" % ("A" * 64), 5), ("\n", 4)]


@pytest.mark.parametrize("lines, number", BAD)
def test_lines_that_are_wrong(growths, lines, number):
    growths.seals("new", EARLIER)
    data = with_digest((GROWTH_HEAD + lines).encode())
    status, output, said = growths.says(data)
    assert (status, output) == (1, b"") and said[0].startswith("cadf-seal: proof: line %d: shape: " % number)
    with pytest.raises(Fault, match="^line %d: shape$" % number):
        read_site_growth(data)


def test_order_and_ends(growths):
    growths.seals("new", EARLIER)
    for data, fault in [(with_digest((GROWTH_HEAD + "W 2024-03-01\nW shared\n").encode()), "line 5: order"), (with_digest((GROWTH_HEAD + "W shared\nW shared\n").encode()), "line 5: order"),
                        (GROWTH_HEAD.encode(), "truncated"), (with_digest(GROWTH_HEAD.encode()) + b"x", "trailing bytes"), (GROWTH_HEAD.encode() + b"Z " + b"0" * 64 + b"\n", "digest")]:
        status, output, said = growths.says(data)
        assert (status, output) == (1, b"") and said[0].startswith("cadf-seal: proof: %s: " % fault)
        with pytest.raises(Fault, match="^%s$" % fault):
            read_site_growth(data)


@pytest.mark.parametrize("words, said", [
    ("--keep file", "--keep is for a folder"), ("--grew old new", "OLD, NEW and PROOF"), ("--erased list site", "--erased is for --compare and --grew"), ("--new x site", "--new is for --growth"),
    ("--kept-from 2024-03-01 site", "--kept-from is for --compare and --grew"), ("--grew --kept-from x a b c", "--kept-from names a month"), ("--keep --grew old new proof", "go with a SITE"), ("--drop new --full site", "go with a SITE"), ("--growth old --grew a b c", "not allowed with")])
def test_words(growths, words, said):
    status, output, error = growths.run(*words.split())
    assert (status, output) == (2, b"") and said in error[-1]


def test_page():
    """FORMATS shows the growth of the set that its split file has."""
    event = dict(EVENT, id="e1", eventTime=DAYS[1])
    earlier, later = {"id": "g", "events": [event]}, {"id": "g", "name": "north", "events": [dict(event, tags=["x"]), dict(event, eventTime=DAYS[2])]}
    proof = site_growth_of("g", document(earlier)[1], document(later)[1], "day")
    assert "has %d bytes:\n\n    %s\n\n" % (len(proof), proof.decode()[:-1].replace("\n", "\n    ")) in text_of("docs", "FORMATS.md")


# ---- Copies that do wrong

@pytest.mark.parametrize("check, right, wrong", [
    (test_growth, "if part in changed or part not in then.parts:", "if part in changed:"),
    (test_lists_of_what_was_sealed, "and each not in kept]", "]"),
    (test_no_lists_unless_they_are_asked_for, "keep_list if is_keeping else None", "keep_list"),
    (test_a_fact_that_is_gone, '(["--erased", listed.path()], (listed.file.fileno(),)) if listed else', '([], ()) if listed else'),
    (test_a_window_that_is_gone, "if part not in proof.parts and part not in now.parts and part not in now.gone:", "if False:"),
    (test_a_window_that_went, "and (first is None or part >= first):", "and first is None:"),
    (test_a_window_that_went, "    check_gone(then, now, first, new.name)\n", ""),
    (test_a_window_that_is_sealed_as_gone_too, "{*then.parts, *(now.parts.keys() - then.gone.keys())}", "{*then.parts, *now.parts} - then.gone.keys()"),
    (test_a_proof_in_part, "    check_shown(changed, now, found, proof.name)\n", ""),
    (test_others, "    check_same(then, found, proof.name)\n", ""),
    (test_others, "    check_same(then, now, new.name)\n", ""),
])
def test_a_wrong_version_is_caught(tmp_path, check, right, wrong):
    is_caught(tmp_path, (right, wrong), check, functools.partial(Growths, tmp_path))
