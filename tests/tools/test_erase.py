"""cadf-erase: what goes of a site, what is left of it, what stays away from then on, and what a kill leaves."""
import hashlib
import json
import os
import shutil
import sqlite3

import pytest

from tests.reference.atoms import RULING
from tests.reference.inventory_files import digest_of
from tests.reference.list_files import ERASED, list_with, read_erased_list
from tests.reference.replica_files import read_file
from tests.reference.seal_files import key_leaf, leaf_of, sealed_in
from tests.reference.split_files import in_order, parts_of
from tests.tools.copies import copied, is_caught
from tests.tools.faulty import calls_of
from tests.tools.kept_sites import Place, atoms_of, digits_of, event, gone_of, with_digest

CALLS = "os.open os.rename os.unlink os.link os.fchmod os.fsync os.listdir fcntl.flock"
MAY = "cadf-erase: what may still have it: archives and backups of the site, exports, pages of cadf-report, indexes in readers' caches, other sites of the log"


@pytest.fixture
def place(cadf, tmp_path):
    return Place(cadf, tmp_path)


def key_name(letter, key):
    """The leaf of a key, as FORMATS has it."""
    return hashlib.sha256(json.dumps([letter, key], separators=(",", ":")).encode()).digest()


def lists(place, name="site"):
    """The acts without their times, and the digests of facts and of keys on the list; both files are as FORMATS has them."""
    head = place.lines(name)[:5]
    assert head[:3] == ["CADF-SITE 2", 'L "g"', "B day"] and [line[:2] for line in head[3:]] == ["G ", "E "]
    gone, listed = ((place.path / name / (kind + line[2:])).read_bytes() for kind, line in zip(("gone.", "erased."), head[3:]))
    lines = gone.decode().split("\n")[3:-2]
    assert gone == gone_of(lines) and [digits_of(gone), digits_of(listed)] == [line[2:] for line in head[3:]]
    _, found = read_erased_list(listed)
    return [" ".join([line[:1], *line.split(" ")[2:]]) if line.startswith("E ") else line for line in lines], found.facts, found.keys


def held(place, name="site"):
    """The atoms of a site that erased something; each of its files is of its part, and `site` is as FORMATS has it."""
    lines = place.lines(name)
    begin = 3 + sum(line[:2] in ("G ", "E ") for line in lines[3:5])
    names = [tuple(line.split(" ")[1:]) for line in lines[begin:-1]]
    assert with_digest([*lines[:begin], *("F %s %s" % (part, digest) for part in in_order({part for part, _ in names})
                                          for digest in sorted(own for each, own in names if each == part))]) == (place.path / name / "site").read_bytes()
    found = set()
    for part, digest in names:
        path = place.path / name / ("%s.%s.cadf" % (part, digest))
        assert path.exists()
        own = read_file(path.read_bytes())[1]
        assert set(parts_of(own, "day")) == {part}
        found |= own
    return found


def touched(before, after):
    """The lines of the parts that an erasure touched, by the second implementation."""
    def roots(atoms):
        count, root, keys, key_root = sealed_in(atoms)
        return "%d %s %d %s" % (count, root.hex(), keys, key_root.hex())
    old, new = parts_of(before, "day"), parts_of(after, "day")
    return ["X %s %s %s" % (part, roots(old[part]), roots(new.get(part, ()))) for part in in_order(old) if old[part] != new.get(part, set())]


def rule(place, key, position=1, site="site", **options):
    """Rules for a value of a key; its record is made too."""
    place.run("cadf-conflicts", "--values", site, status=5)
    wanted = "%s %d " % (json.dumps(key), position)
    choice = next(line for line in place.run("cadf-conflicts", site, status=5).output.decode().splitlines(True) if wanted in line).lstrip("# ")
    (place.path / "choices").write_text(choice)
    (place.path / "rulings.cadf").write_bytes(place.run("cadf-conflicts", "--rule", "choices", "--as", "ann", *options.get("words", []), site).output)
    place.run("cadf-take", site, "rulings.cadf")


def has_text(folder, text):
    """The files below a folder that have a text."""
    return [os.path.join(at, name) for at, _, names in os.walk(folder) for name in names if text in open(os.path.join(at, name), "rb").read()]


def site_of_persons(place, name="site"):
    """A site of an event with two bodies, a tag and a ruling with its record, and of others. Returns what of it is of the event."""
    events = [event("person-7", 1, tags=["a tag"]), event("person-7", 2, outcome="failure"), event("e1", 1), event("e3", 3)]
    place.run("cadf-take", "--by", "day", name, place.put("first.json", *events))
    rule(place, "person-7", site=name)
    place.run("cadf-events", "--initiator", "*", name)
    atoms = place.atoms(name)
    records = {atom[1] for atom in atoms if atom[0] == "E" and atom[1].startswith("cadf-ruling:")}
    assert len(records) == 1 and [atom for atom in atoms if atom[0] == RULING]
    return {atom for atom in atoms if key_leaf(atom) in {key_name("E", "person-7"), *(key_name("E", each) for each in records)}}


# ---- What goes

def a_person_goes(place):
    """All facts of a key go, with its rulings and their records; only files that have one are written anew; the index has none; a second call changes nothing."""
    of_person = site_of_persons(place)
    before = place.atoms()
    kept = {name: os.stat(place.path / "site" / name).st_ino for name in os.listdir(place.path / "site") if name.startswith("2024-03-03")}
    done = place.run("cadf-erase", "--as", "ann", "--why", "request 17", "site", "person-7")
    assert done.output.decode() == "site: erased %d facts; 2 keys and 0 rulings are new on its list\n" % len(of_person)
    assert done.error.decode() == MAY + "\n"
    assert held(place) == before - of_person and any(atom[0] == RULING for atom in of_person) and len(kept) == 1
    acts, facts, keys = lists(place)
    assert acts == ['E ["ann","request 17"]', *touched(before, before - of_person)]
    assert facts == {leaf_of(atom) for atom in of_person} and keys == {key_leaf(atom) for atom in of_person}
    assert {name: os.stat(place.path / "site" / name).st_ino for name in kept} == kept
    assert has_text(place.path / "site", b"person-7") == []
    names = {name for name in os.listdir(place.path / "site") if not name.startswith(".")}
    lines = place.lines()
    assert names == {"site", "gone." + lines[3][2:], "erased." + lines[4][2:], *("%s.%s.cadf" % tuple(line.split(" ")[1:]) for line in lines[5:-1])}
    assert place.run("cadf-erase", "site", "person-7").output.startswith(b"site: erased 0 facts; 0 keys") and place.lines() == lines
    assert place.run("cadf-which", "site").error == b"" and len(place.run("cadf-events", "site").output.splitlines()) == 2


def test_a_person_goes(place):
    a_person_goes(place)


def index_has_nothing(place):
    """Neither rows nor roots of windows whose files went; what is asked next is found again."""
    site_of_persons(place)
    place.run("cadf-seal", "site")
    place.run("cadf-erase", "site", "person-7")
    index = sqlite3.connect(place.path / "site" / ".index")
    assert [name for name, in index.execute("SELECT name FROM windows ORDER BY name")] == ["2024-03-03"]
    assert index.execute("SELECT count(*) FROM kept WHERE kind = 'roots 1'").fetchone() == (1,)
    index.close()
    assert len(place.run("cadf-events", "--initiator", "u1", "site").output.splitlines()) == 2


def test_the_index_has_nothing_of_it(place):
    index_has_nothing(place)


def test_several_files_of_a_window(place):
    """Each that has something of a key is written anew, and no other; two that are then equal are one."""
    place.site(1, 2)
    for name, *own in (("a.json", event("e1", 1, tags=["t"])), ("b.json", event("x", 1), event("e1", 1, tags=["u"])), ("c.json", event("x", 1), event("y", 1))):
        place.run("cadf-take", "site", place.put(name, *own))
    before = place.atoms()
    place.run("cadf-erase", "site", "e1")
    assert held(place) == {atom for atom in before if atom[1] != "e1"} and before != held(place)


def test_a_key_that_isnt_here(place):
    """It is named, and is on the list all the same; other letters are in a file of keys."""
    place.site(1)
    (place.path / "shared.json").write_text(json.dumps({"id": "g", "name": "a log", "events": []}))
    place.run("cadf-take", "site", "shared.json")
    keys = with_digest(["CADF-KEYS 1", 'L "g"', '["E","e9"]', '["P","name"]'])
    done = place.run("cadf-erase", "--json", "--keys", "-", "site", input=keys)
    assert json.loads(done.output) == {"facts": 1, "parts": ["shared"], "keys": 2, "rulings": 0, "absent": ["e9"], "may_hold": []}
    assert done.error.decode().splitlines() == ['cadf-erase: "e9": no fact of it is here; it is on the list, so none will be taken', MAY]
    assert held(place) == atoms_of(event("e1", 1)) and lists(place)[2] == {key_name("E", "e9"), key_name("P", "name")}
    place.run("cadf-take", "site", place.put("later.json", event("e9", 1), event("e2", 2)))
    assert held(place) == atoms_of(event("e1", 1), event("e2", 2))


def test_what_a_question_finds(place):
    """One pipe erases all of a user, open conflicts too."""
    events = [event("a", 1, initiatorId="bob"), event("b", 2, initiatorId="bob"), event("b", 3, initiatorId="bob"), event("c", 2), event("d\u00e9\"", 2, initiatorId="bob")]
    place.run("cadf-take", "--by", "day", "site", place.put("first.json", *events))
    keys = place.run("cadf-events", "--initiator", "bob", "--keys", "site", status=5).output
    assert keys == with_digest(["CADF-KEYS 1", 'L "g"', '["E","a"]', '["E","b"]', '["E","d\u00e9\\""]'])
    assert place.run("cadf-events", "--initiator", "bob", "--keys", "--no-index", "site", status=5).output == keys
    place.run("cadf-erase", "--keys", "-", "site", input=keys)
    assert held(place) == atoms_of(events[3])
    file = place.run("cadf-events", "--keys", "first.json", status=5).output
    assert file == with_digest(["CADF-KEYS 1", 'L "g"', '["E","a"]', '["E","b"]', '["E","c"]', '["E","d\u00e9\\""]'])


WRONG_KEYS = {
    "another kind": (with_digest(["CADF-ERASED 1", 'L "g"']), "no file of keys"),
    "nothing": (b"", "no file of keys"),
    "another log": (with_digest(["CADF-KEYS 1", 'L "h"', '["E","e1"]']), "other log"),
    "falling": (with_digest(["CADF-KEYS 1", 'L "g"', '["E","e2"]', '["E","e1"]']), "damaged"),
    "twice": (with_digest(["CADF-KEYS 1", 'L "g"', '["E","e1"]', '["E","e1"]']), "damaged"),
    "another letter": (with_digest(["CADF-KEYS 1", 'L "g"', '["U","e1"]']), "damaged"),
    "a number": (with_digest(["CADF-KEYS 1", 'L "g"', '["E",1]']), "damaged"),
    "another text": (with_digest(["CADF-KEYS 1", 'L "g"', '["E", "e1"]']), "damaged"),
    "three texts": (with_digest(["CADF-KEYS 1", 'L "g"', '["E","e1","e2"]']), "damaged"),
    "half of a character": (with_digest(["CADF-KEYS 1", 'L "g"', r'["E","\ud800"]']), "damaged"),
    "cut": (with_digest(["CADF-KEYS 1", 'L "g"', '["E","e1"]'])[:-20], "damaged"),
    "another digest": (with_digest(["CADF-KEYS 1", 'L "g"', '["E","e1"]']).replace(b"e1", b"e2"), "damaged"),
}


@pytest.mark.parametrize("data, said", WRONG_KEYS.values(), ids=WRONG_KEYS)
def test_a_wrong_file_of_keys(place, data, said):
    place.site(1, 2)
    before = place.lines()
    assert said in place.run("cadf-erase", "--keys", "-", "site", input=data, status=1).error.decode()
    assert place.lines() == before


# ---- What is refused

def test_a_held_window_keeps_its_keys(place):
    """Nothing goes of any key, until the window is released."""
    place.site(1, 2)
    place.run("cadf-forget", "--hold", "2024-03-02", "site")
    before = place.lines()
    said = place.run("cadf-erase", "site", "e1", "e2", status=1).error.decode()
    assert said == 'cadf-erase: site: "e2" has a fact in 2024-03-02, which is held: nothing went; `cadf-forget --release` ends that\n'
    assert place.lines() == before
    place.run("cadf-erase", "site", "e1")
    place.run("cadf-forget", "--release", "2024-03-02", "site")
    place.run("cadf-erase", "site", "e2")
    assert held(place) == set()


SHORT = ["LONGEST_INDEX = 2 ** 28", "LONGEST_INDEX = 1000"]


def no_reader(place):
    """Nothing goes by a list that is too long for its readers: each of them would refuse the site from then on."""
    place.site(1, 2)
    place.run("cadf-take", "site", place.put("many.json", event("x1", 3, tags=["tag-%d" % number for number in range(20)])))
    before = {name: (place.path / "site" / name).read_bytes() for name in os.listdir(place.path / "site") if name[0] != "."}
    said = place.run("cadf-erase", "site", "x1", status=1).error.decode()
    assert "its list of what went or was erased would have more than 1000 bytes" in said and "nothing went: name fewer events" in said
    assert {name: (place.path / "site" / name).read_bytes() for name in os.listdir(place.path / "site") if name[0] != "."} == before
    place.run("cadf-erase", "site", "e1")


def test_a_list_that_nobody_could_read(place):
    no_reader(Place(place.cadf, place.path, copied(str(place.path / "copy"), *SHORT)))


def test_a_damaged_window(place):
    """Whether it has something can't be said, so nothing goes; what mends it is said."""
    place.site(1, 2)
    path = place.path / "site" / ("%s.%s.cadf" % place.files()[0][0])
    path.write_bytes(path.read_bytes().replace(b"read", b"rEad"))
    before = place.lines()
    assert b"`cadf-sync --repair" in place.run("cadf-erase", "site", "e2", status=1).error
    assert place.lines() == before


def test_words_that_are_refused(place):
    place.site(1)
    assert b"nothing is named" in place.run("cadf-erase", "site", status=2).error
    assert b"not 64 digits" in place.run("cadf-erase", "--ruling", "e1", "site", status=2).error
    said = place.run("cadf-erase", "first.json", "e1", status=2).error.decode()
    assert said == "cadf-erase: first.json: a site that is one file has no list of what was erased: `cadf-take --by day NEW/ first.json` makes a folder of it\n"


# ---- Rulings

def test_one_of_two_rulings_goes(place):
    """The other one then settles the key, and the one that went is dropped when it comes again; it is named by its own digest or by its value's."""
    bodies = [event("e1", 1), event("e1", 1, outcome="failure")]
    place.run("cadf-take", "--by", "day", "site", place.put("first.json", *bodies))
    shutil.copytree(place.path / "site", place.path / "other")
    rule(place, "e1", 1)
    rule(place, "e1", 2, "other")
    shutil.copy(place.path / "rulings.cadf", place.path / "second.cadf")
    place.run("cadf-take", "site", "second.cadf")
    assert b"open 1" in place.run("cadf-conflicts", "site", status=5).error
    before = place.atoms()
    first, second = sorted((atom for atom in before if atom[0] == RULING), key=lambda atom: atom[3])
    shutil.copytree(place.path / "site", place.path / "copy")
    for name, digest in (("site", first[3]), ("copy", digest_of(first).decode())):
        done = place.run("cadf-erase", "--ruling", digest, name)
        assert done.error.decode().splitlines()[0] == "cadf-erase: a ruling that was erased can't be made again here: 1"
        assert held(place, name) == before - {first}
        acts, facts, keys = lists(place, name)
        assert facts == {leaf_of(first)} and keys == set() and acts[1:] == touched(before, before - {first})
        done = place.run("cadf-take", name, "second.cadf", "first.json")
        again = int(first in place_rulings(place, "second.cadf"))
        assert (done.error == b"cadf-take: %s: facts that are left out, since they were erased here: 1\n" % name.encode()) == bool(again)
        assert held(place, name) == before - {first}
    assert b"settled 1" in place.run("cadf-conflicts", "site").error
    said = place.run("cadf-erase", "--ruling", first[3], "site", status=1).error.decode()
    assert said == "cadf-erase: %s: no ruling here has this digest, or is for a value that has it: `cadf-conflicts site` shows them\n" % first[3]


def place_rulings(place, name):
    return {atom for atom in read_file((place.path / name).read_bytes())[1] if atom[0] == RULING}


def test_rulings_on_several_keys_for_one_body(place):
    """They are named by their own digests, and nothing goes."""
    place.run("cadf-take", "--by", "day", "site", place.put("first.json", *(event(key, 1, **more) for key in ("e1", "e2") for more in ({}, {"outcome": "failure"}))))
    for key in ("e1", "e2"):
        rule(place, key)
    rulings = sorted((atom for atom in place.atoms() if atom[0] == RULING), key=digest_of)
    before = place.lines()
    said = place.run("cadf-erase", "--ruling", rulings[0][3], "site", status=1).error.decode()
    assert said == "cadf-erase: %s: rulings on several keys are for values of this digest: name one by its own, of %s\n" % (
        rulings[0][3], ", ".join('%s for "%s"' % (digest_of(atom).decode(), atom[2]) for atom in rulings))
    assert place.lines() == before


# ---- Lists of others

@pytest.mark.parametrize("way", ["a file", "a folder", "a pipe"])
def test_a_list_is_adopted(place, way):
    """What another site erased goes here too, also what that one didn't hold; both lists are then alike, but for what went here alone."""
    place.site(1, 2, 3)
    place.run("cadf-take", "--by", "day", "other", place.put("other.json", event("e2", 2, tags=["more"]), event("e3", 3)))
    place.run("cadf-erase", "site", "e2", "e7")
    path = next((place.path / "site").glob("erased.*"))
    word = {"a file": str(path), "a folder": "site/", "a pipe": "-"}[way]
    before = place.atoms("other")
    done = place.run("cadf-erase", "--as", "bob", "--adopt", word, "other", input=path.read_bytes())
    gone = {atom for atom in before if atom[1] == "e2"}
    assert held(place, "other") == atoms_of(event("e3", 3)) and b"erased %d facts" % len(gone) in done.output
    acts, facts, keys = lists(place, "other")
    assert keys == lists(place)[2] and facts == lists(place)[1] | {leaf_of(atom) for atom in gone}
    assert acts == ['E ["bob",""]', *touched(before, before - gone)]


def test_a_list_of_another_log(place):
    place.site(1)
    (place.path / "list").write_bytes(list_with(ERASED, "h", [], [key_name("E", "e1")]))
    assert b"other log" in place.run("cadf-erase", "--adopt", "list", "site", status=1).error
    (place.path / "list").write_bytes(list_with(ERASED, "g", [], [key_name("E", "e1")])[:-3])
    assert place.run("cadf-erase", "--adopt", "list", "site", status=1).error.startswith(b"cadf-erase: list: ")
    assert held(place) == atoms_of(event("e1", 1))


# ---- What comes again

def dropped(place):
    """A take leaves it out, whatever else comes, and says so; other facts of its files are taken; nothing of it waits either."""
    place.site(1, 2)
    place.run("cadf-erase", "site", "e1")
    again = [event("e1", 1, tags=["t"]), event("e1", 5), event("e3", 3)]
    done = place.run("cadf-take", "site", place.put("again.json", *again))
    said = b"cadf-take: site: facts that are left out, since they were erased here: %d\n" % len(atoms_of(*again[:2]))
    assert done.error == said
    assert held(place) == atoms_of(event("e2", 2), again[2])
    assert place.run("cadf-take", "--rest", "rest.cadf", "--windows", "0", "site", "again.json").error == said and not (place.path / "rest.cadf").exists()
    done = place.run("cadf-take", "--rest", "rest.cadf", "--windows", "0", "--senders", "1,1", "site", "again.json", place.put("late.json", event("e1", 7), event("e4", 7)), status=5)
    assert not (place.path / "rest.cadf.1").exists() and read_file((place.path / "rest.cadf.2").read_bytes())[1] == atoms_of(event("e4", 7))
    assert b"erased %d\n" % (len(atoms_of(*again[:2])) + 1) in done.output
    (place.path / "one.json").write_text(json.dumps(event("e1", 1)))  # an event by itself names no log
    place.run("cadf-take", "site", "one.json")
    assert held(place) == atoms_of(event("e2", 2), again[2])


def test_what_comes_again_is_dropped(place):
    dropped(place)


def test_the_spool_drops_it(place):
    """It is counted, told in a line and in metrics; cadf-admit drops what waited before."""
    place.site(1, 2)
    os.mkdir(place.path / "spool", 0o700)
    place.put("spool/far.json", event("e9", 20), event("e8", 20))
    place.run("cadf-spool", "--windows", "0", "--unchanged", "0", "site", "spool")
    waits = next((place.path / "spool" / "set-aside").glob("waits-*.cadf"))
    done = place.run("cadf-erase", "--spool", "spool", "site", "e1", "e9", status=5)
    assert sorted(line.split(": ")[1] for line in done.error.decode().splitlines() if "may have some" in line) == ["spool/set-aside/" + waits.name, "spool/taken/far.json"]
    place.put("spool/again.json", event("e1", 1), event("e3", 2))
    done = place.run("cadf-spool", "--unchanged", "0", "--metrics", "spool.prom", "site", "spool")
    assert done.error.decode().splitlines()[-1] == "cadf-spool: %s: facts that are left out, since they were erased there: 1" % (place.path / "site")
    numbers = (place.path / "spool.prom").read_text()
    assert 'cadf_facts_erased_total{tool="cadf-spool",site="site"} 1\n' in numbers and 'cadf_facts_taken_total{tool="cadf-spool",site="site"} 1\n' in numbers
    done = place.run("cadf-admit", "--take", "site", "spool", waits.name)
    assert done.error.decode() == "cadf-admit: %s: site: facts that are left out, since they were erased here: 1\n" % waits.name
    assert held(place) == atoms_of(event("e2", 2), event("e3", 2), event("e8", 20)) and not waits.exists()


SPELLINGS = {
    "as it is": '"p\u00e9r\U0001f600\\"son/7"',
    "escapes": '"\\u0070\\u00E9r\\uD83d\\uDe00\\u0022son\\/7"',
    "a text in a text": json.dumps(json.dumps({"id": 'p\u00e9r\U0001f600"son/7'})),
    "a text in a text of UTF-8": json.dumps(json.dumps({"id": 'p\u00e9r\U0001f600"son/7'}, ensure_ascii=False), ensure_ascii=False),
}


def spelled(place):
    """A file has an identifier however a sender spelled it, also across the pieces that are read, and while it waits. Another one is not named."""
    place.site(1)
    for part in ("taken", "set-aside", "taking"):
        os.makedirs(place.path / "spool" / part)
    (place.path / "spool" / "taken" / "other.json").write_text('"p\\u00e8r\\ud83d\\ude00\\"son/7"' + 2 ** 20 * "\\")
    for part, (name, text) in zip(("taken", "set-aside", "taking", "taken"), SPELLINGS.items()):
        (place.path / "spool" / part / name).write_text((2 ** 20 - 10) * " " + text)
    done = place.run("cadf-erase", "--json", "--spool", "spool", "site", 'p\u00e9r\U0001f600"son/7', status=5)
    assert sorted(name.split("/")[-1] for name in json.loads(done.output)["may_hold"]) == sorted(SPELLINGS)


def test_every_spelling_is_found(place):
    spelled(place)


def test_a_repair_brings_nothing_back(place):
    """The other site has it still."""
    place.site(1, 2)
    place.run("cadf-take", "site", place.put("more.json", event("x", 1)))
    place.run("cadf-take", "--settle", "site")
    shutil.copytree(place.path / "site", place.path / "other")
    place.run("cadf-erase", "site", "e1")
    name = next(name for name in os.listdir(place.path / "site") if name.startswith("2024-03-01"))
    (place.path / "site" / name).write_bytes(b"")
    place.run("cadf-sync", "--repair", "site", "other", status=5)
    assert held(place) == atoms_of(event("x", 1), event("e2", 2))


def test_an_archive_with_another_list(place):
    place.site(1, 2)
    place.run("cadf-take", "--by", "day", "old", "first.json")
    place.run("cadf-erase", "old", "e1")
    said = place.run("cadf-forget", "--before", "2024-03-02", "--archive", "old", "site", status=1).error.decode()
    assert said == "cadf-forget: old: more was erased of it: `cadf-erase --adopt old site` erases that here too\n"
    place.run("cadf-erase", "--adopt", "old", "site")
    place.run("cadf-forget", "--before", "2024-03-02", "--archive", "old", "site")
    assert held(place) == atoms_of(event("e2", 2))
    place.run("cadf-take", "site", "first.json", place.put("more.json", event("e5", 5)), status=0)
    assert held(place) == atoms_of(event("e2", 2), event("e5", 5))


# ---- What is left of it

def test_a_lost_list_is_told(place):
    """Nobody knows then what is to be taken, so nothing is."""
    place.site(1, 2)
    place.run("cadf-erase", "site", "e1")
    path = next((place.path / "site").glob("erased.*"))
    data = path.read_bytes()
    for wrong in (None, data[:-1], list_with(ERASED, "g", [], [])):
        path.unlink()
        if wrong is not None:
            path.write_bytes(wrong)
        done = place.run("cadf-take", "site", "first.json", status=1)
        assert b"put the file of this name back from a backup" in done.error
        if wrong is None:
            path.write_bytes(b"")
    path.write_bytes(data)
    place.run("cadf-take", "site", "first.json")
    assert held(place) == atoms_of(event("e2", 2))


def test_site_lines(place):
    """A list of what was erased comes with the file of what went, and no site names it alone."""
    place.site(1, 2)
    place.run("cadf-erase", "site", "e1")
    lines = place.lines()
    for wrong in ([*lines[:3], *lines[4:-1]], [*lines[:3], lines[4], lines[3], *lines[5:-1]], ["CADF-SITE 1", *lines[1:-1]]):
        (place.path / "site" / "site").write_bytes(with_digest(wrong))
        assert b"not the file of a site" in place.run("cadf-take", "site", "first.json", status=1).error


def test_a_stale_list_goes(place):
    place.site(1, 2)
    place.run("cadf-erase", "site", "e1")
    stale = place.path / "site" / ("erased." + "0" * 64)
    stale.write_bytes(b"")
    place.run("cadf-take", "site", place.put("more.json", event("e5", 5)))
    assert not stale.exists() and len(list((place.path / "site").glob("erased.*"))) == 1


def test_it_forgets_and_erases(place):
    """Both files are there after either, and the seal has what went."""
    place.site(1, 2, 3)
    place.run("cadf-erase", "site", "e2")
    place.run("cadf-forget", "--before", "2024-03-02", "--as", "ann", "site")
    acts, _, keys = lists(place)
    assert [act[:1] for act in acts] == ["E", "X", "T", "G"] and keys == {key_name("E", "e2")}
    place.run("cadf-erase", "site", "e3")
    place.run("cadf-take", "--settle", "site")
    assert held(place) == set() and lists(place)[2] == {key_name("E", "e2"), key_name("E", "e3")}


# ---- Seals

def erased_by_seals(place):
    """An erasure is a loss until the auditor gives a list; a proof of growth shows that just the facts on it went; what grows besides is no loss."""
    place.site(1, 2, 3)
    place.run("cadf-take", "site", place.put("more.json", event("x", 1)))
    (place.path / "old.seal").write_bytes(place.run("cadf-seal", "--keep", "site").output)
    place.run("cadf-erase", "site", "e1", "e2")
    place.run("cadf-erase", "site", "x")
    place.run("cadf-take", "site", place.put("later.json", event("e5", 3)))
    lines = "2024-03-01: erased 2 facts, facts then 2, now 0\n2024-03-02: erased 1 facts, facts then 1, now 0\n2024-03-03: facts then 1, now 2\n"
    path = next((place.path / "site").glob("erased.*"))
    done = place.run("cadf-seal", "--compare", "old.seal", "site", status=1)
    assert done.output.decode() == lines and b"windows that are gone or erased: 2\n" in done.error
    done = place.run("cadf-seal", "--compare", "old.seal", "--erased", str(path), "site", status=5)
    assert done.output.decode() == lines and b"gone" not in done.error
    (place.path / "list").write_bytes(list_with(ERASED, "g", [], [key_name("E", "e1")]))
    assert b"names that this one hasn't" in place.run("cadf-seal", "--compare", "old.seal", "--erased", "list", "site", status=1).error
    (place.path / "proof").write_bytes(place.run("cadf-seal", "--growth", "old.seal", "--new", "new.seal", "site").output)
    names = ["old.seal", "new.seal", "proof"]
    assert b"facts: gone: " in place.run("cadf-seal", "--grew", *names, status=1).error
    assert b"facts: gone: " in place.run("cadf-seal", "--grew", "--erased", "list", *names, status=1).error
    shown = place.run("cadf-seal", "--grew", "--erased", str(path), *names).output.decode()
    assert shown == "2024-03-01: added 0, erased 2\n2024-03-02: added 0, erased 1\n2024-03-03: added 1, erased 0\nadded 1, erased 3\n"


def test_erased_by_seals(place):
    erased_by_seals(place)


def test_a_seal_after_an_erasure(place):
    """It is as any other: what was erased before it is no loss since."""
    place.site(1, 2)
    place.run("cadf-take", "site", place.put("more.json", event("x", 1)))
    place.run("cadf-erase", "site", "e1")
    (place.path / "old.seal").write_bytes(place.run("cadf-seal", "site").output)
    assert place.run("cadf-seal", "--compare", "old.seal", "site").output == b""
    place.run("cadf-take", "site", place.put("later.json", event("e5", 1)))
    assert place.run("cadf-seal", "--compare", "old.seal", "site", status=5).output == b"2024-03-01: facts then 1, now 2\n"
    (place.path / "new.seal").write_bytes(place.run("cadf-seal", "site").output)
    assert place.run("cadf-seal", "--compare", "old.seal", "--erased", "nothing", "new.seal", status=5).output == b"2024-03-01: facts then 1, now 2\n"


# ---- Kills

def killed_anywhere(place):
    """A kill before each call leaves the site as it was or as it would be. Made again, the call completes, and no file has anything of it."""
    of_person = site_of_persons(place)
    before, lines = place.atoms(), place.lines()
    program = os.path.join(place.tools, "cadf-erase")
    done, calls = calls_of(CALLS, program, ["--as", "ann", "site", "person-7"], told="../calls", way="copied", cwd=place.path, env={**os.environ, "CADF": place.cadf})
    assert done.status == 0, done
    states = []
    for number in range(1, len(calls) + 1):
        copy = Place(place.cadf, place.path.parent / ("%s-%d" % (place.path.name, number)), place.tools)
        is_before = copy.lines() == lines
        state = is_before, sorted(os.listdir(copy.path / "site"))
        if state not in states:
            states.append(state)
            assert held(copy) == (before if is_before else before - of_person)
            copy.run("cadf-erase", "--as", "ann", "site", "person-7")
            assert held(copy) == before - of_person and has_text(copy.path / "site", b"person-7") == []
            assert len([act for act in lists(copy)[0] if act.startswith("E")]) == 1
        shutil.rmtree(copy.path)
    assert {is_before for is_before, _ in states} == {True, False}
    return len(states)


def test_a_kill_anywhere(place):
    assert killed_anywhere(place) > 5


# ---- Wrong versions

WRONG = {
    "a ruling of an erased key stays": (a_person_goes, ["in [(SHARED, digest) for digest in found.index.digests(SHARED)] + sorted(marked):", "in sorted(marked):"]),
    "records of its rulings stay": (a_person_goes, ["or any(name in listed.names for name in keys_recorded(log, key, lines))", ""]),
    "a letter left out of the key's digest": (a_person_goes, ['return digest_name(b"K ", letter, key)', 'return digest_name(b"K ", key)']),
    "the index has it still": (index_has_nothing, ["if own.get(part) != files})", "if part not in own})"]),
    "files that went stay": (killed_anywhere, ["        for name in before.names():\n            if not self.index.has(name):\n                self.is_removed(name)\n", ""]),
    "files go first": (killed_anywhere, ["        self.put(Index(before.log, before.unit, lines, gone.digits(), erased.digits() if erased.names else None))\n",
                                        "        for part, digest in before.entries():\n            if digest not in self.digests(part):\n                self.is_removed(file_name(part, digest))\n"
                                        "        self.put(Index(before.log, before.unit, lines, gone.digits(), erased.digits() if erased.names else None))\n"]),
    "a site's word is enough for an auditor": (erased_by_seals, ["each.is_erased and options.erased is not None]", "each.is_erased]", "    if allowed:\n        check", "    if allowed and options.erased:\n        check"]),
    "any list is enough": (erased_by_seals, ["        check_erased(name, options.erased)\n", "        pass\n"]),
    "the facts that went have no names": (a_person_goes, ['listed = listed.with_names(name for name in went.names if name.startswith(b"F"))', "pass"]),
    "what comes is taken": (dropped, ["        with found.left_of(inputs) as (inputs, limits.erased):\n", "        with contextlib.nullcontext((inputs, 0)) as (inputs, limits.erased):\n"]),
    "no escape is undone": (spelled, ["ESCAPE.sub(character, data)", "data"]),
    "half of a character": (spelled, ['b"".join(filter(None, found.groups()))', "(found[1] or found[3])"]),
    "what waits is not looked at": (spelled, ['("taken", "set-aside", "taking")', '("taken", "set-aside")']),
    "a list of any size": (no_reader, ["        if max(len(each.bytes()) for each in (gone, erased)) > LONGEST_INDEX:\n", "        if False:\n"]),
    "the rest has it": (dropped, ["            with limits.finished(found, inputs):\n                found.join_by_size()",
                                 "            with limits.finished(found, given):\n                found.join_by_size()", "        limits.kept = found.kept\n        with", "        limits.kept, given = found.kept, inputs\n        with"]),
}


@pytest.mark.parametrize("check, texts", WRONG.values(), ids=WRONG)
def test_wrong_versions_are_caught(cadf, tmp_path, check, texts):
    (tmp_path / "place").mkdir()
    is_caught(str(tmp_path), (SHORT if check is no_reader else []) + texts, check, lambda tools: Place(cadf, tmp_path / "place", tools))
