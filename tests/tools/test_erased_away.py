"""What a site erased stays away in exchanges: with lists that differ, old backups, files, and ends that know of no list."""
import json
import os
import random
import shutil
import sqlite3

import pytest

from tests.reference.atoms import RULING
from tests.reference.list_files import ERASED, list_with
from tests.reference.seal_files import leaf_of
from tests.tools.copies import copied, is_caught
from tests.tools.kept_sites import Place, atoms_of, event
from tests.tools.test_erase import held, key_name, lists, rule

DEAF = ['    found = members.get("erased")\n', "    found = None\n",
        '        erased = {"erased": [own.digits(), len(own.names)]} if own and (own.names or "erased" in members) else {}\n', "        erased = {}\n"]  # an end that knows of no list
SHORT = ["MOST_LIST = 2 ** 26", "MOST_LIST = 150"]
NUMBERS = "taken_here", "taken_there", "windows_differed", "facts_erased_there"


@pytest.fixture
def place(cadf, tmp_path):
    return Place(cadf, tmp_path)


def events(*days, **members):
    return [event("e%d" % day, day, **members) for day in days]


def sync(place, *words, status=0):
    """The numbers at the end of an exchange, and what is said on the way."""
    done = place.run("cadf-sync", "--json", *words, status=status)
    told = json.loads(done.output)
    return [told[name] for name in NUMBERS], done.error.decode()


def atoms(place, name):
    return held(place, name)


# ---- Two ends

def lists_that_differ(place):
    """Each end has what it didn't erase, and both all that neither erased; a second call sends nothing, in either direction; nothing is erased in silence."""
    place.site(1, 2, 3, name="north")
    more = [event("e1", 1, tags=["t"]), event("e2", 2), event("e4", 4)]
    place.run("cadf-take", "--by", "day", "south", place.put("south.json", *more))
    place.run("cadf-erase", "north", "e1")
    place.run("cadf-erase", "south", "e2")
    gone = len(atoms_of(more[0]))
    said = "cadf-sync: %s: it has erased %d facts that are here: `cadf-sync --adopt-erasures %s %s` erases here what is on its list\n"
    assert sync(place, "south", "north", status=5) == ([1, 1, 2, gone], said % ("north", gone, "south", "north"))
    assert atoms(place, "north") == atoms_of(*events(2, 3, 4)) and atoms(place, "south") == atoms_of(more[0], *events(3, 4))
    for words in (["south", "north"], ["--pull", "south", "north"], ["--push", "south", "north"]):
        assert sync(place, *words, status=5) == ([0, 0, 0, gone], said % ("north", gone, "south", "north"))
    assert sync(place, "north", "south", status=5) == ([0, 0, 0, 1], said % ("south", 1, "north", "south"))
    assert atoms(place, "north") == atoms_of(*events(2, 3, 4)) and atoms(place, "south") == atoms_of(more[0], *events(3, 4))
    numbers, told = sync(place, "--adopt-erasures", "south", "north")
    assert numbers == [0, 0, 0, 0] and told == "cadf-sync: south: erased %d facts; 1 keys and 0 rulings are new on its list\n" % gone
    assert lists(place, "south")[2] == {key_name("E", "e1"), key_name("E", "e2")}
    assert sync(place, "--adopt-erasures", "north", "south")[0] == [0, 0, 0, 0]
    assert atoms(place, "north") == atoms(place, "south") == atoms_of(*events(3, 4))
    assert sync(place, "south", "north") == sync(place, "north", "south") == ([0, 0, 0, 0], "")


def test_lists_that_differ(place):
    lists_that_differ(place)


def test_an_old_backup_brings_nothing_back(place):
    """It hears of the list from its peers at the next call, and does as they did by the command that is said."""
    place.site(1, 2, name="north")
    shutil.copytree(place.path / "north", place.path / "backup")
    place.run("cadf-sync", "north", "south/")
    place.run("cadf-erase", "south", "e1")
    place.run("cadf-sync", "--adopt-erasures", "north", "south")
    shutil.rmtree(place.path / "north")
    os.rename(place.path / "backup", place.path / "north")
    for words, status in ((["south", "north"], 0), (["--push", "north", "south"], 5), (["north", "south"], 5)):
        done = place.run("cadf-sync", *words, status=status)
        assert atoms(place, "south") == atoms_of(*events(2)) and atoms(place, "north") == atoms_of(*events(1, 2))
    command = done.error.decode().partition("`cadf-sync ")[2].partition("`")[0].split(" ")
    place.run("cadf-sync", *command)
    assert atoms(place, "north") == atoms_of(*events(2))
    place.run("cadf-sync", "fourth/", "south")  # one that is new has none of it
    assert atoms(place, "fourth") == atoms_of(*events(2))


def test_a_ruling_that_was_erased(place):
    """It is left out at both ends, and the key is settled where it was erased."""
    bodies = [event("e1", 1), event("e1", 1, outcome="failure")]
    for name, number in (("north", 1), ("south", 2)):
        place.run("cadf-take", "--by", "day", name, place.put("first.json", *bodies))
        rule(place, "e1", number, name)
    place.run("cadf-sync", "north", "south")
    both = place.atoms("north")
    first, _ = sorted((atom for atom in both if atom[0] == RULING), key=lambda atom: atom[3])
    place.run("cadf-erase", "--ruling", first[3], "north")
    assert sync(place, "south", "north", status=5)[0] == [0, 0, 0, 1] and sync(place, "north", "south")[0] == [0, 0, 0, 0]
    assert atoms(place, "north") == both - {first} and place.atoms("south") == both
    assert sync(place, "--adopt-erasures", "south", "north")[0] == [0, 0, 0, 0]
    assert atoms(place, "south") == both - {first} and lists(place, "south")[1] == {leaf_of(first)}


@pytest.mark.parametrize("ends", [("south.cadf", "north"), ("north", "south.cadf")], ids=["it calls", "it is called"])
def test_a_site_that_is_a_file(place, ends):
    """It has no list of its own, and leaves out what the other end erased."""
    place.site(1, 2, name="north")
    place.run("cadf-take", "south.cadf", place.put("south.json", *events(1, 3)))
    place.run("cadf-erase", "north", "e1")
    is_caller = ends[0] == "south.cadf"
    assert sync(place, *ends, status=5 if is_caller else 0)[0] == [1, 1, 2, 1 if is_caller else 0]
    assert sync(place, *ends, status=5 if is_caller else 0)[0][:3] == [0, 0, 0]
    assert atoms(place, "north") == atoms_of(*events(2, 3))


@pytest.mark.parametrize("which", ["the caller", "the one that is called"])
def test_an_end_that_knows_of_no_list(place, which):
    """What it sends is dropped, with a line, at each exchange; all else is exchanged."""
    place.site(1, 2, name="north")
    place.run("cadf-take", "--by", "day", "south", place.put("south.json", *events(1, 3)))
    place.run("cadf-erase", "north", "e1")
    deaf = Place(place.cadf, place.path, copied(str(place.path / "copy"), *DEAF))
    for _ in range(2):
        words = ["south", "north"] if which == "the caller" else ["north", "south"]
        caller, other = (deaf, place) if which == "the caller" else (place, deaf)
        (place.path / "rsh").write_text("#!/bin/sh\nshift 2\nPATH=%s:$PATH exec sh -c \"$*\"\n" % other.tools)
        os.chmod(place.path / "rsh", 0o755)
        done = caller.run("cadf-sync", "--rsh", str(place.path / "rsh"), words[0], "host:" + str(place.path / words[1]))
        assert "facts that are left out, since they were erased here: 1" in done.error.decode()
        assert atoms(place, "north") == atoms_of(*events(2, 3)) and place.atoms("south") == atoms_of(*events(1, 2, 3))


# ---- What is refused

@pytest.mark.parametrize("member", ["1", '["%s"]' % ("0" * 64), '["0",1]', '[1,1]', '["%s",true]' % ("0" * 64)], ids=["a number", "one", "digits", "no text", "no count"])
def test_a_wrong_member(place, member):
    """A first line with another list than FORMATS has is refused."""
    place.site(1)
    first = 'CADF-SYNC 1 {"log":"g","unit":"day","limit":1073741824,"timeout":60,"writes":true,"erased":%s}\n' % member
    (place.path / "far").write_text("#!/bin/sh\nprintf '%%s' '%s'\ncat >/dev/null\n" % first)
    os.chmod(place.path / "far", 0o755)
    done = place.run("cadf-sync", "--rsh", str(place.path / "far"), "site", "host:there", status=1)
    assert b"no list in the first line: erased" in done.error


@pytest.mark.parametrize("data", [b"", list_with(ERASED, "h", [], []), list_with(ERASED, "g", [], [b"\0" * 32]).replace(b"K 00", b"K 01")], ids=["nothing", "another log", "damaged"])
def test_a_wrong_list(place, data):
    """The exchange ends, and nothing was taken or erased."""
    place.site(1)
    first = 'CADF-SYNC 1 {"log":"g","unit":"day","limit":1073741824,"timeout":60,"writes":true,"erased":["%s",1]}\n' % ("0" * 64)
    (place.path / "answer").write_bytes(first.encode() + b"list 0\n" + b"erased %d\n" % len(data) + data)
    (place.path / "far").write_text("#!/bin/sh\nhead -c %d answer; head -n 2 >/dev/null; sleep 1; tail -c +%d answer\ncat >/dev/null\n" % (len(first) + 7, len(first) + 8))
    os.chmod(place.path / "far", 0o755)
    before = place.lines()
    done = place.run("cadf-sync", "--adopt-erasures", "--rsh", str(place.path / "far"), "site", "host:there", status=1)
    assert b"the list of what host:there erased: " in done.error and place.lines() == before


def long_lists(place):
    """Lists that no message has stop no exchange, and bring nothing back: that is said, with what to do, until both ends have the same list."""
    place.site(1, 2, name="north")
    place.run("cadf-take", "--by", "day", "south", place.put("south.json", *events(1, 3)))
    place.run("cadf-erase", "north", "e1")
    said = "cadf-sync: %s: the list of what it or this site erased has more than 150 bytes, so lists were not exchanged: adopt each other's from files, by `cadf-erase --adopt LIST SITE/`\n"
    for first, second in (("south", "north"), ("north", "south")):
        assert said % second in sync(place, first, second, status=5)[1]
        assert atoms(place, "north") == atoms_of(*events(2, 3)) and place.atoms("south") == atoms_of(*events(1, 2, 3))
    place.run("cadf-erase", "--adopt", "north", "south")
    assert sync(place, "south", "north") == ([0, 0, 0, 0], "") and atoms(place, "south") == atoms_of(*events(2, 3))


def test_lists_that_are_too_long(place):
    long_lists(Place(place.cadf, place.path, copied(str(place.path / "copy"), *SHORT)))


def test_a_list_that_is_longer_than_was_told(place):
    """It is refused before it is read, whatever the limit of messages."""
    place.site(1, name="north")
    place.run("cadf-take", "--by", "day", "south", "first.json")
    place.run("cadf-erase", "north", "e1")
    short = Place(place.cadf, place.path, copied(str(place.path / "copy"), *SHORT, "    return tuple(found)\n", "    return found[0], 0\n"))
    done = short.run("cadf-sync", "south", "north", status=1)
    assert b"the list of what north erased: more than 150 bytes" in done.error and place.atoms("south") == atoms_of(*events(1))


def test_a_list_is_told_once(place):
    """A caller that tells lists without end has none of them kept: each would be one more to leave out of every window."""
    place.site(1, 2, name="north")
    told = [list_with(ERASED, "g", (), [bytes([number]) * 32]) for number in range(2)]
    hello = {"limit": 2 ** 30, "timeout": 60, "site": str(place.path / "north"), "log": "g", "unit": "day"}
    done = place.run("cadf-sync", "--serve", "north", status=1,
                     input=b"CADF-SYNC 1 %s\n" % json.dumps(hello).encode() + b"".join(b"erased %d\n" % len(each) + each for each in told))
    assert done.output.count(b"\nerased ") == 1 and b"\nfault " in done.output and b"a list is told once" in done.output


def test_lists_without_end(place):
    """The index keeps what is left for a few lists, whatever peers tell."""
    place.site(1, 2, name="north")
    place.run("cadf-take", "--by", "day", "south", "first.json")
    for number in range(10):
        place.run("cadf-erase", "south", "x%d" % number)
        place.run("cadf-sync", "--quiet", "north", "south")
    index = sqlite3.connect(place.path / "north" / ".index")
    kinds = [kind for kind, in index.execute("SELECT DISTINCT kind FROM kept") if kind.startswith("without ")]
    assert 0 < len(kinds) <= 8
    index.close()


# ---- Many exchanges

@pytest.mark.parametrize("seed", range(2))
def test_random_exchanges(place, seed):
    """Whatever is erased stays away from who erased it, old backups too; once all have adopted, all hold alike what nobody erased."""
    chance, names, arrived, erased = random.Random(seed), ["a", "b", "c"], [], {name: set() for name in "abc"}
    for number, name in enumerate(names):
        arrived.append(event("k%d" % number, number + 1))
        place.run("cadf-take", "--by", "day", name, place.put("first.json", arrived[-1]))
    for turn in range(14):
        name, other = chance.sample(names, 2)
        way = chance.choice(["take", "erase", "sync", "sync", "adopt", "backup"])
        if way == "take":
            arrived.append(event("k%d" % chance.randrange(6), chance.randrange(1, 4), tags=["turn %d" % turn]))
            place.run("cadf-take", name, place.put("more.json", arrived[-1]))
        elif way == "erase":
            key = "k%d" % chance.randrange(6)
            place.run("cadf-erase", name, key)
            erased[name].add(key)
        elif way == "backup":
            if (place.path / (name + ".old")).exists():
                shutil.rmtree(place.path / name)
                shutil.move(place.path / (name + ".old"), place.path / name)
                erased[name] = erased[name + ".old"]
            else:
                shutil.copytree(place.path / name, place.path / (name + ".old"))
                erased[name + ".old"] = set(erased[name])
        else:
            words = ["--quiet", *(["--adopt-erasures"] if way == "adopt" else []), name, other]
            has_some = way != "adopt" and {atom[1] for atom in held(place, name)} & erased[other]
            place.run("cadf-sync", *words, status=5 if has_some else 0)
            erased[name] |= erased[other] if way == "adopt" else set()
        for each in names:
            assert not {atom[1] for atom in held(place, each)} & erased[each], (way, name, other)
    for one in names * 2:
        for two in names:
            if one != two:
                place.run("cadf-sync", "--adopt-erasures", one, two)
    gone = erased["a"] | erased["b"] | erased["c"]
    assert held(place, "a") == held(place, "b") == held(place, "c")
    assert not {atom[1] for atom in held(place, "a")} & gone
    assert held(place, "a") <= atoms_of(*(each for each in arrived if each["id"] not in gone))


# ---- Wrong versions

WRONG = {
    "a peer's list is taken over in silence": ["    if options.adopt_erasures and not found.names <= own.names:\n", "    if not found.names <= own.names:\n"],
    "a second call that sends again": ['        self.end.leave_out_erased(list_in(asked, "the caller", own.log))\n', '        list_in(asked, "the caller", own.log)\n'],
    "the caller offers what is erased": ["        adopt(end, found, far.link)\n    end.leave_out_erased(found)\n", "        adopt(end, found, far.link)\n"],
    "what is left is not compared": ["            if left != cadf_site.nothing_of(self.erased().log):\n                found[part] = left\n", "            found[part] = digest\n"],
}


@pytest.mark.parametrize("texts", WRONG.values(), ids=WRONG)
def test_wrong_versions_are_caught(cadf, tmp_path, texts):
    (tmp_path / "place").mkdir()
    is_caught(str(tmp_path), texts, lists_that_differ, lambda tools: Place(cadf, tmp_path / "place", tools))


LONG = {
    "a long list is sent": ["        say(LONG_LIST % (far.link.peer, MOST_LIST))\n        return\n", "        say(LONG_LIST % (far.link.peer, MOST_LIST))\n"],
    "the other end's names don't count": ["own.size_with(far.erased[1] - len(own.names))", "own.size_with(0)"],
    "all is done, it says": ["or erased or far.is_list_long or", "or erased or"],
}


@pytest.mark.parametrize("texts", LONG.values(), ids=LONG)
def test_wrong_versions_of_long_lists(cadf, tmp_path, texts):
    (tmp_path / "place").mkdir()
    is_caught(str(tmp_path), SHORT + texts, long_lists, lambda tools: Place(cadf, tmp_path / "place", tools))
