"""Conflicts of which the values are one event but for the offset of its time: cadf-conflicts tells them apart, and rules for UTC."""
import functools
import json

import pytest

from tests.reference.rulings import digest_of_value
from tests.tools.copies import is_caught
from tests.tools.test_site_folders import EVENT, Site, atoms_of
from tests.tools.test_tools_of_folders import Sites

UTC, LOCAL, WEST, LATER = "2024-03-01T00:30:00Z", "2024-03-01T01:30:00+01:00", "2024-02-29T23:30:00-01:00", "2024-03-01T00:30:01Z"
# Of each key: its values, and whether they are one but for the offset, and whether one is in UTC.
KEYS = {"a": [dict(eventTime=UTC), dict(eventTime=LOCAL)], "b": [dict(eventTime=UTC), dict(eventTime=LOCAL), dict(eventTime=WEST)],
        "c": [dict(eventTime=LOCAL), dict(eventTime=WEST)], "d": [dict(eventTime=UTC), dict(eventTime=LATER)],
        "e": [dict(eventTime=UTC), dict(eventTime=LOCAL, n=1)], "f": [dict(eventTime=UTC, n=1), dict(eventTime=LOCAL, n=True)],
        "g": [dict(eventTime=UTC), dict(eventTime=LOCAL), dict(eventTime=UTC, action="create")], "h": [dict(eventTime=UTC), dict(eventTime=LOCAL)],
        "i": [dict(eventTime=UTC, n={"eventTime": "1"}), dict(eventTime=LOCAL, n={"eventTime": "2"})]}
ALIKE, IN_UTC = set("abch"), set("abh")


@pytest.fixture(autouse=True)
def command(cadf, monkeypatch):
    """Has the tools run the command that is tried."""
    monkeypatch.setattr(Site, "command", cadf)


@pytest.fixture
def sites(tmp_path):
    return Sites(tmp_path)


def event_of(key, members):
    return {"id": "g", "events": [dict(EVENT, id=key, **members)]}


def value_of(key, members):
    return next(atom[2] for atom in atoms_of(event_of(key, members)) if len(atom) == 3)


def takes(sites):
    """The events of all keys; of `h` the value in local time is ruled, and another one that isn't there."""
    sites.north.takes(*(event_of(key, members) for key, values in KEYS.items() for members in values), *({"id": "g", "events": [], "name": name} for name in "mn"))


def test_they_are_told_and_counted(sites):
    takes(sites)
    status, output, lines = sites.run("conflicts", "north/")
    told = {line[5]: line.endswith(", one instant with other offsets") for line in output.splitlines() if line.startswith("# E ")}
    assert status == 5 and told == {key: key in ALIKE for key in KEYS}
    assert lines == ["cadf-conflicts: open 10, settled 0", "cadf-conflicts: of the open ones 4 are one event but for the offset of its time: --rule-utc rules for UTC"]


def test_all_are_ruled_for_utc(sites):
    """Where no value is ruled, and one is in UTC. No other key is ruled."""
    takes(sites)
    lines = sites.run("conflicts", "north/")[1].splitlines(True)
    (sites.path / "choices").write_text(next(line for line in lines if line.startswith('E "h" 2 ')))
    rulings = sites.run("conflicts", "--rule", "choices", "north/")[1]
    (sites.path / "rulings.cadf").write_text(rulings)
    assert sites.north.take(files=[str(sites.path / "rulings.cadf")]).status == 0
    status, output, lines = sites.run("conflicts", "--rule-utc", "--as", "ann", "north/")
    assert (status, lines) == (0, ["cadf-conflicts: ruled for UTC on 2 keys"])
    (sites.path / "utc.cadf").write_text(output)
    wanted = {("U", "E", key, digest_of_value(value_of(key, KEYS[key][0]))) for key in "ab"}
    before = sites.north.atoms()
    assert sites.north.take(files=[str(sites.path / "utc.cadf")]).status == 0
    new = sites.north.atoms() - before
    records = [json.loads(atom[2]) for atom in new if atom[0] == "E"]
    assert new - wanted == {atom for atom in new if atom[1].startswith("cadf-ruling:")}
    assert sorted((record["target"]["id"], record["initiator"]["id"], record["reason"]["reasonCode"]) for record in records) == [
        (key, "ann", "the spelling in UTC") for key in "ab"]
    assert sites.run("conflicts", "--rule-utc", "--as", "ann", "north/")[2] == ["cadf-conflicts: ruled for UTC on 0 keys"]


@pytest.mark.parametrize("words, said", [
    (["--values"], "--rule and --rule-utc go with one SITE, and with options of who rules"),
    (["--rule", "choices"], "--again goes with --rule, which does not go with --rule-utc"), (["--again"], "--again goes with --rule, which does not go with --rule-utc")])
def test_words(sites, words, said):
    status, output, lines = sites.run("conflicts", "--rule-utc", *words, "north/")
    assert (status, output) == (2, "") and lines[-1].endswith(said)


@pytest.mark.parametrize("check, right, wrong", [
    (test_they_are_told_and_counted, 'len({EVENT_TIME.sub("", text) for text in texts}) > 1', "False"),
    (test_they_are_told_and_counted, "any(value != values[0] for value in values)", "False"),
    (test_they_are_told_and_counted, "len(set(map(cadf_logs.instant, times))) > 1", "False"),
    (test_all_are_ruled_for_utc, 'if time.endswith("Z")), "")', '), "")'),
    (test_all_are_ruled_for_utc, "if not site.rulings(key) and SHARED", "if SHARED"),
])
def test_a_wrong_version_is_caught(tmp_path, check, right, wrong):
    is_caught(tmp_path, (right, wrong), check, functools.partial(Sites, tmp_path))
