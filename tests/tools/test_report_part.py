"""Which part of a large log a page of tools/cadf-report has: the last events, from the beginning of a day on, or of an hour, a minute or a second."""
import collections
import json
import os
import random
import re
import sys

import pytest

from tests import TOP
from tests.machine import ended
from tests.tools.odd_logs import EVENT
from tests.tools.programs import loaded, tool
from tests.tools.test_report import Data

sys.path.insert(0, os.path.join(TOP, "share", "cadf"))
import cadf_part

TOOL = loaded(tool("cadf-report"))
# Events in order of time, the third and the last of two bodies each.
TIMES = ["2024-02-28T10:00:00Z", "2024-02-29T23:59:59.9Z", "2024-03-01T00:00:00Z", "2024-03-01T01:30:00+01:00", "2024-03-01T23:59:59.5Z", "2024-03-02T01:00:00+01:00"]
EVENTS = [dict(EVENT, id="e%d" % at, eventTime=time, name=name, initiatorId="u%d" % (at % 2)) for at, time in enumerate(TIMES)
          for name in ("a" if at not in (2, 5) else "ab")]


@pytest.fixture(name="site")
def fixture_site(cadf, tmp_path):
    """A folder by day and a file that hold the same facts, and what the tool answers of one."""
    environment = dict(os.environ, CADF=cadf, XDG_CACHE_HOME=str(tmp_path / "cache"))
    (tmp_path / "log.json").write_text(json.dumps({"id": "g", "events": EVENTS}))
    taken = ended(tool("cadf-take"), ["--by", "day", "site", "log.json"], cwd=tmp_path, env=environment)
    assert taken.status == 0, taken.error

    def answer(*words):
        return ended(tool("cadf-report"), words, cwd=tmp_path, env=environment)
    return answer


def said(every, taken, at):
    return "This page has the last %d of %d bodies of events, from %s on: --until %s makes a page of the last of the others." % (taken, every, at, at)


@pytest.mark.parametrize("name", ["log.json", "site/"])
@pytest.mark.parametrize("most, taken, at", [(7, 7, "2024-02-29T00:00:00Z"), (6, 6, "2024-03-01T00:00:00Z"), (5, 2, "2024-03-02T00:00:00Z"), (2, 2, "2024-03-02T00:00:00Z")])
def test_last_days(site, name, most, taken, at):
    """A page has the last whole days that fit, as --since takes them, says so, and ends with 5; a file and a folder have the same page."""
    made, wanted = site("--events", str(most), name), site("--since", at, "log.json")
    assert (made.status, made.error.decode()) == (5, "cadf-report: %s\n" % said(8, taken, at))
    assert (wanted.status, wanted.error) == (0, b"")
    page, since = Data(made.output), Data(wanted.output)
    assert (page.data, page.digests()) == (since.data, since.digests())
    assert said(8, taken, at) in made.output.decode()
    other = site("--events", str(most), "site/" if name == "log.json" else "log.json").output
    assert len({re.sub(b'<div id="seal">.*', b"", each) for each in (made.output, other)}) == 1


def test_what_is_left_out(site):
    """A page of what was left out is made as the first one says, until all events were on some page."""
    names, words = [], []
    while True:
        made = site("--events", "2", *words, "site/")
        page = Data(made.output)
        names = page.value(page.data["log"])["events"] + names
        if made.status == 0:
            break
        words = ["--until", re.search("--until (\\S+)", made.error.decode())[1]]
    assert [each["id"] for each in names] == ["e0", "e1", "e3", "e4"]  # of which no other body contradicts


@pytest.mark.parametrize("name", ["log.json", "site/"])
def test_of_what_is_asked(site, name):
    """Only bodies that answer are counted, by an index or without one."""
    for words, every, taken, at in ((["--initiator", "u0"], 4, 3, "2024-02-29T00:00:00Z"), (["--grep", "u0"], 4, 3, "2024-02-29T00:00:00Z"), (["--until", "2024-03-02"], 6, 5, "2024-02-29T00:00:00Z")):
        made = site("--events", str(every - 1), *words, name)
        assert (made.status, made.error.decode()) == (5, "cadf-report: %s\n" % said(every, taken, at)), words
        assert site("--events", str(every), *words, name).status == 0, words


@pytest.mark.parametrize("name", ["log.json", "site/"])
def test_no_part(site, name):
    """More bodies within one second than a page may have are refused, and nothing is written."""
    made = site("--events", "1", name)
    assert (made.status, made.output) == (1, b"")
    assert made.error.decode() == "cadf-report: the second 2024-03-02T00:00:00Z has more bodies of events than 1: choose fewer, as by --initiator or --action\n"


def test_all(site):
    """A page that has all says nothing of a part."""
    made = site("--events", "8", "site/")
    assert (made.status, made.error) == (0, b"")
    assert b"bodies of events, from" not in made.output


def test_as_many_as_the_page_says():
    """As docs/REPORT.md says."""
    assert (TOOL.BODIES, TOOL.MOST_BODIES) == (10 ** 5, 10 ** 6)


def since(seconds, most):
    """The bodies of a part by its meaning: from the first beginning of the largest unit from which on there are some and at most so many."""
    for unit in (86400, 3600, 60, 1):
        begins = [begin for second in seconds for begin in (second // unit * unit, (second // unit + 1) * unit) if 0 < sum(each >= begin for each in seconds) <= most]
        if begins:
            return [each for each in seconds if each >= min(begins)]
    return None


def test_parts():
    """The part by seconds is what it means, and that by hours is the same wherever hours tell it."""
    chance = random.Random(7)
    for spread in (3, 60, 4000, 90000, 10 ** 6) * 60:
        seconds = [10 ** 9 + chance.randrange(spread) for _ in range(chance.randrange(1, 40))]
        most = chance.randrange(1, len(seconds) + 1)
        hours = collections.Counter(second // 3600 * 3600 for second in seconds)
        by_hours, wanted = cadf_part.part_by_hours(hours, most), since(seconds, most)
        if wanted is None:
            with pytest.raises(cadf_part.Fault):
                cadf_part.part_of(seconds, most)
            continue
        part = cadf_part.part_of(seconds, most)
        if part is None:
            assert len(seconds) <= most and by_hours is None
            continue
        assert (part.every, part.taken) == (len(seconds), len(wanted)) and len(seconds) > most
        assert sorted(each for each in seconds if each * 10 ** 9 >= part.first) == sorted(wanted)
        if part.first % (3600 * 10 ** 9) == 0:
            assert by_hours == part
        else:
            assert by_hours.first == max(hours) * 10 ** 9 and by_hours.taken == hours[max(hours)] > most
