"""Seven questions of an auditor, asked by a page of tools/cadf-report alone, in Chromium: each answer is that of cadf-events. With --release of 100,000 events too."""
import collections
import datetime
import json
import random
import re

import pytest

from tests.tools.conftest import Tried
from tests.tools.test_report_evidence import asked, saved

pytestmark = [pytest.mark.browser, pytest.mark.xdist_group("browser"), pytest.mark.timeout(900)]

USERS = [{"id": "u%d" % at, "name": "alice \u00e9" if at == 1 else "user %d" % at} for at in range(9)]
DAYS = [day for day in range(1, 70) if day not in (20, 21, 40)]  # of which three have no event
ACTIONS = ("read", "create", "delete", "update/name")


def chain(chance, time):
    relay = chance.choice(["north", "south", "east"])
    last = "%s%02dZ" % (time[:-3], chance.randrange(60))
    if chance.random() < 0.1:
        last = "2024-04-0%dT00:00:00Z" % chance.randrange(1, 9)
    return [{"role": "observer", "reporterId": "s1"}, {"role": "relay", "reporter": {"id": relay, "name": "relay " + relay}, **({"reporterTime": last} if chance.random() < 0.9 else {})}]


def event(chance, number):
    day = datetime.date(2024, 2, 1) + datetime.timedelta(days=chance.choice(DAYS))
    time = "%sT%02d:%02d:00Z" % (day, chance.randrange(24), chance.randrange(60))
    return {"id": "e%06d" % number, "eventType": "activity", "eventTime": time, "action": chance.choice(ACTIONS), "outcome": chance.choice(["success", "success", "failure", "failure/denied", "unknown"]),
            "initiator": chance.choice(USERS), "targetId": "t%d" % chance.randrange(20), "observerId": "s1", "reporterchain": chain(chance, time)}


def log(count):
    """Events, of which one in twenty has a second body: another action or outcome, by another relay."""
    chance = random.Random(count)
    events = [event(chance, number) for number in range(count)]
    others = [dict(each, action="read", outcome="pending", reporterchain=chain(chance, each["eventTime"])) for each in events[::20]]
    return {"id": "audit", "events": events + others}


class Asked:
    """A page, and what cadf-events answers of the same log."""

    def __init__(self, place, driver, name):
        self.place, self.name, self.tried = place, name, Tried(driver, place.path(name.replace(".cadf", ".html"))).ready()

    def is_answered(self, *words):
        """Whether the page's rows are the lines of cadf-events, of which there have to be some."""
        lines = saved(self.place, self.tried, "events.jsonl", "JSON lines").splitlines(keepends=True)[1:]
        wanted = asked(self.place, *words, "--contradicted", "mark", self.name).splitlines(keepends=True)
        listed = self.tried.listed()
        self.tried.one("#clear").click()
        assert lines == wanted, (words, len(lines), len(wanted))
        assert (listed, bool(wanted)) == (len(wanted), True), words
        return wanted


@pytest.fixture(scope="module", params=[200, 5000, pytest.param(100000, marks=pytest.mark.release)])
def question(request, place, driver):
    name = "q%d" % request.param
    place.file(name + ".cadf", place.run("cadf", "join", place.file(name + ".json", log(request.param))))
    place.page(name, "--events", "1000000", place.path(name + ".cadf"))
    return Asked(place, driver, name + ".cadf")


def test_who_deleted(question):
    """Who deleted t3: also by a body that another contradicts."""
    question.tried.type("[data-filter=action]", "=delete")
    question.tried.type("[data-filter=target]", "=t3")
    found = question.is_answered("--action", "delete", "--target", "t3")
    question.tried.type("#search", "action:=delete target:=t3")
    assert question.is_answered("--action", "delete", "--target", "t3") == found


@pytest.mark.parametrize("user", ["u1", "alice \u00e9", "alice e\u0301"])
def test_what_a_user_did_in_march(question, user):
    """By identifier or name, in either spelling of a character."""
    question.tried.type("[data-filter=initiator]", "=" + user)
    for selector, typed in (("#from", "2024-03"), ("#until", "2024-04")):
        question.tried.one(selector).send_keys(typed, "\ue004")
    question.is_answered("--initiator", "u1", "--since", "2024-03", "--until", "2024-04")


def test_failures(question):
    question.tried.one("#outcomes button").click()
    question.is_answered("--failed")


def test_contradictions(question):
    """Each contradicted event is in its view, with who says what."""
    lines = [json.loads(line) for line in asked(question.place, "--contradicted", "only", question.name).splitlines()]
    wanted = collections.defaultdict(set)
    for each in lines:
        wanted[each["event"]["id"]].add((each["event"]["action"], each["event"]["reporterchain"][-1]["reporter"]["name"]))
    tried, found, more = question.tried, {}, True
    tried.show("conflicts")
    rows = ("return [...document.querySelectorAll('#panel-conflicts article')].slice(0, 20).map(card => [card.querySelector('h3 bdi').textContent, [...card.querySelectorAll('.compare:first-of-type thead th')].length,"
            " [...card.querySelectorAll('tbody tr')].filter(row => row.cells[0].textContent === 'action').map(row => [...row.cells].slice(1).map(cell => cell.textContent))[0],"
            " [...card.querySelectorAll('td.came')].map(cell => cell.textContent)])")
    while more:
        for key, heads, actions, came in tried.js(rows):
            found[key] = heads, actions, came
        more = tried.js("const next = [...document.querySelectorAll('#panel-conflicts > .pages [aria-label=\"Next page\"]')].find(each => !each.disabled); if (next) next.click(); return Boolean(next);")
    assert found.keys() == wanted.keys()
    for key, (heads, actions, came) in found.items():
        assert heads == 3
        assert len(came) == 2
        if actions:  # they may differ in the outcome alone
            assert {(json.loads(action), reporters.split(" \u2192 ")[-1]) for action, reporters in zip(actions, came)} == wanted[key]
    tried.show("events")


@pytest.mark.parametrize("late", ["1h", "3d", "30s"])
def test_what_came_late(question, late):
    question.tried.type("#late", late)
    question.is_answered("--late", late)


@pytest.mark.parametrize("relay", ["north", "relay south"])
def test_one_relay(question, relay):
    question.tried.type("#via", "=" + relay)
    found = question.is_answered("--via", relay)
    question.tried.type("#search", 'via:="%s"' % relay)
    assert question.is_answered("--via", relay) == found


def empty_days(days):
    """What the page says of the days between the first and the last that are none of these: how many, and their runs."""
    first, last = (datetime.date.fromisoformat(each) for each in (min(days), max(days)))
    runs, count = [], 0
    for each in (first + datetime.timedelta(at) for at in range((last - first).days)):
        if each.isoformat() not in days:
            count += 1
            runs = runs[:-1] + [(runs[-1][0], each)] if runs and (each - runs[-1][1]).days == 1 else runs + [(each, each)]
    return "%d: %s." % (count, ", ".join(str(one) + (" \u2013 %s" % other if other > one else "") for one, other in runs))


def test_is_it_complete(question):
    """Its seal, the days without an event, open conflicts, and per reporter the events and what came late."""
    place, tried = question.place, question.tried
    tried.show("complete")
    said = tried.texts(".complete li")
    assert said[0].startswith("Made of: digest of all facts, as cadf join writes it %s." % place.run("cadf", "join", question.name)[-65:-1].decode())
    every = [json.loads(line) for line in asked(place, "--contradicted", "mark", question.name).splitlines()]
    events = [each.get("event", each) for each in every]
    assert said[2] == "Days without an event: " + empty_days({each["eventTime"][:10] for each in events})
    assert len(events) < 1000 or said[2] == "Days without an event: 3: 2024-02-21 \u2013 2024-02-22, 2024-03-12."
    assert "Open conflicts: %s." % "{:,}".format(len({each["event"]["id"] for each in every if "event" in each})) in said
    rows = tried.js("return [...document.querySelectorAll('#panel-complete tbody tr')].map(row => [...row.cells].slice(0, 4).map(cell => cell.textContent))")
    for reporter, *counts in rows:
        identifier = reporter.split(" ")[-1]
        wanted = [asked(place, "--via", identifier, "--contradicted", kind, *words, question.name).count(b"\n") for kind, words in (("mark", []), ("only", []), ("mark", ["--late", "1h"]))]
        assert ["{:,}".format(each) for each in wanted] == counts, reporter
    assert {reporter.split(" ")[-1] for reporter, *_ in rows} == {"s1", "north", "south", "east"}
    tried.show("events")
