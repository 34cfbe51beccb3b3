"""What a page of tools/cadf-report says, in Chromium: instants, filters, sides, states, places and digests, by values worked here."""
import json
import re

import pytest

from tests.reference.events import EVENT_URI
from tests.tools.conftest import Tried
from tests.tools.odd_logs import EVENT
from tests.tools.test_sites import bare

pytestmark = [pytest.mark.browser, pytest.mark.xdist_group("browser"), pytest.mark.timeout(600)]

# Events in the order of their instants, each with its time in UTC as the page has to show it.
TIMES = [("2024-03-01T11:59:59.25+02:00", "2024-03-01 09:59:59.25"), ("2024-03-01T12:00:00.1Z", "2024-03-01 12:00:00.1"),
         ("2024-03-01T12:00:00.9Z", "2024-03-01 12:00:00.9"), ("2024-03-01T11:29:59.75-02:30", "2024-03-01 13:59:59.75")]
CONFLICTED = "2024-03-01T14:00:00.5+02:00", "2024-03-01 12:00:00.5"  # between the second and the third
PARTIES = [("a", "z", "s1"), ("b", "y", "s2"), ("c", "x", "s1"), ("d", "w", "s2")]  # initiators rise, targets fall
HIDDEN = "user\u202egpj\u200b.exe"
ROWS = "return [...document.querySelectorAll('tr.event')].map(row => [...row.cells].map(cell => cell.innerText.trim()))"


def document(**members):
    events = [dict(EVENT, id="e%d" % at, eventTime=time, initiatorId=initiator, targetId=target, observerId=observer)
              for at, ((time, _), (initiator, target, observer)) in enumerate(zip(TIMES, PARTIES))]
    return {"id": "g", "events": events, **members}


@pytest.fixture
def opened(place, driver):
    """Opens the page of a document."""
    def made(name, log):
        return Tried(driver, place.page(name, place.file(name + ".json", log))).ready()
    return made


def shown_times(tried):
    return [row[0].lstrip("\u25b8").strip() for row in tried.js(ROWS)]


def switch_open(tried):
    tried.js("[...document.querySelectorAll('#outcomes label')].find(each => each.textContent.includes('contradicted')).click()")


def test_times(opened):
    """Each time is that of UTC with its own fraction, and events of open conflicts stand among the others by their instants."""
    log = document()
    log["events"] += [dict(EVENT, id="c", eventTime=CONFLICTED[0], name=name) for name in "ab"]
    tried = opened("times", log)
    wanted = [shown for _, shown in TIMES]
    assert shown_times(tried) == wanted[:2] + [CONFLICTED[1]] * 2 + wanted[2:]
    assert tried.texts("#span") == ["%s \u2013 %s UTC" % (wanted[0], wanted[-1])]
    switch_open(tried)
    assert shown_times(tried) == wanted


def events_of(*members):
    return {"id": "g", "events": [{name: value for name, value in dict(EVENT, id="e%d" % at, **each).items() if name != "initiatorId" or "initiator" not in each}
                                  for at, each in enumerate(members)]}


SEARCHED = events_of(
    {"initiator": {"id": "u1", "name": "alice"}, "action": "delete"}, {"initiator": {"id": "alice", "name": "bob"}, "outcome": "failure"},
    {"initiatorId": "u3", "note": "delete two  words", "tags": ["t-1"], "long": "x" * 70 + "A", "unit": "300 \u212a"},  # the sign of the unit, which NFC makes a letter
    {"initiator": {"id": "u4", "name": "caf\u00e9"}}, {"initiator": {"id": "u4", "name": "cafe\u0301 bar"}})


@pytest.mark.parametrize("typed, found", [
    ("alice", "01"), ("alice delete", "0"), ("delete alice", "0"), ("delete", "02"), ("delete -alice", "2"), ("-delete", "134"), ("-alice -u4", "2"),
    ('"two  words"', "2"), ('"two words"', ""), ('-"two  words" delete', "0"), ("outcome:failure", "1"), ("-outcome:failure alice", "0"), ("initiator:alice", "01"),
    ("initiator:=alice", "01"), ("initiator:=u4", "34"), ("-initiator:u", "1"), ('initiator:="cafe\u0301 bar"', "4"), ("CAF\u00c9", "34"), ("cafe\u0301", "34"), ("id:e3", "3"), ("tag:t-1", "2"),
    ("x" * 70 + "a", "2"), ("x" * 70 + "b", ""), ('"300 k"', "2"), ("T-1", "2"), ("t.1", ""), ("(", ""),
    ("nothing:alice", ""), ("nowhere", ""), ("-", "01234"), ("http://schemas", "01234"), ('"', "01234"), ("type:activity", "01234"), ("-type:activity", "")])
def test_search(opened, typed, found):
    """Words, of which each is wanted, or unwanted with a `-` before it; in quotes, or of a field; names and identifiers alike, in either spelling."""
    tried = opened("searched", SEARCHED)
    tried.type("#search", typed)
    rows = tried.js("return [...document.querySelectorAll('tr.event .printed')].map(cell => cell.textContent)")
    assert rows == ["e" + each for each in found]


def test_words_of_a_search(opened):
    """Twenty words are looked for; a field with more is marked, and the others are not."""
    tried = opened("words", SEARCHED)
    tried.type("#search", "e " * 20)
    assert (tried.one("#search").get_attribute("aria-invalid"), tried.listed()) == ("false", 5)
    tried.type("#search", "nowhere")
    assert (tried.one("#search").get_attribute("aria-invalid"), tried.listed()) == ("true", 5)


def test_names_of_one_identifier(opened):
    """A filter takes each name of an identifier, and columns sort by what stands first: the name."""
    tried = opened("names", SEARCHED)
    tried.type("[data-filter=initiator]", "=cafe\u0301 bar")
    assert [row[3] for row in tried.js(ROWS)] == ["cafe\u0301 bar u4"]
    tried.one("#clear").click()
    tried.one("th[data-sort=initiator] button").click()
    assert [row[3] for row in tried.js(ROWS)] == ["alice u1", "bob alice", "cafe\u0301 bar u4", "caf\u00e9 u4", "u3"]
    tried.show("pairs")
    assert tried.texts("#panel-pairs table.pairs tbody .number button") == ["1", "2", "1", "1"]


REPORTED = [("2024-03-01T12:00:00.5Z", "2024-03-01T13:00:00.4Z", "59 min 59 s", "3600s"), ("2024-03-01T12:00:00.5Z", "2024-03-01T13:00:00.5Z", "1 h", "3601s"),
            ("2024-03-01T12:00:00Z", "2024-03-01T11:59:59Z", "\u22121 s", "0s"), ("2024-03-01T12:00:00+02:00", "2024-03-02T12:00:00Z", "1 d 2 h", "2d")]


def test_reported_after(opened):
    """How long after its time an event was reported last; a filter takes those that came so late or later, by the nanosecond."""
    log = events_of(*({"eventTime": time, "reporterchain": [{"role": "observer", "reporterId": "s", "reporterTime": reported}]} for time, reported, _, _ in REPORTED),
                    {"eventTime": "2024-03-01T12:00:01Z", "reporterchain": [{"role": "observer", "reporterId": "s"}]})
    shown = {"e%d" % at: said for at, (_, _, said, _) in enumerate(REPORTED)}
    tried = opened("reported", log)
    rows = "return Object.fromEntries([...document.querySelectorAll('tr.event')].map(row => [row.querySelector('.printed').textContent, row.querySelector('.late').textContent]))"
    assert tried.js(rows) == {**shown, "e4": ""}
    for at, (_, _, _, more) in enumerate(REPORTED):
        tried.type("#late", more)
        assert "e%d" % at not in tried.js(rows), more
        tried.one("#clear").click()
    tried.type("#late", "1h")
    assert tried.js(rows).keys() == {"e1", "e3"}
    tried.one("#clear").click()
    tried.type("#late", "soon")
    assert tried.one("#late").get_attribute("aria-invalid") == "true" and tried.listed() == 5
    tried.one("#clear").click()
    tried.one("th[data-sort=late] button").click()
    assert tried.js("return [...document.querySelectorAll('tr.event .printed')].map(cell => cell.textContent)") == ["e4", "e2", "e0", "e1", "e3"]


@pytest.mark.parametrize("first, last, ticks", [
    ("2023-11-20", "2024-11-05", ["2023-12", *("2024-%02d" % month for month in range(1, 12))]), ("2020-02-10", "2023-12-20", ["%d-%02d" % (year, month) for year in range(2020, 2024) for month in (1, 4, 7, 10)][1:]), ("2024-01-31", "2024-08-02", ["2024-02", "2024-03", "2024-04", "2024-05", "2024-06", "2024-07", "2024-08"]),
    ("1999-06-01", "2008-01-01", ["2000", "2001", "2002", "2003", "2004", "2005", "2006", "2007", "2008"])])
def test_ticks(opened, first, last, ticks):
    """Over months and years the timeline has borders where these begin."""
    tried = opened("ticks", events_of({"eventTime": first + "T07:30:00Z"}, {"eventTime": last + "T00:00:00Z"}))
    said = tried.texts("#histogram .axis:not(.scale) text")
    places = tried.js("return [...document.querySelectorAll('#histogram .axis:not(.scale) text'), {getBoundingClientRect: () => ({left: document.getElementById('histogram').getBoundingClientRect().right})}]"
                      ".map(each => each.getBoundingClientRect()).map(({left, right}) => [left, right])")
    assert all(before[1] <= after[0] for before, after in zip(places, places[1:])), "no label is over another one, or cut off"
    assert said == ticks[-len(said):] or said == ticks[:len(said)] and len(said) >= len(ticks) - 1, said


@pytest.mark.parametrize("text, shown", [
    ("\u0645\u06cc\u200c\u062e\u0648\u0627\u0647\u0645", None), ("\u0915\u094d\u200d\u0937", None), ("\U0001f469\u200d\U0001f680", None), ("\u2764\ufe0f\u200d\U0001f525", None),
    ("ad\u200dmin", "adU+200Dmin"), ("ad\u200cmin", "adU+200Cmin"), ("\u0645\u200c", "\u0645U+200C"), ("a\ufe0f", "aU+FE0F"), ("\U0001f469\u200dx", "\U0001f469U+200Dx")])
def test_joiners(opened, text, shown):
    """A joiner stands where a word or a picture needs it; elsewhere it is named, as whatever can't be seen."""
    tried = opened("joiners", events_of({"initiatorId": text}))
    assert tried.texts("tr.event td:nth-child(4)") == [shown or text]


def test_narrow(place, driver):
    """On a narrow window an event is a card with all of it, and no control is smaller than 24 pixels."""
    driver.execute_cdp_cmd("Emulation.setDeviceMetricsOverride", {"width": 390, "height": 800, "deviceScaleFactor": 1, "mobile": False})
    try:
        log = document()
        for each in log["events"]:
            each["reporterchain"] = [{"role": "observer", "reporterId": "s1"}]
        tried = Tried(driver, place.page("narrow", place.file("narrow.json", log))).ready()
        right = tried.js("return [...document.querySelectorAll('tr.event:first-of-type td')].filter(cell => cell.getClientRects().length).map(cell => Math.ceil(cell.getBoundingClientRect().right))")
        assert len(right) >= 6 and max(right) <= 390, right
        small = ("return [...document.querySelectorAll('button, input, select, summary')].map(each => each.closest('label.switch, label.pick') || each).filter(each => each.getClientRects().length)"
                 ".map(each => [each.textContent || each.id, each.getBoundingClientRect().width, each.getBoundingClientRect().height]).filter(([, width, height]) => Math.min(width, height) < 24)")
        for tab in tried.all("[role=tab]"):
            tab.click()
            assert tried.js(small) == [], tab.text
            assert tried.js("return [...document.querySelectorAll('[role=tabpanel]:not([hidden]) table')].filter(each => !each.caption).length") == 0, tab.text
            assert tried.js("return [...document.querySelectorAll('[role=tabpanel]:not([hidden]) .pairs td')].filter(cell => !cell.dataset.label || cell.getBoundingClientRect().right > 390).length") == 0, tab.text
        tried.show("complete")
        labels = ("return [...document.querySelectorAll('#panel-complete tbody tr:first-of-type td')].filter(cell => cell.getClientRects().length)"
                  ".map(cell => getComputedStyle(cell, '::before').content.slice(1, -1) + ': ' + cell.textContent)")
        assert tried.js(labels)[:4] == ["Reporter: s1", "Events: 4", "Contradicted: 0", "An hour late, or more: 0"]
        tried.show("events")
        tried.one(".opener").click()
        assert tried.js("return Math.max(...[...document.querySelectorAll('.opened .detail *')].filter(each => !each.closest('svg')).map(each => each.getBoundingClientRect().right))") <= 390
    finally:
        driver.execute_cdp_cmd("Emulation.clearDeviceMetricsOverride", {})


@pytest.mark.parametrize("width", [390, 1280])
def test_room(place, driver, width):
    """Each button is as wide as its words, whatever stands beside it, no view is wider than the window, and each kind of facts has its plural."""
    driver.execute_cdp_cmd("Emulation.setDeviceMetricsOverride", {"width": width, "height": 800, "deviceScaleFactor": 1, "mobile": False})
    try:
        place.file("other.json", {"id": "g", "events": CONTRADICTED})
        place.file("here.json", document(region="north"))
        tried = Tried(driver, place.page("room", "--against", "other.json", "here.json")).ready()
        for tab in tried.all("[role=tab]"):
            tab.click()
            narrow = tried.js("return [...document.querySelectorAll('button')].filter(each => each.scrollWidth > each.clientWidth + 1).map(each => each.textContent)")
            assert narrow == [], tab.text
            assert tried.js("return document.documentElement.scrollWidth <= innerWidth"), tab.text
        assert tried.texts(".counts-of tbody th") == ["all facts", "events", "properties"]
    finally:
        driver.execute_cdp_cmd("Emulation.clearDeviceMetricsOverride", {})


CONTRADICTED = [dict(EVENT, id="x", action=action, outcome=outcome, eventTime="2024-03-01T12:00:00.3Z", initiatorId="b", targetId="y")
                for action, outcome in (("delete", "failure"), ("read", "success"))]


def test_contradicted(opened):
    """Who deleted what stands among the events though another body contradicts it: marked in the list, in the counts, in the timeline and in the matrix."""
    log = document()
    log["events"] += CONTRADICTED
    tried = opened("contradicted", log)
    assert tried.texts("#outcomes label") == ["\u2715 failure 1", "\u2026 pending 0", "? unknown 0", "\u2713 success 5", " contradicted 2"]
    assert tried.texts("#panel-events .contradicted") == ["Among them 2 bodies of 1 contradicted event: the log shows none of these, until a ruling."]
    assert tried.texts("#highest")[0].startswith("1 failure, 5 success; at most 4 in ")
    assert tried.texts("#highest")[0].endswith("; among them 2 bodies of 1 contradicted event, as the line below shows")
    tried.type("[data-filter=action]", "delete")
    assert [row[1:4] for row in tried.js(ROWS)] == [["\u2715 failure", "contradicted, 1 of 2 delete", "b"]]
    assert tried.texts("#panel-events .contradicted") == ["Among them 1 body of 1 contradicted event: the log shows none of these, until a ruling."]
    tried.one(".opener").click()
    assert tried.texts(".opened .compare thead th") == ["path", "value 1", "value 2"]
    assert tried.texts(".opened .compare tbody td") == ['"delete"', '"read"', '"failure"', '"success"']
    tried.show("pairs")
    assert tried.texts(".matrix tbody td") == ["\u2260 1/1"] * 4
    assert "\u2260 marks bodies of contradicted events." in tried.texts(".matrix caption")[0]


def test_contradicted_is_never_none(opened):
    """With these bodies switched off no view says that there is none: it says how many there are, and shows them by one click."""
    log = document()
    log["events"] += CONTRADICTED
    tried = opened("switched", log)
    switch_open(tried)
    assert tried.texts("#outcomes label")[0] == "\u2715 failure 0"
    tried.type("[data-filter=action]", "delete")
    assert tried.texts("#panel-events .none") == ["No event of the log passes the filters."]
    said = "Switched off, though the filters let them pass: 1 body of 1 contradicted event. Show them"
    assert tried.texts("#panel-events .contradicted") == [said]
    assert "; not among them 1 body of 1 contradicted event" in tried.texts("#highest")[0]
    tried.show("pairs")
    assert tried.texts("#panel-pairs .contradicted") == [said]
    tried.one("#panel-pairs .contradicted button").click()
    tried.show("events")
    assert [row[2] for row in tried.js(ROWS)] == ["contradicted, 1 of 2 delete"]


def test_leads_to_the_choice(opened):
    """From a contradicted event a button leads to the choice among its values, and to no other conflict."""
    log = document()
    log["events"] += CONTRADICTED + [dict(EVENT, id="z", name=name, eventTime="2024-03-01T20:00:00Z") for name in "ab"]
    tried = opened("choice", log)
    tried.type("[data-filter=action]", "delete")
    tried.one(".opener").click()
    tried.js("[...document.querySelectorAll('.opened button')].find(each => each.textContent === 'Choose among them').click()")
    assert tried.one("#panel-conflicts").is_displayed()
    assert tried.texts("#panel-conflicts article h3 bdi") == ["x"]
    assert len(tried.all("#panel-conflicts article input[type=radio]")) == 2


@pytest.mark.parametrize("year", ["2024", "9998"])
def test_late_fraction(opened, year):
    """The last nanosecond of a second is in that second."""
    time = year + "-03-01T12:00:00.999999999Z"
    tried = opened("late" + year, {"id": "g", "events": [dict(EVENT, id="e", eventTime=time)]})
    assert shown_times(tried) == [time.replace("T", " ")[:-1]]
    tried.one("#until").send_keys(year + "-03-01 12:00:01", "\ue004")
    assert shown_times(tried) == [time.replace("T", " ")[:-1]]


def test_range(opened):
    """A range has the events from an instant on until before another, by UTC."""
    tried = opened("range", document())
    for selector, typed in (("#from", "2024-03-01 12:00:00"), ("#until", "2024-03-01 13:59:59")):
        tried.one(selector).send_keys(typed, "\ue004")
    assert shown_times(tried) == [shown for _, shown in TIMES[1:3]]


@pytest.mark.parametrize("typed", ["5", "2", "2024-02-30", "2024-02-29 24:00", "2024-3-1"])
def test_no_time(opened, typed):
    """What is no time is marked, and no other time is taken for it."""
    tried = opened("typed", document())
    tried.one("#until").send_keys(typed, "\ue004")
    assert tried.one("#until").get_attribute("aria-invalid") == "true"
    assert shown_times(tried) == [shown for _, shown in TIMES]


def test_columns(opened):
    """Each column sorts by its own texts, and filters by them."""
    tried = opened("columns", document())
    for at, name in enumerate(("initiator", "target", "observer"), 3):
        for is_falling in (False, True):
            tried.one("th[data-sort=%s] button" % name).click()
            column = [row[at] for row in tried.js(ROWS)]
            assert column == sorted((row[at - 3] for row in PARTIES), reverse=is_falling), name
        wanted = PARTIES[1][at - 3]
        tried.type("[data-filter=%s]" % name, "=" + wanted)
        assert [row[at] for row in tried.js(ROWS)] == [wanted] * sum(row[at - 3] == wanted for row in PARTIES), name
        tried.one("#clear").click()


def test_rest(opened):
    """The rest of the log has its properties and entities of each kind."""
    tried = opened("rest", document(p=1, resources=[{"id": "r"}], geolocations=[{"id": "l"}], metrics=[{"metricId": "m"}]))
    assert tried.texts("#tab-rest") == ["Rest of the log 4"]
    tried.show("rest")
    assert tried.texts("#panel-rest h3") == ["Properties: 1", "Resources: 1", "Geolocations: 1", "Metrics: 1"]
    assert tried.texts("#panel-rest th") == ["p", "r", "l", "m"]


def test_sides(place, driver):
    """Of two sites it says which lacks what."""
    place.file("more.json", document())
    place.file("fewer.json", {**document(), "events": document()["events"][:1]})
    tried = Tried(driver, place.page("sides", "--against", "more.json", "fewer.json")).ready()
    tried.show("sites")
    assert tried.texts(".counts-of thead th") == ["Kind", "These files lack", "The other site lacks"]
    rows = tried.js("return [...document.querySelectorAll('.counts-of tbody tr')].map(row => [...row.cells].map(cell => cell.textContent))")
    assert rows == [["all facts", "3", "0"], ["events", "3", "0"]]
    listed = tried.js("return [...document.querySelectorAll('#panel-sites table:not(.counts-of) tbody tr')].map(row => [...row.cells].slice(0, 3).map(cell => cell.innerText))")
    assert listed == [["these files lack", "event", "e%d" % at] for at in (1, 2, 3)]


def test_whole_values(place, driver):
    """A text differs from an object whose member has that text, whatever name the member has."""
    files = [place.file("whole%d.json" % at, {"id": "g", "events": [], "p": value}) for at, value in enumerate(["x", {"value": "x"}])]
    tried = Tried(driver, place.page("whole", *files)).ready()
    tried.show("conflicts")
    assert tried.texts("#panel-conflicts article .compare thead ~ tbody td") == ['"x"', "absent", "absent", '"x"']
    assert tried.texts("#panel-conflicts article p.minor")[0] == "2 values differ in 2 paths"


def test_many_members(place, driver):
    """A thousand values, each with a member of its own, are compared in as many steps as they have members, and not for each two."""
    files = [place.file("member%d.json" % at, {"id": "g", "events": [], "p": {"m%d" % at: 1, "n": 1}}) for at in range(1000)]
    tried = Tried(driver, place.page("members", *files)).ready()
    tried.js("const get = Map.prototype.get; window.steps = 0; Map.prototype.get = function (key) { steps++; return get.call(this, key); }")
    tried.show("conflicts")
    assert tried.texts("#panel-conflicts article p.minor")[0] == "1,000 values differ in 1,000 paths"
    assert tried.texts("#panel-conflicts article summary") == ["1 path is the same; values in full, and commands"]
    assert tried.js("return steps") < 100000


def test_last_value(place, driver):
    """A group names all paths in which its conflicts differ, also where the last of many values alone differs."""
    values = [{"n": at} for at in range(30)] + [{"n": 99, "z": 1}]
    files = [place.file("last%d.json" % at, {"id": "g", "events": [], "p": value}) for at, value in enumerate(values)]
    tried = Tried(driver, place.page("last", *files)).ready()
    tried.show("conflicts")
    assert tried.texts(".patterns button code") == ["n", "z"]
    assert "z is 1 (1)" in tried.texts("#panel-conflicts option")


def test_many_rulings(place, driver):
    """Each of more than a thousand rulings is on some page of their table."""
    keys = ["k%04d" % at for at in range(1001)]
    joined = place.file("bodies", place.run("cadf", "join", place.file("bodies.json", {"id": "g", "events": [dict(EVENT, id=key, name=name) for key in keys for name in "ab"]})))
    listed = place.run("bash", "-c", "cadf-conflicts bodies || [ $? = 5 ]").decode().splitlines(keepends=True)
    place.file("every", "".join(line for line in listed if re.match('E "[^"]*" 1 ', line)).encode())
    ruled = place.file("every.cadf", bare(place.run("cadf-conflicts", "--rule", "every", "bodies")))
    tried = Tried(driver, place.page("rulings", joined, ruled)).ready()
    tried.show("conflicts")
    rows = "return [...document.querySelectorAll('#panel-conflicts table.pairs tbody td.party')].map(each => each.innerText)"
    assert tried.js(rows) == keys[:50]
    tried.js("document.querySelector('#panel-conflicts section button[aria-label=\"Last page\"]').click()")
    assert tried.js(rows) == keys[1000:]


@pytest.fixture
def four(place):
    """A file in which an event has four values, and another one value."""
    log = {"id": "g", "events": [dict(EVENT, id="e", severity=str(number)) for number in range(1, 5)] + [dict(EVENT, id="f")]}
    return place.file("four", place.run("cadf", "join", place.file("four.json", log)))


def test_places(place, driver, four):
    """The values of a key are numbered from 1, in the order of cadf-conflicts, which takes the lines that the page makes."""
    tried = Tried(driver, place.page("four", four)).ready()
    tried.show("conflicts")
    heads = tried.texts("article .compare:first-of-type thead th")
    assert [head.strip() for head in heads] == ["path", "value 1", "value 2", "value 3", "value 4"]
    tried.js("document.querySelectorAll('#panel-conflicts details').forEach(each => { each.open = true; })")
    tried.until("commands", "return document.querySelectorAll('#panel-conflicts .command code').length === 4")
    listed = place.run("bash", "-c", "cadf-conflicts four || [ $? = 5 ]").decode().splitlines()
    lines = [re.search("'(E .*?)'", text).group(1) for text in tried.texts("#panel-conflicts .command code")]
    assert lines == [line for line in listed if line.startswith("E ")]


def ruled(place, four, keys):
    """The page of the file with these rulings more, each of a key and a place, and of a file without the values if one is named."""
    for number, (key, at) in enumerate(keys):
        place.file("ruling-%d" % number, place.run("cadf", "rule", "E", key, str(at), four))
    made = place.file("ruled-states", place.run("cadf", "join", four, *("ruling-%d" % number for number in range(len(keys)))))
    return place.page("states", made), made


@pytest.mark.parametrize("keys, badge, states", [
    ([], "open", []),
    ([("e", 2)], "settled by a ruling", ["settles its key: the log shows the value"]),
    ([("e", 2), ("e", 3)], "rulings disagree: none is shown, for good", ["stands against another ruling of the key: none is shown"] * 2),
    ([("f", 1)], "open", ["has no effect yet: the key has this value alone"]),
])
def test_states(place, driver, four, keys, badge, states):
    """A conflict's badge and each ruling's line say what rulings do."""
    page, _ = ruled(place, four, keys)
    tried = Tried(driver, page).ready()
    tried.show("conflicts")
    assert tried.texts("article h3 .badge") == [badge]
    assert tried.texts("[role=tabpanel]:not([hidden]) > section tbody td:last-child") == states


def test_waiting(place, driver, four):
    """A ruling of a value that isn't held waits for it."""
    _, made = ruled(place, four, [("e", 2)])
    alone = place.file("alone", place.run("cadf", "missing", made, four))
    other = place.file("other.json", {"id": "g", "events": [dict(EVENT, id="e", severity="9")]})
    tried = Tried(driver, place.page("waiting", place.file("waiting", place.run("cadf", "join", alone, other)))).ready()
    tried.show("conflicts")
    assert tried.texts("[role=tabpanel]:not([hidden]) > section tbody td:last-child") == ["waits: no such value is held"]


def test_digests(place, driver):
    """The data of a page prove its two digests, and no other."""
    path = place.page("proved", place.file("proved.json", document()))
    for name, sign in ((None, "\u2713 The data in this page make both digests."), ("log", "\u2715 The data"), ("conflict", "\u2715 The data")):
        with open(path, encoding="utf-8") as file:
            page = file.read()
        if name:
            page = re.sub('(id="%s-digest">)(.)' % name, lambda found: found[1] + ("1" if found[2] == "0" else "0"), page)
        tried = Tried(driver, place.file("damaged.html", page.encode())).ready()
        tried.one("#prove").click()
        tried.until("a verdict", "return /[\\u2713\\u2715]/.test(document.getElementById('proved').textContent)")
        assert tried.texts("#proved")[0].startswith(sign), name


def test_chains(opened):
    """Of several chains each step is drawn once, and the longest chain alone is marked."""
    chains = [[{"role": "relay", "reporterId": name} for name in names] for names in ("abc", "abxd", "q")]
    tried = opened("chains", {"id": "g", "events": [dict(EVENT, id="e", reporterchains=chains)]})
    tried.one(".opener").click()
    assert sorted(tried.texts("g.step text:first-of-type")) == sorted("abcxdq")
    assert sorted(tried.texts("g.step.best text:first-of-type")) == sorted("abxd")


def test_copy(opened):
    """What is copied is the event's text, with each character that can't be seen as an escape."""
    tried = opened("copied", {"id": "g", "events": [dict(EVENT, id="e", name=HIDDEN)]})
    tried.one(".opener").click()
    tried.js("Object.defineProperty(navigator, 'clipboard', {value: {writeText: async text => { window.copied = text; }}})")
    tried.js("[...document.querySelectorAll('button')].find(each => each.textContent === 'Copy as JSON').click()")
    copied = tried.js("return window.copied")
    assert json.loads(copied) == dict(EVENT, id="e", name=HIDDEN, typeURI=EVENT_URI) and copied.isascii()


def test_printed(place, driver):
    """A print says that it has all events, and has them."""
    log = {"id": "g", "events": [dict(EVENT, id="e%d" % at) for at in range(250)]}
    tried = Tried(driver, place.page("printed", place.file("printed.json", log))).ready()
    assert tried.texts("#panel-events .where") == ["1\u2013100 of 250"]
    tried.js("addEventListener('beforeprint', () => { window.said = document.querySelector('#panel-events .where').textContent; })")
    driver.execute_cdp_cmd("Page.printToPDF", {})
    assert tried.js("return window.said") == "1\u2013250 of 250"
    assert tried.texts("#panel-events .where") == ["1\u2013100 of 250"]


@pytest.mark.parametrize("count, levels", [(1, ["1"]), (7, ["2", "4", "6"]), (90, ["20", "40", "60", "80"])])
def test_levels(opened, count, levels):
    """The timeline has one to five round numbers of events beside it, up to its highest column."""
    tried = opened("levels", {"id": "g", "events": [dict(EVENT, id="e%d" % at) for at in range(count)]})
    assert "at most %d in" % count in tried.texts("#highest")[0]
    assert tried.texts(".scale text") == levels


def test_sums(opened):
    """The head says how facts and conflicts add up: two events, one of them with two bodies, and a metric with three values."""
    log = {"id": "g", "events": [dict(EVENT, id="e"), *(dict(EVENT, id="f", name=name) for name in "ab")], "metrics": [{"metricId": "m", "v": v} for v in (1, 2, 3)]}
    said = opened("sums", log).texts(".sums")[0]
    assert said == "Of 6 facts the log text has 1, and the conflict list 5. Of 2 conflicts 2 are open: their 5 values, 2 of them of events, are in the list alone."


def test_set_aside(place, driver):
    """What was set aside is listed with its faults, and found by the search."""
    place.file("aside", "".join(json.dumps({"file": name, "line": 1, "faults": ["id"], "text": "x"}) + "\n" for name in ("a", HIDDEN)).encode())
    tried = Tried(driver, place.page("aside", "--set-aside", "aside", place.file("aside.json", document()))).ready()
    assert tried.texts("#tab-aside") == ["Set aside 2"]
    tried.show("aside")
    rows = "return [...document.querySelectorAll('#panel-aside tbody tr')].map(row => [...row.cells].slice(0, 3).map(cell => cell.textContent))"
    assert tried.js(rows) == [["a", "1", "id"], ["userU+202EgpjU+200B.exe", "1", "id"]]
    tried.type("#search", "exe")
    assert len(tried.js(rows)) == 1
