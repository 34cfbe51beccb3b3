"""Pages of tools/cadf-report in Chromium: hostile texts, filters, keys, choices, printing, contrast, a screen reader's tree.

`tests/tools/test_report.py` tries the pages without a browser.
"""
import base64
import contextlib
import http.server
import json
import os
import re
import threading
import time
import zlib

import pytest

from tests.tools.conftest import Tried
from tests.tools.odd_logs import ALERT, EVENT, attempts, heavy, hostile, hostile_event, plain, told_otherwise
from tests.tools.test_report import DATA
from tests.tools.test_sites import bare

pytestmark = [pytest.mark.browser, pytest.mark.xdist_group("browser"), pytest.mark.timeout(600)]

POLICY = re.compile('<meta http-equiv="Content-Security-Policy"[^>]*>')
GUARDED = "window.navigation"


@pytest.fixture(scope="module")
def hostile_page(place):
    """The page of a hostile log, whose replica file is beside it."""
    joined = place.file("hostile.cadf", place.run("cadf", "join", place.file("hostile.json", hostile())))
    return place.page("hostile", joined)


@pytest.fixture(scope="module")
def plain_page(place):
    return place.page("plain", place.file("plain.json", plain(1500)))


@pytest.fixture(scope="module")
def both(place):
    """The replica file of two sites that tell events otherwise, beside its page."""
    for name, document in zip(("north.json", "south.json"), told_otherwise(30)):
        place.file(name, document)
    place.page("both", place.file("both", place.run("cadf", "join", "north.json", "south.json")))
    return place.path("both")


@pytest.fixture(scope="module")
def rulings(place, both):
    """The rulings for the second value of the first conflict, and for the first of each other."""
    listed = place.run("bash", "-c", "cadf-conflicts both || [ $? = 5 ]").decode().splitlines(keepends=True)
    chosen = [line for line in listed if re.match(r'E "(?:c00" 2|(?!c00)[^"]*" 1) ', line)]
    place.file("chosen", "".join(chosen).encode())
    return place.file("rulings", bare(place.run("cadf-conflicts", "--rule", "chosen", "both")))


@pytest.fixture(scope="module")
def ruled_page(place, both, rulings):
    return place.page("ruled", place.file("ruled", place.run("cadf", "join", both, rulings)))


@pytest.fixture(scope="module")
def sites_page(place, both):
    return place.page("sites", "--against", "south.json", "north.json")


# ---- Hostile texts

def test_hostile(place, driver, hostile_page):
    """Opens everything of a hostile log: it is shown, and harms nothing; a click can't turn it into elements."""
    tried = Tried(driver, hostile_page).ready()
    tried.one("#prove").click()
    tried.until("digests", "return document.getElementById('proved').textContent.startsWith('\\u2713')")
    tried.open_all()
    tried.is_quiet()
    name = tried.texts("#log")[0]
    assert name.startswith(ALERT) and "U+202E" in name, name
    odd = (r"return [...document.querySelectorAll('body *:not(script)')].flatMap(each => [...each.childNodes])"
           r".filter(each => each.nodeType === 3 && /[\u202a-\u202e\u2066-\u2069\u200b\u2028\u{e0041}]/u.test(each.data)).map(each => each.data.slice(0, 80))")
    assert tried.js(odd) == [], tried.js(odd)
    assert tried.js("return document.documentElement.scrollWidth <= innerWidth"), "the page is wider than the window"
    assert tried.js("try { document.body.innerHTML = 'x'; return 'open' } catch (fault) { return fault.name }") == "TypeError"
    tried.show("events")
    shown = len(json.loads(place.run("cadf", "show", "hostile.cadf"))["events"])
    listed = json.loads(place.run("cadf", "show", "--conflicts", "hostile.cadf"))["conflicts"]
    wanted = shown + sum(len(each["values"]) for each in listed if each["kind"] == "E")
    assert tried.listed() == wanted, (tried.listed(), wanted)


def test_hostile_aside(place, driver):
    """What was set aside is shown as text too, wherever a sender's text is in it."""
    text = "</script>" + ALERT
    place.file("aside", (json.dumps({"file": text, "line": 1, "faults": [text], "text": text}) + "\n").encode())
    tried = Tried(driver, place.page("aside", "--set-aside", "aside", place.file("small.json", {"id": "g", "events": []}))).ready()
    tried.open_all()
    assert tried.texts("#panel-aside tbody pre") == [text]
    tried.is_quiet()


def test_policy_alone(place, driver, hostile_page):
    """As they are, not packed, the data's script ends the block and stands in the page: the policy alone refuses it."""
    tried = Tried(driver, place.file("open.html", unpacked(hostile_page).encode()))
    told, asked = tried.logs()
    assert tried.js("return document.scripts.length") > 2, "nothing came out of the block"
    assert tried.js("return window.pwned") is None
    assert any("Content Security Policy" in line for line in told), told
    assert asked == ["file://" + place.path("open.html")], asked


def unpacked(path):
    """A page in which its data are as they are, and not packed."""
    with open(path, encoding="utf-8") as file:
        page = file.read()
    block = DATA.search(page)[1]
    return page.replace(block, zlib.decompress(base64.b64decode(block)).decode())


@contextlib.contextmanager
def listening():
    """A server on this machine alone. Yields its address, and the list of what it is asked for."""
    asked = []

    class Handler(http.server.BaseHTTPRequestHandler):
        def do_GET(self):
            asked.append(self.path)
            self.send_error(404)

        def log_message(self, *_):
            pass

    with http.server.ThreadingHTTPServer(("127.0.0.1", 0), Handler) as server:
        threading.Thread(target=server.serve_forever, daemon=True).start()
        yield "http://127.0.0.1:%d" % server.server_port, asked
        server.shutdown()


def attempted(driver, path, made):
    """Opens a page, and uses what each attempt has made of it: which of them made nothing, and whether a script ran."""
    tried = Tried(driver, path)
    absent = [name for name, (_, selector) in made.items() if not tried.all(selector)]
    tried.js("document.querySelector('#linked').click()")
    time.sleep(0.3)
    pwned = tried.js("return window.pwned")
    tried.js("document.querySelector('#sender').click()")
    time.sleep(0.3)
    return absent, pwned


def test_attempts(place, driver):
    """Each way to run a script, to load or to send: a page makes nothing of it. With the data not packed it does, and the
    policy alone refuses it. With the policy taken out too it works: it is an attempt."""
    with listening() as (address, asked):
        made = attempts(address)
        refresh = made.pop("refresh")[0]
        page = harmless(place, driver, "attempts", [text for text, _ in made.values()])
        page = page.replace(GUARDED, "window.none")  # so the policy refuses the page's own script too
        absent, pwned = attempted(driver, place.file("open.html", page.encode()), made)
        assert (absent, pwned, asked) == ([], None, []), (absent, pwned, asked)
        free = POLICY.sub("", page)
        _, pwned = attempted(driver, place.file("free.html", free.encode()), made)
        wanted = {path for text, _ in made.values() for path in re.findall(address + "(/[a-z]+)", text)}
        missing = wanted - {re.match("/[a-z]+", path)[0] for path in asked}
        assert pwned == 1 and not missing, (pwned, missing)
        leaves(place, driver, refresh, asked)


def harmless(place, driver, name, texts):
    """Opens everything of a page with these texts, in which they harm nothing. Returns the page with its data not packed."""
    log = {"id": "g", "events": [hostile_event("</script>" + text, "</script>" + text) for text in texts]}
    tried = Tried(driver, place.page(name, place.file(name + ".json", log))).ready()
    tried.open_all()
    tried.is_quiet()
    return unpacked(place.path(name + ".html"))


def leaves(place, driver, text, asked):
    """No policy forbids a text that is an element to leave the page for an address: the page's own script does."""
    asked.clear()
    page = harmless(place, driver, "leaving", [text])
    Tried(driver, place.file("open.html", page.encode()))
    time.sleep(0.5)
    assert asked == [] and driver.current_url.startswith("file:"), (asked, driver.current_url)
    Tried(driver, place.file("free.html", page.replace(GUARDED, "window.none").encode()))
    time.sleep(0.5)
    assert "/refresh" in asked, "it is no attempt"

# ---- Events

def test_filters(driver, plain_page):
    """Compares each filter and each order with what Python counts."""
    events = plain(1500)["events"]
    tried = Tried(driver, plain_page).ready()
    count = lambda test: sum(map(test, events))
    assert tried.listed() == len(events)
    tries = [("#search", "k3", lambda e: e["tags"] == ["k3"]), ("#search", "ONLYHERE", lambda e: "onlyhere" in e),
             ("[data-filter=initiator]", "=u3", lambda e: e["initiatorId"] == "u3"), ("[data-filter=action]", "EA", lambda e: "ea" in e["action"])]
    for selector, typed, test in tries:
        tried.type(selector, typed)
        assert tried.listed() == count(test), (selector, tried.listed(), count(test))
        tried.one("#clear").click()
    tried.one("#outcomes button").click()
    assert tried.listed() == count(lambda e: e["outcome"] == "failure")
    tried.one("#clear").click()
    for selector, typed in (("#from", "2024-03-05"), ("#until", "2024-03-06 12:00")):
        tried.one(selector).send_keys(typed, "\ue004")
    assert tried.listed() == count(lambda e: "2024-03-05" <= e["eventTime"] < "2024-03-06T12")
    tried.one("#zoom").click()
    tried.one("#whole").click()
    assert tried.listed() == len(events)
    for name, key, column in (("action", "action", 3), ("initiator", "initiatorId", 4), ("outcome", "outcome", 2)):
        for least in (min, max):
            tried.one("th[data-sort=%s] button" % name).click()
            first = tried.texts("tr.event td:nth-child(%d)" % column)[0].split()[-1].lstrip("\u2715\u2026?\u2713")
            assert first == least(each[key] for each in events), (name, first)
    tried.is_quiet()


def test_drag(driver, plain_page):
    """Drags over the timeline: a part is selected, and Escape selects all."""
    from selenium.webdriver.common.action_chains import ActionChains
    tried, count = Tried(driver, plain_page).ready(), 1500
    ActionChains(driver).move_to_element_with_offset(tried.one("#histogram"), -200, 0).click_and_hold().move_by_offset(150, 0).release().perform()
    dragged = tried.listed()
    assert 0 < dragged < count, dragged
    tried.one("#histogram").send_keys("\ue00c")
    assert tried.listed() == count


def test_pairs(driver, plain_page):
    """The pairs are as counted, either way round, and each cell leads to its events."""
    events = plain(1500)["events"]
    tried = Tried(driver, plain_page).ready()
    tried.show("pairs")
    pairs = {}
    for each in events:
        pair = pairs.setdefault((each["initiatorId"], each["targetId"]), [0, 0])
        pair[0] += each["outcome"] == "failure"
        pair[1] += 1
    rows = tried.js("return [...document.querySelectorAll('.pairs tbody tr')].slice(0, 20).map(row => [...row.cells].map(cell => cell.textContent))")
    assert [int(row[3]) for row in rows] == sorted((failed for failed, _ in pairs.values()), reverse=True)[:20]
    assert all(pairs[row[0], row[1]] == [int(row[3]), int(row[4])] for row in rows)
    matrix = "return [...document.querySelectorAll('.matrix tr')].map(row => [...row.cells].map(cell => cell.textContent))"
    one = tried.js(matrix)
    tried.one("#swap").click()
    other = tried.js(matrix)
    heads, targets = other[0][2:], [row[0] for row in other[2:]]
    assert len(heads) == len(targets) == 9 and one[0][2].startswith("t") and heads[0].startswith("u"), (one[0], other[0])
    for row, target in zip(other[1:], [None, *targets]):
        for cell, initiator in zip(row[1:], [None, *heads]):
            failed, every = added(pairs, initiator, target)
            assert cell == ("{0:,}/{1:,}" if failed else "{1:,}").format(failed, every), (initiator, target, cell)
    failures = [added(pairs, initiator, None)[0] for initiator in heads]
    assert failures == sorted(failures, reverse=True), failures
    assert "All 1,500 events are counted." in tried.texts(".matrix caption")[0], tried.texts(".matrix caption")
    for row, cell, pair in ((3, 3, (heads[0], targets[1])), (2, 4, (heads[1], targets[0])), (1, 3, (heads[0], None)), (4, 2, (None, targets[2]))):
        tried.one(".matrix tbody tr:nth-child(%d) > :nth-child(%d) button" % (row, cell)).click()
        assert tried.listed() == added(pairs, *pair)[1], (pair, tried.listed())
        tried.show("pairs")
        assert "Only the {:,} events of 1,500 that pass".format(added(pairs, *pair)[1]) in tried.texts(".matrix caption")[0], tried.texts(".matrix caption")
        tried.one("#clear").click()


def added(pairs, initiator, target):
    """The failures and the events of all pairs with that initiator and that target; None is any."""
    found = [counts for (who, what), counts in pairs.items() if initiator in (None, who) and target in (None, what)]
    return sum(failed for failed, _ in found), sum(every for _, every in found)


def test_keys(driver, plain_page):
    """Walks the page by keys alone: each control can be reached, and does what it says."""
    tried = Tried(driver, plain_page).ready()
    box = tried.one("#histogram")
    box.send_keys("\ue014")
    one, said = tried.listed(), box.get_attribute("aria-valuetext")
    assert 0 < one < 1500 and sum(map(int, re.findall(r"(\d+) (?:failure|pending|unknown|success)", said))) == one, said
    tried.one("#histogram").send_keys("\ue008\ue014\ue014\ue000")
    assert tried.listed() > one
    tried.one("#histogram").send_keys("\ue00c")
    assert tried.listed() == 1500
    tried.one("#tab-events").send_keys("\ue014")
    assert tried.js("return document.activeElement.id") == "tab-pairs" and tried.one("#panel-pairs").is_displayed()
    tried.one("#tab-pairs").send_keys("\ue011")
    tried.one(".opener").send_keys("\ue007")
    assert len(tried.all(".opened pre")) == 1
    for _ in range(2):
        tried.one("[data-sort=time] button").send_keys("\ue007")
    assert len(tried.all(".opened pre")) == 1, "what was opened is open when it comes into view again"
    reached, tried = set(), Tried(driver, plain_page).ready()
    for _ in range(40):
        driver.switch_to.active_element.send_keys("\ue004")
        reached.add(tried.js("const e = document.activeElement; return e.id || e.closest('[id]')?.id"))
    assert {"prove", "outcomes", "from", "until", "zoom", "whole", "histogram", "tab-events", "search", "clear", "panel-events"} <= reached, reached


def test_printing(driver, plain_page):
    """A print has all events that pass the filters, and not a page of them; after it there is a page again."""
    tried = Tried(driver, plain_page).ready()
    tried.one("#outcomes button").click()
    wanted = tried.listed()
    assert wanted > 200 and len(tried.all("tr.event")) == 100
    tried.js("addEventListener('beforeprint', () => { window.printed = document.querySelectorAll('tr.event').length; })")
    made = driver.execute_cdp_cmd("Page.printToPDF", {})
    assert len(made["data"]) > 10000
    assert tried.js("return window.printed") == wanted, (tried.js("return window.printed"), wanted)
    assert len(tried.all("tr.event")) == 100

# ---- Conflicts

def test_choices(place, driver, both, rulings):
    """Chooses values in many conflicts at once, saves them, and makes of them the rulings that the log then shows."""
    tried = Tried(driver, both + ".html").ready()
    tried.show("conflicts")
    assert "30 events differ in outcome" in " ".join(tried.texts(".patterns button")), tried.texts(".patterns button")
    options = tried.texts("select option")
    assert "reporter: south (30)" in options and 'outcome is "success" (30)' in options, options
    assert not any("reporter: s1" in each for each in options), "s1 reported each value, and tells none from another"
    tried.js("const select = document.querySelector('select'); select.value = [...select.options].find(each => each.textContent.startsWith('reporter: south')).value")
    tried.js("[...document.querySelectorAll('button')].find(each => each.textContent === 'Choose in all that are listed').click()")
    tried.all("article:first-of-type input[type=radio]")[1].click()
    assert tried.texts("#chosen") == ["30 chosen"], tried.texts("#chosen")
    tried.one("#save").click()
    for _ in range(100):
        if os.path.exists(place.path("choices.txt")):
            break
        time.sleep(0.05)
    made = bare(place.run("cadf-conflicts", "--rule", "choices.txt", "both"))
    with open(rulings, "rb") as file:
        assert made == file.read()
    tried.is_quiet()


def test_ruled_page(place, driver, ruled_page):
    """The page of what was ruled shows it: which value, what it does, and no choice there, since a second ruling unsettles."""
    shown = [event["outcome"] for event in json.loads(place.run("cadf", "show", "ruled"))["events"] if event["id"] != "both"]
    assert shown == ["success"] + ["failure"] * 29, shown  # by the bytes of their texts `failure` comes first
    tried = Tried(driver, ruled_page).ready()
    assert tried.texts("#open") == ["1"]
    tried.show("conflicts")
    assert tried.texts("article h3 .badge")[:2] == ["open", "settled by a ruling"], "open ones come first"
    heads = tried.js("return [...document.querySelectorAll('article')].slice(1, 3).map(card => [...card.querySelectorAll('.compare')[0].querySelectorAll('thead th')].map(each => each.textContent))")
    shown = " ruled, shown in the log"
    assert heads == [["path", "value 1", "value 2" + shown], ["path", "value 1" + shown, "value 2"]], heads
    assert len(tried.all("article:nth-of-type(2) input[type=radio]")) == 0
    assert set(tried.texts("[role=tabpanel]:not([hidden]) > section tbody td:last-child")) == {"settles its key: the log shows the value"}
    marks = tried.texts("article:nth-of-type(2) mark")
    assert marks == ["failure", "success"], marks
    tried.is_quiet()


def test_commands(place, driver, hostile_page):
    """Each line of a hostile log's conflicts, alone and in a file, is taken by cadf-conflicts, from dash and from bash."""
    tried = Tried(driver, hostile_page).ready()
    tried.show("conflicts")
    found, more = [], True
    while more:
        tried.js("document.querySelectorAll('#panel-conflicts details').forEach(each => { each.open = true; })")
        time.sleep(0.1)
        found += tried.texts("#panel-conflicts .command code")
        more = tried.js("const next = [...document.querySelectorAll('#panel-conflicts > .pages [aria-label=\"Next page\"]')].find(each => !each.disabled);"
                        "if (next) next.click(); return Boolean(next);")
    listed = json.loads(place.run("cadf", "show", "--conflicts", "hostile.cadf"))["conflicts"]
    assert len(found) == sum(min(20, len(each["values"])) for each in listed), len(found)
    lines = place.run("bash", "-c", "cadf-conflicts hostile.cadf 2>/dev/null | grep -v '^#' || true").decode().splitlines(keepends=True)
    for shell in ("dash", "bash"):
        printed = place.run(shell, "-c", "\n".join(command.partition(" | ")[0] for command in found)).decode().splitlines(keepends=True)
        assert [json.loads(line[2:].rsplit(" ", 2)[0]) for line in printed] == [json.loads(line[2:].rsplit(" ", 2)[0]) for line in lines if line in set(lines) and int(line.split()[-2]) <= 20]
    whole = found[0].replace(" SITE >rulings.cadf", " hostile.cadf")
    assert place.run("dash", "-c", whole).startswith(b"CADF-REPLICA 2\n")
    assert not os.path.exists(place.path("pwned"))


def test_two_sites(place, driver, sites_page):
    """The view of two sites counts what each lacks by kind, and lists it."""
    tried = Tried(driver, sites_page).ready()
    tried.show("sites")
    rows = tried.js("return [...document.querySelectorAll('.counts-of tbody tr')].map(row => [...row.cells].map(cell => cell.textContent))")
    assert rows == [["all facts", "61", "61"], ["events", "30", "30"], ["resources", "1", "1"], ["chains", "30", "30"]], rows
    assert len(tried.all("figure.lacks rect")) == 2
    tried.all(".counts-of button")[2].click()
    assert tried.texts("#panel-sites .where") == ["1\u201320 of 31", "1\u201330 of 30"], tried.texts("#panel-sites .where")
    assert 0 < tried.js("return document.querySelector('#panel-sites > h3').getBoundingClientRect().top / innerHeight") < 1, "the list that a number leads to is in view"
    tried.open_all()
    tried.is_quiet()
    assert tried.texts("#named") == ["These files: north.json. The other site: south.json"]
    assert tried.texts("#union dd") == ["31"]
    assert tried.texts("#together") == ["Together they have 31 conflicts, of which 31 are open; 31 are between them alone:"]
    assert tried.texts("#panel-sites article:first-of-type th[scope=col]") == ["path", "value 1: south.json", "value 2: north.json"]
    assert tried.texts("#panel-sites article:first-of-type mark") == ["failure", "success"]
    assert "\u2192" in tried.texts("#panel-sites article:first-of-type .about")[0]
    tried.js("dispatchEvent(new Event('beforeprint')); dispatchEvent(new Event('afterprint'))")
    rows = dict(zip(tried.texts("#question dt"), tried.texts("#question dd")))
    assert rows["compared with"] == "south.json"
    assert rows["of the other site's replica file, 62 facts"] == tried.texts("#other code")[0]
    tried = Tried(driver, place.page("same", "--against", "both", "both")).ready()
    tried.show("sites")
    assert tried.texts("#panel-sites") == ["These files: both. The other site: bothBoth sites hold the same facts."]
    assert tried.texts("#union dd") == ["31"]

# ---- For everyone

CONTRAST = r"""
const lum = c => { const [r, g, b] = c.map(v => { v /= 255; return v <= 0.03928 ? v / 12.92 : ((v + 0.055) / 1.055) ** 2.4; }); return 0.2126 * r + 0.7152 * g + 0.0722 * b; };
const rgb = s => { const n = s.match(/[\d.]+/g).map(Number); return s.startsWith("color(") ? n.map((v, i) => i < 3 ? v * 255 : v) : n; };
const under = e => { for (; e; e = e.parentElement) { const c = rgb(getComputedStyle(e).backgroundColor); if (c.length < 4 || c[3] > 0.5) return c; } return [255, 255, 255]; };
const found = new Map();
for (const e of document.querySelectorAll("body *")) {
  if (!e.getClientRects().length || e.matches(":disabled, script, title") || ![...e.childNodes].some(n => n.nodeType === 3 && n.data.trim())) continue;
  const style = getComputedStyle(e), ink = e.namespaceURI.endsWith("svg") ? style.fill : style.color, ground = e.closest(".step") ? e.closest("pre, td, body").querySelector(".step rect") : null;
  const a = lum(rgb(ink).slice(0, 3)), b = lum((ground ? rgb(getComputedStyle(ground).fill) : under(e)).slice(0, 3)), ratio = (Math.max(a, b) + 0.05) / (Math.min(a, b) + 0.05);
  if (ratio < 4.5) found.set(e.tagName + "." + (e.getAttribute("class") || ""), ratio.toFixed(2));
}
return [...found];
"""


def test_looks(driver, hostile_page, ruled_page, sites_page):
    """Each text has a contrast of 4.5 to 1 in both colour schemes; at twice the size, and on a narrow window, nothing is cut off."""
    pages = [hostile_page, ruled_page, sites_page]
    for scheme in ("light", "dark"):
        driver.execute_cdp_cmd("Emulation.setEmulatedMedia", {"features": [{"name": "prefers-color-scheme", "value": scheme}]})
        for path in pages:
            tried = Tried(driver, path).ready()
            tried.js("document.querySelectorAll('.opener').forEach((each, at) => at < 3 && each.click())")
            for tab in tried.all("[role=tab]"):
                tab.click()
                assert tried.js(CONTRAST) == [], (scheme, path, tried.js(CONTRAST))
    for width, scale in ((720, 2), (360, 2)):
        driver.execute_cdp_cmd("Emulation.setDeviceMetricsOverride", {"width": width, "height": 500, "deviceScaleFactor": scale, "mobile": False})
        tried = Tried(driver, ruled_page).ready()
        for tab in tried.all("[role=tab]"):
            tab.click()
            assert tried.js("return document.documentElement.scrollWidth <= innerWidth"), (width, tab.text)
    driver.execute_cdp_cmd("Emulation.clearDeviceMetricsOverride", {})


def test_tree(driver, both):
    """The tree that a screen reader is given has a role and a name for all that can be used, and for the views."""
    tried = Tried(driver, both + ".html").ready()
    wanted = {("slider", "Range of time"), ("tablist", "Views"), ("searchbox", "Search all texts and member names"), ("table", ""),
              ("columnheader", "Time (UTC)"), ("checkbox", "failure"), ("group", "Outcomes shown"), ("navigation", "Pages"), ("heading", "g"),
              ("banner", ""), ("main", ""), ("tab", "Conflicts"), ("tabpanel", "Events"), ("textbox", "from"), ("combobox", "Filter by Action")}
    seen = tree(driver)
    missing = [(role, name) for role, name in wanted if not any(role == each and name in said for each, said in seen)]
    assert not missing, (missing, sorted(set(seen))[:200])
    tried.show("conflicts")
    seen = tree(driver)
    for role, name in (("radio", "Choose value 2 of c00"), ("combobox", "What the values to choose have"), ("button", "Choose in all that are listed"), ("article", "")):
        assert any(role == each and name in said for each, said in seen), (role, name)
    nameless = [each for each in seen if each[0] in ("button", "checkbox", "radio", "textbox", "searchbox", "combobox", "tab", "slider", "link") and not each[1]]
    assert not nameless, nameless


def tree(driver):
    """The roles and names of Chromium's own tree."""
    nodes = driver.execute_cdp_cmd("Accessibility.getFullAXTree", {})["nodes"]
    return [(node["role"]["value"], node.get("name", {}).get("value", "")) for node in nodes if not node.get("ignored")]


def test_small(place, driver):
    """Logs with nothing of a kind: each view opens, and says that there is nothing."""
    logs = {"empty": {"id": "g", "events": []}, "one": {"id": "g", "events": [dict(EVENT, id="e")]},
            "open": {"id": "g", "events": [dict(EVENT, id="e", name=name) for name in "ab"]},
            "entities": {"id": "g", "events": [], "metrics": [{"metricId": "m", "v": v} for v in (1, [], "1")], "p": {"q": []}}}
    said = {"empty": ["The log shows no event.", "Nothing contradicts"], "one": ["Nothing contradicts"], "open": ["the log shows none of these, until a ruling"],
            "entities": ["The log shows no event.", "3 values differ"]}
    for name, log in logs.items():
        tried = Tried(driver, place.page(name, place.file(name + ".json", log))).ready()
        tried.open_all()
        text = tried.texts("#panels")[0]
        assert all(words in text for words in said[name]), (name, text)
        tried.one("#prove").click()
        tried.until("digests", "return document.getElementById('proved').textContent.startsWith('\\u2713')")
        tried.is_quiet()


def test_heavy(place, driver):
    """No single event or conflict makes the page slow: each step takes less than a second and a half of a processor."""
    tried = Tried(driver, place.page("heavy", place.file("heavy.json", heavy()))).ready()
    driver.execute_cdp_cmd("Performance.enable", {"timeDomain": "threadTicks"})
    steps = {}

    def step(name, script):
        before = worked(driver)
        tried.js(script + "; document.body.offsetHeight")
        steps[name] = worked(driver) - before

    for identifier in ("tags", "chains", "text", "wide"):
        tried.type("#search", identifier)
        step(identifier, "document.querySelectorAll('.opener').forEach(each => each.click())")
        tried.one("#clear").click()
    for tab in ("pairs", "conflicts"):
        step(tab, "document.getElementById('tab-%s').click()" % tab)
    step("details", "document.querySelectorAll('details').forEach(each => { each.open = true; })")
    assert tried.texts("mark")[:2] == ["a", "b"], tried.texts("mark")[:2]
    assert 0 < max(steps.values()) < 1.5, steps
    tried.is_quiet()


def test_long_names(place, driver):
    """A long name above many members hides no conflict: its beginning is in each path."""
    events = [dict(EVENT, id="e", **{"N" * 1000000: {"m%d" % at: value for at in range(600)}}) for value in "ab"]
    tried = Tried(driver, place.page("names", place.file("names.json", {"id": "g", "events": events}))).ready()
    tried.show("conflicts")
    assert "2 values differ in 600 paths" in tried.texts("#panels")[0]
    assert tried.texts("article th[scope=row]")[0] == '["%s\u2026"].m0' % ("N" * 199)
    tried.is_quiet()


def test_longer_than_the_longest_text(place, driver):
    """What is longer than a browser's longest text is an event that can be opened, and the page says that it can't be hashed."""
    tried = Tried(driver, place.page("long", place.file("long.json", {"id": "g", "events": [dict(EVENT, id="e", note="x" * 30000)]}))).ready()
    tried.js("const real = JSON.stringify; JSON.stringify = value => { if (value.length > 20000) throw new RangeError(); return real(value); };")
    tried.one(".opener").click()
    assert len(tried.all(".opened pre")) == 1
    tried.one("#prove").click()
    tried.until("what can't be done", "return document.getElementById('proved').textContent.startsWith('The texts are too long for this browser')")
    tried.is_quiet()


def worked(driver):
    """The seconds of a processor that the page has taken so far."""
    metrics = driver.execute_cdp_cmd("Performance.getMetrics", {})["metrics"]
    return next(each["value"] for each in metrics if each["name"] == "TaskDuration")
