"""What leaves a page of tools/cadf-report is evidence, in Chromium: links, saved rows and prints have their question, and the seal of what the page was made of."""
import base64
import json
import os
import re
import subprocess
import time

import pytest

from tests.machine import ended
from tests.tools.conftest import Tried
from tests.tools.odd_logs import ALERT, EVENT, hostile, told_otherwise
from tests.tools.programs import tool
from tests.tools.test_report import Data

pytestmark = [pytest.mark.browser, pytest.mark.xdist_group("browser"), pytest.mark.timeout(600)]

LONG = "identifier-" + "0123456789abcdef" * 60  # as long as an identifier almost may be
LOG = {"id": "g", "events": [
    dict(EVENT, id="e1", eventTime="2024-03-01T12:00:00Z", initiator={"id": "u1", "name": "=alice"}, targetId=LONG),
    dict(EVENT, id="e2", eventTime="2024-03-02T12:00:00Z", outcome="failure", note='a "quote", and more'),
    *(dict(EVENT, id="e3", eventTime="2024-03-03T12:00:00Z", action=action) for action in ("delete", "read"))]}
LINK = "return document.getElementById('link').textContent"


@pytest.fixture(scope="module")
def page(place):
    return place.page("evidence", place.file("evidence.json", LOG))


def opened(driver, path, fields=""):
    driver.get("about:blank")
    return Tried(driver, path + fields).ready()


def hash_of(tried, wanted):
    tried.until("the address " + wanted, "return decodeURIComponent(location.hash).replaceAll('+', ' ') === arguments[0]", wanted)


# ---- Links

def test_address_holds_filters(driver, page):
    """Filters are in the address; a reload shows the same rows, and so does the link."""
    tried = opened(driver, page)
    hash_of(tried, "")
    tried.type("[data-filter=action]", "delete")
    hash_of(tried, "#action=delete")
    tried.one("#outcomes input").click()
    tried.one("#from").send_keys("2024-03-02", "\ue004")
    tried.one("[data-sort=initiator] button").click()
    tried.show("pairs")
    hash_of(tried, "#action=delete&outcome=pending,unknown,success&from=2024-03-02&sort=initiator&view=pairs")
    address = driver.current_url
    driver.refresh()
    tried.ready()
    assert tried.texts("#link") == ["This link shows 1 of 4 events. "]
    assert tried.one("#panel-pairs").is_displayed()
    tried.one("#clear").click()
    tried.show("events")
    hash_of(tried, "#sort=initiator")
    again = opened(driver, address.replace("file://", ""))
    assert again.listed() == 1
    again.is_quiet()


@pytest.mark.parametrize("fields, shown, odd", [
    ("#outcome=failure", 1, ""), ("#outcome=none", 0, ""), ("#contradicted=no", 2, ""), ("#from=2024-03-02&until=2024-03-03", 1, ""), ("#from=2024-03&until=2024-04", 4, ""),
    ("#search=%s" % "x" * 1 + "y" * 2000, 4, "search"), ("#outcome=failed", 4, "outcome"), ("#from=yesterday", 4, "from"), ("#sort=id", 4, "sort"), ("#view=none", 4, "view"),
    ("#__proto__=1&constructor=2", 4, "__proto__, constructor"), ("#action=%25E0%25A4%25A", 0, ""), ("#action=%E0%A4%A", 0, "")])
def test_links(driver, page, fields, shown, odd):
    """A link is taken by known fields, within bounds; what else it has is named, and changes nothing."""
    tried = opened(driver, page, fields)
    assert tried.js(LINK) == "This link shows %d of 4 events. " % shown + ("It has more that this page doesn't know: " + odd if odd else "")
    tried.is_quiet()


def test_hostile_link(driver, page):
    """What a link says is shown as text."""
    for text in (ALERT, "<img src=x onerror=window.pwned=1>", "javascript:window.pwned=1"):
        tried = opened(driver, page, "#search=%s&%s=1&view=%s" % ((text.replace("<", "%3C").replace("=", "%3D"),) * 3))
        assert tried.one("#search").get_attribute("value") == text
        assert tried.listed() == 0
        tried.is_quiet()
    tried = opened(driver, page, "#" + "&".join("x%d=1" % at for at in range(5000)))
    assert tried.js(LINK) == "This link shows 4 of 4 events. It has more that this page doesn't know: x0, x1, x2, x3, x4 \u2026"


# ---- Rows that are saved

def saved(place, tried, name, label):
    path = place.path(name)
    if os.path.exists(path):
        os.unlink(path)
    tried.js("[...document.querySelectorAll('.savers button')].find(each => each.textContent === arguments[0]).click()", label)
    for _ in range(200):
        if os.path.exists(path):
            time.sleep(0.1)
            with open(path, "rb") as file:
                return file.read()
        time.sleep(0.05)
    raise AssertionError("not saved: " + name)


def asked(place, *words):
    return ended(tool("cadf-events"), words, cwd=place.folder, env=place.environment).output


@pytest.mark.parametrize("fields, words", [("", []), ("#outcome=failure", ["--failed"]), ("#action==read", ["--action", "read"]), ("#contradicted=no", ["--contradicted", "hide"])])
def test_saved_lines(place, driver, page, fields, words):
    """Saved lines are those of cadf-events, below one with the question."""
    wanted = asked(place, *(words or ["--contradicted", "mark"]), "evidence.json")
    lines = saved(place, opened(driver, page, fields), "events.jsonl", "JSON lines").splitlines(keepends=True)
    assert b"".join(lines[1:]) == wanted
    question = json.loads(lines[0])["question"]
    assert question["log"] == "g"
    assert question["filters"] == (fields[1:].replace("=", ": ", 1) or "none")
    assert question["rows"].startswith("%d of 4 events" % len(wanted.splitlines()))


def test_saved_csv(place, driver, page):
    """Saved CSV is that of cadf-events, below lines with the question; a field that a spreadsheet would run has a quote before it."""
    text = saved(place, opened(driver, page), "events.csv", "CSV").decode()
    head, rows = text[:text.index("time,id,")], text[text.index("time,id,"):]
    assert rows == asked(place, "--format", "csv", "--contradicted", "mark", "evidence.json").decode()
    assert ",'=alice," in rows
    assert head.splitlines()[0] == "# log: g" and '"# rows: 4 of 4 events, among them 2 bodies of 1 contradicted event"' in head


def test_saved_hostile(place, driver):
    """Of hostile texts the saved rows are those of cadf-events, too."""
    place.file("hostile.json", hostile())
    tried = Tried(driver, place.page("hostile", "hostile.json")).ready()
    lines = saved(place, tried, "events.jsonl", "JSON lines").splitlines(keepends=True)
    assert sorted(lines[1:]) == sorted(asked(place, "--contradicted", "mark", "hostile.json").splitlines(keepends=True))
    text = saved(place, tried, "events.csv", "CSV").decode()
    rows = text[text.index("time,id,"):]
    assert sorted(rows.split("\n")) == sorted(asked(place, "--contradicted", "mark", "--format", "csv", "hostile.json").decode().split("\n"))


# ---- On paper

def printed(driver, path, order):
    """The text of a print, in an order that pdftotext knows."""
    with open(path, "wb") as file:
        file.write(base64.b64decode(driver.execute_cdp_cmd("Page.printToPDF", {"preferCSSPageSize": True})["data"]))
    return subprocess.run(["pdftotext", order, path, "-"], check=True, stdout=subprocess.PIPE).stdout.decode()


@pytest.mark.needs("pdftotext")
def test_paper(place, driver, page):
    """A print has its question, both digests, the seal, all columns with whole identifiers, and the numbers of its pages."""
    tried = opened(driver, page, "#outcome=success&until=2024-03-02")
    text = printed(driver, place.path("printed.pdf"), "-layout")
    said = {name: value.strip() for name, value in re.findall(r"^ {1,4}(\S.*?) {2,}(\S.*)$", text, re.MULTILINE)}
    head = Data(open(page, "rb").read())
    assert said["log"] == "g"
    assert said["page"] == "all of the log"
    assert said["filters"] == "outcome: success; until: 2024-03-02"
    assert said["rows"] == "1 of 4 events"
    assert [said["SHA-256 of the log text"], said["SHA-256 of the conflict list"]] == head.digests()
    assert said["digest of all facts, as cadf join writes it"] == place.run("cadf", "join", "evidence.json")[-65:-1].decode()
    assert LONG in "".join(printed(driver, place.path("raw.pdf"), "-raw").split())
    for column in ("Time (UTC)", "Outcome", "Action", "Initiator", "Target", "Observer", "Identifier", "1 of "):
        assert column in text, column
    tried.one("#clear").click()


@pytest.mark.needs("pdftotext")
def test_pages_of_paper(place, driver):
    """Each page of a long print has the names of all columns above its rows, and its number."""
    log = {"id": "g", "events": [dict(EVENT, id="event-%03d" % at) for at in range(150)]}
    opened(driver, place.page("long", place.file("long.json", log)))
    pages = printed(driver, place.path("long.pdf"), "-layout").split("\f")[:-1]
    assert len(pages) > 3 and "event-149" in pages[-1]
    for number, page in enumerate(pages, 1):
        assert re.search(r"%d of %d\s*$" % (number, len(pages)), page)
        if "event-" in page:
            heads = page[:page.index("event-")]
            assert [column for column in ("Time (UTC)", "Outcome", "Action", "Initiator", "Target", "Observer", "Reported after", "Identifier") if column not in heads] == []


@pytest.mark.parametrize("words", [[], ["--since", "2024-03-02"]])
def test_seal(place, words):
    """A page names the digest of all that its files tell, or the seal of its folder and its windows, also if it has a part of that."""
    for name, document in zip(("one.json", "other.json"), told_otherwise(3)):
        document["events"].append(dict(EVENT, id="later", eventTime="2024-03-04T12:00:00Z"))
        place.file(name, document)
    page = Data(place.run("cadf-report", *words, "one.json", "other.json"))
    assert page.named('id="seal"><dt>([^<]*)<') == "digest of all facts as cadf join writes it"
    assert page.named('id="seal"><dt>[^<]*</dt><dd><code>([^<]*)<') == place.run("cadf", "join", "other.json", "one.json")[-65:-1].decode()
    seal = place.run("bash", "-c", "cadf-take --by day folder one.json; cadf-seal folder").decode()
    page = Data(place.run("cadf-report", *words, "folder"))
    counts = sum(int(count) for count in re.findall(r"^W \S+ ([0-9]+) ", seal, re.MULTILINE))
    assert page.named('id="seal"><dt>([^<]*)<') == "seal of the folder of %d facts by its digest" % counts
    assert page.named('id="seal"><dt>[^<]*</dt><dd><code>([^<]*)<') == seal.splitlines()[-1][2:]
    windows = sorted(re.findall(r"^W (\d\S+) ", seal, re.MULTILINE))
    assert len(windows) > 1 and page.named('id="windows" hidden>([^<]*)<') == "%d by day the first %s the last %s" % (len(windows), windows[0], windows[-1])
    page = Data(place.run("cadf-report", *words, "folder", "other.json"))
    assert page.named('id="seal"><dt>[^<]*</dt><dd><code>([^<]*)<') == ("" if words else place.run("cadf", "join", "other.json", "one.json")[-65:-1].decode())


def test_windows(place, driver):
    """Of a folder the view of what is complete names the windows, how many went, and from when on it keeps."""
    place.file("days.json", {"id": "g", "events": [dict(EVENT, id="e%d" % day, eventTime="2024-03-0%dT12:00:00Z" % day) for day in (1, 2, 4)]})
    place.run("cadf-take", "--by", "day", "days", "days.json")
    place.run("cadf-forget", "--before", "2024-03-02", "--as", "ann", "--why", "old", "days")
    tried = Tried(driver, place.page("days", "days")).ready()
    tried.show("complete")
    said = tried.texts(".complete li")
    assert said[1] == "Windows: 2 by day, the first 2024-03-02, the last 2024-03-04; 1 went, whose roots the seal has."
    assert said[2].startswith("Not all: days") and "2024-03-02" in said[2]
    assert said[4] == "Days without an event: 1: 2024-03-03."
