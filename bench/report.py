#!/usr/bin/env python3
"""Measures the page of cadf-report: its bytes an event, seconds to write and to load it, to filter, sort, search.

    bench/report.py [--events 10000,100000] [--runs 3] [BINARY]

The events have 1,250 bytes of log text each, three random identifiers, a chain with times, a tag. BINARY is crates/cadf/out/cadf
unless given. Each number is the least of the runs. Beside writing stand `cadf`'s own calls and Python's json.loads and json.dumps
of the log text, and SQLite, which takes the events into a table with indexes; beside loading, Chromium's JSON.parse of the log text;
beside filter and search, jq and grep on the log text, and the same question to the table: how many events answer, and the first
hundred of them in order. The page has to count as many as the table. The browser's part needs Debian's chromium, chromium-driver and python3-selenium, and is left out where they aren't there.
"""
import contextlib
import json
import os
import shutil
import sqlite3
import sys
import tempfile
import time

from inputs import write_log
from measure import TOP, asked, identifier_of, key_of, measured_in_turn, run_apart, spelled, written_apart

REPORT = os.path.join(TOP, "tools", "cadf-report")
SYSTEM = "/usr/bin/python3"  # where Debian's packages are
JSON = "import json, sys; data = open(sys.argv[1], 'rb').read(); json.dumps(json.loads(data))"
SERVICES = ("nova", "glance", "cinder", "keystone", "neutron")
ACTIONS = ("read", "read/list", "update", "create", "delete", "authenticate")


def event(number):
    """An event as OpenStack's services write them: users and servers come again, identifiers and times don't."""
    chance = int(key_of(number)[:12], 16)
    user, server, service = chance % 997, chance // 997 % 400, SERVICES[chance // 7 % 5]
    seconds = number * 26
    stamp = "2024-03-%02dT%02d:%02d:%02d." % (1 + seconds // 86400 % 30, seconds // 3600 % 24, seconds // 60 % 60, seconds % 60)
    reporter = {"id": identifier_of(service), "name": service, "typeURI": "service/compute"}
    return {
        "id": identifier_of(number), "eventType": "activity", "typeURI": "http://schemas.dmtf.org/cloud/audit/1.0/event",
        "eventTime": stamp + "%06dZ" % (chance % 1000000), "action": ACTIONS[chance // 11 % 6],
        "outcome": ("success", "failure", "pending")[max(0, chance // 31 % 10 - 7)],
        "initiator": {"id": identifier_of("user %d" % user), "name": "user%d" % user, "typeURI": "service/security/account/user",
                      "host": {"address": "10.0.3.%d" % (user % 250), "agent": "python-novaclient"},
                      "project_id": key_of("project %d" % (user % 50))[:32], "credential": {"token": "***", "identity_status": "Confirmed"}},
        "target": {"id": identifier_of("server %d" % server), "name": "vm-%d" % server, "typeURI": "service/compute/servers",
                   "addresses": [{"name": name, "url": "http://nova.example.org:8774/v2.1"} for name in ("public", "admin")]},
        "observer": reporter, "requestPath": "/v2.1/servers/" + identifier_of("path %d" % number),
        "reason": {"reasonType": "HTTP", "reasonCode": "200"}, "tags": ["correlation_id?value=" + identifier_of("tag %d" % number)],
        "reporterchain": [{"role": "modifier", "reporter": {"id": reporter["id"]}, "reporterTime": stamp + "%06dZ" % (chance % 1000000)},
                          {"role": "relay", "reporterId": "relay-%d" % (chance % 10), "reporterTime": stamp + "%06dZ" % (chance % 900000 + 99999)}]}


def written(path, *words):
    """Writes what a command says to a file, and returns its path."""
    run_apart(words, path)
    return path


def canned_cadf(place, binary, document):
    """A command that says at once what the binary says of the document, so that the writer alone is measured."""
    replica = written(os.path.join(place, "replica"), binary, "join", document)
    log = written(os.path.join(place, "log"), binary, "show", replica)
    conflicts = written(os.path.join(place, "conflicts"), binary, "show", "--conflicts", replica)
    path = os.path.join(place, "canned")
    with open(path, "w") as file:
        file.write('#!/bin/sh\ncase "$1 $2" in --version*) exec %s --version;; join*) exec cat %s;; "show --conflicts") exec cat %s;; *) exec cat %s;; esac\n'
                   % (binary, replica, conflicts, log))
    os.chmod(path, 0o755)
    return path, replica, log


REPORTED = "(SELECT number FROM reported WHERE reporter = 'relay-8')"
LATE = "number IN (SELECT number FROM reported WHERE julianday(reported) - julianday(at) >= 300 / 86400.0)"


def make_table(path, log):
    """Takes the events of a log text into a table with indexes, as a person would who asks SQLite, and says how long that took."""
    start = time.process_time()
    with open(log, encoding="utf-8") as file, contextlib.closing(sqlite3.connect(path)) as table:
        table.execute("CREATE TABLE events (number INTEGER PRIMARY KEY, at TEXT, id TEXT, action TEXT, outcome TEXT, initiator TEXT, target TEXT, body TEXT)")
        table.execute("CREATE TABLE reported (number INTEGER, reporter TEXT, reported TEXT, at TEXT)")
        for number, each in enumerate(json.load(file)["events"]):
            named = [each["eventTime"], each["id"], each["action"], each["outcome"], each["initiator"]["name"], each["target"]["name"]]
            table.execute("INSERT INTO events VALUES (?, ?, ?, ?, ?, ?, ?, ?)", [number, *named, json.dumps(each)])
            steps = [(step.get("reporterId") or step["reporter"]["id"], step["reporterTime"]) for step in each["reporterchain"]]
            table.executemany("INSERT INTO reported VALUES (?, ?, ?, ?)", [(number, *step, each["eventTime"]) for step in steps])
        for name, columns in ("by_outcome", "events (outcome)"), ("by_initiator", "events (initiator)"), ("by_reporter", "reported (reporter)"):
            table.execute("CREATE INDEX %s ON %s" % (name, columns))
        table.commit()
    print("  %-34s %7s   %7.2f s of processors, %d bytes" % ("SQLite: the table", "", time.process_time() - start, os.path.getsize(path)), flush=True)


def ask_table(path, question, runs):
    """The milliseconds that SQLite takes to count what answers and to hand out the first hundred, and their number."""
    taken, count = [], 0
    with contextlib.closing(sqlite3.connect(path)) as table:
        for _ in range(runs):
            start = time.perf_counter()
            if question.startswith("SELECT"):
                count = len(table.execute(question).fetchall())
            else:
                where, _, order = question.partition(" ORDER BY ")
                count = table.execute("SELECT count(*) FROM events WHERE %s" % where).fetchone()[0]
                table.execute("SELECT * FROM events WHERE %s ORDER BY %s LIMIT 100" % (where, order or "at")).fetchall()
            taken.append((time.perf_counter() - start) * 1000)
    return min(taken), count


def measure_writing(place, binary, count, runs):
    """Measures the writer, what it calls, and json; and jq and grep for what a filter and a search are."""
    document = os.path.join(place, "document")
    written_apart(lambda: write_log(document, {"events": (spelled(event(number)) for number in range(count))}))
    canned, replica, log = canned_cadf(place, binary, document)
    page = written(os.path.join(place, "page.html"), "env", "CADF=" + binary, REPORT, document)
    size, page_size = os.path.getsize(log), os.path.getsize(page)
    print("%d events: log text %d bytes, %.0f an event; page %d bytes, %.0f an event" % (count, size, size / count, page_size, page_size / count))
    commands = {
        "cadf-report": ["env", "CADF=" + binary, REPORT, document], "cadf-report beside cadf's calls": ["env", "CADF=" + canned, REPORT, document],
        "json.loads and json.dumps": [sys.executable, "-c", JSON, log], "cadf join": [binary, "join", document],
        "cadf show": [binary, "show", replica], "jq: failures of one user": ["jq", "-c", '.events[]|select(.outcome=="failure" and .initiator.name=="user7")|.id', log],
        "grep: a text": ["grep", "-c", "10.0.3.77", log]}
    results = dict(zip(commands, measured_in_turn(list(commands.values()), runs)))
    for what, run in results.items():
        print("  %-34s %7.2f s %7.2f s of processors %6.0f MB" % (what, run.wall, run.processors, run.memory), flush=True)
    own, beside = results["cadf-report beside cadf's calls"], results["json.loads and json.dumps"]
    print("  the writer to json: %.2f of the time, %.2f of the processors; %.2f bytes of memory a byte of log text" % (
        own.wall / beside.wall, own.processors / beside.processors, own.memory * 1024 * 1024 / size))
    return log, page


LOADED, LAYOUT = "return Number(document.documentElement.dataset.ready || 0)", "; document.body.offsetHeight"
TYPED = ("const box = document.querySelector('%s'), real = setTimeout, asked = []; window.setTimeout = action => asked.push(action); box.value = '%s'; box.dispatchEvent(new Event('input'));"
         " window.setTimeout = real; asked.forEach(action => action())")
CLEAR, SHOWN = "document.getElementById('clear').click(); document.getElementById('tab-events').click()", "return document.querySelector('#panel-events .where').textContent"
STEPS = (("failures", "document.querySelector('#outcomes button').click()", "outcome = 'failure'"),
         ("search", TYPED % ("#search", "10.0.3.77"), "body LIKE '%10.0.3.77%'"),
         ("search of three words", TYPED % ("#search", "user7 delete -neutron"), "body LIKE '%user7%' AND body LIKE '%delete%' AND body NOT LIKE '%neutron%'"),
         ("late, for the first time", TYPED % ("#late", "5min"), LATE), ("late", TYPED % ("#late", "5min"), LATE),
         ("one reporter, for the first time", TYPED % ("#via", "=relay-8"), "number IN " + REPORTED), ("one reporter", TYPED % ("#via", "=relay-8"), "number IN " + REPORTED),
         ("initiator", TYPED % ("[data-filter=initiator]", "=user7"), "initiator = 'user7'"),
         ("sort by initiator", "document.querySelector('[data-sort=initiator] button').click()", "1 ORDER BY initiator, at"),
         ("who to what", "document.getElementById('tab-pairs').click()", "SELECT initiator, target, count(*), sum(outcome = 'failure') FROM events GROUP BY initiator, target"))


def measure_browser(log, page, table, runs):
    """Measures the page in Chromium, and its JSON.parse of the log text, each run in a new browser; and what the table answers."""
    with open(log, encoding="utf-8") as file, open(log + ".html", "w", encoding="utf-8") as out:
        out.write('<meta charset="utf-8"><script type="application/json" id="log">' + file.read().replace("<", "\\u003c") + "</script>")
    found, counts = {}, {}
    for _ in range(runs):
        for what, milliseconds, shown in browsed(log, page):
            found[what] = min(milliseconds, found.get(what, milliseconds))
            counts[what] = 0 if shown == "none" else int(shown.split(" of ")[-1].replace(",", ""))
    asked = {what: ask_table(table, question, runs) for what, _, question in STEPS}
    for what, milliseconds in found.items():
        print("  %-34s %7.0f ms %s" % (what, milliseconds, "%7.0f ms by SQLite" % asked[what][0] if what in asked else ""))
    print("  loading to JSON.parse of the log text: %.2f; a filter to loading: %.3f" % (
        found["loading"] / found["JSON.parse of the log text"], found["failures"] / found["loading"]))
    other = {what: (counts[what], count) for what, (_, count) in asked.items() if what != "who to what" and counts[what] != count}
    if other:
        sys.exit("the page counts otherwise than the table: %s" % other)


@contextlib.contextmanager
def chromium():
    """Chromium without a window."""
    from selenium import webdriver
    from selenium.webdriver.chrome.service import Service
    options = webdriver.ChromeOptions()
    options.binary_location = shutil.which("chromium")
    for word in ("--headless=new", "--no-sandbox", "--disable-gpu", "--window-size=1440,1000"):
        options.add_argument(word)
    driver = webdriver.Chrome(service=Service(shutil.which("chromedriver")), options=options)
    try:
        driver.execute_cdp_cmd("Performance.enable", {"timeDomain": "threadTicks"})
        yield driver
    finally:
        driver.quit()


def worked(driver):
    """The milliseconds of a processor that the page's thread has worked, which what else the machine does makes little longer."""
    return 1000 * next(each["value"] for each in driver.execute_cdp_cmd("Performance.getMetrics", {})["metrics"] if each["name"] == "TaskDuration")


def browsed(log, page):
    """Yields what was done, with layout, the milliseconds of a processor that it took, and what the page then says of the number of events."""
    with chromium() as driver:
        driver.get("file://" + log + ".html")
        before = worked(driver)
        driver.execute_script("window.kept = JSON.parse(document.getElementById('log').textContent)")
        yield "JSON.parse of the log text", worked(driver) - before, "none"
    with chromium() as driver:
        driver.get("file://" + page)
        while not driver.execute_script(LOADED):
            time.sleep(0.05)
        yield "loading", worked(driver), "none"
        yield "loading, by the clock", driver.execute_script(LOADED), "none"
        for what, script, _ in STEPS:
            driver.execute_script(CLEAR + LAYOUT)
            before = worked(driver)
            driver.execute_script(script + LAYOUT)
            yield what, worked(driver) - before, driver.execute_script(SHOWN)


def main():
    options = asked(__doc__, events="10000,100000", runs=3)
    try:
        import selenium
    except ImportError:
        if os.path.exists(SYSTEM) and os.path.realpath(sys.executable) != os.path.realpath(SYSTEM):
            os.execv(SYSTEM, [SYSTEM, *sys.argv])
        selenium = None
    for count in map(int, options.events.split(",")):
        with tempfile.TemporaryDirectory() as place:
            log, page = measure_writing(place, options.binary, count, options.runs)
            table = os.path.join(place, "table")
            make_table(table, log)
            if selenium and shutil.which("chromium") and shutil.which("chromedriver"):
                measure_browser(log, page, table, options.runs)


if __name__ == "__main__":
    main()
