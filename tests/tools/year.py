"""An operator's year at three sites: what goes wrong is told within a day, by a number or a status, with the command that ends it.

    python3 -m tests.tools.year [--binary CADF] [--days N] [--seed N]

Each day events arrive at the spools of the sites, each event at two of them, some late and some again, and the timers run: cadf-spool,
cadf-scrub, cadf-sync round the ring, cadf-settle at the end of a week. Meanwhile a byte of a file changes on a disk, a relay lies, two
people rule, alike and not, a stranger forges a body with a ruling, a site's own hand does so, a disk is full, a backup of last week is put in place of a
site, a clock is in 1970, and so is one of a sender. The operator reads nothing but numbers, statuses and lines: of each fault a number
or a status of that day differs, a line names a command, and that command ends it. At the end the sites are equal, byte for byte, and each event
that arrived is in them, or was dropped or erased by the operator.
"""
import argparse
import datetime
import hashlib
import json
import os
import random
import re
import resource
import shutil
import subprocess
import sys
import tempfile
import time

from tests import TOP, text_of
from tests.machine import built
from tests.reference.events import document
from tests.reference.replica_files import file_of, read_file

TOOLS = os.path.join(TOP, "tools")
RING = {"north": "south", "south": "west", "west": "north"}
FIRST = datetime.date(2024, 3, 1)
EVENT = {"eventType": "activity", "action": "read", "outcome": "failure", "initiatorId": "u", "targetId": "t", "observerId": "o"}
CLOCK = "import os, time\nif 'CLOCK' in os.environ:\n    time.time = lambda: float(os.environ['CLOCK'])\n    time.time_ns = lambda: int(time.time()) * 10 ** 9\n"
NUMBER = re.compile(r"(?m)^cadf_(\w+)\{[^}]*\} (\d+)$")
# Numbers of which an operator is told if they aren't 0, as by examples/monitoring.
ALARMS = ("damaged_windows", "doubtful_windows", "open_conflicts", "unseen_rulings", "set_aside_files")
EACH_DAY, SPOOL = 3, ("--unchanged", "0", "--by", "day", "--log", "audit", "--not-before", "2024-01-01")


class Failed(AssertionError):
    """What was to be told, or to be held at the end, and isn't."""


def demand(is_so, *said):
    if not is_so:
        raise Failed(" ".join(map(str, said)))


class Year:
    """Three sites with their spools in a folder, what arrived there, and what was told on the day."""

    def __init__(self, folder, binary, seed, tools):
        self.tools, self.folder, self.chance, self.day, self.begun = tools, folder, random.Random(seed), 0, 0
        self.sent, self.dropped = set(), set()  # atoms
        self.told, self.lines, self.log = {}, {}, []
        self.is_cut, self.full, self.clocks = False, set(), {}  # of the links; whose disk is full; the clocks that are wrong
        self.environment = {**os.environ, "CADF": binary, "PYTHONPATH": folder}
        with open(self.path("sitecustomize.py"), "w", encoding="utf-8") as file:
            file.write(CLOCK)
        with open(self.path("allowed"), "w", encoding="utf-8") as allowed:
            for who in ("ann", "bob"):
                subprocess.run(["ssh-keygen", "-q", "-t", "ed25519", "-N", "", "-C", who, "-f", self.path(who)], check=True)
                allowed.write("%s %s" % (who, self.text(who + ".pub")))
        for site in RING:
            os.mkdir(self.path(site + ".spool"))

    def path(self, *names):
        return os.path.join(self.folder, *names)

    def text(self, *names):
        with open(self.path(*names), encoding="utf-8") as file:
            return file.read()

    def run(self, name, *words, site=None, wanted=None):
        """Runs a tool, on the machine of a site. Returns its status, and what it writes and says."""
        environment = {**self.environment, **({"CLOCK": self.clocks[site]} if site in self.clocks else {})}
        limit = (lambda: resource.setrlimit(resource.RLIMIT_FSIZE, (100, 100))) if site in self.full else None
        done = subprocess.run([sys.executable, os.path.join(self.tools, name), *words], cwd=self.folder, env=environment, preexec_fn=limit, check=False,
                              stdin=subprocess.DEVNULL, stdout=subprocess.PIPE, stderr=subprocess.PIPE, encoding="utf-8")
        demand("Traceback" not in done.stderr and wanted in (None, done.returncode), "day", self.day, name, *words, done.returncode, done.stderr)
        return done.returncode, done.stdout, done.stderr

    # What arrives

    def arrives(self, site, name, *events):
        """Puts a document into a site's spool."""
        value = {"id": "audit", "events": [*events]}
        with open(self.path(site + ".spool", name), "w", encoding="utf-8") as file:
            json.dump(value, file)
        self.sent |= document(value)[1]

    def arrive(self):
        """The events of a day: each at two sites, some of them late."""
        for number in range(EACH_DAY):
            key, late = "e%d-%d" % (self.day, number), self.chance.choice((0, 0, 0, 1))
            at = "%sT%02d:00:00Z" % (FIRST + datetime.timedelta(max(0, self.day - late)), self.chance.randrange(24))
            for site in self.chance.sample(sorted(RING), 2):
                self.arrives(site, key + ".json", {**EVENT, "id": key, "eventTime": at})

    def an_event(self):
        """An event of today, as it arrived."""
        key = "e%d-0" % self.day
        body, = (json.loads(atom[2]) for atom in self.sent if atom[:2] == ("E", key))
        return {**body, "id": key}

    def forged(self):
        """A file of today's event with another outcome and a ruling for it that nobody has signed, and its atoms."""
        body, = document({"id": "audit", "events": [{**self.an_event(), "outcome": "success"}]})[1]
        ruling = "U", "E", body[1], hashlib.sha256(body[2].encode()).hexdigest()
        return file_of("audit", {body, ruling}), body, ruling

    # What the timers run

    def timer(self, site, name, *words):
        """Runs a unit's command, and notes what an operator sees of it."""
        numbers = self.path("%s.%s.prom" % (site, name))
        status, _, said = self.run(name, *words[:-1], "--metrics", numbers, "--", site + "/", *words[-1], site=site)
        found = {each: int(number) for each, number in NUMBER.findall(self.text(numbers))} if os.path.exists(numbers) else {}
        self.told[site, name] = {each for each in ALARMS if found.get(each)} | ({"status %d" % status} if status else set())
        if found.get("last_success_timestamp_seconds", 0) < self.begun:
            self.told[site, name].add("last_success")
        self.lines[site, name] = said

    def timers(self):
        self.told, self.lines, self.begun = {}, {}, int(time.time())
        for site in RING:
            self.timer(site, "cadf-spool", *SPOOL, [site + ".spool"])
        for site in RING:
            self.timer(site, "cadf-which", "--scrub", [])
        for site in () if self.is_cut else RING:
            self.timer(site, "cadf-sync", "--conflicts", [RING[site] + "/"])
        for site in RING:
            self.run("cadf-take", "--settle", site + "/")

    # What is told, and what the operator does

    def is_told(self, site, name, alarm, command):
        """Demands that a unit of a site tells this today, and that a line of it, or else an alert, names what ends it."""
        told, said = self.told.get((site, name), set()), self.lines.get((site, name), "")
        demand(alarm in told, "day", self.day, site, name, "tells", sorted(told), "and not", alarm, ":", said)
        demand(command in said or command in text_of("examples", "monitoring", "cadf.rules.yml"), "no line or alert names", command, ":", said)
        self.log.append("day %d: %s tells %s of %s; what ends it: %s" % (self.day, name, alarm, site, command))

    def check_quiet(self):
        told = {key: each for key, each in self.told.items() if each}
        demand(not told, "day", self.day, "tells", told, [self.lines[key] for key in told])

    def rules(self, site, who, event, outcome="failure"):
        """Has somebody rule for an event as it arrived, or for another outcome, sign that, and take it. Returns the digest of the value."""
        digest = hashlib.sha256(next(atom[2] for atom in self.sent if atom[:2] == ("E", event["id"]) and '"%s"' % outcome in atom[2]).encode()).hexdigest()
        _, listed, _ = self.run("cadf-conflicts", site + "/")
        with open(self.path("choices"), "w", encoding="utf-8") as file:
            file.writelines(line.replace("# E", "E").replace("  ruled", "") for line in listed.splitlines(True) if ' %s' % digest in line)
        _, output, _ = self.run("cadf-conflicts", "--rule", "choices", "--as", who, "--why", "asked", "--sign", who, site + "/", wanted=0)
        with open(self.path("rulings.cadf"), "w", encoding="utf-8") as file:
            file.write(output)
        self.sent |= read_file(output.encode())[1]
        self.run("cadf-take", site + "/", "rulings.cadf", wanted=0)
        return digest

    def look(self):
        """Looks at what is ruled at each site."""
        for site in RING:
            self.run("cadf-conflicts", "--values", "--seen", site + "/", wanted=0)

    def admit(self, site, *words):
        return self.run("cadf-admit", *words, site + ".spool", "*")[1]

    # At the end

    def atoms(self, site):
        found = set()
        for name in self.files(site):
            with open(self.path(site, name), "rb") as file:
                found |= read_file(file.read())[1]
        return found

    def files(self, site):
        return ["%s.%s.cadf" % tuple(line.split()[1:]) for line in self.text(site, "site").splitlines() if line.startswith("F ")]

    def check_end(self):
        """The sites are equal byte for byte, and what arrived is there, or was dropped."""
        for site in RING:
            self.run("cadf-which", site + "/", wanted=0)
            held = self.atoms(site)
            demand(held == self.sent - self.dropped, site, "lacks", self.sent - self.dropped - held, "and has", held - self.sent)
            demand(self.files(site) == self.files("north"), site, "has other files than north")
        self.run("cadf-agree", *(site + "/" for site in RING), wanted=0)


# ---- What goes wrong. Each step is a day: what happens before its timers run, and what is told then.

def a_senders_clock(year):
    event = {**EVENT, "id": "old-%d" % year.day, "eventTime": "1970-01-01T00:00:00Z"}
    year.arrives("north", event["id"] + ".json", event)
    year.dropped |= document({"id": "audit", "events": [event]})[1]
    yield
    year.is_told("north", "cadf-spool", "set_aside_files", "cadf-admit")
    demand("1970-01-01T00:00:00Z" in year.admit("north", "--lines"), "cadf-admit doesn't show the event")
    year.admit("north", "--drop")


def a_relay_lies_and_two_rule(year):
    event = year.an_event()
    year.arrives("south", "lie-%d.json" % year.day, {**event, "outcome": "success"})
    yield
    year.is_told("south", "cadf-sync", "open_conflicts", "cadf-conflicts")
    year.is_told("north", "cadf-sync", "status 5", "cadf-conflicts")
    year.is_cut = True
    year.rules("north", "ann", event)
    year.rules("west", "bob", event)
    yield
    year.is_told("west", "cadf-spool", "unseen_rulings", "cadf-conflicts --seen")
    year.is_cut = False
    yield
    year.is_told("south", "cadf-sync", "unseen_rulings", "cadf-conflicts --seen")
    for site in RING:
        _, listed, _ = year.run("cadf-conflicts", "--verify", "allowed", site + "/")
        demand(all('  ruled\n#   ruled by "%s" at ' % who in listed or '\n#   ruled by "%s" at ' % who in listed for who in ("ann", "bob")), listed)
        demand(", signed: \"asked\"" in listed, listed)
    year.look()


def two_rule_apart(year):
    """A key has two rulings for different values, so it stays open, until one of them is erased: at each site, and in the backup."""
    event = year.an_event()
    year.arrives("south", "apart-%d.json" % year.day, {**event, "outcome": "success"})
    yield
    year.is_cut = True
    year.rules("north", "ann", event)
    digest = year.rules("west", "bob", event, "success")
    yield
    year.is_cut = False
    yield
    year.is_told("south", "cadf-sync", "open_conflicts", "cadf-conflicts")
    _, listed, said = year.run("cadf-conflicts", "south/", wanted=5)
    demand("open, 2 values, 2 ruled" in listed and "cadf-erase --ruling DIGEST" in said, listed, said)
    for site in RING:
        _, output, _ = year.run("cadf-erase", "--ruling", digest, "--as", "ann", "--why", "bob agrees", site + "/")
        demand("erased 1 facts; 0 keys and 1 rulings are new on its list" in output, output)
    year.run("cadf-erase", "--adopt", "north/", "backup/", wanted=0)
    year.dropped.add(("U", "E", event["id"], digest))
    year.look()


def a_stranger_forges_a_ruling(year):
    data, body, ruling = year.forged()
    with open(year.path("west.spool", "forged-%d.cadf" % year.day), "wb") as file:
        file.write(data)
    year.sent |= {body, ruling}
    year.dropped.add(ruling)
    yield
    year.is_told("west", "cadf-spool", "set_aside_files", "cadf-admit")
    year.is_told("west", "cadf-sync", "open_conflicts", "cadf-conflicts")
    demand(ruling[3] in year.admit("west", "--lines"), "cadf-admit doesn't show the ruling")
    year.admit("west", "--drop")
    year.rules("north", "ann", {"id": body[1]})
    yield
    year.is_told("west", "cadf-sync", "unseen_rulings", "cadf-conflicts --seen")
    year.look()


def a_sites_own_hand_forges_one(year):
    data, body, ruling = year.forged()
    yield
    with open(year.path("forged.cadf"), "wb") as file:
        file.write(data)
    year.sent |= {body, ruling}
    year.run("cadf-take", "south/", "forged.cadf", wanted=0)
    yield
    year.is_told("north", "cadf-sync", "status 5", "cadf-conflicts --seen")
    _, listed, said = year.run("cadf-conflicts", "--verify", "allowed", "north/", wanted=5)
    demand("#   ruled, no name\n" in listed and "open 0, " in said and "not signed 1" in said, listed, said)
    year.look()


def a_disk_is_full(year):
    year.full.add("south")
    yield
    year.is_told("south", "cadf-spool", "status 3", "make room there")
    year.is_told("south", "cadf-spool", "last_success", "journalctl -u cadf-spool@LOG")
    year.full.clear()


def a_byte_changes(year):
    name = min(year.files("north"))
    with open(year.path("north", name), "r+b") as file:
        file.seek(os.path.getsize(file.name) // 2)
        byte = file.read(1)
        file.seek(-1, os.SEEK_CUR)
        file.write(bytes([byte[0] ^ 1]))
    yield
    year.is_told("north", "cadf-which", "damaged_windows", "cadf-sync --repair SITE/ HOST:SITE")
    year.is_told("north", "cadf-which", "status 1", "cadf-sync --repair SITE/ HOST:SITE")
    year.run("cadf-sync", "--repair", "north/", "south/", wanted=0)


def an_old_backup(year):
    """What was seen isn't in a backup by cadf-sync, so it is told once more."""
    shutil.rmtree(year.path("west"))
    shutil.copytree(year.path("backup"), year.path("west"))
    yield
    year.is_told("west", "cadf-sync", "unseen_rulings", "cadf-conflicts --seen")
    year.look()


def a_machines_clock(year):
    year.clocks["north"] = "1000"
    yield
    for name in ("cadf-spool", "cadf-which", "cadf-sync"):
        year.is_told("north", name, "last_success", "journalctl -u %s@LOG" % name.replace("which", "scrub"))
    year.clocks.clear()


PLOTS = (a_senders_clock, a_relay_lies_and_two_rule, a_stranger_forges_a_ruling, a_disk_is_full, a_byte_changes, a_sites_own_hand_forges_one, an_old_backup,
         a_machines_clock, two_rule_apart)


def lived(folder, binary, days, seed=0, plots=PLOTS, tools=TOOLS, quiet=2):
    """A year of so many days in a folder, of which the first ones are quiet. Returns what was told. Failed: what wasn't, or what isn't held at the end."""
    year, to_come, plot = Year(folder, binary, seed, tools), [], None
    while year.day < days or plot:
        year.arrive()
        if plot is None and year.day >= quiet and (days <= FORTNIGHT or year.chance.random() < 0.5):
            to_come = to_come or list(plots)
            plot = to_come.pop(0)(year)
            next(plot)
        year.timers()
        if plot is None:
            year.check_quiet()
        else:
            next(plot, None)
            plot = None if plot.gi_frame is None else plot
        if year.day % 4 == 3:
            year.run("cadf-sync", "--quiet", "--push", "--windows", "all", "west/", "backup/", wanted=0)
        year.day += 1
    year.timers()
    year.check_quiet()
    year.check_end()
    return year.log


FORTNIGHT = 17  # days, and some more, in which each of these comes once


def main():
    parser = argparse.ArgumentParser(description="Lives an operator's year.")
    parser.add_argument("--binary", default=built("cadf"), help="the command that is tried")
    parser.add_argument("--days", type=int, default=365)
    parser.add_argument("--seed", type=int, default=0)
    options = parser.parse_args()
    with tempfile.TemporaryDirectory() as folder:
        print("\n".join(lived(folder, os.path.abspath(options.binary), options.days, options.seed)))


if __name__ == "__main__":
    main()
