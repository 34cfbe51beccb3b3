"""Simulates weeks of two to five sites by one seed: what arrives, what fails, and what each site holds at the end.

    python3 -m tests.simulation.weeks [--weeks N] [--seed N] [--today] [--days N] [--tools DIR]

Each site is a folder of windows on a machine of its own, with a spool and a queue of a bus. In a week events arrive as documents,
lines, messages of the bus, files of other sites, and by a take, some of them twice, late, or ahead of the others; some contradict
others, and rulings are made; some lines and files are refused. Spools are taken, sites are settled, exchanged, backed up, and put back
from a backup that is days old. At a call by chance the processes of a machine are killed, its power is cut (tests/simulation/disk.py
says what that leaves), or its disk is full; links end early, or pass on another bit.

After each act the site is whole, holds nothing that was not sent or is below its floor, and has lost nothing but what is below its floor,
which is in its archive. At the end of a week, once all has been taken, every link was up, and each site has forgotten what one of them has,
the sites are settled: they have the same files byte for byte, which are those of the facts that arrived and are not below the floor, by the
second implementation. Each line that was refused is set aside, and nothing else waits but what is below the floor.

The weeks have seeds that follow one another; --today adds a week whose seed is the number of the day. With one week its story is told,
a line each act. Tools and the second implementation are forks of this process; with --tools the tools are those of that folder.
"""
import argparse
import contextlib
import hashlib
import itertools
import json
import os
import random
import re
import shutil
import sys
import tempfile
import time
from pathlib import Path

from tests import TOP
from tests.reference.events import Fault, document
from tests.reference.replica_files import file_of, read_file
from tests.reference.seal_files import sealed_in
from tests.reference.split_files import parts_of
from tests.simulation.disk import PowerCut, tree
from tests.simulation.processes import ANSWERS, CUT, FULL, KILLED, Plan, Processes

LOG, UNIT = "federation", "day"
DAYS, ACTS = 7, 6  # of a week, and of a day
ALWAYS = (0, 5)  # statuses of what was done
FAULTS = {None: 4, "killed": 1, "power cut": 2, "full disk": 1}  # how likely each is
WAYS = {"killed": KILLED, "power cut": CUT, "full disk": FULL}
CALLS = {"takes its spool": 140, "listens": 40, "settles": 40, "forgets": 60, "take": 20, "exchanges": 60}  # that acts of a kind have, as a rule, and a fifth as many syncs
LAST_DAY = "2024-03-20"  # which spools take; later events wait


class Wrong(AssertionError):
    """What a site doesn't hold as it should, in a week of that seed."""


def atoms_of(*events, **members):
    return document(dict(members, id=LOG, events=list(events)))[1]


def put(path, data):
    """Puts a file in its place at once, and has it on the disk, as whoever sends something does."""
    with open(path + ".part", "wb") as file:
        file.write(data)
    os.rename(path + ".part", path)


def floor_of(files):
    """The floor of a site by its files, or an empty text, and the lines of what went, by the window. What doesn't name its gone file, or has another digest, is damaged."""
    lines = files["site"].split(b"\n") if "site" in files else []
    if lines[:1] != [b"CADF-SITE 2"]:
        return "", {}
    digits = re.fullmatch("G ([0-9a-f]{64})", lines[3].decode())[1]
    data = files["gone." + digits]
    if data[-67:] != b"Z %s\n" % digits.encode() or hashlib.sha256(data[:-67]).hexdigest() != digits or data.split(b"\n")[:3] != [b"CADF-GONE 1", *lines[1:3]]:
        raise ValueError("gone")
    found = [line.split(" ", 2) for line in data.decode().split("\n")[3:-2]]
    return max(window for letter, window, _ in found if letter == "T"), {window: rest for letter, window, rest in found if letter == "G"}


def is_kept(atom, floor):
    """Whether an atom is of no window below the floor."""
    return all(part == "shared" or part >= floor for part in parts_of({atom}, UNIT))


class Machine:
    """A site, its spool, what waits for it on the bus, and what it has sent: all that a person has beside a site that is put back."""

    def __init__(self, root, number):
        self.root, self.number, self.queue, self.sent, self.odd, self.backups, self.held = root, number, [], [], set(), [], set()
        self.floor = ""  # of the site, by its files
        for name in ("spool", "tmp", "sent"):
            os.makedirs(self.path(name), 0o700)

    def path(self, *names):
        return os.path.join(self.root, *names)

    def waiting(self):
        """What waits in the spool; a torn line is left alone, since the bus brings it again."""
        return [name for name in os.listdir(self.path("spool")) if os.path.isfile(self.path("spool", name)) and not name.startswith(".")
                and not name.endswith(".torn")]

    def aside(self):
        """What is in set-aside/, by name."""
        folder = self.path("spool", "set-aside")
        return {name: self.bytes("spool", "set-aside", name) for name in os.listdir(folder) if not name.startswith(".")} if os.path.isdir(folder) else {}

    def site(self, name="site"):
        """The files of the site, or of its archive, by name."""
        folder = self.path(name)
        names = [each for each in os.listdir(folder) if not each.startswith(".")] if os.path.isdir(folder) else ()
        return {each: self.bytes(name, each) for each in names}

    def bytes(self, *names):
        with open(self.path(*names), "rb") as file:
            return file.read()


class Week:
    """A week: its machines, what was sent so far, and what is to be found."""

    def __init__(self, forks, folder, seed, tell):
        self.forks, self.listener, self.seed, self.tell, self.chance = forks, forks.modules["cadf-listen"], seed, tell, random.Random(seed)
        self.machines = [Machine(os.path.join(folder, "m%d" % number), number) for number in range(self.chance.randint(2, 5))]
        forks.machines[:] = [machine.root for machine in self.machines]
        self.must, self.may = set(), set()  # what each site holds at the end, and what it may hold: a ruling whose take was killed
        self.events, self.files, self.known, self.said, self.faults, self.acts = [], 0, {}, "", 0, 0
        self.floor = ""  # the highest of a site so far

    # What arrives

    def event(self, day):
        """An event: of that day, late or ahead; or another body of one that was sent."""
        chance, number = self.chance, len(self.events)
        when = chance.choice([day, day, day, day, max(0, day - chance.randrange(5)), 10 + chance.randrange(3)])
        made = {"id": "e%d" % number, "eventType": "activity", "eventTime": "2024-03-%02dT%02d:%02d:00Z" % (10 + when, chance.randrange(24), number % 60),
                "action": chance.choice(["read", "create"]), "outcome": chance.choice(["success", "failure"]), "initiatorId": "u%d" % chance.randrange(4),
                "targetId": "t", "observerId": "s", **chance.choice([{}, {"tags": ["tag-%d" % chance.randrange(3)]}, {"reporterchain": [
                    {"role": "observer", "reporterId": "r%d" % chance.randrange(3)}]}])}
        if self.events and chance.random() < 0.2:
            made["id"] = chance.choice(self.events)["id"]
        self.events.append(made)
        return made

    def arrivals(self, day):
        """What comes at once: its name's ending and its bytes, and the facts that it has."""
        chance = self.chance
        events = [self.event(day) for _ in range(chance.randint(1, 4))]
        kind = chance.choice(["json", "json", "jsonl", "bus", "bus", "cadf"])
        if kind == "json":
            members = {"name": chance.choice("ab")} if chance.random() < 0.2 else {}
            return kind, json.dumps(dict(members, id=LOG, events=events)).encode(), atoms_of(*events, **members)
        if kind == "cadf":
            return kind, file_of(LOG, atoms_of(*events)), atoms_of(*events)
        return kind, b"".join(json.dumps({"payload": each}).encode() + b"\n" for each in events), atoms_of(*events)

    def arrive(self, day):
        """Something is sent to a machine, at times to two of them or twice, and at times what is refused."""
        kind, data, atoms = self.arrivals(day)
        self.may |= atoms
        self.must |= atoms
        for machine in self.chance.choices(self.machines, k=self.chance.choice([1, 1, 1, 2])):
            self.files += 1
            name = "f%d" % self.files
            if self.chance.random() < 0.15:
                machine.odd.add(name)
                odd = json.dumps({"payload": dict(self.events[0], id="", action=name)}).encode() + b"\n"
                data, kind = (data + odd, kind) if kind in ("jsonl", "bus") else (data, kind)
                if kind in ("json", "cadf"):
                    put(machine.path("spool", name + "-odd.json"), b'{"id": "%s", "events": 7}' % name.encode())
            if kind == "bus":
                machine.queue += data.splitlines()
            elif kind != "jsonl" and self.chance.random() < 0.3:
                put(machine.path("sent", name), data)
                machine.sent.append(name)
                self.take_sent(machine, name)
                continue
            else:
                put(machine.path("spool", "%s.%s" % (name, kind)), data)
            self.story("%s arrives at m%d as %s, %d facts" % (name, machine.number, kind, len(atoms)))

    # Acts

    def story(self, text):
        if self.tell:
            print(text, flush=True)

    def plan(self, kind):
        """What is to fail in an act of a kind, which has some calls as a rule."""
        way, = self.chance.choices(list(FAULTS), FAULTS.values())
        most = CALLS[kind.split(" with ")[0]] / (5 if way == "power cut" else 1)
        place = 1 + int(most * self.chance.random() ** 2)
        return way, Plan(WAYS[way], place) if way else Plan()

    def act(self, kind, machine, work, others=(), may_fail=False, good=ALWAYS, is_calm=False):
        """Does something on a machine, at times with a fault. Returns how it ended."""
        way, plan = (None, Plan()) if is_calm else self.plan(kind)
        before = {each: tree(each.root) for each in (machine, *others)}
        done, records = self.forks.run(machine.number, work, plan)
        self.said, self.acts = done.said, self.acts + 1
        hit = None if done.hit is None else self.machines[done.hit]
        for each in (machine, *others):
            cut = PowerCut(each.root, before[each], random.Random("%d %d" % (self.seed, self.acts)))
            self.check_cuts(each, cut, [record for record in records if self.is_of(each, record)])
            if each is hit and way == "power cut":
                cut.leave()
        self.faults += hit is not None
        self.story("m%d %s%s: %s" % (machine.number, kind, " [%s of m%d at %s %d]" % (way, hit.number, "sync" if way == "power cut" else "call", plan.call) if hit else "",
                                     done.status if done.status not in good else "done"))
        if "Traceback" in done.said or "cadf-sync itself is at fault" in done.said or done.status not in (*range(6), *((-9,) if hit else ())) \
                or done.status not in good and not (may_fail or hit):
            raise Wrong("m%d %s ended with %s\n%s" % (machine.number, " ".join(map(str, work)) if not callable(work) else kind, done.status, done.said))
        for each in (machine, *others):
            each.held, each.floor = self.check(each, each.site(), each.site("archive")), floor_of(each.site())[0]
            self.floor = max(self.floor, each.floor)
        return done

    def is_of(self, machine, record):
        """Whether a call is of a machine's disk; what a synced file holds goes by its number, which all disks have in common."""
        path = record[1][0] if isinstance(record[1], tuple) else record[1]
        return record[0] == "content" or path.startswith(("/dev/fd/", machine.root + "/")) and not path.startswith(machine.path("tmp"))

    def atoms(self, files):
        """What the files of a site hold, by the second implementation. Each that `site` names is there, whole, and of its name."""
        held, lines = set(), files["site"].splitlines() if "site" in files else []
        if lines and b"".join(line + b"\n" for line in lines[:-1]) + b"Z %s\n" % hashlib.sha256(files["site"][:-67]).hexdigest().encode() != files["site"]:
            raise ValueError("site")
        floor, _ = floor_of(files)
        for line in lines[4 if floor else 3:-1]:
            part, digest = line[2:].decode().split(" ")
            data = files["%s.%s.cadf" % (part, digest)]
            if part != "shared" and part < floor:
                raise ValueError("it has " + part)
            if data not in self.known:
                log, atoms = read_file(data)
                if log != LOG or set(parts_of(atoms, UNIT)) != {part} or data[-65:-1].decode() != digest:
                    raise ValueError("it is of something else")
                self.known[data] = frozenset(atoms)
            held |= self.known[data]
        return held

    def check(self, machine, files, archive, when=""):
        """Returns what the files of a site hold. Raises that it isn't whole, has lost something, or holds what nobody sent.

        What it holds no more is below its floor, and in its archive.
        """
        try:
            held, (floor, _) = self.atoms(files), floor_of(files)
            gone = {atom for atom in machine.held - held if not is_kept(atom, floor)}
            gone -= self.atoms(archive) if gone else set()
        except (KeyError, ValueError, Fault) as fault:
            raise Wrong("m%d%s: its site is damaged: %r\n%s" % (machine.number, when, fault, self.said)) from fault
        if floor < machine.floor:
            raise Wrong("m%d%s: its floor fell from %s to %s\n%s" % (machine.number, when, machine.floor, floor, self.said))
        for what, atoms in (("lost", {atom for atom in machine.held - held if is_kept(atom, floor)}), ("forgot, and has in no archive", gone), ("holds, and nobody sent", held - self.may)):
            if atoms:
                raise Wrong("m%d%s %s %d facts, as %s\n%s" % (machine.number, when, what, len(atoms), min(atoms), self.said))
        return held

    def check_cuts(self, machine, cut, records):
        """Raises what is wrong with the site that a power cut would leave at a sync of a run."""
        for number, record in enumerate(records):
            if record[0] in ("names", "content"):
                self.check(machine, cut.holding(machine.path("site")), cut.holding(machine.path("archive")), ", if the power is cut at call %d of %d," % (number + 1, len(records)))
            cut.hear(*record)

    def take_sent(self, machine, name, is_calm=False):
        """A person takes a file, again and again until that is done."""
        words, rest = ["cadf-take", "--by", UNIT, "--log", LOG, "--windows", "all", "--rest", "tmp/rest", "site", os.path.join("sent", name)], machine.path("tmp", "rest")
        while self.act("takes %s" % name if is_calm else "take", machine, words, is_calm=is_calm).status not in ALWAYS:
            is_calm = True
            if os.path.exists(rest):
                os.unlink(rest)
        if os.path.exists(rest):
            self.check_left(machine, rest)
            os.unlink(rest)

    def check_left(self, machine, path):
        """Raises that something of a file that was not taken is to be kept."""
        kept = {atom for atom in read_file(Path(path).read_bytes())[1] if is_kept(atom, machine.floor)}
        if kept:
            raise Wrong("m%d: %s was not taken, and keeps from %s\n%s" % (machine.number, min(kept), machine.floor, self.said))

    def listen(self, machine, is_calm=False):
        """A listener takes what waits on the bus in batches, acknowledging each, and ends, or is killed: then the rest comes again."""
        queue, size, limit, names = list(machine.queue), self.chance.randint(1, 3), self.chance.choice([1, 10 ** 6]), itertools.count()
        self.listener.new_name = lambda: "bus-%d-%d.jsonl" % (self.acts, next(names))
        reading, writing = os.pipe()

        def work():
            def serve():
                spool = self.listener.Spool("spool", limit, 300)
                for place in range(0, len(queue), size):
                    spool.write([self.listener.line_of(body) for body in queue[place:place + size]])
                    self.forks.write(ANSWERS, b"%d\n" % len(queue[place:place + size]))
                spool.finish()
                return 0
            return sys.modules["cadf_toolkit"].ended(serve)

        os.dup2(writing, ANSWERS)
        os.close(writing)
        try:
            self.act("listens", machine, work, is_calm=is_calm)
        finally:
            os.close(ANSWERS)
            with open(reading, "rb") as told:
                del machine.queue[:sum(map(int, told))]

    def spool(self, machine, is_calm=False):
        words = ["cadf-spool", "--unchanged", "0", "--by", UNIT, "--log", LOG, "--not-after", LAST_DAY, "--windows", self.chance.choice(["2", "400"]), "site", "spool"]
        self.act("takes its spool", machine, words, good=(0, 1, 5), is_calm=is_calm)

    def settle(self, machine, is_calm=False):
        self.act("settles", machine, ["cadf-take", "--settle", "site"], may_fail=not os.path.exists(machine.path("site", "site")), is_calm=is_calm)

    def exchange(self, machine, other, is_calm=False):
        """Two machines exchange, by a link that may end early or pass on another bit."""
        link = "wire" if is_calm else self.chance.choice(["wire"] * 4 + ["wire cut %d" % self.chance.randrange(20000), "wire flip %d" % self.chance.randrange(6000)])
        way = [] if is_calm else self.chance.choice([[], [], ["--pull"], ["--push"]])
        patience = ["--timeout", "3"] if "flip" in link else []
        is_there = [os.path.exists(each.path("site", "site")) for each in (machine, other)]
        words = ["cadf-sync", *way, *patience, "--rsh", link, "--windows", "all", machine.path("site") + "/", "host:" + other.path("site") + "/"]
        done = self.act("exchanges with m%d%s" % (other.number, link[len("wire"):]), machine, words, [other], link != "wire" or not any(is_there) or bool(way),
                        is_calm=is_calm)
        floor = max(machine.floor, other.floor)
        both = [{atom for atom in each.held if is_kept(atom, floor)} for each in (machine, other)]
        if done.status in ALWAYS and done.hit is None and link == "wire" and not way and both[0] != both[1]:
            raise Wrong("m%d and m%d exchanged, and differ: %d and %d facts\n%s" % (machine.number, other.number, *map(len, both), done.said))
        if is_calm and machine.floor < other.floor and machine.held != both[0] and ("cadf-forget --before %s " % other.floor not in done.said or done.status != 5):
            raise Wrong("m%d isn't told that m%d keeps from %s\n%s" % (machine.number, other.number, other.floor, done.said))

    def forget(self, machine, floor=None, is_calm=False):
        """A site forgets what is below a floor. What went has a trace of what it was, by the second implementation."""
        if not os.path.exists(machine.path("site", "site")):
            return
        before, traces = machine.held, floor_of(machine.site())[1]
        floor = floor or "2024-03-%02d" % (10 + self.chance.randrange(6))
        done = self.act("forgets", machine, ["cadf-forget", "--before", floor, "--open", "--archive", "archive", "site"], is_calm=is_calm)
        for window, trace in floor_of(machine.site())[1].items():
            if window not in traces:
                count, root, keys, key_root = sealed_in(parts_of(before, UNIT)[window])
                if trace != "%d %s %d %s" % (count, root.hex(), keys, key_root.hex()):
                    raise Wrong("m%d has another trace of %s: %s\n%s" % (machine.number, window, trace, done.said))

    def rule(self, machine):
        """A person rules on some of the open keys of a site, by the list."""
        if not os.path.exists(machine.path("site", "site")):
            return
        listed = self.act("lists conflicts", machine, ["cadf-conflicts", "site"], is_calm=True).output.decode().splitlines()
        lines = [line for line in listed if not line.startswith("#")]
        chosen = self.chance.sample(lines, min(len(lines), 2))
        keys = {tuple(line.split(" ")[:2]) for line in chosen}
        if len(keys) < len(chosen) or not chosen:
            return
        put(machine.path("tmp", "choices"), "".join(line + "\n" for line in chosen).encode())
        done = self.act("rules", machine, ["cadf-conflicts", "--rule", "tmp/choices", "site"], may_fail=True, is_calm=True)
        if done.status == 0:
            rulings = {("U", letter, json.loads(key), digest) for letter, key, _, digest in (line.split(" ") for line in chosen)}
            written = set(read_file(done.output)[1])
            records = {atom for atom in written if atom[0] == "E" and atom[1].startswith("cadf-ruling:")}
            if written - records != rulings or len(records) != len(rulings):
                raise Wrong("m%d ruled %s" % (machine.number, done.output))
            self.may |= written
            self.must |= written
            self.files += 1
            name = "r%d" % self.files
            put(machine.path("sent", name), done.output)
            machine.sent.append(name)
            self.take_sent(machine, name)

    def back_up(self, machine):
        if os.path.exists(machine.path("site", "site")):
            self.files += 1
            machine.backups.append((machine.path("backup-%d" % self.files), set(machine.held)))
            shutil.copytree(machine.path("site"), machine.backups[-1][0])
            self.story("m%d is backed up" % machine.number)

    def put_back(self, machine):
        """A site was lost. A backup of it is put in its place, and what was taken since is taken again, as the guide says."""
        if not machine.backups:
            return
        folder, machine.held = self.chance.choice(machine.backups)
        machine.floor = ""
        shutil.rmtree(machine.path("site"))
        shutil.copytree(folder, machine.path("site"))
        machine.floor = floor_of(machine.site())[0]
        self.story("m%d is put back from %s, %d facts" % (machine.number, os.path.basename(folder), len(machine.held)))
        taken = machine.path("spool", "taken")
        for number, name in enumerate(sorted(os.listdir(taken)) if os.path.isdir(taken) else ()):
            os.rename(os.path.join(taken, name), machine.path("spool", "%d-%s" % (number, name[-60:])))
        for name in machine.sent:
            self.take_sent(machine, name, is_calm=True)

    # The week

    def run(self, days):
        for day in range(days):
            self.story("day %d" % day)
            for _ in range(ACTS):
                self.arrive(day)
                self.step()
            machine = self.chance.choice(self.machines)
            self.chance.choice([self.settle, self.settle, self.rule, self.back_up, self.back_up, self.put_back, self.forget])(machine)
        self.end()

    def step(self):
        """Two machines exchange, or one takes what waits for it."""
        for machine in self.chance.sample(self.machines, len(self.machines)) if self.chance.random() < 0.7 else ():
            if machine.queue and self.chance.random() < 0.6:
                return self.listen(machine)
            if machine.waiting():
                return self.spool(machine)
        return self.exchange(*self.chance.sample(self.machines, 2))

    def end(self):
        """The links are up, and all that has arrived is taken: then all sites are equal, and all is accounted for."""
        self.story("the week ends")
        for machine in self.machines:
            while machine.queue:
                self.listen(machine, True)
            self.listen(machine, True)  # which finishes what a killed one left
            self.spool(machine, True)
            if any(name.startswith("waits-") for name in machine.aside()):
                self.act("admits what waits", machine, ["cadf-admit", "--take", "site", "spool", "waits-*"], is_calm=True)
                left = [name for name in machine.aside() if name.startswith("waits-") and name.endswith(".cadf")]
                for name in left:
                    self.check_left(machine, machine.path("spool", "set-aside", name))
                if left:
                    self.act("drops what is below its floor", machine, ["cadf-admit", "--drop", "spool", "waits-*"], is_calm=True)
        for machine in self.machines:
            if machine.floor < self.floor:
                self.forget(machine, self.floor, True)
        first, *others = self.machines
        for each in (*others, *others[:-1]):  # what the last one holds is then what all of them do
            self.exchange(first, each, True)
        for machine in self.machines:
            self.settle(machine, True)
            self.settle(machine, True)  # what the first one joined goes
        self.check_end()

    def check_end(self):
        lost = {atom for atom in self.must - self.machines[0].held if is_kept(atom, self.floor)}
        if lost:
            raise Wrong("%d facts that arrived are nowhere, as %s" % (len(lost), min(lost)))
        parts = parts_of(self.machines[0].held, UNIT)
        wanted = {part: file_of(LOG, atoms) for part, atoms in parts.items()}
        names = {"%s.%s.cadf" % (part, data[-65:-1].decode()): data for part, data in wanted.items()}
        files = b"".join(b"F %s %s\n" % (part.encode(), wanted[part][-65:-1]) for part in sorted(parts, key=lambda part: (part != "shared", part)))
        for machine in self.machines:
            found = machine.site()
            gone = {name: data for name, data in found.items() if name.startswith("gone.")}  # which has the times of acts
            said = b"".join(b"G %s\n" % name[len("gone."):].encode() for name in gone)
            lines = b"CADF-SITE %d\nL %s\nB %s\n%s%s" % (2 if gone else 1, json.dumps(LOG).encode(), UNIT.encode(), said, files)
            if found != {**names, **gone, "site": lines + b"Z %s\n" % hashlib.sha256(lines).hexdigest().encode()} or len(gone) > 1 or floor_of(found)[0] != self.floor:
                raise Wrong("m%d has other files than its facts make: %s" % (machine.number, sorted(found.keys() ^ names.keys())))
            aside = machine.aside()
            text = b"".join(aside.values())
            for name in machine.odd:
                if name.encode() not in text:
                    raise Wrong("m%d: what was refused of %s is not set aside" % (machine.number, name))
            left = [name for name in aside if name.startswith("waits-")] + machine.waiting() + os.listdir(machine.path("spool", "taking"))
            if [name for name in left if name != ".senders"]:
                raise Wrong("m%d: still waits: %s" % (machine.number, left))


def simulated(forks, seed, days, tell):
    """Runs a week. Returns what is wrong with it, or None, and what happened."""
    with tempfile.TemporaryDirectory(prefix="weeks-", dir="/dev/shm" if os.access("/dev/shm", os.W_OK) else None) as folder:
        week = Week(forks, os.path.realpath(folder), seed, tell)
        try:
            week.run(days)
        except Wrong as wrong:
            return wrong, week
    return None, week


def main():
    parser = argparse.ArgumentParser(description=__doc__, formatter_class=argparse.RawDescriptionHelpFormatter)
    parser.add_argument("--weeks", type=int, default=1)
    parser.add_argument("--seed", type=int, default=1)
    parser.add_argument("--today", action="store_true")
    parser.add_argument("--days", type=int, default=DAYS)
    parser.add_argument("--tools", default=os.path.join(TOP, "tools"))
    options = parser.parse_args()
    forks = Processes(os.path.abspath(options.tools))
    forks.modules["cadf-listen"].ROOM = 4096  # that it tries before it takes anything: more costs time alone
    begun, acts, faults = time.monotonic(), 0, 0
    seeds = [*range(options.seed, options.seed + options.weeks), *([int(time.strftime("%Y%m%d"))] if options.today else [])]
    for seed in seeds:
        wrong, week = simulated(forks, seed, options.days, len(seeds) == 1)
        acts, faults = acts + week.acts, faults + week.faults
        print("seed %d: %d sites, %d facts, %d acts, %d faults" % (seed, len(week.machines), len(week.may), week.acts, week.faults), flush=True)
        if wrong:
            sys.exit("a week went wrong: python3 -m tests.simulation.weeks --seed %d tells its story: %s" % (seed, wrong))
    times = os.times()
    print("%d weeks: %d acts, %d of them with a fault; %.0f seconds, %.0f of a processor" % (
        len(seeds), acts, faults, time.monotonic() - begun, sum(times[:4])))


if __name__ == "__main__":
    main()
