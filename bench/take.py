#!/usr/bin/env python3
"""Measures takes into sites of several sizes: a folder of windows, a file, and a table of sqlite; and says what disk to plan.

    bench/take.py [--sizes 10,100] [--runs 3] [--takes 343] [--year] [BINARY]

A site of so many MB has events of one a second, in windows of an hour. Into it are taken 1 event and 300, each time others:
by cadf-take into the folder, by cadf-take into the file, and by Python's sqlite3 into a table of facts (INSERT OR IGNORE,
synchronous=FULL). Each number is the least of the runs: seconds, seconds of the processor, the greatest memory, bytes written.
Sizes of 1,000 take an hour and 10 GB of disk.

Then so many takes of 300 events make a folder, and it is settled: the bytes that were written for each byte that is brought,
beside 2 + log7 of the number of takes.

With --year a folder takes 8,760 hourly batches of 410 events, 2.4 GB, and is settled: the memory, and whether each window is one
join of its batch. That takes an hour or more.

First it says what the recorded calls of examples/real take in a site, and so a day of them. BINARY is crates/cadf/out/cadf unless
given.
"""
import datetime
import math
import os
import re
import sys
import tempfile

from measure import TOP, asked, atoms_of, best_of, replica_file, run_apart, spelled, write_replica, written_apart

TAKE = os.path.join(TOP, "tools", "cadf-take")
FROM_OPENSTACK = os.path.join(TOP, "tools", "cadf-from-openstack")
RECORDED = os.path.join(TOP, "examples", "real", "keystonemiddleware.jsonl")
LOG = "audit"
EVENT_BYTES = 667  # of a generated event with its chain and its tag, in a replica file
MB = 10 ** 6
HOURS, BATCH = 8760, 410  # of a year, and events of one
STAMP = re.compile("2014-02-[0-9T:-]*Z")
SQLITE = """
import hashlib, re, sqlite3, sys
table = sqlite3.connect(sys.argv[1])
table.execute("PRAGMA synchronous=FULL")
table.execute("CREATE TABLE IF NOT EXISTS facts (digest BLOB PRIMARY KEY, fact TEXT) WITHOUT ROWID")
with open(sys.argv[2], encoding="utf-8") as lines:
    table.executemany("INSERT OR IGNORE INTO facts VALUES (?, ?)",
                      ((hashlib.sha256(line.encode()).digest(), line.rstrip()) for line in lines))
table.commit()
print(re.search("wchar: ([0-9]+)", open("/proc/self/io").read())[1])
"""


def write_delta(path, events):
    """Writes the facts of these events as a replica file, and one a line beside it."""
    replica_file(path, LOG, events, version=2)
    with open(path + ".facts", "w", encoding="utf-8") as out:
        out.writelines(spelled(atom) + "\n" for event in events for atom in atoms_of(event))


def held(folder):
    """The sizes of a folder's files, by what tells a file from another of its name."""
    with os.scandir(folder) as files:
        return {(file.name, file.inode()): file.stat().st_size for file in files}


def take_folder(place, delta=None):
    """Takes a replica file into a folder, or settles it. Returns what that took, and the bytes of the files that are new."""
    before = held(place) if os.path.exists(place) else {}
    took = run_apart([TAKE, "--settle", place] if delta is None else [TAKE, "--by", "hour", "--windows", "1000000", place, delta])
    return took, sum(size for file, size in held(place).items() if file not in before)


def take_file(place, delta):
    took = run_apart([TAKE, place, delta])
    return took, os.path.getsize(place) + 2 * os.path.getsize(delta)  # and what the call makes of the delta


def take_table(place, delta):
    took = run_apart([sys.executable, "-c", SQLITE, place, delta + ".facts"], place + ".said")
    with open(place + ".said", encoding="ascii") as file:
        return took, int(file.read())


TAKES = {"folder": take_folder, "file": take_file, "sqlite": take_table}


def measure_sites(folder, size, runs):
    """Takes 1 and 300 events into sites of that size, and prints what that took."""
    count = size * MB // EVENT_BYTES
    delta, sites = os.path.join(folder, "delta"), {title: os.path.join(folder, "%s-%d" % (title, size)) for title in TAKES}
    write_delta(delta, range(count))
    for title, site in sites.items():
        TAKES[title](site, delta)
    for more in (1, 300):
        taken = {title: [] for title in sites}
        for _ in range(runs):
            write_delta(delta, range(count, count + more))
            count += more
            for title, site in sites.items():
                taken[title].append(TAKES[title](site, delta))
        for title, found in taken.items():
            took, written = best_of([run for run, _ in found]), min(size for _, size in found)
            print("%d MB, %d events, %s: %.3f s, %.3f s of the processor, %.0f MB of memory, %d bytes written" % (
                size, more, title, took.wall, took.processors, took.memory, written), flush=True)


def measure_growth(folder, takes):
    """Makes a folder by so many takes, and settles it: the bytes that are written for each byte that is brought."""
    site, delta = os.path.join(folder, "grown"), os.path.join(folder, "delta")
    brought = written = seconds = dearest = 0
    for number in range(takes):
        write_delta(delta, range(300 * number, 300 * (number + 1)))
        took, more = take_folder(site, delta)
        brought, written, seconds = brought + os.path.getsize(delta), written + more, seconds + took.processors
        dearest = max(dearest, took.processors)
    print("%d takes of 300 events: %.2f bytes written a byte (the aim: %.2f), %.3f s of the processor a take, %.2f s the dearest" % (
        takes, written / brought, 2 + math.log(takes, 7), seconds / takes, dearest))
    took, more = take_folder(site)
    print("settled: %.2f bytes written a byte, %.2f s of the processor, %.0f MB of memory" % (more / brought, took.processors, took.memory))


def batch_of(path, hour):
    """Writes the replica file of an hour's events."""
    begin = datetime.datetime(2023, 1, 1) + datetime.timedelta(hours=hour)
    atoms = [atom for number in range(BATCH) for atom in atoms_of(hour * BATCH + number)]
    written_apart(lambda: write_replica(path, LOG, [tuple(STAMP.sub(begin.isoformat() + "Z", text) for text in atom) for atom in atoms]))
    return begin.strftime("%Y-%m-%dT%H")


def measure_year(folder, binary):
    """Takes a year by the hour, settles it, and compares each window with one join of its batch."""
    site, delta, union = (os.path.join(folder, name) for name in ("year", "delta", "union"))
    most = 0
    for hour in range(HOURS):
        batch_of(delta, hour)
        most = max(most, take_folder(site, delta)[0].memory)
    took, _ = take_folder(site)
    names, wrong = set(os.listdir(site)), 0
    for hour in range(HOURS):
        window = batch_of(delta, hour)
        run_apart([binary, "join", delta], union)
        with open(union, "rb") as file:
            file.seek(-65, os.SEEK_END)
            wrong += "%s.%s.cadf" % (window, file.read(64).decode()) not in names
    print("a year: %.0f MB of memory for a take, %.0f MB for settling, %d of %d windows are no join of their batch" % (
        most, took.memory, wrong, HOURS))


def tell_disk(folder, binary):
    """What the recorded calls take in a site, and so a day of them."""
    document, site = os.path.join(folder, "recorded.json"), os.path.join(folder, "recorded.cadf")
    run_apart([FROM_OPENSTACK, "--log", LOG, "--set-aside", document + ".aside", RECORDED], document, (0, 1))
    run_apart([binary, "join", document], site)
    with open(document, encoding="utf-8") as file:
        text = file.read()
    calls = (text.count('"outcome":"pending"') + text.count('"outcome": "pending"')) or 1
    each = os.path.getsize(site) // calls
    print("a recorded call of a service takes %d bytes in a site (%d calls)" % (each, calls))
    for rate in (0.1, 1, 10, 100):
        day = each * rate * 86400
        windows = {"month": 31 * day, "day": day, "hour": day / 24}
        print("%5s calls a second: %8.1f MB a day, %6.1f GB a year; a window of a %s" % (rate, day / MB, 365 * day / 10 ** 9, ", ".join(
            "%s %.1f MB" % (unit, size / MB) for unit, size in windows.items())))


def main():
    options = asked(__doc__, sizes="10,100", runs=3, takes=343, year=False)
    os.environ["CADF"] = options.binary
    with tempfile.TemporaryDirectory(dir=".") as folder:
        tell_disk(folder, options.binary)
        measure_growth(folder, options.takes)
        for size in map(int, options.sizes.split(",")):
            measure_sites(folder, size, options.runs)
        if options.year:
            measure_year(folder, options.binary)


if __name__ == "__main__":
    main()
