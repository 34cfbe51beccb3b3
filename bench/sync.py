#!/usr/bin/env python3
"""Counts the bytes by which two sites that are folders become equal: by cadf-sync, and by rsync and rdiff of what changed.

    bench/sync.py [BINARY]

Two folders have 365 windows of a day and 100,000 facts, and differ in 100 facts of one day, 50 at each side. cadf-sync runs
over a pipe on this machine, and its bytes are those that it read and wrote. rsync copies one folder over the other, whose files
have other times, by `--delete --no-whole-file`, through a pipe too: it makes a copy, not the union, and does so one way. rdiff
does the same with the one file that changed. Those that are not there are left out (Debian: rsync, rdiff).
"""
import datetime
import glob
import json
import os
import re
import shutil
import subprocess
import tempfile

from measure import TOP, asked, rdiff, run_apart, spelled, write_replica

FACTS, DAYS, DIFFERING, DAY = 100000, 365, 50, 124  # those that differ are of this day, and so many at each side
EVENT = {"eventType": "activity", "action": "read", "outcome": "success", "initiatorId": "u1", "targetId": "t1", "observerId": "s1"}


def day_of(key):
    return str(datetime.date(2023, 1, 1) + datetime.timedelta(days=key % DAYS))


def fact(key):
    return "E", "e%06d" % key, spelled(dict(EVENT, eventTime=day_of(key) + "T12:00:00Z"))


def synced(cadf, here, there):
    """The bytes to the far side and from it."""
    words = [os.path.join(TOP, "tools", "cadf-sync"), "--json", here, there]
    told = json.loads(subprocess.check_output(words, env=dict(os.environ, CADF=cadf)))
    return told["bytes_sent"], told["bytes_received"]


def copied(here, there):
    """The bytes that rsync says it sent and received."""
    words = ["rsync", "-a", "--delete", "--no-whole-file", "--stats", here + "/", there + "/"]
    said = subprocess.check_output(words, text=True)
    return [int(re.search("Total bytes %s: ([0-9,]+)" % way, said)[1].replace(",", "")) for way in ("sent", "received")]


def main():
    cadf, facts = asked(__doc__).binary, list(map(fact, range(FACTS)))
    with tempfile.TemporaryDirectory() as folder:
        here, there = (os.path.join(folder, name) for name in ("here", "there"))
        for side, begin in ((here, 0), (there, DIFFERING)):
            lacked = {facts[DAY + DAYS * number] for number in range(begin, begin + DIFFERING)}
            write_replica(side + ".cadf", "g", [atom for atom in facts if atom not in lacked])
            run_apart([os.path.join(TOP, "tools", "cadf-take"), "--by", "day", side, side + ".cadf"], environment=dict(os.environ, CADF=cadf))
            shutil.copytree(side, side + ".copy")
        for path in glob.glob(there + ".copy/*"):
            os.utime(path, (0, 0))
        for one, other in ((here, there), (there, here)):
            run_apart([cadf, "missing", one + ".cadf", other + ".cadf"], one + ".lacked")
        windows = [glob.glob("%s/%s.*" % (side, day_of(DAY)))[0] for side in (here + ".copy", there + ".copy")]
        print("the facts that both lack: %d bytes" % sum(os.path.getsize(side + ".lacked") for side in (here, there)))
        if shutil.which("rdiff"):
            print("rdiff of the window, one way: signature %d, delta %d" % tuple(rdiff(*windows)))
        for ways in ("both ways", "again"):
            print("cadf-sync, %s: %d sent, %d received" % (ways, *synced(cadf, here, there)))
        for ways in ("one way", "again") if shutil.which("rsync") else ():
            print("rsync, %s: %d sent, %d received" % (ways, *copied(here + ".copy", there + ".copy")))


if __name__ == "__main__":
    main()
