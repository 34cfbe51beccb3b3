#!/usr/bin/env python3
"""Times `cadf rehearse` on a schedule of many turns, beside the second implementation in tests/reference/.

    bench/rehearse.py [--turns 2000] [--sites 16] [--runs 5] [BINARY]

Both must write the same bytes. What counts are the ratios of the least times in one run.
"""
import json
import os
import random
import sys
import tempfile

from inputs import short_event
from measure import TOP, asked, check_same_bytes, tell

from tests.generated.schedules import Schedule

SECOND = os.path.join(TOP, "tests", "reference", "cadf")


def script(turns, sites):
    """A schedule of so many turns between all sites, of a thousand events."""
    chance = random.Random(1)
    schedule = Schedule(chance, sites)
    schedule.busy = range(sites)
    schedule.documents = [{"id": "g", "events": [json.loads(short_event(chance.randrange(1000))) for _ in range(3)]} for _ in range(400)]
    while len(schedule.lines) < turns:
        schedule.turn()
    return b"".join(line + b"\n" for line in schedule.lines[:turns])


def main():
    options = asked(__doc__, turns=2000, sites=16, runs=5)
    with tempfile.TemporaryDirectory() as folder:
        path = os.path.join(folder, "script")
        with open(path, "wb") as file:
            file.write(script(options.turns, options.sites))
        words = ["rehearse", "g", str(options.sites), path]
        ours, theirs = [options.binary, *words], [sys.executable, SECOND, *words]
        check_same_bytes([ours, theirs])
        tell("{:,} turns, {} sites".format(options.turns, options.sites), {"`cadf rehearse`": ours}, {"Python": theirs}, options.runs)


if __name__ == "__main__":
    main()
