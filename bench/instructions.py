#!/usr/bin/env python3
"""Counts the instructions of `cadf`, of several builds of it if more are named.

    bench/instructions.py [--atoms 10000] [--only join,missing] [--profile] [BINARY ..]

BINARY is crates/cadf/out/cadf unless given. The inputs are those of bench/show.py (a log document of 10 MB) and of
bench/files.py (two replica files of so many atoms each that share half of them; `inventory` and `seal` read the first).
A line has the command, its input, and millions of instructions of each BINARY; then the ratios of the first to each
other one. With --profile it has, of the first BINARY, the crates (or libc) that take most, each with its share in
percent. Counts depend neither on other load nor on the processor's speed. They need valgrind; the script says so if it
is not there.
"""
import collections
import os
import re
import subprocess
import tempfile

from measure import WITHOUT_REPEATS, asked, can_count, instructions, run_apart, two_sites
from show import document

CASE = "%-10s %-9s"


def shares(command):
    """The crates and the share of the instructions that each takes, by callgrind."""
    with tempfile.NamedTemporaryFile() as profile:
        run_apart(["valgrind", "--tool=callgrind", "--callgrind-out-file=" + profile.name, *command], environment={**os.environ, **WITHOUT_REPEATS})
        told = subprocess.check_output(["callgrind_annotate", "--threshold=100", profile.name], text=True)
    found = collections.Counter()
    for count, where in re.findall(r"(?m)^ *([\d,]+) \([ \d.]+%\)  (?!PROGRAM)(\S+)", told):
        crate = re.match(r"\?\?\?:(\w+)::", where)
        found[crate[1] if crate else "libc"] += int(count.replace(",", ""))
    return ["%s %.0f" % (crate, 100 * count / found.total()) for crate, count in found.most_common(8)]


CASES = [("show", "10 MB", ("log.json",))] + [
    (command, "format %d" % version, tuple("%s.%d" % (name, version) for name in names)) for command, names in (
        ("join", ("first", "second")), ("missing", ("first", "second")), ("inventory", ("first",)), ("seal", ("first",)))
    for version in (1, 2)]


def main():
    options = asked(__doc__, atoms=10 ** 4, only=",".join(dict.fromkeys(command for command, _, _ in CASES)), profile=False, binaries=True)
    if not can_count():
        return
    more = len(options.binaries) - 1
    print(CASE % ("command", "input"), *["  millions"] * (1 + more), *[" ratio"] * more)
    with tempfile.TemporaryDirectory() as folder:
        document(os.path.join(folder, "log.json"), 10 ** 7, 1)
        two_sites(folder, options.atoms)
        for command, title, names in CASES:
            if command in options.only.split(","):
                paths = [os.path.join(folder, name) for name in names]
                if options.profile:
                    print(CASE % (command, title), ", ".join(shares([options.binary, command, *paths])), flush=True)
                    continue
                millions = [instructions([binary, command, *paths]) / 1e6 for binary in options.binaries]
                ratios = ["%6.3f" % (millions[0] / number) for number in millions[1:]]
                print(CASE % (command, title), *["%10.1f" % number for number in millions], *ratios, flush=True)


if __name__ == "__main__":
    main()
