#!/usr/bin/env python3
"""Measures what it takes to prove commits: each is built, and then its gate's proofs run, from nothing and in turn.

    bench/proofs.py COMMIT [COMMIT ..]

Prints a row of a table in Markdown for each commit: the seconds of the clock and of all processors for
`build/command`, the same for `rt ci --anew`, and the ratios to the first commit's. Each call has a clone of its own, so
that nothing is kept from one to the next. On 4 processors a commit takes an hour; nothing else may run beside it. Where
the kit wasn't used since the machine started, the first build also reads it from the disk: build something before.
"""
import os
import subprocess
import sys
import tempfile
import time

from measure import TOP

# The program that builds the command, by its names.
BUILDS = ("build/command", "install/build")
# `rt ci` expects more memory than proofs take, and would leave processors idle.
ENVIRONMENT = {**os.environ, "RT_JOBS": str(len(os.sched_getaffinity(0)))}


def spent(command, folder):
    """The seconds of the clock and of all processors that the command takes. Exits if it fails."""
    began, before = time.monotonic(), os.times()
    with tempfile.TemporaryFile("w+") as said:
        status = subprocess.run(command, cwd=folder, env=ENVIRONMENT, stdin=subprocess.DEVNULL, stdout=said, stderr=subprocess.STDOUT, check=False).returncode
        if status:
            said.seek(0)
            sys.exit("%s\nstatus %d of %s in %s" % (said.read(), status, " ".join(command), folder))
    after = os.times()
    return time.monotonic() - began, after.children_user + after.children_system - before.children_user - before.children_system


def in_clone(commit, choose):
    """What a call takes in a clone of the commit, where `choose` names it."""
    with tempfile.TemporaryDirectory() as folder:
        subprocess.run(["git", "clone", "-q", "--no-checkout", TOP, folder], check=True)
        subprocess.run(["git", "checkout", "-q", "--detach", commit], cwd=folder, check=True)
        return spent(choose(folder), folder)


def build(folder):
    """The call that builds the command of a clone, on all processors."""
    return next([name] for name in (os.path.join(folder, name) for name in BUILDS) if os.path.exists(name))


def main():
    commits = sys.argv[1:]
    if not commits or commits[0].startswith("-"):
        sys.exit(__doc__)
    print("| Commit | Build: clock; processors | `rt ci`: clock; processors | Ratios |\n|---|---|---|---|", flush=True)
    first = None
    for commit in commits:
        taken = [*in_clone(commit, build), *in_clone(commit, lambda _: ["rt", "ci", "--anew"])]
        first = first or taken
        ratios = "; ".join("%.2f" % (now / then) for now, then in zip(taken, first))
        print("| %s | %.0f s; %.0f s | %.0f s; %.0f s | %s |" % (commit, *taken, ratios), flush=True)


if __name__ == "__main__":
    main()
