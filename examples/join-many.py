#!/usr/bin/env python3
"""Joins thousands of log documents into a new site that is a folder, on many processors or machines at once.

    examples/join-many.py [--scheduler ADDRESS | --workers 4] [--fan 32] [--by day] [--log ID] --out SITE FILE..

Needs dask.distributed (Debian: python3-distributed). With --scheduler the work is done by the workers of that cluster, which
all have cadf and see the same folders; else by --workers processes of this machine. FILEs are what `cadf-take` takes.
SITE gets the windows of that unit, `month`, `day` or `hour`, and is settled: the same files as by one call of `cadf-take`.

First each worker takes some files at a time into a folder of its own. Then the files of a window are joined, --fan at a
time, until one is left, or more where one would have above 2^30 bytes. Any worker may die, and what it did may be done again
or twice: each file has one name and is put there whole, and a join repeated changes nothing. The order and the grouping
don't matter either. All of that is in a folder beside SITE, which goes at the end, and is renamed to SITE if all went well.
CADF names the command, if it isn't `cadf`.
"""
import argparse
import asyncio
import collections
import hashlib
import logging
import os
import re
import shutil
import subprocess
import sys
import tempfile

LARGEST = 2 ** 30  # bytes that cadf reads of a file
WINDOW_FILE = re.compile(r"(shared|\d{4}-[\d-]+(?:T\d\d)?)\.[0-9a-f]{64}\.cadf")


def run(words, output=subprocess.DEVNULL):
    """Runs a program. Raises what it says if it fails."""
    done = subprocess.run(words, stdin=subprocess.DEVNULL, stdout=output, stderr=subprocess.PIPE)
    if done.returncode:
        raise ValueError(done.stderr.decode("utf-8", "backslashreplace").strip() or "%s ended with %d" % (words[0], done.returncode))


def take(words, names, folder):
    """Takes files into a folder of windows. Returns the line of its log, and its files by their windows."""
    run([*words, folder + "/", *names])
    found = [(WINDOW_FILE.fullmatch(name), os.path.join(folder, name)) for name in os.listdir(folder)]
    with open(os.path.join(folder, "site"), "rb") as site:
        return site.readlines()[1], {match[1]: path for match, path in found if match}


def join(cadf, names, target):
    """Joins files into the target, which is put there whole. Returns its name."""
    with tempfile.NamedTemporaryFile(dir=os.path.dirname(target), delete=False) as output:
        run([cadf, "join", "--", *names], output)
        os.replace(output.name, target)
    return target


def groups(names, fan):
    """Yields names in groups of at most so many, and of so many bytes that cadf reads what is made of them."""
    group, size = [], 0
    for name in sorted(names, key=os.path.getsize):
        more = os.path.getsize(name)
        if group and (len(group) == fan or size + more > LARGEST):
            yield group
            group, size = [], 0
        group.append(name)
        size += more
    yield group


def done(client, what, calls):
    """The results of calls, in their order. Says how many are there."""
    from distributed import as_completed
    futures = [client.submit(*call, pure=False) for call in calls]
    for number, _ in enumerate(as_completed(futures), 1):
        end = "\r" if number < len(calls) and sys.stderr.isatty() else "\n"
        if number == len(calls) or sys.stderr.isatty():
            print("%s: %d of %d" % (what, number, len(calls)), end=end, file=sys.stderr, flush=True)
    return client.gather(futures)


def window_files(client, cadf, words, files, fan, folder):
    """The line of the log, and the files of each window, after they were joined as far as files go."""
    calls = [(take, words, group, os.path.join(folder, "take-%d" % number)) for number, group in enumerate(groups(files, fan))]
    logs, windows, level = set(), collections.defaultdict(list), 0
    for log, made in done(client, "files taken, in groups", calls):
        logs.add(log)
        for window, name in made.items():
            windows[window].append(name)
    if len(logs) > 1:
        raise ValueError("other log: %s" % " and ".join(sorted(log[2:-1].decode() for log in logs)))
    while True:
        level += 1
        work = [(window, group) for window, names in sorted(windows.items()) for group in groups(names, fan)]
        joins = [(window, group) for window, group in work if len(group) > 1]
        if not joins:
            return logs.pop(), windows
        calls = [(join, cadf, group, os.path.join(folder, "%s-%d-%d" % (window, level, number)))
                 for number, (window, group) in enumerate(joins)]
        made = iter(done(client, "joins, level %d" % level, calls))
        windows = collections.defaultdict(list)
        for window, group in work:
            windows[window].append(next(made) if len(group) > 1 else group[0])


def make_site(site, log, unit, windows):
    """Makes the folder of the windows' files, as the format of a site folder has it."""
    os.mkdir(site, 0o700)
    lines = []
    for window, names in windows.items():
        for name in names:
            with open(name, "rb") as file:
                os.fsync(file.fileno())
                file.seek(-65, os.SEEK_END)  # the digest on its last line
                digest = file.read(64).decode()
            os.rename(name, os.path.join(site, "%s.%s.cadf" % (window, digest)))
            lines.append((window != "shared", "F %s %s\n" % (window, digest)))
    data = b"CADF-SITE 1\n" + log + ("B %s\n" % unit + "".join(line for _, line in sorted(lines))).encode()
    with open(os.path.join(site, "site"), "xb") as file:
        file.write(data + b"Z %s\n" % hashlib.sha256(data).hexdigest().encode())
        file.flush()
        os.fsync(file.fileno())
    os.sync()


def main():
    parser = argparse.ArgumentParser(description=__doc__, formatter_class=argparse.RawDescriptionHelpFormatter)
    parser.add_argument("--scheduler", metavar="ADDRESS")
    parser.add_argument("--workers", type=int, default=4)
    parser.add_argument("--fan", type=int, default=32)
    parser.add_argument("--by", choices=("month", "day", "hour"), default="day")
    parser.add_argument("--log", metavar="ID")
    parser.add_argument("--out", required=True, metavar="SITE")
    parser.add_argument("files", nargs="+", metavar="FILE")
    options = parser.parse_args()
    import dask
    from distributed import Client
    dask.config.set({"distributed.comm.timeouts.connect": "5s"})  # for a dead worker that is still asked for a result
    logging.getLogger("distributed").setLevel(logging.CRITICAL)
    cadf, site = shutil.which(os.environ.get("CADF") or "cadf"), os.path.abspath(options.out)
    if cadf is None or shutil.which("cadf-take") is None:
        sys.exit("join-many: no cadf, or no cadf-take, in PATH")
    if os.path.lexists(site):
        sys.exit("join-many: %s: it is there already; `cadf-take` takes files into it" % options.out)
    words = ["cadf-take", "--by", options.by, "--windows", "999999", *(["--log", options.log] if options.log else [])]
    where = {"n_workers": options.workers, "threads_per_worker": 1, "dashboard_address": ":0", "silence_logs": logging.CRITICAL}
    try:
        with tempfile.TemporaryDirectory(prefix=os.path.basename(site) + ".", dir=os.path.dirname(site)) as folder, \
                Client(options.scheduler) if options.scheduler else Client(**where) as client:
            log, windows = window_files(client, cadf, words, list(map(os.path.abspath, options.files)), options.fan, folder)
            make_site(os.path.join(folder, "site"), log, options.by, windows)
            os.rename(os.path.join(folder, "site"), site)
    except (OSError, ValueError, asyncio.CancelledError, asyncio.TimeoutError) as fault:
        sys.exit("join-many: %s" % (str(fault) or "the scheduler is gone"))


if __name__ == "__main__":
    main()
