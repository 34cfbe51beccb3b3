"""Joins 1,000 documents by examples/join-many.py, of which one worker is killed midway: the same bytes as one take."""
import json
import os
import random
import re
import signal
import subprocess
import sys
import time

import pytest

from tests import TOP

EXAMPLE = os.path.join(TOP, "examples", "join-many.py")
PYTHONS = [sys.executable, "/usr/bin/python3"]  # the second is where Debian's packages are
SECONDS = 300  # for a machine that does other work too; 5 are enough on an idle one
DOCUMENTS, MONTHS = 1000, ("2024-01", "2024-02", "2024-03")


def events(chance, number):
    """The events of a document: its own, and some that others tell too, with a relay's step."""
    for own in ("%d-own" % number, "shared-%d" % chance.randrange(300)):
        when = MONTHS[sum(map(ord, own)) % 3]
        yield {"id": own, "eventType": "activity", "eventTime": when + "-15T12:00:00Z", "action": "read",
               "outcome": "success", "initiatorId": "u", "targetId": "t", "observerId": "o",
               "reporterchain": [{"role": "relay", "reporterId": "r%d" % chance.randrange(3)}]}


def write(name, log, told):
    with open(name, "w", encoding="utf-8") as file:
        json.dump({"id": log, "events": told}, file)
    return name


def workers(parent):
    """The processes that a process has spawned to work, and not one that only keeps track."""
    found = subprocess.run(["ps", "-eo", "pid=,ppid=,args="], capture_output=True, check=True).stdout.decode().splitlines()
    table = [line.split(None, 2) for line in found]
    return [int(pid) for pid, above, words in table if int(above) == parent and "spawn_main" in words]


def killed(process, out):
    """Kills a worker once some of the work is done."""
    while process.poll() is None:
        if sum(len(folders) for _, folders, _ in os.walk(out)) >= 9:
            os.kill(workers(process.pid)[-1], signal.SIGKILL)
            return True
        time.sleep(0.01)
    return False


def python_with_dask():
    """A Python that has dask.distributed; without one the test is skipped."""
    for python in PYTHONS:
        if subprocess.run([python, "-c", "import distributed"], capture_output=True).returncode == 0:
            return python
    return pytest.skip("distributed isn't there (Debian: python3-distributed)")


def environment(cadf):
    return dict(os.environ, CADF=cadf, PATH=os.path.join(TOP, "tools") + os.pathsep + os.environ["PATH"])


def settled(cadf, folder, names):
    """The files of the site that one take makes of these files, and settles."""
    take = os.path.join(TOP, "tools", "cadf-take")
    for words in (["--by", "month", str(folder) + "/", *names], ["--settle", str(folder) + "/"]):
        subprocess.run([take, *words], env=environment(cadf), check=True)
    return contents(folder)


def contents(folder):
    return {name: (folder / name).read_bytes() for name in os.listdir(folder) if not name.startswith(".")}


@pytest.mark.needs("ps")
def test_killed_worker(cadf, tmp_path):
    """Several workers join the documents, and one of them is killed: the site is that of one take."""
    python, chance, out = python_with_dask(), random.Random(8), tmp_path / "out"
    out.mkdir()
    names = [write(tmp_path / ("%d.json" % number), "g", list(events(chance, number))) for number in range(DOCUMENTS)]
    process = subprocess.Popen([python, EXAMPLE, "--workers", "2", "--by", "month", "--out", out / "site", *names],
                               env=environment(cadf), stdout=subprocess.DEVNULL, stderr=subprocess.PIPE)
    was_killed = killed(process, out)
    said = process.communicate(timeout=SECONDS)[1].decode()
    assert process.returncode == 0 and was_killed, said
    assert os.listdir(out) == ["site"]
    assert contents(out / "site") == settled(cadf, tmp_path / "one", names)


@pytest.mark.parametrize("scheduler, log, said", [("tcp://127.0.0.1:9", "g", "127.0.0.1:9"), (None, "h", "other log")])
def test_a_fault_is_a_line_and_leaves_nothing(cadf, tmp_path, scheduler, log, said):
    python, chance, out = python_with_dask(), random.Random(8), tmp_path / "out"
    out.mkdir()
    names = [write(tmp_path / "1.json", "g", list(events(chance, 1))), write(tmp_path / "2.json", log, list(events(chance, 2)))]
    words = ["--scheduler", scheduler] if scheduler else ["--workers", "1", "--fan", "1"]
    done = subprocess.run([python, EXAMPLE, *words, "--out", out / "site", *names], env=environment(cadf), capture_output=True, timeout=SECONDS)
    lines = [line for line in done.stderr.decode().splitlines() if not re.match(r"(files|joins).*: \d+ of \d+", line)]
    assert done.returncode == 1 and len(lines) == 1 and said in lines[0], done
    assert os.listdir(out) == []
