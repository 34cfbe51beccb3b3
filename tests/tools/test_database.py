"""cadf-events --format sqlite: its tables beside the lines of the same question, what it replaces, and what is left of a call that ends early."""
import contextlib
import json
import os
import random
import resource
import sqlite3

import pytest

from tests import TOP
from tests.machine import ended
from tests.reference.times import time_of
from tests.tools.asked import facts, question
from tests.tools.copies import copied
from tests.tools.test_events import folder_of

TOOLS = os.path.join(TOP, "tools")
ROLES = ("initiator", "target", "observer")
OLD = b"what was there"


def run(cadf, path, *words, tools=TOOLS, **options):
    return ended(os.path.join(tools, "cadf-events"), list(words), env=dict(os.environ, CADF=cadf, XDG_CACHE_HOME=str(path / "cache")), cwd=path, **options)


def tables(path):
    with contextlib.closing(sqlite3.connect(path)) as connection:
        assert connection.execute("PRAGMA integrity_check").fetchall() == [("ok",)]
        return [connection.execute("SELECT * FROM " + name).fetchall() for name in ("events", "contradicted", "chains")]


def party(holder, role):
    """The identifier and the name of what has a role."""
    found = holder.get(role) if isinstance(holder.get(role), dict) else {}
    name = found.get("name")
    return found.get("id", holder.get(role + "Id")), name if name and isinstance(name, str) else None


def rows(lines):
    """What the tables have to have, of lines of JSON in which bodies that contradict are marked."""
    events, contradicted, chains = [], [], []
    for number, line in enumerate(lines, 1):
        value = json.loads(line)
        own, bodies = (value["event"], value["contradicted"]) if "contradicted" in value else (value, 1)
        ids, names = zip(*(party(own, role) for role in ROLES))
        epoch = time_of("1970-01-01T00:00:00Z").instant
        row = [number, own["id"], own["eventTime"], (time_of(own["eventTime"]).instant - epoch) // 10 ** 9, own["eventType"], own["action"], own["outcome"], *ids, *names, bodies]
        (contradicted if bodies > 1 else events).append((*row, own))
        for chain, steps in enumerate(own["reporterchains"] if "reporterchains" in own else [own.get("reporterchain", [])], 1):
            chains += [(number, chain, place, step.get("role"), *party(step, "reporter"), step.get("reporterTime")) for place, step in enumerate(steps, 1)]
    return [events, contradicted, chains]


def differs(cadf, path, seed, tools=TOOLS):
    """The first question whose tables aren't those of its lines."""
    chance = random.Random(seed)
    atoms = facts(chance)
    folder_of(path / "site", atoms, "day", chance)
    for words in [["--contradicted", "mark"], *([word for pair in question(chance, atoms) for word in pair if word is not None] for _ in range(6))]:
        lines = run(cadf, path, *words, "--contradicted", "mark", "site", tools=TOOLS)
        made = run(cadf, path, *words, "--format", "sqlite=out.db", "site", tools=tools)
        assert lines.status == made.status in (0, 5) and made.output == b"" and made.error == lines.error
        found = tables(path / "out.db")
        if [[(*row[:-1], json.loads(row[-1])) for row in own] for own in found[:2]] + found[2:] != rows(lines.output.splitlines()):
            return words
    return None


@pytest.mark.parametrize("seed", range(2))
def test_tables_have_the_lines(cadf, tmp_path, seed):
    assert differs(cadf, tmp_path, seed) is None


@pytest.mark.parametrize("right, wrong", [("TABLES[bool(bodies)]", "TABLES[0]"), ('event.get("reporterchains") or [event', "[event"), ("- EPOCH) // SECOND", ") // SECOND")])
def test_wrong_tables_are_caught(cadf, tmp_path, right, wrong):
    assert differs(cadf, tmp_path, 0, copied(tmp_path / "copy", right, wrong)) is not None


# ---- What it replaces

def put(path, kind):
    if kind == "text":
        path.write_bytes(OLD)
    elif kind == "empty":
        path.touch()
    elif kind == "folder":
        path.mkdir()
    elif kind == "link":
        (path.parent / "own").write_bytes(OLD)
        path.symlink_to("own")
    elif kind == "fifo":
        os.mkfifo(path)
    else:
        with contextlib.closing(sqlite3.connect(path)) as connection:
            connection.execute("CREATE TABLE own (text)")


@pytest.mark.parametrize("kind", ["text", "empty", "folder", "link", "fifo", "database", "index"])
def test_nothing_else_is_replaced(cadf, tmp_path, kind):
    """What is no file of this format is left as it is, and so is an index."""
    folder_of(tmp_path / "site", facts(random.Random(0)), "day", random.Random(0))
    assert run(cadf, tmp_path, "--failed", "site").status in (0, 5)
    path = tmp_path / "site" / ".index" if kind == "index" else tmp_path / "out.db"
    if kind != "index":
        put(path, kind)
    before, names = path.is_file() and path.read_bytes(), sorted(os.listdir(path.parent))
    done = run(cadf, tmp_path, "--format", "sqlite=" + str(path), "site")
    assert done.status == 1 and done.output == b"" and b"it is left as it is" in done.error and len(done.error.splitlines()) == 1
    assert (path.is_file() and path.read_bytes()) == before and sorted(os.listdir(path.parent)) == names


@pytest.mark.parametrize("bytes_written", [100, 40000])
def test_a_full_disk_leaves_the_old_one(cadf, tmp_path, bytes_written):
    folder_of(tmp_path / "site", facts(random.Random(0)), "day", random.Random(0))
    words = ["--no-index", "--format", "sqlite=out.db", "site"]
    assert run(cadf, tmp_path, *words).status in (0, 5)
    before, names = (tmp_path / "out.db").read_bytes(), sorted(os.listdir(tmp_path))
    done = run(cadf, tmp_path, *words, preexec_fn=lambda: resource.setrlimit(resource.RLIMIT_FSIZE, (bytes_written, bytes_written)))
    assert done.status == 3 and len(done.error.splitlines()) == 1 and b"Traceback" not in done.error
    assert (tmp_path / "out.db").read_bytes() == before and sorted(os.listdir(tmp_path)) == names


@pytest.mark.parametrize("words", [["--count-by", "day", "--format", "sqlite=o.db"], ["--format", "sqlite="], ["--format", "sqlite"], ["--bulk", "i", "--format", "sqlite=o.db"]])
def test_refused_words(cadf, tmp_path, words):
    done = run(cadf, tmp_path, *words, "site")
    assert done.status == 2 and done.output == b"" and not os.listdir(tmp_path)
