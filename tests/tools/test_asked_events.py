"""cadf-events: what is asked of files and of folders, with an index and without, beside plain Python over what a log shows."""
import collections
import csv
import hashlib
import io
import json
import os
import random
import subprocess
import threading

import pytest

from tests import TOP
from tests.machine import ended
from tests.reference.events import document
from tests.reference.json_text import spelled
from tests.reference.replica_files import file_of
from tests.reference.times import time_of
from tests.tools.asked import LOG, answers, facts, question, shown, words
from tests.tools.copies import copied
from tests.tools.odd_logs import EVENT
from tests.tools.programs import tool
from tests.tools.test_events import folder_of

TOOLS = os.path.join(TOP, "tools")
OPEN = "`cadf-conflicts` lists them\n"
KINDS = ("action", "outcome", "type", "initiator", "target", "observer", "hour", "day")


@pytest.fixture(autouse=True)
def cache(monkeypatch, tmp_path):
    """No index of the caller's own is made elsewhere."""
    monkeypatch.setenv("XDG_CACHE_HOME", str(tmp_path / "cache"))


def ask(cadf, *more, tools=TOOLS, **options):
    return ended(os.path.join(tools, "cadf-events"), list(map(str, more)), env=dict(os.environ, CADF=str(cadf)), **options)


def wanted(atoms, options, way):
    """What is found, in order: lines, each with its event and whether it is of a body that contradicts; and how many keys are open."""
    log, contradicted = shown(atoms)
    found = [(each, 0) for each in log if answers(options, each)] if way != "only" else []
    bodies = [(each, count) for count, each in contradicted if answers(options, each)]
    found = sorted(found + (bodies if way != "hide" else []), key=lambda item: (time_of(item[0]["eventTime"]).instant, item[0]["id"], spelled(item[0]).encode()))
    lines = [('{"contradicted":%d,"event":%s}\n' % (count, spelled(each)) if count else spelled(each) + "\n", each, count) for each, count in found]
    return lines, len({each["id"] for each, _ in bodies})


def differs(cadf, folder, seed, tools=TOOLS, asked=6):
    """The first question of which an answer isn't what it has to be, or None."""
    chance = random.Random(seed)
    atoms = facts(chance, 40)
    (folder / "file").write_bytes(file_of(LOG, atoms))
    site = folder_of(folder / "site", atoms, ("month", "day", "hour")[seed % 3], chance)
    for number in range(asked):
        options, way = question(chance, atoms), chance.choice(["mark", "mark", "only", "hide"])
        lines, is_open = wanted(atoms, options, way)
        more = ["--contradicted", way, *words(options)]
        if chance.random() < 0.3:
            more, lines = [*more, "--reverse"], lines[::-1]
        by = chance.choice(KINDS) if number % 3 == 2 else None
        for each in [site], [site, "--no-index"], [folder / "file"]:
            if by:
                answer = ask(cadf, *more, "--count-by", by, *each, tools=tools)
                is_right = counts_in(answer.output, by) == counts_of(lines, by)
            else:
                answer = ask(cadf, *more, "--format", "jsonl", *each, tools=tools)
                is_right = answer.output.decode() == "".join(line for line, _, _ in lines)
            if not is_right or answer.status != (5 if is_open else 0) or answer.error.decode().count(": %d; %s" % (is_open, OPEN)) != bool(is_open):
                return more, by, each, lines, answer
    return None


def first_of(each, role):
    return each[role]["id"] if role in each else each[role + "Id"]


def counts_of(lines, by):
    """How many events and bodies there are of each kind."""
    found = collections.Counter()
    for _, each, count in lines:
        at = time_of(each["eventTime"]).instant // 10 ** 9
        value = at // (3600 if by == "hour" else 86400) if by in ("hour", "day") else each["eventType" if by == "type" else by] if by in (
            "action", "outcome", "type") else first_of(each, by)
        found[value, bool(count)] += 1
    return found


def counts_in(output, by):
    found = collections.Counter()
    for line in output.decode().splitlines():
        value = json.loads(line)
        kind = value[by]
        if by in ("hour", "day"):
            years = -400 if kind > "9998" else 400  # no event has a time of the year 0 or 9999, and the calendar begins anew
            at = time_of("%04d%s" % (int(kind[:4]) + years, kind[4:])).instant // 10 ** 9 - years // 400 * 146097 * 86400
            kind = at // (3600 if by == "hour" else 86400)
        found[kind, False] += value["count"]
        found[kind, True] += value.get("contradicted", 0)
    return +found


@pytest.mark.parametrize("seed", range(4))
def test_each_site_gives_the_same_answer(cadf, tmp_path, seed):
    assert differs(cadf, tmp_path, seed) is None
    assert sorted(name for name in os.listdir(tmp_path / "site") if not name.endswith(".cadf")) == [".index", "site"]


def miscounts(cadf, folder, seed, tools=TOOLS):
    """The first call that says of its first lines another number of open keys than those that it has passed; or None."""
    chance = random.Random(seed)
    atoms = facts(chance, 40)
    (folder / "file").write_bytes(file_of(LOG, atoms))
    site = folder_of(folder / "site", atoms, ("month", "day", "hour")[seed % 3], chance)
    for way in "mark", "hide", "only":
        most, order = chance.randrange(1, 8), chance.choice([[], ["--reverse"]])
        passed, written = set(), []
        every = wanted(atoms, [], "only" if way == "only" else "mark")[0]
        for line, each, count in every[::-1] if order else every:
            passed |= {each["id"]} if count else set()
            written += [] if count and way == "hide" else [line]
            if len(written) == most:
                break
        for each in [site], [site, "--no-index"], [folder / "file"]:
            answer = ask(cadf, "--contradicted", way, "-n", most, *order, "--format", "jsonl", *each, tools=tools)
            is_right = answer.output.decode() == "".join(written) and answer.status == (5 if passed else 0)
            if not is_right or answer.error.decode().count(": %d; %s" % (len(passed), OPEN)) != bool(passed):
                return way, most, order, each, answer, len(passed)
    return None


@pytest.mark.parametrize("seed", range(3))
def test_the_first_lines_count_what_they_pass(cadf, tmp_path, seed):
    """With -n the number of open keys is of those up to the last line, whatever else was read."""
    assert miscounts(cadf, tmp_path, seed) is None


@pytest.mark.parametrize("right, wrong", [("self.open += is_first", "self.open += bool(bodies)"), ("sorted(answering, reverse=self.is_reversed)", "sorted(answering)")])
def test_wrong_counts_are_caught(cadf, tmp_path, right, wrong):
    tools = copied(tmp_path / "copy", right, wrong)
    for seed in range(8):
        (tmp_path / str(seed)).mkdir()
        if miscounts(cadf, tmp_path / str(seed), seed, tools):
            return
    raise AssertionError("not caught")


@pytest.mark.parametrize("right, wrong", [
    ("{key: places[key] for key in keys & places.keys()}", "{}"), ("if key in self.apart}", "if key not in self.apart}"),
    ("not self.open.isdisjoint(parts)", "False"), ("self.ruled_in.setdefault(*parts, []).append(key)", "pass"), ('"ruled" not in conflict and ', ""),
    ("rulings = windows.ruled_of(windows.common)", "rulings = []"), ("several |= own", "several |= keys_of(keys or b'')"),
    ("windows.facts), reverse=self.is_reversed)", "windows.facts))"), ("if self.counts is not None:", "if False:"),
    ("self.question.has(value, each[2])", "True"), ("((OF_SEVERAL, counts.subtract),)", "()"),
    ("set().union(ruled_in(folder), *shown.values())", "set()"), ("of_several = {part: keys & apart for part, keys in of_several.items()}", "pass"),
])
def test_wrong_versions_are_caught(cadf, tmp_path, right, wrong):
    tools = copied(tmp_path / "copy", right, wrong)
    for seed in range(8):
        (tmp_path / str(seed)).mkdir()
        if differs(cadf, tmp_path / str(seed), seed, tools):
            return
    raise AssertionError("not caught")


# ---- What it costs

@pytest.fixture
def counted(cadf, tmp_path):
    """A command that notes its calls, and how many files each is given."""
    path = tmp_path / "counted"
    path.write_text('#!/bin/sh\necho "$1 $#" >>"%s/calls"\nexec "%s" "$@"\n' % (tmp_path, cadf))
    path.chmod(0o755)

    def calls():
        found = (tmp_path / "calls").read_text().split("\n")[:-1] if (tmp_path / "calls").exists() else []
        (tmp_path / "calls").unlink(missing_ok=True)
        return found

    return path, calls


def days(count, **more):
    """An event a day, by one of two people, and one with two bodies of two days."""
    return [dict(EVENT, id="e%02d" % day, eventTime="2024-03-%02dT12:00:00Z" % day, initiatorId="alice" if day % 7 == 0 else "bob", **more) for day in range(1, count + 1)] + [
        dict(EVENT, id="both", eventTime="2024-03-%02dT13:00:00Z" % day, initiatorId="carol") for day in (2, 3)]


@pytest.mark.parametrize("more, windows, programs", [
    (["--initiator", "alice"], (7, 14, 21, 28), 1),
    (["--initiator", "alice", "--since", "2024-03-08", "--until", "2024-03-15"], (14,), 1),
    (["--id", "e09"], (9,), 1),
    (["--id", "nobody"], (), 0),
    (["--since", "2024-03-10", "--until", "2024-03-11"], (10,), 1),
    (["--initiator", "carol"], (2, 3), 3),
    (["--contradicted", "only"], (2, 3), 2),
    (["--count-by", "day", "--initiator", "bob"], (), 0),
    (["--count-by", "action"], (), 0),
    (["--count-by", "day", "--contradicted", "only"], (), 0),
    (["-n", "2", "--since", "2024-03-05"], (5, 6, 7), 3),
    (["-n", "2", "--reverse"], (28, 29, 30, 2, 3), 5),
])
def test_only_what_may_answer_is_read(counted, tmp_path, more, windows, programs):
    """Once there is an index, files of other windows may even be damaged; and so many programs are started."""
    cadf, calls = counted
    folder = folder_of(tmp_path / "site", document({"id": LOG, "events": days(30)})[1], "day", random.Random(0))
    right = ask(cadf, "--no-index", *more, folder)
    ask(cadf, folder)
    for name in os.listdir(folder):
        if name.startswith("2024") and int(name[8:10]) not in windows:
            os.truncate(folder + name, 0)
    calls()
    assert ask(cadf, *more, folder) == right and right.status in (0, 5) and b"Traceback" not in right.error
    assert len(calls()) <= programs
    assert ask(cadf, "--no-index", *more, folder).status in (1, 5) or len(windows) == 30


@pytest.mark.parametrize("way, found", [
    ("mark", [{"count": 1, "initiator": "bob"}, {"contradicted": 2, "count": 0, "initiator": "carol"}]), ("hide", [{"count": 1, "initiator": "bob"}]),
    ("only", [{"contradicted": 2, "count": 0, "initiator": "carol"}])])
def test_what_an_index_counts(counted, tmp_path, way, found):
    """Events and bodies that contradict are counted without a look at the files; of a key that is ruled on the event that the log shows."""
    cadf, calls = counted
    atoms = document({"id": LOG, "events": days(1)})[1]
    folder = folder_of(tmp_path / "site", atoms, "day", random.Random(0))
    answer = ask(cadf, "--count-by", "initiator", "--contradicted", way, folder)
    assert (list(map(json.loads, answer.output.splitlines())), answer.status, calls()) == (found, 5, [])
    body = next(each for each in sorted(atoms) if each[:2] == ("E", "both"))
    ruled = folder_of(tmp_path / "ruled", atoms | {("U", "E", "both", hashlib.sha256(body[2].encode()).hexdigest())}, "day", random.Random(0))
    answer = ask(cadf, "--count-by", "initiator", "--contradicted", way, ruled)
    one = [{"count": 1, "initiator": each} for each in ("bob", "carol")] if way != "only" else []
    assert (list(map(json.loads, answer.output.splitlines())), answer.status) == (one, 0) and calls()


def test_lines_are_written_as_they_are_found(cadf, tmp_path):
    """A line is there before the windows after it are shown."""
    folder = folder_of(tmp_path / "site", document({"id": LOG, "events": days(3)[:3]})[1], "day", random.Random(0))
    waiting = tmp_path / "waiting"
    waiting.write_text('#!/bin/sh\nfor word; do case "$word" in /dev/fd/*) grep -q e02 "$word" && read line <"%s/go";; esac; done\nexec "%s" "$@"\n' % (tmp_path, cadf))
    waiting.chmod(0o755)
    os.mkfifo(tmp_path / "go")
    ask(cadf, folder)
    child = subprocess.Popen([tool("cadf-events"), folder], stdout=subprocess.PIPE, env=dict(os.environ, CADF=str(waiting)))
    assert json.loads(child.stdout.readline())["id"] == "e01"
    (tmp_path / "go").write_text("go\n")
    assert [json.loads(line)["id"] for line in child.communicate(timeout=60)[0].splitlines()] == ["e02", "e03"]


def test_while_takes_go_on(cadf, tmp_path):
    """Each answer has all of a take or nothing, while windows get files and lose them by joining."""
    site, done = str(tmp_path / "site") + "/", threading.Event()

    def take():
        for number in range(25):
            pair = [dict(EVENT, id="%s%02d" % (day, number), eventTime="2024-03-%sT00:00:00Z" % day) for day in ("01", "02")]
            (tmp_path / "new.json").write_text(json.dumps({"id": "g", "events": pair}))
            subprocess.run([tool("cadf-take"), "--by", "day", site, tmp_path / "new.json"], check=True, env=dict(os.environ, CADF=cadf))
        done.set()

    taking, counts = threading.Thread(target=take), set()
    taking.start()
    while not done.is_set() or not counts:
        answer = ask(cadf, "--action", "read", site)
        if b"no site" in answer.error or b"No such file" in answer.error:
            continue
        names = [json.loads(line)["id"] for line in answer.output.splitlines()]
        first, second = ([name[2:] for name in names if name.startswith(day)] for day in ("01", "02"))
        assert (answer.status, answer.error) == (0, b"") and first == second, answer
        counts.add(len(names))
    taking.join()
    assert len(ask(cadf, "--id", "01*", site).output.splitlines()) == 25 and len(counts) > 1


# ---- Forms and words

def test_forms(cadf, tmp_path):
    """CSV is read again by a reader of CSV; a field that a spreadsheet would run begins with a mark, which is told. A table can be printed."""
    events = [dict(EVENT, id="=1+1", eventTime="2024-03-01T00:00:00Z", action='a,"b"', initiatorId="@x", targetId="\u202ex"),
              dict({**EVENT, "target": {"id": "-", "name": "t\u0085"}}, id="e", eventTime="2024-03-02T00:00:00Z", targetId="t")]
    (tmp_path / "file").write_bytes(file_of(LOG, document({"id": LOG, "events": events})[1]))
    answer = ask(cadf, "--format", "csv", tmp_path / "file")
    head, first, second = csv.reader(io.StringIO(answer.output.decode()))
    first, second = dict(zip(head, first)), dict(zip(head, second))
    assert (first["id"], first["action"], first["initiator"], first["target"], first["contradicted"]) == ("'=1+1", 'a,"b"', "'@x", "\u202ex", "")
    assert (second["target"], second["targetName"], second["observer"]) == ("'-", "t\u0085", "s1")
    assert answer.error == b"cadf-events: fields that a spreadsheet would run: 3; each has a ' before it\n"
    answer = ask(cadf, "--format", "table", tmp_path / "file")
    assert answer.output.decode().splitlines()[0].split() == ["TIME", "OUTCOME", "ACTION", "INITIATOR", "TARGET", "ID"]
    assert all(line.isprintable() and line for line in answer.output.decode().split("\n")[:-1]) and len(answer.output.splitlines()) == 3


@pytest.mark.parametrize("more", [["--bulk", "x", "--format", "csv"], ["--bulk", "x", "--contradicted", "mark"], ["--bulk", "x", "--count-by", "day"],
                                  ["--late", "5"], ["--match", "a=1"], ["--since", "never"], ["--count-by", "via"], ["-n", "0"], ["--since", "-999999w"]])
def test_refused_words(more):
    answer = ask("/", *more, "site")
    assert answer.status == 2 and b"error: " in answer.error and b"Traceback" not in answer.error


def test_a_time_before_now(cadf, tmp_path):
    (tmp_path / "file").write_bytes(file_of(LOG, document({"id": LOG, "events": days(2)})[1]))
    assert ask(cadf, "--since", "-7d", tmp_path / "file") == (0, b"", b"")
    assert len(ask(cadf, "--until", "-7d", tmp_path / "file").output.splitlines()) == 2


@pytest.mark.parametrize("more, way", [([], "hide"), (["--since", "2024-03-01"], "hide"), (["--action", "read"], "mark"), (["--grep", "both"], "mark"), (["--bulk", "i", "--id", "both"], "hide")])
def test_nobody_hides_an_event_by_contradicting_it(cadf, tmp_path, more, way):
    """Where something is asked of events, each body of an open key that answers is among the answers; else the lines are the log's alone."""
    folder = folder_of(tmp_path / "site", document({"id": LOG, "events": days(4)})[1], "day", random.Random(0))
    answer = ask(cadf, *more, folder)
    assert answer.status == 5 and answer.output.count(b'{"contradicted":2,"event":{') == (2 if way == "mark" else 0)
    assert answer.error.decode().startswith("cadf-events: " + ("marked the bodies of events that contradict: 1" if way == "mark" else "left out events whose bodies contradict: 1"))
