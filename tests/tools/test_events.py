"""cadf-events: the events of a range, from a file and from folders of every unit, beside what the second implementation shows."""
import hashlib
import json
import os
import random
import re

import pytest

from tests import TOP
from tests.machine import ended
from tests.reference.events import document
from tests.reference.json_text import read_canonical, spelled
from tests.reference.replica_files import file_of
from tests.reference.rulings import digest_of_value, ruled_value
from tests.reference.shown_texts import log_text, values_by_key
from tests.reference.split_files import in_order, parts_of
from tests.reference.times import time_of
from tests.tools.copies import copied
from tests.tools.test_report import Data

LOG = 'north "1" \u00e9'
EVENT = {"eventType": "activity", "action": "read", "outcome": "success", "initiatorId": "u1", "targetId": "t1", "observerId": "s1"}
TIMES = ["0001-01-01T00:00:00+14:00", "1969-12-31T23:59:59.5Z", "2024-02-29T23:59:59.999999999Z", "2024-03-01T00:30:00+01:00",
         "2024-03-01T00:00:00Z", "2024-03-01T12:00:00Z", "2024-03-02T01:00:00Z", "9998-12-31T23:59:59-14:00"]
RANGES = [(None, None), ("2024-03-01", "2024-03-02"), ("2024-03-01T00:00:00Z", None), (None, "2024-03-01T12:00:00Z"),
          ("2024-02-29T23:59:59.999999999Z", "2024-03-01T00:00:00Z"), (None, "0001-01-01"), ("2024-03-01T11:30", "2024-03-01T12:30")]
OPEN = "left out events whose bodies contradict: "


def instant(typed):
    """The instant of a bound: what is left out of a time is zero, and UTC."""
    text = typed if "T" in typed else typed + "T00:00:00"
    text += ":00" * (text.count(":") == 1)
    return time_of(text if text.endswith("Z") else text + "Z").instant


def facts(chance):
    """Events with few identifiers and times, so that bodies contradict within a window and across; and rulings of some."""
    events = [dict(EVENT, id="e%d\u00e9" % chance.randrange(16), eventTime=chance.choice(TIMES), tags=["t%d" % chance.randrange(3)])
              for _ in range(20)]
    atoms = document({"id": LOG, "name": "north", "events": events, "resources": [{"id": "r"}, {"id": "e1\u00e9"}]})[1]
    for (letter, name), values in values_by_key(atoms).items():
        for value in values:
            if letter == "E" and chance.random() < 0.3:
                atoms = atoms | {("U", "E", name, digest_of_value(value))}
    return atoms


def folder_of(path, atoms, unit, chance):
    """A site that is a folder, of one to three files a part."""
    path.mkdir()
    lines = []
    for part in in_order(parts := parts_of(atoms, unit)):
        shares = [set() for _ in range(chance.randrange(1, 4))]
        for atom in sorted(parts[part]):
            chance.choice(shares).update({atom, atom[:3] if atom[0] == "E" else atom})
        for data in sorted({file_of(LOG, share) for share in shares if share}):
            digest = data[-65:-1].decode()
            (path / ("%s.%s.cadf" % (part, digest))).write_bytes(data)
            lines.append((part != "shared", part, digest))
    text = "CADF-SITE 1\nL %s\nB %s\n" % (spelled(LOG), unit)
    data = (text + "".join("F %s %s\n" % line[1:] for line in sorted(lines))).encode()
    (path / "site").write_bytes(data + b"Z %s\n" % hashlib.sha256(data).hexdigest().encode())
    return str(path) + "/"


def is_within(time, limits):
    first, until = (None if typed is None else instant(typed) for typed in limits)
    return (first is None or first <= time_of(time).instant) and (until is None or time_of(time).instant < until)


def wanted(atoms, limits):
    """The lines of a range, and how many events are left out."""
    events = json.loads(log_text(LOG, atoms))["events"]
    lines = "".join(spelled(event) + "\n" for event in events if is_within(event["eventTime"], limits))
    left_out = sum(letter == "E" and len(values) > 1 and ruled_value(atoms, letter, name, values) is None
                   and any(is_within(read_canonical(value)["eventTime"], limits) for value in values)
                   for (letter, name), values in values_by_key(atoms).items())
    return lines.encode(), left_out


def events(tools, cadf, site, limits, *words):
    bounds = [word for name, bound in zip(("--since", "--until"), limits) if bound is not None for word in (name, bound)]
    return ended(os.path.join(tools, "cadf-events"), [*bounds, *words, "--", site], env=dict(os.environ, CADF=cadf))


def differs(tools, cadf, tmp_path, seed):
    """The first range for which the tool's answer of a generated site isn't what it has to be, or None."""
    chance = random.Random(seed)
    atoms = facts(chance)
    (tmp_path / ("%d.cadf" % seed)).write_bytes(file_of(LOG, atoms))
    unit = ("month", "day", "hour")[seed % 3]
    folder = folder_of(tmp_path / str(seed), atoms, unit, chance)
    for limits in RANGES:
        lines, left_out = wanted(atoms, limits)
        for site, *words in [str(tmp_path / ("%d.cadf" % seed))], [folder], [folder, "--no-index"]:
            answer = events(tools, cadf, site, limits, *words)
            said = ("cadf-events: %s%d; `cadf-conflicts` lists them\n" % (OPEN, left_out)).encode() if left_out else b""
            if answer != (5 if left_out else 0, lines, said):
                return limits, site, words, answer, lines, said
    return None


@pytest.mark.parametrize("seed", range(4))
def test_file_and_folder_show_the_same(cadf, tmp_path, seed):
    assert differs(os.path.join(TOP, "tools"), cadf, tmp_path, seed) is None


@pytest.mark.parametrize("right, wrong", [
    ("own.of([*inputs, *rulings], lambda identifier: spelled(identifier) in windows.common)", "own.of([*inputs, *rulings])"),
    ("own.of([*inputs, *rulings], lambda", "own.of(inputs, lambda"),
    ("        rulings = windows.ruled_of(windows.common)\n", "        rulings = []\n"),
    ("opened(windows.ruled(window))", "opened([])"),
    ("at, bodies, is_first = map(int, numbers)", "at, bodies, is_first = *map(int, numbers[:2]), 0"),
    ("self.of([*facts, *rulings])", "self.of([*facts])"),
    (", *(self.of_facts(names, inputs) for names in windows.facts),", ","),
    ("utc(limits.until - 1)[:length]", "utc(limits.until - 1)[:length - 1]"),
    ("            if len(parts) > 1:", "            if len(parts) > 2:"),
    ("    return at, identifier, line, bodies", '    return event["eventTime"], identifier, line, bodies'),
    ("self.open += is_first", "self.open += bool(bodies)"),
])
def test_wrong_versions_are_caught(cadf, tmp_path, right, wrong):
    tools = copied(tmp_path / "copy", right, wrong)
    assert any(differs(tools, cadf, tmp_path, seed) for seed in range(4))


def test_bulk_lines_name_log_and_identifier(cadf, tmp_path):
    atoms = document({"id": LOG, "events": [dict(EVENT, id="e\u00e9", eventTime=TIMES[4])]})[1]
    (tmp_path / "a").write_bytes(file_of(LOG, atoms))
    answer = events(os.path.join(TOP, "tools"), cadf, str(tmp_path / "a"), (None, None), "--bulk", "audit")
    name = hashlib.sha256(LOG.encode() + b"\0" + "e\u00e9".encode()).hexdigest()
    assert answer.output.decode() == '{"index":{"_index":"audit","_id":"%s"}}\n' % name + wanted(atoms, (None, None))[0].decode()


@pytest.mark.parametrize("wrong", [
    's/"eventTime":"[^"]*"/"eventTime":"x"/', 's/"eventTime"/"time"/', 's/"id":"e"/"id":7/', 's/"events":.*,/"events":[7],/',
    's/"conflicts":.*,"log"/"conflicts":[{}],"log"/', 's/"conflicts":.*,"log"/"conflicts":7,"log"/'])
def test_another_program_that_imitates_the_command(cadf, tmp_path, wrong):
    """What isn't what the command writes is no log, whatever range is asked for."""
    (tmp_path / "imitation").write_text('#!/bin/sh\n"%s" "$@" | sed \'%s\'\n' % (cadf, wrong))
    (tmp_path / "imitation").chmod(0o755)
    atoms = document({"id": LOG, "events": [dict(EVENT, id="e", eventTime=TIMES[4])]})[1]
    (tmp_path / "file").write_bytes(file_of(LOG, atoms))
    for site in str(tmp_path / "file"), folder_of(tmp_path / "folder", atoms, "day", random.Random(0)):
        for words in [["--no-index", "--bulk", "audit"], ["--no-index", "--since", "2024-03-01"]]:
            answer = ended(os.path.join(TOP, "tools", "cadf-events"), [*words, "--", site], env=dict(os.environ, CADF=str(tmp_path / "imitation")))
            assert (answer.status, answer.error.decode()) == (3, "cadf-events: %s: what it writes is no log\n" % (tmp_path / "imitation")), answer


@pytest.mark.parametrize("place", [3, -3])
def test_a_damaged_window_is_named_where_it_is_not_shown(cadf, tmp_path, place):
    """Of the other windows all is shown that a file without the facts of this one shows."""
    chance = random.Random(1)
    atoms = facts(chance)
    folder = folder_of(tmp_path / "site", atoms, "day", chance)
    name = next(name for name in os.listdir(folder) if name.startswith("1969"))
    data = bytearray((tmp_path / "site" / name).read_bytes())
    data[place] ^= 1
    (tmp_path / "site" / name).write_bytes(data)
    answer = events(os.path.join(TOP, "tools"), cadf, folder, RANGES[1])
    lines, left_out = wanted(atoms - parts_of(atoms, "day")["1969-12-31"], RANGES[1])
    said = [b"cadf-events: left out 1969-12-31: ", *([b"cadf-events: " + OPEN.encode()] if left_out else [])]
    assert answer.status == 5 and answer.output == lines and all(map(bytes.startswith, answer.error.splitlines(), said)), answer


@pytest.mark.parametrize("words", [["cadf-conflicts", "--values"], ["cadf-report"], ["cadf-report", "--since", "2024-03-01", "--until", "2024-03-02"]])
def test_lists_and_pages_of_a_folder_are_those_of_a_file(cadf, tmp_path, words):
    chance = random.Random(2)
    atoms = facts(chance)
    (tmp_path / "file").write_bytes(file_of(LOG, atoms))
    sites = str(tmp_path / "file"), folder_of(tmp_path / "folder", atoms, "day", chance)
    answers = [ended(os.path.join(TOP, "tools", words[0]), [*words[1:], "--", site], env=dict(os.environ, CADF=cadf)) for site in sites]
    pages = [answer._replace(output=re.sub(b'<div id="seal">.*', b"", answer.output)) for answer in answers]  # a folder has a seal of another kind
    assert pages[0] == pages[1] and pages[0].output and pages[0].status in (0, 5)


def test_a_page_of_a_range_has_a_body_of_another_window(cadf, tmp_path):
    """The page of one day says that another body contradicts, which is of another day."""
    events = [dict(EVENT, id="e", eventTime=time) for time in TIMES[4:7:2]]
    folder = folder_of(tmp_path / "folder", document({"id": LOG, "events": events})[1], "day", random.Random(0))
    answer = ended(os.path.join(TOP, "tools", "cadf-report"), ["--since", "2024-03-01", "--until", "2024-03-02", folder],
                   env=dict(os.environ, CADF=cadf))
    assert answer.status == 0 and TIMES[6] in json.dumps(Data(answer.output).data)
