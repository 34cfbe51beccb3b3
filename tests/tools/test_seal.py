"""cadf-seal: seals of sites and of their windows, beside the second implementation's; which windows differ; what is refused."""
import functools
import hashlib
import io
import json
import os
import resource
import signal
import sqlite3
import subprocess
import sys

import pytest

from tests import TOP
from tests.machine import ended
from tests.reference.events import Fault, document
from tests.reference.replica_files import file_of
from tests.reference.seal_files import seal_of
from tests.reference.site_seal_files import read_site_seal, site_seal_of, window_seal_of
from tests.reference.split_files import parts_of
from tests.tools.copies import is_caught
from tests.tools.test_site_folders import DAYS, EVENT, TOOLS, Site, atoms_of, contents, index_of, with_digest

sys.path.insert(0, os.path.join(TOP, "share", "cadf"))
import cadf_logs
import cadf_seals
import cadf_toolkit

ROOT = hashlib.sha256(b"").hexdigest()
HEAD = 'CADF-SITE-SEAL 1\nL "g"\nB day\n'
KEYS = hashlib.sha256(b"keys").hexdigest()
SHARED, DAY, NEXT = ("W %s 1 %s 2 %s\n" % (part, ROOT, KEYS) for part in ("shared", "2024-02-29", "2024-03-01"))
FLOOR = "T 2024-03-01\n"
ONLY_ROOTS = "a seal doesn't say whether facts were only added"
NO_SEAL, DAMAGED = "no seal of a folder, as `cadf-seal SITE/` writes it", "it is damaged: have it sent again"
MOST = 2 ** 28  # bytes of memory


class Seals:
    """A site that is a folder, and calls of the tool beside it."""

    def __init__(self, path, tools=TOOLS, name="site"):
        self.path, self.tool = path, os.path.join(tools, "cadf-seal")
        self.site = Site(path, tools, name)
        self.environment = dict(os.environ, CADF=Site.command)

    def run(self, *words, **options):
        """The tool's status, its output and its lines on standard error."""
        options = {"env": self.environment, "cwd": self.path, **options}
        answer = ended(self.tool, [str(word) for word in words], **options)
        return answer.status, answer.output, answer.error.decode().splitlines()

    def writes(self, *words, **options):
        status, output, said = self.run(*words, **options)
        assert (status, said) == (0, [])
        return output

    def kept(self, name, *words):
        """The name of a file of what the tool writes."""
        (self.path / name).write_bytes(self.writes(*words))
        return name

    def put(self, name, data):
        (self.path / name).write_bytes(data if isinstance(data, bytes) else data.encode())
        return name

    def command(self, *words):
        answer = ended(Site.command, words, cwd=self.path)
        assert answer.status == 0, answer
        return answer.output

    def files(self, part):
        return [str(self.site.folder / ("%s.%s.cadf" % (part, digest))) for digest in self.site.files()[part]]


@pytest.fixture(autouse=True)
def command(cadf, monkeypatch):
    """Has the tools run the command that is tried."""
    monkeypatch.setattr(Site, "command", cadf)


@pytest.fixture
def seals(tmp_path):
    return Seals(tmp_path)


# ---- What is written

def test_seal_of_a_folder(seals):
    """It is that of the folder's facts, in however many files they came."""
    others = Seals(seals.path, os.path.dirname(seals.tool), "other")
    others.site.count = 100  # of its files' names
    documents = [contents(0, 2, name="n"), contents(1, 3, 4), contents(0, 5, 6)]
    for value in documents:
        seals.site.takes(value)
        others.site.takes(*documents)
    wanted = site_seal_of("g", atoms_of(*documents), "day")
    assert max(map(len, seals.site.files().values())) > 1
    assert seals.writes("site/") == seals.writes("site") == others.writes("other") == wanted
    seals.site.settles()
    assert seals.writes("site") == wanted


def test_takes_meanwhile(seals, monkeypatch):
    """All of a take is sealed or nothing of it, though it changes what was sealed before, and what was open is gone then."""
    documents = [contents(0, 2), contents(3, 5)]
    seals.site.takes(documents[0])
    real, later = cadf_seals.sealed, [documents[1]]

    def late(inputs):
        found = real(inputs)
        if later:
            seals.site.takes(later.pop())
            seals.site.settles()
            seals.site.settles()
        return found

    monkeypatch.setattr(cadf_toolkit, "CADF", Site.command)
    monkeypatch.setattr(cadf_seals, "sealed", late)
    wanted = [site_seal_of("g", atoms_of(*documents[:count]), "day") for count in (1, 2)]
    assert cadf_seals.sealed_folder(str(seals.site.folder), {}).bytes() in wanted and not later


def test_files_of_one_window_are_open_at_a_time(seals):
    """A start of the command costs as much as there are open files, so of all windows at once the square of their number."""
    seals.site.takes(contents(0, 2, name="n"))
    few = {"preexec_fn": lambda: resource.setrlimit(resource.RLIMIT_NOFILE, (67, 67))}
    assert seals.writes("site", **few) == site_seal_of("g", atoms_of(contents(0, 2, name="n")), "day")
    seals.put("facts", json.dumps(contents(0, 2, name="n")))
    assert seals.writes("--prove", "facts", "site", **few) == seals.writes("--prove", "facts", "site")


@pytest.mark.parametrize("unit", ["month", "day", "hour"])
def test_units(seals, unit):
    value = contents(0, 1, 2, resources=[{"id": "r"}])
    seals.site.takes(value, by=("--by", unit))
    assert seals.writes("site") == site_seal_of("g", atoms_of(value), unit)


def test_no_facts(seals):
    seals.site.takes({"id": "g", "events": []})
    assert seals.writes("site") == site_seal_of("g", set(), "day")


@pytest.mark.parametrize("log", ['a "b" \\ \u202e\u2028', "\u00e9" * 512, "\U0001f600", "-n"])
def test_odd_logs(seals, log):
    value = dict(contents(0), id=log)
    seals.site.takes(value)
    wanted = site_seal_of(log, atoms_of(value), "day")
    assert seals.writes("site") == wanted
    assert seals.writes("--window", "2024-02-29", seals.put("seal", wanted)) == window_seal_of(wanted, "2024-02-29")


def test_seal_of_a_file(seals):
    """It is that of the command."""
    value = contents(0, 1, 2)
    name = seals.put("file", json.dumps(value))
    wanted = seal_of("g", atoms_of(value))
    assert seals.writes(name) == seals.command("seal", name) == wanted
    assert seals.writes("-", input=json.dumps(value).encode()) == wanted


def test_windows(seals):
    """The seal of each window by the folder's seal is what the command writes of its files."""
    documents = [contents(0, 2, name="n"), contents(1, 3, 4)]
    for value in documents:
        seals.site.takes(value)
    seal = seals.kept("seal", "site")
    parts = parts_of(atoms_of(*documents), "day")
    assert set(parts) == {"shared", "2024-02-29", "2024-03-01"}
    for part, atoms in parts.items():
        assert seals.writes("--window", part, seal) == seals.command("seal", *seals.files(part)) == seal_of("g", atoms)
        assert seals.writes("--window", part, "-", input=(seals.path / seal).read_bytes()) == seal_of("g", atoms)
    assert seals.writes("--window", "2024-03-02", seal) == seals.command("seal", seals.put("none", '{"id":"g","events":[]}')) == seal_of("g", set())


@pytest.mark.parametrize("part", ["2024-03", "2024-02-30", "2024-03-01T12", "2024-3-01", "all", "2024-03-01\n", "\u0662024-03-01", "x" * 1000, "\x1b[m"])
def test_no_window_of_the_unit(seals, part):
    seals.put("seal", site_seal_of("g", set(), "day"))
    status, output, said = seals.run("--window", part, "seal")
    assert (status, output, len(said)) == (1, b"", 1) and said[0].startswith("cadf-seal: seal: its windows are one day each, and ") and said[0].isprintable()


def test_page():
    """FORMATS shows the seal of the set of its split file."""
    with open(os.path.join(TOP, "docs", "FORMATS.md"), encoding="utf-8") as file:
        text = file.read()
    event = dict(EVENT, id="e1")
    value = {"id": "g", "name": "north", "events": [dict(event, eventTime=DAYS[1], tags=["x"]), dict(event, eventTime=DAYS[2])]}
    seal = site_seal_of("g", document(value)[1], "day")
    assert "of %d bytes:\n\n    %s\n\n" % (len(seal), seal.decode()[:-1].replace("\n", "\n    ")) in text


# ---- Which windows differ

def test_compare(seals):
    """Each window that differs is named with both counts, whoever of them has it."""
    seals.site.takes(contents(0, 2, name="n"))
    old = seals.kept("old", "site/")
    assert seals.run("--compare", old, "site/") == seals.run("--compare", old, old) == (0, b"", [])
    seals.site.settles()
    assert seals.run("--compare", old, "site") == (0, b"", [])
    seals.site.takes(contents(3, 4), dict(contents(), events=[dict(EVENT, id="x", eventTime="2023-12-31T23:59:59Z")]))
    now = seals.kept("now", "site")
    lines = b"2023-12-31: new, facts now 1\n2024-02-29: facts then 2, now 6\n"
    answer = 5, lines, ["cadf-seal: windows that differ: 2 of 4; " + ONLY_ROOTS]
    assert seals.run("--compare", old, "site/") == seals.run("--compare", old, now) == answer
    assert seals.run("--compare", "-", now, input=(seals.path / old).read_bytes()) == answer
    lines = b"2023-12-31: gone otherwise, facts then 1\n2024-02-29: facts then 6, now 2\n"
    assert seals.run("--compare", now, old) == (1, lines, [*answer[2], "cadf-seal: windows that are gone: 1"])


def test_compare_of_as_many_facts(seals):
    """A root tells more than a count, that of the keys too; `shared` comes first."""
    last = NEXT.replace("2024-03-01", "2024-03-02")
    seals.put("old", with_digest((HEAD + SHARED + NEXT + last).encode()))
    seals.put("now", with_digest((HEAD + SHARED.replace("e3", "e4") + DAY + NEXT + last.replace(KEYS, ROOT)).encode()))
    lines = b"shared: facts then 1, now 1\n2024-02-29: new, facts now 1\n2024-03-02: facts then 1, now 1\n"
    said = ["cadf-seal: windows that differ: 3 of 4; " + ONLY_ROOTS]
    assert seals.run("--compare", "old", "now") == (5, lines, said)
    assert seals.run("--compare", "now", "old") == (1, lines.replace(b"new, facts now", b"gone otherwise, facts then"), [*said, "cadf-seal: windows that are gone: 1"])


def gone(*lines):
    """A seal with a floor and lines, which says that those with a G went."""
    return with_digest((HEAD + "T 2024-03-01\n" + "".join(lines)).encode())


WENT = DAY.replace("W", "G")
OTHERWISE = WENT.replace(" 1 ", " 3 ")
COMPARED = {
    "as it was sealed": ((HEAD + DAY + NEXT).encode(), gone(WENT, NEXT), b"2024-02-29: gone as it was sealed, facts then 1\n", 1),
    "with more facts": ((HEAD + DAY + NEXT).encode(), gone(OTHERWISE, NEXT), b"2024-02-29: gone otherwise, facts then 1: 3 when it went\n", 1),
    "without a trace": ((HEAD + DAY + NEXT).encode(), gone(NEXT), b"2024-02-29: gone otherwise, facts then 1\n", 1),
    "the trace itself": (gone(WENT, NEXT), gone(NEXT), b"2024-02-29: gone then, now not told, or otherwise\n", 1),
    "another trace": (gone(WENT, NEXT), gone(OTHERWISE, NEXT), b"2024-02-29: gone then, now not told, or otherwise\n", 1),
    "it is back": (gone(WENT, NEXT), (HEAD + DAY + NEXT).encode(), b"2024-02-29: gone then, now 1 facts\n", 1),
    "came and went since": ((HEAD + NEXT).encode(), gone(WENT, NEXT), b"", 0),
    "the same trace": (gone(WENT, NEXT), gone(WENT, NEXT), b"", 0),
}


@pytest.mark.parametrize("then, now, lines, status", COMPARED.values(), ids=COMPARED)
def test_compare_of_what_went(seals, then, now, lines, status):
    """What the site says is no reason to accept it. The auditor's word accepts what is older and gone as it was sealed, and nothing else."""
    for name, data in (("then", then), ("now", now)):
        seals.put(name, data if b"\nZ " in data else with_digest(data))
    found = seals.run("--compare", "then", "now")
    assert found[:2] == (status, lines) and [line for line in found[2] if "are gone" in line] == (["cadf-seal: windows that are gone: 1" + (
        "; --kept-from WINDOW says from when on the site has to keep" if b"as it was" in lines else "")] if status else [])
    for word, lawful in (("2024-03-01", b"as it was" in lines), ("2024-02-29", False)):
        assert seals.run("--compare", "then", "--kept-from", word, "now")[:2] == (0 if lawful else status, lines)
    assert seals.run("--compare", "then", "--kept-from", "2024-03", "now") == (1, b"", ["cadf-seal: --kept-from 2024-03: windows are one day each: name such a one"])


def test_a_window_that_went_has_its_seal(seals):
    """It is of what it had: so an archive proves facts under the seal of the site that forgot them, which can't."""
    seals.site.takes(contents(0, 2, 5))
    seals.kept("before", "site")
    old = seals.kept("old", "--window", "2024-02-29", "before")
    program = os.path.join(os.path.dirname(seals.tool), "cadf-forget")
    assert ended(program, ["--before", "2024-03-01", "--archive", "archive", "site"], cwd=seals.path, env=seals.environment).status == 0
    seals.kept("after", "site")
    kept, went = atoms_of(contents(2, 5)), atoms_of(contents(0))
    assert (seals.path / "after").read_bytes() == site_seal_of("g", kept, "day", "2024-03-01", went)
    assert seals.writes("--window", "2024-02-29", "after") == (seals.path / old).read_bytes() == window_seal_of((seals.path / "after").read_bytes(), "2024-02-29")
    facts = seals.put("facts", json.dumps(contents(0)))
    proof = seals.kept("proof", "--prove", facts, "archive")
    assert len(seals.writes("--verify", "after", facts, proof).splitlines()) == len(went)
    said = "cadf-seal: site: 2024-02-29: it keeps from 2024-03-01 on: an archive of what went proves it, under the site's later seals too"
    assert seals.run("--prove", facts, "site") == (1, b"", [said])
    status, lines, _ = seals.run("--compare", "before", "site", "--kept-from", "2024-03-01")
    assert (status, lines) == (0, b"2024-02-29: gone as it was sealed, facts then %d\n" % len(went))


def test_compare_of_others(seals):
    seals.site.takes(contents(0))
    old = {"log": HEAD.replace('"g"', '"h"'), "unit": HEAD.replace("day", "hour")}
    for name, head in old.items():
        seals.put(name, with_digest(head.encode()))
    assert seals.run("--compare", "log", "site") == (1, b"", ['cadf-seal: site: other log: "g": one site has one log; `cadf check FILE` says which log a file is of'])
    assert seals.run("--compare", "unit", "site") == (1, b"", ["cadf-seal: site: other unit: its windows are one day each, and not one hour"])


# ---- What is refused

REFUSED = [
    ("", "truncated"), ("CADF-SITE-SEAL 1", "truncated"), ("CADF-SITE-SEAL 1\n", "truncated"), ("CADF-SITE-SEAL 2\n", "version"), ("CADF-SEAL 1\n", "version"),
    ("CADF-SITE-SEAL 1\r\n", "version"), ("CADF-SITE-SEAL 1\nL g\n", "log line"), ('CADF-SITE-SEAL 1\nL ""\n', "log line"), ('CADF-SITE-SEAL 1\nL "g" \n', "log line"),
    ('CADF-SITE-SEAL 1\nL "\\u0067"\n', "log line"), ('CADF-SITE-SEAL 1\nL "\\n"\n', "log line"), ('CADF-SITE-SEAL 1\nL "\x7f"\n', "log line"),
    ('CADF-SITE-SEAL 1\nL "%s"\n' % ("x" * 1025), "log line"), ('CADF-SITE-SEAL 1\nL "%s"\n' % ("x" * 2 ** 17), "log line"), ('CADF-SITE-SEAL 1\nL "\\ud800"\n', "log line"),
    ("CADF-SITE-SEAL 1\nL [\"g\"]\n", "log line"), ("CADF-SITE-SEAL 1\nZ\n", "log line"), (b'CADF-SITE-SEAL 1\nL "\xff"\n', "log line"), ("CADF-SITE-SEAL 1\n\n", "log line"),
    (HEAD[:-6] + "Z\n", "line 2: unended"), (HEAD[:-6] + "B week\n", "line 3: shape"), (HEAD[:-6] + "B day \n", "line 3: shape"), (HEAD[:-6] + "\n", "line 3: shape"),
    (HEAD[:-6] + DAY, "line 3: shape"), (HEAD, "truncated"), (HEAD + DAY, "truncated"), (HEAD + DAY[:-1], "truncated"),
    (HEAD + DAY.replace(" 1 ", " 0 "), "line 4: shape"), (HEAD + DAY.replace(" 2 ", " 0 "), "line 4: shape"), (HEAD + DAY.replace(" 2 ", " 02 "), "line 4: shape"), (HEAD + DAY.replace(" 1 ", " 01 "), "line 4: shape"), (HEAD + DAY.replace(" 1 ", " -1 "), "line 4: shape"),
    (HEAD + DAY.replace(" 1 ", " %d " % 2 ** 64), "line 4: shape"), (HEAD + DAY.replace(" 2 ", " %d " % 2 ** 64), "line 4: shape"), (HEAD + DAY.replace(" 2 " + KEYS, ""), "line 4: shape"),
    (HEAD + DAY.replace(" 2 " + KEYS, " 2"), "line 4: shape"), (HEAD + DAY.replace("\n", " 2 %s\n" % KEYS), "line 4: shape"), (HEAD + DAY.replace(" 1 ", " \u0661 "), "line 4: shape"), (HEAD + DAY.replace("e3", "E3"), "line 4: shape"),
    (HEAD + DAY.replace("W", "F"), "line 4: shape"), (HEAD + DAY.replace(" ", "  "), "line 4: shape"), (HEAD + DAY[:-1] + " \n", "line 4: shape"), (HEAD + "\n", "line 4: shape"),
    (HEAD + DAY.replace("-29", ""), "line 4: shape"), (HEAD + DAY.replace("-29", "-29T12"), "line 4: shape"), (HEAD + DAY.replace("2024-02-29", "all"), "line 4: shape"),
    (HEAD.encode() + b"W \xff\n", "line 4: shape"), (HEAD + "W " + "x" * 2 ** 17 + "\n", "line 4: shape"), (HEAD + DAY + "\n", "line 5: shape"),
    (HEAD + NEXT + DAY, "line 5: order"), (HEAD + DAY + DAY, "line 5: order"), (HEAD + DAY + SHARED, "line 5: order"), (HEAD + SHARED + SHARED, "line 5: order"),
    (HEAD + NEXT + DAY.replace(" 1 ", " %d " % 2 ** 64), "line 5: shape"), (HEAD + DAY + NEXT + DAY, "line 6: order"), (HEAD + "Z\n", "digest"), (HEAD + DAY + "Z %s\n" % ROOT, "digest"), (HEAD + "Z" * 2 ** 17 + "\n", "digest"),
    (HEAD + FLOOR + FLOOR, "line 5: order"), (HEAD + DAY + FLOOR, "line 5: order"), (HEAD + FLOOR.replace("2024-03-01", "shared"), "line 4: shape"), (HEAD + FLOOR.replace("-01", ""), "line 4: shape"),
    (HEAD + FLOOR.replace("\n", " \n"), "line 4: shape"), (HEAD + DAY.replace("W", "G"), "line 4: shape"), (HEAD + FLOOR + NEXT.replace("W", "G"), "line 5: shape"),
    (HEAD + FLOOR + SHARED.replace("W", "G"), "line 5: shape"), (HEAD + FLOOR + 2 * DAY.replace("W", "G"), "line 6: order"), (HEAD + FLOOR + NEXT + DAY.replace("W", "G"), "line 6: order"),
    (HEAD + FLOOR + DAY.replace("W", "G").replace("02-29", "02-28") + DAY.replace("W", "G").replace("02-29", "02-27"), "line 6: order"), (HEAD + FLOOR + DAY.replace("W", "G"), "truncated"),
    (with_digest((HEAD + DAY).encode()) + b"\n", "trailing bytes"), (with_digest((HEAD + DAY).encode())[:-1], "truncated"),
]


def read_by_both(data):
    """What the tool's reader and the second implementation say of a file: its refusal, or its log, its unit and its lines."""
    try:
        found = cadf_seals.lines_in(io_of(data), cadf_seals.SiteSeal)
        parts, gone = ({part: (facts, bytes.fromhex(root), keys, bytes.fromhex(key_root)) for part, (facts, root, keys, key_root) in each.items()} for each in (found.parts, found.gone))
        own = found.name(), found.unit, parts, found.floor, gone
        assert found.bytes() == data
    except cadf_seals.Refused as fault:
        own = str(fault)
    try:
        log, lines = read_site_seal(data)
        other = log, lines.unit, lines.parts, lines.floor, lines.gone
    except Fault as fault:
        other = fault.said
    assert own == other, data
    return own


def io_of(data):
    """An open file with these bytes."""
    file = os.memfd_create("seal")
    os.write(file, data)
    os.lseek(file, 0, os.SEEK_SET)
    return io.open(file, "rb")


@pytest.mark.parametrize("text, refusal", REFUSED, ids=range(len(REFUSED)))
def test_refused(text, refusal):
    assert read_by_both(text if isinstance(text, bytes) else text.encode()) == refusal


def test_greatest_count():
    data, greatest = with_digest((HEAD + DAY.replace(" 1 ", " %d " % (2 ** 64 - 1)).replace(" 2 ", " %d " % (2 ** 64 - 1))).encode()), 2 ** 64 - 1
    assert read_by_both(data)[:3] == ("g", "day", {"2024-02-29": (greatest, hashlib.sha256(b"").digest(), greatest, hashlib.sha256(b"keys").digest())})


def test_each_bit_and_each_prefix():
    """A seal with a bit turned, cut anywhere, or with a line left out, twice or elsewhere, is refused by both alike."""
    seal = with_digest((HEAD + FLOOR + DAY.replace("W", "G").replace("02-29", "02-28") + SHARED + DAY + NEXT).encode())
    lines = seal.splitlines(True)
    wrong = [seal[:place] for place in range(len(seal))]
    wrong += [seal[:place] + bytes([seal[place] ^ 1 << bit]) + seal[place + 1:] for place in range(len(seal)) for bit in range(8)]
    for place in range(len(lines)):
        rest = lines[:place] + lines[place + 1:]
        others = [other for other in range(len(lines)) if other != place]
        wrong += [b"".join(rest), *(b"".join(rest[:other] + [lines[place]] + rest[other:]) for other in others)]
        wrong.append(b"".join(lines[:place] + lines[place:place + 1] + lines[place:]))
    for data in wrong:
        assert isinstance(read_by_both(data), str)
    assert read_by_both(seal)[:2] == ("g", "day") and read_by_both(seal)[3:] == ("2024-03-01", {"2024-02-28": (
        1, hashlib.sha256(b"").digest(), 2, hashlib.sha256(b"keys").digest())})


def test_too_large(monkeypatch):
    """More bytes than are read are told before bytes that trail, and after a line that is refused."""
    whole, wrong = with_digest((HEAD + DAY).encode()), (HEAD + NEXT + DAY).encode()
    longer, size, end = whole + b"x", len(whole), len(wrong)
    for data, most, refusal in [(whole, size, None), (longer, size, "too large"), (longer, size + 1, "trailing bytes"),
                                (whole, size - 1, "too large"), (wrong + b"x", end, "line 5: order"), (wrong, end - 1, "too large")]:
        monkeypatch.setattr(cadf_seals, "LARGEST", most)
        try:
            assert cadf_seals.lines_in(io_of(data), cadf_seals.SiteSeal).bytes() == whole and refusal is None
        except cadf_seals.Refused as fault:
            assert str(fault) == refusal, (data, most)


def test_what_is_said_of_a_refusal(seals):
    """The file's name, the refusal, and what to do."""
    for name, data, said in [("a", with_digest((HEAD + DAY).encode())[:-1], "truncated: " + DAMAGED), ("b", "{}", "truncated: " + NO_SEAL), ("c", "CADF-SEAL 1\n", "version: " + NO_SEAL)]:
        seals.put(name, data)
        for words in (["--window", "shared", name], ["--compare", name, "site"], ["--compare", seals.put("whole", with_digest(HEAD.encode())), name]):
            assert seals.run(*words) == (1, b"", ["cadf-seal: %s: %s" % (name, said)])


def test_a_line_without_an_end_takes_no_memory(seals):
    seals.put("endless", HEAD)
    os.truncate(seals.path / "endless", MOST)
    assert seals.run("--window", "shared", "endless", preexec_fn=lambda: resource.setrlimit(resource.RLIMIT_AS, (MOST, MOST))) == (
        1, b"", ["cadf-seal: endless: truncated: " + DAMAGED])


def test_damaged_windows(seals):
    """Nothing is written of a folder with a file that isn't what its name says."""
    seals.site.takes(contents(0, 2))
    one, other = (seals.files(part)[0] for part in ("2024-02-29", "2024-03-01"))
    held = open(one, "rb").read(), open(other, "rb").read()
    for data, said in [(held[0].replace(b"read", b"reap"), "digest: the site is damaged"), (b"", "not JSON"),
                       (held[1], "it holds something else than its name says: ")]:
        open(one, "wb").write(data)
        status, output, lines = seals.run("site")
        assert (status, output, len(lines)) == (1, b"", 2) and lines[0].startswith("cadf-seal: left out 2024-02-29: site/%s: %s" % (os.path.basename(one), said))
    os.unlink(one)
    status, output, lines = seals.run("site")
    assert (status, output) == (1, b"") and "not there: the site is damaged" in lines[0]


def test_a_fact_in_another_window_is_refused(seals):
    """A folder whose `site` names a file that holds what is of another day seals no day by it."""
    seals.site.takes(contents(0, 2))
    atoms = atoms_of(contents(0, 2))
    data = file_of("g", atoms)
    digest = data[-65:-1].decode()
    (seals.site.folder / ("2024-03-01.%s.cadf" % digest)).write_bytes(data)
    (seals.site.folder / "site").write_bytes(index_of({"2024-03-01": [digest]}))
    status, output, lines = seals.run("site")
    assert (status, output) == (1, b"") and "it holds something else than its name says" in lines[0]


def test_no_site(seals):
    (seals.path / "empty").mkdir()
    assert seals.run("empty/") == (1, b"", ["cadf-seal: empty: no site in it: `cadf-take --by day SITE/ FILE..` makes one"])
    assert seals.run("absent/")[:2] == seals.run("absent")[:2] == (3, b"")


@pytest.mark.parametrize("words", [[], ["site", "other"], ["--window", "shared"], ["--window", "shared", "--compare", "a", "b"], ["--compare", "a"], ["--odd", "site"]])
def test_usage(seals, words):
    assert seals.run(*words)[:2] == (2, b"")


def test_full_disk(seals):
    seals.site.takes(contents(0))
    seal = seals.kept("seal", "site")
    seals.put("other", with_digest(HEAD.encode()))
    for words in (["site"], ["--window", "shared", seal], ["--compare", "other", seal], [seals.put("file", json.dumps(contents(0)))]):
        with open("/dev/full", "wb") as full:
            done = subprocess.run([seals.tool, *words], env=seals.environment, cwd=seals.path, stdout=full,
                                  stderr=subprocess.PIPE, check=False)
        assert (done.returncode, done.stderr) == (3, b"cadf-seal: standard output: write fault: No space left on device\n")


@pytest.mark.parametrize("number", [signal.SIGTERM, signal.SIGHUP])
def test_stopped(seals, number):
    """A call that is asked to end has written nothing, and ends what it has started."""
    seals.site.takes(contents(0, 2))
    stopping = seals.put("stopping", '#!/bin/sh\nif test "$1" = seal; then kill -%d $PPID; fi\nexec "%s" "$@"\n' % (number, Site.command))
    os.chmod(seals.path / stopping, 0o755)
    words = {"env": dict(seals.environment, CADF=str(seals.path / stopping))}
    assert seals.run("site", **words) == (128 + number, b"", ["cadf-seal: stopped by %s" % number.name])


@pytest.mark.parametrize("said", ["", "CADF-SEAL 1", "CADF-SEAL 1\nL \"g\"\nN 1\n"])
def test_a_command_that_writes_no_seal(seals, said):
    seals.site.takes(contents(0))
    odd = seals.put("odd", '#!/bin/sh\nif test "$1" = seal; then printf "%%s" \'%s\'; else exec "%s" "$@"; fi\n' % (said, Site.command))
    os.chmod(seals.path / odd, 0o755)
    odd = str(seals.path / odd)
    assert seals.run("site", env=dict(seals.environment, CADF=odd)) == (3, b"", ["cadf-seal: %s: what it writes is no seal" % odd])


# ---- Roots that are kept

def test_roots_are_kept(seals):
    """No command is started for a window whose root is kept; one with another file is sealed anew."""
    seals.site.takes(contents(0, 2, name="n"))
    seal = seals.writes("site")
    stopped = {"env": dict(seals.environment, CADF="false")}
    assert seals.writes("site", **stopped) == seals.writes("--jobs", "2", "site", **stopped) == seal
    assert seals.run("--full", "site", **stopped)[0] in (1, 3)
    more = dict(contents(), events=[dict(EVENT, id="late", eventTime=DAYS[0])])
    seals.site.takes(more)
    assert seals.run("site", **stopped)[0] in (1, 3)
    assert seals.writes("--jobs", "1", "site") == seals.writes("--full", "site") == site_seal_of("g", atoms_of(contents(0, 2, name="n"), more), "day")
    os.unlink(seals.site.folder / ".index")
    assert seals.run("site", **stopped)[0] in (1, 3)


@pytest.mark.parametrize("change", ["last line", "size", "gone"])
def test_a_root_vouches_for_no_file_that_is_another(seals, change):
    """A file whose size or last line is another one is read whole, and refused."""
    seals.site.takes(contents(0, 2, name="n"))
    seals.writes("site")
    path = seals.files("2024-02-29")[0]
    with open(path, "rb") as file:
        data = file.read()
    if change == "gone":
        os.unlink(path)
    else:
        with open(path, "wb") as file:
            file.write(data[:100] + data[101:] if change == "size" else data[:-3] + b"#" + data[-2:])
    status, output, said = seals.run("site")
    assert output == b"" and status in (1, 3) and len(said) == 2 and os.path.basename(path) in said[0]


def test_all_is_read_if_asked(seals):
    """A file that rotted in the middle is found by --full alone; how long ago all was read is told after a day."""
    seals.site.takes(contents(0, 2, name="n"))
    seal = seals.writes("site")
    path = seals.files("2024-02-29")[0]
    with open(path, "r+b") as file:
        file.seek(100)
        file.write(b"#")
    assert seals.writes("site") == seal
    with sqlite3.connect(seals.site.folder / ".index") as connection:
        then, = set(connection.execute("SELECT min(read) FROM kept").fetchone())
        connection.execute("UPDATE kept SET read = read - 86400")
    connection.close()
    day = cadf_logs.utc((then - 86400) * 10 ** 9)
    status, output, said = seals.run("site")
    assert (status, output) == (0, seal) and said == ["cadf-seal: the oldest of its files was read whole at %s; since then its size and last line were looked at:"
                                                      " --full reads all" % day]
    status, output, said = seals.run("--full", "site")
    assert (status, output, len(said)) == (1, b"", 2) and os.path.basename(path) in said[0]


def test_roots_of_another_tree_serve_nobody(seals):
    seals.site.takes(contents(0, 2))
    seals.writes("site")
    with sqlite3.connect(seals.site.folder / ".index") as connection:
        assert connection.execute("UPDATE kept SET kind = 'roots 2', value = '7 ' || substr(value, 3)").rowcount > 0
    connection.close()
    assert seals.writes("site") == site_seal_of("g", atoms_of(contents(0, 2)), "day")


# ---- Copies that do wrong

@pytest.mark.parametrize("check, right, wrong", [
    (test_seal_of_a_folder, "str(sealed(own) if own", "str(sealed(own[:1]) if own"),
    (test_seal_of_a_folder, "itertools.starmap(self.lines, self.parts.items())", "itertools.starmap(self.lines, sorted(self.parts.items()))"),
    (test_a_fact_in_another_window_is_refused, "check_part(index, part, files) if files else \"\"", "\"\""),
    (test_windows, "(self.log, *roots)", "(self.log, *roots[::-1])"),
    (test_windows, "(self.log, *roots)", "(self.log, *2 * roots[:2])"),
    (test_a_window_that_went_has_its_seal, "or self.gone.get(part, NOTHING)", "or NOTHING"),
    (functools.partial(test_compare_of_what_went, **dict(zip(("then", "now", "lines", "status"), COMPARED["with more facts"]))), "True, went == old)", "True, went is not None)"),
    (functools.partial(test_compare_of_what_went, **dict(zip(("then", "now", "lines", "status"), COMPARED["as it was sealed"]))), " and each.part < options.kept_from", ""),
    (functools.partial(test_compare_of_what_went, **dict(zip(("then", "now", "lines", "status"), COMPARED["the trace itself"]))), "*then.parts, *then.gone, *now.parts", "*then.parts, *now.parts"),
    (test_windows, "B (%s)\" % \"|\".join(UNITS)", "B (%s)\" % \"|\".join([*UNITS][::2])"),
    (test_compare_of_as_many_facts, "sorted({*then.parts, *then.gone, *now.parts} - but, key=order)", "sorted(now.parts, key=order)"),
    (test_compare_of_as_many_facts, "elif new != old:", "elif new.facts != old.facts:"),
    (test_compare_of_as_many_facts, "sorted({*then.parts, *then.gone, *now.parts} - but, key=order)", "sorted({*then.parts, *then.gone, *now.parts} - but)"),
    (test_compare_of_as_many_facts, "or (REFUSED if lost else DIFFERS if others else DONE)", "or DONE"),
    (test_compare_of_others, "if now.log != then.log:", "if False:"),
    (test_compare_of_others, "if now.unit != then.unit:", "if False:"),
    (functools.partial(test_a_root_vouches_for_no_file_that_is_another, change="size"), "size_of(files) == size and ", ""),
    (functools.partial(test_a_root_vouches_for_no_file_that_is_another, change="last line"), "== digest for digest, each in files.items())", "for each in files)"),
    (test_all_is_read_if_asked, "< cadf_times.now() - DAY", "< 0"),
    (test_a_line_without_an_end_takes_no_memory, "file.readline(min(LONGEST_LINE, left))", "file.readline(left)"),
])
def test_a_wrong_version_is_caught(tmp_path, check, right, wrong):
    is_caught(tmp_path, (right, wrong), check, functools.partial(Seals, tmp_path))
