"""Pages of tools/cadf-report without a browser: what they hold is what the command shows, whatever way the facts came.

`tests/tools/test_report_page.py` and `test_report_meaning.py` try the pages in a browser.
"""
import base64
import fcntl
import hashlib
import html
import io
import json
import os
import pty
import re
import resource
import shlex
import signal
import struct
import subprocess
import sys
import tempfile
import termios
import time
import zlib

import pytest

from tests import TOP
from tests.formats import in_format
from tests.machine import ended, side_by_side
from tests.tools.odd_logs import EVENT, hostile, plain, told_otherwise
from tests.tools.programs import loaded, tool

TOOL = tool("cadf-report")
PYTHON = "python3"  # by which the tools run
SHARE = os.path.join(TOP, "share", "cadf")
VECTORS = os.path.join(TOP, "examples", "vectors")
DATA = re.compile(r'<script type="text/plain" id="data">(.*?)</script>', re.DOTALL)
DAYS = [dict(EVENT, id="e%d" % at, eventTime=text) for at, text in enumerate(
    ["2024-02-29T23:59:59.999999999Z", "2024-03-01T00:00:00Z", "2024-03-01T01:59:59+02:00", "2024-03-01T02:00:00+02:00",
     "2024-03-01T23:00:00-01:00", "2024-03-01T23:59:59.5Z", "2024-03-02T00:00:00Z"])]


def put(name, data):
    with open(name, "wb") as file:
        file.write(data if isinstance(data, bytes) else data.encode())
    return name


def canonical(value):
    return json.dumps(value, ensure_ascii=False, sort_keys=True, separators=(",", ":")).encode() + b"\n"


class Data:
    """The data of a page, read as its script reads them."""

    def __init__(self, page):
        self.text = page.decode()
        self.block = DATA.search(self.text)[1]
        self.data = json.loads(zlib.decompress(base64.b64decode(self.block)))

    def value(self, cell):
        cell = self.data["table"][cell] if type(cell) is int else cell
        if type(cell) is str:
            return cell
        if type(cell[0]) is str:
            return json.loads(cell[0])
        parts = list(map(self.value, cell[1:]))
        return dict(zip(self.data["shapes"][cell[0] - 1], parts)) if cell[0] else parts

    def named(self, name):
        """What stands in the head of the page under a name."""
        return re.search(name, self.text)[1].replace(",", "")

    def counts(self):
        return [int(self.named("<dt>%s</dt><dd>([0-9,]*)<" % name)) for name in ("facts", "events", "conflicts")]

    def digests(self):
        return [self.named('id="%s-digest">([0-9a-f]*)<' % name) for name in ("log", "conflict")]


class Reports:
    """Calls of the tool in a folder of files."""

    def __init__(self, binary):
        self.binary, self.pages = binary, {}
        self.environment = dict(os.environ, CADF=binary)

    def cadf(self, *words):
        return subprocess.run([self.binary, *words], stdout=subprocess.PIPE, check=True).stdout

    def answer(self, *words, **options):
        environment = dict(self.environment, **options.pop("env", {}))
        answer = ended(TOOL, words, env=environment, **options)
        return answer.status, answer.output, answer.error.decode().splitlines()

    def page(self, *words):
        """The page of a call that has to succeed, and say nothing; the files of that name stay as they are."""
        if words not in self.pages:
            status, self.pages[words], said = self.answer(*words)
            assert (status, said) == (0, []), words
        return self.pages[words]


@pytest.fixture(scope="module")
def folder(tmp_path_factory):
    return tmp_path_factory.mktemp("reports")


@pytest.fixture(autouse=True)
def own_folder(folder, monkeypatch):
    """The tests of a process work in one folder."""
    monkeypatch.chdir(folder)


@pytest.fixture(scope="module")
def reports(cadf, folder):
    """A hostile log, two sites that tell events otherwise, and what they are when they are joined and ruled on."""
    before, reports = os.getcwd(), Reports(cadf)
    os.chdir(folder)
    make_files(reports)
    os.chdir(before)
    return reports


def make_files(reports):
    log = hostile()
    put("hostile.json", json.dumps(log))
    for at in (0, 1):
        put("half%d.json" % at, json.dumps({**log, "events": log["events"][at::2][::-1]}))
    for name, document in zip(("north.json", "south.json"), told_otherwise(12)):
        put(name, json.dumps(document))
    put("both", reports.cadf("join", "north.json", "south.json"))
    put("settled", reports.cadf("rule", "E", "c03", "2", "both"))
    put("ruled", reports.cadf("rule", "E", "both", "1", "settled"))
    put("twice", reports.cadf("rule", "E", "c03", "1", "ruled"))
    put("rulings", reports.cadf("missing", "twice", "both"))
    put("waiting", reports.cadf("join", "north.json", "rulings"))
    put("days.json", json.dumps({"id": "g", "events": [*DAYS, dict(DAYS[1], name="other"), dict(DAYS[6], name="other")]}))


def test_texts(reports):
    """The page has the two texts of the command, in data that no text of a log can end, and tells their digests and counts."""
    vectors = [os.path.join(VECTORS, name) for name in sorted(os.listdir(VECTORS)) if name.endswith((".json", ".cadf"))]
    good = [name for name in vectors if ended(reports.binary, ["check", name]).status == 0]
    assert len(good) > 5
    for name in ["hostile.json", "both", "settled", "ruled", "twice", "waiting"] + good:
        page = Data(reports.page(name))
        log, conflicts = reports.cadf("show", name), reports.cadf("show", "--conflicts", name)
        assert canonical(page.value(page.data["log"])) == log, name
        assert canonical(page.value(page.data["listed"])) == conflicts, name
        assert page.digests() == [hashlib.sha256(text).hexdigest() for text in (log, conflicts)], name
        assert re.fullmatch("[A-Za-z0-9+/\n]+=*", page.block), name
        facts, count = re.search(r"atoms (\d+) conflicts (\d+)", reports.cadf("check", name).decode()).groups()
        assert page.counts() == [int(facts), len(json.loads(log).get("events", [])), int(count)], "counts of " + name


def test_frame(reports):
    """The policy allows the page's own script and style by their hashes, and the page names nothing outside of it."""
    page = reports.page("hostile.json").decode()
    policy = re.search(r'Content-Security-Policy" content="([^"]*)"', page)[1]
    frame = page.replace(DATA.search(page)[1], "")
    for kind, element in (("script-src", "script"), ("style-src", "style")):
        inside = re.findall(r"<%s>(.*?)</%s>" % (element, element), frame, re.DOTALL)
        hashed = base64.b64encode(hashlib.sha256(inside[0].encode()).digest()).decode()
        assert len(inside) == 1, kind
        assert "%s 'sha256-%s';" % (kind, hashed) in policy, kind
    assert re.findall(r'(?:src|href|action)="(?!#)[^"]*"', frame) == []
    assert policy.startswith("default-src 'none'; ")
    assert "require-trusted-types-for 'script'; trusted-types 'none'" in policy
    assert "unsafe" not in policy
    assert "@@" not in frame
    assert "This page contains the whole log" in frame


def test_sameness(reports):
    """One page for one set of facts, whatever the order, the halves, the repetition and the format in which they came."""
    whole = reports.cadf("join", "hostile.json")
    put("hostile.cadf", whole)
    put("hostile.1", in_format(1, whole))
    ways = [("hostile.json",), ("half0.json", "half1.json"), ("half1.json", "hostile.json", "half0.json"), ("hostile.cadf",), ("hostile.1", "half0.json")]
    assert len({reports.page(*way) for way in ways}) == 1
    against = [("--against", "half0.json", *way) for way in ways]
    facts = lambda page: {name: value for name, value in page.data.items() if name != "union"}  # which has the names of both sites
    assert len({canonical(facts(Data(reports.page(*way)))) for way in against}) == 1
    ranges = [("--since", "2024-03-01 11:00", "x"), ("--since", "2024-03-01T13:00:00.000+02:00", "x")]
    assert len({reports.page(*way[:2], "both") for way in ranges}) == 1
    page = reports.page("hostile.json")
    assert os.getcwd().encode() not in page


# A script begins so that has the tool as a module.
LOADED = "import sys; sys.path.insert(0, %r); from tests.tools.programs import loaded; m = loaded(%r); " % (TOP, TOOL)


def with_setting(reports, name, value, *words):
    """What the tool answers with another setting."""
    script = LOADED + "m.%s = %d; sys.argv[:] = ['cadf-report', *%r]; sys.exit(m.ended(m.make, m.words()))" % (name, value, list(words))
    return ended(PYTHON, ["-c", script], env=reports.environment)


def test_pieces(reports):
    """A text that is read in the smallest pieces gives the same page: borders fall into every character and number."""
    for name in ("hostile.json", "settled"):
        for size in (1, 7, 4096):
            answer = with_setting(reports, "PIECE", size, name)
            assert answer.status == 0, "pieces of %d" % size
            assert answer.output == reports.page(name), "pieces of %d" % size
    module = loaded(TOOL)
    text = '{"aa":12345678901234567890,"b":"\U0001f600\\n","cccc":98765,"d":true,"e":{"f":[1,22,333]},"g":-1}\n'
    for module.PIECE in range(1, 60):
        reader = module.Text(io.BytesIO(text.encode()))
        assert {name: reader.take()[0] for name in reader.names()} == json.loads(text), "values in pieces of %d" % module.PIECE


def test_digests(reports):
    """The digests by place are those of cadf-conflicts, and each ruling's state is what the log shows."""
    for name in ("hostile.json", "both", "settled", "twice", "waiting"):
        done = ended(os.path.join(TOP, "tools", "cadf-conflicts"), [name], env=reports.environment)
        listed = [line.lstrip("# ").split("  ")[0] for line in done.output.decode().splitlines() if re.search(r" [0-9a-f]{64}(  ruled)?$", line)]
        page = Data(reports.page(name))
        conflicts = page.value(page.data["listed"])["conflicts"]
        made = ["%s %s %d %s" % (each["kind"], json.dumps(each["key"]), place, digest) for each, digests in zip(conflicts, page.data["digests"])
                for place, digest in enumerate(digests, 1)]
        assert made == listed, "digests of " + name
    for name, states in (("settled", ["settles"]), ("ruled", ["idle", "settles"]), ("twice", ["idle", "disagrees", "disagrees"])):
        assert Data(reports.page(name)).data["states"] == states, "states of " + name
    waiting = Data(reports.page("waiting"))
    assert sorted(waiting.data["states"]) == ["idle", "idle", "waits"]


def test_range(reports):
    """A range has the events from an instant until before another, and its digest is that of their text."""
    page = Data(reports.page("--since", "2024-03-01", "--until", "2024-03-02", "days.json"))
    log = json.loads(reports.cadf("show", "days.json"))
    log["events"] = [event for event in log["events"] if event["id"] in ("e3", "e5")]
    listed = json.loads(reports.cadf("show", "--conflicts", "days.json"))
    listed["conflicts"] = [each for each in listed["conflicts"] if each["key"] == "e1"]
    assert page.value(page.data["log"]) == log
    assert page.value(page.data["listed"]) == listed
    assert page.counts() == [4, 2, 1]
    assert page.digests() == [hashlib.sha256(canonical(text)).hexdigest() for text in (log, listed)]
    assert page.named('id="range">([^<]*)<') == "Only the events from 2024-03-01T00:00:00Z until before 2024-03-02T00:00:00Z and the conflicts that have a value then."
    assert "of the log text of this range<" in page.text
    every = Data(reports.page("--until", "9999-12-31", "hostile.json"))
    assert every.data == Data(reports.page("hostile.json")).data
    put("late", reports.cadf("rule", "E", "e6", "1", "days.json"))
    late = Data(reports.page("--until", "2024-03-01T12:00:00Z", "late"))
    assert ([each["key"] for each in late.value(late.data["listed"])["conflicts"]], late.data["states"]) == (["e1"], ["settles"])


def test_against(reports):
    """What two sites lack of each other is as much as cadf-agree counts, and what is said of a fact is the fact."""
    for here, other in (("north.json", "south.json"), ("hostile.json", "half0.json"), ("both", "twice"), ("both", "both")):
        done = ended(os.path.join(TOP, "tools", "cadf-agree"), [here, other], env=reports.environment)
        counts = dict(re.findall(r"^(\S+) lacks (\d+) fact", done.error.decode(), re.MULTILINE))
        page = Data(reports.page("--against", other, here))
        lacks = list(map(page.value, page.data["lacks"]))
        assert list(map(len, lacks)) == [int(counts.get(here, 0)), int(counts.get(other, 0))], "%s against %s" % (here, other)
    kinds = sorted(kind for kind, *_ in Data(reports.page("--against", "south.json", "north.json")).data["lacks"][0][1:])
    page = Data(reports.page("--against", "south.json", "north.json"))
    lacks = list(map(page.value, page.data["lacks"]))
    body = dict(EVENT, outcome="failure")
    chain = [{"reporterId": "s1", "role": "observer"}, {"reporterId": "south", "role": "relay"}]
    assert [fact for fact in lacks[0] if fact[1] in ("c00", "r")] == [["E", "c00", body, body], ["C", "c00", chain, body], ["R", "r", {"id": "r", "v": "south"}, None]]
    assert len(kinds) == 25
    assert hashlib.sha256(reports.cadf("join", "south.json")).hexdigest() in page.text
    ruled = Data(reports.page("--against", "settled", "both"))
    digest = ruled.value(Data(reports.page("settled")).data["digests"][3][1])
    assert [ruled.value(each) for each in ruled.data["lacks"][0][1:]] == [["U", "c03", ["E", digest], None]]


def test_faults(reports):
    """How a call ends where something fails: nothing is written, and the line says what to do."""
    put("cut.json", '{"id":')
    put("event.json", json.dumps(dict(EVENT, id="e")))
    put("other.json", json.dumps({"id": "h", "events": []}))
    no_log = "event.json: no log named: an event by itself names none: give a file that does, or --log ID if the tool takes it"
    other_log = "other.json: other log: one site has one log; `cadf check FILE` says which log a file is of"
    for what, words, status, said in (
            ("refused", ["both", "cut.json"], 1, "cut.json: not JSON"), ("absent", ["absent"], 3, "absent: No such file or directory"),
            ("no log", ["event.json"], 1, no_log), ("other log", ["both", "other.json"], 1, other_log),
            ("other site", ["--against", "other.json", "both"], 1, other_log),
            ("other site, cut", ["--against", "cut.json", "both"], 1, "cut.json: not JSON")):
        assert reports.answer(*words) == (status, b"", ["cadf-report: " + said]), what
    assert reports.answer("--log", "g", "event.json")[0] == 0
    absent = "cadf-report: /absent/cadf: No such file or directory: name the command by CADF, or put it on PATH"
    assert reports.answer("both", env={"CADF": "/absent/cadf"}) == (3, b"", [absent])
    assert reports.answer("both", env={"CADF": "true"})[0] == 3
    no_times = ["yesterdays", "2024-02-30", "0000-01-01", "2024-03-01T24:00", "2024-03-01T12:60", "2024-03-01T12:00:60Z",
                "2024-03-01T12:00+14:01", "2024-03-01T12:00-02:60", "2024-03-01T12:00+15:00"]
    for words in ([], ["--lo", "g", "both"], *(["--since", text, "both"] for text in no_times)):
        status, output, said = reports.answer(*words)
        assert (status, output) == (2, b""), "usage %s" % words
        assert said[-1].startswith("cadf-report: error: "), "usage %s" % words
    assert reports.answer("both", "--x\x1b[2J\u202e")[2][-1] == "cadf-report: error: unrecognized arguments: --x\\u001b[2J\\u202e"
    for descriptor in (1, 2):
        closed = ended("bash", ["-c", 'exec "$0" "$1" both %d>&-' % descriptor, sys.executable, TOOL], env=reports.environment)
        said = {1: b"cadf-report: standard output: write fault: Bad file descriptor\n"}.get(descriptor, b"")
        assert closed == (3, b"", said), "no descriptor %d" % descriptor
    full = ended("bash", ["-c", '"$0" both >/dev/full', TOOL], env=reports.environment)
    assert (full.status, full.error) == (3, b"cadf-report: standard output: write fault: No space left on device\n")


@pytest.mark.parametrize("wrong", [
    "s/^{.*/{}/", 's/"eventTime":"[^"]*"/"eventTime":7/g', 's/"id":"/"key":"/g', 's/"values":/"value":/g', 's/"rulings":.*/"rulings":7}/'])
def test_another_program_that_imitates_the_command(reports, wrong):
    """What isn't what the command shows makes no page."""
    put("imitation", '#!/bin/sh\n"%s" "$@" | sed \'%s\'\n' % (reports.binary, wrong))
    os.chmod("imitation", 0o755)
    said = ["cadf-report: ./imitation: what it writes is no text of cadf"]
    assert reports.answer("--until", "2024-03-02", "settled", env={"CADF": "./imitation"}) == (3, b"", said)


ENTRIES = [{"file": "a.jsonl", "line": 3, "faults": ["eventTime", "tag 2"], "event": {"id": "e", "x": [1.5, "</script>"]}},
           {"file": "b\u202e", "line": 1, "faults": ["not JSON at character 0"], "text": "x" * 5000}, {"file": "c", "line": 9, "faults": ["longer"]}]


def test_set_aside(reports):
    """What was set aside is listed by file, line and faults, each with its beginning; without the option the page has none of it."""
    put("aside", "".join(json.dumps(entry) + "\n" for entry in ENTRIES))
    page = Data(reports.page("--set-aside", "aside", "both"))
    wanted = [["a.jsonl", "3", ["eventTime", "tag 2"], '{"id":"e","x":[1.5,"</script>"]}'], ["b\u202e", "1", ["not JSON at character 0"], "x" * 2000], ["c", "9", ["longer"], ""]]
    assert (page.data["aside"], page.named("<dt>set aside</dt><dd>([0-9,]*)<")) == (wanted, "3")
    plain_page = Data(reports.page("both"))
    assert plain_page.data["aside"] is None
    assert {**page.data, "aside": None} == plain_page.data
    put("long", '{"file":"a","line":1,"faults":[],"event":{"n":%s}}\n' % ("-" + "9" * 5000))
    assert Data(reports.page("--set-aside", "long", "both")).data["aside"] == [["a", "1", [], '{"n":"-' + "9" * 1993]]
    for line in ("{", "[]", '{"file":"a","line":1}', '{"file":"a","line":1,"faults":"x"}'):
        put("broken", json.dumps(ENTRIES[0]) + "\n" + line + "\n")
        assert reports.answer("--set-aside", "broken", "both") == (1, b"", ["cadf-report: broken: line 2: nothing that was set aside"]), line
    assert reports.answer("--set-aside", "absent", "both")[0] == 3
    os.mkfifo("fifo")  # as a sender puts into a spool, which sets it aside
    assert reports.answer("--set-aside", "fifo", "both")[0] == 3


def test_head(reports):
    """The page names the version that made it, and how the facts are in the log text and in the conflict list."""
    said = ended(reports.binary, ["--version"]).output.decode().strip()
    page = Data(reports.page("settled"))
    assert 'Made by cadf-report with <span id="version">%s</span>,' % said in page.text
    facts, shown, listed = map(int, re.search("Of ([0-9,]+) facts the log text has ([0-9,]+), and the conflict list ([0-9,]+)[.]", page.text).groups())
    held = re.search(r"atoms (\d+)", reports.cadf("check", "settled").decode())[1]
    in_log = json.loads(reports.cadf("show", "settled"))
    assert (facts, shown + listed) == (int(held), int(held))
    # Of each event a body and a chain, and of `r` a conflict: c03 is shown since it is ruled.
    assert shown == sum(1 + ("reporterchain" in event) + len(event.get("tags", ())) for event in in_log["events"])


def test_many_conflicts(reports):
    """A page has all conflicts of a log."""
    put("many.json", json.dumps({"id": "g", "events": [dict(EVENT, id="e%d" % at, name=name) for at in range(150) for name in "ab"]}))
    page = Data(reports.page("many.json"))
    assert page.counts()[2] == len(page.value(page.data["listed"])["conflicts"]) == len(page.data["digests"]) == 150


@pytest.mark.parametrize("words", [["--action", "re*", "--outcome", "success"], ["--id", "e*"], ["--grep", "</script>"], ["--match", "/action=read"],
                                   ["--failed", "--since", "2024-03"], ["--target", "nobody <b>"]])
def test_what_is_asked_chooses_events(reports, words):
    """Those that cadf-events shows of the same question; the head of the page says what was asked, and runs none of it."""
    content = reports.page(*words, "hostile.json")
    asked = ended(os.path.join(os.path.dirname(TOOL), "cadf-events"), [*words, "--contradicted", "hide", "hostile.json"], env=reports.environment)
    page = Data(content)
    assert page.value(page.data["log"]).get("events", []) == [json.loads(line) for line in asked.output.splitlines()]
    assert html.escape("Only the events that answer %s" % shlex.join(word for word in words if word not in ("--since", "2024-03")).replace(
        "--failed", "--outcome failure --outcome 'failure/*'")).encode() in content
    assert reports.answer(*words, "--against", "hostile.json", "hostile.json")[0] == 2


def under(reports, size, *words):
    """What the tool answers in that many bytes of address space, and what it leaves in its temporary folder."""
    limit = lambda: resource.setrlimit(resource.RLIMIT_AS, (size, size))
    for _ in range(2):  # once more if it did not end in time, as it did once beside other work
        with tempfile.TemporaryDirectory() as folder:
            answer = ended(TOOL, words, env=dict(reports.environment, TMPDIR=folder), preexec_fn=limit)
            left = os.listdir(folder)
        if answer.status is not None:
            break
    return answer, left


def test_memory(reports):
    """In too little memory it ends with status 4 and a beginning of the page at most, and leaves nothing behind."""
    put("large.json", json.dumps(plain(10000)))
    script = LOADED + "print(open('/proc/self/status').read())"
    least = 1024 * int(re.search(rb"VmPeak:\s*(\d+)", ended(PYTHON, ["-c", script]).output)[1])  # below it Python itself fails
    sizes = range(least + (4 << 20), least + (40 << 20), 6 << 20)
    page, statuses = reports.page("large.json"), set()
    for size, (answer, left) in zip(sizes, side_by_side(lambda size: under(reports, size, "large.json"), sizes)):
        what, said = "in %d MiB" % (size >> 20), b"" if answer.status == 0 else b"cadf-report: out of memory\n"
        whole = page if answer.status == 0 else page[:len(answer.output)]
        assert left == [], what
        assert answer.output == whole, what
        assert answer.error.endswith(said), what  # Python may say more before it
        statuses.add(answer.status)
    assert statuses == {0, 4}


def test_stopped(reports):
    """A call that is stopped leaves nothing of the log behind."""
    slow = put("slow", "#!/bin/sh\necho >started\nexec sleep 60\n")
    os.chmod(slow, 0o755)
    os.mkdir("temporary")
    environment = dict(reports.environment, CADF=os.path.abspath(slow), TMPDIR=os.path.abspath("temporary"))
    for number in (signal.SIGINT, signal.SIGTERM):
        child = subprocess.Popen([TOOL, "both"], env=environment, stdout=subprocess.PIPE, stderr=subprocess.PIPE)
        while not os.path.exists("started"):
            time.sleep(0.01)
        assert len(os.listdir("temporary")) == 1
        child.send_signal(number)
        output, said = child.communicate()
        assert child.returncode == 128 + number
        assert output == b""
        assert said == ("cadf-report: stopped by %s\n" % number.name).encode()
        assert os.listdir("temporary") == []
        os.remove("started")


def test_progress(reports):
    """On a terminal standard error says what is being done, once the call has lasted, and is empty again at the end."""
    script = ("import runpy, sys; sys.path.insert(0, %r); import cadf_toolkit as kit; kit.QUIET, kit.BETWEEN_LINES = %d, 0.001; "
              "sys.argv = [%r, 'days.json']; runpy.run_path(sys.argv[0], run_name='__main__')")
    said = []
    for quiet in (0, 60):
        leader, terminal = pty.openpty()
        fcntl.ioctl(terminal, termios.TIOCSWINSZ, struct.pack("4H", 24, 500, 0, 0))  # columns for a command far down in the tree
        done = subprocess.run([PYTHON, "-c", script % (SHARE, quiet, TOOL)], env=reports.environment, stdout=subprocess.DEVNULL, stderr=terminal)
        os.write(terminal, b"end")
        os.close(terminal)
        told = b""
        while not told.endswith(b"end"):
            told += os.read(leader, 10000)
        said.append(told.replace(b"\x1b[K", b"").decode().split("\r"))
        os.close(leader)
        assert done.returncode == 0
    lasted, short = said
    assert (lasted[0], lasted[-1], short) == ("", "end", ["end"])
    assert any(re.search(r" joins the files: \d+ s$", line) for line in lasted) and all(line.startswith("cadf-report: ") for line in filter(None, lasted[:-1]))
