"""cadf.Site of the package for Python: what it answers is what the tools do, over the second implementation; it needs no library."""
import datetime
import doctest
import gc
import json
import os
import pathlib
import pickle
import re
import resource
import runpy
import shutil
import signal
import subprocess
import sys
import warnings

import pytest

from tests import TOP, text_of
from tests.library.declarations import HEADERS, PYTHON, STRICT  # which has the package be found
from tests.machine import ended
from tests.reference.events import EVENT_URI, document as atoms_of
from tests.reference.json_text import spelled
from tests.reference.rulings import digest_of_value
from tests.reference.seal_files import seal_of
from tests.reference.site_seal_files import site_seal_of
from tests.tools.copies import copied
from tests.tools.odd_logs import EVENT

import cadf
from cadf import _site

sys.path.insert(0, os.path.join(TOP, "share", "cadf"))
import cadf_question

pytestmark = pytest.mark.filterwarnings("ignore::cadf.CadfWarning")  # those that a test expects are seen nevertheless

LOG = "audit"
EXAMPLES = os.path.join(TOP, "examples", "library")
HOSTILE = '<script>alert(1)</script>\u202e"&'
SLOW = "#!/bin/sh\necho $$ >%s\necho '{\"id\":\"e\"}'\nexec sleep 60\n"


def event(identifier, at="2024-03-01T12:00:00Z", **members):
    return {**EVENT, "id": identifier, "eventTime": at, **members}


def document(*events, **members):
    return json.dumps({"id": LOG, "events": events, **members}, ensure_ascii=False)


@pytest.fixture(autouse=True)
def folder(tmp_path, monkeypatch):
    """The working folder, where the tools call the second implementation."""
    monkeypatch.setenv("PATH", os.path.join(TOP, "tools") + os.pathsep + os.environ["PATH"])
    monkeypatch.setenv("CADF", os.path.join(TOP, "tests", "reference", "cadf"))
    monkeypatch.chdir(tmp_path)
    return tmp_path


@pytest.fixture
def anew():
    """What the module has, run anew: what stands in no function of it is tried by this test."""
    with warnings.catch_warnings():
        warnings.simplefilter("ignore")  # it is there already, as this says
        return runpy.run_module("cadf._site")


def made(path, *documents, by="day"):
    """A site with what these documents tell."""
    site = cadf.Site(path)
    assert site.take(*documents, by=by) is True
    return site


# Three days; the event of the second has two bodies, of which one is by another initiator.
DAYS = [document(event("e1", "2024-02-29T23:59:59.5Z"), event("e2", initiatorId="v", action="create"), event("e3", "2024-03-02T08:00:00+01:00", outcome="failure")),
        document(event("e2", initiatorId="w", action="create"))]


def ids(events):
    return [(found["id"], found.contradicted) for found in events]


# ---- What is asked

def test_events_of_a_folder_and_of_a_file():
    """Those of a range that match, in order, with the bodies that contradict among them; each iteration asks anew."""
    for site in (made("folder/", *DAYS), made("file", *DAYS, by=None)):
        assert ids(site.events()) == [("e1", 0), ("e2", 2), ("e2", 2), ("e3", 0)]
        assert ids(site.events("2024-03-01", "2024-03-02")) == [("e2", 2), ("e2", 2)]
        assert ids(site.events(since=datetime.date(2024, 3, 1), contradicted="hide")) == [("e3", 0)]
        at = datetime.datetime(2024, 3, 2, 8, tzinfo=datetime.timezone(datetime.timedelta(hours=1)))
        assert ids(site.events(at)) == [("e3", 0)] and ids(site.events(until=at, contradicted="only")) == [("e2", 2)] * 2
        assert ids(site.events(failed=True)) == [("e3", 0)] and ids(site.events(reverse=True, action="read")) == [("e3", 0), ("e1", 0)]
        assert ids(site.events(initiator=["v", "w*"])) == [("e2", 2), ("e2", 2)] and ids(site.events(initiator="v", id="e2")) == [("e2", 2)]
        assert ids(site.events(match="/outcome=fail*", grep="e3")) == [("e3", 0)]
        asked = site.events(until="2024-03")
        assert ids(asked) == [("e1", 0)]
        site.take(document(event("e0", "2024-02-01T00:00:00Z")))
        assert ids(asked) == [("e0", 0), ("e1", 0)]


def test_events_are_dictionaries_and_their_bodies_bytes():
    """The members are those of the log, and the text is canonical; both go to other processes."""
    own, more = event("e1", tags=["b", "a"]), {"n": 2 ** 64 - 1, "\u00e9": [None, True]}
    whole = {**own, "tags": ["a", "b"], "more": more, "typeURI": EVENT_URI}
    site = made("site", document({**own, "more": more}), by=None)
    found, = site.events()
    assert found == whole and isinstance(found, dict)
    assert list(site.events().bodies()) == [spelled(whole).encode()]
    site.take(document(own))
    other = {name: value for name, value in whole.items() if name != "more"}
    assert set(site.events(contradicted="only").bodies()) == {spelled(each).encode() for each in (whole, other)}
    copies = pickle.loads(pickle.dumps(list(site.events())))
    assert [(each in (whole, other), each.contradicted) for each in copies] == [(True, 2)] * 2


def test_a_handle_keeps_nothing():
    site = made("site", DAYS[0])
    list(site.events())
    assert vars(site) == {"path": "site"} and pickle.loads(pickle.dumps(site)).path == "site" and repr(site) == "Site('site')"


def test_what_is_not_read_to_its_end_is_ended(folder, monkeypatch):
    """The tool doesn't outlive who reads it."""
    (folder / "bin").mkdir()
    (folder / "bin/cadf-events").write_text(SLOW % (folder / "number"))
    (folder / "bin/cadf-events").chmod(0o755)
    monkeypatch.setenv("PATH", str(folder / "bin") + os.pathsep + os.environ["PATH"])
    events = iter(cadf.Site("site").events())
    assert next(events) == {"id": "e"}
    number = int((folder / "number").read_text())
    os.kill(number, 0)
    del events
    gc.collect()
    with pytest.raises(ProcessLookupError):
        os.kill(number, 0)


def test_kinds_are_those_of_the_tool(anew):
    assert sorted(anew["KINDS"]) == sorted([*cadf_question.KINDS, "grep", "match"])


# ---- What is taken

def test_take_of_bytes_texts_and_files(folder):
    """They make what they make as files, in memory and by name, whatever the name."""
    names = ["-", "--", "south.cadf", os.fsdecode(b"caf\xe9")]
    for number, name in enumerate(names):
        (folder / name).write_text(document(event("f%d" % number)))
    data = [document(event("e%d" % number)).encode() for number in range(4)]
    before = len(os.listdir("/dev/fd"))
    site = made("site/", data[0], data[1].decode(), bytearray(data[2]), memoryview(data[3]), *map(pathlib.Path, names))
    assert {found["id"] for found in site.events()} == {"%s%d" % (kind, number) for kind in "ef" for number in range(4)}
    assert len(os.listdir("/dev/fd")) == before
    for wrong in (1, None, ["{}"], {"id": "e"}):
        with pytest.raises(TypeError, match="^an input is bytes or a text, not "):
            site.take(wrong)


def test_take_leaves_the_rest():
    """What is beyond the limits is refused, or written to a file, which is told."""
    site = made("site/", DAYS[0])
    with pytest.raises(cadf.Refused, match="more than 0 new windows"):
        site.take(document(event("e9", "2024-05-01T00:00:00Z")), windows=0)
    with pytest.warns(cadf.CadfWarning, match="facts wait"):
        assert site.take(document(event("e9", "2024-05-01T00:00:00Z"), event("e8")), windows=0, rest=pathlib.Path("rest")) is False
    assert {found["id"] for found in site.events()} == {"e1", "e2", "e3", "e8"}
    assert [found["id"] for found in cadf.Site(pathlib.Path("rest")).events()] == ["e9"]
    for bound in ({"not_before": "2024-06"}, {"not_after": datetime.date(2024, 4, 1)}):
        with pytest.raises(cadf.Refused, match="2024-05-01"):
            site.take(pathlib.Path("rest"), **bound)


def test_take_waits_for_the_lock():
    site = made("site/", DAYS[0])
    with subprocess.Popen(["flock", "site/.lock", "sh", "-c", "echo; exec sleep 60"], stdout=subprocess.PIPE) as holder:
        holder.stdout.readline()
        with pytest.raises(cadf.Failed, match="^site/.lock: another call holds this lock"):
            site.take(DAYS[1], wait=0.01)
        holder.terminate()


# ---- What is refused

@pytest.mark.parametrize("number, wrong, place", [(1, '{"id":"audit","events":[{}]}', "event 1"), (2, "{", None), (3, b"\xff", None)])
def test_refused_input(folder, number, wrong, place):
    """It is told by its number, and the place in it, in memory as the command does and by name; nothing is taken."""
    inputs = [document(event("e%d" % each)) for each in range(3)]
    inputs[number - 1] = wrong
    (folder / "wrong.json").write_bytes(wrong if isinstance(wrong, bytes) else wrong.encode())
    told = []
    for each in (wrong, folder / "wrong.json"):
        inputs[number - 1] = each
        with pytest.raises(cadf.Refused) as caught:
            cadf.Site("site").take(*inputs)
        assert (caught.value.input, caught.value.place, caught.value.status) == (number, place, 1)
        told.append(caught.value.text)
    assert told[0].startswith("input %d: " % number) and told[1] == "%s: %s" % (folder / "wrong.json", told[0][len("input 1: "):])
    assert not os.path.exists("site") and pickle.loads(pickle.dumps(caught.value)).input == number


def test_refused_words():
    """A name that is none is a TypeError at once, and a wrong value what the tool says of it."""
    site = made("site/", DAYS[0])
    with pytest.raises(TypeError, match="events are asked by id, .* and not by initiatorr"):
        site.events(initiatorr="u1")
    for wrong in (site.events("yesteryear"), site.events(late="soon"), site.events(match="x"), site.events(contradicted="some"), site.events(action="")):
        with pytest.raises(cadf.WrongArgument, match="^argument --"):
            list(wrong)
    with pytest.raises(cadf.WrongArgument, match="^since: a time without an offset"):
        site.events(datetime.datetime(2024, 3, 1))
    with pytest.raises(ValueError, match="no FILE"):
        site.take()
    with pytest.raises(cadf.Refused, match="other unit"):
        site.take(DAYS[0], by="hour")
    with pytest.raises(cadf.Refused, match="^input 1: other log"):
        site.take('{"id":"h","events":[]}')


def test_failed(monkeypatch):
    """What isn't there, and no tool, is an OSError that names it."""
    for call in (lambda: list(cadf.Site("absent").events()), lambda: list(cadf.Site("absent").conflicts()), cadf.Site("absent").seal):
        with pytest.raises(cadf.Failed, match="^absent: No such file") as caught:
            call()
        assert isinstance(caught.value, OSError) and caught.value.status == 3
    monkeypatch.setenv("PATH", "/nowhere")
    with pytest.raises(cadf.Failed, match="^cadf-take: .*: install the tools"):
        cadf.Site("site").take("{}")


def test_ended_by_a_signal(folder, monkeypatch):
    (folder / "cadf-seal").write_text("#!/bin/sh\nkill -9 $$\n")
    (folder / "cadf-seal").chmod(0o755)
    monkeypatch.setenv("PATH", str(folder) + os.pathsep + os.environ["PATH"])
    with pytest.raises(cadf.Failed, match="^cadf-seal: ended with -9$"):
        cadf.Site("site").seal()


def test_no_failure_is_lost():
    """Where the system drops how programs end, none is started: each would seem to end well."""
    before = signal.signal(signal.SIGCHLD, signal.SIG_IGN)
    try:
        with pytest.raises(cadf.Failed, match="^cadf-take: SIGCHLD is ignored"):
            cadf.Site("site").take("{")
    finally:
        signal.signal(signal.SIGCHLD, before)


def test_damage_is_told(folder):
    """A window that can't be read is a warning where others were asked for, and an error, after all others, where it was."""
    site = made("site/", DAYS[0])
    damaged, = folder.glob("site/2024-03-01.*")
    damaged.write_bytes(b"x")
    with pytest.warns(cadf.CadfWarning, match="^left out 2024-03-01: "):
        assert ids(site.events("2024-03-02")) == [("e3", 0)]
    found, events = [], site.events()
    with pytest.raises(cadf.Refused, match="left out 2024-03-01: site/2024-03-01"):
        for each in events:
            found.append(each["id"])
    assert found == ["e1", "e3"]


def test_contradictions_are_a_warning():
    with pytest.warns(cadf.CadfWarning, match="contradict: 1"):
        list(made("site/", *DAYS).events())


# ---- Conflicts and rulings

def test_conflicts_and_rulings():
    """Each key with several values, and a ruling of the value at a place, with who rules."""
    for path in ("folder/", "file"):
        site = made(path, *DAYS, document(name="a"), document(name="b"), by="day" if path[-1] == "/" else None)
        first, second = site.conflicts()
        assert (first["letter"], first["key"], first["state"]) == ("E", "e2", "open") and (second["letter"], second["key"]) == ("P", "name")
        assert [each["value"] for each in second["values"]] == ["a", "b"]
        bodies = [{name: value for name, value in event("e2", initiatorId=who, action="create").items() if name != "id"} for who in "vw"]
        assert [each["digest"] for each in first["values"]] == [digest_of_value(spelled(body)) for body in bodies]
        site.rule([(first, 2), (second, 1)], by="ann", why="asked", at="2024-03-04T10:00")
        assert [[each["state"], *(value["ruled"] for value in each["values"])] for each in site.conflicts()] == [
            ["settled", False, True], ["settled", True, False]]
        found = {each["id"]: each for each in site.events()}
        assert found["e2"]["initiatorId"] == "w" and found["e2"].contradicted == 0
        records = [each for name, each in found.items() if name.startswith("cadf-ruling:")]
        assert [(each["initiator"]["id"], each["eventTime"]) for each in records] == [("ann", "2024-03-04T10:00:00Z")] * 2
        with pytest.raises(cadf.Refused, match="^input 1: line 1: another value of this key is ruled"):
            site.rule([(first, 1)], by="bob")
        site.rule([(first, 1)], by="bob", again=True)
        assert [each["state"] for each in site.conflicts()] == ["open", "settled"]


def test_ruling_of_what_was_seen():
    """The value is the one that was listed: where the site has taken another since, at that place, it is refused."""
    site = made("site", document(name="b"), document(name="c"), by=None)
    conflict, = site.conflicts()
    site.take(document(name="a"))
    with pytest.raises(cadf.Refused) as caught:
        site.rule([(conflict, 1)])
    assert (caught.value.input, caught.value.place) == (1, "line 1") and "another digest" in caught.value.text
    for place in (0, 3, -1, True):
        with pytest.raises(cadf.WrongArgument, match="^place$"):
            site.rule([(conflict, place)])
    assert [each["state"] for each in site.conflicts()] == ["open"]


def test_seal():
    """Of a folder its seal, window by window, by the second implementation."""
    atoms = set().union(*(atoms_of(json.loads(each))[1] for each in DAYS))
    assert made("site/", *DAYS).seal() == site_seal_of(LOG, atoms, "day")
    assert made("file", *DAYS, by=None).seal() == seal_of(LOG, atoms)


# ---- In a notebook

def cells(text):
    rows = re.findall("<tr>(.*?)</tr>", text)
    return [re.findall("<t([dh])>(.*?)</t[dh]>", row) for row in rows]


def test_tables_are_short_and_show_texts_as_such(anew):
    """At most twenty rows, of what can be printed; what a text has of HTML isn't HTML. The result isn't used up."""
    made("site", document(*(event("e%02d" % number, targetId="t" * 300) for number in range(21))), by=None)
    asked = anew["Site"]("site").events()
    shown = cells(asked._repr_html_())
    assert len(shown) == 1 + 20 and {kind for kind, _ in shown[0]} == {"h"} and "<caption>the first 20</caption>" in asked._repr_html_()
    assert shown[20][1] == ("d", "e19") and shown[1][6] == ("d", "t" * 200 + "..")
    assert len(list(asked)) == 21
    few = made("few", document(event(HOSTILE)), by=None)
    text = few.events()._repr_html_()
    assert "<script" not in text and "\u202e" not in text and "caption" not in text
    assert cells(text)[1][1] == ("d", "&lt;script&gt;alert(1)&lt;/script&gt;\\u202e&quot;&amp;")


def test_table_of_conflicts():
    site = made("site/", *DAYS, document(name="a"), document(name="b"))
    assert [[text for _, text in row] for row in cells(site.conflicts()._repr_html_())] == [
        ["state", "letter", "key", "values"], ["open", "E", "e2", "2"], ["open", "P", "name", "2"]]


# ---- What it costs

def worked():
    """The seconds that programs have worked which were started here."""
    used = resource.getrusage(resource.RUSAGE_CHILDREN)
    return used.ru_utime + used.ru_stime


def test_cost_of_one_event_more(cadf, folder, monkeypatch):
    """A folder of 100,000 events takes another one in at most 0.3 s of the processor, also as the machine is busy otherwise."""
    monkeypatch.setenv("CADF", cadf)
    monkeypatch.setenv("PATH", copied(str(folder)) + os.pathsep + os.environ["PATH"])  # where what they import is compiled, as it is installed
    many = [event("e%d" % number, "2024-03-%02dT%02d:%02d:%02dZ" % (1 + number // 3334, number // 139 % 24, number // 60 % 60, number % 60)) for number in range(100_000)]
    site, took = made("site/", document(*many)), []
    for number in range(5):
        begun = worked()
        site.take(document(event("f%d" % number, "2024-03-09T12:00:00Z")))
        took.append(worked() - begun)
    assert min(took) <= 0.3, took
    assert sum(1 for _ in site.events("2024-03-09", "2024-03-10").bodies()) == 3334 + 5


# ---- Examples and pages

def example(name, *words):
    path = os.pathsep.join(filter(None, [PYTHON, os.environ.get("PYTHONPATH")]))
    done = ended(sys.executable, [os.path.join(EXAMPLES, name), *words], env={**os.environ, "PYTHONPATH": path, "PYTHONWARNINGS": "ignore"})
    return done.status, done.output.decode(), done.error.decode()


def test_example_of_events():
    made("north/", *DAYS)
    assert example("events.py", "north/", "2024-03-01", "2024-03-03") == (0, "".join(line + "\n" for line in (
        *["2024-03-01T12:00:00Z create success e2 (one of 2 bodies that contradict)"] * 2, "2024-03-02T08:00:00+01:00 read failure e3")), "")
    assert example("events.py", "absent", "2024-03-01", "2024-03-03")[::2] == (1, "events: absent: No such file or directory\n")


def test_example_of_two_sites():
    """Each has what both have."""
    for name, documents in (("north", DAYS), ("south", [document(event("e1", outcome="failure"))])):
        made(name, *documents, by=None)
    assert example("join.py", "north", "south") == (0, "open E e1 2\nopen E e2 2\n", "")
    with open("north", "rb") as north, open("south", "rb") as south:
        assert north.read() == south.read()


@pytest.mark.parametrize("name", sorted(os.listdir(EXAMPLES)))
def test_examples_are_short(name, tmp_path):
    """At most thirty lines. Those in C are compiled without a warning."""
    assert text_of("examples", "library", name).count("\n") <= 30
    if name.endswith(".c") and shutil.which("gcc"):
        subprocess.run(["gcc", *STRICT, "-I", HEADERS, "-c", os.path.join(EXAMPLES, name), "-o", tmp_path / "made"], check=True)



def test_examples_of_the_docstrings():
    made("south/", document(event("e1"), event("e2", action="create"), event("e3", initiatorId="x")))
    failed, tried = doctest.testmod(_site)
    assert failed == 0 and tried == text_of("bindings", "python", "cadf", "_site.py").count(">>> ")


def test_shown_program(capsys):
    """The program that the page shows for sites."""
    program = re.findall(r"(?ms)^```python\n(.*?)^```$", text_of("docs", "LIBRARY.md"))[1]
    exec(compile(program, "LIBRARY.md", "exec"), {})
    lines = capsys.readouterr().out.splitlines()
    assert lines[0] == "room ['a', 'b']" and lines[1].startswith("CADF-SITE-SEAL ")
    assert [each["state"] for each in cadf.Site("north/").conflicts()] == ["settled"]
