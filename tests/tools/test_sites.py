"""tools/cadf-conflicts, cadf-which and cadf-agree on files of every kind, beside the command's own answers."""
import hashlib
import json
import os
import re
import resource
import subprocess

import pytest

from tests import TOP
from tests.formats import in_format
from tests.machine import ended
from tests.reference.replica_files import file_of, read_file
from tests.tools.copies import copied
from tests.tools.odd_logs import EVENT

TOOLS = os.path.join(TOP, "tools")
VECTORS = os.path.join(TOP, "examples", "vectors")
# What to do next, which test_advice alone looks at.
ADVICE = re.compile(": (the file is damaged|a later release wrote it|one site has one log|an event by itself).*")
# Above U+FFFF, and in U+E000 to U+FFFF: UTF-8 and UTF-16 order these two otherwise.
HIGH, LOW = "\U0001f600", "\uffee"
ROOM = 150 << 20  # bytes of memory for files of some 100 KB
ODD_KEYS = ["e1", "a b", "-n", "#x", "ü\u202e\"\\", HIGH, LOW, "\u009b1m", "'$(x)'"]


def put(name, data):
    with open(name, "wb") as file:
        file.write(data if isinstance(data, bytes) else data.encode())


def held(name):
    with open(name, "rb") as file:
        return file.read()


def bare(rulings):
    """A file of rulings without their records."""
    log, atoms = read_file(rulings)
    return file_of(log, {atom for atom in atoms if not atom[1].startswith("cadf-ruling:")})


def document(events=(), log="g", **members):
    return json.dumps(dict(members, id=log, events=[dict(EVENT, **event) for event in events]))


def replaced(line, *pairs):
    for old, new in pairs:
        line = line.replace(old, new)
    return line


class Sites:
    """The working folder with files of every kind, and calls of the tools on them.

    Three documents of nine keys with two or three values, an entity and a property with two, and their sites.
    """

    def __init__(self, cadf):
        self.binary, self.tools = cadf, TOOLS
        put("a.json", document([dict(id=key, targetId=LOW) for key in ODD_KEYS], name="n", resources=[{"id": "r", "v": 1}]))
        put("b.json", document([dict(id=key, targetId=HIGH, tags=["x"]) for key in ODD_KEYS], name=["n"], resources=[{"id": "r", "v": True}]))
        put("c.json", document([dict(id=key, targetId="t", more={"a/b": [1, {"c~": None}]}) for key in ODD_KEYS[:2]] + [{"id": "plain"}]))
        put("cut.json", '{"id":')
        put("event.json", json.dumps(dict(EVENT, id="e")))
        put("other.json", document(log="h \u202e"))
        self.cadf("site", "join", "a.json", "b.json", "c.json")
        self.cadf("a", "join", "a.json")
        put("site.1", in_format(1, held("site")))

    def tool(self, name, *words, env=(), **options):
        """The tool's status, its output, and its lines on standard error."""
        answer = ended(os.path.join(self.tools, "cadf-" + name), words, env={**os.environ, "CADF": self.binary, **dict(env)}, **options)
        return answer.status, answer.output, [ADVICE.sub("", line) for line in answer.error.decode().splitlines()]

    def cadf(self, output, *words):
        """Writes what the command answers, which it has to."""
        done = subprocess.run([self.binary, *words], stdout=subprocess.PIPE, check=True)
        put(output, done.stdout)

    def choices(self, site, place=None):
        """The lines of a site's list that can be chosen: all, or those of a place."""
        lines = self.tool("conflicts", site)[1].decode().splitlines(keepends=True)
        return [line for line in lines if not line.startswith("#") and place in (None, int(line.split()[-2]))]

    def rules(self, site, *options, status=0, said=()):
        """What `--rule choices` of a site writes, without the records of the rulings."""
        got, output, lines = self.tool("conflicts", "--rule", "choices", "--as", "ann", *options, site)
        assert (got, lines) == (status, list(said))
        return output and bare(output)

    def missing(self, *words):
        self.cadf("missing", "missing", *words)
        return held("missing")


@pytest.fixture
def sites(cadf, tmp_path, monkeypatch):
    monkeypatch.chdir(tmp_path)
    return Sites(cadf)


# ---- The list of what is open

def test_list(sites):
    """In the order of UTF-8, with digests of the values, of files of each kind."""
    status, output, said = sites.tool("conflicts", "site")
    lines = output.decode().splitlines()
    assert (status, said, output.isascii()) == (5, ["cadf-conflicts: open 11, settled 0"], True)
    assert [line for line in lines if line.startswith("#")] == [
        *("# E %s: open, %d values" % (json.dumps(key), 3 if key in ODD_KEYS[:2] else 2) for key in sorted(ODD_KEYS)),
        '# P "name": open, 2 values', '# R "r": open, 2 values']
    body = json.dumps(dict(EVENT, targetId="?"), sort_keys=True, separators=(",", ":"))
    for place, target in enumerate((LOW, HIGH), 1):
        digest = hashlib.sha256(body.replace("?", target).encode()).hexdigest()
        assert "E %s %d %s" % (json.dumps("-n"), place, digest) in lines
    assert sites.tool("conflicts", "site.1") == (status, output, said)
    assert sites.tool("conflicts", "a.json") == sites.tool("conflicts", "--", "a") == (0, b"", [])


def test_list_with_values(sites):
    status, output, _ = sites.tool("conflicts", "--values", "site", "a.json", "b.json", "c.json")
    text = output.decode()
    assert status == 5 and text.count("#   in ") == 3 * 2 + 2 * 7 + 2 * 2
    for shown in ("/more/a~1b/0: 1\n#   /more/a~1b/1/c~0: null\n", "/v: 1\n#   in a.json\n", "/v: true\n#   in b.json\n", "/more/a~1b/0: absent\n", '/0: "n"\n'):
        assert "\n#   " + shown in text
    assert [line for line in text.splitlines(keepends=True) if line[0] != "#"] == sites.choices("site")


def test_two_large_values(sites):
    """Two values of 140 KB that differ in 20,000 members below a long name, or in the last: little memory, and a short list."""
    limit = {"preexec_fn": lambda: resource.setrlimit(resource.RLIMIT_AS, (ROOM, ROOM))}
    for name, numbers in (("one", "1," * 20000 + "1"), ("two", "2," * 20000 + "2"), ("end", "1," * 20000 + "2")):
        put(name + ".json", '{"id":"g","events":[],"p":{"%s":[%s]}}' % ("x" * 100000, numbers))
    for name in ("two", "end"):
        sites.cadf("bomb-" + name, "join", "one.json", name + ".json")
    status, output, _ = sites.tool("conflicts", "--values", "bomb-two", **limit)
    assert status == 5
    lines = output.decode().splitlines()
    assert len(lines) == 3 + 2 * 101 and lines[102] == "#   and in others"
    assert [lines[2], lines[-2]] == ["#   /%s..: %d" % ("x" * 999, value) for value in (1, 2)]
    status, output, _ = sites.tool("conflicts", "--values", "bomb-end", **limit)
    assert (status, [line[-6:] for line in output.decode().splitlines() if line.startswith("#   ")]) == (5, ["x..: 1", "x..: 2"])
    sites.tools = copied("copy", "MOST_NAMED, LONGEST_SHOWN = 64, 100, 1000", "MOST_NAMED, LONGEST_SHOWN = 64, 10 ** 9, 10 ** 9")
    status, _, said = sites.tool("conflicts", "--values", "bomb-two", **limit)
    assert (status, said) == (4, ["cadf-conflicts: out of memory"])


@pytest.mark.parametrize("characters, rulings, status", [(2 ** 20, 0, 0), (1, 40000, 1)])
def test_many_choices_of_one_key(sites, characters, rulings, status):
    """A line of the choices costs the same, however large the value that it chooses and however many the rulings of its key."""
    limit = {"preexec_fn": lambda: resource.setrlimit(resource.RLIMIT_CPU, (4, 4))}
    for name in "ab":
        put(name + ".json", document([dict(id="e", more=name * characters)]))
    put("rulings", file_of("g", {("U", "E", "e", hashlib.sha256(b"%d" % number).hexdigest()) for number in range(rulings)}))
    sites.cadf("many", "join", "a.json", "b.json", "rulings")
    put("choices", sites.choices("many", 1)[0] * 5000)
    assert sites.tool("conflicts", "--rule", "choices", "many", **limit)[0] == status


def shown_of(sites, *values):
    """The list with the values of a property that a file each has."""
    names = ["v%d.json" % number for number in range(len(values))]
    for name, value in zip(names, values):
        put(name, json.dumps({"id": "g", "events": [], "p": value}))
    sites.cadf("values", "join", *names)
    return sites.tool("conflicts", "--values", "values")[1].decode().splitlines()


def test_many_values(sites):
    """Of more than 64 values of a key the first 64 are compared."""
    lines = shown_of(sites, *range(100, 166))
    assert len(lines) == 1 + 66 + 64 and lines[2:130:2] == ["#   all of it: %d" % (100 + number) for number in range(64)]


def test_values_that_differ_late(sites):
    """Long texts are shown from shortly before the place where they differ; one beside none is shown from its beginning."""
    same = "x" * 2000
    lines = shown_of(sites, {"a": same + "a"}, {"a": same + "b" + same, "b": same})
    assert sorted(line for line in lines if line.startswith("#   ")) == [
        '#   /a: ..%sa"' % same[:64], "#   /a: ..%sb%s.." % (same[:64], same[:935]), '#   /b: "%s..' % same[:999], "#   /b: absent"]


def test_values_of_each_kind(sites):
    """Members of each kind, and where one value has parts and another none."""
    lines = shown_of(sites, {}, {"a": []}, {"a": [7, {"b": "é\u009b"}], "c": {}}, {"a": {"k": 7}, "c": {}})
    lines = [line[4:] for line in lines if line.startswith("#   ")]
    places = ["all of it", "/a", "/a/0", "/a/1/b", "/a/k", "/c"]
    values = [{"/a": "[]"}, {"/a/0": "7", "/a/1/b": '"\\u00e9\\u009b"', "/c": "{}"}, {"/a/k": "7", "/c": "{}"}, {"all of it": "{}"}]
    wanted = [["%s: %s" % (place, value.get(place, "absent")) for place in places] for value in values]
    assert sorted(lines[start:start + 6] for start in range(0, len(lines), 6)) == sorted(wanted)


# ---- Rulings

@pytest.mark.parametrize("place", [1, 2])
def test_many_rulings(sites, place):
    """The bytes that the command's own calls leave, also of a site of format 1 and of choices by a pipe."""
    choices = sites.choices("site", place)
    put("choices", "# a comment\n\n" + "".join(choices))
    output = sites.rules("site")
    put("ruled", held("site"))
    for line in choices:
        key = json.JSONDecoder().raw_decode(line[2:])[0]
        sites.cadf("ruled.new", "rule", "--", line[0], key, str(place), "ruled")
        os.rename("ruled.new", "ruled")
    assert output == sites.missing("ruled", "site") == sites.rules("site.1")
    assert bare(sites.tool("conflicts", "--rule", "-", "site", input=held("choices"))[1]) == output
    status, listed, said = sites.tool("conflicts", "ruled")
    assert (status, said, listed.decode().count("  ruled\n")) == (0, ["cadf-conflicts: open 0, settled 11"], 11)
    assert sites.choices("ruled") == [] and sites.rules("ruled") == sites.missing("site", "site")


def test_ruling_of_a_key_with_one_value(sites):
    put("choices", 'E "plain" 1 %s\n' % hashlib.sha256(json.dumps(EVENT, sort_keys=True, separators=(",", ":")).encode()).hexdigest())
    sites.cadf("ruled", "rule", "E", "plain", "1", "site")
    assert sites.rules("site") == sites.missing("ruled", "site")


@pytest.mark.parametrize("change", [
    pytest.param(lambda line: line[:-3] + ("00" if line[-3:-1] != "00" else "11") + "\n", id="another digest"),
    pytest.param(lambda line: line.replace(" 1 ", " 2 "), id="another place"), pytest.param(lambda line: line.replace(" 1 ", " 99 "), id="far"),
    pytest.param(lambda line: 'E "none" 1 ' + line[-65:], id="no key"), pytest.param(lambda line: line[:-1] + "\r\n", id="a carriage return"),
    pytest.param(lambda line: line.replace(" 1 ", "  1 "), id="two blanks"), pytest.param(lambda line: "X" + line[1:], id="a letter"),
    pytest.param(lambda line: line[:-65] + line[-65:].upper(), id="upper case"), pytest.param(lambda line: line[:-1] + " \n", id="a blank after it"),
    pytest.param(lambda line: line.replace(" 1 ", " 0 "), id="place 0"), pytest.param(lambda line: "E e1 1 " + line[-65:], id="no string"),
    pytest.param(lambda line: 'E "\\ud800" 1 ' + line[-65:], id="half of a pair"), pytest.param(lambda line: line[:-1], id="cut off")])
def test_refused_ruling(sites, change):
    """It is named by its line, and nothing is written."""
    first, *_, good, _ = sites.choices("site")
    put("choices", good + "# x\n" + change(first))
    status, output, said = sites.tool("conflicts", "--rule", "choices", "--as", "ann", "site")
    assert (status, output, len(said)) == (1, b"", 1) and said[0].startswith("cadf-conflicts: choices: line 3: ")


def test_refused_rulings_are_all_named(sites):
    put("choices", b"\xff\n" + "".join(sites.choices("site")[:2]).encode() + b"x\n")
    status, output, said = sites.tool("conflicts", "--rule", "choices", "--as", "ann", "site")
    assert (status, output, [line.split(": ")[2] for line in said]) == (1, b"", ["line 1", "line 3", "line 4"])


def test_another_value_of_a_ruled_key(sites):
    """It is refused, and written with --again."""
    sites.cadf("ruled", "rule", "E", "a b", "1", "site")
    put("choices", [line for line in sites.choices("site") if line.startswith('E "a b" 2 ')][0])
    refusal = "cadf-conflicts: choices: line 1: another value of this key is ruled: see --again"
    assert sites.rules("ruled", status=1, said=[refusal]) == b""
    sites.cadf("twice", "rule", "E", "a b", "2", "ruled")
    assert sites.rules("ruled", "--again") == sites.missing("twice", "ruled")
    status, output, said = sites.tool("conflicts", "twice")
    assert status == 5 and '# E "a b": open, 3 values, 2 ruled\n' in output.decode()
    assert said[:-1] == ["cadf-conflicts: of the open ones 1 have rulings for different values: agree on one, and have each site erase the other one: "
                         "cadf-erase --ruling DIGEST SITE"]


def test_list_for_programs(sites):
    """Each key has a line of JSON, also one that is settled, with its values as they are and their digests."""
    bodies = [json.dumps(dict(EVENT, targetId=target), sort_keys=True, separators=(",", ":"), ensure_ascii=False) for target in (LOW, HIGH)]
    sites.cadf("ruled", "rule", "E", "a b", "2", "site")
    for site, ruled in (("site", ()), ("ruled", [hashlib.sha256(bodies[0].encode()).hexdigest()])):  # the first body has `more`
        status, output, said = sites.tool("conflicts", "--format", "jsonl", site)
        assert (status, said) == (5, ["cadf-conflicts: open %d, settled %d" % (11 - len(ruled), len(ruled))])
        found = {(each["letter"], each["key"]): each for each in map(json.loads, output.decode().splitlines())}
        assert list(found) == [*(("E", key) for key in sorted(ODD_KEYS)), ("P", "name"), ("R", "r")]
        assert [each["value"] for each in found["P", "name"]["values"]] == ["n", ["n"]]
        assert [each["value"] for each in found["R", "r"]["values"]] == [{"id": "r", "v": 1}, {"id": "r", "v": True}]
        assert [each["value"]["targetId"] for each in found["E", "e1"]["values"]] == ["t", LOW, HIGH]
        for each in found["E", "a b"]["values"][1:]:
            assert each["digest"] in [hashlib.sha256(body.encode()).hexdigest() for body in bodies]
        assert [each["digest"] for key in found.values() for each in key["values"] if each["ruled"]] == list(ruled)
        assert {key: each["state"] for key, each in found.items() if each["state"] != "open"} == {("E", "a b"): "settled" for _ in ruled}
    for more in (["--values"], ["--seen"], ["--verify", "allowed"], ["--rule-utc"]):
        assert sites.tool("conflicts", "--format", "jsonl", *more, "site")[0] == 2
    assert sites.tool("conflicts", "--format", "jsonl", "site", "a")[0] == 2


def test_ruling_of_a_value_that_is_elsewhere(sites):
    sites.cadf("ruled", "rule", "E", "a b", "1", "site")
    sites.cadf("alone", "missing", "ruled", "site")
    sites.cadf("waiting", "join", "a.json", "b.json", "alone")
    assert '# E "a b": open, 2 values, 1 ruled that aren\'t here\n' in sites.tool("conflicts", "waiting")[1].decode()
    put("choices", "".join(line for line in sites.choices("waiting", 1) if line.startswith('E "a b"')))
    assert sites.tool("conflicts", "--rule", "choices", "waiting")[0] == 1


# ---- What is refused, and what fails

@pytest.mark.parametrize("words, status, said", [
    pytest.param(["cut.json"], 1, "cut.json: not JSON", id="no JSON"),
    pytest.param(["absent"], 3, "absent: No such file or directory", id="absent"),
    pytest.param(["event.json"], 1, "event.json: no log named", id="no log"),
    pytest.param(["site", "a.json", "cut.json"], 1, "cut.json: not JSON", id="a refused file"),
    pytest.param(["site", "other.json"], 1, "other.json: other log", id="of another log"),
    pytest.param(["--rule", "absent", "--as", "ann", "site"], 3, "absent: No such file or directory", id="no choices")])
def test_refused_by_conflicts(sites, words, status, said):
    assert sites.tool("conflicts", *words) == (status, b"", ["cadf-conflicts: " + said])


def test_event_as_a_file(sites):
    assert sites.tool("conflicts", "site", "event.json")[0] == 5


@pytest.mark.parametrize("tool, words", [("conflicts", ["site"]), ("which", ["site"]), ("agree", ["site", "a"])])
def test_command_of_a_tool(sites, tool, words):
    """Without the command a tool says so; it finds it by PATH; its help needs none."""
    absent = sites.tool(tool, *words, env={"CADF": "/absent/cadf"})
    assert absent == (3, b"", ["cadf-%s: /absent/cadf: No such file or directory: name the command by CADF, or put it on PATH" % tool])
    path = os.path.dirname(sites.binary) + os.pathsep + os.environ["PATH"]
    assert sites.tool(tool, *words, env={"CADF": "", "PATH": path}) == sites.tool(tool, *words)
    assert sites.tool(tool, "--help")[0] == 0


@pytest.mark.parametrize("tool, words", [
    ("conflicts", ""), ("conflicts", "--again site"), ("conflicts", "--rule x site a"), ("conflicts", "--val site"),
    ("which", ""), ("which", "--lo g a"), ("agree", "site"), ("agree", "")])
def test_refused_words(sites, tool, words):
    status, output, said = sites.tool(tool, *words.split())
    assert (status, output) == (2, b"") and said


@pytest.mark.parametrize("tool", ["conflicts", "which", "agree"])
def test_refused_words_that_are_odd(sites, tool):
    status, _, said = sites.tool(tool, "a.json", "b.json", "--x\x1b[2J\u202e")
    assert (status, said[-1]) == (2, "cadf-%s: error: unrecognized arguments: --x\\u001b[2J\\u202e" % tool)


def test_log_that_begins_with_a_dash(sites):
    for number in (1, 2):
        put("dash-%d" % number, document(log="-x", a=number))
    sites.cadf("dash", "join", "dash-1", "dash-2")
    status, output, _ = sites.tool("conflicts", "dash", "dash-1")
    assert status == 5 and "#   in dash-1\n" in output.decode()
    sites.tools = copied("copy", 'EVENT], ["--log=" + self.log]', 'EVENT], ["--log", self.log]')
    assert sites.tool("conflicts", "dash", "dash-1")[0] == 2


@pytest.mark.parametrize("place", ["/dev/full", "&-"])
@pytest.mark.parametrize("tool, words, stream", [
    ("conflicts", "site", ">"), ("conflicts", "--rule choices site", ">"), ("conflicts", "absent", "2>"), ("which", "cut.json", "2>"), ("agree", "a b.json", "2>")])
def test_stream_that_fails(sites, tool, words, stream, place):
    """What can't be written ends a tool with 3 and no traceback."""
    put("choices", "".join(sites.choices("site", 1)))
    done = ended("sh", ["-c", '"$0" %s %s%s' % (words, stream, place), os.path.join(TOOLS, "cadf-" + tool)], env={**os.environ, "CADF": sites.binary})
    assert (done.status, done.output, b"Traceback" in done.error) == (3, b"", False)


# ---- cadf-which

def test_which(sites):
    """Each refused file is named with its refusal, and each of another log."""
    put("odd\nname", "x")
    put("-dash", "x")
    files = ["a.json", "event.json", "cut.json", "other.json", "absent", "site", "odd\nname", "-dash", ""]
    assert sites.tool("which", "--", *files) == (3, b"", [
        "cut.json: not JSON", 'other.json: other log: "h \\u202e"', "absent: No such file or directory", '"odd\\nname": not JSON',
        "-dash: not JSON", '"": No such file or directory'])
    assert sites.tool("which", "site", "a", "event.json", "site.1") == (0, b"", [])
    assert sites.tool("which", "--log", "h \u202e", "a.json", "other.json") == (1, b"", ['a.json: other log: "g"'])


def test_which_of_the_vectors(sites):
    """What it says of each damaged file is what `cadf check` says of it."""
    files = sorted(name for name in os.listdir(VECTORS) if ".cadf" in name or name.endswith(".json") and "conflicts" not in name)
    answers = [(name, ended(sites.binary, ["check", name], cwd=VECTORS)) for name in files]
    wanted = ["%s: %s" % (name, replaced(answer.error.decode().strip(), ("cadf: ", ""), ("input 1: ", ""))) for name, answer in answers
              if answer.status and b"no log named" not in answer.error]
    status, _, said = sites.tool("which", "--log", "g", *files, cwd=VECTORS)
    assert status == 1 and len(wanted) > 20 and [line for line in said if "other log" not in line] == wanted


@pytest.mark.parametrize("name, said", [
    ("sketch", "a sketch, which holds no facts: `cadf missing-by-sketch SITE SKETCH` answers it"),
    ("inventory", "an inventory, which holds no facts: `cadf missing-by SITE INVENTORY` answers it"),
    ("show --conflicts", "a conflict list, which cadf writes and does not read: take the site's file"),
    ("script", "a script: `cadf rehearse` reads it"),
    ("bad", "digest: the file is damaged: fetch it again, or restore it as the guide says under `A damaged site`")],
    ids=["a sketch", "an inventory", "conflicts", "a script", "a damaged file"])
def test_advice(sites, name, said):
    """A refusal says what to do next, and what the file is if it isn't one of facts."""
    if name in ("script", "bad"):
        put("file", "learn 0 {}\n" if name == "script" else held("a")[:-2] + b"x\n")
    else:
        sites.cadf("file", *name.split(), "a")
    answer = ended(os.path.join(TOOLS, "cadf-which"), ["file"], env={**os.environ, "CADF": sites.binary})
    assert answer.error.decode() == "file: %s\n" % said


# ---- cadf-agree

def test_agree(sites):
    """Sites that hold the same in any kind of file, and who lacks how much of whom."""
    for name in ("site", "a", "b.json"):
        sites.cadf(name + ".inventory", "inventory", name)
    assert sites.tool("agree", "site", "site.1", "site.inventory", "site") == (0, b"", [])
    lacks = [len(ODD_KEYS) + 2, 2 * len(ODD_KEYS) + 2]  # of `a`, and of `b.json`
    for a, b in (("a", "b.json"), ("a.inventory", "b.json.inventory")):
        assert sites.tool("agree", a, b) == (5, b"", ["%s lacks %d facts of %s" % (a, lacks[1], b), "%s lacks %d facts of %s" % (b, lacks[0], a)])
    put("one.json", document([{"id": "e"}], log="h"))
    put("two.json", document([{"id": "e", "tags": ["x"]}], log="h"))
    assert sites.tool("agree", "one.json", "two.json") == (5, b"", ["one.json lacks 1 fact of two.json"])
    assert ended("bash", ["-c", '"$0" <(cat site) <(cat site.inventory)', os.path.join(TOOLS, "cadf-agree")],
                 env={**os.environ, "CADF": sites.binary}) == (0, b"", b"")


@pytest.mark.parametrize("name", ["site", "list", "link", "pipe", "folder"])
def test_numbers_replace_numbers_alone(sites, name):
    """A file of numbers is written where there is none, an empty one or an earlier one. A site of that name stays, and what is no file."""
    put("m.prom", b"")
    for _ in range(2):
        assert sites.tool("agree", "--metrics=m.prom", "site", "site.1") == (0, b"", [])
        assert held("m.prom").startswith(b"# HELP cadf_")
    put("list", b"# another program's\n")
    os.symlink("m.prom", "link")
    os.mkfifo("pipe")
    os.mkdir("folder")
    before = os.lstat(name)
    assert sites.tool("agree", "--metrics", name, "site", "site.1") == (
        3, b"", ["cadf-agree: %s: it has no numbers of a run, so it is not replaced: name another file by --metrics" % name])
    assert os.path.samestat(os.lstat(name), before) and not os.path.lexists(name + ".new")


def test_agree_refuses(sites):
    sites.cadf("a.inventory", "inventory", "a")
    sites.cadf("other.json.inventory", "inventory", "other.json")
    for letter in (b"0", b"f"):
        put("bad.inventory", held("a.inventory")[:-2] + letter + b"\n")
        assert sites.tool("agree", "a.inventory", "bad.inventory") in ((0, b"", []), (1, b"", ["bad.inventory: digest"]))
    put("cut.inventory", held("a.inventory")[:-70])
    put("short.inventory", b"CADF-INVENTORY 1\n")
    os.mkdir("folder")
    files = ["cut.json", "a", "absent", "cut.inventory", "a.inventory", "short.inventory", "other.json", "folder"]
    assert sites.tool("agree", *files) == (3, b"", [
        "cut.json: not JSON", "absent: No such file or directory", "cut.inventory: truncated", "short.inventory: truncated",
        "folder: no site in it: `cadf-take --by day SITE/ FILE..` makes one", 'other.json: other log: "h \\u202e"'])


def test_agree_by_sketches(sites):
    """Sites by the sketches that they sent, and as many cells as a sketch was too few for."""
    sites.cadf("site.inventory", "inventory", "site")
    sites.cadf("site.sketch", "sketch", "site")
    sites.cadf("a.sketch", "sketch", "--cells", "9", "--salt", "5", "a")
    sites.cadf("b.sketch", "sketch", "--cells", "120", "b.json")
    sites.cadf("other.sketch", "sketch", "other.json")
    assert sites.tool("agree", "site", "site.sketch", "site.inventory", "site.1", "site.sketch") == (0, b"", [])
    files = sites.tool("agree", "a", "b.json")[2]
    by_sketch = [line.replace("b.json", "b.sketch") for line in files]
    assert sites.tool("agree", "a", "b.sketch") == (5, b"", by_sketch)
    assert sites.tool("agree", "b.sketch", "a") == (5, b"", by_sketch[::-1])
    status, output, said = sites.tool("agree", "b.json", "a.sketch", "a")
    assert (status, output, said[1:]) == (1, b"", files[::-1]) and said[0].startswith("a.sketch: too few cells: ask for ")
    sites.cadf("asked.sketch", "sketch", "--cells", said[0].rpartition(" ")[2], "--salt", "7", "a")
    wanted = [replaced(line, ("a lacks", "asked.sketch lacks"), ("of a", "of asked.sketch")) for line in files[::-1]]
    assert sites.tool("agree", "b.json", "asked.sketch")[2] == wanted
    assert sites.tool("agree", "a.sketch", "b.sketch") == (5, b"", ["a.sketch differs from b.sketch"])
    sites.cadf("b.inventory", "inventory", "b.json")
    for other in ("a.sketch", "asked.sketch"):
        status, output, by_file = sites.tool("agree", "b.json", other)
        assert sites.tool("agree", "b.inventory", other) == (status, output, [line.replace("b.json", "b.inventory") for line in by_file])
    assert sites.tool("agree", "a", "other.sketch") == (1, b"", ['other.sketch: other log: "h \\u202e"'])
    put("bad.sketch", held("b.sketch").replace(b"S 120 ", b"S 123 "))
    put("cut.sketch", held("b.sketch")[:-70])
    assert sites.tool("agree", "a", "bad.sketch", "cut.sketch") == (1, b"", ["bad.sketch: line 124: unended", "cut.sketch: truncated"])


def test_agree_by_a_large_sketch(sites):
    """One of more than 30,000 cells isn't read, so none is asked for."""
    for cells in (30000, 60000):
        sites.cadf("%d.sketch" % cells, "sketch", "--cells", str(cells), "site")
    said = ["60000.sketch: a sketch of more than 30000 cells: ask for its site's inventory"]
    assert sites.tool("agree", "site", "30000.sketch", "60000.sketch") == (1, b"", said)
    put("many.json", document([dict(id="e%d" % number) for number in range(30000)]))
    sites.cadf("few.sketch", "sketch", "--cells", "3", "many.json")
    sites.cadf("a.inventory", "inventory", "a")
    for name in ("a", "a.inventory"):
        assert sites.tool("agree", name, "few.sketch") == (1, b"", ["few.sketch: too few cells: ask for its inventory"])


def put_many():
    """Puts two documents that differ in more than the first sketch of them shows."""
    for name, numbers in (("many", range(900)), ("more", range(80, 950))):
        put(name + ".json", document([dict(id="e%d" % number, tags=["x"]) for number in numbers]))


def test_agree_of_files_that_differ_much(sites):
    put_many()
    put("log", '#!/bin/sh\necho "$1" >>calls\nexec \'%s\' "$@"\n' % sites.binary)
    os.chmod("log", 0o755)
    said = ["many.json lacks 100 facts of more.json", "more.json lacks 160 facts of many.json"]
    assert sites.tool("agree", "many.json", "more.json", env={"CADF": os.path.abspath("log")}) == (5, b"", said)
    calls = held("calls").decode().split()
    assert calls[:3] == ["sketch", "sketch", "missing-by-sketch"] and calls.count("missing-by-sketch") > 1


@pytest.mark.parametrize("command, change, other", [
    ("missing-by-sketch", "cp more.json moved.json", "site"), ("inventory", "cp more.json moved.json", "more.inventory"),
    ("missing-by-sketch", "rm -f moved.json", "site")])
def test_agree_of_a_file_that_changes(sites, command, change, other):
    """A file that changes while it is compared is named, and nothing is counted. One that goes is compared as it was."""
    put_many()
    sites.cadf("more.inventory", "inventory", "more.json")
    put("moved.json", held("many.json"))
    wanted = sites.tool("agree", "moved.json", "site") if change.startswith("rm") else (3, b"", ["moved.json: changed while it was compared"])
    put("changing", '#!/bin/sh\n[ "$1" = %s ] && %s\nexec \'%s\' "$@"\n' % (command, change, sites.binary))
    os.chmod("changing", 0o755)
    assert sites.tool("agree", "moved.json", other, env={"CADF": os.path.abspath("changing")}) == wanted


@pytest.mark.parametrize("command, sent", [("missing-by", ["inventory"]), ("inventory", ["inventory"]), ("missing-by-sketch", ["sketch", "--cells", "900"])])
def test_agree_of_what_was_sent_and_changes(sites, command, sent):
    """An inventory that is emptied while it is compared is named, and nothing is counted. A sketch is compared as it was."""
    put_many()
    sites.cadf("sent", *sent, "many.json")
    wanted = sites.tool("agree", "more.json", "sent") if sent[0] == "sketch" else (3, b"", ["sent: changed while it was compared"])
    put("emptying", '#!/bin/sh\n\'%s\' "$@"\nstatus=$?\n[ "$1" = %s ] && : >sent\nexit $status\n' % (sites.binary, command))
    os.chmod("emptying", 0o755)
    assert sites.tool("agree", "more.json", "sent", env={"CADF": os.path.abspath("emptying")}) == wanted
    assert held("sent") == b""
