"""Who ruled, when and why: records of rulings, their signatures, and at which of them somebody has looked."""
import contextlib
import functools
import hashlib
import json
import os
import re
import shutil
import sqlite3
import subprocess
import sys

import pytest

from tests import TOP, text_of
from tests.machine import ended
from tests.reference.events import document
from tests.reference.replica_files import file_of, read_file
from tests.tools.copies import is_caught
from tests.tools.test_site_folders import EVENT, Site
from tests.tools.test_tools_of_folders import Sites

sys.path.insert(0, os.path.join(TOP, "share", "cadf"))
import cadf_index_file
import cadf_site

pytestmark = pytest.mark.needs("ssh-keygen")
KINDS = {"E": "data/event", "G": "data/geolocation", "M": "data/metric", "P": "data/property", "R": "data/resource"}
WHEN, WHY = "2024-03-02T09:00:00Z", 'asked at "north"\né\u202e'
WHY_SHOWN = r'"asked at \"north\"\n\u00e9\u202e"'
DAY = "2024-03-01T12:00:00Z"


def canonical(value):
    return json.dumps(value, ensure_ascii=False, sort_keys=True, separators=(",", ":"))


def record_of(log, letter, key, digest, who, when, why):
    """The text, the identifier and the body of a record, as docs/FORMATS.md has them."""
    text = canonical([log, letter, key, digest, who, when, why]) + "\n"
    body = {"eventType": "control", "action": "evaluate/ruling", "outcome": "success", "eventTime": when,
            "initiator": {"id": who, "typeURI": "data/security/account/user"}, "observer": {"id": "cadf-conflicts"},
            "reason": {"reasonCode": why, "reasonType": "cadf/ruling"},
            "target": {"id": key, "typeURI": KINDS[letter], "attachments": [{"content": digest, "name": "sha256", "typeURI": "xs:string"}]}}
    return text, "cadf-ruling:" + hashlib.sha256(text.encode()).hexdigest(), canonical(body)


def signature_atom(atom, signature):
    return atom + ("A", canonical({"content": signature, "name": "cadf-ruling", "typeURI": "xs:string"}))


class Rulings(Sites):
    """Two folders with an event `e` and a property that have two values, and keys of ann and bob, of which ann's is allowed."""

    def __init__(self, path, *words):
        super().__init__(path, *words)
        for who in ("ann", "bob"):
            subprocess.run(["ssh-keygen", "-q", "-t", "ed25519", "-N", "", "-C", who, "-f", str(path / who)], check=True)
        (path / "allowed").write_text("ann " + (path / "ann.pub").read_text())
        self.two = [{"id": "g", "name": value, "events": [dict(EVENT, id="e", eventTime=DAY, action=action)]} for value, action in (("m", "read"), ("n", "update"))]
        self.north.takes(*self.two)
        self.south.takes(*self.two)
        self.both = self.file("both.cadf", *self.two)
        listed = self.run("conflicts", self.both)[1]
        self.lines = {line[0] + line.split()[2]: line for line in listed.splitlines(True) if line[0] != "#"}

    def digest(self, place):
        return self.lines[place].split()[-1]

    def rules(self, *words, place="E1", site="both.cadf", name="rulings.cadf", who="ann"):
        """The file of the rulings for a line of the list."""
        (self.path / "choices").write_text(self.lines[place])
        status, output, lines = self.run("conflicts", "--rule", "choices", "--as", who, "--at", "2024-03-02T09:00", *words, site)
        assert (status, lines) == (0, []), lines
        (self.path / name).write_text(output)
        return read_file(output.encode())[1]

    def sign(self, key, text, namespace="cadf-ruling"):
        return subprocess.run(["ssh-keygen", "-q", "-Y", "sign", "-f", key, "-n", namespace], input=text.encode(), cwd=self.path, check=True,
                              stdout=subprocess.PIPE, stderr=subprocess.PIPE).stdout.decode()

    def put(self, name, atoms):
        (self.path / name).write_bytes(file_of("g", atoms))
        return str(self.path / name)

    def take(self, *words, status=0, site="north"):
        answer = ended(os.path.join(self.tools, "cadf-take"), [*words[:-1], site, words[-1]], env=self.environment, cwd=self.path)
        assert answer.status == status, answer
        return answer.error.decode()

    def says(self, *words, site="north/"):
        """The status of the list, what it says of who ruled, and its last line."""
        status, output, lines = self.run("conflicts", *words, site)
        return status, [line[len("#   "):] for line in output.splitlines() if line.startswith("#   ")], lines[-1].partition(": ")[2]

    def rulings_in(self, site="north"):
        return {atom for atom in getattr(self, site).atoms() if atom[0] == "U"}

    def numbers(self, *words):
        """The numbers that an exchange of the two folders writes, and its status."""
        status, _, _ = self.run("sync", "--quiet", "--metrics", "m.prom", *words, "north/", "south/")
        return status, {name: int(value) for name, value in re.findall(r"(?m)^cadf_(\w+){.*} (\d+)$", (self.path / "m.prom").read_text())}


@pytest.fixture(autouse=True)
def command(cadf, monkeypatch):
    """Has the tools run the command that is tried."""
    monkeypatch.setattr(Site, "command", cadf)


@pytest.fixture
def sites(tmp_path):
    return Rulings(tmp_path)


# ---- Records

def test_the_record_of_the_page(sites):
    """The page's texts are those of the form that it describes, and the tool writes that form."""
    shown = re.search(r"\n    (\[.*\])\n\n    (cadf-ruling:.*)\n    (\{.*\})\n", text_of("docs", "FORMATS.md")).groups()
    text, identifier, body = record_of(*json.loads(shown[0]))
    assert (text, identifier, body) == (shown[0] + "\n", *shown[1:])
    for place, letter, key in (("E1", "E", "e"), ("P2", "P", "name")):
        _, identifier, body = record_of("g", letter, key, sites.digest(place), "ann", WHEN, WHY)
        assert sites.rules("--why", WHY, place=place) == {("U", letter, key, sites.digest(place)), ("E", identifier, body)}
    assert document({"id": "g", "events": [{"id": identifier, **json.loads(body)}]})[1] == {("E", identifier, body)}


@pytest.mark.parametrize("is_indexed", [True, False])
def test_who_when_and_why(sites, is_indexed):
    """They are told of each ruling, of a folder by its index and without, and of a file."""
    if not is_indexed:
        sites.environment["XDG_CACHE_HOME"] = os.devnull
        (sites.north.folder / ".index").mkdir()
    sites.rules("--why", WHY)
    sites.take("rulings.cadf")
    sites.rules(place="P1", name="other.cadf", who="bob\u202e")
    sites.take("other.cadf")
    wanted = 'ruled by "ann" at %s, claimed: %s' % (WHEN, WHY_SHOWN), 'ruled by "bob\\u202e" at %s, claimed' % WHEN
    assert sites.says() == (0, list(wanted), "open 0, settled 2, unseen 2")
    sites.file("file.cadf", *sites.two)
    answer = ended(Site.command, ["join", "file.cadf", "rulings.cadf", "other.cadf"], cwd=sites.path)
    (sites.path / "ruled.cadf").write_bytes(answer.output)
    assert sites.says(site="ruled.cadf") == (0, list(wanted), "open 0, settled 2")


def test_signed_claimed_and_no_name(sites):
    """A ruling is signed if somebody allowed has signed a record of it; the status says that one isn't."""
    sites.rules("--why", "x", "--sign", "ann")
    sites.take("rulings.cadf")
    assert sites.says("--verify", "allowed") == (5, ['ruled by "ann" at %s, signed: "x"' % WHEN], "open 1, settled 1, unseen 1")
    answer = ended(Site.command, ["rule", "P", "name", "1", "both.cadf"], cwd=sites.path)
    (sites.path / "bare.cadf").write_bytes(answer.output)
    sites.take("bare.cadf")
    assert sites.says("--verify", "allowed") == (5, ['ruled by "ann" at %s, signed: "x"' % WHEN, "ruled, no name"], "open 0, settled 2, not signed 1, unseen 2")
    assert sites.says()[:2] == (0, ['ruled by "ann" at %s, claimed: "x"' % WHEN, "ruled, no name"])
    sites.rules("--sign", "ann", place="P1", name="more.cadf", site="north/")
    sites.take("more.cadf")
    assert sites.says("--verify", "allowed")[0] == 0
    (sites.path / "allowed").write_text("bob " + (sites.path / "ann.pub").read_text())
    assert sites.says("--verify", "allowed")[2] == "open 0, settled 2, not signed 2, unseen 2"


@pytest.mark.parametrize("forge", ["by another key", "of another namespace", "of another ruling", "of another reason", "of no form", "long", "of a changed body", "in another name"])
def test_a_forged_signature_is_none(sites, forge):
    """Whatever a stranger signs, or takes of what ann has signed: she is claimed to have ruled."""
    who = "eve" if forge == "in another name" else "ann"
    text, identifier, body = record_of("g", "E", "e", sites.digest("E2"), who, WHEN, "x")
    other = record_of("g", "E", "e", sites.digest("E1"), "ann", WHEN, "x")[0] if forge == "of another ruling" else text.replace('"x"', '"y"')
    signature = {"by another key": lambda: sites.sign("bob", text), "of another namespace": lambda: sites.sign("ann", text, "file"),
                 "of no form": lambda: "-----BEGIN SSH SIGNATURE-----\nU1NIU0lH\n-----END SSH SIGNATURE-----\n",
                 "long": lambda: sites.sign("ann", text) + "\n" * 2 ** 14}.get(forge, lambda: sites.sign("ann", text if forge in ("of a changed body", "in another name") else other))()
    atom = "E", identifier, body.replace("success", "failure") if forge == "of a changed body" else body
    sites.take(sites.put("forged.cadf", {("U", "E", "e", sites.digest("E2")), atom, signature_atom(atom, signature)}))
    said = "ruled, no name" if forge == "of a changed body" else 'ruled by "%s" at %s, claimed: "x"' % (who, WHEN)
    assert sites.says("--verify", "allowed")[:2] == (5, [said])
    text, identifier, body = record_of("g", "E", "e", sites.digest("E2"), "ann", WHEN, "x")
    atom = "E", identifier, body
    sites.take(sites.put("right.cadf", {atom, signature_atom(atom, sites.sign("ann", text))}))
    assert sites.says("--verify", "allowed")[1][0] == 'ruled by "ann" at %s, signed: "x"' % WHEN


def counted(sites):
    """Has the tools start an ssh-keygen that counts, and returns what tells how many were started since it was asked last."""
    (sites.path / "bin").mkdir()
    (sites.path / "bin" / "ssh-keygen").write_text("#!/bin/sh\necho >>%s\nexec %s \"$@\"\n" % (sites.path / "count", shutil.which("ssh-keygen")))
    (sites.path / "bin" / "ssh-keygen").chmod(0o755)
    sites.environment["PATH"] = "%s:%s" % (sites.path / "bin", os.environ["PATH"])

    def count():
        (sites.path / "count").touch()
        found = (sites.path / "count").read_text().count("\n")
        (sites.path / "count").write_text("")
        return found

    return count


def forged(sites, count):
    """Rulings with records of that many texts, each with ann's signature of another text."""
    signature = sites.sign("ann", record_of("g", "E", "e", sites.digest("E1"), "ann", WHEN, "what she ruled")[0])
    for number in range(count):
        atom = "E", *record_of("g", "E", "e", sites.digest("E1"), "ann", WHEN, "x%d" % number)[1:]
        yield from (atom, signature_atom(atom, signature))


def test_a_forged_signature_costs_one_program(sites):
    """Each later call passes over what was refused for these signers. What is accepted is asked again, and where an answer may change all is."""
    sites.rules("--sign", "ann")
    sites.take("rulings.cadf")
    sites.take(sites.put("forged.cadf", set(forged(sites, 20))))
    count, signed = counted(sites), 'ruled by "ann" at %s, signed' % WHEN
    for _ in range(3):
        assert sites.says("--verify", "allowed")[1][0] == signed
    assert count() == 20 + 3
    (sites.path / "allowed").write_text("# again\n" + (sites.path / "allowed").read_text())
    sites.says("--verify", "allowed")
    assert count() == 20 + 1
    (sites.path / "north" / ".index").unlink()
    sites.says("--verify", "allowed")
    assert count() == 20 + 1
    (sites.path / "until").write_text('ann valid-before="29990101" ' + (sites.path / "ann.pub").read_text())
    for _ in range(2):
        assert sites.says("--verify", "until")[1][0] == signed
        assert count() == 20 + 1


def test_a_ruling_that_is_not_taken_costs_one_program(sites):
    """A file that is sent again and again, with records of a ruling that nobody has signed."""
    sites.put("forged.cadf", {("U", "E", "e", sites.digest("E1")), *forged(sites, 20)})
    count = counted(sites)
    for wanted in (20, 0):
        sites.take("--rulings-by", "allowed", "forged.cadf", status=1)
        assert count() == wanted


def test_a_forged_signature_for_a_site_that_is_new(sites):
    """There is no index to keep it yet: all else is brought, and the next call asks again."""
    sites.take(sites.put("forged.cadf", {("U", "E", "e", sites.digest("E1")), *forged(sites, 2)}), site="south")
    status, _, lines = sites.run("sync", "--quiet", "--pull", "--rulings-by", "allowed", "new/", "south/")
    assert status == 0 and len(lines) == 1 and "left out: 1 rulings aren't welcome" in lines[0], lines


def test_refused_signatures_that_are_kept(sites):
    """There are at most so many, the latest."""
    with cadf_site.Folder(str(sites.path / "north")) as folder:
        for number in range(3):
            cadf_index_file.keep_refused_signatures(folder, [b"%032d" % each for each in range(10 * number, 10 * number + 10)], 25)
        found = cadf_index_file.refused_signatures(folder)
    assert len(found) == 25 and {b"%032d" % each for each in range(20, 30)} <= found


def test_an_index_has_no_forged_signature_taken(sites):
    """Whoever writes it, each good signature is that of the call: an index says at most that one is none."""
    sites.take(sites.put("forged.cadf", {("U", "E", "e", sites.digest("E1")), *forged(sites, 1)}))
    assert sites.says("--verify", "allowed")[1] == ['ruled by "ann" at %s, claimed: "x0"' % WHEN]
    with contextlib.closing(sqlite3.connect(str(sites.path / "north" / ".index"))) as index, index:
        assert index.execute("UPDATE kept SET value = 'good' WHERE kind = 'refused signatures'").rowcount == 1
    assert sites.says("--verify", "allowed")[1] == ['ruled by "ann" at %s, claimed: "x0"' % WHEN]


def test_many_claims(sites):
    """They are shown so far as a person reads, those that are signed first; what they cost is a look each."""
    sites.rules("--sign", "ann")
    sites.take("rulings.cadf")
    claims = [record_of("g", "E", "e", sites.digest("E1"), "a%d" % number, "1970-01-01T00:00:00Z", "x" * number) for number in range(500)]
    sites.take(sites.put("claims.cadf", {("E", *claim[1:]) for claim in claims}))
    sites.take(sites.put("absent.cadf", {("U", "E", "e", "%064d" % number) for number in range(500)}))
    assert len(sites.says()[1]) == 101 + 100
    status, said, _ = sites.says("--verify", "allowed")
    said = said[:101]
    assert said[0] == 'ruled by "ann" at %s, signed' % WHEN and len(said) == 101 and said[100] == "ruled by 401 others, claimed"


def test_made_again(sites):
    """The same words make the same file. One who has ruled is not named again, but if now a signature is to be added."""
    atoms = sites.rules("--why", "x")
    assert sites.rules("--why", "x") == atoms
    sites.take("rulings.cadf")
    assert sites.rules("--why", "y", site="north/") == set()
    signed = sites.rules("--why", "x", "--sign", "ann", site="north/")
    assert len(signed) == 2 and {atom for atom in signed if len(atom) == 3} == {atom for atom in atoms if atom[0] == "E"}
    assert len(sites.rules("--why", "z", site="north/", who="bob")) == 1


def test_two_who_contradict(sites):
    """Each is named, and the key is open."""
    sites.rules("--why", "x")
    sites.rules("--why", "y", place="E2", name="other.cadf", who="bob")
    for name in ("rulings.cadf", "other.cadf"):
        sites.take(name)
    status, said, last = sites.says()
    assert status == 5 and said == ['ruled by "ann" at %s, claimed: "x"' % WHEN, 'ruled by "bob" at %s, claimed: "y"' % WHEN] and last.startswith("open 2, ")
    absent = "f" * 64
    sites.take(sites.put("absent.cadf", {("U", "E", "e", absent), ("E", *record_of("g", "E", "e", absent, "eve", WHEN, "")[1:])}))
    assert '%s, which isn\'t here, ruled by "eve" at %s, claimed' % (absent, WHEN) in sites.says()[1]


@pytest.mark.parametrize("words, status, said", [
    (["--rule", "choices", "--as", ""], 2, "it is empty"), (["--rule", "choices", "--as", "a\nb"], 2, "not a name of 1 to 1,024 bytes without control characters"),
    (["--rule", "choices", "--as", "a" * 1025], 2, "not a name of 1 to 1,024 bytes without control characters"),
    (["--rule", "choices", "--why", "x" * 4097], 2, "longer than 4096 characters"), (["--rule", "choices", "--at", "then"], 2, 'or now+1d: "then"'),
    (["--as", "ann"], 2, "--as, --why, --at and --sign go with --rule and --rule-utc"), (["--rule", "choices", "--seen"], 2, "with options of who rules"),
    (["--rule", "choices", "--as", "a", "--sign", "absent"], 3, "No such file or directory"), (["--verify", "absent"], 3, "absent: No such file or directory")])
def test_words(sites, words, status, said):
    (sites.path / "choices").write_text(sites.lines["E1"])
    answer = sites.run("conflicts", *words, "north/")
    assert (answer[0], answer[1], answer[2][-1].endswith(said)) == (status, "", True), answer


def test_without_ssh_keygen(sites):
    (sites.path / "choices").write_text(sites.lines["E1"])
    python = os.path.dirname(subprocess.run(["which", "python3"], stdout=subprocess.PIPE, check=True).stdout.decode().strip())
    (sites.path / "bin").mkdir()
    (sites.path / "bin" / "python3").symlink_to(os.path.join(python, "python3"))
    sites.environment["PATH"] = str(sites.path / "bin")
    sites.environment["CADF"] = Site.command
    status, output, lines = sites.run("conflicts", "--rule", "choices", "--as", "a", "--sign", "ann", "both.cadf")
    assert (status, output) == (3, "") and lines[-1].startswith("cadf-conflicts: ssh-keygen: ") and "openssh-client" in lines[-1]


def strangers(sites, who="ann", name="came.cadf"):
    """A file as a stranger may send it: an event, a value, a ruling and its record, which ann has signed or bob."""
    ruling, text = ("U", "E", "e", sites.digest("E2")), record_of("g", "E", "e", sites.digest("E2"), "ann", WHEN, "x")
    atom = "E", *text[1:]
    new = document({"id": "g", "events": [dict(EVENT, id="new", eventTime=DAY)], "more": 1})[1]
    sites.put(name, {ruling, atom, signature_atom(atom, sites.sign(who, text[0]))} | new)
    return ruling, new | {atom}


# ---- What somebody has looked at

def test_seen(sites):
    """A ruling that came, a third body and a second ruling are unseen until somebody looks, by the list, the numbers and the status of an exchange."""
    strangers(sites)
    assert sites.numbers("--conflicts")[1]["unseen_rulings"] == 0
    sites.take("came.cadf", site="south")
    third, second = {"id": "g", "events": [dict(EVENT, id="e", eventTime=DAY, action="delete")]}, {("U", "E", "e", sites.digest("E1"))}
    for come in (lambda: None, lambda: sites.south.takes(third), lambda: sites.take(sites.put("second.cadf", second), site="south")):
        come()
        status, numbers = sites.numbers("--conflicts")
        assert status == 5 and numbers["unseen_rulings"] == 1
        assert sites.says()[2].endswith(", unseen 1") and not sites.says("--seen")[2].endswith("unseen 1")
        status, numbers = sites.numbers()
        assert status == 0 and numbers["unseen_rulings"] == 0 and ", unseen" not in sites.says()[2]
    assert sites.says(site="south/")[2].endswith(", unseen 1")


def test_the_status_of_what_nobody_has_looked_at(sites):
    """A forged body with a forged ruling leaves nothing open, and still a person is called."""
    sites.rules(place="P1")
    sites.take("rulings.cadf")
    sites.rules(place="E2", name="other.cadf")
    sites.take("other.cadf")
    assert sites.says()[2] == "open 0, settled 2, unseen 2"
    status, output, _ = sites.run("sync", "--conflicts", "north/", "south/")
    said = "2 ruled keys at which nobody here has looked: `cadf-conflicts --values SITE`, and then `cadf-conflicts --seen SITE`"
    assert status == 5 and output.endswith("; 0 open conflicts; %s\n" % said)
    assert sites.run("sync", "--quiet", "--metrics", "m.prom", "north/", "south/") == (0, "", ["cadf-sync: north/: " + said])
    sites.says("--seen")
    assert sites.run("sync", "--quiet", "--conflicts", "north/", "south/") == (0, "", [])


def test_a_scrub_keeps_what_was_seen(sites):
    sites.rules()
    sites.take("rulings.cadf")
    sites.says("--seen")
    assert sites.run("which", "--scrub", "north/")[0] == 0 and sites.says()[2] == "open 1, settled 1"
    assert sites.run("conflicts", "--seen", "both.cadf")[2][-1].endswith("--seen goes with a SITE that is a folder, which keeps it")


@pytest.mark.parametrize("check, words, right, wrong", [
    (test_a_forged_signature_is_none, ["of another reason"], "return status == 0", "return True"),
    (test_a_forged_signature_costs_one_program, [], "self.refused.add(key)", "pass"),
    (test_a_forged_signature_costs_one_program, [], "canonical([self.digest, record", "canonical([record"),
    (test_a_forged_signature_costs_one_program, [], "b\"valid-before\"", "b\"x-before\""),
    (test_a_ruling_that_is_not_taken_costs_one_program, [], "self.allowed.refused.of(site)", "pass"),
    (test_a_forged_signature_is_none, ["of a changed body"], "found.body() == body and ", ""),
    (test_a_forged_signature_is_none, ["in another name"], '"-I", record.who, ', '"-I", "ann", '),
    (test_who_when_and_why, [False], " or is_of_record(atoms[0]):", ":"),
    (test_who_when_and_why, [True], 'own = keys_of(index.keys(part))', "own = frozenset()"),
    (test_made_again, [], "if not known or ", "if "),
    (test_seen, [], "len(standings - cadf_state.seen_rulings(folder))", "0"),
    (test_seen, [], "sorted(rulings), sorted(digests)", "sorted(rulings)"),
    (test_a_scrub_keeps_what_was_seen, [], "others = [line for line in lines if not OF_FILE.fullmatch(line)]", "others = []"),
])
def test_a_wrong_version_is_caught(tmp_path, check, words, right, wrong):
    is_caught(tmp_path, (right, wrong), check, functools.partial(Rulings, tmp_path), *words)
