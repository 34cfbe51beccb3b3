"""cadf-seal: proofs of facts under the seals of sites, beside the second implementation's; what is refused; what liars try."""
import functools
import hashlib
import json
import os
import random
import re
import resource
import tempfile

import pytest

from tests import TOP
from tests.reference.events import Fault, document
from tests.reference.replica_files import file_of
from tests.reference.sealed_files import sealed
from tests.reference.seal_files import proof_of
from tests.reference.site_proof_files import read_site_proof, site_proof_of, site_verified
from tests.reference.site_seal_files import read_site_seal, site_seal_of
from tests.reference.split_files import parts_of
from tests.tables.proof_rows import WRONG
from tests.tables.texts import replica
from tests.tools.copies import is_caught
from tests.tools.test_seal import DAMAGED, EVENT, HEAD, MOST, NO_SEAL, ROOT, Seals, cadf_seals, command, io_of, with_digest
from tests.tools.test_site_folders import DAYS, atoms_of, contents

HELD = [contents(0, 2, name="n"), contents(1, 3, 4)]
ASKED = contents(0, 2, name="n")  # all of it is held
NOT_HELD = contents(6, 8, name="m", resources=[{"id": "r"}])
LATER = {"id": "g", "events": [dict(EVENT, id="e0", eventTime="2024-03-05T00:00:00Z")]}  # of a window that isn't there
PROOF_HEAD = HEAD.replace("SEAL", "PROOF")
OTHER_PROOF = "no proof of a folder, as `cadf-seal --prove FACTS SITE/` writes it"
FOR_OTHERS = ": it was made for other facts: have a proof made of just these"
OTHER_TIME = ": seal and proof are of other facts: have both made of the site as it was at one time"
CHANGED = ": no site has such a proof, so it was changed: have it made again"


class Proofs(Seals):
    """A site of the facts that are held, its seal, and files of facts."""

    def __init__(self, path, *words):
        super().__init__(path, *words)
        for value in HELD:
            self.site.takes(value)
        self.kept("seal", "site")

    def facts(self, value, name="facts"):
        return self.put(name, json.dumps(value))

    def proves(self, value):
        """The proof of a document's facts."""
        return self.writes("--prove", self.facts(value), "site/")

    def says(self, value, proof, *words, seal="seal"):
        """What is said of a document's facts by a proof."""
        self.put("proof", proof)
        return self.run("--verify", *words, seal, self.facts(value), "proof")


@pytest.fixture
def proofs(tmp_path):
    return Proofs(tmp_path)


def wanted(value, proof, word):
    """What the second implementation says of the same: the lines, or the refusal."""
    try:
        return site_verified(read_site_seal(site_seal_of("g", atoms_of(*HELD), "day")), document(value)[1], read_site_proof(proof), word)
    except Fault as fault:
        return fault.said


def lines_without_digests(output, value):
    """The lines of a document's facts without the digests behind, which have to be those of the facts, in order."""
    lines = output.decode().splitlines()
    atoms = [json.dumps(atom, ensure_ascii=False, separators=(",", ":")).encode() for atom in sorted(document(value)[1], key=lambda atom: (atom[0] == "E", atom))]
    assert [line[-64:] for line in lines] == [hashlib.sha256(atom).hexdigest() for atom in atoms]
    return [line[:-65] for line in lines]


# ---- What is shown

def test_present(proofs):
    proof = proofs.proves(ASKED)
    assert proof == site_proof_of("g", atoms_of(ASKED), atoms_of(*HELD), "day")
    lines = wanted(ASKED, proof, "present")
    assert lines_without_digests(lines, ASKED) == ['present P "name"', *['present E "e0"'] * 2, *['present E "e2"'] * 2]
    assert proofs.says(ASKED, proof) == (0, lines, [])
    assert proofs.says(ASKED, proof, "--absent") == (1, b"", ["cadf-seal: shared of facts: fact 1: present"])


def test_absent(proofs):
    proof = proofs.proves(NOT_HELD)
    assert proof == site_proof_of("g", atoms_of(NOT_HELD), atoms_of(*HELD), "day")
    lines = wanted(NOT_HELD, proof, "absent")
    assert lines_without_digests(lines, NOT_HELD) == ['absent P "name"', 'absent R "r"', *['absent E "e6"'] * 2, *['absent E "e8"'] * 2]
    assert proofs.says(NOT_HELD, proof, "--absent") == (0, lines, [])
    assert proofs.says(NOT_HELD, proof) == (1, b"", ["cadf-seal: shared of facts: fact 1: absent"])


def test_a_window_that_is_not_there(proofs):
    """What is of a window that the seal doesn't list is absent, though an event of that name is there on another day."""
    proof = proofs.proves(LATER)
    assert proof == site_proof_of("g", atoms_of(LATER), atoms_of(*HELD), "day") and b"\nW 2024-03-05\nCADF-PROOF 1\n" in proof
    status, output, said = proofs.says(LATER, proof, "--absent")
    assert (status, lines_without_digests(output, LATER), said) == (0, ['absent E "e0"'], [])
    assert proofs.says(LATER, proof) == (1, b"", ["cadf-seal: 2024-03-05 of facts: fact 1: absent"])


def test_facts_of_each_kind_of_file(proofs):
    """A document, a replica file, and an event alone, which names no log."""
    event = dict(ASKED["events"][0])
    proof = proofs.proves(event)
    status, output, said = proofs.says(event, proof)
    assert (status, lines_without_digests(output, {"id": "g", "events": [event]}), said) == (0, ['present E "e0"'] * 2, [])
    proofs.put("replica", file_of("g", document({"id": "g", "events": [event]})[1]))
    assert proofs.writes("--prove", "replica", "site") == proof
    assert proofs.run("--verify", "seal", "replica", "proof")[0] == 0
    assert proofs.writes("--prove", "-", "site", input=json.dumps(event).encode()) == proof
    assert proofs.run("--verify", "seal", "facts", "-", input=proof)[0] == 0


def test_no_facts(proofs):
    nothing = {"id": "g", "events": []}
    proof = proofs.proves(nothing)
    assert proof == with_digest(PROOF_HEAD.encode()) and proofs.says(nothing, proof) == (1, b"", ["cadf-seal: facts: no facts"])
    assert proofs.says(nothing, proof, "--absent") == (1, b"", ["cadf-seal: facts: no facts"])


def test_a_site_that_is_a_file(proofs):
    """Its proof is the command's, and is read under its seal."""
    proofs.put("file", file_of("g", atoms_of(*HELD)))
    proofs.kept("file.seal", "file")
    proof = proofs.writes("--prove", proofs.facts(ASKED), "file")
    assert proof == proof_of("g", atoms_of(ASKED), atoms_of(*HELD))
    assert proofs.says(ASKED, proof, seal="file.seal")[0] == 0
    assert proofs.says(ASKED, proof, "--absent", seal="file.seal") == (1, b"", ["cadf-seal: facts: fact 1: present"])
    assert proofs.says(ASKED, proofs.proves(ASKED), seal="file.seal") == (1, b"", ["cadf-seal: proof: version: no proof, as `cadf prove` writes it"])


def test_settled_and_not(proofs):
    proof = proofs.proves(ASKED)
    proofs.site.settles()
    assert proofs.proves(ASKED) == proof


def test_random_facts(proofs):
    """Whatever is asked: the proof is that of the second implementation, and both say the same of it."""
    chance = random.Random(1)
    held = atoms_of(*HELD)
    for _ in range(4):
        keys = chance.sample(range(9), 3)
        value = contents(*keys, **chance.choice([{}, {"name": "n"}, {"name": "m"}]))
        proof = proofs.proves(value)
        assert proof == site_proof_of("g", atoms_of(value), held, "day")
        for word, options in (("present", []), ("absent", ["--absent"])):
            found, told = wanted(value, proof, word), proofs.says(value, proof, *options)
            if isinstance(found, bytes):
                assert told == (0, found, [])
            else:
                part, _, said = found.partition(": ")
                assert told == (1, b"", ["cadf-seal: %s of facts: %s" % (part, said)])


def test_page():
    """FORMATS shows the proof of a fact that is held and of one that is not."""
    with open(os.path.join(TOP, "docs", "FORMATS.md"), encoding="utf-8") as file:
        text = file.read()
    event = dict(EVENT, id="e1")
    value = {"id": "g", "name": "north", "events": [dict(event, eventTime=DAYS[1], tags=["x"]), dict(event, eventTime=DAYS[2])]}
    asked = {"id": "g", "events": [dict(event, eventTime=DAYS[2]), dict(event, eventTime="2024-03-02T12:00:00Z")]}
    proof = site_proof_of("g", document(asked)[1], document(value)[1], "day")
    assert "of %d bytes:\n\n    %s\n\n" % (len(proof), proof.decode()[:-1].replace("\n", "\n    ")) in text


# ---- What liars try

def with_parts(*parts, head=PROOF_HEAD):
    """A proof of these parts, by name and proof."""
    return with_digest(head.encode() + b"".join(b"W %s\n%s" % (name.encode(), proof) for name, proof in parts))


def parts_in(proof):
    return {name: bytes(data) for name, data in read_site_proof(proof)[1].parts.items()}


def test_a_fact_is_looked_for_in_its_window(proofs):
    """No proof of another window shows that a fact is absent: neither under another name nor in the place of its own."""
    value = {"id": "g", "events": [ASKED["events"][0]]}
    facts, held = parts_of(atoms_of(value), "day"), parts_of(atoms_of(*HELD), "day")
    (own, facts), = facts.items()
    for other in sorted({*held, "2024-03-05"} - {own}):
        lie = proof_of("g", facts, held.get(other, set()))
        assert proofs.says(value, with_parts((other, lie)), "--absent") == (1, b"", ["cadf-seal: proof: %s" % (
            "shared: not needed" if other == "shared" else own + ": not shown") + FOR_OTHERS])
        both = sorted([(own, proof_of("g", facts, held[own])), (other, lie)], key=lambda part: (part[0] != "shared", part[0]))
        assert proofs.says(value, with_parts(*both))[1:] == (b"", ["cadf-seal: proof: %s: not needed%s" % (other, FOR_OTHERS)])
        status, output, said = proofs.says(value, with_parts((own, lie)), "--absent")
        assert (status, output) == (1, b"") and re.fullmatch("cadf-seal: %s of proof: other (count|root)(: .*)?" % own, said[0])


def test_a_proof_in_part(proofs):
    """Each window of the facts has to be shown, and no other."""
    parts = parts_in(proofs.proves(ASKED))
    names = list(parts)
    for left_out in names:
        proof = with_parts(*((name, parts[name]) for name in names if name != left_out))
        assert proofs.says(ASKED, proof) == (1, b"", ["cadf-seal: proof: %s: not shown%s" % (left_out, FOR_OTHERS)])
        assert wanted(ASKED, proof, "present") == "%s: not shown" % left_out
    more = with_parts(*parts.items(), ("2024-03-05", proof_of("g", [], set())))
    assert proofs.says(ASKED, more) == (1, b"", ["cadf-seal: proof: 2024-03-05: not needed" + FOR_OTHERS])


def test_another_seal(proofs):
    """A proof is of the windows that the seal lists, with their counts and roots."""
    proof, seal = proofs.proves(ASKED), (proofs.path / "seal").read_bytes().decode()
    lines = seal.splitlines(True)[:-1]
    shared, first, second = lines[3:]
    for name, others, part in [("root", [shared, first, re.sub(r"\w{64}", ROOT, second)], "2024-03-01"), ("count", [shared, first.replace(" 8 ", " 7 "), second], "2024-02-29"),
                               ("left-out", [first, second], "shared"), ("swapped", [shared, *(one[:13] + other[13:] for one, other in ((first, second), (second, first)))], "2024-02-29")]:
        proofs.put(name, with_digest("".join(lines[:3] + others).encode()))
        status, output, said = proofs.says(ASKED, proof, seal=name)
        assert (status, output) == (1, b"") and said[0].startswith("cadf-seal: %s of proof: other " % part), said


def test_others(proofs):
    """The facts, the proof and the seal are of one log and one unit."""
    proof = proofs.proves(ASKED)
    log = "other log: %s: one site has one log; `cadf check FILE` says which log a file is of"
    assert proofs.says(ASKED, with_parts(head=PROOF_HEAD.replace('"g"', '"h"'))) == (1, b"", ["cadf-seal: proof: " + log % '"h"'])
    assert proofs.says(ASKED, with_parts(head=PROOF_HEAD.replace("day", "month"))) == (1, b"", ["cadf-seal: proof: other unit: its windows are one month each, and not one day"])
    status, output, said = proofs.says(dict(ASKED, id="h"), proof)
    assert (status, output) == (1, b"") and said[0].startswith("cadf-seal: facts: other log")
    inner = with_parts(*((name, sealed(data.replace(b'"g"', b'"h"').splitlines()[:-1])) for name, data in parts_in(proof).items()))
    status, output, said = proofs.says(ASKED, inner)
    assert (status, output) == (1, b"") and said[0].startswith("cadf-seal: shared of proof: other log")


# ---- What is refused

PART = proof_of("g", [], set()).decode()  # of no facts
WHOLE = "W %s\n" + PART
REFUSED = [
    ("", "truncated"), (PROOF_HEAD, "truncated"), ("CADF-SITE-PROOF 2\n", "version"), ("CADF-PROOF 1\n", "version"), (HEAD, "version"), ("CADF-SITE-PROOF 1\nL g\n", "log line"),
    (PROOF_HEAD[:-6] + "Z\n", "line 2: unended"), (PROOF_HEAD[:-6] + "B week\n", "line 3: shape"), (PROOF_HEAD + "\n", "line 4: shape"), (PROOF_HEAD + "W\n", "line 4: shape"),
    (PROOF_HEAD + PART, "line 4: shape"), (PROOF_HEAD + "W 2024-03\n", "line 4: shape"), (PROOF_HEAD + "W 2024-03-01 \n", "line 4: shape"), (PROOF_HEAD + "W all\n", "line 4: shape"),
    (PROOF_HEAD.encode() + b"W \xff\n", "line 4: shape"), (PROOF_HEAD + "W 2024-03-01\n", "truncated"), (PROOF_HEAD + "W 2024-03-01\n" + PART, "truncated"),
    (PROOF_HEAD + WHOLE % "2024-03-01" + "\n", "line 8: shape"), (PROOF_HEAD + WHOLE % "2024-03-01" + WHOLE % "2024-03-01", "line 8: order"),
    (PROOF_HEAD + WHOLE % "2024-03-01" + WHOLE % "2024-02-29", "line 8: order"), (PROOF_HEAD + WHOLE % "2024-03-01" + WHOLE % "shared", "line 8: order"),
    (PROOF_HEAD + "Z\n", "digest"), (PROOF_HEAD + WHOLE % "2024-03-01" + "Z %s\n" % ROOT, "digest"), (PROOF_HEAD + "W 2024-03-01\nZ\nZ\n", "digest"),
    (with_digest((PROOF_HEAD + WHOLE % "2024-03-01").encode()) + b"\n", "trailing bytes"), (with_digest((PROOF_HEAD + WHOLE % "2024-03-01").encode())[:-1], "truncated"),
]


def read_by_both(data):
    """What the tool's reader and the second implementation say of a file: its refusal, or its log, its unit and its proofs."""
    try:
        found = cadf_seals.lines_in(io_of(data), cadf_seals.SiteProof)
        own = found.name(), found.unit, {part: bytes(proof) for part, proof in found.parts.items()}
        assert found.bytes() == data
    except cadf_seals.Refused as fault:
        own = str(fault)
    try:
        log, lines = read_site_proof(data)
        other = log, lines.unit, lines.parts
    except Fault as fault:
        other = fault.said
    assert own == other, data
    return own


@pytest.mark.parametrize("text, refusal", REFUSED, ids=range(len(REFUSED)))
def test_refused(text, refusal):
    assert read_by_both(text if isinstance(text, bytes) else text.encode()) == refusal


def test_each_bit_and_each_prefix():
    """A proof with a bit turned, or cut anywhere, is read by both alike; its last line is the digest of all before it."""
    proof = with_digest((PROOF_HEAD + WHOLE % "shared" + WHOLE % "2024-03-01").encode())
    wrong = [proof[:place] for place in range(len(proof))]
    wrong += [proof[:place] + bytes([proof[place] ^ 1 << bit]) + proof[place + 1:] for place in range(len(proof)) for bit in range(8)]
    for data in wrong:
        assert isinstance(read_by_both(data), str)
    assert read_by_both(proof)[:2] == ("g", "day")


def test_proofs_in_it_are_judged(proofs):
    """A line of a proof in it is refused as in a proof by itself."""
    parts = parts_in(proofs.proves(ASKED))
    for right, wrong, said in [(b"\nP ", b"\nQ ", "line 3: shape"), (b"CADF-PROOF 1", b"CADF-PROOF 2", "version"),
                               (b"\nP ", b"\n" + b"x" * 2 ** 17 + b"\nP ", "line 3: shape")]:
        damaged = with_parts(*((name, data.replace(right, wrong, 1)) for name, data in parts.items()))
        status, output, lines = proofs.says(ASKED, damaged)
        assert (status, output) == (1, b"") and lines[0].startswith("cadf-seal: shared of proof: " + said), lines
        assert said == "version" or lines[0].endswith(": " + DAMAGED)


def test_what_is_said_of_a_refusal(proofs):
    proof = proofs.proves(ASKED)
    assert proofs.says(ASKED, proof[:-1]) == (1, b"", ["cadf-seal: proof: truncated: " + DAMAGED])
    assert proofs.says(ASKED, b"{}") == (1, b"", ["cadf-seal: proof: truncated: " + OTHER_PROOF])
    assert proofs.says(ASKED, proof_of("g", [], set())) == (1, b"", ["cadf-seal: proof: version: " + OTHER_PROOF])
    assert proofs.says(ASKED, proof, seal="facts")[2] == ["cadf-seal: facts: truncated: " + NO_SEAL]
    status, output, said = proofs.run("--prove", "seal", "site")
    assert (status, output) == (1, b"") and said[0].startswith("cadf-seal: seal: the seal of a folder, which holds no facts")


@pytest.mark.parametrize("fault, said", [
    ("OtherCount", "proof: other count" + OTHER_TIME), ("OtherRoot", "proof: other root" + OTHER_TIME), ("NoTree", "proof: no tree" + CHANGED),
    ("Order", "proof: order" + CHANGED), ("NeighbourHidden", "proof: neighbour hidden" + CHANGED), ("NotNeeded", "proof: not needed" + FOR_OTHERS),
    ("NotShown", "facts: fact 1: not shown" + FOR_OTHERS), ("Absent", "facts: fact 1: absent"), ("Present", "facts: fact 1: present")])
def test_what_to_do_next(tmp_path, fault, said):
    """Each refusal of a proof that is none, or another one, says it; one that is right, and shows something else, needs nothing."""
    seals = Seals(tmp_path)
    seal, proof, word, facts, _ = next(row for row in WRONG if row[-1] in (fault, fault + " 1"))
    for name, text in (("seal", seal), ("facts", replica(*facts)), ("proof", proof)):
        seals.put(name, text)
    assert seals.run("--verify", *["--absent"] * (word == "absent"), "seal", "facts", "proof") == (1, b"", ["cadf-seal: " + said])


def test_a_line_without_an_end_takes_no_memory(tmp_path):
    """In the head of a proof as within one of its proofs, under a seal of no facts."""
    seals = Seals(tmp_path)
    seals.put("seal", with_digest(HEAD.encode()))
    seals.put("facts", '{"id":"g","events":[]}')
    for begun in (PROOF_HEAD, PROOF_HEAD + "W 2024-03-01\n"):
        seals.put("proof", begun)
        os.truncate(seals.path / "proof", MOST)
        answer = seals.run("--verify", "seal", "facts", "proof", preexec_fn=lambda: resource.setrlimit(resource.RLIMIT_AS, (MOST, MOST)))
        assert answer == (1, b"", ["cadf-seal: proof: truncated: " + DAMAGED])


def test_damaged_site(proofs):
    path = proofs.files("2024-03-01")[0]
    with open(path, "rb") as file:
        data = file.read()
    with open(path, "wb") as file:
        file.write(data.replace(b"read", b"reap"))
    status, output, said = proofs.run("--prove", proofs.facts(ASKED), "site")
    assert (status, output) == (1, b"") and "digest: the site is damaged" in said[0]
    assert proofs.run("--prove", proofs.facts(LATER), "site")[0] == 0  # of which it isn't read


def test_no_room_for_what_is_temporary(proofs):
    """The full disk that is named is that of the folder of temporary files, and not what is written or read."""
    proofs.put("proof", proofs.proves(ASKED))
    for words in (["--prove", "facts", "site"], ["--verify", "seal", "facts", "proof"], ["--verify", "-", "facts", "proof"]):
        answer = proofs.run(*words, input=bytes(2 ** 13), preexec_fn=lambda: resource.setrlimit(resource.RLIMIT_FSIZE, (100, 100)))
        assert answer == (3, b"", ["cadf-seal: %s: File too large: make room there, or name another folder by TMPDIR" % tempfile.gettempdir()])


@pytest.mark.parametrize("words", [["--verify"], ["--verify", "seal"], ["--verify", "seal", "facts"], ["--verify", "seal", "facts", "proof", "more"], ["--absent", "site"],
                                   ["--prove", "facts"], ["--prove", "facts", "site", "other"], ["--prove", "facts", "--absent", "site"], ["--prove", "facts", "--verify", "site"]])
def test_usage(tmp_path, words):
    assert Seals(tmp_path).run(*words)[:2] == (2, b"")


# ---- Copies that do wrong

# Takes the window from the proof, and not from the facts.
ANY_WINDOW = """    (window, shown), = found.parts.items()
    found.parts, own.parts = dict.fromkeys(asked, shown), dict.fromkeys(asked, own.parts.get(window, NOTHING))
"""


@pytest.mark.parametrize("check, right, wrong", [
    (test_a_fact_is_looked_for_in_its_window, "    check_parts(asked, found, proof.name)\n", ANY_WINDOW),
    (test_a_fact_is_looked_for_in_its_window, "        if part not in asked:\n", "        if False:\n"),
    (test_a_proof_in_part, "        if part not in proof.parts:\n", "        if False:\n"),
    (test_another_seal, "own.seal(part), item", "own.seal(next(iter(asked))), item"),
    (test_a_window_that_is_not_there, "*(files.values() or [empty])]", "*(files.values() or [own])]"),
    (test_present, "files.enter_context(opened_parts(folder, [part]))", "files.enter_context(opened_parts(folder, None))"),
    (test_present, 'cadf(["verify", *words], inputs', 'cadf(["verify"], inputs'),
    (test_others, "if proof.log != seal.log:", "if False:"),
    (test_others, "if proof.unit != seal.unit:", "if False:"),
    (test_facts_of_each_kind_of_file, '"--log=" + log], [facts])', '], [facts])'),
    (test_a_site_that_is_a_file, "return seal.first(len(OF_A_FILE)) == OF_A_FILE", "return False"),
])
def test_a_wrong_version_is_caught(tmp_path, check, right, wrong):
    is_caught(tmp_path, (right, wrong), check, functools.partial(Proofs, tmp_path))
