"""Seals and proofs beside the trees of tests/tables, which are no part of either implementation, and the program of docs/SEALS.md."""
import json
import random
import re
import subprocess
import sys

import pytest

from tests import text_of
from tests.command.vectors import read
from tests.reference.events import Fault
from tests.reference.seal_files import proof_of, read_proof, read_seal, seal_of, verified
from tests.tables.seal_rows import closed, key_of, proof, seal, tree_hash
from tests.tables.texts import digits, line

SIZES = range(9)
PROGRAM = "\n".join(each[4:] for each in re.search(r"    \$ cat >check\.py <<'END'\n(.*?)    END\n", text_of("docs", "SEALS.md"), re.DOTALL)[1].split("\n"))


def atoms_of(name):
    """The atoms of a vector's document, which has properties alone: each is [P, name, value]."""
    properties = {key: value for key, value in json.loads(read(name)).items() if key not in ("id", "events")}
    return [line("P", key, str(value)) for key, value in properties.items()]


@pytest.mark.parametrize("size", SIZES)
def test_vectors(size):
    atoms, asked = atoms_of("size-%d.json" % size), atoms_of("asked.json")
    assert read("size-%d.seal" % size).decode() == seal(*atoms)
    assert read("size-%d.proof" % size).decode() == proof(list(map(digits, asked)), list(map(digits, atoms)))


@pytest.mark.parametrize("name", ["north", "ruled"])
def test_keys(name):
    """A file of format 1 has its atoms as lines. All facts of an event, and rulings on it, have one key."""
    _, log, *atoms = read(name + ".1.cadf").decode().split("\n")[:-2]
    assert read(name + ".seal").decode() == seal(*atoms, log=log[2:])
    assert len({key_of(atom) for atom in atoms}) < len(atoms)


def of_the_page(path, sealed, proved, fact):
    """What the program of the page says of a fact, by its digits."""
    for name, text in (("check.py", PROGRAM), ("seal", sealed), ("proof", proved)):
        (path / name).write_text(text)
    done = subprocess.run([sys.executable, "check.py", "seal", "proof", fact], cwd=path, stdout=subprocess.PIPE, stderr=subprocess.DEVNULL, text=True, check=False)
    return done.stdout


@pytest.mark.parametrize("name", ["there.proof", "size-8.proof"])
def test_the_page_checks_a_fact(name, tmp_path):
    """It accepts the fact of a right proof, and no other one; of a proof or a seal that was changed, none."""
    whole, own, (fact,), (other,) = read(name).decode(), read("size-8.seal").decode(), atoms_of("size-1.json"), atoms_of("not-there.json")
    assert len(list(filter(None, PROGRAM.split("\n")))) == 15
    assert of_the_page(tmp_path, own, whole, digits(fact)) == "present\n"
    assert of_the_page(tmp_path, own, whole, digits(other)) == "not shown\n"
    lines = whole.split("\n")[:-2]
    changes = [lines[:-1], [*lines, lines[-1]], [*lines[:2], *lines[3:]], [*lines, "P " + digits(other)]]
    changes += [[*lines[:place], each[:2] + "0" * 64, *lines[place + 1:]] for place, each in enumerate(lines) if each[0] in "HP" and digits(fact) not in each]
    for change in changes:
        changed = closed("".join(each + "\n" for each in change))
        assert all(of_the_page(tmp_path, own, changed, digits(each)) != "present\n" for each in (fact, other)), changed
    for place in (0, 1, -2):  # a line that is no part of the tree doesn't count
        named = whole.split("\n")
        named[place] = "P " + digits(other)
        assert of_the_page(tmp_path, own, "\n".join(named), digits(other)) != "present\n"
    for changed in (read("size-7.seal"), read("other-root.seal"), read("other-number.seal")):
        assert of_the_page(tmp_path, changed.decode(), whole, digits(fact)) != "present\n"


def shown(atoms, asked, proof, wanted):
    """What is said of facts by a seal of the atoms and a proof, or its refusal."""
    try:
        return verified(read_seal(seal_of("g", atoms))[1], asked, read_proof(proof)[1], wanted)
    except Fault as fault:
        return fault.said


def test_proofs_of_random_sets():
    """What is there is shown to be there, what is not is shown not to be, and no proof serves another set or another question."""
    chance = random.Random(1)
    for size in range(24):
        atoms = {("P", "p%d" % key, "1") for key in range(size)}
        there = set(chance.sample(sorted(atoms), min(size, chance.randrange(1, 4))))
        absent = {("P", "q%d" % key, "1") for key in range(chance.randrange(1, 4))}
        for asked, word, other in ((there, "present", "absent"), (absent, "absent", "present")):
            proof = proof_of("g", asked, atoms)
            assert shown(atoms, set(), proof, word) == "input 2: no facts"
            if asked:
                lines = "".join("%s P \"%s\" %s\n" % (word, fact[1], digits(line(*fact))) for fact in sorted(asked))
                assert shown(atoms, asked, proof, word) == lines.encode()
                assert shown(atoms, asked, proof, other) == "fact 1: " + word
                assert shown(atoms | {("P", "r", "1")}, asked, proof, word) in ("input 3: other count", "input 3: other root")
            if size and asked:
                assert shown({*sorted(atoms)[1:], ("P", "r", "1")}, asked, proof, word) == "input 3: other root"


def test_what_stays_keeps_its_hash():
    """A set that grew has the hashes of the subtrees in which nothing came: what divides them doesn't depend on their number."""
    leaves = sorted("%064x" % random.Random(number).getrandbits(256) for number in range(50))
    low, high = ([leaf for leaf in leaves if (leaf < "8") is is_low] for is_low in (True, False))
    for more in range(1, len(high)):
        halves = [bytes.fromhex(tree_hash(each)) for each in (low, high[:more])]
        assert tree_hash(low + high[:more]) == digits(b"\1" + b"".join(halves))
