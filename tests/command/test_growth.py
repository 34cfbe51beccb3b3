"""Lists, proofs of growth and what is left out, beside the trees of tests/tables, which are no part of either implementation, and the program of docs/SEALS.md."""
import contextlib
import io
import json
import os
import random
import re
import runpy
import sys

import pytest

from tests import text_of
from tests.command.vectors import FOLDER, read
from tests.generated.liars import tried
from tests.generated.odd_lies import Lie
from tests.reference.command import Answer, answer
from tests.reference.replica_files import file_of
from tests.tables import growth_rows
from tests.tables.growth_rows import erased, growth, sealed
from tests.tables.seal_rows import closed, key_of, seal, tree_hash
from tests.tables.texts import digits, line

PAGE = text_of("docs", "FORMATS.md")


def atoms_of(name):
    """The atoms of a vector's document, which has properties alone: each is [P, name, value]."""
    return [line("P", key, str(value)) for key, value in json.loads(read(name)).items() if key not in ("id", "events")]


FOUR, OTHERS = atoms_of("size-4.json"), atoms_of("exchanged.json")


def said(*words, **files):
    """What a call writes, or the line that it writes to standard error."""
    told = answer([word.encode() for word in words], {name.encode(): text.encode() for name, text in files.items()})
    return (told.error or told.output).decode()


def on_the_page(before):
    """The file that stands on the page behind this text."""
    return "".join(each[4:] + "\n" for each in re.search(re.escape(before) + r"\n\n((?:    .*\n)+)", PAGE)[1].split("\n")[:-1])


def test_the_list_of_the_page():
    """The list of an event whose digests the page states elsewhere; its key is that of the list of two texts."""
    found = on_the_page("The sealed list of the replica of one atom above is")
    assert found == sealed(growth_rows.C1)
    assert key_of(growth_rows.C1) == digits('["E","e1"]')


def test_the_proof_of_the_page():
    """Each line is worked out here: which leaves there are in what order, the hidden one's hash, and both roots from the lines."""
    found = on_the_page("The second and the fourth stand beside these, so the third alone is hidden:")
    lines = found.split("\n")
    assert found == closed("".join(each + "\n" for each in lines[:-2]))
    places = sorted(map(digits, {*FOUR, *OTHERS}))
    assert [digits(atom) for atom in (line("P", "p4", "4"), line("P", "p5", "5"))] == [places[0], places[4]]
    facts, keys = " ".join(lines[2:-2]).split(" K ")
    assert facts == "N N G %s N P %s N H %s P %s A %s" % (*places[:2], digits(b"\0" + bytes.fromhex(places[2])), *places[3:])
    of_keys = sorted({digits('["P","p%d"]' % number) for number in range(1, 6)})
    assert keys == "N N P %s G %s N N A %s P %s H %s" % (*of_keys[:4], digits(b"\0" + bytes.fromhex(of_keys[4])))
    assert found == growth(FOUR, OTHERS) == read("exchanged.proof").decode()
    old, new = read("size-4.seal").decode(), read("exchanged.seal").decode()
    assert said("grew", "o", "n", "p", o=old, n=new, p=found) == "cadf: input 2: facts: gone: %s\n" % places[0]
    assert said("grew", "o", "n", "p", "--erased", "e", o=old, n=new, p=found, e=erased(FOUR[3], keys=FOUR[3:])) == "added 1, erased 1\n"


@pytest.mark.parametrize("name", ["came", "went", "same", "grown", "exchanged"])
def test_vectors(name):
    earlier, later = {"came": ([], FOUR), "went": (FOUR, []), "same": (FOUR, FOUR), "grown": (FOUR, atoms_of("size-8.json")), "exchanged": (FOUR, OTHERS)}[name]
    assert read(name + ".proof").decode() == growth(earlier, later)


@pytest.mark.parametrize("name", ["north", "ruled"])
def test_lists_of_vectors(name):
    """A file of format 1 has its atoms as lines."""
    _, log, *atoms = read(name + ".1.cadf").decode().split("\n")[:-2]
    assert read(name + ".sealed").decode() == sealed(*atoms, log=json.loads(log[2:]))


def test_growth_of_random_sets():
    """What is made says what came and what went, and serves no other sets, nor the way back."""
    chance = random.Random(1)
    for size in range(24):
        earlier, later = ({("P", "p%d" % chance.randrange(9), str(chance.randrange(4))) for _ in range(chance.randrange(size + 1))} for _ in "on")
        if chance.random() < 0.3:
            later |= earlier
        old, new = (seal(*(line(*atom) for atom in atoms)) for atoms in (earlier, later))
        lines = [line(*atom) for atom in earlier]
        proof = said("growth", "s", "f", s=sealed(*lines), f=file_of("g", later).decode())
        assert proof == growth(lines, [line(*atom) for atom in later])
        came, gone = len(later - earlier), sorted(digits(line(*atom)) for atom in earlier - later)
        wanted = "cadf: input 2: facts: gone: %s\n" % gone[0] if gone else "added %d\n" % came
        assert said("grew", "o", "n", "p", o=old, n=new, p=proof) == wanted
        told = said("grew", "--erased=e", "o", "n", "p", o=old, n=new, p=proof, e=erased(*lines, keys=lines))
        assert told == "added %d, erased %d\n" % (came, len(gone))
        if came or gone:
            for others in ((new, old), (old, old), (new, new)):
                assert said("grew", "o", "n", "p", o=others[0], n=others[1], p=proof).startswith("cadf: input ")


def test_a_change_costs_little():
    """One fact among many is shown by few lines, at most 67 bytes each and two for each doubling of the set."""
    atoms = [line("P", "n", str(number)) for number in range(1000)]
    assert tree_hash(sorted(map(digits, atoms)))
    for change in (atoms + [line("P", "n", "1000")], atoms[1:]):
        facts = growth(atoms, change).split("K\n")[0]
        assert len(facts) < 67 * 2 * 14


# ---- The program of docs/SEALS.md

PROGRAM = re.search(r"    \$ cat >grew\.py <<'END'\n(.*?)    END\n", text_of("docs", "SEALS.md"), re.DOTALL)[1].replace("\n    ", "\n")[4:]


def of_the_page(path, monkeypatch, *names):
    """What the program of the page says of two seals and a proof; nothing where it ends by a fault."""
    (path / "grew.py").write_text(PROGRAM)
    monkeypatch.setattr(sys, "argv", ["grew.py", *map(str, names)])
    with contextlib.redirect_stdout(io.StringIO()) as output:
        try:
            runpy.run_path(str(path / "grew.py"))
        except Exception as fault:
            assert isinstance(fault, (ValueError, IndexError, OverflowError, RecursionError)), fault
            return ""
    return output.getvalue()


def test_the_page_checks_vectors(tmp_path, monkeypatch):
    assert len(PROGRAM.splitlines()) <= 40
    for names, wanted in (("size-0.seal size-4.seal came.proof", "added 4\n"), ("size-4.seal size-4.seal same.proof", "added 0\n"),
                          ("size-4.seal size-8.seal grown.proof", "added 4\n"), ("size-4.seal exchanged.seal exchanged.proof", "not shown\n"),
                          ("hidden.seal hidden-grown.seal hidden.proof", "not shown\n"), ("unchanged.seal unchanged.seal unchanged.proof", "not shown\n"),
                          ("size-8.seal size-4.seal grown.proof", "not shown\n"), ("size-4.seal size-4.seal facts-alone.proof", "")):
        assert of_the_page(tmp_path, monkeypatch, *(os.path.join(FOLDER, name) for name in names.split())) == wanted, names


def test_the_page_believes_no_liar(tmp_path, monkeypatch):
    """It says what the command says without a list, and of what the command takes for more than is needed nothing that is false."""
    believed = 0
    for number in range(600):
        lie = Lie(4, number)
        if lie.listed is not None:
            lie.listed = None
            lie.words = [b"grew", b"old", b"new", b"proof"]
        for name in lie.words[1:]:
            (tmp_path / name.decode()).write_bytes(lie.files[name])
        found, (told, fault) = of_the_page(tmp_path, monkeypatch, *(tmp_path / name for name in ("old", "new", "proof"))), tried(lie)
        assert fault is None
        if found.startswith("added"):
            assert lie.falsehood(Answer(0, found.encode(), b"")) is None
            believed += 1
        assert found.encode() == told.output or told.status == 1 and (found in ("", "not shown\n") or told.error.endswith(b": not needed\n")), number
    assert believed > 20
