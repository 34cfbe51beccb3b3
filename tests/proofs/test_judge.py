"""How .ci/mutants judges mutants, by a prover of its own that says what the kit's prover says.

The prover knows one function, and an answer by hand that fits its own body alone.
"""
import contextlib
import os
import shutil
import sys
import tempfile

import pytest

from tests import TOP
from tests.proofs import corpus
from tests.tools.programs import loaded

CRATE, FILE, FUNCTION, OLD = "cadf_terms", "src/outcome.rt", "root_len", "return i;"
GOAL = "returns-then-b-eq47-clause-end"
PROVER = """#!%s
def text(path):
    with open(path, encoding="utf-8") as file:
        return file.read()
source, function = text("src/outcome.rt"), "fn cadf_terms::outcome::root_len: "
if "%s :" in text("proofs/outcome/root_len/Answers.antt") and "return i;" not in source:
    print("./proofs/outcome/root_len/Answers.antt:8:5: error: `%s`: the two types first differ")
    print(function + "not proved")
elif "return i + 1;" in source and "ensures end" in source:
    print("note: src/outcome.rt:26:13: it is not proved that what it ensures holds (`%s`)\\n" + function + "no proof")
else:
    print(function + "proved")
""" % (sys.executable, GOAL, GOAL, GOAL)
# What is returned, which clause is taken out, and what the judge has to say.
TRIALS = [("return 0 + i;", None, corpus.PROVES), ("return i + 1;", None, GOAL),
          ("return i + 1;", "end", corpus.PROVES), ("return i + 1;", "within", GOAL)]


@pytest.fixture
def mutants(tmp_path):
    """.ci/mutants as a module, with that prover and a copy of the one crate."""
    prover, module = tmp_path / "rt", loaded(os.path.join(TOP, ".ci", "mutants"))
    prover.write_text(PROVER, encoding="utf-8")
    prover.chmod(0o700)
    module.RT, module.copied_tree = str(prover), copied_crate
    return module


@contextlib.contextmanager
def copied_crate(crate):
    with tempfile.TemporaryDirectory() as top:
        for part in ("src", "proofs"):
            path = os.path.join("crates", crate, part)
            shutil.copytree(os.path.join(TOP, path), os.path.join(top, path))
        yield top


@pytest.mark.parametrize("new, clause, wanted", TRIALS)
def test_judge(mutants, new, clause, wanted):
    row = corpus.Row(CRATE, ["%s %s" % (FILE, FUNCTION), "- " + OLD, "+ " + new])
    assert [verdict for _, verdict in mutants.try_rows([row], clause)] == [wanted]


def test_branches_go_with_their_answer(mutants):
    """With another body they are other ones, and an import of what isn't there is no verdict."""
    head, branches = "use A.proofs.f.Goals as goal\n", "use A.proofs.f.Goals.{then-a, else-a}\n"
    first, second = "pub returns : goal.returns\nreturns c = elim c [ | then-a w ↦ w ]\n", "pub other : goal.other\nother c = c\n"
    assert mutants.without_answers(head + branches + first + second, {"returns"}) == head + second
    assert mutants.without_answers(head + branches + second + first, {"other"}) == head + branches + first


def test_folders_of_proofs(mutants):
    """A function of the crate's root has its folder in proofs/, each other one in the folder of its module."""
    root = corpus.Row("cadf_c", ["src/lib.rt cadf_check", "- call(", "+ refuse("])
    other = corpus.Row("cadf_c", ["src/output.rt hand_out", "- *length = text.len()", "+ *length = 0"])
    assert mutants.is_of(root, "proofs/cadf_check") and mutants.is_of(other, "proofs/output/hand_out")
    assert not mutants.is_of(root, "proofs/output/cadf_check") and not mutants.is_of(other, "proofs/hand_out")
