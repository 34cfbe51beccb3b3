""".ci/shorten on a small crate, with a prover of its own: it puts a call where the prover finds a proof, and nowhere else.

The prover finds `first` in all its cases at once, `second` by `search` alone and with what it cites, `third` by `grind`,
but not within half of its limits, `fourth` without what it names, `fifth` with what its induction assumes, `sixth` with what
it names, as it stands, and the answer `returns`, but within half of its limits with what it cites alone. It reads no file
in which a call isn't well formed.
"""
import os
import sys

import pytest

from tests import TOP
from tests.tools.programs import loaded

LEMMAS = """-- Lemmas.
use Rattle.std.proofs.Common.{◌≡◌, ℕ, zero, suc, refl, sym, ◌∙◌}
use Rattle.one.proofs.Low.{below}

first : (n : ℕ) → n ≡ n
first zero = refl
first (suc n) = refl

-- by the first
pub second : (n : ℕ) → n ≡ n
second n =
    let a = first n in
    sym a ∙ below n

third : (n : ℕ) → n ≡ n
third n =
    sym (first n) ∙
    first n

fourth : (n : ℕ) → n ≡ n
fourth n = grind (arith, common_steps, first)

fifth : (n : ℕ) → n ≡ n
fifth zero = refl
fifth (suc n) =
    let e = fifth n in
    sym (fifth e)

sixth : (n : ℕ) → n ≡ n
sixth n =
    grind (arith, common_steps, first)

one_more : ℕ → ℕ
one_more n =
    let m = suc n in
    m
"""
ANSWERS = """use Rattle.std.proofs.Common.{sym}
use Rattle.one.proofs.Low.{below}
use Rattle.one.proofs.some.f.Goals as goal

pub returns : goal.returns
returns c =
    let a = below c.n in
    sym a
"""
ANSWERED = """use Rattle.std.proofs.lemmas.Grind.{common_steps}
use Rattle.std.proofs.Common.{arith}
use Rattle.one.proofs.Low.{below}
use Rattle.one.proofs.some.f.Goals as goal

pub returns : goal.returns
returns c = grind (arith, common_steps, below)
"""
SHORTENED = """-- Lemmas.
use Rattle.std.proofs.Common.{rules}
use Rattle.std.proofs.lemmas.Grind.{common_steps}
use Rattle.std.proofs.Common.{arith}
use Rattle.std.proofs.Common.{◌≡◌, ℕ, zero, suc, refl, sym, ◌∙◌}
use Rattle.one.proofs.Low.{below}

first : (n : ℕ) → n ≡ n
first n = grind (arith, common_steps)

-- by the first
pub second : (n : ℕ) → n ≡ n
second n = search (rules, first, below)

third : (n : ℕ) → n ≡ n
third n =
    sym (first n) ∙
    first n

fourth : (n : ℕ) → n ≡ n
fourth n = grind (arith, common_steps)

fifth : (n : ℕ) → n ≡ n
fifth zero = refl
fifth (suc n) = grind (arith, common_steps, (fifth n))

sixth : (n : ℕ) → n ≡ n
sixth n =
    grind (arith, common_steps, first)

one_more : ℕ → ℕ
one_more n =
    let m = suc n in
    m
"""
PROVER = """#!%s
import re, sys
UNFIT = {"second": "grind|search rules", "third": "steps !", "fifth": "steps !|steps[)] !|fifth e|search", "sixth": "steps[)] !", "returns": ""}
SLOW = {"third": "=", "returns": "steps[)]$"}
refused = False
for path in ("proofs/Some.antt", "proofs/some/f/Answers.antt"):
    with open(path, encoding="utf-8") as file:
        lines = file.read().split("\\n")
    if any("{! " in line and " in)" in line for line in lines):
        print("./%%s:1:1: error: expected `)`" %% path)
        continue
    for number, line in enumerate(lines, 1):
        name = line.split(" ")[0]
        if " = {! " in line:
            print("./%%s:%%d:9: goal ? in `%%s`\\n    n : \\u2115\\n  \\u22a2 n \\u2261 n" %% (path, number, name))
            if UNFIT.get(name) and re.search(UNFIT[name], line):
                print("  the term in the hole does not fit: it found no proof")
        elif " = grind" in line and name in SLOW and re.search(SLOW[name], line) and "--margin" in sys.argv:
            refused = True
            print("./%%s:%%d:1: error: `%%s`: `grind` stopped at its own limit" %% (path, number, name))
sys.exit(refused)
""" % sys.executable


@pytest.fixture
def shortened(tmp_path, monkeypatch):
    """Calls .ci/shorten on the crate, and returns its lemmas."""
    proofs, prover, module = tmp_path / "crates" / "one" / "proofs", tmp_path / "rt", loaded(os.path.join(TOP, ".ci", "shorten"))
    lemmas, answers = proofs / "Some.antt", proofs / "some" / "f" / "Answers.antt"
    answers.parent.mkdir(parents=True)
    lemmas.write_text(LEMMAS, encoding="utf-8")
    answers.write_text(ANSWERS, encoding="utf-8")
    prover.write_text(PROVER, encoding="utf-8")
    prover.chmod(0o700)
    monkeypatch.setattr(module, "RT", str(prover))
    monkeypatch.setattr(module, "TOP", str(tmp_path))
    monkeypatch.chdir(tmp_path)

    def call(**changed):
        for name, value in changed.items():
            monkeypatch.setattr(module, name, value)
        module.Crate("one").shorten()
        return lemmas.read_text(encoding="utf-8"), answers.read_text(encoding="utf-8")
    return call


def test_shorten(shortened):
    assert shortened() == (SHORTENED, ANSWERED)


def test_what_cannot_be_settled_stays(shortened, tmp_path):
    with pytest.raises(SystemExit):
        shortened(TURNS=0)
    assert (tmp_path / "crates" / "one" / "proofs" / "Some.antt").read_text(encoding="utf-8") == LEMMAS
