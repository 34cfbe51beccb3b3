"""That what proofs take from outside their crate stands in one file of it, by the script that writes that file."""
import os

import pytest

from tests.proofs import imports

CRATE = {
    "Lib.antt": "pub mod First\n",
    "First.antt": "-- The first.\nuse Rattle.left.specs.Sets.{union, both as pair}\nuse Rattle.left.specs.Sets as set\n"
                  "use Rattle.left.specs.Texts.{text}\nuse Rattle.it.proofs.Second.{lemma}\n\nunfolding union\n",
    "Second.antt": "use Rattle.left.specs.Sets.{union}\nuse Rattle.left.specs.Words.{text}\n\nlemma : text\n",
    "third/Answers.antt": "use Rattle.left.specs.Sets.{text}\nuse Rattle.left.specs.Words.{!}\n",
}
WRITTEN = {
    "Lib.antt": "pub mod Common\npub mod First\n",
    "Common.antt": "-- What the proofs of this crate take from outside. Written by tests/proofs/imports.py.\n"
                   "pub use Rattle.left.specs.Sets.{both as pair, text}\nunfoldable pub use Rattle.left.specs.Sets.{union}\n"
                   "pub use Rattle.left.specs.Words.{ !}\n",
    "First.antt": "-- The first.\nuse Rattle.it.proofs.Common.{union, pair, text}\nuse Rattle.left.specs.Sets as set\n"
                  "use Rattle.it.proofs.Second.{lemma}\n\nunfolding union\n",
    "Second.antt": "use Rattle.it.proofs.Common.{union}\nuse Rattle.left.specs.Words.{text}\n\nlemma : text\n",
    "third/Answers.antt": "use Rattle.it.proofs.Common.{text, !}\n",
}
PASSED_ON = {"Sets.antt": "pub use Rattle.left.specs.Texts.{text}\n\npub union : text\n", "Texts.antt": "pub text : text\n"}


@pytest.fixture(name="crate")
def two_crates(tmp_path, monkeypatch):
    """A crate whose proofs take names from another one's definitions: one name by two ways, and one with two meanings."""
    monkeypatch.setattr(imports, "TOP", str(tmp_path))
    imports.lines_of.cache_clear()
    imports.passed_on.cache_clear()
    for place, texts in (("it/proofs", CRATE), ("left/specs", PASSED_ON)):
        for name, text in texts.items():
            path = tmp_path / "crates" / place / name
            path.parent.mkdir(parents=True, exist_ok=True)
            path.write_text(text)
    yield tmp_path / "crates" / "it" / "proofs"
    imports.lines_of.cache_clear()
    imports.passed_on.cache_clear()


def test_each_proof_takes_names_from_outside_by_common():
    assert not imports.differing(imports.proved_crates()), "python3 -m tests.proofs.imports --write"


def test_a_name_of_two_meanings_and_what_is_of_the_crate_stays_in_the_file(crate):
    found = imports.differing(["it"])
    assert {os.path.relpath(name, crate): text for name, text in found.items()} == WRITTEN


def test_what_was_written_stands(crate):
    for name, text in imports.differing(["it"]).items():
        with open(name, "w", encoding="utf-8") as file:
            file.write(text)
    imports.lines_of.cache_clear()
    imports.passed_on.cache_clear()
    assert not imports.differing(["it"])
    assert (crate / "Common.antt").read_text() == WRITTEN["Common.antt"]
