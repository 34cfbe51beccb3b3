"""Each check of tests/docs/promises.py finds its fault on a wrong page, and none on a right one."""
import os

import pytest

from tests import TOP, text_of
from tests.docs import promises

FOUND = promises.clauses()
FOUND.update((name, set()) for name in os.listdir(os.path.join(TOP, "crates")))
TABLE = "| Promise | Contracts and laws | Definitions | Mutant |\n|---|---|---|---|\n| It is so. | `write_log` | | %s |\n"


def page(name):
    return text_of("docs", name + ".md")


def found(text):
    text = promises.unbroken(text)
    checks = (promises.unnamed(text, FOUND), promises.unimplemented(text), promises.unreached(text, FOUND),
              promises.unnamed_mutants(text), promises.unaudited(text))
    return [line for check in checks for line in check]


@pytest.mark.parametrize("text, fault", [
    ("`cadf_log::write_log`, `write_log (memory)`, `Join for TextSet`, `cadf_tool/specs/Run.antt`", ""),
    ("`cadf_log::write_logs`", "nothing at cadf_log::write_logs"),
    ("`write_logs (memory)`", "no call write_logs"),
    ("`write_log (memories)`", "no clause memories of write_log"),
    ("```text\n`\n```\n`write_log\n(memories)`", "no clause memories of write_log"),
    ("`write_log, write_conflicts (ok, memories)`", "no clause memories of write_conflicts"),
    ("`cadf_tool/specs/Runs.antt`", "no file cadf_tool/specs/Runs.antt"),
    ("`Walk for TextSet`", "no Walk for TextSet"),
    ("`cadf_join::Join`, `Walk for PathSet`", "cadf_join::Join without a type that implements it"),
    ("`cadf_tool::join::join_one`", "nothing outside its crate reaches cadf_tool::join::join_one"),
    (TABLE % "`first_value_rule`", "no mutant first_value_rule"),
    (TABLE % "", "no row names the mutant first_value_ruled"),
    ("| `is_names` | `cadf_event/specs/Names.antt` | 4 | A name. |", "cadf_event/specs/Names.antt doesn't define is_names"),
    ("| `is_name` | `cadf_event/specs/Names.antt` | 5 | A name. |", "cadf_event/specs/Names.antt has 4 lines"),
    ("9 lines in 1 files\n| `is_name` | `cadf_event/specs/Names.antt` | 4 | A name. |", "the definitions have 4 lines in 1 files"),
])
def test_fault(text, fault):
    assert fault in found(text) if fault else found(text) == []


@pytest.mark.parametrize("name, row, fault", [
    ("AUDIT", "| `cadf_event/specs/Names.antt` |", "imports specs.Names of cadf_event, which is in no table"),
    ("AUDIT", "| `cadf_tool/specs/TwoTexts.antt` |", "cites AreParted of cadf_tool/specs/TwoTexts.antt, which is in no table"),
    ("CONTRACTS", "| `newest_ruling_wins` |", ""),
])
def test_row_is_gone(name, row, fault):
    """A page without one of its rows is wrong; the row of a mutant is told by its name."""
    text = page(name)
    lines = [line for line in text.splitlines(keepends=True) if (row in line if fault else "newest_ruling_wins" in line)]
    assert len(lines) == 1
    new = set(found(text.replace(lines[0], ""))) - set(found(text))
    assert any(line.endswith(fault or "no row names the mutant newest_ruling_wins") for line in new)


@pytest.mark.parametrize("old, new", [
    ("", "comes before cadf_event/specs/Names.antt, which it imports"),
    ("`cadf_tool/specs/Verify.antt`. How", "cadf_tool/specs/Verify.antt comes before cadf_tool/specs/Faults.antt, which it imports"),
])
def test_order(old, new):
    """A file comes after those that it imports, unless a sentence names it: not if its row is last, or that name is gone."""
    text = page("AUDIT")
    row = "".join(line for line in text.splitlines(keepends=True) if "| `cadf_event/specs/Names.antt` |" in line)
    assert old in text and "which it imports" not in "".join(found(text))
    assert any(line.endswith(new) for line in found(text.replace(old or row, "") + ("" if old else row)))


def test_unread():
    """A file of definitions that a row of CONTRACTS names is in AUDIT."""
    assert list(promises.unread(page("CONTRACTS"), page("AUDIT"))) == []
    assert list(promises.unread(page("CONTRACTS"), page("AUDIT").replace("cadf_log/specs/ByKey.antt", ""))) == ["cadf_log/specs/ByKey.antt is not in AUDIT"]
