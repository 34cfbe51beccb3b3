"""The commands and their words stand in one table, crates/cadf_words/src/table.rt: every other place has just those."""
import re

import pytest

from tests import text_of
from tests.command.commands import COMMANDS
from tests.library.declarations import declared
from tests.tables.completions import COMMANDS as NAMES, TABLE, WORDS, operands
from tests.tables.synopses import shown, synopsis

def test_table():
    """All of the table was read."""
    assert len(NAMES) == TABLE.split("COMMANDS", 1)[1].split("= &[", 1)[1].count("&[")
    assert len({word for words in WORDS.values() for word in words}) == TABLE.count("Kind::")


def test_readme():
    """README has each command, with words that the command has or without any, and no other."""
    shown = re.findall(r"`cadf ([a-z-]+)((?: [^`]*)?)`", text_of("README.md"))
    assert set(NAMES) <= {name for name, _ in shown} <= {*NAMES, "help"}
    for name, words in shown:
        known = re.findall(r"--[a-z-]+|[A-Z]+", synopsis(name)) if name in NAMES else []
        assert [word for word in re.findall(r"--[a-z-]+|[A-Z]{2,}", words) if word not in known] == [], name


def test_everywhere():
    """The tests of commands and the library have each command."""
    assert sorted(COMMANDS) == sorted([*NAMES, "help"])
    assert sorted(name for name, _, _ in declared()) == sorted(["cadf_version", *("cadf_" + name.replace("-", "_") for name in NAMES)])


@pytest.mark.parametrize("name", NAMES)
def test_operands(name):
    """The tests of commands know how many words a command takes."""
    assert COMMANDS[name].operands == shown(operands(name))


def test_worked_flag():
    """CONTRIBUTING shows what a flag adds by lines that are there, in at most 14 files."""
    diff = text_of("CONTRIBUTING.md").split("```diff\n")[1].split("```")[0]
    parts = re.split(r"(?m)^\+\+\+ (.*)\n", diff)[1:]
    assert len(parts) // 2 <= 14
    for name, lines in zip(parts[::2], parts[1::2]):
        found = text_of(name).split("\n")
        assert [line for line in lines.splitlines() if line[1:] not in found] == [], name
