"""What each tool prints for --help: two calls that its own parser takes; and which pages name it."""
import os
import re
import shlex

import pytest

from tests import TOP, text_of
from tests.tools.programs import loaded, tool

NAMES = sorted(os.listdir(os.path.join(TOP, "tools")))


class Parsed(Exception):
    """The words were taken."""


def refused(program, words, monkeypatch):
    """Why a tool's parser refuses the words, or None."""
    def parse(parser, *_):
        raise Parsed(super(type(parser), parser).parse_args())
    monkeypatch.setattr("sys.argv", words)
    monkeypatch.setattr(program, "Parser", type("Parsing", (program.Parser,), {"parse_args": parse}))
    try:
        (getattr(program, "words", None) or program.main)()
    except Parsed:
        return None
    except SystemExit as ended:
        return ended.code
    return "it reads no words"


def examples(program):
    """The calls that stand under `Examples:`, each without where its output goes."""
    listed = re.search(r"(?m)^Examples:\n((?:  .*\n)+)\n", program.__doc__).group(1)
    return [shlex.split(re.sub(r" >\S+$", "", line)) for line in listed.splitlines()]


@pytest.mark.parametrize("name", NAMES)
def test_examples(name, monkeypatch):
    program = loaded(tool(name))
    calls = examples(program)
    assert len(calls) >= 2 and {call[0] for call in calls} == {name}
    for words in calls:
        with monkeypatch.context() as patched:
            assert refused(program, words, patched) is None, words


def test_an_option_that_is_not_there(monkeypatch, capsys):
    assert refused(loaded(tool("cadf-which")), ["cadf-which", "--logs", "audit", "north/"], monkeypatch) == 2
    assert "--logs" in capsys.readouterr().err


@pytest.mark.parametrize("name", NAMES)
def test_pages_name_it(name):
    """A guide does, and the list of tools in the command's page."""
    assert "\n.TP\n.BR %s (1)\n" % name in text_of("share/man/man1/cadf.1").replace("\\-", "-")
    assert any(name in text_of("docs", page) for page in os.listdir(os.path.join(TOP, "docs")) if page.endswith(".md"))
