"""How each command is called, made of the table of words, in the places that show it: FORMATS and the manual page."""
import os
import re

from tests import TOP, text_of
from tests.tables.completions import COMMANDS, operands, options

# How a word of each kind is written, and how roff is told to.
SHOWN = {"File": "{0}", "Files": "{0}...", "Text": "{0}", "Option": "[--{0} {1}]", "Unit": "--{0} UNIT", "More": "[--{0} FILE]...", "Flag": "[--{0}]"}
ROFF = {"File": ".I {0}", "Files": ".IR {0} ...", "Text": ".I {0}", "Option": ".RB [ --{0}\n.IR {1} ]", "Unit": ".B --{0}\n.I UNIT",
        "More": ".RB [ --{0}\n.IR FILE ]...", "Flag": ".RB [ --{0} ]"}
HELP = ".B cadf help\n.RI [ COMMAND ]\n"


def shown(words):
    return " ".join(SHOWN[word.kind].format(word.name, word.value) for word in words)


def synopsis(name):
    return " ".join(["cadf", name, shown([*options(name), *operands(name)])])


def roff(name):
    """The lines of a command in the synopsis of the manual page."""
    lines = [".B cadf " + name, *(ROFF[word.kind].format(word.name, word.value) for word in [*options(name), *operands(name)])]
    return re.sub(r"(?m)^(\.I .*)\n\.I ", r"\1 ", re.sub(r"(?m)^(\.I .*)\n\.I ", r"\1 ", "\n".join(lines))).replace("-", "\\-") + "\n.br\n"


def with_roff(page):
    """The manual page with its synopsis."""
    return re.sub(r"(?s)(?<=\n\.SH SYNOPSIS\n).*?(?=\.SH )", lambda found: "".join(map(roff, COMMANDS)) + HELP, page, count=1)


def with_rows(page):
    """FORMATS with the first column of the table of commands."""
    for name in COMMANDS:
        page, count = re.subn(r"(?m)^\| `cadf %s(?: [^`]*)?` \|" % name, lambda found, row=synopsis(name): "| `%s` |" % row, page)
        if count != 1:
            raise SystemExit("calls: docs/FORMATS.md has %d rows for cadf %s, and should have one" % (count, name))
    return page


def made():
    """The pages, by their paths."""
    return {os.path.join(TOP, *place): change(text_of(*place))
            for place, change in ((("docs", "FORMATS.md"), with_rows), (("share", "man", "man1", "cadf.1"), with_roff))}
