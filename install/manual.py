"""The manual page of a tool, made of what its `--help` says: so what a tool does is said once.

Python's argparse writes the usage, the paragraphs of the description, and a list of the arguments and one of the
options. A line that begins with blanks is kept as it is.
"""
import os
import re
import subprocess
import sys

LISTS = r"\n(?:positional arguments|options|optional arguments):\n"  # the last one up to Python 3.9


def escaped(text):
    """Returns a text as roff shows it, which takes a dot or an apostrophe that begins a line for a request."""
    return re.sub(r"(?m)^(?=[.'])", r"\\&", text.replace("\\", "\\e").replace("-", "\\-"))


def as_it_is(text):
    return ".nf\n%s\n.fi\n" % escaped(text)


def paragraphs(text):
    """Returns paragraphs as roff: lines that begin with blanks as they are, and others filled."""
    parts = re.findall(r"(?:^  .*\n?)+|(?:^\S.*\n?)+", text, re.MULTILINE)
    return "".join(".PP\n" + (as_it_is(part.rstrip()) if part[0] == " " else escaped(part.rstrip()) + "\n") for part in parts)


def items(text):
    """Returns a list of arguments, or of options, as roff."""
    found = re.split(r"(?m)^  (?=\S)", text)[1:]
    parts = [re.split(r"\s{2,}", item.strip(), maxsplit=1) for item in found]
    return "".join(".TP\n.B %s\n%s\n" % (escaped(words), escaped(" ".join(said.split()))) for words, said in parts)


def page(tool, said, heading):
    """Returns the manual page of a tool by its help. The heading is the first line of the command's own page."""
    text, *lists = re.split(LISTS, said)
    usage, _, text = text.partition("\n\n")
    text, _, status = text.partition("\nExit status: ")
    text, _, examples = text.partition("\nExamples:\n")
    first = re.split(r"[.:;]\s", text)[0]
    return "".join([
        heading.replace(" CADF ", " %s " % escaped(tool.upper())) + "\n",
        ".SH NAME\n%s \\- %s\n" % (escaped(tool), escaped(first[0].lower() + " ".join(first[1:].split()))),
        ".SH SYNOPSIS\n", as_it_is(re.sub(r"(?m)^ {7}", "", usage.replace("usage: ", "", 1))),
        ".SH DESCRIPTION\n", paragraphs(text),
        ".SH OPTIONS\n", *map(items, lists),
        ".SH EXIT STATUS\n", paragraphs(status),
        ".SH EXAMPLES\n", paragraphs(examples),
        ".SH SEE ALSO\n.BR cadf (1)\n",
    ])


def page_of(top, tool):
    """Returns the bytes of the manual page of a tool of the tree."""
    said = subprocess.check_output([sys.executable, "-B", os.path.join(top, "tools", tool), "--help"], text=True,
                                   encoding="utf-8", stdin=subprocess.DEVNULL, env={**os.environ, "COLUMNS": "100", "PYTHONIOENCODING": "utf-8"})
    with open(os.path.join(top, "share", "man", "man1", "cadf.1"), encoding="utf-8") as file:
        return page(tool, said, file.readline().rstrip("\n")).encode()
