"""Runs the commands that a page of the documentation shows, and compares what they write with what it shows.

    python3 -m tests.docs.shown PAGE...

This runs them where the package is installed; `tests/docs/test_shown.py` runs those of the tree. A block is indented by four
spaces. A line `$ command` is run by bash, in one folder for the whole page, with the built command, if it is there, and the
tools first on the path; a here-document goes on to its line END. The lines below it, up to the next command or the block's
end, are what the command writes to standard output and standard error together; a line `..` stands for any lines. A block
with a program that need not be on each machine is left out where it is not there, and the last line names the program.
"""
import importlib.util
import itertools
import os
import shutil
import subprocess
import sys
import tempfile

from tests import TOP, text_of

BUILT = os.path.join(TOP, "crates", "cadf", "out")
NOT_EVERYWHERE = ("jq", "openssl", "ssh-keygen")


class Differs(AssertionError):
    """A command wrote something else than the page shows."""


def pages():
    """The pages of the tree that show commands with what they write."""
    docs = sorted(os.path.join("docs", name) for name in os.listdir(os.path.join(TOP, "docs")) if name.endswith(".md"))
    return [name for name in ("README.md", *docs) if "\n    $ " in text_of(name)]


def blocks(page):
    """The indented blocks of the page, as lists of (number, line)."""
    numbered = enumerate(text_of(page).split("\n"), 1)
    for is_block, lines in itertools.groupby(numbered, lambda each: each[1].startswith("    ")):
        if is_block:
            yield [(number, line[4:]) for number, line in lines]


def calls(block):
    """The commands of a block, as (number, command, lines shown below it)."""
    at = 0
    while at < len(block):
        number, line = block[at]
        at += 1
        if not line.startswith("$ "):
            continue
        command = [line[2:]]
        if "<<'END'" in line:
            while block[at][1] != "END":
                command.append(block[at][1])
                at += 1
            command.append("END")
            at += 1
        shown = []
        while at < len(block) and not block[at][1].startswith("$ "):
            shown.append(block[at][1])
            at += 1
        yield number, "\n".join(command), shown


def is_alike(written, shown):
    """Whether the lines are those that are shown, where `..` stands for any."""
    if not shown:
        return not written
    if shown[0] == "..":
        return any(is_alike(written[at:], shown[1:]) for at in range(len(written) + 1))
    return bool(written) and written[0] == shown[0] and is_alike(written[1:], shown[1:])


def can_run(line):
    """Whether the line runs a file of the repository: one that can be run by itself, or a module of the tests."""
    words = line.split()
    if words[:2] == ["python3", "-m"] and words[2].split(".")[0] == "tests":
        return importlib.util.find_spec(words[2]) is not None
    path = os.path.join(TOP, words[0])
    return os.path.isfile(path) and os.access(path, os.X_OK)


def absent_program(block):
    """A program that a command of the block runs and that is not on this machine, or None."""
    words = {word for _, line in block if line.startswith("$ ") for word in line.split()}
    return next((name for name in NOT_EVERYWHERE if name in words and shutil.which(name) is None), None)


def idle_lines(page):
    """The lines of the blocks without `$ ` that are no commands for the top of the repository, which other steps run."""
    apart = [block for block in blocks(page) if not any(line.startswith("$ ") for _, line in block)]
    return [line for block in apart for _, line in block if not can_run(line)]


def run_block(page, block, folder, built):
    """Runs the block's commands; the number of them."""
    path = os.pathsep.join([built, os.path.join(TOP, "tools"), os.environ["PATH"]])
    count = 0
    for count, (number, command, shown) in enumerate(calls(block), 1):
        done = subprocess.run(["bash", "-c", command], cwd=folder, env=dict(os.environ, PATH=path, TOP=TOP),
                              stdin=subprocess.DEVNULL, stdout=subprocess.PIPE, stderr=subprocess.STDOUT)
        written = done.stdout.decode("utf-8", "replace").split("\n")
        if written[-1] == "":
            written.pop()
        if not is_alike(written, shown):
            raise Differs("%s:%d: %s\nwrote:\n%s" % (page, number, command, "\n".join(written)))
    return count


def run_page(page, built=BUILT):
    """Runs the page's blocks, by the command in that folder; the number of commands, and the programs that are not here, whose
    blocks were left out."""
    count, absent = 0, set()
    with tempfile.TemporaryDirectory() as folder:
        for block in blocks(page):
            program = absent_program(block)
            if program:
                absent.add(program)
            else:
                count += run_block(page, block, folder, built)
    return count, absent


def main():
    absent = set()
    for name in sys.argv[1:]:
        try:
            count, its = run_page(os.path.join(TOP, name))
        except Differs as fault:
            sys.exit("shown: %s" % fault)
        absent |= its
        print("shown: %s: %d commands do what it shows" % (name, count))
    for program in sorted(absent):
        print("skipped: %s isn't there, and blocks run it" % program)


if __name__ == "__main__":
    main()
