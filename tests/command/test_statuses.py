"""How the built command ends where its words are refused or a file can't be read: its exit status, and its one line on standard error."""
import os
import shlex
import shutil
import subprocess

import pytest

from tests import TOP
from tests.command import commands
from tests.machine import Answer, ended

FILES = {"log.json": '{"id":"g","events":[]}\n', "cut.json": '{"id":"g",\n'}
VECTORS = ["no-root.seal", "there.proof"]
# A command line, its exit status, and what is wrong. What is wrong with files that can be read is in rows (tests/tables/rows.py).
ENDS = [
    ("--help", 0, ""),
    ("--version", 0, ""),
    ("join --log '' log.json", 2, "log name"),
    ("join --log= absent.json", 2, "log name"),
    ("rehearse '' 0 absent.script", 2, "log name"),
    *[("rehearse g %s absent.script" % word, 2, "sites") for word in ("''", "0", "65", "02", "+2", "1x")],
    ("rule U '' 0 absent.json", 2, "letter"),
    ("rule E '' 0 absent.json", 2, "key"),
    *[("rule E e1 %s absent.json" % word, 2, "place") for word in ("''", "0", "01", "+1", "1x", "1000000000")],
    ("sketch --cells= --salt 2 absent.json", 2, "cells"),
    ("sketch --salt= absent.json", 2, "salt"),
    ("show absent.json", 3, "input 1: read fault"),
    ("show .", 3, "input 1: read fault"),
    ("rule E e1 1 absent.json", 3, "input 1: read fault"),
    ("rehearse g 2 absent.script", 3, "input 1: read fault"),
    ("sketch --cells 3 absent.json", 3, "input 1: read fault"),
    ("missing log.json absent.json", 3, "input 2: read fault"),
    ("join cut.json absent.json", 3, "input 2: read fault"),
    ("missing-by cut.json absent.cadf", 3, "input 2: read fault"),
    ("missing-by-sketch cut.json absent.sketch", 3, "input 2: read fault"),
    ("verify no-root.seal absent.json there.proof", 3, "input 2: read fault"),
    ("growth cut.json log.json absent.json", 3, "input 3: read fault"),
    ("omit absent.cadf absent.json", 3, "input 1: read fault"),
    ("grew no-root.seal there.proof absent.proof", 3, "input 3: read fault"),
    ("grew --erased absent.cadf no-root.seal there.proof there.proof", 3, "input 4: read fault"),
    ("prove cut.json log.json absent.json", 3, "input 3: read fault"),
]
# Command lines that no command takes.
WRONG = [*commands.refused(), "shows log.json", "show --log g log.json"]


@pytest.fixture(scope="module")
def folder(tmp_path_factory):
    """A folder with the inputs."""
    made = tmp_path_factory.mktemp("statuses")
    for name, text in FILES.items():
        (made / name).write_text(text)
    for name in VECTORS:
        shutil.copy(os.path.join(TOP, "examples", "vectors", name), made)
    return made


@pytest.mark.parametrize("line, status, fault", ENDS, ids=[line for line, _, _ in ENDS])
def test_end(cadf, folder, line, status, fault):
    """A refusal writes its one line and nothing else."""
    got = ended(cadf, shlex.split(line), cwd=folder)
    assert got == (status, b"" if status else got.output, b"cadf: %s\n" % fault.encode() if fault else b"")


@pytest.mark.parametrize("name", [name for name in commands.COMMANDS if name != "help"])
def test_help(cadf, name):
    """A command tells its words when it is asked to, in either way."""
    asked, helped = ended(cadf, [name, "--help"]), ended(cadf, ["help", name])
    assert asked == helped == (0, asked.output, b"") and b"Usage: cadf %s" % name.encode() in asked.output


@pytest.mark.parametrize("line", WRONG)
def test_wrong_words(cadf, folder, line):
    got = ended(cadf, shlex.split(line), cwd=folder, stdin=subprocess.DEVNULL)
    assert got.status == 2 and got.error and not got.output


@pytest.mark.skipif(not os.access("/dev/full", os.W_OK), reason="/dev/full isn't there")
@pytest.mark.parametrize("shell, wanted", [
    ('exec "$0" show log.json >/dev/full', Answer(3, b"", b"cadf: write fault\n")),
    ('exec "$0" shows log.json 2>/dev/full', Answer(2, b"", b"")),
])
def test_full_disk(cadf, folder, shell, wanted):
    assert ended("/bin/sh", ["-c", shell, cadf], cwd=folder) == wanted
