"""The simulation of weeks finds tools with a fault planted, tells a seed's story again, and leaves of a disk what a power cut may leave."""
import os
import re
import subprocess
import sys

import pytest

from tests import TOP
from tests.simulation.disk import PowerCut, tree
from tests.tools.copies import copied

WEEKS = [sys.executable, "-m", "tests.simulation.weeks"]


def told(*words):
    done = subprocess.run([*WEEKS, *words], cwd=TOP, check=False, stdout=subprocess.PIPE, stderr=subprocess.PIPE, text=True)
    return done.returncode, done.stdout, done.stderr


# ---- Weeks

NAMES_SYNCED = 'all that it names being on the disk."""\n        os.fsync(self.folder.descriptor)'
FILE_SYNCED = "            os.fsync(file)\n        self.made.add(name)"
release = pytest.mark.release


@pytest.mark.parametrize("seed, right, wrong, said", [
    (1, NAMES_SYNCED, NAMES_SYNCED.partition("\n")[0], "if the power is cut .* its site is damaged"),
    (1, FILE_SYNCED, FILE_SYNCED.replace("os.fsync(file)", "pass"), "if the power is cut .* (lost|its site is damaged)"),
    (1, "if digest in sizes or self.is_held(part, sizes, size):", "if digest in sizes or sizes:", "exchanged, and differ"),
    pytest.param(1, "self.keep_rest(users, done.said)", "pass", "that arrived are nowhere", marks=release),
    pytest.param(1, "            os.fsync(copy.fileno())\n", "", "that arrived are nowhere", marks=release),
], ids=["names of windows", "content of windows", "what isn't held", "what waits", "the spool's copy"])
def test_a_wrong_tool_is_caught(tmp_path, seed, right, wrong, said):
    """Within a week, whose seed it names."""
    status, _, error = told("--tools", copied(str(tmp_path / "copy"), right, wrong), "--seed", str(seed))
    assert status == 1 and "tests.simulation.weeks --seed %d tells its story" % seed in error and re.search(said, error), error


def test_a_seed_is_a_story():
    """A seed tells the same story again, an act a line; another one tells another."""
    first, again, other = (told("--days", "1", "--seed", seed) for seed in ("5", "5", "6"))
    acts = first[1].splitlines()[:-1]
    assert first[0] == 0 and len(acts) > 10 and acts[0] == "day 0" and again[1].splitlines()[:-1] == acts != other[1].splitlines()[:-1]


# ---- A power cut

class Certain:
    """Chance by which all of what wasn't synced is there, or none."""

    def __init__(self, likely):
        self.likely = likely

    def choice(self, items):
        return self.likely if 1 in items else items[0]

    def random(self):
        return 0.5

    def randrange(self, end):
        return end - 1


def after(tmp_path, likely, *acts):
    """What a disk holds after a cut: of acts, each a call and whether it is noted as a sync."""
    root = str(tmp_path)
    os.makedirs(os.path.join(root, "tmp"))
    (tmp_path / "old").write_bytes(b"old")
    cut = PowerCut(root, tree(root), Certain(likely))
    for act in acts:
        act(root, cut)
    cut.leave()
    return {name: (tmp_path / name).read_bytes() for name in os.listdir(root) if name != "tmp"}


def place(root, name):
    path = os.path.join(root, name)
    found = os.lstat(path) if os.path.lexists(path) else None
    return (path, found.st_ino, found.st_nlink) if found else (path, None, 0)


def makes(name, data):
    def act(root, _):
        with open(os.path.join(root, name), "ab") as file:
            file.write(data)
    return act


def renames(name, other):
    def act(root, cut):
        cut.hear("os.rename", place(root, name), place(root, other))
        os.rename(os.path.join(root, name), os.path.join(root, other))
    return act


def removes(name):
    def act(root, cut):
        cut.hear("os.remove", place(root, name))
        os.unlink(os.path.join(root, name))
    return act


def syncs(name):
    def act(root, cut):
        with open(os.path.join(root, name), "rb") as file:
            cut.hear("content", os.fstat(file.fileno()).st_ino, file.read())
    return act


def syncs_names(root, cut):
    cut.hear("names", root, {name: os.lstat(os.path.join(root, name)).st_ino for name in os.listdir(root)})


NEW = (makes("new", b"new"), syncs("new"), renames("new", "old"))


@pytest.mark.parametrize("acts, least, most", [
    (NEW, {"old": b"old"}, {"old": b"new"}),
    ((*NEW, syncs_names), {"old": b"new"}, {"old": b"new"}),
    ((makes("new", b"new"), renames("new", "old"), syncs_names), {"old": b""}, {"old": b""}),
    ((makes("new", b"new"), syncs("new")), {"old": b"old"}, {"old": b"old", "new": b"new"}),
    ((removes("old"),), {"old": b"old"}, {}),
    ((removes("old"), syncs_names), {}, {}),
    ((makes("old", b" more"),), {"old": b"old"}, {"old": b"old more"}),
    ((makes("old", b" more"), syncs("old")), {"old": b"old more"}, {"old": b"old more"}),
], ids=["a rename", "and names synced", "and what it holds not", "a new name", "a removal", "and names synced", "what was appended", "and synced"])
def test_what_a_cut_leaves(tmp_path, acts, least, most):
    """What was synced is there; all else is there at most. What a file holds that was never synced is gone at the least chance."""
    assert after(tmp_path / "least", 0, *acts) == least
    assert after(tmp_path / "most", 1, *acts) == most
