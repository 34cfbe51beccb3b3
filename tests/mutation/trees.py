"""Copies of the tree in which mutants are planted, and the tests that run there."""
import os
import shutil
import signal
import subprocess
import tempfile

from tests import TOP

PYTHON = "/usr/bin/python3"  # where Debian's packages are


def copied_tree(folder, binary):
    """Copies the tree as it is, with its history and the command that the tests try."""
    subprocess.run(["git", "clone", "-q", "--shared", TOP, folder], check=True)
    listed = subprocess.run(["git", "ls-files", "-mdoz", "--exclude-standard"], cwd=TOP, check=True, stdout=subprocess.PIPE).stdout
    for name in filter(None, listed.decode().split("\0")):
        there, here = os.path.join(TOP, name), os.path.join(folder, name)
        if os.path.exists(there):
            os.makedirs(os.path.dirname(here), exist_ok=True)
            shutil.copy2(there, here)
        else:
            os.remove(here)
    if os.path.exists(binary):
        place = os.path.join(folder, "crates", "cadf", "out", "cadf")
        os.makedirs(os.path.dirname(place))
        os.symlink(os.path.realpath(binary), place)
    return folder


def waited(words, top, seconds):
    """Runs a command in a tree. Returns its status, None if it takes longer."""
    with tempfile.TemporaryFile() as said:
        child = subprocess.Popen(words, cwd=top, stdin=subprocess.DEVNULL, stdout=said, stderr=subprocess.STDOUT, start_new_session=True,
                                 env={**os.environ, "PYTHONDONTWRITEBYTECODE": "1"})
        try:
            return child.wait(seconds)
        except subprocess.TimeoutExpired:
            os.killpg(child.pid, signal.SIGKILL)
            child.wait()
            return None
