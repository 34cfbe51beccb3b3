"""Runs programs as other users, where this one may. The users are numbers, which need no name.

What they run has to be where they can read it: `shared` copies it there.
"""
import contextlib
import os
import shutil
import subprocess
import tempfile

import pytest

PYTHON = "/usr/bin/python3"  # which every user can start
CALLER, SENDER, OTHER = 2001, 2002, 2003  # who runs the tool, and two who may send
GROUP = 3001  # of those who may send


def as_user(user, group, *words):
    """The words that run a program as a user, in one group."""
    return ["setpriv", "--reuid=%d" % user, "--regid=%d" % group, "--clear-groups", *map(str, words)]


def needed(test):
    """Marks a test that runs programs as other users."""
    return pytest.mark.root(pytest.mark.needs("setpriv")(test))


@contextlib.contextmanager
def open_folder():
    """A folder that other users may read, as those of pytest are not."""
    with tempfile.TemporaryDirectory(prefix="cadf-") as folder:
        os.chmod(folder, 0o755)
        yield folder


def shared(folder, *paths):
    """Copies files and folders into a folder that all may read, and returns the copies; skips a test where others can't read them."""
    os.chmod(folder, 0o755)
    copies = [os.path.join(folder, os.path.basename(path)) for path in paths]
    for path, copy in zip(paths, copies):
        if os.path.isdir(path):
            shutil.copytree(path, copy)
        else:
            shutil.copy(path, copy)
    subprocess.run(["chmod", "-R", "a+rX", *copies], check=True)
    for copy in copies:
        if subprocess.run(as_user(SENDER, GROUP, PYTHON, "-c", "import os, sys; sys.exit(not os.access(sys.argv[1], os.R_OK))", copy), check=False).returncode:
            pytest.skip("others can't read %s" % copy)
    return copies


def shared_tools(folder, tool, *paths):
    """Copies the tools beside this one, with what they import, and other files as `shared` does."""
    top = os.path.dirname(os.path.dirname(tool))
    tools, _, *copies = shared(folder, os.path.join(top, "tools"), os.path.join(top, "share"), *paths)
    return [tools, *copies]
