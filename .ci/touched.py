"""What an edit touches: files that differ from a commit, and the crates that have them."""
import os
import subprocess
import sys

TOP = os.path.dirname(os.path.dirname(os.path.abspath(__file__)))


def listed(*words):
    try:
        done = subprocess.run(["git", *words], cwd=TOP, check=False, stdout=subprocess.PIPE)
    except (FileNotFoundError, PermissionError):
        sys.exit("git, which tells what differs, isn't there")
    if done.returncode:
        sys.exit("git, which tells what differs, ended with %d" % done.returncode)
    return set(filter(None, done.stdout.decode("utf-8", "surrogateescape").split("\0")))


def files(commit):
    """The files of the tree that differ from the commit, and those that are new.

    These come first: without a history of this user's `git diff` compares two files.
    """
    return listed("ls-files", "-oz", "--exclude-standard") | listed("diff", "--name-only", "--no-renames", "-z", commit)


def crates(names):
    """The crates whose sources, definitions or proofs are among the files, but for those that are gone."""
    parts = [name.split("/") for name in names]
    found = {each[1] for each in parts if each[0] == "crates" and each[2:3] and each[2] in ("src", "specs", "proofs")}
    return {crate for crate in found if os.path.isdir(os.path.join(TOP, "crates", crate))}
