"""Names the files of crates that are not in the layout of `rt fmt`, which `rt ci` refuses.

    python3 -m tests.docs.layout [CRATE..]      of all crates, unless some are named
"""
import filecmp
import os
import shutil
import subprocess
import sys
import tempfile

from tests import TOP
from tests.proofs import corpus

PARTS = ("src", "specs", "proofs")


def moved(crate, top):
    """The files of the crate that `rt fmt` lays out otherwise, tried in a copy below that folder."""
    own, copy = os.path.join(TOP, "crates", crate), os.path.join(top, "crates", crate)
    for part in PARTS:
        if os.path.isdir(os.path.join(own, part)):
            shutil.copytree(os.path.join(own, part), os.path.join(copy, part))
    subprocess.run(["rt", "fmt"], cwd=copy, check=True, stdin=subprocess.DEVNULL, stdout=subprocess.DEVNULL)
    names = [os.path.relpath(path, TOP) for part in PARTS for path in corpus.files_of(crate, part)]
    return [name for name in names if not filecmp.cmp(os.path.join(TOP, name), os.path.join(top, name), shallow=False)]


def main():
    crates = sys.argv[1:] or sorted(os.listdir(os.path.join(TOP, "crates")))
    with tempfile.TemporaryDirectory() as top:
        for name in ("crates.txt", "HANDLES"):
            shutil.copy2(os.path.join(TOP, name), top)
        wrong = [name for crate in crates for name in moved(crate, top)]
    for name in wrong:
        print("layout: %s: run `rt fmt` in its crate" % name)
    print("layout: %d crates, %d files in another layout" % (len(crates), len(wrong)))
    return 1 if wrong else 0


if __name__ == "__main__":
    sys.exit(main())
