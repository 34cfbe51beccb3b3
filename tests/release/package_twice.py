"""Builds the commit at the top twice, from nothing, in different surroundings, and compares packages and static commands.

    python3 -m tests.release.package_twice [FOLDER]    leaves the packages in FOLDER, if it is given

Each build proves everything and takes as long as build/command does. The second has other permissions, another zone and
language, a path with a blank and a comma, and half of the processors.
"""
import argparse
import os
import shutil
import subprocess
import sys
import tempfile

from tests import TOP

SURROUNDINGS = {
    "first": (0o022, {"TZ": "UTC", "LC_ALL": "C"}),
    "the second, elsewhere": (0o077, {"TZ": "Asia/Tokyo", "LC_ALL": "C.UTF-8", "SOURCE_DATE_EPOCH": "1"}),
}


def made(folder, name, processors):
    """What install/package makes in a clone: the digests and names of its files, and of what the command was linked from."""
    umask, environment = SURROUNDINGS[name]
    tree, out = os.path.join(folder, name, "tree"), os.path.join(folder, name, "out")
    os.umask(umask)
    subprocess.run(["git", "clone", "-q", TOP, tree], check=True)
    for words in (["--library"], ["--static"]):
        subprocess.run([os.path.join(tree, "install", "package"), *words, out], env={**os.environ, **environment}, check=True,
                       preexec_fn=lambda: os.sched_setaffinity(0, processors))
    paths = sorted(os.path.join(out, one) for one in os.listdir(out)) + [os.path.join(tree, "crates", "cadf", "out", "cadf.o")]
    sums = subprocess.run(["sha256sum", *paths], check=True, stdout=subprocess.PIPE).stdout.decode().splitlines()
    shutil.rmtree(tree)
    return ["%s  %s" % (line.split()[0].lstrip("\\"), os.path.basename(path)) for line, path in zip(sums, paths)]


def main():
    parser = argparse.ArgumentParser(description=__doc__, formatter_class=argparse.RawDescriptionHelpFormatter)
    parser.add_argument("folder", metavar="FOLDER", nargs="?", type=os.path.abspath)
    options = parser.parse_args()
    processors = sorted(os.sched_getaffinity(0))
    shares = [set(processors), set(processors[:max(1, len(processors) // 2)])]
    with tempfile.TemporaryDirectory(prefix="cadf-twice-") as temporary:
        folder = options.folder or temporary
        first, second = (made(folder, name, share) for name, share in zip(SURROUNDINGS, shares))
    print("\n".join(first))
    if first != second:
        sys.exit("package-twice: they differ:\n" + "\n".join(second))
    print("package-twice: the same bytes")


if __name__ == "__main__":
    main()
