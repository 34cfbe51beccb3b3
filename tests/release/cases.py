"""Counts the cases of the tests, a line for each place that has them: `diff` says what one commit has more than another.

    python3 -m tests.release.cases
"""
import collections
import glob
import os
import subprocess

from tests import TOP
from tests.command import commands, vectors
from tests.generated import drivers, generate
from tests.mutation.trees import PYTHON
from tests.package import completions
from tests.proofs import corpus
from tests.tables import make, rows

PLACES = {
    "rows of documents and of files": rows.all_rows(),
    "calls of examples/vectors": vectors.calls(),
    "command lines": [line for command in commands.COMMANDS.values() for lines in command[2:] for line in lines],
    "lines that a shell completes": completions.CASES,
    "kinds of generated calls": generate.KINDS,
    "kinds of generated calls of drivers": drivers.KINDS,
    "mutants of must-fail": glob.glob(os.path.join(TOP, "crates", "*", "must-fail", "*")),
    **{"mutants of " + crate: corpus.read_table(crate) for crate in corpus.crates()},
    **{"rows of " + name: make.table(name).ROWS for name in make.tables()},
}

if __name__ == "__main__":
    words = [PYTHON, "-m", "pytest", "--collect-only", "--release", "-q", "-p", "no:cacheprovider", "tests"]
    listed = subprocess.run(words, cwd=TOP, check=True, stdout=subprocess.PIPE, universal_newlines=True).stdout
    files = collections.Counter(line.split("::")[0] for line in listed.splitlines() if "::" in line)
    for place, count in [*files.items(), *((place, len(list(cases))) for place, cases in PLACES.items())]:
        print("%5d  %s" % (count, place))
