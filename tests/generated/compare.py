"""Compares the built command with a second implementation of it, on generated inputs.

    python3 -m tests.generated.compare [--count 4000] [--seed 1] [BINARY]

The second implementation, tests/reference, is of what docs/FORMATS.md describes. It was written apart from crates/ and
shares nothing with it, so that a misreading in the definitions there would show as a difference. Compared are the exit
status, standard output and standard error of `join`, `split`, `missing`, `missing-by`, `inventory`, `sketch`,
`missing-by-sketch`, `seal`, `prove`, `verify`, `sealed`, `growth`, `grew`, `omit`, `rule`, `rehearse`, `show` and `check`.
Not compared: the texts for words that are no call, which are clap's own, beyond that the status is 2 and that they go to
standard error alone; words that aren't UTF-8 count as no call. Nor is anything reached that takes a large input, a failed
write or want of memory.

BINARY is crates/cadf/out/cadf unless given. A case depends on its seed and number alone. The status is 1 where a case
differs; the first ten that do are kept, made smaller, in folders of their own with the call to run there.
"""
import argparse
import collections
import concurrent.futures
import functools
import os
import shlex
import subprocess
import sys
import tempfile

from tests.generated.generate import Case
from tests.machine import built, ended, put
from tests.reference.command import DIRECTORY, answer
from tests.reference.sealed_files import sealed

KEPT = 10
SHOWN = 200


def put_all(folder, files):
    for name, content in files.items():
        if content is DIRECTORY:
            os.mkdir(os.path.join(os.fsencode(folder), name))
        else:
            put(os.fsencode(folder), name, content)


def answered(binary, words, files):
    """What the binary answers in a folder with these files."""
    with tempfile.TemporaryDirectory(prefix="cadf-case-") as folder:
        put_all(folder, files)
        return ended(binary, words, cwd=folder, stdin=subprocess.DEVNULL)


def alike(wanted, got):
    if (wanted.status, wanted.output) != (got.status, got.output):
        return False
    return got.error != b"" if wanted.error is None else got.error == wanted.error


def compared(binary, seed, number):
    """The kind of a case, and whether the two answer it alike."""
    case = Case(seed, number)
    return case.kind, alike(answer(case.words, case.files), answered(binary, case.words, case.files))


class Difference:
    """A call that the two answer in different ways, and how to make it smaller."""

    def __init__(self, binary, case):
        self.binary, self.words, self.files = binary, case.words, case.files
        self.wanted, self.got = self.answers(self.files)
        self.files = {name: content for name, content in self.files.items() if name in self.words}

    def answers(self, files):
        return answer(self.words, files), answered(self.binary, self.words, files)

    def stays(self, files):
        """Whether the two still differ, and end with the same statuses."""
        wanted, got = self.answers(files)
        return not alike(wanted, got) and (wanted.status, got.status) == (self.wanted.status, self.got.status)

    def shorter(self, name, size, start):
        """Takes that piece out of the file, whose digest line is made anew where that serves; whether it could."""
        content = self.files[name]
        content = content[:start] + content[start + size:]
        for changed in (content, sealed(content.split(b"\n")[:-2])):
            if len(changed) < len(self.files[name]) and self.stays({**self.files, name: changed}):
                self.files[name] = changed
                return True
        return False

    def shrink(self):
        """Takes out pieces down to a sixtieth of each file, again while a file gets much shorter by it."""
        for name in [name for name, content in self.files.items() if content is not DIRECTORY]:
            again = True
            while again:
                before = len(self.files[name])
                for part in (2, 4, 8, 16, 32, 64):
                    size, start = max(1, before // part), 0
                    while start < len(self.files[name]):
                        if not self.shorter(name, size, start):
                            start += size
                again = len(self.files[name]) * 2 < before
        self.wanted, self.got = self.answers(self.files)

    def keep(self):
        """Prints the two answers and the call, which can be run in a folder that stays."""
        folder = tempfile.mkdtemp(prefix="cadf-differs-")
        put_all(folder, self.files)
        for title, told in (("wanted", self.wanted), ("got", self.got)):
            error = "a text of clap's" if told.error is None else repr(told.error[:SHOWN])
            print("  %s status %s, output %r, error %s" % (title, told.status, told.output[:SHOWN], error))
        words = shlex.join(os.fsdecode(word) for word in [os.fsencode(self.binary), *self.words])
        print("  (cd %s && %s)" % (folder, words))


def main():
    parser = argparse.ArgumentParser(description=__doc__, formatter_class=argparse.RawDescriptionHelpFormatter)
    parser.add_argument("--count", type=int, default=4000)
    parser.add_argument("--seed", type=int, default=1)
    parser.add_argument("binary", nargs="?", default=built("cadf"))
    options = parser.parse_args()
    binary = os.path.abspath(options.binary)
    if not os.access(binary, os.X_OK):
        sys.exit("%s can't be run" % binary)
    sys.stdout.reconfigure(errors="surrogateescape")  # a word that isn't UTF-8 is printed as it is
    one = functools.partial(compared, binary, options.seed)
    with concurrent.futures.ThreadPoolExecutor(len(os.sched_getaffinity(0))) as pool:
        answers = list(pool.map(one, range(options.count)))
    seen = collections.Counter(kind for kind, _ in answers)
    differing = [number for number, (_, same) in enumerate(answers) if not same]
    for place, number in enumerate(differing):
        case = Case(options.seed, number)
        print("case %d (%s) differs" % (number, case.kind.replace("_", " ")))
        if place < KEPT:
            difference = Difference(binary, case)
            difference.shrink()
            difference.keep()
    outcome = "%d differ" % len(differing) if differing else "all alike"
    print("compared %d cases of %d kinds: %s" % (options.count, len(seen), outcome))
    return 1 if differing else 0


if __name__ == "__main__":
    sys.exit(main())
