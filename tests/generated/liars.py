"""Has `cadf grew` answer liars: proofs of growth that are wrong, mostly in one place, under seals of which some were made for them.

    python3 -m tests.generated.liars [--count 10000] [--seed 1] [BINARY]

The second implementation is asked, and BINARY, which has to answer as that does. What is accepted has to be true by arithmetic
of sets, as far as a seal is that of a set: of both, what is said to have come and gone has; of one, the other is that of a tree
whose leaves rise and differ from the set as it is said. What is refused is refused with words of docs/FORMATS.md. A proof that
is right is accepted. A case depends on its seed and number alone.
"""
import argparse
import collections
import os
import re
import sys

from tests.generated.compare import alike, answered
from tests.generated.odd_lies import Lie
from tests.reference.command import answer


def tried(lie, binary=None):
    """The answer of the second implementation, or of a binary, and what is wrong with it or None."""
    wanted = answer(lie.words, lie.files)
    told = answered(binary, lie.words, lie.files) if binary else wanted
    return told, lie.falsehood(told) or (None if alike(wanted, told) else "another answer than the second implementation's")


def kind_of(told):
    """An answer without its numbers."""
    return re.sub(r"[0-9a-f]{64}|\d+\n?$", "", (told.output or told.error).decode()).strip() if told.status else "accepted"


def main():
    parser = argparse.ArgumentParser(description=__doc__, formatter_class=argparse.RawDescriptionHelpFormatter)
    parser.add_argument("--count", type=int, default=10000)
    parser.add_argument("--seed", type=int, default=1)
    parser.add_argument("binary", nargs="?")
    options = parser.parse_args()
    binary = options.binary and os.path.abspath(options.binary)
    seen, wrong = collections.Counter(), []
    for number in range(options.count):
        lie = Lie(options.seed, number)
        told, fault = tried(lie, binary)
        seen[kind_of(told)] += 1
        if fault:
            wrong.append("case %d: %s: %r" % (number, fault, told.output or told.error))
    for kind, count in sorted(seen.items()):
        print("%6d  %s" % (count, kind))
    print("\n".join(wrong[:20]))
    print("%d liars: %s" % (options.count, "%d answered wrongly" % len(wrong) if wrong else "none believed"))
    return 1 if wrong else 0


if __name__ == "__main__":
    sys.exit(main())
