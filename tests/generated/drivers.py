"""Compares the drivers of calls with the second implementation on generated calls, where docs/FORMATS.md says the answer.

    python3 -m tests.generated.drivers [NUMBER [SEED]]

Generates NUMBER calls (6,000) by SEED (1): of files, inventories, sketches, the two texts, atoms, replicas, rulings, scripts,
schedules and engines. They are handed to the built program crates/drivers, and all fields are compared. The status is 1 where
an answer differs; the call is then shown. What values, times, names and documents are read as, compare.py compares by the
command.
"""
import os
import random
import subprocess
import sys

from tests import TOP
from tests.generated.engine_answers import KINDS as ENGINE_KINDS
from tests.generated.file_answers import KINDS as FILE_KINDS
from tests.generated.replica_answers import KINDS as REPLICA_KINDS
from tests.tables.fields import line, read as fields_of

KINDS = [*FILE_KINDS, *REPLICA_KINDS, *ENGINE_KINDS]


def answers(calls):
    binary = os.path.join(TOP, "crates", "drivers", "out", "drivers")
    run = subprocess.run([binary], input="".join(calls).encode(), stdout=subprocess.PIPE, check=True)
    return run.stdout.decode().split("\n")[:-1]


def main():
    number, seed = (int(word) for word in (sys.argv[1:] + ["6000", "1"][len(sys.argv) - 1:]))
    chance, asked, wanted = random.Random(seed), [], []
    for _ in range(number):
        driver, words, answer = chance.choice(KINDS)(chance)
        asked.append(line([driver, *words]))
        wanted.append(answer)
    given, wrong = answers(asked), 0
    for call, answer, got in zip(asked, wanted, given + [""] * (number - len(given))):
        if line(answer) != line(fields_of(got)):
            wrong += 1
            print("calls: %.2000s is answered by %.2000s" % (call.rstrip("\n"), got))
    if wrong:
        sys.exit("calls: %d of %d are answered otherwise" % (wrong, number))
    print("calls: %d generated calls are answered alike" % number)


if __name__ == "__main__":
    main()
