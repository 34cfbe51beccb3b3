"""Tests the command before anything is proved: some 400 worked calls, in three minutes.

    python3 -m tests

The calls are those of examples/vectors, the rows that stand in tests/tables/rows.py itself, and a first look at an
event of Nova's. `.ci/run` makes those of documents and of several inputs too, by the built command. The second
implementation, tests/reference, answers each call, and so does the command, translated and run as it stands (`rt try`),
if it has that call's command.
Exit status, standard output and standard error have to be as told. Where `rt` isn't there, the command is left out.
Nothing is written in the tree. The last line counts the answers, and the status is 1 if one failed. It says nothing of
what is proved: `build/command` and `.ci/run` do.
"""
import itertools
import os
import re
import shutil
import subprocess
import sys
import tempfile

from tests import TOP
from tests.command import vectors
from tests.command.commands import COMMANDS
from tests.generated.compare import alike
from tests.machine import put
from tests.reference.command import Answer, answer
from tests.tables import rows

SHOWN = 60


def case(folder, name, words, files):
    """Writes a call as a case of `rt try`: its first file is what `{}` names. The options for its other files."""
    named = [word for word in words if word in files]
    places = {word: b"{}" if word == named[0] else b"%s-%s" % (name.encode(), word) for word in named}
    put(os.path.join(folder, "cases"), name, files[named[0]] if named else b"")
    put(os.path.join(folder, "cases"), name + ".args", b"".join(places.get(word, word) + b"\n" for word in words))
    options = []
    for word, place in places.items():
        if place != b"{}":
            path = put(folder, place.decode(), files[word])
            options += ["--data", "%s=%s" % (place.decode(), path)]
    return options


def answers_of(names, output, told):
    """What each case answered, by the text that `rt try --cases` prints: outputs apart from errors and statuses."""
    ends = {}
    said = re.split(rb"^case=(\S+) (.*)\n", told, flags=re.MULTILINE)
    for error, name, line in zip(said[0::3], said[1::3], said[2::3]):
        status = re.search(rb"\brun=ended status=(\d+) ", line)
        ends[name.decode()] = (int(status[1]) if status else line.decode(), error)
    outputs = re.split(rb"^== (\d{4})\n", output, flags=re.MULTILINE)
    written = {name.decode(): text for name, text in zip(outputs[1::2], outputs[2::2])}
    return [Answer(ends[name][0], written.get(name, b""), ends[name][1]) if name in ends else None for name in names]


def copied(folder):
    """Copies the crates' sources into a folder, so that the run sees no library that `rt ci` is writing, and returns the copy."""
    top = os.path.join(folder, "tree")
    shutil.copytree(os.path.join(TOP, "crates"), os.path.join(top, "crates"),
                    ignore=lambda at, _: ("out",) if "src" in os.listdir(at) else ())
    for name in ("crates.txt", "HANDLES"):
        shutil.copy2(os.path.join(TOP, name), top)
    return top


def by_command(calls):
    """What the command answers to each call, None for a call without an answer. One run has all, as each translates the command anew."""
    names = ["%04d" % number for number in range(len(calls))]
    with tempfile.TemporaryDirectory(prefix="cadf-test-") as folder:
        os.mkdir(os.path.join(folder, "cases"))
        data = [case(folder, name, words, files) for name, (_, words, files, _) in zip(names, calls)]
        command = ["rt", "try", "--cases", os.path.join(folder, "cases"), *itertools.chain(*data)]
        try:
            done = subprocess.run(command, cwd=os.path.join(copied(folder), "crates", "cadf"), stdin=subprocess.DEVNULL,
                                  capture_output=True)
        except OSError as error:
            print("test: rt, the command of the Rattle kit, can't be started: %s" % error.strerror)
            return [None] * len(calls)
    answers = answers_of(names, done.stdout, done.stderr)
    if not any(answers):
        sys.stdout.write(done.stderr.decode(errors="replace") + "test: the command answered no call\n")
    return answers


def difference(wanted, got):
    """The first thing in which an answer differs, in words."""
    if got is None:
        return "no answer"
    if got.status != wanted.status:
        return "status %s, wanted %s; standard error %.*r" % (got.status, wanted.status, SHOWN, got.error)
    if got.output != wanted.output:
        place = len(os.path.commonprefix([got.output, wanted.output]))
        around = slice(max(0, place - SHOWN // 2), place + SHOWN // 2)
        return "standard output from byte %d: %r, wanted %r" % (place + 1, got.output[around], wanted.output[around])
    return "standard error %.*r, wanted %.*r" % (SHOWN, got.error, SHOWN, wanted.error or b"a line")


def failures(who, calls, answers):
    """Prints which answers are not as told; the number of them."""
    differing = [(name, difference(wanted, got)) for (name, _, _, wanted), got in zip(calls, answers)
                 if got is None or not alike(wanted, got)]
    for name, text in differing if any(answers) else []:
        print("test: %s: %s: %s" % (who, name, text))
    return len(differing)


def first_look():
    """The call that build/try names, with what the second implementation answers to it."""
    with open(os.path.join(TOP, "examples", "nova-audit.json"), "rb") as file:
        files = {b"nova-audit.json": file.read()}
    words = [b"show", *files]
    return "first look", words, files, answer(words, files)


def main():
    calls = [first_look(), *vectors.calls(), *rows.calls()]
    print("test: %d calls" % len(calls), flush=True)
    wrong = rows.wrong_sizes()
    for size in wrong:
        print("test: %s" % size)
    failed = len(wrong) + failures("second implementation", calls, [answer(words, files) for _, words, files, _ in calls])
    count = len(rows.SIZES) + len(calls)
    if shutil.which("rt"):
        of_command = [call for call in calls if call[1][0].decode() in COMMANDS]
        count += len(of_command)
        failed += failures("command", of_command, by_command(of_command))
    else:
        print("skipped: rt, of the Rattle kit, isn't there: the command itself")
    print("%d passed, %d failed" % (count - failed, failed))
    return 1 if failed else 0


if __name__ == "__main__":
    sys.exit(main())
