"""Makes faults of the programs and the pages by machine, one at a time, and says which the tests see.

    python3 -m tests.mutation --cover [--jobs 2] [TEST..]
    python3 -m tests.mutation [--count 20] [--seed 1] [--area AREA].. [--jobs 2] [NAME..]
    python3 -m tests.mutation --changed [COMMIT] [--jobs 2]
    python3 -m tests.mutation --list [--area AREA].. [NAME..]

The Python programs are those of tools/, share/cadf/, build/, install/, bindings/python/, .ci/ and the second implementation; the
other texts are the scripts of the report's page, the header for C, units, maintainer scripts, completions and the pages. AREAS has
them, each with its name, and operators.py and texts.py beside this say what a mutant is. Without --changed a sample is tried:
COUNT of each area, chosen by SEED; NAMEs choose the mutants whose names begin so. With --changed all of the lines that differ
from COMMIT, HEAD~1 unless it is given. Nothing is tried in the tree: each job has a copy of it.

With --cover all tests of pytest run once, or those that TESTs name, and which lines each of them runs is kept in
.build/mutation, of each program as long as its text stays. A mutant of a Python program is tried by the tests that run its
line: those first that run few lines; one of another text by the tests that its area names. It is

  killed     an assertion of a test fails, which passes without the mutant
  survived   all these tests pass
  uncovered  no test runs its line
  left out   a test ends otherwise: by its limit of time, or an exception in the test itself

The status is 1 if one survived, or is uncovered, that isn't in tests/mutation/survivors; that list only gets shorter. Of
each area the last lines say which share of those that aren't left out was killed, with the interval in which it lies with 95 %.
"""
import argparse
import collections
import concurrent.futures
import hashlib
import json
import os
import queue
import random
import re
import subprocess
import sys
import tempfile
import time
from typing import Callable, NamedTuple

from tests import TOP, patience, text_of, tracked
from tests.machine import built
from tests.mutation import operators, texts, trees


class Area(NamedTuple):
    files: str
    mutants: Callable = operators.mutants
    tests: str = ""  # which try its mutants; if there are none, those that run the mutant's line


AREAS = {
    "tools": Area(r"tools/cadf-[\w-]+"), "share": Area(r"share/cadf/\w+\.py"), "build": Area(r"build/[\w-]+(\.py)?"),
    "install": Area(r"install/\w+(\.py)?"), "bindings": Area(r"bindings/python/.*\.py"), "reference": Area(r"tests/reference/\w+(\.py)?"),
    "gate": Area(r"\.ci/\w+(\.py)?"),
    "page": Area(r"share/cadf/report/\w+\.js", texts.of_script, " tests/tools/test_report%s.py" * 6 % ("_meaning", "_page", "_part", "_evidence", "_questions", "")),
    "header": Area(r"bindings/c/cadf\.h", texts.of_script, "tests/library/test_header.py"),
    "units": Area(r"examples/(systemd|monitoring)/.*", texts.of_lines, "tests/package/test_units.py tests/package/test_monitoring.py"),
    "scripts": Area(r"install/debian/cadf\.p\w+", texts.of_lines, "tests/package/test_maintainer_scripts.py"),
    "pages": Area(r"(README|docs/\w+)\.md", texts.of_page, "tests/docs/test_told.py tests/docs/test_words.py tests/docs/test_stated.py"),
    "completions": Area(r"share/(bash-completion|zsh)/.*", texts.of_lines, "tests/package/test_installed.py"),
}
KEPT = os.path.join(TOP, ".build", "mutation", "covered.json")
SURVIVORS = "tests/mutation/survivors"
MOST_TESTS = 40  # that try a mutant: those of a line that all tests run are too many
SECONDS = 300  # for the tests of a mutant
HERE = os.path.dirname(os.path.abspath(__file__))


def programs():
    """The programs and the other texts, each with its area."""
    return {name: title for title, area in AREAS.items() for name in filter(re.compile(area.files).fullmatch, tracked())
            if area.tests or name.endswith(".py") or text_of(name).startswith("#!/usr/bin/env python3\n")}


def traced():
    """The Python programs: of each line is known which tests run it."""
    return {name: area for name, area in programs().items() if not AREAS[area].tests}


def content(name):
    """The bytes of a program, by its place in the tree or in a copy."""
    with open(os.path.join(TOP, name), "rb") as file:
        return file.read()


def mutants_of(areas):
    """The mutants of texts, given by their names with their areas."""
    return [mutant for name, area in areas.items() for mutant in AREAS[area].mutants(name, content(name))]


def survivors():
    """The names of the mutants that no test sees as yet, each with why it need not be seen, or an empty text."""
    lines = [line for line in text_of(SURVIVORS).splitlines() if line and not line.startswith("#")]
    return dict((line.split("   # ") + [""])[:2] for line in lines)


# ---- Which tests run which lines

class Covered:
    """Of each program the tests that ran each of its lines, and the digest of the text that they ran."""

    def __init__(self):
        self.digests, self.tests = {}, {}

    def read(self):
        if os.path.exists(KEPT):
            with open(KEPT, encoding="utf-8") as file:
                self.digests, self.tests = json.load(file)
        return self

    def write(self):
        os.makedirs(os.path.dirname(KEPT), exist_ok=True)
        with open(KEPT + ".new", "w", encoding="utf-8") as file:
            json.dump([self.digests, self.tests], file)
        os.replace(KEPT + ".new", KEPT)

    def add(self, folder):
        """Adds what a run has written into the folder. What was known of a text that is another now goes."""
        for name in traced():
            digest = hashlib.sha256(content(name)).hexdigest()
            if self.digests.get(name) != digest:
                self.digests[name], self.tests[name] = digest, {}
        found = collections.defaultdict(dict)
        for file in os.listdir(folder):
            with open(os.path.join(folder, file), encoding="utf-8", errors="surrogateescape") as lines:
                for test, name, line in re.findall(r"(?m)^(.+)\t(.+):(\d+)$", lines.read()):
                    found[name].setdefault(line, set()).add(re.sub(r"@\w+$", "", test))  # without the group of xdist
        for name, lines in found.items():
            for line, tests in lines.items():
                self.tests[name][line] = sorted(tests.union(self.tests[name].get(line, ())))

    def is_of(self, name):
        """Whether what is known of a program is of its text as it is."""
        return self.digests.get(name) == hashlib.sha256(content(name)).hexdigest()

    def files(self, name):
        """The files of tests that ran a program, as it was when they did."""
        return sorted({test.split("::")[0] for tests in self.tests.get(name, {}).values() for test in tests})

    def of(self, mutant):
        """The tests of the mutant's area, or those that run its line: those first that run the fewest lines of its program."""
        named = next((area.tests for area in AREAS.values() if re.fullmatch(area.files, mutant.file)), "")
        if named:
            return named.split()
        lines = collections.Counter(test for tests in self.tests.get(mutant.file, {}).values() for test in tests)
        return sorted(self.tests.get(mutant.file, {}).get(str(mutant.line), []), key=lambda test: (lines[test], test))[:MOST_TESTS]


def cover(tests, jobs):
    """Runs tests in a copy of the tree, and keeps which lines each of them runs."""
    with tempfile.TemporaryDirectory(prefix="mutation-") as folder:
        top = trees.copied_tree(os.path.join(folder, "tree"), built("cadf"))
        into = os.path.join(folder, "lines")
        os.mkdir(into, 0o777)
        os.chmod(folder, 0o755)
        os.chmod(into, 0o777)  # tests run tools as other users too
        environment = {**os.environ, "PYTHONPATH": os.path.join(HERE, "tracing"), "TRACED_INTO": into, "TRACED_NAMES": ":".join(traced()),
                       "PYTHONDONTWRITEBYTECODE": "1", "PATH": "/usr/bin" + os.pathsep + os.environ["PATH"]}
        words = [trees.PYTHON, "-m", "pytest", "-q", "-p", "no:cacheprovider", "-n", str(jobs), "--dist", "loadgroup", *(tests or ["tests"])]
        done = subprocess.run(words, cwd=top, env=environment, stdin=subprocess.DEVNULL, check=False)
        if done.returncode not in (0, 1):  # 1: tests of time and memory fail under a tracer
            sys.exit("mutation: pytest ended with status %d" % done.returncode)
        covered = Covered().read()
        covered.add(into)
        covered.write()
    print("mutation: lines of %d programs are run by tests" % sum(map(bool, covered.tests.values())))
    return covered


# ---- What the tests say of a mutant

class Tried:
    """Trees in which mutants are tried, each by one thread at a time."""

    def __init__(self, folder, jobs, covered):
        self.covered, self.trees, self.clean = covered, queue.Queue(), {}
        for number in range(jobs):
            self.trees.put(trees.copied_tree(os.path.join(folder, str(number)), built("cadf")))

    def run(self, tests, top):
        """What tests say in a tree: the lines of tests/mutation/verdict.py, None if they take too long."""
        verdict = top + ".verdict"  # outside of the tree, whose files tests look at
        words = [trees.PYTHON, "-m", "pytest", "-q", "-p", "no:cacheprovider", "-p", "tests.mutation.verdict", "--verdict", verdict, *tests]
        with open(verdict, "w", encoding="utf-8"):
            pass
        status = trees.waited(words, top, patience.seconds(SECONDS))
        with open(verdict, encoding="utf-8") as file:
            lines = file.read().splitlines()
        return None if status is None else lines + ["failed: pytest ended with status %d" % status] * (status > 1 and not lines)

    def is_clean(self, test, top):
        """Whether the test passes without a mutant, tried once."""
        if test not in self.clean:
            self.clean[test] = self.run([test], top) == []
        return self.clean[test]

    def verdict(self, mutant):
        """The verdict on a mutant, and what it rests on."""
        tests = self.covered.of(mutant)
        if not tests:
            return "uncovered", ""
        top = self.trees.get()
        path = os.path.join(top, mutant.file)
        text = content(path)
        try:
            put(path, mutant.applied(text))
            said = self.run(tests, top)
            put(path, text)
            if said is None:
                return "left out", "its tests take too long"
            seen = [line[len("killed "):] for line in said if line.startswith("killed ")]
            if seen:
                return ("killed", seen[0]) if self.is_clean(seen[0], top) else ("left out", seen[0] + " fails without it")
            return ("left out", said[0]) if said else ("survived", "%d tests run it" % len(tests))
        finally:
            put(path, text)
            self.trees.put(top)


def put(path, text):
    """Writes a program in place, so that its mode stays."""
    with open(path, "wb") as file:
        file.write(text)


# ---- Which mutants are tried

def sample(mutants, areas, count, seed):
    """So many mutants of each area, by the seed."""
    chance = random.Random(seed)
    for area in sorted(set(areas.values())):
        those = [mutant for mutant in mutants if areas[mutant.file] == area]
        yield from sorted(chance.sample(those, min(count, len(those))))


def changed_lines(commit):
    """The lines of each program that differ from a commit, as git has them now."""
    done = subprocess.run(["git", "diff", "-U0", "--no-renames", "--no-color", commit, "--", *programs()], cwd=TOP, check=True, stdout=subprocess.PIPE)
    lines, name = collections.defaultdict(set), None
    for line in done.stdout.decode("utf-8", "replace").splitlines():
        if line.startswith("+++ b/"):
            name = line[len("+++ b/"):]
        found = re.match(r"@@ -\S+ \+(\d+)(?:,(\d+))? @@", line)
        if found:
            lines[name].update(range(int(found[1]), int(found[1]) + int(found[2] or 1)))
    return lines


def interval(part, whole):
    """The interval of Wilson's in which a share lies with 95 %, in percent."""
    if not whole:
        return 0, 100
    share, z = part / whole, 1.96
    middle, half = share + z * z / (2 * whole), z * (share * (1 - share) / whole + z * z / (4 * whole * whole)) ** 0.5
    return round(100 * max(0, middle - half) / (1 + z * z / whole)), round(100 * min(1 + z * z / whole, middle + half) / (1 + z * z / whole))


def tried(chosen, covered, jobs):
    """Prints the verdict on each mutant. Returns them by mutant."""
    verdicts = {}
    with tempfile.TemporaryDirectory(prefix="mutation-") as folder, concurrent.futures.ThreadPoolExecutor(jobs) as pool:
        os.chmod(folder, 0o755)
        tree = Tried(folder, jobs, covered)

        def one(mutant):
            begun = time.monotonic()
            verdicts[mutant] = tree.verdict(mutant)
            print("%-9s %4.0f s  %s:%d: %s: %s" % (verdicts[mutant][0], time.monotonic() - begun, mutant.file, mutant.line, mutant.name(), verdicts[mutant][1]), flush=True)

        list(pool.map(one, chosen))
    return verdicts


def main():
    parser = argparse.ArgumentParser(description=__doc__, formatter_class=argparse.RawDescriptionHelpFormatter)
    parser.add_argument("--cover", action="store_true")
    parser.add_argument("--changed", metavar="COMMIT", nargs="?", const="HEAD~1")
    parser.add_argument("--list", action="store_true")
    parser.add_argument("--count", type=int, default=20)
    parser.add_argument("--seed", type=int, default=1)
    parser.add_argument("--area", action="append", choices=AREAS, default=[])
    parser.add_argument("--jobs", type=int, default=2)
    parser.add_argument("names", nargs="*", metavar="NAME")
    options = parser.parse_args()
    if options.cover:
        cover(options.names, options.jobs)
        return 0
    areas = {name: area for name, area in programs().items() if not options.area or area in options.area}
    mutants = [mutant for mutant in mutants_of(areas) if not options.names or mutant.name().startswith(tuple(options.names))]
    if options.changed:
        lines = changed_lines(options.changed)
        mutants = [mutant for mutant in mutants if mutant.line in lines[mutant.file]]
    elif not options.names and not options.list:
        mutants = list(sample(mutants, areas, options.count, options.seed))
    if options.list:
        print("".join("%s:%d: %s\n" % (mutant.file, mutant.line, mutant.name()) for mutant in mutants), end="")
        return 0
    covered = Covered().read()
    stale = sorted({mutant.file for mutant in mutants if not (AREAS[areas[mutant.file]].tests or covered.is_of(mutant.file))})
    if stale:
        tests = sorted({file for name in stale for file in covered.files(name) if os.path.exists(os.path.join(TOP, file))})
        print("mutation: which tests run %s isn't known as it is: %s run" % (", ".join(stale), "%d files of tests" % len(tests) if tests else "all tests"), flush=True)
        covered = cover(tests, options.jobs)
    return judged(tried(mutants, covered, options.jobs), areas)


def judged(verdicts, areas):
    """Prints what became of each area, and of the list. Returns the status."""
    listed = survivors()
    for area in sorted(set(areas.values())):
        counts = collections.Counter(verdict for mutant, (verdict, _) in verdicts.items() if areas[mutant.file] == area)
        whole = sum(counts.values()) - counts["left out"]
        if counts:
            print("%-9s %d of %d killed, %d to %d %%; %d survived, %d uncovered, %d left out" % (
                area, counts["killed"], whole, *interval(counts["killed"], whole), counts["survived"], counts["uncovered"], counts["left out"]))
    unseen = sorted({mutant.name() for mutant, (verdict, _) in verdicts.items() if verdict in ("survived", "uncovered")} - set(listed))
    for mutant, (verdict, test) in verdicts.items():
        if verdict == "killed" and mutant.name() in listed:
            print("mutation: take it off %s, %s sees it: %s" % (SURVIVORS, test, mutant.name()))
    for name in unseen:
        print("mutation: no test sees it: %s" % name)
    print("%d mutants, %d of them unseen and not listed" % (len(verdicts), len(unseen)))
    return 1 if unseen else 0


if __name__ == "__main__":
    sys.exit(main())
