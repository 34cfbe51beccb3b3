"""Fresh Debians in folders, and what went well of the trials in one."""
import argparse
import os
import subprocess


def options(about):
    """The parser of the options that each script has which makes a Debian."""
    parser = argparse.ArgumentParser(description=about, formatter_class=argparse.RawDescriptionHelpFormatter)
    parser.add_argument("--suite", default="bookworm")
    parser.add_argument("--root", metavar="ROOT.tar")
    return parser


def make(suite, programs, archive, folder):
    """Makes a minimal Debian with these programs in the folder, from the archive, which is made first if it isn't there."""
    if not os.path.exists(archive):
        words = ["mmdebstrap", "--quiet", "--variant=minbase", "--include=" + programs, suite, archive]
        subprocess.run(words, check=True)
    os.mkdir(folder)
    subprocess.run(["tar", "-xf", archive, "-C", folder, "--exclude=./dev/*"], check=True)


class Trials:
    """How many trials went well."""

    def __init__(self):
        self.good = self.bad = 0

    def say(self, what, is_good, said=""):
        """Prints a trial's line: with the last line that it said, or with all of it if it did not go well."""
        self.good, self.bad = self.good + bool(is_good), self.bad + (not is_good)
        shown = said.rstrip().rsplit("\n", 1)[-1] if is_good else said.rstrip()
        print("%-4s %s%s" % ("ok" if is_good else "BAD", what, ": " + shown if shown else ""), flush=True)

    def end(self):
        """Prints how many went well. Returns the exit status."""
        print("%d ok, %d bad" % (self.good, self.bad), flush=True)
        return 1 if self.bad else 0
