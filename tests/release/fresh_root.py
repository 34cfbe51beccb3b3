"""Tries a package in a fresh, minimal Debian: installs it, uses it, removes it, and looks for what is left.

    python3 -m tests.release.fresh_root [--suite bookworm] [--root ROOT.tar] PACKAGE

Run as root, with mmdebstrap and bubblewrap. mmdebstrap makes the Debian from its usual mirror, and keeps it in ROOT.tar
if that is given; a ROOT.tar that is there is taken. All else runs without a network. What is tried:

- The package is installed, is what dpkg says it is, and is installed over itself.
- The installed command answers the worked calls and examples/vectors, for root and for a user without any rights.
- The commands of the installed pages write what they show; two sites exchange.
- man, apropos, and both shells' completions at a terminal.
- Nothing is left when it is removed, and nothing is known of it when it is purged.
"""
import os
import shutil
import sys
import tempfile

from tests import TOP
from tests.docs.shown import pages
from tests.machine import said
from tests.release import debian

PROGRAMS = "man-db,bash-completion,zsh,python3,jq,openssh-client"  # beside what a minimal Debian has
DOC = "/usr/share/doc/cadf"
MODULE = ["python3", "-m"]
TRIAL = "/trial"  # the tests of this tree, and the installed pages, as they are beside each other in the tree
PAGES = ("README.md", "docs", "examples", "bench")
WORDS = "crates/cadf_words/src/table.rt"  # of which the completions are made
ENVIRONMENT = {"PATH": "/usr/sbin:/usr/bin:/sbin:/bin", "HOME": "/root", "TERM": "vt100", "LC_ALL": "C.UTF-8",
               "DEBIAN_FRONTEND": "noninteractive", "PYTHONDONTWRITEBYTECODE": "1"}
NOBODY = ["setpriv", "--reuid=65534", "--regid=65534", "--clear-groups", "--no-new-privs", "--bounding-set=-all"]
# What any package changes: what dpkg knows, logs, and the cache of manual pages.
CHANGED = ("/var/lib/dpkg/", "/var/log/", "/var/cache/man/", TRIAL)


class Root(debian.Trials):
    """A Debian in a folder, and the trials in it."""

    def __init__(self, folder):
        super().__init__()
        self.folder = folder

    def run(self, words):
        """What the words answer in the root, without a network."""
        sandbox = ["bwrap", "--unshare-net", "--unshare-pid", "--unshare-ipc", "--die-with-parent", "--cap-add", "ALL", "--clearenv",
                   "--bind", self.folder, "/", "--dev", "/dev", "--proc", "/proc", "--tmpfs", "/tmp", "--chdir", TRIAL]
        for item in ENVIRONMENT.items():
            sandbox += ["--setenv", *item]
        return said(*sandbox, *words)

    def tries(self, what, words, shows=""):
        """Expects that the words end with status 0, and show this text."""
        status, said = self.run(words)
        self.say(what, status == 0 and shows in said, said)

    def places(self):
        """All places of the root, but those that any package changes."""
        found = set()
        for at, folders, files in os.walk(self.folder):
            found.update(os.path.join(at, name)[len(self.folder):] for name in folders + files)
        return {place for place in found if not place.startswith(CHANGED)}


def bring(package, folder):
    """Brings the package, and the tests of it, into the root."""
    trial = folder + TRIAL
    os.makedirs(trial)
    shutil.copy(package, os.path.join(trial, "cadf.deb"))
    shutil.copytree(os.path.join(TOP, "tests"), os.path.join(trial, "tests"))
    os.makedirs(os.path.join(trial, os.path.dirname(WORDS)))
    shutil.copy(os.path.join(TOP, WORDS), os.path.join(trial, WORDS))
    for name in PAGES:
        os.symlink(os.path.join(DOC, name), os.path.join(trial, name))


def use(root):
    """Uses what is installed."""
    root.tries("the worked calls", [*MODULE, "tests.tables.rows", "/usr/bin/cadf"])
    root.tries("the vectors", [*MODULE, "tests.command.vectors", "/usr/bin/cadf"])
    root.tries("the vectors, for a user without rights", [*NOBODY, *MODULE, "tests.command.vectors", "/usr/bin/cadf"])
    root.tries("two sites", [TRIAL + "/examples/two-sites.sh", "/usr/bin/cadf"])
    for page in pages():
        root.tries("the commands of " + page, [*MODULE, "tests.docs.shown", page])
    root.tries("man cadf", [*NOBODY, "man", "-P", "cat", "cadf"], "EXIT STATUS")  # as root it would keep a page
    root.tries("man cadf-take", [*NOBODY, "man", "-P", "cat", "cadf-take"], "EXIT STATUS")
    root.tries("man -k replicas", ["man", "-k", "replicas"], "cadf (1)")
    root.tries("completions", [*MODULE, "tests.package.completions", "--system"], "bash and zsh: all as they should be")


def tries_all(root):
    """Installs the package, uses it, and removes it."""
    before = root.places()
    root.tries("dpkg --install", ["dpkg", "--install", TRIAL + "/cadf.deb"])
    added = sorted(root.places() - before)
    root.say("%d files and folders, all below /usr" % len(added), bool(added) and all(place.startswith("/usr/") for place in added))
    status, said = root.run(["dpkg", "--verify", "cadf"])
    root.say("dpkg --verify", status == 0 and not said, said)
    use(root)
    status, said = root.run(["dpkg", "--verify", "cadf"])
    root.say("dpkg --verify after use", status == 0 and not said, said)
    root.tries("dpkg --install over itself", ["dpkg", "--install", TRIAL + "/cadf.deb"])
    root.tries("dpkg --remove", ["dpkg", "--remove", "cadf"])
    root.tries("dpkg --purge", ["dpkg", "--purge", "cadf"])
    status, said = root.run(["dpkg-query", "--show", "cadf"])
    root.say("dpkg knows nothing of it", status != 0, said)
    after = root.places()
    root.say("nothing is left, and nothing is lost", before == after, " ".join(sorted(before ^ after)))


def main():
    parser = debian.options(__doc__)
    parser.add_argument("package", metavar="PACKAGE")
    options = parser.parse_args()
    with tempfile.TemporaryDirectory(prefix="cadf-root-") as folder:
        root = Root(os.path.join(folder, "root"))
        debian.make(options.suite, PROGRAMS, options.root or os.path.join(folder, "root.tar"), root.folder)
        bring(options.package, root.folder)
        tries_all(root)
    return root.end()


if __name__ == "__main__":
    sys.exit(main())
