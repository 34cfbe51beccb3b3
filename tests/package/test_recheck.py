""".ci/recheck in a small tree, with a stand-in for the kit: it proves what an edit makes due, and nothing else."""
import pytest

from tests.package import test_builds

pytestmark = pytest.mark.needs("git")

RATTLE = '''#!/usr/bin/env python3
import os, sys
name = sys.argv[sys.argv.index("--crate-name") + 1]
with open(os.environ["TOLD"], "a") as file:
    file.write("%s %s\\n" % (sys.argv[1], name))
if name == os.environ.get("FAILS"):
    sys.exit("not proved")
if "-o" in sys.argv:
    os.makedirs(sys.argv[sys.argv.index("-o") + 1], exist_ok=True)
print("statements 12")
print("logic=proved")
'''


class Tree(test_builds.Tree):
    def recheck(self, *words, **more):
        """The status of .ci/recheck, what it said, and what it had proved: each how, and its name."""
        return (*self.run(".ci/recheck", *words, **more), sorted(" ".join(event) for event in self.events()))

    def change(self, name):
        self.add("crates/%s/src/more.rt" % name)


@pytest.fixture
def tree(tmp_path):
    test_builds.make(tmp_path, "build", "install", ".ci")
    made = Tree(tmp_path)
    made.path("kit/bin/rattle").write_text(RATTLE)
    made.path("crates/cadf/src/lib.rt").rename(made.path("crates/cadf/src/main.rt"))
    test_builds.commit(tmp_path)
    return made


def test_nothing_differs(tree):
    assert tree.recheck() == (0, "recheck: no crate differs from HEAD\n", [])


def test_what_is_above(tree):
    """The crate, what stands on it, and once what they need; of a program nothing is made."""
    tree.change("left")
    status, said, proved = tree.recheck()
    assert (status, proved) == (0, ["build apart", "build left", "build low", "build right", "check cadf"]), said
    assert "\nverdict: logic=proved\n" in tree.path(".git/cadf-build/left.made").read_text()
    assert tree.recheck()[2] == ["check cadf"]
    tree.change("right")
    assert tree.recheck("right")[2] == ["build right", "check cadf"]
    test_builds.commit(tree.folder)
    assert tree.recheck()[2] == [] and tree.recheck("--since", "HEAD~1")[2] == ["check cadf"]


def test_refused(tree):
    tree.change("low")
    status, said, _ = tree.recheck(FAILS="left")
    assert status == 1 and "left failed: see crates/left/out/build.log" in said
    assert tree.recheck("absent")[0] == 2
    status, said, _ = tree.recheck("--lanes", "0")
    assert status == 2 and said.endswith("error: argument --lanes: 1 or more processors are needed\n")
    tree.path(".git/cadf-build.lock").unlink()
    tree.path(".git/cadf-build.lock").mkdir()
    assert tree.recheck()[:2] == (1, "recheck: [Errno 21] Is a directory: '%s'\n" % tree.path(".git/cadf-build.lock"))


def test_git_refuses(tree):
    """What git says stands above a line that says what its answer is for."""
    why = "\ngit, which tells what differs, ended with 128\n"
    status, said, _ = tree.recheck("--since", "absent")
    assert status == 1 and "'absent'" in said and said.endswith(why)
    tree.path(".git").rename(tree.path("history"))
    status, said, _ = tree.recheck()
    assert status == 1 and said.startswith("fatal: not a git repository ") and said.endswith(why)
