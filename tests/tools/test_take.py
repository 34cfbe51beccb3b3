"""What tools/cadf-take answers and leaves: in each case, at each fault, with many callers at once, and beside other users."""
import functools
import json
import os
import resource
import shutil
import signal
import stat
import struct
import subprocess
import sys

import pytest

from tests import TOP
from tests.machine import ended
from tests.tools import others
from tests.tools.copies import copied, is_caught
from tests.tools.faulty import calls_of
from tests.tools.odd_logs import EVENT
from tests.tools.programs import Told

TOOLS = os.path.join(TOP, "tools")
sys.path.insert(0, os.path.join(TOP, "share", "cadf"))
CALLS = "os.open os.lstat os.link os.rename os.unlink os.fchmod os.fsync fcntl.flock"
NO_NAME = "cadf-take: log name: an identifier has 1 to 1,024 bytes of UTF-8, and no control character\n"
NO_LOG = "cadf-take: event.json: no log named: an event by itself names none: give a file that does, or --log ID if the tool takes it\n"

# A command that kills its caller before, in the middle of, or after the command that STAGE names.
KILLING = """#!/bin/sh
case $STAGE in
"before $1") kill -9 $PPID ;;
"within $1") "$BUILT" "$@" | { head -c 100 && kill -9 $PPID && sleep 0.1 && cat; }; exit ;;
esac
"$BUILT" "$@"
if [ "$STAGE" = "after $1" ]; then kill -9 $PPID; fi
"""
STAGES = ["before join", "within join", "after join"]


def put(name, text, mode=0o644):
    with open(name, "w", encoding="utf-8") as file:
        file.write(text)
    os.chmod(name, mode)


def held(name):
    """The bytes of a file, or None if there is none."""
    try:
        with open(name, "rb") as file:
            return file.read()
    except FileNotFoundError:
        return None


def mode_of(name):
    return stat.S_IMODE(os.stat(name).st_mode)


def document(*keys):
    return json.dumps({"id": "g", "events": [dict(EVENT, id=key) for key in keys]})


def ends(got, status, error=""):
    """Refuses another status, or other lines on standard error; `..` at the end stands for any."""
    said = got.error.decode()
    is_alike = said.startswith(error[:-2]) if error.endswith("..") else said == error
    assert (got.status, got.output, is_alike) == (status, b"", True), got


def leaves(site, before=None, new=None):
    """Refuses other files than these of a site."""
    assert [held(name) for name in ("s.cadf", "s.cadf.before", "s.cadf.new")] == [site, before, new]


class Folder:
    """The working folder: documents, the site's file `s.cadf` that a test puts there, and the tool that takes into it."""

    def __init__(self, cadf, tools=TOOLS):
        self.cadf, self.tool = cadf, os.path.join(tools, "cadf-take")
        self.seconds = 60 if tools == TOOLS else 2  # until a run is held to be stuck
        put("one.json", document("e1"))
        put("two.json", document("e2"))
        put("both.json", document("e1", "e2"))
        put("cut.json", document("e3")[:-1])
        put("event.json", json.dumps(dict(EVENT, id="e1")))
        self.one, self.two, self.both = (self.joined(name) for name in ("one.json", "two.json", "both.json"))

    def joined(self, *names):
        return subprocess.run([self.cadf, "join", *names], check=True, stdout=subprocess.PIPE).stdout

    def take(self, *words, env=(), **options):
        """What cadf-take answers to the words."""
        return ended(self.tool, list(words), env={**os.environ, "CADF": self.cadf, **dict(env)}, **options)

    def site(self, **files):
        """Puts the files of a site: `site`, `before` and `new`, and no others."""
        for name in os.listdir("."):
            if name.startswith("s.cadf"):
                os.unlink(name)
        for kind, content in files.items():
            with open("s.cadf" if kind == "site" else "s.cadf." + kind, "wb") as file:
                file.write(content)


@pytest.fixture
def folder(cadf, tmp_path, monkeypatch):
    monkeypatch.chdir(tmp_path)
    return Folder(cadf)


# ---- What its programs may do

ODD = """#!/bin/sh
(echo x >made; echo x >>s.cadf; rm -f one.json) 2>/dev/null
%s
exec "$BUILT" "$@"
"""
LIMITS = {"memory": ("--memory=%d" % 2 ** 30, "ulimit -v | grep -qx 1048576 || exit 1"), "time": ("--time=77", "ulimit -t | grep -qx 77 || exit 1"),
          "memory by default": ("--", "ulimit -v | grep -qx 4194304 || exit 1"), "time by default": ("--", "ulimit -t | grep -qx 1200 || exit 1")}


@pytest.mark.parametrize("limit", LIMITS)
def test_budget_of_a_take(folder, limit):
    """A program that reads facts and the site has the time and the memory that the page says, and where there is Landlock it changes no file."""
    from cadf_budget import LIBC, MAKE_RULES
    word, check = LIMITS[limit]
    put("odd", ODD % check, 0o755)
    folder.site(site=folder.one)
    done = folder.take(word, "s.cadf", "two.json", env={"CADF": os.path.abspath("odd"), "BUILT": folder.cadf})
    if LIBC is None or LIBC.syscall(MAKE_RULES, None, 0, 1) < 1:
        pytest.skip("Landlock: this kernel has none")
    ends(done, 0)
    leaves(folder.both, before=folder.one)
    assert held("made") is None and held("one.json") is not None


@pytest.mark.parametrize("right, wrong", [("        change_only(None)\n", ""), ("confine(options.time, options.memory)\n        change", "confine(2 ** 40, 2 ** 50)\n        change")])
def test_takes_without_a_budget_are_caught(folder, tmp_path, right, wrong):
    with pytest.raises(AssertionError):
        test_budget_of_a_take(Folder(folder.cadf, copied(str(tmp_path / "copy"), right, wrong)), "memory")


# ---- What is taken

@pytest.mark.parametrize("mask", [0, 0o777])
def test_further_files_and_nothing_new(folder, mask):
    """The first file makes the site, which only its owner reads; a further one keeps what stood before; nothing new changes nothing."""
    ends(folder.take("s.cadf", "one.json", preexec_fn=lambda: os.umask(mask)), 0)
    leaves(folder.one)
    assert mode_of("s.cadf") == 0o600
    ends(folder.take("s.cadf", "two.json"), 0)
    leaves(folder.both, folder.one)
    ends(folder.take("s.cadf", "both.json", "s.cadf.before", "s.cadf"), 0)
    leaves(folder.both, folder.one)


@pytest.mark.parametrize("name, old, site", [("two.json", "one", "both"), ("one.json", "both", "both")])
def test_a_take_reads_the_site_once(folder, name, old, site):
    """The command is run once, whatever the files add."""
    folder.site(site=getattr(folder, old))
    told = Told()
    put("counting", '#!/bin/sh\necho "$1" | %s\nexec "$BUILT" "$@"\n' % told.tell, 0o755)
    ends(folder.take("s.cadf", name, env={"CADF": "./counting", "BUILT": folder.cadf}), 0)
    assert held("s.cadf") == getattr(folder, site) and told.lines() == ["join"]


def test_behind_a_killed_run(folder):
    folder.site(new=b"left by a run that was killed", site=folder.one)
    ends(folder.take("s.cadf", "two.json"), 0)
    leaves(folder.both, folder.one)


def test_a_folder_in_the_way(folder):
    folder.site(site=folder.one)
    os.mkdir("s.cadf.new")
    ends(folder.take("s.cadf", "two.json"), 3, "cadf-take: s.cadf.new: in the way of a new file: move it away, and make the call again\n")
    os.rmdir("s.cadf.new")
    leaves(folder.one)


def test_event_by_itself(folder):
    ends(folder.take("--log", "g", "s.cadf", "event.json"), 0)
    leaves(folder.one)


def test_names_with_a_dash(folder):
    put("-s.json", document("e2"))
    put("--", document("e1"))
    ends(folder.take("--", "-s.cadf", "-s.json", "--"), 0)
    assert held("-s.cadf") == folder.both


def test_command_by_path(folder):
    ends(folder.take("s.cadf", "one.json", env={"CADF": "", "PATH": os.path.dirname(folder.cadf) + os.pathsep + os.environ["PATH"]}), 0)


@pytest.mark.parametrize("line, status, said", [
    pytest.param('"$CADF" inventory s.cadf | "$CADF" missing-by two.cadf /dev/stdin | "$TAKE" s.cadf -', 0, "", id="an answer"),
    pytest.param('"$TAKE" s.cadf - <two.json', 0, "", id="a file"),
    pytest.param('true | "$TAKE" s.cadf -', 1, "cadf-take: standard input: not JSON\n", id="nothing"),
    pytest.param('"$TAKE" s.cadf - <&-', 3, "cadf-take: standard input: Bad file descriptor\n", id="no standard input")])
def test_standard_input(folder, line, status, said):
    """`-` is what a pipe brings, as the answer to an inventory, or a file, and is read more than once."""
    folder.site(site=folder.one)
    with open("two.cadf", "wb") as file:
        file.write(folder.two)
    ends(ended("/bin/sh", ["-c", line], env={**os.environ, "CADF": folder.cadf, "TAKE": folder.tool}), status, said)
    leaves(*((folder.one,) if status else (folder.both, folder.one)))


# ---- What may be done with the files that it makes

def acl(may):
    """An access control list by which user 12345 may do this, and no group anything."""
    entries = ((1, 6, -1), (2, may, 12345), (4, 0, -1), (16, may, -1), (32, 0, -1))
    return struct.pack("<I", 2) + b"".join(struct.pack("<HHi", *entry) for entry in entries)


def acl_of(name):
    return os.getxattr(name, "system.posix_acl_access") if "system.posix_acl_access" in os.listxattr(name) else None


@pytest.mark.parametrize("wanted, mode, of_lock", [
    (None, 0o640, 0o600), (acl(4), 0o640, 0o600), (acl(6), 0o660, 0o600), (None, 0o664, 0o660), (None, 0o444, 0o600)],
    ids=["a reader's", "a reader's by a list", "a writer's by a list", "a group's", "read only"])
def test_access_stays(folder, wanted, mode, of_lock):
    """The site's mode and group stay, its owner as far as this user may give it, and its access control list.

    The lock has its group and owner, and is for those who may write the site."""
    group = 12345 if os.geteuid() == 0 else max(os.getgroups(), default=os.getegid())
    owner = 54321 if os.geteuid() == 0 else os.geteuid()
    folder.site(site=folder.one)
    os.chown("s.cadf", owner, group)
    os.chmod("s.cadf", mode)
    if wanted:
        try:
            os.setxattr("s.cadf", "system.posix_acl_access", wanted)
        except OSError:
            pytest.skip("acl: this file system has no access control lists")
    ends(folder.take("s.cadf", "two.json"), 0)
    leaves(folder.both, folder.one)
    for name, right in (("s.cadf", mode), ("s.cadf.before", mode), ("s.cadf.lock", of_lock)):
        found = os.stat(name)
        assert (name, found.st_uid, found.st_gid, mode_of(name)) == (name, owner, group, right)
        assert acl_of(name) == (wanted if right == mode else None), name


def test_no_bits(folder):
    """Bits as set-user-ID don't go over to the new file, which is the caller's."""
    folder.site(site=folder.one)
    os.chmod("s.cadf", 0o6755)
    ends(folder.take("s.cadf", "two.json"), 0)
    assert mode_of("s.cadf") == 0o755


@pytest.mark.root
@pytest.mark.needs("unshare")
def test_an_owner_that_a_user_namespace_does_not_have(folder):
    """As in a container: the site is the caller's from then on, as where he may not give it to its owner."""
    folder.site(site=folder.one)
    os.chown("s.cadf", 54321, -1)
    os.chmod("s.cadf", 0o660)
    done = ended("unshare", ["-r", folder.tool, "s.cadf", "two.json"], env={**os.environ, "CADF": folder.cadf})
    if b"unshare:" in done.error:
        pytest.skip("unshare: no user namespace can be made")
    ends(done, 0)
    assert held("s.cadf") == folder.both and (os.stat("s.cadf").st_uid, mode_of("s.cadf")) == (0, 0o660)


# ---- What is refused

@pytest.mark.parametrize("words, status, error", [
    pytest.param(["s.cadf", "two.json", "cut.json"], 1, "cadf-take: cut.json: not JSON\n", id="no JSON"),
    pytest.param(["--log", "h", "s.cadf", "one.json"], 1, "cadf-take: one.json: other log: ..", id="another log"),
    pytest.param(["s.cadf", "absent"], 3, "cadf-take: absent: No such file or directory\n", id="absent"),
    pytest.param(["s.cadf", "a\x1b\u202e"], 3, 'cadf-take: "a\\u001b\\u202e": No such file or directory\n', id="an odd name"),
    pytest.param(["--log=\x7f", "s.cadf", "one.json"], 2, NO_NAME, id="no log's name"), pytest.param(["--log=", "s.cadf", "one.json"], 2, "usage: ..", id="an empty name"),
    pytest.param(["-", "one.json"], 2, "usage: ..", id="no site"),
    pytest.param([], 2, "usage: ..", id="no words"), pytest.param(["s.cadf"], 2, "usage: ..", id="no file"),
    pytest.param(["--force", "s.cadf", "one.json"], 2, "usage: ..", id="an option")])
def test_refused(folder, words, status, error):
    folder.site(site=folder.one, before=folder.two)
    ends(folder.take(*words), status, error)
    leaves(folder.one, folder.two)


def test_refused_without_a_log(folder):
    ends(folder.take("s.cadf", "event.json"), 1, NO_LOG)
    leaves(None)


@pytest.mark.parametrize("log", [b"[" * 9000, b'"\\u0000"', b'"\\ud800"'], ids=["deep", "zero", "surrogate"])
def test_a_site_that_names_no_log(folder, log):
    """Its second line is refused by the command, and given to nobody as a word."""
    site = folder.one.replace(b'"g"', log, 1)
    folder.site(site=site)
    ends(folder.take("s.cadf", "two.json"), 1, "cadf-take: s.cadf: log line: ..")
    leaves(site)


def test_refuses_what_it_would_overwrite(folder):
    folder.site(site=folder.one, before=folder.two, new=folder.both)
    ends(folder.take("s.cadf", "./s.cadf.new"), 2, "cadf-take: ./s.cadf.new: ..")
    leaves(folder.one, folder.two, folder.both)


@pytest.mark.parametrize("make, status", [(lambda name: os.symlink("one.json", name), 2), (os.mkdir, 1)], ids=["a link", "a folder"])
def test_refuses_as_site(folder, make, status):
    make("s.cadf")
    ends(folder.take("s.cadf", "one.json"), status, "cadf-take: s.cadf: ..")
    assert not os.path.exists("s.cadf.lock") and (os.path.islink("s.cadf") or os.path.isdir("s.cadf"))


@pytest.mark.parametrize("name", ["fifo", "to-fifo", "/dev/null", "."])
def test_input_that_is_no_file(folder, name):
    """An input that isn't a regular file is refused at once, whoever might write it later."""
    os.mkfifo("fifo")
    os.symlink("fifo", "to-fifo")
    folder.site(site=folder.one)
    program = subprocess.Popen([folder.tool, "s.cadf", name], env={**os.environ, "CADF": folder.cadf}, stderr=subprocess.PIPE,
                               start_new_session=True)
    try:
        error = program.communicate(timeout=folder.seconds)[1]
    except subprocess.TimeoutExpired:
        os.killpg(program.pid, signal.SIGKILL)
        error = program.communicate()[1]
    assert program.returncode == 3 and error.decode().startswith("cadf-take: %s: " % name), error
    leaves(folder.one)


@pytest.mark.parametrize("mode, status", [(0o600, 0), (0o660, 0), (0o640, 3), (0o644, 3), (0o666, 3)], ids=["600", "660", "640", "644", "666"])
def test_lock_of_mode(folder, mode, status):
    """A lock that more may read than may write the site is refused: whoever reads it can hold it."""
    folder.site(site=folder.one)
    put("s.cadf.lock", "", mode)
    ends(folder.take("s.cadf", "two.json"), status, "cadf-take: s.cadf.lock: .." if status else "")
    leaves(*((folder.one,) if status else (folder.both, folder.one)))


# ---- Failures of the machine and of the command

@pytest.mark.parametrize("name", ["lock", "new", "before"])
def test_no_room_for(folder, name):
    folder.site(site=folder.one)
    os.mkdir("s.cadf." + name)
    ends(folder.take("s.cadf", "two.json"), 3, "cadf-take: s.cadf..")
    os.rmdir("s.cadf." + name)
    leaves(folder.one)


def test_no_folder(folder):
    ends(folder.take("absent/s.cadf", "one.json"), 3, "cadf-take: absent/s.cadf.lock: ..")


@pytest.mark.parametrize("text, status, error", [
    pytest.param("echo 'cadf: out of memory' >&2; exit 4", 4, "cadf-take: out of memory: have more of it, or give more by --memory\n", id="memory"),
    pytest.param("exit 127", 3, "cadf-take: ./odd: ended by status 127\n", id="another status"),
    pytest.param("kill -9 $$", 3, "cadf-take: ./odd: ended by signal 9\n", id="a signal"),
    pytest.param('[ "$1" = join ] || exec "$BUILT" "$@"; "$BUILT" "$@" | head -c 100', 3,
                 "cadf-take: ./odd: what it writes is no replica file\n", id="a cut text")])
def test_command_that_fails(folder, text, status, error):
    folder.site(site=folder.one, before=folder.two)
    put("odd", "#!/bin/sh\n%s\n" % text, 0o755)
    ends(folder.take("s.cadf", "two.json", env={"CADF": "./odd", "BUILT": folder.cadf}), status, error)
    leaves(folder.one, folder.two)


def test_no_command(folder):
    ends(folder.take("s.cadf", "two.json", env={"CADF": "./absent"}), 3, "cadf-take: ./absent: ..")


def test_full_disk(folder):
    folder.site(site=folder.one, before=folder.two)
    full = folder.take("s.cadf", "two.json", preexec_fn=lambda: resource.setrlimit(resource.RLIMIT_FSIZE, (200, 200)))
    ends(full, 3, "cadf-take: s.cadf: write fault: File too large\n")
    leaves(folder.one, folder.two)


@pytest.mark.parametrize("way, statuses", [("failed", (0, 3)), ("killed", (-9,))])
@pytest.mark.parametrize("is_first", [True, False], ids=["first", "further"])
def test_each_call(folder, way, statuses, is_first):
    """Each of its own calls of the system fails, or is its last: the site is the one before or the one after, and the next run takes."""
    def run(*words):
        folder.site(**{} if is_first else {"site": folder.one, "before": folder.two})
        return calls_of(CALLS, folder.tool, ["s.cadf", "two.json"], *words, env={**os.environ, "CADF": folder.cadf})

    old, after = (None, folder.two) if is_first else (folder.one, folder.both)
    done, calls = run()
    ends(done, 0)
    renamed = calls.index("rename")
    assert "fsync" in calls[:renamed] and "fsync" in calls[renamed:] and "open" in calls[renamed:]
    for place, call in enumerate(calls, 1):
        done, _ = run(way, place)
        assert done.status in statuses and held("s.cadf") in ((after,) if done.status == 0 else (old, after)), (place, call, done)
        ends(folder.take("s.cadf", "two.json"), 0)
        assert held("s.cadf") == after and not os.path.exists("s.cadf.new"), (place, call)


@pytest.mark.parametrize("site", ["s.cadf", "ours/"])
def test_a_killed_call_leaves_no_lock_that_a_group_cannot_open(folder, site):
    """Whenever it is killed, there is no lock, or one that has the mode for the group."""
    def run(*words):
        shutil.rmtree("ours", ignore_errors=True)
        os.mkdir("ours")
        folder.site(site=folder.one)
        for name, mode in (("ours", 0o2770), ("s.cadf", 0o660)):
            os.chmod(name, mode)
        by = ["--by", "day"] if site == "ours/" else []
        return calls_of("os.open os.link os.fchmod fcntl.flock", folder.tool, [*by, site, "two.json"], *words, env={**os.environ, "CADF": folder.cadf})

    lock = site + ".lock"
    _, calls = run()
    assert mode_of(lock) == 0o660
    for place in range(1, 2 + calls.index("flock")):
        done, _ = run("killed", place)
        assert done.status == -9 and (not os.path.exists(lock) or mode_of(lock) == 0o660), (place, calls[:place])


@pytest.mark.parametrize("site, status", [("s.cadf", 3), ("ours/", 0)])
def test_a_file_system_without_hard_links(folder, site, status):
    """A folder needs none. A file isn't replaced, and the line says so."""
    linkless = "import errno, os, runpy, sys\ndef link(source, *_, **__):\n    raise OSError(errno.EPERM, 'Operation not permitted', source)\n" \
        "os.link, sys.argv = link, sys.argv[1:]\nrunpy.run_path(sys.argv[0], run_name='__main__')"
    folder.site(site=folder.one)
    os.mkdir("ours")
    done = ended(sys.executable, ["-c", linkless, folder.tool, *(["--by", "day"] if site == "ours/" else []), site, "two.json"], env={**os.environ, "CADF": folder.cadf})
    ends(done, status, "cadf-take: s.cadf: Operation not permitted: no hard link can keep what it held, "
         "and a folder needs none: cadf-take --by day NEW/ s.cadf\n" if status else "")
    leaves(folder.one)
    assert mode_of(site + ".lock") == 0o600


@pytest.mark.parametrize("callers", [12, pytest.param(100, marks=pytest.mark.release)])
def test_many_callers(folder, callers):
    """Many at once, every third killed while the command runs: the site has what was taken by those that ended well, and no more."""
    put("first.json", document("first"))
    folder.site(site=folder.joined("first.json"))
    put("killing", KILLING, 0o755)
    running, taken = [], ["first.json"]
    for number in range(callers):
        put("many.%d.json" % number, document("e%d" % number))
        environment = {**os.environ, "CADF": folder.cadf}
        if number % 3 == 2:
            environment.update(CADF="./killing", BUILT=folder.cadf, STAGE=STAGES[number // 3 % len(STAGES)])
        running.append(subprocess.Popen([folder.tool, "s.cadf", "many.%d.json" % number], env=environment, stderr=subprocess.DEVNULL))
    for number, child in enumerate(running):
        assert child.wait() == (-9 if number % 3 == 2 else 0), number
        taken += ["many.%d.json" % number] if child.returncode == 0 else []
    assert held("s.cadf") == folder.joined(*taken)
    ends(folder.take("s.cadf", "many.0.json"), 0)
    assert sorted(name for name in os.listdir(".") if name.startswith("s.cadf")) == ["s.cadf", "s.cadf.before", "s.cadf.lock"]


# ---- Other users

class Shared(Folder):
    """A folder that other users may read, with copies of the tools that they can run."""

    def __init__(self, cadf, path, tools=TOOLS):
        super().__init__(cadf, tools)
        self.path, self.copies = path, [*others.shared_tools(path, self.tool, cadf), os.path.join(path, "two.json")]

    def place(self, mode, owner, mode_of_site, mode_of_lock, plant=None):
        """A folder of this mode where a site's file and its lock have these modes and that owner, and somebody has planted a file."""
        place = os.path.join(self.path, "place")
        os.mkdir(place)
        os.chmod(place, mode)
        if plant:
            plant(place)
        for name, content, mode in (("s.cadf", self.one.decode(), mode_of_site), ("s.cadf.lock", "", mode_of_lock), ("own", "own", 0o600)):
            path = os.path.join(place, name)
            if not os.path.lexists(path):
                put(path, content)
                os.chown(path, owner, others.GROUP)
                os.chmod(path, mode)
        return place

    def take_as(self, user, place):
        """What a take by a user answers there."""
        tools, cadf, two = self.copies
        program, *words = others.as_user(user, others.GROUP, "env", "CADF=" + cadf, others.PYTHON, os.path.join(tools, "cadf-take"), "s.cadf", two)
        return ended(program, words, cwd=place)


@pytest.fixture
def shared(cadf, monkeypatch):
    with others.open_folder() as path:
        monkeypatch.chdir(path)
        yield Shared(cadf, path)


PLANTED = {  # what another user puts in the place of a file, by its name
    "a file": lambda name: put(name, "", 0o600),
    "a folder": os.mkdir,
    "a FIFO": lambda name: os.mkfifo(name, 0o600),
    "a link": lambda name: os.symlink("own", name),
    "a file that all may read": lambda name: put(name, "", 0o666),
}


@others.needed
@pytest.mark.parametrize("ending", ["lock", "new", "before"])
@pytest.mark.parametrize("kind", PLANTED)
def test_planted(shared, kind, ending):
    """What another user plants in a folder that all may write to is refused, and left alone."""
    def plant(place):
        path = os.path.join(place, "s.cadf." + ending)
        PLANTED[kind](path)
        os.lchown(path, others.SENDER, others.SENDER)

    place = shared.place(0o1777, others.CALLER, 0o600, 0o600, plant)
    done = shared.take_as(others.CALLER, place)
    assert (done.status, held(os.path.join(place, "s.cadf")), held(os.path.join(place, "own"))) == (3, shared.one, b"own"), done
    assert b"two.json" not in done.error


@others.needed
def test_bits_of_another_users_site(shared):
    """The bits that one gives to a site that he shares don't go over to the file of who takes."""
    place = shared.place(0o2770, others.SENDER, 0o6777, 0o660)
    os.chown(place, others.SENDER, others.GROUP)
    done, path = shared.take_as(others.OTHER, place), os.path.join(place, "s.cadf")
    assert done.status in (0, 3)  # 3: a link to it may be forbidden
    assert os.stat(path).st_uid != others.OTHER or not os.stat(path).st_mode & 0o7000


# ---- Copies of the tool that do wrong

@pytest.mark.parametrize("check, words, right, wrong", [
    pytest.param(test_no_bits, [], "os.fstat(old).st_mode & 0o777)", "stat.S_IMODE(os.fstat(old).st_mode))", id="copies all bits"),
    pytest.param(test_input_that_is_no_file, ["/dev/null"], "if not stat.S_ISREG(mode):", "if False:", id="opens what is no file"),
    pytest.param(test_input_that_is_no_file, ["fifo"], "own | flags | os.O_NONBLOCK", "own | flags", id="waits for a FIFO's writer"),
    pytest.param(test_standard_input, ['cat two.json | "$TAKE" s.cadf -', 0, ""],
                 'file = copy_of(open(0, "rb", closefd=False)) if name', 'file = open(0, "rb", closefd=False) if name', id="reads a pipe twice"),
    pytest.param(test_lock_of_mode, [0o640, 3], "if os.fstat(file).st_mode not in LOCK_MODES:", "if False:", id="takes any lock"),
    pytest.param(test_access_stays, [None, 0o640, 0o600], "0o660 if is_shared else 0o600", "0o660", id="a lock for each group")])
def test_wrong_copy_is_caught(cadf, tmp_path, monkeypatch, check, words, right, wrong):
    monkeypatch.chdir(tmp_path)
    is_caught(tmp_path, (right, wrong), check, functools.partial(Folder, cadf), *words)


@others.needed
def test_copy_that_follows_a_link_is_caught(cadf, tmp_path, monkeypatch):
    tools = copied(tmp_path / "copy", "os.O_RDWR | os.O_NOFOLLOW | os.O_NONBLOCK)", "os.O_RDWR | os.O_NONBLOCK)",
                   "name or path, dir_fd=folder, follow_symlinks=False", "name or path, dir_fd=folder")
    with others.open_folder() as path:
        monkeypatch.chdir(path)
        with pytest.raises(AssertionError):
            test_planted(Shared(cadf, path, tools), "a link", "lock")
