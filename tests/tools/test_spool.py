"""What tools/cadf-spool takes and sets aside, how it ends, and that nothing is lost, wherever it is killed.

A file costs too much, keeps the others of its group from being taken, or is a sender's who is another user.
"""
import ctypes
import errno
import fcntl
import functools
import json
import os
import resource
import shlex
import signal
import socket
import stat
import subprocess
import sys
import tempfile
import time

import pytest

from tests.machine import ended, side_by_side
from tests.tools import others
from tests.tools.copies import copied, is_caught
from tests.tools.faulty import calls_of
from tests.tools.odd_logs import EVENT
from tests.tools.programs import Told, is_read, loaded, tool, writer_to

CALLS = "os.open os.mkdir os.rename os.fsync os.unlink os.rmdir fcntl.flock builtins.open subprocess.Popen"
DAMAGED = "the file is damaged: fetch it again, or restore it as the guide says under `A damaged site`"
TOO_LARGE = "printf 'CADF-REPLICA 2\\n'; printf 'Z %064d\\n' 0 | dd bs=1M seek=1024 status=none; exit 0"  # a replica file that no command reads


def event(key, **members):
    return dict(EVENT, id=key, **members)


def document(*keys, log="g"):
    return json.dumps({"id": log, "events": [event(key) for key in keys]}).encode()


def message(*keys):
    """Lines of a listener: an envelope each."""
    return b"".join(json.dumps({"oslo.version": "2.0", "oslo.message": json.dumps({"event_type": "x", "payload": event(key)})}).encode() + b"\n"
                    for key in keys)


def put(path, data):
    with open(path, "wb") as file:
        file.write(data)


def content(path):
    with open(path, "rb") as file:
        return file.read()


def held(folder):
    """All regular files under a folder that aren't hidden, by their names, with what they hold; of others their kind."""
    found = {}
    for place, _, names in os.walk(folder):
        for name in names:
            path = os.path.join(place, name)
            if "/." not in path[len(folder):]:
                found[os.path.relpath(path, folder)] = content(path if stat.S_ISREG(os.lstat(path).st_mode) else os.devnull)
    return found


def last_line(done):
    return done.error.decode().splitlines()[-1]


def counted(taken, aside):
    return "cadf-spool: taken %d, set aside %d, waiting 0" % (taken, aside)


class Spools:
    """Sites, each with a spool in a folder of its own, and the tool that takes what arrives there."""

    def __init__(self, cadf, folder, tools=None):
        self.cadf, self.folder, self.number = cadf, str(folder), 0
        self.tool = os.path.join(tools, "cadf-spool") if tools else tool("cadf-spool")

    def site(self, **files):
        """A folder for a site, with a spool that has these files, by name."""
        self.number += 1
        folder = os.path.join(self.folder, "site-%d" % self.number)
        os.makedirs(os.path.join(folder, "spool"))
        for name, data in files.items():
            put(os.path.join(folder, "spool", name), data)
        return folder

    def run(self, folder, *words, cadf=None, **options):
        """What cadf-spool answers to the words."""
        return ended(sys.executable, [self.tool, *words], cwd=folder, env={**os.environ, "CADF": cadf or self.cadf}, **options)

    def takes(self, folder, *words, **options):
        """What it answers to the words, the log `g`, and the site and the spool of a folder."""
        return self.run(folder, *words, "--log", "g", "s.cadf", "spool", **options)

    def started(self, folder, *words, cadf=None, **options):
        return subprocess.Popen([sys.executable, self.tool, *words, "s.cadf", "spool"], cwd=folder, env={**os.environ, "CADF": cadf or self.cadf}, **options)

    def program(self):
        """The tool as a module, which says nothing."""
        program = loaded(self.tool)
        program.say, program.CADF = lambda text: None, self.cadf
        return program

    def command(self, folder, script):
        """A command in the place of `cadf`: a script of the shell, in which `exec "$BUILT" "$@"` goes on as `cadf` does."""
        path = os.path.join(folder, "odd")
        put(path, b'#!/bin/sh\nBUILT="%s"\n%s\nexec "$BUILT" "$@"\n' % (self.cadf.encode(), script.encode()))
        os.chmod(path, 0o755)
        return path

    def joined(self, *texts):
        """The replica file of these texts, as the command joins them."""
        folder = tempfile.mkdtemp(dir=self.folder)
        names = [os.path.join(folder, str(number)) for number in range(len(texts))]
        for name, text in zip(names, texts):
            put(name, text)
        return subprocess.run([self.cadf, "join", "--log", "g", *names], check=True, stdout=subprocess.PIPE).stdout

    def leaves(self, folder, site, **spool):
        """Refuses what else the site's file and the spool hold; of a file that is None only the name counts."""
        path = os.path.join(folder, "s.cadf")
        found = held(os.path.join(folder, "spool"))
        assert (content(path) if os.path.exists(path) else None) == site
        assert {name: data if spool.get(name) is not None else None for name, data in found.items()} == spool


@pytest.fixture
def spools(cadf, tmp_path):
    return Spools(cadf, tmp_path)


def names_in(part, names):
    return {part + "/" + name: None for name in names}


# ---- What is taken, and what is set aside

def test_kinds(spools):
    """A file of each kind is taken, as it is or line by line, or is set aside with its reason."""
    replica, odd = spools.joined(document("e2")), b'\xff\n{"a":1\n'
    kinds = {"a.jsonl": message("e1") + odd, "b.json": document("e3"), "c.cadf": replica, "d": spools.joined(document("e4")),
             "e.json": json.dumps(event("e5")).encode(), "f.log": b"2024-03-01 12:00:00.1 7 INFO x [-] no event\n", "g": b"",
             "h.jsonl": document("e6") + b"\n"}
    bad = {
        "cut.json": (document("e7")[:-1], "not JSON"), "empty.json": (b"", "not JSON"), "lines.json": (message("e8", "e9"), "lines of JSON: `cadf-from-openstack --log ID FILE` makes a document of them"),
        "other.json": (document("e7", log="h"), 'other log: "h": one site has one log; `cadf check FILE` says which log a file is of'),
        "short.cadf": (replica[:-9], "truncated: " + DAMAGED),
        "asks.cadf": (b"CADF-INVENTORY 1\n", "an inventory, which holds no facts: `cadf missing-by SITE INVENTORY` answers it"),
        "later": (b"CADF-REPLICA 3\n", "version: a later release wrote it, or line ends were changed on the way: fetch it again, or have `cadf show` of it sent"),
        "action.json": (document("e7").replace(b'"read"', b"1"), "event 1: action"),
        "x.gz": (b"\x1f\x8b\x08", "compressed: unpack it by gunzip, and put it back")}
    left = {"n.part": b"x", "n.jsonl.torn": b"{", ".hidden": b"x"}
    folder = spools.site(**kinds, **{name: data for name, (data, _) in bad.items()}, **left)
    os.mkdir(os.path.join(folder, "spool", "folder.json"))
    done = spools.takes(folder)
    site = spools.joined(document("e1", "e2", "e3", "e4", "e5", "e6"))
    wanted = {**{"taken/" + name: data for name, data in kinds.items()}, "set-aside/a.jsonl": None, "n.part": b"x", "n.jsonl.torn": b"{"}
    for name, (data, reason) in bad.items():
        wanted.update({"set-aside/" + name: data, "set-aside/%s.reason" % name: reason.encode() + b"\n"})
    assert (done.status, done.output, last_line(done)) == (1, b"", counted(8, 10))
    spools.leaves(folder, site, **wanted)
    spool = os.path.join(folder, "spool")
    entries = [json.loads(line) for line in held(spool)["set-aside/a.jsonl"].splitlines()]
    assert [(entry["file"], entry["line"], entry["faults"]) for entry in entries] == [
        ("a.jsonl", 2, ["not UTF-8"]), ("a.jsonl", 3, ["not JSON at character 7"])]
    modes = [os.stat(os.path.join(spool, name)).st_mode & 0o777 for name in ("taken", "taking", "set-aside", "set-aside/a.jsonl")]
    assert modes == [0o700] * 3 + [0o600]
    for name in ("more", "lost+found"):  # the latter is that of a file system of the spool's own
        os.mkdir(os.path.join(folder, "spool", name))
    assert spools.run(folder, "s.cadf", "spool") == (
        0, b"", b"cadf-spool: spool: passed over 2 folders, as folder.json: move the files in them into the spool\n")
    spools.leaves(folder, site, **wanted)


def test_mended(spools):
    """What was set aside is mended and put back, beside new files of the same names."""
    folder = spools.site(**{"a.jsonl": json.dumps(event("e1", action=1)).encode(), "b.json": document("e2")[:-1]})
    assert spools.takes(folder).status == 1
    for name, change in (("a.jsonl", (b'"action":1', b'"action":"read"')), ("b.json", (b"]", b"]}"))):
        path = os.path.join(folder, "spool", "set-aside", name)
        put(os.path.join(folder, "spool", name), content(path).replace(*change))
        os.remove(path)
    os.remove(os.path.join(folder, "spool/set-aside/b.json.reason"))
    assert spools.run(folder, "s.cadf", "spool").status == 0
    spools.leaves(folder, spools.joined(document("e1", "e2")), **names_in("taken", ["a.jsonl", "a-2.jsonl", "b.json"]))


def test_names(spools):
    """Names of every kind, and files that come again under one name."""
    replicas = [spools.joined(document("n%d" % number)) for number in range(13)]
    names = [b"-", b"-x.json", b"--log=h", b"a b", b"new\nline", b"\xff.cadf", "ü\u202e".encode(), b"x.reason", b"x" * 255, b"y" * 250 + b".cadf", b"a.json", b"$(x)", b"--"]
    folder = spools.site()
    for name, data in zip(names, replicas):
        put(os.path.join(os.fsencode(folder), b"spool", name), data if not name.endswith(b".reason") else message("n7"))
    put(os.path.join(folder, "spool/x"), b"CADF-")
    done = spools.takes(folder)
    assert (done.status, done.error.count(b" is called ")) == (1, 7)
    site = spools.joined(document(*("n%d" % number for number in range(13))))
    wanted = {**names_in("taken", ["odd-name.jsonl", "-x.json", "--log=h", "a b", "odd-name-2.jsonl", "odd-name.cadf", "odd-name-3.jsonl", "x-2.reason",
                                   "odd-name-4.jsonl", "odd-name-2.cadf", "a.json", "$(x)", "--"]), "set-aside/x": b"CADF-", "set-aside/x.reason": None}
    spools.leaves(folder, site, **wanted)
    for number in (2, 3):
        put(os.path.join(folder, "spool/a.json"), document("again%d" % number))
        assert spools.run(folder, "s.cadf", "spool").status == 0
        wanted["taken/a-%d.json" % number] = document("again%d" % number)
    spools.leaves(folder, spools.joined(site, document("again2", "again3")), **wanted)


def test_locale(spools, monkeypatch):
    """Logs and names are UTF-8, whatever the locale says."""
    for name, value in (("LC_ALL", "C"), ("PYTHONUTF8", "0"), ("PYTHONCOERCECLOCALE", "0")):
        monkeypatch.setenv(name, value)
    folder = spools.site(**{"ü.json": document("e1", log="Jürnal Ж")})
    assert spools.run(folder, "--log", "Jürnal Ж", "s.cadf", "spool") == (0, b"", counted(1, 0).encode() + b"\n")
    assert os.listdir(os.path.join(folder, "spool", "taken")) == ["ü.json"]


def test_odd_files(spools):
    """What is no regular file is set aside, and nothing behind a link is read."""
    folder = spools.site(**{"a.json": document("e1")})
    os.symlink("/etc/passwd", os.path.join(folder, "spool/link"))
    os.symlink("absent", os.path.join(folder, "spool/to-nothing"))
    os.mkfifo(os.path.join(folder, "spool/pipe"))
    with socket.socket(socket.AF_UNIX) as made:
        made.bind(os.path.relpath(os.path.join(folder, "spool/socket")))
    done = spools.takes(folder)
    assert (done.status, done.error.count(b"set aside: not a regular file: put a copy of the file itself there\n")) == (1, 4)
    names = [name + end for name in ("link", "to-nothing", "pipe", "socket") for end in ("", ".reason")]
    spools.leaves(folder, spools.joined(document("e1")), **names_in("set-aside", names), **{"taken/a.json": None})


def test_open_for_writing(spools):
    folder = spools.site(**{"a.jsonl": message("e1")})
    with open(os.path.join(folder, "spool/a.jsonl"), "ab") as writer:
        done = spools.takes(folder)
        assert done.status == 0 and b"a.jsonl: waits: open for writing" in done.error
        spools.leaves(folder, None, **{"taking/a.jsonl": None})
        writer.write(message("e2"))
    assert spools.takes(folder).status == 0
    spools.leaves(folder, spools.joined(document("e1", "e2")), **{"taken/a.jsonl": None})


def test_lease(spools):
    """A file of which a file server has the lease, for a client that may write it, is open for writing too."""
    folder, handler = spools.site(**{"a.json": document("e1")}), signal.signal(signal.SIGIO, signal.SIG_IGN)
    with open(os.path.join(folder, "spool/a.json"), "r+b") as server:
        fcntl.fcntl(server, fcntl.F_SETLEASE, fcntl.F_WRLCK)
        done = spools.takes(folder)
    signal.signal(signal.SIGIO, handler)
    assert done == (0, b"", b"cadf-spool: a.json: waits: open for writing\n" + b"cadf-spool: taken 0, set aside 0, waiting 1\n")


@pytest.mark.parametrize("files, size, seconds", [(2, 2 ** 28, 60), (200, 1, 60), (200, 2 ** 28, 0)], ids=["number", "size", "time"])
def test_groups(spools, files, size, seconds):
    """More files than one call of cadf-take gets, by number and by size, or than come in its time."""
    program, names = spools.program(), ["%d.json" % number for number in range(5)]
    program.MOST_FILES, program.MOST_BYTES, program.MOST_SECONDS = files, size, seconds
    folder = spools.site(**{name: document(name) for name in names})
    spool = program.Spool(os.path.join(folder, "spool"))
    assert program.Run(spool, os.path.join(folder, "s.cadf"), "g", program.Budget(0, 2 ** 20, 60, 2 ** 32)).run() == 0
    spools.leaves(folder, spools.joined(document(*names)), **names_in("taken", names))


def test_documents_go(spools):
    """What was made of files goes with their group: a run over many files holds the documents of one group."""
    program, names, most = spools.program(), ["%02d.jsonl" % number for number in range(9)], []
    program.MOST_FILES = 2
    folder = spools.site(**{name: message(name) for name in names})
    run = program.Run(program.Spool(os.path.join(folder, "spool")), os.path.join(folder, "s.cadf"), "g", program.Budget(0, 2 ** 20, 60, 2 ** 32))
    right = run.prepared
    run.prepared = lambda number, name: (right(number, name), most.append(len(os.listdir(run.spool.work))))[0]
    assert run.run() == 0 and max(most) <= 3  # a group, and the file that is looked at
    spools.leaves(folder, spools.joined(document(*names)), **names_in("taken", names))


def test_not_set_aside(spools):
    """A file that can't be set aside waits, as where names are shorter, and keeps no other from being taken."""
    program, folder = spools.program(), spools.site(**{"a.json": b"{", "b.json": document("e1")})
    run = program.Run(program.Spool(os.path.join(folder, "spool")), os.path.join(folder, "s.cadf"), "g", program.Budget(0, 2 ** 20, 60, 2 ** 32))

    def refuse(*_):
        raise OSError(errno.ENAMETOOLONG, os.strerror(errno.ENAMETOOLONG))

    run.spool.refuse = refuse
    assert (run.run(), run.counts) == (3, {"taken": 1, "set aside": 0, "waiting": 1})
    spools.leaves(folder, spools.joined(document("e1")), **names_in("taken", ["b.json"]), **names_in("taking", ["a.json"]))


def test_withdrawn(spools):
    """A file that is gone before it is claimed is passed over."""
    program = spools.program()
    folder = spools.site(**{"a.json": document("e1")})
    spool = program.Spool(os.path.join(folder, "spool"))
    spool.arrived = lambda: ["gone.json", "a.json"]
    status = program.Run(spool, os.path.join(folder, "s.cadf"), "g", program.Budget(0, 2 ** 20, 60, 2 ** 32)).run()
    assert status == 0
    spools.leaves(folder, spools.joined(document("e1")), **{"taken/a.json": None})


# ---- What is refused

@pytest.mark.parametrize("words, status, said", [
    ("", 2, "usage"), ("s.cadf", 2, "usage"), ("--lo g s.cadf spool", 2, "usage"), ("s.cadf spool", 2, "name its log by --log"),
    ("--log g s.cadf absent", 3, "absent"), ("--log g s.cadf spool/a.json", 3, "spool/a.json"), ("--log g spool/s.cadf spool", 2, "outside"),
    ("--log g spool/taken/s.cadf spool", 2, "outside"), ("--time -1 --log g s.cadf spool", 2, "--time"),
    ("--memory 1000000000000000 --log g s.cadf spool", 2, "--memory")])
def test_refused_words(spools, words, status, said):
    folder = spools.site(**{"a.json": document("e1")})
    done = spools.run(folder, *words.split())
    assert done.status == status and said in done.error.decode() and b"Traceback" not in done.error
    spools.leaves(folder, None, **{"a.json": None})


def test_a_site_is_no_spool(spools):
    """As if SITE were named twice, or the two the other way round: no file of it is moved."""
    folder = spools.site(**{"a.json": document("e1")})
    assert spools.run(folder, "--by", "day", "--log", "g", "site", "spool").status == 0
    before = sorted(os.listdir(os.path.join(folder, "site")))
    done = spools.run(folder, "--log", "g", "s.cadf", "site")
    assert (done.status, done.error) == (3, b"cadf-spool: site: the folder of a site, whose files would be moved: name the folder in which files arrive\n")
    assert sorted(os.listdir(os.path.join(folder, "site"))) == before


def test_link_in_place_of_a_folder(spools):
    folder = spools.site(**{"a.json": document("e1")})
    os.mkdir(os.path.join(folder, "elsewhere"))
    os.symlink("elsewhere", os.path.join(folder, "spool", "taking"))
    assert spools.takes(folder).status == 3


@pytest.mark.parametrize("site, words", [(b"CADF-REPLICA 2\n", []), (document("e1"), ["--log", "h"]), (json.dumps(event("e")).encode(), [])],
                         ids=["damaged", "of another log", "an event"])
def test_site_that_is_refused(spools, site, words):
    """Nothing is set aside for that, and the next run takes it."""
    folder, data = spools.site(**{"a.json": document("e1")}), spools.joined(site) if words else site
    put(os.path.join(folder, "s.cadf"), data)
    done = spools.run(folder, *words, "s.cadf", "spool")
    assert done.status == 1 and b"s.cadf: " in done.error
    spools.leaves(folder, data, **{"taking/a.json": None})
    os.remove(os.path.join(folder, "s.cadf"))
    assert spools.takes(folder).status == 0
    spools.leaves(folder, spools.joined(document("e1")), **{"taken/a.json": None})


@pytest.mark.parametrize("make, status, said", [
    (os.mkfifo, 2, b"not a regular file"), (os.mkdir, 1, b"no site in it"), (lambda path: os.symlink("absent", path), 2, b"not a regular file")],
    ids=["a FIFO", "a folder", "a link"])
def test_site_that_is_no_file(spools, make, status, said):
    folder = spools.site(**{"a.json": document("e1")})
    make(os.path.join(folder, "s.cadf"))
    done = spools.run(folder, "s.cadf", "spool", "--log", "g")
    assert done.status == status and b"s.cadf: " + said in done.error


# ---- Failures of the command and of the disk

@pytest.mark.parametrize("script, status", [
    pytest.param("echo 'cadf: out of memory' >&2; exit 4", 4, id="memory"),
    pytest.param("echo 'cadf: input 1: read fault' >&2; exit 3", 3, id="a read"),
    pytest.param("exit 127", 3, id="another status"), pytest.param("kill -9 $$", 3, id="a signal"),
    pytest.param('[ "$1" = check ] || { echo "cadf: out of memory" >&2; exit 4; }', 4, id="memory in a join"),
    pytest.param('[ "$1" = join ] && { %s; }' % TOO_LARGE, 1, id="any union too large"),
    pytest.param('[ "$1" = check ] || kill -9 $PPID', 3, id="a kill in a join")])
def test_command_that_fails(spools, script, status):
    """The files wait, and the next run takes them."""
    folder = spools.site(**{"a.jsonl": message("e1"), "b.json": document("e2")})
    done = spools.takes(folder, cadf=spools.command(folder, script))
    assert done.status == status and b"wait" in done.error
    spools.leaves(folder, None, **names_in("taking", ["a.jsonl", "b.json"]))
    assert spools.takes(folder).status == 0
    spools.leaves(folder, spools.joined(document("e1", "e2")), **names_in("taken", ["a.jsonl", "b.json"]))


def test_started_by_who_ignores_the_end_of_programs(spools):
    """The status of a take isn't lost then: what could not be taken waits."""
    folder = spools.site(**{"a.json": document("e1")})
    os.mkdir(os.path.join(folder, "s.cadf.new"))
    assert spools.takes(folder, preexec_fn=lambda: signal.signal(signal.SIGCHLD, signal.SIG_IGN)).status == 3
    spools.leaves(folder, None, **names_in("taking", ["a.json"]))


def test_a_program_that_fails_at_its_start(spools, tmp_path):
    """As amid an upgrade, or where memory is out: that is no fault of the file, which waits, and the next run takes it."""
    right, tools = spools.tool, copied(tmp_path / "copy")
    put(os.path.join(tools, "cadf-from-openstack"), b"raise ImportError('no such name')\n")
    folder = spools.site(**{"a.jsonl": message("e1"), "b.json": document("e2")})
    spools.tool = os.path.join(tools, "cadf-spool")
    done = spools.takes(folder)
    assert done.status == 3 and b"cadf-spool: a.jsonl: waits: " in done.error and b"ImportError: no such name\n" in done.error
    spools.leaves(folder, spools.joined(document("e2")), **names_in("taking", ["a.jsonl"]), **names_in("taken", ["b.json"]))
    spools.tool = right
    assert spools.takes(folder).status == 0
    spools.leaves(folder, spools.joined(document("e1", "e2")), **names_in("taken", ["a.jsonl", "b.json"]))


def test_no_working_folder(spools):
    """A name that is relative to a folder that was removed is a fault as any other."""
    folder = spools.site()
    done = ended("sh", ["-c", 'mkdir here && cd here && rmdir ../here && exec "$@"', "-", sys.executable, spools.tool, "--log", "g", "s.cadf", "spool"], cwd=folder)
    assert done == (3, b"", b"cadf-spool: the working folder: No such file or directory\n")


def test_nowhere(spools):
    """Where no site can be made, as in a folder that isn't there, the first file shows it, and the others aren't tried."""
    folder = spools.site(**{"%d.json" % number: document("e1") for number in range(4)})
    done = spools.run(folder, "--log", "g", "absent/s.cadf", "spool")
    assert done.status == 3 and done.error.endswith(b"absent/s.cadf.lock: No such file or directory\ncadf-spool: 4 files wait in spool/taking\n")


def test_no_command(spools):
    assert spools.takes(spools.site(**{"a.jsonl": message("e1"), "b.json": document("e2")}), cadf="/absent").status == 3


@pytest.mark.parametrize("program", ["/bin/echo", "/bin/false"])
def test_another_program(spools, program):
    """A program in the place of `cadf` that answers something else, or refuses by a status alone, is named, and the files wait."""
    folder = spools.site(**{"a.json": document("e1")})
    assert spools.takes(folder, cadf=program) == (3, b"", b"cadf-spool: %s: what it writes is no answer of `cadf check`\n" % program.encode())
    spools.leaves(folder, None, **names_in("taking", ["a.json"]))


def test_fault_in_the_spool(spools):
    """A fault of the tool's own files names the spool."""
    folder = spools.site(**{"a.json": document("e1")})
    os.makedirs(os.path.join(folder, "spool", "taking", ".work", "x"), 0o700)
    os.chmod(os.path.join(folder, "spool", "taking"), 0o700)
    assert spools.takes(folder) == (3, b"", b"cadf-spool: spool (x): Is a directory\n")
    os.rmdir(os.path.join(folder, "spool", "taking", ".work", "x"))
    assert spools.takes(folder).status == 0


@pytest.mark.parametrize("kind, said", [(stat.S_ISREG, None), (stat.S_ISDIR, "spool/taking: it has to be a folder of the caller's, of mode 0700, on the spool's file system: mend or move it")])
def test_another_file_system(spools, monkeypatch, kind, said):
    """A folder that is mounted there is refused. A file may have another number than its folder, as in an overlay."""
    program, right = spools.program(), os.fstat
    monkeypatch.chdir(spools.site())
    spool = os.stat("spool")

    def fstat(file):
        found = right(file)
        is_other = kind(found.st_mode) and not os.path.samestat(found, spool)
        return os.stat_result([*found[:2], found.st_dev + is_other, *found[3:10]])

    monkeypatch.setattr(program.os, "fstat", fstat)
    if said is None:
        program.Spool("spool")
    else:
        with pytest.raises(program.Fault) as fault:
            program.Spool("spool")
        assert str(fault.value) == said


@pytest.mark.parametrize("number", [errno.EROFS, errno.ENOSPC, errno.EDQUOT])
@pytest.mark.parametrize("name", [".spool.lock", "taking"])
def test_a_spool_that_cannot_be_written_to(spools, monkeypatch, number, name):
    """That is said as it is, and not that something else is in the way."""
    program, right = spools.program(), os.open

    def failing(path, *words, **options):
        if path == name:
            raise OSError(number, os.strerror(number), path)
        return right(path, *words, **options)

    monkeypatch.chdir(spools.site())
    monkeypatch.setattr(program.os, "open", failing)
    with pytest.raises(OSError) as fault, program.naming_spool("spool"):
        program.Spool("spool")
    assert (fault.value.filename, fault.value.strerror) == ("spool (%s)" % name, os.strerror(number))


def test_left_by_a_killed_run(spools):
    """What a killed run made of files goes at the next run, though nothing has arrived."""
    folder = spools.site()
    taking = os.path.join(folder, "spool", "taking")
    for each in (taking, os.path.join(taking, ".work")):
        os.mkdir(each, 0o700)
    put(os.path.join(taking, ".work", "0-0001.json"), document("e1"))
    assert spools.takes(folder).status == 0 and os.listdir(taking) == []


@pytest.mark.parametrize("name", [".nfs000000000012d68700000001", ".fuse_hidden0000000200000001"])
def test_what_a_file_server_keeps(spools, name):
    """A file that was replaced while its sender had it open has such a name on some file systems until he closes it. It was not claimed."""
    folder = spools.site(**{"a.json": document("e1")})
    taking = os.path.join(folder, "spool", "taking")
    os.mkdir(taking, 0o700)
    put(os.path.join(taking, name), document("e2"))
    assert spools.takes(folder) == (0, b"", counted(1, 0).encode() + b"\n")
    spools.leaves(folder, spools.joined(document("e1")), **names_in("taken", ["a.json"]))
    assert os.listdir(taking) == [name]


@pytest.mark.parametrize("limit", [0, 300])
def test_full_disk(spools, limit):
    folder = spools.site(**{"a.jsonl": message("e1"), "b.json": document("e2"), "c.json": b"{"})
    done = spools.takes(folder, preexec_fn=lambda: resource.setrlimit(resource.RLIMIT_FSIZE, (limit, limit)))
    assert done.status == 3 and spools.takes(folder).status in (0, 1)
    spools.leaves(folder, spools.joined(document("e1", "e2")), **names_in("taken", ["a.jsonl", "b.json"]), **names_in("set-aside", ["c.json", "c.json.reason"]))


@pytest.mark.needs("unshare")
def test_full_spool(spools):
    """The disk of the spool has no room for a document: the line names the document by a path that leads to that disk."""
    folder = spools.site()
    script = "mount -t tmpfs -o size=64k,mode=700 none spool && : >spool/a.jsonl && head -c 65536 /dev/zero >spool/.full && exec \"$@\""
    done = ended("unshare", ["-rm", "sh", "-c", script, "-", sys.executable, spools.tool, "--log", "g", "s.cadf", "spool"],
                 cwd=folder, env={**os.environ, "CADF": spools.cadf})
    if b"unshare:" in done.error or b"mount:" in done.error:
        pytest.skip("unshare: no file system of one's own can be mounted")
    waits = "a.jsonl: waits: cadf-from-openstack: spool/taking/.work/0-52-0001.json: write fault: No space left on device"
    assert (done.status, done.error.decode().splitlines()) == (3, ["cadf-spool: " + waits, "cadf-spool: taken 0, set aside 0, waiting 1"])


def test_stopped(spools):
    """Asked to end while `cadf` joins, it ends what it has started, and leaves nothing of it; the next run takes the files."""
    folder = spools.site(**{"a.json": document("e1")})
    fifo = os.path.join(folder, "fifo")
    os.mkfifo(fifo)
    child = spools.started(folder, "--log", "g", cadf=spools.command(folder, '[ "$1" = join ] && exec cat <%s' % shlex.quote(fifo)), stderr=subprocess.PIPE)
    writer = writer_to(fifo, child)
    child.terminate()
    said, is_left = child.communicate()[1], is_read(writer)
    os.close(writer)
    assert (child.returncode, said, is_left) == (128 + signal.SIGTERM, b"cadf-spool: stopped by SIGTERM\n", False)
    assert not os.path.exists(os.path.join(folder, "s.cadf.new")) and os.listdir(os.path.join(folder, "spool/taking")) == ["a.json"]
    assert spools.takes(folder).status == 0


@pytest.mark.parametrize("way", ["failed", "killed"])
def test_each_call(spools, way):
    """Each of its calls fails, or is its last: the site is the one before or the one after, and the next run leaves what any does."""
    arrived = {"a.jsonl": message("e1", "e2") + b"{\n", "c.json": document("e3")[:-1]}  # taken, whole or in part, and refused

    def run(folder, *words):
        return calls_of(CALLS, spools.tool, ["--log", "g", "s.cadf", "spool"], *words, told=".calls", cwd=folder, env={**os.environ, "CADF": spools.cadf})

    undisturbed, after = spools.site(**arrived), spools.joined(document("e1", "e2"))
    done, calls = run(undisturbed, "copied" if way == "killed" else "runs")
    wanted = held(os.path.join(undisturbed, "spool"))
    assert (done.status, sorted(wanted)) == (1, ["set-aside/a.jsonl", "set-aside/c.json", "set-aside/c.json.reason", "taken/a.jsonl"])
    spools.leaves(undisturbed, after, **wanted)
    if way == "killed":
        cases = [(call, "%s-%d" % (undisturbed, place)) for place, call in enumerate(calls, 1)]
    else:
        cases = [(call, spools.site(**arrived)) for call in calls]
        for call, done in zip(calls, side_by_side(lambda case: run(cases[case][1], way, case + 1)[0], range(len(calls)))):
            assert done.status in (0, 1, 3) and b"Traceback" not in done.error, call
    left = {}
    for call, folder in cases:
        files = held(folder)
        assert files.get("s.cadf") in (None, after), call
        left.setdefault(tuple(sorted(files.items())), folder)  # what a run leaves as another did, is tried once
    for folder, done in zip(left.values(), side_by_side(spools.takes, left.values())):
        assert done.status in (0, 1)
        spools.leaves(folder, after, **wanted)


def test_several_at_once(spools):
    """Files arrive meanwhile: each is taken once."""
    names = ["%d.json" % number for number in range(6)]
    folder = spools.site(**{name: document(name) for name in names[:3]})
    running = [spools.started(folder, "--log", "g", stderr=subprocess.DEVNULL) for _ in range(4)]
    for name in names[3:]:
        put(os.path.join(folder, name), document(name))
        os.rename(os.path.join(folder, name), os.path.join(folder, "spool", name))
    assert [child.wait() for child in running] == [0] * 4 and spools.run(folder, "s.cadf", "spool").status == 0
    spools.leaves(folder, spools.joined(document(*names)), **names_in("taken", names))


# ---- Files that cost too much

COSTS = {
    "memory": ("%s -c 'bytearray(2 ** 29)' 2>&- || { echo 'cadf: out of memory' >&2; exit 4; }" % others.PYTHON,
               b"out of memory (--memory is 536870912 bytes)\n"),
    "time": ("exec %s -c 'import time\nwhile time.process_time() < 3: pass\nprint(\"ok \\\"g\\\" atoms 1 conflicts 0\")'" % others.PYTHON,
             b"odd: took more than 1 seconds (--time)\n"),
    "a crash": ("kill -SEGV $$", b"odd: ended by signal 11\n"),
}


@pytest.mark.parametrize("kind", COSTS)
def test_budgets(spools, kind):
    """A file that costs too much is set aside, with the reason; the others are taken in the same run."""
    cost, reason = COSTS[kind]
    folder = spools.site(**{"a.json": document("e1"), "costly.json": document("e2"), "z.jsonl": message("e3")})
    odd = spools.command(folder, 'case "$3" in costly*) %s;; esac' % cost)
    done = spools.takes(folder, "--memory", str(2 ** 29), "--time", "1", cadf=odd)
    assert (done.status, last_line(done)) == (1, counted(2, 1))
    spools.leaves(folder, spools.joined(document("e1", "e3")), **names_in("taken", ["a.json", "z.jsonl"]), **{
        "set-aside/costly.json": None, "set-aside/costly.json.reason": reason})


def test_long_paths(spools):
    """A line whose numbers have long paths, which take 5 GB if each is kept."""
    deep = json.dumps({"x" * 300000: [1.5] * 50000}).encode()
    done = spools.takes(spools.site(**{"a.json": document("e1"), "deep.jsonl": deep}), "--memory", str(2 ** 29))
    assert done.status == 0 and b"set aside in part" in done.error and b"taken 2, set aside 1, waiting 0" in done.error


def test_confined(spools):
    """A program that judges a file writes nowhere but into files of the working folder, where the system has Landlock."""
    if ctypes.CDLL(None).syscall(444, None, 0, 1) <= 0:
        pytest.skip("Landlock: this kernel has none")
    folder, site = spools.site(**{"a.json": document("e1")}), spools.joined(document("e0"))
    put(os.path.join(folder, "s.cadf"), site)
    odd = spools.command(folder, 'if [ "$3" = a.json ]; then (cd %s; for each in s.cadf other spool/taken/other spool/taking/a.json; do echo x >>$each; done; '
                                 'mv s.cadf moved; rm s.cadf; mkdir spool/taking/.work/d; echo x >spool/taking/.work/x) || exit 3; fi 2>&-' % shlex.quote(folder))
    assert spools.run(folder, "s.cadf", "spool", cadf=odd).status == 0
    assert sorted(os.listdir(folder)) == ["odd", "s.cadf", "s.cadf.before", "s.cadf.lock", "spool"] and held(folder)["s.cadf.before"] == site
    spools.leaves(folder, spools.joined(document("e0", "e1")), **{"taken/a.json": document("e1")})


def test_sizes(spools):
    """What is too large is set aside without a copy; holes stay holes."""
    folder = spools.site(**{"a.json": document("e1"), "large.json": document("e2", "e3", "e4")})
    for name, size in (("huge.jsonl", 2 ** 40), ("hole.json", 2 ** 26)):
        with open(os.path.join(folder, "spool", name), "wb") as file:
            file.truncate(size)
    assert spools.takes(folder, "--size", str(2 ** 26)).status == 1
    found = os.path.join(folder, "spool", "set-aside")
    assert content(os.path.join(found, "huge.jsonl.reason")) == b"larger than 67108864 bytes: split it, or give a greater --size\n"
    hole = os.stat(os.path.join(found, "hole.json"))
    assert hole.st_size == 2 ** 26 and hole.st_blocks < 2048
    assert sorted(os.listdir(os.path.join(folder, "spool/taken"))) == ["a.json", "large.json"]


SHORT = b"".join(b"x%d\n" % number for number in range(300))


def test_what_is_made_of_a_file(spools):
    """Short lines that are no events make far longer ones: a file of which too much would be set aside is set aside itself."""
    folder = spools.site(**{"a.json": document("e1"), "short.jsonl": SHORT})
    done = spools.takes(folder, "--size", str(2 ** 12))
    assert (done.status, last_line(done)) == (1, counted(1, 1))
    spools.leaves(folder, spools.joined(document("e1")), **{
        "taken/a.json": None, "set-aside/short.jsonl": SHORT,
        "set-aside/short.jsonl.reason": b"what is made of it is larger than 4096 bytes: split it, or give a greater --size\n"})


def test_times_of_a_sender(spools):
    """What is taken has the time of what was sent, but none to come, by which it would never be old enough to be deleted."""
    folder, begun = spools.site(**{"a.json": document("e1"), "b.json": document("e2"), "c.json": document("e3")}), time.time()
    for name, seconds in (("a.json", -2 ** 31), ("b.json", 10 ** 9), ("c.json", 2 ** 33)):
        os.utime(os.path.join(folder, "spool", name), (seconds, seconds))
    assert spools.takes(folder).status == 0
    found = [os.stat(os.path.join(folder, "spool/taken", name)) for name in ("a.json", "b.json", "c.json")]
    assert [each.st_mtime for each in found[:2]] == [-2 ** 31, 10 ** 9]
    assert all(begun - 1 <= each <= time.time() for each in (found[2].st_mtime, found[2].st_atime))


def test_room_for_others(spools):
    """What was copied of a file for which there is no room takes none while the others are taken."""
    folder = spools.site(**{"a.json": document("e1"), "large.json": bytes(range(256)) * 2 ** 10})
    odd = spools.command(folder, '[ "$1" != join ] || { left=$(ls .work) && [ -z "$left" ]; } || exit 127')
    assert spools.takes(folder, cadf=odd, preexec_fn=lambda: resource.setrlimit(resource.RLIMIT_FSIZE, (2 ** 16, 2 ** 16))).status == 3
    spools.leaves(folder, spools.joined(document("e1")), **names_in("taken", ["a.json"]), **names_in("taking", ["large.json"]))


def test_no_room_for_what_is_too_large(spools):
    """A file that is too large is set aside, and not copied first, for which there may never be room."""
    folder = spools.site(**{"large.json": bytes(range(256)) * 2 ** 10})
    done = spools.takes(folder, "--size", str(2 ** 17), preexec_fn=lambda: resource.setrlimit(resource.RLIMIT_FSIZE, (2 ** 16, 2 ** 16)))
    assert (done.status, last_line(done)) == (1, counted(0, 1))
    spools.leaves(folder, None, **names_in("set-aside", ["large.json", "large.json.reason"]))


def test_file_that_grows(spools):
    """A file that grows beyond what one may have while it is copied is set aside."""
    program, folder = spools.program(), spools.site(**{"a.json": document("e1")})
    program.check_is_closed = lambda *_: os.truncate(os.path.join(folder, "spool/taking/a.json"), 2 ** 20)
    run = program.Run(program.Spool(os.path.join(folder, "spool")), os.path.join(folder, "s.cadf"), "g", program.Budget(0, 2 ** 17, 60, 2 ** 32))
    assert (run.run(), run.counts) == (1, {"taken": 0, "set aside": 1, "waiting": 0})


def test_smaller_size(spools):
    folder = spools.site(**{"a.json": document("e1"), "large.json": document("e2", "e3", "e4")})
    assert spools.takes(folder, "--size", str(len(document("e1")))).status == 1
    spools.leaves(folder, spools.joined(document("e1")), **{"taken/a.json": None}, **names_in("set-aside", ["large.json", "large.json.reason"]))


@pytest.mark.parametrize("fault", [
    pytest.param("echo 'cadf: out of memory' >&2; exit 4", id="memory"), pytest.param("kill -XCPU $$", id="time"), pytest.param(TOO_LARGE, id="too large")])
def test_group_at_fault(spools, fault):
    """One file keeps none of its group from being taken, however it makes the join fail: it is set aside, and the number of joins is small."""
    names = ["%d.json" % number for number in range(16)]
    folder = spools.site(**{name: document("BOMB" if name == "7.json" else name) for name in names})
    names.remove("7.json")
    told = Told()
    script = 'echo "$1" | %s\n[ "$1" = join ] && for each; do grep -sq BOMB "$each" && { %s; }; done' % (told.tell, fault)
    done = spools.takes(folder, cadf=spools.command(folder, script))
    assert (done.status, last_line(done)) == (1, counted(15, 1))
    spools.leaves(folder, spools.joined(document(*names)), **names_in("set-aside", ["7.json", "7.json.reason"]), **names_in("taken", names))
    joins = told.lines().count("join")
    assert 0 < joins <= 13  # one, two for each halving, and one; a second for each of three takes into a site that is there


# ---- What a sender can do who is another user

class Shared(Spools):
    """A site of one user, with a spool for others as examples/systemd makes it."""

    def __init__(self, cadf, folder, tools=None):
        super().__init__(cadf, folder, tools)
        self.tools, self.cadf = others.shared_tools(folder, self.tool, cadf)
        self.spool, self.own = os.path.join(folder, "spool"), os.path.join(folder, "lib", "s.cadf")
        os.mkdir(self.spool)
        os.mkdir(os.path.join(folder, "lib"))
        put(self.own, self.joined(document("e0")))
        for name, mode, group in (("lib", 0o700, others.CALLER), ("lib/s.cadf", 0o600, others.CALLER), ("spool", 0o1730, others.GROUP)):
            os.chown(os.path.join(folder, name), others.CALLER, group)
            os.chmod(os.path.join(folder, name), mode)

    def takes_own(self, *words, cadf=None):
        """What the tool answers to its user."""
        program, *rest = others.as_user(others.CALLER, others.CALLER, "env", "CADF=" + (cadf or self.cadf), others.PYTHON,
                                        os.path.join(self.tools, "cadf-spool"), *words, "lib/s.cadf", "spool")
        return ended(program, rest, cwd=self.folder)

    def send(self, name, data, seconds=3600):
        """Puts a file of a sender into the spool, as it was written some time ago."""
        path = os.path.join(self.spool, name)
        put(path, data)
        os.chown(path, others.SENDER, others.GROUP)
        os.utime(path, (time.time() - seconds,) * 2)


@pytest.fixture
def shared(cadf):
    with others.open_folder() as folder:
        yield Shared(cadf, folder)


PLANTS = {
    "a folder": lambda path: os.mkdir(path) or os.chmod(path, 0o1777), "a link": lambda path: os.symlink("../own", path),
    "a file": lambda path: put(path, b"") or os.chmod(path, 0o666), "a FIFO": lambda path: os.mkfifo(path) or os.chmod(path, 0o666)}


@others.needed
@pytest.mark.parametrize("name", ["taking", "taken", "set-aside", ".spool.lock"])
@pytest.mark.parametrize("kind", PLANTS)
def test_planted(shared, kind, name):
    """A sender puts something in the place of the tool's own files: it is refused by its name, and nothing is taken."""
    own = os.path.join(shared.folder, "own")
    os.mkdir(own, 0o700)
    os.chown(own, others.CALLER, others.CALLER)
    shared.send("a.json", document("e1"))
    path = os.path.join(shared.spool, name)
    PLANTS[kind](path)
    os.lchown(path, others.SENDER, others.GROUP)
    done = shared.takes_own()
    assert done.status == 3 and ("spool/%s: it has to be" % name).encode() in done.error
    assert content(shared.own) == shared.joined(document("e0")) and os.listdir(own) == []


@others.needed
@pytest.mark.parametrize("mode, owner, said", [(0o777, others.CALLER, b"chmod +t"), (0o1777, 0, b"another user")], ids=["not sticky", "another user's"])
def test_spool_that_others_may_change(shared, mode, owner, said):
    os.chown(shared.spool, owner, others.GROUP)
    os.chmod(shared.spool, mode)
    done = shared.takes_own()
    assert done.status == 3 and said in done.error


SENDING = """import os, sys
name, place = sys.argv[1:]
file = open(name, "r+b")
os.mkfifo(os.path.join(place, "begun"))
judging = open(os.path.join(place, "begun"), "w")  # waits until it is read
seen = [each for each in os.listdir("spool/.work") if not os.path.islink(os.path.join("spool/.work", each))]
file.seek(0)
file.write(file.read().replace(b"e1", b"EV"))
file.close()
open(os.path.join(place, "seen"), "w").write(" ".join(seen))
print(file=judging)
"""


@others.needed
def test_sender_that_writes_on(shared):
    """A sender has a folder in the spool where the tool might work, and keeps its file open to change it later.

    The site's file holds what arrived, no link in that folder is followed, nothing is to be seen there; and what is taken is
    what was judged, not what the sender wrote while it was.
    """
    planted, place = os.path.join(shared.spool, ".work"), os.path.join(shared.folder, "place")
    for each in (planted, place):
        os.mkdir(each)
        os.chown(each, others.SENDER, others.GROUP)
        os.chmod(each, 0o1777)
    for number in range(4):
        for name in ("%d-aside", "%d-0001.json"):
            if (number, name) != (0, "%d-0001.json"):
                os.symlink(shared.own, os.path.join(planted, name % number))
                os.lchown(os.path.join(planted, name % number), others.SENDER, others.GROUP)
    shared.send("a.jsonl", message("e1") + b"no event\n")
    shared.send("b.json", document("e2"))
    put(os.path.join(shared.folder, "sending"), SENDING.encode())
    sender = subprocess.Popen(others.as_user(others.SENDER, others.GROUP, others.PYTHON, "sending", "spool/a.jsonl", place), cwd=shared.folder)
    odd = shared.command(shared.folder, 'case "$1 $3" in "check "*0001.json) read done <%s/begun;; esac' % shlex.quote(place))
    while not os.path.exists(os.path.join(place, "begun")) and sender.poll() is None:
        time.sleep(0.01)
    done = shared.takes_own(cadf=odd)
    sender.kill() if done.status != 0 else None
    assert (done.status, sender.wait(), last_line(done)) == (0, 0, counted(2, 1))
    assert content(shared.own) == shared.joined(document("e0", "e1", "e2"))
    assert held(shared.spool)["taken/a.jsonl"] == message("e1") + b"no event\n" and content(os.path.join(place, "seen")) == b""


@others.needed
def test_owners_take_turns(spools):
    """Who sends many files, whose names sort first, goes before nobody."""
    names = ["a1", "a2", "a3", "z1", "z2"]
    folder, program = spools.site(**{name: message(name) for name in names}), spools.program()
    for name in names:
        os.chown(os.path.join(folder, "spool", name), others.SENDER if name.startswith("a") else others.CALLER, -1)
    spool = program.Spool(os.path.join(folder, "spool"))
    for name in names:
        spool.claim(name)
    assert spool.claimed() == ["a1", "z1", "a2", "z2", "a3"]


@others.needed
def test_unclosed(shared):
    """Another user's file, which the system doesn't say to be closed, waits until it is unchanged for a time."""
    shared.send("a.jsonl", message("e1"), seconds=30)
    done = shared.takes_own()
    assert done.status == 0 and b"a.jsonl: waits: changed less than 60 seconds ago" in done.error
    assert sorted(held(shared.spool)) == ["taking/a.jsonl"]
    done = shared.takes_own("--unchanged", "20")
    assert (done.status, sorted(held(shared.spool))) == (0, ["taken/a.jsonl"])
    assert os.stat(os.path.join(shared.spool, "taken/a.jsonl")).st_uid == others.CALLER  # what is taken is a copy


# ---- Copies of the tool that do wrong

@pytest.mark.parametrize("check, words, texts", [
    pytest.param(test_stopped, [], ["    return status\n\n\nif __name__ == \"__main__\":\n    sys.exit(ended(lambda: take(words())))",
                                    "    return status\n\n\nif __name__ == \"__main__\":\n    sys.exit(take(words()))"], id="what it runs goes on"),
    pytest.param(test_withdrawn, [], ["except FileNotFoundError:\n                say(", "except FileNotFoundError:\n                self.note(\"waiting\", FAILED)\n                say("], id="fails for a file that is gone"),
    pytest.param(test_budgets, ["memory"], ["resource.setrlimit(kind, (min(most, hard), hard))", "pass"], id="no budget"),
    pytest.param(test_budgets, ["memory"], ["raise self.fault(done)\n            self.facts", "raise Waits(done.said, done.status)\n            self.facts"],
                 id="a file that costs too much waits"),
    pytest.param(test_confined, [], ["if times == 1:\n                change_only(self.spool.work)", ""], id="a program writes anywhere"),
    pytest.param(test_file_that_grows, [], ["if file.tell() > most:", "if False:"], id="copies a file of any size"),
    pytest.param(test_no_room_for_what_is_too_large, [], ["if before.st_size > most:", "if False:"], id="copies what is too large"),
    pytest.param(test_sizes, [], ["if block.count(0) < len(block):", "if True:"], id="fills holes"),
    pytest.param(test_group_at_fault, ["echo 'cadf: out of memory' >&2; exit 4"], ["elif len(files) > 1:", "elif False:"], id="a group that fails ends the run"),
    pytest.param(test_group_at_fault, ["echo 'cadf: out of memory' >&2; exit 4"], ["return Refused(\"it can't be taken: \"", "return Waits(FAILED, \""],
                 id="a file that fails alone waits")])
def test_wrong_copy_is_caught(cadf, tmp_path, check, words, texts):
    is_caught(tmp_path, texts, check, functools.partial(Spools, cadf, tmp_path), *words)


@others.needed
@pytest.mark.parametrize("check, words, texts", [
    pytest.param(test_planted, ["a folder", "taking"], ["raise Fault(wanted)\n        return file", "pass\n        return file"], id="uses what it finds"),
    pytest.param(test_planted, ["a link", "taking"], ["flags | os.O_NOFOLLOW | os.O_NONBLOCK, 0o600", "flags | os.O_NONBLOCK, 0o600"], id="follows links"),
    pytest.param(test_spool_that_others_may_change, [0o777, others.CALLER, b"chmod +t"], ["if found.st_mode & 0o022 and not", "if False and not"],
                 id="works in any spool"),
    pytest.param(test_sender_that_writes_on, [], [
        'WORK = ".work"', 'WORK = "../.work"', "contextlib.suppress(FileNotFoundError):\n            with", "contextlib.suppress(OSError):\n            with",
        "os.mkdir(WORK, 0o700, dir_fd=self.taking)", "os.makedirs(os.path.join(self.path, '.work'), exist_ok=True)"], id="works where a sender may write"),
    pytest.param(test_sender_that_writes_on, [], ['os.rename("copy", name, src_dir_fd=self.work, dst_dir_fd=self.taking)', 'os.unlink("copy", dir_fd=self.work)'],
                 id="takes the sender's own file"),
    pytest.param(test_unclosed, [], ["if abs(time.time() - found.st_mtime) < quiet:", "if False:"], id="waits for no other user")])
def test_wrong_copy_is_caught_by_other_users(cadf, tmp_path, check, words, texts):
    with others.open_folder() as folder:
        is_caught(tmp_path, texts, check, functools.partial(Shared, cadf, folder), *words)
