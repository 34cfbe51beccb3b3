"""How a tool ends, by share/cadf/cadf_toolkit.py, for what no test can make a machine do."""
import contextlib
import errno
import fcntl
import io
import json
import os
import pty
import re
import resource
import signal
import struct
import subprocess
import sys
import termios
import threading
import time

import pytest

from tests import TOP
from tests.tools.odd_logs import EVENT
from tests.tools.programs import loaded

TOOLKIT = os.path.join(TOP, "share", "cadf", "cadf_toolkit.py")


@pytest.fixture
def kit(monkeypatch):
    module = loaded(TOOLKIT)
    handlers = {number: signal.getsignal(number) for number in module.STOPPING}
    monkeypatch.setattr("sys.argv", ["/usr/bin/cadf-tool"])
    monkeypatch.setattr("sys.unraisablehook", sys.unraisablehook)
    yield module
    for number, handler in handlers.items():
        signal.signal(number, handler)


def raising(fault):
    def run():
        raise fault
    return run


@pytest.mark.parametrize("fault, status, said", [
    (MemoryError(), 4, "out of memory"),
    (OSError(errno.ENOMEM, "Cannot allocate memory"), 4, "out of memory"),
    (OSError(errno.EIO, "Input/output error", "a\x1b"), 3, '"a\\u001b": Input/output error'),
    (OSError(errno.ENOSPC, "No space left on device"), 3, "standard output: write fault: No space left on device"),
    (FileNotFoundError(errno.ENOENT, "No usable temporary directory found in ['/tmp']"), 3,
     "No usable temporary directory found in ['/tmp']: make room there, or name another folder by TMPDIR"),
    (FileNotFoundError(errno.ENOENT, "No such file or directory"), 3, "the working folder: No such file or directory"),
])
def test_ended_by_the_machine(kit, capsys, fault, status, said):
    assert kit.ended(raising(fault)) == status
    assert capsys.readouterr().err == "cadf-tool: %s\n" % said


@pytest.mark.parametrize("more", [-1, 0, 1, 10 ** 6])
def test_a_pipe_without_an_end_fills_no_disk(kit, monkeypatch, more):
    """What comes by a pipe is copied up to the byte that makes it too large."""
    monkeypatch.setattr(kit, "LARGEST", 2 ** 17)
    with kit.copy_of(io.BytesIO(bytes(2 ** 17 + more))) as copy:
        assert os.fstat(copy.fileno()).st_size == 2 ** 17 + min(more, 1)


@pytest.mark.parametrize("number", [signal.SIGHUP, signal.SIGINT, signal.SIGTERM])
def test_ended_by_a_signal(kit, capsys, number):
    """What asks a program to end is no fault of a file, with which a tool would go on."""
    def run():
        try:
            os.kill(os.getpid(), number)
        except Exception:
            return 0
        return 0

    assert kit.ended(run) == 128 + number
    assert capsys.readouterr().err == "cadf-tool: stopped by %s\n" % number.name


NOT_NOW = ": it can't be started now: try again, or allow more files and processes"


@pytest.mark.parametrize("fault, said", [
    (FileNotFoundError(errno.ENOENT, "No such file or directory", "cadf"), "No such file or directory: name the command by CADF, or put it on PATH"),
    (BlockingIOError(errno.EAGAIN, "Resource temporarily unavailable"), "Resource temporarily unavailable" + NOT_NOW),
    (OSError(errno.EMFILE, "Too many open files"), "Too many open files" + NOT_NOW),
])
def test_start_that_fails(kit, monkeypatch, fault, said):
    """Another name is advised where the command is at fault, and not where no process can be made. That is no fault of the output."""
    def start(*_, **__):
        raise fault

    monkeypatch.setattr(kit, "CADF", "cadf")
    monkeypatch.setattr(kit.subprocess, "Popen", start)
    with pytest.raises(OSError) as found, kit.started(["cadf"]):
        pass
    assert (found.value.filename, found.value.strerror) == ("cadf", said)


def test_a_thread_that_cannot_be_started(kit, monkeypatch):
    def start(_):
        raise RuntimeError("can't start new thread")

    monkeypatch.setattr(threading.Thread, "start", start)
    with pytest.raises(kit.Fault, match="^a thread" + NOT_NOW) as fault:
        kit.started_thread(print)
    assert fault.value.status == 3


@pytest.mark.parametrize("number", [errno.ENOLCK, errno.EOPNOTSUPP])
def test_a_file_system_without_locks(kit, monkeypatch, tmp_path, number):
    """The lock is named, and not the site, with what to do."""
    def flock(*_):
        raise OSError(number, os.strerror(number))

    monkeypatch.setattr(kit.fcntl, "flock", flock)
    with pytest.raises(kit.Fault) as fault, kit.open_descriptor(kit.new_lock(str(tmp_path / "lock"), lambda file: None)) as file:
        kit.wait_for_lock(file, "s/.lock", None)
    assert str(fault.value) == "s/.lock: %s: callers take turns by this lock: have it on a file system with locks" % os.strerror(number)


def test_as_many_files_as_the_system_allows(kit, monkeypatch):
    """Where the system allows fewer open files than it once did, a call has those that it had."""
    def refused(*_):
        raise ValueError("not allowed to raise maximum limit")

    monkeypatch.setattr(kit.resource, "setrlimit", refused)
    with kit.opened([TOOLKIT]) as (found,):
        assert found.name == TOOLKIT
    assert kit.most_files() == resource.getrlimit(resource.RLIMIT_NOFILE)[0]


def test_more_inputs_than_may_be_open(tmp_path):
    """The soft limit is raised to the hard one; beyond that the message says so, and no input is at fault."""
    text = json.dumps({"id": "g", "events": [dict(EVENT, id="e")]})
    names = ["%d.json" % number for number in range(40)]
    for name in names:
        (tmp_path / name).write_text(text)

    def run(hard):
        return subprocess.run([os.path.join(TOP, "tools", "cadf-take"), "new.cadf", *names], cwd=tmp_path, stdin=subprocess.DEVNULL, stdout=subprocess.DEVNULL,
                              stderr=subprocess.PIPE, env=dict(os.environ, CADF=os.path.join(TOP, "tests", "reference", "cadf")), timeout=120, check=False,
                              preexec_fn=lambda: resource.setrlimit(resource.RLIMIT_NOFILE, (30, hard)))

    assert run(400).returncode == 0
    done = run(60)
    assert done.returncode == 3 and not any(name in done.stderr.decode() for name in names) and b"ulimit -n" in done.stderr, done


SHOWN = "".join(map(chr, [9, 27, 127, 155, 0x202a, 0x202e, 0x2066, 0x2069]))


@pytest.mark.parametrize("words", [["cadf-events"], ["cadf-conflicts", "--values"], ["cadf-seal", "--verify", "seal", "facts.json"], ["cadf-which"]])
def test_what_a_terminal_gets(tmp_path, words):
    """No tool writes to a terminal what that takes for a command, or what turns other characters; elsewhere texts are what they are."""
    cadf = os.path.join(TOP, "tests", "reference", "cadf")
    events = [dict(EVENT, id="e" + SHOWN[3:], action="a" + SHOWN[3:], x=SHOWN, outcome=outcome) for outcome in ("success", "failure")] + [dict(EVENT, id="x" + SHOWN[3:])]
    (tmp_path / "facts.json").write_text(json.dumps({"id": "g" + SHOWN[4:], "events": events}))
    for command, name, *files in (["seal", "seal", "facts.json"], ["prove", "facts.proof", "facts.json", "facts.json"]):
        (tmp_path / name).write_bytes(subprocess.run([cadf, command, *files], cwd=tmp_path, stdout=subprocess.PIPE, check=True).stdout)
    call = [os.path.join(TOP, "tools", words[0]), *words[1:], "facts.proof" if "--verify" in words else "facts.json"]
    options = {"cwd": tmp_path, "env": dict(os.environ, CADF=cadf), "stdin": subprocess.DEVNULL}
    ours, theirs = pty.openpty()
    with subprocess.Popen(call, stdout=theirs, stderr=subprocess.PIPE, **options) as child:  # on a busy machine progress would be on a terminal too
        os.close(theirs)
        data = b""
        with contextlib.suppress(OSError):  # until nobody has the terminal any more
            while True:
                data += os.read(ours, 4096)
        said = child.stderr.read()
    os.close(ours)
    text = data.decode().replace("\r\n", "")
    assert text.isprintable() and said.decode().replace("\n", "").isprintable() and child.returncode in (0, 5), (text, said)
    piped = subprocess.run(call, stdout=subprocess.PIPE, stderr=subprocess.PIPE, check=False, **options)
    if words[0] == "cadf-events" or "--verify" in words:
        assert all(each.encode() in piped.stdout for each in SHOWN[3:]) and all("\\u%04x" % ord(each) in text for each in SHOWN[3:])


@pytest.mark.parametrize("words", [["--plain="], ["--plain", ""], ["--kind="], ["--list=a", "--list="], ["--one="], ["SITE", "--chosen="], [""]])
def test_empty_values(kit, capsys, words):
    """No option has an empty value, of whatever kind it is, and no site an empty name: it is usage."""
    parser = kit.Parser("what it does", "cadf-tool [OPTION..] SITE")
    parser.add_argument("--plain")
    parser.add_argument("--kind", type=str.split)
    parser.add_argument("--list", action="append")
    parser.add_mutually_exclusive_group().add_argument("--one")
    parser.add_argument("--chosen", choices=["", "a"])
    parser.add_argument("site", metavar="SITE", type=kit.site_name)
    with pytest.raises(SystemExit) as ended:
        parser.parse_args(words)
    name = max((word.rstrip("=") for word in words if word[:2] == "--" and word[-2:] != "=a"), default="SITE")
    assert (ended.value.code, capsys.readouterr().err.splitlines()[-1]) == (2, "cadf-tool: error: argument %s: it is empty" % name)
    assert vars(parser.parse_args(["--plain=0", "--kind= ", "--list=a", "--one=-", "--chosen=a", "x"])) == {
        "version": None, "plain": "0", "kind": [], "list": ["a"], "one": "-", "chosen": "a", "site": "x"}


@pytest.mark.parametrize("text, wanted", [
    ("0", None), ("1", 1), ("007", 7), ("9223372036854775807", 2 ** 63 - 1), ("9223372036854775808", None), ("9" * 30, None),
    ("-1", None), ("+1", None), (" 1", None), ("1 ", None), ("1\n", None), ("1_0", None), ("1e3", None), ("1.0", None), ("0x1", None), ("\u0663", None), ("\u00b2", None), ("x", None)])
def test_whole_numbers(kit, text, wanted):
    read = kit.whole_number(1, 2 ** 63 - 1)
    if wanted is None:
        with pytest.raises(kit.argparse.ArgumentTypeError, match="not a whole number from 1 to 9223372036854775807"):
            read(text)
    else:
        assert read(text) == wanted


@pytest.mark.parametrize("text, wanted", [
    ("0", 0), ("1", 1), ("0.5", 0.5), ("2147483647.999", 2147483647.999), ("2147483648", None), ("1e3", None), ("-1", None), ("+1", None), (" 1", None),
    ("1\n", None), ("1_0", None), (".5", None), ("1.", None), ("nan", None), ("inf", None), ("\u0663", None), ("x", None)])
def test_seconds(kit, text, wanted):
    if wanted is None:
        with pytest.raises(kit.argparse.ArgumentTypeError, match="not a number of seconds"):
            kit.number_of_seconds(text)
    else:
        assert kit.number_of_seconds(text) == wanted


@pytest.mark.parametrize("words", [
    ["cadf-from-openstack", "--log=g", "--size=4_096"], ["cadf-from-openstack", "--log=g", "--longest=+1"], ["cadf-listen", "--spool=x", "--prefetch= 1"],
    ["cadf-listen", "--spool=x", "--seconds=1e3"], ["cadf-take", "--wait=1e3", "x", "y"], ["cadf-take", "--windows=\u0663", "x", "y"],
    ["cadf-spool", "--log=g", "--time=\u0663", "x", "y"], ["cadf-sync", "--most=\u0663", "x", "y"]])
def test_odd_numbers_of_tools(words, tmp_path):
    done = subprocess.run([os.path.join(TOP, "tools", words[0]), *words[1:]], cwd=tmp_path, stdin=subprocess.DEVNULL, capture_output=True, universal_newlines=True)
    assert done.returncode == 2 and "not a " in done.stderr.splitlines()[-1] and os.listdir(tmp_path) == [], done


def test_empty_value_of_a_tool(tmp_path):
    done = subprocess.run([os.path.join(TOP, "tools", "cadf-events"), "--bulk", "", "site"], cwd=tmp_path, capture_output=True, universal_newlines=True)
    assert (done.returncode, done.stdout, done.stderr.splitlines()[-1]) == (2, "", "cadf-events: error: argument --bulk: it is empty")


STARTED = """import os, signal, subprocess, sys
sys.path.insert(0, os.path.dirname(sys.argv[1]))
import cadf_toolkit
popen = subprocess.Popen
def started(*words, **options):
    before = sys.argv[2] == "before" and os.kill(os.getpid(), signal.SIGTERM)
    child = popen(*words, **options)
    after = sys.argv[2] == "after" and os.kill(os.getpid(), signal.SIGTERM)
    return child
subprocess.Popen = started
def run():
    with cadf_toolkit.started([sys.argv[3]]) as child:
        child.wait()
sys.exit(cadf_toolkit.ended(run))
"""


@pytest.mark.parametrize("when", ["before", "after"])
def test_ended_while_a_program_is_started(tmp_path, when):
    """A signal before the program is known: it is ended all the same, and what isn't there can't be started."""
    sleeping = tmp_path / "sleeping"
    sleeping.write_text("#!/bin/sh\nexec sleep 60\n")
    sleeping.chmod(0o755)
    for program in (sleeping, tmp_path / "absent"):
        done = subprocess.run(["python3", "-c", STARTED, TOOLKIT, when, program], stdout=subprocess.PIPE, stderr=subprocess.PIPE, timeout=30)
        said = b"stopped by SIGTERM\n" if when == "before" or program == sleeping else b"absent: No such file or directory\n"
        assert done.returncode == (3 if said.startswith(b"absent") else 143) and done.stderr.endswith(said), done


STOPPED = """import os, signal, sys, time
sys.path.insert(0, os.path.dirname(sys.argv[1]))
import cadf_toolkit
def stopped_at(module, name):
    real = getattr(module, name)
    def call(*words):
        os.kill(os.getpid(), signal.SIGTERM)
        return real(*words)
    setattr(module, name, call)
stopped_at(*{"begin": (os, "umask"), "end": (cadf_toolkit, "say"), "removed": (os, "close")}[sys.argv[2]])
class Removed:
    def __del__(self):
        os.close(os.dup(2))
def run():
    if sys.argv[2] == "removed":
        Removed()
        time.sleep(5)
    raise cadf_toolkit.Fault("why")
sys.exit(cadf_toolkit.ended(run))
"""


@pytest.mark.parametrize("when, status, said", [("begin", 143, "stopped by SIGTERM"), ("removed", 143, "stopped by SIGTERM"), ("end", -15, None)])
def test_ended_by_a_signal_at_any_time(when, status, said):
    """The status is that of a signal, 143 in a shell, and nothing goes on, also where Python passes over what a handler raises."""
    done = subprocess.run(["python3", "-c", STOPPED, TOOLKIT, when], stdout=subprocess.PIPE, stderr=subprocess.PIPE, timeout=30)
    assert (done.returncode, done.stderr.decode()) == (status, "-c: %s\n" % said if said else "")


@pytest.mark.parametrize("module, name", [("tempfile", "mkdtemp"), ("os", "unlink")])
def test_ended_while_a_temporary_folder_is_made_or_removed(kit, tmp_path, monkeypatch, module, name):
    """What a tool that is asked to end has made of a log does not stay where temporary files are."""
    real = getattr(getattr(kit, module), name)

    def call(*words, **more):
        found = real(*words, **more)
        monkeypatch.undo()
        os.kill(os.getpid(), signal.SIGTERM)
        return found

    def run():
        with kit.temporary_folder(str(tmp_path)) as folder:
            for each in ("1", "2"):
                with open(os.path.join(folder, each), "w", encoding="utf-8"):
                    pass
        return 0

    monkeypatch.setattr(getattr(kit, module), name, call)
    assert (kit.ended(run), os.listdir(tmp_path)) == (143, [])


@pytest.mark.parametrize("words", [["cadf-take", "new.cadf", "event.json"], ["cadf-which", "event.json"], ["cadf-agree", "event.json", "event.json"],
                                   ["cadf-report", "event.json"], ["cadf-conflicts", "event.json"], ["cadf-seal", "event.json"]])
def test_no_command(words, tmp_path):
    """A command that can't be started is named, with what to do."""
    (tmp_path / "event.json").write_text("{}")
    done = subprocess.run([os.path.join(TOP, "tools", words[0]), *words[1:]], cwd=tmp_path, env=dict(os.environ, CADF="/none"), stdin=subprocess.DEVNULL,
                          stdout=subprocess.PIPE, stderr=subprocess.PIPE, timeout=60, check=False)
    assert done.returncode == 3 and done.stderr.decode() == "%s: /none: No such file or directory: name the command by CADF, or put it on PATH\n" % words[0]


def test_refused_words_that_nobody_hears():
    """Where standard error is closed, the status of refused words is the same, and nothing is written elsewhere."""
    done = subprocess.run(["sh", "-c", '"$0" --no 2>&-', os.path.join(TOP, "tools", "cadf-which")], stdout=subprocess.PIPE, timeout=60, check=False)
    assert (done.returncode, done.stdout) == (2, b"")


@pytest.mark.parametrize("said, version", [
    ("cadf 0.1.0\\n", "cadf 0.1.0"), ("cadf, second implementation\\n", "cadf, second implementation"),
    ("cadf\\n", None), ("cadf 0.1.0", None), ("cadf 0.1.0\\nmore\\n", None), ("cadfs 0.1.0\\n", None), ("cadf, another\\n", None), ("", None),
])
def test_version_of_the_command(kit, tmp_path, said, version):
    """A tool takes the built command and the second implementation, and no other program."""
    kit.CADF = str(tmp_path / "cadf")
    (tmp_path / "cadf").write_text("#!/bin/sh\n[ \"$*\" = --version ] && printf '%s'\n" % said)
    (tmp_path / "cadf").chmod(0o755)
    if version:
        assert kit.command_version() == version
    else:
        with pytest.raises(kit.Fault, match="what it writes is no answer of `cadf --version`"):
            kit.command_version()


@pytest.mark.parametrize("unbuffered", ["", "1"])
@pytest.mark.parametrize("words", ["--help", "--version"])
def test_help_that_cannot_be_written(words, unbuffered):
    done = subprocess.run(["sh", "-c", '"$0" %s >/dev/full' % words, os.path.join(TOP, "tools", "cadf-which")], stderr=subprocess.PIPE, timeout=60,
                          env=dict(os.environ, PYTHONUNBUFFERED=unbuffered), check=False)
    assert (done.returncode, done.stderr) == (3, b"cadf-which: standard output: write fault: No space left on device\n")


@pytest.mark.needs("unshare")
def test_a_machine_without_proc(tmp_path):
    """Files are given to `cadf` by their descriptors: that these have no names there is said, and not that a file can't be read."""
    (tmp_path / "event.json").write_text("{}")
    words = [sys.executable, os.path.join(TOP, "tools", "cadf-which"), "event.json"]
    done = subprocess.run(["unshare", "-rm", "sh", "-c", 'mount -t tmpfs none /proc && exec "$@"', "-", *words], cwd=tmp_path, stderr=subprocess.PIPE, timeout=60,
                          env=dict(os.environ, CADF=os.path.join(TOP, "tests", "reference", "cadf")), check=False)
    if b"unshare:" in done.stderr or b"mount:" in done.stderr:
        pytest.skip("unshare: no file system of one's own can be mounted")
    assert done.returncode == 3 and re.fullmatch(rb"/dev/fd/\d+: not there, and files are given to cadf by it: mount /proc\n", done.stderr), done.stderr


@pytest.mark.parametrize("words, output", [(["cadf-from-openstack", "--log", "g"], b'"e2"'), (["cadf-which", "-"], b"")])
def test_a_standard_input_that_does_not_block(words, output):
    """What comes after a pause is read, though a program that had the pipe before has left it so that reads don't wait."""
    reading, writing = os.pipe()
    os.set_blocking(reading, False)
    text = json.dumps({"id": "g", "events": [dict(EVENT, id=key) for key in ("e1", "e2")]}).encode() + b"\n"
    os.write(writing, text[:40])
    with subprocess.Popen([os.path.join(TOP, "tools", words[0]), *words[1:]], stdin=reading, stdout=subprocess.PIPE, stderr=subprocess.PIPE,
                          env=dict(os.environ, CADF=os.path.join(TOP, "tests", "reference", "cadf"))) as child:
        while struct.unpack("i", fcntl.ioctl(writing, termios.FIONREAD, bytes(4)))[0] and child.poll() is None:
            time.sleep(0.01)
        time.sleep(0.1)
        os.write(writing, text[40:])
        for each in (reading, writing):
            os.close(each)
        written, said = child.communicate(timeout=60)
    assert child.returncode == 0 and output in written, said


def test_a_standard_output_that_does_not_block(tmp_path):
    """All of a text that a pipe doesn't hold is written, though the pipe was left so that writes don't wait."""
    reading, writing = os.pipe()
    os.set_blocking(writing, False)
    (tmp_path / "lines").write_text("".join(json.dumps(dict(EVENT, id="e%d" % number)) + "\n" for number in range(1000)))
    with subprocess.Popen([os.path.join(TOP, "tools", "cadf-from-openstack"), "--log", "g", str(tmp_path / "lines")], stdout=writing, stderr=subprocess.PIPE) as child:
        os.close(writing)
        while struct.unpack("i", fcntl.ioctl(reading, termios.FIONREAD, bytes(4)))[0] < 60000 and child.poll() is None:
            time.sleep(0.01)
        time.sleep(0.1)
        with open(reading, "rb") as output:
            written = output.read()
        said = child.communicate(timeout=60)[1]
    assert child.returncode == 0 and len(json.loads(written)["events"]) == 1000, said


def test_a_version_without_git(kit, monkeypatch):
    monkeypatch.setenv("PATH", "/none")
    assert kit.version() == "of the sources, commit unknown"


def test_no_path(tmp_path):
    """Without PATH Python doesn't know its own path, by which the tools start Python again."""
    (tmp_path / "d.json").write_text('{"id": "g", "events": []}')
    done = subprocess.run(["", os.path.join(TOP, "tools", "cadf-which"), "d.json"], executable=sys.executable, cwd=tmp_path, stderr=subprocess.PIPE, timeout=60, check=False,
                          env={"CADF": os.path.join(TOP, "tests", "reference", "cadf"), "LC_ALL": "C", "PYTHONUTF8": "0", "PYTHONCOERCECLOCALE": "0"})
    assert (done.returncode, done.stderr) == (0, b"")


def test_why_a_file_cannot_be_read(kit, tmp_path, monkeypatch):
    """The system's words, with the file's name, also where a later byte can't be read, or `cadf` alone can't open it."""
    with open(tmp_path / "file", "wb+") as file:
        found = kit.Input("file", file)
        assert str(kit.Refusal("read fault", kit.FAILED, 1, [found])) == "file: read fault"
        for path, said in (("/proc/self/mem", "Input/output error"), (str(tmp_path), "Is a directory"), (str(tmp_path / "absent"), "No such file or directory")):
            monkeypatch.setattr(kit.Input, "path", lambda self, path=path: path)
            with pytest.raises(kit.Fault, match="^file: %s$" % said):
                kit.Refusal("read fault", kit.FAILED, 1, [found])


@pytest.mark.parametrize("tool", sorted(name for name in os.listdir(os.path.join(TOP, "tools")) if name.startswith("cadf-")))
def test_who_has_read_enough_is_told_nothing(tool):
    """As `head`, which ends before the tool does. What can't be written for another reason is told."""
    for output, said in ((None, b""), ("/dev/full", b"standard output: write fault: No space left on device\n")):
        reading, writing = os.pipe() if output is None else (None, os.open(output, os.O_WRONLY))
        if reading is not None:
            os.close(reading)
        done = subprocess.run([os.path.join(TOP, "tools", tool), "--help"], stdout=writing, stderr=subprocess.PIPE)
        os.close(writing)
        assert done.returncode == 3 and done.stderr == (tool.encode() + b": " + said if said else b"")
