"""What cadf-listen does that needs no broker: its words, its folder and files, and what it does between messages."""
import collections
import contextlib
import errno
import glob
import io
import itertools
import os
import re
import shutil
import signal
import socket
import stat
import struct
import subprocess
import sys
import threading
import types

import pytest

from tests import TOP
from tests.tools.listeners import LISTEN, lines_of
from tests.tools.programs import loaded

ANOTHER = 2002  # a user


@pytest.fixture
def program(monkeypatch):
    """The listener as a module, which says nothing and waits for nothing."""
    module = loaded(LISTEN)
    module.lines = []
    monkeypatch.setattr(module, "say", module.lines.append)
    monkeypatch.setattr(module.stopping, "wait", lambda _: None)
    return module


class Clock:
    def __init__(self):
        self.now = 1000.0

    def monotonic(self):
        return self.now


def test_binds_again(program, monkeypatch):
    """Each minute it binds its queue again, since services make their exchanges late, and a broker may lose bindings."""
    clock, bound = Clock(), []
    monkeypatch.setattr(program, "time", clock)
    monkeypatch.setattr(program, "bind", lambda _, queue, wanted: bound.append(clock.now) or (["nova"] if clock.now < 1050 else []))
    bindings = program.Bindings(None, types.SimpleNamespace(queue="q", bind=[("nova", "k")]))
    for clock.now in (1000, 1030, 1059, 1060, 1090, 1120):
        bindings.bind_if_due()
    assert bound == [1000, 1060, 1120]
    assert program.lines == ["exchanges that no service has made yet: nova", "exchanges that no service has made yet: none"]


def test_makes_queue(program, monkeypatch):
    """The queue that it makes outlasts it, and a restart of the broker."""
    made = []

    class Absent(Exception):
        pass

    def declare(name, **how):
        if how == {"passive": True}:
            raise Absent
        made.append((name, how))

    channel = types.SimpleNamespace(queue_declare=declare, close=lambda: None)
    monkeypatch.setattr(program, "amqp", types.SimpleNamespace(NotFound=Absent))
    program.find_queue(types.SimpleNamespace(channel=lambda: channel), "own", True)
    assert made == [("own", {"durable": True, "auto_delete": False})]
    with pytest.raises(Absent):
        program.find_queue(types.SimpleNamespace(channel=lambda: channel), "own", False)
    assert len(made) == 1


def test_reads_url_again(program, monkeypatch, tmp_path):
    """A password that was changed in the file holds for the next connection."""
    url, seen = tmp_path / "url", []
    url.write_text("rabbit://u:old@h/")

    def serve_once(host, *_):
        seen.append(host.password)
        url.write_text("rabbit://u:new@h/")
        if len(seen) < 2:
            raise OSError("refused")

    monkeypatch.setattr(program, "serve_once", serve_once)
    program.serve(types.SimpleNamespace(finish_if_old=lambda: None), types.SimpleNamespace(url=None, url_file=str(url), ca=None, until_empty=None))
    assert seen == ["old", "new"]


def test_memory_ends_it(program, monkeypatch):
    """Where memory is out it ends, since another try would need it too. What the broker gave comes again."""
    def serve_once(*_):
        raise MemoryError

    monkeypatch.setattr(program, "serve_once", serve_once)
    with pytest.raises(MemoryError):
        program.serve(None, types.SimpleNamespace(url="rabbit://h/", url_file=None, ca=None))


def test_heartbeats(program, monkeypatch):
    """Each turn without a message tells the broker that the listener is there."""
    calls = collections.Counter()

    def drain(timeout):
        raise socket.timeout

    channel = types.SimpleNamespace(basic_qos=lambda *_: None, basic_consume=lambda _: None, close=lambda: None,
                                    queue_declare=lambda name, passive: calls.update(["asked"]))
    connection = types.SimpleNamespace(channel=lambda: channel, blocking_read=drain, heartbeat_tick=lambda: calls.update(["tick"]))
    monkeypatch.setattr(program, "find_queue", lambda *_: None)
    options = types.SimpleNamespace(queue="q", bind=[], prefetch=1, until_empty=0)
    program.listen(connection, program.Deliveries(), types.SimpleNamespace(finish_if_old=lambda: None), options)
    assert calls == {"tick": 1, "asked": 1}


def frame(*numbers, words=b"", channel=0):
    """A frame of a method: its class, its number, and its words."""
    payload = struct.pack(">HH", *numbers) + words
    return struct.pack(">BHI", 1, channel, len(payload)) + payload + b"\xce"


GREETING = [frame(10, 10, words=b"\0\x09" + b"\0" * 4 + b"\0\0\0\5PLAIN" + b"\0\0\0\5en_US"), frame(10, 30, words=struct.pack(">HIH", 9, 4096, 60)),
            frame(10, 41, words=b"\0")]
DELIVERY = frame(60, 60, words=b"\1t" + b"\0" * 8 + b"\0\0\1q", channel=1)


@pytest.mark.timeout(60)
@pytest.mark.parametrize("last", [b"", frame(20, 11, words=b"\0" * 4, channel=1)[:9], DELIVERY[:-5]])
def test_a_link_that_is_cut_in_silence(program, monkeypatch, last):
    """What the broker doesn't answer is a fault in the end, also if a part of a frame came before the link was cut."""
    if program.amqp is None:
        pytest.skip("kombu isn't there (Debian: python3-kombu)")
    monkeypatch.setattr(program, "ANSWER", 1)
    with socket.create_server(("127.0.0.1", 0)) as server:
        def speak():
            link, _ = server.accept()
            with link:
                for text in [*GREETING, last]:
                    link.recv(4096)
                    link.sendall(text)
                over.wait()

        over, broker = threading.Event(), threading.Thread(target=speak)
        broker.start()
        try:
            deliveries = program.Deliveries()
            connection = program.Host("127.0.0.1:%d" % server.getsockname()[1], "/", False).connect(deliveries, None)
            with pytest.raises(OSError), program.channel_of(connection):
                pass
            connection.collect()
        finally:
            over.set()
            broker.join()


def test_nothing_of_a_link_that_was_cut_is_no_empty_queue(program, monkeypatch):
    """With --until-empty the broker has to answer once more. So the end is that of a broker that is away."""
    def read(timeout):
        raise socket.timeout

    def declare(name, passive):
        raise socket.timeout("timed out")

    channel = types.SimpleNamespace(basic_qos=lambda *_: None, basic_consume=lambda _: None, close=lambda: None, queue_declare=declare)
    connection = types.SimpleNamespace(channel=lambda: channel, blocking_read=read, heartbeat_tick=lambda: None)
    monkeypatch.setattr(program, "find_queue", lambda *_: None)
    options = types.SimpleNamespace(queue="q", bind=[], prefetch=1, until_empty=0)
    with pytest.raises(socket.timeout):
        program.listen(connection, program.Deliveries(), types.SimpleNamespace(finish_if_old=lambda: None), options)


@pytest.mark.parametrize("seconds, ends_at", [(0, 60), (300, 300), (None, None)])
@pytest.mark.parametrize("is_heard", [False, True], ids=["broker away", "broker goes away"])
def test_broker_away(program, monkeypatch, tmp_path, seconds, ends_at, is_heard):
    """With --until-empty a broker that is away ends it with status 3: after that time, and a minute at least. Without, it goes on.

    What came before is in a finished file then. The time counts from when the queue could last be read.
    """
    clock, tried = Clock(), []
    monkeypatch.setattr(program, "time", types.SimpleNamespace(monotonic=clock.monotonic, strftime=program.time.strftime, gmtime=program.time.gmtime))
    monkeypatch.setattr(program.stopping, "wait", lambda pause: setattr(clock, "now", clock.now + pause))
    program.amqp = program.amqp or object()

    def serve_once(host, deliveries, spool, options):
        if is_heard and not tried:
            spool.write([b"x\n"])
            clock.now += 5000
            deliveries.gather(types.SimpleNamespace(blocking_read=lambda timeout: deliveries.lines.extend([b"y\n"] * 9)), 9)
        tried.append(clock.now)
        clock.now += 20  # as of a host that takes connections and says nothing
        if len(tried) == 1000:
            program.stopping.set()
        raise OSError(111, "Connection refused")

    monkeypatch.setattr(program, "serve_once", serve_once)
    words = [] if seconds is None else ["--until-empty", str(seconds)]
    try:
        status, _, error = answer(program, ["--spool", str(tmp_path / "spool"), "--url", "rabbit://h/", "--seconds", "1000000", *words])
    finally:
        program.stopping.is_asked = False
    assert (lines_of(str(tmp_path / "spool")), glob.glob(str(tmp_path / "spool" / "*.part"))) == (([b"x"] + [b"y"] * 9) * is_heard, [])
    if seconds is None:
        assert (status, len(tried), error) == (0, 1000, "")
    else:
        assert (status, error) == (3, "") and ends_at <= clock.now - tried[0] < ends_at + 40
        assert re.fullmatch(r"h:5672: .*Connection refused; the queue could not be read for \d+ seconds, .*: make the broker and "
                            "the queue answer, and run this again", [line for line in program.lines if "notifications" not in line][-1])


@pytest.mark.parametrize("hosts, seconds", [("h1,h2,h3", 0), ("h1", 30)])
@pytest.mark.parametrize("is_heard", [False, True], ids=["broker away", "links that hold for a minute"])
def test_faults_that_go_on(program, monkeypatch, hosts, seconds, is_heard):
    """A fault that goes on is told once an hour for each host, however long a try takes. That of a link that held is told anew."""
    clock, tried = Clock(), []

    def pause(seconds):
        clock.now += seconds
        if clock.now >= 1000 + 3600 + 1800:
            program.stopping.set()

    def serve_once(host, deliveries, spool, options):
        tried.append(host)
        clock.now += seconds + 60 * is_heard
        deliveries.heard = clock.now * is_heard
        raise OSError(111, "Connection refused")

    monkeypatch.setattr(program, "time", clock)
    monkeypatch.setattr(program.stopping, "wait", pause)
    monkeypatch.setattr(program, "serve_once", serve_once)
    program.serve(types.SimpleNamespace(finish_if_old=lambda: None),
                  types.SimpleNamespace(url="rabbit://%s/" % hosts, url_file=None, ca=None, until_empty=None))
    assert len(program.lines) == (len(tried) if is_heard else 2 * len(hosts.split(",")))


@pytest.mark.parametrize("prefetch", [1, 9], ids=["at the acknowledgement", "while more comes"])
def test_what_came_before_a_link_broke(program, monkeypatch, tmp_path, prefetch):
    """What came is written once, also if the link breaks before it could be acknowledged: its queue may be gone with the broker."""
    folder = str(tmp_path / "spool")
    spool = program.Spool(folder, 1000, 1000)

    def fail(*_, **__):
        program.stopping.set()
        raise ConnectionResetError(errno.ECONNRESET, os.strerror(errno.ECONNRESET))

    def serve_once(host, deliveries, spool, options):
        def read(timeout):
            return fail() if deliveries.lines else deliveries.lines.append(b"{}\n") is None

        channel = types.SimpleNamespace(basic_qos=lambda *_: None, basic_consume=lambda _: None, basic_ack=fail)
        program.listen(types.SimpleNamespace(channel=lambda: channel, blocking_read=read, heartbeat_tick=lambda: None), deliveries, spool, options)

    monkeypatch.setattr(program, "find_queue", lambda *_: None)
    monkeypatch.setattr(program, "serve_once", serve_once)
    program.serve(spool, types.SimpleNamespace(url="rabbit://h/", url_file=None, ca=None, queue="q", bind=[], prefetch=prefetch, until_empty=None))
    spool.finish()
    os.close(spool.own)
    assert lines_of(folder) == [b"{}"]


ASKED_AT_EACH_LINE = """
import sys
from tests.tools.programs import loaded
program = loaded(sys.argv[1])
def asked(*_):
    program.stopping.set()
    return asked
sys.settrace(asked)
program.stopping.wait(600)
"""


def test_asked_to_end_at_any_time():
    """A signal that asks it to end may come at each step of a wait, also twice, and ends the wait."""
    assert subprocess.run([sys.executable, "-c", ASKED_AT_EACH_LINE, LISTEN], cwd=TOP, timeout=60, check=False).returncode == 0


class Trickle:
    """A connection on which a frame comes every 9 milliseconds, and which the broker gives up after a minute without a heartbeat."""

    def __init__(self, clock, came):
        self.clock, self.came = clock, came

    def blocking_read(self, timeout):
        self.clock.now += 0.009
        assert self.clock.now < 1060, "a minute without a heartbeat"
        return self.came()

    def drain_events(self, timeout):
        while not self.blocking_read(timeout):
            pass


@pytest.mark.parametrize("is_whole", [False, True], ids=["parts of one message", "messages"])
def test_trickle(program, monkeypatch, is_whole):
    """What comes without a pause keeps it no longer than some seconds from a heartbeat, and from hearing that it is to end."""
    clock, deliveries = Clock(), program.Deliveries()
    monkeypatch.setattr(program, "time", clock)
    deliveries.gather(Trickle(clock, lambda: is_whole and deliveries.lines.append(b"{}\n") is None), 65535)
    assert clock.now < 1005 and deliveries.lines[:1] == [b"{}\n"] * is_whole


@pytest.mark.parametrize("free, is_enough", [(2 ** 25 - 1, False), (2 ** 25, True)])
def test_room(program, monkeypatch, tmp_path, free, is_enough):
    """It takes nothing off a queue unless the disk has room for two batches: a broker may count how often it gave a message."""
    monkeypatch.setattr(program.os, "fstatvfs", lambda _: types.SimpleNamespace(f_bavail=free, f_frsize=1))
    if is_enough:
        os.close(program.Spool(str(tmp_path / "spool"), 1, 1).own)
    else:
        with pytest.raises(program.Fault, match="less than 32 MiB of room"):
            program.Spool(str(tmp_path / "spool"), 1, 1)


@pytest.mark.parametrize("call, number, is_enough", [
    ("posix_fallocate", errno.EDQUOT, False), ("posix_fallocate", errno.ENOSPC, False), ("fsync", errno.EDQUOT, False), ("fsync", errno.EIO, False),
    ("posix_fallocate", errno.EOPNOTSUPP, True), ("posix_fallocate", errno.EFBIG, True)])
def test_quota(program, monkeypatch, tmp_path, call, number, is_enough):
    """Nor does it take anything if a quota leaves no room for two batches, of which the system may tell only at the sync."""
    right, folder = getattr(os, call), str(tmp_path / "spool")

    def failing(file, *words):
        if call == "posix_fallocate" or os.fstat(file).st_size == 2 ** 25:
            raise OSError(number, os.strerror(number))
        return right(file, *words)

    monkeypatch.setattr(program.os, call, failing)
    if is_enough:
        os.close(program.Spool(folder, 1, 1).own)
    else:
        assert refused(program.Spool, folder, 1, 1) == "%s: %s" % (folder, os.strerror(number))
    assert os.listdir(folder) == []


@pytest.mark.parametrize("call, size, lines", [("write", 1, 0), ("fsync", 1, 1), ("close", 1, 1)])
def test_late_fault(program, monkeypatch, tmp_path, call, size, lines):
    """A write, a sync or a close that fails by a quota ends it, and what was in the batch isn't acknowledged: it comes again."""
    folder, right, acknowledged = str(tmp_path / "spool"), getattr(os, call), []
    spool = program.Spool(folder, size, 1000)
    monkeypatch.setattr(program, "find_queue", lambda *_: None)
    channel = types.SimpleNamespace(basic_qos=lambda *_: None, basic_consume=lambda _: None, basic_ack=lambda tag, multiple: acknowledged.append(tag))

    def serve_once(host, deliveries, spool, options):
        def read(timeout):
            deliveries.lines.append(b"{}\n")
            monkeypatch.setattr(program.os, call, failing)

        connection = types.SimpleNamespace(channel=lambda: channel, blocking_read=read, heartbeat_tick=lambda: None)
        program.listen(connection, deliveries, spool, types.SimpleNamespace(queue="q", bind=[], prefetch=1, until_empty=None))

    def failing(file, *words):
        is_message = call != "fsync" or stat.S_ISREG(os.fstat(file).st_mode)
        if call == "close":
            right(file)
        if is_message:
            raise OSError(errno.EDQUOT, os.strerror(errno.EDQUOT))
        return right(file, *words)

    monkeypatch.setattr(program, "serve_once", serve_once)
    said = refused(program.serve, spool, types.SimpleNamespace(url="rabbit://h/", url_file=None, ca=None))
    monkeypatch.setattr(program.os, call, right)
    os.close(spool.own)
    assert (said, acknowledged) == (folder + ": Disk quota exceeded", [])
    os.close(program.Spool(folder, 1, 1).own)
    assert lines_of(folder) == [b"{}"] * lines


def test_a_file_system_without_locks_of_folders(program, monkeypatch, tmp_path):
    """As NFS, whose folders can't be locked: it takes nothing, and says where to have the folder."""
    def flock(*_):
        raise OSError(errno.EBADF, os.strerror(errno.EBADF))

    folder = str(tmp_path / "spool")
    monkeypatch.setattr(program.fcntl, "flock", flock)
    assert refused(program.Spool, folder, 1, 1) == folder + ": it can't be locked: Bad file descriptor: name a folder on a disk of this machine"


def test_no_file(program, tmp_path):
    """Nor does it take anything if no file can be made there, as on a disk without inodes or for reading alone."""
    folder = str(tmp_path / "spool")
    os.mkdir(folder, 0o500)
    os.chown(folder, ANOTHER, ANOTHER) if os.geteuid() == 0 else None
    here = os.open(".", os.O_RDONLY)
    os.chdir(folder)
    said = as_user(ANOTHER, refused, program.Spool, ".", 1, 1)
    os.fchdir(here)
    os.close(here)
    assert said == "./.room: Permission denied"


def answer(program, words):
    """What the program answers to words that it refuses: its status, its output and its errors."""
    output, error, handlers = io.StringIO(), io.StringIO(), {each: signal.getsignal(each) for each in (signal.SIGHUP, signal.SIGINT, signal.SIGTERM)}
    with contextlib.redirect_stdout(output), contextlib.redirect_stderr(error):
        try:
            sys.argv = [LISTEN, *words]
            status = program.ended(program.run)
        except SystemExit as end:
            status = end.code
    for number, handler in handlers.items():
        signal.signal(number, handler)
    return status, output.getvalue(), error.getvalue()


def test_words(program, tmp_path):
    """Refused words, files that can't be read, a library that isn't there."""
    spool = ["--spool", str(tmp_path / "none")]
    for what, words, status in (
            ("no words", [], 2), ("no URL", spool, 2), ("two URLs", [*spool, "--url", "rabbit://h/", "--url-file", "x"], 2),
            ("no scheme", [*spool, "--url", "h/"], 2), ("http", [*spool, "--url", "http://h/"], 2), ("no port", [*spool, "--url", "amqp://h:x/"], 2),
            ("a password that isn't encoded", [*spool, "--url", "amqp://u:SECRET/p@h/"], 2),
            ("a comma in a password", [*spool, "--url", "amqp://u:SECRET,p@h/"], 2),
            ("no key", [*spool, "--url", "amqp://h/", "--bind", "nova"], 2), ("no exchange", [*spool, "--url", "amqp://h/", "--bind", ":k"], 2),
            ("prefetch 0", [*spool, "--url", "amqp://h/", "--prefetch", "0"], 2), ("NaN", [*spool, "--url", "amqp://h/", "--until-empty", "nan"], 2),
            ("a prefix", [*spool, "--url", "amqp://h/", "--until", "1"], 2), ("no file", [*spool, "--url-file", str(tmp_path / "absent")], 3),
            ("a control character", [*spool, "--url", "amqp://h/", "\x1b[2J"], 2), ("help", ["--help"], 0)):
        ended, output, error = answer(program, words)
        assert ended == status, what
        assert "(--url-file FILE | --url URL)" in output if what == "help" else "cadf-listen" in error, what
        assert "\x1b" not in error and "SECRET" not in error, what
    program.amqp = None
    ended, _, error = answer(program, [*spool, "--url", "rabbit://h/"])
    assert (ended, error) == (3, "cadf-listen: needs the library amqp: apt install python3-kombu\n")
    assert not (tmp_path / "none").exists()


def test_urls(program):
    """The hosts of a URL, as oslo.messaging has it: each with its own credentials, all texts percent-encoded."""
    for url, is_tls, wanted in (
            ("rabbit://u:p@h:1/", False, [("u", "p", "h", 1, "/", False)]), ("rabbit://h", False, [("guest", "", "h", 5672, "/", False)]),
            ("rabbit://u:p%2F%40%3A@h1:1,v:q@h2/a%20b?x=y", False, [("u", "p/@:", "h1", 1, "a b", False), ("v", "q", "h2", 5672, "a b", False)]),
            ("amqp://u:a@b@[::1]:7/%2Fx\n", False, [("u", "a@b", "::1", 7, "/x", False)]), ("amqps://u:p@h/", False, [("u", "p", "h", 5671, "/", True)]),
            ("rabbit://u:p@h/", True, [("u", "p", "h", 5671, "/", True)])):
        hosts = program.hosts_of(url, "authority" if is_tls else None)
        assert [(host.user, host.password, host.name, host.port, host.virtual_host, host.is_tls) for host in hosts] == wanted, url


def test_recovery(program, tmp_path):
    """What a killed listener left: the whole lines become a file, the rest another, at whatever byte it was cut off."""
    text = b'{"a":1}\n{"b":2}\n' + b"x" * 70000 + b"\n" + b"y" * 140000
    for size in (0, 1, 7, 8, 9, 15, 16, 17, 65535, 65552, 70016, 70017, 70018, 135553, len(text)):
        folder = str(tmp_path / "left")
        os.mkdir(folder, 0o700)
        (tmp_path / "left" / "n.jsonl.part").touch(0o600)
        (tmp_path / "left" / "n.jsonl.part").write_bytes(text[:size])
        (tmp_path / "left" / "other.part").write_bytes(b"not a listener's")
        spool = program.Spool(folder, 1, 1)
        os.close(spool.own)
        whole = text.rfind(b"\n", 0, size) + 1
        held = {name: open(os.path.join(folder, name), "rb").read() for name in os.listdir(folder) if name.startswith("n.")}
        wanted = dict({"n.jsonl": text[:whole]} if whole else {}, **({"n.jsonl.torn": text[whole:size]} if whole < size else {}))
        assert held == wanted, "cut at %d" % size
        assert os.path.exists(os.path.join(folder, "other.part")), "cut at %d" % size
        shutil.rmtree(folder)


def test_recovery_beside_a_finished_file(program, tmp_path):
    """Of a folder that was copied back while it had a file as it was before, the finished file stays, and the other is finished too."""
    folder = tmp_path / "back"
    folder.mkdir(0o700)
    (folder / "n.jsonl").write_bytes(b"1\n2\n3\n")
    (folder / "n.jsonl.part").touch(0o600)
    (folder / "n.jsonl.part").write_bytes(b"1\n2")
    os.close(program.Spool(str(folder), 1, 1).own)
    assert (folder / "n.jsonl").read_bytes() == b"1\n2\n3\n"
    assert sorted(lines_of(str(folder))) == [b"1", b"1", b"2", b"3"]
    assert [path.suffix for path in folder.iterdir()].count(".part") == 0


def test_files(program, tmp_path):
    """Names, modes and ends of the files of a spool, and its lock."""
    before, folder = os.umask(0), str(tmp_path / "files")
    spool = program.Spool(folder, 20, 1000)
    for _ in range(3):
        spool.write([b"a" * 9 + b"\n"])
        spool.write([b"b" * 9 + b"\n"])
    spool.write([b"c\n"])
    os.umask(before)
    names = sorted(os.listdir(folder))
    assert [bool(re.fullmatch(r"\d{8}T\d{6}Z-[0-9a-f]{12}\.jsonl", name)) for name in names if name.endswith(".jsonl")] == [True] * 3
    assert len([name for name in names if name.endswith(".jsonl.part")]) == 1
    assert {oct(os.stat(os.path.join(folder, name)).st_mode & 0o777) for name in names} == {"0o600"}
    assert oct(os.stat(folder).st_mode & 0o777) == "0o700"
    assert refused(program.Spool, folder, 1, 1) == folder + ": another listener has it"
    spool.seconds = 0
    spool.finish_if_old()
    os.close(spool.own)
    assert ([len(line) for line in lines_of(folder)].count(9), len(glob.glob(folder + "/*.part"))) == (6, 0)
    assert "absent" in refused(program.Spool, str(tmp_path / "absent" / "x"), 1, 1)
    file = tmp_path / "file"
    file.touch()
    assert "Not a directory" in refused(program.Spool, str(file), 1, 1)


def as_user(user, call, *words):
    """What a call gives as that user, without groups, or as this one where this isn't root."""
    read, write = os.pipe()
    child = os.fork()
    if child == 0:
        try:
            if os.geteuid() == 0:
                os.setgroups([])
                os.setgid(user)
                os.setuid(user)
            os.write(write, str(call(*words)).encode())
        finally:
            os._exit(0)
    os.close(write)
    os.waitpid(child, 0)
    with open(read, "rb") as told:
        return told.read().decode()


def plant(folder, planter):
    """Puts into a folder what has the name of a listener's unfinished file, or of a lock, and is none. Returns the names."""
    def put():
        os.umask(0)
        os.mkdir("folder.jsonl.part")
        os.mkfifo("pipe.jsonl.part")
        os.mkfifo(".listen.lock")
        os.symlink("/dev/null", "link.jsonl.part")
        for name in ("many.jsonl.part", "north.jsonl.part"):
            with open(name, "wb") as file:
                file.write(b"line 1\nline 2, not yet wh")
        os.link("many.jsonl.part", "many")

    here = os.open(".", os.O_RDONLY)
    os.chdir(folder)
    as_user(planter, put)
    os.fchdir(here)
    os.close(here)
    return sorted(os.listdir(folder))


def test_own_folder(program, tmp_path):
    """A folder that others may use is refused, and what they put there stays. What was planted before is passed over."""
    for mode in (0o1730, 0o1777, 0o755, 0o710, 0o701, 0o4777):
        folder = str(tmp_path / ("mode-%o" % mode))
        os.mkdir(folder)
        os.chmod(folder, mode)
        names = plant(folder, os.geteuid())
        assert sorted(os.listdir(folder)) == names, "mode %o" % mode
        assert len(names) == 7, "mode %o" % mode
        assert os.path.getsize(os.path.join(folder, "north.jsonl.part")) == 25, "mode %o" % mode
        assert "%s: others may use it: " % folder in refused(program.Spool, folder, 1, 1), "mode %o" % mode
    right, program.is_own = program.is_own, lambda found: True
    assert refused(program.Spool, folder, 1, 1) == "not refused"
    assert "north.jsonl.part" not in os.listdir(folder)
    program.is_own = right
    folder, said = str(tmp_path / "planted"), program.lines
    os.mkdir(folder, 0o700)
    os.chmod(folder, 0o1777)
    names = plant(folder, ANOTHER)
    os.chmod(folder, 0o700)
    said.clear()
    spool = program.Spool(folder, 1, 1)
    spool.write([b"x\n"])
    os.close(spool.own)
    assert lines_of(folder) == [b"x"]
    assert set(names) - set(os.listdir(folder)) == set()
    assert len(said) == 6
    assert [line for line in said[:5] if "passed over" not in line] == []


@pytest.mark.root
def test_folder_of_another(program, tmp_path):
    folder = str(tmp_path / "another's")
    os.mkdir(folder, 0o700)
    os.chown(folder, ANOTHER, ANOTHER)
    assert "others may use it" in refused(program.Spool, folder, 1, 1)


def frames_of(tag, *pieces):
    """The frames of a message whose body comes in pieces, by kinds, as AMQP has them."""
    yield 1, 1, struct.pack(">HHB", 60, 60, 3) + b"tag" + struct.pack(">Q", tag)
    yield 2, 1, struct.pack(">HHQ", 60, 0, sum(map(len, pieces)))
    yield from ((3, 1, piece) for piece in pieces)


def test_deliveries(program):
    """A batch that ends while a message comes: what is to be acknowledged is the last message that is whole."""
    program.frame_handler = lambda connection, callback: None
    deliveries = program.Deliveries()
    handle = deliveries.handler(types.SimpleNamespace(bytes_recv=0), None)
    states = [(handle(frame), len(deliveries.lines), deliveries.tag)
              for frame in [*frames_of(7, b"{", b"}"), *frames_of(8, b"[", b"1", b"]"), *frames_of(9), *frames_of(10, b"1")]]
    assert states == [(False, 0, 0), (False, 0, 0), (False, 0, 0), (True, 1, 7), (False, 1, 7), (False, 1, 7), (False, 1, 7), (False, 1, 7), (True, 2, 8), (False, 2, 8), (True, 3, 9), (False, 3, 9), (False, 3, 9), (True, 4, 10)]
    assert deliveries.lines == [b"{}\n", b"[1]\n", b'{"base64":""}\n', b"1\n"]


def test_slow_message(program, monkeypatch):
    """A message whose parts come all the time is no empty queue, however long it takes. After the last one the queue is."""
    clock, frames, lines, acknowledged = Clock(), itertools.chain(*(frames_of(tag, *[b"x"] * 20) for tag in (7, 8))), [], []
    monkeypatch.setattr(program, "time", clock)
    monkeypatch.setattr(program, "find_queue", lambda *_: None)
    program.frame_handler = lambda connection, callback: None
    deliveries = program.Deliveries()
    handle = deliveries.handler(types.SimpleNamespace(bytes_recv=0), None)

    def read(timeout):
        clock.now += 0.9
        frame = next(frames, None)
        if frame is None:
            assert clock.now < 1100, "the queue never counts as empty"
            raise socket.timeout
        handle(frame)

    channel = types.SimpleNamespace(basic_qos=lambda *_: None, basic_consume=lambda _: None, basic_ack=lambda tag, multiple: acknowledged.append(tag),
                                    queue_declare=lambda name, passive: None, close=lambda: None)
    connection = types.SimpleNamespace(channel=lambda: channel, blocking_read=read, heartbeat_tick=lambda: None)
    spool = types.SimpleNamespace(write=lines.extend, finish_if_old=lambda: None)
    program.listen(connection, deliveries, spool, types.SimpleNamespace(queue="q", bind=[], prefetch=1, until_empty=1))
    assert (lines, acknowledged) == ([b"x" * 20 + b"\n"] * 2, [7, 8])


def refused(call, *words):
    """What a fault of the spool says."""
    try:
        call(*words)
        return "not refused"
    except Exception as fault:
        return str(fault) if type(fault).__name__ == "Fault" else "another fault: %r" % fault
