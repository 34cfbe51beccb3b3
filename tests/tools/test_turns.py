"""Callers of a tool that take turns: what each finds once it has the lock, and how long the lock is held."""
import contextlib
import fcntl
import json
import os
import select
import signal
import subprocess
import time

import pytest

from tests import patience
from tests.tools.odd_logs import EVENT
from tests.tools.programs import WAITING, tool, writer_to

# A command that goes on once it may.
SLOW = '#!/bin/sh\nwhile [ ! -e "$PLACE/go" ]; do sleep 0.05; done\nexec "$BUILT" "$@"\n'
# A command that sends its caller a signal, and stays until it is ended.
ASKING = '#!/bin/sh\nkill -"$SIGNAL" $PPID\nsleep 60\n'


def put(folder, name, text, mode=0o644):
    path = folder / name
    path.write_text(text)
    path.chmod(mode)
    return path


def document(folder, key):
    return put(folder, key + ".json", json.dumps({"id": "g", "events": [dict(EVENT, id=key)]}))


def joined(cadf, *names):
    return subprocess.run([cadf, "join", *names], check=True, stdout=subprocess.PIPE).stdout


def wait_until(is_so):
    end = time.monotonic() + patience.seconds(60)
    while not is_so():
        assert time.monotonic() < end
        time.sleep(0.02)


def has_started(process, name):
    """Whether a process runs a program of that name."""
    with open("/proc/%d/task/%d/children" % (process, process), encoding="ascii") as file:
        children = file.read().split()
    for child in children:
        with contextlib.suppress(OSError), open("/proc/%s/cmdline" % child, "rb") as file:
            if os.fsencode(name) in file.read().split(b"\0"):
                return True
    return False


def test_take_after_another(cadf, tmp_path):
    """A call that waited takes into what the call before it left, not into what it saw first."""
    one, two, three = (document(tmp_path, key) for key in ("e1", "e2", "e3"))
    site, lock = tmp_path / "site.cadf", put(tmp_path, "site.cadf.lock", "", 0o600)
    site.write_bytes(joined(cadf, one))
    with open(lock, "r+") as held:
        fcntl.flock(held, fcntl.LOCK_EX)
        child = subprocess.Popen([tool("cadf-take"), site, three], env={**os.environ, "CADF": cadf}, stderr=subprocess.PIPE)
        assert b"waits for" in child.stderr.readline()
        put(tmp_path, "other", "").write_bytes(joined(cadf, one, two))
        os.rename(tmp_path / "other", site)
    assert child.wait(60) == 0 and site.read_bytes() == joined(cadf, one, two, three)
    child.stderr.close()


@pytest.mark.parametrize("held", ["here.cadf", "there.cadf"])
def test_sync_says_for_what_it_waits(cadf, tmp_path, held):
    """While another call has the lock of a site, here or there, and not once it is over."""
    for name, key in (("here.cadf", "e1"), ("there.cadf", "e2")):
        (tmp_path / name).write_bytes(joined(cadf, document(tmp_path, key)))
    with open(put(tmp_path, held + ".lock", "", 0o600), "r+") as lock:
        fcntl.flock(lock, fcntl.LOCK_EX)
        child = subprocess.Popen([tool("cadf-sync"), "here.cadf", "there.cadf"], cwd=tmp_path, env={**os.environ, "CADF": cadf}, stdout=subprocess.DEVNULL, stderr=subprocess.PIPE)
        assert select.select([child.stderr], [], [], 30)[0], "nothing is said"
        peer = b"there.cadf: cadf-sync: " if held == "there.cadf" else b""
        assert child.stderr.readline() == b"cadf-sync: %swaits for %s.lock, which another call holds\n" % (peer, held.encode())
    assert (child.wait(60), child.stderr.read()) == (0, b"")
    child.stderr.close()
    assert (tmp_path / "here.cadf").read_bytes() == (tmp_path / "there.cadf").read_bytes()


@pytest.mark.parametrize("held", ["site.cadf.lock", "spool/.spool.lock"])
def test_spool_says_for_what_it_waits(cadf, tmp_path, held):
    """Once, while another call has the lock of the site or of the spool."""
    spool = tmp_path / "spool"
    spool.mkdir()
    os.rename(document(tmp_path, "e1"), spool / "e1.json")
    with open(put(tmp_path, held, "", 0o600), "r+") as lock:
        fcntl.flock(lock, fcntl.LOCK_EX)
        child = subprocess.Popen([tool("cadf-spool"), "--unchanged", "0", "--log", "g", tmp_path / "site.cadf", spool],
                                 env={**os.environ, "CADF": cadf}, stderr=subprocess.PIPE)
        assert select.select([child.stderr], [], [], 30)[0], "nothing is said"
        assert child.stderr.readline().decode() == "cadf-spool: waits for %s, which another call holds\n" % (tmp_path / held)
    assert (child.wait(60), child.stderr.read()) == (0, b"cadf-spool: taken 1, set aside 0, waiting 0\n")
    child.stderr.close()


def test_take_behind_a_link(cadf, tmp_path):
    """A lock that is a link is no lock, and isn't opened: its file may be one that others hold."""
    put(tmp_path, "own", "", 0o600)
    os.symlink("own", tmp_path / "site.cadf.lock")
    done = subprocess.run([tool("cadf-take"), tmp_path / "site.cadf", document(tmp_path, "e1")], env={**os.environ, "CADF": cadf}, stderr=subprocess.PIPE)
    said = "cadf-take: %s: Too many levels of symbolic links\n" % (tmp_path / "site.cadf.lock")
    assert (done.returncode, done.stderr.decode()) == (3, said) and not (tmp_path / "site.cadf").exists()


@pytest.mark.parametrize("name", ["site/", "site.cadf"])
def test_take_whose_lock_is_removed(cadf, tmp_path, name):
    """A lock is removed, as one that looks stale, and another caller takes meanwhile.

    The one that holds the removed lock takes nothing, so nothing is lost of what the other one takes. Made again, it completes.
    """
    one, two, three = (document(tmp_path, key) for key in ("e1", "e2", "e3"))
    site, by = "%s/%s" % (tmp_path, name), ["--by", "day"] if name.endswith("/") else []
    words, environment = [tool("cadf-take"), site, two], {**os.environ, "CADF": cadf}
    subprocess.run([tool("cadf-take"), *by, site, one], env=environment, check=True)
    waiting, fifo = put(tmp_path, "waiting", WAITING, 0o755), tmp_path / "fifo"
    os.mkfifo(fifo)
    with subprocess.Popen(words, stderr=subprocess.PIPE, env={**environment, "CADF": str(waiting), "BUILT": cadf, "FIFO": str(fifo)}) as child:
        writer = writer_to(fifo, child)
        os.remove(fifo)
        os.remove(site + ".lock")
        subprocess.run([tool("cadf-take"), site, three], env=environment, check=True)
        os.close(writer)
        said = child.stderr.read()
    assert child.returncode == 3 and said.startswith(b"cadf-take: %s: it was removed" % os.fsencode(site + ".lock")), said
    agreed = [tool("cadf-agree"), site, put(tmp_path, "union", "")]
    for held in ((one, three), (one, two, three)):
        (tmp_path / "union").write_bytes(joined(cadf, *held))
        assert subprocess.run(agreed, env=environment).returncode == 0
        subprocess.run(words, env=environment, check=True)


def test_spool_killed(cadf, tmp_path):
    """What a killed run has started holds the spool until it ends: the next run doesn't begin beside it."""
    spool = tmp_path / "spool"
    spool.mkdir()
    os.rename(document(tmp_path, "e1"), spool / "e1.json")
    slow = put(tmp_path, "slow", SLOW, 0o755)
    child = subprocess.Popen([tool("cadf-spool"), "--unchanged", "0", "--log", "g", tmp_path / "site.cadf", spool],
                             env={**os.environ, "CADF": str(slow), "BUILT": cadf, "PLACE": str(tmp_path)}, stderr=subprocess.DEVNULL)
    try:
        wait_until(lambda: has_started(child.pid, slow))
        child.kill()
        child.wait()
        with open(spool / ".spool.lock", "r+") as lock:
            with pytest.raises(BlockingIOError):
                fcntl.flock(lock, fcntl.LOCK_EX | fcntl.LOCK_NB)
            (tmp_path / "go").touch()
            fcntl.flock(lock, fcntl.LOCK_EX)
    finally:
        child.kill()
        (tmp_path / "go").touch()


@pytest.mark.parametrize("number", [signal.SIGHUP, signal.SIGINT, signal.SIGTERM])
@pytest.mark.parametrize("name", ["cadf-take", "cadf-conflicts", "cadf-report"])
def test_asked_to_end(tmp_path, name, number):
    """A tool that is asked to end ends what it has started, leaves no file of its own, and says so by its status."""
    asking = put(tmp_path, "asking", ASKING, 0o755)
    words = [tmp_path / "site.cadf"] if name == "cadf-take" else []
    temporary = tmp_path / "temporary"
    temporary.mkdir()
    done = subprocess.run([tool(name), *words, document(tmp_path, "e1")], stdout=subprocess.PIPE, stderr=subprocess.PIPE, timeout=30,
                          env={**os.environ, "CADF": str(asking), "SIGNAL": str(int(number)), "TMPDIR": str(temporary)})
    assert (done.returncode, done.stdout, done.stderr.decode()) == (128 + number, b"", "%s: stopped by %s\n" % (name, number.name))
    assert os.listdir(temporary) == [] and {path.name for path in tmp_path.iterdir()} <= {"asking", "temporary", "e1.json", "site.cadf.lock"}
