"""What a tool shows on a terminal of a call that lasts: one line, which is cleared; elsewhere, and of a short call, nothing."""
import contextlib
import os
import pty
import re
import subprocess
import sys
import time

import pytest

from tests import TOP
from tests.tools.copies import copied

TOOLS = os.path.join(TOP, "tools")
SITE = os.path.join(TOP, "examples", "vectors", "both.cadf")
SLOW = '#!/bin/sh\nsleep %s\nexec "%s" "%s" "$@"\n'
LINE = rb"\r\x1b\[Kcadf-which: slow check: (\d+) s"
CLEARED = b"\r\x1b[K"


@pytest.fixture
def slow(tmp_path):
    """A command that takes so many seconds more than the second implementation."""
    def made(seconds):
        path = tmp_path / "slow"
        path.write_text(SLOW % (seconds, sys.executable, os.path.join(TOP, "tests", "reference", "cadf")))
        path.chmod(0o755)
        return str(path)
    return made


def shown(command, site=SITE, tools=TOOLS):
    """The status of a call whose standard error is a terminal, and what it writes there."""
    ours, theirs = pty.openpty()
    with subprocess.Popen([os.path.join(tools, "cadf-which"), site], stdin=subprocess.DEVNULL, stdout=subprocess.DEVNULL, stderr=theirs,
                          env={**os.environ, "CADF": command}) as child:
        os.close(theirs)
        data = b""
        with contextlib.suppress(OSError):  # until nobody has the terminal any more
            while True:
                data += os.read(ours, 4096)
    os.close(ours)
    return child.returncode, data


def test_a_call_that_lasts_has_one_line_which_is_cleared(slow):
    status, data = shown(slow(4))
    assert status == 0
    assert re.fullmatch(rb"(?:%s)+%s" % (LINE, re.escape(CLEARED)), data), data
    seconds = [int(found) for found in re.findall(LINE, data)]
    assert seconds == sorted(seconds) and seconds[-1] >= 2


def test_nothing_elsewhere(slow):
    done = subprocess.run([os.path.join(TOOLS, "cadf-which"), SITE], stdin=subprocess.DEVNULL, capture_output=True, check=True,
                          env={**os.environ, "CADF": slow(4)})
    assert (done.stdout, done.stderr) == (b"", b"")


def test_nothing_of_a_short_call(tmp_path):
    quick = tmp_path / "quick"
    quick.write_text("#!/bin/sh\necho 'ok \"g\" atoms 1 conflicts 0'\n")
    quick.chmod(0o755)
    for _ in range(100):
        begun = time.monotonic()
        answer = shown(str(quick))
        if time.monotonic() - begun < 2:  # else a busy machine made it a long one
            assert answer == (0, b"")
            return
    pytest.fail("a hundred calls took two seconds each")


def test_a_refusal_has_a_line_of_its_own(slow, tmp_path):
    broken = tmp_path / "broken.cadf"
    broken.write_bytes(b"CADF-REPLICA 2\n")
    status, data = shown(slow(3), broken)
    assert status == 1 and re.search(rb"\r\x1b\[K[^\r\x1b]*broken\.cadf: truncated[^\r]*\r\n\Z", data), data


def test_a_tool_without_a_timer_is_caught(slow, tmp_path):
    wrong = copied(str(tmp_path), "signal.ITIMER_REAL, max(", "signal.ITIMER_REAL, 100 + max(")
    assert shown(slow(3), tools=wrong) == (0, b"")
