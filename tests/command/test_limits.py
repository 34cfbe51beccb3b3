"""The built command under the machine's limits, and at odd ends of its input and output.

Limits of memory are address spaces (`ulimit -v`). Those under which the loader can't map the program and its libraries
are left out: that is told by running the loader alone (LD_TRACE_LOADED_OBJECTS).
"""
import hashlib
import json
import os
import shutil
import subprocess
import threading
import time

import pytest

from tests.command.commands import COMMANDS, PIECES, lines
from tests.command.large_inputs import prepare
from tests.machine import Answer, ended, untold
from tests.reference.inventory_files import digest_of
from tests.reference.seal_files import HIGHEST, hash_without, proof_with, rooted, seal_with, tree_of

MOST = 64 * 1024  # KB of address space: enough for all
FINE, COARSE = 4, 512  # KB between limits: just above the loader's, and from there on
ENOUGH = 4  # right answers in a row, under growing limits
STACK = 256  # KB
GREATEST = 2**30  # bytes of an input
TINY = 1000000  # tiny objects
LEAVES = 2**64 - 1
SHARED, SHARING = 200000, 500  # bytes of a step, and how many chains share it: a text of 100 MB
URI = "http://schemas.dmtf.org/cloud/audit/1.0/"
MEMORY, WRITE_FAULT = b"cadf: out of memory\n", b"cadf: write fault\n"

pytestmark = pytest.mark.xdist_group("limits")


@pytest.fixture(scope="module")
def folder(cadf, tmp_path_factory):
    """A folder with the inputs."""
    made = tmp_path_factory.mktemp("limits")
    prepare(cadf, made)
    return made


@pytest.fixture(scope="module")
def under(cadf, folder):
    """Runs the shell's words with a command line of cadf as "$@"."""
    def run(shell, line):
        return ended("/bin/sh", ["-c", shell, "sh", cadf, *line.split()], cwd=folder, stdin=subprocess.DEVNULL)

    return run


@pytest.fixture(scope="module")
def right(cadf, folder):
    """What the command answers without a limit."""
    return lambda line: ended(cadf, line.split(), cwd=folder)


def loads(under, size):
    """Whether the loader can map the program under that limit."""
    return under('export LD_TRACE_LOADED_OBJECTS=1; ulimit -v %d; exec "$@"' % size, "--version").status == 0


@pytest.fixture(scope="module")
def least(under):
    """The least limit in KB under which the program can be loaded."""
    low, high = 0, MOST
    while high - low > FINE:
        middle = (low + high) // 2 // FINE * FINE
        low, high = (low, middle) if loads(under, middle) else (middle, high)
    return high


@pytest.mark.parametrize("line", lines("limited", COMMANDS))
def test_memory(under, right, least, line):
    """From the loader's least to enough: the right answer, or status 4 and the line that says so."""
    wanted, enough = right(line), 0
    for size in (*range(least, least + 16 * FINE, FINE), *range(least + 16 * FINE, MOST // 2, COARSE), MOST):
        if enough == ENOUGH and size != MOST:
            continue
        got = under('ulimit -v %d; exec "$@"' % size, line)
        front = got.output if wanted.output.startswith(got.output) and line.split()[0] in PIECES else b""
        assert got == wanted or size != MOST and got == Answer(4, front, MEMORY), "ulimit -v %d" % size
        enough = enough + 1 if got == wanted else 0


@pytest.mark.parametrize("line", lines("limited", COMMANDS))
@pytest.mark.parametrize("shell", ['exec "$@" >/dev/full', 'exec "$@" >&-', 'exec "$@" <&- >&-'])
def test_output_that_fails(under, line, shell):
    """A full disk, and a standard output that is closed."""
    assert under(shell, line) == Answer(3, b"", WRITE_FAULT)


@pytest.mark.parametrize("line", lines("limited", COMMANDS))
def test_output_that_nobody_reads(cadf, folder, line):
    """A pipe without a reader, where the caller has left SIGPIPE as it is by default."""
    reader, writer = os.pipe()
    os.close(reader)
    done = subprocess.run([cadf, *line.split()], cwd=folder, stdout=writer, stderr=subprocess.PIPE)
    os.close(writer)
    assert (done.returncode, done.stderr) == (3, WRITE_FAULT)


@pytest.mark.parametrize("line", ["show small.json", "show deeper.json", "join --log= small.json", "show absent.json", "show",
                                  "shows small.json"])
@pytest.mark.parametrize("shell", ['exec "$@" 2>/dev/full', 'exec "$@" 2>&-', 'exec "$@" 0<&- 2>&-'])
def test_error_that_fails(under, right, line, shell):
    """Standard error that can't be written changes no exit status."""
    wanted, got = right(line)._replace(error=b""), under(shell, line)
    assert got._replace(status=untold(wanted.status, got.status)) == wanted


def test_no_ends(under):
    assert under('exec "$@" >&- 2>&-', "show small.json") == Answer(3, b"", b"")


@pytest.mark.parametrize("line, status, fault", [
    ("show .", 3, b"input 1: read fault"),
    ("join small.json .", 3, b"input 2: read fault"),
    ("show /dev/null", 1, b"input 1: not JSON"),
])
def test_input_that_is_no_file(right, line, status, fault):
    assert right(line) == Answer(status, b"", b"cadf: %s\n" % fault)


def fed(path, content):
    """Feeds the pipe in pieces."""
    with open(path, "wb", buffering=0) as pipe:
        for start in range(0, len(content), 97):
            pipe.write(content[start:start + 97])
            time.sleep(0.001)


def test_input_in_pieces(folder, right):
    for pipe, name in {"pipe.json": "deep.json", "pipe.cadf": "deep.cadf", "pipe.1.cadf": "deep.1.cadf"}.items():
        os.mkfifo(folder / pipe)
        threading.Thread(target=fed, args=(folder / pipe, (folder / name).read_bytes()), daemon=True).start()
    assert right("join pipe.json pipe.cadf pipe.1.cadf") == right("join deep.json deep.cadf")


@pytest.mark.parametrize("front, back, times, fault", [
    (b'{"id":"g","events":[', b"]}", 12, b"event 1: id"),
    (b'{"id":"g","events":[{"b":[', b"]}]}", 12, b"event 1: id"),
    (b"[", b"]", 12, b"event 0: not an object"),
    (b"[", b"", 12, b"not JSON"),
    (b'{"b":[', b"]}", 24, b"event 0: id"),
])
def test_tiny_objects(folder, under, front, back, times, fault):
    """Very many, between what stands around them, are refused within so many times their bytes of memory."""
    content = front + b",".join([b'{"a":1}'] * TINY) + back
    (folder / "tiny.json").write_bytes(content)
    got = under('ulimit -v %d; exec "$@"' % (times * len(content) // 1024), "show tiny.json")
    assert got == Answer(1, b"", b"cadf: input 1: %s\n" % fault)


def canonical(value):
    return json.dumps(value, sort_keys=True, separators=(",", ":"))


def test_shared_steps(folder, under):
    """Chains that share one long step are written whole, in less memory than their text takes."""
    first = {"reporterId": "r", "role": "relay", "z": "z" * SHARED}
    chains = [[first, {"reporterId": "%06d" % number, "role": "relay"}] for number in range(SHARING)]
    body = {"action": "read", "eventTime": "2024-03-01T12:00:00Z", "eventType": "activity", "initiatorId": "u",
            "observerId": "o", "outcome": "success", "targetId": "t"}
    nodes = [[1, 0, "E"], [2, 0, "e"], [3, 1, canonical(body)], [4, 0, "C"], [5, 0, canonical(first)]]
    nodes += [[6, 1, canonical(chain[1])] for chain in chains]
    text = ('CADF-REPLICA 2\nL "g"\n' + "".join(canonical(node) + "\n" for node in nodes)).encode()
    (folder / "sharing.cadf").write_bytes(text + b"Z %s\n" % hashlib.sha256(text).hexdigest().encode())
    seen = {**body, "id": "e", "typeURI": URI + "event", "reporterchain": chains[0], "reporterchains": chains}
    log = {"events": [seen], "geolocations": [], "id": "g", "metrics": [], "resources": [], "typeURI": URI + "log"}
    got = under('ulimit -v %d; exec "$@"' % MOST, "show sharing.cadf")
    assert got == Answer(0, canonical(log).encode() + b"\n", b"")


@pytest.mark.parametrize("line, front, number, fault, room", [
    ("show zeros", "no.cadf", 1, b"trailing bytes", MOST),
    ("show zeros", "small.json", 1, b"not JSON", None),
    ("missing-by small.json zeros", "no.inventory", 2, b"trailing bytes", MOST),
    ("missing-by-sketch small.json zeros", "no.sketch", 2, b"trailing bytes", MOST),
    ("verify zeros small.json no.proof", "no.seal", 1, b"trailing bytes", MOST),
    ("verify no.seal small.json zeros", "no.proof", 3, b"trailing bytes", MOST),
    ("growth zeros small.json", "no.sealed", 1, b"trailing bytes", MOST),
    ("omit zeros small.json", "no.erased", 1, b"trailing bytes", MOST),
    ("grew zeros no.seal deep.growth", "no.seal", 1, b"trailing bytes", MOST),
    ("grew no.seal deep.seal zeros", "deep.growth", 3, b"trailing bytes", MOST),
    ("grew no.seal deep.seal deep.growth --erased zeros", "no.erased", 4, b"trailing bytes", MOST),
])
@pytest.mark.parametrize("size", [GREATEST, GREATEST + 1])
def test_greatest_size(folder, under, line, front, number, fault, room, size):
    """A file that is followed by zeros, as a sparse file. All but the document are refused in little memory."""
    shutil.copy(folder / front, folder / "zeros")
    os.truncate(folder / "zeros", size)
    got = under('exec "$@"' if room is None else 'ulimit -v %d; exec "$@"' % room, line)
    assert got == Answer(1, b"", b"cadf: input %d: %s\n" % (number, fault if size == GREATEST else b"too large"))


def test_announced_cells(folder, under):
    """A short sketch that announces the greatest number of cells takes the memory of a short one."""
    sketch = (folder / "no.sketch").read_bytes()
    (folder / "announced.sketch").write_bytes(sketch.replace(b"S 3 ", b"S 12582912 "))
    got = under('ulimit -v %d; exec "$@"' % MOST, "missing-by-sketch small.json announced.sketch")
    assert got == Answer(1, b"", b"cadf: input 2: line 7: unended\n")


def far_leaf(nodes):
    """A seal of the greatest number of leaves, and a proof of its tree: a fact's leaf is below so many nodes."""
    digest = bytes.fromhex(digest_of(("P", "p", "1")).decode())
    parts = [("N", None)] * nodes + [("P", digest)] + [("H", bytes([number % 256]) * 32) for number in range(nodes)]
    root = rooted(LEAVES, hash_without(None, tree_of(parts)) if nodes <= HIGHEST else bytes(32))
    return seal_with("g", LEAVES, root, 1, bytes(32)), proof_with("g", parts), digest


@pytest.mark.parametrize("nodes", [HIGHEST, HIGHEST + 1, 10 ** 5])
def test_announced_leaves(folder, under, nodes):
    """A seal of the greatest number of leaves and the highest tree take the memory, the stack and the time of small ones; a higher one ends."""
    seal, proof, digest = far_leaf(nodes)
    (folder / "far.seal").write_bytes(seal)
    (folder / "far.proof").write_bytes(proof)
    (folder / "fact.json").write_text('{"id":"g","events":[],"p":1}')
    room = "ulimit -v %d; " % MOST if nodes <= HIGHEST else ""
    got = under(room + 'ulimit -s %d; ulimit -t 20; exec "$@"' % STACK, "verify far.seal fact.json far.proof")
    if nodes <= HIGHEST:
        assert got == Answer(0, b'present P "p" %s\n' % digest.hex().encode(), b"")
    else:
        assert got == Answer(1, b"", b"cadf: input 3: no tree\n")


@pytest.mark.parametrize("line", lines("deep", COMMANDS))
def test_stack(under, right, line):
    """Inputs that nest as deep as can be read, with a small stack."""
    assert under('ulimit -s %d; exec "$@"' % STACK, line) == right(line)
