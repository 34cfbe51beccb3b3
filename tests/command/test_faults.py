"""Each call of the built command to the machine is refused, fails, is interrupted or cut short in turn, one a run.

Each command line of tests/command/commands.py is run unhindered, and then with each fault at its places: on small
inputs at every place that the unhindered run has, and at one more, which must change nothing; on larger ones at a
sample of them. What each must end with:

- a refused growth of memory, alone or with all behind it: status 4 and `cadf: out of memory`, or the unhindered answer.
  Of a command that writes a file a front of it may stand on standard output, of all else nothing.
- a failed or interrupted read: status 3 and `cadf: input N: read fault`, where N is the input that was read, and
  nothing on standard output; where the unhindered answer is `trailing bytes`, that answer too.
- a write to standard output that fails or takes nothing: status 3 and `cadf: write fault`, behind a front of the right
  text; one that is interrupted: that, or the unhindered answer.
- a short read or write: the unhindered answer.
- in a rehearsal, a refused growth inside a delivery's join: the unhindered answer, since the join is tried once more.
- a write to standard error that fails: the status and output of the unhindered answer, and a front of its error.

Replica files are in the format that commands write; those named *.1.cadf hold the same in format 1.
"""
import pytest

from tests.command.commands import COMMANDS, PIECES, lines
from tests.command.small_inputs import prepare, script
from tests.machine import Answer, Fault, Machine, ended, put, side_by_side, untold

pytestmark = pytest.mark.needs("gcc")
SAMPLE = 40  # places of a fault in a large run
FAULTS = [Fault("grow", "refused", 0), Fault("grow", "refused", 0, True), Fault("read", "fails", 0), Fault("read", "interrupted", 0),
          Fault("read", "short", 0), Fault("read", "short", 0, True), Fault("write", "fails", 0), Fault("write", "nothing", 0),
          Fault("write", "interrupted", 0), Fault("write", "short", 0), Fault("write", "short", 0, True), Fault("tell", "fails", 0, True)]
SHOWN = 30
FIRST_INPUT = 3  # its descriptor: inputs are opened in turn, before any is read


def wrong(words, fault, right, got, calls):
    """What the answer should have been, or None where it is right."""
    front = right.output.startswith(got.output)
    if fault.call == "grow":
        begun = got.output != b"" and not (front and right.status == 0 and words[0] in PIECES)
        wanted = Answer(4, b"" if begun else got.output, b"cadf: out of memory\n")
        return None if got in (right, wanted) else wanted
    if fault.way == "short":
        return None if got == right else right
    if fault.call == "tell":
        is_right = untold(right.status, got.status) == right.status and got.output == right.output
        return None if is_right and right.error.startswith(got.error) else right
    if fault.call == "read":
        wanted = Answer(3, b"", b"cadf: input %d: read fault\n" % (calls.failed - FIRST_INPUT + 1 if calls else 0))
        trailing = right.error.endswith(b": trailing bytes\n")
        return None if got == wanted or trailing and got == right else wanted
    wanted = Answer(3, got.output if front else right.output, b"cadf: write fault\n")
    return None if got == wanted or fault.way == "interrupted" and got == right else wanted


def places(count, sample):
    """The places of a fault, of so many; the last is behind them all."""
    step = max(1, count // sample) if sample else 1
    return [*range(1, count + 1, step), count + 1]


@pytest.fixture(scope="module")
def machine(cadf, tmp_path_factory):
    """A machine whose folder has the inputs."""
    folder = tmp_path_factory.mktemp("faults")
    prepare(cadf, folder)
    return Machine(str(folder))


@pytest.mark.parametrize("line, sample", [(line, sample) for kind, sample in (("large", SAMPLE), ("small", None), ("worked", None))
                                          for line in lines(kind, COMMANDS)])
def test_faults(cadf, machine, line, sample):
    """Each fault at each place, or at a sample of them, and at one more place, where it changes nothing."""
    words = line.split()
    right, calls = machine.run(cadf, words)
    assert calls and calls.grow and right == ended(cadf, words, cwd=machine.folder), "preloaded: %s, %s" % (right, calls)

    def fault_found(fault):
        got, met = machine.run(cadf, words, fault)
        if fault.place > getattr(calls, fault.call):
            return got != right and (fault, got)
        wanted = wrong(words, fault, right, got, met)
        return wanted and (fault, wanted, got)

    faults = [fault._replace(place=place) for fault in FAULTS for place in places(getattr(calls, fault.call), sample)]
    assert list(filter(None, side_by_side(fault_found, faults)))[:SHOWN] == []


def tolerated(machine, binary, turns):
    """How many growths a rehearsal of these turns makes, and how many of them can be refused with the same answer."""
    put(machine.folder, "turns.script", "\n".join(turns).encode())
    words = ["rehearse", "g", "3", "turns.script"]
    right, calls = machine.run(binary, words)
    refused = side_by_side(lambda place: machine.run(binary, words, Fault("grow", "refused", place))[0], range(1, calls.grow + 1))
    return calls.grow, sum(answer == right for answer in refused)


@pytest.mark.parametrize("number", [6, 10])
def test_deliveries(cadf, machine, number):
    """A join whose growth is refused is tried once more, wherever in it that was.

    The delivery of an inventory stands beside it, in a script of the same length: it joins nothing.
    """
    turns = script().splitlines()
    grown, alike = tolerated(machine, cadf, turns[:number])
    plain, plainly_alike = tolerated(machine, cadf, turns[:number - 1] + ["deliver 1" + turns[number - 1][-2:]])
    assert grown - plain == alike - plainly_alike > 0
