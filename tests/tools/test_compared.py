"""cadf-agree, cadf-which and cadf-conflicts on what misleads them, and on what each of them has to name."""
import itertools
import json
import os
import resource
import shutil
import subprocess
import types

import pytest

from tests import TOP
from tests.reference import sketch_files
from tests.tools.odd_logs import EVENT
from tests.tools.programs import loaded, tool

VECTORS = os.path.join(TOP, "examples", "vectors")


@pytest.fixture(scope="module")
def agree():
    return loaded(tool("cadf-agree"))


def peeled(agree, data, cells):
    """What cadf-agree finds in a sketch's cells, in which there is nothing of its own."""
    sketch = agree.Sketch(types.SimpleNamespace(first=lambda _: data))
    sketch.cells = list(cells)
    return {line.rstrip(b"\n") for line in sketch.apart([0] * len(cells))}


@pytest.mark.timeout(60)
@pytest.mark.parametrize("name", ["misleading", "few", "as-asked", "one", "south", "nothing"])
def test_peeled(agree, name):
    """It finds in a sketch what the second implementation finds, also where cells show what isn't there, or one that isn't theirs."""
    with open(os.path.join(VECTORS, name + ".sketch"), "rb") as file:
        data = file.read()
    _, sketch = sketch_files.read_sketch(data)
    assert peeled(agree, data, sketch.cells) == sketch_files.peeled(list(sketch.cells), sketch.layout)
    hypothesis = pytest.importorskip("hypothesis", reason="hypothesis isn't there (Debian: python3-hypothesis)")
    choices = hypothesis.strategies

    @hypothesis.settings(max_examples=50)
    @hypothesis.given(choices.lists(choices.tuples(choices.integers(0, len(sketch.cells) - 1), choices.integers(0, 2 ** 256 - 1)), min_size=1, max_size=9))
    def is_alike(changes):
        cells = list(sketch.cells)
        for place, digest in changes:
            cells[place] ^= digest << 64 | sketch_files.check_of(digest)
        assert peeled(agree, data, cells) == sketch_files.peeled(list(cells), sketch.layout)

    is_alike()


def test_worst_status(cadf, tmp_path):
    """The status is that of the worst of all files, wherever it stands among them."""
    good, refused, absent = tmp_path / "good.json", tmp_path / "refused", tmp_path / "absent"
    good.write_text(json.dumps({"id": "g", "events": []}))
    refused.write_text("{")
    for order in itertools.permutations([good, refused, absent]):
        done = subprocess.run([tool("cadf-which"), *order], env={**os.environ, "CADF": cadf}, stderr=subprocess.PIPE)
        assert (done.returncode, len(done.stderr.splitlines())) == (3, 2), order


def test_every_kind(cadf, tmp_path):
    """A key of each kind that has two values is listed as open."""
    for number in (1, 2):
        log = {"id": "g", "events": [dict(EVENT, id="e", n=number)], "resources": [{"id": "r", "n": number}],
               "geolocations": [{"id": "l", "n": number}], "metrics": [{"metricId": "m", "n": number}], "p": number}
        (tmp_path / ("%d.json" % number)).write_text(json.dumps(log))
    both = tmp_path / "both"
    with open(both, "wb") as file:
        subprocess.run([cadf, "join", tmp_path / "1.json", tmp_path / "2.json"], stdout=file, check=True)
    done = subprocess.run([tool("cadf-conflicts"), both], env={**os.environ, "CADF": cadf}, stdout=subprocess.PIPE, stderr=subprocess.PIPE)
    listed = [tuple(line.split()[:3]) for line in done.stdout.decode().splitlines() if not line.startswith("#")]
    keys = {"E": "e", "R": "r", "G": "l", "M": "m", "P": "p"}
    assert done.returncode == 5 and sorted(listed) == sorted((kind, '"%s"' % key, place) for kind, key in keys.items() for place in "12")


@pytest.mark.parametrize("name, command", [("cadf-conflicts", "join"), ("cadf-events", "show"), ("cadf-report", "show")])
def test_a_command_that_is_ended(cadf, tmp_path, name, command):
    """Where the command is ended amid a line, as it may be for lack of memory, this is told."""
    ending = tmp_path / "ending"
    ending.write_text('#!/bin/sh\n[ "$1" = %s ] || exec "%s" "$@"\n"%s" "$@" | head -c 300\nkill -KILL $$\n' % (command, cadf, cadf))
    ending.chmod(0o755)
    site, environment = os.path.join(VECTORS, "both.cadf"), {**os.environ, "CADF": ending}
    done = subprocess.run([tool(name), site], env=environment, stdout=subprocess.PIPE, stderr=subprocess.PIPE)
    assert (done.returncode, done.stderr.decode()) == (3, "%s: %s: ended by signal 9\n" % (name, ending))


def test_a_name_that_standard_output_cannot_encode(cadf, tmp_path):
    """A list on an output that takes ASCII alone has the other characters of a file's name escaped."""
    site, name = os.path.join(VECTORS, "both.cadf"), tmp_path / "\u00e9.cadf"
    shutil.copy(site, name)
    environment = {**os.environ, "CADF": cadf, "PYTHONIOENCODING": "ascii"}
    done = subprocess.run([tool("cadf-conflicts"), site, name], env=environment, stdout=subprocess.PIPE, stderr=subprocess.PIPE)
    assert done.returncode == 5 and b"\\xe9.cadf\n" in done.stdout, done


def test_long_lines_of_choices(cadf, tmp_path):
    """A comment may be long, and a line without an end takes no memory."""
    def ruled(choices):
        path = tmp_path / "choices"
        path.write_bytes(choices)
        os.truncate(path, max(len(choices), most))
        return subprocess.run([tool("cadf-conflicts"), "--rule", path, "--as", "ann", "--at", "2024-03-01", open_site], env={**os.environ, "CADF": cadf}, stdout=subprocess.PIPE,
                              stderr=subprocess.PIPE, preexec_fn=lambda: resource.setrlimit(resource.RLIMIT_AS, (2 ** 28, 2 ** 28)))

    open_site, most = os.path.join(VECTORS, "both.cadf"), 0
    listed = subprocess.run([tool("cadf-conflicts"), open_site], env={**os.environ, "CADF": cadf}, stdout=subprocess.PIPE).stdout
    choice = next(line for line in listed.splitlines(True) if not line.startswith(b"#"))
    plain = ruled(choice)
    assert plain.returncode == 0 and choice.split()[3] in plain.stdout
    assert ruled(b"#" + b"x" * 10 ** 5 + b"\n" + choice).stdout == plain.stdout
    most = 2 ** 28
    endless = ruled(choice)
    assert (endless.returncode, endless.stdout) == (1, b"") and endless.stderr.endswith(b"choices: line 2: not LETTER KEY PLACE DIGEST and a line feed\n")
