"""In which groups cadf-spool takes files, and what its status says of one that is taken in part."""
import json
import os
import subprocess
import types

import pytest

from tests.tools.odd_logs import EVENT
from tests.tools.programs import loaded, tool


@pytest.fixture(scope="module")
def program():
    return loaded(tool("cadf-spool"))


def groups(program, folder, sizes):
    """The groups in which files of these sizes are taken."""
    names = ["%04d" % number for number in range(len(sizes))]
    for name, size in zip(names, sizes):
        with open(folder / name, "wb") as file:
            file.truncate(size)
    taken = []
    run = types.SimpleNamespace(prepared=lambda _, name: [name], take=lambda group: taken.append(len(group)), reached=lambda _: None, may_be_dear=lambda _: False,
                                left=None, say_left=lambda *_: None)
    with program.open_descriptor(os.open(folder, os.O_RDONLY)) as taking:
        run.spool = types.SimpleNamespace(user=lambda _: 0, taking=taking)
        run.turns = lambda: names
        program.Run.take_all(run)
    return taken


def test_groups(program, tmp_path):
    """A call of cadf-take has at most 200 files, and at most 2^28 bytes unless one file alone has more."""
    assert groups(program, tmp_path, [1] * 450) == [200, 200, 50]
    assert groups(program, tmp_path, [2 ** 27] * 5) == [2, 2, 1]
    assert groups(program, tmp_path, [2 ** 29, 1, 2 ** 28]) == [1, 1, 1]


def test_in_part(cadf, tmp_path):
    """A file of which lines were set aside was taken: they wait for a person, and the run has not failed."""
    spool = tmp_path / "spool"
    spool.mkdir()
    (spool / "lines.jsonl").write_text("".join(json.dumps(dict(EVENT, id=key)) + "\n" for key in ("e1", "")))
    done = subprocess.run([tool("cadf-spool"), "--unchanged", "0", "--log", "g", tmp_path / "site.cadf", spool],
                          env={**os.environ, "CADF": cadf}, stderr=subprocess.PIPE)
    assert done.returncode == 0 and b"taken 1, set aside 1, waiting 0" in done.stderr
    assert os.listdir(spool / "taken") == ["lines.jsonl"] and sorted(os.listdir(spool / "set-aside")) == [".ledgers", ".senders", "lines.jsonl"]
