"""What a tool holds at once grows no faster than its input: memory, descriptors, children and temporary bytes, at ten times as much.

The command runs beside, and its memory is another promise. Tools have as many children as processors. Some give many windows to one
call, as the limit of open files allows: it is so low here that they have to take turns.
"""
import os
import resource
import shutil
import subprocess
import sys

import pytest

from tests import TOP
from tests.reference.replica_files import file_of
from tests.tools.test_costs import CALLS, facts, honest

pytestmark = pytest.mark.xdist_group("resources")
WATCHING = os.path.join(TOP, "tests", "tools", "watching")
TIMES, DAYS, EVENTS = 10, 3, 20
PROCESSORS, OPEN = len(os.sched_getaffinity(0)), 96  # files that may be open
BYTES = 12  # of memory, and of temporary files, that a byte more of the input may need
MORE = {"memory": 4096, "descriptors": 4 + 5 * min(PROCESSORS, 4), "children": PROCESSORS, "temporary": 64}  # KB, and numbers, for any input


def run(path, cadf, tool, *words, **more):
    environment = {**os.environ, "CADF": cadf, "TMPDIR": str(path / "tmp"), **more}
    done = subprocess.run([sys.executable, os.path.join(TOP, "tools", tool), *words], cwd=path, env=environment, check=False, stdout=subprocess.DEVNULL,
                          preexec_fn=lambda: resource.setrlimit(resource.RLIMIT_NOFILE, (OPEN, OPEN)))
    assert done.returncode in (0, 5), (tool, done.returncode)


@pytest.fixture(scope="module")
def places(tmp_path_factory, cadf):
    """Two sites that differ in an event, small ones and large ones, with the kilobytes of one."""
    found = []
    for times in (1, TIMES):
        path = tmp_path_factory.mktemp("resources")
        (path / "tmp").mkdir()
        for name, events in ("honest.cadf", [honest(day, number) for day in range(1, DAYS * times + 1) for number in range(EVENTS)]), ("more.cadf", [honest(1, 59)]):
            (path / name).write_bytes(file_of("g", facts(*events)))
        run(path, cadf, "cadf-take", "--by=day", "site/", "honest.cadf")
        shutil.copytree(path / "site", path / "other")
        run(path, cadf, "cadf-take", "other/", "more.cadf")
        found.append((path, sum(each.stat().st_size for each in (path / "site").iterdir()) // 1024))
    return found


@pytest.mark.parametrize("name", CALLS)
def test_ten_times_the_input(tmp_path, cadf, places, name):
    tool, *words = CALLS[name]
    peaks, sizes = [], [size for _, size in places]
    for at, (place, _) in enumerate(places):
        path = tmp_path / str(at)
        shutil.copytree(place, path)
        run(path, cadf, tool, *words, PYTHONPATH=WATCHING, WATCHED=tool, WATCHED_INTO=str(path / "peaks"))
        peaks.append(dict(zip(MORE, map(int, (path / "peaks").read_text().split()))))
    most = {each: peaks[0][each] + more + BYTES * (sizes[1] - sizes[0]) * (each in ("memory", "temporary")) for each, more in MORE.items()}
    assert {each: (peaks[0][each], peaks[1][each]) for each in MORE if peaks[1][each] > most[each]} == {}
