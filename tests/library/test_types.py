"""What a checker of types says of the package for Python, and of programs that use it."""
import os

import pytest

from tests import TOP
from tests.machine import said

PACKAGE = os.path.join(TOP, "bindings", "python")
RIGHT = """import pathlib
import cadf
both: bytes = cadf.join([b"{}", "{}"], log="g")
try:
    atoms: int = cadf.check(both).atoms
except cadf.Refused as refused:
    number = (refused.input or 0) + refused.status
site = cadf.Site(pathlib.Path("north"))
is_whole: bool = site.take(both, pathlib.Path("south.cadf"), by="day")
for event in site.events("2024-03", initiator=["a", "b"], failed=True):
    count: int = event.contradicted + len(event["id"])
site.rule([(conflict, 1) for conflict in site.conflicts()], by="ann")
size: int = len(site.seal()) + sum(map(len, site.events().bodies()))
"""
WRONG = ("cadf.join(1)", "cadf.join([b''], log=1)", "text: str = cadf.show(b'')", "cadf.check(b'').missing", "cadf.CadfError('x').input + 1",
         "cadf.Site(1)", "cadf.Site('s').take(1)", "cadf.Site('s').events(1)", "cadf.Site('s').events(initiator=1)", "cadf.Site('s').rule([('k', 1)])")

pytestmark = pytest.mark.needs("mypy")


def judged(tmp_path, *words):
    """The status of mypy, and what it says."""
    return said("mypy", "--strict", "--python-version", "3.8", "--cache-dir", tmp_path / "cache", *words, cwd=tmp_path,
                env={**os.environ, "MYPYPATH": PACKAGE})


def test_the_package_has_the_types_that_it_says(tmp_path):
    assert judged(tmp_path, os.path.join(PACKAGE, "cadf"))[0] == 0


def test_programs_are_judged_by_them(tmp_path):
    path = tmp_path / "program.py"
    path.write_text(RIGHT)
    assert judged(tmp_path, str(path))[0] == 0
    path.write_text("import cadf\n" + "".join(line + "\n" for line in WRONG))
    told = judged(tmp_path, str(path))[1]
    errors = [line.split(":")[1] for line in told.splitlines() if ": error: " in line]
    assert errors == [str(number) for number in range(2, 2 + len(WRONG))], told
