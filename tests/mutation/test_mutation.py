"""Mutation by machine: which mutants a text has, which tests run a line, what counts as seen, and what is said of it all."""
import importlib
import os
import shutil
import subprocess
import sys

import pytest

from tests import TOP
from tests.mutation import operators, texts

program = importlib.import_module("tests.mutation.__main__")
TEXT = b'''"""What it is."""
import os


def taken(names, most=3):
    """Of names."""
    if len(names) >= most and names:
        raise ValueError("many")
    for name in names:
        os.open(name, os.O_RDONLY | os.O_CLOEXEC, 0o600)
        names.count(name, most)
    try:
        return (names
                + [])
    except (OSError, EOFError):
        return most, names
'''
WANTED = [
    "constant: 3 -> 4", "branches: len(names) >= most and names -> (not (len(names) >= most and names))", "comparison: len(names) >= most -> (len(names) > most)",
    "condition: len(names) >= most and names -> (len(names) >= most or names)", 'exception: raise ValueError("many") -> pass', 'constant: "many" -> \'manyX\'',
    "statement: os.open(name, os.O_RDONLY | os.O_CLOEXEC, 0o600) -> pass", "flag: os.O_RDONLY | os.O_CLOEXEC -> (os.O_RDONLY)", "mode: 0o600 -> 0o666",
    "arguments: os.open(name, os.O_RDONLY | os.O_CLOEXEC, 0o600) -> (os.open(os.O_RDONLY | os.O_CLOEXEC, name, 384))",
    "statement: names.count(name, most) -> pass", "arguments: names.count(name, most) -> (names.count(most, name))",
    "statement: return (names + []) -> return None", "arithmetic: names + [] -> (names - [] )", "handler: (OSError, EOFError) -> ()",
    "elements: (OSError, EOFError) -> ((EOFError,))", "elements: (OSError, EOFError) -> ((EOFError, OSError))", "statement: return most, names -> return None",
    "elements: most, names -> ((names,))", "elements: most, names -> ((names, most))",
]
# Other texts, with their mutants.
SCRIPT = b"""// most && least
if (most > 5 && !least) put(most, least, "a") // 5
  call(true);
"""
UNIT = b"""# Of 5.
[Unit]
NoNew=yes

Most=5
"""
OTHERS = [(texts.of_script, SCRIPT, [
    "comparison: > -> >=", "condition: && -> ||", "condition: ! -> ", "branches: (most > 5 && !least) -> (!(most > 5 && !least))", "constant: 5 -> 6",
    "arguments: most, least -> least, most", 'constant: "a" -> "aX"', "statement: call(true); -> ", "constant: true -> false"]),
    (texts.of_lines, UNIT, ["line: NoNew=yes -> ", "constant: yes -> no", "constant: yes -> yesX", "line: Most=5 -> ", "constant: 5 -> 6", "constant: 5 -> 5X"])]


def test_mutants_of_a_text():
    found = operators.mutants("tools/x", TEXT)
    assert sorted(mutant.name().partition(": taken: ")[2] for mutant in found) == sorted(WANTED)
    assert {mutant.name().partition(": ")[0] for mutant in found} == {"tools/x"}


@pytest.mark.parametrize("of_text, text, wanted", OTHERS)
def test_mutants_of_other_texts(of_text, text, wanted):
    """None is in a comment."""
    assert sorted(mutant.name().split(": ", 2)[2] for mutant in of_text("x", text)) == sorted(wanted)


@pytest.mark.parametrize("name", ["tools/cadf-take", "share/cadf/report/filters.js", "examples/systemd/cadf-sync@.service"])
def test_mutants_of_a_program(name):
    """In each one place differs, and every line has its number; one of Python is a program."""
    text, is_python = program.content(name), name in program.traced()
    found = program.mutants_of({name: program.programs()[name]})
    assert len(found) > 50
    for mutant in found:
        wrong = mutant.applied(text)
        assert wrong != text and wrong.count(b"\n") == text.count(b"\n") and is_python <= operators.is_right(wrong), mutant
        assert wrong.split(b"\n")[:mutant.line - 1] == text.split(b"\n")[:mutant.line - 1]


def test_survivors():
    """Each line of the list names a mutant that there is, once; and each area has texts."""
    names = [line for line in program.text_of(program.SURVIVORS).splitlines() if line and not line.startswith("#")]
    there = {mutant.name() for mutant in program.mutants_of(program.programs())}
    assert len(program.survivors()) == len(names) and sorted(set(program.survivors()) - there) == []
    assert set(program.programs().values()) == set(program.AREAS)


# ---- Which tests run which lines

TRACED = """import subprocess, sys
def called(word):
    if word == "child":
        subprocess.run([sys.executable, sys.argv[0], "end"], check=True)
    else:
        import os
        os._exit(0)
called(sys.argv[1])
"""


def test_traced_lines(tmp_path, monkeypatch):
    """A program and those that it starts write down each line that they run, whatever ends them, for the test that runs them."""
    for folder in ("share/cadf", "lines"):
        (tmp_path / folder).mkdir(parents=True)
    path = tmp_path / "share" / "cadf" / "cadf_metrics.py"  # a copy of a program, by its name
    path.write_text(TRACED)
    environment = {**os.environ, "PYTHONPATH": os.path.join(TOP, "tests", "mutation", "tracing"), "TRACED_INTO": str(tmp_path / "lines"),
                   "TRACED_NAMES": ":".join(program.traced()), "PYTEST_CURRENT_TEST": "tests/x.py::test_a[b] c@group (call)"}
    subprocess.run([sys.executable, str(path), "child"], check=True, env=environment, cwd=tmp_path)
    covered = program.Covered()
    covered.add(str(tmp_path / "lines"))
    lines = {int(line): tests for line, tests in covered.tests["share/cadf/cadf_metrics.py"].items()}
    assert set(lines) - {0} == {1, 2, 3, 4, 6, 7, 8} and {test for tests in lines.values() for test in tests} == {"tests/x.py::test_a[b] c"}
    assert covered.is_of("share/cadf/cadf_metrics.py") and covered.files("share/cadf/cadf_metrics.py") == ["tests/x.py"]
    monkeypatch.setattr(program, "content", lambda _: b"another")
    assert not covered.is_of("share/cadf/cadf_metrics.py")


# ---- What counts as seen

TESTS = """import subprocess, sys, time
import pytest
def ended(word):
    return subprocess.run([sys.executable, "tools/cadf-x", word], stdout=subprocess.PIPE, check=False).stdout
def test_2():
    assert ended("2") == b"2\\n"
def test_3():
    assert ended("3")
def test_4():
    int(ended("4"))
def test_5():
    assert ended("5") == b"2\\n"
def test_6():
    with pytest.raises(ValueError):
        int(ended("6") == b"6\\n" and "x")
@pytest.mark.timeout(3)
def test_7():
    time.sleep(9 * (ended("7") != b"7\\n"))
"""
PROGRAM = b"""import sys
n = {
"2": 2,
"3": 3,
"4": 4,
"5": 5,
"6": 6,
"7": 7,
"8": 8}
n["4"] = "" if n["4"] == 5 else 4
print(n[sys.argv[1]])
"""


@pytest.fixture
def trees(tmp_path, monkeypatch):
    """A tree with a program and tests of it, and what tries mutants there."""
    tree = tmp_path / "tree"
    for name in ("tools", "tests"):
        (tree / name).mkdir(parents=True)
    for name in ("build", "tests/mutation"):
        shutil.copytree(os.path.join(TOP, name), tree / name, ignore=shutil.ignore_patterns("__pycache__"))
    shutil.copy2(os.path.join(TOP, "tests", "__init__.py"), tree / "tests")
    (tree / "tests" / "test_x.py").write_text(TESTS)
    (tree / "pytest.ini").write_text("[pytest]\n")
    (tree / "tools" / "cadf-x").write_bytes(PROGRAM)
    monkeypatch.setattr(program.trees, "copied_tree", lambda folder, _: str(tree))
    monkeypatch.setattr(program.trees, "PYTHON", sys.executable)
    covered = program.Covered()
    covered.tests = {"tools/cadf-x": {str(line): ["tests/test_x.py::test_%d" % (line - 1)] for line in range(3, 9)}}
    return program.Tried(str(tmp_path), 1, covered)


@pytest.mark.parametrize("line, verdict, said", [
    (3, "killed", "tests/test_x.py::test_2"), (4, "survived", "1 tests run it"), (5, "left out", "failed tests/test_x.py::test_4: ValueError"),
    (6, "left out", "tests/test_x.py::test_5 fails without it"), (7, "killed", "tests/test_x.py::test_6"),
    (8, "left out", "failed tests/test_x.py::test_7: Failed"), (9, "uncovered", "")])
def test_verdict(trees, line, verdict, said):
    """A mutant is seen by an assertion alone, or an expected exception that doesn't come, of a test that passes without it: neither by a
    limit of time nor by any other exception. Afterwards the tree is as it was."""
    mutant = [mutant for mutant in operators.mutants("tools/cadf-x", PROGRAM) if mutant.line == line and mutant.old.isdigit()][0]
    assert trees.verdict(mutant) == (verdict, said)
    top = trees.trees.get()
    with open(os.path.join(top, "tools", "cadf-x"), "rb") as file:
        assert file.read() == PROGRAM


# ---- Which are tried, and what is said of them

@pytest.mark.needs("git")
def test_changed_lines(tmp_path, monkeypatch):
    """Those that differ from a commit, of programs alone."""
    (tmp_path / "tools").mkdir()
    for text in (b"a\nb\nc\nd\n", b"a\nB\nc\nd\ne\nf\n"):
        for name in ("tools/cadf-take", "README.md"):
            (tmp_path / name).write_bytes(text)
        for words in (["init", "-q"], ["add", "."], ["-c", "user.name=x", "-c", "user.email=x@y", "commit", "-qm", "x"]):
            subprocess.run(["git", *words], cwd=tmp_path, check=True)
    monkeypatch.setattr(program, "programs", lambda: {"tools/cadf-take": "tools"})
    monkeypatch.setattr(program, "TOP", str(tmp_path))
    assert dict(program.changed_lines("HEAD~1")) == {"tools/cadf-take": {2, 5, 6}} and not program.changed_lines("HEAD")


def test_status(monkeypatch, capsys):
    """A mutant that no test sees is a failure, unless the list has it; one on the list that is seen has to go from there."""
    monkeypatch.setattr(program, "survivors", lambda: {mutants[1].name(): "", mutants[0].name(): ""})
    mutants = [operators.Mutant("a", "", "constant", line, line, line + 1, str(line), "9") for line in range(5)]
    verdicts = dict(zip(mutants, (("killed", "t"), ("survived", ""), ("left out", ""), ("killed", "t"))))
    assert program.judged(verdicts, {"a": "tools"}) == 0
    said = capsys.readouterr().out
    assert "tools     2 of 3 killed, 21 to 94 %; 1 survived, 0 uncovered, 1 left out" in said and "take it off %s, t sees it: a: " % program.SURVIVORS in said
    for verdict in ("survived", "uncovered"):
        assert program.judged({**verdicts, mutants[4]: (verdict, "")}, {"a": "tools"}) == 1
        assert "mutation: no test sees it: %s\n" % mutants[4].name() in capsys.readouterr().out
