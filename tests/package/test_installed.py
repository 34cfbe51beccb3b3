"""The command, its pages, tools and completions under another folder, by install/install; and what is left when they are removed.

tests/library/test_bindings.py does the same with the library for C.
"""
import fcntl
import os
import re
import shutil
import subprocess

import pytest

from install import contents
from tests import TOP, text_of, tracked
from tests.command.commands import COMMANDS
from tests.command.vectors import read
from tests.machine import ended, said
from tests.package import completions
from tests.tools.faulty import calls_of
from tests.tools.programs import loaded

INSTALL = os.path.join(TOP, "install", "install")
TOOLS = sorted(name for name in os.listdir(os.path.join(TOP, "tools")) if os.path.isfile(os.path.join(TOP, "tools", name)))
GUIDES = ("TUTORIAL", "GUIDE", "ERRORS", "GLOSSARY", "OPENSTACK", "REPORT", "OPERATING", "SECURITY", "LIBRARY", "PERFORMANCE", "SYNC", "SEALS")
LONG_OPTION = re.compile(r"(?<![\w-])--[a-z][a-z-]*")
# What is installed beside the tools, the parts of share/, the pages of docs/ and the examples that have a folder.
PLACES = """
bin/cadf share/cadf/version
share/doc/cadf/installed share/doc/cadf/README.md share/doc/cadf/CHANGELOG.md share/doc/cadf/CONTRIBUTING.md share/doc/cadf/bench/RESULTS.md
share/doc/cadf/sbom.spdx.json
"""
UNITS = {".service": "lib/systemd/system/%s.service", ".timer": "lib/systemd/system/%s.timer",
         ".sysusers": "lib/sysusers.d/%s.conf", ".tmpfiles": "lib/tmpfiles.d/%s.conf"}


def install(*words, **options):
    """What a run of install/install says, which has to end well."""
    status, told = said(INSTALL, *words, **options)
    assert status == 0, told
    return told


@pytest.fixture(scope="module")
def prefix(cadf, tmp_path_factory):
    """A folder under which all is installed; the gate has built the command, and leaves no record of it."""
    folder = tmp_path_factory.mktemp("installed")
    install("--any", folder)
    return folder


@pytest.fixture
def run(prefix):
    """What an installed program answers, where the installed ones are found first."""
    environment = {**os.environ, "PATH": "%s%s%s" % (prefix / "bin", os.pathsep, os.environ["PATH"])}
    environment.pop("CADF", None)
    return lambda program, *words, **options: ended(str(prefix / "bin" / program), words, env=environment, **options)


def page_of(prefix, program="cadf"):
    """The installed manual page of a program, with its dashes as they are typed."""
    return (prefix / "share/man/man1" / (program + ".1")).read_text(encoding="utf-8").replace("\\-", "-")


@pytest.mark.needs("groff")
@pytest.mark.parametrize("program", ["cadf", *TOOLS])
def test_manual_has_no_warning(prefix, program):
    done = ended("groff", ["-man", "-Tascii", "-ww", "-z", str(prefix / "share/man/man1" / (program + ".1"))])
    assert (done.status, done.error) == (0, b"")


def test_version(run, prefix):
    """The page has the version of the command."""
    told = run("cadf", "--version").output.decode().strip()
    assert re.match(r'\.TH CADF 1 "[\d-]+" "(.*?)"', page_of(prefix)).group(1) == told


def test_commands(run, prefix):
    """Each command that the help lists has its item in the page, its options in the synopsis, and its word in the completions."""
    manual, told = page_of(prefix), run("cadf", "--help").output.decode()
    named = re.findall(r"(?m)^  ([a-z-]+) ", told.split("Commands:")[1].split("\n\n")[0])
    assert sorted(named) == sorted(COMMANDS)
    synopses = dict(re.findall(r"(?m)^\.B cadf ([a-z-]+)\n((?:(?!\.br|\.SH).*\n)*)", manual.split(".SH DESCRIPTION")[0]))
    for name in named:
        assert ".TP\n.B %s\n" % name in manual
        options = set(LONG_OPTION.findall(run("cadf", "help", *([name] if name != "help" else [])).output.decode()))
        assert options - {"--help", "--version"} == set(LONG_OPTION.findall(synopses[name])), name
        for place in ("share/zsh/site-functions/_cadf", "share/bash-completion/completions/cadf"):
            assert re.search(r"(?<![\w-])%s(?![\w-])" % name, (prefix / place).read_text(encoding="utf-8")), place


@pytest.mark.parametrize("tool", TOOLS)
def test_tool(run, prefix, tool):
    """It runs, and its page has an item for each of its options."""
    done, manual = run(tool, "--help"), page_of(prefix, tool)
    assert done.status == 0
    assert set(re.findall(r"(?m)^  (?:-\w, )?(--[a-z-]+)", done.output.decode())) == set(re.findall(r"\.TP\n\.B (?:-\w, )?(--[a-z-]+)", manual))
    assert re.match(r'\.TH %s 1 "[\d-]+" "cadf [\d.]+" "User Commands"\n\.SH NAME\n%s - [a-z]' % (tool.upper(), tool), manual)


def test_links(prefix):
    """What an installed page links to is there beside it."""
    dead = [(path.name, link) for path in (prefix / "share/doc/cadf").rglob("*.md")
            for link in re.findall(r"\]\(([^):#]+)[)#]", path.read_text(encoding="utf-8")) if not (path.parent / link).exists()]
    assert dead == []


@pytest.mark.parametrize("name", GUIDES)
def test_guide(prefix, name):
    """The examples that a guide names are there beside it."""
    doc = prefix / "share" / "doc" / "cadf"
    text = (doc / "docs" / (name + ".md")).read_text(encoding="utf-8")
    for example in re.findall(r"(?:\$TOP\"?/|`(?=examples/))([A-Za-z0-9./-]*)", text):
        assert (doc / example).exists(), example


def test_examples_import_what_is_there(prefix):
    """None imports what tests/ has."""
    for path in (prefix / "share/doc/cadf/examples").rglob("*.py"):
        assert not re.search(r"(?m)^ *(?:from|import) tests\b", path.read_text(encoding="utf-8")), path


@pytest.mark.parametrize("name, check", [
    ("real-producers", lambda example, cadf, line: example.checked(cadf, "keystonemiddleware", {"event": [line]}, 1)),
    ("real-keystone", lambda example, cadf, line: (example.LINES.append(line), example.check(cadf)))])
def test_examples_find_the_tool(prefix, monkeypatch, name, check):
    """What drives real producers makes a log of their lines by the installed tools."""
    monkeypatch.setenv("PATH", "%s%s%s" % (prefix / "bin", os.pathsep, os.environ["PATH"]))
    line = text_of("examples", "real", "keystonemiddleware.jsonl").splitlines(True)[0]
    check(loaded(str(prefix / "share/doc/cadf/examples" / (name + ".py"))), str(prefix / "bin/cadf"), line)


@pytest.mark.parametrize("name, words, lacks", [
    ("real-producers", ["/absent/cadf"], "/absent/cadf"), ("real-producers", ["/bin/sh"], "cadf-from-openstack"),
    ("real-keystone", ["/absent/cadf"], "/absent/cadf"), ("real-keystone", ["/bin/sh"], "cadf-from-openstack"),
    ("real-pycadf", ["/absent/cadf"], "/absent/cadf")])
def test_examples_name_what_they_lack(tmp_path, monkeypatch, name, words, lacks):
    """What drives real producers says which program isn't there, before it drives any."""
    (tmp_path / "examples").mkdir()
    monkeypatch.setenv("PATH", str(tmp_path))
    example = loaded(shutil.copy(os.path.join(TOP, "examples", name + ".py"), tmp_path / "examples"))
    monkeypatch.setattr("sys.argv", [name, *words])
    with pytest.raises(SystemExit, match="^%s: %s: no such program: " % (name, lacks)):
        example.check(*words, []) if name == "real-pycadf" else example.main()


def test_take_and_report(run, prefix, tmp_path):
    site = tmp_path / "site.cadf"
    assert run("cadf-take", str(site), str(prefix / "share/doc/cadf/examples/vectors/north.json")).status == 0
    assert site.read_bytes() == read("north.cadf")
    beside = ended(os.path.join(TOP, "tools", "cadf-report"), [str(site)], env={**os.environ, "CADF": str(prefix / "bin" / "cadf")})
    assert beside.status == 0 and run("cadf-report", str(site)) == beside


@pytest.mark.parametrize("shell", completions.SHELLS)
def test_completions(prefix, shell):
    """A shell into which command lines are typed completes them."""
    if shutil.which(shell) is None:
        pytest.skip("%s isn't there" % shell)
    assert completions.wrong_of(shell, str(prefix / completions.SHELLS[shell][1])) == []


def test_places(prefix):
    """What is installed, beside the library, is what is written here; all examples in files of their own are there."""
    found = {str(path.relative_to(prefix)) for path in prefix.rglob("*") if not path.is_dir()}
    doc = "share/doc/cadf/"
    pages = {doc + "docs/" + name for name in os.listdir(os.path.join(TOP, "docs"))}
    examples = {doc + "examples/%s/%s" % (folder, name) for folder in ("vectors", "real", "library")
                for name in os.listdir(os.path.join(TOP, "examples", folder))}
    units = {UNITS[kind] % name for name, kind in map(os.path.splitext, os.listdir(os.path.join(TOP, "examples", "systemd")))}
    programs = {"bin/" + tool for tool in TOOLS} | {"share/man/man1/%s.1" % tool for tool in TOOLS}
    parts = {name for name in tracked() if name.startswith("share/")}
    wanted = pages | examples | programs | units | parts | set(PLACES.split())
    assert sorted(wanted - found) == []
    assert sorted(place for place in found - wanted if not place.startswith((doc + "examples/", doc + "bindings/", "lib/", "include/"))) == []


def test_install_over(cadf, tmp_path):
    """Over an earlier one, files are put in place whole, and what is no longer installed goes."""
    install("--any", tmp_path)
    command, listed, old = tmp_path / "bin" / "cadf", tmp_path / "share/doc/cadf/installed", tmp_path / "bin" / "cadf-old"
    old.write_text("x")
    listed.write_text(listed.read_text() + "bin/cadf-old\n")
    with open(command, "rb") as running:
        install("--any", tmp_path)
        assert os.fstat(running.fileno()).st_nlink == 0 and not old.exists()


def test_uninstall(cadf, tmp_path):
    """What was installed is removed, and what somebody else put beside it stays."""
    install("--any", tmp_path)
    others = [tmp_path / place / "of-another" for place in ("", "bin", "share/doc/cadf", "share/doc/cadf/docs", "share/cadf/report")]
    for other in others:
        other.write_text("x")
    install("--uninstall", tmp_path)
    assert sorted(path for path in tmp_path.rglob("*") if not path.is_dir()) == sorted(others)


def test_uninstall_ended(cadf, tmp_path):
    """An --uninstall that ends before it is done leaves the list, and the next one removes the rest."""
    install("--any", tmp_path)
    (tmp_path / "bin" / "cadf").unlink()
    (tmp_path / "bin" / "cadf" / "of-another").mkdir(parents=True)
    assert ended(INSTALL, ["--uninstall", tmp_path]).status == 1
    shutil.rmtree(tmp_path / "bin" / "cadf")
    install("--uninstall", tmp_path)
    assert list(tmp_path.iterdir()) == []


def test_install_ended(cadf, tmp_path):
    """What an install that ends before it is done has made is removed like the rest, folders too."""
    in_the_way = tmp_path / "share" / "man" / "man1" / "cadf.1"
    in_the_way.mkdir(parents=True)
    done = ended(INSTALL, ["--any", tmp_path])
    assert (done.status, done.error.decode()) == (1, "install: %s: Is a directory\n" % in_the_way)
    in_the_way.rmdir()
    count = sum(path.is_file() for path in tmp_path.rglob("*"))
    assert install("--uninstall", tmp_path) == "removed %d files under %s\n" % (count, tmp_path)
    assert sorted(tmp_path.rglob("*")) == sorted(list(in_the_way.parents)[:3])


@pytest.mark.parametrize("place", [10, 100, None])
def test_install_killed(cadf, tmp_path, place):
    """What a run leaves that is killed at a file or at its list is used or taken away by the next one, and by an --uninstall: folders and `.new` files too."""
    def calls(name, *words):
        (tmp_path / name).mkdir()
        return calls_of("os.mkdir os.replace", INSTALL, ["--any", "."], *words, told="../calls", cwd=tmp_path / name)[1]

    place = place or len(calls("whole"))
    for name, runs in (("again", ["--any", "--uninstall"]), ("removed", ["--uninstall"])):
        calls(name, "killed", place)
        for word in runs:
            done = ended(INSTALL, [word, "."], cwd=tmp_path / name)
            assert (done.status, done.error) == (0, b"")
            assert [path for path in (tmp_path / name).rglob("*") if path.suffix == ".new" or word == "--uninstall"] == []


@pytest.mark.parametrize("word", ["--any", "--uninstall"])
def test_two_at_once(cadf, tmp_path, word):
    """While a run is at work under a prefix another one is refused there, and changes nothing: they would write into one another's files."""
    install("--any", tmp_path)
    before = sorted((path, path.stat().st_ino) for path in tmp_path.rglob("*"))
    folder = os.open(tmp_path, os.O_RDONLY)
    fcntl.flock(folder, fcntl.LOCK_EX)
    done = ended(INSTALL, [word, tmp_path])
    os.close(folder)
    assert (done.status, done.error.decode()) == (1, "install: another run is at work under %s: try again once it has ended; lslocks names it\n" % tmp_path)
    assert sorted((path, path.stat().st_ino) for path in tmp_path.rglob("*")) == before
    install(word, tmp_path)


def tree_with(folder, cadf):
    """Makes a copy of the tree, without its history and with nothing built but the command. Returns the folder."""
    for name in tracked():
        (folder / name).parent.mkdir(parents=True, exist_ok=True)
        shutil.copy2(os.path.join(TOP, name), folder / name)
    binary = folder / "crates" / "cadf" / "out" / "cadf"
    binary.parent.mkdir(exist_ok=True)
    shutil.copy2(cadf, binary)
    return folder


def test_no_history(cadf, tmp_path):
    """A tree without history is installed too; what an editor left beside a unit isn't put where systemd looks."""
    tree = tree_with(tmp_path / "tree", cadf)
    (tree / "examples" / "systemd" / "cadf-spool@.service~").write_text("")
    status, told = said(tree / "install" / "install", "--any", tmp_path / "prefix")
    assert status == 0, told
    assert [path for path in (tmp_path / "prefix/lib").rglob("*~*")] == [] and (tmp_path / "prefix/lib/systemd/system/cadf-spool@.service").exists()


@pytest.mark.parametrize("word", ["--any", "--uninstall"])
def test_bytes_of_names(cadf, tmp_path, word):
    """A prefix, or a place in the list, that is no text is told, and made or removed, by its bytes."""
    folder, strict = tmp_path / os.fsdecode(b"caf\xe9"), {**os.environ, "PYTHONIOENCODING": "utf-8:strict"}
    install("--any", folder)
    for name in ("bin/cadf-old", os.fsdecode(b"share/cadf/\xe9")):
        (folder / name).write_text("x")
        with open(folder / "share/doc/cadf/installed", "ab") as file:
            file.write(os.fsencode(name + "\n"))
    done = ended(INSTALL, [word, folder], env=strict)
    assert (done.status, done.error) == (0, b"") and os.fsencode(" under %s\n" % folder) in done.output
    assert [path for path in folder.rglob("*") if path.name in ("cadf-old", os.fsdecode(b"\xe9"))] == []


def test_nobody_reads(cadf, tmp_path):
    """Without a standard output it does the same."""
    done = ended(INSTALL, ["--any", tmp_path], preexec_fn=lambda: os.close(1))
    assert (done.status, done.error) == (0, b"") and (tmp_path / "bin" / "cadf").exists()


@pytest.mark.needs("prlimit")
def test_full(cadf, tmp_path):
    """Where a file can't be written whole, it is named. The library, which would be linked first, isn't there."""
    install_there, prefix = tree_with(tmp_path / "tree", cadf) / "install" / "install", tmp_path / "prefix"
    done = ended("prlimit", ["--fsize=%d" % 2 ** 16, install_there, "--any", prefix])
    place = os.path.join(prefix, "bin", "cadf.new")
    assert (done.status, done.error.decode()) == (1, "install: %s: File too large\n" % place)


@pytest.mark.parametrize("command, how", [("kill -XFSZ $$", "by signal 25, File size limit exceeded"), ("exit 3", "with 3")])
def test_failed_program(command, how):
    """Of a program that failed its name is told, and how it ended."""
    with pytest.raises(subprocess.CalledProcessError) as caught:
        subprocess.run(["sh", "-c", command], check=True)
    assert contents.told(caught.value) == "sh ended " + how


def test_no_prefix(tmp_path):
    """An empty PREFIX, as an unset variable makes it, isn't the current folder."""
    for words in ([""], ["--uninstall", ""]):
        done = ended(INSTALL, words, cwd=tmp_path)
        assert (done.status, done.output, done.error.decode().splitlines()[-1]) == (2, b"", "install: error: PREFIX is empty")
    assert list(tmp_path.iterdir()) == []


def test_uninstall_of_links(cadf, tmp_path):
    """A folder that somebody made a link stays, and all files go."""
    folder, elsewhere = tmp_path / "prefix", tmp_path / "elsewhere"
    install("--any", folder)
    (folder / "share" / "man").rename(elsewhere)
    (folder / "share" / "man").symlink_to(elsewhere)
    install("--uninstall", folder)
    assert [path for path in tmp_path.rglob("*") if path.is_file()] == [] and elsewhere.is_dir()


@pytest.mark.parametrize("mask", [0o077, 0o000])
def test_umask(cadf, tmp_path, mask):
    """Others may read all that is made, and write to none of it, whatever the mask; a prefix that was there stays as it was."""
    there = tmp_path / "there"
    there.mkdir(mode=0o700)
    for folder, first in ((tmp_path / "new" / "prefix", "new"), (there, "there/bin")):
        install("--any", folder, preexec_fn=lambda: os.umask(mask))
        made = [tmp_path / first, *(tmp_path / first).rglob("*")]
        assert {path.stat().st_mode & 0o777 for path in made} <= {0o755, 0o644}
    assert there.stat().st_mode & 0o777 == 0o700


def test_advice(cadf, tmp_path):
    """What install/install says is to be done can be pasted into a shell, also where the prefix has a blank."""
    line = re.search(r"(?m)^put it on the path: (.*)$", install("--any", tmp_path / "a $(b)'"))[1]
    assert ended("sh", ["-c", line + "; command -v cadf"]).output.decode() == "%s\n" % (tmp_path / "a $(b)'" / "bin" / "cadf")


def test_staged(cadf, prefix, tmp_path):
    """With DESTDIR all is done below that folder, as it is done under a prefix."""
    def run(*words):
        install(*words, "/opt/cadf", env={**os.environ, "DESTDIR": str(tmp_path)})

    def places(folder):
        return {str(path.relative_to(folder)) for path in folder.rglob("*") if not path.is_dir()}

    run("--any")
    assert places(tmp_path / "opt" / "cadf") == places(prefix) and not os.path.exists("/opt/cadf")
    run("--uninstall")
    assert places(tmp_path) == set()


def test_first_look(tmp_path):
    """build/try runs the toolchain in the command's crate, on the files that are named from where it is called, also by a link."""
    rt = tmp_path / "rt"
    rt.write_text('#!/bin/sh\npwd -P\nprintf "%s\\n" "$@"\n')
    rt.chmod(0o755)
    (tmp_path / "try").symlink_to(os.path.join(TOP, "build", "try"))
    for name in ("show", "a b.json"):
        (tmp_path / name).write_text("x")
    done = ended(tmp_path / "try", ["show", "a b.json"], cwd=tmp_path,
                 env={**os.environ, "PATH": "%s%s%s" % (tmp_path, os.pathsep, os.environ["PATH"])})
    assert done.output.decode().splitlines() == [os.path.realpath(TOP) + "/crates/cadf", "try", "--", "show", str(tmp_path / "a b.json")]
