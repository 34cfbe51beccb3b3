"""What is installed: the command, the tools around it with their parts, manual pages, pages, examples, completions.

install/install puts these files under a prefix, install/package into a package.
"""
import contextlib
import os
import signal
import subprocess
from typing import NamedTuple

from build import record
from install import manual, sbom

# The pages keep the places that they name each other by, so TOP=PREFIX/share/doc/cadf serves the commands that they show.
DOC = "share/doc/cadf"
PAGES = ("README.md", "CHANGELOG.md", "CONTRIBUTING.md", "bench/RESULTS.md")
# These examples need tests/, which is not installed.
NOT_INSTALLED = ("examples/bus-settings.py", "examples/bus-week.py", "examples/many-sites.py", "examples/parcelled.py")
ZSH = "share/zsh/site-functions"
# Where systemd looks for each kind of file of this folder, and what it is to be called there.
UNITS = "examples/systemd"
OF_SYSTEMD = {".service": "lib/systemd/system/%s.service", ".timer": "lib/systemd/system/%s.timer",
              ".sysusers": "lib/sysusers.d/%s.conf", ".tmpfiles": "lib/tmpfiles.d/%s.conf"}


class File(NamedTuple):
    """A file to install: its place under the prefix, its permissions, and what is in it."""
    place: str
    mode: int
    content: bytes


class Link(NamedTuple):
    """A symbolic link to install, and the name in the same folder to which it leads."""
    place: str
    name: str


def file_of(top, name, place, mode=None):
    """The file of the tree, for that place, with the permissions of its kind unless others are given: file systems tell their own."""
    with open(os.path.join(top, name), "rb") as file:
        content = file.read()
    return File(place, mode or (0o755 if content.startswith(b"#!") else 0o644), content)


def write(path, data, mode):
    """Makes the file with these permissions, whatever those of this call are. The fault of a full disk names it too."""
    try:
        with open(path, "xb") as new:
            new.write(data)
        os.chmod(path, mode)
    except OSError as fault:
        fault.filename = path
        raise


@contextlib.contextmanager
def replacing(path, working):
    """Removes the working file of a run that was ended; the one that the block makes takes the place of the path at once."""
    with contextlib.suppress(FileNotFoundError):
        os.unlink(working)
    yield
    os.replace(working, path)


def told(fault):
    """The line of an OSError, of two names the one that was to be made; or of a CalledProcessError, how the program ended."""
    if isinstance(fault, OSError):
        return ": ".join(filter(None, (fault.filename2 or fault.filename, fault.strerror)))
    ended = fault.returncode
    return "%s ended %s" % (fault.cmd[0], "with %d" % ended if ended >= 0 else "by signal %d, %s" % (-ended, signal.strsignal(-ended)))


def names_below(top, folder):
    """The names of the files in a folder of the tree: those that the history knows, or all where there is none."""
    listed = record.answer(["git", "ls-files", "--", folder], top).splitlines()
    walked = (os.path.join(at, name) for at, _, names in os.walk(os.path.join(top, folder)) for name in names)
    found = listed or [os.path.relpath(path, top) for path in walked if not path.endswith(".pyc")]
    return sorted(name for name in found if os.path.exists(os.path.join(top, name)))


def version(top):
    """What the tools say of themselves: the program's version, and the commit."""
    said = record.answer([record.binary(top), "--version"], top).split()
    return ("%s, commit %s\n" % (said[-1] if said else "unbuilt", record.commit(top))).encode()


def files(top):
    """Yields what is installed, by its place under the prefix."""
    yield file_of(top, os.path.relpath(record.binary(top), top), "bin/cadf", 0o755)
    for name in names_below(top, "tools"):
        tool = os.path.basename(name)
        yield file_of(top, name, "bin/" + tool)
        yield File("share/man/man1/%s.1" % tool, 0o644, manual.page_of(top, tool))
    for name in names_below(top, "share"):
        yield file_of(top, name, name)
    yield File("share/cadf/version", 0o644, version(top))
    yield File(DOC + "/sbom.spdx.json", 0o644, sbom.text(top))
    units = [name for name in names_below(top, UNITS) if os.path.splitext(name)[1] in OF_SYSTEMD]
    for name in units:
        name_alone, kind = os.path.splitext(os.path.basename(name))
        yield file_of(top, name, OF_SYSTEMD[kind] % name_alone)
    pages = names_below(top, "docs")
    examples = [name for name in names_below(top, "examples") if name not in (*units, *NOT_INSTALLED)]
    for name in (*PAGES, *pages, *examples):
        yield file_of(top, name, "%s/%s" % (DOC, name))


def is_in_zsh(folder):
    """Whether zsh looks for completions in the folder; None where there is no zsh."""
    try:
        ran = subprocess.run(["zsh", "-c", "print -l $fpath"], stdin=subprocess.DEVNULL, stdout=subprocess.PIPE,
                             stderr=subprocess.DEVNULL, check=False)
    except OSError:
        return None
    return os.path.realpath(folder) in map(os.path.realpath, ran.stdout.decode("utf-8", "replace").splitlines())
