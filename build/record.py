"""What the built command was made of: one file beside it, crates/cadf/out/cadf.built, a line `NAME: VALUE` each.

It has the digests of the binary, of the object that it was linked from and of its sources, the commit, the processor,
the kit, and the verdict on each crate.
"""
import hashlib
import os
import subprocess
import sys

from build import children

children.know_their_ends()
PROGRAM = "cadf"
DEFAULT_PROCESSOR = "x86-64-v2"


def binary(top):
    return os.path.join(top, "crates", PROGRAM, "out", PROGRAM)


def object_file(top):
    """What the binary was linked from."""
    return binary(top) + ".o"


def path(top):
    return binary(top) + ".built"


def answer(words, top):
    """What a command prints, without the last line feed; empty where it fails, or isn't there."""
    try:
        ran = subprocess.run(words, cwd=top, stdin=subprocess.DEVNULL, stdout=subprocess.PIPE, stderr=subprocess.DEVNULL, check=False)
    except FileNotFoundError:
        return ""
    except PermissionError:
        if os.path.isabs(words[0]):
            raise
        return ""  # it isn't there, and PATH has a folder that this user may not search
    return ran.stdout.decode("utf-8", "replace").rstrip("\n") if ran.returncode == 0 else ""


def of_kit(word, top):
    """What the kit answers. SystemExit: it isn't there."""
    return answer(["rt", word], top) or sys.exit("`rt %s` answers nothing: the kit isn't on PATH" % word)


def kit(top):
    return of_kit("version", top)


def kit_folder(top):
    """The kit's folder: its first page is there."""
    return os.path.dirname(of_kit("doc", top))


def commit(top):
    """The commit at the top, with a word where the crates differ from it; `unknown` where there is no history."""
    found = answer(["git", "rev-parse", "HEAD"], top) if os.path.exists(os.path.join(top, ".git")) else ""
    changed = answer(["git", "status", "--porcelain", "--", "crates", "crates.txt"], top)
    return (found or "unknown") + (" with changes" if changed else "")


def digest_of_file(name):
    with open(name, "rb") as file:
        return hashlib.sha256(file.read()).hexdigest()


def sources(top, name):
    """Yields the files that the crate is proved and built from, in order: none is the link that an editor puts beside a file."""
    for part in ("src", "specs", "proofs"):
        for at, folders, files in os.walk(os.path.join(top, "crates", name, part)):
            folders.sort()
            yield from filter(os.path.isfile, (os.path.join(at, file) for file in sorted(files)))


def digest_of_sources(top, names):
    """The digest of all that the crates of these names are proved and built from."""
    whole = hashlib.sha256()
    for name in sorted(names):
        for file in sources(top, name):
            whole.update(os.fsencode("%s %s\n" % (os.path.relpath(file, top), digest_of_file(file))))
    with open(os.path.join(top, "crates.txt"), encoding="utf-8") as file:
        whole.update("".join(line for line in file if line.split(":")[0].split()[:1] in [[name] for name in names]).encode())
    return whole.hexdigest()


def read_file(name):
    """The record in that file, empty where there is none."""
    try:
        with open(name, encoding="utf-8") as file:
            return dict(line.rstrip("\n").split(": ", 1) for line in file if ": " in line)
    except OSError:
        return {}


def write_file(name, record):
    """Puts the record in place at once: an earlier one stands until then."""
    with open(name + ".new", "w", encoding="utf-8") as file:
        file.writelines("%s: %s\n" % line for line in record.items())
    os.replace(name + ".new", name)


def read(top):
    """The record of the command."""
    return read_file(path(top))


def write(top, record):
    """Puts the record of the command in place."""
    write_file(path(top), record)


def is_object_kept(top):
    """Whether the object is the one that build/command left there."""
    return os.path.exists(object_file(top)) and read(top).get("object") == digest_of_file(object_file(top))


def why_not(top, names, processor=None):
    """Why the built command is not that of the sources as they are, and of the processor if one is given; None where it is."""
    record = read(top)
    if not os.path.exists(binary(top)):
        return "there is no %s" % os.path.relpath(binary(top), top)
    if not record:
        return "nothing says what %s was built of" % os.path.relpath(binary(top), top)
    if record.get("binary") != digest_of_file(binary(top)):
        return "%s is not what build/command left there" % os.path.relpath(binary(top), top)
    if record.get("sources") != digest_of_sources(top, names):
        return "%s was built of commit %s, and the sources are others now" % (os.path.relpath(binary(top), top), record.get("commit"))
    if processor and record.get("processor") != processor:
        return "%s was built for %s" % (os.path.relpath(binary(top), top), record.get("processor"))
    return None
