"""What a site that is a folder knows and can't make again: its file `.state`, of lines, each with a letter.

docs/FORMATS.md has the form. Without the file nothing is known. A line of a letter that isn't asked for stays as it is.
"""
import contextlib
import os
import re
import time

from cadf_site import LONGEST_INDEX, PART, file_name
from cadf_toolkit import say, with_digest

NAME, WORKING, FIRST = ".state", ".state.new", b"CADF-STATE 1\n"
SEEN, DAMAGED = "S", "D"  # when a file was last seen whole; since when one is damaged or gone
RULED = re.compile(r"R ([0-9a-f]{64})\n")  # the rulings and values of a key that a person has looked at
LINE = re.compile(r"[A-Z] [^\n]*\n")
OF_FILE = re.compile(r"([SD]) (%s) ([0-9a-f]{64}) ([0-9]{1,12})\n" % PART)
DOUBT = ("%s: facts of %s that this site alone had may be gone since %s: another peer may have them: cadf-sync --repair SITE/ HOST:SITE; "
         "remove this file once they are missed no more")
NO_STATE = "not the file of what a site knows, or damaged: what it had is not known any more"


def lines_of(folder):
    """The lines that a folder's file has; none if there is none. One that is damaged is told, and has none."""
    try:
        with folder.input(NAME).file as file:
            data = file.read(LONGEST_INDEX)
    except FileNotFoundError:
        return []
    cut = data.rfind(b"Z ")
    lines = data[len(FIRST):cut].decode("utf-8", "replace").splitlines(True)
    if not data.startswith(FIRST) or data != with_digest(data[:cut]) or not all(map(LINE.fullmatch, lines)):
        say("%s: %s" % (folder.shown(NAME), NO_STATE))
        return []
    return lines


def times(lines, letter):
    """The times that the lines of a letter have of files, by part and digest, in seconds since 1970."""
    found = (OF_FILE.fullmatch(line) for line in lines)
    return {(each[2], each[3]): int(each[4]) for each in found if each and each[1] == letter}


@contextlib.contextmanager
def changing(folder):
    """Yields a dictionary of the times of files by letter, part and digest, which is written at the end. The folder is locked."""
    lines = lines_of(folder)
    found = {(letter, *entry): at for letter in (SEEN, DAMAGED) for entry, at in times(lines, letter).items()}
    yield found
    others = [line for line in lines if not OF_FILE.fullmatch(line)]
    write(folder, others + ["%s %s %s %d\n" % (*key, at) for key, at in found.items()])


def seen_rulings(folder):
    """What stands for the ruled keys that somebody here has looked at, as they were then."""
    return {found[1] for found in map(RULED.fullmatch, lines_of(folder)) if found}


def put_seen(folder, standings):
    """Notes that somebody has looked at these, and no others. The folder is locked."""
    write(folder, [line for line in lines_of(folder) if not RULED.fullmatch(line)] + ["R %s\n" % each for each in standings])


def is_in_doubt(folder, entry):
    """Whether what was damaged of a file is still beside, by which a person says that its facts may be missed."""
    try:
        os.stat(kept_name(entry), dir_fd=folder.descriptor, follow_symlinks=False)
    except FileNotFoundError:
        return False
    return True


def kept_name(entry):
    """Under which name it is kept beside what was damaged of a file."""
    return ".damaged-" + file_name(*entry)


def doubt(folder, entry, since):
    """What is said of a window of which another file has taken the place of a damaged one."""
    return DOUBT % (folder.shown(kept_name(entry)), entry[0], time.strftime("%Y-%m-%d", time.gmtime(since)))


def write(folder, lines):
    """Replaces the file by one of these lines, which is then on the disk. The folder is locked."""
    with contextlib.suppress(FileNotFoundError):
        os.unlink(WORKING, dir_fd=folder.descriptor)  # what a call left that was killed, or found a full disk
    with os.fdopen(folder.open(WORKING, os.O_WRONLY | os.O_CREAT | os.O_EXCL), "wb") as file:
        folder.give(file.fileno(), 0o666 & folder.found.st_mode)
        file.write(with_digest(FIRST + "".join(sorted(lines)).encode()))
        file.flush()
        os.fsync(file.fileno())
    os.rename(WORKING, NAME, src_dir_fd=folder.descriptor, dst_dir_fd=folder.descriptor)
    os.fsync(folder.descriptor)
