"""The file of the index of a site that is a folder: where it is, whether it is trusted, and what is made by it.

It is `.index` in the folder, trusted as `site` is: it has the same owner or is the caller's, and nobody may do more with it. Who may
not write there has one of their own in $XDG_CACHE_HOME, or else ~/.cache. Any other is passed over.
"""
import contextlib
import hashlib
import os
import sqlite3
import stat
import urllib.parse

from cadf_index import MALFORMED, REFUSED_SIGNATURES, EventIndex, Untrusted, files_of, read_window
from cadf_site import INDEX, file_name
from cadf_toolkit import NOT_ITS_FAULT, Fault, name_shown, open_descriptor, say

NAME, JOURNAL = ".index", ".index-journal"
MADE = "an index is made there, since none can be written beside the site"
PATIENCE = 5  # seconds that a call waits for another one that writes


def check(found, owners, mode):
    """Raises that a file is another's, or anything else than a file that has one name."""
    if not stat.S_ISREG(found.st_mode) or found.st_nlink != 1:
        raise Untrusted("it is no file, or has several names")
    if found.st_uid not in owners or stat.S_IMODE(found.st_mode) & ~mode:
        raise Untrusted("others could have written it: its owner or its mode isn't that of the site")


def uri_of(path, mode):
    """How SQLite is told to open a file that is there to read and write (`rw`) or to read (`ro`)."""
    return "file:%s?mode=%s" % (urllib.parse.quote(os.fsencode(os.path.abspath(path))), mode)


@contextlib.contextmanager
def connected(path, mode):
    """The index of that path, opened to read and write (`rw`) or to read (`ro`)."""
    with open(path, "rb", opener=lambda name, flags: os.open(name, flags | os.O_NOFOLLOW | os.O_NONBLOCK)) as file:
        if file.read(100)[18:20] not in (b"", b"\1\1"):
            raise Untrusted("it is no index, or has a log beside it")
    with contextlib.closing(sqlite3.connect(uri_of(path, mode), uri=True, timeout=PATIENCE, isolation_level=None)) as connection:
        yield EventIndex(connection)


def may_write(folder, name):
    return os.access(name, os.W_OK, dir_fd=folder.descriptor, effective_ids=True)


def beside(folder):
    """The path of the index in a folder, which is made if it can be, and how it can be opened."""
    site = os.stat(INDEX, dir_fd=folder.descriptor, follow_symlinks=False)
    is_ours = may_write(folder, ".")
    with contextlib.suppress(FileExistsError):
        if is_ours:
            with open_descriptor(folder.open(NAME, os.O_WRONLY | os.O_CREAT | os.O_EXCL)) as file:
                folder.give(file, stat.S_IMODE(site.st_mode & folder.found.st_mode))  # as a take gives the next `site`
    for name in (NAME, JOURNAL):
        try:
            found = os.stat(name, dir_fd=folder.descriptor, follow_symlinks=False)
        except FileNotFoundError:
            if name == NAME:
                raise Untrusted from None
            continue
        check(found, (site.st_uid, os.geteuid()), stat.S_IMODE(site.st_mode))
    return folder.path(NAME), "rw" if is_ours and may_write(folder, NAME) else "ro"


def cached(folder):
    """The path of the caller's own index of a folder, which is made if it can be, and how it can be opened."""
    base = os.environ.get("XDG_CACHE_HOME") or os.path.expanduser("~/.cache")
    own = os.path.join(base, "cadf")
    if not os.path.isabs(own):
        raise Untrusted
    os.makedirs(own, 0o700, exist_ok=True)
    found = os.lstat(own)
    if not stat.S_ISDIR(found.st_mode) or found.st_uid != os.geteuid() or found.st_mode & 0o022:
        raise Untrusted("%s: others can write there" % name_shown(own))
    path = os.path.join(own, hashlib.sha256(os.fsencode(os.path.realpath(folder.name))).hexdigest()[:32] + ".index")
    with contextlib.suppress(FileExistsError):
        os.close(os.open(path, os.O_WRONLY | os.O_CREAT | os.O_EXCL, 0o600))
        say("%s: %s" % (name_shown(path), MADE))
    check(os.lstat(path), (os.geteuid(),), 0o600)
    return path, "rw"


PLACES = beside, cached


def made_by(folder, make, places=PLACES):
    """What is made by an index of an open folder, and of how it is opened. None: there is no index to be had, or none that serves."""
    folder.site()
    for place in places:
        path, mode = folder.path(NAME), "rw"
        try:
            path, mode = place(folder)
            with connected(path, mode) as index:
                return make(index, mode)
        except (sqlite3.Error, OSError, Untrusted, *MALFORMED) as fault:
            if isinstance(fault, OSError) and fault.errno in NOT_ITS_FAULT:
                raise
            if str(fault) and mode == "rw":
                say("%s: %s: it is passed over" % (name_shown(path), fault))
    return None


def planned(folder, make):
    """What is made by an index of an open folder, and of what its `site` says at that moment. None: there is no index to be had."""
    def planned_by(index, _):
        with index.renewed(folder) as site:
            return make(index, site)
    return made_by(folder, planned_by)


def wrong_windows(folder, parts):
    """Those of some windows of which the index beside an open folder has something else than their files, as far as these can be read.

    What it has of them is made anew. Without an index none is wrong, and none is made.
    """
    def judged(index, mode):
        wrong = []
        for part in parts:
            with contextlib.suppress(Fault):
                window = read_window(folder, part)
                if not index.has_read(part, window):
                    wrong.append(part)
                    if mode == "rw":
                        with index.changing():
                            index.put_some(folder, {part: window})
        return wrong

    return (made_by(folder, judged, [beside]) or []) if is_there(folder) else []


def is_there(folder):
    """Whether an index is beside the site."""
    try:
        os.stat(NAME, dir_fd=folder.descriptor, follow_symlinks=False)
    except FileNotFoundError:
        return False
    return True


# ---- What is kept of parts

def kept(folder, kind, places=PLACES):
    """What the index keeps of that kind of the folder's parts, as EventIndex.kept has it."""
    found, wanted = {}, wanted_of(folder)

    def read(index, mode):
        found.update(index.kept(kind))
        if mode == "ro" and wanted - found.keys():
            raise Untrusted  # there may be more in one of the caller's own

    made_by(folder, read, places)
    return {files: row for files, row in found.items() if files in wanted}


def keep(folder, kind, rows, places=PLACES):
    """Keeps such rows of the folder's parts, if there is an index that can be written."""
    if rows:
        made_by(folder, lambda index, _: index.keep(kind, rows, wanted_of(folder)), places)


def refused_signatures(folder):
    """The keys of signatures that were refused before, as the index of an open folder keeps them, and one of the caller's own."""
    found = set()

    def read(index, mode):
        found.update(index.kept(REFUSED_SIGNATURES))
        if mode == "ro":
            raise Untrusted  # there may be more in one of the caller's own

    made_by(folder, read)
    return found


def keep_refused_signatures(folder, keys, most):
    """Keeps further such keys, of which there are at most so many, if there is an index that can be written."""
    made_by(folder, lambda index, _: index.add(REFUSED_SIGNATURES, keys, most))


def forget_kinds(folder, *words):
    """Forgets what the index beside an open folder keeps under kinds, as EventIndex.forget_kinds has it."""
    if is_there(folder):
        made_by(folder, lambda index, mode: mode == "rw" and index.forget_kinds(*words), [beside])


def carry_over(folder, before, after):
    """Has the index beside an open folder keep, of parts whose files were joined, what it has of those before: by part their digests, then and now."""
    joined = [part for part, files in after.items() if part in before and files != before[part]]

    def carried(index, mode):
        for part in joined if mode == "rw" else ():
            size = sum(os.stat(file_name(part, digest), dir_fd=folder.descriptor, follow_symlinks=False).st_size for digest in after[part])
            index.carry_over(part, files_of(before[part]), files_of(after[part]), size)

    if joined and is_there(folder):
        made_by(folder, carried, [beside])


def forget(folder, keys, but=""):
    """Forgets what the index beside an open folder keeps of parts, by what stands for their files, but for that kind."""
    if keys and is_there(folder):
        made_by(folder, lambda index, _: index.forget(keys, but), [beside])


def forget_others(folder):
    """Has the index beside an open folder have nothing of windows that went."""
    if is_there(folder):
        made_by(folder, lambda index, mode: mode == "rw" and index.forget_others(folder), [beside])


def wanted_of(folder):
    """What stands for the files of each part."""
    return {files_of(files) for files in folder.site().parts().values()}
