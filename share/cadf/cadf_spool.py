"""A spool: its folder with the parts that are the caller's alone, held by a lock, and what waits in set-aside/, by its senders.

docs/OPENSTACK.md says what is in it. cadf-spool takes from it, cadf-admit shows what waits.
"""
import contextlib
import errno
import functools
import os
import re
import stat

import cadf_site
from cadf_toolkit import Fault, name_shown, wait_for_lock, write_all

try:
    import pwd
except ImportError:  # as where there are no users
    pwd = None

PARTS = ("taking", "taken", "set-aside")
LOCK = ".spool.lock"
WAITS, REASON = "waits-", ".reason"  # with which the name of a file of facts that wait begins; the ending of why a file is set aside
SENDERS = ".senders"  # of set-aside/ and taking/: who sent each file there
SENDER = re.compile("([0-9]{1,10}) ([^\n]+)\n")
LONGEST_SENDERS = 2 ** 26  # bytes
LEAST_BYTES = 4096  # that a file counts as
SUBORDINATE = re.compile("([^:\n]+):([0-9]{1,10}):([0-9]{1,10})\n")  # a line of /etc/subuid: a user has so many numbers from that one on


def within(folder):
    """Opens files of an open folder for their owner alone, and nothing behind a link; a FIFO isn't waited for."""
    return lambda name, flags: os.open(name, flags | os.O_NOFOLLOW | os.O_NONBLOCK, 0o600, dir_fd=folder)


@contextlib.contextmanager
def naming_spool(path):
    """A context in which a fault without a path is given the spool's: what is in the spool is named relative to its parts."""
    try:
        yield
    except OSError as fault:
        if not isinstance(fault.filename, str):
            fault.filename = path
        elif not os.path.isabs(fault.filename) and fault.filename != path:
            fault.filename = "%s (%s)" % (path, fault.filename)
        raise


def is_there(name, folder):
    try:
        os.lstat(name, dir_fd=folder)
    except FileNotFoundError:
        return False
    return True


@functools.lru_cache(2 ** 12)
def sender_of(owner):
    """The user whose number an owner's is: it may be one of those that a user has for containers, who else could send as thousands."""
    with contextlib.suppress(OSError, KeyError, AttributeError), open("/etc/subuid", encoding="utf-8", errors="replace") as file:
        for name, first, count in SUBORDINATE.findall(file.read(LONGEST_SENDERS)):
            if int(first) <= owner < int(first) + int(count):
                return int(name) if name.isdigit() else pwd.getpwnam(name).pw_uid
    return owner


class SpoolFolder:
    """The folder and its parts, held by a lock until the process and all that it started have ended.

    All of them are open, and what is in them is named relative to them, so nobody puts another folder in their place.
    """

    def __init__(self, path):
        self.path = path
        self.folder = os.open(path, os.O_RDONLY | os.O_DIRECTORY)
        found = os.fstat(self.folder)
        self.device = found.st_dev
        if found.st_uid != os.geteuid():
            raise Fault("%s: it belongs to another user: run this as that user" % name_shown(path))
        if found.st_mode & 0o022 and not found.st_mode & stat.S_ISVTX:
            raise Fault("%s: others may move in it what isn't theirs: chmod +t" % name_shown(path))
        if is_there(cadf_site.LOCK, self.folder) and not is_there(LOCK, self.folder):
            raise Fault("%s: the folder of a site, whose files would be moved: name the folder in which files arrive" % name_shown(path))
        self.lock = self.own(LOCK, os.O_RDWR | os.O_CREAT, stat.S_IFREG | 0o600)
        wait_for_lock(self.lock, os.path.join(path, LOCK), None)
        self.taking, self.taken, self.aside = map(self.part, PARTS)

    def own(self, name, flags, mode):
        """Opens what is the caller's alone. Stops at what is of another owner, kind or mode, and at a folder of another file system."""
        kind = "folder" if stat.S_ISDIR(mode) else "file"
        wanted = "%s: it has to be a %s of the caller's, of mode %04o, on the spool's file system: mend or move it" % (
            name_shown(os.path.join(self.path, name)), kind, stat.S_IMODE(mode))
        try:
            file = within(self.folder)(name, flags)
        except OSError as fault:
            if fault.errno in (errno.EROFS, errno.ENOSPC, errno.EDQUOT):
                raise
            raise Fault("%s (%s)" % (wanted, fault.strerror))
        found = os.fstat(file)
        is_elsewhere = stat.S_ISDIR(mode) and found.st_dev != self.device  # a file of an overlay has another number than its folder
        if is_elsewhere or (found.st_uid, found.st_mode & ~0o7000) != (os.geteuid(), mode):
            raise Fault(wanted)
        return file

    def part(self, name):
        """Opens a folder of the spool, which is made if it isn't there."""
        with contextlib.suppress(FileExistsError):
            os.mkdir(name, 0o700, dir_fd=self.folder)
        return self.own(name, os.O_RDONLY | os.O_DIRECTORY, stat.S_IFDIR | 0o700)

    # What waits

    def waiting(self):
        """What is in set-aside/, also links and the like, with what the system says of it, by its name; also why a file is there."""
        found = {name: os.lstat(name, dir_fd=self.aside) for name in sorted(os.listdir(self.aside)) if not name.startswith(".")}
        return {name: each for name, each in found.items() if not stat.S_ISDIR(each.st_mode)}

    def files(self):
        """The names of these files but those that say why another is there."""
        names = set(self.waiting())
        return sorted(name for name in names if not (name.endswith(REASON) and name[:-len(REASON)] in names))

    def bytes_waiting(self):
        """How much is in set-aside/, by the names of the files: what is on the disk, and of many small files something for each."""
        return {name: max(LEAST_BYTES, min(found.st_size, found.st_blocks * 512)) for name, found in self.waiting().items()}

    def add_sender(self, name, user):
        """Notes the user of a further file in set-aside/."""
        with open(SENDERS, "ab", buffering=0, opener=within(self.aside)) as file:
            write_all(file.fileno(), b"\n%d %s\n" % (user, name.encode()))  # after a line that was cut off

    def senders(self, folder=None):
        """The user of each file in set-aside/, or in another part, by its name, as far as that was noted."""
        with contextlib.suppress(FileNotFoundError), open(
                SENDERS, encoding="utf-8", errors="replace", opener=within(self.aside if folder is None else folder)) as file:
            return {name: int(user) for user, name in SENDER.findall(file.read(LONGEST_SENDERS))}
        return {}

    def put_senders(self, senders, folder=None):
        """Notes the users of the files that are in set-aside/, or in another part."""
        folder = self.aside if folder is None else folder
        with open(SENDERS + ".new", "w", encoding="utf-8", opener=within(folder)) as file:
            file.writelines("%d %s\n" % (user, name) for name, user in sorted(senders.items()) if is_there(name, folder))
        os.rename(SENDERS + ".new", SENDERS, src_dir_fd=folder, dst_dir_fd=folder)
