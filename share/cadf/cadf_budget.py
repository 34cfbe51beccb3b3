"""What a program may spend that reads what a stranger sent: processor time and memory; and what it may change, where the system has Landlock.

What is here is called in a process that has just been started, before it is the program: by `preexec_fn`.
"""
import resource
import struct
import time

import cadf_toolkit
from cadf_toolkit import OUT_OF_MEMORY, whole_number

try:
    import ctypes
    LIBC = ctypes.CDLL(None)
except (ImportError, MemoryError):  # as where nothing that is written may run
    LIBC = None

SECONDS, BYTES = 300, 2 ** 32  # of processor time of a program that reads a file, and of its address space
OF_SITE = 4  # times a file's time for what reads the site's file too
YEAR = 366 * 86400  # seconds
# Landlock's calls, with the same numbers on each processor. It can forbid to write, make and remove files, and to cut them.
MAKE_RULES, ADD_RULE, OBEY_RULES, NO_NEW_PRIVILEGES = 444, 445, 446, 38
CHANGES, OF_FILES, CUT = 0x1ff2, 0x122, 1 << 14  # of all kinds; to write, make and remove regular files; to cut them


def confine(seconds, memory, size=None):
    """Holds this process, and what it starts, to the processor time and the memory, and each file that it writes to a size."""
    limits = {resource.RLIMIT_CPU: seconds, resource.RLIMIT_AS: memory, resource.RLIMIT_CORE: 0}
    if size is not None:
        limits[resource.RLIMIT_FSIZE] = size
    for kind, most in limits.items():
        _, hard = resource.getrlimit(kind)
        hard = most + 1 if hard == resource.RLIM_INFINITY else min(most + 1, hard)
        resource.setrlimit(kind, (min(most, hard), hard))


def change_only(folder):
    """Has this process, and what it starts, change nothing but files of an open folder, nothing at all for None. What is open stays so."""
    if LIBC is None:
        return
    version = LIBC.syscall(MAKE_RULES, None, 0, 1)
    if version < 1:
        return
    cut = CUT if version >= 3 else 0
    rules = LIBC.syscall(MAKE_RULES, struct.pack("=Q", CHANGES | cut), 8, 0)
    is_made = rules >= 0 and (folder is None or LIBC.syscall(ADD_RULE, rules, 1, struct.pack("=Qi", OF_FILES | cut, folder), 0) == 0)
    if is_made:
        LIBC.prctl(NO_NEW_PRIVILEGES, 1, 0, 0, 0)
        LIBC.syscall(OBEY_RULES, rules, 0)


# ---- A tool's own programs

def seconds_spent():
    """The processor time of this program, and of all that it has started and that have ended."""
    found = resource.getrusage(resource.RUSAGE_CHILDREN)
    return found.ru_utime + found.ru_stime + time.process_time()



def add_budget(parser):
    """Adds the options of what each `cadf` may spend that the tool starts."""
    parser.add_argument("--time", metavar="SECONDS", type=whole_number(1, YEAR), default=OF_SITE * SECONDS,
                        help="the processor time of a program that reads facts, and the site (default: %d)" % (OF_SITE * SECONDS))
    parser.add_argument("--memory", metavar="BYTES", type=whole_number(1, 2 ** 50), default=BYTES,
                        help="the address space of such a program (default: %d)" % BYTES)


def keep_to(options):
    """Holds each `cadf` that the tool starts from here on to that budget. It changes no file."""
    def begin():
        confine(options.time, options.memory)
        change_only(None)

    cadf_toolkit.CONFINE, cadf_toolkit.ADVICE[OUT_OF_MEMORY] = begin, "have more of it, or give more by --memory"
