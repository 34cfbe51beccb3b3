"""Which rulings are taken of files that others sent: all, none, or those with a record that is signed by somebody who may rule.

A ruling that the site has already is no new one. Of one that isn't welcome all else of its file is taken, also its record.
"""
import contextlib
import hashlib
import json
import mmap
import os

from cadf_atoms import atoms_in, held
from cadf_logs import atoms
from cadf_rulings import Allowed, Records, file_of_atoms, is_of_record
from cadf_toolkit import REFUSED, Fault, undigested

FIRST, SECOND = b"CADF-REPLICA 1\n", b"CADF-REPLICA 2\n"
NODE, LINE = b'\n[1,0,"U"]\n', b'\n["U",'  # with which a file has rulings, in format 2 and 1
PIECE = 2 ** 20  # bytes that are written at once
UNWELCOME = "%d rulings aren't welcome, as of %s %s: %s"
ADVICE = {False: "--no-rulings takes none", True: "--rulings-by takes those alone that somebody has signed who may"}


def rulings_in(file):
    """The rulings in an open file, as atoms, which come last in a replica file. A document has none."""
    with mapped(file) as data:
        begin = NODE if data[:len(SECOND)] == SECOND else LINE if data[:len(FIRST)] == FIRST else None
        place = data.find(begin) if begin else -1
        lines = data[place + 1:].splitlines(True) if place >= 0 else []
    return set(atoms(lines) if begin == NODE and lines else (tuple(json.loads(line)) for line in lines[:-1]))


@contextlib.contextmanager
def mapped(file):
    """The bytes of an open file."""
    if os.fstat(file.fileno()).st_size == 0:
        yield b""
        return
    with mmap.mmap(file.fileno(), 0, access=mmap.ACCESS_READ) as data:
        yield data


def has_rulings(file):
    """Whether an open replica file may have rulings, of either format."""
    with mapped(file) as data:
        return data.find(NODE) >= 0 or data.find(LINE) >= 0


def without(file, unwelcome):
    """Yields the lines of an open replica file of format 2 that has rulings, in pieces, but for these rulings."""
    with mapped(file) as data:
        place, head = data.find(NODE) + 1, data[:data.find(b"\n", data.find(b"\n") + 1) + 1]
        own = undigested(file_of_atoms(head.split(b"\n", 1)[1], rulings_in(file) - unwelcome))
        digest = hashlib.sha256()
        for piece in [*(data[at:min(at + PIECE, place)] for at in range(0, place, PIECE)), own[len(head):]]:
            digest.update(piece)
            yield piece
        yield b"Z %s\n" % digest.hexdigest().encode()


def add_words(parser):
    """Adds the options by which few rulings or none are taken."""
    ways = parser.add_mutually_exclusive_group()
    ways.add_argument("--no-rulings", action="store_true", help="take no rulings that the site doesn't have")
    ways.add_argument("--rulings-by", metavar="ALLOWED", help="take such rulings only if they are signed, by the allowed signers in that file")


class Welcome:
    """What is taken of rulings: those that a person allowed may have signed, or none, if nobody may."""

    def __init__(self, allowed=None):
        self.allowed = None if allowed is None else Allowed(allowed)

    def unwelcome(self, rulings, log, inputs, site):
        """Those of some rulings that aren't welcome, by the records in the inputs, which may be None, and in the site of that name, if it is there."""
        left = set(rulings)
        if self.allowed is None:
            return left
        self.allowed.refused.of(site)
        for records in (lambda: atoms_in(inputs), lambda: records_of_site(site)):
            if left:
                found = Records(log)
                for atom in filter(is_of_record, records()):
                    found.add(atom)
                left = {each for each in left if not self.allowed.has_ruled(found, each[1:])}
        self.allowed.refused.keep()
        return left

    def new(self, file, own, log, inputs, site):
        """Those of the rulings in an open file that aren't welcome, and not in the site's own open files."""
        left = rulings_in(file)
        for each in own if left else ():
            left -= rulings_in(each)
        return self.unwelcome(left, log, inputs, site) if left else left

    def said(self, unwelcome):
        """What is said of rulings that aren't welcome."""
        first = min(unwelcome)
        return UNWELCOME % (len(unwelcome), first[1], json.dumps(first[2]), ADVICE[self.allowed is not None])

    def fault(self, unwelcome):
        """Why a file with these rulings is refused."""
        return Fault(self.said(unwelcome) + ": `cadf-conflicts` says who ruled", REFUSED)


def records_of_site(site):
    """Yields the atoms of records in a site, if it is there. Parts that are damaged are left out."""
    if os.path.lexists(site):
        found = held(site, lambda atoms: filter(is_of_record, atoms), {})
        next(found)
        yield from found
