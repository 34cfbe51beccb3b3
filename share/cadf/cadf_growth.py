"""How the seal of a site that is a folder came of an earlier one: lists that are kept of what was sealed, and proofs of growth by windows.

docs/FORMATS.md has the forms, and what is refused. A tool imports this as it imports cadf_toolkit, and uses

  keep_list(folder, ..)       keeps the list of what a window of a folder has, as it is sealed
  grown(name, old)            the seal of a folder, and the proof of growth from an earlier one
  drop_lists(name, seal)      removes the lists that are of no window of a seal
  growth_shown(old, new, ..)  what a proof of growth says under two seals
"""
import contextlib
import os
import re
import subprocess
from typing import NamedTuple

from cadf_seals import NAME_LINE, NOTHING, OTHER, OfParts, Refused, Roots, SiteSeal, part_in, read, sealed, sealed_folder
from cadf_site import CHANGED, TRIES, Folder, made_of_parts, order, other_unit, without_facts
from cadf_toolkit import REFUSED, Fault, Refusal, another_program, as_input, cadf, name_shown, other_log, say, sync, with_advice, with_digest
from cadf_windows import unit_of

LIST = ".sealed-"  # and the root of the facts
LISTED = re.compile(re.escape(LIST) + r"[0-9a-f]{64}")
PART = re.compile(rb"N|[HPAG] [0-9a-f]{64}")
HEAD = re.compile(rb"CADF-PROOF 1\nL [^\n]*\n")
GONE = re.compile("(?:facts|keys): gone: ")
SAID = re.compile(rb"added ([0-9]+)(?:, erased ([0-9]+))?\n")
NO_WINDOW = "gone: the later seal has no such window: ask the site's people why; --kept-from WINDOW allows those before the first that is kept"
WENT_CHANGED = "%s went when it had changed since it was sealed: nobody can show its growth"
NO_LIST = "%s: it has no list of what %s had when it was sealed, so no growth can be shown of it: `cadf-seal --keep SITE/` keeps lists from now on"


# ---- Lists of what was sealed

def list_name(root):
    """The name in a folder of the list of a window whose facts have this root."""
    return LIST + root


def keep_list(folder, files, root):
    """Keeps the list of what open files have together, whose facts have this root, unless it is there."""
    name = list_name(root)
    with folder.naming():
        if os.access(name, os.F_OK, dir_fd=folder.descriptor):
            return
        working = "%s.%d" % (name, os.getpid())
        file = folder.open(working, os.O_WRONLY | os.O_CREAT | os.O_TRUNC)
        try:
            folder.give(file, 0o666 & folder.found.st_mode)
            cadf(["sealed"], files, file, where=folder.path(name))
            os.fsync(file)
            os.rename(working, name, src_dir_fd=folder.descriptor, dst_dir_fd=folder.descriptor)
        finally:
            os.close(file)
            with contextlib.suppress(FileNotFoundError):
                os.unlink(working, dir_fd=folder.descriptor)


def drop_lists(name, seal):
    """Removes the lists in a folder that are of no window of a seal. Returns how many."""
    with Folder(name) as folder, folder.naming():
        check_same(seal, folder.site(), name_shown(name))
        kept = {list_name(roots.root) for roots in seal.parts.values()}
        names = [each for each in os.listdir(folder.descriptor) if LISTED.fullmatch(each) and each not in kept]
        for each in names:
            os.unlink(each, dir_fd=folder.descriptor)
        sync(folder.name)
    return len(names)


# ---- Made of a folder

class SiteGrowth(OfParts):
    """A proof of growth between seals of a folder: of each window whose line changed, the parts of its two trees."""
    FIRST = b"CADF-SITE-GROWTH 1"
    OTHER = "no proof of growth of a folder, as `cadf-seal --growth OLD SITE/` writes it"

    def __init__(self, log, unit):
        super().__init__(log, unit)
        self.keys = 0  # how many parts there were when the last line between two trees was read

    def lines(self, part, parts):
        return b"W %s\n%s" % (part.encode(), parts)

    def is_last(self, line):
        """Whether the line is the digest line, right or wrong."""
        return line.startswith(b"Z")

    def take(self, line, number):
        """Takes the line of that number."""
        if line.startswith(b"W"):
            part, _ = part_in(line, NAME_LINE, number, self.unit, self.parts)
            self.parts[part] = bytearray()
            return
        own = next(reversed(self.parts.values()), None)
        if own is None or not (PART.fullmatch(line) or line == b"K" and self.keys < len(self.parts)):
            raise Refused("line %d: shape" % number)
        if line == b"K":
            self.keys = len(self.parts)
        own += line + b"\n"

    def proof(self, part):
        """What `cadf growth` writes of the part."""
        return with_digest(b"CADF-PROOF 1\nL %s\n%s" % (self.log.encode(), self.parts[part]))


class Grown(NamedTuple):
    """The roots of what a window has, and the parts of its proof."""
    roots: Roots
    parts: bytes


def check_same(seal, other, name):
    """Refuses what has that name and is of another log or of another unit than a seal."""
    if other.log != seal.log:
        raise Fault("%s: %s" % (name, other_log(other.name())), REFUSED)
    if other.unit != seal.unit:
        raise Fault("%s: %s" % (name, other_unit(other.unit, seal.unit)), REFUSED)


def last_roots(seal, part):
    """The roots of a part by a seal: of one that went, as it was then."""
    return seal.parts.get(part) or seal.gone.get(part, NOTHING)


def changed_parts(old, new):
    """The parts of an earlier seal that have other roots by a later one, in order."""
    return [part for part, roots in old.parts.items() if last_roots(new, part) != roots]


def grown(name, old, jobs=1, is_full=False, is_keeping=False):
    """The seal of a folder, and the proof of growth from an earlier one, both of the folder as it stood at one moment."""
    for _ in range(TRIES):
        seal = sealed_folder(name, None, jobs, is_full, keep_list if is_keeping else None)
        check_same(old, seal, name_shown(name))
        proof = SiteGrowth(seal.log, seal.unit)
        with Folder(name) as folder, without_facts(seal.log, name) as empty:
            def grown_part(part, files):
                own = list(files.values())
                try:
                    with contextlib.ExitStack() as steps:
                        earlier = folder.input(list_name(old.parts[part].root))
                        steps.enter_context(earlier.file)
                        written = cadf(["growth"], [earlier, *(own or [empty])], subprocess.PIPE)
                except FileNotFoundError:
                    raise Fault(NO_LIST % (folder.shown(), part), REFUSED) from None
                found = HEAD.match(written)
                if not found:
                    raise another_program("growth")
                return Grown(sealed(own) if own else NOTHING, written[found.end():written.rfind(b"Z ")])

            changed = changed_parts(old, seal)
            went = [part for part in changed if part in seal.gone and part not in seal.parts]
            found = made_of_parts([folder], [part for part in changed if part not in went], grown_part, jobs)
        if all(each.roots == seal.parts.get(part, NOTHING) for part, each in found.items()):
            proof.parts = {part: found[part].parts for part in sorted(found, key=order)}
            for part in went:
                say(WENT_CHANGED % part)
            return seal, proof
    raise Fault(CHANGED % name_shown(name))


# ---- What it says

class Gone(Fault):
    """What was sealed is gone."""


KINDS = [OTHER[1], OTHER[1], "no proof of growth, as `cadf growth` writes it", "no list of what was erased"]  # of what `cadf grew` reads
OF_LIST = "input 4: "


def explained(said, place):
    """What `cadf grew` said of its input at that place, with what to do next."""
    return "version: " + KINDS[place - 1] if said == "version" else with_advice(said)


def grew(inputs, listed=None):
    """How many facts came and how many went, as `cadf grew` says of an old seal, a new one and a proof, and of a list of what was erased. Fault: why it is refused."""
    words, keep = (["--erased", listed.path()], (listed.file.fileno(),)) if listed else ([], ())
    try:
        found = SAID.fullmatch(cadf(["grew", *words], inputs, subprocess.PIPE, keep))
    except Refusal as fault:
        if fault.place is None and not (listed and fault.said.startswith(OF_LIST)):
            raise
        place = fault.place or len(KINDS)
        kind = Gone if GONE.match(fault.said) else Fault
        raise kind("%s: %s" % ([*inputs, listed][place - 1].name, explained(fault.said.removeprefix(OF_LIST), place)), fault.status) from None
    if not found:
        raise another_program("answer of `cadf grew`")
    return int(found[1]), int(found[2] or 0)


def growth_of_part(part, old, new, proof, listed, names):
    """How many facts of a part came and went."""
    with contextlib.ExitStack() as steps:
        data = old.seal(part), new.seal(part), proof.proof(part)
        return grew([steps.enter_context(as_input(each, "%s of %s" % (part, name))) for each, name in zip(data, names)], listed)


def check_gone(then, now, first, name):
    """Refuses a later seal of that name by which a window went that is still to be there, or went otherwise than it was told before."""
    if first is not None and unit_of(first) != then.unit:
        raise Fault("--kept-from %s: windows are one %s each: name such a one" % (first, then.unit), REFUSED)
    for part in sorted({*then.parts, *then.gone}, key=order):
        if part in then.parts and part not in now.parts and part in now.gone and (first is None or part >= first):
            raise Gone("%s: %s: %s" % (name, part, NO_WINDOW), REFUSED)
        if part not in then.parts and part not in now.parts and now.gone.get(part) != then.gone[part]:
            raise Gone("%s: %s: gone then, and not told, or otherwise" % (name, part), REFUSED)


def check_shown(changed, now, proof, name):
    """Refuses a proof of that name that doesn't have just the parts that changed."""
    for part in sorted({*changed, *proof.parts}, key=order):
        if part not in proof.parts and part not in now.parts and part not in now.gone:
            raise Gone("%s: %s: %s" % (name, part, NO_WINDOW), REFUSED)
        if part not in proof.parts or part not in changed:
            raise Fault("%s: %s: %s" % (name, part, "not needed" if part in proof.parts else "not shown"), REFUSED)


def growth_shown(old, new, proof, listed=None, first=None):
    """Yields of each part that isn't as it was a line: how many facts came and, by a list of those, how many went; at last of all of them.

    All but the last two are inputs; windows before the first one that is kept may be gone as they were sealed. Fault: growth isn't shown.
    """
    then, now, found = read(old, SiteSeal), read(new, SiteSeal), read(proof, SiteGrowth)
    check_same(then, now, new.name)
    check_same(then, found, proof.name)
    check_gone(then, now, first, new.name)
    changed = changed_parts(then, now)
    check_shown(changed, now, found, proof.name)
    came = went = 0
    for part in sorted({*then.parts, *(now.parts.keys() - then.gone.keys())}, key=order):
        if part in changed:
            more, fewer = growth_of_part(part, then, now, found, listed, [each.name for each in (old, new, proof)])
        else:
            more, fewer = 0 if part in then.parts else now.parts[part].facts, 0
        came, went = came + more, went + fewer
        if part in changed or part not in then.parts:
            yield "%s: %s" % (part, numbers(more, fewer, listed))
        if part in now.gone and part not in now.parts:
            yield "%s: gone, of %d facts" % (part, now.gone[part].facts)
    yield numbers(came, went, listed)


def numbers(came, went, listed):
    return "added %d" % came + (", erased %d" % went if listed else "")
