"""Repairing a site that is a folder: what is damaged or gone of it is fetched from another site.

First the file of the same digits is asked for, else all facts of its window. A window is repaired if each of its files then is the one that
`site` names: nothing else has changed; or if all its facts then have the root that an earlier seal has. Else what came is joined, and the
window is in doubt: facts that this site alone had may be gone.
"""
import contextlib
import os
import time

import cadf_state
from cadf_link import CAME_SO, Store, fault_of
from cadf_seals import SiteSeal, read, sealed
from cadf_site import check_window, file_name, judged, other_unit, taking
from cadf_state import DAMAGED, kept_name
from cadf_toolkit import DIFFERS, DONE, REFUSED, Fault, last_digest, open_descriptor, opened, other_log, say
from cadf_windows import made


class Unfit(Fault):
    """Why what the other end has of a part can't be used."""


class Repair:
    """What is to be repaired of a folder: its files that are damaged or gone, with why, and those of windows in doubt, by part.

    `seal` names an earlier seal of it, or is None.
    """

    def __init__(self, folder, seal):
        self.folder, self.roots = folder, {} if seal is None else roots_of(seal, folder.site())
        self.index, self.faults = judged(folder)
        known = cadf_state.times(cadf_state.lines_of(folder), DAMAGED)
        doubtful = [entry for entry in known if not self.index.has(file_name(*entry)) and cadf_state.is_in_doubt(folder, entry)]
        self.wanted = {}
        for part, digest in [*self.faults, *sorted(doubtful)]:
            self.wanted.setdefault(part, []).append(digest)

    def run(self, end, far):
        """Repairs each part, so far as it can be by what the other end has. Returns the status."""
        self.end, self.far, statuses = end, far, set()
        for part, digests in self.wanted.items():
            try:
                statuses.add(self.mend(part, digests))
            except Unfit as fault:
                say("%s: not repaired: %s" % (part, fault))
                statuses.add(REFUSED)
        return REFUSED if REFUSED in statuses else max(statuses)

    def mend(self, part, digests):
        """The same of one part, of which files of these digits are wanted."""
        found = {digest: self.fetched(part, "file", digest.encode()) for digest in digests} if self.far.has_files else {}
        whole = {digest: file for digest, file in found.items() if file and last_digest(file.file) == digest}
        other = self.fetched(part, "whole") if len(whole) < len(digests) else None
        if other and last_digest(other.file) in digests:
            whole[last_digest(other.file)] = other
        lost = [digest for digest in digests if digest not in whole]
        if whole or other:
            with self.far.link.busy():
                is_known = bool(lost and other) and self.is_sealed(part, digests, [*whole.values(), other])
                put(self.folder.name, part, whole, lost if other else [], other if lost else None, is_known)
                lost = [] if is_known else lost
        if lost and not other:
            say("%s: not repaired: the other site has nothing of it: try another one, or restore it as the guide says under `A damaged site`" % part)
            return REFUSED if any((part, digest) in self.faults for digest in lost) else DIFFERS
        for digest in lost:
            say(cadf_state.doubt(self.folder, (part, digest), time.time()))
        if not lost:
            say("%s: repaired" % part)
        return DIFFERS if lost else DONE

    def is_sealed(self, part, digests, came):
        """Whether a part has the roots that the seal has, once these files came in the place of those that are wanted."""
        with contextlib.ExitStack() as files:
            own = [self.folder.input(file_name(part, digest)) for digest in self.index.digests(part) if digest not in digests]
            for each in own:
                files.enter_context(each.file)
            return part in self.roots and sealed([*own, *came]) == self.roots[part]

    def fetched(self, part, kind, content=b""):
        """What the other end has of a part, as an input that was judged; None if it has nothing."""
        store, items, peer = Store(), [], self.far.link.peer
        for answers in self.far.ask([store.put(part, kind, content)]):
            for _, answer in answers:
                if answer.kind == "fault":
                    raise Unfit(str(fault_of(peer, answer, "1345")))
                items.append(store.copied(answer))
        if items[0].kind == "none":
            return None
        with self.far.link.busy(), self.end.inputs(items, peer) as inputs:
            try:
                found = made(["join", "--log=" + self.index.name()], inputs, "%s from %s" % (part, peer))
                found.advice = CAME_SO
                check_window(self.index, (part, last_digest(found.file)), found)
            except Fault as fault:
                if fault.status != REFUSED:
                    raise
                raise Unfit(str(fault)) from None
        return found


def roots_of(name, index):
    """The roots of each part, by the seal of that name, which has to be of the folder's log and unit."""
    with opened([name], pipes=True) as (input,):
        seal = read(input, SiteSeal)
    if (seal.log, seal.unit) != (index.log, index.unit):
        raise Fault("%s: %s" % (input.name, other_log(seal.name()) if seal.log != index.log else other_unit(seal.unit, index.unit)), REFUSED)
    return seal.parts


def put(name, part, whole, lost, other, is_known):
    """Puts these files in the place of damaged ones of the folder of that name, by their digits, and other facts in the place of those that are lost.

    What was damaged is kept beside. The part is in doubt then, unless it is known that no fact lacks. A call that is killed has put a file
    whole or not at all; the others are put by one new `site`.
    """
    with taking(name, None, None, None) as found:
        named = [digest for digest in lost if found.index.has(file_name(part, digest))]
        with cadf_state.changing(found.folder) as times:
            for digest in named:
                times.setdefault((DAMAGED, part, digest), int(time.time()))
        for digest, file in whole.items():
            if found.index.has(file_name(part, digest)):
                put_file(found, (part, digest), file)
        for digest in named:
            keep_beside(found.folder, (part, digest), True)
        found.changed[part] = [digest for digest in found.digests(part) if digest not in named]
        came = [*(file for digest, file in whole.items() if not found.index.has(file_name(part, digest))), *([other] if other else [])]
        with found.left_of(came) as (files, _):
            for file in files:
                with found.new_file() as output:
                    copy(file, output)
                found.keep(part, last_digest(file.file))  # unless they are held
        found.put_changed()
        with cadf_state.changing(found.folder) as times:
            for digest in [*whole, *(lost if is_known else [])]:
                times.pop((DAMAGED, part, digest), None)


def put_file(found, entry, file):
    """Puts a file in the place of a damaged one of its name."""
    with found.new_file() as output:
        copy(file, output)
    keep_beside(found.folder, entry, False)
    found.name(file_name(*entry))
    os.fsync(found.folder.descriptor)


def copy(file, output):
    with file.reading() as lines:
        for block in iter(lambda: lines.read(2 ** 16), b""):
            output.write(block)


def keep_beside(folder, entry, is_marked):
    """Keeps what is damaged of a file beside it; of one that is gone an empty file, if its window is to be marked."""
    name, beside, places = file_name(*entry), kept_name(entry), {"src_dir_fd": folder.descriptor, "dst_dir_fd": folder.descriptor}
    with contextlib.suppress(FileNotFoundError):
        os.unlink(beside, dir_fd=folder.descriptor)
    try:
        os.link(name, beside, follow_symlinks=False, **places)
    except FileNotFoundError:
        if is_marked:
            with open_descriptor(folder.open(beside, os.O_WRONLY | os.O_CREAT | os.O_EXCL)):
                pass
    except PermissionError:  # a folder, or no hard links
        os.rename(name, beside, **places)
