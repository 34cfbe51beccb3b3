"""Seals of sites that are folders: of each window how many facts and keys it has, and both roots; and proofs under such a seal.

docs/FORMATS.md has the forms, and what is refused. A tool imports this as it imports cadf_toolkit, and uses

  sealed_folder(name, damaged)  the seal of a folder, as it stood at one moment
  proved(facts, name)           the proof which facts a folder has
  read(input, SiteSeal)         the seal that a file has
  verified(seal, facts, proof)  what a proof says of facts, under the seal of a folder
"""
import hashlib
import itertools
import json
import os
import re
import subprocess
from typing import NamedTuple

import cadf_state
import cadf_toolkit
from cadf_index import are_as_read, files_of, size_of
from cadf_index_file import keep, kept
from cadf_link import Store
from cadf_gone import is_window
from cadf_site import CHANGED, LARGEST, PART, TRIES, Folder, check_part, made_of_parts, order, other_unit, split, without_facts
from cadf_times import SECOND, SHARED, UNITS, WINDOW, now
from cadf_toolkit import REFUSED, Fault, Refusal, another_program, as_input, cadf, log_name, log_of, other_log, with_advice, with_digest
from cadf_windows import UNIONS, is_part

UNIT = re.compile(("B (%s)" % "|".join(UNITS)).encode())
NAME_LINE = re.compile(("(W) (%s)" % PART).encode())
ENTRY = re.compile((r"([WG]) (%s)" % PART + 2 * r" ([1-9][0-9]{0,19}) ([0-9a-f]{64})").encode())
FLOOR_LINE = re.compile(("T (%s)" % WINDOW).encode())
SEAL = re.compile(rb"CADF-SEAL 1\nL [^\n]*\nN ([0-9]{1,20})\nR ([0-9a-f]{64})\nM ([0-9]{1,20})\nS ([0-9a-f]{64})\nZ [0-9a-f]{64}\n")
ROOTS = "roots 1"  # the kind under which the index keeps them; another tree has another one
NO_ROOT = hashlib.sha256(b"\2" + bytes(8) + hashlib.sha256().digest()).hexdigest()  # of no digests
MOST = 2 ** 64  # above all counts
LONGEST_LINE = 2 ** 14  # bytes: no right line has so many
DAMAGED = "it is damaged: have it sent again"
WENT = "%s: %s: it keeps from %s on: an archive of what went proves it, under the site's later seals too"
OTHER = {1: "no seal, as `cadf seal` writes it", 3: "no proof, as `cadf prove` writes it"}  # by the places of what `cadf verify` reads


class Roots(NamedTuple):
    """How many facts there are, and the root of their digests; how many keys these have, and the root of theirs."""
    facts: int
    root: str
    keys: int
    key_root: str

    def __str__(self):
        """The words of a seal's line, and of the index."""
        return "%d %s %d %s" % self


NOTHING = Roots(0, NO_ROOT, 0, NO_ROOT)


def roots_in(words):
    """The roots that these words are: two numbers, each with the digits of a root behind it."""
    facts, root, keys, key_root = words
    return Roots(int(facts), root, int(keys), key_root)


class Refused(Exception):
    """What is refused of a file, in the words of docs/FORMATS.md."""


class OfParts:
    """A file of the canonical text of a log's name, of a unit, and of what there is of some parts, by their names in order."""

    def __init__(self, log, unit):
        self.log, self.unit, self.parts = log, unit, {}

    def name(self):
        """The log's name."""
        return json.loads(self.log)

    def bytes(self):
        """The file."""
        head = b"%s\nL %s\nB %s\n" % (self.FIRST, self.log.encode(), self.unit.encode())
        return with_digest(head + self.went() + b"".join(itertools.starmap(self.lines, self.parts.items())))

    def went(self):
        """The lines of what is kept no more."""
        return b""


class SiteSeal(OfParts):
    """The seal of a folder: the roots of each part; if it forgot something its floor, and the roots of each window that went.

    Made of a folder, it also has what a seal doesn't tell: the parts of which facts were erased, each with its roots before and after, in order.
    """
    FIRST = b"CADF-SITE-SEAL 1"
    OTHER = "no seal of a folder, as `cadf-seal SITE/` writes it"

    def __init__(self, log, unit, gone=None):
        super().__init__(log, unit)
        self.floor = gone.kept.floor if gone else None
        self.gone = {part: roots_in(gone.windows[part].split(" ")) for part in sorted(gone.windows)} if gone else {}
        self.erased = [(part, *(roots_in(each.split(" ")) for each in roots)) for part, *roots in gone.erased] if gone else []

    def went(self):
        return ("" if self.floor is None else "T %s\n%s" % (self.floor, "".join("G %s %s\n" % item for item in self.gone.items()))).encode()

    def lines(self, part, found):
        return ("W %s %s\n" % (part, found)).encode()

    def is_last(self, line):
        """Whether the line is the digest line, right or wrong."""
        return line.startswith(b"Z")

    def take(self, line, number):
        """Takes the line of that number."""
        floor = FLOOR_LINE.fullmatch(line)
        if floor and is_window(floor[1].decode(), self.unit):
            if self.floor or self.parts:
                raise Refused("line %d: order" % number)
            self.floor = floor[1].decode()
            return
        is_gone, named = line.startswith(b"G"), ENTRY.fullmatch(line)
        if is_gone and named and (self.floor is None or named[2] == SHARED.encode() or named[2].decode() >= self.floor):
            raise Refused("line %d: shape" % number)
        part, found = part_in(line, ENTRY, number, self.unit, self.gone if is_gone else self.parts)
        if is_gone and self.parts:
            raise Refused("line %d: order" % number)
        (self.gone if is_gone else self.parts)[part] = roots_in(word.decode() for word in found.groups()[2:])

    def seal(self, part):
        """What `cadf seal` writes of the part's files, or wrote when it went. Of a part that isn't listed there is no fact."""
        roots = self.parts.get(part) or self.gone.get(part, NOTHING)
        return with_digest(("CADF-SEAL 1\nL %s\nN %d\nR %s\nM %d\nS %s\n" % (self.log, *roots)).encode())


class SiteProof(OfParts):
    """A proof under the seal of a folder: of each part that facts are in a proof under the seal of this part."""
    FIRST = b"CADF-SITE-PROOF 1"
    OTHER = "no proof of a folder, as `cadf-seal --prove FACTS SITE/` writes it"

    def __init__(self, log, unit):
        super().__init__(log, unit)
        self.own = None  # the proof that is read

    def lines(self, part, proof):
        return b"W %s\n%s" % (part.encode(), proof)

    def is_last(self, line):
        """Whether the line is the digest line, right or wrong, and not that of a proof."""
        return self.own is None and line.startswith(b"Z")

    def take(self, line, number):
        """Takes the line of that number."""
        if self.own is None:
            part, _ = part_in(line, NAME_LINE, number, self.unit, self.parts)
            self.own = self.parts[part] = bytearray()
        else:
            self.own += line + b"\n"
            self.own = None if line.startswith(b"Z") else self.own


# ---- Made of a folder

def sealed(inputs):
    """The roots of what some files have together."""
    found = SEAL.fullmatch(cadf(["seal"], inputs, subprocess.PIPE))
    if not found:
        raise another_program("seal")
    return roots_in(word.decode() for word in found.groups())


class Kept(NamedTuple):
    """What the index keeps of a part: what stands for its files, their roots as a text, the bytes of the files, and when they were read whole.

    `union` is the digest of what several files hold together that were read now.
    """
    files: bytes
    roots: str
    size: int
    read: int
    union: str = ""


def sealed_folder(name, damaged, jobs=1, is_full=False, keep_list=None):
    """The seal of a folder, as it stood at one moment, without the parts of which a file is damaged, which are noted with why.

    `read` is when the oldest was read whole. `keep_list` is given the folder, the files of each part and the root of their facts.
    """
    with Folder(name, damaged) as folder:
        for _ in range(TRIES):
            gone, index = folder.gone(), folder.site()
            seal, found = SiteSeal(index.log, index.unit, gone), kept_roots(folder, None, jobs, is_full, keep_list)
            if folder.site().gone == index.gone:
                break
        else:
            raise Fault(CHANGED % folder.shown())
        seal.parts = {part: roots_in(each.roots.split(" ")) for part, each in found.items()}
        seal.read = min((each.read * SECOND for each in found.values()), default=None)
    return seal


def kept_roots(folder, parts, jobs=1, is_full=False, keep_list=None):
    """What is kept of the roots of an open folder's parts, or of some, as they stood at one moment; it is made where it lacks.

    Roots that are kept serve if the files are there as they were, by their sizes and last lines, and none is known to be damaged, unless all is to be read.
    """
    index, known = folder.site(), {} if is_full else kept(folder, ROOTS)
    bad = cadf_state.times(cadf_state.lines_of(folder), cadf_state.DAMAGED).keys()

    def root_of(part, files):
        key, at, own = files_of(files), now() // SECOND, list(files.values())
        if key in known and are_as_read(files, known[key][1]) and bad.isdisjoint((part, digest) for digest in files):
            roots = Kept(key, *known[key])
        else:
            union = check_part(index, part, files) if files else ""
            roots = Kept(key, str(sealed(own) if own else NOTHING), size_of(files), at, union if len(files) > 1 else "")
        if keep_list and own:
            keep_list(folder, own, roots_in(roots.roots.split(" ")).root)
        return roots

    found = made_of_parts([folder], parts, root_of, jobs)
    keep(folder, ROOTS, {each.files: each[1:4] for each in found.values() if each.files not in known or known[each.files] != list(each[1:4])})
    keep(folder, UNIONS, {each.files: (each.union, each.size, each.read) for each in found.values() if each.union})
    return found


# ---- Compared

class Difference(NamedTuple):
    """What differs in a part between an earlier seal and a later one, in words, and whether facts that were sealed are no more there."""
    part: str
    words: str
    is_loss: bool
    is_as_sealed: bool = False  # a window that went with what it had by the earlier seal
    is_erased: bool = False  # one of which facts were erased when it had what it has by the earlier seal


def erased_since(seal, part, roots):
    """How many facts of a part were erased since it had these roots, by what a folder says; 0 if it had others when facts were first erased since then."""
    acts = [each[1:] for each in seal.erased if each[0] == part]
    first = next((place for place, (before, _) in enumerate(acts) if before == roots), len(acts))
    return sum(before.facts - after.facts for before, after in acts[first:])


def differences(then, now, but):
    """Yields what differs between two seals of a folder, in order of parts, but of some."""
    for part in sorted({*then.parts, *then.gone, *now.parts} - but, key=order):
        old, new, went = then.parts.get(part), now.parts.get(part), now.gone.get(part)
        if old is None and part in then.gone:
            if new is not None or went != then.gone[part]:
                yield Difference(part, "gone then, now %s" % ("%d facts" % new.facts if new else "not told, or otherwise"), True)
        elif old is None:
            yield Difference(part, "new, facts now %d" % new.facts, False)
        elif new != old and (count := erased_since(now, part, old)):
            yield Difference(part, "erased %d facts, facts then %d, now %d" % (count, old.facts, new.facts if new else 0), True, False, True)
        elif new is None:
            why = "" if went is None else ": %d when it went" % went.facts
            yield Difference(part, "gone %s, facts then %d%s" % ("as it was sealed" if went == old else "otherwise", old.facts, "" if went == old else why), True, went == old)
        elif new != old:
            yield Difference(part, "facts then %d, now %d" % (old.facts, new.facts), False)


# ---- Read

def ended_lines(file):
    """Yields each line that ends within the first 2^30 bytes, without its line feed, with the digits of SHA-256 of all before it.

    Of a line that is longer than a right one its first bytes are yielded.
    """
    before, left = hashlib.sha256(), LARGEST
    while True:
        line, piece, digest = b"", b"", before.hexdigest().encode()
        while not piece.endswith(b"\n"):
            piece = file.readline(min(LONGEST_LINE, left))
            if not piece:
                return
            before.update(piece)
            left, line = left - len(piece), line or piece
        yield line[:-1] if line.endswith(b"\n") else line, digest


def log_in(line):
    """The canonical text of the log's name in the second line."""
    try:
        text = line[2:].decode() if line.startswith(b"L ") else ""
        log_name(text)
    except ValueError:
        raise Refused("log line") from None
    return text


def unit_in(line):
    """The unit in the third line."""
    found = UNIT.fullmatch(line)
    if line.startswith(b"Z") or not found:
        raise Refused("line 2: unended" if line.startswith(b"Z") else "line 3: shape")
    return found[1].decode()


def check_last(line, digest, file):
    """Refuses a digest line that isn't the one of these digits, and bytes after it."""
    size = os.fstat(file.fileno()).st_size
    if line != b"Z " + digest:
        raise Refused("digest")
    if size > file.tell():
        raise Refused("too large" if size > LARGEST else "trailing bytes")


def part_in(line, pattern, number, unit, before):
    """What the line of that number has of a part, which comes after those before."""
    found = pattern.fullmatch(line)
    part = found[2].decode() if found else ""
    if not is_part(part, unit) or any(int(count) >= MOST for count in found.groups()[2::2]):
        raise Refused("line %d: shape" % number)
    if before and order(part) <= order(next(reversed(before))):
        raise Refused("line %d: order" % number)
    return part, found


def lines_in(file, kind):
    """What an open file of that kind has: its first line, its log, its unit, then lines as the kind takes them."""
    log = kept = None
    for number, (line, digest) in enumerate(ended_lines(file), 1):
        if number == 1 and line != kind.FIRST:
            raise Refused("version")
        if number == 2:
            log = log_in(line)
        elif number == 3:
            kept = kind(log, unit_in(line))
        elif number > 3 and kept.is_last(line):
            check_last(line, digest, file)
            return kept
        elif number > 3:
            kept.take(line, number)
    raise Refused("too large" if os.fstat(file.fileno()).st_size > LARGEST else "truncated")


def read(input, kind):
    """What a file of that kind has. Fault: it is refused."""
    try:
        with input.reading() as file:
            return lines_in(file, kind)
    except Refused as fault:
        is_one = input.first(len(kind.FIRST + b"\n")) == kind.FIRST + b"\n"
        raise Fault("%s: %s: %s" % (input.name, fault, DAMAGED if is_one else kind.OTHER), REFUSED) from None


# ---- Proofs

def by_part(facts, log, unit):
    """The facts of a file by the parts that they are in, by the name of each. A file of another log is refused."""
    store, found = Store(), {}
    with split(["--by", unit, "--log=" + log], [facts]) as parts:
        parts.head()
        for part in parts.names():
            with open(store.begin(), "wb", closefd=False) as output:
                parts.copy(output)
            found[part] = store.item(part, "facts")
    return found


def proved(facts, name):
    """The proof which facts of a file a folder has, and which it hasn't: each is looked for in the window of its instant."""
    with Folder(name) as folder:
        index, gone = folder.site(), folder.gone()
        proof, asked = SiteProof(index.log, index.unit), by_part(facts, index.name(), index.unit)
        for part in asked:
            if not gone.kept.has(part):
                raise Fault(WENT % (folder.shown(), part, gone.kept.floor), REFUSED)
        with without_facts(proof.log, name) as empty:
            def proof_of_part(part, files):
                with asked[part].opened("%s of %s" % (part, facts.name)) as own:
                    return cadf(["prove"], [own, *(files.values() or [empty])], subprocess.PIPE)

            proof.parts = made_of_parts([folder], asked, proof_of_part)
    return proof


def check_alike(seal, proof, name):
    """Refuses a proof of that name that is of another log or of another unit than the seal."""
    if proof.log != seal.log:
        raise Fault("%s: %s" % (name, other_log(proof.name())), REFUSED)
    if proof.unit != seal.unit:
        raise Fault("%s: %s" % (name, other_unit(proof.unit, seal.unit)), REFUSED)


def check_parts(asked, proof, name):
    """Refuses a proof of that name that has not just the parts that the facts are in."""
    for part in sorted({*asked, *proof.parts}, key=order):
        if part not in proof.parts:
            raise Fault("%s: %s: %s" % (name, part, with_advice("not shown")), REFUSED)
        if part not in asked:
            raise Fault("%s: %s: %s" % (name, part, with_advice("not needed")), REFUSED)


def verify(words, inputs):
    """What `cadf verify` with these words writes of a seal, facts and a proof. Fault: the file that it refuses."""
    try:
        shown = cadf(["verify", *words], inputs, subprocess.PIPE)
        if not shown.startswith((b"present ", b"absent ")):
            raise another_program("answer of `cadf verify`")
        return shown
    except Refusal as fault:
        place = 2 if fault.said.startswith("fact ") else fault.place
        if place is None or fault.place == 2:
            raise
        said = "version: " + OTHER[place] if fault.said == "version" else with_advice(fault.said).replace(cadf_toolkit.DAMAGED, DAMAGED)
        raise Fault("%s: %s" % (inputs[place - 1].name, said), fault.status) from None


def verified(words, seal, facts, proof):
    """What is written of each fact, part by part, under the seal of a folder. Each is looked for in the part of its instant."""
    own, found = read(seal, SiteSeal), read(proof, SiteProof)
    asked = by_part(facts, own.name(), own.unit)
    check_alike(own, found, proof.name)
    if not asked:
        raise Fault("%s: no facts" % facts.name, REFUSED)
    check_parts(asked, found, proof.name)
    return b"".join(part_verified(words, own.seal(part), item, found.parts[part], [each.name for each in (seal, facts, proof)])
                    for part, item in asked.items())


def part_verified(words, seal, item, proof, names):
    """The same of one part, by the bytes of its seal and of its proof."""
    seal_name, name, proof_name = ("%s of %s" % (item.part, each) for each in names)
    with as_input(seal, seal_name) as sealed_part, item.opened(name) as facts, as_input(proof, proof_name) as shown:
        return verify(words, [sealed_part, facts, shown])
