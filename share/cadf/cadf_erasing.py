"""How facts of a site that is a folder are erased: in which files keys are that a list names, and these files without what it leaves out.

Windows are looked through for keys; what then goes `cadf omit` says. The part `shared` is always asked. A tool imports this as it imports
cadf_toolkit, and uses

  marked_files(found, listed)  the files of a locked folder that have keys of a list, and records of rulings on such keys
  left_out(found, ..)          writes these files anew, without what the list leaves out
"""
import collections
import contextlib
import hashlib
import json
import tempfile

from cadf_erased import MOST_AT_ONCE, name_of_key, names_of
from cadf_keys import NODES, contents, keys_in
from cadf_rulings import PREFIX, record_of
from cadf_seals import NOTHING, kept_roots, sealed
from cadf_site import SHARED, WORKING, file_name, made_of_parts, nothing_of, order
from cadf_toolkit import Fault, Input, as_input, grouped, last_digest, with_digest

AT_ONCE = 200  # files of which the names are found at once
RECORD = b'"' + PREFIX.encode()
BODY = b"[3,"  # with which the line of an event's body begins


# ---- Which files have such keys

def keys_recorded(log, key, lines):
    """Yields the names of the keys on which an event is a record of a ruling, by its key and its lines."""
    if key.startswith(RECORD):
        for line in lines.split(b"\n"):
            record = record_of(log, json.loads(key), json.loads(line)[2]) if line.startswith(BODY) else None
            if record:
                yield name_of_key(record.letter, record.key)


def marked_files(found, listed, jobs):
    """The files of windows of a locked folder that have keys of a list, or records of rulings on such keys.

    By part and digest they have the lines of each such key, by its text.
    """
    wanted, log = {bytes.fromhex(name[2:].decode()) for name in listed.keys()}, found.index.name()

    def is_marked(key, lines):
        return hashlib.sha256(b'["E",%s]' % key).digest() in wanted or any(name in listed.names for name in keys_recorded(log, key, lines))

    def marked(_, files):
        return {digest: {key: lines for key, lines in keys_in(contents(digest, each)) if is_marked(key, lines)} for digest, each in files.items()}

    parts = [part for part in found.index.parts() if part != SHARED]
    return {(part, digest): keys for part, files in made_of_parts([found.folder], parts, marked, jobs).items() for digest, keys in files.items() if keys}


def names_marked(marked):
    """The names of keys that were found so."""
    return {b"K " + hashlib.sha256(b'["E",%s]' % key).hexdigest().encode() for keys in marked.values() for key in keys}


# ---- What is left of them

class Went(collections.namedtuple("Went", "parts names")):
    """What went: by part the texts that a seal has of it before and after, and the names of the facts and the keys."""


def left_out(found, listed, marked):
    """Writes files of a locked folder anew, without what a list leaves out, for `site` to name. Says what went: a Went."""
    names, before, lines = set(), {}, []
    with listed.opened() as opened:
        for part, digest in [(SHARED, digest) for digest in found.index.digests(SHARED)] + sorted(marked):
            gone = written_anew(found, opened, part, digest)
            if gone is not None:
                names |= gone
                lines += [b"".join(marked[part, digest].values())] if part != SHARED else []
                before[part] = None
    names |= names_in(found.index.log, lines)
    roots = kept_roots(found.folder, list(before))
    return Went({part: (roots[part].roots, str(sealed_now(found, part))) for part in sorted(before, key=order)}, names)


def written_anew(found, listed, part, digest):
    """Writes a file anew without what an open list leaves out. Returns the names of what went, if it is of `shared`; None if nothing did."""
    with found.files(part, [digest]) as (own,):
        with found.new_file() as output:
            found.cadf(["omit"], [listed, own], output.fileno())
        with found.folder.input(WORKING).file as file, tempfile.TemporaryFile() as gone:
            new, went = last_digest(file), set()
            if new != digest and part == SHARED:
                found.cadf(["missing"], [own, Input(own.name, file)], gone.fileno())
                went = names_of([Input(own.name, gone)])
    left = [] if new == nothing_of(found.index.log) else [new]
    if new == digest or not left:
        found.is_removed(WORKING)
    else:
        found.name(file_name(part, new))
    if new == digest:
        return None
    found.changed[part] = [each for each in found.digests(part) if each not in (digest, new)] + left
    return went


def names_in(log, lines):
    """The names of the facts and the keys in lines of windows, each all that a file has of some keys."""
    names = set()
    for group in grouped(lines, len, MOST_AT_ONCE, AT_ONCE):
        with contextlib.ExitStack() as files:
            data = [with_digest(b"CADF-REPLICA 2\nL %s\n%s%s" % (log.encode(), NODES[1:], each)) for each in group]
            names |= names_of([files.enter_context(as_input(each, "what went")) for each in data])
    return names


def sealed_now(found, part):
    """The roots of what a part's files have now."""
    digests = found.digests(part)
    with found.files(part, digests) as inputs:
        return sealed(inputs) if inputs else NOTHING


def check_counts(went):
    """Raises that another number of facts went than has names: then nobody could show what went."""
    counted = sum(int(before.split(" ")[0]) - int(after.split(" ")[0]) for before, after in went.parts.values())
    if counted != sum(name.startswith(b"F") for name in went.names):
        raise Fault("of %d facts that would go not all have names: nothing went" % counted)
