"""Rulings and their records: a record is an event of the log by which who rules says so, when and why, and which may be signed.

A record is made of these texts and its ruling alone, and its identifier has their digest, so nobody else's event passes for one.
A signature of the same texts is an attachment of it. docs/FORMATS.md has the form, docs/SECURITY.md what it shows.
"""
import argparse
import base64
import contextlib
import getpass
import hashlib
import json
import os
import re
import socket
import subprocess
import tempfile
from typing import NamedTuple

from cadf_budget import BYTES, SECONDS, confine
from cadf_index_file import keep_refused_signatures, refused_signatures
from cadf_question import text_typed
from cadf_site import INDEX, Folder, is_folder
from cadf_toolkit import Fault, is_log_name, name_shown, opened, printable, started, with_digest

EVENT, RULING = "E", "U"
KINDS = {"E": "data/event", "G": "data/geolocation", "M": "data/metric", "P": "data/property", "R": "data/resource"}
LETTERS = {kind: letter for letter, kind in KINDS.items()}
ACTION, REASON, MADE_BY, NAMESPACE = "evaluate/ruling", "cadf/ruling", "cadf-conflicts", "cadf-ruling"
PREFIX, NODE = NAMESPACE + ":", b'\n[1,0,"U"]\n'
LONGEST_WHY, LONGEST_BODY, LONGEST_SIGNATURE = 2 ** 12, 2 ** 16, 2 ** 14  # characters
ARMOR = re.compile(r"-----BEGIN SSH SIGNATURE-----\n([A-Za-z0-9+/=\n]+)-----END SSH SIGNATURE-----\n?")
NOT_VERIFIED = 255  # ssh-keygen's status
MAGIC = b"SSHSIG\0\0\0\1"
NO_SIGNER = "install ssh-keygen (Debian: openssh-client)"
MOST_REFUSED, MOST_UNKEPT = 2 ** 18, 100  # refused signatures that a site's index keeps; new ones that are lost if a call is ended
# With which ssh-keygen's last line ends if the signature itself is at fault. It says nothing of a key that is another person's.
AT_FAULT = re.compile(rb"(?s)|.*(?:incorrect signature|invalid format|incomplete message|string is too large|namespace does not match|key type does not match|"
                      rb"signature algorithm not supported|unexpected bytes remain after decoding|Signature contains trailing data)\r?\n")
CHANGING = b"cert-authority", b"valid-after", b"valid-before"  # words of a file of allowed signers, with which an answer may change by itself


def canonical(value):
    """The canonical text of a value without numbers."""
    return json.dumps(value, ensure_ascii=False, sort_keys=True, separators=(",", ":"))


class Record(NamedTuple):
    """A ruling, by letter, key and digest, and who made it, when and why."""
    letter: str
    key: str
    digest: str
    who: str
    when: str
    why: str

    def text(self, log):
        """What is signed: the canonical text of the log's name and of these texts, and a line feed."""
        return canonical([log, *self]) + "\n"

    def identifier(self, log):
        return PREFIX + hashlib.sha256(self.text(log).encode()).hexdigest()

    def body(self):
        """The canonical text of the event's body."""
        return canonical({
            "action": ACTION, "eventTime": self.when, "eventType": "control", "outcome": "success", "observer": {"id": MADE_BY},
            "initiator": {"id": self.who, "typeURI": "data/security/account/user"}, "reason": {"reasonCode": self.why, "reasonType": REASON},
            "target": {"attachments": [{"content": self.digest, "name": "sha256", "typeURI": "xs:string"}], "id": self.key, "typeURI": KINDS[self.letter]}})

    def atoms(self, log, signature=None):
        """The atoms of the event, and of its signature, if there is one."""
        own = (EVENT, self.identifier(log), self.body())
        attached = [own + ("A", canonical({"content": signature, "name": NAMESPACE, "typeURI": "xs:string"}))] if signature else []
        return [own, *attached]


def record_of(log, identifier, body):
    """The record that an event is, by its identifier and its body. None: it is none, or not as it was made."""
    if not identifier.startswith(PREFIX) or len(body) > LONGEST_BODY:
        return None
    try:
        event = json.loads(body)
        target = event["target"]
        found = Record(LETTERS[target["typeURI"]], target["id"], target["attachments"][0]["content"], event["initiator"]["id"], event["eventTime"],
                       event["reason"]["reasonCode"])
        return found if found.body() == body and found.identifier(log) == identifier else None
    except (ValueError, KeyError, IndexError, TypeError, RecursionError):
        return None


def signature_of(attachment):
    """The signature that an attachment has, or None."""
    try:
        found = json.loads(attachment) if len(attachment) <= LONGEST_SIGNATURE else {}
        own = found["content"] if found.get("name") == NAMESPACE else None
        return own if isinstance(own, str) and ARMOR.fullmatch(own) else None
    except (ValueError, KeyError, RecursionError):
        return None


def is_of_record(atom):
    """Whether an atom may be of a record."""
    return atom[0] == EVENT and atom[1].startswith(PREFIX) and (len(atom) == 3 or len(atom) == 5 and atom[3] == "A")


def has_more(letter, name):
    """Whether more than the values of a key says who ruled, or on what."""
    return letter != EVENT or name.startswith(PREFIX)


class Records:
    """The records in a log of that name, by ruling, each with its signatures."""

    def __init__(self, log):
        self.log, self.found, self.last = log, {}, (None, None)

    def add(self, atom):
        """Adds what an atom has of a record. A body comes before what came with it."""
        if self.last[0] != atom[:3]:
            self.last = atom[:3], record_of(self.log, *atom[1:3])
        record = self.last[1]
        if record:
            signatures = self.found.setdefault(record[:3], {}).setdefault(record, [])
            signatures += [each for each in map(signature_of, atom[4:]) if each]

    def of(self, ruling):
        """The records of a ruling, with their signatures."""
        return self.found.get(ruling, {})


# ---- Signatures

def default_name():
    """Who rules, or forgets, if nobody is named: the user and the machine."""
    try:
        return "%s@%s" % (getpass.getuser(), socket.gethostname())
    except (OSError, KeyError):
        return "?@" + socket.gethostname()


def name_typed(text):
    """Reads the name of who rules, or forgets."""
    if not is_log_name(text_typed(text)):
        raise argparse.ArgumentTypeError("not a name of 1 to 1,024 bytes without control characters")
    return text


def reason_typed(text):
    """Reads why somebody does so."""
    if len(text_typed(text)) > LONGEST_WHY:
        raise argparse.ArgumentTypeError("longer than %d characters" % LONGEST_WHY)
    return text


def run_keygen(words, text, namespace=NAMESPACE, **options):
    """Has ssh-keygen work on a text, or on bytes. Returns its status, what it writes, and what it says."""
    try:
        with started(["ssh-keygen", "-Y", *words, "-n", namespace], stdin=subprocess.PIPE, stdout=subprocess.PIPE, stderr=subprocess.PIPE, **options) as child:
            output, said = child.communicate(text if isinstance(text, bytes) else text.encode())
            return child.returncode, output, said
    except FileNotFoundError:
        raise Fault("ssh-keygen: no such program: " + NO_SIGNER) from None


def signed(record, log, key):
    """The signature of a record by the key in that file, or by the one of an agent that has it."""
    status, output, said = run_keygen(["sign", "-f", key], record.text(log))
    found = output.decode("ascii", "replace")
    if status or not ARMOR.fullmatch(found):
        raise Fault("%s: ssh-keygen signs nothing with it: %s" % (name_shown(key), printable(said.decode("utf-8", "backslashreplace").strip()) or "no signature"))
    return found


class Refused:
    """The signatures for a site that ssh-keygen has refused, by keys, as the index of a folder keeps them. One that it accepts is asked each time.

    So who can write an index has no forged signature be taken, and strangers, who can't make one that is accepted, have each cost one call for good.
    """

    def __init__(self):
        self.site, self.keys, self.new = None, None, set()

    def of(self, site):
        """Has it be those of a site, of that name."""
        if site != self.site:
            self.keep()
            self.site, self.keys = site, None

    def has(self, key):
        if self.keys is None:
            self.keys = set()
            if self.is_kept():
                with Folder(self.site) as folder:
                    self.keys = refused_signatures(folder)
        return key in self.keys

    def add(self, key):
        self.keys.add(key)
        self.new.add(key)
        if len(self.new) == MOST_UNKEPT:
            self.keep()

    def keep(self):
        """Keeps the new ones."""
        if self.new and self.is_kept():
            with Folder(self.site) as folder:
                keep_refused_signatures(folder, self.new, MOST_REFUSED)
        self.new = set()

    def is_kept(self):
        """Whether there is a folder that may have an index, which one that is to be made has not."""
        return self.site is not None and is_folder(self.site) and os.path.lexists(os.path.join(self.site, INDEX))


class Allowed:
    """Who may sign, as a file of ssh-keygen's allowed signers has it."""

    def __init__(self, name):
        self.known, self.file = {}, tempfile.NamedTemporaryFile()  # what was found of signatures; a copy
        with opened([name], pipes=True) as (file,):
            data = file.whole()
        self.file.write(data)
        self.file.flush()
        self.keys = None if b"cert-authority" in data else set(data.split())
        self.digest, self.is_lasting = hashlib.sha256(data).hexdigest(), not any(word in data.lower() for word in CHANGING)
        self.refused = Refused()

    def has_key(self, signature):
        """Whether the key that a signature names is in the file, which costs no program."""
        if self.keys is None:
            return True
        with contextlib.suppress(ValueError):
            data = base64.b64decode(ARMOR.fullmatch(signature)[1])
            length = int.from_bytes(data[len(MAGIC):len(MAGIC) + 4], "big")
            return data.startswith(MAGIC) and base64.b64encode(data[len(MAGIC) + 4:len(MAGIC) + 4 + length]) in self.keys
        return False

    def has_signed(self, log, record, signatures):
        """Whether one of the signatures is that of who is named, for this record."""
        return any(self.is_good(log, record, each) for each in signatures if self.has_key(each))

    def is_good(self, log, record, signature):
        """Whether ssh-keygen accepts a signature, which is asked once, also by later calls if it refuses one for a folder."""
        if (record, signature) not in self.known:
            key = hashlib.sha256(canonical([self.digest, record.text(log), signature]).encode()).digest()
            self.known[record, signature] = not (self.is_lasting and self.refused.has(key)) and self.is_accepted(log, record, signature, key)
        return self.known[record, signature]

    def is_accepted(self, log, record, signature, key):
        with tempfile.NamedTemporaryFile() as file:
            file.write(signature.encode())
            file.flush()
            words = ["verify", "-f", self.file.name, "-I", record.who, "-s", file.name]
            status, _, said = run_keygen(words, record.text(log), preexec_fn=lambda: confine(SECONDS, BYTES))
        if self.is_lasting and status == NOT_VERIFIED and AT_FAULT.fullmatch(said):
            self.refused.add(key)
        return status == 0

    def has_ruled(self, records, ruling):
        """Whether a ruling has a record that is signed by who is named."""
        return any(self.has_signed(records.log, *item) for item in records.of(ruling).items())


def standing(key, rulings, digests):
    """What stands for the rulings and the values of a key as they are, by their digests: another ruling or value has another one."""
    return hashlib.sha256(canonical([*key, sorted(rulings), sorted(digests)]).encode()).hexdigest()


# ---- Files of rulings

def file_of_atoms(log_line, atoms):
    """The replica file, of format 2, of a grounded set of atoms."""
    lines, last = [b"CADF-REPLICA 2\n", log_line], ()
    for atom in sorted(set(atoms)):
        shared = next((place for place, pair in enumerate(zip(atom, last)) if pair[0] != pair[1]), min(len(atom), len(last)))
        for depth in range(shared, len(atom)):
            node = [depth + 1, int(depth + 1 == len(atom)), atom[depth]]
            lines.append(json.dumps(node, ensure_ascii=False, separators=(",", ":")).encode() + b"\n")
        last = atom
    return with_digest(b"".join(lines))
