"""The command: what a call's words mean, and its exit status and streams."""
from tests.reference import json_text
from tests.reference.atoms import with_carriers
from tests.reference.events import Fault, document, is_name
from tests.reference.growth_files import growth_of, grown
from tests.reference.inventory_files import inventory_of, missing_by, read_inventory
from tests.reference.key_files import read_keys
from tests.reference.list_files import left_by, read_erased_list, read_sealed_list, sealed_list_of
from tests.reference.rehearsal import read_script, rehearsal_text, sites_of
from tests.reference.replica_files import file_of, read_file
from tests.reference.rulings import check_key, place_of, ruled
from tests.reference.seal_files import (
    keys_proof_of, proof_of, read_proof, read_seal, seal_of, verified, verified_keys,
)
from tests.reference.shown_texts import check_line, conflict_text, log_text
from tests.reference.sketch_files import cells_of, missing_by_sketch, read_sketch, salt_of, sketch_of
from tests.reference.split_files import UNITS, split_of

DIRECTORY = object()  # stands for the content of a folder
# How many words each command wants beside its options, and those that take further files behind them.
WORDS_WANTED = {b"join": 1, b"split": 1, b"missing": 2, b"missing-by": 2, b"inventory": 1, b"show": 1, b"check": 1,
                b"rehearse": 3, b"rule": 4, b"sketch": 1, b"missing-by-sketch": 2, b"seal": 1, b"prove": 2, b"verify": 3,
                b"sealed": 1, b"growth": 2, b"grew": 3, b"omit": 2}
SEVERAL = (b"join", b"split", b"inventory", b"show", b"check", b"rule", b"sketch", b"seal", b"prove", b"sealed", b"growth", b"omit")
FLAGS = {b"show": [b"--conflicts"], b"verify": [b"--absent", b"--keys"], b"prove": [b"--keys"]}
OPTIONS = {b"join": [b"--log"], b"split": [b"--by", b"--log"], b"sketch": [b"--cells", b"--salt"],
           b"grew": [b"--erased"]}  # those with a value
# Options with a file, which may be given again and again: a further file of the sender's or of the receiver's.
AGAIN = {b"missing": [b"--from", b"--to"], b"missing-by": [b"--from"], b"missing-by-sketch": [b"--from"]}


class Usage(Exception):
    """The words are no call."""


class Answer:
    """An exit status and what was written; `error` is None where it is a text of clap's."""

    def __init__(self, status, output, error):
        self.status, self.output, self.error = status, output, error


class Call:
    """A call's command, options and files."""

    def __init__(self, words):
        try:
            b"".join(word + b"\n" for word in words).decode()
        except UnicodeDecodeError:
            raise Usage
        if not words or words[0] not in WORDS_WANTED:
            raise Usage
        self.command, self.given, self.flags, self.files = words[0], {}, [], []
        self.again = {option: [] for option in AGAIN.get(self.command, [])}
        self.rest = list(words[1:])
        while self.rest:
            self.take(self.rest.pop(0))
        self.log = self.given.get(b"--log")
        wanted = WORDS_WANTED[self.command]
        if len(self.files) < wanted or len(self.files) > wanted and self.command not in SEVERAL:
            raise Usage
        self.unit = self.given.get(b"--by", b"").decode()
        if self.command == b"split" and self.unit not in UNITS:
            raise Usage
        if self.command == b"rehearse":
            self.log, self.sites, *self.files = self.files
        if self.command == b"rule":
            self.ruling = [word.decode() for word in self.files[:3]]
            del self.files[:3]
        if b"--erased" in self.given:
            self.files.append(self.given[b"--erased"])
        if self.again:  # FROM and each further one, then TO and each further one
            sender, receiver = self.files
            self.senders = 1 + len(self.again[b"--from"])
            self.files = [sender, *self.again[b"--from"], receiver, *self.again.get(b"--to", [])]

    def take(self, word):
        """One word, and the one behind it where it is an option's value."""
        option, is_joined, value = word.partition(b"=")
        if word == b"-" or not word.startswith(b"-"):
            self.files.append(word)
        elif word == b"--":
            self.files += self.rest
            self.rest = []
        elif word in FLAGS.get(self.command, []) and word not in self.flags:
            self.flags.append(word)
        elif option in self.again:
            self.again[option].append(value if is_joined else self.value())
        elif option in OPTIONS.get(self.command, []) and option not in self.given:
            self.given[option] = value if is_joined else self.value()
        else:
            raise Usage

    @property
    def flag(self):
        """Whether the flag of what is written or asked is given, which isn't the one for keys."""
        return any(flag != b"--keys" for flag in self.flags)

    @property
    def of_keys(self):
        """Whether a key file stands in place of facts."""
        return b"--keys" in self.flags

    def value(self):
        if not self.rest or self.rest[0].startswith(b"-") and self.rest[0] != b"-":
            raise Usage
        return self.rest.pop(0)


def read_input(data):
    """The log and the atoms of an input."""
    return read_file(data) if data.startswith(b"CADF-") else document(json_text.read(data))

# How the first inputs of a command are read, and how its last ones, where they aren't read as any input.
FIRST_READ = {b"verify": [read_seal], b"growth": [read_sealed_list], b"omit": [read_erased_list]}
KEYS_READ = {b"prove": [read_keys], b"verify": [read_seal, read_keys]}  # with --keys
LAST_READ = {b"missing-by": [read_inventory], b"missing-by-sketch": [read_sketch], b"verify": [read_proof]}
ALL_READ = {b"grew": [read_seal, read_seal, read_proof, read_erased_list]}
# What is made of one input and the files behind it.
BEFORE_FILES = {b"prove": proof_of, b"growth": growth_of, b"omit": lambda log, erased, atoms: file_of(log, left_by(erased, atoms))}


def loaded(number, data, read):
    """What `read` makes of an input: its log, and its atoms or digests."""
    if data is DIRECTORY:
        raise Fault("input %d: read fault" % number, 3)
    try:
        return read(data)
    except json_text.NotJson:
        raise Fault("input %d: not JSON" % number)
    except json_text.NotWhole:
        raise Fault("input %d: a number is not whole" % number)
    except Fault as fault:
        raise Fault("input %d: %s" % (number, fault.said))


def opened(call, files):
    """The contents of a call's files; all are opened before one is read."""
    for number, name in enumerate(call.files, 1):
        if name not in files:
            raise Fault("input %d: read fault" % number, 3)
    return [files[name] for name in call.files]


def inputs_of(call, files):
    """The log and the contents of each input."""
    contents = opened(call, files)
    first, last = (KEYS_READ if call.of_keys else FIRST_READ).get(call.command, []), LAST_READ.get(call.command, [])
    reads = ALL_READ.get(call.command) or [*first, *[read_input] * (len(contents) - len(first) - len(last)), *last]
    return [loaded(number, data, read) for number, (data, read) in enumerate(zip(contents, reads), 1)]


def sides(call, items):
    """What there is of each input, by sides: the sender's and the receiver's of a delta, else all in one."""
    return [items[:call.senders], items[call.senders:]] if call.again else [items]


def log_written(call, logs):
    """The log under which is written; every input that names a log must name that one. What stands before the files comes last, and names none."""
    numbered = list(enumerate(logs, 1))
    if call.command in BEFORE_FILES:
        logs, numbered = logs[1:], [*numbered[1:], numbered[0]]
    first = [next((log for log in side if log is not None), None) for side in sides(call, logs)]
    named = call.log.decode() if call.log is not None else first[0]
    if named is None or call.log is None and None in first:
        raise Fault("no log named")
    for number, log in numbered:
        if log not in (None, named):
            raise Fault("input %d: other log" % number)
    return named


def rehearsed(call, files):
    count = sites_of(call.sites.decode())
    script, = opened(call, files)
    if script is DIRECTORY:
        raise Fault("input 1: read fault", 3)
    return rehearsal_text(call.log.decode(), count, read_script(script))


def written(call, files):
    if call.log is not None and not is_name(call.log.decode()):
        raise Fault("log name", 2)
    if call.command == b"rehearse":
        return rehearsed(call, files)
    if call.command == b"rule":
        check_key(*call.ruling[:2])
        call.ruling[2] = place_of(call.ruling[2])
    cells, salt = cells_of(call.given.get(b"--cells")), salt_of(call.given.get(b"--salt"))
    inputs = inputs_of(call, files)
    log = log_written(call, [log for log, _ in inputs])
    sets = [contents for _, contents in inputs]
    if call.command == b"verify":
        return (verified_keys if call.of_keys else verified)(*sets, "absent" if call.flag else "present")
    if call.command == b"grew":
        return grown(*sets, *[None] * (4 - len(sets)))
    if call.command in BEFORE_FILES:
        made = keys_proof_of if call.of_keys else BEFORE_FILES[call.command]
        return made(log, sets[0], set().union(*sets[1:]))
    if call.command in LAST_READ:
        sets = [set().union(*sets[:-1]), sets[-1]]
    else:
        sets = [set().union(*side) for side in sides(call, sets)]
    if call.command == b"join":
        return file_of(log, *sets)
    if call.command == b"split":
        return split_of(log, *sets, call.unit)
    if call.command == b"missing":
        return file_of(log, with_carriers(sets[0] - sets[1]))
    if call.command == b"missing-by":
        return file_of(log, missing_by(*sets))
    if call.command == b"missing-by-sketch":
        return file_of(log, missing_by_sketch(len(inputs), log, *sets))
    if call.command == b"sketch":
        return sketch_of(log, *sets, cells, salt)
    if call.command == b"rule":
        return file_of(log, ruled(*sets, *call.ruling))
    if call.command == b"inventory":
        return inventory_of(log, *sets)
    if call.command == b"seal":
        return seal_of(log, *sets)
    if call.command == b"sealed":
        return sealed_list_of(log, *sets)
    if call.command == b"check":
        return check_line(log, *sets)
    return conflict_text(log, *sets) if call.flag else log_text(log, *sets)


def answer(words, files):
    """What a call with these words answers where the files have these contents; all names are bytes."""
    try:
        return Answer(0, written(Call(words), files), b"")
    except Usage:
        return Answer(2, b"", None)
    except Fault as fault:
        return Answer(fault.status, b"", ("cadf: %s\n" % fault.said).encode())
