"""What the driver of replicas answers, by the second implementation.

A word of a call or a field of an answer is a text, bytes or a number; replica_words.py makes the words. Each of `KINDS` makes
a driver's name, a call with its words and the fields of its answer.
"""
from tests.generated import replica_words as words
from tests.generated.file_answers import CAUSES, atoms_in, line_of
from tests.generated.replica_words import spelled_set
from tests.reference.atoms import DIGITS, LETTERS, RULING, is_atom, is_front, is_on_a_carrier, with_carriers
from tests.reference.events import Fault, document, is_name
from tests.reference.inventory_files import digest_of, missing_by
from tests.reference.json_text import NotJson, NotWhole, read, read_canonical
from tests.reference.rehearsal import read_script, sites_after
from tests.reference.replica_files import atom_of
from tests.reference.rulings import check_key, digest_of_value, ruled_value, rulings_of
from tests.reference.shown_texts import conflict_count, parts_by_carrier, values_by_key, values_shown

TURN_FAULTS = {
    "no such site": "NoSite", "no such message": "NoMessage", "not an inventory": "NotInventory",
    "wrong addressee": "WrongAddressee", "other log": "OtherLog", "script": "Line"}
KEY_FAULTS = {"letter": "Letter", "key": "Key"}


def replica_of(word):
    """The log and the atoms that a word tells."""
    log, *lines = word.split("\n")
    return log, atoms_in(lines)


def inventory_of(word):
    """The log and the digests that a word tells."""
    log, *digests = word.split("\n")
    return log, {digest.encode() for digest in digests}


def held(log, atoms):
    """The word of a replica, its atoms in their order."""
    return spelled_set(log, map(line_of, sorted(atoms)))


def noted(log, digests):
    """The word of an inventory, its digests in their order."""
    return spelled_set(log, (digest.decode() for digest in sorted(digests)))


def option(found):
    return ["none"] if found is None else ["some", found]


def least_above(values, value):
    """The least of the values that is above that one, held or not, or None."""
    return min((one for one in values if one > value), default=None)

# Atoms, and lists of texts.

def read_atom(line):
    """The fields of a line that is read as an atom."""
    try:
        return ["ok", *atom_of(line.encode())]
    except Fault as fault:
        return ["err", CAUSES[fault.said]]


def compared(line, other):
    """How the atoms of two lines stand to each other."""
    one, two = atom_of(line.encode()), atom_of(other.encode())
    return ["Equal" if one == two else "Less" if one < two else "Greater"]


def path_kind(*texts):
    """Whether the texts are an atom, begin one, or do neither."""
    return ["ok", "Whole" if is_atom(texts) else "Prefix" if is_front(texts) else "Not"]


def log_name(text):
    """The name of which the text is the canonical text."""
    try:
        name = read_canonical(text)
    except (NotJson, NotWhole):
        name = None
    return ["ok", *option(name if is_name(name) else None)]

# What a replica takes.

def taking(letters):
    """What answers a replica that takes what a document contributes with these letters."""
    def answered(before, text):
        log, atoms = replica_of(before)
        _, more = document(read(text.encode()))
        return ["ok", held(log, atoms | {atom for atom in more if atom[0] in letters})]
    return answered


def take_document(before, text):
    log, atoms = replica_of(before)
    named, more = document(read(text.encode()))
    if named not in (None, log):
        return ["err", "OtherLog", held(log, atoms)]
    return ["ok", held(log, atoms | more)]


def put(before, line):
    log, atoms = replica_of(before)
    atom = atom_of(line.encode())
    if is_on_a_carrier(atom) and atom[:3] not in atoms:
        return ["err", "Ungrounded", held(log, atoms)]
    return ["ok", held(log, atoms | {atom})]


def push_if_last(before, line):
    """The fields of an atom that is put where it is above all others."""
    _, atoms = replica_of(before)
    return put(before, line) if not atoms or max(atoms) < atom_of(line.encode()) else ["not above"]

# What a replica says of itself, of a key and of a body.

def of_itself(told):
    """What answers a replica's word, by what its log and its atoms tell."""
    return lambda word: told(*replica_of(word))


def of_kind(answer):
    """The answer to a call that takes a kind of keys: no other letter names one."""
    def answered(word, letter, *names):
        return answer(word, letter, *names) if letter in LETTERS else ["no such kind"]
    return answered


def atom_lists(log, atoms):
    return ["ok", *map(line_of, sorted(atoms))]


def inventory(log, atoms):
    return ["ok", noted(log, {digest_of(atom) for atom in atoms})]


def atom_found(atom):
    return ["ok", *option(None if atom is None else line_of(atom))]


def rulings_told(log, atoms):
    return ["ok", *(text for ruling in rulings_of(atoms) for text in ruling[1:])]


def keys_of(word, letter, least=1):
    """The names of a letter that have so many values at least, rising."""
    values = values_by_key(replica_of(word)[1])
    return sorted(name for (one, name), found in values.items() if one == letter and len(found) >= least)


def values_of(word, letter, name):
    return values_by_key(replica_of(word)[1]).get((letter, name), [])


def ruled(word, letter, name):
    return ["ok", *option(ruled_value(replica_of(word)[1], letter, name, values_of(word, letter, name)))]


def shown(word, letter, name):
    return ["ok", *option(values_shown(replica_of(word)[1]).get((letter, name)))]


def parts_of(word, letter, name, body):
    """What came with a body behind that letter, rising."""
    parts = parts_by_carrier(replica_of(word)[1]).get(("E", name, body), [])
    return [part[1:] for part in parts if part[0] == letter]


def longest_chain(word, name, body):
    """The longest chain of a body, among equally long ones the least."""
    longest = max(parts_of(word, "C", name, body), key=len, default=None)
    return ["ok", *option(longest and line_of(longest))]

# Two replicas, or a replica and an inventory.

def join(ours, theirs):
    (log, mine), (other, more) = replica_of(ours), replica_of(theirs)
    return ["ok", held(log, mine | more)] if log == other else ["err", "OtherLog", held(log, mine)]


def missing(ours, theirs):
    (log, mine), (other, more) = replica_of(ours), replica_of(theirs)
    return ["ok", held(log, with_carriers(mine - more))] if log == other else ["err", "OtherLog"]


def missing_from(ours, theirs):
    (log, mine), (other, digests) = replica_of(ours), inventory_of(theirs)
    return ["ok", held(log, missing_by(mine, digests))] if log == other else ["err", "OtherLog"]


def put_digest(before, digest):
    log, digests = inventory_of(before)
    return ["ok", noted(log, digests | {digest.encode()})]


def digest_after(word, digest):
    found = least_above(inventory_of(word)[1], digest.encode())
    return option(found and found.decode())

# Rulings, scripts and schedules.

def read_ruling(letter, name, digest):
    """The fields of three texts that are read as a ruling."""
    try:
        check_key(letter, name)
    except Fault as fault:
        return ["err", KEY_FAULTS[fault.said]]
    return ["ok", letter, name, digest] if DIGITS.fullmatch(digest) else ["err", "Digest"]


def take_ruling(before, letter, name, digest):
    log, atoms = replica_of(before)
    return ["ok", held(log, atoms | {(RULING, letter, name, digest)})]


def turn_fault(fault):
    number, said = fault.said[len("line "):].split(": ")
    return ["err", TURN_FAULTS[said], number]


def turn_told(line, told):
    """How a script's line is told: of a document its log and how many events it has."""
    if not line.startswith("learn "):
        return line
    value, log = read(line.split(" ", 2)[2].encode()), told[0]
    parts = ["learn", line.split(" ")[1]] + (["1"] if log is None else [log, str(len(value["events"]))])
    return " ".join(parts)


def script_read(text):
    try:
        turns = read_script(text)
    except Fault as fault:
        return turn_fault(fault)
    return ["ok", *(turn_told(line, told) for line, (_, _, told) in zip(text.decode().split("\n"), turns))]


def rehearsed(log, count, text):
    try:
        return ["ok", *(held(log, atoms) for atoms in sites_after(log, count, read_script(text)))]
    except Fault as fault:
        return turn_fault(fault)


def kind(make, answered):
    """What makes calls of these names, by what makes the words of any of them and what answers each."""
    def made(chance):
        name, given = chance.choice(sorted(answered)), make(chance)
        return "replica", [name, *given], answered[name](*given)
    return made

# What makes the words of calls, and the answers of the calls that take them, by their names.
CALLS = [
    (lambda chance: [words.odd_line(chance)], {"atom.read": read_atom}),
    (lambda chance: [line_of(words.some_atom(chance))], {
        "atom.new": read_atom, "atom.line": lambda line: ["ok", line],
        "atom.digest": lambda line: ["ok", digest_of(atom_of(line.encode()))]}),
    (words.two_lines, {"atom.compare": compared}),
    (words.some_path, {"path.kind": path_kind}),
    (words.name_words, {"path.log_name": log_name}),
    (words.document_words, {
        "document.take": take_document, "document.take_sightings": taking("E"), "document.take_entities": taking("RGM"),
        "document.take_properties": taking("P")}),
    (words.atom_words, {
        "replica.put": put, "replica.put_after": put,
        "replica.holds": lambda word, line: [atom_of(line.encode()) in replica_of(word)[1]],
        "replica.atom_after": lambda word, line: atom_found(least_above(replica_of(word)[1], atom_of(line.encode())))}),
    (words.last_words, {"replica.push_if_last": push_if_last}),
    (words.replica_words, {
        "replica.copy": of_itself(lambda log, atoms: ["ok", held(log, atoms)]), "replica.walk": of_itself(atom_lists),
        "replica.atom_count": of_itself(lambda log, atoms: [len(atoms)]),
        "replica.conflict_count": of_itself(lambda log, atoms: [conflict_count(atoms)]), "replica.inventory": of_itself(inventory),
        "replica.least_atom": of_itself(lambda log, atoms: atom_found(min(atoms, default=None))),
        "ruling.rulings": of_itself(rulings_told)}),
    (words.letter_words, {
        "key.keys": of_kind(lambda word, letter: ["ok", *keys_of(word, letter)]),
        "key.least_key": lambda word, letter: ["ok", *option(min(keys_of(word, letter), default=None))],
        "key.conflicted_keys": of_kind(lambda word, letter: ["ok", *keys_of(word, letter, 2)])}),
    (words.key_words, {
        "key.key_after": lambda word, letter, name: ["ok", *option(least_above(keys_of(word, letter), name))],
        "key.values": lambda word, letter, name: ["ok", *values_of(word, letter, name)],
        "key.ruled": ruled, "key.shown": of_kind(shown)}),
    (words.body_words, {
        "body.chains": lambda word, name, body: ["ok", *map(line_of, parts_of(word, "C", name, body))],
        "body.longest_chain": longest_chain,
        "body.tags": lambda word, name, body: ["ok", *(tag for tag, in parts_of(word, "T", name, body))],
        "body.attachments": lambda word, name, body: ["ok", *(one for one, in parts_of(word, "A", name, body))]}),
    (words.pair_words, {
        "pair.same": lambda ours, theirs: [replica_of(ours) == replica_of(theirs)], "pair.join": join,
        "pair.join_twice": join, "pair.missing": missing}),
    (words.inventory_words, {"pair.missing_by": missing_from}),
    (words.digest_words, {
        "inventory.has": lambda word, digest: [digest.encode() in inventory_of(word)[1]], "inventory.put": put_digest,
        "inventory.digest_after": digest_after}),
    (lambda chance: words.digest_words(chance)[:1], {"inventory.least_digest": lambda word: digest_after(word, "")}),
    (words.ruling_words, {"ruling.read": read_ruling}),
    (words.value_words, {"ruling.of": lambda letter, name, text: read_ruling(letter, name, digest_of_value(text))}),
    (words.taken_words, {"ruling.take": take_ruling}),
    (words.script_words, {"schedule.read_script": script_read}),
    (words.schedule_words, {"schedule.rehearse": rehearsed}),
]

KINDS = [kind(make, answered) for make, answered in CALLS]
