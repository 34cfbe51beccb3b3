"""Calls of the engines over memory: readers that cut and fail, writers that take few bytes and fail, limits.

The worked calls of tests/tables/rows.py are made here too, with the bytes of each reader borrowed, and in pieces of 1
to 7 bytes. A row `each` makes its call for each number of a range, where `N` stands for the number; an answer tells
what differs from the one before.
"""
import re

from tests.tables import rows as worked, sketch_rows as sketched, split_rows, worked_files as made
from tests.tables.document_rows import BOTH, NORTH
from tests.tables.exchange_rows import OTHER_LOG
from tests.tables.growth_rows import erased, growth, sealed
from tests.tables.key_rows import E1, E2, keys, keys_proof, told as told_of_keys
from tests.tables.proof_rows import WRONG, told as told_of
from tests.tables.seal_rows import proof, seal
from tests.tables.texts import C1, C2, CF, K1, KF, V1, V2, conflicts, data, digits, document, inventory, log, replica

CALLS = {
    "each": [],
    "load": ["load", "Loaded::log", "ReplicaFeed::after_magic", "Source::borrow_next"],
    "load_within": ["load_within"],
    **{name: [name] for name in (
        "run_join", "run_missing", "run_missing_by", "run_inventory", "run_rule", "run_rehearse", "run_show", "run_check")},
    **{"ask_" + name: ["run", "Request::accepts"] for name in (
        "join", "split", "missing", "missing_by", "inventory", "missing_by_sketch", "seal", "prove", "prove_keys", "verify", "verify_keys", "sealed", "growth", "grew",
        "omit", "rule", "rehearse", "show", "check")},
    "ask_sketch": ["run", "Cells::by_default"],
    "fault": ["status"],
    "metered": ["CountingSink::new", "CountingSink::bytes_written", "CountingSink::over_limit", "CountingSink::into_inner"],
}

COMMANDS, FAULTS, STREAMS = "What the commands write", "Fault lines", "ARCHITECTURE: Inputs and outputs"
ALL = 4096  # more bytes than any reader here has
EMPTY_LOG = document()
STEP, BACK = growth([C1], [C1, C2]), [seal(C1, C2), seal(C1), growth([C1, C2], [C1])]


def reader(text, piece=ALL, failing=0):
    """The words of a reader: its bytes, the most bytes of a read, and the number of the read that fails. With 0 bytes of a read
    they can be borrowed."""
    return [data(text), piece, failing]


def writer(piece=ALL, way="never", number=0):
    """The words of a writer: the most bytes that a write takes, and what it does at the write of that number."""
    return [piece, way, number]


def engine(command, readers, to=None, asks=False):
    """The engine's call that the words of a command stand for: its name and its words. `run` of the request, if `asks` says so or
    no call of its own is on so many readers."""
    (name, *own), readers = command.split(), list(readers)
    several = name != "join" and len(readers) > (2 if name.startswith("missing") else 1)
    call = "run_" + name.replace("-", "_")
    if asks or several or call not in CALLS:
        call = "ask_" + call[len("run_"):]
    if name.startswith("missing"):
        own = [1 + own.count("--from")] if call == "ask_missing" else []
    if name == "join":
        own = own[1:] or [""]
    if name == "split":
        own = [own[1], "".join(own[3:])]
    if name == "show":
        own = ["conflicts" if own else "log"]
    if name in ("prove", "verify") and "--keys" in own:
        call += "_keys"
    if name == "verify":
        own = ["absent" if "--absent" in own else "present"]
    if name == "prove":
        own = []
    if name == "grew":
        own = ["erased" if own else "all"]
    if name == "sketch":
        given = dict(re.findall(r"--(\w+)[= ](\w+)", command))
        own = [given.get(option, "") for option in ("cells", "salt")]
    return call, [*(to or writer()), *own, *(word for one in readers for word in one)]


def in_order(words, files):
    """The files of a command line, in the order in which they are read: an erased list comes last, wherever it stands."""
    erased = words[words.index(b"--erased") + 1] if b"--erased" in words else None
    return [files[word] for word in sorted(filter(files.__contains__, words), key=lambda word: word == erased)]


def each(first, last, call, words):
    """The words of a row `each`."""
    return [first, last, call, *words]


def told(output):
    """The fields of an engine that writes this."""
    return ["ok", data(output)] if output else ["ok"]

ROWS = []


def row(call, words, fields, heading):
    ROWS.append((call, words, fields, heading))

# The worked calls of the command, with the bytes of each reader borrowed (0), and in pieces of 1 to 7 bytes.
LARGE = 6000  # bytes of an input that is at a limit: the command alone reads it
for name, words, files, wanted in worked.all_rows():
    inputs = in_order(words, files)
    if wanted.status == 2 or max(len(text) for text in inputs) > LARGE or len(inputs) < len(files):  # a word may have an option and its file
        continue
    command = " ".join(word.decode() for word in words if word not in files)
    call, asked = engine(command, [reader(text, "N") for text in inputs])
    if wanted.status == 0:
        row("each", each(0, 7, call, asked), told(wanted.output.decode()), COMMANDS)
    else:
        text = wanted.error.decode()[len("cadf: "):-1]
        row("each", each(0, 7, "fault", [call, *asked]), [wanted.status, text], FAULTS)

# What an input is: its bytes, and what loading it answers.
LOADED = [
    (document(V1, V2, more=',"name":"north"'), ["document", "some", "g", 2, 0, 1]),
    (V1, ["document", "none", 1, 0, 0]),
    (NORTH, ["document", "some", "g", 0, 1, 1]),
    (made.CHAINS, ["replica", "some", "g", 3]),
    (made.CONFLICT_TREE, ["replica", "some", "g", 4]),
]
TWICE = replica(C1, C1)
# Why an input is refused, by name.
LOADS_REFUSED = [
    ("CADF-REPLICA 3\n", ["File", "Version"]),
    ("CADF-REPLICA 1\n", ["File", "Truncated"]),
    (inventory(), ["File", "Version"]),
    (TWICE, ["File", "Line", 4, "Order"]),
    ("CADF", ["Json", "NotJson"]),
    ("[1.5]", ["Json", "NotWhole"]),
    ('{"events":[]}', ["Document", "LogId"]),
    ("[]", ["Document", "Event", 0, "NotObject"]),
]
for text, fields in LOADED:
    row("load", reader(text), ["ok", *fields], COMMANDS)
    row("each", each(0, 7, "load", reader(text, "N")), ["ok", *fields], COMMANDS)
for text, fields in LOADS_REFUSED:
    row("load", reader(text), ["err", *fields], FAULTS)
    row("each", each(0, 7, "load", reader(text, "N")), ["err", *fields], FAULTS)

# A limit, an input, and why it is refused within it; nothing where it is accepted.
NONE, DOCUMENT_LOADED = made.NOTHING, ["ok", "document", "some", "g", 0, 0, 0]
REPLICA_LOADED = ["ok", "replica", "some", "g", 0]
LARGER, NOT_JSON, TRUNCATED = ["err", "TooLarge"], ["err", "Json", "NotJson"], ["err", "File", "Truncated"]
WITHIN = [
    (22, EMPTY_LOG, DOCUMENT_LOADED), (21, EMPTY_LOG, LARGER), (5, EMPTY_LOG, LARGER), (0, EMPTY_LOG, LARGER),
    (2**64 - 1, EMPTY_LOG, DOCUMENT_LOADED), (88, NONE, REPLICA_LOADED), (87, NONE, LARGER),
    (88, made.NOTHING_TREE, REPLICA_LOADED), (87, made.NOTHING_TREE, LARGER), (1000, "CADF", NOT_JSON),
    (1000, "CADF-", TRUNCATED), (5, "CADF-", TRUNCATED), (4, "CADF-", LARGER), (3, "CADF-", LARGER),
    (4, "CADF", NOT_JSON), (3, "CADF", LARGER), (1000, "", NOT_JSON), (0, "", NOT_JSON),
]
for limit, text, fields in WITHIN:
    row("load_within", [limit, *reader(text)], fields, STREAMS)
    row("each", each(0, 7, "load_within", [limit, *reader(text, "N")]), fields, STREAMS)
for text in (" " * 2000, "CADF-" + "x" * 2000):
    row("each", each(0, 7, "load_within", [1000, *reader(text, "N")]), LARGER, STREAMS)

# A failed read, where the bytes before it don't decide, and where they do.
FAILED_READS = [
    (1, 3, "load", reader("CADF-REPLICA 1\n", 7, "N"), ["err", "ReadFault"]),
    (1, 401, "load", reader(TWICE, 1, "N"), ["err", "ReadFault"]),  # byte 401 ends the second line of the atom
    (402, 470, "load", reader(TWICE, 1, "N"), ["err", "File", "Line", 4, "Order"]),
    (1, 22, "load_within", [21, *reader(EMPTY_LOG, 1, "N")], ["err", "ReadFault"]),
    (23, 24, "load_within", [21, *reader(EMPTY_LOG, 1, "N")], LARGER),
    (1, 88, "load_within", [87, *reader(NONE, 1, "N")], ["err", "ReadFault"]),
    (89, 90, "load_within", [87, *reader(NONE, 1, "N")], LARGER),
]
for first, last, call, words, fields in FAILED_READS:
    row("each", each(first, last, call, words), fields, STREAMS)

# A command, its inputs, which are small, and what is written: each read of each input fails in turn.
NAMED, TWO_SITES = made.NAMED_TREE, "ask 1\nsend 0\n"
READ = [
    ("show", [made.EVENT_TREE], log(V1)),
    ("show", [EMPTY_LOG], log()),
    ("show --conflicts", [NONE], conflicts()),
    ("check", [NONE], 'ok "g" atoms 0 conflicts 0\n'),
    ("inventory", [made.NOTHING_TREE], inventory()),
    ("join", [NONE, EMPTY_LOG], made.NOTHING_TREE),
    ("join", [EMPTY_LOG, made.NOTHING_TREE], made.NOTHING_TREE),
    ("split --by day", [NONE, EMPTY_LOG], split_rows.split("day")),
    ("missing", [NONE, EMPTY_LOG], made.NOTHING_TREE),
    ("missing-by", [EMPTY_LOG, inventory()], made.NOTHING_TREE),
    ("sketch --cells 3", [NONE], sketched.EMPTY),
    ("missing-by-sketch", [NONE, sketched.EMPTY], made.NOTHING_TREE),
    ("seal", [made.NOTHING_TREE], seal()),
    ("prove", [EMPTY_LOG, NONE], proof([], [])),
    ("prove", [made.NOTHING_TREE, EMPTY_LOG, NONE], proof([], [])),
    ("prove --keys", [keys(), EMPTY_LOG, NONE], keys_proof([], [])),
    ("verify --keys", [seal(C1), keys(E1), keys_proof([E1], [C1])], told_of_keys("present", [E1])),
    ("verify --keys --absent", [seal(), keys(E1), keys_proof([], [])], told_of_keys("absent", [E1])),
    ("verify", [seal(C1), made.EVENT_TREE, proof([digits(C1)], [digits(C1)])], told_of("present", [C1])),
    ("verify --absent", [seal(), made.EVENT_TREE, proof([], [])], told_of("absent", [C1])),
    ("sealed", [made.NOTHING_TREE], sealed()),
    ("growth", [sealed(), EMPTY_LOG, NONE], growth([], [])),
    ("grew", [seal(), seal(C1), growth([], [C1])], "added 1\n"),
    ("grew --erased", [seal(), seal(), growth([], []), erased()], "added 0, erased 0\n"),
    ("omit", [erased(keys=[C1]), EMPTY_LOG, NONE], made.NOTHING_TREE),
    ("rule P name 2", [NAMED], made.SOUTH_TREE),
    ("rehearse g 2", [TWO_SITES], "site 0 atoms 0 as 0\nsite 1 atoms 0 as 0\n"),
    ("show", [made.EVENT_TREE, NONE], log(V1)),
    ("check", [NONE, EMPTY_LOG], 'ok "g" atoms 0 conflicts 0\n'),
    ("inventory", [NONE, EMPTY_LOG], inventory()),
    ("sketch --cells 3", [EMPTY_LOG, NONE], sketched.EMPTY),
    ("seal", [NONE, EMPTY_LOG], seal()),
    ("rule P name 2", [NAMED, NONE], made.SOUTH_TREE),
    ("missing --from --to", [NONE, EMPTY_LOG, EMPTY_LOG, NONE], made.NOTHING_TREE),
    ("missing-by --from", [EMPTY_LOG, NONE, inventory()], made.NOTHING_TREE),
    ("missing-by-sketch --from", [NONE, EMPTY_LOG, sketched.EMPTY], made.NOTHING_TREE),
]


def fail_reads(command, inputs, output, place, piece):
    """Rows of a command of which each read of one input fails in turn.

    An input of L bytes takes at least a read for each piece and one that finds its end, and at most L + 1 reads."""
    size = len(data(inputs[place]))
    readers = [reader(text, piece, "N" if place == at else 0) for at, text in enumerate(inputs)]
    call, words = engine(command, readers)
    row("each", each(1, -(-size // piece) + 1, call, words), ["err", "ReadFault", place + 1], STREAMS)
    row("each", each(size + 2, size + 3, call, words), told(output), STREAMS)


for command, inputs, output in READ:
    for place in range(len(inputs)):
        for piece in (1, 7):
            fail_reads(command, inputs, output, place, piece)
fail_reads("missing", [made.TWO_TREE, made.TWO_TREE], made.NOTHING_TREE, 1, 97)
fail_reads("missing-by", [made.EVENT_TREE, inventory(*sorted([digits(C1), digits(K1)]))], made.NOTHING_TREE, 1, 97)

# A command, its inputs, what is written, and what goes out at once, as a pattern: each write fails in turn.
LINES, WHOLE, PARTS = ".*\n", "(?s).+", "CADF-SPLIT.*\n.*\n.*\n|CADF-REPLICA.*\n.*\n|.*\n"
HEADS = "[0-9a-f]{64}\n|.* (?=[0-9a-f]{64}\n)"  # lines of which all but the digests may be alike
WRITTEN = [
    ("show", [made.CHAINS_TREE], log(BOTH), WHOLE),
    ("show --conflicts", [EMPTY_LOG], conflicts(), WHOLE),
    ("check", [EMPTY_LOG], 'ok "g" atoms 0 conflicts 0\n', WHOLE),
    ("inventory", [EMPTY_LOG], inventory(), LINES),
    ("join", [EMPTY_LOG, V1], made.EVENT_TREE, LINES),
    ("split --by hour", [EMPTY_LOG], split_rows.split("hour"), PARTS),
    ("split --by day", [made.UNHELD], split_rows.split(
        "day", ("shared", made.RULING_TREE), ("2024-03-01", made.EVENT_TREE)), PARTS),
    ("missing", [EMPTY_LOG, NONE], made.NOTHING_TREE, LINES),
    ("missing", [made.TWO, made.EVENT_TREE], made.SECOND_TREE, LINES),
    ("missing-by", [made.NOTHING_TREE, inventory()], made.NOTHING_TREE, LINES),
    ("sketch --cells 3 --salt 1", [made.EVENT_TREE], sketched.WORKED, LINES),
    ("missing-by-sketch", [made.TWO, sketched.WORKED], made.SECOND_TREE, LINES),
    ("seal", [made.EVENT_TREE], seal(C1), LINES),
    ("prove", [V1, made.TWO], proof([digits(C1)], [digits(C1), digits(C2)]), LINES),
    ("verify", [seal(C1, C2), made.TWO, proof([digits(C1), digits(C2)], [digits(C1), digits(C2)])], told_of("present", [C1, C2]), HEADS),
    ("prove --keys", [keys(E1), made.TWO], keys_proof([E1], [C1, C2]), LINES),
    ("verify --keys", [seal(C1, C2), keys(E1, E2), keys_proof([E1, E2], [C1, C2])], told_of_keys("present", [E1, E2]), HEADS),
    ("sealed", [made.EVENT_TREE], sealed(C1), LINES),
    ("growth", [sealed(C1), made.TWO], growth([C1], [C1, C2]), LINES),
    ("grew", [seal(C1), seal(C1, C2), STEP], "added 1\n", WHOLE),
    ("grew --erased", [*BACK, erased(C2, keys=[C2])], "added 0, erased 1\n", WHOLE),
    ("omit", [erased(keys=[C1]), made.TWO], made.SECOND_TREE, PARTS),
    ("rule P name 2", [NAMED], made.SOUTH_TREE, LINES),
    ("rehearse g 2", [""], "site 0 atoms 0 as 0\nsite 1 atoms 0 as 0\n", WHOLE),
]


def taken(output, at_once, piece):
    """What each write takes of the text."""
    offered = re.findall(at_once, output)
    return [one[at:at + piece] for one in map(data, offered) for at in range(0, len(one), piece)]


def fail_writes(command, inputs, output, at_once, piece, way):
    """A row of a command of which each write fails in turn, until a run meets none."""
    pieces = taken(output, at_once, piece)
    call, words = engine(command, map(reader, inputs), writer(piece, way, "N"))
    row("each", each(1, len(pieces) + 1, call, words),
        ["err", "WriteFault", *pieces[:-1], "ok", pieces[-1]], STREAMS)


for command, inputs, output, at_once in WRITTEN:
    for piece in (1, 7, 50):
        for way in ("refuses", "takes-nothing"):
            fail_writes(command, inputs, output, at_once, piece, way)


def shown(atom):
    """The fields of the atom's digest, in a fault by name."""
    return ("Digest{bytes:[%s]}" % ",".join(map(str, bytes.fromhex(digits(atom))))).split(",")


# A command, its readers, and its fault by name, where the first write would fail: nothing is written before all else.
FAILING, GOOD, EVENT, BAD = reader(EMPTY_LOG, ALL, 1), reader(EMPTY_LOG), reader(V1), reader("{")
OTHER, OTHER_NOTED, OTHER_SKETCHED = reader(OTHER_LOG), reader(inventory(log="h")), reader(sketched.sketch(3, 1, log="h"))
ONE_SEALED, ONE_PROVED = reader(seal(C1)), reader(proof([digits(C1)], [digits(C1)]))
SEALED_NONE, OTHER_PROVED = reader(seal()), reader(proof([], [], log='"h"'))
OTHER_SEALED, GROWN_NONE = reader(seal(log='"h"')), reader(growth([], []))
ASKED, OTHER_ASKED, ASKED_PROVED = reader(keys(E1)), reader(keys(E1, log="h")), reader(keys_proof([E1], [C1]))
LISTED_NONE, OTHER_LISTED, ERASED_NONE, OTHER_ERASED = map(reader, (sealed(), sealed(log="h"), erased(), erased(log="h")))
NOT_JSON_1, NOT_JSON_2 = ["Input", 1, "Json", "NotJson"], ["Input", 2, "Json", "NotJson"]
IN_ORDER = [
    ("join", [], ["NoLog"]),
    ("join", [BAD, FAILING], NOT_JSON_1),
    ("join", [FAILING, BAD], ["ReadFault", 1]),
    ("join", [EVENT, FAILING], ["ReadFault", 2]),
    ("join", [EVENT, BAD], NOT_JSON_2),
    ("join", [EVENT, EVENT], ["NoLog"]),
    ("join --log g", [OTHER, FAILING], ["ReadFault", 2]),
    ("join --log g", [OTHER, BAD], NOT_JSON_2),
    ("join --log g", [EVENT, OTHER], ["OtherLog", 2]),
    ("join", [EVENT, GOOD, OTHER], ["OtherLog", 3]),
    ("join", [GOOD], ["WriteFault"]),
    ("split --by day", [], ["NoLog"]),
    ("split --by day", [BAD, FAILING], NOT_JSON_1),
    ("split --by day", [EVENT, FAILING], ["ReadFault", 2]),
    ("split --by day --log g", [OTHER, BAD], NOT_JSON_2),
    ("split --by day", [EVENT, EVENT], ["NoLog"]),
    ("split --by day", [EVENT, GOOD, OTHER], ["OtherLog", 3]),
    ("split --by day", [GOOD], ["WriteFault"]),
    ("missing", [BAD, FAILING], NOT_JSON_1),
    ("missing", [EVENT, FAILING], ["ReadFault", 2]),
    ("missing", [EVENT, BAD], NOT_JSON_2),
    ("missing", [EVENT, OTHER], ["NoLog"]),
    ("missing", [GOOD, EVENT], ["NoLog"]),
    ("missing", [GOOD, OTHER], ["OtherLog", 2]),
    ("missing", [GOOD, GOOD], ["WriteFault"]),
    ("missing-by", [BAD, FAILING], NOT_JSON_1),
    ("missing-by", [EVENT, FAILING], ["ReadFault", 2]),
    ("missing-by", [EVENT, reader(NONE)], ["Input", 2, "File", "Version"]),
    ("missing-by", [EVENT, OTHER_NOTED], ["NoLog"]),
    ("missing-by", [GOOD, OTHER_NOTED], ["OtherLog", 2]),
    ("missing-by", [GOOD, reader(inventory())], ["WriteFault"]),
    ("missing-by-sketch", [BAD, FAILING], NOT_JSON_1),
    ("missing-by-sketch", [EVENT, FAILING], ["ReadFault", 2]),
    ("missing-by-sketch", [EVENT, reader(inventory())], ["Input", 2, "File", "Version"]),
    ("missing-by-sketch", [EVENT, OTHER_SKETCHED], ["NoLog"]),
    ("missing-by-sketch", [GOOD, OTHER_SKETCHED], ["OtherLog", 2]),
    ("missing-by-sketch", [reader(made.CHAINS), reader(sketched.sketch(3, 1, C2, CF, KF))], ["TooFewCells", 2, sketched.ASKED]),
    ("missing-by-sketch", [GOOD, reader(sketched.EMPTY)], ["WriteFault"]),
    ("prove", [FAILING, BAD], ["ReadFault", 1]),
    ("prove", [BAD, FAILING], NOT_JSON_1),
    ("prove", [OTHER, EVENT, FAILING], ["ReadFault", 3]),
    ("prove", [OTHER, GOOD, BAD], ["Input", 3, "Json", "NotJson"]),
    ("prove", [GOOD, EVENT, EVENT], ["NoLog"]),
    ("prove", [OTHER, GOOD, OTHER], ["OtherLog", 3]),
    ("prove", [OTHER, GOOD, EVENT], ["OtherLog", 1]),
    ("prove", [EVENT, EVENT, GOOD], ["WriteFault"]),
    ("prove", [EVENT], ["NoLog"]),
    ("verify", [FAILING, BAD, BAD], ["ReadFault", 1]),
    ("verify", [BAD, FAILING, BAD], ["Input", 1, "File", "Truncated"]),
    ("verify", [reader(inventory()), FAILING, BAD], ["Input", 1, "File", "Version"]),
    ("verify", [SEALED_NONE, BAD, FAILING], NOT_JSON_2),
    ("verify", [SEALED_NONE, OTHER, FAILING], ["ReadFault", 3]),
    ("verify", [SEALED_NONE, OTHER, SEALED_NONE], ["Input", 3, "File", "Version"]),
    ("verify", [SEALED_NONE, OTHER, OTHER_PROVED], ["OtherLog", 2]),
    ("verify", [SEALED_NONE, EVENT, OTHER_PROVED], ["OtherLog", 3]),
    ("verify", [SEALED_NONE, EVENT, ONE_PROVED], ["Unverified", "Proof", "OtherCount"]),
    ("verify", [ONE_SEALED, EVENT, reader(proof([digits(C2)], [digits(C2)]))], ["Unverified", "Proof", "OtherRoot"]),
    ("verify", [ONE_SEALED, EVENT, reader(proof([], [digits(C1)]))], ["Unverified", "NotShown", "Fact", 1]),
    ("verify", [reader(seal(C1, C2)), EVENT, reader(proof([digits(C1), digits(C2)], [digits(C1), digits(C2)]))], ["Unverified", "Proof", "NotNeeded"]),
    ("verify", [ONE_SEALED, GOOD, OTHER_PROVED], ["OtherLog", 3]),
    *(("verify", [reader(of), reader(replica(*facts)), reader(by)], ["Unverified", "Proof", fault]) for of, by, word, facts, fault in WRONG
      if word == "present" and fault in ("NoTree", "Order", "NeighbourHidden") and len(by) < 1000),
    ("verify", [SEALED_NONE, GOOD, ONE_PROVED], ["NoFacts", 2]),
    ("verify --absent", [ONE_SEALED, reader(made.NOTHING_TREE), ONE_PROVED], ["NoFacts", 2]),
    ("verify", [SEALED_NONE, EVENT, reader(proof([], []))], ["Unverified", "Absent", "Fact", 1]),
    ("verify --absent", [ONE_SEALED, EVENT, ONE_PROVED], ["Unverified", "Present", "Fact", 1]),
    ("verify", [ONE_SEALED, EVENT, ONE_PROVED], ["WriteFault"]),
    ("prove --keys", [FAILING, BAD], ["ReadFault", 1]),
    ("prove --keys", [BAD, FAILING], ["Input", 1, "File", "Truncated"]),
    ("prove --keys", [SEALED_NONE, FAILING], ["Input", 1, "File", "Version"]),
    ("prove --keys", [OTHER_ASKED, EVENT, FAILING], ["ReadFault", 3]),
    ("prove --keys", [OTHER_ASKED, EVENT], ["NoLog"]),
    ("prove --keys", [OTHER_ASKED, GOOD, OTHER], ["OtherLog", 3]),
    ("prove --keys", [OTHER_ASKED, GOOD, EVENT], ["OtherLog", 1]),
    ("prove --keys", [ASKED, GOOD], ["WriteFault"]),
    ("verify --keys", [FAILING, BAD, BAD], ["ReadFault", 1]),
    ("verify --keys", [SEALED_NONE, FAILING, BAD], ["ReadFault", 2]),
    ("verify --keys", [SEALED_NONE, BAD, FAILING], ["Input", 2, "File", "Truncated"]),
    ("verify --keys", [SEALED_NONE, SEALED_NONE, FAILING], ["Input", 2, "File", "Version"]),
    ("verify --keys", [SEALED_NONE, OTHER_ASKED, FAILING], ["ReadFault", 3]),
    ("verify --keys", [SEALED_NONE, OTHER_ASKED, SEALED_NONE], ["Input", 3, "File", "Version"]),
    ("verify --keys", [SEALED_NONE, OTHER_ASKED, OTHER_PROVED], ["OtherLog", 2]),
    ("verify --keys", [SEALED_NONE, ASKED, OTHER_PROVED], ["OtherLog", 3]),
    ("verify --keys", [SEALED_NONE, reader(keys()), ONE_PROVED], ["NoKeys", 2]),
    ("verify --keys", [ONE_SEALED, ASKED, ONE_PROVED], ["Unverified", "Proof", "NoTree"]),
    ("verify --keys", [SEALED_NONE, ASKED, ASKED_PROVED], ["Unverified", "Proof", "OtherCount"]),
    ("verify --keys", [ONE_SEALED, ASKED, reader(keys_proof([], [C1]))], ["Unverified", "NotShown", "Key", 1]),
    ("verify --keys", [SEALED_NONE, ASKED, reader(keys_proof([E1], []))], ["Unverified", "Absent", "Key", 1]),
    ("verify --keys --absent", [ONE_SEALED, ASKED, ASKED_PROVED], ["Unverified", "Present", "Key", 1]),
    ("verify --keys", [ONE_SEALED, ASKED, ASKED_PROVED], ["WriteFault"]),
    ("sealed", [EVENT, GOOD, OTHER], ["OtherLog", 3]),
    ("growth", [FAILING, BAD], ["ReadFault", 1]),
    ("growth", [BAD, FAILING], ["Input", 1, "File", "Truncated"]),
    ("growth", [ERASED_NONE, FAILING], ["Input", 1, "File", "Version"]),
    ("growth", [OTHER_LISTED, GOOD, FAILING], ["ReadFault", 3]),
    ("growth", [OTHER_LISTED, GOOD, BAD], ["Input", 3, "Json", "NotJson"]),
    ("growth", [LISTED_NONE, EVENT, EVENT], ["NoLog"]),
    ("growth", [OTHER_LISTED, GOOD, OTHER], ["OtherLog", 3]),
    ("growth", [OTHER_LISTED, GOOD, EVENT], ["OtherLog", 1]),
    ("growth", [LISTED_NONE, EVENT, GOOD], ["WriteFault"]),
    ("growth", [LISTED_NONE], ["NoLog"]),
    ("grew", [FAILING, BAD, BAD], ["ReadFault", 1]),
    ("grew", [BAD, FAILING, BAD], ["Input", 1, "File", "Truncated"]),
    ("grew", [SEALED_NONE, FAILING, BAD], ["ReadFault", 2]),
    ("grew", [SEALED_NONE, ONE_PROVED, FAILING], ["Input", 2, "File", "Version"]),
    ("grew", [SEALED_NONE, SEALED_NONE, FAILING], ["ReadFault", 3]),
    ("grew --erased", [SEALED_NONE, SEALED_NONE, SEALED_NONE, FAILING], ["Input", 3, "File", "Version"]),
    ("grew --erased", [SEALED_NONE, OTHER_SEALED, GROWN_NONE, FAILING], ["ReadFault", 4]),
    ("grew --erased", [SEALED_NONE, OTHER_SEALED, GROWN_NONE, LISTED_NONE], ["Input", 4, "File", "Version"]),
    ("grew --erased", [SEALED_NONE, OTHER_SEALED, GROWN_NONE, ERASED_NONE], ["Ungrown", "OtherLog", 2]),
    ("grew", [SEALED_NONE, ONE_SEALED, GROWN_NONE], ["Ungrown", "Proof", 3, "Facts", "OtherCount"]),
    ("grew", [*map(reader, BACK)], ["Ungrown", "Gone", "Facts", *shown(C2)]),
    ("grew", [SEALED_NONE, SEALED_NONE, GROWN_NONE], ["WriteFault"]),
    ("grew --erased", [SEALED_NONE, SEALED_NONE, GROWN_NONE, ERASED_NONE], ["WriteFault"]),
    ("omit", [FAILING, BAD], ["ReadFault", 1]),
    ("omit", [BAD, FAILING], ["Input", 1, "File", "Truncated"]),
    ("omit", [LISTED_NONE, FAILING], ["Input", 1, "File", "Version"]),
    ("omit", [ERASED_NONE, EVENT, FAILING], ["ReadFault", 3]),
    ("omit", [ERASED_NONE, EVENT, EVENT], ["NoLog"]),
    ("omit", [OTHER_ERASED, GOOD, OTHER], ["OtherLog", 3]),
    ("omit", [OTHER_ERASED, GOOD, EVENT], ["OtherLog", 1]),
    ("omit", [ERASED_NONE, EVENT, GOOD], ["WriteFault"]),
    ("rule X e1 0", [FAILING], ["ReadFault", 1]),
    ("rule X e1 0", [BAD], NOT_JSON_1),
    ("rule X e1 1", [EVENT], ["NoLog"]),
    ("rule E e1 0", [EVENT], ["NoLog"]),
    ("rule E e1 1", [GOOD], ["NoValue"]),
    ("rule P name 2", [reader(NAMED)], ["WriteFault"]),
    ("rehearse g 2", [FAILING], ["ReadFault", 1]),
    ("rehearse g 2", [reader("hello", 2, 3)], ["ReadFault", 1]),
    ("rehearse g 2", [reader("ask 9\nhello")], ["Script", 2]),
    ("rehearse g 2", [reader("ask 2")], ["Rehearse", "NoSite", 1]),
    ("rehearse g 2", [reader("send 0\nanswer 1 2")], ["Rehearse", "NoMessage", 2]),
    ("rehearse g 2", [reader("send 0\nanswer 1 1")], ["Rehearse", "NotInventory", 2]),
    ("rehearse g 2", [reader("ask 0\nanswer 1 1\ndeliver 2 1")], ["Rehearse", "WrongAddressee", 3]),
    ("rehearse g 2", [reader("learn 0 " + OTHER_LOG)], ["Rehearse", "OtherLog", 1]),
    ("rehearse g 2", [reader("")], ["WriteFault"]),
    ("show", [GOOD, OTHER, BAD], ["Input", 3, "Json", "NotJson"]),
    ("show", [EVENT, GOOD, EVENT], ["WriteFault"]),
    ("check", [GOOD, OTHER, FAILING], ["ReadFault", 3]),
    ("inventory", [EVENT, EVENT], ["NoLog"]),
    ("sketch", [EVENT, GOOD, OTHER], ["OtherLog", 3]),
    ("seal", [EVENT, GOOD, OTHER], ["OtherLog", 3]),
    ("rule X e1 0", [GOOD, OTHER], ["OtherLog", 2]),
    ("rule E e1 2", [GOOD, EVENT], ["NoValue"]),
    ("rule E e1 1", [GOOD, EVENT], ["WriteFault"]),
    ("missing --from", [GOOD, OTHER, FAILING], ["ReadFault", 3]),
    ("missing --from --to", [GOOD, OTHER, EVENT, BAD], ["Input", 4, "Json", "NotJson"]),
    ("missing --to", [GOOD, EVENT, EVENT], ["NoLog"]),
    ("missing --from --to", [GOOD, OTHER, EVENT, EVENT], ["NoLog"]),
    ("missing --from", [EVENT, EVENT, OTHER], ["NoLog"]),
    ("missing --to", [GOOD, EVENT, OTHER], ["OtherLog", 3]),
    ("missing --from", [GOOD, OTHER, OTHER], ["OtherLog", 2]),
    ("missing --from", [EVENT, GOOD, GOOD], ["WriteFault"]),
    ("missing-by --from", [GOOD, OTHER, reader(NONE)], ["Input", 3, "File", "Version"]),
    ("missing-by --from", [GOOD, OTHER, OTHER_NOTED], ["OtherLog", 2]),
    ("missing-by --from", [EVENT, GOOD, OTHER_NOTED], ["OtherLog", 3]),
    ("missing-by-sketch --from", [EVENT, EVENT, OTHER_SKETCHED], ["NoLog"]),
    ("missing-by-sketch --from", [EVENT, GOOD, OTHER_SKETCHED], ["OtherLog", 3]),
    ("missing-by-sketch --from", [reader(made.CHAINS), EVENT, reader(sketched.sketch(3, 1, C2, CF, KF))],
     ["TooFewCells", 3, sketched.ASKED]),
]
IN_ORDER += [(command, [one], fault) for command in ("sketch", "inventory", "seal", "sealed", "show", "show --conflicts", "check") for one, fault in (
    (FAILING, ["ReadFault", 1]), (BAD, NOT_JSON_1), (EVENT, ["NoLog"]), (GOOD, ["WriteFault"]))]
for command, readers, fields in IN_ORDER:
    row(*engine(command, readers, writer(ALL, "refuses", 1)), ["err", *fields], FAULTS)

# Values that the command's own words can't name: place 0, the greatest place, letters of no value.
NO_VALUES = [("E", "e1", 0), ("E", "e1", 3), ("E", "e1", 2**64 - 1), ("E", "e2", 1), ("U", "e1", 1), ("U", "E", 1), ("C", "e1", 1),
             ("\u00e9", "e1", 1)]
for letter, key, place in NO_VALUES:
    row(*engine("rule %s %s %d" % (letter, key, place), [reader(made.RULED_TREE)]), ["err", "NoValue"], FAULTS)

# A call of each engine, and a run of each request, whole.
for command, inputs, output in READ:
    own, asked = (engine(command, map(reader, inputs), asks=asks) for asks in (False, True))
    for call, words in [own] if own == asked else [own, asked]:
        row(call, words, told(output), COMMANDS)
row(*engine("join --log g", []), told(made.NOTHING_TREE), COMMANDS)

# The status and the text of failed reads and writes.
for command, readers, status, text in [
        ("join", [EVENT, FAILING], 3, "input 2: read fault"), ("show", [FAILING], 3, "input 1: read fault"),
        ("show", [GOOD], 3, "write fault")]:
    call, words = engine(command, readers, writer(ALL, "refuses", 1))
    row("fault", [call, *words], [status, text], FAULTS)

# A command, its inputs, and what it writes: the bytes are counted, and reported if they are more than the limit.
COUNTED = [
    ("check", [EMPTY_LOG], 'ok "g" atoms 0 conflicts 0\n'),
    ("join", [EMPTY_LOG, V1], made.EVENT_TREE),
    ("rehearse g 2", [""], "site 0 atoms 0 as 0\nsite 1 atoms 0 as 0\n"),
]


def counted(count, limit):
    """The fields of the count, and of the report if it is above the limit."""
    if count <= limit:
        return ["ok", count, "none"]
    return ["ok", count, "some", "%d bytes were written, and no input above %d is read" % (count, limit)]


def metered(limit, command, inputs, count, written, to=None):
    """A row of a command that writes so many bytes of a text."""
    call, words = engine(command, map(reader, inputs), to)
    row("metered", [limit, call, *words], counted(count, limit) + ([written] if count else []), STREAMS)


for command, inputs, output in COUNTED:
    size, text = len(data(output)), data(output)
    for limit in (0, size - 1, size, size + 1, 2**30, 2**64 - 1):
        metered(limit, command, inputs, size, text)
    call, words = engine(command, map(reader, inputs), writer("N"))
    row("each", each(0, 7, "metered", [size - 1, call, *words]), [*counted(size, size - 1), text], STREAMS)
    for way in ("refuses", "takes-nothing"):
        for limit in (3, 4):
            metered(limit, command, inputs, 4, text[:4], writer(1, way, 5))
metered(0, "check", ["{"], 0, b"")
