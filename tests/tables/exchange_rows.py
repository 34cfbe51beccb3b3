"""Worked rows of several inputs: joins, missing parts, inventories, seals and rulings.

    from exchange_rows import WRITTEN, REFUSED

Where a command's words have `{}`, the files stand there in turn, else behind the words.
"""
import itertools

from tests.tables.document_rows import FAILED, NORTH, ONE
from tests.tables.seal_rows import seal
from tests.tables.texts import (
    BF, C1, C2, CF, K1, KF, S1, S2, S3, V1, V2, VF, conflicts, digits, document, entry, event, inventory, line, log, replica, tree,
)
from tests.tables.worked_files import (
    BODY_NODE, CHAINS, CHAINS_TREE, CHAIN_NODES, CHAIN_TREE, CONFLICT, CONFLICT_TREE, EVENT_FILE, EVENT_TREE, FRONT,
    HELD_TREE, NAMED, NAMED_TREE, NAMES, NOTHING, NOTHING_TREE, OTHER_NODE, OTHER_TREE, R1, RULED_TREE, RULING_TREE,
    SECOND, SECOND_TREE, SOUTH_TREE, TAGGED, TAGGED_TREE, TWICE_RULED_TREE, TWO, TWO_TREE, UNHELD,
)

# What three sites were told, and the file of all of it.
FIRST_TOLD = document(event(reporterchain="[%s]" % S1, tags='["x"]'))
SECOND_TOLD = document(event(reporterchain="[%s,%s]" % (S1, S2)), V2, more=',"name":"north"')
THIRD_TOLD = document(event(outcome='"failure"', reporterchain="[%s]" % S3), more=',"name":"south"')
THIRD_CHAIN = ((4, 0, "C"), (5, 1, S3))
ALL = tree(*FRONT, OTHER_NODE, *THIRD_CHAIN, BODY_NODE, *CHAIN_NODES, (6, 1, S2), (4, 0, "T"), (5, 1, "x"), *SECOND, *NAMES)
NORTHERN = tree(*FRONT, BODY_NODE, *CHAIN_NODES, (6, 1, S2), (4, 0, "T"), (5, 1, "x"), *SECOND, *NAMES[:3])
SOUTHERN = tree(*FRONT, OTHER_NODE, *THIRD_CHAIN, BODY_NODE, *CHAIN_NODES, (4, 0, "T"), (5, 1, "x"), *NAMES[:2], NAMES[3])
NORTHWARD = tree(*FRONT, OTHER_NODE, *THIRD_CHAIN, *NAMES[:2], NAMES[3])
SOUTHWARD = tree(*FRONT, BODY_NODE, (4, 0, "C"), (5, 0, S1), (6, 1, S2), *SECOND, *NAMES[:3])
FIRST_FILE = tree(*FRONT, BODY_NODE, *CHAIN_NODES, (4, 0, "T"), (5, 1, "x"))
SENDER = tree(*FRONT, OTHER_NODE, *THIRD_CHAIN, BODY_NODE, (4, 0, "C"), (5, 0, S1), (6, 1, S2), *SECOND, *NAMES)

# Inputs, and the file of their join in whatever order.
JOINED = [
    ("one time in two spellings", [document(event(eventTime='"2024-03-01T12:00:00+0000"')),
                                   document(event(eventTime='"2024-03-01T12:00:00.000+00:00"'))], EVENT_TREE),
    ("a chain and a longer one",
     [document(ONE), document(event(reporterchain="[%s,%s]" % (S1, S2)))], CHAINS_TREE),
    ("two bodies with their chains", [document(ONE), document(FAILED)], CONFLICT_TREE),
    ("a property with two values", [NORTH, '{"events":[],"id":"g","name":"south"}'], NAMED_TREE),
    ("one file twice", [CHAINS, CHAINS], CHAINS_TREE),
    ("one file in both formats", [CHAINS_TREE, CHAINS], CHAINS_TREE),
    ("a file and one of nothing", [CHAINS_TREE, NOTHING], CHAINS_TREE),
    ("two bodies in both formats", [CONFLICT_TREE, CONFLICT], CONFLICT_TREE),
    ("properties in both formats", [NAMED, NAMED_TREE], NAMED_TREE),
    ("an event in both formats", [EVENT_FILE, EVENT_TREE], EVENT_TREE),
    ("an event by itself and a file", [V1, NOTHING_TREE], EVENT_TREE),
    ("an event by itself and a document", [V1, document()], EVENT_TREE),
    ("a document and a file of nothing", [document(), NOTHING], NOTHING_TREE),
    ("nothing in both formats", [NOTHING_TREE, NOTHING], NOTHING_TREE),
    ("a ruling, and the body that it is about", [UNHELD, replica(CF)], HELD_TREE),
    ("a ruling alone, and the bodies", [RULING_TREE, CONFLICT_TREE], RULED_TREE),
    ("one ruling, and both", [RULED_TREE, TWICE_RULED_TREE], TWICE_RULED_TREE),
    ("what three sites were told", [FIRST_TOLD, SECOND_TOLD, THIRD_TOLD], ALL),
    ("two of them", [FIRST_TOLD, SECOND_TOLD], NORTHERN),
    ("two others", [FIRST_TOLD, THIRD_TOLD], SOUTHERN),
    ("a site, and what it lacks of another", [NORTHERN, NORTHWARD], ALL),
    ("another site, and what it lacks of the first", [SOUTHWARD, SOUTHERN], ALL),
    ("a part that comes late", [SOUTHERN, SENDER], ALL),
    ("a part that comes once more", [ALL, SENDER], ALL),
]

# A call, its files, and what it writes.
WRITTEN = [(name, "join", ordered, output) for name, inputs, output in JOINED for ordered in sorted(set(itertools.permutations(inputs)))] + [
    ("events by themselves under a log that is given", "join --log g", [V1, V1], EVENT_TREE),
    ("an event by itself before a file under a log that is given", "join --log g", [V1, CHAINS], CHAINS_TREE),
    ("a file before an event by itself under a log that is given", "join --log g", [CHAINS_TREE, V1], CHAINS_TREE),
    ("what a site lacks", "missing", [SOUTHERN, NORTHERN], NORTHWARD),
    ("what another site lacks", "missing", [NORTHERN, SOUTHERN], SOUTHWARD),
    ("what a site lacks that moves on", "missing", [SENDER, FIRST_FILE], SENDER),
    ("the log of what three sites were told", "show", [ALL], log(V2)),
    ("the conflicts of what three sites were told", "show --conflicts", [ALL], conflicts(
        entry("E", "e1", event(outcome='"failure"', reporterchain="[%s]" % S3),
              event(reporterchain="[%s,%s]" % (S1, S2), reporterchains="[[%s],[%s,%s]]" % (S1, S1, S2), tags='["x"]')),
        entry("P", "name", '"north"', '"south"'))),
    ("a tag", "missing", [TAGGED, EVENT_FILE], TAGGED_TREE),
    ("a tag of files of format 2", "missing", [TAGGED_TREE, EVENT_TREE], TAGGED_TREE),
    ("a second event", "missing", [TWO, EVENT_FILE], SECOND_TREE),
    ("a second event, to a file of format 2", "missing", [TWO, EVENT_TREE], SECOND_TREE),
    ("a second event, from a file of format 2", "missing", [TWO_TREE, EVENT_FILE], SECOND_TREE),
    ("nothing of two events", "missing", [TWO, TWO_TREE], NOTHING_TREE),
    ("nothing of nothing", "missing", [NOTHING, TWO], NOTHING_TREE),
    ("nothing of nothing, to a document", "missing", [NOTHING_TREE, document(V1)], NOTHING_TREE),
    ("a chain with its body, which is held", "missing", [CONFLICT, EVENT_FILE], CONFLICT_TREE),
    ("a second body", "missing", [CONFLICT, CHAIN_TREE], OTHER_TREE),
    ("a second body, to a file of format 1", "missing", [CONFLICT, replica(C1, K1)], OTHER_TREE),
    ("a chain of a body that is held", "missing", [CONFLICT_TREE, replica(CF, C1, K1)], OTHER_TREE),
    ("a second body, to a file with another event", "missing",
     [CONFLICT, tree(*FRONT, BODY_NODE, *CHAIN_NODES, *SECOND)], OTHER_TREE),
    ("all of a document", "missing", [document(V2, V1), NOTHING], TWO_TREE),
    ("a ruling of a file of format 2", "missing", [RULED_TREE, CONFLICT_TREE], RULING_TREE),
    ("no ruling", "missing", [CONFLICT_TREE, RULED_TREE], NOTHING_TREE),
    ("a ruling of what isn't held", "missing", [UNHELD, EVENT_FILE], RULING_TREE),
    ("the inventory of nothing in format 2", "inventory", [NOTHING_TREE], inventory()),
    ("the inventory of an event in format 2", "inventory", [EVENT_TREE], inventory(digits(C1))),
    ("the inventory of a document", "inventory", [document(V1)], inventory(digits(C1))),
    ("the seal of nothing", "seal", [NOTHING], seal()),
    ("the seal of nothing in format 2", "seal", [NOTHING_TREE], seal()),
    ("the seal of an event in format 2", "seal", [EVENT_TREE], seal(C1)),
    ("the seal of a document", "seal", [document(V1)], seal(C1)),
    ("the seal of two events", "seal", [TWO], seal(C1, C2)),
    ("a seal is of atoms, not of nodes", "seal", [CONFLICT_TREE], seal(CF, KF, C1, K1)),
    ("nothing by the inventory of it", "missing-by", [EVENT_TREE, inventory(digits(C1))], NOTHING_TREE),
    ("all by an inventory of nothing", "missing-by", [EVENT_FILE, inventory()], EVENT_TREE),
    ("nothing of nothing by an inventory", "missing-by", [NOTHING, inventory(digits(C1))], NOTHING_TREE),
    ("a second body by an inventory", "missing-by",
     [CONFLICT_TREE, inventory(*sorted([digits(C1), digits(K1)]))], OTHER_TREE),
    ("a ruling of a document", "rule E e1 1", [document(ONE, FAILED)], RULED_TREE),
    ("both rulings again", "rule E e1 1", [TWICE_RULED_TREE], TWICE_RULED_TREE),
    ("a ruling of a property", "rule P name 2", [NAMED], SOUTH_TREE),
    ("a ruling of a property of a file of format 2", "rule P name 2", [NAMED_TREE], SOUTH_TREE),
    ("a ruling of a body without chains again", "rule E e1 1", [HELD_TREE], HELD_TREE),
    ("the log with a settled property", "show", [SOUTH_TREE], log(name='"south"', resources="[%s]" % R1)),
    ("the conflicts of a settled property", "show --conflicts", [SOUTH_TREE], conflicts(
        entry("P", "name", '"north"', ruled=digits('"south"')), rulings=[("P", "name", digits('"south"'))])),
    ("a ruling without a second body", "show", [UNHELD], log(V1)),
    ("the ruling without a second body", "show --conflicts", [UNHELD],
     conflicts(rulings=[("E", "e1", digits(BF))])),
    ("the log with a settled event without chains", "show", [HELD_TREE], log(VF)),
    ("the counts of nothing", "check", [NOTHING], 'ok "g" atoms 0 conflicts 0\n'),
    ("the counts of nothing in format 2", "check", [NOTHING_TREE], 'ok "g" atoms 0 conflicts 0\n'),
    ("the counts of chains", "check", [CHAINS], 'ok "g" atoms 3 conflicts 0\n'),
    ("the counts of chains in format 2", "check", [CHAINS_TREE], 'ok "g" atoms 3 conflicts 0\n'),
    ("the counts of two bodies", "check", [CONFLICT], 'ok "g" atoms 4 conflicts 1\n'),
    ("the counts of two values", "check", [NAMED], 'ok "g" atoms 3 conflicts 1\n'),
    ("the counts of a document", "check", [document(V1, V2)], 'ok "g" atoms 2 conflicts 0\n'),
    ("the counts of two rulings", "check", [TWICE_RULED_TREE], 'ok "g" atoms 6 conflicts 1\n'),
    ("the counts of a settled property", "check", [SOUTH_TREE], 'ok "g" atoms 4 conflicts 1\n'),
    ("the counts of a ruling without a second body", "check", [UNHELD], 'ok "g" atoms 2 conflicts 0\n'),
    ("the counts of a ruling alone", "check", [RULING_TREE], 'ok "g" atoms 1 conflicts 0\n'),
    ("the log of two files", "show", [TWO_TREE, document(V1)], log(V1, V2)),
    ("the log of two documents", "show", [document(V2), document(V1)], log(V1, V2)),
    ("the log of events and a log", "show", [V1, NOTHING, V2], log(V1, V2)),
    ("the log of two bodies in two files", "show", [document(ONE), document(FAILED)], log()),
    ("the conflicts of two bodies in two files", "show --conflicts", [document(FAILED), document(ONE)],
     conflicts(entry("E", "e1", FAILED, ONE))),
    ("a ruling in a file of its own", "show", [CONFLICT, RULING_TREE], log(FAILED)),
    ("the counts of two bodies in two files", "check", [document(ONE), document(FAILED)], 'ok "g" atoms 4 conflicts 1\n'),
    ("the counts of a file twice", "check", [CONFLICT_TREE, CONFLICT], 'ok "g" atoms 4 conflicts 1\n'),
    ("the inventory of two files", "inventory", [EVENT_TREE, SECOND_TREE], inventory(*sorted([digits(C1), digits(C2)]))),
    ("the seal of two files", "seal", [EVENT_TREE, SECOND_TREE], seal(C1, C2)),
    ("the seal of a file and an event of it", "seal", [TWO_TREE, V2], seal(C1, C2)),
    ("a ruling of a value in the second file", "rule E e1 1", [document(ONE), document(FAILED)], RULED_TREE),
    ("a delta of two files", "missing {} --from {} {}", [EVENT_TREE, SECOND_TREE, NOTHING], TWO_TREE),
    ("a delta to two files", "missing {} {} --to {}", [TWO_TREE, NOTHING, EVENT_FILE], SECOND_TREE),
    ("nothing, to two files", "missing {} {} --to {}", [TWO_TREE, SECOND_TREE, document(V1)], NOTHING_TREE),
    ("nothing, of two files to two others", "missing {} --from {} {} --to {}", [EVENT_TREE, SECOND_TREE, V1, document(V2)], NOTHING_TREE),
    ("a chain whose body is in the other file", "missing {} --from {} {}", [document(ONE), document(FAILED), EVENT_FILE], CONFLICT_TREE),
    ("a delta of an event by itself and a file", "missing {} --from {} {}", [V2, NOTHING, EVENT_FILE], SECOND_TREE),
    ("a delta of two files by an inventory", "missing-by {} --from {} {}",
     [EVENT_TREE, SECOND_TREE, inventory(digits(C1))], SECOND_TREE),
]

TWICE_NOTED = inventory(digits(C1), digits(C1))
OTHER_LOG = '{"id":"h","events":[]}'

# A call, its files, and why it is refused: each input's own refusal, in turn, then that no log is named, then another log.
REFUSED = [
    ("another log", "join", [document(V1), OTHER_LOG], "input 2: other log"),
    ("a second input that isn't ended", "join", [V1, '{"id":"g","events":[%s]' % V1], "input 2: not JSON"),
    ("events by themselves", "join", [V1, V2], "no log named"),
    ("a first input of another version", "join", ["CADF-REPLICA 3\n", "{"], "input 1: version"),
    ("a second input of another log that is refused", "join", [NOTHING, '{"id":"h","events":{}}'],
     "input 2: events is not a list"),
    ("another log than the one that is given", "join --log h", [NOTHING, V1], "input 1: other log"),
    ("both inputs", "missing", ["{", "CADF-REPLICA 3\n"], "input 1: not JSON"),
    ("the second input, behind an event by itself", "missing", [V1, "CADF-REPLICA 3\n"], "input 2: version"),
    ("an event by itself, before another log", "missing", [V1, OTHER_LOG], "no log named"),
    ("an event by itself as the second input", "missing", [NOTHING, V1], "no log named"),
    ("another log", "missing", [NOTHING, OTHER_LOG], "input 2: other log"),
    ("a document as inventory", "missing-by", [EVENT_FILE, document(V1)], "input 2: truncated"),
    ("no byte as inventory", "missing-by", [EVENT_FILE, ""], "input 2: truncated"),
    ("both inputs", "missing-by", ["{", TWICE_NOTED], "input 1: not JSON"),
    ("the inventory, behind an event by itself", "missing-by", [V1, TWICE_NOTED], "input 2: line 4: order"),
    ("an event by itself, before another log", "missing-by", [V1, inventory(log="h")], "no log named"),
    ("an event by itself", "show", [V1], "no log named"),
    ("an event by itself", "check", [V1], "no log named"),
    ("an event by itself", "inventory", [V1], "no log named"),
    ("an event by itself", "seal", [V1], "no log named"),
    ("an event by itself", "rule E e1 1", [V1], "no log named"),
    ("a ruling alone", "rule E e1 1", [RULING_TREE], "no such value"),
    ("a replica of nothing", "rule E e1 1", [NOTHING], "no such value"),
    ("another kind of that key", "rule G e1 1", [RULED_TREE], "no such value"),
    ("a key of another kind", "rule P r1 1", [NAMED_TREE], "no such value"),
    ("a file that is refused", "rule E e1 1", [replica(line("U", "X", "e1", digits(BF)))], "input 1: line 3: shape"),
    ("what is no JSON", "rule E e1 1", ["{"], "input 1: not JSON"),
    ("what is no JSON", "inventory", ["{"], "input 1: not JSON"),
    ("a fraction", "join", ['{"id":"g","events":[1.5]}'], "input 1: a number is not whole"),
    ("a log without an identifier", "check", ['{"events":[]}'], "input 1: log id"),
    ("a second input of another version", "join", [NOTHING, "CADF-REPLICA 3\n"], "input 2: version"),
    ("the beginning of a file", "missing", ["CADF-", NOTHING], "input 1: truncated"),
    ("a node that is too deep", "join", [NOTHING, 'CADF-REPLICA 2\nL "g"\n[2,0,"P"]\n'], "input 2: line 3: order"),
    ("a node under the first line of format 1", "inventory", ['CADF-REPLICA 1\nL "g"\n[1,0,"E"]\n'], "input 1: line 3: shape"),
    ("a wrong digest", "missing", [NOTHING, 'CADF-REPLICA 2\nL "g"\nZ\n'], "input 2: digest"),
    ("a third file, behind another log", "show", [document(V1), OTHER_LOG, "{"], "input 3: not JSON"),
    ("another log", "show", [V1, document(V1), OTHER_LOG], "input 3: other log"),
    ("another log", "check", [NOTHING, EVENT_TREE, OTHER_LOG], "input 3: other log"),
    ("events by themselves", "check", [V1, V2], "no log named"),
    ("another log", "inventory", [OTHER_LOG, NOTHING], "input 2: other log"),
    ("a seal", "seal", [seal()], "input 1: version"),
    ("another log", "seal", [EVENT_TREE, V2, OTHER_LOG], "input 3: other log"),
    ("another log", "rule E e1 1", [CONFLICT, OTHER_LOG], "input 2: other log"),
    ("a key of no file", "rule E e2 1", [CONFLICT, EVENT_TREE], "no such value"),
    ("a file of TO, behind another log", "missing {} --from {} {} --to {}", [NOTHING, OTHER_LOG, V1, "{"], "input 4: not JSON"),
    ("a further file of FROM, before TO", "missing {} --from {} {} --to {}", [NOTHING, "{", "CADF-REPLICA 3\n", "{"], "input 2: not JSON"),
    ("events by themselves as FROM", "missing {} --from {} {}", [V1, V2, NOTHING], "no log named"),
    ("events by themselves as TO, behind another log", "missing {} --from {} {} --to {}", [NOTHING, OTHER_LOG, V1, V2], "no log named"),
    ("another log of FROM, before one of TO", "missing {} --from {} {} --to {}", [NOTHING, OTHER_LOG, OTHER_LOG, NOTHING],
     "input 2: other log"),
    ("another log of TO", "missing {} --from {} {} --to {}", [V1, NOTHING, V1, OTHER_LOG], "input 4: other log"),
    ("an inventory, behind another log", "missing-by {} --from {} {}", [EVENT_FILE, OTHER_LOG, TWICE_NOTED], "input 3: line 4: order"),
    ("an inventory of another log", "missing-by {} --from {} {}", [EVENT_FILE, V1, inventory(log="h")], "input 3: other log"),
    ("another log, before an inventory's", "missing-by {} --from {} {}", [EVENT_FILE, OTHER_LOG, inventory(log="h")], "input 2: other log"),
    ("events by themselves", "missing-by {} --from {} {}", [V1, V2, inventory()], "no log named"),
]
