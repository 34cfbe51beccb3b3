"""Worked rows of documents, of replica files in both formats, of rulings, inventories and rehearsals: what is written is
told here, by hashlib or in full. Those of documents stand in document_rows.py, those of several inputs in
exchange_rows.py, those of sketches in sketch_rows.py, those of split files in split_rows.py, those of proofs in
verify_rows.py, those of keys in key_rows.py, those of growth and of what is left out in growth_rows.py; damaged files
in file_calls.py.

    python3 -m tests.tables.rows [BINARY]

Each row is answered by the second implementation, and by BINARY if it is given. The status is 1 where one differs.
"""
import os
import sys

from tests.generated.compare import alike, answered
from tests.reference.command import Answer, answer
from tests.tables import document_rows, exchange_rows, file_calls, growth_rows, key_rows, sketch_rows, split_rows, verify_rows
from tests.tables.replica_calls import ASKING, EXCHANGE, NO_SCRIPTS, STOPPED, TURN_FAULTS
from tests.tables.texts import B1, BF, C1, CF, K1, KF, S1, S2, conflicts, data, digits, entry, inventory, line, log, replica, said, tree
from tests.tables.worked_files import (
    BODY_NODE, CHAINS, CHAINS_TREE, CHAIN_NODES, CONFLICT, CONFLICT_TREE, EVENT_TREE, FRONT, K12, NOTHING_TREE,
    OTHER_CHAIN_NODES, OTHER_NODE, RULED_TREE, RULING, RULING_NODES, TWICE_RULED_TREE,
)

# How many bytes these texts have.
SIZES = [
    (B1, 148), (C1, 189), (replica(), 88), (replica(C1), 278), (CHAINS, 807), (inventory(), 90),
    (inventory(digits(C1)), 155),
    (NOTHING_TREE, 88), (EVENT_TREE, 294), (CHAINS_TREE, 409), *split_rows.SIZES]

NORTH, SOUTH = line("P", "name", '"north"'), line("P", "name", '"south"')
F, T = document_rows.FAILED, document_rows.ONE
FOR_F, FOR_T, FOR_OTHER = (("E", "e1", digits(text)) for text in (BF, B1, "x"))

# What is called on a file, and what is written.
RULED = [
    ("a ruling", "rule E e1 1", CONFLICT, RULED_TREE),
    ("a ruling of a file of format 2", "rule E e1 1", CONFLICT_TREE, RULED_TREE),
    ("a ruling again", "rule E e1 1", RULED_TREE, RULED_TREE),
    ("a ruling in format 1", "join", replica(CF, KF, C1, K1, RULING), RULED_TREE),
    ("a settled event", "show", RULED_TREE, log(F)),
    ("what is beside it", "show --conflicts", RULED_TREE,
     conflicts(entry("E", "e1", T, ruled=digits(BF)), rulings=[FOR_F])),
    ("a settled key counts", "check", RULED_TREE, 'ok "g" atoms 5 conflicts 1\n'),
    ("the other ruling", "rule E e1 2", RULED_TREE, TWICE_RULED_TREE),
    ("two rulings settle nothing", "show", TWICE_RULED_TREE, log()),
    ("two rulings are told", "show --conflicts", TWICE_RULED_TREE, conflicts(entry("E", "e1", F, T), rulings=sorted([FOR_F, FOR_T]))),
    ("a property", "rule P name 2", replica(NORTH, SOUTH), tree(
        (1, 0, "P"), (2, 0, "name"), (3, 1, '"north"'), (3, 1, '"south"'), (1, 0, "U"), (2, 0, "P"), (3, 0, "name"),
        (4, 1, digits('"south"')))),
    ("a settled property", "show", replica(NORTH, SOUTH, line("U", "P", "name", digits('"south"'))), log(name='"south"')),
    ("a ruling of what isn't held", "show", replica(C1, K1, RULING), log(T)),
    ("it is told", "show --conflicts", replica(C1, K1, RULING), conflicts(rulings=[FOR_F])),
    ("no ruling", "show --conflicts", replica(C1), conflicts()),
    ("a ruling of what isn't held unsettles nothing", "show",
     replica(CF, KF, C1, K1, *sorted([RULING, line("U", *FOR_OTHER)])), log(F)),
    ("all of it is told", "show --conflicts",
     replica(CF, KF, C1, K1, *sorted([RULING, line("U", *FOR_OTHER)])), conflicts(
         entry("E", "e1", T, ruled=digits(BF)), rulings=sorted([FOR_F, FOR_OTHER]))),
]

# What is called on files, and what is refused.
REFUSED = [
    ("a place that isn't", "rule E e1 3", [CONFLICT], "no such value"),
    ("a key that isn't", "rule E e2 1", [CONFLICT], "no such value"),
    ("another kind", "rule P e1 1", [CONFLICT], "no such value"),
    ("another letter", "rule U e1 0", [CONFLICT], "letter"),
    ("place 0", "rule E e1 0", [CONFLICT], "place"),
    ("a leading zero", "rule E e1 01", [CONFLICT], "place"),
    ("a place of ten digits", "rule E e1 1000000000", [CONFLICT], "place"),
    ("an inventory as FROM", "missing-by", [inventory(), inventory()], "input 1: version"),
    ("an inventory of another log", "missing-by", [CONFLICT, inventory(log="h")], "input 2: other log"),
]
# A damaged file as an input and as an inventory.
REFUSED += [("a file, refused as %s: %.80r" % (fault, one), "check", [one], "input 1: " + said(fault))
            for one, fault in file_calls.DAMAGED if one[:5] in ("CADF-", b"CADF-")]
REFUSED += [("an inventory, refused as %s: %.80r" % (fault, one), "missing-by", [CONFLICT, one], "input 2: " + said(fault))
            for one, fault in file_calls.REFUSED_DIGESTS]

# What is called, of files FROM and BY, and what is written.
OF_FILES = [
    ("the inventory of no atoms", "inventory", replica(), None, inventory()),
    ("the inventory of one atom", "inventory", replica(C1), None, inventory(digits(C1))),
    ("the digests rise", "inventory", CHAINS, None, inventory(*sorted(digits(one) for one in (C1, K1, K12)))),
    ("digests are of atoms, not of nodes", "inventory", CHAINS_TREE, None,
     inventory(*sorted(digits(one) for one in (C1, K1, K12)))),
    ("a carrier is written with what stands on it", "missing-by", CHAINS, inventory(digits(C1)), CHAINS_TREE),
    ("a chain is there without its carrier", "missing-by", CONFLICT, inventory(digits(K1)),
     tree(*FRONT, OTHER_NODE, *OTHER_CHAIN_NODES, BODY_NODE)),
    ("a carrier is there without its chain", "missing-by", CONFLICT_TREE, inventory(digits(C1)), CONFLICT_TREE),
    ("a chain that goes on from another", "join", CHAINS, None, CHAINS_TREE),
    ("a file of what is written", "join", CHAINS_TREE, None, CHAINS_TREE),
    ("two bodies", "join", CONFLICT, None, CONFLICT_TREE),
    ("two bodies of two files", "join", replica(CF, KF), tree(*FRONT, BODY_NODE, *CHAIN_NODES), CONFLICT_TREE),
    ("a chain is lacked", "missing", CHAINS_TREE, replica(C1, K12), tree(*FRONT, BODY_NODE, *CHAIN_NODES)),
    ("a longer chain is lacked", "missing", CHAINS_TREE, replica(C1, K1),
     tree(*FRONT, BODY_NODE, (4, 0, "C"), (5, 0, S1), (6, 1, S2))),
    ("a ruling is lacked by its digest", "missing-by", RULED_TREE,
     inventory(*sorted(digits(one) for one in (CF, KF, C1, K1))), tree(*RULING_NODES, (4, 1, digits(BF)))),
]

# The number of sites, a script's lines, and what is written.
REHEARSED = [
    (3, EXCHANGE, "site 0 atoms 2 as 0\nsite 1 atoms 2 as 0\nsite 2 atoms 0 as 2\n"),
    (2, ASKING, "site 0 atoms 2 as 0\nsite 1 atoms 2 as 0\n"),
    (2, [], "site 0 atoms 0 as 0\nsite 1 atoms 0 as 0\n"),
]

WRITTEN = [(name, command, [file for file in (source, by) if file], output) for name, command, source, by, output in OF_FILES]
WRITTEN += [(name, command, [file], output) for name, command, file, output in RULED]
WRITTEN += [("a rehearsal of %d turns" % len(lines), "rehearse g %d" % sites, ["\n".join(lines)], output) for sites, lines, output in REHEARSED]
REFUSED += [("an exchange, then " + last, "rehearse g 3", ["\n".join([*EXCHANGE, last])], "line 11: " + TURN_FAULTS[fault]) for last, fault in STOPPED]
REFUSED += [("the script %r" % text, "rehearse g 2", [text], "line 1: script") for text in NO_SCRIPTS]
REFUSED += [("the script %r" % text, "rehearse g 2", [text], what) for text, what in (
    ("answer 5 9", "line 1: no such site"), ("answer 5 9\nhello", "line 2: script"), ("ask 0\nask \udcff", "line 2: script"))]
STATUSES = dict.fromkeys(["letter", "place", "cells", "salt"], 2)  # of what is refused, if it isn't 1


def refusal(said):
    return Answer(STATUSES.get(said, 1), b"", ("cadf: %s\n" % said).encode())


def called(name, command, files, wanted):
    """A row of the command's words, and of files that stand for its `{}` in turn, or behind its words where it has none."""
    names = ["file-%d" % number for number in range(1, len(files) + 1)]
    words = command.format(*names).split() if "{}" in command else [*command.split(), *names]
    return name, [word.encode() for word in words], {file.encode(): text for file, text in zip(names, files)}, wanted


def rows_of(module):
    """The rows of a module that has them: each with its name, words, files as text, and answer."""
    for name, command, files, output in module.WRITTEN:
        yield called(name, command, files, Answer(0, output.encode(), b""))
    for name, command, files, said in module.REFUSED:
        yield called(name, command, files, refusal(said))


def all_rows():
    """The rows of this file, and those of documents, of several inputs, of sketches, of split files, of proofs, of growth and of keys."""
    for module in (sys.modules[__name__], document_rows, exchange_rows, sketch_rows, split_rows, verify_rows, growth_rows, key_rows):
        yield from rows_of(module)


def with_bytes(rows):
    """The rows, with their files as bytes."""
    for name, words, texts, wanted in rows:
        yield name, words, {file: data(text) for file, text in texts.items()}, wanted


def calls():
    """The rows of this file: few enough for a command that isn't proved yet, which takes a while to start."""
    return with_bytes(rows_of(sys.modules[__name__]))


def wrong_sizes():
    """The texts that have another number of bytes."""
    return ["the size of %.40s" % text for text, size in SIZES if len(text.encode()) != size]


def main():
    wrong, count = wrong_sizes(), len(SIZES)
    for name, words, files, wanted in with_bytes(all_rows()):
        got = [answer(words, files)] + [answered(os.path.abspath(binary), words, files) for binary in sys.argv[1:2]]
        if not all(alike(wanted, one) for one in got):
            wrong.append(name)
        count += 1
    for name in wrong:
        print("row differs: %s" % name)
    print("%d rows: %s" % (count, "%d differ" % len(wrong) if wrong else "all as told"))
    return 1 if wrong else 0


if __name__ == "__main__":
    sys.exit(main())
