#!/usr/bin/env python3
"""The same facts, however they are parcelled: as one document, as several, in other orders, as files of either format, twice.

    examples/parcelled.py [CADF]

Each way of telling them has to end with the same replica file, the same log and the same list of conflicts.
"""
import json
import os
import random
import subprocess
import sys
import tempfile

sys.dont_write_bytecode = True
TOP = os.path.dirname(os.path.dirname(os.path.abspath(__file__)))
sys.path.insert(0, TOP)

from tests.reference.replica_files import file_of, read_file

WAYS = 24


def event(number, **members):
    """An event; those of one number contradict where their members differ."""
    return dict({"id": "e%d" % number, "eventType": "activity", "eventTime": "2024-03-01T12:00:%02dZ" % number,
                 "action": "read", "outcome": "success", "initiatorId": "u1", "targetId": "t1", "observerId": "s1"}, **members)


def facts():
    """Parts of a log: events, two of which contradict or share a body, entities and a property with two values."""
    steps = [{"reporterId": "s%d" % number, "role": "relay"} for number in range(3)]
    events = [event(number) for number in range(5)]
    events += [event(1, outcome="failure"), event(2, reporterchain=steps[:1]), event(2, reporterchain=steps[:2], tags=["b"]),
               event(3, tags=["a"]), event(3, attachments=[{"name": "n"}])]
    parts = [{"events": [one]} for one in events]
    return parts + [{"events": [], "resources": [{"id": "r1"}]}, {"events": [], "name": "x"}, {"events": [], "name": "y"}]


def together(parts):
    """One document of the parts, where it can be one: a property has one value."""
    document = {"id": "g", "events": []}
    for part in parts:
        for name, value in part.items():
            document[name] = document.get(name, []) + value if isinstance(value, list) else value
    return document


def parcels(parts, chance):
    """The parts in some order, some of them twice, in documents of some of them each."""
    told = list(parts) + chance.sample(parts, 4)
    chance.shuffle(told)
    documents = [[]]
    for part in told:
        if chance.random() < 0.4 or "name" in part and any("name" in other for other in documents[-1]):
            documents.append([])
        documents[-1].append(part)
    return [together(document) for document in documents]


def run(binary, words):
    return subprocess.run([binary] + words, stdin=subprocess.DEVNULL, check=True, capture_output=True).stdout


def joined(binary, folder, documents, chance):
    """The file of the documents, some of which become files first, of format 2 or 1."""
    names = []
    for number, document in enumerate(documents):
        name = os.path.join(folder, "%d.json" % number)
        with open(name, "w", encoding="utf-8") as file:
            json.dump(document, file)
        if chance.random() < 0.5:
            content = run(binary, ["join", name])
            if chance.random() < 0.5:
                content = file_of(*read_file(content), version=1)
            with open(name + ".cadf", "wb") as file:
                file.write(content)
            name += ".cadf"
        names.append(name)
    return run(binary, ["join"] + names)


def main(binary):
    first = None
    for seed in range(WAYS):
        chance = random.Random(seed)
        with tempfile.TemporaryDirectory() as folder:
            whole = os.path.join(folder, "whole.cadf")
            with open(whole, "wb") as file:
                file.write(joined(binary, folder, parcels(facts(), chance), chance))
            with open(whole, "rb") as file:
                texts = [file.read(), run(binary, ["show", whole]), run(binary, ["show", "--conflicts", whole])]
        first = first or texts
        if texts != first:
            sys.exit("parcelled: way %d ends with other bytes" % seed)
    print("parcelled: %d ways of telling the same facts, the same bytes" % WAYS)


if __name__ == "__main__":
    main(os.path.abspath(sys.argv[1] if len(sys.argv) > 1 else os.path.join(TOP, "crates", "cadf", "out", "cadf")))
