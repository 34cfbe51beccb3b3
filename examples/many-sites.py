#!/usr/bin/env python3
"""Many exchanges between sites, by the built command: all must end with the bytes of one join.

    examples/many-sites.py [--exchanges 40] [--seed 7] [CADF]

Ten documents are made of the events in this folder, with other outcomes, tags and relays, under one of two names. In
each exchange two to five sites are told them in some order, some of them twice, and send each other parts, each made
against some earlier state of its receiver, late, or again, until each has heard of all. A third of the parts are made
from the receiver's whole file, a third from an inventory and a third from a sketch with which it asked, then or earlier. A
sketch with too few cells is refused, and the receiver asks with as many as the refusal says; whoever was refused twice
asks by an inventory. Some parts are made against a file without atoms, which their receiver never joined. Sites that hold both names rule for one of them, and join parts that
were made before they ruled. In the end every site's file must be the file of one join of the ten documents with that
ruling, and its log and conflict list those of that file.
"""
import argparse
import collections
import copy
import glob
import json
import os
import random
import subprocess
import sys
import tempfile

HERE = os.path.dirname(os.path.abspath(__file__))
TOO_FEW = b"cadf: input 2: too few cells: ask for "
BINARY = os.path.join(HERE, "..", "crates", "cadf", "out", "cadf")


class Command:
    """The built command, and a folder for what it writes."""

    def __init__(self, binary, folder):
        self.binary, self.folder, self.files, self.asked, self.letters = binary, folder, 0, {}, collections.Counter()
        self.empty = self.join(self.keep(b'{"id": "federation", "events": []}'))

    def keep(self, content):
        """A new file with that content."""
        self.files += 1
        path = os.path.join(self.folder, str(self.files))
        with open(path, "wb") as out:
            out.write(content)
        return path

    def run(self, *words):
        return subprocess.run([self.binary, *words], capture_output=True)

    def written(self, *words):
        done = self.run(*words)
        if done.returncode:
            sys.exit("cadf %s: %s" % (" ".join(words), done.stderr.decode()))
        return done.stdout

    def join(self, *files):
        return self.keep(self.written("join", "--log", "federation", *files))

    def missing(self, sender, receiver):
        """What the receiver, as it was in that file, lacks of the sender: by its whole file, an inventory or a sketch."""
        way = random.choice(["file", "inventory", "sketch"])
        if way == "file":
            return self.keep(self.written("missing", sender, receiver))
        return self.missing_by_sketch(sender, receiver) if way == "sketch" else self.missing_by(sender, receiver)

    def missing_by(self, sender, receiver):
        return self.keep(self.written("missing-by", sender, self.letter("inventory", receiver)))

    def missing_by_sketch(self, sender, receiver):
        """The same by sketches: one of some cells, and if these are too few another, as its refusal asks."""
        options = ["--cells", random.choice(["12", "60", "198"])]
        for letters in (1, 2):
            done = self.run("missing-by-sketch", sender, self.letter("sketch", receiver, *options))
            self.letters[letters] += 1
            if done.returncode == 0:
                return self.keep(done.stdout)
            if done.returncode != 1 or not done.stderr.startswith(TOO_FEW):
                sys.exit("cadf missing-by-sketch: %s" % done.stderr.decode())
            options = ["--cells", done.stderr[len(TOO_FEW):].decode().strip(), "--salt", str(random.getrandbits(64) | 1)]
        self.letters[3] += 1
        return self.missing_by(sender, receiver)

    def ruled(self, file):
        """The file with a ruling for the second of two names, or the file itself where it hasn't two."""
        done = self.run("rule", "P", "name", "2", file)
        if done.returncode == 1 and done.stderr == b"cadf: no such value\n":
            return file
        if done.returncode:
            sys.exit("cadf rule: %s" % done.stderr.decode())
        return self.keep(done.stdout)

    def letter(self, command, file, *options):
        """The letter by which the holder of the file asks, made when it first asks so."""
        words = (command, *options, file)
        if words not in self.asked:
            self.asked[words] = self.keep(self.written(*words))
        return self.asked[words]


def events():
    found = []
    for path in sorted(glob.glob(os.path.join(HERE, "*.json"))):
        with open(path) as text:
            document = json.load(text)
        found += document.get("events", [document])
    return found


def varied(event, number):
    """The event as one of a few relays hands it on."""
    event = copy.deepcopy(event)
    event["id"] = "%s-%d" % (event["id"], number)
    if random.random() < 0.3:
        event["outcome"] = random.choice(["success", "failure"])
    if random.random() < 0.5:
        event["tags"] = event.get("tags", []) + ["tag-%d" % random.randrange(4)]
    if random.random() < 0.5:
        relay = {"role": "relay", "reporterId": "relay-%d" % random.randrange(3)}
        event["reporterchain"] = event.get("reporterchain", []) + [relay]
    return event


def documents(command):
    kinds = [(event, number) for event in events() for number in range(6)]
    for _ in range(10):
        told = [varied(event, number) for event, number in random.sample(kinds, 6)]
        yield command.keep(json.dumps({"id": "federation", "name": random.choice("ab"), "events": told}).encode())


def exchanged(command, pool):
    """The last files of some sites that were told all of the pool between them."""
    told = [[] for _ in range(random.randint(2, 5))]
    for document in pool + random.sample(pool, 4):
        random.choice(told).append(document)
    states = [[command.join(*documents[:1] or pool[:1])] for documents in told]
    for site, documents in enumerate(told):
        for document in documents[1:]:
            states[site].append(command.join(states[site][-1], document))
            late = command.missing(random.choice(random.choice(states)), random.choice([command.empty] + states[site]))
            if random.random() < 0.5:
                states[site].append(command.ruled(states[site][-1]))
            operands = [states[site][-1], late]
            random.shuffle(operands)
            states[site].append(command.join(*operands))
    for turn in range(2 * len(states)):  # twice around the ring
        if turn == len(states):  # the first site has heard of all
            states[0].append(command.ruled(states[0][-1]))
        sender, receiver = turn % len(states), states[(turn + 1) % len(states)]
        part = command.missing(states[sender][-1], random.choice(receiver))
        operands = [receiver[-1], part, part]
        random.shuffle(operands)
        receiver.append(command.join(*operands))
    return [state[-1] for state in states]


def told(command, file):
    """All that the command tells of a file: its bytes, its log, its conflict list, its counts."""
    with open(file, "rb") as content:
        return content.read(), command.written("show", file), command.written("show", "--conflicts", file), command.written("check", file)


def main():
    parser = argparse.ArgumentParser(description=__doc__, formatter_class=argparse.RawDescriptionHelpFormatter)
    parser.add_argument("--exchanges", type=int, default=40)
    parser.add_argument("--seed", type=int, default=7)
    parser.add_argument("binary", nargs="?", default=BINARY)
    options = parser.parse_args()
    random.seed(options.seed)
    with tempfile.TemporaryDirectory() as folder:
        command = Command(options.binary, folder)
        pool = list(documents(command))
        wanted = told(command, command.ruled(command.join(*pool)))
        if b'"ruled":' not in wanted[2]:
            sys.exit("no ruling was made")
        sites = 0
        for number in range(options.exchanges):
            for file in exchanged(command, pool):
                sites += 1
                if told(command, file) != wanted:
                    sys.exit("exchange %d ended with other bytes" % (number + 1))
        print("%d exchanges, %d sites, %d files; sketches: %d first letters, %d second, %d in vain: %s" % (
            options.exchanges, sites, command.files, *(command.letters[letters] for letters in (1, 2, 3)),
            wanted[3].decode().strip()))


if __name__ == "__main__":
    main()
