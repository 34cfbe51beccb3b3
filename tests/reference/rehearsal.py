"""Rehearsals: the turns that a script tells, and what each site holds after them."""
import re

from tests.reference import json_text
from tests.reference.events import Fault, document
from tests.reference.inventory_files import digest_of, missing_by

NUMBER = re.compile("0|[1-9][0-9]{0,8}")
MAX_SITES = 64


def number_of(word):
    if not NUMBER.fullmatch(word):
        raise Fault("script")
    return int(word)


def sites_of(word):
    """The number of sites that a word of the command line tells."""
    count = int(word) if NUMBER.fullmatch(word) else 0
    if not 1 <= count <= MAX_SITES:
        raise Fault("sites", 2)
    return count


def turn_of(line):
    """The turn's word, its site, and its document or message, None where it has neither."""
    if line.startswith("learn "):
        site, _, text = line[len("learn "):].partition(" ")
        return "learn", number_of(site), document(json_text.read(text.encode()))
    word, *operands = line.split(" ")
    numbers = [number_of(operand) for operand in operands]
    if word in ("ask", "send") and len(numbers) == 1:
        return word, numbers[0], None
    if word in ("answer", "deliver") and len(numbers) == 2:
        site, message = numbers if word == "answer" else reversed(numbers)
        return word, site, message
    raise Fault("script")


def read_script(data):
    """The turns of a script's lines, of which the last may have no line feed."""
    lines = data.split(b"\n")
    turns = []
    for number, line in enumerate(lines if lines[-1] else lines[:-1], 1):
        try:
            turns.append(turn_of(line.decode()))
        except (Fault, UnicodeDecodeError, json_text.NotJson, json_text.NotWhole):
            raise Fault("line %d: script" % number)
    return turns


class Message:
    """What a turn made: the inventory of the site that asked, or atoms, which an answer has for that site alone."""

    def __init__(self, atoms=frozenset(), digests=None, asker=None):
        self.atoms, self.digests, self.asker = atoms, digests, asker


class Rehearsal:
    """The sets of some sites, and the messages made so far."""

    def __init__(self, log, count):
        self.log, self.sites, self.messages = log, [frozenset()] * count, []

    def message(self, number):
        if not 1 <= number <= len(self.messages):
            raise Fault("no such message")
        return self.messages[number - 1]

    def take(self, word, site, told):
        if site >= len(self.sites):
            raise Fault("no such site")
        if word == "learn":
            self.learn(site, *told)
        elif word == "ask":
            self.messages.append(Message(digests={digest_of(atom) for atom in self.sites[site]}, asker=site))
        elif word == "send":
            self.messages.append(Message(self.sites[site]))
        elif word == "answer":
            self.answer(site, self.message(told))
        else:
            self.deliver(site, self.message(told))

    def learn(self, site, log, atoms):
        if log not in (None, self.log):
            raise Fault("other log")
        self.sites[site] |= atoms

    def answer(self, site, message):
        if message.digests is None:
            raise Fault("not an inventory")
        self.messages.append(Message(frozenset(missing_by(self.sites[site], message.digests)), asker=message.asker))

    def deliver(self, site, message):
        if message.digests is None and message.asker not in (None, site):
            raise Fault("wrong addressee")
        self.sites[site] |= message.atoms


def sites_after(log, count, turns):
    """The set of each site after the turns."""
    rehearsal = Rehearsal(log, count)
    for number, turn in enumerate(turns, 1):
        try:
            rehearsal.take(*turn)
        except Fault as fault:
            raise Fault("line %d: %s" % (number, fault.said))
    return rehearsal.sites


def rehearsal_text(log, count, turns):
    """For each site a line: how many atoms it holds, and the least site that holds the same."""
    sites = sites_after(log, count, turns)
    return "".join("site %d atoms %d as %d\n" % (site, len(held), sites.index(held))
                   for site, held in enumerate(sites)).encode()
