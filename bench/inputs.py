"""The inputs of bench/shapes.py. A shape is much of one thing, in a log document or in a replica file."""
import itertools
import os
import random
from typing import Callable, NamedTuple, Optional

from measure import LOG, key_of, run_apart, sealed_lines, spelled, write_replica, written_apart
from show import event

PLAIN = "".join(chr(code) for code in range(0x21, 0x7F) if chr(code) not in '"\\')
DOCUMENT, FILE, FILE_1 = "document", "file", "file of format 1"  # a file is of format 2 unless its form says otherwise
EVENT = {"id": "e1", "eventType": "activity", "eventTime": "2024-03-01T12:00:00Z", "action": "read",
         "outcome": "success", "initiatorId": "u1", "targetId": "t1", "observerId": "s1"}
BODY = spelled({name: text for name, text in EVENT.items() if name != "id"})


class Shape(NamedTuple):
    """Inputs with much of one thing, of given numbers: the members of a document, the atoms of a file, or its lines."""
    title: str
    unit: int  # about as many bytes has one of them
    members: Optional[Callable] = None
    atoms: Optional[Callable] = None
    lines: Optional[Callable] = None
    forms: tuple = (DOCUMENT, FILE)
    is_refused: bool = False
    memory: Optional[int] = None  # the aim in bytes a byte, if it is not that of all files

    def write(self, path, form, numbers, binary):
        """Writes the input of that form. The command makes a file of a document if the shape has no atoms."""
        if form == DOCUMENT:
            written_apart(lambda: write_log(path, self.members(numbers)))
        elif self.lines:
            written_apart(lambda: sealed_lines(path, LOG, self.lines(numbers), 1 if form == FILE_1 else 2))
        elif self.atoms:
            written_apart(lambda: write_replica(path, LOG, self.atoms(numbers)))
        else:
            written_apart(lambda: write_log(path + ".json", self.members(numbers)))
            run_apart([binary, "join", path + ".json"], path)
            os.remove(path + ".json")


def write_log(path, members):
    """Writes the log document of these members, each a text or the texts of a list."""
    with open(path, "w", encoding="utf-8") as out:
        out.write('{"id":%s' % spelled(LOG))
        for name, value in members.items():
            out.write(",%s:" % spelled(name) + (value if isinstance(value, str) else "[%s]" % ",".join(value)))
        out.write("}\n")


def short_event(number):
    return spelled(EVENT | {
        "id": "event-%08d" % number, "initiatorId": "user-%d" % (number % 97), "tags": ["login"],
        "reporterchain": [step("s%d" % (number % 5))], "requestPath": "/v2.1/servers/%06d" % number})


def one_event(**parts):
    return {"events": [spelled(EVENT | parts)]}


def large_event(bytes_of_body, **parts):
    return one_event(reason={"text": "x" * bytes_of_body}, **parts)


def with_list(items):
    """An event with a member that is a list of these texts."""
    return {"events": ['%s,"x":[%s]}' % (spelled(EVENT)[:-1], ",".join(items))]}


def properties(numbers, text="%d"):
    """Properties that each have a number in this text."""
    return {"events": []} | {"p%07d" % number: text % number for number in numbers}


def a_property(texts):
    """A property that is a text, or a list of texts."""
    return {"events": [], "x": texts}


def resources(texts):
    return {"events": [], "resources": texts}


def in_a_property(texts_of):
    """A shape's members and atoms: a property that is a list of these texts."""
    return {"members": lambda numbers: a_property(texts_of(numbers)),
            "atoms": lambda numbers: [("P", "x", "[%s]" % ",".join(texts_of(numbers)))]}


def tags(numbers):
    return ["tag-%07d" % number for number in numbers]


def short(number):
    """A name of three bytes, or more from 92^3 on."""
    text = ""
    while number or len(text) < 3:
        number, place = divmod(number, len(PLAIN))
        text += PLAIN[place]
    return text


def shuffled(numbers):
    """Short names in no order."""
    names = [short(number) for number in numbers]
    random.Random(0).shuffle(names)
    return names


def shuffled_properties(numbers):
    return {"events": []} | {name: "0" for name in shuffled(numbers)}


def attachments(numbers):
    return [{"content": number, "name": "a%07d" % number, "typeURI": "number"} for number in numbers]


def step(reporter, **parts):
    return {"reporterId": reporter, "role": "relay"} | parts


def chains(numbers):
    return [[step("s%07d" % number)] for number in numbers]


def deep_chains(steps):
    """Chains of so many steps that differ in the last one."""
    shared = ["E", "e1", BODY, "C"] + [spelled(step("shared-%d" % place)) for place in range(steps - 1)]
    return lambda numbers: [("E", "e1", BODY)] + [(*shared, spelled(step("last-%08d" % number))) for number in numbers]


def chains_behind_a_step(numbers):
    """Chains of two steps, of which the first is one for all, and as long as all others together up to 50 KB."""
    shared = ("E", "e1", BODY, "C", spelled(step("shared", x="x" * min(55 * len(numbers), 50000))))
    return [("E", "e1", BODY)] + [(*shared, spelled(step("last-%08d" % number))) for number in numbers]


def tiny(numbers):
    """Tiny objects, after a number that tells one list of them from another."""
    return itertools.chain([str(numbers.start)], ('{"a":1}' for _ in numbers))


def tiniest(numbers):
    return itertools.chain([str(numbers.start)], ('{"":0}' for _ in numbers))


def shuffled_members(numbers):
    return "{%s}" % ",".join('"%s":0' % name for name in shuffled(numbers))


def replaced_members(names):
    """An object that has each name with a number that isn't whole, and then each with one that is."""
    return "{%s}" % ",".join('"%s":%s' % (name, text) for text in ("-0", "0") for name in names)


def nested_falling(numbers, depth):
    """A list of zeros in so many objects, of which each has its members in falling order."""
    return '{"b":0,"a":' * depth + "[%s]" % ",".join("0" for _ in numbers) + "}" * depth


def overwritten(numbers):
    """A property of a fraction, one of tiny objects, and the first once more: a whole number, which counts."""
    return a_property('1.5,"y":[%s],"x":1' % ",".join(tiniest(numbers)))


def line(numbers):
    return ["[%s]" % ",".join(tiniest(numbers))]


def line_after_blank(numbers):
    """A line that is not canonical, of whole numbers."""
    return ["[ %s]" % ",".join("0" for _ in numbers)]


TINY = 12  # bytes of memory a byte of tiny objects and fractions
SHORT = 25  # of short names
LINE = 12  # of a refused line: the line is read as a value
NESTED_LINE = 15  # of one whose nodes are also copied in order
TWO_BLOCKS = 38  # bytes of a member by which the line of a tag ends in a second block of SHA-256
TREE = 140  # where they are read into a tree of values
DOCUMENTS, FILES = (DOCUMENT,), (FILE,)
SHAPES = {
    "short-events": Shape("ordinary events", 310, lambda numbers: {"events": map(short_event, numbers)}),
    "events": Shape("events of the audit middleware", 880, lambda numbers: {
        "events": (event(number, number) for number in numbers)}),
    "bodies": Shape("bodies of an event", 880, lambda numbers: {"events": (event(number, 0) for number in numbers)}),
    "values": Shape("values of an entity", 27, lambda numbers: resources(
        '{"id":"r","name":"%07d"}' % number for number in numbers)),
    "tags": Shape("tags of an event", 14, lambda numbers: one_event(tags=tags(numbers))),
    "tags-shuffled": Shape("short tags in no order, their digests of two blocks", 6, lambda numbers: one_event(
        tags=shuffled(numbers), name="x" * TWO_BLOCKS), forms=DOCUMENTS, memory=SHORT),
    "tags-alike": Shape("tags in no order, alike in their first eight bytes", 14, lambda numbers: one_event(
        tags=["tag-tag-" + name for name in shuffled(numbers)]), forms=DOCUMENTS, memory=SHORT),
    "tags-long-id": Shape("short tags of an event, its identifier of 1,024 quotation marks", 6, lambda numbers: one_event(
        id='"' * 1024, tags=list(map(short, numbers))), forms=DOCUMENTS, memory=SHORT),
    "tags-equal": Shape("equal tags", 6, lambda numbers: one_event(tags=["tag" for _ in numbers]), forms=DOCUMENTS),
    "body-tags": Shape("tags of an event, and a body as long as they are", 28, lambda numbers: large_event(
        14 * len(numbers), tags=tags(numbers))),
    "attachments": Shape("attachments of an event", 50, lambda numbers: one_event(attachments=attachments(numbers))),
    "attachments-equal": Shape("attachments `{}`", 3, lambda numbers: one_event(attachments=[{} for _ in numbers]),
                               forms=DOCUMENTS),
    "body-attachments": Shape("attachments of an event, and a body as long as they are", 100, lambda numbers: (
        large_event(50 * len(numbers), attachments=attachments(numbers)))),
    "chains": Shape("chains of an event", 43, lambda numbers: one_event(reporterchains=chains(numbers))),
    "chains-empty": Shape("empty chains", 3, lambda numbers: one_event(reporterchains=[[] for _ in numbers]),
                          forms=DOCUMENTS),
    "body-chains": Shape("chains of an event, and a body as long as they are", 86, lambda numbers: large_event(
        43 * len(numbers), reporterchains=chains(numbers))),
    "chains-64": Shape("chains that share 63 of 64 steps", 480, atoms=deep_chains(64), forms=FILES),
    "chains-128": Shape("chains that share 127 of 128 steps", 480, atoms=deep_chains(128), forms=FILES),
    "chains-256": Shape("chains that share 255 of 256 steps", 480, atoms=deep_chains(256), forms=FILES, memory=TINY),
    "shared-step": Shape("chains that share a large step", 400, atoms=chains_behind_a_step, forms=FILES,
                         memory=TINY),
    "rulings": Shape("rulings of a key", 73, atoms=lambda numbers: [
        ("U", "P", "x", key_of(number)) for number in numbers], forms=FILES),
    "rulings-long": Shape("rulings of a key of 1,024 bytes", 73, atoms=lambda numbers: [
        ("U", "P", "x" * 1024, key_of(number)) for number in numbers], forms=FILES, memory=SHORT),
    "properties": Shape("properties", 18, lambda numbers: properties(numbers)),
    "properties-shuffled": Shape("short properties in no order", 8, shuffled_properties, forms=DOCUMENTS, memory=SHORT),
    "property-values": Shape("values of a property", 14, atoms=lambda numbers: [
        ("P", "x", str(number)) for number in numbers], forms=FILES),
    "names": Shape("entities, their identifiers alike in 1,000 bytes", 1016, lambda numbers: resources(
        '{"id":"%s%07d"}' % ("x" * 1000, number) for number in numbers)),
    "resources-shuffled": Shape("short entities in no order", 13, lambda numbers: resources(
        '{"id":"%s"}' % name for name in shuffled(numbers)), forms=DOCUMENTS, memory=SHORT),
    "nested-resources": Shape("entities that nest 98 deep", 220, lambda numbers: resources(
        '{"id":"r%07d","x":%s}' % (number, "[" * 98 + "0" + "]" * 98) for number in numbers), forms=DOCUMENTS),
    "escapes": Shape("escapes", 99, lambda numbers: a_property(
        r'"%s%07d"' % (r'\u0001\n\"' * 9, number) for number in numbers)),
    "nesting": Shape("properties that nest 99 deep", 216, lambda numbers: properties(
        numbers, "[" * 99 + "%d" + "]" * 99)),
    "nested-event": Shape("lists 97 deep in an event", 196, lambda numbers: with_list(
        "[" * 97 + "0" + "]" * 97 for _ in numbers), forms=DOCUMENTS),
    "shuffled": Shape("short members in no order", 8, lambda numbers: a_property(shuffled_members(numbers)), forms=DOCUMENTS,
                      memory=SHORT),
    "nested-falling": Shape("a list of `0` in 98 objects, their members in descending order", 2, lambda numbers: a_property(
        nested_falling(numbers, 98)), forms=DOCUMENTS),
    "nested-fraction": Shape("a list of `0` in 125 such objects, beside a fraction, refused", 2, lambda numbers: a_property(
        nested_falling(numbers, 125) + ',"y":1.5'), forms=DOCUMENTS, is_refused=True),
    "nested-line": Shape("a line of a list of `0` in 125 such objects, refused", 2, lines=lambda numbers: [
        nested_falling(numbers, 125)], forms=FILES, is_refused=True, memory=NESTED_LINE),
    "tiny": Shape("`{\"a\":1}` in a property", 8, **in_a_property(tiny), memory=TINY),
    "tiny-event": Shape("`{\"a\":1}` in an event", 8, lambda numbers: with_list(tiny(numbers)), forms=DOCUMENTS,
                        memory=TINY),
    "tiny-resource": Shape("`{\"a\":1}` in an entity", 8, lambda numbers: resources(
        ['{"id":"r","x":[%s]}' % ",".join(tiny(numbers))]), forms=DOCUMENTS, memory=TINY),
    "tiny-events": Shape("`{\"a\":1}` as events, refused", 8, lambda numbers: {"events": tiny(numbers)},
                         forms=DOCUMENTS, is_refused=True, memory=TINY),
    "fraction": Shape("`{\"a\":1}` before a fraction, refused", 8, **in_a_property(
        lambda numbers: itertools.chain(tiny(numbers), ["1.5"])), is_refused=True, memory=TINY),
    "fractions": Shape("fractions, refused", 4, **in_a_property(lambda numbers: ("1.5" for _ in numbers)),
                       is_refused=True, memory=TINY),
    "exponents": Shape("`1e-9`, refused", 5, **in_a_property(lambda numbers: ("1e-9" for _ in numbers)),
                       is_refused=True, memory=TINY),
    "overwritten": Shape("`{\"\":0}` beside a fraction that is overwritten", 7, overwritten, forms=DOCUMENTS,
                         memory=TREE),
    "line": Shape("a line of `{\"\":0}`, refused", 7, lines=line, forms=FILES, is_refused=True, memory=LINE),
    "line-blank": Shape("a line of `0` after a blank, refused", 2, lines=line_after_blank, forms=FILES,
                        is_refused=True, memory=LINE),
    "line-fraction": Shape("a line of `0` behind a fraction, refused", 2, lines=lambda numbers: [
        "[1.5,%s]" % ",".join("0" for _ in numbers)], forms=FILES, is_refused=True, memory=LINE),
    "line-replaced": Shape("a line of members `-0` in no order, each of which a later one replaces, refused", 17, lines=lambda numbers: [
        replaced_members(shuffled(numbers))], forms=FILES, is_refused=True, memory=LINE),
    "line-rising": Shape("a line of members `-0` in rising order, each of which a later one replaces, refused", 17, lines=lambda numbers: [
        replaced_members(sorted(map(short, numbers)))], forms=FILES, is_refused=True, memory=LINE),
    "line-1": Shape("a line of `{\"\":0}`, refused", 7, lines=line, forms=(FILE_1,), is_refused=True, memory=TINY),
}
