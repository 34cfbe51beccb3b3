"""Generated cases: the words of a call, and the contents of the files in its folder."""
import functools
import pathlib
import random

from tests import TOP
from tests.generated import (
    odd_documents, odd_events, odd_files, odd_growths, odd_inventories, odd_keys, odd_nodes, odd_proofs, odd_sketches, schedules,
)
from tests.generated.odd_lies import Lie
from tests.generated.odd_events import chain, event
from tests.generated.odd_files import (
    atoms_of, documents_told, file_with, grounded_part, some_carrier, some_file, some_file_of, some_head, with_rulings,
)
from tests.generated.odd_lines import damaged, resealed, with_odd_end
from tests.generated.odd_values import (
    any_value, good_name, good_time, nested, number, number_near_a_border, odd_name, odd_text, time,
)
from tests.generated.spelling import spelled_oddly
from tests.reference.command import DIRECTORY, WORDS_WANTED, read_input
from tests.reference.inventory_files import digest_of, inventory_of, inventory_with
from tests.reference.json_text import quoted, read_canonical, spelled
from tests.reference.seal_files import seal_of
from tests.reference.sealed_files import sealed
from tests.reference.shown_texts import log_text
from tests.reference.sketch_files import sketch_file, sketch_with

ODD_JSON = [
    b"nul", b"nulL", b"True", b"tru", b"truex", b"falsee", b"[,]", b"[1,]", b"[1 2]", b"{,}", b'{"a"}', b'{"a":}',
    b'{"a":1,}', b"{1:1}", b"{'a':1}", b'{"a" :1}', b"[1,,2]", b"[", b"]", b"{", b"}", b"[1}", b'{"a":1]', b"//x",
    b"/**/1", b"#", b"\x0c1", b"\xc2\xa01", b"1;", b"undefined", b'{"a":1 "b":2}', b'"a""b"', b"[null true]",
    b"{null:1}", b'{"":1}', b'{"a":{"a":{"a":1}},"a":2}', b'{"$serde_json::private::Number":"5"}',
    b'{"$serde_json::private::Number":"1.5"}', b'{"$serde_json::private::RawValue":"[1]"}',
    b'{"$serde_json::private::Number":"x","b":1}']
ODD_INPUTS = [
    b"", b" ", b"\n", b"CADF", b"CADF-", b"CADF-\n", b"cadf-\n", b" CADF-", b"CADF_REPLICA 1\n", b"CADF-REPLICA 1\n",
    b'CADF-REPLICA 1\nL "g"\n', b"\xef\xbb\xbfCADF-REPLICA 1\n", b"CADF-REPLICA 1\n\n", b"\x00",
    b'CADF-REPLICA 2\nL "g"\n', b"CADF-REPLICA 2\n", b"CADF-REPLICA 2", b'CADF-REPLICA 2\nL "g"\n[1,0,"E"]\n',
    b'CADF-REPLICA 3\nL "g"\n', b"null", b"0", b'""', b"[]", b"{}"]
NO_DIGESTS = inventory_of("g", [])
# The files of a call that asks a site for what another one lacks, mostly in their order.
FROM_BY = [["from", "by"]] * 20 + [
    ["by", "from"], ["by", "by"], ["from", "from"], ["from", "folder"], ["from", "nothere"], ["nothere", "by"], ["folder", "by"],
    ["nothere", "folder"]]
TOKENS = [b"{", b"}", b"[", b"]", b",", b":", b'"', b'"id"', b'"events"', b'"g"', b"1", b" ", b"null"]
LIKELY_WORDS = ["a", "a", "b", "c", "g", "e", "i", "s", "nothere", "folder", "-", "--", "--log", "--log=g", "--log="]
WORDS = LIKELY_WORDS + [
    "--log=\x7f", "--log=" + "x" * 1024, "--log=" + "x" * 1025, "--conflicts", "--conflicts=1", "--nope", "-l", b"\xff", "",
    "-x", "--log=h", b"--log=\xff", "--log=-", "--log=-x", "--log=a=b", "--log=\u00e9", "--log=\n"]


EXAMPLES = [path.read_bytes() for path in sorted(pathlib.Path(TOP, "examples").glob("*.json"))]


def reading(chance, data):
    """A call that reads one input."""
    return chance.choice([
        ["show", "a"], ["show", "a"], ["show", "a"], ["show", "--conflicts", "a"], ["check", "a"], ["join", "a"],
        ["join", "--log", "g", "a"], ["missing", "a", "a"], ["inventory", "a"], ["seal", "a"], ["sealed", "a"], ["missing-by", "a", "i"]]), \
        {"a": data, "i": NO_DIGESTS}


def telling(chance, data):
    """A call that reads one document, or joins it with another."""
    return chance.choice([
        ["show", "a"], ["show", "--conflicts", "a"], ["check", "a"], ["join", "a"], ["join", "a", "b"], ["join", "b", "a"]]), \
        {"a": data, "b": spelled_oddly(chance, odd_events.document(chance))}


def read_by(make, call=reading):
    """The kind of cases whose calls read what this makes."""
    @functools.wraps(make)
    def kind(chance):
        return call(chance, make(chance))
    return kind


def log_with(member):
    return b'{"id":"g","events":[],' + member + b"}"


def numbers(chance):
    first = (number(chance) if chance.random() < 0.8 else number_near_a_border(chance)).encode()
    second = number(chance).encode()
    end = chance.choice([b"]}", b"]", b""])
    return reading(chance, chance.choice([
        first, log_with(b'"x":' + first), log_with(b'"x":%s,"x":%s' % (first, second)),
        b'{"id":"g","events":[],"x":[' + first + b"," + second + end,
        file_with(chance, ["P", "n", first.decode()]), sealed(some_head(chance) + [b'["P","n",%s]' % first]),
        sealed(some_head(chance) + [b'[%s,0,"P"]' % first])]))


def texts(chance):
    text = odd_text(chance).data
    try:
        line = spelled(["P", "x", text.decode()]).encode()
    except UnicodeDecodeError:
        line = b'["P","x",%s]' % text
    return reading(chance, chance.choice([
        text, log_with(b'"x":' + text), log_with(text + b":1"), b'{"id":%s,"events":[]}' % text,
        sealed([some_head(chance)[0], b"L " + text]), sealed(some_head(chance) + [b'["P",%s,"1"]' % text]),
        sealed(some_head(chance) + [line]), sealed(some_head(chance) + [b'[1,0,"P"]', b"[2,0,%s]" % text, b'[3,1,"1"]'])]))


def deep_file(chance):
    deep = nested(chance, chance.choice([97, 98, 99, 100])).data.decode()
    carrier = some_carrier(chance, "e")
    kind = chance.randrange(4)
    if kind == 0:
        return file_with(chance, ["P", "n", nested(chance, chance.choice([99, 100, 101, 126, 127, 128])).data.decode()])
    if kind == 1:
        return file_with(chance, ["E", "e", spelled(dict(read_canonical(carrier[2]), zz="DEEP")).replace('"DEEP"', deep)])
    if kind == 2:
        step = '{"d":%s,"reporterId":"s","role":"relay"}' % deep
        plain = '{"reporterId":"s","role":"relay"}'
        return file_with(chance, carrier, carrier + chance.choice(
            [["C", step], ["C", plain, step], ["A", '{"d":%s}' % deep], ["A", deep]]))
    letter, key = chance.choice([("R", "id"), ("G", "id"), ("M", "metricId")])
    return file_with(chance, [letter, "a", '{"d":%s,"%s":"a"}' % (deep, key)])


def depths(chance):
    """A value by itself, or a file with a part that nests about as deep as it may; odd_documents.deep makes such documents."""
    return nested(chance, chance.choice([99, 100, 126, 127, 128, 129, 200])).data if chance.random() < 0.2 else deep_file(chance)


def times(chance):
    made = event(chance)
    step = {"role": "relay", "reporterId": "s", "reporterTime": time(chance)}
    if chance.random() < 0.2:
        carrier = some_carrier(chance, "e")
        if chance.random() < 0.4:
            return reading(chance, file_with(chance, carrier, carrier + ["C", spelled(step)]))
        body = dict(read_canonical(carrier[2]), eventTime=time(chance))
        return reading(chance, file_with(chance, ["E", "e", spelled(body)]))
    if chance.random() < 0.7:
        made["eventTime"] = time(chance)
    else:
        made["reporterchain"] = [step]
    return reading(chance, spelled_oddly(chance, {"id": "g", "events": [made]}))


def orders(chance):
    """Events whose order is by their instants, and at one instant by their identifiers."""
    made = []
    for place in range(chance.randint(2, 8)):
        made.append(event(chance, good_name(chance) + chance.choice(["", "a", str(place)])))
        near = "2024-03-01T%02d:00:00" % chance.choice([11, 12, 13])
        near += chance.choice(["", ".0", ".5", ".000000001"]) + chance.choice(["Z", "+01:00", "-01:00", "+0100"])
        made[-1]["eventTime"] = chance.choice([near, good_time(chance)])
    return reading(chance, spelled_oddly(chance, {"id": "g", "events": made}, chance.choice([0, 0.1])))


def name_in_a_document(chance, name):
    made = event(chance)
    document = {"id": "g", "events": [made]}
    party = chance.choice(odd_events.PARTIES)
    chance.choice([
        lambda: document.update(id=name),
        lambda: made.update({chance.choice(["id", "action", "initiatorId", "targetId", "observerId"]): name}),
        lambda: made.update({party: {"id": name}}),
        lambda: made.update(tags=["a", name]),
        lambda: made.update(reporterchain=[dict({"role": "relay"}, **chance.choice(
            [{"reporterId": name}, {"reporter": {"id": name}}]))]),
        lambda: document.update({name: any_value(chance, 1)}),
        lambda: document.update(resources=[{"id": name}], metrics=[{"metricId": name}])])()
    return spelled_oddly(chance, document, chance.choice([0, 0.3]))


def names(chance):
    name = odd_name(chance)
    kind = chance.randrange(9)
    if kind < 7:
        return reading(chance, name_in_a_document(chance, name))
    if kind == 7:
        atom = chance.choice([["P", name, "1"], ["R", name, spelled({"id": name})], ["M", name, spelled({"metricId": name})],
                              ["E", name, some_carrier(chance)[2]]])
        log = quoted(chance.choice(["g", name])).encode()
        made = file_with(chance, atom).split(b"\n")
        made[1] = b"L " + log
        return reading(chance, resealed(b"\n".join(made)))
    word = chance.choice([name.replace("\x00", ""), name.replace("\x00", ""), "g"])  # no word has a zero byte
    document = chance.choice([event(chance), {"id": name, "events": []}, {"id": word, "events": [event(chance)]}])
    return chance.choice([["join", "--log=" + word, "a"], ["join", "--log", word, "a"]]), \
        {"a": spelled_oddly(chance, document)}


def events(chance):
    made = event(chance)
    for _ in range(chance.choice([0, 1, 1, 1, 2, 3])):
        made = odd_events.broken(chance, made)
    whole = chance.choice([
        made, {"id": "g", "events": [made]}, {"id": "g", "events": [event(chance), made]},
        {"id": "g", "events": [event(chance), made, odd_events.broken(chance, event(chance))]}])
    return spelled_oddly(chance, whole, chance.choice([0, 0, 0.05, 0.3]))


def documents(chance):
    made = chance.choice([odd_events.odd_document, odd_events.document])(chance)
    kind = chance.random()
    if kind < 0.1:
        made = chance.choice([[], [made], None, True, 7, "x", {}, {"events": []}, {"event": made}, {"id": "g"},
                              {"events": None, "id": "g"}, {"Events": []}])
    before = chance.choice([b""] * 8 + [b"\xef\xbb\xbf", b" ", b"\n\r\t "])
    behind = chance.choice([b""] * 8 + [b"\n", b" \r\n\t", b"\x00", b"x", b",", b"\x0b", b"\xc2\xa0", b"{}"])
    return before + spelled_oddly(chance, made, chance.choice([0, 0, 0.05, 0.3])) + behind


def as_input(chance, document):
    """What the document tells, in one of the forms that an input may have."""
    log = document["id"]
    kind = chance.random()
    if kind < 0.4:
        return some_file_of(chance, log, atoms_of([document]))
    if kind < 0.5 and document["events"]:
        return spelled_oddly(chance, document["events"][0], chance.choice([0, 0.1]))
    if kind < 0.6:
        return log_text(log, atoms_of([document]))
    return spelled_oddly(chance, document, chance.choice([0, 0.1]))


def joins(chance):
    files = {"folder": DIRECTORY}
    for place, document in enumerate(documents_told(chance)):
        if chance.random() < 0.06:
            document["id"] = chance.choice(["h", "g ", "G", 'g"'])
        data = as_input(chance, document)
        files["f%d" % place] = damaged(chance, data) if chance.random() < 0.06 else data
    inputs = [name for name in files if name != "folder"]
    inputs += [chance.choice(inputs)] * chance.choice([0, 0, 1])
    chance.shuffle(inputs)
    for odd in ("nothere", "folder"):
        if chance.random() < 0.03:
            inputs.insert(chance.randint(0, len(inputs)), odd)
    log = chance.choice([[]] * 12 + [["--log", "g"], ["--log=g"], ["--log", "g"], ["--log", "h"], ["--log", "g "]])
    place = chance.choice([0, 1])
    return ["join"] + inputs[:place] + log + inputs[place:], files


def near_border(chance):
    """A time close to the border of a window, at some offset."""
    hour, offset = chance.choice([("23", "Z"), ("00", "Z"), ("12", "Z"), ("13", "Z"), ("23", "-01:00"), ("00", "+01:00"), ("09", "-14:00")])
    day = chance.choice(["2024-02-29", "2024-03-01", "2023-12-31", "2024-01-01", "1969-12-31", "1970-01-01", "0001-01-01", "9998-12-31"])
    return "%sT%s:%s%s" % (day, hour, chance.choice(["00:00", "59:59", "59:59.999999999", "00:00.000000001"]), offset)


def splits(chance):
    """Calls of `split`, of which a few have no unit or another word for one. Many events are close to a border."""
    files = {"folder": DIRECTORY}
    for place, document in enumerate(documents_told(chance)):
        for told in document["events"]:
            if chance.random() < 0.6:
                told["eventTime"] = near_border(chance)
        if chance.random() < 0.03:
            document["id"] = "h"
        atoms = with_rulings(chance, atoms_of([document]))
        data = some_file_of(chance, document["id"], atoms) if chance.random() < 0.6 else as_input(chance, document)
        files["f%d" % place] = damaged(chance, data) if chance.random() < 0.03 else data
    inputs = [name for name in files if name != "folder"] + chance.choice([[]] * 20 + [["folder"], ["nothere"]])
    chance.shuffle(inputs)
    unit = chance.choice([["--by", "month"], ["--by", "day"], ["--by=day"], ["--by", "hour"]] * 15 + [
        [], ["--by"], ["--by="], ["--by", "Day"], ["--by=days"], ["--by", "day", "--by", "hour"]])
    log = chance.choice([[]] * 12 + [["--log", "g"], ["--log=h"], ["--log="]])
    return ["split", *chance.choice([[*unit, *log, *inputs], [*inputs, *log, *unit], [*log, *inputs, *unit]])], files


def missings(chance):
    told = documents_told(chance, 2, 5)
    files = {}
    for name in ("from", "to"):
        atoms = atoms_of([document for document in told if chance.random() < 0.6])
        if chance.random() < 0.3:
            atoms = grounded_part(chance, atoms_of(told))
        log = "g" if chance.random() < 0.96 else "h"
        kind = chance.random()
        if kind < 0.6:
            files[name] = some_file_of(chance, log, atoms)
        else:
            document = dict(chance.choice(told), id=log)
            files[name] = log_text(log, atoms) if kind < 0.75 else spelled_oddly(chance, document)
        if chance.random() < 0.05:
            files[name] = damaged(chance, files[name])
        if chance.random() < 0.03:
            files[name] = spelled_oddly(chance, event(chance))
    operands = chance.choice([["from", "to"]] * 9 + [["to", "from"], ["from", "from"], ["from", "nothere"], ["nothere", "to"]])
    return ["missing"] + operands, files


def unions(chance):
    """A call that reads several files, of which some are events by themselves, of another log, damaged or not there."""
    told = documents_told(chance, 2, 5)
    files = {"folder": DIRECTORY}
    for name in "abcd":
        log = "g" if chance.random() < 0.9 else "h"
        files[name] = some_file_of(chance, log, atoms_of([one for one in told if chance.random() < 0.5]))
        if chance.random() < 0.3:
            files[name] = spelled_oddly(chance, event(chance) if chance.random() < 0.5 else dict(chance.choice(told), id=log))
        if chance.random() < 0.04:
            files[name] = damaged(chance, files[name])
    atoms = grounded_part(chance, atoms_of(told))
    files["i"], files["s"] = inventory_of("g", atoms), sketch_file("g", sketch_with("g", {digest_of(atom) for atom in atoms}, 33, 1))
    letter, key = chance.choice(sorted({atom[:2] for atom in atoms_of(told) if len(atom) == 3}) or [("E", "e1")])
    several = [chance.choice("abcd") for _ in range(chance.randint(1, 4))]
    if chance.random() < 0.05:
        several.insert(chance.randint(0, len(several)), chance.choice(["folder", "nothere"]))
    command = chance.choice([
        ["show"], ["show", "--conflicts"], ["check"], ["inventory"], ["seal"], ["sealed"], ["sketch", "--cells", "9"],
        ["rule", letter, key, chance.choice("1123")], ["missing"], ["missing"], ["missing-by"], ["missing-by-sketch"]])
    if not command[0].startswith("missing"):
        return command + several, files
    last = {"missing": chance.choice("abcd"), "missing-by": "i", "missing-by-sketch": "s"}[command[0]]
    words = [several[0], last]
    for name in several[1:]:
        option = chance.choice(["--from", "--to"]) if command == ["missing"] else "--from"
        place = chance.randint(0, 2)
        words[place:place] = chance.choice([[option, name], ["%s=%s" % (option, name)]])
    return command + words, files


def nearly(chance, digest):
    """The digest with another digit, mostly behind its front."""
    place = max(chance.randrange(64), chance.randrange(64))
    other = b"f" if digest[place:place + 1] == b"0" else b"0"
    return digest[:place] + other + digest[place + 1:]


def some_digests(chance, atoms):
    """Digests of a set, of a part of it or of other atoms."""
    digests = sorted(digest_of(atom) for atom in atoms)
    kind = chance.randrange(9)
    if kind < 3:
        return set(digests)
    if kind == 3:
        return {digest_of(atom) for atom in grounded_part(chance, atoms)}
    if kind == 4:
        return {digest for digest in digests if chance.random() < 0.5}
    if kind == 5:
        return set()
    if kind == 6:
        return {nearly(chance, digest) if chance.random() < 0.6 else digest for digest in digests}
    others = {digest_of(atom) for atom in atoms_of(documents_told(chance))}
    return others if kind == 7 else others | set(digests[::2])


def inventories(chance):
    """Calls of both commands, of which most are answered with a text."""
    told = documents_told(chance, 1, 5)
    atoms = atoms_of([document for document in told if chance.random() < 0.7])
    files = {"folder": DIRECTORY, "from": as_input(chance, chance.choice(told))}
    if chance.random() < 0.6:
        files["from"] = some_file_of(chance, "g", atoms_of(told) if chance.random() < 0.7 else atoms)
    if chance.random() < 0.05:
        files["from"] = spelled_oddly(chance, event(chance))
    if chance.random() < 0.3:
        return [chance.choice(["inventory", "seal"]), "from" if chance.random() < 0.95 else chance.choice(["folder", "nothere"])], files
    log = "g" if chance.random() < 0.94 else chance.choice(["h", "g ", "G"])
    files["by"] = inventory_with(log, some_digests(chance, atoms))
    return ["missing-by", *chance.choice(FROM_BY)], files


def sent_beside(chance, command, made):
    """A call of a command that reads a file of a site and what another site sends, where one is expected; now and then elsewhere."""
    source = chance.choice([lambda: some_file(chance)] * 8 + [
        lambda: some_file(chance, "h"), lambda: damaged(chance, some_file(chance), 1), lambda: made,
        lambda: spelled_oddly(chance, event(chance))])()
    return chance.choice([[command, "a", "i"]] * 15 + [
        [command, "i", "i"], ["inventory", "i"], ["sketch", "i"], ["check", "i"], ["join", "a", "i"], ["missing", "a", "i"],
        ["missing-by", "a", "i"]]), {"a": source, "i": made}


def damaged_inventories(chance):
    return sent_beside(chance, "missing-by", odd_inventories.odd_inventory(chance))


def damaged_sketches(chance):
    return sent_beside(chance, "missing-by-sketch", odd_sketches.odd_sketch(chance))


def of_nearly(chance, told):
    """The atoms of most of the documents, with some of the others."""
    return atoms_of([document for document in told if chance.random() < chance.choice([0.2, 0.7, 0.9, 1])])


def sketches(chance):
    """Calls of both commands, of which most are answered with a text: sites that differ in much, in little and in nothing."""
    told = documents_told(chance, 1, 5)
    atoms, there = of_nearly(chance, told), of_nearly(chance, told)
    if chance.random() < 0.2:
        there = chance.choice([set(), atoms, grounded_part(chance, atoms)])
    if chance.random() < 0.1:
        atoms = set()
    files = {"folder": DIRECTORY, "from": some_file_of(chance, "g", atoms)}
    if chance.random() < 0.15:
        files["from"] = as_input(chance, chance.choice(told))
    if chance.random() < 0.3:
        file = "from" if chance.random() < 0.95 else chance.choice(["folder", "nothere", "by"])
        words = ["sketch", *odd_sketches.option_words(chance), file] if chance.random() < 0.5 else ["sketch", file]
        if chance.random() < 0.3:
            words.append(words.pop(1))
        return words, dict(files, by=odd_sketches.some_sketch(chance))
    digests = {digest_of(atom) for atom in there} if chance.random() < 0.9 else some_digests(chance, there)
    layout = odd_sketches.some_layout(chance, len(atoms ^ there))
    log = "g" if chance.random() < 0.94 else chance.choice(["h", "g ", "G"])
    files["by"] = sketch_file(log, sketch_with(log, digests, *layout))
    return ["missing-by-sketch", *chance.choice(FROM_BY)], files


def misleading_sketches(chance):
    """A sketch whose cells, counts or digest are not those of one set."""
    told = documents_told(chance, 1, 4)
    atoms, there = of_nearly(chance, told), of_nearly(chance, told)
    files = {"a": some_file_of(chance, "g", atoms), "i": odd_sketches.misleading_sketch(chance, there)}
    if chance.random() < 0.25:
        files = {"a": some_file_of(chance, "g", set()), "i": odd_sketches.single_cells(chance)}
    return ["missing-by-sketch", "a", "i"], files


def facts_and_files(chance):
    """What is asked for, as a file of its own, and one or two files of what is held: the files by their names."""
    told = documents_told(chance, 1, 4)
    atoms = of_nearly(chance, told)
    facts = odd_proofs.facts_for(chance, atoms, told)
    files = {"facts": some_file_of(chance, "g", facts), "a": some_file_of(chance, "g", atoms)}
    if chance.random() < 0.3:
        files["facts"] = as_input(chance, chance.choice(told))
    if chance.random() < 0.4:
        files["b"] = as_input(chance, chance.choice(told))
    return files


def proves(chance):
    """Calls of `prove`, of which most are answered with a text."""
    files = {"folder": DIRECTORY, **facts_and_files(chance)}
    for name in ("facts", "a", "b"):
        if name in files and chance.random() < 0.05:
            files[name] = chance.choice([
                lambda: damaged(chance, files[name]), lambda: some_file(chance, "h"), lambda: spelled_oddly(chance, event(chance)),
                lambda: seal_of("g", [])])()
    inputs = [name for name in ("a", "b") if name in files] + chance.choice([[]] * 20 + [["folder"], ["nothere"], ["a"]])
    chance.shuffle(inputs)
    return ["prove", "facts" if chance.random() < 0.96 else chance.choice(["folder", "nothere", "a"]), *inputs], files


def verified(chance, files, seal, proof):
    """A call of `verify` on the facts of the files."""
    files = {"folder": DIRECTORY, "facts": files["facts"], "seal": seal, "proof": proof}
    operands = chance.choice([["seal", "facts", "proof"]] * 30 + [
        ["facts", "seal", "proof"], ["proof", "facts", "seal"], ["seal", "proof", "facts"], ["seal", "seal", "seal"],
        ["seal", "folder", "proof"], ["folder", "facts", "nothere"], ["seal", "facts", "folder"]])
    place = chance.randint(0, 3)
    return ["verify", *operands[:place], *chance.choice([[], ["--absent"]]), *operands[place:]], files


def verifies(chance):
    """Calls of `verify`, with a seal and a proof of what is held: most facts are shown, to be there or not to be."""
    files = facts_and_files(chance)
    facts, atoms, others = read_input(files["facts"])[1], read_input(files["a"])[1], atoms_of(documents_told(chance))
    atoms = chance.choice([lambda: atoms, lambda: atoms | facts, lambda: atoms - facts])()
    seal, proof = odd_proofs.seal_and_proof(chance, facts, atoms, others)
    if chance.random() < 0.04:
        files["facts"] = chance.choice([lambda: damaged(chance, files["facts"]), lambda: some_file(chance, "h")])()
    return verified(chance, files, seal, proof)


def damaged_proofs(chance):
    """Calls of `verify`, with something odd in the seal or in the proof."""
    files = facts_and_files(chance)
    facts, atoms = read_input(files["facts"])[1], read_input(files["a"])[1]
    seal, proof = odd_proofs.seal_and_proof(chance, facts, atoms | facts if chance.random() < 0.5 else atoms, atoms)
    if chance.random() < 0.3:
        seal = odd_proofs.odd(chance, seal)
    else:
        proof = odd_proofs.odd(chance, proof)
    return verified(chance, files, seal, proof)


def misleading_proofs(chance):
    """Calls of `verify`, with a seal and a proof of no set."""
    files = facts_and_files(chance)
    return verified(chance, files, *odd_proofs.of_no_set(chance, read_input(files["facts"])[1]))


def asked_keys(chance):
    """Calls of `prove` and of `verify` with a key file."""
    files = {"folder": DIRECTORY, **facts_and_files(chance)}
    atoms, others = with_rulings(chance, read_input(files["a"])[1]), atoms_of(documents_told(chance))
    listed, seal, proof = odd_keys.files_for(chance, atoms, others)
    if chance.random() < 0.3:
        files = {**files, "a": some_file_of(chance, "g", atoms), "keys": listed}
        inputs = [name for name in ("a", "b") if name in files] + chance.choice([[]] * 20 + [["folder"], ["nothere"], ["keys"]])
        words = ["prove", "keys" if chance.random() < 0.96 else chance.choice(["folder", "nothere", "a"]), *inputs]
        words.insert(chance.randint(1, len(words)), "--keys")
        return words, files
    words, files = verified(chance, {"facts": listed if chance.random() < 0.98 else files["facts"]}, seal, proof)
    words.insert(chance.randint(1, len(words)), "--keys")
    return words, files


def grown_sets(chance):
    """Atoms, and those that came of them, with the files of both."""
    earlier = with_rulings(chance, atoms_of(documents_told(chance, 1, 3)))
    later = odd_growths.changed(chance, earlier)
    return earlier, later, {"folder": DIRECTORY, "a": odd_growths.file_for(chance, later)}


def behind_a_list(chance, command, made, files):
    """A call of a command that reads a list and then files, most of them in their places."""
    files["list"] = made
    if chance.random() < 0.3:
        files["b"] = as_input(chance, chance.choice(documents_told(chance)))
    inputs = [name for name in ("a", "b") if name in files] + chance.choice([[]] * 20 + [["folder"], ["nothere"], ["a"], ["list"]])
    chance.shuffle(inputs)
    if chance.random() < 0.03:
        files["a"] = damaged(chance, files["a"])
    return [command, "list" if chance.random() < 0.96 else chance.choice(["folder", "nothere", "a"]), *inputs], files


def growths(chance):
    """Calls of `growth`, of which most are answered with a proof, and of `sealed`."""
    earlier, later, files = grown_sets(chance)
    if chance.random() < 0.15:
        return ["sealed", *chance.choice([["a"]] * 20 + [["a", "a"], ["folder"], ["nothere"]])], files
    made = odd_growths.sealed_list(chance, earlier)
    if chance.random() < 0.15:
        made = odd_growths.odd_list(chance, made)
    return behind_a_list(chance, "growth", made, files)


def omits(chance):
    """Calls of `omit`, of which most leave something out."""
    earlier, _, files = grown_sets(chance)
    files["a"] = odd_growths.file_for(chance, earlier)
    made = odd_growths.omitting_list(chance, earlier)
    if chance.random() < 0.2:
        made = odd_growths.odd_list(chance, made)
    return behind_a_list(chance, "omit", made, files)


def grew(chance):
    """Calls of `grew`, on sets that grew or lost, with and without a list of what went; a file may be another one, or odd."""
    earlier, later, files = grown_sets(chance)
    files = {"folder": DIRECTORY, "old": seal_of("g", earlier), "new": seal_of("g", later), "proof": odd_growths.proof_between(chance, earlier, later),
             "list": odd_growths.erased_list(chance, earlier, later)}
    name = chance.choice(["old", "new", "proof", "proof", "list"])
    kind = chance.random()
    if kind < 0.3:
        files[name] = odd_growths.odd_list(chance, files[name]) if name == "list" else odd_proofs.odd(chance, files[name])
    elif kind < 0.4:
        files[name] = files[chance.choice(["old", "new", "proof", "list"])]
    operands = chance.choice([["old", "new", "proof"]] * 30 + [
        ["new", "old", "proof"], ["new", "old", "proof"], ["old", "old", "proof"], ["new", "new", "proof"], ["proof", "old", "new"], ["old", "folder", "proof"],
        ["nothere", "new", "folder"], ["old", "new", "nothere"]])
    option = chance.choice([[], ["--erased", "list"], ["--erased", "list"], ["--erased=list"]] * 10 + [["--erased", "folder"], ["--erased=nothere"], ["--erased="], ["--erased"]])
    place = chance.randint(0, 3)
    return ["grew", *operands[:place], *option, *operands[place:]], files


def lies(chance):
    """Calls of `grew` with a proof that is wrong, under seals of which some were made for it."""
    lie = Lie(chance.getrandbits(32), 0)
    return lie.words, {name.decode(): content for name, content in lie.files.items()}


def shows(chance):
    words = chance.choice([["show", "a"], ["show", "--conflicts", "a"], ["show", "--conflicts", "a"], ["show", "a", "--conflicts"],
                           ["check", "a"]])
    return words, {"a": some_file_of(chance, "g", atoms_of(documents_told(chance, 1, 6)))}


def damages(chance):
    return chance.choice([odd_files.file_with_odd_lines(chance), with_odd_end(chance, some_file(chance))])


def example_documents(chance):
    data = chance.choice(EXAMPLES)
    return reading(chance, data if chance.random() < 0.08 else damaged(chance, data))


def example_joins(chance):
    files = {}
    for place, data in enumerate(chance.sample(EXAMPLES, chance.randint(1, 4))):
        files["f%d" % place] = data if chance.random() < 0.8 else damaged(chance, data, 1)
        if chance.random() < 0.3:
            files["g%d" % place] = data.replace(b"success", b"failure").replace(b"unknown", b"pending")
    return ["join"] + sorted(files), files


def chains(chance):
    made, long = event(chance), odd_events.long_chain(chance)
    made.update(chance.choice([
        {"reporterchain": long}, {"reporterchains": [chain(chance), long]},
        {"reporterchain": long, "reporterchains": [long[:-1], long]}, {"reporterchains": [None] * 3 + [long]},
        {"reporterchains": [[]] * 300 + [odd_events.odd_chain(chance)]},
        {"reporterchains": [chain(chance) for _ in range(30)]}]))
    return reading(chance, spelled_oddly(chance, {"id": "g", "events": [made]}))


def json_texts(chance):
    value = spelled_oddly(chance, any_value(chance, 4), chance.choice([0, 0.2]))
    if chance.random() < 0.5:
        value = damaged(chance, value, 1)
    if chance.random() < 0.3:
        value = chance.choice(ODD_JSON)
    return reading(chance, chance.choice([value, log_with(b'"x":' + value), b'{"id":"g","x":' + value + b',"events":[]}']))


def byte_texts(chance):
    def some(pieces, least, most):
        return b"".join(chance.choice(pieces) for _ in range(chance.randint(least, most)))

    return reading(chance, chance.choice([
        chance.choice([b"CADF-REPLICA 1\n", b"CADF-REPLICA 2\n"])[:chance.randint(0, 15)],
        bytes(chance.randrange(256) for _ in range(chance.choice([0, 1, 2, 3, 5, 10, 50]))),
        chance.choice(ODD_INPUTS),
        b"CADF-" + some([bytes([byte]) for byte in b'REPLICA 12\n\rLgZ"[]'], 0, 40),
        b"CADF-REPLICA %d\nL \"g\"\n" % chance.choice([1, 2]) + some([bytes([byte]) for byte in b'Z \n\r[]"PEn1,\xff0'], 0, 40),
        some(TOKENS, 1, 14)]))


def words(chance):
    """Words of which many are no call: another command, too few or too many files, options that it hasn't or that are no numbers."""
    files = {"a": spelled_oddly(chance, odd_events.document(chance)), "b": some_file(chance), "c": b"{", "-": b"{}",
             "-x": some_file(chance), "g": some_file(chance, "h"), "folder": DIRECTORY,
             "e": spelled_oddly(chance, event(chance)), "i": NO_DIGESTS, "s": odd_sketches.some_sketch(chance)}
    command = chance.choice([
        "join", "join", "missing", "missing-by", "inventory", "seal", "show", "check", "rule", "split", "prove", "verify", "sealed", "growth", "grew", "omit", "Join", "", "joi",
        "missing-", "sketc", "--log"] + ["sketch"] * 6 + ["missing-by-sketch"] * 4)
    options = odd_sketches.option_words(chance) if command == "sketch" or chance.random() < 0.1 else []
    count = WORDS_WANTED.get(command.encode(), 1) if chance.random() < 0.5 else chance.randint(0, 4)
    return [command, *options, *(chance.choice(LIKELY_WORDS if chance.random() < 0.6 else WORDS) for _ in range(count))], files


def large(chance):
    """Some hundred events in two inputs."""
    count = chance.choice([50, 200, 600])
    made = [event(chance, "e%d" % chance.randrange(count)) for _ in range(count)]
    for one in made:
        if chance.random() < 0.3:
            one["reporterchains"] = [chain(chance) for _ in range(chance.randint(0, 6))]
    cut = chance.randint(0, count)
    first, second = {"id": "g", "events": made[:cut]}, {"id": "g", "events": made[cut:], "name": "x"}
    mine, theirs = atoms_of([first]), atoms_of([second])
    return chance.choice([
        (["join", "a", "b"], {"a": spelled_oddly(chance, first), "b": spelled_oddly(chance, second)}),
        (["missing", "a", "b"], {"a": some_file_of(chance, "g", mine | grounded_part(chance, theirs)),
                                 "b": some_file_of(chance, "g", theirs)}),
        (["join", "a", "b"], {"a": some_file_of(chance, "g", mine), "b": some_file_of(chance, "g", theirs)}),
        (chance.choice([["show", "a"], ["show", "--conflicts", "a"], ["check", "a"]]),
         {"a": some_file_of(chance, "g", mine | theirs)})])


def rules(chance):
    """A call that rules, of which most name a value that is held."""
    told = atoms_of(documents_told(chance, 2, 5))
    atoms = with_rulings(chance, told)
    keys = sorted({atom[:2] for atom in atoms if len(atom) == 3}) or [("E", "e1")]
    letter, name = chance.choice(keys)
    held = sum(atom[:2] == (letter, name) and len(atom) == 3 for atom in atoms)
    place = str(chance.choice([*range(1, held + 1)] * 6 + [held + 1, 3]))
    kind = chance.random()
    if kind < 0.08:
        letter = chance.choice(["", "e", "A", "C", "T", "U", "X", "EE", "EG", "\u0415", "G", "M", "P", "R", "-E"])
    elif kind < 0.16:
        name = chance.choice([odd_name(chance).replace("\x00", ""), "", "nothere", "\x7f", "events", "x" * 1024, "x" * 1025])
    elif kind < 0.28:
        place = chance.choice(["", "0", "00", "01", "9", "999999999", "1000000000", "+1", "-1", "1 ", " 1", "1.0", "1x", "x", "0x1",
                               "\u0661", "18446744073709551617"])
    elif kind < 0.31:
        letter, name, place = chance.choice(["", "x", letter]), chance.choice(["", "\n", name]), chance.choice(["0", "x", place])
    told_otherwise = as_input(chance, chance.choice(documents_told(chance)))
    files = {"a": told_otherwise if chance.random() < 0.1 else some_file_of(chance, "g", atoms),
             "d": damaged(chance, some_file(chance), 1), "folder": DIRECTORY}
    file = chance.choice(["a"] * 20 + ["d", "folder", "nothere"])
    words = ["rule", letter, name, place, file]
    if chance.random() < 0.02:
        words = chance.choice([words[:4], words + ["a"], ["rule", "--", *words[1:]], words[:1]])
    return words, files


def rehearsals(chance):
    words, script = schedules.call(chance)
    return words, {"script": script, "folder": DIRECTORY}

# Each kind of case, and how many there are of it beside the others.
KINDS = {
    numbers: 8, texts: 8, read_by(depths): 6, times: 10, orders: 4, names: 8, read_by(events): 12, read_by(documents): 10, joins: 16,
    missings: 14, shows: 10, read_by(damages): 12, read_by(odd_files.odd_atoms_file): 16, read_by(odd_nodes.odd_nodes_file): 22,
    example_documents: 8, example_joins: 2, chains: 3, json_texts: 8, byte_texts: 4, words: 10, large: 1, inventories: 10,
    damaged_inventories: 18, rules: 12, read_by(odd_documents.doubled, telling): 16, read_by(odd_documents.numbered, telling): 8,
    read_by(odd_documents.escaped, telling): 10, read_by(odd_documents.deep, telling): 14, read_by(odd_documents.bare, telling): 12,
    read_by(odd_documents.odd_in_turn, telling): 12, unions: 14, rehearsals: 12, sketches: 14, damaged_sketches: 16, misleading_sketches: 12,
    splits: 14, proves: 12, verifies: 14, damaged_proofs: 18, misleading_proofs: 12, asked_keys: 16, growths: 14, omits: 14, grew: 20, lies: 14}


class Case:
    """The kind of a case, the words of its call and the contents of its files, all of whose names are bytes."""

    def __init__(self, seed, number):
        chance = random.Random("%d/%d" % (seed, number))  # a case depends on nothing but the kinds, its seed and number
        kind, = chance.choices(list(KINDS), list(KINDS.values()))
        words, files = kind(chance)
        self.kind = kind.__name__
        self.words = [word if isinstance(word, bytes) else word.encode() for word in words]
        self.files = {name.encode(): content for name, content in files.items()}
