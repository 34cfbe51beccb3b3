"""Generated sets of atoms and replica files of both formats, and files with something odd in them."""
from tests.generated.odd_events import attachment, event, odd_step, step
from tests.generated.odd_lines import damaged, drop_some, insert_one, repeat_one, resealed, swap, turn, with_odd_lines
from tests.generated.odd_values import good_name, number, odd_name, time
from tests.generated.spelling import spelled_oddly
from tests.reference import events
from tests.reference.atoms import with_carriers
from tests.reference.events import EVENT_URI
from tests.reference.json_text import NotJson, NotWhole, read, spelled
from tests.reference.replica_files import FIRST_LINES, file_of, shared
from tests.reference.rulings import digest_of_value
from tests.reference.sealed_files import head, sealed

STEP = spelled({"reporterId": "s1", "role": "observer"})
PROPERTY_VALUES = [
    "1", "null", '"x"', "[]", "{}", "", "nul", "1.5", " 1", "1 ", '{"b":1,"a":2}', '"\\u0041"', '"\\u0001"', '"\\u001F"',
    '"\\/"', "1e2", "-0", "18446744073709551615", "18446744073709551616", "-9223372036854775809", '{"a":1,"a":1}']
SPELLINGS = ["\x7f", "\x1f", "\\u007f", "\\b", "\\u0008", "\\u000b", "\\u000B", "/", "\\/", "\u2028", "\\u2028", "\ud7ff",
             "\U00010000", "\\ud800\\udc00", "\\ud800"]
ENTITY_TEXTS = [
    spelled({"id": "a"}), spelled({"metricId": "a"}), spelled({"id": "a", "metricId": "a"}), spelled({"id": "b"}), "{}",
    "[]", spelled({"id": 7}), '"a"', '{"id": "a"}']

SOME_DIGITS = digest_of_value("1")
DIGITS = [SOME_DIGITS, SOME_DIGITS.upper(), SOME_DIGITS[1:], SOME_DIGITS + "0", "", "x", SOME_DIGITS[:-1] + "g", SOME_DIGITS[:-1] + "\u0661",
          " " + SOME_DIGITS, "0" * 64, "f" * 64]


def some(chance, values, least, most):
    return [chance.choice(values) for _ in range(chance.randint(least, most))]


def told(chance, bodies, steps):
    """One of the events, with parts of its own."""
    made = dict(chance.choice(bodies[chance.choice(sorted(bodies))]))
    for member in ("reporterchain", "reporterchains", "tags", "attachments"):
        made.pop(member, None)
    if chance.random() < 0.6:
        made["reporterchain"] = some(chance, steps, 0, 3)
    if chance.random() < 0.3:
        made["reporterchains"] = [some(chance, steps, 0, 3) for _ in range(chance.randint(0, 3))]
    if chance.random() < 0.4:
        made["tags"] = some(chance, ["a", "b", 'b"', "\u00e9", "aa"], 0, 3)
    if chance.random() < 0.4:
        made["attachments"] = [attachment(chance) for _ in range(chance.randint(0, 3))]
    return made


def add_entities(chance, document):
    if chance.random() < 0.4:
        document["resources"] = [{"id": chance.choice(["r1", "r2"]), "x": chance.choice([1, 2, "1"])}
                                 for _ in range(chance.randint(0, 2))]
    if chance.random() < 0.3:
        document["geolocations"] = [{"id": chance.choice(["r1", "g2"]), "x": chance.choice([1, 2, "1", [1], None])}
                                    for _ in range(chance.randint(0, 2))]
    if chance.random() < 0.3:
        document["metrics"] = [{"metricId": chance.choice(["m1", "m2"]), "id": "z", "x": chance.choice([1, 2])}
                               for _ in range(chance.randint(0, 2))]
    if chance.random() < 0.4:
        document[chance.choice(["name", "note"])] = chance.choice(
            ["north", "south", 1, -1, None, [1], {"a": 1}, True, '"', "\\", 10, 2])


def documents_told(chance, least=1, most=5):
    """Documents about the same few keys, so that they agree, add to each other and contradict."""
    names = sorted({good_name(chance) for _ in range(chance.choice([1, 1, 2, 3]))})
    bodies = {name: [event(chance, name) for _ in range(chance.choice([1, 1, 2, 3]))] for name in names}
    steps = [step(chance) for _ in range(3)]
    documents = []
    for _ in range(chance.randint(least, most)):
        document = {"id": "g", "events": [told(chance, bodies, steps) for _ in range(chance.choice([0, 1, 1, 2, 3]))]}
        add_entities(chance, document)
        documents.append(document)
    return documents


def atoms_of(documents):
    return set().union(*(events.document(document)[1] for document in documents))


def some_head(chance):
    """The two first lines of a file of either format."""
    return head(FIRST_LINES[chance.choice([1, 2])], "g")


def with_rulings(chance, atoms):
    """The atoms, sometimes with rulings of their values, or of others."""
    if chance.random() < 0.6:
        return atoms
    values = sorted(atom for atom in atoms if len(atom) == 3) or [("P", "n", "1")]
    share = chance.choice([0.1, 0.3, 0.3, 1])
    rulings = {("U", *value[:2], digest_of_value(value[2])) for value in values if chance.random() < share}
    letter, name, text = chance.choice([value for value in values if value[:2] in {ruling[1:3] for ruling in rulings}] or values)
    other_letter, other_name = chance.choice([letter] * 9 + [*"EGMPR"]), chance.choice([name] * 4 + ["e1", "events"])
    odd = ("U", other_letter, other_name, digest_of_value(text + chance.choice(["", " ", " "])))
    return atoms | rulings | ({odd} if chance.random() < 0.5 else set())


def some_file_of(chance, log, atoms):
    return file_of(log, with_rulings(chance, atoms), chance.choice([1, 2]))


def some_file(chance, log="g"):
    return some_file_of(chance, log, atoms_of(documents_told(chance)))


def nodes_in_turn(lists):
    """The nodes of lists that need not rise nor be atoms; a list that the one before begins with ends in a node all the same."""
    last = []
    for one in lists:
        for depth in range(max(0, min(shared(last, one), len(one) - 1)) + 1, len(one) + 1):
            yield [depth, int(depth == len(one)), one[depth - 1]]
        last = one


def file_with(chance, *values):
    """A sealed file of either format, with lines for the values, which need not be atoms."""
    version = chance.choice([1, 2]) if all(isinstance(value, list) for value in values) else 1
    lines = nodes_in_turn(values) if version == 2 else values
    return sealed(head(FIRST_LINES[version], "g") + [spelled(line).encode() for line in lines])


def grounded_part(chance, atoms):
    return with_carriers({atom for atom in sorted(atoms) if chance.random() < 0.6})


def some_carrier(chance, name="e1"):
    return next(list(atom) for atom in atoms_of([{"id": "g", "events": [event(chance, name)]}]) if len(atom) == 3)


def odd_body_text(chance, body):
    """The text of a body, perhaps one with something odd."""
    member, value = chance.choice([
        (chance.choice(["id", "typeURI", "reporterchain", "reporterchains", "tags", "attachments"]),
         chance.choice([None, [], "x", EVENT_URI])),
        ("eventTime", time(chance)),
        (chance.choice(["action", "initiatorId", "targetId", "observerId"]), odd_name(chance)),
        ("outcome", chance.choice(["success/", "succes", "", "pending/x", 7])),
        ("eventType", chance.choice(["Activity", "activity/", None])),
        (chance.choice(["initiator", "target", "observer"]), chance.choice([None, {}, {"id": ""}, {"id": "x"}, "x"]))])
    text = spelled(body)
    return chance.choice([
        text, spelled(dict(body, **{member: value})), spelled(dict(body, **{member: value})),
        spelled(dict(body, **{member: value})), spelled(dict(body, **{member: value})),
        spelled({name: body[name] for name in body if name != chance.choice(sorted(body))}), text.replace(",", ", ", 1),
        text[:-1] + ',"zz":' + number(chance) + "}", text[:-1] + ',"a":1}',
        chance.choice(["[]", "{}", "null", "", spelled([body])])])


def odd_step_text(chance):
    text = spelled_oddly(chance, odd_step(chance)).decode(errors="replace")
    try:
        return spelled(read(text.encode()))
    except (NotJson, NotWhole):
        return text


def names_in_some_order(chance):
    atoms = [["P", name, "1"] for name in sorted({good_name(chance) for _ in range(6)})]
    order = chance.choice([lambda atom: atom, spelled, lambda atom: [text.encode("utf-16-be") for text in atom]])
    return sorted(atoms, key=order)


def entity_with_part(chance):
    entity = chance.choice([["P", "a", "1"], ["R", "a", ENTITY_TEXTS[0]], ["G", "a", ENTITY_TEXTS[0]],
                            ["M", "a", ENTITY_TEXTS[1]]])
    return [entity, entity + chance.choice([[], ["T", "x"], ["A", "{}"], ["x"]])]


def chains_in_a_row(chance, carrier):
    chains = [carrier + ["C"] + [STEP] * count for count in (1, 2, 3)]
    return [carrier] + chains[:2] + [chance.choice([chains[2], carrier + ["A", "{}"]])]

# Lists that stand in a sealed file, of which the last one is odd: by the random source and a carrier.
ODD_LISTS = [
    lambda chance, carrier: [["P", odd_name(chance), chance.choice(PROPERTY_VALUES)]],
    lambda chance, carrier: [[chance.choice("RGM"), chance.choice(["a", "b", odd_name(chance)]),
                              chance.choice(ENTITY_TEXTS)]],
    lambda chance, carrier: [["E", "e2", odd_body_text(chance, read(carrier[2].encode()))]],
    lambda chance, carrier: [carrier, carrier + ["T", odd_name(chance)]],
    lambda chance, carrier: [carrier, carrier + ["A", chance.choice(
        ["{}", "[]", "1", '{"a":1}', '{"a": 1}', '{"b":1,"a":1}', '{"a":1.5}', "", '{"a":"\\u0041"}'])]],
    lambda chance, carrier: [carrier, carrier + ["C"] + [STEP] * chance.choice([0, 1, 2, 255, 256, 257, 258])],
    lambda chance, carrier: [carrier, carrier + ["C", STEP, odd_step_text(chance)]],
    lambda chance, carrier: [carrier, carrier + [
        chance.choice(["", "a", "t", "B", "CC", "TT", "E", "Z", "\u0410"]), chance.choice(["x", STEP, "{}"])]],
    lambda chance, carrier: [
        [chance.choice(["", "e", "EE", "Z", "U", "F", "p", "\u0415", "P ", "ER"])] + carrier[1:]],
    lambda chance, carrier: [carrier, carrier + chance.choice(
        [["T"], ["T", "a", "b"], ["A"], ["A", "{}", "{}"], ["C"], ["T", "a", "T", "b"]])],
    lambda chance, carrier: [carrier[:2] + chance.choice([[], ["1"], [""], ["{}"], ["T", "x"]])],
    lambda chance, carrier: [chance.choice([
        [], ["E"], ["P"], [[]], [None], ["E", None, carrier[2]], ["E", 1, carrier[2]], ["P", "n", 1], ["P", "n", ["1"]],
        {"a": "b"}, "E", None, 7, [["E", "e1", carrier[2]]], ["P", None, "1"], [True, "n", "1"]])],
    lambda chance, carrier: [carrier, ["E", "e9", carrier[2], chance.choice("TAC"), chance.choice(["x", "{}", STEP])]],
    lambda chance, carrier: [carrier, ["E", "e1", spelled(dict(read(carrier[2].encode()), zz=1)), "T", "x"]],
    chains_in_a_row,
    lambda chance, carrier: names_in_some_order(chance),
    lambda chance, carrier: [["P", "n", '"%s"' % chance.choice(SPELLINGS)]],
    lambda chance, carrier: entity_with_part(chance),
    lambda chance, carrier: [["E", odd_name(chance), carrier[2]]],
    lambda chance, carrier: [["U", chance.choice(["E", "G", "M", "P", "R"]), odd_name(chance), SOME_DIGITS]],
    lambda chance, carrier: [["U", chance.choice(["E", "P"]), "events", chance.choice(DIGITS)]],
    lambda chance, carrier: [["U", chance.choice(["", "e", "A", "T", "U", "X", "EE", "\u0415"]), "e1", SOME_DIGITS]],
    lambda chance, carrier: [["U", "E", "e1", SOME_DIGITS] + chance.choice([[], ["x"], [SOME_DIGITS], ["T", "x"], [""]])],
    lambda chance, carrier: [["U", "E", "e1", SOME_DIGITS][:chance.randint(1, 3)]],
]


def odd_atoms_file(chance):
    lists = chance.choice(ODD_LISTS)(chance, some_carrier(chance))
    if chance.random() < 0.15:
        chance.shuffle(lists)
    made = file_with(chance, *lists)
    if chance.random() < 0.1:
        lines = made.split(b"\n")
        lines[-3] = damaged(chance, lines[-3], 1)
        made = resealed(b"\n".join(lines))
    return made


def change_one(chance, lines):
    if lines:
        place = chance.randrange(len(lines))
        line = lines[place]
        lines[place] = chance.choice([
            damaged(chance, line, 1), line.replace(b'","', b'", "', 1), line.replace(b"e", b"\\u0065", 1),
            line + chance.choice([b"\r", b" ", b"\t", b",", b"]", b"\x00"])])

# What may be done to the lines of a file's atoms.
LINE_DAMAGES = [
    swap, change_one, change_one, change_one, repeat_one, drop_some, drop_some, insert_one, insert_one, turn,
    lambda chance, lines: lines.extend(list(lines))]


def file_with_odd_lines(chance):
    return with_odd_lines(chance, some_file(chance), 2, LINE_DAMAGES)
