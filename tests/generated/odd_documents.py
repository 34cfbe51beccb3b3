"""Generated documents with something odd anywhere in them: names, numbers, texts, nesting, orders of members."""
from tests.generated.odd_events import attachment, broken, event, step
from tests.generated.odd_values import PIECES, good_name, nested, number, odd_name, odd_text, scalar
from tests.generated.spelling import Members, Raw, spelled_oddly, spelled_text

WHOLE_NUMBERS = ["0", "-1", "18446744073709551615", "-9223372036854775808", "9223372036854775808", "9223372036854775807", "7"]
OTHER_NUMBERS = [
    "-0", "0.0", "1e2", "1E400", "18446744073709551616", "-9223372036854775809", "00", "007", "-01", "+1", "-0.0", "0e0", "1.0"]
SOUND_PIECES = [
    b"\\u0000", b"\\u001f", b"\\u007f", b"\x7f", b"\\ud83d\\ude00", b"\\uD83D\\uDE00", b"\xf0\x9f\x98\x80", b"\\/", b"/", b"\\n",
    b"\\u000a", b"\\b", b"\\f", b"\\r", b"\\t", b'\\"', b"\\\\", b"\\u0022", b"\\u005c", b"\\u0061", b"\\u00e9", b"\xc3\xa9",
    b"\\uffff", b"\\u2028", b"\xe2\x80\xa8", b"\\u0080"]
LONE_HALVES = [b"\\ud800", b"\\udfff", b"\\uDBFF", b"\\ud83dx", b"\\ude00\\ud83d", b"\\ud83d\\u0041", b"\xed\xa0\x80"]
LOG_NAMES = ["id", "typeURI", "events", "resources", "geolocations", "metrics"]
NEAR_NAMES = ["event", "eventt", "events ", "Events", "i", "ic", "id\x00", "resource", "metric", "metrics!", "typeURI/", "geo"]
BLANKS = [b" ", b"\n", b"\r", b"\t", b"  ", b" \t\r\n"]
NO_BLANKS = [b"\xef\xbb\xbf", b"\xef\xbb\xbf", b"\xfe\xff", b"\x0c", b"\x00", b"\x0b", b"\xc2\xa0", b"\x1a"]


def full_event(chance):
    """An event with an object in each of its places."""
    made = event(chance, chance.choice(["e1", "e1", "e2", good_name(chance)]))
    made["reporterchain"] = [step(chance), dict(step(chance), reporter={"id": "r1", "x": {"y": 1}})]
    made["x"] = {"a": {"b": [{"c": 1}, {"d": "text", "e": [7]}]}, "z": "\u00e9"}
    if chance.random() < 0.5:
        made["reporterchains"] = [[step(chance)], None, [dict(step(chance), x={"y": {"z": 1}})]]
    if chance.random() < 0.5:
        made["attachments"] = [attachment(chance), {"content": {"k": [{}]}, "contentType": "text/plain"}]
    if chance.random() < 0.5:
        made["tags"] = ["b", "a"]
    return made


def full_document(chance):
    """A document that is accepted, with an object in each of its places."""
    made = {"id": "g", "events": [full_event(chance) for _ in range(chance.choice([1, 1, 2, 3]))]}
    if chance.random() < 0.5:
        made["resources"] = [{"id": good_name(chance), "x": {"y": {"z": [{}]}}}, {"id": "a"}]
        made["metrics"] = [{"metricId": good_name(chance), "name": "m", "w": {"v": 1}}]
    if chance.random() < 0.5:
        made["note"] = {"a": [{"b": 1}], "c": {"d": "x"}}
    return made


def ways(value, way=()):
    """The way to each object within a value, the value itself among them."""
    if isinstance(value, dict):
        yield way
    if isinstance(value, (dict, list)):
        for key, inner in value.items() if isinstance(value, dict) else enumerate(value):
            yield from ways(inner, way + (key,))


def some_way(chance, document):
    """The way to the log, to an event or to some object."""
    found = list(ways(document))
    kind = chance.random()
    if kind < 0.2:
        return ()
    return chance.choice([way for way in found if kind < 0.4 and len(way) == 2] or found)


def changed_at(value, way, change):
    """The value with what stands at the end of that way changed."""
    if not way:
        return change(value)
    made = value.copy()
    made[way[0]] = changed_at(value[way[0]], way[1:], change)
    return made


def members_of(chance, value):
    """The object's members, in its own order, in the order of names, or in some order."""
    members = list(value.items())
    kind = chance.random()
    if kind < 0.4:
        members.sort(key=lambda member: member[0])
    elif kind < 0.6:
        chance.shuffle(members)
    return members


def other_value(chance, name, value):
    """Another value for a member, one that may stand there or one that may not."""
    if name == "events" and chance.random() < 0.8:
        good, bad = [event(chance)], [event(chance), broken(chance, event(chance))]
        return chance.choice([good, good, bad, [], None, {}, [7], value])
    return chance.choice([
        None, 7, "g", "e1", [], {}, {"id": "a"}, value, value, Raw(chance.choice(OTHER_NUMBERS).encode()), scalar(chance),
        nested(chance, chance.choice([3, 98, 99, 100, 101, 122, 123, 124, 125, 126, 127]))])


def with_doubled(chance, value):
    """The object with a name that stands twice, or three times, spelled in one way or in two."""
    members = members_of(chance, value)
    for _ in range(chance.choice([1, 1, 1, 2])):
        name = chance.choice([*value] * 4 + ["x", "id", "zz"])
        spelling = Raw(spelled_text(chance, name, chance.choice([0.2, 1]))) if chance.random() < 0.3 else name
        other = (spelling, other_value(chance, name, value.get(name, 1)))
        members.insert(chance.choice([0, len(members), chance.randint(0, len(members))]), other)
    return Members(members)


def with_number(chance, value):
    """The object with a number in some spelling."""
    kind = chance.random()
    spelling = chance.choice(WHOLE_NUMBERS if kind < 0.6 else OTHER_NUMBERS) if kind < 0.9 else number(chance)
    written = Raw(spelling.encode())
    name = chance.choice([*value]) if value and chance.random() < 0.1 else "n"
    return dict(value, **{name: chance.choice([written, [written], {"k": written}, [1, [written]]])})


def sound_text(chance):
    pieces = b"".join(chance.choice(SOUND_PIECES) for _ in range(chance.choice([1, 1, 2, 3])))
    return Raw(b'"' + pieces + b'"')


def text_with(chance, text):
    """The JSON of a text, with escapes where it needs none, or with a further piece in it."""
    kind = chance.random()
    if kind < 0.5:
        return Raw(spelled_text(chance, text, chance.choice([0.2, 1])))
    place = chance.randint(0, len(text))
    piece = chance.choice(LONE_HALVES if kind < 0.6 else PIECES if kind < 0.65 else SOUND_PIECES)
    return Raw(spelled_text(chance, text[:place], 0)[:-1] + piece + spelled_text(chance, text[place:], 0)[1:])


def with_text(chance, value):
    """The object with names or texts in other spellings, or with other names and texts."""
    members = []
    for name, inner in members_of(chance, value):
        kind = chance.random()
        spelled_name = text_with(chance, name) if kind < 0.15 else name
        if isinstance(inner, str) and kind > 0.7:
            inner = text_with(chance, inner)
        members.append((spelled_name, inner))
    for _ in range(chance.choice([0, 1, 1])):
        text = (odd_text if chance.random() < 0.1 else sound_text)(chance)
        place = chance.randint(0, len(members))
        members.insert(place, chance.choice([(text, 1), (text, {"k": [1]}), ("w", text), ("w", [text, {"k": text}])]))
    return Members(members)


def starts_of_parts(way):
    """How many steps of a way lead to what may nest 100 deep: a property's value, an event or entity, a step or attachment."""
    if way[:1] == ("events",):
        behind = {"reporterchain": 4, "attachments": 4, "reporterchains": 5}.get(way[2] if len(way) > 2 else None, 2)
        return [start for start in (2, behind) if start <= len(way)]
    return [2] if way[:1] and way[0] in LOG_NAMES else [1]


def with_depth(chance, way):
    """What puts a value at the end of that way that nests about as deep as the whole may, or a part on the way."""
    start = chance.choice([0] + starts_of_parts(way) * 2)
    deepest = (100 if start else 127) - (len(way) - start) - 1
    deep = nested(chance, deepest + chance.choice([-1, 0, 0, 0, 1]))
    return lambda value: dict(value, **{chance.choice(["n", "n", "", "zz"]): deep})


def spelled_in_some_way(chance, document):
    """The document as JSON, in most cases without blanks and with the members where they are."""
    return spelled_oddly(chance, document, chance.choice([0, 0, 0, 0.05, 0.3]))


def changed_somewhere(chance, change, times=1):
    """A document of which the log, events or objects in them are changed so."""
    document = full_document(chance)
    for _ in range(times):
        document = changed_at(document, some_way(chance, document), lambda value: change(chance, value))
    return spelled_in_some_way(chance, document)


def doubled(chance):
    return changed_somewhere(chance, with_doubled)


def numbered(chance):
    return changed_somewhere(chance, with_number, chance.choice([1, 1, 2]))


def escaped(chance):
    return changed_somewhere(chance, with_text)


def deep(chance):
    document = full_document(chance)
    for _ in range(chance.choice([1, 1, 1, 2])):
        member = chance.choice(["reporterchain", "reporterchains", "attachments", "no such member"])
        inner = [way for way in ways(document) if way[2:3] == (member,)]
        way = chance.choice(inner) if inner else some_way(chance, document)
        document = changed_at(document, way, with_depth(chance, way))
    return spelled_in_some_way(chance, document)


def some_events(chance):
    if chance.random() < 0.75:
        return chance.choice([[], [event(chance)], [full_event(chance), event(chance)]])
    return chance.choice([
        None, {}, {"events": []}, "x", 7, [None], [[]], [broken(chance, event(chance))], full_event(chance)])


def bare(chance):
    """A document with few members in every order, an event by itself, or another value, and something around it."""
    members = [("id", chance.choice(["g"] * 20 + [None, 7, "", odd_name(chance)]))]
    members += [("events", some_events(chance)) for _ in range(chance.choice([0] + [1] * 12 + [2]))]
    for _ in range(chance.choice([0, 0, 1, 2, 4])):
        name = chance.choice([*NEAR_NAMES, *LOG_NAMES, "a", "e", "f", "z", "\u00e9"])
        value = chance.choice([None, [], {}, {"events": []}, 1, [{"id": "a", "metricId": "b"}], scalar(chance)])
        members.append((name, value))
    chance.shuffle(members)
    value = Members(members)
    if chance.random() < 0.2:
        value = chance.choice([full_event(chance), event(chance), broken(chance, event(chance)), {}, [], [value], None, "x", 7])
    spelling = spelled_oddly(chance, value, chance.choice([0, 0.3, 1]))
    before = [b""] * 20 + BLANKS * 2 + NO_BLANKS[:4]
    behind = [b""] * 20 + BLANKS * 2 + NO_BLANKS[4:] + [b",", b"{}", b"]", b"}", b"null", spelling]
    return chance.choice(before) + spelling + chance.choice(behind)


def with_refused_part(chance, document):
    """The document with something for which it is refused, in one of the places that are judged in turn."""
    way = some_way(chance, document)
    place = chance.randrange(len(document["events"]))
    at_event = ("events", place)
    made, bad, bad_list = dict(document), chance.choice([None, 7, "", {}, []]), chance.choice([7, "x", {}, True])
    member = chance.choice(["resources", "geolocations", "metrics"])
    return chance.choice([
        lambda: chance.choice([dict(made, id=bad), {name: made[name] for name in made if name != "id"}]),
        lambda: dict(made, **{member: chance.choice([bad_list, [{"id": "a", "metricId": "a"}, {"id": bad, "metricId": bad}]])}),
        lambda: dict(made, **{chance.choice(["", "\x01", "e\x7f", "x" * 1025]): 1}),
        lambda: changed_at(made, at_event, lambda event: broken(chance, dict(event))),
        lambda: changed_at(made, at_event, lambda event: dict(event, id=bad)),
        lambda: changed_at(made, way, with_depth(chance, way)),
        lambda: changed_at(made, way, lambda value: dict(value, n=Raw(chance.choice(OTHER_NUMBERS).encode())))])()


def odd_in_turn(chance):
    """A document with several faults, of which the one that is judged first decides, wherever it stands in the text."""
    document = full_document(chance)
    for _ in range(chance.choice([1, 2, 2, 3])):
        document = with_refused_part(chance, document)
    members = list(document.items())
    chance.shuffle(members)
    spelling = spelled_in_some_way(chance, Members(members))
    kind = chance.randrange(10)
    if kind == 0:
        return spelling[:chance.randint(len(spelling) // 2, len(spelling))]
    if kind == 1:
        place = chance.randint(len(spelling) // 2, len(spelling))
        return spelling[:place] + chance.choice([b",", b"}", b"]", b"\xff", b"1.5", b"x", b'"', b"\x00"]) + spelling[place:]
    return spelling


def any_odd_document(chance):
    return chance.choice([doubled, numbered, escaped, deep, bare, odd_in_turn])(chance)
