"""Calls of JSON values, of sources and sinks, and of times, with what they answer."""
from tests.tables.texts import nested

# What is asked of a value.
ASKED = {
    "kind": ["View::is_null", "View::is_object", "View::is_list", "View::as_text", "View::len", "View::depth"],
    "item": ["View::item"],
    "member": ["View::member"],
    "name": ["View::name_at"],
    "items": ["View::items"],
    "members": ["View::members"],
    "within": ["View::members_nest_within"],
    "rewritten_text": ["View::rewritten_text"],
}

CALLS = {
    **{"value %s" % asked: calls for asked, calls in ASKED.items()},
    "value text": ["Json::read", "Json::view", "View::text", "View::write"],
    # A text that is read into the memory of another one's value.
    "reused": ["Json::new", "Json::read_into"],
    # On a text of which a part is repeated: what is before it, the part, how often, what is after it.
    "repeated value": ["Json::read"],
    "repeated apart": ["Json::read_next"],
    "canonical": ["Json::read_canonical", "Json::read_canonical_with"],  # the first makes the second
    "quoted": ["quoted"],
    "apart": ["Json::read_apart", "ItemVisitor::begin", "ItemVisitor::take", "Json::read_next"],
    "read_to_limit": ["read_to_limit", "Source::read"],
    "read_rest": ["cadf_json::read_rest"],
    "borrow_next": ["Source::borrow_next"],
    "read_by_std": ["FromStd::new", "FromStd::into_inner"],
    "write_all": ["write_all", "Sink::write"],
    "write_by_std": ["FromStd::new", "FromStd::into_inner"],
    "time": ["Stamp::read", "Stamp::instant", "Stamp::offset", "Stamp::text"],
}

CANONICAL, VALUES, STREAMS, TIMES = (
    "Canonical JSON text", "ARCHITECTURE: Values", "ARCHITECTURE: Sources and sinks", "Times")

# Texts of JSON, and the canonical texts of what they spell.
SPELLED = [
    ("18446744073709551615", "18446744073709551615"),
    ("-9223372036854775808", "-9223372036854775808"),
    ("[ null , true , false , 0 , -1 ]", "[null,true,false,0,-1]"),
    (' { "b" : [ ] , "a" : "\\u0041\\/\\u007f" } ', '{"a":"A/\x7f","b":[]}'),
    ('{"B":{},"a":1,"é":2,"aa":3}', '{"B":{},"a":1,"aa":3,"é":2}'),
    ('"\\u0001\\t\\""', '"\\u0001\\t\\""'),
    ('"\\b\\f\\n\\r\\t\\u000B\\u001F\\u0020\\\\"', '"\\b\\f\\n\\r\\t\\u000b\\u001f \\\\"'),
    ('"\\ud83d\\ude00\\u00e9"', '"😀é"'),
    ('{"type\\"x":1,"typeURI":2,"type":3,"type\\u0000":4}', '{"type":3,"type\\u0000":4,"type\\"x":1,"typeURI":2}'),
    ('{"é":2,"a":1,"B":{"d":[{"z":1,"y":{}}],"c":0},"aa":3,"":4}',
     '{"":4,"B":{"c":0,"d":[{"y":{},"z":1}]},"a":1,"aa":3,"é":2}'),
    (nested(127), nested(127)),
    ('{"":{"a":[-9223372036854775808,18446744073709551615,0]},"a":1}', '{"":{"a":[-9223372036854775808,18446744073709551615,0]},"a":1}'),
]

# Texts in which a name stands twice: the last one counts.
TWICE = [
    ('{"a":1,"a":2}', '{"a":2}'),
    ('{"a":1,"b":3,"\\u0061":2}', '{"a":2,"b":3}'),
    ('{"a":1.5,"a":1}', '{"a":1}'),
    ('[{"x":[{"b":1,"b":2}]}]', '[{"x":[{"b":2}]}]'),
    # Names rise in the outer object alone, or nowhere.
    ('{"a":{"c":1,"b":2},"d":[{"f":{},"e":0}]}', '{"a":{"b":2,"c":1},"d":[{"e":0,"f":{}}]}'),
    ('{"b":{"d":1,"c":[{"z":0,"y":1.5,"y":[]}],"d":3},"a":{"x":0,"w":1}}',
     '{"a":{"w":1,"x":0},"b":{"c":[{"y":[],"z":0}],"d":3}}'),
    # Thirty members, from the last name to the first and once more.
    ("{%s}" % ",".join('"m%02d":%d' % (place % 15, place) for place in range(30, 0, -1)),
     '{"m00":15,%s}' % ",".join('"m%02d":%d' % (place, place) for place in range(1, 15))),
]

# Texts with a number that isn't whole, and the canonical text if a later member replaces each: the first and the last, one
# of many, one in an object that is replaced, a name that comes back, a name with an escape.
REPLACED = [
    ('{"a":1.5,"b":1}', None),
    ('{"a":1.5,"a":1,"a":1.5}', None),
    ('{"a":1.5,"\\u0061":1}', '{"a":1}'),
    ('[{"a":1.5,"a":1},{"a":1.5}]', None),
    ('[{"a":{"b":1.5,"c":1},"a":{"b":1}},1.5]', None),
    ('{"a":{"b":{"c":1.5},"b":0},"c":1}', '{"a":{"b":0},"c":1}'),
    ('{"a":{"b":1.5,"c":1},"a":{"c":1}}', '{"a":{"c":1}}'),
    ('{"a":[%s0],"a":0}' % (40 * "-0,"), '{"a":0}'),
    ('{"a":[%s0],"a":0,"b":-0}' % (40 * "-0,"), None),
    ('{"b":-0,"a":[%s0],"a":0,"c":0}' % (40 * "-0,"), None),
    ('{"b":-0,"a":[%s0],"a":0,"b":0}' % (40 * "-0,"), '{"a":0,"b":0}'),
    ("{%s}" % ",".join('"%02d":%s' % (place, number) for number in ("-0", "0") for place in range(40)),
     "{%s}" % ",".join('"%02d":0' % place for place in range(40))),
    ("{%s}" % ",".join('"%02d":%s' % (place, number) for number, places in (("-0", 40), ("0", 39)) for place in range(places)),
     None),
]

# Numbers below the least magnitude that has no finite double, and from it on.
INFINITE_FROM = 2 ** 1024 - 2 ** 970
FINITE = ["17976931348623158e292", "1.7976931348623158079e308", "%d" % (INFINITE_FROM - 1), "-%d.9" % (INFINITE_FROM - 1),
          "%d0e-2" % INFINITE_FROM, "0.%s%de708" % ("0" * 400, INFINITE_FROM), "0e400", "1e-400", "9007199254740993e292"]
INFINITE = ["179769313486231581e291", "1.7976931348623158080e308", "%d" % INFINITE_FROM, "-%d.0" % INFINITE_FROM,
            "%d000e-3" % INFINITE_FROM, "0.%s%de709" % ("0" * 400, INFINITE_FROM), "1e309", "1e99999999999", "1e400"]

# Numbers that refuse a value, and those that it keeps as they stand.
NOT_WHOLE = ["1.5", "1e3", "1.0", "1E2", "0.5", "18446744073709551616", "-9223372036854775809", "-0", "-0.0"]
WHOLE = ["18446744073709551615", "-9223372036854775808", '"1.5"']

# Bytes that no JSON spells.
NO_JSON = [b"[1.5", b'"\xff"', b'{"events":[', b"01", b"1 2", b"CADF", b"", b"[1]]", b"{} {}", b'{"a"}', b"[1,]",
           b'"\\ud800"', b'"\\udc00"', b'"\\ud800\\ud800"', b'"\\ud800x"', b'"\\ud83d\\u0041"', b'"\xed\xa0\x80"', b"nul",
           b'"\x01"', b'"\xc0\x80"', nested(128).encode()]

# Texts that are no canonical text, and why: by an escape, a number, a blank, the order of names.
NO_CANONICAL = [
    ('"\\u001F"', "NotCanonical"), ('"\\u000a"', "NotCanonical"), ('"\\ud83d\\ude00"', "NotCanonical"),
    ('["a","\\u0009"]', "NotCanonical"), ('{"a":1,"a":2}', "NotCanonical"), ('{"a":1.5,"a":1}', "NotCanonical"),
    ("-0", "NotWhole"), ("1.0", "NotWhole"), ("1e2", "NotWhole"), ("[1.5]", "NotWhole"), ("18446744073709551616", "NotWhole"),
    ("", "NotJson"), ("[", "NotJson"), ("[1,]", "NotJson"), ("{}{}", "NotJson"), ("nul", "NotJson"), (nested(128), "NotJson"),
    ("[1.50", "NotJson"), ("[ 1.50]", "NotWhole"), ('{"b":1,"a":2}', "NotCanonical"), ("[1, 2]", "NotCanonical"),
    ("1\n", "NotCanonical"), ('"\\u0041"', "NotCanonical"), ('"\\/"', "NotCanonical"), ('{"a":1,"a":1}', "NotCanonical"),
]

# Objects of which the last member has the least name, behind so many others.
LATE = {count: "{" + ",".join('"b%02d":0' % place for place in range(count)) + ',"a":1}' for count in (64, 65)}

# Values: whether each is null, an object, a list; how many parts it has, how deep it nests, its text.
KINDS = [
    ("null", True, False, False, 0, 0), ("true", False, False, False, 0, 0), ("7", False, False, False, 0, 0),
    ('"x"', False, False, False, 0, 0, "x"), ('""', False, False, False, 0, 0, ""),
    ("[]", False, False, True, 0, 1), ("{}", False, True, False, 0, 1), ("[1,[2]]", False, False, True, 2, 2),
    ('{"b":[1,"x",null],"a":{}}', False, True, False, 2, 2), (nested(127), False, False, True, 1, 127),
]

PARTS = '{"b":[1,"x",null],"a":{}}'
MEMBERS = '{"t":"x","id":1,"deep":[[]]}'

# What is asked of a value, and what is found.
FOUND = [
    (PARTS, ["name", 0], ["some", "a"]),
    (PARTS, ["name", 1], ["some", "b"]),
    (PARTS, ["name", 2], ["none"]),
    (PARTS, ["item", 0], ["some", "{}"]),
    (PARTS, ["item", 1], ["some", '[1,"x",null]']),
    (PARTS, ["item", 2], ["none"]),
    (PARTS, ["member", "b"], ["some", '[1,"x",null]']),
    (PARTS, ["member", "c"], ["none"]),
    (PARTS, ["member", ""], ["none"]),
    ('[1,"x",null]', ["item", 1], ["some", '"x"']),
    ('[1,"x",null]', ["item", 2], ["some", "null"]),
    ('[1,"x",null]', ["item", 3], ["none"]),
    ('[1,"x",null]', ["name", 0], ["none"]),
    ('[1,"x",null]', ["member", "b"], ["none"]),
    ('"x"', ["item", 0], ["none"]),
    (MEMBERS, ["members"], ["ok", "deep", "[[]]", "id", "1", "t", '"x"']),
    ("[1]", ["members"], ["ok"]),
    ('[1,[2,{"b":3,"a":4}],"x"]', ["items"], ["ok", "1", '[2,{"a":4,"b":3}]', '"x"']),
    (PARTS, ["items"], ["ok"]),
    ("null", ["items"], ["ok"]),
    ('{"b":[1,[2],{"z":null}],"a":"x","d":{},"c":true}', ["members"],
     ["ok", "a", '"x"', "b", '[1,[2],{"z":null}]', "c", "true", "d", "{}"]),
    # A member's limit, and that of the others.
    (MEMBERS, ["within", "deep", 2, 0], [True]),
    (MEMBERS, ["within", "deep", 1, 9], [False]),
    ('{"b":[1,[2]],"d":{}}', ["within", "b", 2, 1], [True]),
    ('{"b":[1,[2]],"d":{}}', ["within", "b", 1, 1], [False]),
    ('{"b":[1,[2]],"d":{}}', ["within", "d", 0, 2], [False]),
    # The name with its text, and the names that are left out.
    (MEMBERS, ["rewritten_text", "t", 'y"', "id", "other"], ["ok", '{"deep":[[]],"t":"y\\""}']),
    ("[1]", ["rewritten_text", "t", "y", "id", "tags"], ["ok", "{}"]),
    ("{}", ["rewritten_text", "t", "y", "id", "tags"], ["ok", "{}"]),
    ('{"time":"now","id":1,"a":[0]}', ["rewritten_text", "time", "t\n", "id", "tags"], ["ok", '{"a":[0],"time":"t\\n"}']),
    ('{"id":1,"b":{"id":2}}', ["rewritten_text", "time", "t", "id", "tags"], ["ok", '{"b":{"id":2}}']),
    ('{"x":1,"id":1,"tags":[]}', ["rewritten_text", "time", "t", "id", "tags"], ["ok", '{"x":1}']),
]

# As many items, or members, as these.
MOST = 16384
# Texts of which a part is repeated, and what their values are.
COUNTED = [
    (("[", "0,", MOST, "0]"), [False, False, True, MOST + 1, 1]),
    (('{"a":[', "{},", MOST, "{}]}"), [False, True, False, 1, 3]),
    (("[", '{"":[]},', MOST, "0]"), [False, False, True, MOST + 1, 3]),
    # One text of more than 64 KiB.
    (('["', "0123", MOST, '4"]'), [False, False, True, 1, 1]),
]

# Texts, each read into the memory of another one's value, and what is told of it.
REUSED = [
    ('{"a":["x","y"],"b":{"c":"z"}}', '["u"]', ["ok", '["u"]']),
    ("[1.5]", '{"b":1,"a":2}', ["ok", '{"a":2,"b":1}']),
    ("[", "null", ["ok", "null"]),
    ('{"a":1}', "[1.5]", ["err", "NotWhole"]),
    ('{"a":1}', "[1.5", ["err", "NotJson"]),
]

# Objects of which the items of `list` are taken: these, and the text of what is left.
APART = [
    (' { "z" : [1,2], "list" : [ {"b":1,"a":[]} , null , 7, "\\u0041" ] , "id":{"b":3,"a":4}, "a":{"list":[3]} } ',
     ['{"a":[],"b":1}', "null", "7", '"A"'], '{"a":{"list":[3]},"id":{"a":4,"b":3},"list":[],"z":[1,2]}'),
    (' { "Z" : -1 , "list" : [ ] , "a":{"list":[3]} , "b" : { } } ', [], '{"Z":-1,"a":{"list":[3]},"b":{},"list":[]}'),
    ('{"list":[]}', [], '{"list":[]}'),
    ('{"\\u006cist":[7]}', ["7"], '{"list":[]}'),
    ('{"a":1,"list":[],"a":{"c":[],"b":"\\u0041","c":2}}', [], '{"a":{"b":"A","c":2},"list":[]}'),
    ('{"id":1,"list":[],"id":"r"}', [], '{"id":"r","list":[]}'),
    ('{"b":[{"b":1,"a":2},{}],"":null,"list":[0]}', ["0"], '{"":null,"b":[{"a":2,"b":1},{}],"list":[]}'),
    ('{"a":{"b":1.5,"b":1},"list":[]}', [], '{"a":{"b":1},"list":[]}'),
    ('{"a":1.5,"a":1,"list":[]}', [], '{"a":1,"list":[]}'),
    # The later list counts.
    ('{"list":[1,2],"list":[]}', [], '{"list":[]}'),
    ('{"list":[1,2],"a":1,"list":[3]}', ["3"], '{"a":1,"list":[]}'),
    # Names that rise up to one that occurred before, or that is less than all.
    ('{"é":1,"list":[],"é":[ { "x" : 1.5 , "y" : [ 1 ] , "x" : { "b" : "\\u0041\\n" , "a" : true , "b" : { } } } ]}',
     [], '{"list":[],"é":[{"x":{"a":true,"b":{}},"y":[1]}]}'),
    ('{"b":{"z":"\\"","y":{"d":[{}],"c":[],"":null}},"list":[],"a":%s}' % LATE[65], [],
     '{"a":{"a":1,%s,"b":{"y":{"":null,"c":[],"d":[{}]},"z":"\\""},"list":[]}' % LATE[65][1:].replace(',"a":1', "")),
    ('{"list":[],"x":%s}' % nested(126), [], '{"list":[],"x":%s}' % nested(126)),
    ('{"list":[{"a":1,"a":1},{"b":1.5,"b":2}]}', ['{"a":1}', '{"b":2}'], '{"list":[]}'),
    ('{"list":[%s]}' % nested(125), [nested(125)], '{"list":[]}'),
    # Objects without the list.
    ("{}", [], "{}"),
    (' {"b":{"list":[1]},"a":[{}]} ', [], '{"a":[{}],"b":{"list":[1]}}'),
    ('{"b":1,"b":2}', [], '{"b":2}'),
]
# Texts that aren't read so: no objects, with another value than a list there, with a number that isn't whole, or no JSON.
NOT_APART = ["", "[]", '{"list":[]', '{"list":[]} {}', '{"list":[1.5]}', '{"list":{}}', '{"list":null}', '{"a":1} 2',
             '{"b":[0.5],"list":[]}', '{"list":[1.5],"list":[]}', '{"list":[],"list":7}', '{"b":[0.5]}', '{"list":[],"b":{"c":[-0]}}',
             '{"list":[],"x":%s}' % nested(127), '{"list":[%s]}' % nested(126), '{"list":[],"x":{"a":1e400,"a":1}}', '{"list":[],"x":[1,]}']

BYTES = b"twenty-two bytes long!"
LONG = b"\x07" * 10000


def reads():
    """Readings of these bytes: the size of a piece, the read that fails (0 is none), the limit, and the answer."""
    for piece in (1, 7, 22, 4096):
        yield BYTES, piece, 0, 22, ["ok", BYTES]
        yield BYTES, piece, 0, 21, ["err", "TooLarge"]
    yield b"", 1, 0, 0, ["ok", b""]
    for limit in (10000, 20000):
        yield LONG, 10000, 0, limit, ["ok", LONG]
    yield LONG, 10000, 0, 9999, ["err", "TooLarge"]
    # The last read gives nothing: 23 reads of a byte, 5 of seven, 2 of all.
    for piece, count in ((1, 23), (7, 5), (22, 2)):
        for failing in range(1, count + 1):
            yield BYTES, piece, failing, 22, ["err", "ReadFault"]
        yield BYTES, piece, count + 1, 22, ["ok", BYTES]
    # The third read decides that there are more than 20 bytes: a failure of the fourth changes nothing.
    for failing in (1, 2, 3):
        yield BYTES, 7, failing, 20, ["err", "ReadFault"]
    yield BYTES, 7, 4, 20, ["err", "TooLarge"]
    yield BYTES, 7, 0, 20, ["err", "TooLarge"]


def writes():
    """Writings of these bytes: the size of a piece, what fails and at which write, and the answer with what was written."""
    for piece, count in ((1, 22), (7, 4), (22, 1)):
        for failing in range(1, count + 1):
            for how in ("refuses", "takes-nothing"):
                yield piece, how, failing, ["err", "WriteFault", BYTES[:(failing - 1) * piece]]
        yield piece, "never", 0, ["ok", BYTES]
        yield piece, "refuses", count + 1, ["ok", BYTES]

# Times: their instants in nanoseconds since 1970, their offsets in minutes, and their canonical spellings.
SPELLED_TIMES = [
    ("2024-03-01T12:00:00Z", 1709294400 * 10**9, 0, "2024-03-01T12:00:00Z"),
    ("0001-01-01T00:00:00+14:00", -62135647200 * 10**9, 840, "0001-01-01T00:00:00+14:00"),
    ("9998-12-31T23:59:59.999999999-14:00", 253370815200 * 10**9 - 1, -840, "9998-12-31T23:59:59.999999999-14:00"),
    ("2024-03-01T12:00:00.500-00:00", 1709294400 * 10**9 + 5 * 10**8, 0, "2024-03-01T12:00:00.5Z"),
    ("2024-02-29T00:00:00Z", 1709164800 * 10**9, 0, "2024-02-29T00:00:00Z"),
    ("2000-02-29T00:00:00Z", 951782400 * 10**9, 0, "2000-02-29T00:00:00Z"),
    ("2024-03-01T12:00:00.120000000+0530", 1709274600 * 10**9 + 12 * 10**7, 330, "2024-03-01T12:00:00.12+05:30"),
    ("2014-02-14T01:20:47.932842+0000", 1392340847932842 * 1000, 0, "2014-02-14T01:20:47.932842Z"),
    ("1970-01-01T00:00:00.000-0000", 0, 0, "1970-01-01T00:00:00Z"),
]

# Texts that are no times, and why.
NO_TIMES = [
    ("2024-03-01T12:00:60Z", "Range"), ("2023-02-29T00:00:00Z", "Range"), ("1900-02-29T00:00:00Z", "Range"),
    ("0000-01-01T00:00:00Z", "Range"), ("9999-01-01T00:00:00Z", "Range"), ("2024-03-01T24:00:00Z", "Range"),
    ("2024-03-01T12:60:00Z", "Range"), ("2024-04-31T12:00:00Z", "Range"), ("2024-13-01T00:00:00+15:00", "Range"),
    ("2024-03-01T00:00:00+14:01", "Offset"), ("2024-03-01T00:00:00+15:00", "Offset"),
    ("2024-03-01T00:00:00+13:60", "Offset"), ("2024-03-01T00:00:00.1234567890Z", "Shape"),
    ("2024-03-01T00:00:00.Z", "Shape"), ("2024-03-01t00:00:00Z", "Shape"), ("2024-03-01T00:00:00z", "Shape"),
    ("2024-03-01T00:00:00+01", "Shape"), ("2024-03-01T00:00:00", "Shape"), ("2024-03-01 00:00:00Z", "Shape"),
    (" 2024-03-01T00:00:00Z", "Shape"), ("2024-03-01T00:00:00Z\n", "Shape"), ("٢024-03-01T00:00:00Z", "Shape"), ("", "Shape"),
]


def values():
    """Values, their texts, and why others are none."""
    for text, spelled in SPELLED:
        yield "value", ["text", text], ["ok", spelled], CANONICAL
    for spelled in {spelled: None for _, spelled in SPELLED}:
        yield "canonical", [spelled], ["ok", spelled], CANONICAL
    for text, spelled in TWICE:
        yield "value", ["text", text], ["ok", spelled], CANONICAL
    yield "value", ["text", '{"a":1,"a":1.5}'], ["err", "NotWhole"], CANONICAL
    for number in NOT_WHOLE:
        for text in (number, '{"measurements":[{"metricId":"m1","result":%s}]}' % number):
            yield "value", ["text", text], ["err", "NotWhole"], CANONICAL
    for number in WHOLE:
        text = '{"measurements":[{"metricId":"m1","result":%s}]}' % number
        yield "value", ["text", text], ["ok", text], CANONICAL
    for data in NO_JSON:
        yield "value", ["text", data], ["err", "NotJson"], CANONICAL
    yield "value", ["text", LATE[64]], ["ok", '{"a":1,' + LATE[64][1:].replace(',"a":1', "")], CANONICAL
    yield "value", ["text", LATE[65]], ["ok", '{"a":1,' + LATE[65][1:].replace(',"a":1', "")], CANONICAL
    for text, fault in NO_CANONICAL:
        yield "canonical", [text], ["err", fault], CANONICAL


def looks():
    """What is seen of a value."""
    for text, *kind in KINDS:
        yield "value", ["kind", text], kind, VALUES
    for text, asked, found in FOUND:
        yield "value", [asked[0], text, *asked[1:]], found, VALUES


def objects():
    """Values with many parts, and values that are read into the memory of others."""
    for text, kind in COUNTED:
        yield "repeated", ["value", *text], kind, VALUES
    yield "repeated", ["apart", '{"list":[7],"a":[', "0,", MOST, '0],"a":1}'], ["apart", 1, "7", '{"a":1,"list":[]}'], VALUES
    for first, text, answer in REUSED:
        yield "reused", [first, text], answer, VALUES


def replaced():
    """Numbers that aren't whole: a later member may replace one, but not one without a double."""
    for text, spelled in REPLACED:
        yield "value", ["text", text], ["ok", spelled] if spelled else ["err", "NotWhole"], CANONICAL
    yield "value", ["text", '{"a":1.5,"a":1}]'], ["err", "NotJson"], CANONICAL


def without_double():
    """Numbers at the least magnitude without a finite double, alone and replaced by a later member."""
    for number in FINITE:
        yield "value", ["text", number], ["err", "NotWhole"], CANONICAL
        yield "value", ["text", '{"a":%s,"a":1}' % number], ["ok", '{"a":1}'], CANONICAL
    for number in INFINITE:
        for text in (number, '{"a":%s,"a":1}' % number):
            yield "value", ["text", text], ["err", "NotJson"], CANONICAL


def made():
    """The canonical text of a text."""
    yield "quoted", ['a"b\n'], ["ok", '"a\\"b\\n"'], CANONICAL


def passed():
    """Objects of which a list is taken."""
    for text, items, left in APART:
        yield "apart", [text], ["apart", len(items), *items, left], VALUES
    for text in NOT_APART:
        yield "apart", [text], ["no"], VALUES


def streams():
    """Readings and writings in pieces, with a failure at each call in turn."""
    for data, piece, failing, limit, answer in reads():
        yield "read_to_limit", [data, piece, failing, limit], answer, STREAMS
    # The rest behind a start of five bytes: the limit is on both together.
    yield "read_rest", [BYTES[5:], 7, 0, 22, BYTES[:5]], ["ok", BYTES], STREAMS
    for limit in (21, 4, 0):
        yield "read_rest", [BYTES[5:], 7, 0, limit, BYTES[:5]], ["err", "TooLarge"], STREAMS
    yield "read_rest", [BYTES[5:], 7, 1, 22, BYTES[:5]], ["err", "ReadFault"], STREAMS
    # What is borrowed with a limit, and what is left to read then. Nothing is borrowed of a source that is read in pieces.
    for limit in (0, 1, 21, 22, 23, 2**64 - 1):
        taken, left = BYTES[:limit], BYTES[limit:]
        yield "borrow_next", [BYTES, 0, limit], ["some", taken, left], STREAMS
        yield "borrow_next", [BYTES, 7, limit], ["none", BYTES], STREAMS
    yield "borrow_next", [b"", 0, 5], ["some", b"", b""], STREAMS
    # A reader of std that gives a byte a call: five take six calls, and a failed call isn't made again.
    for failing in range(1, 7):
        yield "read_by_std", [b"xxxxx", failing, 22], ["err", "ReadFault", failing], STREAMS
    yield "read_by_std", [b"xxxxx", 7, 22], ["ok", b"xxxxx", 6], STREAMS
    yield "read_by_std", [b"xxxxx", 4, 2], ["err", "TooLarge", 3], STREAMS
    yield "read_by_std", [BYTES, 0, 22], ["ok", BYTES, 23], STREAMS
    for piece, how, failing, answer in writes():
        yield "write_all", [BYTES, piece, how, failing], answer, STREAMS
    yield "write_by_std", [BYTES, 22], ["ok", BYTES], STREAMS
    yield "write_by_std", [BYTES, 3], ["err", "WriteFault", BYTES[:3]], STREAMS


def times():
    """Times, and texts that are none."""
    for text, instant, offset, spelled in SPELLED_TIMES:
        yield "time", [text], ["ok", instant, offset, spelled], TIMES
    for text, fault in NO_TIMES:
        yield "time", [text], ["err", fault], TIMES

ROWS = [row for rows in (values, looks, objects, replaced, without_double, made, passed, streams, times) for row in rows()]
