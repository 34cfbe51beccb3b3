"""JSON's reading, and the canonical text of its values."""
import re

LEAST, GREATEST = -2 ** 63, 2 ** 64 - 1
DEEPEST = 127
WITHOUT_DOUBLE = 2 ** 1024 - 2 ** 970  # from here on no finite double is the nearest
LENGTH = len(str(WITHOUT_DOUBLE))
FRACTION = object()  # a number that isn't whole, until it is known whether the bytes are JSON at all

BLANKS = re.compile(rb"[ \t\n\r]*")
WORD = re.compile(rb"null|true|false")
WORDS = {b"null": None, b"true": True, b"false": False}
NUMBER = re.compile(rb"(-?)(0|[1-9][0-9]*)(?:\.([0-9]+))?(?:[eE]([+-]?[0-9]+))?")
PLAIN = re.compile(rb'[^"\\\x00-\x1f]*')
QUOTE = re.compile(rb'"')
ESCAPE = re.compile(rb'\\(?:(["\\/bfnrt])|u([0-9a-fA-F]{4}))')
LATER_HALF = re.compile(rb"\\u([dD][c-fC-F][0-9a-fA-F]{2})")
LIST_END = re.compile(rb"[ \t\n\r]*\]")
LIST_NEXT = re.compile(rb"[ \t\n\r]*([,\]])")
OBJECT_END = re.compile(rb"[ \t\n\r]*\}")
OBJECT_NEXT = re.compile(rb"[ \t\n\r]*([,}])")
COLON = re.compile(rb"[ \t\n\r]*:")
NAME = re.compile(rb'[ \t\n\r]*"')

LETTERS = {"\b": "b", "\t": "t", "\n": "n", "\f": "f", "\r": "r", '"': '"', "\\": "\\"}
MEANT = {letter.encode(): character.encode() for character, letter in [*LETTERS.items(), ("/", "/")]}
ESCAPES = {number: "\\u%04x" % number for number in range(32)}
ESCAPES.update({ord(character): "\\" + letter for character, letter in LETTERS.items()})


class NotJson(Exception):
    """The bytes are no JSON value."""


class NotWhole(Exception):
    """The bytes are a JSON value, and one of its numbers isn't whole."""


class InputSpec:
    """A place in the bytes of a JSON value."""

    def __init__(self, data):
        self.data, self.place = data, 0

    def taken(self, pattern):
        """What the pattern matches at this place, which then moves behind it; None where it matches nothing."""
        found = pattern.match(self.data, self.place)
        if found:
            self.place = found.end()
        return found

    def needed(self, pattern):
        found = self.taken(pattern)
        if not found:
            raise NotJson
        return found

    def whole(self):
        value = self.value(0)
        self.taken(BLANKS)
        if self.place < len(self.data):
            raise NotJson
        return value

    def value(self, depth):
        self.taken(BLANKS)
        first = self.data[self.place:self.place + 1]
        if first in (b"[", b"{"):
            if depth == DEEPEST:
                raise NotJson
            self.place += 1
            return self.list(depth + 1) if first == b"[" else self.object(depth + 1)
        if self.taken(QUOTE):
            return self.text()
        word = self.taken(WORD)
        return WORDS[word.group()] if word else self.number()

    def list(self, depth):
        if self.taken(LIST_END):
            return []
        values = [self.value(depth)]
        while self.needed(LIST_NEXT).group(1) == b",":
            values.append(self.value(depth))
        return values

    def object(self, depth):
        if self.taken(OBJECT_END):
            return {}
        members = {}
        while True:
            self.needed(NAME)
            name = self.text()
            self.needed(COLON)
            members[name] = self.value(depth)  # of a name that comes twice, the last value counts
            if self.needed(OBJECT_NEXT).group(1) == b"}":
                return members

    def text(self):
        spelled = bytearray()
        while True:
            spelled += self.taken(PLAIN).group()
            if self.taken(QUOTE):
                break
            spelled += self.escaped()
        try:
            return spelled.decode()
        except UnicodeDecodeError:
            raise NotJson

    def escaped(self):
        letter, digits = self.needed(ESCAPE).groups()
        if letter:
            return MEANT[letter]
        number = int(digits, 16)
        if 0xDC00 <= number <= 0xDFFF:
            raise NotJson
        if 0xD800 <= number <= 0xDBFF:
            later = int(self.needed(LATER_HALF).group(1), 16)
            number = 0x10000 + ((number - 0xD800) << 10) + (later - 0xDC00)
        return chr(number).encode()

    def number(self):
        sign, digits, fraction, exponent = self.needed(NUMBER).groups()
        if fraction is None and exponent is None and len(digits) <= 20:
            number = int(sign + digits)
            if LEAST <= number <= GREATEST and (number or not sign):
                return number
        if has_no_double(digits, fraction or b"", exponent or b""):
            raise NotJson
        return FRACTION


def has_no_double(digits, fraction, exponent):
    """Whether a number's magnitude is `WITHOUT_DOUBLE` or more: its digits around the point, times ten to the exponent's text."""
    spelled = (digits + fraction).lstrip(b"0")
    if not spelled:
        return False
    powers = exponent.lstrip(b"+-0") or b"0"
    if len(powers) > 10:  # more than an input's digits can make up for
        return not exponent.startswith(b"-")
    power = -int(powers) if exponent.startswith(b"-") else int(powers)
    before_point = len(spelled) - len(fraction) + power
    if before_point != LENGTH:
        return before_point > LENGTH
    return int(spelled[:LENGTH].ljust(LENGTH, b"0")) >= WITHOUT_DOUBLE


def all_whole(value):
    if isinstance(value, list):
        return all(all_whole(element) for element in value)
    if isinstance(value, dict):
        return all(all_whole(element) for element in value.values())
    return value is not FRACTION


def read(data):
    """The value that the bytes spell."""
    value = InputSpec(data).whole()
    if not all_whole(value):
        raise NotWhole
    return value


def quoted(text):
    return '"' + text.translate(ESCAPES) + '"'


def spelled(value):
    """The canonical text. Python orders texts by code points, which is the order of their UTF-8 bytes."""
    if value is None:
        return "null"
    if isinstance(value, bool):
        return "true" if value else "false"
    if isinstance(value, int):
        return str(value)
    if isinstance(value, str):
        return quoted(value)
    if isinstance(value, list):
        return "[" + ",".join(spelled(element) for element in value) + "]"
    return "{" + ",".join(quoted(name) + ":" + spelled(value[name]) for name in sorted(value)) + "}"


def read_canonical(text):
    """The value of which this is the canonical text; no JSON where it is none."""
    value = read(text.encode())
    if spelled(value) != text:
        raise NotJson
    return value


def depth(value):
    """How deep lists and objects nest."""
    if isinstance(value, list):
        return 1 + max((depth(element) for element in value), default=0)
    if isinstance(value, dict):
        return 1 + max((depth(element) for element in value.values()), default=0)
    return 0
