"""How a generated value is spelled as JSON, in canonical and in other ways."""
from tests.reference.json_text import ESCAPES, spelled


class Raw:
    """Bytes that stand where a value stands, JSON or not."""

    def __init__(self, data):
        self.data = data


class Members:
    """An object's members in an order of their own; a name may come twice, and be spelled already."""

    def __init__(self, members):
        self.members = list(members)


def units(number):
    """The character as UTF-16 has it."""
    if number < 0x10000:
        return [number]
    return [0xD800 + (number - 0x10000 >> 10), 0xDC00 + (number - 0x10000 & 0x3FF)]


def spelled_text(chance, text, odd):
    spelling = ""
    for character in text:
        if chance.random() < odd:
            digits = "".join("\\u%04x" % unit for unit in units(ord(character)))
            spelling += "".join(digit.upper() if digit in "abcdef" and chance.random() < 0.5 else digit for digit in digits)
        elif character == "/" and odd and chance.random() < 0.5:
            spelling += "\\/"
        else:
            spelling += ESCAPES.get(ord(character), character)
    return b'"' + spelling.encode() + b'"'


def blanks(chance, odd):
    if chance.random() >= odd:
        return b""
    return bytes(chance.choice(b" \t\n\r") for _ in range(chance.randint(1, 3)))


def spelled_oddly(chance, value, odd=0.0):
    """The value as JSON; `odd` is how likely each place has blanks, escapes and another order of members."""
    def apart(spellings, opened, shut):
        inner = (b"," + blanks(chance, odd)).join(spelling + blanks(chance, odd) for spelling in spellings)
        return opened + blanks(chance, odd) + inner + shut

    def member(name, value):
        colon = blanks(chance, odd) + b":" + blanks(chance, odd)
        spelling = name.data if isinstance(name, Raw) else spelled_text(chance, name, odd)
        return spelling + colon + spelled_oddly(chance, value, odd)

    if isinstance(value, Raw):
        return value.data
    if isinstance(value, str):
        return spelled_text(chance, value, odd)
    if isinstance(value, list):
        return apart([spelled_oddly(chance, element, odd) for element in value], b"[", b"]")
    if isinstance(value, dict):
        members = list(value.items())
        if odd:
            chance.shuffle(members)
        value = Members(members)
    if isinstance(value, Members):
        return apart([member(*pair) for pair in value.members], b"{", b"}")
    return spelled(value).encode()
