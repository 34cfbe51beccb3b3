"""Generated names, numbers, texts, times and nested values, many of them at a border of what is accepted."""
from calendar import monthrange

from tests.generated.spelling import Raw
from tests.reference.events import NO_PROPERTY

CHARACTERS = [
    "\x00", "\x01", "\x08", "\t", "\n", "\x0b", "\f", "\r", "\x1f", " ", '"', "\\", "/", "\x7f", "\x80", "\x9f", "\u00a0",
    "\u00e9", "\u0301", "\u07ff", "\u0800", "\u2028", "\ud7ff", "\ue000", "\ufeff", "\ufffd", "\uffff", "\U00010000",
    "\U0001f600", "\U0010ffff", "a", "Z", "!", "~"]
GOOD_NAMES = ["e", "e!", 'e"', "e\\", "e1", "e2", "e 3", "E", "\u00e9", "\uffff", "\U00010000", "/", "~", "\x80"]
NEAR_NAMES = ["e", "e!", 'e"', "e\\", "e1", "e1 ", "E", "\u00e9", "\uffff", "\U00010000",
              "$serde_json::private::Number", "$serde_json::private::RawValue"]
MEMBER_NAMES = NO_PROPERTY + ("reporterchain", "reporterchains", "tags", "attachments", "initiator", "eventTime", "log",
                              "conflicts", "name")
NUMBERS = [
    "0", "-0", "00", "01", "-01", "1", "-1", "1.0", "0.0", "-0.0", "1e2", "1E2", "1e+2", "1e-2", "1.", ".5", "1.e2", "1e",
    "1e+", "-", "+1", "--1", "9223372036854775807", "9223372036854775808", "9223372036854775809", "-9223372036854775807",
    "-9223372036854775808", "-9223372036854775809", "18446744073709551614", "18446744073709551615",
    "18446744073709551616", "18446744073709551617", "-18446744073709551615", "-18446744073709551616",
    "184467440737095516150", "1e308", "1e309", "-1e308", "-1e309", "1.7976931348623157e308", "1.7976931348623159e308",
    "17976931348623157e292", "17976931348623158e292", "17976931348623159e292", "179769313486231581e291", "2e308", "0e999",
    "0e99999999999", "-0e5", "1e-99999999999",
    "1e99999999999", "1e2147483647", "1e2147483648", "1e-2147483648", "1e-2147483649", "0e2147483648",
    "0.0e2147483648", "1" + "0" * 308, "1" + "0" * 309, "2" + "0" * 308, "1" + "0" * 400, "-1" + "0" * 400,
    "0." + "0" * 400 + "1", "1" + "0" * 400 + "e-200", "1" + "0" * 400 + "e-100", "123456789012345678901234567890.5e280",
    "1.8446744073709551616", "0.18446744073709551616e310", "1e1.5", "0x10", "1_0", "Infinity", "NaN", "-Infinity", "1f",
    "\u0661"]
BORDERS = [2 ** 63, 2 ** 64, -2 ** 63, 0, 2 ** 31, 2 ** 53, -2 ** 64]
PIECES = [
    b"\\u0000", b"\\u001f", b"\\u007F", b"\\u0080", b"\\u07ff", b"\\u0800", b"\\ud7ff", b"\\uD800", b"\\udbff",
    b"\\uDC00", b"\\udfff", b"\\ue000", b"\\uffff", b"\\ud800\\udc00", b"\\udbff\\udfff", b"\\uD83D\\uDE00",
    b"\\ud83d\\ud83d", b"\\ud83d\\ude00\\ude00", b"\\ud83dx", b"\\ud83d\\n", b"\\ud83d\\u00e9", b"\\u12", b"\\u123g",
    b"\\uABCD", b"\\x41", b"\\'", b"\\0", b"\\a", b"\\v", b"\\U0041", b"\\", b"\\/", b"/", b"\\b", b"\\f", b"\\n",
    b"\\r", b"\\t", b'\\"', b"\\\\", b"\\u0022", b"\\u005c", b"\\u002F", b"\x00", b"\x01", b"\t", b"\n", b"\x1f",
    b"\x7f", b"\x80", b"\xc2\x80", b"\xc3\xa9", b"\xc0\x80", b"\xc1\xbf", b"\xc3", b"\xe0\x80\x80", b"\xe0\xa0\x80",
    b"\xed\x9f\xbf", b"\xed\xa0\x80", b"\xee\x80\x80", b"\xef\xbb\xbf", b"\xef\xbf\xbf", b"\xf0\x80\x80\x80",
    b"\xf0\x90\x80\x80", b"\xf4\x8f\xbf\xbf", b"\xf4\x90\x80\x80", b"\xf5\x80\x80\x80", b"\xff", b"\xfe", b"\xe2\x82",
    b"\xf0\x9f\x98", b"a"]
SCALARS = [None, True, False, 0, 7, -1, 2 ** 63, -2 ** 63, 2 ** 64 - 1, "", "x", "\u00e9", "a\nb", "\x7f", [], {}, "null",
           "1"]
DAYS = [
    "2024-02-29", "2023-02-29", "2023-02-28", "1900-02-29", "2000-02-29", "2100-02-29", "2024-02-30", "2024-04-31",
    "2024-04-30", "2024-01-31", "2024-01-32", "2024-12-31", "2024-13-01", "2024-00-01", "2024-01-00", "0000-12-31",
    "0001-01-01", "0001-01-02", "9998-12-31", "9999-01-01", "9999-12-31", "1970-01-01", "1969-12-31", "0004-02-29",
    "0100-02-29", "0400-02-29", "2024-1-01", "24-01-01", "02024-01-01", "2024/01/01", "2024-06-31", "2024-09-31",
    "2024-11-31", "9996-02-29", "9998-02-29", "+2024-01-01", "-001-01-01", "2024-03-01"]
CLOCKS = ["00:00:00", "23:59:59", "24:00:00", "23:60:00", "23:59:60", "12:00:00", "12:00", "1:00:00", "12-00-00",
          "120000", "12:00:0", "12:00:000", " 2:00:00", "99:99:99"]
FRACTIONS = ["", ".", ".0", ".5", ".50", ".000000000", ".000000001", ".100000000", ".999999999", ".0000000000",
             ".1234567890", ".9999999999", ",5", ".5.5", ".a", ".\u0665", ".12", ".120", ".932842"]
ZONES = [
    "Z", "z", "", "+00:00", "-00:00", "+0000", "-0000", "+14:00", "-14:00", "+1400", "-1400", "+14:01", "-14:01",
    "+13:59", "-13:59", "+13:60", "+1360", "+15:00", "-15:00", "+23:59", "+99:99", "+00:60", "+00:01", "-00:01",
    "+0530", "+05:30", "-0330", "+01", "+1", "+1:00", "+01:0", "+01:000", "+010", "01:00", "ZZ", "Z ", " Z", "+01:00Z",
    "Z+01:00", "\u221201:00", "+01:\u0660\u0660", "+01-00", "UTC", "+00", "-08:00", "+05:45"]
GOOD_TIMES = [
    "2024-03-01T12:00:00Z", "2024-03-01T12:00:00+0000", "2024-03-01T12:00:00.000-00:00", "2024-03-01T13:00:00+01:00",
    "2024-03-01T12:00:00.5Z", "2024-03-01T12:00:00.500+00:00", "0001-01-01T00:00:00+14:00",
    "0001-01-01T00:00:00-14:00", "9998-12-31T23:59:59.999999999-14:00", "9998-12-31T23:59:59.999999999+1400",
    "1969-12-31T23:59:59.9Z", "1970-01-01T00:00:00Z", "2024-03-01T11:59:59.999999999Z"]


def characters(chance, count):
    return "".join(chance.choice(CHARACTERS) if chance.random() < 0.5 else chr(chance.randint(32, 126))
                   for _ in range(count))


def good_name(chance):
    return chance.choice(GOOD_NAMES)


def long_name(chance):
    """A name about as long as one may be, of longer or shorter characters."""
    character = chance.choice(["n", "\u00e9", "\u2028", "\U0001f600", "\x7f", "\x1f"])
    count = chance.choice([1022, 1023, 1024, 1025, 1026]) // len(character.encode())
    padding = "x" * chance.randint(0, 3 if character != "n" else 0)
    return chance.choice([character * count + padding, padding + character * count])


def odd_name(chance):
    kind = chance.randrange(12)
    if kind == 0:
        return chance.choice(["", "", "n", "nn"])
    if kind == 1:
        return chance.choice(CHARACTERS)
    if kind < 6:
        return long_name(chance)
    if kind == 6:
        return chance.choice(MEMBER_NAMES)
    if kind == 7:
        return chance.choice(NEAR_NAMES)
    return characters(chance, chance.randint(1, 6))


def nested(chance, deep):
    """A value that nests so deep."""
    if deep and chance.random() < 0.5:
        value = chance.choice([b"[]", b"{}"])
        deep -= 1
    else:
        value = chance.choice([b"1", b'"x"', b"null", b"true"])
    lists = chance.random()
    for _ in range(deep):
        value = b"[%s]" % value if chance.random() < lists else b'{"k":%s}' % value
    return Raw(value)


def digits(chance, count):
    return "".join(chance.choice("0123456789") for _ in range(count))


def number(chance):
    """The text of a number, or of what is nearly one."""
    if chance.random() < 0.7:
        return chance.choice(NUMBERS)
    text = digits(chance, chance.choice([1, 2, 18, 19, 20, 21, 300, 308, 309, 310])).lstrip("0") or "0"
    text = chance.choice(["", "-"]) + text
    if chance.random() < 0.4:
        text += "." + digits(chance, chance.choice([0, 1, 5, 20, 30]))
    if chance.random() < 0.4:
        text += chance.choice("eE") + chance.choice(["", "+", "-"]) + digits(chance, chance.choice([0, 1, 2, 3, 3, 10]))
    return text


def number_near_a_border(chance):
    return str(chance.choice(BORDERS) + chance.randint(-3, 3))


def odd_text(chance):
    """The JSON of a text, or of what is nearly one."""
    pieces = b"".join(chance.choice(PIECES) for _ in range(chance.choice([1, 1, 2, 3])))
    return Raw(b'"' + pieces + chance.choice([b'"'] * 12 + [b"", b"'"]))


def scalar(chance):
    return chance.choice(SCALARS)


def any_value(chance, deep=3):
    kind = chance.random()
    if deep == 0 or kind < 0.5:
        return scalar(chance)
    if kind < 0.75:
        return [any_value(chance, deep - 1) for _ in range(chance.randint(0, 3))]
    return {characters(chance, chance.randint(0, 3)): any_value(chance, deep - 1) for _ in range(chance.randint(0, 3))}


def good_time(chance):
    if chance.random() < 0.5:
        return chance.choice(GOOD_TIMES)
    year = chance.choice([1, 4, 100, 400, 1600, 1900, 1969, 1970, 2000, 2024, 2100, 9998, chance.randint(1, 9998)])
    month = chance.randint(1, 12)
    last = monthrange(year, month)[1]
    text = "%04d-%02d-%02dT%02d:%02d:%02d" % (
        year, month, chance.choice([1, last, chance.randint(1, last)]), chance.randint(0, 23), chance.randint(0, 59),
        chance.randint(0, 59))
    if chance.random() < 0.5:
        text += "." + "".join(chance.choice("0509") for _ in range(chance.randint(1, 9)))
    offset = "%s%02d%s%02d" % (chance.choice("+-"), chance.randint(0, 13), chance.choice(["", ":"]), chance.randint(0, 59))
    return text + chance.choice(["Z", "+00:00", "-00:00", "+0000", offset])


def time(chance):
    """The text of a time, or of what is nearly one."""
    kind = chance.random()
    if kind < 0.25:
        return good_time(chance)
    if kind < 0.4:
        text = list(good_time(chance))
        for _ in range(chance.randint(1, 2)):
            place = chance.randrange(len(text))
            text[place:place + chance.randint(0, 1)] = [chance.choice("0123456789-+:.TZtz 9\u0661\x00")]
        return "".join(text)
    day = chance.choice(DAYS) if chance.random() < 0.5 else "2024-02-29"
    clock = chance.choice(CLOCKS if chance.random() < 0.4 else ["00:00:00", "12:30:59", "23:59:59"])
    fraction = chance.choice(FRACTIONS) if chance.random() < 0.6 else ""
    return day + chance.choice("TTTTTTTTTTTTTTt ") + clock + fraction + chance.choice(ZONES)
