"""Files of lines with something odd in them: in a line, in the order of the lines, in the digest line or behind it."""
from tests.generated.odd_values import PIECES
from tests.reference.sealed_files import sealed

ODD_BYTES = b'"\\[]{},:0123456789-+.eEtfn \n\r\t/uZ\x00\x7f\xff\xc3'
FIRST_LINES = [b"CADF-REPLICA 1", b"CADF-REPLICA 2", b"CADF-REPLICA 3", b"CADF-INVENTORY 1", b"CADF-SKETCH 1", b"CADF-SEAL 1", b"CADF-PROOF 1",
               b"CADF-SPLIT 1", b"CADF-", b"", b"\xff"]
ODD_LOG_LINES = [
    b"", b"L", b"L ", b"L g", b'L  "g"', b'L "g" ', b'L "g"\r', b'L ""', b'L "\\u0067"', b'L "\\/"', b'L "/"', b'l "g"',
    b'"g"', b"L 7", b"L null", b'L ["g"]', b'L "\x7f"', b'L "\xff"', b'L "\\n"', b'L "h"', b'L "\xc3\xa9"',
    b'L "\\u00e9"', b'L "' + b"x" * 1024 + b'"', b'L "' + b"x" * 1025 + b'"']
ODD_LINES = [
    b"", b" ", b"\r", b"[]", b"{}", b"null", b"1.5", b"-0", b"1e999", b"\xff", b"{", b'["P"]', b'["P","n"]',
    b'["P","n","1","2"]', b'["X","a","1"]', b'["U","E","e1","' + b"a" * 64 + b'"]', b"z", b"Y", b"[", b'["E","e1"]',
    b'["",""]', b'"Z"', b" Z x", b"Z", b"Z ", b"Z x", b"ZZ", b"Z " + b"0" * 64, b"Z\r", b"Z\xff"]
# Words in the place of a number: of cells, a salt, a count or a place.
ODD_NUMBERS = [
    b"0", b"1", b"2", b"4", b"00", b"01", b"03", b"+1", b"+3", b"-1", b"-3", b"", b"x", b"1.0", b"0x1", b"12582912", b"12582915", b"4294967295",
    b"4294967296", b"4294967298", b"18446744073709551614", b"18446744073709551615", b"18446744073709551616", b"18446744073709551617",
    b"18446744073709551618", b"36893488147419103233", b"99999999999999999999"]
NO_DIGITS = [b"g", b"G", b" ", b"-", b"\x00", b"\xff", b"/", b":", b"`", b"@", "\u00e9".encode(), "\u0661".encode(), "\uff11".encode()]


def damaged_once(chance, data):
    place, kind = chance.randrange(len(data)), chance.randrange(9)
    end = place + chance.randint(1, 20)
    front, byte, back = data[:place], data[place], data[place + 1:]
    if kind == 0:
        return front + bytes([byte ^ 1 << chance.randrange(8)]) + back
    if kind == 1:
        return front + bytes([chance.randrange(256)]) + back
    if kind == 2:
        return front + back
    if kind == 3:
        return front + bytes([chance.choice(ODD_BYTES)]) + data[place:]
    if kind == 4:
        return front + data[end:]
    if kind == 5:
        return front + data[place:end] + data[place:]
    if kind == 6:
        return front + bytes([chance.choice(ODD_BYTES)]) + back
    if kind == 7:
        return front + chance.choice(PIECES) + data[place:]
    swapped, other = bytearray(data), chance.randrange(len(data))
    swapped[place], swapped[other] = data[other], data[place]
    return bytes(swapped)


def damaged(chance, data, times=None):
    for _ in range(times or chance.choice([1, 1, 1, 2, 3])):
        data = damaged_once(chance, data) if data else data
    return data


def resealed(data):
    """The file with the digest line that its lines ask for."""
    return sealed(data.split(b"\n")[:-2])


def odd_first_line(chance, line):
    """A first line that is nearly this one, or that of another kind of file."""
    name, _, version = line.rpartition(b" ")
    return chance.choice(2 * [
        name + b" 0", name + b" 3", name, line + b" ", line + b"\r", line + b"\x00", name + b"  " + version, name + b" 0" + version, b" " + line,
        line[:5] + line[5:].capitalize(), b"\xef\xbb\xbf" + line, line[5:]] + FIRST_LINES)


def odd_word(chance, word):
    """A word of digits with something odd in it; another number in the place of a short one."""
    if len(word) < 32 and chance.random() < 0.8:
        return chance.choice(ODD_NUMBERS)
    place = chance.randrange(len(word) + 1)
    front, back = word[:place], word[place:]
    return chance.choice([
        word.upper(), word.upper(), front + back.upper(), word[1:], word[:-1], front, front + back[1:], word + b"0", b"0" + word,
        front + b"0" + back, front + b" " + back, word * 2, b'"' + word + b'"', b"0x" + word[2:], b"z" + word, b"Z" + word[1:],
        front + chance.choice(NO_DIGITS) + back[1:], front + chance.choice(NO_DIGITS) + back])


def odd_line(chance, line):
    """The line with something odd in one of its words, or between them."""
    words = line.split(b" ")
    if chance.random() < 0.7:
        place = max(chance.randrange(len(words)), chance.randrange(len(words)))
        words[place] = odd_word(chance, words[place])
        return b" ".join(words)
    return chance.choice([
        b"", line[1:], line[:-1], line.lower(), line.replace(b" ", b"  ", 1), line.replace(b" ", b"\t", 1), line + b"\r", line + b" ", b" " + line,
        line + b" 0", line.rpartition(b" ")[0], b" ".join(words[1:]), b" ".join(words[:2]), b"Z" + line, b"Z " + line, b"H" + line[1:],
        b"P" + line[1:], line * 2, line[:-1] + b"\xff", chance.choice(ODD_LINES)])

# What may be done to the lines of a file, of which there may be none.

def make_one_odd(chance, lines):
    if lines:
        place = chance.randrange(len(lines))
        lines[place] = odd_line(chance, lines[place])


def swap(chance, lines):
    if len(lines) > 1:
        first, second = chance.sample(range(len(lines)), 2)
        lines[first], lines[second] = lines[second], lines[first]


def repeat_one(chance, lines):
    if lines:
        place = chance.randrange(len(lines))
        lines.insert(place, lines[place])


def drop_some(chance, lines):
    start = chance.choice([0, chance.randrange(len(lines) + 1)])
    del lines[start:start + chance.choice([1, 1, chance.randrange(len(lines) + 1)])]


def insert_one(chance, lines):
    lines.insert(chance.randint(0, len(lines)), chance.choice(ODD_LINES))


def turn(chance, lines):
    chance.choice([lines.reverse, lines.sort])()


def with_odd_lines(chance, data, size, damages):
    """The file with something odd in its first lines, of which there are so many, or in the others, as one of the damages does."""
    *lines, last = data.split(b"\n")[:-1]
    head, body = lines[:size], lines[size:]
    kind = chance.randrange(14 + 3 * (size - 2))
    if kind == 0:
        head[0] = odd_first_line(chance, head[0])
    elif kind == 1:
        head[1] = chance.choice(ODD_LOG_LINES)
    elif kind == 2:
        del head[chance.randrange(size)]
    elif kind < 14:
        chance.choice(damages)(chance, body)
    else:
        place = chance.randrange(2, size)
        head[place] = odd_line(chance, head[place])
    return sealed(head + body) if chance.random() < 0.75 else b"\n".join([*head, *body, last]) + b"\n"


def with_odd_end(chance, whole):
    """The file cut, or with something odd in its digest line or behind it."""
    start = whole.rfind(b"Z ")
    place = chance.randrange(start, len(whole) - 1)
    flipped = bytes([whole[place] ^ 1 << chance.randrange(8)])
    return chance.choice([
        whole[:chance.randrange(len(whole))],
        whole + chance.choice([b"\n", b" ", b"x", b"Z", whole, b"\x00", whole.split(b"\n")[0] + b"\n"]),
        whole[:place] + flipped + whole[place + 1:],
        whole[:start] + whole[start:].upper(),
        whole.replace(b"\n", b"\r\n"),
        whole[:-1] + chance.choice([b"\r\n", b" \n", b"", b"\n\n", b"0\n"]),
        damaged(chance, whole),
        whole[:start] + chance.choice([b"Z  ", b"Z", b"Z\t", b"z "]) + whole[start + 2:]])


def stranger(chance, own, *others):
    """What stands in the place of such a file and is none: a file of another kind, a mixture of both, or the beginning of one."""
    first, rest = own.split(b"\n", 1)
    other = chance.choice(others)
    other_first, other_rest = other.split(b"\n", 1)
    return chance.choice([
        other, other, first + b"\n" + other_rest, other_first + b"\n" + rest, own[:chance.randrange(len(first) + 10)], first + b'\nL "g"\nZ\n',
        first + b'\nL "g"\n\n', sealed([first, chance.choice(ODD_LOG_LINES)]), sealed([first, b'L "g"']), b"null\n", b"{}\n", b"\n", b'{"id":"g","events":[]}'])


def odd_file(chance, whole, size, damages, *others):
    """The file with something odd in its lines or at its end, or what is none, beside files of other kinds."""
    kind = chance.randrange(10)
    if kind < 6:
        return with_odd_lines(chance, whole, size, damages)
    if kind == 6:
        return damaged(chance, whole)
    return with_odd_end(chance, whole) if kind < 9 or not others else stranger(chance, whole, *others)
