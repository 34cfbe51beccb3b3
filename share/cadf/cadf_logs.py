"""What the tools read of the texts that cadf writes: atoms, a value after another, and the instants of events."""
import codecs
import datetime
import functools
import json
import re

PIECE = 1 << 20
UNREADABLE = (ValueError, IndexError, RecursionError)  # made once: a tuple that is made while memory is out can make CPython loop
YEARS, DAYS = 400, 146097  # after so many years, of so many days, the calendar begins anew
TIME = re.compile(r"(\d{4})-(\d\d)-(\d\d)(?:[T ]([01]\d|2[0-3]):([0-5]\d)(?::([0-5]\d)(?:\.(\d{1,9}))?)?(Z|[+-](?:0\d|1[0-3]):[0-5]\d|[+-]14:00)?)?", re.ASCII)


# ---- Instants

def instant(text):
    """Nanoseconds since the day before the year 1 of a time as cadf spells it, or as a person types it; None if it is none."""
    found = TIME.fullmatch(text)
    if not found:
        return None
    year, month, day, hour, minute, second, fraction, zone = found.groups("0")
    days = days_before(year, month, day)
    if days is None:
        return None
    minutes = days * 1440 + int(hour) * 60 + int(minute)
    if zone not in ("0", "Z"):
        minutes -= int(zone[0] + "1") * (int(zone[1:3]) * 60 + int(zone[4:]))
    return (minutes * 60 + int(second)) * 10 ** 9 + int(fraction.ljust(9, "0"))


@functools.lru_cache(1024)  # most events of a log are of few days
def days_before(year, month, day):
    """The days from the day before the year 1 to a date of such digits; None if it is none of the calendar."""
    try:
        return datetime.date(int(year) or YEARS, int(month), int(day)).toordinal() - (0 if int(year) else DAYS)
    except ValueError:
        return None


def utc(nanoseconds):
    """Spells an instant in UTC."""
    seconds, fraction = divmod(nanoseconds, 10 ** 9)
    day, second = divmod(seconds, 86400)
    years = 0 if day > 0 else YEARS  # datetime has no year 0
    date = datetime.date.fromordinal(day + years * DAYS // YEARS)
    spelled = "%04d-%02d-%02dT%02d:%02d:%02d" % (date.year - years, date.month, date.day, second // 3600, second // 60 % 60, second % 60)
    return spelled + (".%09d" % fraction).rstrip("0").rstrip(".") + "Z"


class Range:
    """The events that the page is about: from an instant until before another, each of them None where there is none."""

    def __init__(self, first, until):
        self.first, self.until = first, until
        self.is_all = first is None and until is None

    def has(self, event):
        return self.is_all or self.has_time(event["eventTime"])

    def has_time(self, text):
        if self.is_all:
            return True
        at = instant(text)
        return (self.first is None or at >= self.first) and (self.until is None or at < self.until)

    def words(self):
        """Says the range for the page's head; nothing if it is all of the log."""
        limits = " ".join("%s %s" % (word, utc(at)) for word, at in (("from", self.first), ("until before", self.until)) if at is not None)
        return limits and "Only the events %s, and the conflicts that have a value then." % limits


# ---- Reading a replica file

def atoms(lines, is_whole=None):
    """Yields the atoms of a replica file of format 2 in their order, as tuples of texts. ValueError: it has no last line.

    Of keys that aren't whole, by a letter and a name, what hangs on values is left out.
    """
    atom, line, is_short = [], b"", False
    for line in lines:
        if line.startswith(b"["):
            if is_short and line[:3] not in VALUES:
                continue
            depth, mark, text = PLAIN.raw_decode(line.decode())[0]
            atom[depth - 1:] = [text]
            if is_whole and depth == 2:
                is_short = not is_whole(*atom)
            if mark == 1:
                yield tuple(atom)
    if not line.startswith(b"Z "):
        raise ValueError


# ---- Reading a canonical text value by value

PLAIN = json.JSONDecoder()
VALUES = b"[1,", b"[2,", b"[3,"  # as lines begin of letters, keys and values


class Text:
    """The canonical text of an object, read in pieces: a wide character makes one piece large, and not all of them."""

    def __init__(self, file):
        self.file, self.decode = file, codecs.getincrementaldecoder("utf-8")().decode
        self.text, self.at, self.is_all = "", 0, False

    def more(self):
        """Reads on, at least as much as is kept, so that a long value is seldom begun again."""
        kept = self.text[self.at:]
        data = self.file.read(max(PIECE, len(kept)))
        self.text, self.at, self.is_all = kept + self.decode(data), 0, not data

    def mark(self):
        """Looks at the next character."""
        if self.at == len(self.text):
            self.more()
        return self.text[self.at]

    def take_mark(self):
        mark = self.mark()
        self.at += 1
        return mark

    def value(self, decoder):
        """Decodes the next value. Returns it with the place of its end, to which `take` goes on."""
        while True:
            try:
                value, end = decoder.raw_decode(self.text, self.at)
                if end < len(self.text) or self.is_all:
                    return value, end
            except ValueError:
                if self.is_all:
                    raise
            self.more()

    def take(self, decoder=PLAIN):
        """Takes the next value. Returns it with its text."""
        value, end = self.value(decoder)
        text, self.at = self.text[self.at:end], end
        return value, text

    def names(self):
        """Yields the names of the object's members. Each value has to be taken before the next name."""
        while self.take_mark() != "}":
            name, _ = self.take()
            self.take_mark()
            yield name

    def items(self):
        """Comes before each item of a list, which has to be taken then."""
        self.take_mark()
        if self.mark() == "]":
            self.at += 1
            return
        yield
        while self.take_mark() == ",":
            yield
