"""Times: which texts are one, their instant and their canonical spelling."""
import datetime
import re

WRITTEN = re.compile(
    r"([0-9]{4})-([0-9]{2})-([0-9]{2})T([0-9]{2}):([0-9]{2}):([0-9]{2})(?:\.([0-9]{1,9}))?"
    r"(?:Z|([+-])([0-9]{2}):?([0-9]{2}))")
LONGEST_OFFSET = 14 * 60
EPOCH = datetime.date(1970, 1, 1).toordinal()


class Time:
    """A time's instant, in nanoseconds since 1970 began at the offset zero, and its canonical spelling."""

    def __init__(self, instant, spelling):
        self.instant, self.spelling = instant, spelling


def time_of(value):
    """The time that a value of JSON is, or None."""
    found = WRITTEN.fullmatch(value) if isinstance(value, str) else None
    if not found:
        return None
    year, month, day, hour, minute, second = (int(found.group(place)) for place in range(1, 7))
    fraction, sign, hours, minutes = found.group(7) or "", found.group(8), found.group(9) or 0, found.group(10) or 0
    if not 1 <= year <= 9998 or hour > 23 or minute > 59 or second > 59:
        return None
    try:
        days = datetime.date(year, month, day).toordinal() - EPOCH
    except ValueError:
        return None
    size = int(hours) * 60 + int(minutes)
    if int(minutes) > 59 or size > LONGEST_OFFSET:
        return None
    local = ((days * 24 + hour) * 60 + minute) * 60 + second
    offset = -size if sign == "-" else size
    instant = (local - offset * 60) * 10 ** 9 + int(fraction.ljust(9, "0"))
    return Time(instant, value[:19] + spelled_rest(fraction, offset))


def spelled_rest(fraction, offset):
    fraction = fraction.rstrip("0")
    zone = "Z" if offset == 0 else "%s%02d:%02d" % ("+" if offset > 0 else "-", *divmod(abs(offset), 60))
    return ("." + fraction if fraction else "") + zone
