"""Files of lines that end with the digest of the lines before: replica, inventory and sketch files."""
import hashlib

from tests.reference.events import Fault, is_name
from tests.reference.json_text import NotJson, NotWhole, quoted, read_canonical


class Lines:
    """What stands between the log line and the digest line, as far as it was read."""

    def left(self, line):
        """What is wrong with the line before, now that this one is seen, or None."""
        return None

    def is_last(self, line):
        """Whether the line is the digest line, right or wrong."""
        return line.startswith(b"Z")

    def take(self, line):
        """Takes the line; where it is none, the fault is its first cause."""
        raise NotImplementedError


def log_of(line):
    """The log that the second line names."""
    try:
        log = read_canonical(line[2:].decode()) if line.startswith(b"L ") else None
    except (NotJson, NotWhole, UnicodeDecodeError):
        log = None
    if not is_name(log):
        raise Fault("log line")
    return log


def digest_line(data):
    return b"Z " + hashlib.sha256(data).hexdigest().encode()


def taken(lines, number, line):
    """Takes a line from the third on; False where it is the digest line, which is not judged here."""
    cause = lines.left(line)
    if cause:
        raise Fault("line %d: %s" % (number - 1, cause))
    if lines.is_last(line):
        return False
    try:
        lines.take(line)
    except Fault as fault:
        raise Fault("line %d: %s" % (number, fault.said))
    return True


def read_sealed(data, kinds):
    """The log of a file, and its lines as the kind of lines takes them that its first line names."""
    log, lines, start = None, None, 0
    for number, line in enumerate(data.split(b"\n")[:-1], 1):
        if number == 1:
            if line not in kinds:
                raise Fault("version")
            lines = kinds[line]()
        elif number == 2:
            log = log_of(line)
        elif not taken(lines, number, line):
            if line != digest_line(data[:start]):
                raise Fault("digest")
            if start + len(line) + 1 < len(data):
                raise Fault("trailing bytes")
            return log, lines
        start += len(line) + 1
    raise Fault("truncated")


def sealed(lines):
    """The lines with the digest line that they ask for, whatever they are."""
    text = b"".join(line + b"\n" for line in lines)
    return text + digest_line(text) + b"\n"


def head(first_line, log):
    """The two lines that stand before all others."""
    return [first_line, b"L " + quoted(log).encode()]
