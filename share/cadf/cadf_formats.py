"""The forms in which events and counts of them are written: lines of JSON, of CSV, or of a table for a person.

Each has the line before all, that of an event or of one of so many bodies that contradict, and those of counts.
"""
import csv
import io
import json

from cadf_question import ROLES, canonical, party
from cadf_toolkit import printable, say

COLUMNS = ("time", "id", "type", "action", "outcome", *ROLES, *(role + "Name" for role in ROLES), "contradicted")
WIDTHS = (25, 14, 16, 16, 16, 0)
FORMULA = ("=", "+", "-", "@", "\t", "\r")  # with which a field begins that a spreadsheet runs
SAID = "fields that a spreadsheet would run: %d; each has a ' before it"


def names_of(event):
    """The names of what has the roles of an event, or empty texts."""
    parties = (event.get(role) for role in ROLES)
    names = [found.get("name") if isinstance(found, dict) else "" for found in parties]
    return [name if isinstance(name, str) else "" for name in names]


class Lines:
    """Lines of JSON."""

    def head(self):
        return b""

    def event(self, line, bodies):
        return b'{"contradicted":%d,"event":%s}\n' % (bodies, line) if bodies else line + b"\n"

    def counts(self, by, rows):
        for value, count, bodies in rows:
            yield canonical({by: value, "count": count, **({"contradicted": bodies} if bodies else {})}).encode() + b"\n"

    def end(self):
        """Says what there is to say of all."""


class Table(Lines):
    """A table, whose columns are as wide as most of what stands in them."""

    def spelled(self, fields, widths=WIDTHS):
        return (" ".join(printable(field).ljust(width) for field, width in zip(fields, widths)).rstrip() + "\n").encode()

    def head(self):
        return self.spelled(["TIME", "OUTCOME", "ACTION", "INITIATOR", "TARGET", "ID"])

    def event(self, line, bodies):
        found = json.loads(line)
        names = [name or party(found, role)[0] for role, name in zip(ROLES[:2], names_of(found))]
        note = "  (one of %d bodies that contradict)" % bodies if bodies else ""
        return self.spelled([found["eventTime"], found["outcome"], found["action"], *names, found["id"] + note])

    def counts(self, by, rows):
        for value, count, bodies in rows:
            yield self.spelled(["%9d" % count, value, "  (and %d bodies that contradict)" % bodies if bodies else ""], (0, 0, 0))


class Csv(Lines):
    """Lines of CSV. A field that a spreadsheet would run has a `'` before it, which is told at the end."""

    def __init__(self):
        self.told = 0

    def spelled(self, fields):
        texts = list(map(str, fields))
        self.told += sum(text.startswith(FORMULA) for text in texts)
        found = io.StringIO()
        csv.writer(found, lineterminator="\n").writerow(["'" * text.startswith(FORMULA) + text for text in texts])
        return found.getvalue().encode()

    def head(self):
        return self.spelled(COLUMNS)

    def event(self, line, bodies):
        found = json.loads(line)
        own = [found[name] for name in ("eventTime", "id", "eventType", "action", "outcome")]
        return self.spelled([*own, *(party(found, role)[0] for role in ROLES), *names_of(found), bodies or ""])

    def counts(self, by, rows):
        yield self.spelled([by, "count", "contradicted"])
        yield from (self.spelled([value, count, bodies or ""]) for value, count, bodies in rows)

    def end(self):
        if self.told:
            say(SAID % self.told)


FORMATS = {"jsonl": Lines, "csv": Csv, "table": Table}
