"""The form in which events are written as tables of an SQLite file: those of the log, bodies that contradict, and the steps of their chains.

The file is another one than that of an index: it is for whoever asks in SQL, and nothing of ours reads it.
"""
import contextlib
import json
import os
import sqlite3

from cadf_formats import Lines, names_of
from cadf_index_file import uri_of
from cadf_logs import instant
from cadf_question import ROLES, party
from cadf_times import EPOCH, SECOND
from cadf_toolkit import REFUSED, Fault, name_shown, new_file, opened_file, sync

APPLICATION = int.from_bytes(b"cadf", "big")
HEADER, AT = b"SQLite format 3\0", 68  # of a file of SQLite, and where it has its application's number
OTHER = "it is there, and no file of `--format sqlite`: it is left as it is; name another one"
TABLES = ("events", "contradicted")
COLUMNS = ("number INTEGER PRIMARY KEY", "id TEXT NOT NULL", "time TEXT NOT NULL", "seconds INTEGER NOT NULL", "type TEXT NOT NULL", "action TEXT NOT NULL",
           "outcome TEXT NOT NULL", *("%s TEXT" % role for role in ROLES), *("%s_name TEXT" % role for role in ROLES), "bodies INTEGER NOT NULL", "event TEXT NOT NULL")
SCHEMA = [*("CREATE TABLE %s (%s)" % (table, ", ".join(COLUMNS)) for table in TABLES),
          "CREATE TABLE chains (event INTEGER NOT NULL, chain INTEGER NOT NULL, step INTEGER NOT NULL, role TEXT, reporter TEXT, reporter_name TEXT, time TEXT)"]
INDEXES = [*("CREATE INDEX %s_by_%s ON %s (%s, seconds)" % (table, column, table, column) for table in TABLES
             for column in ("id", "action", "outcome", *ROLES, *(role + "_name" for role in ROLES))),
           *("CREATE INDEX %s_by_time ON %s (seconds)" % (table, table) for table in TABLES),
           "CREATE INDEX chains_by_event ON chains (event)", "CREATE INDEX chains_by_reporter ON chains (reporter)"]
ROW = ", ".join("?" * len(COLUMNS))


def check_place(path):
    """Raises that what is there can't be replaced."""
    try:
        with opened_file(path, os.O_NOFOLLOW) as file:
            first = file.read(AT + 4)
    except FileNotFoundError:
        return
    except OSError:
        first = b""
    if first[:len(HEADER)] != HEADER or int.from_bytes(first[AT:], "big") != APPLICATION:
        raise Fault("%s: %s" % (name_shown(path), OTHER), REFUSED)


@contextlib.contextmanager
def database(path):
    """A form whose file is new, and gets this path at the end, unless the call ends before."""
    check_place(path)
    new = path + ".new"
    try:
        with new_file(new, []), contextlib.closing(sqlite3.connect(uri_of(new, "rw"), uri=True, isolation_level=None)) as connection:
            for each in ("PRAGMA journal_mode = off", "PRAGMA synchronous = off", "PRAGMA application_id = %d" % APPLICATION, "BEGIN", *SCHEMA):
                connection.execute(each)
            yield Database(connection)
            for each in (*INDEXES, "COMMIT"):
                connection.execute(each)
            connection.close()
            sync(new)
            check_place(path)
            os.rename(new, path)
            sync(os.path.dirname(path) or ".")
    except sqlite3.Error as fault:
        raise Fault("%s: %s" % (name_shown(path), fault)) from None


class Database(Lines):
    """Rows of tables. No line is written."""

    def __init__(self, connection):
        self.connection, self.count = connection, 0

    def event(self, line, bodies):
        event, self.count = json.loads(line), self.count + 1
        own = [event[name] for name in ("eventTime", "eventType", "action", "outcome")]
        self.connection.execute("INSERT INTO %s VALUES (%s)" % (TABLES[bool(bodies)], ROW), (
            self.count, event["id"], own[0], (instant(own[0]) - EPOCH) // SECOND, *own[1:],
            *(next(iter(party(event, role)), None) for role in ROLES), *(name or None for name in names_of(event)), bodies or 1, line.decode()))
        chains = event.get("reporterchains") or [event.get("reporterchain") or []]  # all of them, or the only one
        self.connection.executemany("INSERT INTO chains VALUES (?, ?, ?, ?, ?, ?, ?)", (
            (self.count, chain, place, step.get("role"), *reporter(step), step.get("reporterTime"))
            for chain, steps in enumerate(chains, 1) for place, step in enumerate(steps, 1)))
        return b""


def reporter(step):
    """The identifier and the name of a step's reporter, or None."""
    name = step["reporter"].get("name") if isinstance(step.get("reporter"), dict) else None
    return next(iter(party(step, "reporter")), None), name if isinstance(name, str) else None
