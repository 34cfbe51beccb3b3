"""The index beside the windows of a site that is a folder: which keys of which windows may answer a question, and what else is kept.

It is an SQLite file that is made of the windows alone, so it may be removed at any time, and a call without it gives the same answer.
Of each body of an event it has a row: the window, 16 bytes of the digest of its key, its instant, and what a pattern may match of
it, by numbers of texts, which each column has of its own. No instant and the number 0 stand for what isn't known: such a row may
answer any question. So who looks in the files for what the index names lacks nothing, and what is shown is what the files have.

cadf_index_file has where it is, and whether it is trusted.
"""
import collections
import contextlib
import functools
import gc
import hashlib
import itertools
import json
import operator
import os
import sqlite3
import time
from json.encoder import encode_basestring
from typing import NamedTuple

from cadf_children import usable
from cadf_keys import KEY, contents, keys_in, spelled
from cadf_logs import UNREADABLE, instant, utc
from cadf_question import LENGTHS, traits
from cadf_site import CHANGED, DAMAGED, SHARED, TRIES, made_or_left_out, opened_parts
from cadf_times import SECOND
from cadf_toolkit import REFUSED, Fault, Progress

APPLICATION, VERSION = int.from_bytes(b"CADF", "big"), 2
COLUMNS = ("initiator", "target", "others")  # of bodies, with numbers of texts
IS_KNOWN = "(second IS NOT NULL AND initiator AND target AND others)"  # all of a body
SCHEMA = [
    "CREATE TABLE windows (id INTEGER PRIMARY KEY, name TEXT NOT NULL UNIQUE, files BLOB NOT NULL, bytes INTEGER NOT NULL)",
    *("CREATE TABLE %s_texts (id INTEGER PRIMARY KEY, hash INTEGER NOT NULL, text TEXT NOT NULL)" % column for column in COLUMNS),
    *("CREATE INDEX %s_texts_by_hash ON %s_texts (hash)" % (column, column) for column in COLUMNS),
    "CREATE TABLE several (key BLOB PRIMARY KEY) WITHOUT ROWID",
    "CREATE TABLE bodies (window INTEGER NOT NULL, key BLOB NOT NULL, second INTEGER, nanosecond INTEGER NOT NULL,"
    " initiator INTEGER NOT NULL, target INTEGER NOT NULL, others INTEGER NOT NULL)",
    "CREATE INDEX bodies_by_window ON bodies (window)",
    "CREATE INDEX bodies_by_key ON bodies (key, window)",
    "CREATE INDEX bodies_unknown ON bodies (window) WHERE NOT " + IS_KNOWN,
    *("CREATE INDEX bodies_by_%s ON bodies (%s, window)" % (column, column) for column in COLUMNS),
    "CREATE TABLE places (key BLOB NOT NULL, window INTEGER NOT NULL, digest TEXT NOT NULL, begin INTEGER NOT NULL, length INTEGER NOT NULL,"
    " hash BLOB NOT NULL, PRIMARY KEY (key, window, digest)) WITHOUT ROWID",
    "CREATE INDEX places_by_window ON places (window)",
    "CREATE TABLE kept (kind TEXT NOT NULL, files BLOB NOT NULL, value TEXT NOT NULL, bytes INTEGER NOT NULL, read INTEGER NOT NULL,"
    " PRIMARY KEY (kind, files)) WITHOUT ROWID"]
PRAGMAS = ("trusted_schema = off", "secure_delete = on", "temp_store = memory", "cell_size_check = on", "cache_size = -14336")
# The rows of keys with several bodies in the windows that are asked for, by these.
OF_SEVERAL = ("(SELECT bodies.* FROM asked_windows CROSS JOIN places ON places.window = asked_windows.id"
              " CROSS JOIN bodies ON bodies.key = places.key AND bodies.window = places.window GROUP BY bodies.rowid)")
KEY_BYTES, LONGEST_TEXT, LARGEST_BODY = 16, 2 ** 12, 2 ** 24
ROWS_AT_ONCE, TEXTS_AT_ONCE, PATTERNS_AT_ONCE = 2 ** 14, 500, 64
MOST_NUMBERS = 2 ** 63  # of texts, as SQLite has them
REFUSED_SIGNATURES = "refused signatures"  # the kind of what is kept that belongs to no files
SELDOM = 10 ** 5  # objects that are made between two looks for cycles
DECODE = json.JSONDecoder().raw_decode  # made once: that takes as long as a use
MALFORMED = (*UNREADABLE, AttributeError, KeyError, TypeError)


class Untrusted(Exception):
    """Why an index isn't used; no words if another one is, as a matter of course."""


def key_of(identifier):
    """What stands for a key of an event, by its JSON text in bytes."""
    return hashlib.sha256(b'["E",%s]' % identifier).digest()[:KEY_BYTES]


def files_of(digests):
    """What stands for the files of a window."""
    return hashlib.sha256(" ".join(sorted(digests)).encode()).digest()


# ---- What a window has

class Window(NamedTuple):
    """What was read of a window: the digests of its files, their bytes, the texts of each column with their hashes, rows of bodies with numbers of these, and by key where its lines are.

    Numbers count the texts of a column from 1 on.
    """
    digests: list
    size: int
    texts: list
    rows: list
    places: dict


def located(files):
    """Yields the keys in open files, by digest, each as JSON text, with its lines, and where these are: the file, from which byte on, how many, and what stands for them."""
    for digest, each in files.items():
        data = contents(digest, each)
        begin = data.find(KEY) + 1
        for key, lines in keys_in(data):
            yield key, lines, (digest, begin, len(lines), hash_of(lines))
            begin += len(lines)


def hash_of(lines):
    return hashlib.blake2b(lines, digest_size=KEY_BYTES).digest()


def hash_of_text(text):
    return int.from_bytes(hashlib.sha256(text.encode()).digest()[:8], "big", signed=True)


def lines_at(each, places):
    """Yields the lines of keys at places in an open file, which have to be those that were read there before."""
    with each.judged():
        for begin, length, found in places:
            lines = os.pread(each.file.fileno(), length, begin)
            if hash_of(lines) != found:
                raise Fault("%s: %s" % (each.name, DAMAGED), REFUSED)
            yield lines


def size_of(files):
    """The bytes of open files, by digest."""
    return sum(os.fstat(each.file.fileno()).st_size for each in files.values())


def are_as_read(files, size):
    """Whether open files, by digest, are as they were when they were read and had so many bytes, by their sizes and last lines."""
    return size_of(files) == size and all(each.last_digest() == digest for digest, each in files.items())


def check_read(files, size):
    """Raises what is damaged of open files, by digest, unless they are as they were when they were read and had so many bytes."""
    for item in () if are_as_read(files, size) else files.items():
        contents(*item)


@contextlib.contextmanager
def opened_window(folder, part):
    """The files of a window as inputs, by digest. Raises why it is left out, if it is."""
    with opened_parts(folder, [part]) as (_, inputs):
        folder.check(part)
        yield {digest: each for (_, digest), each in inputs.items()}


def read_window(folder, part):
    """Reads a window."""
    texts, rows, places, bodies = [Texts(party_spelled), Texts(party_spelled), Texts(others_spelled)], [], {}, {}
    with opened_window(folder, part) as files:
        digests, size = list(files), size_of(files)
        for key, lines, place in located(files):
            places.setdefault(key, []).append(place)
            add_bodies(lines, bodies.setdefault(key, {}))
    stands = {key: key_of(key) for key in places}
    for key, own in bodies.items():
        rows += [(stands[key], *row_of(body, steps, texts)) for body, steps in (own or {b"": ()}).items()]
    return Window(digests, size, [each.texts for each in texts], rows, {stands[key]: own for key, own in places.items()})


def places_in(folder, part, files, keys):
    """Where the lines of keys are in a window, by key, if it has these files."""
    found = {}
    with folder.leaving_out(part), opened_window(folder, part) as opened:
        for key, _, place in located(opened) if files_of(opened) == files else ():
            if key_of(key) in keys:
                found.setdefault(key_of(key), []).append(place)
    return found


def add_bodies(lines, own):
    """Adds the bodies in the lines of a key, as lines, each with the lines of its steps."""
    steps, is_chain = set(), False
    for line in lines.split(b"\n"):
        depth = line[:3]
        if depth == b"[3,":
            steps, is_chain = own.setdefault(line, set()), False
        elif depth == b"[4,":
            is_chain = line == b'[4,0,"C"]'
        elif is_chain and line:
            steps.add(line)


def value_in(line):
    """The value whose canonical text a node's line has."""
    if b"\\\\" in line:
        text = DECODE(line.decode())[0][2]
    else:  # which takes half of the time
        text = line[line.index(b'"') + 1:line.rindex(b'"')].replace(b'\\"', b'"').decode()
    return DECODE(text)[0]


class Texts(dict):
    """The numbers of texts from 1 on, by what they spell, as tuples. Many events have the same."""

    def __init__(self, spell):
        super().__init__()
        self.spell, self.texts = spell, []

    def __missing__(self, found):
        text = self.spell(found)
        self.texts.append((hash_of_text(text), text))
        self[found] = len(self.texts)
        return len(self.texts)


def party_spelled(found):
    """Spells texts as a list of JSON."""
    return "[%s]" % ",".join(map(encode_basestring, found))


def others_spelled(found):
    """Spells kinds with their texts as an object of JSON."""
    return "{%s}" % ",".join('"%s":%s' % (kind, party_spelled(own)) for kind, own in found)


def row_of(body, steps, texts):
    """The second, nanosecond and numbers of texts of a body that can be read; None and no texts of any other."""
    try:
        if len(body) + sum(map(len, steps)) <= LARGEST_BODY:
            event = value_in(body)
            found = traits(event, map(value_in, steps))
            initiators, targets, others = texts
            initiator, target = initiators[tuple(found.pop("initiator"))], targets[tuple(found.pop("target"))]
            return (*divmod(instant(event["eventTime"]), SECOND), initiator, target, others[tuple(zip(found, map(tuple, found.values())))])
    except MALFORMED:
        pass
    return None, 0, 0, 0, 0


# ---- The index

@contextlib.contextmanager
def seldom_collected():
    """A context in which Python, and what it forks, seldom looks for cycles: rows are none, and to look for them takes a twentieth of the time."""
    before = gc.get_threshold()
    gc.set_threshold(SELDOM)
    try:
        yield
    finally:
        gc.set_threshold(*before)


def counted(by):
    """What rows have in SQL that are counted so."""
    return by if by in COLUMNS else "second / %d" % LENGTHS[by] if by in LENGTHS else "others"


class EventIndex:
    """An index that is open. What isn't as it has to be raises a fault of SQLite's, Untrusted, or one of MALFORMED."""

    def __init__(self, connection):
        self.connection, self.run = connection, connection.execute
        for each in PRAGMAS:
            self.run("PRAGMA " + each)
        if not self.schema():
            with self.changing():
                if not self.schema():  # no other call has made it meanwhile
                    for each in (*SCHEMA, "PRAGMA application_id = %d" % APPLICATION, "PRAGMA user_version = %d" % VERSION):
                        self.run(each)
        numbers = [self.run("PRAGMA " + each).fetchone()[0] for each in ("application_id", "user_version")]
        if self.schema() != sorted(SCHEMA) or numbers != [APPLICATION, VERSION]:
            raise Untrusted("it is no index of this version")

    def schema(self):
        return sorted(str(each) for each, in self.run("SELECT sql FROM sqlite_master WHERE sql IS NOT NULL"))

    @contextlib.contextmanager
    def changing(self, begin="BEGIN IMMEDIATE"):
        """A change, of which all is kept or nothing; or what is read at one moment."""
        self.run(begin)
        try:
            yield
            self.run("COMMIT")
        except BaseException:
            with contextlib.suppress(sqlite3.Error):
                self.run("ROLLBACK")
            raise

    # What it is made of

    @contextlib.contextmanager
    def renewed(self, folder):
        """Has it be the index of the folder's `site` as it is now, of which it yields what that says. All in the context is read at one moment."""
        with Progress("the index") as progress:
            for _ in range(TRIES):
                site = folder.site()
                wanted = {part: files_of(files) for part, files in site.parts().items() if part != SHARED}
                with self.changing("BEGIN"):
                    kept = dict(self.run("SELECT name, files FROM windows"))
                    stale = [part for part in sorted({*wanted, *kept}) if wanted.get(part) != kept.get(part)]
                    if not stale:
                        yield site
                        return
                self.put_all(folder, stale, progress)
        raise Untrusted(CHANGED % folder.shown())

    def put_all(self, folder, stale, progress):
        """Puts what these windows have now in the place of what it has of them, some at a time."""
        with seldom_collected(), contextlib.closing(made_or_left_out([folder], stale, functools.partial(read_window, folder), usable())) as windows:
            batch = {}
            for count, (part, each) in enumerate(windows, 1):
                progress.count(len(stale) - count, "windows to read")
                batch[part] = each
                if count == len(stale) or sum(len(own.rows) for own in batch.values() if own) >= ROWS_AT_ONCE:
                    with self.changing():
                        self.put_some(folder, batch)
                    batch = {}

    def put_some(self, folder, batch):
        """Puts the windows of a batch, by their names, of which None is left out."""
        self.run("CREATE TEMP TABLE touched (key BLOB PRIMARY KEY) WITHOUT ROWID")
        for column in COLUMNS:
            self.run("CREATE TEMP TABLE freed_%s (id INTEGER PRIMARY KEY)" % column)
        self.remove(batch)
        self.put({part: each for part, each in batch.items() if each and each.digests})
        self.run("DELETE FROM several WHERE key IN touched")
        self.run("INSERT INTO several SELECT key FROM bodies WHERE key IN touched GROUP BY key HAVING count(*) > 1")
        self.put_places(folder, batch)
        for name in ("touched", "gone"):
            self.run("DROP TABLE temp." + name)
        for column in COLUMNS:
            self.run("DELETE FROM {0}_texts WHERE id IN freed_{0} AND NOT EXISTS (SELECT 1 FROM bodies WHERE {0} = {0}_texts.id)".format(column))
            self.run("DROP TABLE temp.freed_%s" % column)

    def remove(self, parts):
        """Removes the rows of windows. Only keys with several bodies may have fewer then; other rows change nothing of other windows."""
        self.run("CREATE TEMP TABLE gone (id INTEGER PRIMARY KEY)")
        self.connection.executemany("INSERT INTO gone SELECT id FROM windows WHERE name = ?", ((part,) for part in parts))
        self.run("INSERT OR IGNORE INTO touched SELECT key FROM bodies WHERE window IN gone AND key IN several")
        for column in COLUMNS:
            self.run("INSERT OR IGNORE INTO freed_{0} SELECT DISTINCT {0} FROM bodies WHERE window IN gone".format(column))
        self.run("DELETE FROM places WHERE window IN gone")
        self.run("DELETE FROM bodies WHERE window IN gone")
        self.run("DELETE FROM windows WHERE id IN gone")

    def put(self, batch):
        """Puts the rows of windows, by the names of these, in the order of the trees that they come to, in which others are far apart."""
        numbers = [self.numbers_of(column, {each for own in batch.values() for each in own.texts[place]}) for place, column in enumerate(COLUMNS)]
        rows = []
        for part, each in batch.items():
            window = self.run("INSERT INTO windows (name, files, bytes) VALUES (?, ?, ?)", (part, files_of(each.digests), each.size)).lastrowid
            initiators, targets, others = ([0, *map(found.get, texts)] for found, texts in zip(numbers, each.texts))
            rows += [(window, key, second, nanosecond, initiators[initiator], targets[target], others[other])
                     for key, second, nanosecond, initiator, target, other in each.rows]
        rows.sort(key=operator.itemgetter(1))
        twice = (row[1:2] for row, after in zip(rows, itertools.islice(rows, 1, None)) if row[1] == after[1])
        self.connection.executemany("INSERT OR IGNORE INTO touched VALUES (?)", twice)
        self.connection.executemany("INSERT OR IGNORE INTO touched SELECT key FROM bodies WHERE key = ?", (row[1:2] for row in rows))
        self.connection.executemany("INSERT INTO bodies VALUES (?, ?, ?, ?, ?, ?, ?)", rows)

    def numbers_of(self, column, texts):
        """The numbers of texts of a column with their hashes, which they may get now; 0 of one that isn't kept."""
        found, wanted = {}, sorted(words for words in texts if len(words[1]) <= LONGEST_TEXT)
        for begin in range(0, len(wanted), TEXTS_AT_ONCE):
            hashes = [own for own, _ in wanted[begin:begin + TEXTS_AT_ONCE]]
            rows = self.run("SELECT hash, text, id FROM %s_texts WHERE hash IN (%s)" % (column, ", ".join("?" * len(hashes))), hashes)
            found.update((tuple(words), number) for *words, number in rows)
        new = [words for words in wanted if words not in found]
        first = (self.run("SELECT max(id) FROM %s_texts" % column).fetchone()[0] or 0) + 1
        if first + len(new) > MOST_NUMBERS:
            raise Untrusted("it has no numbers left")
        found.update((words, first + place) for place, words in enumerate(new))
        self.connection.executemany("INSERT INTO %s_texts (id, hash, text) VALUES (?, ?, ?)" % column, ((found[words], *words) for words in new))
        return {words: found.get(words, 0) for words in texts}

    def put_places(self, folder, batch):
        """Puts where the lines of touched keys are that have several bodies now. Of windows that aren't in the batch these are looked for."""
        self.run("DELETE FROM places WHERE key IN (SELECT key FROM touched EXCEPT SELECT key FROM several)")
        lacking = collections.defaultdict(set)
        for key, *window in self.run("SELECT key, id, name, files FROM bodies JOIN windows ON windows.id = window WHERE key IN touched AND key IN several"
                                     " AND NOT EXISTS (SELECT 1 FROM places WHERE places.key = bodies.key AND places.window = bodies.window)"):
            lacking[tuple(window)].add(key)
        for (number, part, files), keys in lacking.items():
            places = batch[part].places if part in batch else places_in(folder, part, files, keys)
            self.connection.executemany("INSERT INTO places VALUES (?, ?, ?, ?, ?, ?)", (
                (key, number, *place) for key in keys for place in places.get(key, ())))

    # Whether it has what the windows have

    def has_read(self, part, each):
        """Whether it has of a window what was read of it, if it has it of the same files."""
        found = self.run("SELECT id, files, bytes FROM windows WHERE name = ?", (part,)).fetchone()
        if found is None or found[1] != files_of(each.digests):
            return True
        texts = [[None, *(text if len(text) <= LONGEST_TEXT else None for _, text in own)] for own in each.texts]
        rows = self.run("SELECT key, second, nanosecond, %s FROM bodies %s WHERE window = ?" % (
            ", ".join("%s_texts.text" % column for column in COLUMNS),
            " ".join("LEFT JOIN {0}_texts ON {0}_texts.id = bodies.{0}".format(column) for column in COLUMNS)), found[:1])
        own = "(SELECT key FROM bodies WHERE window = ?)"
        counted = self.run("SELECT key FROM bodies WHERE key IN %s GROUP BY key HAVING count(*) > 1" % own, found[:1]).fetchall()
        several = self.run("SELECT key FROM several WHERE key IN %s" % own, found[:1]).fetchall()
        places = self.run("SELECT key, digest, begin, length, hash FROM places WHERE window = ?", found[:1]).fetchall()
        return (found[2] == each.size and set(counted) == set(several)
                and collections.Counter(rows) == collections.Counter((*row[:3], *(own[number] for own, number in zip(texts, row[3:]))) for row in each.rows)
                and set(places) == {(key, *place) for key, in counted for place in each.places[key]})

    # What it says of a question

    def ask(self, question):
        """Prepares what is asked. The identifiers of a question are left to who reads the files, unless all are whole."""
        self.where, self.words = ["1"], []
        self.run("CREATE TEMP TABLE asked_windows (id INTEGER PRIMARY KEY)")
        self.run("INSERT INTO asked_windows SELECT id FROM windows WHERE name BETWEEN substr(?, 1, length(name)) AND substr(?, 1, length(name))",
                 ("" if question.limits.first is None else utc(question.limits.first), "~" if question.limits.until is None else utc(question.limits.until - 1)))
        for column in COLUMNS:
            kind = next((kind for kind in question.patterns if (kind if kind in ("id", *COLUMNS) else "others") == column), None)
            if kind:
                self.table(column, self.texts_of(column, question, kind))
        if question.has_ids and "id" in question.patterns:
            self.table("key", (key_of(spelled(each.parts[0])) for each in question.patterns["id"]))
            self.run("DELETE FROM asked_windows WHERE id NOT IN (SELECT window FROM bodies WHERE key IN asked_key)")
        for sign, at in ((">=", question.limits.first), ("<", question.limits.until)):
            if at is not None:
                self.where.append("coalesce((second, nanosecond) %s (?, ?), 1)" % sign)
                self.words += divmod(at, SECOND)

    def table(self, column, values):
        """Has the rows be wanted whose column has one of these values."""
        self.run("CREATE TEMP TABLE asked_%s (value PRIMARY KEY) WITHOUT ROWID" % column)
        self.connection.executemany("INSERT OR IGNORE INTO asked_%s VALUES (?)" % column, ((each,) for each in values))
        self.where.append("%s IN asked_%s" % (column, column))

    def texts_of(self, column, question, kind):
        """Yields the numbers of the texts of a column that may answer, and 0. Few have to be read of those that lack what a pattern has."""
        yield 0
        least = [pattern.longest() for pattern in question.patterns[kind]]
        least = least if len(least) <= PATTERNS_AT_ONCE else [""]
        for number, text in self.run("SELECT id, text FROM %s_texts WHERE %s" % (column, " OR ".join(["instr(text, ?)"] * len(least))), least).fetchall():
            found = json.loads(text)
            found = found if column == "others" else {column: found}
            if isinstance(found, dict) and question.has_traits(found):
                yield number

    def keys(self, part):
        """The keys of a window that may answer, one after another."""
        found = self.run("SELECT DISTINCT key FROM bodies WHERE window = (SELECT id FROM windows WHERE name = ?) AND %s" % " AND ".join(self.where),
                         (part, *self.words))
        return b"".join(key for key, in found)

    def keys_of_several(self):
        """The keys with several bodies of which one may answer, by window."""
        return self.keys_by_window(OF_SEVERAL, "1")

    def keys_unknown(self):
        """The keys of bodies that may answer and of which something isn't known, by window."""
        return self.keys_by_window("bodies", "window IN asked_windows AND NOT " + IS_KNOWN)

    def keys_by_window(self, rows, test):
        found, names = collections.defaultdict(set), dict(self.run("SELECT id, name FROM windows"))
        for window, key in self.run("SELECT +window, +key FROM %s WHERE %s AND %s" % (rows, test, " AND ".join(self.where)), self.words):
            found[names[window]].add(key)
        return found

    def several(self):
        """The keys that have several bodies."""
        return {key for key, in self.run("SELECT key FROM several")}

    def windows_of_several(self):
        """The windows that keys with several bodies are in."""
        return {part for part, in self.run("SELECT DISTINCT name FROM places JOIN windows ON windows.id = window")}

    def places(self, keys=None):
        """Where the lines of keys with several bodies are, or of all such keys: by window and file their places there, by key."""
        found, look = collections.defaultdict(dict), "SELECT key, name, digest, begin, length, hash FROM places JOIN windows ON windows.id = window"
        rows = self.run(look) if keys is None else itertools.chain.from_iterable(self.run(look + " WHERE key = ?", (each,)) for each in keys)
        for key, part, digest, *place in rows:
            found[part, digest][key] = place
        return dict(found)

    def sizes(self):
        """The bytes of each window's files, by its name."""
        return dict(self.run("SELECT name, bytes FROM windows"))

    def windows_with(self, key):
        """The windows that a key is in."""
        return {part for part, in self.run("SELECT name FROM bodies JOIN windows ON windows.id = window WHERE key = ?", (key,))}

    def counts(self, by, of_bodies=False):
        """How many events answer, of those that can be counted, by an hour or a day, or by what they have for a pattern of this kind first; or how many bodies may."""
        counts, test = collections.Counter(), "window IN asked_windows AND " + ("second IS NOT NULL" if of_bodies else IS_KNOWN)
        # To take away those of several costs less than to look for each key among them, and to count here less than to have SQLite sort.
        for rows, change in (("bodies", counts.update), *(() if of_bodies else ((OF_SEVERAL, counts.subtract),))):
            change(map(operator.itemgetter(0), self.run("SELECT %s FROM %s WHERE %s AND %s" % (counted(by), rows, test, " AND ".join(self.where)), self.words)))
        return self.by_value(by, +counts)

    def counts_of_several(self, by, but):
        """How many bodies answer, of keys with several, but for some keys, by the same; and of how many keys they are."""
        counts, keys = collections.Counter(), set()
        for key, number in self.run("SELECT key, %s FROM %s WHERE %s" % (counted(by), OF_SEVERAL, " AND ".join(self.where)), self.words):
            if key not in but:
                counts[number] += 1
                keys.add(key)
        return self.by_value(by, counts), len(keys)

    def by_value(self, by, numbers):
        """Counts by numbers, as `counted` has them, by what these stand for."""
        counts = collections.Counter()
        for number, count in numbers.items():
            if by in LENGTHS:
                counts[utc(number * LENGTHS[by] * SECOND)] = count
            else:
                column = by if by in COLUMNS else "others"
                found = json.loads(self.run("SELECT text FROM %s_texts WHERE id = ?" % column, (number,)).fetchone()[0])
                counts[(found if by in COLUMNS else found[by])[0]] += count
        return counts

    # What else is kept

    def kept(self, kind):
        """What is kept of that kind, by what stands for the files that it was made of: a text, their bytes, and when they were read."""
        return {files: row for files, *row in self.run("SELECT files, value, bytes, read FROM kept WHERE kind = ?", (kind,))}

    def keep(self, kind, rows, wanted):
        """Keeps such rows, and of that kind none of files that aren't wanted."""
        with self.changing():
            self.connection.executemany("INSERT OR REPLACE INTO kept VALUES (?, ?, ?, ?, ?)", ((kind, files, *row) for files, row in rows.items()))
            self.connection.executemany("DELETE FROM kept WHERE kind = ? AND files = ?", ((kind, files) for files in self.kept(kind).keys() - wanted))

    def add(self, kind, keys, most):
        """Keeps of that kind what doesn't belong to files, by keys of 32 bytes, and of all such the latest, at most so many."""
        with self.changing():
            self.connection.executemany("INSERT OR REPLACE INTO kept VALUES (?, ?, '', 0, ?)", ((kind, each, int(time.time())) for each in keys))
            count, = self.run("SELECT count(*) FROM kept WHERE kind = ?", (kind,)).fetchone()
            if count > most:
                self.run("DELETE FROM kept WHERE kind = ? AND files IN (SELECT files FROM kept WHERE kind = ? ORDER BY read, files LIMIT ?)", (kind, kind, count - most))

    def carry_over(self, part, before, after, size):
        """Has what is kept of the files of a part be of others, of so many bytes, that have the same facts. Bodies of a window with places, which are others, stay."""
        with self.changing():
            self.run("UPDATE windows SET files = ?, bytes = ? WHERE name = ? AND files = ? AND id NOT IN (SELECT window FROM places)",
                     (after, size, part, before))
            self.run("UPDATE OR REPLACE kept SET files = ?, bytes = ? WHERE files = ?", (after, size, before))

    def forget_others(self, folder):
        """Has nothing of windows that have other files by the folder's `site`, or none, and keeps nothing of other files."""
        own = {part: files_of(files) for part, files in folder.site().parts().items()}
        wanted = set(own.values())
        with self.changing():
            self.put_some(folder, {part: None for part, files in self.run("SELECT name, files FROM windows").fetchall() if own.get(part) != files})
            others = [each for each, in self.run("SELECT DISTINCT files FROM kept WHERE kind <> ?", (REFUSED_SIGNATURES,)) if each not in wanted]
            self.connection.executemany("DELETE FROM kept WHERE files = ?", ((each,) for each in others))

    def forget_kinds(self, begin, but, most):
        """Forgets all that is kept under kinds that begin so, but for that one, if they are more than so many: each list that a peer tells has its own."""
        with self.changing():
            kinds = [kind for kind, in self.run("SELECT DISTINCT kind FROM kept") if kind.startswith(begin) and kind != but]
            if len(kinds) >= most:
                self.connection.executemany("DELETE FROM kept WHERE kind = ?", ((kind,) for kind in kinds))

    def forget(self, keys, but):
        """Forgets what is kept of these files, but for that kind."""
        with self.changing():
            self.connection.executemany("DELETE FROM kept WHERE files = ? AND kind <> ?", ((each, but) for each in keys))
