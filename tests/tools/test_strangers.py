"""One stranger, one honest sender: whatever the stranger sends, and by whichever way both come, the honest event is in the site within one run."""
import datetime
import errno
import functools
import json
import os
import sys

import pytest

from tests.machine import ended
from tests.reference.replica_files import file_of
from tests.reference.split_files import parts_of
from tests.tools.copies import is_caught
from tests.tools.listeners import LISTEN
from tests.tools.programs import loaded
from tests.tools.test_rest import Place, atoms_of, days, event
from tests.tools.test_sync import items, message

NOW = datetime.datetime.now(datetime.timezone.utc)
MOST, SENT = 5, 12  # windows that a run may begin, and that the stranger's events are of
HONEST, BASE = event("honest", NOW.strftime("%Y-%m-%dT%H:%M:%SZ")), event("base", "2024-03-01T12:00:00Z")


def day(number):
    """The day so many days from now."""
    return str(NOW.date() + datetime.timedelta(number))


STRANGERS = {
    "days of long ago": days("1900-01-01", SENT), "days to come": days("9000-01-01", SENT), "days around now": days(day(-SENT // 2), SENT),
    "the first and the last day": [event("first", "0001-01-01T00:00:00+14:00"), event("last", "9998-12-31T23:59:59-14:00")],
    "the honest event's own day": [event("x%d" % number, HONEST["eventTime"]) for number in range(50)],
    "another body of the base event": [dict(BASE, outcome="failure")],
}
JUNK = {"zeros": bytes(100000), "no line feed": b"[" * 100000, "a cut file": b"CADF-REPLICA 2\n", "another log": b'{"id":"h","events":[]}',
        "a number of many digits": b"1" * 100000, "half a line": json.dumps(HONEST).encode()[:-9]}


def by_spool(place, sent):
    place.put("spool/a.json", *sent)
    place.put("spool/honest.json", HONEST)
    return place.spool("--windows=%d" % MOST)


def by_lines(place, sent):
    (place.path / "spool" / "bus.jsonl").write_text("".join(json.dumps(each) + "\n" for each in [*sent, HONEST]))
    return place.spool("--windows=%d" % MOST)


def listened(place, *bodies):
    """Has a listener write what a bus brings in these messages, and the spool take it."""
    program = loaded(LISTEN)
    program.say = lambda text: None
    (place.path / "spool").chmod(0o700)
    spool = program.Spool(str(place.path / "spool"), 2 ** 26, 300)
    spool.write(list(map(program.line_of, bodies)))
    spool.finish()
    return place.spool("--windows=%d" % MOST)


def by_listener(place, sent):
    return listened(place, *(json.dumps({"payload": each}).encode() for each in [*sent, HONEST]))


def by_hand(place, sent):
    return place.run("cadf-take", "--windows=%d" % MOST, "--rest=rest", "site/", place.put("a.json", *sent), place.put("honest.json", HONEST))


def by_exchange(*words):
    def exchanged(place, sent):
        place.run("cadf-take", "--by=day", "--windows=all", "peer/", place.put("a.json", BASE, *sent), place.put("honest.json", HONEST))
        return place.run("cadf-sync", "--windows=%d" % MOST, *words)
    return exchanged


def by_serving(place, sent):
    """Of a caller that sends the stranger's windows first, each in an item, in one message."""
    parts = parts_of(atoms_of(*sent, HONEST), "day")
    hello = {"limit": 2 ** 30, "log": "g", "site": "site/", "timeout": 60, "unit": "day", "since": None}
    found = sorted((part.encode(), b"facts", file_of("g", atoms)) for part, atoms in parts.items())
    return place.run("cadf-sync", "--serve", "--windows=%d" % MOST, "site/",
                     input=b"CADF-SYNC 1 %s\n" % json.dumps(hello).encode() + message(b"take", items(*found)))


WAYS = {"spool": by_spool, "lines in the spool": by_lines, "listener": by_listener, "by hand": by_hand, "pull": by_exchange("--pull", "site/", "peer/"),
        "push": by_exchange("--push", "peer/", "site/"), "serve": by_serving}


@pytest.fixture
def place(cadf, tmp_path):
    """A place with a site of one event, and a spool."""
    found = Place(cadf, tmp_path / "place")
    (found.path / "spool").mkdir()
    found.takes("--by=day", "site/", found.put("base.json", BASE))
    return found


@pytest.mark.parametrize("stranger", STRANGERS)
@pytest.mark.parametrize("way", WAYS)
def test_the_honest_event_is_in_the_site_within_one_run(place, way, stranger):
    before = place.site()
    done = WAYS[way](place, STRANGERS[stranger])
    assert done.status in (0, 5) and b"Traceback" not in done.error, done
    assert before | atoms_of(HONEST) <= place.site(), done


@pytest.mark.parametrize("stranger", ["the honest event's own day", "another body of the base event", "days of long ago"])
@pytest.mark.parametrize("way", WAYS)
def test_each_way_leaves_what_a_take_by_hand_leaves(cadf, place, tmp_path, way, stranger):
    """In facts, files and bytes: so what is tried of a take by hand, as what later calls cost (test_costs), holds of each way."""
    hand = Place(cadf, tmp_path / "hand")
    hand.takes("--by=day", "site/", hand.put("base.json", BASE))
    sent, found = STRANGERS[stranger], []
    for each, do in (hand, by_hand), (place, WAYS[way]):
        do(each, sent)
        names = [line for line in (each.path / "site" / "site").read_text().splitlines() if line.startswith("F ")]
        found.append((each.site(), len(names), sum(os.stat(each.path / "site" / ("%s.%s.cadf" % tuple(line.split()[1:]))).st_size for line in names)))
    assert found[0][0] == found[1][0] and found[1][1] <= found[0][1] + 1 and found[1][2] <= found[0][2] * 2, [each[1:] for each in found]


@pytest.mark.parametrize("junk", JUNK)
@pytest.mark.parametrize("name", ["a.json", "a.cadf", "a.jsonl"])
def test_what_is_no_event_stops_none(place, junk, name):
    """A file that is refused whole, or line by line, is set aside, and the honest one of the same run is taken."""
    (place.path / "spool" / name).write_bytes(JUNK[junk])
    place.put("spool/honest.json", HONEST)
    done = place.spool()
    assert done.status in (0, 1) and b"Traceback" not in done.error and atoms_of(HONEST) <= place.site(), done


# Runs a program on a system that refuses a call on the file bad.json, or says that something is mounted over it.
ODD_FILE = """
import builtins, io, os, runpy, sys
way, number, sys.argv = sys.argv[1], int(sys.argv[2]), sys.argv[3:]
right_open, here = open, os.fsencode(os.getcwd())
def is_bad(name):
    return os.fsdecode(name) == "bad.json" if isinstance(name, (str, bytes)) else False
def fail():
    raise OSError(number, os.strerror(number))
def failing(call):
    return lambda name, *words, **options: fail() if is_bad(name) else call(name, *words, **options)
class Unread(io.FileIO):
    def read(self, *_):
        fail()
def opened(name, *words, **options):
    if way == "mounted" and name == "/proc/self/mountinfo":
        return io.BytesIO(b"1 2 0:3 / / rw - x y z\\n7 2 0:9 / %s/spool/bad.json rw - fuse y z\\n" % here.replace(b" ", b"\\\\040"))
    return Unread(name, "rb", opener=options["opener"]) if way == "read" and is_bad(name) else right_open(name, *words, **options)
builtins.open = opened
for each in {"mounted": ("lstat", "open", "rename"), "read": ()}.get(way, (way,)):
    setattr(os, each, failing(getattr(os, each)))
runpy.run_path(sys.argv[0], run_name="__main__")
"""


@pytest.mark.parametrize("way, number", [("lstat", errno.EACCES), ("lstat", errno.ENOTCONN), ("rename", errno.EBUSY), ("open", errno.EIO), ("open", errno.ESTALE), ("read", errno.EIO),
                                         ("mounted", errno.ETIMEDOUT)])
def test_a_file_that_can_t_be_read_stays_with_its_sender(place, way, number):
    """As one over which its sender has mounted a file system: it is told in a line, all else is taken, and the numbers are written. Nobody looks at what is mounted."""
    bad = event("bad", HONEST["eventTime"])
    place.put("spool/bad.json", bad)
    place.put("spool/honest.json", HONEST)
    words = ["--unchanged", "0", "--metrics", "m.prom", "site/", "spool"]
    done = ended(sys.executable, ["-c", ODD_FILE, way, str(number), os.path.join(place.tools, "cadf-spool"), *words], cwd=place.path, env={**os.environ, "CADF": place.cadf})
    told = [line for line in done.error.decode().splitlines() if "bad.json" in line]
    assert done.status == 0 and len(told) == 1 and b"Traceback" not in done.error, done
    assert ("something is mounted there" if way == "mounted" else os.strerror(number)) in told[0]
    assert place.site() == atoms_of(BASE, HONEST) and 'became="waiting"} 1' in (place.path / "m.prom").read_text().replace(',site="site/"', "").replace('site="site/",', "")
    done = place.run("cadf-spool", *words)  # once it can be read
    assert done.status == 0 and place.site() == atoms_of(BASE, HONEST, bad), done


@pytest.mark.parametrize("way, number, texts", [
    ("lstat", errno.EACCES, ["odd[fault.strerror].append(name)", "self.note(\"waiting\", FAILED)"]), ("mounted", errno.ETIMEDOUT, ["if place.startswith(begin)", "if False"]),
    ("read", errno.EIO, ["raise Waits(\"it can't be read: %s\" % fault.strerror, DONE)", "raise"])])
def test_a_run_that_fails_for_one_file_is_caught(cadf, tmp_path, way, number, texts):
    def made(tools):
        found = Place(cadf, tmp_path / "place", tools)
        (found.path / "spool").mkdir()
        found.takes("--by=day", "site/", found.put("base.json", BASE))
        return found

    is_caught(tmp_path, texts, functools.partial(test_a_file_that_can_t_be_read_stays_with_its_sender, way=way, number=number), made)


MESSAGES = {**JUNK, "a line feed": b'{"payload":\n' + json.dumps(HONEST).encode(), "no UTF-8": b"\xff" * 1000, "blank": b"", "an entry of what was set aside": b'{"faults":[],"text":"x"}',
            "deep": b"[" * 5000 + b"]" * 5000, "an envelope in an envelope": json.dumps({"oslo.message": json.dumps({"oslo.message": "{"})}).encode(),
            "a quote without an end": b'{"payload": "'}


@pytest.mark.parametrize("junk", MESSAGES)
def test_no_message_stops_another(place, junk):
    """Whatever a message of a bus is, the honest one after it is taken, and the honest one before it."""
    other = dict(HONEST, id="other")
    done = listened(place, json.dumps({"payload": other}).encode(), MESSAGES[junk], json.dumps({"payload": HONEST}).encode())
    assert done.status == 0 and b"Traceback" not in done.error and atoms_of(HONEST, other) <= place.site(), done


def session(place, *messages):
    hello = {"limit": 2 ** 30, "log": "g", "site": "site/", "timeout": 60, "unit": "day", "since": None}
    return place.run("cadf-sync", "--serve", "site/", input=b"CADF-SYNC 1 %s\n" % json.dumps(hello).encode() + b"".join(messages))


@pytest.mark.parametrize("junk", JUNK)
@pytest.mark.parametrize("kind", [b"facts", b"some"])
def test_a_peer_that_sends_junk_stops_no_other(place, junk, kind):
    """Its session ends with a fault, the site is as it was, and the next session is as any."""
    before, part = place.site(), HONEST["eventTime"][:10].encode()
    good = file_of("g", parts_of(atoms_of(HONEST), "day")[part.decode()])
    bad = session(place, message(b"take", items((part, kind, JUNK[junk]))), message(b"take", items((part, b"facts", good))))
    assert (bad.status == 1 and b"\nfault " in bad.output or b'"fault"' in bad.output) and b"Traceback" not in bad.error and place.site() == before, bad
    done = session(place, message(b"take", items((part, b"facts", good))))
    assert done.status == 0 and atoms_of(HONEST) <= place.site(), done


def test_a_hand_that_takes_two_files(place):
    """By hand one of which is refused keeps the other out, since a take is whole or not at all: it is named, and the other is taken by itself."""
    (place.path / "bad.json").write_bytes(b"[")
    done = place.run("cadf-take", "--rest=rest", "site/", "bad.json", place.put("honest.json", HONEST))
    assert done.status == 1 and b"bad.json: not JSON" in done.error and place.site() == atoms_of(BASE)
    assert place.run("cadf-take", "--rest=rest", "site/", "honest.json").status == 0 and atoms_of(HONEST) <= place.site()
