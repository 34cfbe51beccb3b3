"""What a peer of an exchange may cost a site in a day, whose name is in the forced command: what is beyond stays with the peer, and is named."""
import datetime
import functools
import json
import os
import re
import shlex
import sys
import time

import pytest

from tests.reference.replica_files import file_of
from tests.reference.split_files import parts_of
from tests.tools.copies import is_caught
from tests.tools.test_rest import Place as Tools
from tests.tools.test_rest import atoms_of, days, event
from tests.tools.test_sync import items, message

from tests import TOP  # isort: skip
sys.path.insert(0, os.path.join(TOP, "share", "cadf"))
import cadf_ledgers
from cadf_link import Item
from cadf_peer import PeerLedger
from cadf_toolkit import with_digest

BASE = event("base", "2024-03-01T12:00:00Z")
LEDGER = re.compile(r"L south ([0-9.]+) ([0-9.]+) 0\.000 ([0-9.]+) ([0-9.]+) ([0-9.]+)\n")  # the time, bytes, files, windows, seconds and bytes that are read again


class Place(Tools):
    """A site of one event, that is served to a peer whose name is `south`."""

    def __init__(self, cadf, path, tools=None):
        super().__init__(cadf, path, tools)
        self.takes("--by=day", "site/", self.put("base.json", BASE))

    def parts(self, *events):
        """The facts of events by windows, as items."""
        return [(part.encode(), b"facts", file_of("g", atoms)) for part, atoms in sorted(parts_of(atoms_of(*events), "day").items())]

    def session(self, *requests, words=()):
        """What a session answers to requests: its status, the members of its first line, and its answers to them."""
        hello = {"limit": 2 ** 30, "log": "g", "site": "site/", "timeout": 60, "unit": "day", "since": None}
        done = self.run("cadf-sync", "--serve", "--peer=south", *words, "site/", input=b"CADF-SYNC 1 %s\n" % json.dumps(hello).encode() + b"".join(requests))
        assert b"Traceback" not in done.error, done
        first, _, rest = done.output.partition(b"\n")
        answers = [each for each in rest.split(b"taken ") if not each.startswith(b"wait")]
        return done, json.loads(first.partition(b"CADF-SYNC 1 ")[2]), [each.partition(b"\n")[2].partition(b"wait")[0] for each in answers[1:]]

    def takes_of(self, *events, words=()):
        return self.session(message(b"take", items(*self.parts(*events))), words=words)

    def levels(self):
        """What the site's file notes of the peer: bytes, windows, seconds and bytes that are read again; None if nothing."""
        path = self.path / "site" / ".state"
        found = LEDGER.search(path.read_text()) if path.exists() else None
        return found and [float(each) for each in found.groups()[1:]]

    def a_day_later(self):
        path = self.path / "site" / ".state"
        lines = path.read_text().splitlines(True)[:-1]
        moved = [LEDGER.sub(lambda found: found[0].replace(found[1], "%.3f" % (float(found[1]) - 86400)), line) for line in lines]
        path.write_bytes(with_digest("".join(moved).encode()))


@pytest.fixture
def place(cadf, tmp_path):
    return Place(cadf, tmp_path / "place")


def test_what_a_peer_costs_is_noted(place):
    """Bytes, windows and seconds, of one session after another; other lines of the file stay, and what brings nothing costs no bytes that are read again."""
    assert place.run("cadf-which", "--scrub", "site/").status == 0
    seen = [line for line in (place.path / "site" / ".state").read_text().splitlines() if line.startswith("S ")]
    sent = days("2024-04-01", 2)
    for number in (1, 2):
        done, _, answers = place.takes_of(*sent, words=["--peer-bytes=100000", "--peer-seconds=1000"])
        size = sum(len(data) for *_, data in place.parts(*sent))
        levels = place.levels()
        assert done.status == 0 and answers == [b"%d\n" % (2 if number == 1 else 0)]
        assert abs(levels[0] - number * size) < 200 and abs(levels[1] - 2) < 0.2 and levels[2] > 0 and levels[3] == 0
    assert seen == [line for line in (place.path / "site" / ".state").read_text().splitlines() if line.startswith("S ")] != []
    assert place.run("cadf-which", "--scrub", "site/").status == 0 and place.levels() is not None
    place.a_day_later()
    place.takes_of()
    assert place.levels()[0] == place.levels()[1] == 0


def test_windows_of_a_peer(place):
    """The nearest to now are begun, as many as it may in a day, and all near now; it is told how many that are at most, and the others come a day later."""
    sent, new = days("2024-04-01", 5), event("new", BASE["eventTime"])
    recent = event("recent", datetime.datetime.now(datetime.timezone.utc).strftime("%Y-%m-%dT%H:%M:%SZ"))
    done, first, answers = place.takes_of(*sent, words=["--peer-windows=2"])
    assert (done.status, first["windows"], answers) == (0, 2 + 8, [b"2\n"]) and place.site() == atoms_of(BASE, *sent[3:])
    done, first, answers = place.takes_of(new, *sent, recent, words=["--peer-windows=2"])
    assert first["windows"] == 8 and place.site() == atoms_of(BASE, new, *sent[3:], recent)
    place.a_day_later()
    done, first, _ = place.takes_of(*sent, words=["--peer-windows=2"])
    assert first["windows"] == 2 + 8 and place.site() == atoms_of(BASE, new, *sent[1:], recent)
    assert place.takes_of(words=["--peer-windows=2", "--windows=1"])[1]["windows"] == 1


def test_bytes_of_a_peer(place):
    """What comes after a day's bytes is left out, and told; what was before it is taken."""
    sent = days("2024-04-01", 3)
    sizes = [len(data) for *_, data in place.parts(*sent)]
    done, _, answers = place.takes_of(*sent, words=["--peer-bytes=%d" % (sizes[0] + 1)])
    assert (done.status, answers) == (0, [b"2\nW 2024-04-03\n"]) and place.site() == atoms_of(BASE, *sent[:2])
    assert b"left out 2024-04-03: this peer costs more than --peer-bytes a day: it is to make the call again later\n" in done.error
    _, _, answers = place.takes_of(sent[2], words=["--peer-bytes=%d" % (sizes[0] + 1)])
    assert answers == [b"0\nW 2024-04-03\n"]
    place.a_day_later()
    place.a_day_later()
    _, _, answers = place.takes_of(sent[2], words=["--peer-bytes=%d" % (sizes[0] + 1)])
    assert answers == [b"1\n"] and place.site() == atoms_of(BASE, *sent)


def test_old_windows_of_a_peer(place):
    """An event for each old window has as many bytes of them read again as it may cause in a day, the nearest to now."""
    sent = days("2024-04-01", 4)
    place.takes("site/", place.put("a", *sent))
    size = max(each.stat().st_size for each in (place.path / "site").glob("2024-04*"))
    more = days("2024-04-01", 4, "y")
    _, _, answers = place.takes_of(*more, words=["--peer-rereads=%d" % (size + 1)])
    assert answers == [b"2\nW 2024-04-01\nW 2024-04-02\n"] and place.site() == atoms_of(BASE, *sent, *more[2:])
    assert abs(place.levels()[3] - 2 * size) < 2
    _, _, answers = place.takes_of(*more, words=["--peer-rereads=%d" % (size + 1)])
    assert answers == [b"0\nW 2024-04-01\nW 2024-04-02\nW 2024-04-03\nW 2024-04-04\n"]


def test_a_take_that_ends_early_is_charged(place):
    """As one that is stopped, or finds a full disk, after some of the windows were taken."""
    ledger = PeerLedger(str(place.path / "site"), "south", dict.fromkeys(cadf_ledgers.KINDS, 10 ** 12))
    with pytest.raises(KeyboardInterrupt), ledger.charged([Item("2024-03-01", "facts", length=12345)]):
        raise KeyboardInterrupt
    levels = place.levels()
    assert levels and levels[0] == 12345


def test_seconds_of_a_peer(place):
    """A session that comes after a day's seconds is refused with a line, and one that is there goes no further. What it reads alone counts too."""
    place.session(message(b"list"))
    assert place.levels() and place.levels()[2] > 0
    done, first, _ = place.session(message(b"list"), words=["--peer-seconds=0"])
    assert done.status == 3 and first["fault"] == "3 this peer has cost more than --peer-seconds a day: make the call again later"
    place.a_day_later()
    done, first, _ = place.session(message(b"list"), words=["--peer-seconds=1"])
    assert done.status == 0 and "fault" not in first


def test_seconds_within_a_request(place):
    """Of a request for much work no more is begun once the peer has had its time."""
    (place.path / "site" / ".state").write_bytes(with_digest(b"CADF-STATE 1\nL south %.3f 0.000 0.000 0.000 0.900 0.000\n" % time.time()))
    many = [(b"2024-03-01", b"tell", b"198")] * 100
    done, _, _ = place.session(message(b"ask", items(*many)), words=["--peer-seconds=1"])
    assert done.status == 3 and b"\nfault " in done.output and b"--peer-seconds a day" in done.output and place.levels()[2] < 60


def test_another_peer_has_a_ledger_of_its_own(place):
    sent = days("2024-04-01", 2)
    place.takes_of(sent[0], words=["--peer-windows=1"])
    place.takes_of(sent[1], words=["--peer=east", "--peer-windows=1"])
    state = (place.path / "site" / ".state").read_text()
    assert place.site() == atoms_of(BASE, *sent) and "\nL east " in state and "\nL south " in state


def test_the_caller_is_told(place):
    """What the other end leaves out of a push is named, and the status is 5; what it needs is brought all the same."""
    sent = days("2024-04-01", 3)
    place.takes("--by=day", "here/", place.put("a", BASE, *sent))
    size = max(len(data) for *_, data in place.parts(*sent))
    served = shlex.join([sys.executable, os.path.join(place.tools, "cadf-sync"), "--serve", "--peer=south", "--peer-bytes=%d" % size, "site/"])
    done = place.run("cadf-sync", "--rsh=sh -c %s --" % shlex.quote(served), "here/", "host:site/")
    assert done.status == 5 and b"left out 2024-04-0" in done.error and b"were left out" in done.output, done
    assert atoms_of(BASE) < place.site() < atoms_of(BASE, *sent)


def test_usage(place):
    """A file has no ledger; a name is one that a line can have."""
    place.takes("file.cadf", "base.json")
    done = place.run("cadf-sync", "--serve", "--peer=south", "file.cadf", input=b"")
    assert done.status == 1 and b"--peer goes with a folder, in which its ledger is" in done.output
    for words in (["--serve", "--peer=so uth", "site/"], ["--peer=south", "site/", "other/"]):
        assert place.run("cadf-sync", *words).status == 2


@pytest.mark.parametrize("check, texts", [
    (test_what_a_peer_costs_is_noted, ["self.read(lines)\n            for kind", "for kind"]),
    (test_what_a_peer_costs_is_noted, ["others + [\"L \"", "[\"L \""]),
    (test_windows_of_a_peer, ["[most if self.ledger is None else self.ledger.windows()]", "[most]"]),
    (test_windows_of_a_peer, ["self.ledger.windows() + most_near(self.unit)", "self.ledger.windows()"]),
    (test_windows_of_a_peer, ["self.add(\"windows\", len(list(filter(is_far, after.keys() - before.keys()))))", "pass"]),
    (test_bytes_of_a_peer, ["if each.part not in found and room <= 0:", "if False:"]),
    (test_old_windows_of_a_peer, ["if is_far(part) and after.get(part) != before[part]", "if False"]),
    (test_seconds_of_a_peer, ["if self.ledger and self.ledger.room(", "if False and self.ledger.room("]),
    (test_seconds_of_a_peer, ["            if self.ledger:\n                self.ledger.note()", "            pass"]),
    (test_seconds_within_a_request, ["            self.ledger.add_seconds()\n            self.check_seconds()", "            pass"]),
    (test_another_peer_has_a_ledger_of_its_own, ["if not (LINE.fullmatch(line) and LINE.fullmatch(line)[1] == self.name)", "if not LINE.fullmatch(line)"])])
def test_a_wrong_version_is_caught(cadf, tmp_path, check, texts):
    is_caught(tmp_path, texts, check, functools.partial(Place, cadf, tmp_path / "place"))
