"""Sites that forgot something, as docs/FORMATS.md has them: what tests make of them, and read."""
import hashlib
import json
import os
import sys

from tests.machine import ended
from tests.reference.events import document
from tests.reference.replica_files import read_file
from tests.reference.split_files import in_order, parts_of
from tests.tools.programs import tool

EVENT = {"eventType": "activity", "action": "read", "outcome": "success", "initiatorId": "u1", "targetId": "t1", "observerId": "s1"}


def event(key, day, **members):
    return dict(EVENT, id=key, eventTime="2024-03-%02dT12:00:00Z" % day, **members)


def atoms_of(*events):
    return document({"id": "g", "events": list(events)})[1]


def with_digest(lines):
    data = "".join(line + "\n" for line in lines).encode()
    return data + b"Z %s\n" % hashlib.sha256(data).hexdigest().encode()


def gone_of(acts, log='"g"', unit="day"):
    """The gone file of these lines, as FORMATS has it."""
    return with_digest(["CADF-GONE 1", "L " + log, "B " + unit, *acts])


def digits_of(data):
    return data[-65:-1].decode()


class Place:
    """A folder with sites and files."""

    def __init__(self, cadf, path, tools=None):
        self.cadf, self.path, self.tools = cadf, path, tools or os.path.dirname(tool("cadf-take"))

    def put(self, name, *events):
        (self.path / name).write_text(json.dumps({"id": "g", "events": events}))
        return name

    def run(self, name, *words, status=0, **options):
        done = ended(sys.executable, [os.path.join(self.tools, name), *words], cwd=self.path, env={**os.environ, "CADF": self.cadf}, **options)
        assert done.status == status and b"Traceback" not in done.error, done
        return done

    def run_cadf(self, *words):
        done = ended(self.cadf, words, cwd=self.path)
        assert done.status == 0, done
        return done.output

    def site(self, *days, name="site"):
        """Makes a site of an event of each of these days of March, which have their numbers."""
        self.run("cadf-take", "--by", "day", name, self.put("first.json", *(event("e%d" % day, day) for day in days)))

    def lines(self, name="site"):
        return (self.path / name / "site").read_text().splitlines()

    def files(self, name="site"):
        """The files that `site` names, by part and digest, and the digits of the gone file or None, if it is as FORMATS has it."""
        lines = self.lines(name)
        gone = lines[3][2:] if lines[0] == "CADF-SITE 2" else None
        names = [tuple(line.split(" ")[1:]) for line in lines[4 if gone else 3:-1]]
        head = ["CADF-SITE %d" % (2 if gone else 1), 'L "g"', "B day", *(["G " + gone] if gone else [])]
        parts = {part for part, _ in names}
        order = [(part, digest) for part in in_order(parts) for digest in sorted(own for each, own in names if each == part)]
        assert with_digest([*head, *("F %s %s" % each for each in order)]) == (self.path / name / "site").read_bytes()
        return names, gone

    def atoms(self, name="site"):
        """What a site holds; each file is of its part."""
        found = set()
        for part, digest in self.files(name)[0]:
            path = self.path / name / ("%s.%s.cadf" % (part, digest))
            assert path.exists()
            _, own = read_file(path.read_bytes())
            assert set(parts_of(own, "day")) == {part}
            found |= own
        return found

    def days(self, name="site"):
        return [part for part, _ in self.files(name)[0] if part != "shared"]

    def forget(self, data, name="site", digits=None):
        """Has the site of that name say that this is what went, without the files of what isn't kept."""
        digits = digits or digits_of(data)
        (self.path / name / ("gone." + digits)).write_bytes(data)
        kept = ["F %s %s" % each for each in self.files(name)[0] if each[0] != "2024-03-02"]
        (self.path / name / "site").write_bytes(with_digest(["CADF-SITE 2", 'L "g"', "B day", "G " + digits, *kept]))
        return digits
