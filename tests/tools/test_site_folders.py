"""Sites that are folders, as docs/FORMATS.md has them: what a take leaves there, and what a reader sees meanwhile."""
import contextlib
import errno
import functools
import hashlib
import json
import os
import random
import resource
import shlex
import shutil
import subprocess
import sys
import threading

import pytest

from tests import TOP
from tests.machine import ended
from tests.reference.events import document
from tests.reference.replica_files import file_of, read_file
from tests.reference.split_files import in_order, parts_of
from tests.tools.copies import copied, is_caught
from tests.tools.faulty import calls_of
from tests.tools.programs import WAITING, writer_to

TOOLS = os.path.join(TOP, "tools")
CALLS = "os.open os.rename os.unlink os.fchmod os.fsync os.mkdir os.listdir fcntl.flock"
EVENT = {"eventType": "activity", "action": "read", "outcome": "success", "initiatorId": "u1", "targetId": "t1",
         "observerId": "s1"}
DAYS = ["2024-02-29T23:59:59.999999999Z", "2024-03-01T00:30:00+01:00", "2024-03-01T12:00:00Z"]  # two of one day of UTC

sys.path.insert(0, os.path.join(TOP, "share", "cadf"))
import cadf_site
import cadf_toolkit


@contextlib.contextmanager
def opened(site):
    """Opens all files of the site's folder, as it stands at one moment."""
    with cadf_site.Folder(str(site.folder)) as folder, cadf_site.opened_parts(folder, None) as found:
        yield found


def contents(*keys, **members):
    """A log document of an event a key: on the day of its number, with a tag."""
    events = [dict(EVENT, id="e%d" % key, eventTime=DAYS[key % len(DAYS)], tags=["t"]) for key in keys]
    return dict(members, id="g", events=events)


def atoms_of(*documents):
    return set().union(*(document(each)[1] for each in documents))


def with_digest(data):
    return data + b"Z %s\n" % hashlib.sha256(data).hexdigest().encode()


def index_of(files, unit="day"):
    """The file `site` that names these files, as FORMATS writes it."""
    lines = ["F %s %s\n" % (part, digest) for part in in_order(files) for digest in sorted(files[part])]
    return with_digest(('CADF-SITE 1\nL "g"\nB %s\n' % unit + "".join(lines)).encode())


class Site:
    """A folder beside the files that are taken into it."""
    command = None  # that the tools run

    def __init__(self, path, tools=TOOLS, name="site"):
        self.path, self.tool, self.count = path, os.path.join(tools, "cadf-take"), 0
        self.folder = path / name
        self.environment = dict(os.environ, CADF=self.command)

    def put(self, value):
        self.count += 1
        name = self.path / ("%d.json" % self.count)
        name.write_text(json.dumps(value))
        return str(name)

    def words(self, *options, files=()):
        return [self.tool, *options, "--", str(self.folder) + "/", *files]

    def take(self, *options, files=()):
        tool, *words = self.words(*options, files=files)
        answer = ended(tool, words, env=self.environment)
        assert all(line.startswith(b"cadf-take: ") for line in answer.error.splitlines()) or answer.status == 2, answer
        return answer

    def takes(self, *values, by=("--by", "day")):
        answer = self.take(*by, files=[self.put(value) for value in values])
        assert (answer.status, answer.output, answer.error) == (0, b"", b"")

    def settles(self):
        assert self.take("--settle") == (0, b"", b"")

    def files(self):
        """The files that `site` names, by part and digest, which it names as it has to."""
        index = cadf_site.Index.read((self.folder / "site").read_bytes())
        found = index.parts()
        assert (self.folder / "site").read_bytes() == index_of(found, index.unit)
        return found

    def atoms(self):
        """What the site holds; each file is of its part and ends with its digest."""
        held = set()
        for part, digests in self.files().items():
            for digest in digests:
                data = (self.folder / ("%s.%s.cadf" % (part, digest))).read_bytes()
                log, atoms = read_file(data)
                assert log == "g" and data.endswith(b"Z %s\n" % digest.encode())
                assert set(parts_of(atoms, "day")) == {part}
                held |= atoms
        return held

    def settled(self, atoms, unit="day"):
        """What a settled folder of these atoms has, by name."""
        files, wanted = {}, {}
        for part, own in parts_of(atoms, unit).items():
            data = file_of("g", own)
            digest = data[-65:-1].decode()
            files[part], wanted["%s.%s.cadf" % (part, digest)] = [digest], data
        return dict(wanted, site=index_of(files, unit))

    def listed(self):
        return {name.name: name.read_bytes() for name in self.folder.iterdir() if not name.name.startswith(".")}

    def left(self):
        """The names of what a take has left that doesn't count."""
        return [name for name in os.listdir(self.folder) if name.startswith(".new") or name.endswith(".cadf")
                and name.split(".")[1] not in sum(self.files().values(), [])]


    def copies(self, *options, files=()):
        """Yields what a kill leaves of a call, before each of its calls of the system: the names so far, and a site.

        A kill that leaves what the one before left is passed over.
        """
        words = [*options, "--", ".", *files]
        done, calls = calls_of(CALLS, self.tool, words, "copied", told="../calls", env=self.environment, cwd=self.folder)
        assert done.status == 0, done
        last = None
        for place in range(1, len(calls) + 1):
            copy = Site(self.path, os.path.dirname(self.tool), "site-%d" % place)
            found = {name: (copy.folder / name).read_bytes() for name in os.listdir(copy.folder)}
            if found != last:
                yield calls[:place], copy
            last = found

    def takes_here(self, file, *by):
        """Takes a file in this process."""
        with cadf_toolkit.opened([file]) as inputs:
            cadf_site.take(str(self.folder), inputs, *by)


@pytest.fixture(autouse=True)
def command(cadf, monkeypatch):
    """Has the tools run the command that is tried, and calls of the module in this process too."""
    monkeypatch.setattr(Site, "command", cadf)
    for module in (cadf_toolkit, cadf_site):
        monkeypatch.setattr(module, "CADF", cadf)


@pytest.fixture
def site(tmp_path):
    return Site(tmp_path)


# ---- What a take leaves

def test_a_take_writes_the_windows_of_what_it_takes(site):
    first, second = contents(1, 2, name="north"), contents(4)
    site.takes(first)
    assert site.listed() == site.settled(atoms_of(first))
    before = site.listed()
    site.takes(second, by=())
    assert site.atoms() == atoms_of(first, second)
    assert {name: data for name, data in site.listed().items() if name in before and name != "site"}.items() <= before.items()
    assert oct(os.stat(site.folder).st_mode & 0o777) == "0o700"
    assert {oct(os.stat(name).st_mode & 0o777) for name in site.folder.iterdir()} == {"0o600"}


def test_a_long_line_is_written_by_pieces(site):
    """Some of the pieces begin as the last line of a file does."""
    value = contents(0, 3)
    for event, text in zip(value["events"], ("Z " * 100000, " " + "Z " * 100000)):
        event["name"] = text
    site.takes(value)
    assert site.listed() == site.settled(atoms_of(value))


@pytest.mark.parametrize("mode, of_files, of_lock", [(0o750, 0o640, 0o600), (0o770, 0o660, 0o660)])
def test_new_files_have_the_folders_permissions(site, mode, of_files, of_lock):
    site.folder.mkdir()
    site.folder.chmod(mode)
    site.takes(contents(0))
    found = {name.name: name.stat().st_mode & 0o777 for name in site.folder.iterdir()}
    assert found.pop(".lock") == of_lock and set(found.values()) == {of_files}


@pytest.mark.root
def test_root_takes_for_the_folders_owner(site):
    site.folder.mkdir()
    os.chown(site.folder, 2001, 3001)
    site.takes(contents(0))
    assert {(name.stat().st_uid, name.stat().st_gid) for name in site.folder.iterdir()} == {(2001, 3001)}


@pytest.mark.parametrize("number", [errno.EPERM, errno.EINVAL])
def test_an_owner_that_cannot_be_given(site, monkeypatch, number):
    """The caller may not, or its user namespace has no such user or group, as in a container."""
    def fchown(*_):
        raise OSError(number, os.strerror(number))

    site.folder.mkdir()
    monkeypatch.setattr(os, "fchown", fchown)
    site.takes_here(site.put(contents(0)), "day")
    assert site.atoms() == atoms_of(contents(0))


def test_what_is_held_already_changes_nothing(site):
    """Also what several files of a window hold together."""
    site.takes(contents(0, 1, 2, name="n"))
    site.takes(contents(3, 4))
    before = site.listed()
    for value in (contents(0, 1, 2, name="n"), contents(0, 3, 4, 1), contents(2)):
        site.takes(value)
        assert site.listed() == before
    site.takes(contents(0, 3, 6))
    assert site.atoms() == atoms_of(contents(0, 1, 2, 3, 4, 6, name="n"))


@pytest.mark.parametrize("answer", ["", "a\\nb\\nc\\n"])
def test_what_another_program_answers_is_not_believed(site, answer):
    """No three lines but those of a replica file say that a window holds all that a file brings."""
    site.takes(contents(0))
    before = site.listed()
    odd = site.path / "odd"
    odd.write_text('#!/bin/sh\n[ "$1" = missing ] || exec %s "$@"\nprintf "%s"\n' % (shlex.quote(site.command), answer))
    odd.chmod(0o755)
    site.environment["CADF"] = str(odd)
    assert site.take(files=[site.put(contents(3))]) == (3, b"", b"cadf-take: %s: what it writes is no replica file\n" % os.fsencode(odd))
    assert site.listed() == before


@pytest.mark.parametrize("options, cut, lines", [(["--settle"], "join", -1), (["--settle"], "join", 4), ([], "missing", 3)])
def test_what_another_program_cuts_off_is_not_believed(site, options, cut, lines):
    """A text that is cut at the end of a line is in no place of a window's files, and doesn't say that they hold what is taken."""
    site.takes(contents(0, 1))
    site.takes(contents(3))
    before, odd = site.files(), site.path / "odd"
    odd.write_text('#!/bin/sh\n[ "$1" = %s ] || exec %s "$@"\n%s "$@" | head -n %d\n' % (cut, *[shlex.quote(site.command)] * 2, lines))
    odd.chmod(0o755)
    site.environment["CADF"] = str(odd)
    answer = site.take(*options, files=[] if options else [site.put(contents(6, 9))])
    assert answer == (3, b"", ("cadf-take: %s: what it writes is no replica file\n" % odd).encode())
    assert site.files() == before
    site.environment["CADF"] = site.command
    site.settles()
    assert site.atoms() == atoms_of(contents(0, 1, 3))


def test_a_settled_folder_is_a_function_of_its_facts(site):
    values = [contents(key, key + 1, name="n%d" % (key % 2)) for key in range(3)]
    site.takes(*values)
    other = Site(site.path, os.path.dirname(site.tool), "other")
    other.count = 100
    for value in reversed(values):
        other.takes(value)
    for each in (site, other):
        each.settles()
        each.settles()  # removes what the first one joined
        assert each.listed() == site.settled(atoms_of(*values))


def test_files_of_a_window_are_joined_by_seven(site):
    sizes = {"a": 100, "b": 4095}
    assert cadf_site.to_join(sizes, 2 ** 24) is None
    sizes.update({letter: 7 for letter in "cdefghi"})
    assert cadf_site.to_join(sizes, 2 ** 24) == list("cdefghi") and cadf_site.to_join(sizes, 48) is None
    assert cadf_site.to_join({letter: 2 ** 22 + place for place, letter in enumerate("gfedcba")}, 2 ** 30) == list("gfedcba")
    assert cadf_site.to_join(dict.fromkeys("abcdef", 4096) | {"g": 4095}, 2 ** 24) is None
    for key in range(0, 24, 3):
        site.takes_here(site.put(contents(key)), "day")
    assert list(map(len, site.files().values())) == [2] and site.left() == []
    assert site.atoms() == atoms_of(contents(*range(0, 24, 3)))


@pytest.mark.parametrize("keys, count", [(range(0, 84, 3), 7), ((0, 3), 2)])
def test_a_union_of_files_that_is_there_is_named_once(site, monkeypatch, keys, count):
    """A window has a file that is too large to look into, and all of it comes again in so many files. They are joined, by a take or by settling."""
    monkeypatch.setattr(cadf_site, "MOST_SEEN", 0)
    for each in [keys, *(keys[start::count] for start in range(count))]:
        site.takes_here(site.put(contents(*each)), "day")
    sizes = sorted(name.stat().st_size for name in site.folder.glob("2024-*.cadf"))
    monkeypatch.setattr(cadf_site, "LARGEST", sum(sizes[:2]))
    cadf_site.settle(str(site.folder))
    assert list(map(len, site.files().values())) == [1] and site.atoms() == atoms_of(contents(*keys))


def test_a_day_by_five_minutes(site):
    """288 takes of some events each, an hour a window, are settled as one join of each hour."""
    documents = []
    for number in range(288):
        times = ["2024-03-01T%02d:%02d:%02dZ" % (number // 12, number % 12 * 5, second) for second in (0, 20, 59)]
        events = [dict(EVENT, id="%s-%d" % (time, number), eventTime=time, tags=["t%d" % (number % 3)]) for time in times]
        documents.append({"id": "g", "events": events, "resources": [{"id": "r%d" % (number % 7), "typeURI": "service"}]})
        site.takes_here(site.put(documents[-1]), "hour")
    cadf_site.settle(str(site.folder))
    assert site.settled(atoms_of(*documents), "hour").items() <= site.listed().items()
    assert len(site.files()) == 25


def test_what_is_joined_in_a_take_has_a_bound(site, monkeypatch):
    monkeypatch.setattr(cadf_site, "MOST_JOINED", 6000)
    monkeypatch.setattr(cadf_site, "MOST_SEEN", 0)
    for key in range(0, 42, 3):
        site.takes_here(site.put(contents(key, key + 1)), "day")
    assert sorted(map(len, site.files().values())) != [2, 2]
    assert site.atoms() == atoms_of(contents(*range(0, 42, 3), *range(1, 42, 3)))


def test_a_window_beyond_the_limit_has_few_files(site, monkeypatch, capsys):
    values = [contents(key) for key in range(0, 15, 3)]
    for value in values:
        site.takes(value)
    size = max(name.stat().st_size for name in site.folder.glob("2024-*.cadf"))
    monkeypatch.setattr(cadf_site, "LARGEST", 2 * size)
    cadf_site.settle(str(site.folder) + "/")
    assert "the window 2024-02-29 is larger than a file may be, and has 3 files" in capsys.readouterr().err
    assert site.atoms() == atoms_of(*values) and list(map(len, site.files().values())) == [3]


def test_a_site_that_is_a_file_becomes_a_folder(site):
    file = str(site.path / "old.cadf")
    assert ended(site.tool, [file, site.put(contents(0, 1, name="n"))], env=site.environment).status == 0
    answer = site.take("--by", "day", files=[file])
    assert answer == (0, b"", b"") and site.atoms() == atoms_of(contents(0, 1, name="n"))
    answer = ended(site.tool, ["--by", "day", file, site.put(contents(2))], env=site.environment)
    assert answer.status == 3 and b"cadf-take --by day NEW/ " in answer.error


@pytest.mark.parametrize("right, wrong, status, said", [
    ("NEARLY_FULL = cadf_site.LARGEST * 8 // 10", "NEARLY_FULL = 100", 0, "%d of 1073741824 bytes: no file"),
    ("if size > cadf_site.LARGEST:", "if size > 100:", 1, "too large: no file"),
])
def test_a_file_that_is_full_names_the_call(tmp_path, right, wrong, status, said):
    site, file = Site(tmp_path, copied(tmp_path / "copy", right, wrong)), tmp_path / "old.cadf"
    answer = ended(site.tool, [str(file), site.put(contents(0))], env=site.environment)
    size = len(file_of("g", atoms_of(contents(0))))
    line = "cadf-take: %s: %s above 2^30 bytes is read, and a folder of files grows on: cadf-take --by day NEW/ %s\n" % (
        file, said % size if "%" in said else said, file)
    assert answer == (status, b"", line.encode()) and file.exists() == (status == 0)


# ---- Refusals, and what is odd in the folder

@pytest.mark.parametrize("options, value, status, said", [
    (["--by", "hour"], dict(contents(1), events=7), 1, "other unit: its windows are one day each, and not one hour"),
    ([], dict(contents(1), id="h"), 1, "2.json: other log"),
    (["--log", "h"], dict(contents(1), events=7), 1, 'other log: "g"'),
    (["--windows", "0"], contents(2), 1, "more than 0 new windows"),
    ([], dict(contents(2), events=7), 1, "events is not a list"),
])
def test_a_refusal_leaves_the_site(site, options, value, status, said):
    site.takes(contents(1))
    before = site.listed()
    answer = site.take(*options, files=[site.put(value), site.put(contents(4))])
    assert answer.status == status and said in answer.error.decode()
    assert site.listed() == before
    site.takes(contents(5), by=())
    assert site.atoms() == atoms_of(contents(1), contents(5))


def test_nothing_is_read_if_unit_or_log_is_another(site):
    site.takes(contents(1))
    for options, said in ((["--by", "hour"], b"other unit"), (["--log", "h"], b"other log")):
        answer = site.take(*options, files=["-", "/absent"])
        assert answer.status == 1 and said in answer.error


@pytest.mark.parametrize("options, value", [([], dict(contents(1), events=7)), (["--windows", "1"], contents(1, 2))])
def test_a_first_take_that_is_refused_leaves_no_site(site, options, value):
    assert site.take("--by", "day", *options, files=[site.put(value)]).status == 1
    assert os.listdir(site.folder) == [".lock"]
    site.takes(dict(contents(1), id="g"))


def test_words(site):
    file = site.put(contents(1))
    assert site.take(files=[file]).status == 3 and not site.folder.exists()
    for words in (["--by", "week"], ["--settle", "--by", "day"], ["--windows", "-1", "--by", "day"]):
        assert site.take(*words, files=[file]).status == 2 and not site.folder.exists()
    assert site.take("--by", "day").status == 2 and site.take("--settle", files=[file]).status == 2
    for words in (["--by", "day"], ["--log", "g"], ["--windows", "400"]):
        assert b"--settle goes with one SITE, and with --wait alone" in site.take("--settle", *words).error
    for name in (file, str(site.path / "new.cadf")):
        answer = ended(site.tool, ["--windows", "400", name, file], env=site.environment)
        assert answer.status == 2 and b"--windows, --not-before, --not-after and --rest go with a SITE that is a folder, or with --by" in answer.error and len(os.listdir(site.path)) == 1
    site.folder.mkdir()
    for answer in (site.take(files=[file]), site.take("--settle")):
        assert answer.status == 1 and b"no site in it: `cadf-take --by day SITE/ FILE..` makes one" in answer.error
    assert os.listdir(site.folder) == []


def test_a_folder_in_the_way_of_new_files(site):
    """It is no stranger that a take could pass over, and nothing changes."""
    site.takes(contents(1))
    (site.folder / ".new").mkdir()
    before = site.listed()
    for options, files in ([], [site.put(contents(2))]), (["--settle"], []):
        answer = site.take(*options, files=files)
        assert answer == (3, b"", ("cadf-take: %s/.new: in the way of a new file: move it away, and make the call again\n" % site.folder).encode())
    assert site.listed() == before


def test_strangers_are_named_and_passed_over(site):
    site.takes(contents(1))
    strangers = ["stranger", "2024-03-01.txt", "\u0662024-03-01.%064d.cadf" % 0, "site.before"]
    for name in (".hidden", *strangers):
        (site.folder / name).write_text("x")
    (site.folder / ("2024-03-01.%064d.cadf" % 0)).mkdir()
    answer = site.take(files=[site.put(contents(2))])
    assert answer.status == 0
    assert answer.error.decode().count("no file of the site") == 5 and ".hidden" not in answer.error.decode()
    assert site.atoms() == atoms_of(contents(1, 2)) and all((site.folder / name).exists() for name in strangers)
    for number in range(30):
        (site.folder / ("stranger-%d" % number)).write_text("x")
    assert len(site.take(files=[site.put(contents(2))]).error.splitlines()) == 21


@pytest.mark.parametrize("name", ["site", "window", ".lock"])
def test_links_are_refused(site, name):
    site.takes(contents(0))
    path = site.folder / (next(n for n in site.listed() if n != "site") if name == "window" else name)
    path.rename(site.path / "moved")
    path.symlink_to(site.path / "moved")
    if name != ".lock":
        with pytest.raises(cadf_toolkit.Fault, match="not a regular file: the site is damaged: "), opened(site):
            pass
    answer = site.take(files=[site.put(contents(3))])
    assert answer.status == 3 and str(path).encode() in answer.error


def test_each_bit_of_the_index_counts(site):
    data = index_of({"shared": ["%064d" % 1], "2024-03-01": ["%064d" % 2]})
    assert b"".join(cadf_site.Index.read(data).bytes()) == data
    for place in range(len(data)):
        for bit in range(8):
            wrong = bytearray(data)
            wrong[place] ^= 1 << bit
            assert cadf_site.Index.read(bytes(wrong)) is None
    assert cadf_site.Index.read(data + b"\n") is None and cadf_site.Index.read(data[:-1]) is None


@pytest.mark.parametrize("data", [
    b'CADF-SITE 1\nL "g"\nB day\nF ../../x %064d\n', b'CADF-SITE 1\nL "g"\nB day\nF 2024-03 %064d\n',
    b'CADF-SITE 1\nL "g"\nB month\nF 2024-03-01 %064d\n', b'CADF-SITE 1\nL "\\ud800"\nB day\nF shared %064d\n',
    *(b'CADF-SITE 1\nL %s\nB day\nF shared %%064d\n' % log for log in (b'""', b'"%s"' % (b"x" * 1025), b'"\\u0067"', b'"\x7f"', b'["g"]', b'"g" ')),
    b'CADF-SITE 1\nL "\xff"\nB day\nF shared %064d\n', b'CADF-SITE 1\nL "\\x"\nB day\nF shared %064d\n',
    b'CADF-SITE 1\nL "g"\nB day\nF 2024-03-01 %064d\nF shared %064d\n', b'CADF-SITE 1\nL "g"\nB day\nF shared %064d\n\n',
    b'CADF-SITE 1\nL "g"\nB day\nF shared %064d\nF shared %064d\n', b'CADF-SITE 2\nL "g"\nB day\nF shared %064d\n'])
def test_an_odd_index_is_refused(site, data):
    data = with_digest(data % ((1,) * data.count(b"%")))
    assert cadf_site.Index.read(data) is None
    site.folder.mkdir()
    (site.folder / "site").write_bytes(data)
    with pytest.raises(cadf_toolkit.Fault, match="not the file of a site") as refused:
        cadf_site.Folder(str(site.folder)).site()
    assert refused.value.status == 1


def test_a_long_name_of_a_log_takes_no_memory(site):
    """A name has at most 1,024 bytes; one of 16 MiB is refused in 1 GiB."""
    site.folder.mkdir()
    (site.folder / "site").write_bytes(with_digest(b'CADF-SITE 1\nL "%s"\nB day\n' % (b"x" * 2 ** 24)))
    answer = ended(os.path.join(TOOLS, "cadf-which"), [str(site.folder)], env=site.environment,
                   preexec_fn=lambda: resource.setrlimit(resource.RLIMIT_AS, (2 ** 30, 2 ** 30)))
    assert answer.status == 1 and answer.error.startswith(b"%s/site: not the file of a site" % os.fsencode(site.folder))


def test_a_damaged_window_is_no_fault_of_what_is_taken(site):
    site.takes(contents(0, 1, 2))
    path = next(site.folder.glob("2024-02-29.*"))
    path.write_bytes(path.read_bytes().replace(b"read", b"reap"))
    before = site.listed()
    for options, files in (([], [site.put(contents(3))]), (["--settle"], [])):
        site.takes(contents(5), by=())
        answer = site.take(*options, files=files)
        assert answer.status == (3 if files else 0)
        assert not files or answer.error.startswith(b"cadf-take: %s: digest: the site is damaged" % os.fsencode(path))
    assert before.items() - {("site", before["site"])} <= site.listed().items()


def linked(path):
    path.rename(path.parent.parent / "held")
    path.symlink_to(path.parent.parent / "held")


@pytest.mark.parametrize("damage, said", [
    (os.unlink, b"not there"), (linked, b"not a regular file"), (lambda path: os.truncate(path, 0), b"it holds something else than its name says")])
def test_what_a_lost_file_held_is_held_no_more(site, damage, said):
    """A take of the document that brought the file says what became of it. The other window is taken into."""
    first = contents(0, 1, 2)
    site.takes(first)
    path = next(site.folder.glob("2024-02-29.*"))
    damage(path)
    before = (site.folder / "site").read_bytes()
    answer = site.take(files=[site.put(first)])
    assert answer == (3, b"", b"cadf-take: %s: %s: the site is damaged: `cadf-sync --repair SITE/ HOST:SITE` mends it, or restore it as the guide says under `A damaged site`\n" % (os.fsencode(path), said))
    assert (site.folder / "site").read_bytes() == before
    site.takes(contents(5), by=())
    assert len(site.files()["2024-03-01"]) == 2


def test_nothing_new_is_taken_beside_a_link(site):
    """Nor what is larger than the file that the link is in place of."""
    site.takes(contents(0))
    path = next(site.folder.glob("2024-02-29.*"))
    linked(path)
    answer = site.take(files=[site.put(contents(*range(3, 30, 3)))])
    assert answer.status == 3 and b"%s: not a regular file: the site is damaged" % os.fsencode(path) in answer.error


def test_a_window_is_no_site_of_its_own(site):
    """As in `cadf-take north/*.cadf`, which names no SITE: what the first file held besides would be of another name than it says."""
    site.takes(contents(0, 2))
    before = site.listed()
    names = [str(site.folder / name) for name in sorted(before) if name != "site"]
    said = "%s: a file of the folder %s, which a take would damage: name the folder as SITE" % (names[0], site.folder)
    for files in names[1:], [site.put(contents(3))]:
        assert ended(site.tool, [names[0], *files], env=site.environment) == (1, b"", b"cadf-take: %s\n" % os.fsencode(said))
    assert site.listed() == before
    (site.folder / "site").unlink()
    assert ended(site.tool, names, env=site.environment).status == 0
    new = Site(site.path, os.path.dirname(site.tool), "new")  # what such a file holds is taken all the same
    assert new.take("--by", "day", files=names[:1]).status == 0 and new.atoms() == atoms_of(contents(0, 2))


def test_a_lost_index_loses_no_window(site):
    site.takes(contents(0, 1))
    (site.folder / "site").unlink()
    before = site.listed()
    line = "%s/site: it is not there, and files of windows are: the site is damaged: restore it as the guide says under `A damaged site`" % site.folder
    for words in ([], ["--by", "day"], ["--settle"]):
        files = [] if "--settle" in words else [site.put(contents(3))]
        assert site.take(*words, files=files) == (1, b"", b"cadf-take: %s\n" % os.fsencode(line))
    with pytest.raises(cadf_toolkit.Fault) as fault, opened(site):
        pass
    assert str(fault.value) == line and site.listed() == before
    new = Site(site.path, os.path.dirname(site.tool), "new")
    answer = new.take("--by", "day", files=[str(site.folder / name) for name in before])
    assert answer.status == 0 and new.atoms() == atoms_of(contents(0, 1))


def test_a_take_that_fails_removes_nothing_that_it_has_not_made(site):
    """`site` gets lost meanwhile: the files of its windows are all that is left of it."""
    site.takes(contents(0, 1))
    before = site.listed()
    waiting, fifo = site.path / "waiting", site.path / "fifo"
    waiting.write_text(WAITING)
    waiting.chmod(0o755)
    os.mkfifo(fifo)
    words = site.words(files=[site.put(dict(contents(3), events=7))])
    with subprocess.Popen(words, stderr=subprocess.PIPE, env=dict(site.environment, CADF=str(waiting), BUILT=site.command, FIFO=str(fifo))) as child:
        writer = writer_to(fifo, child)
        fifo.unlink()
        (site.folder / "site").unlink()
        os.close(writer)
        said = child.stderr.read()
    assert child.returncode == 1, said
    before.pop("site")
    assert site.listed() == before


# ---- Kills, faults, and several at once

def test_a_kill_before_each_call_leaves_all_or_nothing(site):
    first, second = contents(0, 1), contents(3, 4, 5)
    site.takes(first)
    source, old, new = site.put(second), atoms_of(first), atoms_of(first, second)
    seen = []
    for calls, copy in site.copies(files=[source]):
        seen.append(copy.atoms())
        copy.takes_here(source)
        assert copy.atoms() == new and copy.left() == [], calls
    assert seen == sorted(seen, key=len) and old in seen and new in seen and len(seen) > 6
    assert all(each in (old, new) for each in seen)


def test_each_name_is_given_to_what_is_on_the_disk(site):
    site.takes(contents(0, 1))
    words = ["--", ".", site.put(contents(3, 4, 5))]
    done, calls = calls_of(CALLS, site.tool, words, env=site.environment, cwd=site.folder, told="../calls")
    assert done.status == 0 and calls.count("rename") == 3
    places = [place for place, call in enumerate(calls) if call == "rename"]
    assert all(calls[place - 1] == "fsync" for place in places) and calls[places[-1] - 5:] .count("fsync") >= 3


def test_a_kill_of_a_first_take_leaves_a_site_or_none(site):
    source, new = site.put(contents(0, 1)), atoms_of(contents(0, 1))
    site.folder.mkdir()
    for _, copy in site.copies("--by", "day", files=[source]):
        assert not (copy.folder / "site").exists() or copy.atoms() in (set(), new)
        copy.takes_here(source, "day")
        assert copy.atoms() == new and copy.left() == []


def test_a_kill_before_each_call_of_settling_loses_nothing(site):
    values = [contents(key, key + 1) for key in range(0, 6, 3)]
    for value in values:
        site.takes(value)
    atoms = atoms_of(*values)
    for _, copy in site.copies("--settle"):
        assert copy.atoms() == atoms
        cadf_site.settle(str(copy.folder))
        cadf_site.settle(str(copy.folder))
        assert copy.listed() == copy.settled(atoms)


def test_each_call_that_fails_leaves_all_or_nothing(site):
    first, second = contents(0, 1), contents(3, 4, 5)
    old, new, source = atoms_of(first), atoms_of(first, second), site.put(second)
    site.takes(first)
    shutil.copytree(site.folder, site.path / "first")
    _, calls = calls_of(CALLS, site.tool, [".", source], env=site.environment, cwd=site.folder, told="../calls")
    for place in range(1, len(calls) + 1):
        shutil.rmtree(site.folder)
        shutil.copytree(site.path / "first", site.folder)
        done, _ = calls_of(CALLS, site.tool, [".", source], "failed", place, env=site.environment, cwd=site.folder, told="../calls")
        assert done.status in (0, 3), (place, calls[place - 1], done)
        assert site.atoms() in ((new,) if done.status == 0 else (old, new)), (place, calls[place - 1])
        site.takes_here(source)
        assert site.atoms() == new and site.left() == []


def test_files_stay_until_the_new_site_is_on_the_disk(site):
    """If its sync fails, or a signal comes before, the old `site` may be what a power cut leaves, and needs its files."""
    site.takes(contents(0))
    site.takes(contents(3))
    before, words = site.listed(), [CALLS, site.tool, ["--settle", "."]]
    shutil.copytree(site.folder, site.path / "first")
    _, calls = calls_of(*words, env=site.environment, cwd=site.folder, told="../calls")
    shutil.rmtree(site.folder)
    os.rename(site.path / "first", site.folder)
    place = len(calls) - calls[::-1].index("fsync")
    done, _ = calls_of(*words, "failed", place, env=site.environment, cwd=site.folder, told="../calls")
    assert done.status == 3 and before.keys() <= site.listed().keys()
    site.settles()
    assert site.listed() == site.settled(atoms_of(contents(0, 3)))


def test_two_takers_and_three_readers_at_once(site):
    """Each take brings two events of one day and one of the other. Some are killed, and made again. So is settling, at random."""
    site.takes(contents(0, 1, 2))
    seen, stop, chance = [], threading.Event(), random.Random(7)

    def read():
        while not stop.is_set():
            with opened(site) as (_, inputs):
                atoms = set().union(*(read_file(each.whole())[1] for each in inputs.values()))
            sizes = {part: len(own) for part, own in parts_of(atoms, "day").items()}
            seen.append(sizes["2024-02-29"] == 2 * sizes["2024-03-01"])

    def took(keys, files):
        for key, file in zip(keys, files):
            while True:
                running = subprocess.Popen(site.words(files=[file]), env=site.environment, stderr=subprocess.DEVNULL)
                with contextlib.suppress(subprocess.TimeoutExpired):
                    running.wait(chance.uniform(0.05, 0.6) if key % 2 else None)
                running.kill()
                key += 1
                if running.wait() == 0:
                    break

    def settled():
        while not stop.is_set():
            running = subprocess.Popen(site.words("--settle"), env=site.environment, stderr=subprocess.DEVNULL)
            with contextlib.suppress(subprocess.TimeoutExpired):
                running.wait(chance.uniform(0.05, 0.6))
            running.kill()
            running.wait()

    keys = list(range(3, 24, 3))
    files = [site.put(contents(key, key + 1, key + 2)) for key in keys]
    takers = [threading.Thread(target=took, args=(keys[start::2], files[start::2])) for start in range(2)]
    readers = [threading.Thread(target=work) for work in (read, read, read, settled)]
    for each in takers + readers:
        each.start()
    for each in takers:
        each.join()
    stop.set()
    for each in readers:
        each.join()
    assert len(seen) > 3 and all(seen)
    assert site.atoms() == atoms_of(contents(*range(24)))
    site.settles()
    site.settles()
    assert site.listed() == site.settled(atoms_of(contents(*range(24))))


def test_a_reader_looks_again(site, monkeypatch):
    """A take and a settling come after a reader has read `site`, so that files are gone that it names."""
    site.takes(contents(0, 1))
    site.takes(contents(3))
    real, files = cadf_site.Folder.input, iter([site.put(contents(6)), None])

    def late(folder, name):
        if name != "site" and (file := next(files, None)):
            monkeypatch.setattr(cadf_site.Folder, "input", real)
            site.settles()
            assert site.take(files=[file]).status == 0
        return real(folder, name)

    monkeypatch.setattr(cadf_site.Folder, "input", late)
    with opened(site) as (_, inputs):
        assert set().union(*(read_file(each.whole())[1] for each in inputs.values())) == atoms_of(contents(0, 1, 3, 6))


def test_an_index_that_cannot_be_read_is_named(site, monkeypatch):
    """As on a bad disk: it is no fault of what is printed."""
    site.takes(contents(0))
    monkeypatch.setattr(cadf_site, "opened_file", lambda *_: open("/proc/self/mem", "rb"))
    with cadf_site.Folder(str(site.folder)) as folder, pytest.raises(cadf_toolkit.Fault) as fault:
        folder.index()
    assert str(fault.value) == "%s: Input/output error" % (site.folder / "site")


def test_a_window_is_opened_by_its_name(site):
    """Whatever number of windows there is, so that one after the other costs no square: `site` is read, and no line of it judged."""
    counts = set()
    site.takes(contents(2))
    for more in (1, 999):
        files = dict(site.files(), **{"%04d-01-01" % year: ["%064d" % year] for year in range(1000, 1000 + more)})
        (site.folder / "site").write_bytes(index_of(files))
        with cadf_site.Folder(str(site.folder)) as folder:
            folder.site()
            calls = []
            sys.setprofile(lambda *event: calls.append(event))
            try:
                with cadf_site.opened_parts(folder, ["2024-03-01"]) as (_, inputs):
                    assert len(inputs) == 1
            finally:
                sys.setprofile(None)
            counts.add(len(calls))
    assert max(counts) < 2 * min(counts)


def test_what_a_site_names_and_lacks_is_named(site):
    site.takes(contents(0, 1))
    path = next(site.folder.glob("2024-*.cadf"))
    path.unlink()
    with pytest.raises(cadf_toolkit.Fault, match="not there: the site is damaged") as fault, opened(site):
        pass
    assert str(path) in str(fault.value)
    answer = site.take(files=[site.put(contents(3))])
    assert answer.status == 3 and b"%s: not there: the site is damaged" % os.fsencode(path) in answer.error


def test_settling_names_the_lost_file_of_a_window_that_has_one(site):
    """As a take into that window does. The others are settled."""
    site.takes(contents(0), contents(2), contents(5))
    path = next(site.folder.glob("2024-02-29.*"))
    path.unlink()
    line = "cadf-take: left out 2024-02-29: %s: not there: the site is damaged: `cadf-sync --repair SITE/ HOST:SITE` mends it, or restore it as the guide says under `A damaged site`\n" % path
    assert site.take("--settle") == (1, b"", line.encode())
    assert {part: len(files) for part, files in site.files().items() if files} == {"2024-02-29": 1, "2024-03-01": 1}


# ---- Wrong versions

REMOVES_ALL = ("now = self.folder.index()\n                for name in self.made - {INDEX}:",
               "self.index = now = self.folder.index()\n                for name in self.stale()[0]:")


@pytest.mark.parametrize("check, right, wrong", [
    (test_a_take_writes_the_windows_of_what_it_takes, "give(file, 0o666 & self.folder.found.st_mode)", "give(file, 0o644)"),
    (test_a_long_line_is_written_by_pieces, "found = LAST.fullmatch(piece)", 'found = re.match(rb"Z (.*)", piece)'),
    (test_what_is_held_already_changes_nothing, "digest in sizes or self.is_held(part, sizes, size)", "False"),
    (test_what_is_held_already_changes_nothing, '.count(b"\\n") == NOTHING', '.count(b"\\n") >= NOTHING'),
    (test_a_settled_folder_is_a_function_of_its_facts, "for each in self.digests(part) if each not in (*digests, digest)]", "for each in self.digests(part)]"),
    (test_a_first_take_that_is_refused_leaves_no_site, "if is_first and now and not", "if False and not"),
    (test_a_take_that_fails_removes_nothing_that_it_has_not_made, *REMOVES_ALL),
    (test_files_stay_until_the_new_site_is_on_the_disk, *REMOVES_ALL),
    (test_a_lost_index_loses_no_window, "if self.index is None and set(left) - {WORKING}:", "if False:"),
    (test_strangers_are_named_and_passed_over, 'WINDOW, SHARED = r"[0-9]{4}', 'WINDOW, SHARED = r"[0-9]{4}|\\d{7}'),
    (test_strangers_are_named_and_passed_over, 'not file.name.startswith(".") and', ""),
])
def test_a_wrong_version_is_caught(tmp_path, check, right, wrong):
    words = [["--windows", "1"], contents(1, 2)] if "refused" in check.__name__ else []
    is_caught(tmp_path, (right, wrong), check, functools.partial(Site, tmp_path), *words)
