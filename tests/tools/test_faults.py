"""Each tool with each fault: the status, and a line with the file's name, the system's words and what to do next.

A file that isn't there or can't be read, a folder, no permission, a full disk; an inventory, a sketch, a conflict list, a script
or a page in the place of a replica file; a damaged site, no log named, another log, a file that is too large.
"""
import json
import os
import re
import resource
import shutil
import signal
import subprocess
import tempfile

import pytest

from tests import TOP
from tests.tools import others
from tests.tools.copies import copied
from tests.tools.odd_logs import EVENT

TOOLS = os.path.join(TOP, "tools")
DISK = 4096  # bytes that a file may have where the disk is full
LARGE = 2 ** 30 + 1

# What each tool is given, by its name and what the file is to it. SITE is a copy of a good site; SPOOL is a spool with the file.
CALLS = {
    "which": "which --log g FILE", "agree": "agree good.cadf FILE", "take": "take SITE FILE", "take it as the site": "take FILE good.cadf",
    "conflicts": "conflicts FILE", "report": "report --log g FILE", "from-openstack": "from-openstack --log g FILE",
    "spool": "spool SITE SPOOL", "spool it as the site": "spool --log g FILE SPOOL", "listen": "listen --spool DIR --url-file FILE",
    "choices": "conflicts --rule FILE good.cadf", "authority": "listen --spool DIR --url amqp://h/ --ca FILE", "others": "conflicts good.cadf FILE",
    "no log": "report FILE", "aside": "report --set-aside FILE good.cadf", "a new site": "take NEW FILE", "seal": "seal FILE", "earlier seal": "seal --compare FILE good.cadf",
}
READERS = ("which", "agree", "take", "take it as the site", "conflicts", "report", "spool", "spool it as the site", "seal")
PLAIN = ("which", "agree", "take", "conflicts", "report", "from-openstack", "choices", "listen", "authority", "seal", "earlier seal")
# Of each fault: the file, what is said of it, and by which calls, with the status of each.
DAMAGED = "the file is damaged: fetch it again, or restore it as the guide says under `A damaged site`"
NO_LOG = "no log named: an event by itself names none: give a file that does, or --log ID if the tool takes it"
OTHER = "other log%s: one site has one log; `cadf check FILE` says which log a file is of"
FAULTS = [
    ("absent", "No such file or directory", dict.fromkeys(PLAIN, 3)),
    ("absent/", "No such file or directory: is that its name? `cadf-take --by day SITE/ FILE..` makes a new site",
     dict.fromkeys(("which", "agree", "conflicts", "report", "take it as the site", "seal"), 3)),
    ("/proc/self/mem", "Input/output error",
     dict.fromkeys(("which", "agree", "take", "conflicts", "report", "from-openstack", "choices", "listen", "seal", "earlier seal", "aside"), 3)),
    ("folder", "Is a directory", dict.fromkeys(("take", "from-openstack", "choices", "listen", "authority", "earlier seal"), 3)),
    ("folder", "no site in it: `cadf-take --by day SITE/ FILE..` makes one",
     dict.fromkeys(("which", "agree", "conflicts", "others", "report", "take it as the site", "spool it as the site", "seal"), 1)),
    ("secret", "Permission denied", dict.fromkeys((*PLAIN, "take it as the site"), 3)),
    ("secret", "Permission denied: make it readable for this user, and put it back", {"spool": 1}),
    ("inventory", "an inventory, which holds no facts: `cadf missing-by SITE INVENTORY` answers it", {call: 1 for call in READERS if call != "agree"}),
    ("sketch", "a sketch, which holds no facts: `cadf missing-by-sketch SITE SKETCH` answers it", {call: 1 for call in READERS if call != "agree"}),
    ("site-seal", "the seal of a folder, which holds no facts: `cadf-seal --compare SEAL SITE/` reads it", dict.fromkeys(READERS, 1)),
    ("seal", "a seal, which holds no facts: take the site's file", dict.fromkeys(READERS, 1)),
    ("site-proof", "a proof, which holds no facts: `cadf-seal --verify SEAL FACTS PROOF` reads it", dict.fromkeys(READERS, 1)),
    ("proof", "a proof, which holds no facts: `cadf verify SEAL FACTS PROOF` reads it", dict.fromkeys(READERS, 1)),
    *((file, "version: no seal of a folder, as `cadf-seal SITE/` writes it", {"earlier seal": 1}) for file in ("seal", "inventory", "good.cadf", "index")),
    ("site-seal", "truncated: it is damaged: have it sent again", {"earlier seal": 1}),
    ("index", "the file `site` of a folder: name the folder, or the files that it names", dict.fromkeys(READERS, 1)),
    ("split", "a split file, which no command reads: take the files that it was made of", dict.fromkeys(READERS, 1)),
    ("conflicts", "a conflict list, which cadf writes and does not read: take the site's file", dict.fromkeys(READERS, 1)),
    ("script", "a script: `cadf rehearse` reads it", dict.fromkeys(READERS, 1)),
    ("lines", "lines of JSON: `cadf-from-openstack --log ID FILE` makes a document of them", dict.fromkeys(READERS, 1)),
    ("wide", "not JSON", {"which": 1}),
    ("page", "a page of cadf-report: take the site's file", dict.fromkeys(READERS, 1)),
    ("inventory", "it begins as an inventory, which holds no facts: `cadf missing-by SITE INVENTORY` answers it", {"from-openstack": 1}),
    ("sketch", "it begins as a sketch, which holds no facts: `cadf missing-by-sketch SITE SKETCH` answers it", {"from-openstack": 1}),
    ("conflicts", "it begins as a conflict list, which cadf writes and does not read: take the site's file", {"from-openstack": 1}),
    ("script", "it begins as a script: `cadf rehearse` reads it", {"from-openstack": 1}),
    ("page", "it begins as a page of cadf-report: take the site's file", {"from-openstack": 1}),
    ("good.cadf", "it begins as a replica file: `cadf-take SITE FILE` takes it as it is", {"from-openstack": 1}),
    ("inventory", "an inventory, which holds no facts: `cadf missing-by SITE INVENTORY` answers it", {"choices": 1}),
    ("page", "a page of cadf-report: take the site's file", {"choices": 1}),
    ("good.cadf", "a replica file: `cadf-take SITE FILE` takes it as it is", {"choices": 1}),
    ("damaged", "digest: " + DAMAGED, dict.fromkeys(READERS, 1)),
    ("cut", "truncated: " + DAMAGED, dict.fromkeys(READERS, 1)),
    ("emptied.cadf", "not JSON: " + DAMAGED, dict.fromkeys(READERS, 1)),
    ("lacking", "line 4: order: " + DAMAGED, dict.fromkeys(READERS, 1)),
    ("of-windows", "version: a later release wrote it, or line ends were changed on the way: fetch it again, or have `cadf show` of it sent",
     dict.fromkeys(READERS, 1)),
    ("event.json", NO_LOG, dict.fromkeys(("agree", "conflicts", "no log", "a new site", "seal"), 1)),
    ("event.json", NO_LOG, {"take it as the site": 1}),
    ("event.json", "an event by itself, and no site's file: name another SITE", {"spool it as the site": 1}),
    ("other.json", OTHER % ': "h"', dict.fromkeys(("which", "agree", "spool", "spool it as the site"), 1)),
    ("other.json", OTHER % "", dict.fromkeys(("take", "take it as the site", "report", "others"), 1)),
    ("large", "too large: no file above 2^30 bytes is read; give smaller ones to a site's folder: cadf-take --by day SITE/ FILE..",
     dict.fromkeys(("which", "agree", "take", "take it as the site", "conflicts", "report", "spool it as the site", "seal"), 1)),
    ("large", "larger than 1073741824 bytes: split it, or give a greater --size", {"spool": 1}),
    ("large", "line 1: set aside: longer than 67108864 bytes: see --longest", {"from-openstack": 1}),
    ("large", "line 1: not LETTER KEY PLACE DIGEST and a line feed", {"choices": 1}),
]
# With a full disk: a call, its status, and its line. TEMPORARY is the folder of temporary files, PAGE the file of its output.
FULL = [
    ("take SITE many.json", "cadf-take: SITE: write fault: File too large"), ("take NEW many.json", "cadf-take: NEW: write fault: File too large"),
    ("agree SITE many.json", "TEMPORARY: write fault: File too large: make room there, or name another folder by TMPDIR"),
    ("report many.json", "cadf-report: TEMPORARY: write fault: File too large: make room there, or name another folder by TMPDIR"),
    ("report good.cadf", "cadf-report: standard output: write fault: File too large"),
    ("conflicts open.cadf", "cadf-conflicts: standard output: write fault: File too large"),
    ("conflicts --rule choices open.cadf", "cadf-conflicts: standard output: write fault: File too large"),
    ("from-openstack --log g many.json", "cadf-from-openstack: standard output: write fault: File too large"),
    ("from-openstack --log g --split NEW many.json", "cadf-from-openstack: NEW0001.json: write fault: File too large"),
    ("from-openstack --log g --set-aside NEW page", "cadf-from-openstack: NEW: write fault: File too large"),
    ("spool SITE MANY", "cadf-spool: many.json: waits: MANY: File too large: make room there"),
]
# Calls, and what another program than the command doesn't write.
ANOTHER = [
    ("which good.cadf", "answer of `cadf check`"), ("conflicts open.cadf", "replica file"), ("conflicts --rule choices open.cadf", "replica file"),
    ("conflicts open.cadf good.cadf", "replica file"), ("agree good.cadf many.json", "sketch"), ("report good.cadf", "answer of `cadf --version`"),
    ("seal good.cadf", "seal"), ("seal --prove d.json good.cadf", "proof"), ("seal --verify seal d.json proof", "answer of `cadf verify`"),
    ("events good.cadf", "log"), ("events --bulk i good.cadf", "answer of `cadf check`"),
    ("sync many.json SITE", "replica file"), ("sync open.cadf SITE", "sketch"), ("sync --conflicts good.cadf SITE", "replica file"),
]
ROWS = [(file, said, call, status) for file, said, calls in FAULTS for call, status in calls.items()]


def document(keys, log="g", **members):
    return json.dumps({"id": log, "events": [dict(EVENT, id=key, **members) for key in keys]})


def put(name, data):
    with open(name, "wb") as file:
        file.write(data if isinstance(data, bytes) else data.encode())


class Caller:
    """Who calls the tools, in the folder of the files."""

    def __init__(self, cadf, tools=TOOLS, user=()):
        self.cadf, self.tools, self.user = cadf, tools, user

    def run(self, words, own, limit=None, **more):
        """A tool's status and the lines that it tells, where its output goes to a file."""
        tool = os.path.join(self.tools, "cadf-" + words[0])
        words = [*self.user, *(["env", "CADF=" + self.cadf, others.PYTHON] if self.user else []), tool, *words[1:]]
        with open(os.path.join(own, "output"), "wb") as file:
            done = subprocess.run(words, stdout=file, stderr=subprocess.PIPE, env={**os.environ, "CADF": self.cadf, **more}, timeout=60,
                                  preexec_fn=limit and (lambda: resource.setrlimit(resource.RLIMIT_FSIZE, (limit, limit))))
        return done.returncode, done.stderr.decode().splitlines()


def make_files(cadf):
    """The files of the table, each by its name."""
    def made(output, *words):
        with open(output, "wb") as file:
            subprocess.run(words, stdout=file, stderr=subprocess.DEVNULL, env={**os.environ, "CADF": cadf}, check=words[0] == cadf)

    put("d.json", document(["e1"]))
    put("event.json", json.dumps(dict(EVENT, id="e2")))
    put("other.json", document(["e1"], log="h"))
    put("many.json", document(["e%d" % number for number in range(100)], more="x" * 200))
    put("many-2.json", document(["e%d" % number for number in range(100)], more="y" * 200))
    made("good.cadf", cadf, "join", "d.json")
    made("open.cadf", cadf, "join", "many.json", "many-2.json")
    made("inventory", cadf, "inventory", "good.cadf")
    made("sketch", cadf, "sketch", "good.cadf")
    made("conflicts", cadf, "show", "--conflicts", "good.cadf")
    put("site-seal", 'CADF-SITE-SEAL 1\nL "g"\nB day\n')
    put("site-proof", 'CADF-SITE-PROOF 1\nL "g"\nB day\n')
    put("proof", 'CADF-PROOF 1\nL "g"\n')
    put("seal", 'CADF-SEAL 1\nL "g"\n')
    put("index", 'CADF-SITE 1\nL "g"\nB day\n')
    put("split", 'CADF-SPLIT 1\nL "g"\nB day\n')
    put("script", "learn 0 {}\n")
    put("lines", "%s\n%s\n" % (document(["e1"]), document(["e4"])))
    put("wide", ("%s\n%s\n" % (document(["e1"]), document(["e4"]))).encode("utf-16"))
    made("page", os.path.join(TOOLS, "cadf-report"), "good.cadf")
    with open("good.cadf", "rb") as file:
        good = file.read()
    put("damaged", good.replace(b"read", b"reap"))
    put("cut", good[:-20])
    put("emptied.cadf", "")
    put("lacking", good.replace(b'[2,0,"e1"]\n', b""))
    put("of-windows", good.replace(b"\n", b"\r\n"))
    os.mkdir("folder")
    put("secret", document(["e3"]))
    os.chmod("secret", 0o600)
    with open("large", "wb") as file:
        file.truncate(LARGE)
    made("open", os.path.join(TOOLS, "cadf-conflicts"), "open.cadf")
    with open("open", "rb") as file:
        put("choices", b"".join(line for line in file if re.match(b'E "[^"]*" 1 ', line)))


@pytest.fixture(scope="module")
def files(cadf):
    """A folder with the files."""
    back = os.getcwd()
    with others.open_folder() as folder:
        os.chdir(folder)
        os.mkdir("own")
        make_files(cadf)
        os.chdir(back)
        yield folder


@pytest.fixture
def caller(cadf, files, monkeypatch):
    monkeypatch.chdir(files)
    return Caller(cadf)


def filled(text, file=""):
    """A folder of a call's own, which is made as the call asks, what each word names there, and the call's words."""
    own = tempfile.mkdtemp(dir="own")
    spool = os.path.join(own, "spool")
    os.mkdir(spool)
    names = {"FILE": file, "SITE": os.path.join(own, "site.cadf"), "NEW": os.path.join(own, "new"), "DIR": os.path.join(own, "dir"),
             "SPOOL": spool, "MANY": spool}
    if "SITE" in text:
        shutil.copy("good.cadf", names["SITE"])
    if text.endswith("SPOOL"):
        arrived = "good.cadf" if "FILE" in text else file
        put = os.link if os.stat(arrived).st_size > 2 ** 20 else shutil.copy2  # a file with two names waits, but for the caller's
        put(arrived, os.path.join(spool, "in.cadf"))
    if text.endswith("MANY"):
        shutil.copy("many.json", spool)
    return own, names, [names.get(word, word) for word in text.split()]


def line_of(call, file, said):
    """The line that a call has to print of a file."""
    tool = "cadf-" + CALLS[call].split()[0]
    if call == "spool":
        return "cadf-spool: in.cadf: set aside: " + said
    if call == "spool it as the site":
        return "cadf-spool: %s: %s" % (os.path.realpath(file), said)
    return ("" if tool in ("cadf-which", "cadf-agree") else tool + ": ") + "%s: %s" % (file, said)


def check(caller, file, said, call, status):
    """Makes the call of a row."""
    own, _, words = filled(CALLS[call], file)
    if caller.user:
        for each in (own, os.path.join(own, "spool")):
            os.chown(each, others.OTHER, others.OTHER)
    found, lines = caller.run(words, own)
    assert (found, lines.count(line_of(call, file, said))) == (status, 1), lines


def check_full(caller, text, line, unbuffered):
    """Makes a call on a full disk: the line names what could not be written, whether output is buffered or not."""
    own, names, words = filled(text)
    status, lines = caller.run(words, own, DISK, PYTHONUNBUFFERED=unbuffered)
    for name in ("SITE", "NEW", "MANY"):
        line = line.replace(name, names[name])
    line = re.escape(line).replace("TEMPORARY", re.escape(tempfile.gettempdir()))
    assert status == 3 and any(re.fullmatch(line, each) for each in lines), lines


@pytest.mark.parametrize("row", [pytest.param(row, id="%s of %s" % (row[2], row[0])) for row in ROWS if row[0] != "secret"])
def test_fault(caller, row):
    check(caller, *row)


@others.needed
@pytest.mark.parametrize("row", [pytest.param(row, id=row[2]) for row in ROWS if row[0] == "secret"])
def test_what_a_user_may_not_read(caller, row):
    with others.open_folder() as folder:
        tools, cadf = others.shared_tools(folder, os.path.join(TOOLS, "cadf-take"), caller.cadf)
        check(Caller(cadf, tools, others.as_user(others.OTHER, others.OTHER)), *row)


@pytest.mark.parametrize("unbuffered", ["", "1"], ids=["buffered", "unbuffered"])
@pytest.mark.parametrize("text, line", FULL, ids=[text for text, _ in FULL])
def test_full_disk(caller, text, line, unbuffered):
    check_full(caller, text, line, unbuffered)


@pytest.mark.parametrize("program", ["true", "echo \"$@\"", "head -c 200000 /dev/zero | tr '\\0' '['"])
@pytest.mark.parametrize("text, answer", ANOTHER, ids=[text for text, _ in ANOTHER])
def test_another_program(caller, program, text, answer):
    """What another program than the command says is no answer: not that no key is open, that a fact is shown, or a file's seal."""
    own, _, words = filled(text)
    caller.cadf = os.path.join(own, "another")
    put(caller.cadf, "#!/bin/sh\n%s\n" % program)
    os.chmod(caller.cadf, 0o755)
    status, lines = caller.run(words, own)
    said = "%s: what it writes is no %s" % (caller.cadf, answer)
    assert status == 3 and lines[0] in (said, "cadf-%s: %s" % (words[0], said)) and os.path.getsize(os.path.join(own, "output")) == 0, lines


@pytest.mark.parametrize("text, answer", [
    ("conflicts open.cadf", "replica file"), ("conflicts --rule choices open.cadf", "replica file"), ("report good.cadf", "replica file"),
    ("agree good.cadf many.json", "sketch"), ("seal good.cadf", "seal"), ("seal --prove d.json good.cadf", "proof")])
def test_cut_text(caller, text, answer):
    """What a program writes that loses the status of a `cadf` that was ended is no answer either: it has no last line."""
    own, _, words = filled(text)
    put(os.path.join(own, "losing"), "#!/bin/sh\n'%s' \"$@\" | sed '/^Z /d'\n" % caller.cadf)
    caller.cadf = os.path.join(own, "losing")
    os.chmod(caller.cadf, 0o755)
    status, lines = caller.run(words, own)
    assert (status, os.path.getsize(os.path.join(own, "output"))) == (3, 0)
    assert lines[0].endswith("%s: what it writes is no %s" % (caller.cadf, answer)), lines


def hung_up(cadf, tool, ignored=signal.SIG_DFL):
    """How a tool ends whose terminal goes while it reads a file: its status, and what it says."""
    put("hanging", '#!/bin/sh\nkill -HUP $PPID\nexec "%s" "$@"\n' % cadf)
    os.chmod("hanging", 0o755)
    done = subprocess.run([tool, "good.cadf", "d.json"], stderr=subprocess.PIPE, env={**os.environ, "CADF": os.path.abspath("hanging")},
                          preexec_fn=lambda: signal.signal(signal.SIGHUP, ignored))
    return done.returncode, done.stderr.decode()


@pytest.mark.parametrize("name", ["cadf-which", "cadf-agree"])
def test_hangup(caller, name):
    """A terminal that goes ends a call, which reads no further file."""
    assert hung_up(caller.cadf, os.path.join(TOOLS, name)) == (128 + signal.SIGHUP, name + ": stopped by SIGHUP\n")


def test_nohup(caller):
    assert hung_up(caller.cadf, os.path.join(TOOLS, "cadf-which"), signal.SIG_IGN) == (0, "")


# ---- Copies of the tools that do wrong

def test_copy_that_goes_on_is_caught(caller, tmp_path):
    tools = copied(tmp_path / "copy", "class Stopped(BaseException):", "class Stopped(Fault):")
    assert hung_up(caller.cadf, os.path.join(tools, "cadf-which"))[1] != "cadf-which: stopped by SIGHUP\n"


@pytest.mark.parametrize("file, right, wrong", [
    ("damaged", '"%s: %s" % (text, advice) for begin', "text for begin"),
    ("lines", "OF_LINES if are_lines(first) else None", "None"),
    ("wide", 'line.decode("utf-8-sig")', "line"),
    ("script", "if first.startswith(begin)), None)", "if False), None)"),
    ("lacking", '    "line ": DAMAGED,\n', ""),
    ("page", 'b"<!doctype html>": ', 'b"<!DOCTYPE html>": '),
    ("absent", 'else name)\n                raise Fault("%s: %s" % (name_shown(name), fault.strerror)', 'else name)\n                raise Fault("%s: %s" % (name_shown(name), "read fault")')])
def test_copy_that_says_less_is_caught(caller, tmp_path, file, right, wrong):
    copy = Caller(caller.cadf, copied(tmp_path / "copy", right, wrong))
    with pytest.raises(AssertionError):
        for row in ROWS:
            if row[0] == file and row[2] in ("which", "take"):
                check(copy, *row)


@pytest.mark.parametrize("text, right, wrong", [
    ("conflicts --rule choices open.cadf", "if isinstance(getattr(sys.stdout, \"buffer\", None), io.RawIOBase):", "if False:"),
    ("agree SITE many.json", '"" if where else NO_ROOM', '""')])
def test_copy_that_loses_a_full_disk_is_caught(caller, tmp_path, text, right, wrong):
    copy = Caller(caller.cadf, copied(tmp_path / "copy", right, wrong))
    with pytest.raises(AssertionError):
        for unbuffered in ("", "1"):
            check_full(copy, text, dict(FULL)[text], unbuffered)
