"""The units of examples/systemd: systemd understands them whole, what they may do is little, and the tools take their words.

The units are looked at in a folder of their own, beside the units of this system and the tools as a package installs
them. tests/release/booted.py runs them.
"""
import configparser
import os
import re
import shlex
import shutil
import subprocess

import pytest

from tests import TOP, text_of
from tests.command.vectors import read
from tests.machine import ended, said

UNITS = os.path.join(TOP, "examples", "systemd")
VECTORS = os.path.join(TOP, "examples", "vectors")
SYSTEM = "/lib/systemd/system"
INSTANCE = "audit"
OLDEST = 250  # the first systemd-analyze that judges files in a folder
SERVICE, TIMER = "cadf-spool@.service", "cadf-spool@.timer"
FOLDERS = "cadf-spool-folders@.service"
SYNC, SETTLE, SCRUB, FORGET = "cadf-sync@.service", "cadf-settle@.service", "cadf-scrub@.service", "cadf-forget@.service"
TIMERS = (TIMER, "cadf-sync@.timer", "cadf-settle@.timer", "cadf-scrub@.timer", "cadf-forget@.timer")
MOST_EXPOSED = {SERVICE: 0.5, SETTLE: 0.5, SCRUB: 0.5, FORGET: 0.5, SYNC: 1.2, "cadf-listen@.service": 2.5, FOLDERS: 1.2}  # of 10, for each service
# What docs/OPERATING.md says of them: no capability, network or device; two folders to write to; each five minutes. A run
# of an input of 2^30 bytes takes four times as much memory.
SAID = [
    (SERVICE, "Service", "CapabilityBoundingSet", ""), (SERVICE, "Service", "PrivateNetwork", "yes"),
    (SERVICE, "Service", "PrivateDevices", "yes"), (SERVICE, "Service", "ProtectSystem", "strict"),
    (SERVICE, "Service", "StateDirectory", "cadf/%i"), (SERVICE, "Service", "ReadWritePaths", "/var/spool/cadf/%i"),
    (SERVICE, "Service", "MemoryMax", "5G"), (TIMER, "Timer", "OnCalendar", "*:0/5"), (TIMER, "Timer", "Persistent", "yes"),
    ("cadf-listen@.service", "Service", "StateDirectory", "cadf/%i cadf/%i/bus"), ("cadf-listen@.service", "Service", "MemoryMax", "1G"),
    (SYNC, "Service", "CapabilityBoundingSet", ""), (SYNC, "Service", "StateDirectory", "cadf/%i"),
    (SYNC, "Service", "EnvironmentFile", "/etc/cadf/%i.peer"), (SYNC, "Service", "LoadCredential", "key:/etc/cadf/%i.key"),
    ("cadf-sync@.timer", "Timer", "OnCalendar", "*:0/15"),
    (SETTLE, "Service", "CapabilityBoundingSet", ""), (SETTLE, "Service", "PrivateNetwork", "yes"),
    (SETTLE, "Service", "ProtectSystem", "strict"), (SETTLE, "Service", "StateDirectory", "cadf/%i"),
    ("cadf-settle@.timer", "Timer", "OnCalendar", "*-*-* 03:00"),
    (SCRUB, "Service", "CapabilityBoundingSet", ""), (SCRUB, "Service", "PrivateNetwork", "yes"),
    (SCRUB, "Service", "ProtectSystem", "strict"), (SCRUB, "Service", "StateDirectory", "cadf/%i"),
    ("cadf-scrub@.timer", "Timer", "OnCalendar", "*-*-* 04:00"),
    (FORGET, "Service", "CapabilityBoundingSet", ""), (FORGET, "Service", "PrivateNetwork", "yes"),
    (FORGET, "Service", "ProtectSystem", "strict"), (FORGET, "Service", "StateDirectory", "cadf/%i"),
    (FORGET, "Service", "EnvironmentFile", "/etc/cadf/%i.keep"), ("cadf-forget@.timer", "Timer", "OnCalendar", "*-*-* 02:00"),
]


def analyzed(*words):
    """The status of systemd-analyze, and what it says."""
    return said("systemd-analyze", "--no-pager", *words)


def settings(name):
    """The settings of a unit, of which the last counts."""
    found = configparser.ConfigParser(interpolation=None, strict=False)
    found.optionxform = str
    found.read(os.path.join(UNITS, name), encoding="utf-8")
    return found


@pytest.fixture(scope="module")
def root(tmp_path_factory):
    """A folder with the units and the tools, as they are put into a system."""
    if shutil.which("systemd-analyze") and int(analyzed("--version")[1].split()[1]) < OLDEST:
        pytest.skip("systemd-analyze is older than %d" % OLDEST)
    folder = tmp_path_factory.mktemp("units")
    shutil.copytree(SYSTEM, folder / SYSTEM[1:], symlinks=True)
    shutil.copytree(os.path.join(TOP, "tools"), folder / "usr" / "bin")
    shutil.copy2("/bin/systemd-tmpfiles", folder / "usr" / "bin")
    system = folder / "etc" / "systemd" / "system"
    system.mkdir(parents=True)
    for name in (*TIMERS, *MOST_EXPOSED):
        shutil.copy2(os.path.join(UNITS, name), system)
    return folder


def instance(name):
    return name.replace("@.", "@%s." % INSTANCE)


@pytest.mark.needs("systemd-analyze")
def test_understood(root):
    names = sorted(name for name in os.listdir(UNITS) if name.endswith((".service", ".timer")))
    assert names == sorted([*TIMERS, *MOST_EXPOSED])
    assert analyzed("verify", "--man=no", "--root=%s" % root, *map(instance, names)) == (0, "")


@pytest.mark.needs("systemd-analyze")
@pytest.mark.parametrize("name", MOST_EXPOSED)
def test_exposure(root, name):
    most = round(10 * MOST_EXPOSED[name])
    status, told = analyzed("security", "--offline=yes", "--root=%s" % root, "--threshold=%d" % most, instance(name))
    assert status == 0, "\n".join(line for line in told.splitlines() if line[:1] in "✗→")


@pytest.mark.parametrize("unit, section, key, value", SAID)
def test_setting(unit, section, key, value):
    assert settings(unit)[section][key] == value


def makes_folders(top, capabilities):
    """The status of the line of the unit that makes a spool's folders, with these capabilities alone, in a folder of the test's own."""
    text = "".join(re.findall(r"(?m)^StandardInputText=(.*\n)", text_of(UNITS, FOLDERS))).replace("%i", INSTANCE).replace("/var/spool/cadf", str(top)).replace(" cadf-in ", " 2003 ")
    text = re.sub("(?<= )cadf(?= )", "2002", text)
    bounded = ["setpriv", "--no-new-privs", "--bounding-set=" + ",".join(["-all", *("+" + name for name in capabilities)])]
    done = subprocess.run([*bounded, *shlex.split(settings(FOLDERS)["Service"]["ExecStart"])], input=text.encode(), capture_output=True)
    return done.returncode


@pytest.mark.root
@pytest.mark.needs("setpriv", "systemd-tmpfiles")
def test_folders(tmp_path):
    """A spool's folders are made with the capabilities of their unit, also where they are there already, and each of these is needed."""
    names = [name[len("CAP_"):].lower() for name in settings(FOLDERS)["Service"]["CapabilityBoundingSet"].split()]
    spool = tmp_path / INSTANCE
    for _ in range(2):
        assert makes_folders(tmp_path, names) == 0
        found = {path.name: (path.stat().st_uid, path.stat().st_gid, path.stat().st_mode) for path in (spool, *spool.iterdir())}
        assert found == {INSTANCE: (2002, 2003, 0o41730), ".spool.lock": (2002, 2002, 0o100600),
                         **{name: (2002, 2002, 0o40700) for name in ("taking", "taken", "set-aside")}}
        spool.chmod(0o777)
    for name in names:
        top = tmp_path / ("without-" + name)
        top.mkdir()
        assert makes_folders(top, [each for each in names if each != name]) != 0, name


def test_configured(tmp_path):
    """A package is configured also where systemd-tmpfiles refuses a folder, as it does what a sender put in the place of one that was gone."""
    for name, status in (("systemd-sysusers", 0), ("systemd-tmpfiles", 73), ("systemctl", 0), ("deb-systemd-invoke", 0)):
        (tmp_path / name).write_text("#!/bin/sh\necho %s $*\nexit %d\n" % (name, status))
        (tmp_path / name).chmod(0o755)
    status, told = said("/bin/sh", os.path.join(TOP, "install", "debian", "cadf.postinst"), "configure", env={"PATH": str(tmp_path)})
    assert (status, told.splitlines()[:2]) == (0, ["systemd-sysusers cadf.conf", "systemd-tmpfiles --create cadf.conf"])


def runs_line(name, places, cadf):
    """Runs the line ExecStart of a unit, over places of the test's own."""
    program, *words = shlex.split(settings(name)["Service"]["ExecStart"])
    done = ended(os.path.join(TOP, "tools", program), [places.get(word, word) for word in words], env={**os.environ, "CADF": cadf})
    assert done.status == 0, done


def test_words(cadf, tmp_path):
    """The tools take the words of the units, over folders of the test's own: what came twice is one file of each window then."""
    spool, site = tmp_path / "spool", tmp_path / "site"
    spool.mkdir()
    places = {"%i": "g", "/var/lib/cadf/%i/site": str(site), "/var/lib/cadf/%i/site/": str(site) + "/", "/var/spool/cadf/%i": str(spool)}
    for name in ("north.json", "south.json"):
        shutil.copy(os.path.join(VECTORS, name), spool)
        runs_line(SERVICE, places, cadf)
    runs_line(SETTLE, places, cadf)
    runs_line(SCRUB, places, cadf)
    assert b"\nS " in (site / ".state").read_bytes()
    runs_line(FORGET, {**places, "${KEEP}": "36500d", "$OPTIONS": "--json"}, cadf)
    named = [line.split()[1] for line in (site / "site").read_text().splitlines() if line.startswith("F ")]
    assert len(named) > 1 and sorted(named) == sorted(set(named))
    agreed = ended(os.path.join(TOP, "tools", "cadf-agree"), [str(site), os.path.join(VECTORS, "both.cadf")], env={**os.environ, "CADF": cadf})
    assert agreed == (0, b"", b"")


def test_words_of_the_exchange(cadf, tmp_path):
    """cadf-sync takes the words of its unit, over sites of its own, on this machine."""
    runs_line(SYNC, {"$OPTIONS": "--pull", "/var/lib/cadf/%i/site": str(tmp_path / "site.cadf"), "${PEER}": os.path.join(VECTORS, "north.cadf")}, cadf)
    assert (tmp_path / "site.cadf").read_bytes() == read("north.cadf")
