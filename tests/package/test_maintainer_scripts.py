"""The scripts that dpkg runs as the package comes and goes: which programs they call, in which order, and what they remove."""
import os
import subprocess

import pytest

from tests import TOP, text_of

RELOAD = "systemctl --system daemon-reload"
COMPILE, COMPILED = "py3compile -p cadf /usr/share/cadf", "/usr/share/cadf/__pycache__"
MADE = [COMPILE, "systemd-sysusers cadf.conf", "systemd-tmpfiles --create cadf.conf"]
STARTED = [RELOAD, "deb-systemd-invoke try-restart cadf-listen@*.service"]
ENDED = ["deb-systemd-invoke stop cadf-*@*.timer", "deb-systemd-invoke stop cadf-*@*.service"]
PROGRAMS = ("py3compile", "systemd-sysusers", "systemd-tmpfiles", "systemctl", "deb-systemd-invoke")
PLACES = ("/run/systemd/system", "/etc/systemd/system", "/var/lib/systemd/timers")
STUB = '#!/bin/sh\necho "${0##*/} $*" >>"$CALLS"\n[ "${0##*/}" != "$FAILS" ]\n'


class System:
    """A system below a folder, with programs that write down how they are called; the one that is named fails."""

    def __init__(self, folder, programs=PROGRAMS, is_booted=True):
        self.folder = folder
        (folder / "bin").mkdir()
        for name in programs:
            (folder / "bin" / name).write_text(STUB)
            (folder / "bin" / name).chmod(0o755)
        for place in PLACES[1 - is_booted:]:
            (folder / place[1:]).mkdir(parents=True)

    def run(self, script, word, fails=""):
        """The status of a script, and the calls that it made."""
        text = text_of("install", "debian", "cadf." + script)
        for place in (*PLACES, COMPILED):
            text = text.replace(place, str(self.folder) + place)
        (self.folder / "calls").write_text("")
        (self.folder / script).write_text(text)
        environment = {"PATH": "%s:/usr/bin:/bin" % (self.folder / "bin"), "CALLS": str(self.folder / "calls"), "FAILS": fails}
        done = subprocess.run(["/bin/sh", str(self.folder / script), word], cwd=self.folder, env=environment, check=False)
        return done.returncode, (self.folder / "calls").read_text().splitlines()


@pytest.mark.parametrize("script, word, fails, wanted", [
    ("postinst", "configure", "", (0, MADE + STARTED)), ("postinst", "configure", "systemd-tmpfiles", (0, MADE + STARTED)),
    ("postinst", "configure", "deb-systemd-invoke", (0, MADE + STARTED)), ("postinst", "configure", "systemd-sysusers", (1, MADE[:2])),
    ("postinst", "configure", "py3compile", (0, MADE + STARTED)),
    ("postinst", "abort-upgrade", "", (0, [])),
    ("prerm", "remove", "", (0, ENDED)), ("prerm", "remove", "deb-systemd-invoke", (1, ENDED[:1])), ("prerm", "upgrade", "", (0, [])),
    ("postrm", "remove", "", (0, [RELOAD])), ("postrm", "purge", "", (0, [RELOAD])), ("postrm", "upgrade", "", (0, [RELOAD])),
])
def test_calls(tmp_path, script, word, fails, wanted):
    """Under systemd: a timer ends before what it starts, and no spool that is in the way keeps the package back."""
    assert System(tmp_path).run(script, word, fails) == wanted


@pytest.mark.parametrize("script, word, wanted", [("postinst", "configure", MADE), ("prerm", "remove", []), ("postrm", "purge", [])])
def test_without_systemd(tmp_path, script, word, wanted):
    """As in a container: users and folders are made, and nothing is asked of systemd."""
    assert System(tmp_path, is_booted=False).run(script, word) == (0, wanted)


@pytest.mark.parametrize("word", ["remove", "upgrade"])
def test_what_was_compiled(tmp_path, word):
    """It goes before the modules do, or others come in their place."""
    system = System(tmp_path)
    (tmp_path / COMPILED[1:]).mkdir(parents=True)
    (tmp_path / COMPILED[1:] / "cadf_site.cpython-311.pyc").write_text("")
    (tmp_path / "usr/share/cadf/cadf_site.py").write_text("")
    assert system.run("prerm", word)[0] == 0
    assert os.listdir(tmp_path / "usr/share/cadf") == ["cadf_site.py"]


def test_purge(tmp_path):
    """What enabled the units goes, and no file of others, nor a link that leads somewhere; a removal leaves all of it."""
    system = System(tmp_path)
    units, timers = (tmp_path / place[1:] for place in PLACES[1:])
    (units / "timers.target.wants").mkdir()
    for name in ("cadf-spool@audit.timer", "other.timer"):
        (units / "timers.target.wants" / name).symlink_to("/no/such/unit")
    (units / "cadf-bus@audit.service").write_text("")
    (units / "cadf-kept@audit.service").symlink_to(units / "cadf-bus@audit.service")
    for name in ("stamp-cadf-spool@audit.timer", "stamp-other.timer"):
        (timers / name).write_text("")
    before = sorted(str(path) for path in tmp_path.rglob("*") if path.is_symlink() or "stamp" in path.name)
    assert system.run("postrm", "remove")[0] == 0
    assert sorted(str(path) for path in tmp_path.rglob("*") if path.is_symlink() or "stamp" in path.name) == before
    assert system.run("postrm", "purge")[0] == 0
    gone = {os.path.basename(path) for path in before if not os.path.lexists(path)}
    assert gone == {"cadf-spool@audit.timer", "stamp-cadf-spool@audit.timer"} and (units / "cadf-bus@audit.service").exists()


def test_all_are_tried():
    assert {name.partition(".")[2] for name in os.listdir(os.path.join(TOP, "install", "debian")) if not name.endswith("overrides")} - {""} == {
        "postinst", "prerm", "postrm"}
