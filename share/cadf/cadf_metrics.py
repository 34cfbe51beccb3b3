"""Numbers of a tool's run, in a file that the textfile collector of Prometheus' node_exporter reads.

A run that succeeds replaces the file whole. One that fails leaves it, so the time of the last success grows old. What is counted
goes on from what the file had.
"""
import collections
import contextlib
import hashlib
import itertools
import os
import re
import stat
import subprocess
import sys
import tempfile
import time

import cadf_site
from cadf_logs import atoms
from cadf_plan import picked
from cadf_rulings import standing
from cadf_state import seen_rulings
from cadf_times import EPOCH, SECOND, begin
from cadf_toolkit import (DIFFERS, DONE, FAILED, MEMORY, REFUSED, Fault, cadf, name_shown, naming, new_file, opened, say, started,
                          temporary_folder, tool)

HELP = {
    "facts_taken_total": "Facts that were taken into the site; of cadf-spool, those that it held before among them.",
    "facts_erased_total": "Facts that were erased, or that came of what was erased and were dropped.",
    "facts_lacked": "Facts of the other site that the site lacks.",
    "facts_lacked_by_peer": "Facts that the peer lacked when the last run compared.",
    "facts_erased_by_peer": "Facts of the site that the peer erased.",
    "windows_not_kept_by_peer": "Windows of the site that the peer keeps no more.",
    "files": "Files of the last run, by what became of them.",
    "set_aside_files": "Files that wait in set-aside/ for a person.",
    "set_aside_bytes": "Bytes of these files and of the reasons beside them.",
    "set_aside_oldest_timestamp_seconds": "Since when the first of them waits.",
    "open_conflicts": "Open conflicts of the site.",
    "unseen_rulings": "Ruled keys at which nobody here has looked since their rulings or values changed.",
    "largest_window_bytes": "Bytes of the site's largest window.",
    "oldest_scrub_timestamp_seconds": "When of all whole files the one was read that was not read for longest.",
    "damaged_windows": "Windows of which a file is damaged or gone.",
    "doubtful_windows": "Windows that were repaired by other facts than were lost, until a person removes what was kept.",
    "kept_from_timestamp_seconds": "When the oldest window begins that the site keeps, but for held ones.",
    "windows_forgotten_total": "Windows that went.",
    "last_success_timestamp_seconds": "When the last run that succeeded ended.",
}
UNSEEN = "ruled keys at which nobody here has looked: `cadf-conflicts --values SITE`, and then `cadf-conflicts --seen SITE`"
BEGINNING, TOTAL = b"# HELP cadf_", "_total"
NUMBER = re.compile(r"(?m)^(cadf_\w+\{.*\}) (\d{1,18})$")
COUNTED = re.compile(r"(?m): open (\d+), settled \d+(?:, unknown \d+)?(?:, unseen (\d+))?$")  # what cadf-conflicts says at its end
LARGEST_READ = 2 ** 20  # bytes of a file that is replaced


def escaped(value):
    return value.replace("\\", "\\\\").replace('"', '\\"').replace("\n", "\\n")


def text_of(labels, values, before):
    """The text of values, each (name, further labels, number), with the time of this success; the first counts of equal ones.

    What is counted is added to what was there before.
    """
    lines = {}
    for name, more, number in [*values, ("last_success_timestamp_seconds", {}, int(time.time()))]:
        is_total = name.endswith(TOTAL)
        lines.setdefault("# HELP cadf_%s %s" % (name, HELP[name]), "\n# TYPE cadf_%s %s\n" % (name, "counter" if is_total else "gauge"))
        shown = "cadf_%s{%s}" % (name, ",".join('%s="%s"' % (label, escaped(value)) for label, value in {**labels, **more}.items()))
        lines.setdefault(shown, " %d\n" % (number + is_total * before.get(shown, 0)))
    return "".join(map("".join, lines.items()))


def replaced(path):
    """The numbers of a file that is to be replaced, by names with labels. Raises that it is no file of numbers: it may be a site, or a device."""
    with contextlib.suppress(FileNotFoundError):
        if stat.S_ISREG(os.lstat(path).st_mode):
            with open(path, "rb") as file:
                if file.read(len(BEGINNING)) in (b"", BEGINNING):
                    return {name: int(number) for name, number in NUMBER.findall(file.read(LARGEST_READ).decode("utf-8", "replace"))}
        raise Fault("%s: it has no numbers of a run, so it is not replaced: name another file by --metrics" % name_shown(path))
    return {}


def write(path, labels, values):
    """Replaces the file, which all may read, by values with these labels, to which the tool's name is added.

    FILE.new is written and renamed. What a run that was killed left there goes first.
    """
    working = path + ".new"
    before = replaced(path)
    with naming(path), new_file(working, []) as file:
        with open(file, "w", encoding="utf-8", closefd=False) as output:
            output.write(text_of({"tool": tool(), **labels}, values, before))
        os.fchmod(file, 0o644)
        os.rename(working, path)


def largest_window(name):
    """The bytes of a site's largest window; of all of a site that is a file."""
    if not os.path.lexists(name):
        return 0
    if not cadf_site.is_folder(name):
        return os.stat(name).st_size
    with cadf_site.Folder(name, {}) as folder:
        sizes = cadf_site.made_of_parts([folder], None, lambda _, files: sum(os.fstat(each.file.fileno()).st_size for each in files.values()))
    return max(sizes.values(), default=0)


def of_site(name):
    """The numbers of a site. Says how many ruled keys are unseen."""
    found = conflicts(name)
    for number, _, count in found:
        if number == "unseen_rulings" and count:
            say("%s: %d %s" % (name_shown(name), count, UNSEEN))
    return [*found, ("largest_window_bytes", {}, largest_window(name)), *floor(name)]


def floor(name):
    """From when a site keeps, if it forgot something."""
    if not os.path.lexists(name) or not cadf_site.is_folder(name):
        return []
    with cadf_site.Folder(name) as folder:
        return of_floor(folder.gone().kept) if folder.index() else []


def of_floor(kept):
    """From when on something is kept, if it isn't all."""
    first = begin(kept.floor) if kept.floor else None
    return [] if first is None else [("kept_from_timestamp_seconds", {}, first // SECOND - EPOCH // SECOND)]


def conflicts(name):
    """How many conflicts are open in a site; of a folder also how many ruled keys nobody here has looked at, as they are now.

    Of a folder those keys are read alone of which the index says that they may have some.
    """
    if not os.path.lexists(name):
        return [("open_conflicts", {}, 0)]
    if not cadf_site.is_folder(name):
        with opened([name]) as inputs:
            return [("open_conflicts", {}, shown_conflicts(inputs)[0])]
    with cadf_site.Folder(name, {}) as site, temporary_folder() as folder:
        found = (0, set()) if site.index() is None else indexed_conflicts(site, folder)
        count, unseen = listed_conflicts(name) if found is None else (found[0], len(found[1] - seen_rulings(site)))
        return [("open_conflicts", {}, count), ("unseen_rulings", {}, unseen)]


def indexed_conflicts(site, folder):
    """How many keys are open in an open folder, and what stands for the ruled ones. None: there is no index."""
    found = picked(site, (), folder, with_records=False)
    if found is None:
        return None
    with opened(found.names) as inputs:
        return shown_conflicts(inputs)


def shown_conflicts(inputs):
    """How many open keys the union of some inputs has, and what stands for the ruled ones.

    Of their values no text is made that `show` would write again and again.
    """
    several, ruled = {}, collections.defaultdict(set)
    if inputs:
        with tempfile.TemporaryFile() as file:
            cadf(["join"], inputs, file.fileno())
            file.seek(0)
            for key, group in itertools.groupby(atoms(file), lambda atom: atom[:2]):
                if key[0] == "U":
                    for _, letter, name, digest in group:
                        ruled[letter, name].add(digest)
                else:
                    digests = {hashlib.sha256(atom[2].encode()).hexdigest() for atom in group if len(atom) == 3}
                    if len(digests) > 1:
                        several[key] = digests
    return (sum(len(digests & ruled[key]) != 1 for key, digests in several.items()),
            {standing(key, ruled[key], digests) for key, digests in several.items() if ruled[key]})


def listed_conflicts(name):
    """How many open keys, and unseen ones, the tool beside this one lists, which holds one window of a folder at a time."""
    beside = os.path.join(os.path.dirname(os.path.realpath(sys.argv[0])), "cadf-conflicts")
    with started([sys.executable, beside, "--", name], stdin=subprocess.DEVNULL, stdout=subprocess.DEVNULL, stderr=subprocess.PIPE) as child:
        said = child.communicate()[1].decode("utf-8", "backslashreplace").strip()
    if child.returncode == DONE and not said:
        return 0, 0  # it says nothing of a site without conflicts
    counted = COUNTED.search(said)
    if child.returncode not in (DONE, DIFFERS, REFUSED) or not counted:  # refused also if a window is damaged
        raise Fault("%s: cadf-conflicts: %s" % (name_shown(name), said), child.returncode if child.returncode in (REFUSED, MEMORY) else FAILED)
    return int(counted[1]), int(counted[2] or 0)
