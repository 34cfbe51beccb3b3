"""Says which names each proof file of a crate takes from outside, and lets them all come from one file, its Common.

    python3 -m tests.proofs.imports [--write] [CRATE..]      of all crates with proofs, if none is named

A name that a proof file takes from a module outside the crate's proofs stands in crates/CRATE/proofs/Common.antt, in a
`pub use` line of the module that it comes from, and the file takes it from there. In the file itself stay modules,
what comes from the crate's own proofs, and a name by which other files of the crate mean something else. Without
--write the files that would change are named, and the status is 1 if there are any.
"""
import argparse
import collections
import functools
import glob
import os
import re
import shutil
import subprocess
import sys

from tests import TOP

LIST = re.compile(r"^((?:unfoldable )?(?:pub )?)use ([^{}\s]+)\.\{(.*)\}$")


class Name(collections.namedtuple("Name", "module path shown")):
    """A name in a list: the module that the line names, the name's path from there, and how the file calls it."""

    @classmethod
    def read(cls, module, text):
        path, _, shown = text.strip().partition(" as ")
        return cls(module, path, shown.strip() or path.rpartition(".")[2])

    def __str__(self):
        return self.path if self.shown == self.path.rpartition(".")[2] else "%s as %s" % (self.path, self.shown)


@functools.lru_cache(None)
def kit():
    """Returns the folder of the kit's libraries, beside the page that `rt` names; none without `rt`."""
    page = subprocess.run(["rt", "doc"], stdout=subprocess.PIPE, check=True, text=True).stdout if shutil.which("rt") else ""
    return os.path.join(os.path.dirname(page.strip()), "rattle")


def file_of(module):
    """Returns the file of a module, or None if it is in none that can be read: the kit writes some itself."""
    library, *parts = module.split(".")
    places = [os.path.join(TOP, "crates"), kit()] if library == "Rattle" else [os.path.join(kit(), "antt", "port", library, "src")]
    stems = [os.path.join(place, *parts) for place in places]
    names = [name for stem in stems for name in (stem + ".antt", os.path.join(stem, "Lib.antt"))]
    return next(filter(os.path.isfile, names), None)


@functools.lru_cache(None)
def lines_of(name):
    with open(name, encoding="utf-8") as file:
        return file.read().split("\n")


@functools.lru_cache(None)
def passed_on(module):
    """Returns where a module has the names from that it passes on: of each the name as it is written there."""
    name = file_of(module)
    lists = filter(None, map(LIST.match, lines_of(name) if name else ()))
    taken = [Name.read(match[2], text) for match in lists if "pub" in match[1] for text in match[3].split(",")]
    return {name.shown: name for name in taken}


def origin(name):
    """Returns the module and path that a name stands for, behind every file that passes it on."""
    module, path = name.module, name.path
    if "." in path:
        head, _, path = path.rpartition(".")
        module = "%s.%s" % (module, head)
    seen = set()
    while path in passed_on(module) and (module, path) not in seen:
        seen.add((module, path))
        one = passed_on(module)[path]
        module, path = one.module, one.path
    return module, path


def common_of(crate):
    return "Rattle.%s.proofs.Common" % crate


def proof_files(crate):
    """Returns the proof files of a crate, but for its Common and its root."""
    top = os.path.join(TOP, "crates", crate, "proofs")
    names = sorted(glob.glob(os.path.join(top, "**", "*.antt"), recursive=True))
    return [name for name in names if name not in (os.path.join(top, "Common.antt"), os.path.join(top, "Lib.antt"))]


def taken_through(crate, name):
    """Returns a name as it is written in the crate's Common if the file takes it from there, and else itself."""
    return passed_on(common_of(crate)).get(name.path, name) if name.module == common_of(crate) else name


class File:
    """A proof file: the names that it takes from outside the crate's proofs, and all its lines but for these lists."""

    def __init__(self, crate, name):
        self.name, self.names, self.kept, self.place = name, [], [], None
        own = "Rattle.%s.proofs." % crate
        for line in lines_of(name):
            match = LIST.match(line)
            if match and not match[1] and (match[2] == common_of(crate) or not match[2].startswith(own)):
                self.place = len(self.kept) if self.place is None else self.place
                self.names += [taken_through(crate, Name.read(match[2], text)) for text in match[3].split(",")]
            else:
                self.kept.append(line)

    def unfolded(self):
        """Returns the words of its lines that open definitions."""
        lines = [line for line in self.kept if re.match(r" *unfolding ", line) or "unfold " in line]
        return {word for line in lines for word in re.split(r"[\s()]+", line)}

    def text(self, crate, shared):
        """Returns the file with its names from Common, where that has them."""
        here = list(dict.fromkeys(name.shown for name in self.names if shared[name.shown][1] == origin(name)))
        there = {}
        for name in self.names:
            if name.shown not in here:
                there.setdefault(name.module, []).append(name)
        lists = [written("use", common_of(crate), here)] if here else []
        lists += [written("use", module, names) for module, names in there.items()]
        return "\n".join(self.kept[:self.place] + lists + self.kept[self.place:]) if self.names else "\n".join(self.kept)


def written(words, module, names):
    """Returns the line that takes names from a module, as `rt fmt` lays it out: `{!` would be one word."""
    listed = ", ".join(map(str, names))
    return "%s %s.{%s%s}" % (words, module, " " * listed.startswith("!"), listed)


def chosen(crate, files):
    """Returns what Common has, by the word that files have for it: how it is written, and what most files mean.

    Of two meanings that as many files have, the one that Common has now stays.
    """
    now = passed_on(common_of(crate))
    written_so = collections.defaultdict(collections.Counter)
    for file in files:
        for name in set(file.names):
            written_so[name.shown, origin(name)][name] += 1
    found = {}
    for (shown, meant), names in written_so.items():
        how = min(names, key=lambda name: (-names[name], name))
        found.setdefault(shown, []).append((-sum(names.values()), how != now.get(shown), how, meant))
    return {shown: min(choices)[2:] for shown, choices in found.items()}


def common_text(names, unfolded):
    """Returns the text of Common."""
    lists = {}
    for name in sorted(names.values()):
        words = "unfoldable pub use" if name.shown in unfolded else "pub use"
        lists.setdefault((name.module, words), []).append(name)
    lines = [written(words, module, some) for (module, words), some in sorted(lists.items())]
    return "\n".join(["-- What the proofs of this crate take from outside. Written by tests/proofs/imports.py.", *lines, ""])


def texts(crate):
    """Returns the text that each file of a crate's proofs should have, by its name."""
    files = [File(crate, name) for name in proof_files(crate)]
    shared = chosen(crate, files)
    names = {shown: name for shown, (name, meant) in shared.items()}
    top = os.path.join(TOP, "crates", crate, "proofs")
    root = os.path.join(top, "Lib.antt")
    rest = [line for line in (lines_of(root) if os.path.exists(root) else []) if line not in ("", "pub mod Common")]
    found = {file.name: file.text(crate, shared) for file in files}
    found[root] = "\n".join(sorted([*rest, "pub mod Common"])) + "\n"
    found[os.path.join(top, "Common.antt")] = common_text(names, set().union(*(file.unfolded() for file in files)))
    return found


def differing(crates):
    """Returns the text of each file that should have another one than it has, by its name."""
    found = {name: text for crate in crates for name, text in texts(crate).items()}
    return {name: text for name, text in found.items() if not os.path.exists(name) or "\n".join(lines_of(name)) != text}


def proved_crates():
    return sorted(name for name in os.listdir(os.path.join(TOP, "crates")) if proof_files(name))


def main():
    parser = argparse.ArgumentParser(description=__doc__, formatter_class=argparse.RawDescriptionHelpFormatter)
    parser.add_argument("--write", action="store_true")
    parser.add_argument("crates", metavar="CRATE", nargs="*")
    options = parser.parse_args()
    others = differing(options.crates or proved_crates())
    for name, text in sorted(others.items()):
        if options.write:
            with open(name, "w", encoding="utf-8") as file:
                file.write(text)
        else:
            print(os.path.relpath(name, TOP))
    return 1 if others and not options.write else 0


if __name__ == "__main__":
    sys.exit(main())
