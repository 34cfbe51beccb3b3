#!/usr/bin/env python3
"""Times the commands on replica files beside other programs, and counts what two sites send and what a proof has.

    bench/files.py [--atoms 100000] [--runs 5] [--only join,missing,inventory,missing-by,seal,verify] [BINARY]

Two files share half of their atoms, each in either format; an event has a chain of one step and a tag. What other programs
compare are lines, so they read those of format 1, sorted by their bytes: tools with `sha256sum` or `openssl dgst` of each file
that is read or written, and sqlite, which has the lines in memory; all must write the same lines. The peer in Rust (bench/peer)
reads either format and must write the same bytes, as must hashlib's inventory and the delta by `missing`. By inventories a site
sends its inventory in place of its file, and the same delta comes back. A proof is of the three facts of one event, or of one of
them. Prints a table for each command: the least user time and the greatest memory of the runs, in which all programs take turns.
"""
import os
import sys
import tempfile

from measure import LOG, Trial, asked, atoms_of, best_of, check_same_bytes, run_apart, tell, two_sites, write_replica
from peer import SQLITE, found, has, rust

HASHES = {"sha256sum": "sha256sum", "openssl": "openssl dgst -sha256"}
# Of each command the tool that does it on sorted lines, sqlite's word for it, and what runs with digests.
PLAIN = {"join": ("sort -mu", "UNION", "{hash} {0} {1} && {tool} {0} {1} >{2} && {hash} {2}"),
         "missing": ("comm -23", "EXCEPT", "{hash} {0} {1} && {tool} {0} {1}")}
AIMS = {"join": {"sha256sum": "0.6", "openssl": "1.1"}, "missing": {"sha256sum": "0.9"}}
# Writes the inventory of a file of format 1, without judging its lines.
HASH_LINES = """
import hashlib, sys
lines = open(sys.argv[1], "rb").read().split(b"\\n")
digests = sorted(hashlib.sha256(line).hexdigest().encode() for line in lines[2:-2])
text = b"".join(line + b"\\n" for line in [b"CADF-INVENTORY 1", lines[1], *digests])
sys.stdout.buffer.write(text + b"Z " + hashlib.sha256(text).hexdigest().encode() + b"\\n")
"""


def plain(script):
    """The words that run a script of tools which compare bytes."""
    return ["sh", "-c", "export LC_ALL=C; " + script]


class TwoSites(Trial):
    """The command and the files of two sites by format."""

    def __init__(self, options, folder):
        super().__init__(options, folder)
        self.atoms = options.atoms
        self.files, self.lines = two_sites(folder, options.atoms), [self.path("lines"), self.path("lines.2")]
        for path, lines in zip(self.files[1], self.lines):
            run_apart(plain("sort " + path), lines)

    def tell(self, command, files, others, aims=None):
        """Times the command on these files of each format beside the others."""
        ours = {"`cadf %s`, format %d" % (command, version): [self.binary, command, *files(paths)] for version, paths in self.files.items()}
        check_same_bytes(ours.values())
        tell(command, ours, others, self.runs, aims)

    def beside_plain_tools(self, command):
        tool, word, script = PLAIN[command]
        others, aims = {}, {}
        for name, words in HASHES.items():
            if has(name, *found(name)):
                others["`%s`, `%s`" % (words, tool)] = plain(script.format(*self.lines, self.path("union"), hash=words, tool=tool))
                aims["`%s`, `%s`" % (words, tool)] = AIMS[command].get(name, "")
        others["sqlite in memory"] = [sys.executable, "-c", SQLITE, word, *self.lines]
        check_same_bytes([others["sqlite in memory"], plain(" ".join([tool, *self.lines]))])
        for name, words in rust("join").items() if command == "join" else ():
            peers = {"%s, format %d" % (name, version): [*words, *paths] for version, paths in self.files.items()}
            check_same_bytes([[self.binary, "join", *self.files[1]], *peers.values()])
            others.update(peers)
        self.tell(command, lambda paths: paths, others, aims)

    def join(self):
        self.beside_plain_tools("join")

    def missing(self):
        self.beside_plain_tools("missing")

    def inventory(self):
        hashed = [sys.executable, "-c", HASH_LINES, self.files[1][1]]
        check_same_bytes([hashed, [self.binary, "inventory", self.files[1][1]]])
        self.tell("inventory", lambda paths: paths[1:], {"hashlib": hashed})

    def missing_by(self):
        inventory, (sender, receiver) = self.written("inventory", self.files[1][1]), self.files[1]
        by_file = [self.binary, "missing", sender, receiver]
        check_same_bytes([by_file, [self.binary, "missing-by", sender, inventory]])
        self.tell("missing-by", lambda paths: [paths[0], inventory], {"`cadf missing`, format 1": by_file})
        whole, asks, delta = map(os.path.getsize, (receiver, inventory, self.written("missing", sender, receiver)))
        print("\nsent by whole files %d + %d bytes, by inventories %d + %d, ratio %.3f" % (
            whole, delta, asks, delta, (asks + delta) / (whole + delta)))

    def proved(self):
        """The facts of one event and one of them, each in a file, by what they are."""
        event = atoms_of(self.atoms // 9)
        for name, atoms in (("an event", event), ("a fact", event[:1])):
            write_replica(self.path(name), LOG, atoms)
            yield name, self.path(name)

    def seal(self):
        site, facts = self.files[2][0], dict(self.proved())["an event"]
        ours = {"`cadf seal`": [self.binary, "seal", site], "`cadf prove`": [self.binary, "prove", facts, site]}
        tell("format 2", ours, {"`cadf inventory`": [self.binary, "inventory", site]}, self.runs, {"`cadf inventory`": "1.15; 1.00 and 1.25"})

    def verify(self):
        site = self.files[2][0]
        seal = self.written("seal", site)
        print("\n| Proof of | Bytes | `verify`, processor | Memory |\n|---|---|---|---|")
        for name, facts in self.proved():
            proof = self.written("prove", facts, site)
            run = best_of([run_apart([self.binary, "verify", seal, facts, proof]) for _ in range(20 * self.runs)])
            print("| %s | %s | %.1f ms | %.1f MB |" % (name, format(os.path.getsize(proof), ","), 1000 * run.processors, run.memory))


def main():
    options = asked(__doc__, atoms=100000, runs=5, only="join,missing,inventory,missing-by,seal,verify")
    with tempfile.TemporaryDirectory() as folder:
        trial = TwoSites(options, folder)
        for version, paths in trial.files.items():
            print("two files of format %d: %s bytes" % (version, format(sum(map(os.path.getsize, paths)), ",")))
        for command in options.only.split(","):
            getattr(trial, command.replace("-", "_"))()


if __name__ == "__main__":
    main()
