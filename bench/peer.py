"""What runs beside `cadf`: peers that are written by hand (bench/peer), and programs that people have."""
import os
import shutil
import subprocess
import sys

PEER = os.path.join(os.path.dirname(os.path.abspath(__file__)), "peer")
CRATES = "/usr/share/cargo/registry"  # where Debian's packages put them
ORJSON = ("import orjson, sys; data = open(sys.argv[1], 'rb').read(); "
          "sys.stdout.buffer.write(orjson.dumps(orjson.loads(data), option=orjson.OPT_SORT_KEYS | orjson.OPT_APPEND_NEWLINE))")
NODE = """
const sorted = value => Array.isArray(value) ? value.map(sorted) : value === null || typeof value != "object" ? value :
  Object.fromEntries(Object.keys(value).sort().map(key => [key, sorted(value[key])]));
process.stdout.write(JSON.stringify(sorted(JSON.parse(require("fs").readFileSync(process.argv[1], "utf8")))) + "\\n");"""
# Of sqlite: the lines of both files are rows of a table in memory, in the order of their bytes.
SQLITE = """
import sqlite3, sys
table = sqlite3.connect(":memory:")
for name, path in zip("ab", sys.argv[2:]):
    table.execute("CREATE TABLE %s (line BLOB PRIMARY KEY) WITHOUT ROWID" % name)
    table.executemany("INSERT OR IGNORE INTO %s VALUES (?)" % name, ([line] for line in open(path, "rb")))
for line, in table.execute("SELECT line FROM a %s SELECT line FROM b ORDER BY line" % sys.argv[1]):
    sys.stdout.buffer.write(line)
"""


def has(name, *needed):
    """Whether all that a peer needs is there, each with its name; says what isn't."""
    lacking = [what for what, is_there in needed if not is_there]
    if lacking:
        print("without %s: %s not there (Debian's packages)" % (name, ", ".join(lacking)))
    return not lacking


def found(*programs):
    return [(program, shutil.which(program)) for program in programs]


def rust(program):
    """Builds the peer in Rust. Returns the words that run its program, `show` or `join`, by its name; none if it can't be built."""
    crates = os.listdir(CRATES) if os.path.isdir(CRATES) else []
    needed = [("librust-%s-dev" % name, any(crate.startswith(name.replace("-", "_") + "-") for crate in crates))
              for name in ("serde-json", "sha2")]
    if not has("the peer in Rust", *found("cargo", "rustc"), *needed):
        return {}
    subprocess.run(["cargo", "build", "--release", "--quiet"], cwd=PEER, check=True)
    return {"Rust by hand": [os.path.join(PEER, "target", "release", program)]}


def simdjson(folder):
    """Builds the peer in C++ in that folder; returns as `rust` does."""
    if not has("the peer in C++", *found("g++"), ("libsimdjson-dev", os.path.exists("/usr/include/simdjson.h"))):
        return {}
    program = os.path.join(folder, "show")
    subprocess.run(["g++", "-O3", "-std=c++17", os.path.join(PEER, "show.cpp"), "-o", program, "-lsimdjson"], check=True)
    return {"C++ by hand, simdjson": [program]}


def sorters():
    """Yields the programs that read JSON and write it with sorted names, by name: the words that run those that are there."""
    orjson = subprocess.run([sys.executable, "-c", "import orjson"], stderr=subprocess.DEVNULL).returncode == 0
    for name, needed, words in (("jq", found("jq"), ["jq", "-cS", "."]), ("node", found("node"), ["node", "-e", NODE]),
                                ("orjson", [("python3-orjson", orjson)], [sys.executable, "-c", ORJSON])):
        if has(name, *needed):
            yield name, words
