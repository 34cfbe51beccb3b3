"""What the benchmarks share: what a command takes, in time, memory and instructions; generated replica files."""
import argparse
import compileall
import hashlib
import json
import os
import re
import shutil
import subprocess
import sys
import tempfile
import traceback
from typing import NamedTuple

sys.dont_write_bytecode = True

TOP = os.path.dirname(os.path.dirname(os.path.abspath(__file__)))
LOG = "openstack:audit"
BINARY = os.path.join(TOP, "crates", "cadf", "out", "cadf")
sys.path.insert(0, TOP)

from tests.reference.replica_files import FIRST_LINES, lines_of
from tests.reference.sealed_files import sealed


def asked(about, **defaults):
    """The options of a script: these with their defaults, of which False is a flag, and BINARY, or `binaries` with one more."""
    parser = argparse.ArgumentParser(description=about, formatter_class=argparse.RawDescriptionHelpFormatter)
    binaries = defaults.pop("binaries", None)
    for name, default in defaults.items():
        kind = {"action": "store_true"} if default is False else {"type": type(default), "default": default}
        parser.add_argument("--" + name, **kind)
    parser.add_argument("binaries", nargs="*" if binaries else "?", default=[BINARY], metavar="BINARY")
    options = parser.parse_args()
    options.binaries = [os.path.abspath(path) for path in ([options.binaries] if isinstance(options.binaries, str) else options.binaries)]
    options.binary = options.binaries[0]
    return options


class Trial:
    """The command, how many runs are measured, and a folder in which files are made."""

    def __init__(self, options, folder):
        self.binary, self.runs, self.folder, self.made = options.binary, options.runs, folder, 0

    def path(self, name=None):
        """The path of a file of that name, or of a further one."""
        self.made += name is None
        return os.path.join(self.folder, name or str(self.made))

    def written(self, *words):
        """A file of what the command writes, which it must."""
        path = self.path()
        run_apart([self.binary, *words], path)
        return path


def packaged(folder):
    """Copies the tools and what they share into the folder, compiled as the package has it. Returns the folder of the tools."""
    for name in ("tools", "share"):
        shutil.copytree(os.path.join(TOP, name), os.path.join(folder, name))
    compileall.compile_dir(os.path.join(folder, "share"), quiet=1)
    return os.path.join(folder, "tools")


class Run(NamedTuple):
    """What a run of a command took, or the best of several runs."""
    wall: float  # seconds
    user: float  # seconds of processors, without the kernel's
    processors: float  # seconds
    memory: float  # greatest resident memory in MB


# A process of few MB: runs the command after its first word, the path of the output, and prints how it went.
SMALL = """
import os, resource, sys, time
resource.setrlimit(resource.RLIMIT_CPU, (%d, %d))
output = [(os.POSIX_SPAWN_OPEN, 1, sys.argv[1], os.O_WRONLY | os.O_CREAT | os.O_TRUNC, 0o644),
          (os.POSIX_SPAWN_OPEN, 2, os.devnull, os.O_WRONLY, 0)]
start = time.monotonic()
child = os.posix_spawnp(sys.argv[2], sys.argv[2:], os.environ, file_actions=output)
_, status, usage = os.wait4(child, 0)
wall = time.monotonic() - start
print(os.waitstatus_to_exitcode(status), wall, usage.ru_utime, usage.ru_utime + usage.ru_stime, usage.ru_maxrss / 1024)
"""
MOST_SECONDS = 1000  # of processors


def run_apart(command, output=os.devnull, statuses=(0,), environment=None):
    """Runs the command from a small process. Exits if it ends with another status than one of these.

    The kernel counts the memory of the process that starts a command as the command's, too. So the memory is at least
    that of the small process, some 8 MB.
    """
    small = SMALL % (MOST_SECONDS, MOST_SECONDS)
    words = [sys.executable, "-I", "-S", "-c", small, output, *command]
    ended, *taken = subprocess.check_output(words, stdin=subprocess.DEVNULL, env=environment).split()
    if int(ended) not in statuses:
        sys.exit("%s: status %s" % (" ".join(command), ended.decode()))
    return Run(*map(float, taken))


def best_of(runs):
    """The least times and the greatest memory of the runs."""
    *times, memory = zip(*runs)
    return Run(*map(min, times), max(memory))


def measured_in_turn(commands, runs):
    """The best of so many runs of each command. The commands take turns, so that other load meets all of them."""
    return [best_of(each) for each in zip(*([run_apart(command) for command in commands] for _ in range(runs)))]


def tell(title, ours, others, runs, aims=None):
    """Runs all commands in turn, and prints a table in Markdown of their user times and memory.

    Of each of the others it has also the ratios of ours to it: of user time, of all time of processors, and of memory. What
    is worst for ours comes first. Aims are for the first and the last of these.
    """
    took = dict(zip([*ours, *others], measured_in_turn([*ours.values(), *others.values()], runs)))
    heads = ["%s: user time; processor; memory" % name for name in ours]
    print("\n| %s | User time | Memory | %s | Aim |\n|%s" % (title, " | ".join(heads), "---|" * (len(ours) + 4)))
    for name in [*ours, *sorted(others, key=lambda name: took[name].user)]:
        run, ratios = took[name], ["" for _ in ours]
        if name in others:
            ratios = ["; ".join("%.2f" % (a / b) for a, b in zip(took[one][1:], run[1:])) for one in ours]
        cells = [name, "%.2f s" % run.user, "{:,.0f} MB".format(run.memory), *ratios, (aims or {}).get(name, "")]
        print("|%s |" % " |".join(" " + cell if cell else "" for cell in cells), flush=True)


def digest_of(command):
    """What `sha256sum` says of what the command writes."""
    with subprocess.Popen(command, stdout=subprocess.PIPE, stdin=subprocess.DEVNULL) as writer:
        digest = subprocess.check_output(["sha256sum"], stdin=writer.stdout)
    if writer.returncode != 0:
        sys.exit("%s ended with status %d" % (command[0], writer.returncode))
    return digest


def check_same_bytes(commands):
    """Exits if two of the commands write different bytes."""
    if len({digest_of(command) for command in commands}) > 1:
        sys.exit("they write different bytes: %s" % "; ".join(map(" ".join, commands)))


def rdiff(old, new, *block):
    """The bytes of rdiff's signature of the one file, and of its delta to the other."""
    made = [old + ".signature", old + ".delta"]
    subprocess.run(["rdiff", *block, "signature", old, made[0]], check=True)
    subprocess.run(["rdiff", *block, "delta", made[0], new, made[1]], check=True)
    sizes = list(map(os.path.getsize, made))
    for path in made:
        os.remove(path)
    return sizes


# glibc clears and copies large blocks by a repeated instruction, of which valgrind counts each byte. By these settings
# it takes an instruction for 32 bytes.
WITHOUT_REPEATS = {"GLIBC_TUNABLES": ":".join(
    "glibc.cpu.x86_rep_%s_threshold=2000000000" % name for name in ("stosb", "movsb"))}
CLEARED = 10 ** 6  # bytes
CLEARS = "import sys; bytes(bytearray(b'x') * int(sys.argv[1]))"  # by memset and memcpy


# A cache of few and large blocks: a read of one that isn't held is far from what was read before it.
FEW_BLOCKS = ("--cache-sim=yes", "--I1=32768,8,64", "--D1=32768,8,64", "--LL=131072,16,1024")


def counted(event, command, cache=("--cache-sim=no",), statuses=(0,), settings=None):
    """How often cachegrind counts an event in a run of the command. Exits if it ends with none of these statuses."""
    environment = {**os.environ, **(WITHOUT_REPEATS if settings is None else settings)}
    with tempfile.NamedTemporaryFile() as profile:
        words = ["valgrind", "--tool=cachegrind", *cache, "--cachegrind-out-file=" + profile.name, *command]
        run_apart(words, statuses=statuses, environment=environment)
        events, counts = re.search(rb"^events: (.*)\n(?s:.*)^summary: (.*)$", profile.read(), re.MULTILINE).groups()
    return int(dict(zip(events.split(), counts.split()))[event])


def instructions(command, statuses=(0,), settings=None):
    """How many instructions the command executes."""
    return counted(b"Ir", command, statuses=statuses, settings=settings)


def far_reads(command):
    """How many reads the command makes far from what it read before."""
    return counted(b"DLmr", command, FEW_BLOCKS)


def can_count():
    """Whether instructions can be counted; says so if valgrind isn't there. Exits if the counts aren't true."""
    if not shutil.which("valgrind"):
        print("skipped: valgrind is not there (Debian: valgrind)")
        return False
    if not are_counts_true():
        sys.exit("valgrind counts each byte that is cleared or copied: is the C library another one than glibc?")
    return True


def are_counts_true(settings=None):
    """Whether few instructions are counted where blocks of a megabyte are cleared and copied."""
    words = [sys.executable, "-I", "-S", "-c", CLEARS]
    few, many = (instructions([*words, str(size)], settings=settings) for size in (1, CLEARED))
    return many - few < CLEARED // 4


def written_apart(write):
    """Calls that in a process of its own, whose memory is free when it ends."""
    child = os.fork()
    if child == 0:
        try:
            write()
        except BaseException:
            traceback.print_exc()
            os._exit(1)
        os._exit(0)
    if os.waitpid(child, 0)[1] != 0:
        sys.exit("a file could not be written")


def key_of(number):
    """64 hexadecimal digits that stand for the number."""
    return hashlib.sha256(str(number).encode()).hexdigest()


def identifier_of(number):
    key = key_of(number)
    return "-".join((key[:8], key[8:12], key[12:16], key[16:20], key[20:32]))


def spelled(value):
    """The canonical text of a value whose names are ASCII."""
    return json.dumps(value, ensure_ascii=False, separators=(",", ":"), sort_keys=True)


def atoms_of(number):
    """The three atoms of an event: itself, a chain of one step, a tag."""
    key, seconds = key_of(number), number % 86400
    stamp = "2014-02-%02dT%02d:%02d:%02dZ" % (
        1 + number // 86400 % 28, seconds // 3600, seconds // 60 % 60, seconds % 60)
    body = spelled({
        "action": "read/list", "eventTime": stamp, "eventType": "activity",
        "initiator": {"id": "user-%d" % (number % 997), "typeURI": "service/security/account/user",
                      "name": "demo", "project_id": key[:32]},
        "observer": {"id": "target"}, "outcome": "success",
        "target": {"id": "urn:uuid:" + key[32:], "typeURI": "service/compute/servers", "name": "nova"}})
    step = spelled({"reporter": {"id": "target"}, "reporterTime": stamp, "role": "modifier"})
    carrier = ("E", identifier_of(number), body)
    return [carrier, carrier + ("C", step), carrier + ("T", "correlation_id?value=" + key[20:52])]


def replica_file(path, log, events, version):
    """Writes the replica file of these events' atoms in that format."""
    atoms = [atom for event in events for atom in atoms_of(event)]
    written_apart(lambda: write_replica(path, log, atoms, version))


def two_sites(folder, atoms):
    """Writes two replica files of so many atoms that share half of them, in either format. Returns their paths by format."""
    events = atoms // 3
    files = {version: [os.path.join(folder, "%s.%d" % (name, version)) for name in ("first", "second")] for version in FIRST_LINES}
    for version, paths in files.items():
        for path, start in zip(paths, (0, events // 2)):
            replica_file(path, LOG, range(start, start + events), version)
    return files


def write_replica(path, log, atoms, version=2):
    """Writes the replica file of these atoms in that format."""
    sealed_lines(path, log, map(spelled, lines_of(atoms, version)), version)


def sealed_lines(path, log, lines, version):
    """Writes the replica file of these lines in that format."""
    with open(path, "wb") as out:
        out.write(sealed([FIRST_LINES[version], b"L " + spelled(log).encode()] + [line.encode() for line in lines]))
