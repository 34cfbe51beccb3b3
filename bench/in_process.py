#!/usr/bin/env python3
"""Times calls of the library beside the command.

    bench/in_process.py [--size 10] [--calls 1000] [--runs 3] BINARY

BINARY is PREFIX/bin/cadf, where install/install put the command and beside it the library; gcc is needed. Prints

- what a `check` of a small log takes from Python and by the command, over so many calls of each;
- processor time and memory of `show` of a log document of SIZE MB, by the command, which writes to a file or to /dev/null, and
  by a C program that reads the file and calls the library with a buffer of the right size. It prints the ratio of the times to
  both, and the memory beyond the command's: by glibc's own choice of the blocks that it maps, which depends on those freed
  before, and with a fixed choice in both;
- the memory that the same call takes from Python beyond its input, in lengths of the output.
"""
import os
import subprocess
import sys
import tempfile
import time

from measure import TOP, asked, best_of, measured_in_turn, run_apart
from show import document

LOG = '{"id":"g","events":[],"name":"a"}'
# Reads the file, calls with as much room as the second word says, and writes nothing.
PROGRAM = r"""
#include <cadf.h>
#include <stdio.h>
#include <stdlib.h>
int main(int count, char **words)
{
    size_t room = strtoull(words[2], NULL, 10), size, length;
    FILE *file = fopen(words[1], "rb");
    fseek(file, 0, SEEK_END);
    size = ftell(file);
    rewind(file);
    uint8_t *input = malloc(size), *output = malloc(room);
    struct cadf_bytes bytes = cadf_bytes_of(input, fread(input, 1, size, file));
    return count != 3 || cadf_show(false, &bytes, output, room, &length) || length > room;
}
"""
FROM_PYTHON = """
import resource, sys, cadf
with open(sys.argv[1], "rb") as file:
    data = file.read()
cadf.version()
before = resource.getrusage(resource.RUSAGE_SELF).ru_maxrss
length = len(cadf.show(data))
print((resource.getrusage(resource.RUSAGE_SELF).ru_maxrss - before) * 1024 / length)
"""


def seconds_of(work, calls):
    """The seconds that one call takes, over so many."""
    start = time.monotonic()
    for _ in range(calls):
        work()
    return (time.monotonic() - start) / calls


def small_calls(prefix, folder, calls):
    """Times checks of a small log, in the process and by the command."""
    import cadf

    path = os.path.join(folder, "small.json")
    with open(path, "w", encoding="utf-8") as file:
        file.write(LOG)
    words = [os.path.join(prefix, "bin", "cadf"), "check", path]
    here = seconds_of(lambda: cadf.check(LOG), calls)
    there = seconds_of(lambda: subprocess.run(words, stdin=subprocess.DEVNULL, stdout=subprocess.DEVNULL, check=True), calls)
    print("%d checks: %.1f us in process, %.0f us by the command" % (calls, here * 1e6, there * 1e6))


def beyond(commands, size, runs):
    """The memory that the second command takes beyond the first's, in so many bytes."""
    there, here = measured_in_turn(commands, runs)
    return (here.memory - there.memory) * 2 ** 20 / size


def large_call(prefix, folder, size, runs):
    """Times `show` of a large document by the command and by a C program, and weighs it from Python."""
    path, text, program = (os.path.join(folder, name) for name in ("log.json", "shown.json", "show"))
    document(path, size * 1000 * 1000, 1)
    command = [os.path.join(prefix, "bin", "cadf"), "show", path]
    run_apart(command, text)
    words = ["gcc", "-O1", "-I" + os.path.join(prefix, "include"), "-x", "c", "-", "-x", "none", os.path.join(prefix, "lib", "libcadf.a")]
    subprocess.run([*words, "-o", program], input=PROGRAM.encode(), check=True)
    length = os.path.getsize(text)
    call, both = [program, path, str(length)], length + os.path.getsize(path)
    there, unseen, here = (best_of([run_apart(words, out) for _ in range(runs)])
                           for words, out in ((command, text), (command, os.devnull), (call, os.devnull)))
    print("show of %d MB: %.3f s and %.0f MB by the command, %.3f s (%.2f; %.2f of it to /dev/null) and %.0f MB in process" % (
        size, there.processors, there.memory, here.processors, here.processors / there.processors,
        here.processors / unseen.processors, here.memory))
    found = beyond([command, call], both, runs)
    os.environ["MALLOC_MMAP_THRESHOLD_"] = str(128 * 1024)
    print("beyond the command's memory: %.2f times input and output; %.2f if glibc maps each block of 128 KB or more" % (
        found, beyond([command, call], both, runs)))
    del os.environ["MALLOC_MMAP_THRESHOLD_"]
    print("from Python: %s lengths of the output" % subprocess.check_output([sys.executable, "-c", FROM_PYTHON, path]).decode().strip()[:4])


def main():
    options = asked(__doc__, size=10, calls=1000, runs=3)
    prefix, package = os.path.dirname(os.path.dirname(options.binary)), os.path.join(TOP, "bindings", "python")
    os.environ.update(CADF_LIBRARY=os.path.join(prefix, "lib", "libcadf.so.0"), PYTHONPATH=package)
    sys.path.insert(0, package)
    with tempfile.TemporaryDirectory(prefix="cadf-bench-") as folder:
        small_calls(prefix, folder, options.calls)
        large_call(prefix, folder, options.size, options.runs)


if __name__ == "__main__":
    main()
