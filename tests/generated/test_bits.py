"""Each bit of files with rulings, in both formats, is turned, and each such file answered twice.

The digest line is made anew, so that what stands before it has to be judged; for one bit of each byte it is also left
as it is. The built command and the second implementation of this folder must answer `check` alike.
"""
import os
import subprocess
import tempfile

import pytest

from tests import TOP, patience
from tests.generated.compare import alike, put_all
from tests.machine import SECONDS, Answer, side_by_side
from tests.reference.command import answer
from tests.reference.sealed_files import sealed

FILES = ["ruled.cadf", "ruled.1.cadf"]
AT_ONCE = 16  # bytes whose files one shell has answered, in as little time as one file may take
# Has each file answered that is named. A shell starts a program in half the time that Python takes.
EACH = 'for name; do "$0" check "$name" >"$name.output" 2>"$name.error"; echo $?; done'


def turned(content, place):
    """The file with that bit turned: sealed anew, and for the first bit of a byte as it is."""
    changed = bytearray(content)
    changed[place // 8] ^= 1 << place % 8
    changed = bytes(changed)
    files = [sealed(changed.split(b"\n")[:-2])]
    return files + [changed] if place % 8 == 0 else files


def read(path):
    with open(path, "rb") as file:
        return file.read()


def answered(binary, files):
    """What the binary answers to each file, which a name leads to."""
    with tempfile.TemporaryDirectory(prefix="cadf-case-") as folder:
        put_all(folder, files)
        statuses = subprocess.run(["/bin/sh", "-c", EACH, binary, *files], cwd=folder, stdin=subprocess.DEVNULL, check=True,
                                  stdout=subprocess.PIPE, timeout=patience.seconds(SECONDS)).stdout.split()
        for name, status in zip(files, statuses):
            yield Answer(int(status), *(read(os.path.join(os.fsencode(folder), name + end)) for end in (b".output", b".error")))


def differing(binary, content, first):
    """The changed files, of the bits of some bytes, which the two don't answer alike."""
    changed = [file for place in range(8 * first, 8 * min(first + AT_ONCE, len(content))) for file in turned(content, place)]
    files = {b"%d" % number: file for number, file in enumerate(changed)}
    return [files[name] for name, got in zip(files, answered(binary, files))
            if not alike(answer([b"check", name], {name: files[name]}), got)]


@pytest.mark.timeout(1800)
@pytest.mark.parametrize("name", FILES)
def test_bits(cadf, name):
    content = read(os.path.join(TOP, "examples", "vectors", name))
    found = side_by_side(lambda first: differing(cadf, content, first), range(0, len(content), AT_ONCE))
    assert [file for files in found for file in files][:10] == []
