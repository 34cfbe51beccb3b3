"""Copies of the tools with what they import, which do something wrongly."""
import compileall
import os
import shutil

import pytest

from tests import TOP


def copied(folder, *texts):
    """Copies tools/ and share/cadf into the folder, with texts in the place of others: a right one, a wrong one, and so on.

    A right one has to be there once. What the tools import is compiled, as a start takes half as long then. Returns the
    folder of the copied tools.
    """
    rights, counts = texts[::2], [0] * (len(texts) // 2)
    for part in ("tools", os.path.join("share", "cadf")):
        shutil.copytree(os.path.join(TOP, part), os.path.join(folder, part), ignore=shutil.ignore_patterns("__pycache__"))
        for at, _, names in os.walk(os.path.join(folder, part)) if texts else ():
            for name in names:
                path = os.path.join(at, name)
                with open(path, encoding="utf-8") as file:
                    source = file.read()
                counts = [count + source.count(right) for count, right in zip(counts, rights)]
                for right, wrong in zip(rights, texts[1::2]):
                    source = source.replace(right, wrong)
                with open(path, "w", encoding="utf-8") as file:
                    file.write(source)
    assert set(counts) <= {1}, "not there once: %s" % [right for right, count in zip(rights, counts) if count != 1]
    compileall.compile_dir(os.path.join(folder, "share", "cadf"), quiet=1)
    return os.path.join(folder, "tools")


def is_caught(folder, texts, check, made, *words):
    """Has a check fail of what is made with a copy of the tools that has one text in the place of another."""
    tools = copied(os.path.join(folder, "copy"), *texts)
    with pytest.raises(AssertionError):
        check(made(tools), *words)
