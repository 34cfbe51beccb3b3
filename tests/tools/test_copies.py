"""Each text of the tools that a test puts a wrong one in the place of is there once: seen before anything is built."""
import importlib
import os
import re

import pytest

from tests import TOP, text_of, tracked

PLACES = tracked()
MODULES = sorted(place for place in PLACES if re.search(r"/test_\w+\.py$", place) and "tools.copies import" in text_of(place))
SOURCES = [text_of(place) for place in PLACES if place.startswith(("tools/", "share/cadf/"))]


def rights(module):
    """The texts that are replaced in turn for each test of a module, by its parameters `right`."""
    for test in vars(module).values():
        for mark in getattr(test, "pytestmark", ()):
            names = re.split(", *", mark.args[0]) if mark.name == "parametrize" and isinstance(mark.args[0], str) else []
            if "right" in names:
                for values in mark.args[1]:
                    values = getattr(values, "values", values)
                    yield (values if len(names) > 1 else [values])[names.index("right")]


@pytest.mark.parametrize("place", MODULES)
def test_what_is_replaced_is_there_once(place):
    found = list(rights(importlib.import_module(place[:-len(".py")].replace(os.sep, "."))))
    assert [right for right in found if sum(source.count(right) for source in SOURCES) != 1] == []
