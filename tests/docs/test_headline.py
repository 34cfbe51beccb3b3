"""tests/docs/headline.py finds each engine of which no law speaks: with a law's premise changed, and with one taken away."""
import re

import pytest

from tests import text_of
from tests.docs import headline

EXCHANGE, MEMORY = (text_of(path) for path in headline.LAWS)
REQUESTED = text_of(headline.REQUESTED)


def test_a_law_speaks_of_each():
    assert not list(headline.faults())


@pytest.mark.parametrize("request_", ["Join", "Split", "Missing", "MissingBy", "Inventory", "Sketch", "MissingBySketch", "Seal", "Rule", "Show", "Check"])
@pytest.mark.parametrize("row", ["", "IsAnswered (ask.%s x) sources text = Unit {0}\n"], ids=["none", "empty"])
def test_without_a_row_its_request_is_named(request_, row):
    """A request of which `IsAnswered` has no row, or one that says nothing."""
    changed = re.sub(r"(?m)^IsAnswered \(?ask\.%s\b.*\n(?:    .*\n)*" % request_, row and row % request_, REQUESTED)
    assert changed != REQUESTED and list(headline.faults(requested=changed)) == ["no law speaks of the request %s" % request_]


def test_without_the_law_of_runs_the_run_is_named():
    found = list(headline.faults([EXCHANGE.replace("IsRequestRun q", "IsAnyRun q"), MEMORY]))
    assert len(found) == 1 and "the clause of run as its premise" in found[0]


def test_without_the_law_of_memory_each_call_of_c_is_named():
    found = list(headline.faults([EXCHANGE, MEMORY.replace("IsMadeFor q", "IsAnyMadeFor q")]))
    assert len(found) == 19 and "the clause of over as its premise" in found[0] and "the clause of cadf_split as its premise" in found[-1]


def test_a_call_of_c_that_says_nothing_of_the_text_is_named():
    found = list(headline.faults(call=text_of(headline.CALL).replace("IsMadeFor q", "IsAny q")))
    assert len(found) == 18 and all(line.endswith(": it has none") for line in found)


def test_without_a_law_of_schedules_the_rehearsal_is_named(monkeypatch):
    monkeypatch.setitem(headline.OTHERS, "final_sites", ("cadf_rehearsal", "no_such_law"))
    assert list(headline.faults()) == ["no law speaks of the request Rehearse"]
