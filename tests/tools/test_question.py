"""Questions: which events answer, beside plain Python over the values that a log shows, and the words that are refused."""
import argparse
import random

import pytest

from tests.reference.json_text import spelled
from tests.tools.asked import answers, cut, facts, fits, posed, question, shown
from cadf_question import Pattern, duration_typed, member_typed, pattern_typed, text_typed


@pytest.mark.parametrize("seed", range(4))
def test_which_events_answer(seed):
    chance = random.Random(seed)
    log, contradicted = shown(facts(chance, 60))
    events, count = log + [each for _, each in contradicted], 0
    atoms = facts(random.Random(seed), 60)
    for _ in range(60):
        options = question(chance, atoms)
        asked = posed(options)
        for each in events:
            assert asked.has(each, spelled(each).encode()) == answers(options, each), (options, each)
            count += answers(options, each)
    assert count > 200


def test_patterns():
    chance = random.Random(0)
    for _ in range(4000):
        text = "".join(chance.choice("ab*\n") for _ in range(chance.randrange(8)))
        pattern = chance.choice([cut(chance, text), "".join(chance.choice("ab*") for _ in range(chance.randrange(6)))])
        assert Pattern(pattern).matches(text) == fits(pattern, text), (pattern, text)
    assert not Pattern("*a" * 500 + "b").matches("a" * 10 ** 5)


@pytest.mark.parametrize("typed, text", [(text_typed, "\udcff"), (pattern_typed, "a\udcff"), (member_typed, "\udcff=1"), (member_typed, "a=1"), (member_typed, "/a"),
                                         (member_typed, "=1"), (member_typed, "/a~2=1"), (member_typed, "/" + "a" * 10 ** 5 + "~"), (duration_typed, "5"),
                                         (duration_typed, "-1d"), (duration_typed, "1m"), (duration_typed, "")])
def test_refused_words(typed, text):
    with pytest.raises(argparse.ArgumentTypeError):
        typed(text)


def test_a_member_of_an_empty_name():
    assert member_typed("/=x=*").matches({"": "x=y"}) and not member_typed("/=x").matches({"": {"": "x"}})
