"""The liars are seen through, and they are good ones: a reader without one of its rules believes some of them."""
import itertools

import pytest

from tests.generated.liars import kind_of, tried
from tests.generated.odd_lies import Lie
from tests.reference import growth_files

COUNT = 1500
REFUSED = {"input 3: %s: %s" % (name, cause) for name in ("facts", "keys") for cause in ("other count", "no tree", "order", "neighbour hidden", "not needed")}
REFUSED |= {"input %d: %s: other root" % (number, name) for name in ("facts", "keys") for number in (1, 2)}
REFUSED |= {"input 2: %s: gone:" % name for name in ("facts", "keys")} | {"input %d: other log" % number for number in (2, 3, 4)}


def test_none_is_believed():
    """Each refusal of the page is there, and enough is accepted, both of what is right and of what a liar says that is true all the same."""
    kinds, accepted = set(), []
    for number in range(COUNT):
        lie = Lie(2, number)
        told, fault = tried(lie)
        assert fault is None, (number, fault)
        kinds.add(kind_of(told))
        accepted += [lie.is_right] * (told.status == 0)
    assert kinds == {"cadf: " + each for each in REFUSED} | {"accepted"}
    assert min(accepted.count(True), accepted.count(False)) > COUNT // 50


def believed():
    """The first of the liars whose answer is false."""
    return next((number for number in range(2 * COUNT) if tried(Lie(3, number))[1]), None)


@pytest.mark.parametrize("rule", ["order", "neighbour hidden", "other count", (1, "other root"), (2, "other root")])
def test_a_reader_without_a_rule(rule, monkeypatch):
    own = growth_files.refusals
    monkeypatch.setattr(growth_files, "refusals", lambda *words: (each for each in own(*words) if rule not in (each, each[1])))
    assert believed() is not None


@pytest.mark.parametrize("name", ["facts", "keys"])
def test_a_reader_of_one_tree(name, monkeypatch):
    """Of the facts or of the keys alone: what is gone there, and what the tree says, is passed over."""
    tree, gone = growth_files.check_tree, growth_files.check_gone
    monkeypatch.setattr(growth_files, "check_tree", lambda which, parts, *seals: which == name and tree(which, parts, *seals))
    monkeypatch.setattr(growth_files, "check_gone", lambda which, parts, listed: which == name and gone(which, parts or [], listed))
    assert believed() is not None


def test_a_case_depends_on_its_number():
    for number in itertools.islice(range(10 ** 6), 0, 10 ** 6, 10 ** 5):
        one, other = Lie(1, number), Lie(1, number)
        assert (one.words, one.files) == (other.words, other.files)
