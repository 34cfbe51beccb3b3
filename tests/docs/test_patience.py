"""Limits of time grow with what a loop takes on this machine, and no further than somebody waits."""
import pytest

from tests import patience


@pytest.mark.parametrize("times, wanted", [((1, 1, 1), 10), ((0.5, 0.5, 9), 10), ((1, 3, 9), 30), ((2, 2, 1), 20), ((99, 99, 99), 10 * patience.MOST)])
def test_seconds(monkeypatch, times, wanted):
    """By the middle one of three measurements, and never less than on an idle machine."""
    measured = iter(times)
    patience.slowness.cache_clear()
    monkeypatch.setattr(patience, "loop", lambda: next(measured) * patience.SECONDS)
    assert patience.seconds(10) == wanted
    monkeypatch.undo()
    patience.slowness.cache_clear()


def test_loop():
    assert 0 < patience.loop() < 60
