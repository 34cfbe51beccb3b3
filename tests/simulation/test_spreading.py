"""How facts spread among many sites: bytes and rounds by numbers worked out by hand, and the table of the page."""
import random
import re

from tests import text_of
from tests.simulation import spreading


def test_the_bytes_of_a_call():
    """28,685 bytes of 365 equal windows and 78 of the new one. Ten facts a side: two inventories of 104 + 650 bytes, two files of 104 + 2,030."""
    assert spreading.call(0b1, 0b1) == 28763
    assert spreading.call(2 ** 10 - 1, 2 ** 20 - 2 ** 10) == 28763 + 2 * (754 + 2134)
    assert spreading.call(0, 2 ** 10 - 1) == 28763 + 754 + 2134


def test_what_an_end_says():
    """A sketch of 198 cells shows 99 differences; for more another one; an inventory if that is no longer."""
    assert spreading.asked(1000, 99) == 650 + 198 * 81
    assert spreading.asked(1000, 100) == 2 * 650 + 198 * 81 + 230 * 81
    assert spreading.asked(1000, 500) == 650 + 198 * 81 + 104 + 65000 and spreading.asked(247, 1) == 104 + 247 * 65


def test_rounds():
    """Without faults two sites take a round, and a star two: what came to the middle after a site's call comes by its next."""
    assert [spreading.spread(way, 2, random.Random(1), 0).rounds for way in spreading.COLOURS] == [1, 1, 1]
    assert spreading.spread("the middle", 9, random.Random(1), 0).rounds == 2
    found = spreading.spread("any other", 30, random.Random(1))
    assert found.shares[0] == 1 / 30 and found.shares == sorted(found.shares) and found.shares[-1] == 1 and len(found.shares) == found.rounds + 1


def test_the_page():
    """It has the rows that the simulation makes of up to 100 sites; the others take a minute."""
    page = text_of(spreading.PAGE)
    assert [row for row in spreading.rows(spreading.simulations((10, 100))) if row not in page] == []
    assert len(re.findall(r"(?m)^\| [\d,]+ \| (?:the next|the middle|any other) \|", page)) == 9
