"""What the pages state as code or in numbers is what the sources have; tests/docs/stated.py looks it up."""
import pytest

from tests import text_of
from tests.docs import stated

pytestmark = pytest.mark.xdist_group("stated")  # all pages are looked up in the texts of one process


@pytest.mark.parametrize("name", stated.pages())
def test_page(name):
    text = text_of(name)
    assert [*stated.unstated(name, text), *stated.wrong_numbers(name, text)] == []


def test_list():
    """Each piece of code that the list has is in a page, and each number in one."""
    pages = {stated.short(name): " ".join(text_of(name).split()) for name in stated.pages()}
    lines = [line.partition("   # ")[0] for line in text_of("tests/docs/words").splitlines() if line and not line.startswith("# ")]
    where = [line.partition(": ")[::2] if line.partition(": ")[0] in pages else ("", line) for line in lines]
    unused = [line for page, line in where if not any("`" + line.removesuffix(" ..") in text for name, text in pages.items() if page in ("", name))]
    assert unused == [] and {page for _, _, counts in stated.listed() for page in counts} <= set(pages)
