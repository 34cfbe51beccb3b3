"""Each command that a page shows writes what the page shows, and what the page names beside it can be run."""
import os

import pytest

from tests import TOP
from tests.docs import shown

RIGHT = "    $ printf 'a\\nb\\nc\\n'\n    a\n    ..\n    $ cat <<'END'\n    x\n    END\n    x\n\n    $ true\n\n    tools/cadf-take x\n"


def does_what_it_shows(name, folder):
    """Expects that the commands of a page do what it shows, by the `cadf` in that folder."""
    count, absent = shown.run_page(os.path.join(TOP, name), folder)
    assert count > 0
    if absent:
        pytest.skip("%s isn't there, which blocks of %s run" % (" and ".join(sorted(absent)), name))


@pytest.mark.parametrize("name", shown.pages())
def test_page(cadf, name):
    assert shown.idle_lines(os.path.join(TOP, name)) == []
    does_what_it_shows(name, os.path.dirname(cadf))


@pytest.mark.parametrize("name", shown.pages())
def test_page_by_the_second_implementation(name):
    """Whoever has no command yet follows the pages with it."""
    does_what_it_shows(name, os.path.join(TOP, "tests", "reference"))


@pytest.mark.parametrize("right, wrong", [("    a\n", "    b\n"), ("    ..\n", ""), ("    x\n\n", "    y\n\n"), ("$ true", "$ echo x")])
def test_wrong_page_is_caught(tmp_path, right, wrong):
    page = tmp_path / "page.md"
    page.write_text(RIGHT)
    assert shown.run_page(page) == (3, set()) and RIGHT.count(right) == 1
    page.write_text(RIGHT.replace(right, wrong))
    with pytest.raises(shown.Differs):
        shown.run_page(page)


def test_line_that_is_no_command(tmp_path):
    page = tmp_path / "page.md"
    page.write_text(RIGHT)
    assert shown.idle_lines(page) == []
    page.write_text(RIGHT.replace("cadf-take", "cadf-taken"))
    assert shown.idle_lines(page) == ["tools/cadf-taken x"]
