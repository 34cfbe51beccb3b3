"""A fortnight of the operator's year: each fault is told within a day, with the command that ends it, and at the end nothing lacks."""
import pytest

from tests.tools import year
from tests.tools.copies import copied
from tests.tools.year import FORTNIGHT, PLOTS, Failed, lived

pytestmark = pytest.mark.needs("ssh-keygen")
# Of each fault who tells it.
TOLD = ["cadf-spool tells set_aside_files of north", "cadf-sync tells open_conflicts of south", "cadf-spool tells unseen_rulings of west",
        "cadf-spool tells set_aside_files of west", "cadf-spool tells status 3 of south", "cadf-which tells damaged_windows of north",
        "cadf-sync tells status 5 of north", "cadf-sync tells unseen_rulings of west", "cadf-spool tells last_success of north"]


@pytest.mark.timeout(600)
def test_a_fortnight(cadf, tmp_path):
    (tmp_path / "sites").mkdir()
    log = lived(str(tmp_path / "sites"), cadf, FORTNIGHT, tools=copied(str(tmp_path / "copy")))  # which are compiled: most of it are starts of them
    assert len(PLOTS) == 9 and all(any(told in line for line in log) for told in TOLD), log


@pytest.mark.timeout(600)
@pytest.mark.parametrize("plot, right, wrong", [
    (year.a_byte_changes, '("damaged_windows", {}, len(', '("damaged_windows", {}, 0 * len('),
    (year.a_sites_own_hand_forges_one, "len(found[1] - seen_rulings(site))", "0"),
    (year.a_stranger_forges_a_ruling, 'return [] if options.rulings else ["--no-rulings"]', "return []"),
    (year.a_senders_clock, "                    self.write(name, parts, inputs, own.rulings)", "                    pass"),
])
def test_what_isnt_told_is_found(cadf, tmp_path, plot, right, wrong):
    (tmp_path / "sites").mkdir()
    with pytest.raises(Failed):
        lived(str(tmp_path / "sites"), cadf, 2, plots=[plot], tools=copied(str(tmp_path / "copy"), right, wrong), quiet=1)
