"""examples/monitoring: alerts over the numbers that the tools write, as Prometheus judges them, and who is told of a failed unit."""
import os
import re
import shutil
import sys

import pytest

from tests import TOP, text_of
from tests.machine import said
from tests.package.test_units import OLDEST, SYSTEM, analyzed

sys.path.insert(0, os.path.join(TOP, "share", "cadf"))
from cadf_metrics import HELP

FOLDER = os.path.join(TOP, "examples", "monitoring")
RULES = os.path.join(FOLDER, "cadf.rules.yml")
HOURS = 45 * 24
FOLLOWS, STAYS = "0+3600x%d" % HOURS, "0x%d" % HOURS  # times, which begin with 1970 in a test of rules
HEALTHY = {**{'last_success_timestamp_seconds{tool="%s"}' % tool: FOLLOWS for tool in ("cadf-spool", "cadf-sync", "cadf-which")},
           "oldest_scrub_timestamp_seconds": FOLLOWS, "damaged_windows": STAYS, "doubtful_windows": STAYS, "open_conflicts": STAYS, "unseen_rulings": STAYS,
           "set_aside_bytes": STAYS, "largest_window_bytes": "1000x%d" % HOURS}
# Of each alert what is then otherwise than in a healthy site; None is what isn't there.
CASES = {
    "CadfNothingTaken": {'last_success_timestamp_seconds{tool="cadf-spool"}': STAYS},
    "CadfNoExchange": {'last_success_timestamp_seconds{tool="cadf-sync"}': STAYS},
    "CadfNoNumbers": {'last_success_timestamp_seconds{tool="cadf-spool"}': None},
    "CadfDamagedWindow": {"damaged_windows": "2x%d" % HOURS},
    "CadfClockAhead": {'last_success_timestamp_seconds{tool="cadf-sync"}': "7200+3600x%d" % HOURS},
    "CadfWindowInDoubt": {"doubtful_windows": "1x%d" % HOURS},
    "CadfScrubLate": {"oldest_scrub_timestamp_seconds": STAYS},
    "CadfOpenConflicts": {"open_conflicts": "3x%d" % HOURS},
    "CadfUnseenRuling": {"unseen_rulings": "1x%d" % HOURS},
    "CadfWaiting": {"set_aside_oldest_timestamp_seconds": STAYS},
    "CadfPeerForgot": {"windows_not_kept_by_peer": "1x%d" % HOURS},
    "CadfForgetLate": {'last_success_timestamp_seconds{tool="cadf-forget"}': STAYS},
    "CadfLargeWindow": {"largest_window_bytes": "600000000x%d" % HOURS},
}


def alerts():
    """The alerts, each with its severity."""
    return dict(re.findall(r"- alert: (\w+)\n(?:.*\n)*?        labels: \{severity: (\w+)\}", text_of(RULES)))


def test_of_rules(changed, alert):
    """A test of rules, in promtool's words: which alerts there are at the end, of a site that is healthy but for what is changed."""
    series = "".join("      - series: 'cadf_%s'\n        values: '%s'\n" % item for item in {**HEALTHY, **changed}.items() if item[1])
    sample = "exp_samples: [{labels: '{alertname=\"%s\"}', value: 1}]" % alert if alert else "exp_samples: []"
    return ("  - interval: 1h\n    input_series:\n%s    promql_expr_test:\n      - expr: 'count by (alertname) (ALERTS{alertstate=\"firing\"})'\n"
            "        eval_time: %dh\n        %s\n" % (series, HOURS, sample))


test_of_rules.__test__ = False


@pytest.mark.needs("promtool")
def test_each_alert_is_for_its_number(tmp_path):
    """A healthy site has none, and each case its own alone."""
    assert said("promtool", "check", "rules", RULES)[0] == 0
    cases = test_of_rules({}, None) + "".join(test_of_rules(changed, alert) for alert, changed in CASES.items())
    (tmp_path / "test.yml").write_text("rule_files: [%s]\nevaluation_interval: 1h\ntests:\n%s" % (RULES, cases))
    assert said("promtool", "test", "rules", str(tmp_path / "test.yml")) == (0, "Unit Testing:  %s\n  SUCCESS\n\n" % (tmp_path / "test.yml"))


def test_alerts_are_of_numbers_that_are_written():
    """The tools write each of them, there is a case for each alert, and the page says of each whether it wakes somebody."""
    assert {name[len("cadf_"):] for name in re.findall(r"\bcadf_\w+", re.sub(r'(?m)"[^"\n]*"|^#.*', "", text_of(RULES)))} <= HELP.keys()
    assert alerts().keys() == CASES.keys() and set(alerts().values()) == {"page", "ticket"}
    table = dict(re.findall(r"(?m)^\| `(Cadf\w+)` \| (wakes|waits) \|", text_of("docs", "SYNC.md")))
    assert table == {alert: "wakes" if severity == "page" else "waits" for alert, severity in alerts().items()}


@pytest.mark.needs("systemd-analyze")
def test_units(tmp_path):
    """systemd understands who is told of a failed unit, in the place that the file names."""
    if int(analyzed("--version")[1].split()[1]) < OLDEST:
        pytest.skip("systemd-analyze is older than %d" % OLDEST)
    shutil.copytree(SYSTEM, tmp_path / SYSTEM[1:], symlinks=True)
    shutil.copytree(os.path.join(TOP, "tools"), tmp_path / "usr" / "bin")
    (tmp_path / "bin").symlink_to("usr/bin")
    shutil.copy2("/bin/sh", tmp_path / "usr" / "bin")
    system = tmp_path / "etc" / "systemd" / "system"
    (system / "cadf-settle@.service.d").mkdir(parents=True)
    shutil.copy2(os.path.join(TOP, "examples", "systemd", "cadf-settle@.service"), system)
    shutil.copy2(os.path.join(FOLDER, "cadf-failed@.service"), system)
    shutil.copy2(os.path.join(FOLDER, "on-failure.conf"), system / "cadf-settle@.service.d")
    names = ["cadf-settle@audit.service", "cadf-failed@cadf-settle@audit.service.service"]
    assert analyzed("verify", "--man=no", "--root=%s" % tmp_path, *names) == (0, "")
