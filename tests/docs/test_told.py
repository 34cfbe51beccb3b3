"""What the pages say in numbers: exit statuses, limits and defaults are those that the tests and the programs have."""
import os
import re
import runpy

import pytest

from tests import TOP, text_of
from tests.command import test_statuses
from tests.docs import stated
from tests.reference import events, json_text, sketch_files
from tests.tables import rows



def told():
    """What FORMATS says of the command's refusals: each text, or how it begins, with its status."""
    table = text_of("docs", "FORMATS.md").split("\n| Line | Status |\n")[1].split("\n\n")[0]
    for texts, status in re.findall(r"(?m)^\| ((?:`[^`]*`(?:, )?)+).*\| (\d) \|$", table):
        for text in re.findall("`([^`]*)`", texts):
            yield text, int(status)


def statuses(fault):
    """The statuses that FORMATS has for a refusal: by its whole text, or else by how it begins."""
    patterns = [(re.compile(re.sub(r"\b[KLN]\b", r"\\d+", text)), status, text.endswith(" ")) for text, status in told()]
    whole = {status for pattern, status, is_begun in patterns if not is_begun and pattern.fullmatch(fault)}
    return whole or {status for pattern, status, is_begun in patterns if is_begun and pattern.match(fault)}


# What the tests want of the command: each text of a refusal, with its status.
WANTED = {fault: status for _, status, fault in test_statuses.ENDS if status}
WANTED.update((wanted.error.decode()[len("cadf: "):-1], wanted.status) for *_, wanted in rows.all_rows() if wanted.status)


@pytest.mark.parametrize("fault, status", sorted(WANTED.items()))
def test_status(fault, status):
    """FORMATS has it."""
    assert statuses(fault) == {status}


@pytest.mark.parametrize("text", sorted({text for text, _ in told()}))
def test_entry_of_fault(text):
    """ERRORS has an entry for each text that FORMATS has, whatever input, fact, key or line it begins with."""
    entries = text_of("docs", "ERRORS.md").split("\n## By message\n")[1].split("\n## ")[0]
    named = {name for line in entries.splitlines() for name in re.findall("`([^`]*)`", line.split(" | ")[0])}
    fault = re.sub(r"^(?:(?:input|fact|key|line) \w+: )+", "", text)
    assert fault in {"", *named}


def test_statuses_of_readme():
    line = re.search(r"Exit status: 0 [^,]+, (\d) [^,]*refused[^,]*, (\d) [^,]*command line[^,]*, (\d) [^,]*read or write[^,]*, (\d) out of memory",
                     text_of("README.md").replace("\n", " "))
    assert [int(digit) for digit in line.groups()] == [WANTED["input 1: not JSON"], WANTED["cells"], WANTED["input 1: read fault"], 4]
    assert statuses("out of memory") == {4}


@pytest.mark.parametrize("text", [
    "**Nesting** above %d is refused" % json_text.DEEPEST, "multiple of 3 from 3 to {:,}".format(sketch_files.MOST_CELLS),
    "text of 1 to {:,} UTF-8 bytes".format(events.LONGEST_NAME),
])
def test_limit(text):
    """FORMATS has the limits at which the second implementation refuses, which the rows try on both sides; those with a unit
    tests/docs/stated.py looks up."""
    assert text in text_of("docs", "FORMATS.md").replace("\n", " ")


@pytest.mark.parametrize("tool", stated.tools())
def test_help(tool):
    """The help of a tool has at most 100 columns, and a text for each word that the tool takes."""
    said = stated.help_of(tool)
    assert [line for line in said.splitlines() if len(line) > 100] == []
    said = re.sub(r"\nExamples:\n(?:  .*\n)+", "\n", said)  # of which test_help.py has more
    words = re.split(r"\n  (?=\S)", said.split("\npositional arguments:")[-1].split("\noptions:")[0] + said.split("\noptions:")[1])[1:]
    assert [word for word in words if not re.search(r"\S {2,}[a-z]|\n {10,}[a-z]", word)] == [] and len(words) > 2


def test_figures():
    """What PERFORMANCE, GUIDE and README tell in numbers with units, and the chart, is what RESULTS has; another number there is seen."""
    told = runpy.run_path(os.path.join(TOP, "bench", "figures.py"))
    results = text_of("bench", "RESULTS.md")
    for path, said, wanted, untold in told["pages"]():
        assert (path, said, untold) == (path, wanted, [])
    assert list(told["chart"](results.replace("16,689; 28,561", "16,689; 128,561"))) != list(told["chart"](results))
    said = text_of("docs", "PERFORMANCE.md")
    assert "A file: 47 s" in told["with_figures"](said, results.replace("| 46 s, 988", "| 47 s, 988"), told["FIGURES"][told["PERFORMANCE"]])[0]


def attempts():
    """The rows of SECURITY's table of who could do what, as lists of what their cells have."""
    table = text_of("docs", "SECURITY.md").split("\n| Who | What they could try |")[1].split("\n\n")[0].splitlines()[2:]
    return [[cell.strip() for cell in line.strip().strip("|").split("|")] for line in table]


def test_what_stops_an_attempt_is_tested():
    """Each row of SECURITY that says what stops something names a test that is there, or says that it is proved."""
    defined = set()
    for folder in "tests", "bindings":
        for place, _, names in os.walk(os.path.join(TOP, folder)):
            for name in names:
                if name.endswith(".py"):
                    defined.update(re.findall(r"def (test_\w+)", text_of(place, name)))
    rows = attempts()
    assert len(rows) > 40 and {name for row in rows for name in re.findall(r"`(test_\w+)`", row[2])} <= defined
    assert [row for row in rows if row[2] and "`test_" not in row[2] and "[proved]" not in row[2]] == []


def words_of(row):
    """The words of the line that a row of ERRORS begins with, in which a capital by itself stands for a name or a number."""
    return re.findall("[a-z]+", re.sub(r"\b(?:[A-Z]|DIGITS)\b", " ", re.search("`([^`]+)`", row).group(1)).lower())


def test_order_of_errors():
    """Whoever has a line finds it by its words."""
    rows_of_page = re.findall(r"(?m)^\| `.*$", text_of("docs", "ERRORS.md").split("\n## By message\n")[1].split("\n## ")[0])
    found = [words_of(row) for row in rows_of_page]
    assert len(found) > 90 and found == sorted(found)


def options_that_are_set():
    """The sections and options of the settings that OPENSTACK has operators write into files of services."""
    settings = re.findall(r"(?ms)^```ini\n(.*?)^```$", text_of("docs", "OPENSTACK.md").split("\n## What happens")[0])
    return {(section, option) for section, lines in re.findall(r"(?m)^\[(\w+)\]\n((?:\w+ =.*\n)+)", "".join(settings))
            for option in re.findall(r"(?m)^\w+", lines)}


BROKER = {("oslo_messaging_rabbit", name) for name in ("amqp_durable_queues", "rabbit_quorum_queue", "kombu_compression")}


@pytest.mark.filterwarnings("ignore")
def test_options_of_services():
    """The installed packages of OpenStack have each option that the page sets, and those of the broker that its tables name."""
    try:
        from keystone.conf import default
        from keystonemiddleware import audit
        from oslo_messaging import opts
    except ImportError as missing:
        pytest.skip("keystonemiddleware: or what is tried beside it isn't there: %s" % missing.name)
    there = {(group, option.name) for group, options in [*opts.list_opts(), *audit.list_opts()] for option in options}
    there |= {("DEFAULT", option.name) for option in default.ALL_OPTS}
    assert len(options_that_are_set()) == 5 and options_that_are_set() | BROKER <= there
    assert all("`%s`" % name in text_of("docs", "OPENSTACK.md") for _, name in BROKER)
