"""A plugin of pytest that ends a run at the first test that sees the fault, and writes down which: by an assertion alone.

    python3 -m pytest -p tests.mutation.verdict --verdict FILE TEST..

FILE gets a line for each test that failed: `killed NODEID`, or `failed NODEID: EXCEPTION` where a test didn't come to its
assertion, so that a limit of time, a name that isn't there or a text that doesn't parse is no verdict.
"""
import pytest


def pytest_addoption(parser):
    parser.addoption("--verdict", metavar="FILE", required=True)


def is_assertion(error):
    """Whether a test has said that something is wrong: it asserts, or expects an exception that doesn't come. A timeout says no such thing."""
    return isinstance(error, AssertionError) or isinstance(error, pytest.fail.Exception) and not str(error).startswith("Timeout")


@pytest.hookimpl(hookwrapper=True, tryfirst=True)
def pytest_runtest_makereport(item, call):
    report = (yield).get_result()
    if report.failed:
        is_killed = call.excinfo is not None and is_assertion(call.excinfo.value)
        with open(item.config.getoption("--verdict"), "a", encoding="utf-8") as file:
            file.write("killed %s\n" % item.nodeid if is_killed else "failed %s: %s\n" % (item.nodeid, getattr(call.excinfo, "typename", "?")))
        if is_killed:
            item.session.shouldstop = "a test sees it"
