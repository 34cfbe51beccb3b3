"""What the tests share under pytest: the built command, what a test needs to be there, which skips are allowed, and for how long it may run."""
import os
import shutil
import signal
import threading

import pytest

from tests import patience, skips
from tests.machine import built

try:
    import hypothesis
    # The gate tries the same examples each time; `--hypothesis-profile=default` tries others.
    hypothesis.settings.register_profile("gate", derandomize=True, database=None, deadline=None)
    hypothesis.settings.load_profile("gate")
except ImportError:
    pass  # the tests that need it are skipped
PROGRAMS = {"broker": ("rabbitmq-server",), "browser": ("chromium", "chromedriver")}
# The groups and files of tests that take longest, the longest first: no process is left alone with one at the end.
SLOW = ("bindings", "limits", "browser", "broker", "packages", "test_oom", "test_bits", "sandbox", "test_builds")


def pytest_configure(config):
    """Has no signal ignored that this process was given so, as behind nohup or in the background: the tools would ignore it too.

    Ends a process of xdist that runs beside its main thread, where a test can handle no signal, as execnet begins one now and then
    on a busy machine: xdist begins another.
    """
    if hasattr(config, "workerinput") and threading.current_thread() is not threading.main_thread():
        os._exit(1)
    for number in (signal.SIGHUP, signal.SIGINT):
        if signal.getsignal(number) is signal.SIG_IGN:
            signal.signal(number, signal.SIG_DFL)


def pytest_addoption(parser):
    parser.addoption("--binary", default=built("cadf"), help="the command that is tried; crates/cadf/out/cadf unless given")
    parser.addoption("--release", action="store_true", help="run what runs before a release too")
    parser.addoption("--allow-skip", action="append", default=[], metavar="NAME", help="allow skips for this too, beside those of .ci/allowed-skips")


def slowness(item):
    """The place of a test in SLOW, by its group or its file."""
    group = item.get_closest_marker("xdist_group")
    name = group.args[0] if group else item.path.stem
    return SLOW.index(name) if name in SLOW else len(SLOW)


def longest(config, item):
    """How long a test may take here, in seconds: its own limit, or that of pytest.ini."""
    own = item.get_closest_marker("timeout")
    return patience.seconds(float(own.args[0] if own else config.getini("timeout") or 0))


def pytest_collection_modifyitems(config, items):
    """Marks each test by whether it runs the built command, so that `-m unbuilt` is what can run before a build. Slow ones come first.

    Limits of time are longer on a machine that is slow or busy.

    A broker takes ten seconds to start, so those that have one run together, after the build. Leaves out those of a release,
    which are no skips: CONTRIBUTING has them among what runs on demand.
    """
    later = [] if config.getoption("--release") else [item for item in items if item.get_closest_marker("release")]
    config.hook.pytest_deselected(items=later)
    items[:] = sorted((item for item in items if item not in later), key=slowness)
    for item in items:
        is_later = {"cadf", "drivers"} & set(item.fixturenames) or item.get_closest_marker("broker")
        item.add_marker("built" if is_later else "unbuilt")
        if config.pluginmanager.hasplugin("timeout"):
            item.add_marker(pytest.mark.timeout(longest(config, item)), append=False)


def refuse_unnamed(config, report):
    """Has a test or a file of tests failed that was skipped for what the list doesn't name."""
    if report.skipped and not hasattr(report, "wasxfail"):
        reason = report.longrepr[2].partition("Skipped: ")[2]
        if skips.name_of(reason, [*skips.allowed(), *config.getoption("--allow-skip")]) is None:
            report.outcome, report.longrepr = "failed", "skipped, and %s has no name for it: %s" % (skips.LIST, reason)


@pytest.hookimpl(hookwrapper=True)
def pytest_runtest_makereport(item, call):
    refuse_unnamed(item.config, (yield).get_result())


@pytest.hookimpl(hookwrapper=True)
def pytest_make_collect_report(collector):
    refuse_unnamed(collector.config, (yield).get_result())


def pytest_runtest_setup(item):
    """Skips a test that needs what isn't here."""
    programs = [program for marker in item.iter_markers("needs") for program in marker.args]
    programs += [program for name, wanted in PROGRAMS.items() if item.get_closest_marker(name) for program in wanted]
    for program in programs:
        if shutil.which(program) is None:
            pytest.skip("%s isn't there" % program)
    if item.get_closest_marker("root") and os.geteuid():
        pytest.skip("root is needed")


@pytest.fixture(scope="session")
def drivers():
    """The path of the program that makes the calls of tests/tables, as `rt ci` builds it."""
    if not os.path.exists(built("drivers")):
        pytest.skip("drivers: %s isn't there: rt ci builds it" % built("drivers"))
    return built("drivers")


@pytest.fixture(scope="session")
def cadf(pytestconfig):
    """The path of the built command."""
    binary = os.path.abspath(pytestconfig.getoption("--binary"))
    if not os.path.exists(binary):
        pytest.skip("cadf: %s isn't there: run build/command, or give --binary" % binary)
    return binary
