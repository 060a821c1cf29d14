"""How pytest runs the tests: a test fails if a check of it fails (checks.py), and the last line of each part counts its checks.

A part has its own options in `checks.options`, and the environment as it was once it is done."""

import argparse
import contextlib
import os
import shlex
import signal
import tempfile

import checks
import pytest

MOST = 2000  # characters of what a test that fails has printed

counts: "dict[str, list[int]]" = {}
told: "set[str]" = set()


def pytest_addoption(parser) -> None:
    parser.addoption("--at-once", action="store_true", help="print a failure, and what is skipped, where it comes, and no dots")
    parser.addoption("--words", default="", help="options of the part, as `test_NAME.py --help` lists them")


def pytest_configure(config) -> None:
    # a shell has what it starts in the background ignore an interrupt, and so would all that the tests run
    signal.signal(signal.SIGINT, signal.default_int_handler)
    os.environ.setdefault("MTE_TOOL_BUILD", "no")


@pytest.fixture(autouse=True, scope="module")
def own_options(request):
    parser = argparse.ArgumentParser()
    getattr(request.module, "add_options", lambda parser: None)(parser)
    checks.options = parser.parse_args(shlex.split(request.config.getoption("words")))
    kept = dict(os.environ)
    yield
    os.environ.clear()
    os.environ.update(kept)


@pytest.fixture(autouse=True, scope="class")
def at_end_of_class(request):
    with contextlib.ExitStack() as ends:
        if request.cls:
            request.cls.after_class = ends
        yield


@pytest.fixture(autouse=True)
def at_end_of_test(request):
    with contextlib.ExitStack() as ends:
        if request.instance:
            request.instance.after_test = ends
        yield


@pytest.fixture
def work():
    """A folder that goes with the test."""
    with tempfile.TemporaryDirectory() as folder:
        yield folder


@pytest.fixture(scope="module")
def place():
    """A folder that goes with the part."""
    with tempfile.TemporaryDirectory() as folder:
        yield folder


@pytest.hookimpl(hookwrapper=True)
def pytest_runtest_makereport(item, call):
    """A test of which a check has failed fails; one in which nothing is checked is one check."""
    report = (yield).get_result()
    passed, failed, left_out, lines = checks.take_counts()
    if report.skipped:
        left_out, lines = left_out + 1, [*lines, f"skipped, {report.longrepr[2].removeprefix('Skipped: ')}"]
    elif report.failed:
        failed, lines = failed + 1, [*lines, f"FAILED {item.nodeid}, {report.when}: {report.longreprtext}"]
    elif failed:
        report.outcome, report.longrepr = "failed", "\n".join(lines)
    if report.failed:
        lines += [text[-MOST:] for _, text in report.sections if text.strip()]
    elif report.when == "call" and not passed and not left_out:
        passed = 1
    report.user_properties.append(("checks", [item.path.name, passed, failed, left_out, lines]))


def add_counts(name: str, *more: int) -> None:
    counts[name] = [before + each for before, each in zip(counts.get(name, (0, 0, 0)), more)]


def tell(config, lines: "list[str]") -> None:
    """Prints lines at once, each one time, where that is asked for."""
    terminal = config.pluginmanager.get_plugin("terminalreporter")
    if config.option.at_once and terminal:
        for line in lines:
            if line not in told:
                terminal.write_line(line)
                told.add(line)
        terminal.flush()


class Counter:
    """What the process that prints does with the counts: those of other processes reach it in the reports."""

    def __init__(self, config) -> None:
        self.config = config

    def pytest_runtest_logreport(self, report) -> None:
        for name, path in report.user_properties:
            if name == "checks":
                add_counts(*path[:4])
                tell(self.config, path[4])

    def pytest_collectreport(self, report) -> None:
        if report.failed:
            add_counts(os.path.basename(report.nodeid), 0, 1, 0)
            tell(self.config, [f"FAILED {report.nodeid}: {report.longreprtext}"])


def pytest_sessionstart(session) -> None:
    if not hasattr(session.config, "workerinput"):
        session.config.pluginmanager.register(Counter(session.config))


@pytest.hookimpl(tryfirst=True)
def pytest_sessionfinish(session) -> None:
    if session.config.option.at_once:
        session.config.option.tbstyle = "no"  # all is printed


def pytest_report_teststatus(report, config):
    if config.option.at_once:
        return report.outcome, "", ""


def pytest_terminal_summary(terminalreporter) -> None:
    for name, (passed, failed, left_out) in sorted(counts.items()):
        part = name.removeprefix("test_").removesuffix(".py")
        terminalreporter.write_line(f"{part}: {passed} passed, {failed} failed, {left_out} skipped")
