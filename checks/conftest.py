"""How tests run here: each in a process of its own, as many side by side as its group may, and what it printed is shown once it has ended.

A test that a fork runs shares nothing with another, takes all that it began with it, and is ended with it where it takes too long.
"""
import math
import os
import pickle
import signal
import sys
import tempfile
import time
from concurrent.futures import ProcessPoolExecutor
from types import SimpleNamespace

import pytest
from _pytest.reports import TestReport
from _pytest.runner import runtestprotocol

import programs

pytest.register_assert_rewrite("folders", "carrying")
PROCESSORS = len(os.sched_getaffinity(0))
# How many of a group run side by side, which a module names. A test `alone` has to get on beside nothing else, those of servers beside one another alone, and mostly wait.
GROUPS = {"alone": 1, "beside": PROCESSORS, "servers": 4 * PROCESSORS}
# In seconds, far above what any of them takes, where nothing more was asked for.
LIMIT = 1800
# What may be asked for more of, or less, each test as it says.
NUMBERS = ("seed", "count", "seconds", "kills")


def pytest_addoption(parser):
    for name in NUMBERS:
        parser.addoption(f"--{name}", type=int)
    parser.addoption("--full", action="store_true", help="all that there is to try, and no choice of it")
    parser.addoption("--file", help="what a run printed before")
    parser.addoption("--wrong", action="store_true", help="tries programs with a mistake each, which are built for that, and nothing else")


def pytest_configure(config):
    config.addinivalue_line("markers", "alone: beside nothing else")
    config.addinivalue_line("markers", "long: it takes longer than most, so it begins before them")
    config.addinivalue_line("markers", "wrong: a program with a mistake is built for it, so it is tried by hand alone")


def pytest_collection_modifyitems(config, items):
    chosen = [it for it in items if bool(it.get_closest_marker("wrong")) == config.option.wrong]
    config.hook.pytest_deselected(items=[it for it in items if it not in chosen])
    items[:] = sorted(chosen, key=lambda it: not it.get_closest_marker("long"))


def pytest_sessionstart(session):
    for path in (programs.zanstore(), *programs.harness()):
        if not os.access(path, os.X_OK):
            pytest.exit(f"no program at {path}: ./zanstore prove and checks/build harness session make both, ./test --quick runs all without proofs", 2)


def pytest_report_teststatus(report):
    if report.when == "call" and report.outcome != "skipped":
        return report.outcome, report.outcome[0], f"{report.outcome} in {report.duration:.1f} s"
    return None


class Lane:
    """A test in a process of its own, which has left its reports in one file behind it, and what it printed in another."""

    def __init__(self, item):
        self.item, self.begun = item, time.monotonic()
        self.printed, self.reports = tempfile.TemporaryFile("w+", errors="replace"), tempfile.TemporaryFile()
        self.late = self.begun + (LIMIT if not any(getattr(item.config.option, name) for name in (*NUMBERS, "full", "wrong")) else math.inf)
        sys.stdout.flush()
        self.child = os.fork()
        if not self.child:
            try:
                self.run()
            finally:
                sys.stdout.flush()
                os._exit(0)

    def run(self):
        os.setsid()
        signal.signal(signal.SIGTERM, signal.SIG_DFL)
        os.dup2(os.open(os.devnull, os.O_RDONLY), 0)
        for stream in (1, 2):
            os.dup2(self.printed.fileno(), stream)
        hook, config = self.item.ihook, self.item.config
        reports = [hook.pytest_report_to_serializable(config=config, report=it) for it in runtestprotocol(self.item, log=False)]
        pickle.dump(reports, self.reports)
        self.reports.flush()

    def end(self):
        """Whether it has ended, or does now since it takes too long."""
        is_late = time.monotonic() > self.late
        if is_late:
            self.kill()
        return os.waitpid(self.child, 0 if is_late else os.WNOHANG)[0] > 0

    def kill(self):
        try:
            os.killpg(self.child, signal.SIGKILL)
        except ProcessLookupError:
            pass

    def show(self, terminal):
        self.kill()
        hook, config = self.item.ihook, self.item.config
        self.printed.seek(0)
        self.reports.seek(0)
        try:
            found = [hook.pytest_report_from_serializable(config=config, data=it) for it in pickle.load(self.reports)]
        except EOFError:
            why = f"ended, or was ended, behind {time.monotonic() - self.begun:.0f} s, and left no report"
            found = [TestReport(self.item.nodeid, self.item.location, {}, "failed", why, "call")]
        hook.pytest_runtest_logstart(nodeid=self.item.nodeid, location=self.item.location)
        for report in found:
            hook.pytest_runtest_logreport(report=report)
        terminal.write("".join(f"\n{line.rstrip()}" for line in self.printed), flush=True)


def pytest_runtestloop(session):
    if session.config.option.collectonly or session.testsfailed:
        return None
    lanes, terminal, groups = [], session.config.pluginmanager.getplugin("terminalreporter"), {group: [] for group in GROUPS}
    for it in session.items:
        groups["alone" if it.get_closest_marker("alone") else getattr(it.module, "GROUP", "beside")].append(it)
    signal.signal(signal.SIGTERM, signal.default_int_handler)
    try:
        for group, waiting in groups.items():
            while waiting or lanes:
                while waiting and len(lanes) < GROUPS[group]:
                    lanes.append(Lane(waiting.pop(0)))
                for lane in [it for it in lanes if it.end()]:
                    lanes.remove(lane)
                    lane.show(terminal)
                time.sleep(0.005)
    finally:
        for lane in lanes:
            lane.kill()
    return True


@pytest.fixture
def asked(request):
    """What was asked for, each by its name; none of what was not."""
    return SimpleNamespace(**{name: request.config.getoption(name) for name in (*NUMBERS, "full", "file")})


@pytest.fixture
def folder():
    """A folder of its own."""
    with tempfile.TemporaryDirectory(prefix="checks-") as path:
        yield path


@pytest.fixture
def pool():
    """As many processes as there are processors."""
    with ProcessPoolExecutor() as made:
        yield made
