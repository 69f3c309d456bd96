"""Browsers that last as long as the tests, and a teacher who uses the page in one of them."""

from __future__ import annotations

from collections.abc import Callable, Iterator

import pytest
from _pytest.terminal import TerminalReporter
from support.programs import Host, Page

from browser.browsers import BROWSERS, WINDOW, Browser
from browser.teacher import Teacher


def pytest_terminal_summary(terminalreporter: TerminalReporter) -> None:
    """Prints what tests measured (their properties `figures`), which is by the second. Tests that failed count too."""
    reports = [*terminalreporter.getreports("passed"), *terminalreporter.getreports("failed")]
    for name, figures in (one for report in reports for one in report.user_properties):
        if name == "figures":
            terminalreporter.write_line(f"a second: {figures}")


# Side by side, as by `-n 2 --dist loadgroup`, each browser has a worker of its own.
@pytest.fixture(scope="session", params=[pytest.param(one, marks=pytest.mark.xdist_group(one)) for one in BROWSERS])
def browser(request: pytest.FixtureRequest, tmp_path_factory: pytest.TempPathFactory) -> Iterator[Browser]:
    """Each of the browsers, one after another."""
    with BROWSERS[request.param](tmp_path_factory.mktemp("downloads")) as one:
        yield one


@pytest.fixture
def teacher(browser: Browser, cam6: str, host: Callable[..., Host], page: Callable[..., Page]) -> Iterator[Teacher]:
    """A teacher at an empty window. When they are done, no page may have an error on the console, and the programs still
    run, so that none has lost its connection."""
    one, driver = Teacher(browser, cam6), browser.driver
    one.size(*WINDOW)
    first = driver.current_window_handle
    one.errors()
    yield one
    errors = one.errors()
    for other in {*driver.window_handles} - {first}:
        driver.switch_to.window(other)
        driver.close()
    driver.switch_to.window(first)
    driver.get("about:blank")
    assert errors == []


@pytest.fixture
def own(teacher: Teacher, page: Callable[..., Page]) -> Teacher:
    """A teacher at a page that has a machine of its own."""
    teacher.open(page().address)
    return teacher
