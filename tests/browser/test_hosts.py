"""The page with hosts that go and come back, with seats, and beside a page of another server. Nothing is lost."""

from __future__ import annotations

import threading
import time
from collections.abc import Callable
from functools import partial
from http.server import SimpleHTTPRequestHandler, ThreadingHTTPServer
from pathlib import Path

import pytest
from support.programs import Host, Page, wait_until

from browser.teacher import READY, TORUS, Teacher, moved

pytestmark = pytest.mark.browser
Hosts = Callable[..., Host]
Pages = Callable[..., Page]
BALLS, LETTERS = "billiard_balls", "letters"
# The options of hosts with four seats and with two.
FOUR, TWO = ("--users=4", "--side=512"), ("--users=2", "--side=512")
# Seconds for which a program is away, so that the page tries in vain to reach it.
AWAY = 0.5
# Seconds within which the page has to go on at another host, beside those that it took to open it on a busy computer.
ELSEWHERE = 5
SEAT = "document.getElementById('seat').textContent.trim()"
# Keeps each state of the page from now on, with its time in milliseconds.
WATCH = """
const torus = document.getElementById('torus');
window.states = [];
new MutationObserver(() => {
  if (window.states.at(-1)?.[0] !== torus.dataset.state) window.states.push([torus.dataset.state, performance.now()]);
}).observe(torus, { attributes: true, attributeFilter: ['data-state'] });
"""
# Tries to open a socket, and calls back with what became of it.
OPEN = """(new Promise(done => {
  const socket = new WebSocket(arguments[0]);
  socket.onopen = () => done('open');
  socket.onclose = event => done(`closed ${event.code}`);
}))"""


def state_is(teacher: Teacher, state: str, text: str = "") -> None:
    """Waits until the page is in a state and shows this text of it. It shows it only until it tries again."""
    says = f"document.getElementById('state-says').textContent.includes('{text}')"
    teacher.wait_until(f"{TORUS}.state === '{state}' && {says}")


def run_on(teacher: Teacher, steps: int) -> None:
    """Waits until so many more steps are done."""
    more = teacher.count() + steps
    assert wait_until(lambda: teacher.count() > more), f"the count doesn't come to {more}"


def at_host(teacher: Teacher, address: str) -> list[str]:
    """Opens the page, sets letters up, and lets them run. Returns the lines that set them up."""
    teacher.open(address)
    lines = teacher.set_up(LETTERS)
    teacher.click("#run")
    run_on(teacher, 30)
    return lines


def test_time_runs_on_after_a_host_was_killed_twice(teacher: Teacher, host: Hosts, page: Pages) -> None:
    one = host(*FOUR)
    lines = at_host(teacher, page(one.port).address)
    for _ in range(2):
        one.kill()
        state_is(teacher, "lost", "connection is lost")
        time.sleep(AWAY)
        one.begin()
        state_is(teacher, "ready")
        run_on(teacher, 30)
        teacher.assert_shows([*lines, moved(teacher.pause())])
        teacher.click("#run")
        run_on(teacher, 30)


def test_each_step_is_done_once_if_a_host_went_while_nobody_asked(teacher: Teacher, host: Hosts, page: Pages) -> None:
    one = host(*FOUR)
    lines = at_host(teacher, page(one.port).address)
    count = teacher.pause()
    one.kill()
    time.sleep(AWAY)
    one.begin()
    teacher.click("#step", 5)
    teacher.assert_shows([*lines, moved(count + 5)])
    teacher.assert_count(count + 5)


def test_the_page_goes_on_when_its_program_is_started_again(teacher: Teacher, host: Hosts, page: Pages) -> None:
    site = page(host(*FOUR).port)
    lines = at_host(teacher, site.address)
    count = teacher.pause()
    site.kill()
    state_is(teacher, "lost")
    site.begin()
    state_is(teacher, "ready")
    teacher.click("#back")
    teacher.assert_shows([*lines, moved(count - 1)])
    # While no program listened, the browser itself wrote to the console that it can't connect.
    assert teacher.errors("ERR_CONNECTION_REFUSED", "can’t establish a connection") == []


@pytest.mark.alone
def test_the_page_goes_on_at_another_host(teacher: Teacher, host: Hosts, page: Pages) -> None:
    one, other = host(*FOUR), host(*FOUR)
    begun = time.monotonic()
    lines = at_host(teacher, page(one.port, other.port).address)
    opened = time.monotonic() - begun
    teacher.script(WATCH)
    one.kill()
    teacher.wait_until("window.states.some(([state]) => state === 'lost')")
    state_is(teacher, "ready", "of host 2")
    states = [(state, when) for state, when in teacher.value("window.states") if state in ("lost", "ready")]
    assert [state for state, _ in states] == ["lost", "ready"]
    assert states[1][1] - states[0][1] < 1000 * (ELSEWHERE + opened)
    run_on(teacher, 30)
    count = teacher.pause()
    teacher.assert_shows([*lines, moved(count)])
    teacher.click("#back", 3)
    teacher.assert_shows([*lines, moved(count - 3)])


@pytest.fixture
def classroom(host: Hosts, page: Pages) -> str:
    """The address of a page whose host has two seats."""
    return page(host(*TWO).port).address


def test_each_page_takes_the_first_free_seat_and_has_a_machine(teacher: Teacher, classroom: str) -> None:
    teacher.open(classroom)
    assert teacher.wait_until(SEAT) == "1"
    lines = teacher.set_up(LETTERS)
    with teacher.window():
        teacher.open(classroom)
        assert teacher.wait_until(SEAT) == "2"
        teacher.set_up(BALLS)
    teacher.click("#step")
    teacher.assert_shows([*lines, moved(1)])


def test_a_page_too_many_says_so_and_takes_a_seat_that_becomes_free(teacher: Teacher, classroom: str) -> None:
    teacher.open(classroom)
    with teacher.window():
        teacher.open(classroom)
        with teacher.window():
            teacher.go(classroom)
            state_is(teacher, "full", "seats are taken")
            third = teacher.driver.current_window_handle
        teacher.driver.get("about:blank")
        teacher.driver.switch_to.window(third)
        teacher.wait_until(READY)
        assert teacher.wait_until(SEAT) == "2"


def test_a_page_takes_the_seat_in_its_address(teacher: Teacher, classroom: str) -> None:
    teacher.open(f"{classroom}#seat=2")
    assert teacher.wait_until(SEAT) == "2"


def test_a_page_of_another_server_gets_no_socket(teacher: Teacher, page: Pages, tmp_path: Path) -> None:
    site = page()
    socket = f"ws://127.0.0.1:{site.port}/ws"
    # The other page is empty, and has no policy. An empty tab would show nothing: Chromium opens no socket to this computer
    # for it, whatever the server says.
    (tmp_path / "index.html").touch()
    handler = partial(SimpleHTTPRequestHandler, directory=str(tmp_path))
    with ThreadingHTTPServer(("127.0.0.1", 0), handler) as server:
        threading.Thread(target=server.serve_forever, daemon=True).start()
        teacher.driver.get(f"http://127.0.0.1:{server.server_port}/")
        became = teacher.value(OPEN, socket)
        server.shutdown()
    assert became == "closed 1006"
    teacher.errors()
    # The server's own page gets one.
    teacher.open(site.address)
    assert teacher.value(OPEN, socket) == "open"
