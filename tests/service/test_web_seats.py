"""The first message takes a seat of a host. A seat is free again however its page went, and a page learns that its host goes."""

from __future__ import annotations

import time
from collections.abc import Callable, Iterator
from functools import partial

import pytest
from support.programs import Host, Page, free_port, private, wait_until
from support.sessions import assert_replies
from websockets.frames import Opcode

from .pages import Recorder, Socket, frame_of, get
from .users import BALLS, BLANK, COUNT, NO_COMMAND, NO_SEAT, PLANES, RUN, SAVE, SEAT, SEATED, TAKEN
from .users import Hosts, Pages, Session, answers, seated

Way = Callable[[Socket], object]
# Seconds in which a seat is free after its page went: before the page is pinged.
SEAT_PATIENCE = 20
# Seconds after which a page is pinged, after which one that answers none is given up, and that a busy machine may add.
PINGS, DEAF, GRACE = 30, 90, 8
GONE = (1001, "the host is gone")
CLEAR = b'{"do":"clear","plane":0}'


def end_of_next(one: Socket) -> tuple[int, str] | None:
    """How a socket is closed if the host has ended: at the next line at the latest."""
    one.try_to_send(frame_of(Opcode.TEXT, b"{}"))
    return one.closed()


def left_by(data: bytes, is_wrong: bool, one: Socket) -> None:
    """Sends what is only a part of something, and goes. If it is no line, waits for the close before."""
    one.try_to_send(data)
    with one:
        assert not is_wrong or one.closed()


# Ways in which a page goes. What is sent would clear a plane if it were handed over. It is a part of something, or is no line.
LEAVES: dict[str, Way] = {
    "a close": Socket.leave,
    "a connection that only ends": Socket.close,
    "a connection that is reset": Socket.reset,
    "a close in the middle of a frame's head": partial(left_by, frame_of(Opcode.TEXT, CLEAR)[:1], False),
    "a close in the middle of a frame": partial(left_by, frame_of(Opcode.TEXT, CLEAR)[:-1], False),
    "a close in the middle of a message": partial(left_by, frame_of(Opcode.TEXT, CLEAR, last=False), False),
    "a close frame without its end": partial(left_by, frame_of(Opcode.CLOSE, b"\x03\xe8bye")[:4], False),
    "a text with an LF": partial(left_by, frame_of(Opcode.TEXT, CLEAR + b"\n"), True),
    "two lines in a text": partial(left_by, frame_of(Opcode.TEXT, CLEAR + b"\n" + CLEAR), True),
    "bytes": partial(left_by, frame_of(Opcode.BINARY, CLEAR), True),
    "a text that isn't UTF-8": partial(left_by, frame_of(Opcode.TEXT, CLEAR + b"\xff"), True),
    "a text that is too long": partial(left_by, frame_of(Opcode.TEXT, CLEAR + b" " * 2097153), True),
    "a frame without a mask": partial(left_by, frame_of(Opcode.TEXT, CLEAR, masked=False), True),
}


@pytest.fixture(scope="module")
def left(cam6: str, cam6_web: str, readme: Session) -> Iterator[tuple[Page, str | None]]:
    """A page of a host whose first seat has the cells of README's session, and their count."""
    with Host(cam6, "--users=2", "--side=512") as host, Page(cam6_web, host.port) as page:
        with Socket(page.port, 1) as one:
            assert answers(one, readme.lines) == readme.replies
            cells = one.ask(COUNT)
        yield page, cells


@pytest.mark.parametrize("line, reply", [(SEAT % 1, TAKEN), (SEAT % 3, NO_SEAT), ("{}", NO_COMMAND)])
def test_after_a_message_that_takes_no_seat_the_host_is_gone(host: Hosts, page: Pages, line: str, reply: str) -> None:
    port = page(host("--users=2", "--side=512").port).port
    with seated(Socket, port, 1), Socket(port) as other:
        assert other.ask(line) == reply
        assert end_of_next(other) == GONE


def test_each_seat_has_a_machine_of_its_own(host: Hosts, page: Pages, readme: Session) -> None:
    port = page(host("--users=2", "--side=512").port).port
    with Socket(port, 1) as one, Socket(port, 2) as other:
        assert (one.reply, other.reply) == (SEATED, SEATED)
        assert_replies(readme.lines, answers(one, readme.lines), readme.replies)
        assert one.ask(COUNT) != other.ask(COUNT) == BLANK


@pytest.mark.parametrize("leave", LEAVES.values(), ids=LEAVES)
def test_a_seat_is_free_with_its_machine_after(left: tuple[Page, str | None], leave: Way) -> None:
    page, cells = left
    one = seated(Socket, page.port, 1, SEAT_PATIENCE)
    one.socket.settimeout(SEAT_PATIENCE)
    leave(one)
    with seated(Socket, page.port, 1, SEAT_PATIENCE) as other:
        assert other.ask(COUNT) == cells


def test_pages_that_only_come_and_go_leave_nothing(host: Hosts, page: Pages) -> None:
    served = page(host("--users=4", "--side=512").port)
    for number in range(300):
        with Socket(served.port) as one:
            if number % 3:
                one.send(SEAT % (1 + number % 4))
    seated(Socket, served.port, 1, SEAT_PATIENCE).close()
    assert wait_until(lambda: served.of_process("Threads") <= 12, 10), served.of_process("Threads")


def test_sockets_of_the_second_path_are_those_of_the_second_host(host: Hosts, page: Pages, readme: Session) -> None:
    first, second = host("--users=1", "--side=512"), host("--users=1", "--side=512")
    port = page(first.port, second.port).port
    assert get(port, "/hosts").body.strip() == b"2"
    with Socket(port, 1, "/ws/1") as one, Socket(port, 1, "/ws/2") as two, Socket(port, 1) as other:
        assert (one.reply, two.reply) == (SEATED, SEATED)
        assert answers(two, readme.lines) == readme.replies
        assert one.ask(COUNT) == BLANK
        assert other.reply == TAKEN, "the path without a number is the first host"
    second.kill()
    with Socket(port, path="/ws/2") as two:
        assert two.closed() == GONE, "the second host goes alone"
    seated(partial(Socket, path="/ws/1"), port, 1).close()


def test_a_page_is_shown_though_its_host_is_not_there(page: Pages) -> None:
    served = page(free_port())
    for _ in range(3):
        with Socket(served.port) as one:
            assert one.closed() == GONE
    assert get(served.port, "/").status == 200


def test_a_host_may_go_and_come_back(host: Hosts, page: Pages, readme: Session) -> None:
    its_host = host("--users=4", "--side=512")
    served = page(its_host.port)
    for life in range(3):
        if life:
            its_host.begin()
        with Socket(served.port, 1) as one, Socket(served.port, 2, patience=SEAT_PATIENCE) as silent:
            assert (one.reply, silent.reply) == (SEATED, SEATED)
            assert answers(one, readme.lines) == readme.replies
            its_host.kill()
            assert end_of_next(one) == GONE
            assert silent.closed() == GONE, "a page that sends nothing is closed too"
        with Socket(served.port) as one:
            assert one.closed() == GONE


def test_a_machine_goes_on_after_its_host_was_killed(cam6: str, host: Hosts, page: Pages) -> None:
    one, run = host("--users=4", "--side=512"), RUN % 1
    port = page(one.port).port
    with Socket(port, 1) as first:
        *_, saved = answers(first, [*BALLS, *[run] * 10, SAVE])
        answers(first, [run] * 7)
        one.kill()
        assert end_of_next(first) == GONE
    one.begin()
    load = str(saved).replace(',"ok":"save"}', "}").replace("{", '{"do":"load",', 1)
    with Socket(port, 1) as again:
        came = answers(again, [load, *[run] * 7, *PLANES])
    assert came[0] == '{"ok":"load"}'
    assert came[-4:] == private(cam6, [*BALLS, *[run] * 17, *PLANES])[-4:]


@pytest.mark.parametrize("word", ["end", "bytes"], ids=["an end", "a line that isn't UTF-8"])
def test_a_socket_is_closed_by_its_hosts(page: Pages, word: str) -> None:
    with Recorder() as recorder, Socket(page(recorder.port).port) as one:
        assert one.ask("a") == "[a]"
        one.send(word)
        assert one.closed() == GONE


@pytest.fixture
def silent(host: Hosts, page: Pages) -> Socket:
    """A page that has a seat."""
    return seated(Socket, page(host("--users=1", "--side=512").port).port, 1)


@pytest.mark.long
@pytest.mark.slow
def test_a_page_that_answers_pings_keeps_its_seat(silent: Socket) -> None:
    begun = time.monotonic()
    silent.socket.settimeout(PINGS + GRACE)
    ping = silent.frame()
    assert ping and ping.opcode is Opcode.PING
    assert PINGS - 2 < time.monotonic() - begun < PINGS + GRACE
    while time.monotonic() < begun + DEAF + PINGS + 10:
        ping = silent.frame()
        assert ping and ping.opcode is Opcode.PING
    assert silent.ask("{}") == NO_COMMAND


@pytest.mark.long
@pytest.mark.slow
def test_a_page_that_answers_no_ping_is_closed(silent: Socket) -> None:
    begun, port = time.monotonic(), silent.socket.getpeername()[1]
    silent.socket.settimeout(DEAF + PINGS + GRACE)
    while silent.socket.recv(65536):
        pass
    assert DEAF - 2 < time.monotonic() - begun < DEAF + PINGS + GRACE
    seated(Socket, port, 1).close()
