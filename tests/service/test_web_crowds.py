"""Clients that are slow, deaf, or many. Beside them a page goes on, with the replies of a private machine."""

from __future__ import annotations

import resource
import socket
import time
from collections.abc import Callable, Iterator
from concurrent.futures import ThreadPoolExecutor, wait
from contextlib import AbstractContextManager, suppress
from functools import partial

import pytest
from support.programs import Page, Peer, wait_until
from websockets.exceptions import InvalidStatus
from websockets.frames import Opcode

from .pages import Answer, Socket, frame_of, get, status_of
from .users import NO_COMMAND, PLANES, Pages, Session, closed, connected, steady

# Seconds in which a request has to be whole, and that a busy machine may add.
REQUEST, GRACE = 10, 8
# Clients of a crowd, sockets that a program has if no other number is given, and threads that it may have besides.
CROWD, SOCKETS, MORE_THREADS = 1000, 64, 80
# Kilobytes that may be held for a crowd, and for sockets that never read.
HELD, HELD_FOR_DEAF = 32 * 1024, 64 * 1024


def ended_after(port: int, pieces: list[bytes]) -> tuple[float, int]:
    """Sends the first piece at once, and then a piece a second. Returns after how many seconds the server ends the connection,
    and with which status; 0 if with none."""
    whole, begun = b"", time.monotonic()
    with socket.create_connection(("127.0.0.1", port), timeout=1) as tcp, suppress(ConnectionError):
        for piece in [*pieces, *[b""] * 2 * (REQUEST + GRACE)]:
            tcp.sendall(piece)
            with suppress(TimeoutError):
                while part := tcp.recv(65536):
                    whole += part
                break
    return time.monotonic() - begun, Answer(whole).status


def goes_on(page: Page, session: Session) -> AbstractContextManager[Callable[[], int]]:
    """A page that goes on beside what a test does, on a machine of its own."""
    return steady(Socket(page.port, patience=60), session, 0.2)


@pytest.mark.slow
def test_a_request_that_never_becomes_whole_is_given_up_after_ten_seconds(bare: Page, readme: Session) -> None:
    head = b"GET / HTTP/1.1\r\nHost: 127.0.0.1:%d\r\n" % bare.port
    shake = head.replace(b"/ ", b"/ws ", 1)
    shake += b"Upgrade: websocket\r\nConnection: Upgrade\r\nSec-WebSocket-Version: 13\r\n"
    requests = {
        "a client that says nothing": [b""],
        "half a request": [b"GET / HT"],
        "half a handshake": [shake],
        "a byte a second": [b"", *(bytes([byte]) for byte in head)],
        "a field a second": [head] + [b"X: x\r\n"] * 30,
        "a field a second in a handshake": [shake] + [b"X: x\r\n"] * 30,
    }
    with goes_on(bare, readme), ThreadPoolExecutor(len(requests)) as pool:
        ended = dict(zip(requests, pool.map(partial(ended_after, bare.port), requests.values())))
        assert get(bare.port, "/").status == 200
    for what, (seconds, status) in ended.items():
        assert REQUEST - 1 < seconds < REQUEST + GRACE and status in (0, 400, 408), (what, ended)


@pytest.fixture
def many_files() -> Iterator[None]:
    """The tests may have some thousand connections meanwhile."""
    soft, hard = resource.getrlimit(resource.RLIMIT_NOFILE)
    resource.setrlimit(resource.RLIMIT_NOFILE, (8192 if hard == resource.RLIM_INFINITY else min(hard, 8192), hard))
    yield
    resource.setrlimit(resource.RLIMIT_NOFILE, (soft, hard))


@pytest.mark.slow
@pytest.mark.usefixtures("many_files")
def test_a_crowd_that_says_nothing_is_bounded(page: Pages, readme: Session) -> None:
    crowded = page()
    before = crowded.of_process("VmRSS")
    with goes_on(crowded, readme):
        begun = time.monotonic()
        with connected(Peer, crowded.port, CROWD) as many:
            threads = crowded.of_process("Threads")
            at_once = closed(many, begun + REQUEST - 1 - time.monotonic())
            assert at_once >= CROWD - SOCKETS - MORE_THREADS, "the rest is closed before those that are taken"
            assert max(threads, crowded.of_process("Threads")) <= SOCKETS + MORE_THREADS
            assert at_once < closed(many, REQUEST + GRACE) == CROWD, "those that are taken are closed after ten seconds"
            assert time.monotonic() - begun > REQUEST - 1
        assert wait_until(lambda: get(crowded.port, "/").status == 200, 5)
        assert crowded.of_process("VmRSS") - before < HELD, "kilobytes are held for a crowd"


def refusal(port: int) -> object:
    """How a socket too many is refused: by the status 503, or, if it came beside others, by the code 1013."""
    try:
        with Socket(port, patience=5) as one:
            end = one.closed()
            return end and end[0]
    except InvalidStatus as refused:
        return refused.response.status_code


@pytest.mark.parametrize(("options", "most"), [(("--connections", "2"), 2), ((), SOCKETS)])
def test_so_many_sockets_are_open_and_no_more(page: Pages, options: tuple[str, ...], most: int) -> None:
    port = page(options=options).port
    with connected(Socket, port, most) as many:
        assert {refusal(port) for _ in range(3)} <= {503, 1013}
        assert get(port, "/").status == 200, "the page is shown beside them"
        assert status_of(port, fields={"Origin": "http://x"}) == 403, "another origin is refused before that"
        assert [one.ask("{}") for one in many] == [NO_COMMAND] * most, "those that are open go on"
        many[0].leave()
        assert wait_until(lambda: status_of(port) == 101, 5), "there is room after one was closed"
    assert wait_until(lambda: status_of(port) == 101, 5), "there is room after all of them went"


# What sockets send without reading: each for planes, for faults, and for pongs.
ASKS = {
    "planes": frame_of(Opcode.TEXT, PLANES[0].encode()),
    "long lines": frame_of(Opcode.TEXT, b" " * 1_000_000),
    "pings": frame_of(Opcode.PING, b"x" * 125) * 100,
}


@pytest.mark.slow
def test_sockets_that_never_read_are_held_back(page: Pages, readme: Session) -> None:
    most, sent, asked, kind = 2000, dict.fromkeys(ASKS, 0), page(), partial(Socket, patience=3)
    before = asked.of_process("VmRSS")

    def send(what: str, deaf: Socket) -> None:
        with suppress(OSError):
            while sent[what] < most:
                deaf.send(ASKS[what])
                sent[what] += 1

    with ThreadPoolExecutor() as pool, connected(kind, asked.port, len(ASKS)) as deaf, goes_on(asked, readme):
        sending = [pool.submit(send, *pair) for pair in zip(ASKS, deaf)]
        wait(sending, 36)
        assert wait_until(sending[-1].done, 30), f"pings are neither all taken nor held back: {sent}"
        assert sent["planes"] < most or sent["pings"] < most
        assert asked.of_process("VmRSS") - before < HELD_FOR_DEAF, "kilobytes are held for sockets that never read"


def test_pings_by_the_thousand_are_answered_in_order(bare: Page, readme: Session) -> None:
    pings = [frame_of(Opcode.PING, b"%d" % number) for number in range(20_000)]
    line = frame_of(Opcode.TEXT, b"{}")
    pieces = [b"".join(pings[at : at + 100]) + (b"" if at % 2000 else line) for at in range(0, 20_000, 100)]
    came: dict[Opcode, list[bytes]] = {Opcode.PONG: [], Opcode.TEXT: []}
    with goes_on(bare, readme) as rounds, ThreadPoolExecutor(1) as pool, Socket(bare.port) as one:
        pool.submit(lambda: list(map(one.send, pieces)))
        while came[Opcode.PONG][-1:] != [b"19999"]:
            got = one.frame()
            assert got and got.opcode in came, f"{got} after the pong {came[Opcode.PONG][-1:]}"
            came[got.opcode].append(got.data)
        numbers = [*map(int, came[Opcode.PONG])]
        assert numbers == sorted(set(numbers))
        assert came[Opcode.TEXT] == [NO_COMMAND.encode()] * 10, "lines among pings are answered too"
        # All of them may be answered before the page plays once more, so further ones follow until it has.
        last = time.monotonic() + 20
        while rounds() < 2 and time.monotonic() < last:
            one.send(frame_of(Opcode.PING, b"once more"))
            one.frame()
