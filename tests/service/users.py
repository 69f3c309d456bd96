"""Users of a host or of a page: what they send, how they take seats, and one who goes on beside what a test does."""

from __future__ import annotations

import time
from collections.abc import Callable, Iterator, Sequence
from concurrent.futures import ThreadPoolExecutor
from contextlib import contextmanager, suppress
from selectors import EVENT_READ, DefaultSelector
from threading import Event
from typing import NamedTuple, TypeVar

from support.programs import END, PATIENCE, TOP, Host, Page, Peer, wait_until
from support.sessions import assert_replies, line_of

Hosts = Callable[..., Host]
Pages = Callable[..., Page]
P = TypeVar("P", bound=Peer)
# Answers to a first line: the seat, that somebody has it, and that there is no such seat. A line may also be too long.
SEATED, TAKEN, NO_SEAT, TOO_LONG = '{"ok":"seat"}', '{"fault":80}', '{"fault":81}', '{"fault":1}'
NO_JSON, NO_COMMAND = '{"fault":2}', '{"fault":3}'
NO_NAMES, ONE_NAME = '{"names":[],"ok":"rules"}', '{"names":["P"],"ok":"rules"}'
RULES, BACK, SAVE = line_of(do="rules"), line_of(do="back", n=1), line_of(do="save")
PLANES = [line_of(do="plane", plane=plane) for plane in range(4)]
BALLS = (TOP / "examples" / "billiard_balls.lines").read_text(encoding="utf-8").splitlines()
COUNT, BLANK = line_of(do="count", mask=65534), '{"count":0,"ok":"count"}'
# A seat, steps, a row, and the first cell of a row, by a number: `RUN % 1`.
SEAT, RUN, ROW = '{"seat":%d}', '{"do":"run","n":%d}', '{"do":"row","plane":0,"row":%d}'
CELL = '{"do":"set","plane":0,"row":%d,"bits":"' + "8".ljust(64, "0") + '"}'
TEXT = ": P CENTER NORTH XOR SOUTH XOR WEST XOR EAST XOR >PLN0 ;"
PARITY = line_of(do="rule", name="P", half="A", hood="N/VONN", minor="&/CENTERS", text=TEXT)


def cycle(*names: str) -> str:
    """A cycle of these rules of half A."""
    return line_of(do="cycle", entries=[{"a": name, "b": "-", "grid": "EVEN", "phase": 0} for name in names])


# A rule that is done, and a cell that it changes.
START = [PARITY, cycle("P"), CELL % 7]
# What makes a machine blank again, if it had no other commands than these or than those of README.
AFRESH = [cycle("-"), line_of(do="drop", name="P"), line_of(do="side", side=256)]
ROUND = [(CELL % y, RUN % (1 + y % 3), ROW % y, ROW % (255 - y), line_of(do="count", mask=2), "{}") for y in range(40)]
# The session of a user who goes on at a host.
LINES = [*START[:2], *(line for lines in ROUND for line in lines)]


class Session(NamedTuple):
    """Lines, and the replies of a private machine."""

    lines: list[str]
    replies: list[str]


def answers(peer: Peer, lines: list[str]) -> list[str | None]:
    """The answers to lines, None after the connection has ended. Each waits for the answer to the one before."""
    return [peer.ask(line) for line in lines]


def seated(kind: Callable[[int, int], P], port: int, user: int, patience: float = PATIENCE) -> P:
    """A connection by `kind` at a user's seat, once nobody has it. Fails if it is taken for so long, or by another
    reply."""
    end = time.monotonic() + patience
    while (peer := kind(port, user)).reply == TAKEN and time.monotonic() < end:
        peer.close()
        time.sleep(0.02)
    assert peer.reply == SEATED, f"user {user}: {peer.reply}"
    return peer


def closed(peers: Sequence[Peer], within: float) -> int:
    """Counts which of these connections the server closes within so many seconds, or has closed. Drops what comes over
    them."""
    end = time.monotonic() + within
    with DefaultSelector() as selector:
        for peer in peers:
            selector.register(peer.socket, EVENT_READ, peer.socket)
        while (left := selector.get_map()) and (ready := selector.select(max(0.0, end - time.monotonic()))):
            for key, _ in ready:
                with suppress(ConnectionError):
                    if key.data.recv(65536):
                        continue
                selector.unregister(key.data)
        return len(peers) - len(left)


def fill(peer: Peer) -> None:
    """Asks for planes without reading any, until a send fails or takes a second. Leaves that timeout."""
    peer.socket.settimeout(1)
    with suppress(OSError):
        while True:
            peer.send(f"{PLANES[0]}\n" * 40)


@contextmanager
def connected(kind: Callable[[int], P], port: int, count: int) -> Iterator[list[P]]:
    """Opens so many connections of a kind that send nothing, and closes them after the context."""
    peers = [kind(port) for _ in range(count)]
    try:
        yield peers
    finally:
        for peer in peers:
            peer.close()


@contextmanager
def steady(peer: Peer, session: Session, pause: float = 0) -> Iterator[Callable[[], int]]:
    """Has a user go on within the context, one line after another. They have sent the whole session before, and send it
    once more afterwards. It fails in the end if one of their replies was not that of a private machine. Yields a
    function that tells how often they have sent it."""
    enough, rounds = Event(), 0

    def go_on() -> None:
        """Has the user send the session until `enough` is set, and once more. Fails if a reply is wrong."""
        nonlocal rounds
        is_last = False
        while not is_last:
            is_last = enough.wait(pause)
            answers(peer, AFRESH)
            came = answers(peer, session.lines)
            assert_replies(session.lines, came, session.replies, "the seat of a user who goes on")
            rounds += 1

    with peer, ThreadPoolExecutor(1) as pool:
        going = pool.submit(go_on)
        try:
            assert wait_until(lambda: rounds or going.done(), END)
            yield lambda: rounds
        finally:
            enough.set()
            going.result()
