"""Lines and their answers are carried as they stand, between a page and its host, or its own machine if it has no host. A host
is sent each message with an LF, in order, and nothing else."""

from __future__ import annotations

import threading
from collections.abc import Iterator
from concurrent.futures import ThreadPoolExecutor

import pytest
from support.programs import Page, private, wait_until
from support.sessions import assert_replies, line_of
from websockets.frames import Opcode

from .pages import Recorder, Row, Socket, each_row, frame_of, rows_of, text_of
from .users import BACK, BALLS, BLANK, COUNT, PLANES, RUN, Session, answers

LINES = ["a", "", "é☃😀", "a\r", "\0", *(f"n{number}" for number in range(200)), "x" * 2097152, "last"]
EURO = [frame_of(at == 0, bytes([byte]), last=at == 2) for at, byte in enumerate("€".encode())]
FRAGMENTS = [
    frame_of(Opcode.TEXT, b"fr", last=False),
    frame_of(Opcode.PING, b"hey"),
    frame_of(Opcode.CONT, b"ag", last=False),
    frame_of(Opcode.CONT, b"", last=False),
    frame_of(Opcode.CONT, b"ment"),
]
AFTER_PONG = [frame_of(Opcode.PONG, b"nobody"), frame_of(Opcode.TEXT, b"after")]
IN_ONE = b"".join(frame_of(Opcode.TEXT, b"%d" % at) for at in range(50))
# What is sent in pieces, the pongs that come first, and the lines that a host is sent.
PIECES: dict[str, tuple[list[bytes], list[bytes], list[str]]] = {
    "fragments, with a ping within": (FRAGMENTS, [b"hey"], ["fragment"]),
    "a pong that nobody asked for": (AFTER_PONG, [], ["after"]),
    "a character in three fragments": ([b"".join(EURO)], [], ["€"]),
    "a frame byte by byte": ([bytes([byte]) for byte in frame_of(Opcode.TEXT, b"byte by byte")], [], ["byte by byte"]),
    "frames in one piece": ([IN_ONE], [], [*map(str, range(50))]),
}


def answers_at_once(one: Socket, lines: list[str]) -> list[str | None]:
    """The answers to lines that don't wait for them."""
    with ThreadPoolExecutor(1) as pool:
        pool.submit(lambda: list(map(one.send, lines)))
        return [one.read() for _ in lines]


def test_the_session_of_readme_has_the_replies_of_a_private_machine(bare: Page, readme: Session) -> None:
    with Socket(bare.port, patience=60) as one, Socket(bare.port) as other:
        assert_replies(readme.lines, answers(one, readme.lines), readme.replies)
        assert one.ask(COUNT) != other.ask(COUNT) == BLANK, "each page has a machine of its own"
        assert one.leave("bye") == 1000
    with Socket(bare.port) as other:
        assert other.ask(COUNT) == BLANK, "a new page has a new machine"


def test_balls_run_and_are_taken_back(cam6: str, bare: Page) -> None:
    lines = [*BALLS, *PLANES, *[RUN % 1] * 60, *PLANES, *[BACK] * 60, *PLANES]
    with Socket(bare.port, patience=60) as one:
        came = answers(one, lines)
    assert_replies(lines, came, private(cam6, lines))
    assert came[-4:] == came[len(BALLS) : len(BALLS) + 4]


def test_lines_need_not_wait_for_their_answers(cam6: str, bare: Page) -> None:
    lines = [line_of(do="set", plane=2, row=y, bits="8" + "0" * 63) for y in range(256)]
    lines += [line for y in range(256) for line in (line_of(do="row", plane=2, row=y), line_of(do="drop", name=str(y)))]
    with Socket(bare.port, patience=60) as one:
        assert_replies(lines, answers_at_once(one, lines), private(cam6, lines))


def test_odd_lines_have_the_replies_of_a_private_machine(cam6: str, bare: Page) -> None:
    lines = [text_of(row["line"]) for row in rows_of("lines")]
    with Socket(bare.port, patience=60) as one:
        assert_replies(lines, answers(one, lines), private(cam6, lines))


@pytest.fixture(scope="module")
def host() -> Iterator[Recorder]:
    """A host that writes down what it is sent."""
    with Recorder() as recorder:
        yield recorder


@pytest.fixture(scope="module")
def steady(cam6_web: str, host: Recorder) -> Iterator[Socket]:
    """A socket that leads to this host, and goes on beside the bad ones."""
    with Page(cam6_web, host.port) as page, Socket(page.port) as socket:
        assert socket.ask("on") == "[on]"
        yield socket


@pytest.fixture
def one(steady: Socket) -> Iterator[Socket]:
    """Another socket of the same page."""
    with Socket(steady.socket.getpeername()[1], patience=60) as socket:
        yield socket


def test_a_host_is_told_each_message_as_its_line(host: Recorder, one: Socket) -> None:
    assert answers_at_once(one, LINES) == [f"[{line}]" for line in LINES]
    assert host.connections[-1].data.decode() == "".join(f"{line}\n" for line in LINES)
    assert one.leave("bye") == 1000


@pytest.mark.parametrize("what", PIECES)
def test_frames_may_come_in_any_pieces(host: Recorder, one: Socket, what: str) -> None:
    pieces, pongs, lines = PIECES[what]
    for piece in pieces:
        one.send(piece)
    came = [one.frame() for _ in [*pongs, *lines]]
    assert [frame and frame.data for frame in came] == [*pongs, *(f"[{line}]".encode() for line in lines)]
    assert host.connections[-1].data.decode() == "".join(f"{line}\n" for line in lines)


@pytest.mark.parametrize("row", each_row("messages"))
def test_a_message_that_is_no_line_closes_the_socket(host: Recorder, one: Socket, steady: Socket, row: Row) -> None:
    assert one.ask("first") == "[first]"
    connection = host.connections[-1]
    # What comes after a frame in the same piece isn't sent to the host either.
    frames = [frame_of(**{"opcode": 1} | frame) for frame in row.get("frames", [])]
    data = bytes.fromhex(row.get("raw", "")) or b"".join([*frames, frame_of(Opcode.TEXT, b"after")])
    threading.Thread(target=one.try_to_send, args=(data,), daemon=True).start()
    (code, reason), end = row["close"], one.closed()
    assert end and end[0] in (code, *row.get("or", [])) and reason in (None, end[1])
    assert wait_until(connection.has_ended.is_set), "the connection to the host is still open"
    assert connection.data == b"first\n"
    assert steady.ask("on") == "[on]"
