"""How a host begins and ends, which options it takes, and what comes back if a call of its sockets fails."""

from __future__ import annotations

import errno
import socket
from collections.abc import Callable
from functools import cache

import pytest
from support.programs import PATIENCE, Listener, Peer, Ran, free_port, private, ran
from support.sessions import line_of

from .users import CELL, NO_NAMES, NO_SEAT, PARITY, PLANES, ROW, RULES, RUN, SEAT, SEATED, START, TAKEN
from .users import Hosts, connected, seated

# There are runs between the other commands, so that the answers to all of them go in several sends.
CHANGES = [*START[:2], *(line for y in range(5) for line in (CELL % (40 * y), ROW % (40 * y), RUN % 1))]
Library = Callable[[str], str]
NOT_TAKEN = "alone, --port 0, --users 33, --boards 9, --cache 65, --side 100, --connections -1, --idle -1".split(", ")
NOT_TAKEN += ["--port 65536", f"--connections {2**64}", f"--idle {2**32}"]


def test_of_64_clients_at_once_four_have_the_seats_of_four_users(host: Hosts) -> None:
    one = host("--connections=64")
    assert one.errors == [f"listening on 127.0.0.1:{one.port}"]
    with connected(Peer, one.port, 64) as peers:
        for number, peer in enumerate(peers):
            peer.send(f"{SEAT % (1 + number % 4)}\n")
        replies = [peer.read() for peer in peers]
        assert sorted(1 + number % 4 for number, line in enumerate(replies) if line == SEATED) == [1, 2, 3, 4]
        assert replies.count(TAKEN) == 60
        guests = [peer for peer, line in zip(peers, replies) if line == SEATED]
        # Each has a machine of their own.
        for number, guest in enumerate(guests):
            assert guest.ask(RULES) == NO_NAMES
            guest.ask(PARITY.replace('"P"', f'"P{number}"').replace(": P ", f": P{number} "))
        names = [f'{{"names":["P{number}"],"ok":"rules"}}' for number in range(4)]
        assert [guest.ask(RULES) for guest in guests] == names
        assert one.is_running()
    assert one.ended() == Ran(0, b"", b"")


def test_a_port_that_is_taken_ends_it_with_status_7(cam6: str) -> None:
    with socket.create_server(("127.0.0.1", 0)) as taken:
        command = [cam6, "serve", "--port", str(taken.getsockname()[1])]
        assert ran(command, patience=PATIENCE) == Ran(7, b"", b"cam6: network failed\n")


def test_a_board_without_a_thread_ends_it_with_status_8(cam6: str) -> None:
    # There is memory, and none for the stack of a thread.
    port, limits = free_port(), ["prlimit", f"--stack={1 << 40}:unlimited", f"--as={1 << 34}:unlimited"]
    text = f"listening on 127.0.0.1:{port}\ncam6: no thread\n"
    assert ran([*limits, cam6, "serve", "--port", str(port)], patience=PATIENCE) == Ran(8, b"", text.encode())


@pytest.mark.parametrize("words", NOT_TAKEN)
def test_what_it_does_not_take_ends_it_with_status_2(cam6: str, words: str) -> None:
    end = ran([cam6, "serve", *words.split()], patience=PATIENCE)
    assert (end.status, end.output, end.errors != b"") == (2, b"", True)


OPTIONS = [
    ("", 4, 256),
    (f"--connections {2**64 - 1}", 4, 256),
    (f"--idle {2**32 - 1}", 4, 256),
    ("--side 512 --connections 7 --cache=64 --boards 8 --users 32", 32, 512),
    ("--users 1 --boards 3 --cache 1 --side=128", 1, 128),
]


@pytest.mark.parametrize("options, users, side", OPTIONS)
def test_options_set_the_seats_and_the_largest_side(host: Hosts, options: str, users: int, side: int) -> None:
    one = host(*options.split())
    with Peer(one.port, users) as last, Peer(one.port, users + 1) as none:
        assert (last.reply, none.reply) == (SEATED, NO_SEAT)
        for asked in (128, 256, 512):
            assert last.ask(line_of(do="side", side=asked)) == ('{"ok":"side"}' if asked <= side else '{"fault":67}')


def test_the_usual_port_is_6006(cam6: str) -> None:
    with socket.socket() as usual:
        if usual.connect_ex(("127.0.0.1", 6006)) == 0:
            pytest.skip("LEFT OUT: somebody listens at port 6006")
    with Listener(lambda _: [cam6, "serve"], 6006, None) as one:
        assert one.errors == ["listening on 127.0.0.1:6006"]


def at_once(host: Hosts, failing: str, call: str, number: int, error: int) -> tuple[list[str], str | None]:
    """Sends CHANGES at once to a host whose call of this name and number fails by this error, by the library `failing`.
    Returns what comes back, and what the plane is then."""
    env = {"FAILED": call, "FAILED_AT": str(number), "FAILED_BY": str(error), "LD_PRELOAD": failing}
    one = host("--users=1", "--boards=1", env=env)
    with Peer(one.port, 1) as peer:
        if peer.reply == SEATED:
            peer.send("".join(f"{line}\n" for line in CHANGES))
            peer.socket.shutdown(socket.SHUT_WR)
        replies = list(iter(peer.read, None))
    with seated(Peer, one.port, 1) as peer:
        return replies, peer.ask(PLANES[0])


@cache
def planes(cam6: str) -> list[str]:
    """The plane of a private machine after none of the changes, after the first, and so on."""
    return [private(cam6, [*CHANGES[:done], PLANES[0]])[-1] for done in range(len(CHANGES) + 1)]


def test_answers_break_off_where_a_send_fails_and_none_is_lost_before(cam6: str, host: Hosts, library: Library) -> None:
    # The answer to the first line is one send, those up to each run are another one, and the last ones too.
    places = set()
    for number in range(1, 8):
        replies, plane = at_once(host, library("failing"), "send", number, errno.ENOBUFS)
        assert replies == private(cam6, CHANGES)[: len(replies)], number
        # All that was answered is done. What was done unanswered is what one packet's answers and a run may be.
        assert plane in planes(cam6)[len(replies) :], number
        places.add(len(replies))
    assert len(places) > 3


@pytest.mark.parametrize("number", range(1, 6))
@pytest.mark.parametrize("call", ["send", "recv"])
def test_an_interrupted_call_is_made_again(cam6: str, host: Hosts, library: Library, call: str, number: int) -> None:
    wanted = private(cam6, CHANGES), planes(cam6)[-1]
    assert at_once(host, library("failing"), call, number, errno.EINTR) == wanted
