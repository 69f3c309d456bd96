"""How long clients may wait for a seat, how many of them and with how many bytes, how long a client may be silent or
read nothing, how long a user waits beside expensive tables, and how a host refuses clients and ends."""

from __future__ import annotations

import select
import socket
import time
from concurrent.futures import ThreadPoolExecutor
from contextlib import suppress
from statistics import median

import pytest
from support.programs import END, Peer, Ran, private, wait_until
from support.sessions import line_of

from .users import BACK, NO_JSON, NO_NAMES, NO_SEAT, ONE_NAME, PARITY, ROW, RULES, RUN, SEAT, SEATED, START, TAKEN
from .users import TOO_LONG, Hosts, answers, closed, connected, cycle, fill, seated

# How many may wait for a seat, beside one for each user; how many of them with a long line.
MORE, LONG = 64, 8
# Seconds within which a seat must be taken, for which a client may read nothing, and that a busy machine may add.
WAIT, SEND, GRACE = 10, 60, 5
FIRST, LOAD = SEAT % 1, '{"do":"load",'


def first_answer(port: int, line: str) -> str | None:
    """The answer to a first line, or None if the host doesn't let the client in."""
    with suppress(ConnectionError), Peer(port) as peer:
        return peer.ask(line)
    return None


def test_of_300_silent_clients_68_may_wait_for_a_seat(host_with_user: Hosts) -> None:
    one, begun = host_with_user(1, "--users=4"), time.monotonic()
    with connected(Peer, one.port, 300) as peers:
        assert wait_until(lambda: closed(peers, 0.1) >= 300 - (4 + MORE), WAIT - 2)
        assert closed(peers, 0.5) == 300 - (4 + MORE)
        assert time.monotonic() - begun < WAIT
        # So is who comes then.
        assert first_answer(one.port, SEAT % 2) is None


@pytest.mark.slow
def test_silent_clients_are_closed_after_ten_seconds(host_with_user: Hosts) -> None:
    one, begun = host_with_user(1, "--users=4"), time.monotonic()
    with connected(Peer, one.port, 300) as peers:
        assert closed(peers, WAIT + GRACE) == 300
        assert time.monotonic() - begun > WAIT - 1
        seated(Peer, one.port, 2).close()


@pytest.mark.slow
def test_a_first_line_that_takes_longer_than_ten_seconds_is_not_answered(host: Hosts) -> None:
    one, begun = host("--users=1"), time.monotonic()
    with suppress(ConnectionError), Peer(one.port) as peer:
        for byte in f"{FIRST}\n":
            peer.send(byte)
            if closed([peer], 2):
                break
    assert WAIT - 1 < time.monotonic() - begun < WAIT + GRACE


@pytest.mark.parametrize("text, size", [(FIRST[:-1], 16_385), (LOAD, 2_097_153)], ids=["seat", "load"])
def test_a_first_line_is_refused_as_soon_as_it_is_too_long(host: Hosts, text: str, size: int) -> None:
    with Peer(host("--users=1").port) as peer:
        peer.send(text.ljust(size - 1))
        assert not select.select([peer.socket], [], [], 0.3)[0]
        # The client may read the answer while it still sends.
        peer.send(" ")
        assert peer.read() == TOO_LONG


FIRST_LINES = {
    "no text": (bytes(range(128, 256)), [NO_JSON, None]),
    "16,384 bytes": (FIRST.ljust(16_384).encode(), [SEATED]),
    "16,385 bytes": (FIRST.ljust(16_385).encode(), [TOO_LONG, None]),
    "1,000,010 bytes": (FIRST.ljust(1_000_010).encode(), [TOO_LONG, None]),
    "a load of 2,097,152 bytes": (LOAD.ljust(2_097_152).encode(), [NO_JSON, None]),
}


@pytest.mark.parametrize("line, wanted", FIRST_LINES.values(), ids=FIRST_LINES)
def test_a_first_line_is_text_and_has_a_greatest_length(
    host_with_user: Hosts, line: bytes, wanted: list[str | None]
) -> None:
    with Peer(host_with_user(2, "--users=2").port) as peer:
        peer.send(line + b"\n")
        assert [peer.read() for _ in wanted] == wanted


def test_of_60_clients_that_send_a_load_first_eight_are_heard(host_with_user: Hosts) -> None:
    one = host_with_user(1, "--users=4")
    before = one.of_process("VmRSS")
    with connected(Peer, one.port, 60) as peers:
        for peer in peers:
            with suppress(ConnectionError):
                peer.send(LOAD + "0" * 2_000_000)
        assert wait_until(lambda: closed(peers, 0.1) >= 60 - LONG, WAIT - 2)
        assert closed(peers, 0.5) == 60 - LONG
        assert one.of_process("VmRSS") - before < 30_000


@pytest.mark.slow
def test_who_reads_nothing_loses_the_seat_after_a_minute(host_with_user: Hosts) -> None:
    one = host_with_user(3, "--users=3")
    with Peer(one.port, 1) as deaf, Peer(one.port, 2) as shut:
        fill(deaf)
        fill(shut)
        shut.socket.shutdown(socket.SHUT_WR)
        end = time.monotonic() + SEND + 3 * GRACE
        time.sleep(SEND / 2)
        with Peer(one.port, 1) as first, Peer(one.port, 2) as second:
            assert (first.reply, second.reply) == (TAKEN, TAKEN)
        for user in (1, 2):
            seated(Peer, one.port, user, end - time.monotonic()).close()


def test_a_seat_is_free_after_two_seconds_of_silence_and_its_machine_stays(host_with_user: Hosts) -> None:
    one = host_with_user(3, "--users=3", "--idle=2")
    with Peer(one.port, 1) as quiet:
        quiet.ask(PARITY)
        assert closed([quiet], 2 + GRACE) == 1
        with seated(Peer, one.port, 1) as again:
            assert again.ask(RULES) == ONE_NAME


def test_who_says_something_each_second_keeps_the_seat(host_with_user: Hosts) -> None:
    # A busy machine may add some seconds.
    with Peer(host_with_user(3, "--users=3", "--idle=4").port, 2) as lively:
        end = time.monotonic() + 9
        while time.monotonic() < end:
            assert lively.ask(RULES) == NO_NAMES
            time.sleep(1)


def test_runs_are_no_silence(cam6: str, host_with_user: Hosts) -> None:
    session = [*START, RUN % 65535, ROW % 7]
    with Peer(host_with_user(3, "--users=3", "--idle=2").port, 1) as peer:
        begun = time.monotonic()
        replies = answers(peer, session)
        # So many runs take three seconds, for which the client says nothing.
        count = 1 + int(3 / (time.monotonic() - begun))
        peer.send(f"{RUN % 65535}\n" * count)
        assert [peer.read() for _ in range(count)] == ['{"ok":"run","position":0}'] * count
    assert replies == private(cam6, session)


def expensive_lines(count: int) -> list[str]:
    """So many rules of 3,840 words with an IF for each address line, all of half A, and a cycle of them. A cache of as
    many tables never has the next."""
    names = "CENTER CENTER' CW CCW OPP CW' CCW' OPP' HORZ VERT &PHASE &PHASE'".split()
    text = ": UNIT0 " + " ".join(f"{name} IF 1 XOR THEN" for name in names) + " ;"
    text += "".join(f" : UNIT{n} UNIT{n - 1} UNIT{n - 1} ;" for n in range(1, 7))
    how = {"do": "rule", "half": "A", "hood": "N/MARG-HV", "minor": "&/PHASES"}
    rules = [line_of(**how, name=f"R{n}", text=f"{text} : R {n} UNIT6 UNIT4 ;") for n in range(count)]
    return [*rules, cycle(*(f"R{n}" for n in range(count)))]


def prepare(user: Peer, other: Peer, count: int) -> None:
    """A user has a rule that is done, and the other one so many expensive tables."""
    answers(user, START[:2])
    assert {*answers(other, expensive_lines(count))} == {'{"ok":"rule"}', '{"ok":"cycle"}'}


def seconds(peer: Peer, line: str) -> float:
    """How long the answer to a line takes."""
    begun = time.monotonic()
    peer.ask(line)
    return time.monotonic() - begun


def longest_part(user: Peer, other: Peer, line: str) -> float:
    """The longest wait of a user who asks for steps while another one's line is answered, as a part of that line's time. The
    computer is as busy for both, and so the part doesn't depend on it."""
    with ThreadPoolExecutor(1) as pool:
        taken = pool.submit(seconds, other, line)
        waits = [seconds(user, RUN % 1) for _ in iter(taken.done, True)]
    return max(waits) / taken.result()


def test_beside_sixteen_expensive_tables_another_user_waits_for_a_few(host_with_user: Hosts) -> None:
    # Each table is filled under the cache's lock, and others may have it in between. So a wait is some of sixteen fillings.
    one = host_with_user(1)
    with Peer(one.port, 2) as user, Peer(one.port, 3) as other:
        prepare(user, other, 16)
        assert median(longest_part(user, other, line) for line in (RUN % 1, BACK) * 4) < 1 / 2


@pytest.mark.parametrize("seat, long", [(1, 2), (2, 1)])
def test_beside_a_long_run_by_such_tables_another_user_waits_for_one_filling(host: Hosts, seat: int, long: int) -> None:
    # Filling tables is a part of the time for which a command has its board, and no reason to have it longer. So the tables
    # are filled anew for each of six steps, and a wait is one of six fillings.
    one = host("--users=2", "--boards=1", "--cache=4")
    with Peer(one.port, seat) as user, Peer(one.port, long, END) as other:
        prepare(user, other, 4)
        assert median(longest_part(user, other, RUN % 6) for _ in range(5)) < 1 / 2


REFUSED = [(FIRST, TAKEN), (SEAT % 9, NO_SEAT), ("{", NO_JSON), (FIRST.ljust(100_010), TOO_LONG)]


@pytest.mark.parametrize("shuts", [True, False], ids=["shut", "open"])
@pytest.mark.parametrize("first, answer", REFUSED, ids=["taken", "no seat", "no JSON", "too long"])
def test_a_refusal_comes_before_what_is_sent_after(host: Hosts, first: str, answer: str, shuts: bool) -> None:
    one = host("--users=1")
    with Peer(one.port, 1):
        for _ in range(10):
            with Peer(one.port) as peer:
                peer.send(f"{first}\n" + f"{RULES}\n" * 1400)
                if shuts:
                    peer.socket.shutdown(socket.SHUT_WR)
                # A client that reads late finds the answer still there.
                time.sleep(0.02)
                assert [peer.read(), peer.read()] == [answer, None]


def test_nobody_is_let_in_after_the_last_connection(host: Hosts) -> None:
    one = host("--connections=2")
    with Peer(one.port):
        begun = time.monotonic()
        Peer(one.port, 1).close()
        assert first_answer(one.port, FIRST) is None
        assert time.monotonic() - begun < WAIT - 2


@pytest.mark.slow
def test_a_silent_client_holds_the_end_up_for_ten_seconds_at_most(host: Hosts) -> None:
    one = host("--connections=2")
    with Peer(one.port):
        Peer(one.port, 1).close()
        assert one.ended(WAIT + GRACE) == Ran(0, b"", b"")
