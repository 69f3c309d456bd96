"""Clients that go, that are slow or that send no lines, and connections for which there is no thread and no file."""

from __future__ import annotations

import os
import resource
import socket
import time
from collections.abc import Callable
from concurrent.futures import ThreadPoolExecutor

import pytest
from support.programs import END, Host, Peer, private, wait_until
from support.sessions import assert_replies

from .users import CELL, NO_JSON, NO_NAMES, NO_SEAT, ONE_NAME, PARITY, PLANES, ROW, RULES, RUN, SEAT, SEATED, START
from .users import TAKEN, Hosts, answers, connected, fill, seated

Way = Callable[[Peer], None]
by_each_way = pytest.mark.parametrize("go", [Peer.close, Peer.reset], ids=["close", "reset"])
# Seconds that a busy machine may add.
GRACE = 5


@pytest.fixture
def there(host_with_user: Hosts) -> Host:
    """A host of five users that doesn't end by itself. User 2 goes on beside the test."""
    return host_with_user(2, "--users=5", "--connections=0")


def is_free(there: Host, user: int) -> None:
    """The seat of a user has to be free soon."""
    seated(Peer, there.port, user).close()


@by_each_way
@pytest.mark.parametrize("seat, part", [(None, '{"sea'), (1, '{"do":"ru')], ids=["first", "later"])
def test_who_goes_within_a_line_leaves_the_seat(there: Host, go: Way, seat: int | None, part: str) -> None:
    peer = Peer(there.port, seat)
    peer.send(part)
    go(peer)
    is_free(there, 1)


@by_each_way
def test_a_line_without_its_end_is_the_last_one(there: Host, go: Way) -> None:
    peer = Peer(there.port, 1)
    peer.send('{"do":"rules"}\n{"do":"ru')
    peer.socket.shutdown(socket.SHUT_WR)
    assert [peer.read() for _ in range(3)] == [NO_NAMES, NO_JSON, None]
    go(peer)
    is_free(there, 1)


@by_each_way
def test_who_goes_within_a_run_is_seated_until_it_is_done(cam6: str, there: Host, go: Way) -> None:
    peer = Peer(there.port, 1)
    assert answers(peer, START) == ['{"ok":"rule"}', '{"ok":"cycle"}', '{"ok":"set"}']
    peer.send(f"{RUN % 65535}\n")
    go(peer)
    with Peer(there.port, 1) as other:
        assert (other.reply, other.read()) == (TAKEN, None)
    with seated(Peer, there.port, 1, END) as again:
        # The run is done all the same.
        shown = answers(again, [ROW % 6, ROW % 7])
    assert shown == private(cam6, [*START, RUN % 65535, ROW % 6, ROW % 7])[-2:]


def test_who_asks_for_341_runs_and_goes_leaves_the_seat(there: Host) -> None:
    # The command that is under way is done, and so are those with answers that were sent before the host saw that the
    # client is gone. No other is done.
    peer = Peer(there.port, 1)
    answers(peer, START)
    begun = time.monotonic()
    peer.ask(RUN % 2000)
    one = time.monotonic() - begun
    peer.send(f"{RUN % 2000}\n" * 341)
    peer.reset()
    begun = time.monotonic()
    is_free(there, 1)
    assert time.monotonic() - begun < 10 * one + 2, one


def test_who_never_reads_keeps_the_seat_and_leaves_it_by_going(there: Host) -> None:
    peer = Peer(there.port, 3)
    fill(peer)
    with Peer(there.port, 3) as other:
        assert (peer.reply, other.reply) == (SEATED, TAKEN)
    time.sleep(1)
    peer.reset()
    is_free(there, 3)


@pytest.mark.slow
def test_who_sends_two_bytes_a_second_is_served(there: Host) -> None:
    with Peer(there.port) as peer:
        for byte in f"{SEAT % 4}\n{RULES}\n":
            peer.send(byte)
            time.sleep(0.5)
        assert [peer.read(), peer.read()] == [SEATED, NO_NAMES]


def test_lines_that_come_at_once_are_answered_one_after_another(cam6: str, there: Host) -> None:
    rounds = [(CELL % y, ROW % y, RUN % 1, PLANES[0], '{"do":"fly"}') for y in range(100)]
    session = [*START[:2], *(line for lines in rounds for line in lines)]
    with Peer(there.port, 1) as peer, ThreadPoolExecutor(1) as pool:
        pool.submit(peer.send, "".join(f"{line}\n" for line in session))
        assert_replies(session, [peer.read() for _ in session], private(cam6, session))


def test_3000_connections_hold_no_more_memory_or_threads_than_300(there: Host) -> None:
    for _ in range(300):
        Peer(there.port, 9).close()
    memory, threads = there.of_process("VmRSS"), there.of_process("Threads")
    for number in range(3000):
        Peer(there.port, 9 if number % 2 else 1).close()
    assert wait_until(lambda: there.of_process("Threads") - threads < 20, GRACE)
    assert wait_until(lambda: there.of_process("VmRSS") - memory < 2000, GRACE)


def stacks(host: Host) -> int:
    """How many stacks of threads the host has: mappings of their size, in bytes."""
    size = resource.getrlimit(resource.RLIMIT_STACK)[0]
    size = 2 << 20 if size == resource.RLIM_INFINITY else size
    with open(f"/proc/{host.process.pid}/maps", encoding="utf-8") as lines:
        ends = [[int(number, 16) for number in line.split()[0].split("-")] for line in lines]
    return sum(last - first == size for first, last in ends)


def test_the_memory_of_60_connections_comes_back_when_they_close(host: Hosts) -> None:
    one = host("--users=4")
    with connected(Peer, one.port, 60):
        assert wait_until(lambda: stacks(one) > 60)
    # Nobody connects after them. Two are of boards, and the C library keeps 40 MB of stacks for threads to come.
    assert wait_until(lambda: stacks(one) < 12, 1 + GRACE), stacks(one)


def limit(host: Host, kind: int, most: int) -> int:
    """Sets the limit of a host's resource. Returns the limit before."""
    before, highest = resource.prlimit(host.process.pid, kind)
    resource.prlimit(host.process.pid, kind, (most, highest))
    return before


def test_connections_without_a_thread_are_closed_and_others_are_served(there: Host) -> None:
    # There is room for what a session takes and for the stacks of threads that have ended, and for no other.
    threads, replies = there.of_process("Threads"), set()
    with connected(Peer, there.port, 3):
        assert wait_until(lambda: there.of_process("Threads") == threads + 3)
    assert wait_until(lambda: there.of_process("Threads") == threads)
    before = limit(there, resource.RLIMIT_AS, there.of_process("VmSize") * 1024 + 4_000_000)
    with connected(Peer, there.port, 30) as peers:
        for peer in peers:
            try:
                replies.add(peer.ask(SEAT % 9))
            except ConnectionError:
                replies.add(None)
    limit(there, resource.RLIMIT_AS, before)
    assert replies in ({None}, {None, NO_SEAT})
    is_free(there, 4)


def files(host: Host) -> set[int]:
    """The numbers of the files that a host has open."""
    return set(map(int, os.listdir(f"/proc/{host.process.pid}/fd")))


def test_who_finds_no_file_left_is_answered_once_others_have_gone(there: Host) -> None:
    # The host may open only a few more files than it has. A client that isn't accepted yet waits for its answer.
    most = max(files(there)) + 5
    before = limit(there, resource.RLIMIT_NOFILE, most)
    with connected(Peer, there.port, 20):
        assert wait_until(lambda: len(there.errors) > 1)
        waits = Peer(there.port)
        waits.send(f"{SEAT % 9}\n")
        assert there.is_running()
        assert len(files(there)) <= most
    with waits:
        assert waits.read() == NO_SEAT
    limit(there, resource.RLIMIT_NOFILE, before)
    is_free(there, 4)


def without_files(host: Host) -> int:
    """From here on a host can open no file. Returns how many it could."""
    have = files(host)
    return limit(host, resource.RLIMIT_NOFILE, next(number for number in range(len(have) + 1) if number not in have))


def test_a_host_that_had_a_client_does_not_end_if_nobody_can_be_accepted(host: Hosts) -> None:
    one = host("--users=1")
    own = files(one)
    with Peer(one.port, 1) as peer:
        peer.ask(PARITY)
    is_free(one, 1)
    assert wait_until(lambda: files(one) == own)
    before = without_files(one)
    # The call that waits for a connection has a file for it already.
    is_free(one, 1)
    with Peer(one.port) as waits:
        waits.send(f"{SEAT % 1}\n{RULES}\n")
        assert one.ended(4) is None
        limit(one, resource.RLIMIT_NOFILE, before)
        assert [waits.read(), waits.read()] == [SEATED, ONE_NAME]
    one.kill()
    # It tells so once a minute.
    assert ["cannot accept" in line for line in one.errors] == [False, True], one.errors


def test_a_host_that_had_no_client_ends_after_a_second_if_nobody_can_be_accepted(host: Hosts) -> None:
    one = host("--users=1")
    without_files(one)
    begun = time.monotonic()
    # It waits for a connection that has its file, and says nothing. The next one has none.
    with Peer(one.port):
        end = one.ended()
    assert 1 <= time.monotonic() - begun < 1 + GRACE
    assert end and (end.status, end.errors.splitlines()[-1:]) == (7, [b"cam6: network failed"])
