"""Sessions: connections that break at each place, hosts that are killed, and programs that are started again.

A session's replies are compared with those of an oracle machine that got the same commands once each. `test_crashes` has
any list of crashes. Here are those of real hosts and real programs.
"""

from __future__ import annotations

import json
import os
import random
import ssl
import subprocess
import sys
import threading
import time
from collections.abc import Callable
from pathlib import Path
from typing import Any, Optional
from unittest import mock

import fakes
import pytest
from fakes import BALLS, Breaking, OracleMachine, compact, north, once
from oracle.machine import answers
from support.programs import Host, free_port

import cam6
from cam6 import Machine, lines, sessions
from cam6.journal import Journal
from cam6.sessions import Connector, Session

ENTRIES = [{"a": "B", "b": "-", "grid": grid, "phase": 0} for grid in ("EVEN", "ODD")]
RULE = compact(do="rule", name="B", half="A", hood="N/MARG", minor="&/PHASES", text=BALLS)
CYCLE = compact(do="cycle", entries=ENTRIES)
RUN = compact(do="run", n=1)
CLEAR_0, CLEAR_1 = (compact(do="clear", plane=plane) for plane in (0, 1))
SET = compact(do="set", plane=0, row=1, bits="8" * 32)
OTHER_SET = compact(do="set", plane=0, row=3, bits="f0" * 16)
# A host of the oracle's limit.
SMALL = ("--users=4", "--side=128", "--boards=1")
Hosts = Callable[..., Host]
Breakings = Callable[..., Breaking]
Connected = Callable[..., Machine]


def commands(seed: int, count: int, most_steps: int = 3) -> list[bytes]:
    """Commands of all kinds, of which some are refused."""
    source = random.Random(seed)
    number = source.randrange
    ways: list[Callable[[], bytes]] = [
        lambda: compact(do="set", plane=number(4), row=number(128), bits=f"{source.getrandbits(128):032x}"),
        lambda: compact(do="run", n=number(most_steps + 1)),
        lambda: compact(do="back", n=number(most_steps + 1)),
        lambda: compact(do="count", mask=number(65536)),
        lambda: compact(do="row", plane=number(5), row=number(140)),
        lambda: compact(do="clear", plane=number(4)),
        lambda: compact(do="map", colours=[number(16) for _ in range(16)]),
        lambda: north(f"R{number(3)}"),
        lambda: compact(do="drop", name=f"R{number(3)}"),
        lambda: CYCLE,
        lambda: b"no command",
    ]
    weights = [9, 6, 4, 4, 3, 1, 1, 1, 1, 1, 1]
    return [RULE, CYCLE] + [source.choices(ways, weights)[0]() for _ in range(count - 2)]


def check(machine: Machine, sent: list[bytes], batch: int, save_after: int = 0) -> None:
    """Sends the lines, so many at a time. Compares the replies and the machine with the oracle's. If `save_after` is above 0,
    saves each time that so many were answered."""
    oracle = OracleMachine(128)
    want = [oracle.answer(line) for line in sent]
    got: list[bytes] = []
    saved = 0
    for at in range(0, len(sent), batch):
        got += machine._query(sent[at : at + batch])
        transport: Any = machine._transport
        if save_after and len(got) - saved >= save_after and transport.checkpoint():
            saved = len(got)
    assert got == want
    assert machine.save() == oracle.load_line()


def session_of(machine: Machine) -> Session:
    """The session of a machine that has a journal."""
    assert machine.session
    return machine.session


@pytest.fixture
def broken(breaking: Breakings, connected: Connected) -> Connected:
    """Connects to a host that breaks so, as often as it is called: `broken(once(5, "after"), deadline=2)`."""
    return lambda breaks, **options: connected(breaking(breaks).port, **options)


# A host that breaks at any line, in any way.


@pytest.mark.parametrize("what", ["before", "after", 1, 9])
@pytest.mark.parametrize("number", range(1, 22))
def test_a_break_at_a_line(number: int, what: Any, broken: Connected) -> None:
    """It is the last that a host takes: not done, done and unanswered, and half answered."""
    check(broken(once(number, what)), commands(1, 14, 1), 5)


@pytest.mark.parametrize("seed", range(6))
def test_breaks_again_and_again(seed: int, breaking: Breakings, connected: Connected) -> None:
    source = random.Random(seed)

    def breaks(number: int, line: bytes) -> Any:
        is_replayed = line.startswith((lines.LOAD_HEAD, b'{"do":"side"'))
        return source.choice(["before", "after", 3]) if not is_replayed and source.random() < 0.08 else None

    # Saved by a count of lines. By seconds, a fast computer would play all lines again, and seldom get through.
    host = breaking(breaks)
    check(connected(host.port, every_seconds=60), commands(seed, 60, 1), source.choice([1, 4, 60]), save_after=8)
    assert len(host.first) > 1


@pytest.mark.parametrize("cut", range(len(b'{"ok":"run","position":1}') + 1))
def test_a_reply_is_cut(cut: int, broken: Connected) -> None:
    """After each of its bytes."""
    check(broken(once(2 + 1 + 4, cut)), [RULE, CYCLE, SET, RUN], 1)


@pytest.mark.parametrize("what", ["before", "after"])
@pytest.mark.parametrize("number", range(1, 9))
def test_breaks_round_a_load(number: int, what: str, broken: Connected) -> None:
    """After a load nothing of the machine before it is played again."""
    oracle = OracleMachine(128)
    oracle.answer(compact(do="set", plane=2, row=9, bits="3" * 32))
    sent = [SET, oracle.load_line(), compact(do="count", mask=65534), lines.SAVE]
    check(broken(once(number, what), every_seconds=5), sent, 1)


def test_a_silent_host_is_left(broken: Connected) -> None:
    """It takes a line and never answers."""
    started = time.monotonic()
    check(broken(once(6, "silent"), deadline=6), commands(3, 8, 1), 1)
    assert time.monotonic() - started < fakes.SILENT


def test_a_line_done_twice_is_seen() -> None:
    """The checks above find a client that sends again without loading: the same lines, one of them twice."""
    sent = [RULE, CYCLE, SET, RUN]
    assert answers([*sent, RUN], 128)[-1] != answers(sent, 128)[-1]


# Which seat is taken, and that what was there is never gone on with.


def test_the_next_free_seat_is_taken(breaking: Breakings, connected: Connected) -> None:
    host = breaking()
    for seat in (0, 1):
        host.taken[seat].acquire()
    assert session_of(connected(host.port)).seat == 3
    assert host.first == [b'{"seat":1}', b'{"seat":2}', b'{"seat":3}']


def test_after_81_no_higher_seat_is_asked_for(breaking: Breakings, connected: Connected) -> None:
    host = breaking(users=2)
    for lock in host.taken:
        lock.acquire()
    with pytest.raises(cam6.NoSeat, match="All 2 seats"):
        connected(host.port)
    assert b'{"seat":4}' not in host.first


def test_a_machine_that_was_left_at_the_seat(breaking: Breakings, connected: Connected) -> None:
    """It has nothing to do with a session."""
    host = breaking()
    for machine in host.machines:
        machine.answer(compact(do="set", plane=0, row=0, bits="f" * 32))
    assert connected(host.port).count() == 0
    with cam6.connect("127.0.0.1", host.port, seat=2) as there:
        assert there.count() == 128


def test_a_seat_that_is_asked_for(breaking: Breakings) -> None:
    host = breaking()
    with cam6.connect("127.0.0.1", host.port, seat=3) as machine:
        assert machine.side == 128
        with pytest.raises(cam6.NoSeat, match="Seat 3 .* is taken"):
            cam6.connect("127.0.0.1", host.port, seat=3)
    with pytest.raises(cam6.NoSeat, match="There is no seat 9"):
        cam6.connect("127.0.0.1", host.port, seat=9)


def test_a_seat_that_was_just_left(breaking: Breakings) -> None:
    """It is free a moment after its connection was closed."""
    host = breaking(users=1)
    for _ in range(5):
        cam6.connect("127.0.0.1", host.port, seat=1).close()


def test_a_session_moves_to_another_host(breaking: Breakings) -> None:
    """A host that is not there is passed over."""
    first, second = breaking(), breaking()
    addresses: list[Any] = [("127.0.0.1", free_port()), f"127.0.0.1:{first.port}", ("127.0.0.1", second.port)]
    with cam6.connect(addresses, limit=128, journal=":memory:", deadline=20) as machine:
        session = session_of(machine)
        assert session.address[1] == first.port
        machine.set_row(0, 5, "f" * 32)
        first.stop()
        assert machine.count() == 128
        assert (session.address[1], session.recoveries) == (second.port, 1)


def test_a_connection_without_a_journal_is_lost(breaking: Breakings) -> None:
    with cam6.connect("127.0.0.1", breaking(once(3, "after")).port) as machine:
        machine.clear(0)
        with pytest.raises(cam6.Lost, match="closed the connection"):
            machine.clear(1)
        with pytest.raises(cam6.Lost):
            machine.clear(2)


# Hosts of other limits and versions.


@pytest.mark.parametrize(
    ("here", "limit", "sentence"),
    [(256, 256, ""), (256, 128, "has the limit 256, and the session has 128"), (512, 256, "limit 512")],
)
def test_hosts_of_a_limit(here: int, limit: int, sentence: str, breaking: Breakings, connected: Connected) -> None:
    """A session needs a host of its own limit."""
    port = breaking(limit=here).port
    if not sentence:
        assert connected(port, limit=limit).side == limit
        return
    with pytest.raises(cam6.Diverged, match=sentence):
        connected(port, limit=limit)


def test_a_host_that_answers_otherwise(connected: Connected) -> None:
    """After a loss, a reply to a command that is played again is another one."""

    def breaks(number: int, line: bytes) -> Any:
        if host.count == 4 and line == CYCLE:
            return None
        if line.startswith(b'{"do":"count"') and len(host.first) == 1:
            return "after"
        return b'{"ok":"run","position":7}' if line == RUN and len(host.first) > 1 else None

    with Breaking(breaks) as host:
        machine = connected(host.port, every_seconds=5)
        for line in (RULE, CYCLE, RUN):
            machine._query([line])
        with pytest.raises(cam6.Diverged, match="position.*7.*Before it was"):
            machine.count()


def test_a_journal_of_another_limit(port: int, connected: Connected, path: Path) -> None:
    connected(port, journal=path).close()
    with pytest.raises(cam6.BadJournal, match="limit=128"):
        connected(port, journal=path, limit=256)


# A command that kills its host is not played for ever.

KILLER = compact(do="count", mask=4711)


def kills(number: int, line: bytes) -> Optional[str]:
    """Breaks a host at the command."""
    return "before" if line == KILLER else None


def test_a_command_that_kills_is_given_up(breaking: Breakings, connected: Connected) -> None:
    host = breaking(kills)
    machine = connected(host.port, deadline=2)
    machine.set_row(0, 5, "f" * 32)
    started = time.monotonic()
    with pytest.raises(cam6.GaveUp) as raised:
        machine._query([CLEAR_1, KILLER, CLEAR_0])
    assert time.monotonic() - started < 20
    assert host.heard.count(KILLER) > 2
    assert (raised.value.replies, raised.value.undone) == ([b'{"ok":"clear"}'], [KILLER, CLEAR_0])
    # What was given up is not done, now or later.
    session_of(machine).deadline = 60
    assert machine.count() == 128


def test_a_program_that_is_started_again_gives_it_up(breaking: Breakings, connected: Connected, path: Path) -> None:
    """It tries the command until the deadline, and the next one has it no more."""
    port = breaking(kills).port
    with connected(port, journal=path) as machine:
        machine.set_row(0, 5, "f" * 32)
        session_of(machine).journal.record_commands([KILLER])
    with pytest.raises(cam6.GaveUp) as raised:
        connected(port, journal=path, deadline=3)
    assert raised.value.undone == [KILLER]
    machine = connected(port, journal=path)
    assert (session_of(machine).asked, machine.count()) == (1, 128)


def test_a_host_that_goes_away_for_good(host: Hosts, connected: Connected) -> None:
    """The command counts as not done."""
    there = host(*SMALL)
    machine = connected(there.port, deadline=60)
    machine.set_row(0, 5, "f" * 32)
    there.kill()
    session_of(machine).deadline = 2
    with pytest.raises(cam6.GaveUp, match="Nothing listens at .* cam6 serve --port"):
        machine.clear(0)
    there.begin()
    session_of(machine).deadline = 60
    assert machine.count() == 128


def test_a_new_journal_does_not_wait(connected: Connected) -> None:
    started = time.monotonic()
    with pytest.raises(cam6.Lost, match="Nothing listens"):
        connected(free_port(), deadline=60)
    assert time.monotonic() - started < 30


# Long runs are split, and a checkpoint is made between the parts.


def open_session(port: int, rate: float, journal: Optional[Path] = None) -> Session:
    """A session that begins with this guess of how fast a board is, and is to save each millisecond."""
    connector = Connector([("127.0.0.1", port)], 32, None, None, None)
    session = Session(connector, Journal(str(journal) if journal else None, "none", 128), 0.001, 20)
    session._rate = rate
    return session


def test_parts_of_a_run_add_up_to_it(breaking: Breakings) -> None:
    """One `run` is asked for."""
    host = breaking()
    session, run = open_session(host.port, 200), compact(do="run", n=25)
    session.query([RULE, CYCLE, compact(do="set", plane=0, row=3, bits="f" * 32)])
    checkpoints = session.checkpoints
    assert session.query([run]) == answers([RULE, CYCLE, run], 128)[-1:]
    parts = [json.loads(line)["n"] for line in host.heard if line.startswith(b'{"do":"run"')]
    assert sum(parts) == 25
    assert len(parts) > 1
    assert session.checkpoints > checkpoints
    session.close()


@pytest.mark.parametrize(("n", "fault"), [(60_000, 63), (65_536, 65)])
def test_parts_that_are_refused(n: int, fault: int, breaking: Breakings) -> None:
    """A long run without a cycle has the one fault that a short one has."""
    session = open_session(breaking().port, 200)
    assert session.query([compact(do="run", n=n)]) == [b'{"fault":%d}' % fault]
    session.close()


@pytest.mark.parametrize("number", range(6, 22, 3))
def test_breaks_between_parts(number: int, breaking: Breakings) -> None:
    sent = [RULE, CYCLE, OTHER_SET, compact(do="run", n=23), lines.SAVE]
    session = open_session(breaking(once(number, "after")).port, 300)
    assert session.query(sent) == answers(sent, 128)
    session.close()


# A program that is started again with the same journal goes on where it was.


@pytest.mark.parametrize("sync", ["none", "checkpoint", "each"])
def test_a_program_that_is_started_again_goes_on(sync: str, port: int, connected: Connected, path: Path) -> None:
    sent, got = commands(5, 30, 1), list[bytes]()
    for at in range(0, 30, 10):
        with connected(port, journal=path, sync=sync) as machine:
            assert session_of(machine).asked == at
            got += machine._query(sent[at : at + 10])
    assert got == answers(sent, 128)


def test_a_command_without_an_answer(port: int, connected: Connected, path: Path) -> None:
    """A program asked, and ended before the answer. The next one does the command, once."""
    sent = [RULE, CYCLE, OTHER_SET, compact(do="run", n=3), lines.SAVE]
    want = answers(sent, 128)
    with connected(port, journal=path) as machine:
        machine._query(sent[:3])
        session_of(machine).journal.record_commands(sent[3:4])
    machine = connected(port, journal=path)
    assert session_of(machine).resumed == [(sent[3], want[3])]
    assert session_of(machine).asked == 4
    assert machine._query(sent[4:]) == want[4:]


def test_a_long_run_that_was_cut(port: int, connected: Connected, path: Path) -> None:
    """A program ended in the middle of a long run. The next one does the rest of it."""
    sent = [RULE, CYCLE, OTHER_SET, compact(do="run", n=20), lines.SAVE]
    session = open_session(port, 300, path)
    session.query(sent[:3])
    session.journal.record_commands(sent[3:4])
    session._send([], time.monotonic() + 20)
    session.close()
    assert b'"n":17' in session.journal.pending[0]
    assert connected(port, journal=path)._query(sent[4:]) == answers(sent, 128)[4:]


def test_a_journal_that_is_open_in_another_program(port: int, connected: Connected, path: Path) -> None:
    connected(port, journal=path)
    with pytest.raises(cam6.BadJournal, match="open in another program"):
        connected(port, journal=path)


def test_a_journal_that_has_commands_waits_for_a_host(host: Hosts, connected: Connected, path: Path) -> None:
    """It keeps what is not answered if none comes."""
    there = host(*SMALL)
    with connected(there.port, journal=path) as machine:
        machine.set_row(0, 5, "f" * 32)
        session_of(machine).journal.record_commands([CLEAR_1])
    there.kill()
    with pytest.raises(cam6.GaveUp):
        connected(there.port, journal=path, deadline=0.3)
    later = threading.Timer(0.5, there.begin)
    later.start()
    machine = connected(there.port, journal=path, deadline=60)
    later.join()
    assert session_of(machine).asked == 2
    assert len(session_of(machine).resumed) == 1
    assert machine.count() == 128


def test_a_call_that_is_interrupted(port: int, connected: Connected) -> None:
    """Ctrl-C while an answer is awaited: the command is done once all the same."""
    sent = [RULE, CYCLE, OTHER_SET, RUN, lines.SAVE]
    machine = connected(port, every_seconds=5)
    machine._query(sent[:3])
    with mock.patch.object(session_of(machine).journal, "record_replies", side_effect=KeyboardInterrupt):
        with pytest.raises(KeyboardInterrupt):
            machine._query(sent[3:4])
    assert machine._query(sent[4:]) == answers(sent, 128)[4:]


# Programs that are killed: the host, and the one that uses this cam6.


def restart(host: Host) -> None:
    """Kills a host, and starts it again."""
    host.kill()
    host.begin()


@pytest.mark.slow
def test_a_host_is_killed_at_each_tenth_command(host: Hosts, connected: Connected) -> None:
    """Commands are on their way then. It is started again."""
    sent = [*commands(11, 200, 6), lines.SAVE]
    there = host(*SMALL)
    machine = connected(there.port, deadline=60, every_seconds=0.02)
    got: list[bytes] = []
    kills = range(0, len(sent) - 1, 10)
    for at in kills:
        killer = threading.Timer(random.Random(at).random() * 0.01, restart, [there])
        killer.start()
        got += machine._query(sent[at : at + 10])
        killer.join()
    got += machine._query(sent[-1:])
    assert got == answers(sent, 128)
    # Each kill costs a recovery in its own call or in the next one. One call may recover from two kills at once.
    assert 2 * session_of(machine).recoveries >= len(kills)


KILLED = """
import sys
import cam6
machine = cam6.connect("127.0.0.1", {port}, limit=128, journal={path!r}, every_seconds=0.01, deadline=20)
sent = [line.encode() for line in sys.stdin.read().split("\\n")]
while machine.session.asked < len(sent):
    machine._query([sent[machine.session.asked]])
    print(machine.session.asked, flush=True)
"""


def part_of(text: str, sent: list[bytes], count: int) -> int:
    """Starts a program, and kills it after so many answers. Returns how many commands were answered then."""
    env = {**os.environ, "PYTHONPATH": str(Path(sessions.__file__).parents[1])}
    words = [sys.executable, "-c", text]
    with subprocess.Popen(words, stdin=subprocess.PIPE, stdout=subprocess.PIPE, env=env) as program:
        assert program.stdin and program.stdout
        program.stdin.write(b"\n".join(sent))
        program.stdin.close()
        asked = 0
        for _ in range(count):
            asked = int(program.stdout.readline() or len(sent))
        program.kill()
    return asked


@pytest.mark.slow
def test_the_program_itself_is_killed(port: int, connected: Connected, path: Path) -> None:
    """After some answers. It is started again until all is done."""
    sent, source = commands(12, 120, 1), random.Random(12)
    text = KILLED.format(port=port, path=str(path))
    asked = [0]
    while asked[-1] < len(sent):
        asked.append(part_of(text, sent, source.randrange(1, 12)))
    assert len(asked) > 9
    machine = connected(port, journal=path)
    assert machine._query([lines.SAVE]) == answers([*sent, lines.SAVE], 128)[-1:]


# Connections over TLS, with a certificate that the tests have.

PEM = fakes.HERE / "localhost.pem"


def server() -> ssl.SSLContext:
    """The TLS context of a host with a certificate for localhost."""
    context = ssl.SSLContext(ssl.PROTOCOL_TLS_SERVER)
    context.load_cert_chain(PEM)
    return context


def client() -> ssl.SSLContext:
    """How a client that knows the certificate speaks TLS."""
    return ssl.create_default_context(cafile=str(PEM))


def test_a_session_over_tls(breaking: Breakings, connected: Connected) -> None:
    sent = commands(7, 300, 0) + [lines.SAVE]
    host = breaking(once(200, "after"), tls=server())
    machine = connected(host.port, tls=client(), server_name="localhost", every_seconds=5)
    assert machine._query(sent) == answers(sent, 128)
    assert session_of(machine).recoveries == 1


@pytest.mark.parametrize("name", ["other.test", None])
def test_certificates_that_are_refused(name: Optional[str], breaking: Breakings) -> None:
    """It is one of another name, or of nobody that is known."""
    with pytest.raises(cam6.Lost, match="certificate"):
        cam6.connect("127.0.0.1", breaking(tls=server()).port, tls=client() if name else True, server_name=name)


def test_a_host_without_tls(port: int) -> None:
    with pytest.raises(cam6.Lost, match="TLS with"):
        cam6.connect("127.0.0.1", port, tls=True)


def test_lines_are_written_to_the_journal_some_at_a_time() -> None:
    sent = [b"x" * (n % 5000) for n in range(3000)]
    chunks = list(sessions.chunks_of(sent))
    assert [line for chunk in chunks for line in chunk] == sent
    assert all(1 <= len(chunk) <= sessions.CHUNK_LINES for chunk in chunks)
    assert all(sum(map(len, chunk)) <= sessions.CHUNK_BYTES for chunk in chunks)
    assert list(sessions.chunks_of([])) == []
