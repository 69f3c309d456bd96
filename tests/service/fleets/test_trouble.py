"""Sessions of the Python client lose nothing, whatever is killed, stopped, drained or pulled meanwhile. Each has the replies
of a private machine: of `cam6 alone`, and a small session also those of the oracle.

The options --fleet-seconds, --fleet-seed and --fleet-sessions make the trouble longer. The figures of a run are printed.
"""

from __future__ import annotations

import json
import os
import random
import statistics
import sys
import time
from collections import Counter
from collections.abc import Callable, Iterable, Iterator, Mapping
from concurrent.futures import ProcessPoolExecutor
from contextlib import ExitStack, contextmanager
from dataclasses import asdict
from itertools import takewhile
from pathlib import Path
from typing import Any, NamedTuple

import pytest
from oracle.machine import Alone
from service.users import NO_SEAT, SEAT
from support.programs import TOP, ran, wait_until

from .services import HOSTS, NAME, Fleet, Service
from .session import Played, Player, read

# Seconds within which the front has to see that a host is stopped, and that it goes on.
SEEN = 6
# When a journal is written to its disk, and seconds of answers between two checkpoints.
SYNCS, EVERY = ("checkpoint", "none", "each"), (0.1, 0.02, 0.5)
# Seconds of a short run, and between the calls of its sessions, and between those of longer runs.
SHORT, PAUSE, LONG_PAUSE = 60, 0.03, 0.1
# Every so many sessions one is small, so that the oracle, which takes milliseconds for a step, can do the same.
SMALL_OF = 4
# Seconds in which sessions have to end after the trouble has: a session waits for a silent front for a third of its deadline.
DEADLINE, ENDING = 45, 90
# Seconds that the oracle may take for a session, and the program. The oracle does what it can in this time.
ORACLE_SECONDS, PROGRAM_SECONDS = 300, 7200


class Troubles:
    """Makes trouble, and counts it. `wrong` has what went wrong, and a file beside the logs has all that happened."""

    def __init__(self, fleet: Fleet, clients: list[Service], seed: int) -> None:
        self.fleet, self.clients, self.rng = fleet, clients, random.Random(seed)
        self.counts: Counter[str] = Counter()
        self.wrong: list[str] = []
        self.is_first = True

    def play(self, seconds: float) -> None:
        """Trouble for so many seconds: first each kind of the first round, then any."""
        end, first = time.monotonic() + seconds, [name for name, kind in KINDS.items() if kind.is_first]
        self.rng.shuffle(first)
        while first or time.monotonic() < end:
            self.is_first = bool(first)
            shares = [kind.share for kind in KINDS.values()]
            name = first.pop() if first else self.rng.choices(list(KINDS), shares)[0]
            self.tell(name)
            try:
                with contextmanager(KINDS[name].play)(self):
                    self.pause(*KINDS[name].seconds)
            except Exception as error:  # whatever goes wrong, the trouble goes on
                self.note(False, f"{name}: {error!r}")
            self.pause(0.1, 3, 0.4)

    def tell(self, text: str) -> None:
        """Writes a text to the log of the run."""
        with (self.fleet.folder / "troubles.log").open("a", encoding="utf-8") as file:
            file.write(f"{time.time():.2f} {text}\n")

    def note(self, is_so: bool, text: str) -> None:
        """Notes what has to be so."""
        if not is_so:
            self.wrong.append(text)
            self.tell(f"NOT SO: {text}")

    def pause(self, least: float, most: float, first: float) -> None:
        """Waits for a random time. In the first round it is `first` seconds at most."""
        time.sleep(self.rng.uniform(least, first if self.is_first else most))

    def some_hosts(self, most: int = 1) -> list[str]:
        """A host, or after the first round maybe more of them."""
        names = self.rng.sample(HOSTS, 1 if self.is_first else min(most, self.rng.choice([1, 1, 1, 1, 1, 2, 2, 3])))
        self.tell(f"  hosts {names}")
        return names

    def some(self, services: Mapping[str, Service], most: int = 1) -> list[Service]:
        """The services of some hosts."""
        return [services[name] for name in self.some_hosts(most)]

    def is_seen_as(self, name: str, state: str) -> None:
        """The front has to see in time that a host is in a state."""
        is_so = wait_until(lambda: self.fleet.front.state(name) == state, SEEN)
        self.note(is_so, f"the front doesn't see within {SEEN} seconds that host {name} is {state}")

    def are_answered(self, when: str) -> None:
        """New users have to be answered at once."""
        answers = [self.fleet.answer_of(SEAT % 99) for _ in range(6)]
        self.note(answers == [NO_SEAT] * 6, f"{when} users are answered {answers}")

    def killed(self, what: str, *services: Service) -> Iterator[None]:
        """Programs end at once, and are started again some time later."""
        for service in services:
            service.kill()
        self.counts[f"{what} killed"] += len(services)
        yield
        for service in services:
            service.start()

    def host_stopped(self) -> Iterator[None]:
        """A host stops in its place, takes connections, and answers nothing. The front has to see it."""
        (name,) = self.some_hosts()
        is_watched = self.fleet.is_ready(10)
        self.counts["hosts stopped"] += 1
        with self.fleet.hosts[name].stopped():
            if is_watched:
                self.is_seen_as(name, "DOWN")
                have_gone = wait_until(lambda: self.fleet.front.stats(name)["scur"] == "0", SEEN)
                self.note(have_gone, f"users of the stopped host {name} are not closed")
            yield
        self.is_seen_as(name, "UP")

    def host_drained(self) -> Iterator[None]:
        """A rolling upgrade: no new user comes to a host, then its users go elsewhere, and it is started anew."""
        (name,) = self.some_hosts()
        self.fleet.is_ready(10)
        self.fleet.front.ask(f"set server fleet/{name} state drain")
        wait_until(lambda: self.fleet.front.state(name) == "DRAIN", 2)
        before = self.fleet.front.stats(name)["stot"]
        self.are_answered(f"while host {name} is drained")
        self.note(self.fleet.front.stats(name)["stot"] == before, f"the drained host {name} gets a new user")
        self.fleet.front.ask(f"set server fleet/{name} state maint")
        have_gone = wait_until(lambda: self.fleet.front.stats(name)["scur"] == "0", 3)
        self.note(have_gone, f"users of host {name} in maintenance don't go elsewhere")
        self.fleet.hosts[name].kill()
        yield
        self.fleet.hosts[name].start()
        self.fleet.front.ask(f"set server fleet/{name} state ready")
        self.counts["hosts drained"] += 1

    def front_reloaded(self) -> Iterator[None]:
        """A new front takes the listeners over. The old one ends once its users have gone, and nobody is refused."""
        front = self.fleet.front
        front.start("-x", front.admin, "-sf", str(front.process.pid))
        self.counts["fronts loaded anew"] += 1
        self.are_answered("after the front is loaded anew")
        yield

    def pulled(self, node: str, in_its_place: Service) -> Iterator[None]:
        """A node's cable is pulled: what is sent is lost, without an error. Without cables a program is stopped."""
        self.counts["cables pulled"] += 1
        ground = self.fleet.ground
        with ground.pulled(node) if ground.has_cables else in_its_place.stopped():
            yield

    def host_pulled(self) -> Iterator[None]:
        """The cable of a host's machine is pulled."""
        (name,) = self.some_hosts()
        return self.pulled(name, self.fleet.edges[name])


class Kind(NamedTuple):
    """A trouble, how many of 20 are of its kind, and how long it lasts: seconds at least, at most, and at most in the
    first round. That round has each kind that is marked, so that a short run has them all."""

    play: Callable[[Troubles], Iterator[None]]
    share: int
    seconds: tuple[float, float, float] = (0, 0, 0)
    is_first: bool = True


KINDS = {
    "hosts": Kind(lambda one: one.killed("hosts", *one.some(one.fleet.hosts, 3)), 6, (0.05, 3, 0.6)),
    "stop": Kind(Troubles.host_stopped, 3, (0.1, 5, 0.2)),
    "drain": Kind(Troubles.host_drained, 2),
    # The front ends, with all connections.
    "front": Kind(lambda one: one.killed("fronts", one.fleet.front), 1, (0.05, 1, 0.2)),
    "reload": Kind(Troubles.front_reloaded, 1),
    # The host has its users' seats free when it sees that its edge proxy has ended.
    "edge": Kind(lambda one: one.killed("edge proxies", *one.some(one.fleet.edges)), 1, (0.05, 2, 0.4), False),
    "host's cable": Kind(Troubles.host_pulled, 2, (2, 9, 2.5)),
    "users' cable": Kind(lambda one: one.pulled("users", one.fleet.front), 1, (0.5, 9, 9), False),
    # A client's process ends amid its commands. Another one takes its journal up.
    "client": Kind(lambda one: one.killed("clients", one.rng.choice(one.clients)), 3),
}


class Client:
    """The process of a session. Every second one speaks TLS from the users' machine, the others plainly from the front's."""

    def __init__(self, fleet: Fleet, number: int, seed: int, pause: float) -> None:
        is_by_tls, name = number % 2 == 0, f"session-{number:02}"
        self.number, self.record, self.is_small = number, fleet.folder / f"{name}.record", number % SMALL_OF == 0
        how: dict[str, Any] = {"host": "127.0.0.1", "port": fleet.plain, "server_name": None}
        if is_by_tls:
            how = {"host": fleet.ground.address("front"), "port": fleet.tls, "server_name": NAME}
        how |= {"seats": fleet.users, "deadline": DEADLINE, "journal": str(fleet.folder / f"{name}.journal")}
        how |= {"sync": SYNCS[number % 3], "every_seconds": EVERY[number // 3 % 3]}
        authority, over = str(fleet.authority) if is_by_tls else "", str(fleet.folder / "over")
        player = Player(how, authority, seed * 1000 + number, self.is_small, pause, str(self.record), over)
        words = [sys.executable, "-m", "service.fleets.session", json.dumps(asdict(player))]
        env = {"PYTHONPATH": os.pathsep.join(str(TOP / path) for path in ("tests", "clients/python/src"))}
        self.service = fleet.service("users" if is_by_tls else "front", name, words, env)

    def last_lines(self) -> str:
        """How it ended, and the end of what it wrote."""
        lines = self.service.log.read_text(encoding="utf-8", errors="replace").strip().splitlines()
        return f"session {self.number} ends with {self.service.process.poll()}: {' | '.join(lines[-3:])}"


@pytest.fixture
def clients(pytestconfig: pytest.Config, fleet: Fleet) -> Iterator[list[Client]]:
    """Sessions that have all sat down. The client gives a new journal up if it can't sit down at once, so there is peace."""
    seconds, seed, count = (pytestconfig.getoption(f"--fleet-{name}") for name in ("seconds", "seed", "sessions"))
    made = [Client(fleet, number, seed, PAUSE if seconds <= SHORT else LONG_PAUSE) for number in range(count)]
    with ExitStack() as stack:
        for client in made:
            stack.enter_context(client.service)
        have_begun = wait_until(lambda: all(read(client.record).lines for client in made), ENDING)
        assert have_begun, [client.last_lines() for client in made]
        yield made


class Judged(NamedTuple):
    """What became of a session: how many of its replies are those of `cam6 alone`, how many nobody read, how many were found to
    be those of the oracle, and what is wrong."""

    played: Played
    same: int
    unread: int
    by_oracle: int
    wrong: list[str]


def compared(played: Played, replies: Iterable[bytes], of: str, may_be_part: bool) -> tuple[int, int, list[str]]:
    """How many replies are those of a machine, how many nobody read, and what is wrong. There must be more than the first."""
    same = unread = 0
    for (line, got), reply in zip(played.lines, replies):
        wanted = reply.decode("latin-1")
        if got not in (None, wanted):
            differs = f"line {same + unread} {line[:120]!r}: got {str(got)[:120]!r}, wanted {wanted[:120]!r}"
            return same, unread, [f"it hasn't the replies of {of}: {differs}"]
        same, unread = same + (got is not None), unread + (got is None)
    is_good = same > 3 and (may_be_part or same + unread == len(played.lines))
    return same, unread, [] if is_good else [f"{of} has {same + unread} of the replies to {len(played.lines)} lines"]


def judged(cam6: str, path: Path, is_small: bool, may_be_part: bool) -> Judged:
    """Compares a session, maybe in a process of its own. The program has to reply to each line and no more."""
    played, by_oracle = read(path), 0
    sent = b"".join(line + b"\n" for line, _ in played.lines)
    *replies, rest = ran([cam6, "alone", "--side", "256"], sent, patience=PROGRAM_SECONDS).output.split(b"\n")
    same, unread, wrong = compared(played, replies, "cam6 alone", False)
    if not played.has_ended or len(replies) != len(played.lines) or rest:
        wrong += [f"no last save, or cam6 alone has {len(replies)} replies to {len(played.lines)} lines, and {rest!r}"]
    if is_small:
        alone, end = Alone(256), time.monotonic() + ORACLE_SECONDS
        in_time = takewhile(lambda _: time.monotonic() < end, played.lines)
        all_in_time = (alone.answer(line) for line, _ in in_time)
        by_oracle, _, others = compared(played, all_in_time, "the oracle", may_be_part)
        wrong += others
    return Judged(played, same, unread, by_oracle, wrong)


def figures(troubles: Troubles, found: list[Judged], fleet: Fleet) -> Iterator[str]:
    """What came of it, in figures."""
    played = [one.played for one in found]
    yield ", ".join(f"{count} {what}" for what, count in sorted(troubles.counts.items()))
    same, by_oracle = sum(one.same for one in found), sum(one.by_oracle for one in found)
    yield f"{len(found)} sessions, {same} replies as of cam6 alone, {by_oracle} also as of the oracle"
    yield f"{sum(one.unread for one in found)} replies that nobody read, as their clients were killed before"
    again, sent = sum(one.again for one in played), sum(len(line) + 1 for one in played for line, _ in one.lines)
    yield f"{sum(one.seats for one in played)} new seats, {again} commands played again, {sent} bytes of commands"
    if waits := sorted(wait for one in played for wait in one.waits):
        times = f"{statistics.median(waits):.2f} s (median), {waits[int(len(waits) * 0.9)]:.2f} s (9 of 10)"
        yield f"a call that needed a new seat took {times}, {waits[-1]:.2f} s (longest)"
    memory = (f"{name} {fleet.hosts[name].of_process('VmHWM') / 1024:.1f} MB" for name in HOSTS)
    yield f"most memory of a host: {', '.join(memory)}"


@pytest.mark.slow
def test_sessions_lose_nothing_in_trouble(
    pytestconfig: pytest.Config, capfd: pytest.CaptureFixture[str], cam6: str, fleet: Fleet, clients: list[Client]
) -> None:
    seconds = pytestconfig.getoption("--fleet-seconds")
    troubles = Troubles(fleet, [client.service for client in clients], pytestconfig.getoption("--fleet-seed"))
    troubles.play(seconds)
    troubles.note(fleet.is_ready(20), f"the hosts are not all up at the end: {[*map(fleet.front.state, HOSTS)]}")
    (fleet.folder / "over").touch()
    wait_until(lambda: all(client.service.process.poll() is not None for client in clients), ENDING)
    wrong = troubles.wrong + [client.last_lines() for client in clients if client.service.process.poll() != 0]
    with ProcessPoolExecutor() as pool:
        asked = [(cam6, client.record, client.is_small, seconds > SHORT) for client in clients]
        found = list(pool.map(judged, *zip(*asked)))
    with capfd.disabled():
        print("", *(f"fleet: {line}" for line in figures(troubles, found, fleet)), sep="\n")
    wrong += [f"session {number}: {what}" for number, one in enumerate(found) for what in one.wrong]
    if not any(one.played.seats for one in found) or not any(one.played.again for one in found):
        wrong.append("no session took a new seat, or none played a command again")
    assert not wrong, "\n".join([*wrong, f"{fleet.folder} has the logs, and what each session sent and got"])
