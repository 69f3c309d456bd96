#!/usr/bin/env python3
"""Measures what a host and a front cost, for docs/SCALING.md: processor time and memory, as /proc has them.

It starts hosts, edge proxies and a front on free ports, with the files of deploy/. Other work beside it makes figures worse.

    python3 fleet.py ../../cam6           all, in a minute or two; HAProxy has to be there
    python3 fleet.py ../../cam6 memory    one part: memory, steps, frames, rest or front
"""

from __future__ import annotations

import os
import socket
import statistics
import sys
import tempfile
import threading
import time
from argparse import ArgumentParser, RawDescriptionHelpFormatter
from collections.abc import Callable, Iterator
from contextlib import ExitStack, contextmanager
from pathlib import Path

sys.path.insert(0, str(Path(__file__).resolve().parents[2] / "tests"))

from examples.named_rules import CROWDED, OTHERS
from service.fleets.services import HOSTS, Fleet, Ground, Service
from service.users import SEATED, TAKEN
from support.programs import Peer

RULES = {"Critters": CROWDED["CRITTERS"][1:], "Life": OTHERS["LIFE"][1:]}
SECONDS = 4
Connect = Callable[[Fleet], Peer]
# How a client comes to the front.
WAYS: dict[str, Connect] = {"without TLS": Fleet.user, "by TLS": Fleet.tls_user}


@contextmanager
def host(cam6: str, folder: Path, boards: int, side: int = 256) -> Iterator[tuple[Service, int]]:
    """Runs a host of 32 users within the context, with so many boards and `side` as its limit. Yields it, and its
    port."""
    port = Ground().port(7001)
    words = [cam6, "serve", "--port", str(port), "--users", "32", "--boards", str(boards), "--side", str(side)]
    service = Service(Ground(), "one", words, folder / "host.log")
    service.start()
    try:
        for _ in range(200):
            try:
                take_seat(port, 1).close()
                break
            except ConnectionRefusedError:
                time.sleep(0.02)
        yield service, port
    finally:
        service.kill()


def take_seat(port: int, seat: int) -> Peer:
    """Connects to a seat of the host at a port, as soon as it is free, and returns the connection. Waits without end
    for a taken one."""
    while True:
        one = Peer(socket.create_connection(("127.0.0.1", port)))
        if one.ask(f'{{"seat":{seat}}}') != TAKEN:
            return one
        one.close()


def prepare_user(port: int, seat: int, rule: str, side: int) -> Peer:
    """Connects to a seat, and sets the side, a rule of `RULES`, a cycle of it and some cells. Returns the
    connection."""
    one = take_seat(port, seat)
    hood, minor, text = RULES[rule]
    entries = ",".join('{"a":"R","b":"-","grid":"%s","phase":0}' % grid for grid in ("EVEN", "ODD"))
    lines = ['{"do":"side","side":%d}' % side]
    lines += ['{"do":"rule","name":"R","half":"A","hood":"%s","minor":"%s","text":"%s"}' % (hood, minor, text)]
    lines += ['{"do":"cycle","entries":[%s]}' % entries]
    lines += [
        '{"do":"set","plane":0,"row":%d,"bits":"%s"}' % (y, "0123456789abcdef" * (side // 64))
        for y in range(0, side, 2)
    ]
    for line in lines:
        reply = one.ask(line)
        assert reply is not None and "fault" not in reply, (line, reply)
    return one


def count_rounds(ones: list[Peer], lines: list[str], seconds: float) -> int:
    """Has all users send all lines at once, again and again for so many seconds. Returns how often a user had them all
    answered, over all users."""
    counts, end = [0] * len(ones), time.monotonic() + seconds
    sent = "".join(f"{line}\n" for line in lines)

    def ask(at: int) -> None:
        """Sends all lines as the user at this index, and reads the replies, again and again until the end."""
        while time.monotonic() < end:
            ones[at].send(sent)
            for _ in lines:
                ones[at].read()
            counts[at] += 1

    threads = [threading.Thread(target=ask, args=(at,)) for at in range(len(ones))]
    for thread in threads:
        thread.start()
    for thread in threads:
        thread.join()
    return sum(counts)


def memory(cam6: str, folder: Path) -> None:
    """Prints the memory of a host: at first, with 32 users who have a rule and did steps each way, and when all load a
    machine at once."""
    for side in (128, 256, 512):
        with host(cam6, folder, 2, 512) as (service, port), ExitStack() as open_:
            first = service.of_process("VmRSS")
            ones = [open_.enter_context(prepare_user(port, seat, "Critters", side)) for seat in range(1, 33)]
            for one in ones:
                one.ask('{"do":"run","n":2}')
                one.ask('{"do":"back","n":2}')
                saved = one.ask('{"do":"save"}')
            then = service.of_process("VmRSS")
            assert saved is not None
            machine = saved.removeprefix('{"machine":').removesuffix(',"ok":"save"}')
            count_rounds(ones, [f'{{"do":"load","machine":{machine}}}'], 1)
            print(f"memory: side {side}: {first / 1024:.1f} MB at first, {then / 1024:.1f} MB with 32 users", end="")
            print(f": {(then - first) / 32:.0f} KB a user; {service.of_process('Threads')} threads", end="")
            print(f"; at most {service.of_process('VmHWM') / 1024:.1f} MB")


def steps(cam6: str, folder: Path) -> None:
    """Prints how many steps a second are done for users who run without a pause, by the number of boards."""
    for rule in RULES:
        for boards in (1, 2, 4):
            with host(cam6, folder, boards) as (service, port), ExitStack() as open_:
                ones = [open_.enter_context(prepare_user(port, seat, rule, 256)) for seat in range(1, 9)]
                before = service.seconds()
                count = 500 * count_rounds(ones, ['{"do":"run","n":500}'], SECONDS)
                spent = service.seconds() - before
                print(f"steps: {rule}, side 256, {boards} boards, 8 users: {count / SECONDS:,.0f} a second", end="")
                print(f" by {spent / SECONDS:.2f} cores: {count / spent:,.0f} a core")


def frames(cam6: str, folder: Path) -> None:
    """Prints how many frames a second users get who draw without a pause. A frame is a step and a plane, as a page asks
    for them."""
    for side in (128, 256, 512):
        with host(cam6, folder, 2, 512) as (service, port), ExitStack() as open_:
            ones = [open_.enter_context(prepare_user(port, seat, "Critters", side)) for seat in range(1, 5)]
            before = service.seconds()
            count = count_rounds(ones, ['{"do":"run","n":1}', '{"do":"plane","plane":0}'], SECONDS)
            spent = service.seconds() - before
            print(f"frames: side {side}: {count / SECONDS:,.0f} a second by {spent / SECONDS:.2f} cores", end="")
            print(f": {1e3 * spent / count:.3f} ms of a core each")


def rest(cam6: str, folder: Path) -> None:
    """Prints the processor time of a host whose users do nothing."""
    with host(cam6, folder, 2) as (service, port), ExitStack() as open_:
        for seat in range(1, 33):
            open_.enter_context(prepare_user(port, seat, "Critters", 256))
        before = service.seconds()
        time.sleep(SECONDS)
        print(f"rest: 32 silent users: {(service.seconds() - before) / SECONDS:.4f} cores")


def front(cam6: str, folder: Path) -> None:
    """Prints what a front and an edge proxy add to a round trip and to a connection, and what memory they take."""
    fleet = Fleet(Ground(), cam6, folder, users=32, boards=2)
    try:
        fleet.start()
        round_trips(fleet)
        connections(fleet)
        open_connections(fleet)
    finally:
        fleet.kill()


def spent_by(fleet: Fleet, play: Callable[[], int]) -> tuple[int, float, float]:
    """Calls `play`. Returns what it counts, and the seconds of processor time of the front and of the edge proxies
    meanwhile."""
    edges = fleet.edges.values()
    before = fleet.front.seconds(), sum(edge.seconds() for edge in edges)
    count = play()
    return count, fleet.front.seconds() - before[0], sum(edge.seconds() for edge in edges) - before[1]


def round_trips(fleet: Fleet) -> None:
    """Prints the time of a line and its reply: at a host, by the front without TLS, and by TLS."""
    ways: dict[str, Connect] = {
        "at a host": lambda fleet: fleet.at_host("one"),
        "by the front": Fleet.user,
        "by TLS": Fleet.tls_user,
    }
    for what, connect in ways.items():
        with connect(fleet) as one:
            one.ask('{"seat":9}')
            times: list[float] = []

            def play(one: Peer = one, times: list[float] = times) -> int:
                """Asks 5,000 lines, and notes the seconds of each. Returns how many times are noted."""
                for _ in range(5000):
                    begun = time.perf_counter()
                    one.ask('{"do":"rules"}')
                    times.append(time.perf_counter() - begun)
                return len(times)

            count, by_front, by_edges = spent_by(fleet, play)
            print(f"front: a line {what}: {1e6 * statistics.median(times):.0f} us (median)", end="")
            print(f"; {1e6 * by_front / count:.0f} us of a core at the front, {1e6 * by_edges / count:.0f} at the edge")


def connections(fleet: Fleet) -> None:
    """Prints how many connections a second can be made, each with a seat that isn't there."""
    for what, connect in WAYS.items():

        def play(connect: Connect = connect) -> int:
            """Makes and closes 300 connections, and returns 300."""
            for _ in range(300):
                with connect(fleet) as one:
                    one.ask('{"seat":99}')
            return 300

        begun = time.monotonic()
        count, by_front, by_edges = spent_by(fleet, play)
        seconds = time.monotonic() - begun
        print(f"front: {count / seconds:.0f} connections a second {what}", end="")
        print(f": {1e3 * by_front / count:.2f} ms of a core at the front, {1e3 * by_edges / count:.2f} ms at the edge")


def open_connections(fleet: Fleet) -> None:
    """Prints the memory that open connections take."""
    for what, connect in WAYS.items():
        with ExitStack() as open_:
            before = fleet.front.of_process("VmRSS")
            held = 0
            for seat in list(range(1, 33)) * len(HOSTS):
                one = open_.enter_context(connect(fleet))
                held += one.ask(f'{{"seat":{seat}}}') == SEATED
            print(
                f"front: {(fleet.front.of_process('VmRSS') - before) / held:.0f} KB for each of {held} connections {what}"
            )


PARTS = {"memory": memory, "steps": steps, "frames": frames, "rest": rest, "front": front}


def main() -> None:
    """Measures the part that the arguments name, or all parts."""
    parser = ArgumentParser(prog="fleet.py", description=__doc__, formatter_class=RawDescriptionHelpFormatter)
    parser.add_argument("cam6", metavar="CAM6")
    parser.add_argument("part", metavar="PART", nargs="?", choices=list(PARTS))
    asked = parser.parse_args()
    for name, part in PARTS.items():
        if asked.part in (None, name):
            with tempfile.TemporaryDirectory() as folder:
                part(os.path.abspath(asked.cam6), Path(folder))
            sys.stdout.flush()


if __name__ == "__main__":
    main()
