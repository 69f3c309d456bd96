"""How long users wait for a command of one step, over connections to a host: alone on it, beside a machine of their own on
standard input, beside another user who has tables filled without end, and beside users who do what they can to keep others
waiting. It prints medians, 99th percentiles and the longest waits, in microseconds.

usage: waits.py PROGRAM [COUNT]     COUNT commands of each kind, 1,000 by default; a twentieth of it beside a user whose
                                    tables are filled without end, and seven seconds beside hostile users
"""

from __future__ import annotations

import argparse
import os
import random
import socket
import subprocess
import threading
import time
from collections.abc import Callable

PARITY = ": P CENTER NORTH XOR SOUTH XOR WEST XOR EAST XOR >PLN0 ;"
PAUSE = 0.001
MOST_PAUSE = 0.02
FIRST = 2
SECONDS = 5
RUN = b'{"do":"run","n":1}\n'
BACK = b'{"do":"back","n":1}\n'


def rule_line(name: str, half: str, hood: str, minor: str, text: str) -> bytes:
    """The line, with LF, that defines a rule."""
    return (
        f'{{"do":"rule","name":"{name}","half":"{half}","hood":"{hood}","minor":"{minor}","text":"{text}"}}\n'
    ).encode()


def cycle_line(entries: list[tuple[str, str]]) -> bytes:
    """The line, with LF, that sets a cycle on the even grid. An entry has a rule of half A and one of half B, or
    `-`."""
    listed = ",".join(f'{{"a":"{a}","b":"{b}","grid":"EVEN","phase":0}}' for a, b in entries)
    return f'{{"do":"cycle","entries":[{listed}]}}\n'.encode()


def parity_commands() -> list[bytes]:
    """The lines that define the parity rule, and set a cycle of it. They do no step."""
    return [rule_line("P", "A", "N/VONN", "&/CENTERS", PARITY), cycle_line([("P", "-")])]


LINES = ["CENTER", "CENTER'", "CW", "CCW", "OPP", "CW'", "CCW'", "OPP'", "HORZ", "VERT", "&PHASE", "&PHASE'"]


def repeated(number: int, start: str, unit: str, size: int) -> str:
    """The text of a rule of some 4,096 words: the words of `start`, and then `unit`, which has `size` words, again and
    again. Each number gives another text."""
    times = (4096 - len(start.split()) - 2) // size
    names = [f"UNIT{i}" for i in range(times.bit_length())]
    text = f": UNIT0 {unit} ;" + "".join(f" : {name} {below} {below} ;" for below, name in zip(names, names[1:]))
    chosen = [name for i, name in enumerate(names) if times >> i & 1]
    return f"{text} : R {number} DROP {start} {' '.join(chosen)} ;"


def largest_text(number: int) -> str:
    """Each line is read and dropped, again and again, so that the words are done at each address."""
    return repeated(number, "1", " ".join(f"{name} DROP" for name in LINES), 2 * len(LINES))


def choosing_text(number: int) -> str:
    """Equal heights: an IF for each line, again and again."""
    return repeated(number, "1", " ".join(f"{name} IF 1 XOR THEN" for name in LINES), 4 * len(LINES))


def uneven_text(number: int) -> str:
    """Unequal heights: an IF for each line puts a value more, and others drop them again in another order. So addresses have
    stacks of up to thirteen heights."""
    grows = " ".join(f"{name} IF 0 THEN" for name in LINES)
    shrinks = " ".join(f"{name} IF DROP THEN" for name in reversed(LINES))
    return repeated(number, "1", f"{grows} {shrinks}", 6 * len(LINES))


def lines_of(text_of: Callable[[int], str]) -> list[bytes]:
    """The lines that define sixteen rules of such texts, all of half A, and set a cycle of them."""
    lines = [rule_line(f"R{number}", "A", "N/MARG-HV", "&/PHASES", text_of(number)) for number in range(1, 17)]
    return [*lines, cycle_line([(f"R{number}", "-") for number in range(1, 17)])]


class Alone:
    """A machine of its own, on standard input."""

    def __init__(self, program: str) -> None:
        pipe = subprocess.PIPE
        self.process = subprocess.Popen([program, "alone"], stdin=pipe, stdout=pipe, bufsize=0)

    def ask(self, line: bytes) -> bytes:
        """Sends a line, which ends with LF, and returns the reply with its LF."""
        assert self.process.stdin and self.process.stdout
        self.process.stdin.write(line)
        return read_line(self.process.stdout.fileno())

    def end(self) -> None:
        """Kills the program."""
        self.process.kill()
        self.process.communicate()


def read_line(descriptor: int) -> bytes:
    """Reads up to an LF from a file descriptor, and returns that with the LF. What came after it is returned too."""
    line = b""
    while not line.endswith(b"\n"):
        line += os.read(descriptor, 1 << 16)
    return line


class Host:
    """A host, and users with a connection each."""

    def __init__(self, program: str, *words: str) -> None:
        with socket.socket() as free:
            free.bind(("127.0.0.1", 0))
            self.port = free.getsockname()[1]
        command = [program, "serve", "--port", str(self.port), *words]
        self.process = subprocess.Popen(command, stderr=subprocess.PIPE)
        assert self.process.stderr
        self.process.stderr.readline()

    def user(self, number: int) -> User:
        """Connects a user to a seat, counted from 1."""
        return User(self.port, number)

    def end(self) -> None:
        """Kills the host."""
        self.process.kill()
        self.process.communicate()


class User:
    def __init__(self, port: int, number: int) -> None:
        self.peer = socket.create_connection(("127.0.0.1", port))
        self.peer.setsockopt(socket.IPPROTO_TCP, socket.TCP_NODELAY, 1)
        self.ask(b'{"seat":%d}\n' % number)

    def ask(self, line: bytes) -> bytes:
        """Sends a line, which ends with LF, and returns the reply with its LF."""
        self.peer.sendall(line)
        return read_line(self.peer.fileno())


def prepare(asked: Alone | User, lines: list[bytes]) -> None:
    """Sends lines, and ends the script if one of them is refused."""
    for line in lines:
        reply = asked.ask(line)
        if b'"ok"' not in reply:
            raise SystemExit(f"waits.py: {line[:60]!r}: {reply!r}")


def waits(asked: Alone | User, count: int, pause: float) -> list[float]:
    """The microseconds of so many commands of one step, sorted. Waits for `pause` seconds before each."""
    found = []
    for _ in range(count):
        time.sleep(pause)
        began = time.perf_counter()
        asked.ask(RUN)
        found.append((time.perf_counter() - began) * 1e6)
    return sorted(found)


def waits_for(asked: Alone | User, seconds: float) -> list[float]:
    """The microseconds, sorted, of commands of one step that are asked at random times for so many seconds."""
    found, until, times = [], time.perf_counter() + seconds, random.Random(1)
    while time.perf_counter() < until:
        time.sleep(times.uniform(0, MOST_PAUSE))
        began = time.perf_counter()
        asked.ask(RUN)
        found.append((time.perf_counter() - began) * 1e6)
    return sorted(found)


def print_row(what: str, found: list[float]) -> float:
    """Prints a row of the table: median, 99th percentile and longest of sorted microseconds. Returns the median."""
    median, late = found[len(found) // 2], found[min(len(found) - 1, len(found) * 99 // 100)]
    print(f"| {what} | {median:.0f} | {late:.0f} | {found[-1]:.0f} |", flush=True)
    return median


def measure_lone(program: str, count: int) -> None:
    """Prints the waits of a user alone on a host of four users and two boards, beside those of a private machine."""
    machine, host = Alone(program), Host(program, "--users", "4", "--boards", "2")
    user = host.user(1)
    prepare(machine, parity_commands())
    prepare(user, parity_commands())
    # Both alternate, so that a bad minute slows both.
    of_machine, of_user = [], []
    for _ in range(10):
        of_machine += waits(machine, count // 10, PAUSE)
        of_user += waits(user, count // 10, PAUSE)
    alone, on_host = print_row("a machine alone", sorted(of_machine)), print_row(
        "a lone user of a host", sorted(of_user)
    )
    print(f"| more on the host | {on_host - alone:.0f} | | |")
    machine.end()
    host.end()


def measure_bothered(program: str, count: int) -> None:
    """Prints the waits of a user beside another one who has sixteen tables filled for each step, on a cache that holds
    one."""
    host = Host(program, "--users", "2", "--boards", "2", "--cache", "1")
    victim, other = host.user(1), host.user(2)
    prepare(victim, parity_commands())
    prepare(other, lines_of(largest_text))
    print_row("a step that fills sixteen tables of the largest rules", waits(other, 20, 0))
    is_over = threading.Event()

    def bother() -> None:
        """Does steps as the other user until it is over."""
        while not is_over.is_set():
            other.ask(RUN)

    bothering = threading.Thread(target=bother)
    bothering.start()
    print_row("beside a user who asks for such steps without end, at once", waits(victim, count, 0))
    print_row("beside such a user, with a pause before each", waits(victim, count, PAUSE))
    is_over.set()
    bothering.join()
    host.end()


class Hostile:
    """A user with sixteen expensive rules, who does a step and undoes it without end. A cache of sixteen tables never has
    the next."""

    def __init__(self, host: Host, number: int, lines: list[bytes]) -> None:
        self.user = host.user(number)
        prepare(self.user, lines)
        self.steps: list[float] = []
        self.is_over = threading.Event()
        self.thread = threading.Thread(target=self.go_on)

    def go_on(self) -> None:
        """Runs and undoes a step until it is over."""
        while not self.is_over.is_set():
            for line in [RUN, BACK]:
                began = time.perf_counter()
                reply = self.user.ask(line)
                self.steps.append((time.perf_counter() - began) * 1e6)
                if b'"ok"' not in reply:
                    raise SystemExit(f"waits.py: {reply!r}")


def measure_beside_hostile(program: str, text_of: Callable[[int], str], hostile: int, *words: str) -> None:
    """Prints the waits of a user beside so many hostile ones, with rules of `text_of`. `words` are the options of the
    host. The name of the row is the docstring of `text_of` up to a colon."""
    host = Host(program, *words)
    user = host.user(1)
    prepare(user, parity_commands())
    others = [Hostile(host, number, lines_of(text_of)) for number in range(2, 2 + hostile)]
    for other in others:
        other.thread.start()
    what = f"beside {hostile} hostile, {(text_of.__doc__ or '').split(':')[0].lower()}"
    print_row(f"{what}: the first {FIRST} seconds", waits_for(user, FIRST))
    while any(len(other.steps) < 2 for other in others):
        time.sleep(PAUSE)
    print_row("    when each of them has done two steps", waits_for(user, SECONDS))
    for other in others:
        other.is_over.set()
    for other in others:
        other.thread.join()
    print_row("    a step of theirs", sorted(step for other in others for step in other.steps))
    host.end()


def main() -> None:
    """Prints the table of waits."""
    parser = argparse.ArgumentParser(
        prog="waits.py", description=__doc__, formatter_class=argparse.RawDescriptionHelpFormatter
    )
    parser.add_argument("program")
    parser.add_argument("count", nargs="?", type=int, default=1000)
    asked = parser.parse_args()
    print("| a command of one step, in microseconds | median | 99th percentile | longest |\n|---|---|---|---|")
    measure_lone(asked.program, asked.count)
    measure_bothered(asked.program, max(asked.count // 20, 1))
    for text_of in [choosing_text, uneven_text]:
        measure_beside_hostile(asked.program, text_of, 1)
        measure_beside_hostile(asked.program, text_of, 8, "--users", "9", "--boards", "8")


if __name__ == "__main__":
    main()
