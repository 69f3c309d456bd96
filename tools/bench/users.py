"""How long four users of a host take for steps of Life on two boards, beside one user alone on one; and what part of a
core a host takes at rest, with four users connected.
"""

from __future__ import annotations

import argparse
import os
import socket
import subprocess
import time
from collections.abc import Iterator

LIFE = (
    '{"do":"rule","name":"L","half":"A","hood":"N/MOORE","minor":"&/CENTERS","text":"'
    ": 8SUM NORTH SOUTH + WEST + EAST + N.WEST + N.EAST + S.WEST + S.EAST + ; "
    ': LIFE 8SUM { 0 0 CENTER 1 0 0 0 0 0 } >PLN0 ;"}'
)
CYCLE = '{"do":"cycle","entries":[{"a":"L","b":"-","grid":"EVEN","phase":0}]}'


class Host:
    """A host with a connection for each of its users. Their machines have a cycle of Life and random cells."""

    def __init__(self, program: str, users: int, boards: int) -> None:
        with socket.socket() as free:
            free.bind(("127.0.0.1", 0))
            port = free.getsockname()[1]
        self.process = subprocess.Popen(
            [program, "serve", "--port", str(port), "--users", str(users), "--boards", str(boards)],
            stderr=subprocess.PIPE,
        )
        assert self.process.stderr
        self.process.stderr.readline()
        self.peers = []
        for user in range(1, users + 1):
            peer = socket.create_connection(("127.0.0.1", port))
            peer.setsockopt(socket.IPPROTO_TCP, socket.TCP_NODELAY, 1)
            self.peers.append((peer, peer.makefile("rb")))
            for line in ('{"seat":%d}' % user, LIFE, CYCLE, *cells()):
                self.ask(user - 1, line)

    def ask(self, index: int, line: str) -> None:
        """Sends a line of a user. Ends the script if the line is refused."""
        peer, file = self.peers[index]
        peer.sendall(line.encode() + b"\n")
        reply = file.readline()
        if b'"ok"' not in reply:
            raise SystemExit("%s: %r" % (line[:60], reply))

    def time(self, steps: int) -> float:
        """Has each user do so many steps, all asked at once. Returns the seconds until the last reply."""
        began = time.monotonic()
        for peer, _ in self.peers:
            peer.sendall(b'{"do":"run","n":%d}\n' % steps)
        for _, file in self.peers:
            file.readline()
        return time.monotonic() - began

    def spent(self) -> float:
        """The seconds of processor time that the host has used."""
        with open("/proc/%d/stat" % self.process.pid) as stat:
            fields = stat.read().rsplit(")", 1)[1].split()
        return (int(fields[11]) + int(fields[12])) / os.sysconf("SC_CLK_TCK")

    def end(self) -> None:
        """Kills the host."""
        self.process.kill()
        self.process.communicate()


def cells() -> Iterator[str]:
    """Lines that set all 256 rows of plane 0 to random cells, always the same."""
    number = 7
    for row in range(0, 256):
        bits = 0
        for _ in range(8):
            number = (number * 6364136223846793005 + 1442695040888963407) % 2**64
            bits = bits << 32 | number >> 32
        yield '{"do":"set","plane":0,"row":%d,"bits":"%064x"}' % (row, bits)


def main() -> None:
    """Prints the times of one user and of four, and the load of a host at rest."""
    parser = argparse.ArgumentParser(description=__doc__)
    parser.add_argument("program", metavar="PROGRAM")
    parser.add_argument(
        "steps", metavar="STEPS", nargs="?", type=int, default=1000, help="steps of each user, 1,000 by default"
    )
    parser.add_argument("times", metavar="TIMES", nargs="?", type=int, default=5, help="runs, 5 by default")
    asked = parser.parse_args()
    steps = asked.steps
    alone, together = Host(asked.program, 1, 1), Host(asked.program, 4, 2)
    ratios, one = [], []
    for _ in range(asked.times):
        single = alone.time(steps)
        one.append(single)
        ratios.append(together.time(steps) / single)
    ratios.sort()
    print("one user on one board: %.0f to %.0f ms for %d steps" % (1000 * min(one), 1000 * max(one), steps))
    print(
        "four users on two boards: %.2f times as long (%.2f to %.2f)"
        % (ratios[len(ratios) // 2], ratios[0], ratios[-1])
    )
    before = together.spent()
    time.sleep(10)
    print("at rest: %.2f %% of a core" % ((together.spent() - before) * 10))
    alone.end()
    together.end()


if __name__ == "__main__":
    main()
