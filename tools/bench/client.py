#!/usr/bin/env python3
"""Measures the Python client: 256 rows set in one write, and a frame of a run, at sides 256 and 512. Prints least and median.

    PYTHONPATH=clients/python/src:tests tools/bench/client.py ./cam6
"""

from __future__ import annotations

import argparse
import statistics
import time
from collections.abc import Callable
from typing import Any

from support.programs import Host

import cam6
from cam6 import cells

BALLS = (
    ": S4 CENTER CW + CCW + OPP + ; : D CENTER OPP = IF CW ELSE CENTER THEN ; "
    ": B S4 { CENTER OPP D CENTER CENTER } >PLN0 ;"
)


def measured(what: str, act: Callable[[], Any], times: int, each: int = 1) -> None:
    """Calls `act` once, and then `times` times. Prints the least and the median milliseconds of one of its `each`
    parts."""
    act()
    taken = []
    for _ in range(times):
        started = time.perf_counter()
        act()
        taken.append(1000 * (time.perf_counter() - started) / each)
    print(f"{what:58} {min(taken):7.3f} {statistics.median(taken):7.3f} ms")


def measure(machine: cam6.Machine, where: str, times: int) -> None:
    """Prints how long calls of a machine take. `where` is its name in the table, and each is timed `times` times."""
    side = machine.side
    rows = [f"{row:0{side // 4}x}" for row in range(side)]
    array = cells.bits_of(rows, side)

    def set_all() -> None:
        """Sets all rows of plane 0 by one pipeline."""
        many = machine.pipeline()
        for row in range(side):
            many.set_row(0, row, rows[row])
        many.execute()

    measured(f"{where}: {side} set_row in a pipeline", set_all, times)
    measured(f"{where}: put of a whole plane", lambda: machine.put(0, array), times)
    measured(f"{where}: a frame, run(1) and plane(0)", lambda: list(machine.frames(20)), times, 20)
    measured(f"{where}: the same, 16 ahead", lambda: list(machine.frames(32, ahead=16)), times, 32)
    measured(f"{where}: cells()", machine.cells, times)
    measured(f"{where}: run(1)", lambda: [machine.run() for _ in range(20)], times, 20)
    measured(f"{where}: save()", machine.save, times)


def main() -> None:
    """Measures a program's machine, a connection, and a connection with a journal."""
    parser = argparse.ArgumentParser(description=__doc__, formatter_class=argparse.RawDescriptionHelpFormatter)
    parser.add_argument("cam6", help="the program cam6")
    parser.add_argument("times", type=int, nargs="?", default=50, help="how often each act is measured (50)")
    asked = parser.parse_args()
    print(f"numpy: {'yes' if cells.numpy() else 'no'}; {asked.cam6}; least and median of {asked.times}")
    for side in (256, 512):
        with Host(asked.cam6, "--users=4", f"--side={side}", "--boards=1") as host:
            starts: dict[str, Callable[[], cam6.Machine]] = {
                "local": lambda: cam6.local(asked.cam6, side_limit=side),
                "connection": lambda: cam6.connect("127.0.0.1", host.port, seat=1),
                "journal in memory": lambda: cam6.connect("127.0.0.1", host.port, limit=side, journal=":memory:"),
            }
            for where, start in starts.items():
                with start() as machine:
                    machine.set_side(side)
                    machine.rule("B", BALLS, hood="N/MARG", minor="&/PHASES")
                    machine.cycle(("B", "-", "EVEN"), ("B", "-", "ODD"))
                    measure(machine, where, asked.times)


if __name__ == "__main__":
    main()
