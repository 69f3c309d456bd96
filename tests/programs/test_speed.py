"""A table with a short program makes faster steps than one without. Both give the same rows, so no proof can say it."""

from __future__ import annotations

import statistics
import time

import pytest
from oracle.lines import plain
from support.commands import cycle_command, do, rule_command
from support.programs import ran

pytestmark = pytest.mark.alone

SHORT = ": R NORTH SOUTH XOR WEST XOR EAST XOR >PLN0 ;"
# Each neighbour has a weight of its own, so that no short program makes a bit of the square of their sum.
WEIGHTS = {
    "CENTER": 1,
    "NORTH": 3,
    "SOUTH": 7,
    "WEST": 13,
    "EAST": 19,
    "N.WEST": 29,
    "N.EAST": 37,
    "S.WEST": 41,
    "S.EAST": 47,
}
LONG = f": R 0 {' '.join(f'{name} {weight} * +' for name, weight in WEIGHTS.items())} DUP * 64 AND 0= >PLN0 ;"
STEPS, TURNS = 4_000, 5


def seconds(cam6: str, text: str) -> float:
    """How long so many steps of a rule take."""
    lines = [
        rule_command("R", "A", "N/MOORE", "&/CENTERS", text),
        cycle_command(("R", "-", "EVEN", 0)),
        do("run", n=STEPS),
    ]
    began = time.monotonic()
    done = ran([cam6, "alone"], b"".join(plain(line) + b"\n" for line in lines))
    assert done.output.splitlines()[:2] == [b'{"ok":"rule"}', b'{"ok":"cycle"}']
    return time.monotonic() - began


def test_a_short_program_is_faster_than_looking_up(cam6: str) -> None:
    """The two rules take turns. By look-ups both would take as long."""
    times = [(seconds(cam6, SHORT), seconds(cam6, LONG)) for _ in range(TURNS)]
    assert statistics.median(short / long for short, long in times) < 0.6, times
