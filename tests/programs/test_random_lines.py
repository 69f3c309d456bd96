"""Lines that are broken at random, in their bytes, in their spelling or in what they say: each has the fault or the reply that the
oracle says, and a refused line changes nothing.
"""

from __future__ import annotations

from random import Random
from typing import Any

import hypothesis
import pytest
from examples.named_rules import REVERSIBLE
from examples.saving import SAVE, load
from hypothesis import strategies as st
from oracle.host import Replay
from oracle.lines import Unclear, lines_of, plain
from oracle.machine import Alone, Machine
from oracle.schedules import one_event
from programs.breaking import Breaker
from support.commands import Command, cycle_command, do, rule_command
from support.programs import ran
from support.sessions import assert_replies

# Many more examples are tried by `--hypothesis-profile long`.
pytestmark = [pytest.mark.slow, pytest.mark.timeout(7200)]

# What a machine is begun with.
BEGIN: list[Command] = [
    do("side", side=128),
    rule_command("B", *REVERSIBLE["BALLS"]),
    cycle_command(("B", "-", "EVEN", 0), ("B", "-", "ODD", 0)),
    do("set", plane=0, row=7, bits="3c".center(32, "0")),
]
COMMANDS = [*BEGIN, *(do(way, n=1) for way in ("run", "back")), *(do(word, plane=0) for word in ("clear", "plane"))]
COMMANDS += [do("row", plane=0, row=7), do("colours", row=7), do("drop", name="T"), do("rules"), SAVE]
COMMANDS += [do("map", colours=[*range(15, -1, -1)]), do("count", mask=2)]
LOAD = load(Machine(128).do(SAVE)["machine"])
EVENTS = [event for command in [*COMMANDS, LOAD] for event in one_event("ask", user=1, command=command)]
EVENTS += [*one_event("lease", user=1, board=0), *one_event("evict"), *one_event("collect", user=1), LOAD]
EVENTS += [event for word in ("band", "preempt", "fail", "repair") for event in one_event(word, board=0)]


def compare(command: list[str], oracle: Alone | Replay, lines: list[bytes]) -> None:
    """Sends lines to a program, and fails if what comes back isn't what the oracle says. Lines that take exact arithmetic are
    left out."""
    sent, wanted = [], []
    for line in lines:
        try:
            wanted.append(oracle.answer(line))
            sent.append(line)
        except Unclear:
            pass
    done = ran(command, b"".join(line + b"\n" for line in sent))
    assert_replies(sent, lines_of(done.output), wanted, f"./cam6 {' '.join(command[1:])}")
    assert (done.status, done.errors) == (0, b"")


def broken(random: Random, values: list[dict[str, Any]]) -> list[bytes]:
    """The lines of these values, of which each is broken."""
    breaker = Breaker(random)
    return [line for value in values for line in breaker.line(value).split(b"\n")]


@hypothesis.given(random=st.randoms(), values=st.lists(st.sampled_from([*COMMANDS, LOAD]), min_size=1, max_size=30))
def test_broken_commands(cam6: str, random: Random, values: list[Command]) -> None:
    lines = [*map(plain, BEGIN), *broken(random, values), plain(SAVE)]
    compare([cam6, "alone", "--side", "256"], Alone(256), lines)


@hypothesis.given(random=st.randoms(), values=st.lists(st.sampled_from(EVENTS), min_size=1, max_size=30))
def test_broken_events(cam6: str, random: Random, values: list[Command]) -> None:
    lines = [line for value in values for line in (plain(value), *broken(random, [value]))]
    sizes = ["--users", "2", "--boards", "2", "--cache", "2", "--side", "128"]
    compare([cam6, "replay", *sizes], Replay(2, 2, 2, 128), lines)
