"""Random sessions of `cam6 alone`, against the oracle, by the commands of asking.py."""

from __future__ import annotations

import hypothesis
import pytest
from hypothesis import strategies as st
from hypothesis.stateful import initialize
from oracle.lines import plain
from oracle.machine import SIDES, Alone, Machine
from programs.asking import Asking
from support.commands import Command, do
from support.stateful import play

# Many more examples are tried by `--hypothesis-profile long`.
pytestmark = [pytest.mark.slow, pytest.mark.timeout(7200)]

# The most cells that the steps of a line may have.
MOST_CELLS = 70_000


class Sessions(Asking):
    """A session of the program, beside one of the oracle."""

    oracle: Alone

    def __init__(self, cam6: str, limit: int) -> None:
        super().__init__([cam6, "alone", "--side", str(limit)], Alone(limit))

    @initialize(side=st.sampled_from([128, 128, 128, *SIDES]))
    def begin(self, side: int) -> None:
        """A torus, mostly a small one, which is soon stepped."""
        self.do(do("side", side=side))

    def machine_at(self) -> Machine:
        """The oracle's machine."""
        return self.oracle.machine

    def do(self, command: Command) -> None:
        """Does a command at both machines, and compares."""
        self.send_value(command)

    def answer(self, line: bytes) -> bytes | None:
        """The reply to a line, or None if its steps have too many cells."""
        return self.oracle.short_answer(line, MOST_CELLS)

    def teardown(self) -> None:
        """In the end the whole machine is compared. A line without its LF is the last one, or a part of it."""
        with self.process:
            self.do(do("save"))
            self.end(plain(do("rules"))[: 1 + len(self.lines) % 14])


@pytest.mark.parametrize("limit", SIDES)
def test_sessions(cam6: str, limit: int) -> None:
    play(lambda: Sessions(cam6, limit), examples=hypothesis.settings().max_examples // 4)
