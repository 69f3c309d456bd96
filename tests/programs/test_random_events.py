"""Random schedules of events at `cam6 replay`, against the oracle. Users ask for the commands of asking.py. Boards do their bands,
commands are taken off boards, boards fail and are repaired, tables leave the cache, and events are refused. In the end the users
are brought to rest, and their machines are compared.
"""

from __future__ import annotations

from collections.abc import Callable
from random import Random
from typing import Any

import hypothesis
import pytest
from hypothesis import strategies as st
from hypothesis.stateful import precondition, rule
from oracle.host import DEAD, IDLE, REFUSALS, Replay
from oracle.machine import Machine
from oracle.schedules import LARGEST, Scheduler, one_event
from programs.asking import Asking
from support.commands import Command, do
from support.stateful import play

# Many more examples are tried by `--hypothesis-profile long`.
pytestmark = [pytest.mark.slow, pytest.mark.timeout(7200)]

NUMBERS = st.integers(0, 5) | st.sampled_from([2**32, LARGEST])
# Users, boards, tables of the cache, and the limit.
SIZES = [(1, 1, 1, 128), (3, 2, 2, 128), (3, 2, 2, 256), (2, 8, 64, 512), (32, 1, 3, 128)]
# How many bands of a command are done at the end.
MOST_BANDS = 200


def has_user(status: str) -> Callable[[Any], bool]:
    """Whether a user has this status."""
    return lambda machine: bool(machine.host.with_status(status))


def has_board(held: str) -> Callable[[Any], bool]:
    """Whether a board is idle, or dead."""
    return lambda machine: bool(machine.host.boards_with(held))


class Schedules(Asking):
    """A host of the program, beside one of the oracle. Who rests has the turn."""

    def __init__(self, cam6: str, sizes: tuple[int, int, int, int]) -> None:
        words = [word for pair in zip(("--users", "--boards", "--cache", "--side"), map(str, sizes)) for word in pair]
        replay = Replay(*sizes)
        super().__init__([cam6, "replay", *words], replay)
        self.host, self.turn = replay.host, 0

    def user_at(self) -> int:
        """The user who has the turn: one who rests, if there is one."""
        users = self.host.with_status("resting") or [*self.host.users]
        return users[self.turn % len(users)]

    def machine_at(self) -> Machine:
        """The oracle's machine of the user who has the turn."""
        return self.host.users[self.user_at()].machine

    def event(self, word: str, **named: Any) -> None:
        """Does an event at both hosts, and compares."""
        self.send_value({"event": word} | named)

    def do(self, command: Command) -> None:
        """The user asks for a command, and collects the reply if it is there at once."""
        user = self.user_at()
        self.event("ask", user=user, command=command)
        if self.host.users[user].status == "finished":
            self.event("collect", user=user)

    def board_out(self, data: st.DataObject) -> int:
        """A board that has a command."""
        return data.draw(st.sampled_from(self.host.boards_with(*self.host.with_status("out"))))

    @rule(turn=st.integers(0, 31))
    def other_turn(self, turn: int) -> None:
        """Gives the turn to another user."""
        self.turn = turn

    @precondition(has_user("queued"))
    @precondition(has_board(IDLE))
    @rule(data=st.data())
    def lease(self, data: st.DataObject) -> None:
        """An idle board takes a command."""
        user = data.draw(st.sampled_from(self.host.with_status("queued")))
        self.event("lease", user=user, board=data.draw(st.sampled_from(self.host.boards_with(IDLE))))

    @precondition(has_user("out"))
    @rule(data=st.data(), count=st.sampled_from([1, 3, 8, 100]))
    def bands(self, data: st.DataObject, count: int) -> None:
        """A board does bands: one, some, those of a step, or all."""
        board = self.board_out(data)
        for _ in range(min(count, self.host.user_on(board).left)):
            self.event("band", board=board)

    @precondition(has_user("out"))
    @rule(data=st.data(), word=st.sampled_from(["preempt", "fail"]))
    def take_off(self, data: st.DataObject, word: str) -> None:
        """A command is taken off its board, or lost with it."""
        self.event(word, board=self.board_out(data))

    @precondition(has_board(DEAD))
    @rule()
    def repair(self) -> None:
        """Repairs a board."""
        self.event("repair", board=self.host.boards_with(DEAD)[0])

    @precondition(has_user("finished"))
    @rule(data=st.data())
    def collect(self, data: st.DataObject) -> None:
        """Has a user collect a reply."""
        self.event("collect", user=data.draw(st.sampled_from(self.host.with_status("finished"))))

    @rule()
    def evict(self) -> None:
        """A table leaves the cache, if there is one."""
        self.event("evict")

    @rule(word=st.sampled_from([*REFUSALS]), user=NUMBERS, board=NUMBERS, n=st.integers(0, 2))
    def any_event(self, word: str, user: int, board: int, n: int) -> None:
        """An event of any user and board, which may be refused."""
        named: Command = {"user": user} if word in ("ask", "lease", "collect") else {}
        named |= {"board": board} if word not in ("ask", "collect", "evict") else {}
        self.event(word, **named, **({"command": do("run", n=n)} if word == "ask" else {}))

    def teardown(self) -> None:
        """Brings the users to rest who haven't many bands left, and compares their machines."""
        with self.process:
            for event in Scheduler(Random(0), self.host, {}).bring_to_rest(MOST_BANDS):
                self.send_value(event)
            for user in self.host.with_status("resting")[:6]:
                for event in one_event("ask", user=user, command=do("save")) + one_event("collect", user=user):
                    self.send_value(event)
            self.end(b"")


@pytest.mark.parametrize("sizes", SIZES)
def test_schedules(cam6: str, sizes: tuple[int, int, int, int]) -> None:
    play(lambda: Schedules(cam6, sizes), examples=hypothesis.settings().max_examples // 5)
