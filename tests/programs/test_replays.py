"""Sessions of the worked examples, played at `cam6 replay` under random schedules, beside another user with random commands.

Boards do their steps band by band. Commands are taken off them, boards fail, and tables leave the cache. The session's user gets
the replies that the example has, and each other outcome is that of the oracle.
"""

from __future__ import annotations

import json
from collections import deque
from pathlib import Path
from random import Random
from typing import Any

import pytest
from oracle.examples import Example, Part, limit_of
from oracle.host import BAND, Replay
from oracle.lines import LINE_LIMIT, LOAD_HEAD, is_event, lines_of, plain, read_line
from oracle.machine import Machine
from oracle.schedules import Scheduler
from programs.test_examples import SESSIONS
from support.playing import examples
from support.commands import Asker
from support.programs import ran
from support.sessions import assert_replies

# A session of more bands is played by one schedule of three, or by none.
MANY_BANDS, TOO_MANY_BANDS = 300_000, 1_500_000
# How many commands the other user has at least.
LEAST_OTHERS = 20
OUT_OF_TURN = [b'{"do":"run","n":1}', b'{"do":"side","side":128}', b'{"do":"clear","plane":0}']


class Recorded(Machine):
    """A machine that does no steps. It replies what a session's file says."""

    wanted = b""

    def do(self, command: dict[str, Any]) -> dict[str, Any]:
        """The reply of the file, if there is one."""
        reply, wanted, self.wanted = super().do(command), self.wanted, b""
        replied: dict[str, Any] = json.loads(wanted) if wanted else reply
        return replied

    def settle(self) -> None:
        """Replaces the steps of the oracle: does none."""
        self.due = None


def ask_of(user: int, line: bytes) -> bytes | None:
    """The event that asks for a line, or None if the line is no JSON, or if no ask can hold it."""
    ask = b'{"event":"ask","user":%d,"command":%s}' % (user, line)
    return None if len(line) > LINE_LIMIT or read_line(ask, is_event) in (1, 2) else ask


class Play:
    """A host of two users. One asks for the lines of a session, and the other one for random commands."""

    def __init__(self, part: Part, random: Random) -> None:
        limit = limit_of(part.way)
        self.left = deque(zip(lines_of(part.bytes_sent()), lines_of(part.wanted), strict=True))
        self.random, self.user, self.others = random, random.choice([1, 2]), 0
        boards, cache = random.randrange(2, 5), random.randrange(1, 5)
        self.words = f"replay --users 2 --boards {boards} --cache {cache} --side {limit}".split()
        self.replay = Replay(2, boards, cache, limit)
        self.one, other = self.replay.host.users[self.user], self.replay.host.users[3 - self.user]
        # After a command that no ask can hold the replies are others than in the session.
        done = [line for line, reply in self.left if b'"ok":' in reply]
        self.recorded = Recorded(limit)
        if all(ask_of(1, line) and not line.startswith(LOAD_HEAD) for line in done):
            self.one.machine = self.recorded
        self.asker = Asker(random, random.choice([128, limit]), lambda: other.machine.torus.side)
        self.sent: list[bytes] = []
        self.wanted: list[bytes] = []

    def bands(self) -> int:
        """How many bands the steps of the session have."""
        bands, side = 0, self.one.machine.torus.side
        for line, reply in self.left:
            side = json.loads(line)["side"] if reply == b'{"ok":"side"}' else side
            bands += json.loads(line)["n"] * side // BAND if b'"position":' in reply[:40] else 0
        return bands

    def send(self, line: bytes, outcome: bytes | None = None) -> None:
        """Adds a line to what is sent, and its outcome to what is wanted."""
        self.sent.append(line)
        self.wanted.append(self.replay.answer(line) if outcome is None else outcome)

    def next_lines(self) -> None:
        """The session's lines, up to one that isn't finished at once. A line that no ask can hold stands by itself."""
        while self.left and self.one.status == "resting":
            line, reply = self.left.popleft()
            self.recorded.wanted = reply
            self.send(ask_of(self.user, line) or line)
            self.recorded.wanted = b""
            if self.one.status == "finished" and self.random.random() < 0.9:
                self.send(b'{"event":"collect","user":%d}' % self.user)

    def others_command(self) -> dict[str, Any]:
        """The next command of the other user."""
        self.others += 1
        return self.asker.command()

    def play(self) -> None:
        """Plays until both users have asked for enough, and rest."""
        askers = {self.user: lambda: None, 3 - self.user: self.others_command}
        scheduler = Scheduler(self.random, self.replay.host, askers, trouble=0.5)
        self.next_lines()
        for event in scheduler.events():
            self.send(plain(event), plain(self.replay.host.apply(event)))
            if self.random.random() < 0.02:
                self.send(self.random.choice(OUT_OF_TURN))
            self.next_lines()
            if not self.left and self.others >= LEAST_OTHERS:
                break
        for event in scheduler.bring_to_rest():
            self.send(plain(event), plain(self.replay.host.apply(event)))


def compare(cam6: str, path: Path, seed: int) -> None:
    """Plays the sessions of an example. Fails if an outcome is another one."""
    for number, part in enumerate(Example(path).parts):
        play = Play(part, Random(f"{path.stem} {number} {seed}"))
        if play.bands() <= (MANY_BANDS if seed > 1 else TOO_MANY_BANDS):
            play.play()
            done = ran([cam6, *play.words], b"".join(line + b"\n" for line in play.sent))
            assert_replies(play.sent, lines_of(done.output), play.wanted, f"./cam6 {' '.join(play.words)}")
            assert (done.status, done.errors) == (0, b"")


@pytest.mark.slow
@pytest.mark.timeout(3600)
@pytest.mark.parametrize("seed", [1, 2, 3])
@pytest.mark.parametrize("path", [it for it in examples(SESSIONS) if not str(it.id).startswith("wrong_")])
def test_a_session_has_the_same_replies_by_events(cam6: str, path: Path, seed: int) -> None:
    compare(cam6, path, seed)


@pytest.mark.parametrize("seed", [1, 2, 3])
def test_a_wrong_outcome_is_found(cam6: str, seed: int, tmp_path: Path) -> None:
    wrong, [parity] = tmp_path / "wrong", [it.values[0] for it in examples(SESSIONS) if it.id == "parity"]
    wrong.write_text(f"#!/usr/bin/env bash\n{cam6} \"$@\" | sed '$s/}}$/ }}/'\n", encoding="utf-8")
    wrong.chmod(0o755)
    with pytest.raises(AssertionError, match="the session, to be piped into"):
        compare(str(wrong), Path(str(parity)), seed)
