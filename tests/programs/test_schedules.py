"""Random schedules of events at hosts of all sizes, played at the program cam6: each outcome is that of the oracle."""

from __future__ import annotations

from itertools import islice
from random import Random

import pytest
from oracle.host import Replay
from oracle.lines import plain
from oracle.schedules import Scheduler, one_event
from programs.test_examples import written_for
from support.commands import Asker, Command, do
from support.line_process import LineProcess
from support.sessions import assert_replies

EVENTS = 1_200


class Schedule:
    """Users at several sides ask for runs, backs and other commands, whose steps boards do band by band; boards fail and are
    repaired, commands are preempted, tables leave the cache, rules are redefined, and events are refused. In the end all are
    brought to rest, and their machines are saved."""

    def __init__(self, seed: int) -> None:
        random = Random(seed)
        choice = random.choice
        sides = [choice([128, 128, 128, 256, 256, 512]) for _ in range(choice([1, 2, 2, 3, 3, 4, 5, 8, 32]))]
        sizes = len(sides), choice([1, 1, 2, 2, 3, 4, 8]), choice([1, 2, 3, 4, 6, 16, 64]), max(sides)
        self.words = "replay --users {} --boards {} --cache {} --side {}".format(*sizes).split()
        self.host = Replay(*sizes).host
        self.lines: list[bytes] = []
        self.wanted: list[bytes] = []
        askers = {user: self.asker(random, user, side) for user, side in enumerate(sides, 1)}
        for user, asker in askers.items():
            while asker.wishes and random.random() < 0.97:
                self.ask(user, asker.command())
        scheduler = Scheduler(random, self.host, {user: asker.command for user, asker in askers.items()})
        for event in islice(scheduler.events(), EVENTS):
            self.send(event)
        for event in scheduler.bring_to_rest():
            self.send(event)
        for user in askers:
            self.ask(user, do("save"))

    def asker(self, random: Random, user: int, side: int) -> Asker:
        """The commands of a user, who has a torus of this side at most."""
        torus = self.host.users[user].machine.torus
        if side < torus.side:
            self.ask(user, do("side", side=side))
        first = side if side == 512 else random.choice([128, side])
        return Asker(random, first, lambda: self.host.users[user].machine.torus.side)

    def send(self, event: Command) -> None:
        """Adds an event to what is sent, and its outcome to what is wanted."""
        self.lines.append(plain(event))
        self.wanted.append(plain(self.host.apply(event)))

    def ask(self, user: int, command: Command) -> None:
        """A command that is finished at once, and its reply."""
        for event in one_event("ask", user=user, command=command) + one_event("collect", user=user):
            self.send(event)

    def compare(self, cam6: str) -> None:
        """Plays the events one by one, and then all at once. Fails if an outcome is not that of the oracle."""
        how = f"./cam6 {' '.join(self.words)}"
        with LineProcess([cam6, *self.words]) as process:
            assert_replies(self.lines, [*map(process.answer, self.lines)], self.wanted, how)
            assert process.rest() == b""
        data, all_wanted = (b"".join(line + b"\n" for line in lines) for lines in (self.lines, self.wanted))
        assert written_for([cam6, *self.words], data) == all_wanted


@pytest.mark.parametrize("seed", range(1, 101))
def test_a_schedule_has_the_outcomes_of_the_oracle(cam6: str, seed: int) -> None:
    Schedule(seed).compare(cam6)


def test_a_wrong_outcome_is_found(cam6: str) -> None:
    schedule = Schedule(1)
    schedule.wanted[-1] += b" "
    with pytest.raises(AssertionError, match="the session, to be piped into"):
        schedule.compare(cam6)
