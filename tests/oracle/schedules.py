"""Random schedules of a host: what may come next, and how all users come to rest. A scheduler picks events. The caller applies
each of them to the host before it takes the next one.
"""

from __future__ import annotations

from collections.abc import Callable, Iterable, Iterator, Mapping
from random import Random
from typing import Any

from oracle.host import DEAD, IDLE, REFUSALS, Host

Event = dict[str, Any]
# Gives the next command of a user, or None if the user asks for nothing now.
Asker = Callable[[], dict[str, Any] | None]
# A board that no host has, and more bands than any command has.
LARGEST = 2**64 - 1


class Scheduler:
    """Picks the events of a host. `trouble` is how often commands with bands that are done are taken off boards or lost, 1
    as a rule."""

    def __init__(self, random: Random, host: Host, askers: Mapping[int, Asker], trouble: float = 1) -> None:
        self.random, self.host, self.askers, self.trouble = random, host, askers, trouble
        self.is_leased = False

    def events(self) -> Iterator[Event]:
        """Events without end. Most can happen, and the others are refused."""
        while True:
            weights, choices = zip(*self.choices())
            for event in self.random.choices(choices, weights)[0]:
                self.is_leased = event["event"] == "lease"
                yield event

    def choices(self) -> Iterator[tuple[float, Iterable[Event]]]:
        """What may come next: each a weight, and the events."""
        host = self.host
        yield 0.5 + 0.2 * len(host.users), self.any_event()
        yield 2 if self.is_leased and self.random.random() < 0.3 else 0.3 if host.keys else 0.1, self.evictions()
        yield from ((2, self.ask(user)) for user in host.with_status("resting"))
        yield from ((3, one_event("collect", user=user)) for user in host.with_status("finished"))
        for board, held in host.boards.items():
            if held == DEAD:
                yield 1.5, one_event("repair", board=board)
            elif held == IDLE:
                yield 0.05, one_event("fail", board=board)
                yield from ((2, one_event("lease", user=user, board=board)) for user in host.with_status("queued"))
            else:
                lost = self.trouble if host.user_on(board).left < host.user_on(board).home else 0.3
                yield 3, self.some_bands(board)
                yield from [(lost, one_event("preempt", board=board)), (lost, one_event("fail", board=board))]

    def ask(self, user: int) -> Iterator[Event]:
        """Has a user ask for their next command, if there is one."""
        if command := self.askers[user]():
            yield from one_event("ask", user=user, command=command)

    def some_bands(self, board: int) -> Iterator[Event]:
        """Bands of a board's command: one, those up to the end of a step or of the command, or any number."""
        left, step = self.host.user_on(board).left, self.host.user_on(board).bands
        some = [self.random.randrange(1, left + 1) for _ in range(3)]
        yield from one_event("band", board=board) * min(left, self.random.choice([1, left % step or step, left, *some]))

    def evictions(self) -> Iterator[Event]:
        """Has one table leave the cache, or all tables of a small one, and then one more although none is left."""
        kept = len(self.host.keys)
        yield from one_event("evict") * (kept + 1 if 0 < kept < 8 and self.random.random() < 0.5 else 1)

    def any_event(self) -> Iterator[Event]:
        """An event of any user and board, those that aren't there among them. It may be refused."""
        users, boards = list(self.host.users), list(self.host.boards)
        word = self.random.choice([*REFUSALS, "lease"])
        named: Event = {}
        if word in ("ask", "lease", "collect"):
            named["user"] = self.random.choice([*users, *users, 0, len(users) + 1])
        if word not in ("ask", "collect", "evict"):
            named["board"] = self.random.choice([*boards, *boards, len(boards), LARGEST])
        if word == "ask":
            named["command"] = {"do": "run", "n": self.random.randrange(3)}
        yield from one_event(word, **named)

    def bring_to_rest(self, most: int = LARGEST) -> Iterator[Event]:
        """Repairs all boards, and brings the users to rest who have `most` bands left at most. Queues the others."""
        host = self.host
        for board in host.boards_with(DEAD):
            yield from one_event("repair", board=board)
        for board in host.boards_with(*host.with_status("out")):
            left = host.user_on(board).left
            yield from one_event("band", board=board) * left if left <= most else one_event("preempt", board=board)
        for user in host.with_status("queued"):
            if host.users[user].left <= most:
                board = self.random.choice(host.boards_with(IDLE))
                yield from one_event("lease", user=user, board=board)
                yield from one_event("band", board=board) * host.users[user].left
        for user in host.with_status("finished"):
            yield from one_event("collect", user=user)


def one_event(word: str, **named: Any) -> list[Event]:
    """A list of one event, with this word and these fields."""
    return [{"event": word} | named]
