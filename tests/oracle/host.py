"""A host that many users share: private machines, and what an event changes and answers.

A machine has no other user's commands, no bands and no boards. A command is done as a whole. A board has two numbers: how
many bands are left, and how many would be left if all that isn't at home were lost. The cache has its keys, in the order
of their last use.
"""

from __future__ import annotations

from collections.abc import Callable
from typing import Any

from oracle.lines import is_event, plain, read_line
from oracle.machine import Machine, sorted_by_keys

IDLE, DEAD = "idle", "dead"
# The order in which an event's refusals are tried.
REFUSALS = {
    "ask": (101, 102),
    "lease": (101, 106, 104, 103),
    "band": (101, 106, 105),
    "preempt": (101, 106, 105),
    "fail": (101, 106),
    "repair": (101, 107),
    "evict": (109,),
    "collect": (101, 108),
}
# The rows of a band.
BAND = 16


class User:
    """A user, who rests, is queued, is out on a board, or has a finished command."""

    def __init__(self, limit: int) -> None:
        self.machine, self.status = Machine(limit), "resting"
        self.reply: dict[str, Any] = {}
        self.left = self.home = self.bands = 0
        self.is_back = False

    def ask(self, command: dict[str, Any]) -> None:
        """Takes a command, and is queued with its bands, 16 rows of a step each, or finished if it has no steps."""
        self.reply = self.machine.do(command)
        self.bands, self.is_back = self.machine.torus.side // BAND, command["do"] == "back"
        self.left = self.home = command["n"] * self.bands if "position" in self.reply else 0
        self.status = "queued" if self.left else "finished"
        if not self.left:
            self.machine.settle()

    def tables(self) -> list[object]:
        """The keys of the tables that the command needs, in the order of their uses. A key may come more than once."""
        return [(self.machine.rules[name].key, self.is_back) for _, _, name in self.machine.uses()]


class Host:
    """Users from 1 on, boards from 0 on, which are idle, dead, or loaded with a user, and the cache's keys."""

    def __init__(self, users: int, boards: int, capacity: int, limit: int = 256) -> None:
        self.users = {number: User(limit) for number in range(1, users + 1)}
        self.boards: dict[int, int | str] = {number: IDLE for number in range(boards)}
        self.capacity, self.keys = capacity, list[object]()

    def with_status(self, status: str) -> list[int]:
        """The users who have this status."""
        return [number for number, user in self.users.items() if user.status == status]

    def boards_with(self, *held: int | str) -> list[int]:
        """The boards that are idle, dead, or loaded with one of these users."""
        return [board for board, has in self.boards.items() if has in held]

    def user_on(self, board: int) -> User:
        """The user that a board is loaded with. It must not be idle or dead."""
        return self.users[int(self.boards[board])]

    def is_refused(self, number: int, user: int | None, board: int | None) -> bool:
        """Whether the condition of this refusal holds. The user or board is None if the event names none."""
        if number == 101:
            return user not in [None, *self.users] or board not in [None, *self.boards]
        conditions: dict[int, Callable[[], bool]] = {
            102: lambda: user is not None and self.users[user].status != "resting",
            103: lambda: user is not None and self.users[user].status != "queued",
            104: lambda: board is not None and self.boards[board] != IDLE,
            105: lambda: board is not None and self.boards[board] == IDLE,
            106: lambda: board is not None and self.boards[board] == DEAD,
            107: lambda: board is not None and self.boards[board] != DEAD,
            108: lambda: user is not None and self.users[user].status != "finished",
            109: lambda: not self.keys,
        }
        return conditions[number]()

    def apply(self, event: dict[str, Any]) -> dict[str, Any]:
        """Does an event, and returns its outcome; or `{"refused": n}` for the first reason, and nothing is done."""
        word, named = event["event"], {key: value for key, value in event.items() if key != "event"}
        for number in REFUSALS[word]:
            if self.is_refused(number, named.get("user"), named.get("board")):
                return {"refused": number}
        return sorted_by_keys({"ok": word} | getattr(self, f"on_{word}")(**named))

    def on_ask(self, user: int, command: dict[str, Any]) -> dict[str, Any]:
        """A user asks for a command. `left` is its number of bands, 0 if it is finished at once."""
        self.users[user].ask(command)
        return {"left": self.users[user].left}

    def on_lease(self, user: int, board: int) -> dict[str, Any]:
        """A board takes a user's command. Its tables come first in the cache, and the last ones may leave."""
        for key in self.users[user].tables():
            self.keys = [key, *(kept for kept in self.keys if kept != key)][: self.capacity]
        self.users[user].status, self.boards[board] = "out", user
        return {"left": self.users[user].left}

    def on_band(self, board: int) -> dict[str, Any]:
        """A board does a band. After the last one the command is finished and done, and the board is idle."""
        user = self.user_on(board)
        user.left -= 1
        if user.left == 0:
            user.status, self.boards[board] = "finished", IDLE
            user.machine.settle()
        return {"left": user.left}

    def on_preempt(self, board: int) -> dict[str, Any]:
        """Takes a command off a board, and queues it. What it has done goes home at the end of a step alone."""
        user = self.user_on(board)
        if user.left % user.bands == 0:
            user.home = user.left
        user.status, self.boards[board] = "queued", IDLE
        return {"left": user.left}

    def on_fail(self, board: int) -> dict[str, Any]:
        """A board dies. Its command, if any, is queued again without the bands that weren't at home."""
        held, self.boards[board] = self.boards[board], DEAD
        if held == IDLE:
            return {}
        user = self.users[int(held)]
        user.left, user.status = user.home, "queued"
        return {"left": user.left}

    def on_repair(self, board: int) -> dict[str, Any]:
        """A dead board becomes idle."""
        self.boards[board] = IDLE
        return {}

    def on_evict(self) -> dict[str, Any]:
        """The table that was used the longest ago leaves the cache."""
        self.keys.pop()
        return {}

    def on_collect(self, user: int) -> dict[str, Any]:
        """A user gets the reply of their command, and rests."""
        self.users[user].status = "resting"
        return {"reply": self.users[user].reply}


class Replay:
    """A host, line by line."""

    def __init__(self, users: int, boards: int, capacity: int, limit: int = 256) -> None:
        self.host = Host(users, boards, capacity, limit)

    def answer(self, line: bytes) -> bytes:
        """Does the event of a line, and returns its outcome or the line's fault, without an LF."""
        event = read_line(line, is_event)
        return plain({"fault": event} if isinstance(event, int) else self.host.apply(event))
