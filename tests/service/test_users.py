"""Users of a host. Each has the replies of a private machine of the oracle, which knows no bands, no boards and no others.

32 users sit at a host of eight boards, whose cache has fewer tables than there are rules. Eight ask for runs that take
seconds, so that all boards are busy. Then all others ask for shorter steps, and three of them go back. Each of these must
be answered before any of the eight: so commands were taken off boards, and went on later, maybe elsewhere.

The eight have the largest torus. Their runs come back to their beginning, and so the oracle does only the step that
is left over. A step of parity is a sum, so that 512 steps put five copies of the cells onto themselves, which
leaves one. A ball crosses the torus in 512 steps. Three cells of Life in a row lie so again after two steps, and a
block that is turned after four.

Three random users send lines in turn, one by one or many at once, go within lines, and come back to their seats. A play that
fails shrinks, and the lines of the user whose reply differs are printed.
"""

from __future__ import annotations

import select
from functools import partial
from pathlib import Path
from random import Random
from typing import Any

import pytest
from examples import named_rules
from hypothesis import strategies as st
from hypothesis.stateful import RuleBasedStateMachine, initialize, rule
from oracle.lines import plain
from oracle.machine import Alone
from oracle.wirings import FIRST_PLANE
from programs.texts import rules
from support.commands import cycle_command, do, rule_command
from support.programs import END, Host, Peer, Ran, wait_until
from support.sessions import assert_replies, line_of
from support.stateful import play

from .users import TAKEN, Hosts, seated

pytestmark = [pytest.mark.slow, pytest.mark.timeout(3600)]


class Play:
    """What a user sent, what came, and what was wanted, by a machine of the oracle."""

    def __init__(self, side: int) -> None:
        self.machine, self.sent, self.came, self.wanted = Alone(side), list[bytes](), list[str | None](), list[str]()

    def keep(self, came: str | None, line: bytes, same: bytes = b"") -> None:
        """Keeps a reply to a line, and the oracle's reply to this line, or to one that is the same for it."""
        self.sent.append(line)
        self.came.append(came)
        self.wanted.append(self.machine.answer(same or line).decode())


# 32 users on eight boards.

USERS, BOARDS, TABLES = 32, 8, 4
# The sides of users with long runs, and of the others.
LARGE, SMALL = 512, 128
# Nearly as many steps as a command may have: one more than a multiple of each period.
LONG = 127 * LARGE + 1
VOTE = ("B", *named_rules.CELLS, ": R CENTER NORTH + SOUTH + WEST + EAST + { 0 0 0 1 1 1 } >PLN2 ;")
WAYS = named_rules.RULES | {"VOTE": VOTE}
# The rules of users with long runs, one after another, and after how many steps a run is where it began.
AROUND = [("PARITY", LARGE), ("LIFE", 2), ("BALLS", LARGE), ("TURN", 4)]
# The rules of the others, one after another, and again from the first. Those who go back, by their numbers.
WORDS = "PARITY, LIFE, BRAIN, BALLS, CRITTERS, VOTE, TURN GAS, PHASED, WEST LIFE, EXCHANGED, BY_PHASE, OTHER_ROW BALLS"
OTHERS = [*WORDS.split(", "), "COPY PARITY"]
BACK = (12, 17, 24)


def near(side: int, random: Random, is_dense: bool) -> str:
    """Digits of a row with few set cells, or with most of them set, not far from the middle."""
    digits, middle = ["0"] * (side // 4), side // 8
    if is_dense:
        digits[middle - 4 : middle + 4] = [random.choice("7bdef") for _ in range(8)]
        return "".join(digits)
    for _ in range(random.randrange(2, 5)):
        digits[middle + random.randrange(-3, 3)] = f"{random.randrange(1, 16):x}"
    return "".join(digits)


class User(Play):
    """A user with a connection, with rules, and with steps to ask for."""

    def __init__(self, number: int, port: int) -> None:
        super().__init__(LARGE)
        self.number, self.peer, self.is_long = (
            number,
            seated(partial(Peer, patience=END), port, number),
            number <= BOARDS,
        )
        self.side, other = LARGE if self.is_long else SMALL, (OTHERS[(number - 1) % len(OTHERS)], 1)
        words, self.period = AROUND[(number - 1) % 4] if self.is_long else other
        self.words, is_back = words.split(), number in BACK
        assert not is_back or all(word in named_rules.REVERSIBLE for word in self.words)
        self.steps = {"do": "back" if is_back else "run", "n": LONG if self.is_long else 20 + number % 8}

    def ask(self, **command: Any) -> None:
        """Asks, and keeps the reply."""
        line = line_of(**command)
        self.keep(self.peer.ask(line), line.encode())

    def begin(self) -> None:
        """Keeps the rules, and a cycle of them on the even grid, and of blocks also on the odd one. Sets a few cells."""
        for command in (do("side", side=self.side), *(rule_command(word, *WAYS[word]) for word in self.words)):
            self.ask(**command)
        entry = {"a": "-", "b": "-", "grid": "EVEN", "phase": self.number % 4}
        entry |= {WAYS[word][0].lower(): word for word in self.words}
        are_blocks = all(WAYS[word][1].startswith("N/MARG") for word in self.words) and self.words != ["TURN"]
        self.ask(do="cycle", entries=[entry, entry | {"grid": "ODD"}] if are_blocks else [entry])
        # A run of Life or of a ball that comes back needs a row of three cells, or one cell.
        digits = {"LIFE": "e", "BALLS": "8"}.get(self.words[0]) if self.is_long else None
        if digits:
            return self.ask(do="set", plane=0, row=8 * self.number, bits=digits.ljust(self.side // 4, "0"))
        random = Random(self.number)
        for word in self.words:
            first = FIRST_PLANE[WAYS[word][0]]
            for row in range(3):
                plane = first + (row + self.number) % 2 * (row == 2) * (not self.is_long)
                y = (self.number * 4 + row + first) % self.side
                self.ask(do="set", plane=plane, row=y, bits=near(self.side, random, word == "VOTE"))

    def end(self, came: str | None) -> None:
        """Keeps the reply to the steps, and looks at all planes. Fails if a reply is not that of the oracle."""
        self.keep(came, plain(self.steps), plain(self.steps | ({"n": LONG % self.period} if self.is_long else {})))
        for plane in range(4):
            self.ask(do="plane", plane=plane)
        self.ask(do="count", mask=65534)
        self.peer.close()
        assert_replies(self.sent, self.came, self.wanted, f"the seat of user {self.number}")


def running(host: Host) -> int:
    """How many threads of a host have something to compute."""
    stats = Path(f"/proc/{host.process.pid}/task").glob("*/stat")
    return sum(stat.read_text().rpartition(") ")[2].startswith("R") for stat in stats)


def test_32_users_on_eight_boards_have_the_replies_of_private_machines(host: Hosts) -> None:
    sizes = {"users": USERS, "boards": BOARDS, "cache": TABLES, "side": LARGE, "connections": USERS}
    one = host(*(f"--{name}={number}" for name, number in sizes.items()))
    users = [User(number, one.port) for number in range(1, USERS + 1)]
    long, others = users[:BOARDS], users[BOARDS:]
    for user in users:
        user.begin()
    for user in long:
        user.peer.send(plain(user.steps) + b"\n")
    assert wait_until(lambda: running(one) >= BOARDS)
    for user in others:
        user.peer.send(plain(user.steps) + b"\n")
    came = [user.peer.read() for user in others]
    # The others are answered while the eight have all boards.
    assert not select.select([user.peer.socket for user in long], [], [], 0)[0]
    for user, line in zip(users, [user.peer.read() for user in long] + came):
        user.end(line)
    assert one.ended() == Ran(0, b"", b"")


# Three random users on two boards.

NUMBERS = st.integers(1, 3)
COMMANDS = [do(way, n=n) for way in ("run", "back") for n in (0, 1, 3, 65536)]
COMMANDS += [do("set", plane=0, row=15, bits="18".center(32, "0"))]
COMMANDS += [do("set", plane=2, row=127, bits="8".ljust(32, "0"))]
COMMANDS += [do("plane", plane=plane) for plane in range(4)]
COMMANDS += [do("clear", plane=0), do("count", mask=2), do("rules"), do("save")]
LINES = st.sampled_from([*map(plain, COMMANDS), b"{}", b"{"])


class Users(RuleBasedStateMachine):
    """Users of a host, each beside a machine of the oracle."""

    def __init__(self, cam6: str) -> None:
        super().__init__()
        self.host = Host(cam6, "--users=3", "--boards=2", f"--side={SMALL}", "--connections=0", "--cache=2")
        self.peers: dict[int, Peer] = {}
        self.plays = {user: Play(SMALL) for user in range(1, 4)}

    def sits(self, user: int) -> Peer:
        """The connection of a user, who takes the seat as soon as the host has seen that it is free."""
        if user not in self.peers:
            self.peers[user] = seated(Peer, self.host.port, user, 20)
        return self.peers[user]

    def send(self, user: int, *lines: bytes) -> None:
        """Sends lines at once, and compares their replies."""
        peer, one = self.sits(user), self.plays[user]
        peer.send(b"".join(line + b"\n" for line in lines))
        for line in lines:
            one.keep(peer.read(), line)
        assert_replies(one.sent, one.came, one.wanted, f"./cam6 alone --side {SMALL}")

    @initialize()
    def begin(self) -> None:
        """Seats all users."""
        for user in self.plays:
            self.sits(user)

    @rule(user=NUMBERS, lines=st.lists(LINES, min_size=1, max_size=8))
    def say(self, user: int, lines: list[bytes]) -> None:
        """Lines of one user, at once."""
        self.send(user, *lines)

    @rule(user=NUMBERS, of=rules(("rule", "block", "block")), grid=st.sampled_from(["EVEN", "ODD"]))
    def keep_a_rule_and_use_it(self, user: int, of: dict[str, str], grid: str) -> None:
        """A rule and a cycle of it."""
        names = ("R", "-") if of["half"] == "A" else ("-", "R")
        commands = [cycle_command(("-", "-", grid, 2)), do("rule", name="R", **of), cycle_command((*names, grid, 2))]
        self.send(user, *map(plain, commands))

    @rule(user=NUMBERS, way=st.sampled_from([Peer.close, Peer.reset]), part=st.sampled_from([b"", b'{"do":"ru']))
    def go(self, user: int, way: Any, part: bytes) -> None:
        """A user goes, maybe within a line, which is not done."""
        peer = self.sits(user)
        peer.send(part)
        way(peer)
        del self.peers[user]

    @rule(user=NUMBERS)
    def knock(self, user: int) -> None:
        """Another client asks for a seat that is taken."""
        self.sits(user)
        with Peer(self.host.port, user) as other:
            assert other.reply == TAKEN

    def teardown(self) -> None:
        """In the end each machine is compared."""
        with self.host:
            for user in self.plays:
                self.send(user, plain(do("save")))
                self.peers[user].close()


def test_users(cam6: str) -> None:
    play(lambda: Users(cam6), examples=25, steps=25)
