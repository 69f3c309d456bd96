"""What follows if an allocation fails: each request for memory is refused in turn, one in a run, until a run meets none.

What isn't done must be done when it is asked for again. Nothing that was done may be lost. A program that can't go on must say
so. What has to come back is written by hand, or by the oracle. The library that refuses is tests/support/refusing.c.
"""

from __future__ import annotations

import json
import time
from collections import Counter
from collections.abc import Callable
from contextlib import suppress
from functools import cache, partial
from pathlib import Path
from typing import NamedTuple

import pytest
from examples.named_rules import RULES as TEXTS
from examples.saving import SAVE, load
from oracle.host import Replay
from oracle.lines import lines_of, plain
from oracle.machine import Machine, answers
from oracle.schedules import one_event
from support.commands import Command, cycle_command, do, rule_command
from support.programs import PATIENCE, Host, NotListening, Peer, Ran, ran

pytestmark = [pytest.mark.slow, pytest.mark.timeout(1800)]

Lines = list[bytes]
NO_MEMORY, NO_THREAD = Ran(5, b"", b"cam6: no memory\n"), Ran(8, b"", b"cam6: no thread\n")
# How a host ends before it is there.
NO_HOST: dict[Ran | None, str] = {NO_MEMORY: "before the host was there", NO_THREAD: "at the thread of a board"}
UNSEEN, AT_A_REPLY, AT_AN_ASK = "unseen", "at a reply, its command done", "at an ask"
REFUSED, NONE_KEPT, SEATED, TAKEN = b'{"refused":0}', b'{"refused":109}', '{"ok":"seat"}', '{"fault":80}'

# What is sent.
PARITY, TURN = rule_command("P", *TEXTS["PARITY"]), rule_command("T", *TEXTS["TURN"])
RUN, ROW, RULES, PLANE = do("run", n=1), do("row", plane=0, row=1), do("rules"), do("plane", plane=0)
CLEAR, COUNT, SMALL, BACK = do("clear", plane=0), do("count", mask=2), do("side", side=128), do("back", n=1)


def cycle_of(name: str) -> Command:
    """A cycle of one rule."""
    return cycle_command((name, "-", "EVEN", 0))


def cell_at(row: int, side: int = 256) -> Command:
    """Sets a cell of a row, and clears the others."""
    return do("set", plane=0, row=row, bits="8".ljust(side // 4, "0"))


def lines(*values: Command) -> Lines:
    """The lines of commands, or of events."""
    return [*map(plain, values)]


FIRST = lines(PARITY, cycle_of("P"), cell_at(0), RUN, PLANE, COUNT)
# Each command, and looks at what it changed after it.
EACH = lines(PARITY, RULES, cycle_of("P"), cell_at(1), ROW, RUN, ROW, PLANE)
EACH += lines(do("map", colours=[*range(15, -1, -1)]), do("colours", row=1), COUNT)
EACH += lines(TURN, RULES, cycle_of("T"), BACK, ROW, do("drop", name="P"), RULES)
EACH += lines(CLEAR, ROW, PARITY, cycle_of("P"), cell_at(2), do("run", n=2), ROW, SMALL, RULES, do("fly"))
# A line for which the buffer grows, and one after it.
LONG = lines(load({"x": "x" * 20000}), RULES)
# A machine that is saved; then another one, and the first one again.
SAVED = [SMALL, TURN, cycle_of("T"), cell_at(5, 128), RUN, SAVE]
AGAIN = load([*map(Machine(256).reply, SAVED)][-1]["machine"])
SAVED_AND_LOADED = lines(*SAVED, cycle_of("T"), CLEAR, AGAIN, RUN, SAVE, load({}), RULES)


def asked(user: int, *commands: Command) -> list[Command]:
    """For each command an ask, and a collect of its reply."""
    collect = one_event("collect", user=user)
    return [event for command in commands for event in one_event("ask", user=user, command=command) + collect]


def two_texts() -> Lines:
    """Events of two users, who have a rule of one name with two texts, one board, and a cache of one table."""
    events = []
    for user, word in ((1, "NORTH"), (2, "SOUTH")):
        events += asked(user, rule_command("R", *TEXTS[word]), cycle_of("R"), cell_at(5), cell_at(200))
    (ask, collect), (other_ask, other_collect) = asked(1, RUN), asked(2, RUN)
    lease, other_lease = (one_event("lease", user=user, board=0) for user in (1, 2))
    band, preempt = one_event("band", board=0), one_event("preempt", board=0)
    events += [ask, other_ask, *one_event("evict"), *lease, *one_event("evict") * 2, *band * 8, *preempt]
    events += [*other_lease, *band * 16, *lease, *band * 8, collect, other_collect]
    for user in (1, 2):
        events += asked(user, *(do("row", plane=0, row=row) for row in (4, 6, 199, 201)))
    return lines(*events)


TWO_TEXTS, [EVICT] = two_texts(), lines(*one_event("evict"))


@cache
def replies_to(*sent: bytes) -> Lines:
    """The replies of the oracle to these lines."""
    return answers([*sent])


@cache
def outcomes_of(without: int | None, *sent: bytes) -> Lines:
    """The outcomes of events by the oracle, if one of them is an ask that runs out of memory."""
    replay = Replay(2, 1, 1)
    return [REFUSED if number == without else replay.answer(event) for number, event in enumerate(sent)]


# These say how a refusal was seen. They fail if something else came back than may come.
def how_alone(got: Lines, sent: Lines, is_all: bool) -> str:
    """How a run of cam6 went that has to write these replies, or a prefix of them if memory runs out."""
    assert got == replies_to(*sent)[: None if is_all else len(got)]
    return UNSEEN


# How a session went, by what stands before a reply, or in place of one.
MARKS = {(): UNSEEN, (b"again",): "at a command, which is not done", (b"done",): AT_A_REPLY}


def how_session(got: Lines, sent: Lines) -> str:
    """How a session went that is taken up again: `again` stands before a reply, and `done` in place of one."""
    wanted, marks = replies_to(*sent), tuple(line for line in got if line in (b"again", b"done"))
    if b"done" in got:
        at = got.index(b"done")
        got = got[:at] + wanted[at : at + 1] + got[at + 1 :]
    assert [line for line in got if line != b"again"] == wanted
    return MARKS[marks]


def how_events(got: Lines, sent: Lines) -> str:
    """How events went: no other one than an ask runs out of memory, and only an evict may find that a table wasn't kept."""
    place = got.index(REFUSED) if REFUSED in got else None
    outcomes = outcomes_of(place, *sent)[: len(got)]
    assert place is None or json.loads(sent[place])["event"] == "ask"
    assert len(got) == len(outcomes)
    for event, outcome, wanted in zip(sent, got, outcomes):
        assert outcome == wanted or (event, outcome) == (EVICT, NONE_KEPT)
    return AT_AN_ASK if place is not None else UNSEEN if got == outcomes else "at a table, not kept"


def how_list(got: Lines, sent: Lines) -> str:
    """How a list of events went: it wasn't read, it was refused, or an ask was."""
    marks = [line for line in got if line in (b"unread", b"refused")]
    got = [line for line in got if line not in marks]
    how = how_events(got, sent)
    assert len(got) == len(sent) and (not marks or len(marks) == 1 and how == UNSEEN)
    return {b"unread": "at reading", b"refused": "at the list"}[marks[0]] if marks else how


def how_replay(got: Lines, sent: Lines, is_all: bool) -> str:
    """How a replay went: it ended after whole outcomes, or an ask was refused."""
    how = how_events(got, sent)
    assert len(got) == len(sent) if is_all else how != AT_AN_ASK
    return how


# Two rules: their entries are the two lowest bits of the address, or the second of these alone.
KEEPS, CLEARS = (b": R CENTER >PLN0 ;", 3), (b": R 0 >PLN0 ;", 2)
# What is loaded from a cache of two tables, one after another.
LOADS = (KEEPS, KEEPS, CLEARS, CLEARS, KEEPS)
# Which of the loads find their table kept, and how that is seen.
HITS = {
    "false true false true true": UNSEEN,
    "false false false true true": "the first not kept",
    "false true false false true": "the second not kept",
}


def how_loads(got: Lines, _: Lines) -> str:
    """How the loads went. The table comes after each, 64 entries a line."""
    ends, tables = range(0, len(got), 65), []
    for _rule, mask in LOADS:
        entries = "".join(str(address & mask) for address in range(4096)).encode()
        tables.append([entries[first : first + 64] for first in range(0, 4096, 64)])
    assert [got[at + 1 : at + 65] for at in ends] == tables
    return HITS[b" ".join(got[at] for at in ends).decode()]


class Bench(NamedTuple):
    """The programs, the library that refuses the request of a number, and the folder in which it reports that."""

    cam6: str
    player: str
    library: str
    folder: Path

    def env(self, number: int) -> dict[str, str]:
        """What a program is run with."""
        return {"LD_PRELOAD": self.library, "REFUSED": str(number), "REFUSED_AT": str(self.folder / str(number))}

    def is_refused(self, number: int) -> bool:
        """Whether a run met its request."""
        return (self.folder / str(number)).exists()

    def ran(self, command: list[str], sent: Lines, number: int) -> Ran:
        """Runs a program on lines."""
        return ran(command, b"".join(line + b"\n" for line in sent), self.env(number), PATIENCE)


def of_cam6(words: str, sent: Lines, how: Callable[[Lines, Lines, bool], str], bench: Bench, number: int) -> str:
    """Runs cam6 on lines. It ends well, or reports that memory ran out."""
    done = bench.ran([bench.cam6, *words.split()], sent, number)
    assert done._replace(output=b"") in (Ran(0, b""), NO_MEMORY) and done.output[-1:] in (b"", b"\n"), done
    got = lines_of(done.output)
    what = how(got, sent, done.status == 0)
    return what if done.status == 0 else "after answers" if got else "before the first answer"


def of_words(words: list[str], status: int, bench: Bench, number: int) -> str:
    """Runs cam6 on arguments by which it prints something and ends, the same if a request is refused."""
    ample, done = (bench.ran([bench.cam6, *words], [], at) for at in (0, number))
    assert ample.status == status and ample.output + ample.errors
    assert done in (ample, NO_MEMORY)
    return UNSEEN if done == ample else "as no memory"


def of_player(words: str, sent: Lines, how: Callable[[Lines, Lines], str], bench: Bench, number: int) -> str:
    """Runs the player on lines. It does again what ran out of memory."""
    done = bench.ran([bench.player, "scarce", words], sent, number)
    if done.status == 0:
        assert done.output[-1:] in (b"", b"\n"), done
        return how(lines_of(done.output), sent)
    assert not done.output and bench.is_refused(number), done
    return "before the first line"


def served(host: Host, sent: Lines, peers: list[Peer]) -> tuple[Lines, list[int], int]:
    """The replies to a user, who sits down again if the connection ends before a reply, and goes on with that line; the places
    of these lines; and how many connections ended before the user had the seat. `peers` keeps the connections open."""
    got: Lines = []
    again: list[int] = []
    closed, end = 0, time.monotonic() + PATIENCE
    while len(got) < len(sent) and closed + len(again) <= 3 and host.is_running() and time.monotonic() < end:
        answer = None
        with suppress(OSError):
            peers.append(Peer(host.port, 1))
            answer = peers[-1].reply
            while answer == SEATED and len(got) < len(sent) and (reply := peers[-1].ask(sent[len(got)].decode())):
                got.append(reply.encode())
        assert answer in (SEATED, TAKEN, None)
        if answer == SEATED and len(got) < len(sent):
            assert len(got) not in again
            again.append(len(got))
            end = time.monotonic() + PATIENCE
        closed += answer is None
        time.sleep(0.01)
    return got, again, closed


def how_served(got: Lines, again: list[int], sent: Lines) -> str:
    """How a session at a host went: a line that is sent again was done the first time, or it wasn't."""
    if got == replies_to(*sent):
        return "at a line, which is sent again" if again else UNSEEN
    assert again, got[-1:]
    twice = replies_to(*sent[: again[-1] + 1], *sent[again[-1] :])
    assert got == twice[: again[-1]] + twice[again[-1] + 1 :]
    return AT_A_REPLY


def of_host(sent: Lines, bench: Bench, number: int) -> str:
    """Starts a host, and sends it the lines of a user."""
    peers: list[Peer] = []
    try:
        with Host(bench.cam6, "--users=1", "--boards=1", "--cache=1", env=bench.env(number)) as host:
            got, again, closed = served(host, sent, peers)
            if not got and not again:
                return NO_HOST[host.ended()]
            how = how_served(got, again, sent)
            assert host.is_running() and len(host.errors) == 1, host.errors
            return "at a connection, which is closed" if how == UNSEEN and closed else how
    except NotListening as why:
        return NO_HOST[why.done]


LOADED = [line for text, _ in LOADS for line in (b"load A N/VONN &/CENTERS " + text, b"table")]
# What is run, by name.
PARTS: dict[str, Callable[[Bench, int], str]] = {
    "two_tables_and_a_cache": partial(of_player, "cache 2", LOADED, how_loads),
    "words_for_help": partial(of_words, ["--help"], 0),
    "words_that_are_refused": partial(of_words, [str(i) for i in range(40)], 2),
    "alone_the_first_session": partial(of_cam6, "alone", FIRST, how_alone),
    "the_first_session_taken_up_again": partial(of_player, "session", FIRST, how_session),
    "each_command_taken_up_again": partial(of_player, "session", EACH, how_session),
    "replay_no_events": partial(of_cam6, "replay", [], how_alone),
    "replay_one_name_with_two_texts": partial(of_cam6, "replay --users 2 --boards 1 --cache 1", TWO_TEXTS, how_replay),
    "a_list_of_events_one_name_with_two_texts": partial(of_player, "list 2 1 1", TWO_TEXTS, how_list),
    "serve_each_command": partial(of_host, EACH),
    "alone_a_long_line_that_loads_nothing": partial(of_cam6, "alone", LONG, how_alone),
    "a_long_line_that_loads_nothing_taken_up_again": partial(of_player, "session", LONG, how_session),
    "a_machine_saved_and_loaded_taken_up_again": partial(of_player, "session", SAVED_AND_LOADED, how_session),
    "serve_a_machine_saved_and_loaded": partial(of_host, SAVED_AND_LOADED),
}
# A machine's text takes some thousands of requests. One of so many is refused.
STEPS = {"a_machine_saved_and_loaded_taken_up_again": 17, "serve_a_machine_saved_and_loaded": 41}


@pytest.mark.parametrize("name", PARTS)
def test_nothing_is_lost_when_memory_runs_out(
    name: str, cam6: str, cam6_try_rules: str, library: Callable[[str], str], tmp_path: Path
) -> None:
    bench = Bench(cam6, cam6_try_rules, library("refusing"), tmp_path)
    seen: Counter[str] = Counter()
    wrong, number = [], 1
    while True:
        try:
            how = PARTS[name](bench, number)
        except (AssertionError, KeyError) as why:
            how = "wrongly"
            wrong.append(f"request {number}: {why}")
        if not bench.is_refused(number):
            break
        seen[how] += 1
        number += STEPS.get(name, 1)
    print(f"{name}: {seen.total()} refused:", ", ".join(f"{times} {how}" for how, times in seen.items()))
    assert not wrong, f"{len(wrong)} runs went wrong:\n" + "\n".join(wrong[:5])
    assert how == UNSEEN, "without a refusal"
    assert seen.total() >= 40, "a library that isn't loaded refuses none"
    # A host of one board starts one thread for it, for which memory is asked once.
    assert name != "serve_each_command" or seen[NO_HOST[NO_THREAD]] == 1
