"""What `cam6` does by its arguments.

The runs of crates/cam6_host/arguments.examples come out byte for byte, with their exit statuses. A replay's cache holds as
many tables, and a host has as many users and boards, as their arguments say. The statement of the exit statuses, which the
program is proved to keep, has the lines of this file.
"""

from __future__ import annotations

import re
import socket
import subprocess
from collections.abc import Callable
from typing import Any, NamedTuple

import pytest
from oracle.lines import plain
from oracle.schedules import one_event
from support.commands import Command, cycle_command, do, rule_command
from support.programs import TOP, Host, Peer, Ran, ran, wait_until

EXAMPLES = TOP / "crates" / "cam6_host" / "arguments.examples"
STATEMENT = TOP / "crates" / "cam6_cli" / "specs" / "Statuses.antt"
# Seconds in which a run has to end.
PATIENCE = 60


class Run(NamedTuple):
    """A run of the examples: how a reader types it, its arguments, its input, the call that fails, and how it ends."""

    name: str
    arguments: str
    given: bytes
    fails: str
    wanted: Ran


def runs_of_examples() -> list[Run]:
    """The runs of arguments.examples, whose head says what its lines mean."""
    runs: list[Run] = []
    file = EXAMPLES.read_text(encoding="utf-8")
    for found in re.finditer(r"^\$ cam6(.*)\n((?:[^$\n].*\n|\n)*)", file, re.M):
        arguments, text = found[1].strip(), dict.fromkeys(("=", "<", ">", "!", "as", "fails"), "")
        for line in re.findall(r"^[^#\n].*", found[2], re.M):
            kind, _, rest = line.partition(" ")
            if rest == "fails" and kind in ("read", "write"):
                kind, rest = rest, kind
            text[kind.removesuffix("|")] += rest + ("\n" if kind in "<>!" else "")
        wanted = Ran(int(text["="] or 0), text[">"].encode(), text["!"].encode())
        if text["as"]:
            wanted = next(run.wanted for run in runs[::-1] if f"$ cam6 {run.arguments}".strip() == text["as"])
        fails = f", as each {text['fails']} fails" if text["fails"] else ""
        number = 1 + file.count("\n", 0, found.start())
        name = f"{f'cam6 {arguments}'.strip()}{fails} (line {number})"
        runs.append(Run(name, arguments, text["<"].encode(), text["fails"], wanted))
    return runs


RUNS = runs_of_examples()


def failing_input(given: bytes = b"") -> socket.socket:
    """A stream that has these bytes, after which reading fails: its other end is closed over a byte that nobody read."""
    ours, its = socket.socketpair()
    its.sendall(b"unread")
    ours.sendall(given)
    ours.close()
    return its


def test_the_examples_have_all_runs() -> None:
    assert len(RUNS) == 84


@pytest.mark.parametrize("run", RUNS, ids=[run.name for run in RUNS])
def test_a_run_ends_as_its_example_says(run: Run, cam6: str) -> None:
    """The program is called by the name cam6."""
    words = [b"cam6", *(word.encode().replace(b"\\xff", b"\xff") for word in run.arguments.split())]
    with failing_input(run.given) as unreadable, open("/dev/full", "wb") as full:
        how: dict[str, Any] = {"stdin": unreadable} if run.fails == "read" else {"input": run.given}
        how |= {"stdout": full if run.fails == "write" else subprocess.PIPE, "stderr": subprocess.PIPE}
        done = subprocess.run(words, executable=cam6, timeout=PATIENCE, check=False, **how)
    assert Ran(done.returncode, done.stdout or b"", done.stderr) == run.wanted


# The tables that a cache holds, by the arguments of a replay.
CACHES = {"": 16, "--cache 1": 1, "--cache=3": 3, "--cache 3 --side 512 --users=9 --boards 5": 3, "--cache 64": 64}
# More tables are filled than any cache holds. Then they are forgotten one by one, until none is kept.
FILLED, EVICTED = 66, 67


def filled(number: int) -> list[Command]:
    """Events that have a table filled, of a rule of its own. A rule that a cycle names can't be defined anew."""
    free, cycle = (cycle_command((name, "-", "EVEN", 0)) for name in "-R")
    rule = rule_command("R", "A", "N/VONN", "&/CENTERS", f": R {number} DROP CENTER >PLN0 ;")
    collect, run = one_event("collect", user=1), one_event("ask", user=1, command=do("run", n=1))
    asks = [event for command in (free, rule, cycle) for event in one_event("ask", user=1, command=command) + collect]
    return asks + run + one_event("lease", user=1, board=0) + one_event("band", board=0) * 16 + collect


@pytest.mark.parametrize(("words", "capacity"), CACHES.items())
def test_a_cache_holds_the_tables_that_the_arguments_say(words: str, capacity: int, cam6: str) -> None:
    events = [event for number in range(FILLED) for event in filled(number)] + one_event("evict") * EVICTED
    done = ran([cam6, "replay", *words.split()], b"".join(plain(event) + b"\n" for event in events), patience=PATIENCE)
    wanted = ['{"ok":"evict"}'] * capacity + ['{"refused":109}'] * (EVICTED - capacity)
    assert done.output.decode().splitlines()[-EVICTED:] == wanted


# The users and the boards of a host, by its arguments.
HOSTS = [("", 4, 2), ("--users=3", 3, 2), ("--users 32 --boards 1", 32, 1), ("--boards=8", 4, 8)]


@pytest.mark.parametrize(("words", "users", "boards"), HOSTS)
def test_a_host_has_these_users_and_boards(words: str, users: int, boards: int, host: Callable[..., Host]) -> None:
    with failing_input() as stream:
        # It reads no input, so one that can't be read makes no difference.
        it = host(*words.split(), f"--connections={users + 1}", stdin=stream.fileno())
    # Each board has a thread, beside the program's first one and one for a user.
    assert wait_until(lambda: it.of_process("Threads") == 1 + boards, 10), it.of_process("Threads")
    for user in range(1, users + 1):
        with Peer(it.port, user) as peer:
            assert peer.reply == '{"ok":"seat"}'
            assert peer.ask('{"do":"side","side":512}') == '{"fault":67}'
            assert peer.ask('{"do":"side","side":256}') == '{"ok":"side"}'
    with Peer(it.port, users + 1) as peer:
        assert peer.reply == '{"fault":81}'
    assert it.ended() == Ran(0, b"", b"")


# How each session and each host ends, in the statement's own words: the status and the line on standard error. No input of a
# test reaches the turn bound, so only the statement has it.
ENDS = {
    "failure EndOfInput": "None",
    "failure ReadFault": r'Some (3, codes "cam6: read failed\n")',
    "failure WriteFault": r'Some (4, codes "cam6: write failed\n")',
    "failure (NoMemory done)": r'Some (5, codes "cam6: no memory\n")',
    "failure TurnBound": r'Some (6, codes "cam6: turn bound reached\n")',
    "fault host.NoMemory": r'(5, codes "cam6: no memory\n")',
    "fault host.Network": r'(7, codes "cam6: network failed\n")',
    "fault host.NoThread": r'(8, codes "cam6: no thread\n")',
}


def test_the_statement_has_the_status_and_the_line_of_each_end() -> None:
    ends = re.findall(r"^((?:failure|fault) .+?) = (.*)$", STATEMENT.read_text(encoding="utf-8"), re.M)
    assert sorted(ends) == sorted(ENDS.items())
