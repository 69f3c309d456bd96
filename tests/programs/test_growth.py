"""A program holds no more memory after a million lines than after the first ones, or after a hundred of a million bytes.

The same lines are sent again and again. Each reply is compared: with one that is written by hand, or with those of the oracle.
"""

from __future__ import annotations

import math
import os
import threading
from collections.abc import Callable
from contextlib import suppress
from typing import Any

import pytest
from examples.named_rules import RULES
from examples.saving import load
from oracle.lines import LOAD_HEAD, LOAD_LIMIT, plain
from oracle.machine import Machine
from programs.test_out_of_memory import cell_at, cycle_of
from programs.test_saves import LARGE, LARGEST, LARGEST_LOAD, fault, filled
from support.commands import do, rule_command
from support.line_process import LineProcess
from support.programs import Host, Peer, of_process
from support.sessions import short

pytestmark = [pytest.mark.slow, pytest.mark.timeout(1200)]

# Lines, with what comes back for each.
Pairs = list[tuple[bytes, bytes]]
Send = Callable[[bytes], object]
Read = Callable[[int], Any]


def names(*rules: str) -> tuple[bytes, bytes]:
    """The line that asks for the rules, which are these."""
    return plain(do("rules")), plain({"names": rules, "ok": "rules"})


# What is done again and again. After it the machine is what it was after the first time.
ROUND = [rule_command("P", *RULES["PARITY"]), cycle_of("P"), cell_at(1), do("run", n=1)]
ROUND += [cycle_of("-"), do("drop", name="P"), do("rules"), do("clear", plane=0)]
ROUND += [do("map", colours=[*range(16)]), do("colours", row=1), do("plane", plane=0), do("run", n=0)]
ROUND.append(do("drop", name="P"))
for row in range(0, 250, 5):
    ROUND += [cell_at(row), do("row", plane=0, row=row), do("run", n=65536), do("row", plane=0, row=row + 1)]
ROUND.append(do("clear", plane=0))
COMMANDS = [*zip(map(plain, ROUND), map(plain, map(Machine(256).reply, ROUND)))]
# Machines of a million bytes, and long lines that load nothing, with a short line after each.
LOADS: Pairs = []
for machine in (LARGEST, LARGE):
    LOADS += [(plain(load(machine)), plain({"ok": "load"})), names(*(rule["name"] for rule in machine["rules"]))]
REFUSED = [
    (filled(LOAD_LIMIT, plain(load(LARGE)), b" "), fault(4)),
    (filled(LOAD_LIMIT, LOAD_HEAD, b" "), fault(2)),
    (filled(LOAD_LIMIT + 1, LOAD_HEAD, b" "), fault(1)),
    (LARGEST_LOAD[:-9], fault(2)),
    (filled(LOAD_LIMIT, LOAD_HEAD + b'"x":"', b"x", b'"}'), fault(3)),
]
REFUSED = [pair for line in REFUSED for pair in (line, names())]

# How often the lines are sent, and how often at first. Then how many kB more may be held after all of them than after the first
# ones, and than before.
Trial = tuple[Pairs, int, int, int, float]
# 16,000 kB are for a machine with its rules, and for what the library keeps of memory that was given back. That of a long line
# is 2,048 kB, so 1,800 kB after lines that load nothing are enough only if it was given back.
NAMES = ["bytes_alone", "commands", "loads", "refused_lines"]
SHORT: list[Trial] = [([(b"x", fault(2))] * 1000, 1_000, 10, 200, math.inf), (COMMANDS, 4_700, 47, 200, math.inf)]
HOSTS: list[Trial] = [*SHORT, (LOADS, 50, 5, 400, 16_000), (REFUSED, 20, 2, 400, 16_000)]
ALONE: list[Trial] = [*HOSTS[:3], (REFUSED, 20, 2, 400, 1_800)]


def assert_answers(pairs: Pairs, times: int, send: Send, read: Read) -> None:
    """Fails if the lines, so many times, don't come back as they should."""
    sent, back = (b"".join(line + b"\n" for line in lines) for lines in zip(*pairs))

    def send_all() -> None:
        with suppress(OSError):
            for _ in range(times):
                send(sent)

    sender = threading.Thread(target=send_all, daemon=True)
    sender.start()
    for _ in range(times):
        got = b""
        while len(got) < len(back) and (piece := read(len(back) - len(got))):
            got += piece
        if got != back:
            pytest.fail(f"{short(sent)}\n  is     {short(got)}\n  wanted {short(back)}")
    sender.join()


def assert_no_memory_is_held(trial: Trial, process: int, send: Send, read: Read) -> None:
    """Sends the lines again and again. Fails if they aren't answered, or if memory is held. A long line waits for the reply to
    the one before."""
    pairs, times, first, most_grown, most_held = trial
    assert_answers([names()], 1, send, read)
    held = [of_process(process, "VmRSS")]
    for sent in (first, times - first):
        if trial in SHORT:
            assert_answers(pairs, sent, send, read)
        else:
            for pair in pairs * sent:
                assert_answers([pair], 1, send, read)
        held.append(of_process(process, "VmRSS"))
    figures = "{} kB before, {} after the first lines, {} after all".format(*held)
    print(f"{figures}, {of_process(process, 'VmHWM')} at most")
    assert held[2] - held[1] < most_grown and held[2] - held[0] < most_held, figures


@pytest.mark.parametrize("trial", ALONE, ids=NAMES)
def test_a_private_machine_holds_no_memory(trial: Trial, cam6: str) -> None:
    with LineProcess([cam6, "alone", f"--side={256 if trial in SHORT else 512}"]) as it:
        assert_no_memory_is_held(trial, it.process.pid, it.send, lambda size: os.read(it.output, size))
        assert it.rest() == b""


@pytest.mark.parametrize("trial", HOSTS, ids=NAMES)
def test_a_host_holds_no_memory(trial: Trial, host: Callable[..., Host]) -> None:
    it = host("--users=1", "--boards=1", f"--side={256 if trial in SHORT else 512}")
    with Peer(it.port, 1) as peer:
        assert_no_memory_is_held(trial, it.process.pid, peer.socket.sendall, peer.socket.recv)
    assert it.is_running()
