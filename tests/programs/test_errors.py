"""Each number of docs/errors.json comes from its example, and `tools/explain` and docs/ERRORS.md have its entry."""

from __future__ import annotations

import json
import re
from collections import defaultdict
from collections.abc import Callable
from contextlib import ExitStack
from typing import Any

import pytest
from oracle.host import Replay
from oracle.machine import Alone
from support.programs import TOP, Host, Peer, Ran, assert_refused, ran

EXPLAIN = str(TOP / "tools" / "explain")
ENTRIES = json.loads((TOP / "docs" / "errors.json").read_text(encoding="utf-8"))["errors"]
# The numbers of faults and of refusals, as the manual has them.
NUMBERS = [0, *range(1, 5), *range(20, 29), *range(40, 44), *range(60, 69), 80, 81, *range(101, 110)]
USERS, BOARDS, TABLES, LIMIT = 4, 2, 16, 256

Entry = dict[str, Any]
Replies = Callable[[list[str]], list[str]]


def of_entries(entries: list[Entry]) -> pytest.MarkDecorator:
    """Has a test be done for each of these entries, by its number."""
    return pytest.mark.parametrize("entry", entries, ids=[str(entry["number"]) for entry in entries])


def texts_of(line: Any) -> list[str]:
    """The lines for which one of an example stands: a text, a list of parts that make one line, or a text that is repeated.
    `#` stands for the number of each, from 0. A load of what is saved then is left out."""
    if isinstance(line, str):
        return [line]
    if isinstance(line, list):
        return ["".join(text for part in line for text in texts_of(part))]
    times = 0 if "load" in line else line["times"]
    return [line["text"].replace("#", str(number)) for number in range(times)]


def lines_of(lines: list[Any]) -> list[str]:
    """The lines of an example of docs/errors.json."""
    return [text for line in lines for text in texts_of(line)]


def load_line(saved: str, old: str, new: str) -> str:
    """The line that loads what a reply to `save` shows, with its last such text exchanged for another one."""
    machine = re.fullmatch(r'\{"machine":(.*),"ok":"save"\}', saved)
    assert machine, saved
    before, found, after = f'{{"do":"load","machine":{machine[1]}}}'.rpartition(old)
    assert found, saved
    return before + new + after


def assert_is_reported(entry: Entry, replies: Replies) -> None:
    """Fails if the last reply to an entry's example hasn't its number in its place."""
    sent, last = lines_of(entry["lines"]), entry["lines"][-1]
    if isinstance(last, dict) and "load" in last:
        sent.append(load_line(replies([*sent, '{"do":"save"}'])[-1], *last["load"]))
    reply = json.loads(replies(sent)[-1])
    assert reply.get("refused" if entry["program"] == "replay" else "fault") == entry["number"]


PLAYED = [entry for entry in ENTRIES if entry["lines"] is not None]
SERVED = [entry for entry in PLAYED if entry["program"] == "serve"]
OTHERS = [entry for entry in PLAYED if entry not in SERVED]


def test_each_number_has_one_entry_and_one_alone_has_no_example() -> None:
    assert sorted(entry["number"] for entry in ENTRIES) == sorted(NUMBERS)
    assert [entry["number"] for entry in ENTRIES if entry not in PLAYED] == [0]


@of_entries(OTHERS)
def test_the_program_replies_with_the_number(entry: Entry, cam6: str) -> None:
    def replies(lines: list[str]) -> list[str]:
        sent = "".join(f"{line}\n" for line in lines).encode()
        return ran([cam6, entry["program"]], sent).output.decode().splitlines()

    assert_is_reported(entry, replies)


@of_entries(SERVED)
def test_a_host_replies_with_the_number(entry: Entry, host: Callable[..., Host]) -> None:
    it = host(f"--users={USERS}", f"--boards={BOARDS}", f"--side={LIMIT}", "--connections=0")

    def replies(lines: list[str]) -> list[str]:
        with ExitStack() as stack:
            # By the number of a connection, with which a line begins.
            peers = defaultdict[str, Peer](lambda: stack.enter_context(Peer(it.port, patience=10)))
            replies = [peers[number].ask(text) or "" for number, text in (line.split("> ", 1) for line in lines)]
        return replies

    assert_is_reported(entry, replies)


@of_entries(OTHERS)
def test_the_oracle_replies_with_the_number(entry: Entry) -> None:
    def replies(lines: list[str]) -> list[str]:
        it: Alone | Replay = Alone(LIMIT) if entry["program"] == "alone" else Replay(USERS, BOARDS, TABLES, LIMIT)
        return [it.answer(line.encode()).decode() for line in lines]

    assert_is_reported(entry, replies)


@of_entries(ENTRIES)
def test_explain_prints_an_entry(entry: Entry) -> None:
    done = ran([EXPLAIN, str(entry["number"])])
    assert done.status == 0
    assert entry["happened"] in done.output.decode()


def test_explain_refuses_a_number_without_an_entry_and_the_page_has_its_tables() -> None:
    assert_refused(ran([EXPLAIN, "5"]), 2, "")
    done = ran([EXPLAIN, "--page"])
    assert done == Ran(0, done.output, b"")
    assert done.output.decode() in (TOP / "docs" / "ERRORS.md").read_text(encoding="utf-8")
