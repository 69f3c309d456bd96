"""Journals: what a file says, cut at each of its bytes, damaged, and on a disk that is full."""

from __future__ import annotations

import json
import os
import random
from collections.abc import Callable, Iterator
from contextlib import ExitStack, closing
from pathlib import Path
from typing import Any

import pytest
from disks import Disk, Failure
from fakes import Breaking, OracleMachine, compact
from oracle.machine import answers
from test_sessions import CYCLE, RULE, Connected, commands, session_of

import cam6
from cam6 import journal, lines
from cam6.journal import Journal

Opened = Callable[..., Journal]
# Lines that are none of a journal.
WRONG = [b"{", b'{"ask":7}', b'{"reply":"x"}', b'{"drop":5}', b'{"part":"x","reply":"y"}', b"{}"]


@pytest.fixture
def opened(path: Path) -> Iterator[Opened]:
    """Opens the journal, as often as it is called: `opened(sync="each")`."""
    with ExitStack() as stack:
        yield lambda sync="none", limit=128: stack.enter_context(closing(Journal(str(path), sync, limit)))


def state_of(opened: Journal) -> Any:
    """The state of a journal, to be compared."""
    return opened.load, list(opened.tail), list(opened.pending), opened.number


def written(made: Journal) -> list[Any]:
    """Writes entries of all kinds, and closes the journal. Returns the state after each entry, from 0 on."""
    run, clear_1, clear_2 = compact(do="run", n=500), compact(do="clear", plane=1), compact(do="clear", plane=2)
    ran, load = b'{"ok":"run","position":0}', lines.LOAD_HEAD + b"{}}"
    entries: list[tuple[Callable[..., Any], list[Any]]] = [
        *((made.record_commands, [[RULE]]), (made.record_replies, [[b'{"ok":"rule"}']])),
        *((made.record_commands, [[CYCLE]]), (made.record_commands, [[run]])),
        *((made.record_replies, [[b'{"ok":"cycle"}']]), (made.record_part, [compact(do="run", n=200), ran])),
        *(
            (made.record_commands, [[b"\xff\xc3\xa9 no text"]]),
            (made.record_replies, [[ran]]),
            (made.record_replies, [[b'{"fault":2}']]),
        ),
        *(
            (made.record_commands, [[compact(do="count", mask=3)]]),
            (made.record_replies, [[b'{"count":1,"ok":"count"}']]),
        ),
        *(
            (made.record_commands, [[clear_1]]),
            (made.drop_pending, []),
            (made.record_commands, [[load]]),
            (made.record_replies, [[b'{"ok":"load"}']]),
        ),
        (made.record_commands, [[clear_2]]),
    ]
    states = [state_of(made)]
    for act, arguments in entries:
        act(*arguments)
        states.append(state_of(made))
    made.close()
    return states


@pytest.mark.parametrize("limit", [128, 256, 512])
def test_a_new_journal_is_a_blank_machine(limit: int) -> None:
    """Its load line is the one that a machine of the oracle saves."""
    assert Journal(None, "none", limit).load == OracleMachine(limit).load_line()


def test_a_new_journal_is_opened_again(opened: Opened) -> None:
    first = opened()
    first.close()
    assert state_of(opened()) == (first.load, [], [], 0)


def test_a_file_that_is_cut_at_any_byte(path: Path, opened: Opened) -> None:
    """Whatever prefix of the file is there, it is the state after one of the entries, and the file goes on there."""
    states = written(opened())
    data = path.read_bytes()
    ends = [at + 1 for at, byte in enumerate(data) if byte == 10]
    for cut in range(ends[0], len(data) + 1):
        path.write_bytes(data[:cut])
        with closing(Journal(str(path), "none", 128)) as one:
            assert state_of(one) == states[sum(end <= cut for end in ends) - 1], f"cut after {cut} bytes"
            one.record_commands([b"next"])
        with closing(Journal(str(path), "none", 128)) as again:
            assert again.pending[-1] == b"next"


def test_a_file_without_a_whole_line_is_no_journal(path: Path, opened: Opened) -> None:
    """It stays as it is."""
    opened().close()
    data = path.read_bytes()
    for cut in [*range(1, 200), len(data) - 1]:
        path.write_bytes(data[:cut])
        with pytest.raises(cam6.BadJournal):
            opened()
        assert path.read_bytes() == data[:cut]


def test_a_file_that_an_earlier_version_wrote_anew_is_read(path: Path, opened: Opened) -> None:
    """Its commands with replies had lines of their own."""
    first = opened()
    first.close()
    rows = [
        '{"done":"{\\"do\\":\\"clear\\",\\"plane\\":0}","reply":"{\\"ok\\":\\"clear\\"}"}',
        '{"ask":"{\\"do\\":\\"rules\\"}"}',
    ]
    path.write_bytes(path.read_bytes() + "".join(f"{row}\n" for row in rows).encode())
    tail = [(b'{"do":"clear","plane":0}', b'{"ok":"clear"}')]
    assert state_of(opened()) == (first.load, tail, [b'{"do":"rules"}'], 1)


def test_an_empty_file_is_a_new_journal(path: Path, opened: Opened) -> None:
    path.write_bytes(b"")
    assert opened().number == 0


@pytest.mark.parametrize(
    "data", [b"hello\n", b"{}\n", b"[]\n", b'{"journal":2}\n', b"\x89PNG\r\n\x1a\n\0\0", b'{"ask":"x"}\n', b"null\n"]
)
def test_other_files(data: bytes, path: Path, opened: Opened) -> None:
    path.write_bytes(data)
    with pytest.raises(cam6.BadJournal, match="is no journal"):
        opened()
    assert path.read_bytes() == data


@pytest.mark.parametrize("wrong", WRONG)
def test_a_file_that_is_damaged_before_the_last_line(wrong: bytes, path: Path, opened: Opened) -> None:
    """What is wrong in the middle is reported, and nothing is cut."""
    written(opened())
    rows = path.read_bytes().split(b"\n")
    data = b"\n".join([rows[0], wrong, *rows[1:]])
    path.write_bytes(data)
    with pytest.raises(cam6.BadJournal, match="is damaged: line 2"):
        opened()
    assert path.read_bytes() == data


def test_a_machine_of_a_journal_that_is_cut(path: Path, port: int, connected: Connected) -> None:
    """It is the one after the commands that the journal still has."""
    sent = commands(21, 12, 1)
    with connected(port, journal=path, every_seconds=5) as machine:
        machine._query(sent[:5])
        machine._query(sent[5:])
    data = path.read_bytes()
    first = data.index(b"\n") + 1
    for cut in [first, len(data), *random.Random(21).sample(range(first, len(data)), 25)]:
        path.write_bytes(data[:cut])
        asked = data[first:cut].count(b'{"ask":') - (b'{"ask":' in data[:cut].rpartition(b"\n")[2])
        with connected(port, journal=path, every_seconds=5) as machine:
            assert session_of(machine).asked == asked
            assert machine._query([lines.SAVE]) == answers([*sent[:asked], lines.SAVE], 128)[-1:]


def test_a_checkpoint_keeps_what_is_not_answered(path: Path, opened: Opened) -> None:
    made = opened(sync="checkpoint")
    made.record_commands([RULE, CYCLE, b"rest"])
    made.record_replies([b'{"ok":"rule"}', b'{"ok":"cycle"}'])
    oracle = OracleMachine(128)
    oracle.answer(RULE)
    made.checkpoint(oracle.load_line())
    want = state_of(made)
    made.close()
    again = opened()
    assert state_of(again) == want
    assert (list(again.pending), again.number, again.tail) == ([b"rest"], 3, [])
    new = Path(f"{path}.new")
    assert not new.exists() or new.stat().st_size == 0


def test_a_full_disk(path: Path, opened: Opened) -> None:
    """If a write fails, the commands are not asked for, or the file is written anew before the next entry."""
    disk = Disk(path)
    with disk.used():
        made = opened()
        made.record_commands([RULE])
        disk.begin(Failure(at=0, cut=7, kind="error"))
        with pytest.raises(OSError):
            made.record_commands([CYCLE])
        assert (list(made.pending), made.number) == ([RULE], 1)
        made.record_replies([b'{"ok":"rule"}'])
        made.record_commands([CYCLE])
        want = state_of(made)
        made.close()
    assert state_of(opened()) == want


@pytest.mark.parametrize(("sync", "at_asked", "at_checkpoint"), [("none", 0, 0), ("checkpoint", 0, 2), ("each", 1, 2)])
def test_the_file_is_on_the_disk_when_it_should_be(
    sync: str, at_asked: int, at_checkpoint: int, opened: Opened, monkeypatch: pytest.MonkeyPatch
) -> None:
    calls: list[int] = []
    made = opened(sync=sync)
    monkeypatch.setattr(os, "fsync", calls.append)
    made.record_commands([RULE])
    assert len(calls) == at_asked
    made.record_replies([b'{"ok":"rule"}'])
    made.checkpoint(lines.blank(128))
    assert len(calls) == at_asked + at_checkpoint


def test_each_command_is_written_before_it_is_sent(path: Path, connected: Connected) -> None:
    """When a host hears a command the journal's file has it already."""
    missing: list[bytes] = []

    def breaks(number: int, line: bytes) -> None:
        if line != lines.SAVE and not line.startswith((lines.LOAD_HEAD, b'{"do":"side"')):
            if json.dumps(journal.text_of(line), ensure_ascii=False).encode() not in path.read_bytes():
                missing.append(line)

    with Breaking(breaks) as host:
        connected(host.port, journal=path, every_seconds=5)._query(commands(4, 20, 1))
    assert missing == []


def test_lines_of_any_bytes_are_written() -> None:
    source = random.Random(1)
    for data in [bytes(range(256)), b"", "é€\U0001f600".encode(), *(source.randbytes(50) for _ in range(200))]:
        arguments = json.loads(lines.compact(journal.text_of(data)))
        assert journal.bytes_of(arguments) == data


def test_the_rest_of_a_run() -> None:
    assert journal.rest_of(b'{"do":"run","n":500}', b'{"do":"run","n":200}') == b'{"do":"run","n":300}'


@pytest.mark.parametrize(
    ("line", "part"),
    [
        (compact(do="run", n=500), compact(do="run", n=501)),
        (compact(do="run", n=0), compact(do="run", n=1)),
        (compact(do="run", n=5), compact(do="back", n=1)),
    ],
)
def test_a_part_that_is_none(line: bytes, part: bytes) -> None:
    with pytest.raises(ValueError):
        journal.rest_of(line, part)
