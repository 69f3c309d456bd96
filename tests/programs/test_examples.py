"""Worked examples of sessions and of events, played at the program cam6. Each byte that comes back is compared.

A session is played whole, byte by byte, and command by command. Events are played one by one, and then all at once. Both builds
of the program play them.
"""

from __future__ import annotations

import subprocess
from collections.abc import Callable
from pathlib import Path

import pytest
from oracle.examples import Example, Part, outcome_of
from support.line_process import LineProcess, how_it_ended
from support.playing import arguments_of, assert_answers, examples
from support.programs import ran

SESSIONS, EVENTS = "crates/cam6_host/sessions", "crates/cam6_host/events"


def written_for(command: list[str], data: bytes, env: dict[str, str] | None = None) -> bytes:
    """What a program writes if these bytes are its input."""
    try:
        done = ran(command, data, env)
    except subprocess.TimeoutExpired as late:
        return (late.stdout or b"") + b"nothing\n"
    return done.output + how_it_ended(done.status, done.errors)


def byte_by_byte(command: list[str], data: bytes, short_reads: str, given: Path) -> bytes:
    """What a program writes if a library gives it a byte by each read, and a line more if that gave fewer bytes or more."""
    written = written_for(command, data, {"LD_PRELOAD": short_reads, "READ_AT": str(given)})
    count = given.read_bytes()
    return written if count == b"%d" % len(data) else written + b"%s of %d bytes are read\n" % (count, len(data))


def command_by_command(command: list[str], data: bytes) -> bytes:
    """What a program writes to a client that waits for each reply."""
    *lines, last = data.split(b"\n")
    with LineProcess(command) as process:
        return b"".join(process.answer(line) + b"\n" for line in lines) + process.rest(last)


def alone(cam6: str, part: Part) -> tuple[list[str], bytes]:
    """The command that plays a session, and its input."""
    return [cam6, *arguments_of(part.way)], part.bytes_sent()


@pytest.mark.parametrize("path", examples(SESSIONS))
def test_a_session_whole(either_cam6: str, path: Path) -> None:
    example = Example(path)
    assert_answers(example, (written_for(*alone(either_cam6, part)) for part in example.parts))


@pytest.mark.parametrize("path", examples(SESSIONS))
def test_a_session_byte_by_byte(either_cam6: str, path: Path, library: Callable[[str], str], tmp_path: Path) -> None:
    example, short_reads = Example(path), library("short_reads")
    parts = (byte_by_byte(*alone(either_cam6, part), short_reads, tmp_path / "given") for part in example.parts)
    assert_answers(example, parts)


@pytest.mark.parametrize("path", examples(SESSIONS))
def test_a_session_command_by_command(either_cam6: str, path: Path) -> None:
    example = Example(path)
    assert_answers(example, (command_by_command(*alone(either_cam6, part)) for part in example.parts))


def one_by_one(cam6: str, part: Part) -> tuple[bytes, list[bytes], bytes]:
    """The answers of a part, whose short forms are many events; and all events that were sent, with all that came back."""
    assert all(end == b"\n" and b"\n" not in line for line, end in part.sent), "an event is one line"
    with LineProcess([cam6, *arguments_of(part.way)]) as process:
        answers = b"".join(outcome_of(process.answer, line) + b"\n" for line, _ in part.sent)
        rest = process.rest()
    return answers + rest, process.lines, b"".join(answer + b"\n" for answer in process.answers) + rest


@pytest.mark.parametrize("path", examples(EVENTS))
def test_events(either_cam6: str, path: Path) -> None:
    """They have the outcomes of their file one by one, and the same ones all at once."""
    example = Example(path)
    played = [one_by_one(either_cam6, part) for part in example.parts]
    sent = [b"".join(line + b"\n" for line in lines) for _, lines, _ in played]
    assert_answers(example, (answers for answers, _, _ in played), sent)
    for part, data, (_, _, came) in zip(example.parts, sent, played):
        assert written_for([either_cam6, *arguments_of(part.way)], data) == came


@pytest.mark.parametrize("script", ["read line; exec sleep 600", "exec cat > /dev/null"])
def test_a_program_that_says_nothing_is_not_waited_for(script: str, monkeypatch: pytest.MonkeyPatch) -> None:
    monkeypatch.setattr("support.line_process.PATIENCE", 0.1)
    with LineProcess(["sh", "-c", script]) as process:
        assert [process.answer(b"{}"), process.answer(b"{}"), process.rest()] == [b"nothing", b"nothing", b"nothing\n"]
