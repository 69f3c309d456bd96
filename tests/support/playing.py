"""Worked examples that are played: how what comes back is compared with what their files say."""

from __future__ import annotations

from collections.abc import Iterable, Sequence

import pytest
from _pytest.mark import ParameterSet
from oracle.examples import Example, limit_of, sizes_of
from support.programs import TOP
from support.sessions import show_both, write_session


def examples(*folders: str) -> list[ParameterSet]:
    """The worked examples of folders, from the top of the repository, as parameters of a test. Each folder has one that is
    wrong on purpose, which shows that a wrong answer is found."""
    paths = [path for folder in folders for path in sorted((TOP / folder).glob("*.example"))]
    assert all(any((TOP / folder).glob("wrong_*.example")) for folder in folders), folders
    return [pytest.param(path, id=path.stem) for path in paths]


def first_other(answers: bytes, wanted: bytes) -> int:
    """The first line, from 1, in which two texts differ, or 0 if they are the same."""
    if answers == wanted:
        return 0
    pairs = enumerate(zip(answers, wanted))
    same = next((at for at, (one, other) in pairs if one != other), min(len(answers), len(wanted)))
    return answers[:same].count(b"\n") + 1


def both_lines(came: bytes, wanted: bytes, number: int) -> str:
    """Line `number`, from 1, of two texts, as a failure shows it."""
    found = (text.split(b"\n")[:-1][number - 1 : number] for text in (came, wanted))
    return show_both(*(lines[0] if lines else ... for lines in found))


def arguments_of(way: str) -> list[str]:
    """The arguments of `cam6` by which a session or events are played."""
    if way.startswith("session"):
        return ["alone", "--side", str(limit_of(way))]
    words = zip(("--users", "--boards", "--cache", "--side"), map(str, sizes_of(way)))
    return ["replay", *(word for pair in words for word in pair)]


def assert_answers(example: Example, answers: Iterable[bytes], sent: Sequence[bytes] = ()) -> None:
    """Fails if what came back for the parts of an example isn't what its file says. Of a file that is wrong on purpose all
    but the line that its head names has to come back. What was sent is printed, and kept in a file that can be piped into the
    program. `sent` has it for each part if it isn't what the example says."""
    before, wrong = 0, example.wrong_line()
    for place, (part, came) in enumerate(zip(example.parts, answers, strict=True)):
        if line := first_other(came, part.wanted):
            if before + line == wrong:
                return
            data, how = sent[place] if sent else part.bytes_sent(), part.way
            if how.startswith(("session", "events")):
                how = f"to be piped into ./cam6 {' '.join(arguments_of(how))}, is {write_session(data)}"
            text = data.decode(errors="backslashreplace")
            shown = f"{both_lines(came, part.wanted, line)}\nwhat was sent, {how}:\n{text}"
            raise AssertionError(f"line {before + line} of what comes back\n{shown}")
        before += part.wanted.count(b"\n")
    assert not wrong, f"all lines came back, and line {wrong} is wrong on purpose"
