"""What a worked example says: texts, rows, and the oracle's replies in an example whose file is its own source."""

from __future__ import annotations

import json
import re
from collections import Counter
from collections.abc import Iterator
from pathlib import Path

from oracle.answers import is_known, part_answers
from oracle.examples import Example

# A letter, or a text that begins with a bracket or the like, nine times at least; and bytes that aren't seen, or aren't
# those of ASCII.
REPEATED_OR_UNSEEN = re.compile(r"(.|[][{}(,\\ ][ -~]{1,19}?)\1{8,}|[^ -~]+", re.DOTALL)
# Blank rows of a saved machine, four at least.
BLANK_ROWS = re.compile(r'("(?:0{32}|0{64}|0{128})",)\1{3,}')


def short_digits(digits: str) -> str:
    """A row's digits in their shortest spelling: `«32*f»` if all are the same. Otherwise a `*` may stand for zeros."""
    if len(set(digits)) == 1:
        return f"«{len(digits)}*{digits[0]}»"
    first = digits.rstrip("0")
    best = min((digits[:n] + "*" + digits[n:].lstrip("0") for n in range(len(first) + 1)), key=len)
    return best if len(best) <= len(digits) else digits


def mark_match(found: re.Match[str]) -> str:
    """Returns a repeated text as «count*text», or bytes that are not printable ASCII as «x hexadecimal digits»."""
    text, unit = found[0], found[1] or found[0]
    times = f"{len(text) // len(unit)}*" if found[1] else ""
    spelled = unit if " " <= unit[0] <= "~" else f"x {unit.encode().hex(' ').upper()}"
    return f"«{times}{spelled}»"


def with_marks(text: str) -> str:
    """A text as an example spells it: marks for repeated pieces, blanks at the ends and bytes that are not
    printable."""
    spelled, at = "", 0
    for found in BLANK_ROWS.finditer(text):
        spelled += REPEATED_OR_UNSEEN.sub(mark_match, text[at : found.start()])
        spelled += f"«{len(found[0]) // len(found[1])}*{found[1]}»"
        at = found.end()
    text = spelled + REPEATED_OR_UNSEEN.sub(mark_match, text[at:])
    return re.sub("^ +| +$", lambda blanks: f"«{len(blanks[0])}* »", text)


def common_row(rows: list[str]) -> str:
    """The digits that more than half of the rows have, or those of a blank row."""
    digits, times = Counter(rows).most_common(1)[0]
    return digits if 2 * times > len(rows) else "0" * len(digits)


def lines_of_rows(rows: list[str]) -> Iterator[str]:
    """The `=` lines of a plane: the rows of most even and most odd ones, unless blank, then each that differs."""
    common = common_row(rows[::2]), common_row(rows[1::2])
    for word, digits in zip(("even", "odd"), common):
        if digits.strip("0"):
            yield f"= {word} {short_digits(digits)}"
    yield from (f"= {y} {short_digits(row)}" for y, row in enumerate(rows) if row != common[y % 2])


class PlacedExample(Example):
    """An example that knows the line of its file, from 0, at which each reply is wanted."""

    def __init__(self, path: Path) -> None:
        self.at = self.wanted_at = -1
        self.places: list[int] = []
        super().__init__(path)

    def read(self, mark: str, rest: str) -> None:
        """Reads the next line of the file, which comes as its mark and the rest."""
        self.at += 1
        super().read(mark, rest)

    def end_rows(self) -> None:
        """Ends the rows that were begun. What is wanted from here on is wanted at this line."""
        super().end_rows()
        self.wanted_at = self.at

    def want(self, text: str) -> None:
        """Adds lines to what the last part wants, and notes where they stand."""
        before = self.last_part().wanted.count(b"\n")
        super().want(text)
        self.places += [self.wanted_at] * (self.last_part().wanted.count(b"\n") - before)


def answered(path: Path) -> str:
    """The text of an example's file, with the oracle's replies in place of those that differ from it."""
    assert is_known(path), f"{path}: the oracle has no answers to it"
    example, lines = PlacedExample(path), path.read_text(encoding="utf-8").split("\n")
    wanted = [reply for part in example.parts for reply in part.wanted.decode().splitlines()]
    came = [reply.decode() for part in example.parts for reply in part_answers(part)]
    assert len(came) == len(
        wanted
    ), f"{path}: {len(came)} replies come, and {len(wanted)} stand there to be written over"
    for at in sorted(set(example.places), reverse=True):
        replies = [reply for reply, place in zip(came, example.places) if place == at]
        if replies != [reply for reply, place in zip(wanted, example.places) if place == at]:
            lines[at : end_of(lines, at)] = with_replies(lines[at], replies)
    return "\n".join(lines)


def end_of(lines: list[str], at: int) -> int:
    """The index of the first line after line `at` and after the rows that it begins."""
    end = at + 1
    while end < len(lines) and lines[end][:2] in ("= ", "@ ", "| "):
        end += 1
    return end


def with_replies(line: str, replies: list[str]) -> list[str]:
    """A line of a file with other replies, as lines: a plane has more of them, its rows."""
    sent, arrow, _ = line.rpartition(" => ")
    assert arrow or line.startswith("< "), f"this line has no reply of its own: {line}"
    if line != "< plane" or '"rows"' not in replies[0]:
        return [f"{sent} => {with_marks(chr(10).join(replies))}" if arrow else f"< {with_marks(chr(10).join(replies))}"]
    return ["< plane", *lines_of_rows(json.loads(replies[0])["rows"])]
