"""Worked examples: their files, read as docs/EXAMPLES.md says.

A file is refused whole if one of its lines can't be read, or if it wants no line.
"""

from __future__ import annotations

import argparse
import re
import sys
from collections.abc import Callable
from pathlib import Path

from oracle.lines import plain

SIDES = (128, 256, 512)
# A number as JSON writes it, and the least one that an event can't have.
NUMBER, TOO_LARGE = rb"(0|[1-9][0-9]*)", 2**64
# The most boards of a host.
MOST_BOARDS = 8

# A text that is sent, and what is sent after it: an LF, or nothing.
Sent = tuple[bytes, bytes]


class Unplayable(ValueError):
    """A line of a file, or the whole file, can't be played."""


def piece(text: str) -> bytes:
    """The UTF-8 of a text, or the bytes of hexadecimal digits after `x`. Raises Unplayable if the digits are wrong."""
    if not text.startswith("x "):
        return text.encode()
    if not re.fullmatch("x( [0-9A-F]{2})+", text):
        raise Unplayable(f"no bytes: {text}")
    return bytes.fromhex(text[2:])


def bytes_of_mark(mark: str, named: dict[str, bytes]) -> bytes:
    """The bytes of a mark without its « »: `n*piece`, a name, or `x` and digits. Raises Unplayable for others."""
    if times := re.fullmatch(r"([0-9]+)\*(.*)", mark, re.DOTALL):
        return int(times[1]) * piece(times[2])
    if mark in named:
        return named[mark]
    if not mark.startswith("x "):
        raise Unplayable(f"no text is named {mark}")
    return piece(mark)


def written_out(text: str, named: dict[str, bytes]) -> bytes:
    """The bytes of a text whose marks are written out. Raises Unplayable if a mark stands for nothing."""
    whole, *pieces = text.split("«")
    written = whole.encode()
    for part in pieces:
        mark, end, rest = part.partition("»")
        if not end:
            raise Unplayable(f"a mark without an end: {part}")
        written += bytes_of_mark(mark, named) + rest.encode()
    return written


class Rows:
    """Rows that a file says, all zeros but for those that it names. If they are to be set, `plane` says where."""

    def __init__(self, side: int, plane: str | None) -> None:
        self.side, self.plane = side, plane
        self.digits, self.named = ["0" * (side // 4)] * side, set[int]()
        self.column = self.next_row = 0

    def put(self, y: int, digits: str) -> None:
        """Gives row `y` these digits, which have to be all of the row's. Raises Unplayable if there is no such row."""
        if y >= self.side:
            raise Unplayable(f"there is no row {y}")
        self.digits[y] = digits
        self.named.add(y)

    def read(self, mark: str, rest: str) -> None:
        """Reads a line that gives digits, the corner of a picture, or a row of it. Raises Unplayable if it is wrong."""
        wanted = {"=": r"(even|odd|[0-9]+) ([0-9a-f]*\*?[0-9a-f]*)", "@": "([0-9]+) ([0-9]+)", "|": "([#.]*)()"}[mark]
        found = re.fullmatch(wanted, rest)
        if not found:
            raise Unplayable(f"no row: {rest}")
        if mark == "=":
            self.put_digits(found[1], found[2])
        elif mark == "@":
            self.column, self.next_row = int(found[1]), int(found[2])
        else:
            self.put_cells(found[1])

    def put_digits(self, row: str, digits: str) -> None:
        """Gives a row, or all `even` or `odd` ones, digits. A `*` stands for the missing zeros. May raise
        Unplayable."""
        first, star, last = digits.partition("*")
        left_out = self.side // 4 - len(first) - len(last)
        if left_out < 0 or left_out > 0 and not star:
            raise Unplayable(f"{digits} has not the digits of a row")
        halves = {"even": range(0, self.side, 2), "odd": range(1, self.side, 2)}
        for y in halves[row] if row in halves else [int(row)]:
            self.put(y, first + "0" * left_out + last)

    def put_cells(self, cells: str) -> None:
        """Sets the cells of the next row that are `#`, from the picture's column on, round the torus. Others stay."""
        y = self.next_row % self.side
        bits = int(self.digits[y], 16)
        for i, cell in enumerate(cells):
            bits |= (cell == "#") << self.side - 1 - (self.column + i) % self.side
        self.put(y, f"{bits:0{self.side // 4}x}")
        self.next_row += 1


class Part:
    """Lines that are played in one way: each with whether an LF is sent after it, and what must come back."""

    def __init__(self, way: str) -> None:
        self.way, self.wanted = way, b""
        self.sent: list[Sent] = []

    def bytes_sent(self) -> bytes:
        """All that the part sends."""
        return b"".join(line + end for line, end in self.sent)


class Example:
    """A file that has been read. It can't be played if it wants no line."""

    def __init__(self, path: Path) -> None:
        self.name = path.name
        self.parts: list[Part] = []
        self.named: dict[str, bytes] = {}
        self.side = 256
        self.rows: Rows | None = None
        text = path.read_bytes().decode()
        self.head = " ".join(re.findall("# (.*)", re.split("^(?!# )", text, maxsplit=1, flags=re.M)[0]))
        for number, line in enumerate(text.split("\n"), 1):
            try:
                self.read(*line.partition(" ")[::2])
            except Unplayable as why:
                raise Unplayable(f"{self.name}: line {number} can't be played: {why}") from why
        self.end_rows()
        if not any(part.wanted for part in self.parts):
            raise Unplayable(f"{self.name}: no line is wanted")

    def wrong_line(self) -> int:
        """The line of all wanted ones that is wrong on purpose, from 1, or 0 if the file isn't wrong."""
        if not self.name.startswith("wrong_"):
            return 0
        found = re.match(r"Wrong on purpose: .*?\bline ([1-9][0-9]*)\b", self.head)
        if not found:
            raise Unplayable(f"{self.name}: its head doesn't say which line is wrong")
        return int(found[1])

    def last_part(self) -> Part:
        """The last part. If there is none yet, begins a session."""
        if not self.parts:
            self.parts.append(Part("session"))
        return self.parts[-1]

    def send(self, text: str, end: bytes = b"\n") -> None:
        """Writes out the marks of a line, and adds it to what the last part sends, with `end` after it."""
        self.last_part().sent.append((written_out(text, self.named), end))

    def want(self, text: str) -> None:
        """Writes out the marks of a line, and adds it with an LF to what the last part wants."""
        self.last_part().wanted += written_out(text, self.named) + b"\n"

    def end_rows(self) -> None:
        """Ends the rows that were begun, if any: they are wanted as a plane, or each named one is sent by a `set`."""
        rows, self.rows = self.rows, None
        if rows and rows.plane is None:
            self.want(plain({"ok": "plane", "rows": rows.digits}).decode())
        elif rows:
            for y in sorted(rows.named):
                self.send(f'{{"do":"set","plane":{rows.plane},"row":{y},"bits":"{rows.digits[y]}"}}')
                self.want('{"ok":"set"}')

    def read(self, mark: str, rest: str) -> None:
        """Reads a line of the file, as its mark says. Raises Unplayable if it is wrong."""
        if mark in ("=", "@", "|"):
            if not self.rows:
                raise Unplayable("no rows are begun")
            self.rows.read(mark, written_out(rest, self.named).decode())
            return
        self.end_rows()
        readers = {"as": lambda way: self.parts.append(Part(way)), "let": self.name_text, "side": self.set_side}
        readers |= {">": self.read_sent, "<": self.read_wanted}
        if mark == ">>":
            self.send(rest, b"")
        elif mark in readers:
            readers[mark](rest)
        elif mark not in ("", "#"):
            raise Unplayable(f"there is no mark {mark}")

    def name_text(self, rest: str) -> None:
        """Keeps a text under a name, for marks in later lines. Raises Unplayable if the name is taken."""
        name, _, text = rest.partition(" ")
        if name in self.named:
            raise Unplayable(f"two texts are named {name}")
        self.named[name] = written_out(text, self.named)

    def set_side(self, side: str) -> None:
        """Sets the side of the rows from here on. Raises Unplayable unless it is 128, 256 or 512."""
        if side not in map(str, SIDES):
            raise Unplayable(f"no side: {side}")
        self.side = int(side)

    def read_sent(self, rest: str) -> None:
        """Reads a line that is sent, maybe with what is wanted, or that begins rows."""
        if rest.startswith("rows "):
            self.rows = Rows(self.side, rest[5:])
        elif " => " in rest:
            sent, wanted = rest.rsplit(" => ", 1)
            self.send(sent)
            self.want(wanted)
        else:
            self.send(rest)

    def read_wanted(self, rest: str) -> None:
        """Reads a line that is wanted, or that begins a plane."""
        if rest == "plane":
            self.rows = Rows(self.side, None)
        else:
            self.want(rest)


def limit_of(way: str) -> int:
    """The largest side of a session, by its way: 256 if it has none. Raises Unplayable if this is no session's way."""
    found = re.fullmatch("session(?: within (128|256|512))?", way)
    if not found:
        raise Unplayable(f"no session: {way}")
    return int(found[1] or 256)


def sizes_of(way: str) -> tuple[int, int, int, int]:
    """The users, boards, cached tables and largest side of events, by their way. Raises Unplayable for another way."""
    found = re.fullmatch("events ([0-9]+) ([0-9]+) ([0-9]+)(?: within (128|256|512))?", way)
    if not found:
        raise Unplayable(f"no events: {way}")
    users, boards, cache, limit = (int(number or 256) for number in found.groups())
    return users, boards, cache, limit


def outcome_of(answer: Callable[[bytes], bytes], line: bytes) -> bytes:
    """The outcome of a line of events, or of the last event for which a short form stands (`unread` if that is wrong).
    `answer` plays one line."""
    if bands := re.fullmatch(rb"bands %s %s" % (NUMBER, NUMBER), line):
        times = int(bands[2])
        if times == 0 or max(int(bands[1]), times) >= TOO_LARGE:
            return b"unread"
        return [answer(b'{"event":"band","board":%s}' % bands[1]) for _ in range(times)][-1]
    if (reply := re.fullmatch(rb"reply %s (.*)" % NUMBER, line, re.DOTALL)) and int(reply[1]) < TOO_LARGE:
        return whole_reply(answer, reply[1], reply[2])
    return b"unread" if re.match(rb"(bands|reply)( |$)", line) else answer(line)


def whole_reply(answer: Callable[[bytes], bytes], user: bytes, command: bytes) -> bytes:
    """Asks for a command, leases the first board that takes it, does its bands, and collects. Returns the outcome of
    the collect, or of an ask that is refused."""
    asked = answer(b'{"event":"ask","user":%s,"command":%s}' % (user, command))
    left = re.match(rb'{"left":([0-9]+),', asked)
    if not left:
        return asked
    for board in range(MOST_BOARDS if int(left[1]) else 0):
        if answer(b'{"event":"lease","user":%s,"board":%d}' % (user, board)).startswith(b'{"left":'):
            for _ in range(int(left[1])):
                answer(b'{"event":"band","board":%d}' % board)
            break
    return answer(b'{"event":"collect","user":%s}' % user)


def main() -> None:
    """Prints what a part of an example sends."""
    parser = argparse.ArgumentParser(description="Prints the lines that a part of a worked example sends.")
    parser.add_argument("file", metavar="FILE", type=Path)
    parser.add_argument("number", metavar="NUMBER", nargs="?", type=int, default=1)
    asked = parser.parse_args()
    parts = Example(asked.file).parts
    if not 1 <= asked.number <= len(parts):
        parser.error(f"{asked.file} has parts 1 to {len(parts)}")
    sys.stdout.buffer.write(parts[asked.number - 1].bytes_sent())


if __name__ == "__main__":
    main()
