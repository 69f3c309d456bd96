"""Patterns as run-length text: which cells a text has, the lines that set them, and replies that show cells."""

from __future__ import annotations

import re
from collections.abc import Sequence
from random import Random
from typing import NamedTuple

from oracle.lines import plain

# The states of cells that aren't 0, by column and row.
Cells = dict[tuple[int, int], int]
CORNER = r"#(?:CXRLE .*?Pos=|[PR] )(-?\d+)[, ](-?\d+)"
HEADER = re.compile(r"^\s*x\s*=\s*(\d+)\s*,\s*y\s*=\s*(\d+)\s*(?:,.*)?$", re.M)
RUN = r"(\d*)([a-zA-Z.$])"


class Pattern(NamedTuple):
    """The width and height of a text, where its corner lies, and its cells."""

    width: int
    height: int
    corner: tuple[int, int]
    cells: Cells

    def planes(self) -> tuple[int, ...]:
        """The planes that the states need: plane 0 if none is above 1, else all four."""
        return (0,) if max(self.cells.values(), default=0) < 2 else (0, 1, 2, 3)

    def set_lines(self, side: int, column: int, row: int, planes: Sequence[int]) -> str:
        """A `set` line for each row in each of `planes`, blank elsewhere. The text's origin is at column and row."""
        lines = b""
        for y in range(self.height):
            for level, plane in enumerate(planes):
                there = [x for x in range(self.width) if self.cells.get((x, y), 0) >> level & 1]
                bits = sum(1 << side - 1 - (column + self.corner[0] + x) % side for x in there)
                where = {"plane": plane, "row": (row + self.corner[1] + y) % side}
                lines += plain({"do": "set", "bits": f"{bits:0{side // 4}x}"} | where) + b"\n"
        return lines.decode()


def read_pattern(text: str) -> Pattern:
    """The pattern of a text, which has to be well formed."""
    header = HEADER.search(text.replace("\r", ""))
    assert header, "a pattern has a header"
    corners = re.findall(CORNER, header.string[: header.start()])
    x = y = 0
    cells: Cells = {}
    for number, sign in re.findall(RUN, header.string[header.end() :].split("!")[0]):
        times = int(number or 1)
        if sign == "$":
            x, y = 0, y + times
            continue
        if state := {"b": 0, ".": 0, "o": 1}.get(sign, ord(sign) - 64):
            cells |= {(x + i, y): state for i in range(times)}
        x += times
    left, top = corners[-1] if corners else (0, 0)
    return Pattern(int(header[1]), int(header[2]), (int(left), int(top)), cells)


def replies_of(cells: Cells, side: int) -> str:
    """Lines of replies that show cells on a torus: a plane, or rows in colours if there are states above 1."""
    rows = [[cells.get((x, y), 0) for x in range(side)] for y in range(side)]
    if max(cells.values(), default=0) < 2:
        digits = [f"{int(''.join(map(str, row)), 2):0{side // 4}x}" for row in rows]
        return plain({"ok": "plane", "rows": digits}).decode() + "\n"
    shown = [{"colours": "".join(f"{state:x}" for state in row), "ok": "colours"} for row in rows]
    return "".join(plain(reply).decode() + "\n" for reply in shown)


def random_cells(seed: int, side: int, most: int, share: float) -> Cells:
    """Random cells of a torus by a seed: each with probability `share`, with a state of 1 to `most`."""
    random = Random(seed)
    return {(x, y): random.randint(1, most) for x in range(side) for y in range(side) if random.random() < share}
