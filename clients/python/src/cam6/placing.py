"""Where a picture of cells lies on a plane, over the seams of the torus."""

from __future__ import annotations

from collections.abc import Iterator
from typing import Any

from . import cells
from .lines import number


class Placed:
    """Rows of cells on a plane, with the upper left one at a column and a row. A row is a number, column 0 its highest
    bit."""

    def __init__(self, plane: int, rows: list[str], width: int, x: int, y: int, side: int) -> None:
        self.plane, self.width, self.side = plane, width, side
        self._rows, self._x, self._y = rows, x, y

    def row_numbers(self) -> list[int]:
        """The numbers of the rows that are written, from the upper one on, over the seam."""
        return [(self._y + at) % self.side for at in range(len(self._rows))]

    def whole_rows(self) -> Iterator[tuple[int, str]]:
        """Each row's number and its new hexadecimal digits. Only for cells as wide as the torus."""
        if self._x == 0:
            return zip(self.row_numbers(), self._rows)
        return self.over(["0"] * len(self._rows))

    def over(self, old: list[str]) -> Iterator[tuple[int, str]]:
        """Each row's number and its new hexadecimal digits. `old` are the digits of `row_numbers()` so far: cells
        beside the picture stay."""
        side, beyond = self.side, self.side - 4 * len(self._rows[0])
        mask = turned((1 << self.width) - 1 << side - self.width, self._x, side)
        for row, digits, before in zip(self.row_numbers(), self._rows, old):
            new = turned(int(digits, 16) << beyond, self._x, side) | int(before, 16) & ~mask
            yield row, f"{new:0{side // 4}x}"


def turned(bits: int, columns: int, side: int) -> int:
    """A row of `side` bits, column 0 the highest, moved east by so many columns, over the seam. A negative number moves
    it west."""
    columns %= side
    return (bits >> columns | bits << side - columns) & (1 << side) - 1


def placed(plane: Any, bits: Any, x: Any, y: Any, side: int) -> Placed:
    """Checks where the cells `bits` are to lie, and returns them there. Columns and rows may be negative or beyond the
    seam. Raises `TypeError` or `ValueError`."""
    plane = number(plane, "plane", 0, 3)
    x, y = number(x, "x", -(2**31), 2**31), number(y, "y", -(2**31), 2**31)
    grid = cells.grid_of(bits)
    height, width = len(grid), len(grid[0]) if len(grid) else 0
    if not (1 <= height <= side and 1 <= width <= side):
        raise ValueError(f"cells are 1 to {side} rows and columns, not {height} by {width}")
    return Placed(plane, cells.rows_of(padded(grid, width)), width, x % side, y % side, side)


def padded(grid: Any, width: int) -> Any:
    """The cells with as many columns of 0 after them as make a row a multiple of 8 cells wide."""
    more = -width % 8
    if not more:
        return grid
    module = cells.numpy()
    if module is not None and isinstance(grid, module.ndarray):
        return module.pad(grid, ((0, 0), (0, more)))
    return [row + bytes(more) for row in grid]


def checked_density(density: Any) -> float:
    """Returns a number from 0 to 1 as a float. Raises `TypeError` or `ValueError` for anything else."""
    if isinstance(density, (bool, str, bytes)) or type(density).__name__ == "bool_":
        raise TypeError(f"density is a number from 0 to 1, not {density!r}")
    try:
        value = float(density)
    except (TypeError, ValueError):
        raise TypeError(f"density is a number from 0 to 1, not {density!r:.60}") from None
    if not 0 <= value <= 1:
        raise ValueError(f"density is a number from 0 to 1, not {density!r}")
    return value
