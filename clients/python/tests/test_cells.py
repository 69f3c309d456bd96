"""Cells as arrays: digits to bits and back, with numpy and without, against plain loops."""

from __future__ import annotations

import importlib
import random
from typing import Any

import pytest
from by_oracle import bits_of, lists

from cam6 import cells, placing


@pytest.fixture(autouse=True, params=["numpy", "bytes"])
def arrays(request: pytest.FixtureRequest, monkeypatch: pytest.MonkeyPatch) -> None:
    """Each test is done with numpy, and without."""
    numpy = importlib.import_module("numpy") if request.param == "numpy" else None
    monkeypatch.setattr(cells, "numpy", lambda: numpy)


def plain_bits(rows: list[str]) -> list[list[int]]:
    """The bits of rows of hexadecimal digits."""
    return [bits_of(row) for row in rows]


def some_rows(source: random.Random, side: int) -> list[str]:
    """Random rows of a torus."""
    return [f"{source.getrandbits(side):0{side // 4}x}" for _ in range(side)]


@pytest.mark.parametrize("side", cells.SIDES)
def test_digits_there_and_back(side: int) -> None:
    rows = some_rows(random.Random(side), side)
    bits = cells.bits_of(rows, side)
    assert lists(bits) == plain_bits(rows)
    assert cells.rows_of(bits) == cells.rows_of(lists(bits)) == rows
    assert [cells.digits_of(row, side) for row in bits] == rows
    assert lists(cells.bits_of([row.upper() for row in rows], side)) == plain_bits(rows)


@pytest.mark.parametrize("kind", [list, tuple, bytes, bytearray, iter, "digits", "packed", "truths"])
def test_kinds_of_rows(kind: Any) -> None:
    """A row may be digits, packed bytes, a byte a cell, numbers or truth values."""
    row = [1, 0, 0, 0, 0, 0, 1, 1] * 16
    others: dict[str, Any] = {"digits": "83" * 16, "packed": b"\x83" * 16, "truths": [cell == 1 for cell in row]}
    assert cells.digits_of(others[kind] if kind in others else kind(row), 128) == "83" * 16


NO_ROWS: dict[type[Exception], list[Any]] = {
    ValueError: [
        *([0] * 127, [0] * 129, [0] * 127 + [2], [0] * 127 + [-1], [0] * 127 + [1000]),
        *("0" * 31, "0" * 33, "0" * 31 + "g", "0" * 30 + "0x", "0x" + "0" * 30, "+" + "0" * 31),
        *("0" * 15 + "_" + "0" * 16, "0" * 30 + "1_", " " + "0" * 31, "0" * 31 + "\u0663"),
        *(b"\2" * 128, b"0" * 128, bytes(15)),
    ],
    TypeError: [[0] * 127 + [1.0], [0] * 127 + ["1"], 128, True, None, [[0] * 128] * 128],
}
NO_GRIDS: dict[type[Exception], list[Any]] = {
    ValueError: [[[0, 1], [0]], [[0, 2]]],
    TypeError: ["ab", b"ab", ["ab"], [1, 2], 7],
}


@pytest.mark.parametrize("kind", [ValueError, TypeError])
def test_bad_rows_and_grids(kind: type[Exception]) -> None:
    for row in NO_ROWS[kind]:
        with pytest.raises(kind):
            print(cells.digits_of(row, 128), "of", row)
    for grid in NO_GRIDS[kind]:
        with pytest.raises(kind):
            print(cells.grid_of(grid), "of", grid)


def test_rows_of_a_wrong_length() -> None:
    with pytest.raises(ValueError):
        cells.rows_of([[0, 1, 1]])
    for row in ("0" * 31, "x" * 32):
        with pytest.raises(ValueError):
            cells.bits_of([row], 128)


def test_states() -> None:
    source = random.Random(2)
    planes = [some_rows(source, 128) for _ in range(4)]
    states = cells.states_of([cells.bits_of(rows, 128) for rows in planes])
    bits = [plain_bits(rows) for rows in planes]
    want = [[sum(bits[p][y][x] << p for p in range(4)) for x in range(128)] for y in range(128)]
    assert lists(states) == want


def test_numbers() -> None:
    assert lists(cells.numbers_of(["0123456789abcdef"] * 2)) == [list(range(16))] * 2


def test_random_rows_depend_on_their_seed() -> None:
    rows = cells.random_rows(128, 0.5, 7)
    assert rows == cells.random_rows(128, 0.5, 7)
    assert rows != cells.random_rows(128, 0.5, 8)


@pytest.mark.parametrize("density", [0.0, 0.01, 0.25, 0.5, 0.9, 1.0])
def test_random_rows_have_their_density(density: float) -> None:
    made = cells.random_rows(256, density, 3)
    assert {len(row) for row in made} == {64}
    share = sum(bin(int(row, 16)).count("1") for row in made) / 65536
    assert share == pytest.approx(density, abs=0.01 if 0 < density < 1 else 0)


def test_cells_are_placed_over_the_seams() -> None:
    """Cells at any place are where a plain loop puts them, and all others stay."""
    source = random.Random(3)
    for _ in range(60):
        height, width = source.choice([1, 2, 7, 128]), source.choice([1, 3, 8, 100, 128])
        x, y = source.randrange(-300, 300), source.randrange(-300, 300)
        bits = [[source.randrange(2) for _ in range(width)] for _ in range(height)]
        old = some_rows(source, 128)
        want = plain_bits(old)
        for j in range(height):
            for i in range(width):
                want[(y + j) % 128][(x + i) % 128] = bits[j][i]
        there = placing.placed(0, bits, x, y, 128)
        new = list(old)
        rows = there.row_numbers()
        placed = there.whole_rows() if width == 128 else there.over([old[row] for row in rows])
        for row, digits in placed:
            new[row] = digits
        assert plain_bits(new) == want, (x, y, width, height)


@pytest.mark.parametrize(
    ("kind", "wrong"),
    [
        (TypeError, [([[1]], True, 0), ([[1]], 0, 1.0)]),
        (ValueError, [([[1] * 129], 0, 0), ([[1]] * 129, 0, 0), ([], 0, 0), ([[]], 0, 0)]),
    ],
)
def test_bad_places(kind: type[Exception], wrong: list[tuple[Any, Any, Any]]) -> None:
    for bits, x, y in wrong:
        with pytest.raises(kind):
            print(placing.placed(0, bits, x, y, 128), "of", bits, x, y)
