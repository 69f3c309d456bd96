"""What numpy's arrays and numbers are taken as."""

from __future__ import annotations

import importlib
from typing import Any

import pytest

from cam6 import cells, lines


numpy: Any = importlib.import_module("numpy")


@pytest.mark.parametrize("kind", ["bool", "uint8", "int64", "int8"])
def test_rows_of_whole_numbers_are_taken(kind: str) -> None:
    assert cells.digits_of(numpy.eye(1, 128, dtype=kind)[0], 128) == "8" + "0" * 31


def test_other_rows_are_refused() -> None:
    row = numpy.eye(1, 128, dtype=numpy.uint8)[0]
    with pytest.raises(TypeError):
        cells.digits_of(row.astype(float), 128)
    for wrong in (row * 2, numpy.zeros((2, 64), numpy.uint8)):
        with pytest.raises(ValueError):
            cells.digits_of(wrong, 128)


def test_an_array_is_ones_own() -> None:
    bits = cells.bits_of(["8" + "0" * 31] * 128, 128)
    assert (bits.dtype, bits.shape) == (numpy.uint8, (128, 128))
    bits[0, 0] = 0
    assert cells.rows_of(bits)[:2] == ["0" * 32, "8" + "0" * 31]


@pytest.mark.parametrize(
    ("shape", "value", "kind"),
    [((2, 2), 0.0, TypeError), ((2,), 0, ValueError), ((2, 2, 2), 0, ValueError), ((2, 2), 2, ValueError)]
    + [((2, 2), -1, ValueError)],
)
def test_other_grids_are_refused(shape: tuple[int, ...], value: float, kind: type[Exception]) -> None:
    with pytest.raises(kind):
        cells.grid_of(numpy.full(shape, value))


def test_whole_numbers_are_taken() -> None:
    assert lines.clear(numpy.int64(2)).lines == [b'{"do":"clear","plane":2}']
    assert lines.count(numpy.uint16(65535)).lines == [b'{"do":"count","mask":65535}']
    assert lines.ask({"do": "run", "n": numpy.int8(3)}).lines == [b'{"do":"run","n":3}']


def test_other_numbers_are_refused() -> None:
    """Neither numpy's truth values nor its floats nor its arrays."""
    for value in (numpy.bool_(True), numpy.float64(1), numpy.array([1, 2])):
        with pytest.raises(TypeError):
            lines.clear(value)
