"""Cells as arrays: rows of hexadecimal digits to bits, and back.

An *array* is a numpy array of uint8, by row and column, if numpy is installed. Without it an array is a list of
`bytes`, one object a row and one byte a cell. Both are indexed `array[row][column]`.
"""

from __future__ import annotations

import operator
from binascii import Error as NotHex
from binascii import hexlify, unhexlify
from collections.abc import Iterable, Sequence
from functools import lru_cache
from random import Random
from typing import Any, Union

# An array of cells: numpy's, or a list of bytes objects.
Array = Any
# What stands for the cells of a row: digits, a byte a cell, packed bytes, or numbers.
Row = Union[str, bytes, bytearray, memoryview, Iterable[int]]

SIDES = (128, 256, 512)
HEX = "0123456789abcdefABCDEF"
# Cells 0 and 1 to their digits, all other bytes to what is no digit.
TO_DIGITS = bytes([48, 49]) + b"x" * 254
FROM_DIGITS = bytes.maketrans(b"01", b"\0\1")
HEX_TO_NUMBERS = bytes.maketrans(b"0123456789abcdef", bytes(range(16)))


@lru_cache(maxsize=None)
def numpy() -> Any:
    """The module numpy, or None if it is not installed."""
    try:
        import numpy as module
    except ImportError:
        return None
    return module


def bits_of(rows: Sequence[str], side: int) -> Array:
    """The bits of rows of hexadecimal digits, as `plane` replies have them.

    Each row has `side` / 4 digits, and column 0 is the highest bit of the first one. Any number of rows is taken.
    Raises `ValueError` if a row is longer, shorter or not hexadecimal.
    """
    if any(len(row) * 4 != side for row in rows):
        raise ValueError(f"a row of {side} cells has {side // 4} hexadecimal digits")
    return bits_of_digits("".join(rows).encode(), side)


def bits_of_digits(digits: bytes, side: int) -> Array:
    """The bits of rows of `side` cells, whose digits stand one after another without anything between them. Raises
    ValueError."""
    try:
        data = unhexlify(digits)
    except NotHex:
        raise ValueError("a row has hexadecimal digits") from None
    module = numpy()
    if module is not None:
        return module.unpackbits(module.frombuffer(data, module.uint8)).reshape(-1, side)
    text = f"{int.from_bytes(data, 'big'):0{len(data) * 8}b}" if data else ""
    cells = text.encode().translate(FROM_DIGITS)
    return [cells[at : at + side] for at in range(0, len(cells), side)]


def rows_of(bits: Any) -> list[str]:
    """The rows of an array of bits, each in hexadecimal digits: the inverse of `bits_of`.

    `bits` is an array, or rows of numbers 0 and 1. Raises `ValueError` if another number is among them, if rows differ
    in length, or if a row's length is no multiple of 8.
    """
    grid = grid_of(bits)
    width = len(grid[0]) if len(grid) else 0
    if width % 8:
        raise ValueError(f"a row has a multiple of 8 cells, not {width}")
    module = numpy()
    if module is not None and isinstance(grid, module.ndarray):
        text = hexlify(module.packbits(grid, axis=1).tobytes()).decode()
        return [text[at : at + width // 4] for at in range(0, len(text), width // 4)]
    return [digits_of_cells(row) for row in grid]


def grid_of(bits: Any) -> Any:
    """The cells as a checked array of 0 and 1: a numpy array of uint8 if they are one, else a list of bytes. Raises
    TypeError or ValueError."""
    module = numpy()
    if module is not None and isinstance(bits, module.ndarray):
        return _numpy_grid(module, bits)
    if isinstance(bits, (str, bytes, bytearray)):
        raise TypeError("cells are rows of numbers 0 and 1, not a text or bytes")
    grid = [bytes_of_row(row) for row in bits]
    if any(len(row) != len(grid[0]) for row in grid):
        raise ValueError("all rows of cells have the same length")
    return grid


def _numpy_grid(module: Any, bits: Any) -> Any:
    """An array of numpy as uint8. Raises ValueError or TypeError unless it is one of whole numbers by row and column."""
    if bits.ndim != 2:
        raise ValueError(f"cells have rows and columns, not {bits.ndim} dimensions")
    if bits.dtype == bool:
        return bits.astype(module.uint8)
    if not module.issubdtype(bits.dtype, module.integer):
        raise TypeError(f"cells are whole numbers or truth values, not {bits.dtype}")
    if bits.size and (bits.max() > 1 or bits.min() < 0):
        raise ValueError("a cell is 0 or 1")
    return bits.astype(module.uint8)


def bytes_of_row(row: Any) -> bytes:
    """The cells of a row, a byte each: 0 or 1. Raises `ValueError` or `TypeError` otherwise."""
    module = numpy()
    if isinstance(row, (bytes, bytearray, memoryview)):
        cells = bytes(row)
    elif isinstance(row, (str, int)):
        raise TypeError(f"a row is a sequence of cells, not {row!r:.40}")
    elif module is not None and isinstance(row, module.ndarray):
        if row.ndim != 1:
            raise ValueError(f"a row of cells has one dimension, not {row.ndim}")
        cells = _numpy_grid(module, row.reshape(1, -1)).tobytes()
    else:
        try:
            cells = bytes(map(operator.index, row))
        except ValueError:
            raise ValueError("a cell is 0 or 1") from None
    if cells.translate(None, b"\0\1"):
        raise ValueError("a cell is 0 or 1")
    return cells


def digits_of_cells(cells: bytes) -> str:
    """The digits of a row, a byte a cell. Raises `ValueError` if a byte is neither 0 nor 1."""
    try:
        return f"{int(cells.translate(TO_DIGITS), 2):0{len(cells) // 4}x}" if cells else ""
    except ValueError:
        raise ValueError("a cell is 0 or 1") from None


def digits_of(bits: Row, side: int) -> str:
    """The digits of a row of `side` cells.

    A text has the digits themselves, `side` / 4 of them. Bytes have a cell each, 0 or 1, or are packed, `side` / 8 of
    them. A list or a numpy array has `side` numbers 0 and 1, or truth values. Raises `TypeError` for another kind, and
    `ValueError` for another length or another number.
    """
    if isinstance(bits, str):
        return _checked_digits(bits, side)
    if isinstance(bits, (bytes, bytearray, memoryview)):
        data = bytes(bits)
        if len(data) * 8 == side:
            return data.hex()
    else:
        data = bytes_of_row(bits)
    if len(data) != side:
        raise ValueError(f"bits has {side} cells, or {side // 8} packed bytes, not {len(data)}")
    return digits_of_cells(data)


def _checked_digits(digits: str, side: int) -> str:
    """The digits of a row, as they are. Raises ValueError unless there are `side` / 4, all hexadecimal."""
    if len(digits) * 4 != side:
        raise ValueError(f"bits has {side // 4} hexadecimal digits at side {side}, not {len(digits)}")
    if digits.strip(HEX):
        raise ValueError("bits has hexadecimal digits alone")
    return digits


def states_of(planes: Sequence[Array]) -> Array:
    """The states 0 to 15 of cells: plane 0 counts 1, plane 1 counts 2, plane 2 counts 4 and plane 3 counts 8."""
    module = numpy()
    if module is not None and isinstance(planes[0], module.ndarray):
        return planes[0] | planes[1] << 1 | planes[2] << 2 | planes[3] << 3
    rows = []
    for bits in zip(*planes):
        state = sum(int.from_bytes(row, "big") << plane for plane, row in enumerate(bits))
        rows.append(state.to_bytes(len(bits[0]), "big"))
    return rows


def numbers_of(rows: Sequence[str]) -> Array:
    """The numbers 0 to 15 of rows that have a lower case hexadecimal digit for each cell, as `colours` replies have."""
    cells = [row.encode().translate(HEX_TO_NUMBERS) for row in rows]
    module = numpy()
    if module is not None:
        return module.frombuffer(b"".join(cells), module.uint8).reshape(len(cells), -1).copy()
    return cells


def random_rows(side: int, density: float, seed: Any) -> list[str]:
    """Rows of random cells, of which each is set with a probability of `density`, to 32 binary places.

    The same seed gives the same rows, with and without numpy.
    """
    if not (seed is None or isinstance(seed, (int, float, str, bytes, bytearray))):
        raise TypeError(f"seed is a number, a text or bytes, not {seed!r:.60}")
    source = Random(seed)
    threshold = round(density * 2**32)
    cells = side * side
    drawn = (1 << cells) - 1 if threshold >> 32 else 0
    if 0 < threshold < 2**32:
        lowest = (threshold & -threshold).bit_length() - 1
        for place in range(lowest, 32):
            more = source.getrandbits(cells)
            drawn = drawn | more if threshold >> place & 1 else drawn & more
    text = f"{drawn:0{cells // 4}x}"
    return [text[at : at + side // 4] for at in range(0, len(text), side // 4)]
