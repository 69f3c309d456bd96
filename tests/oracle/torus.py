"""A torus of cells: four planes of rows, of a byte for each cell; a step, and a step undone.

A step looks, row by row, at what the cells see under each name of a rule, and asks the rule's words at each cell. A step
undone looks for the state that each block was.
"""

from __future__ import annotations

from collections.abc import Iterator

from oracle.rules import Rule
from oracle.wirings import BESIDE, FIRST_PLANE, PLACES, TURNS

# Of each number below 256 the bit at a place.
BITS = [bytes(number >> place & 1 for number in range(256)) for place in range(8)]
# The digit of each cell.
DIGITS = bytes.maketrans(b"\0\1", b"01")


def numbers(planes: list[bytes]) -> bytes:
    """For each cell the number whose bits are the cell's bits in up to eight planes. The first plane has the lowest
    bit."""
    number = 0
    for place, plane in enumerate(planes):
        number |= int.from_bytes(plane, "little") << place
    return number.to_bytes(len(planes[0]), "little")


def rule_outputs(rule: Rule, planes: list[bytes]) -> bytes:
    """What the rule writes at each cell: the lower bit and twice the upper one. `planes` has what cells see under each
    of the rule's names, in their order."""
    lower, upper = numbers(planes[:8]), numbers(planes[8:]) if planes[8:] else b""
    if not upper:
        return lower.translate(rule.tables[0])
    states = 0
    for number in set(upper):
        is_there = upper.translate(bytes(3 * (number == other) for other in range(256)))
        states |= int.from_bytes(lower.translate(rule.tables[number]), "little") & int.from_bytes(is_there, "little")
    return states.to_bytes(len(lower), "little")


def shifted(row: bytes, columns: int) -> bytes:
    """A row in which each cell has the state of the one so many columns further east, round the torus."""
    return row[columns:] + row[:columns]


class Torus:
    """A blank torus of this side."""

    def __init__(self, side: int) -> None:
        self.side = side
        self.planes = [[bytes(side)] * side for _ in range(4)]

    def row(self, plane: int, y: int) -> bytes:
        """A row of a plane, a byte of 0 or 1 for each cell. `y` is counted round the torus."""
        return self.planes[plane][y % self.side]

    def shown(self, name: str, half: str, grid: str, phase: int, y: int) -> bytes:
        """What the cells of row `y` see under a name of a rule of this half: a byte of 0 or 1 for each."""
        odd, upper, word = int(grid == "ODD"), int(name.endswith("'")), name.rstrip("'")
        own = FIRST_PLANE[half] + upper
        if word.endswith("PHASE"):
            return bytes([phase >> upper & 1]) * self.side
        if word.endswith("HORZ"):
            return bytes([odd, 1 - odd]) * (self.side // 2)
        if word.endswith("VERT"):
            return bytes([(y + odd) % 2]) * self.side
        if word == "&CENTER":
            return self.row((own + 2) % 4, y)
        if word in BESIDE:
            columns, rows = BESIDE[word]
            return shifted(self.row(own, y + rows), columns)
        row = bytearray(self.side)
        for right in (0, 1):
            place = PLACES.index((right, (y + odd) % 2))
            i, j = PLACES[(place + TURNS[word]) % 4]
            first = (right + odd) % 2
            row[first::2] = shifted(self.row(own, y + j - PLACES[place][1]), i - right)[first::2]
        return bytes(row)

    def step_half(self, rule: Rule, grid: str, phase: int) -> list[list[bytes]]:
        """The two planes of the rule's half after a step, the lower one first. The torus stays as it is."""
        rows, half = range(self.side), rule.key.half
        states = rule_outputs(
            rule, [b"".join(self.shown(name, half, grid, phase, y) for y in rows) for name in rule.names]
        )
        bits = (states.translate(BITS[place]) for place in (0, 1))
        return [[plane[y * self.side : (y + 1) * self.side] for y in rows] for plane in bits]

    def undo_half(self, rule: Rule, grid: str, phase: int) -> list[list[bytes]]:
        """The two planes of the rule's half before a step: of each block the state that becomes this one."""
        odd, own, half = int(grid == "ODD"), FIRST_PLANE[rule.key.half], self.side // 2
        was, old = bytearray(256), [[bytearray(self.side) for _ in range(self.side)] for _ in range(2)]
        for state, image in enumerate(rule.images(phase)):
            was[image] = state
        rows, places = range(odd, self.side + odd, 2), [(level, i, j) for level in (0, 1) for i, j in PLACES]
        cells = [[shifted(self.row(own + level, y + j), odd + i)[::2] for y in rows] for level, i, j in places]
        states = numbers([b"".join(rows_of_place) for rows_of_place in cells]).translate(was)
        for place, (level, i, j) in enumerate(places):
            bits = states.translate(BITS[place])
            for first, y in zip(range(0, len(bits), half), rows):
                old[level][(y + j) % self.side][i::2] = bits[first : first + half]
        return [[shifted(bytes(row), -odd) for row in plane] for plane in old]

    def digits(self, plane: int, y: int) -> str:
        """The hexadecimal digits of a row."""
        return f"{int(self.planes[plane][y].translate(DIGITS), 2):0{self.side // 4}x}"

    def put(self, plane: int, y: int, digits: str) -> None:
        """Sets a row of a plane to these hexadecimal digits."""
        self.planes[plane][y] = bytes(map(int, f"{int(digits, 16):0{self.side}b}"))

    def states(self, y: int) -> Iterator[int]:
        """The states of the cells of a row, from 0 to 15, from column 0 on."""
        return iter(numbers([plane[y] for plane in self.planes]))

    def count(self, mask: int) -> int:
        """How many cells have a state whose bit is set in the mask."""
        states = numbers([b"".join(plane) for plane in self.planes])
        return sum(states.count(state) for state in range(16) if mask >> state & 1)
