"""A machine whose rules are plain functions over cells, and no texts. It answers the worked examples of rules that are known.

A plane is its ground, 0 or 1, and the set of all cells that are otherwise. A rule of blocks knows what the ground becomes.
"""

from __future__ import annotations

import json
import re
from collections import Counter, deque
from collections.abc import Callable, Iterable, Sequence
from functools import cache, lru_cache
from itertools import product
from typing import Any, NamedTuple

from oracle.wirings import BESIDE, PLACES, TURNS, lines_of

Cell = tuple[int, int]
Cells = frozenset[Cell]
FOUR = [(0, -1), (0, 1), (-1, 0), (1, 0)]
EIGHT = FOUR + [(-1, -1), (1, -1), (-1, 1), (1, 1)]


class Plane(NamedTuple):
    """The ground, and the cells that are otherwise."""

    ground: int = 0
    cells: Cells = frozenset()

    def has(self, cell: Cell) -> int:
        """1 if a cell is set, and else 0."""
        return self.ground ^ (cell in self.cells)

    def rows(self, side: int) -> list[int]:
        """Each row as a number of `side` bits, from row 0 on. Its highest bit is column 0."""
        rows = [self.ground * (2**side - 1)] * side
        for x, y in self.cells:
            rows[y] ^= 1 << side - 1 - x
        return rows


class Torus(NamedTuple):
    """The planes before a step, and the grid and the phase of the step."""

    side: int
    planes: list[Plane]
    is_odd: int = 0
    phase: int = 0

    def cells(self, plane: int) -> Cells:
        """The set cells of a plane. Fails if the plane's ground is 1."""
        assert self.planes[plane].ground == 0
        return self.planes[plane].cells

    def moved(self, cells: Iterable[Cell], columns: int, rows: int) -> Cells:
        """Cells, moved so many columns east and rows south round the torus."""
        return frozenset(((x + columns) % self.side, (y + rows) % self.side) for x, y in cells)

    def cells_at(self, cell: Cell, ways: Iterable[Cell]) -> list[Cell]:
        """The cells at `ways` from one, in their order. A way is columns to the east and rows to the south."""
        return [((cell[0] + i) % self.side, (cell[1] + j) % self.side) for i, j in ways]

    def counts(self, cells: Cells, ways: Iterable[Cell]) -> Counter[Cell]:
        """For each cell, how many of `cells` have it at one of `ways` from them. Only counts above 0 are there."""
        return Counter(one for cell in cells for one in self.cells_at(cell, ways))

    def place(self, cell: Cell) -> int:
        """The place of a cell in its block, 0 to 3: clockwise from the upper left one."""
        return PLACES.index(((cell[0] + self.is_odd) % 2, (cell[1] + self.is_odd) % 2))

    def blocks(self, cells: Cells) -> list[list[Cell]]:
        """The blocks that have one of these cells, in any order, each as its cells, clockwise from the upper left
        one."""
        odd = self.is_odd
        corners = {(x - (x + odd) % 2, y - (y + odd) % 2) for x, y in cells}
        return [self.cells_at(corner, PLACES) for corner in {(x % self.side, y % self.side) for x, y in corners}]

    def shown(self, name: str, own: int) -> Plane:
        """What all cells see under a name, as a plane. `own` is the first plane of the rule's half, 0 or 2."""
        upper, word = int(name.endswith("'")), name.strip("&'")
        if word == "PHASE":
            return Plane(self.phase >> upper & 1)
        if word in ("HORZ", "VERT"):
            return Plane(0, stripes(self.side, word == "VERT", self.is_odd))
        cells = self.cells((own + upper + 2 * name.startswith("&")) % 4)
        if word in BESIDE:
            columns, rows = BESIDE[word]
            return Plane(0, self.moved(cells, -columns, -rows))
        seen = set[Cell]()
        for cell in cells:
            place = self.place(cell)
            (i, j), (k, l) = PLACES[place], PLACES[(place - TURNS[word]) % 4]
            seen.update(self.moved([cell], k - i, l - j))
        return Plane(0, frozenset(seen))


@cache
def stripes(side: int, axis: int, is_odd: int) -> Cells:
    """The cells of the right columns of all blocks (`axis` 0), or of the lower rows (1), on the even or odd grid."""
    return frozenset(cell for cell in product(range(side), range(side)) if (cell[axis] + is_odd) % 2)


def states_of(planes: Sequence[Plane], cells: Iterable[Cell]) -> Iterable[int]:
    """The states of cells, from 0 to 15, in the order of the cells. The first plane has the lowest bit."""
    states = dict.fromkeys(cells, 0)
    for bit, (ground, others) in enumerate(planes):
        for cell in states:
            states[cell] |= (ground ^ (cell in others)) << bit
    return states.values()


@lru_cache(64)
def states_counted(side: int, *planes: Plane) -> Counter[int]:
    """How many cells of the torus have each state. The first plane has the lowest bit."""
    others = frozenset[Cell]().union(*(plane.cells for plane in planes))
    counted = Counter(states_of(planes, others))
    counted[sum(plane.ground << bit for bit, plane in enumerate(planes))] += side**2 - len(others)
    return counted


# What a rule makes of planes: those that it writes.
Rule = Callable[[Torus], dict[int, Plane]]
# What the set places of a block become in a phase.
Becomes = Callable[[frozenset[int], int], Iterable[int]]


def of_cells(step: Callable[..., Iterable[Cell]], *seen: int) -> Rule:
    """A rule that writes the first plane of `seen`. `step` gets the torus and the set cells of each of them."""
    return lambda torus: {seen[0]: Plane(0, frozenset(step(torus, *map(torus.cells, seen))))}


def of_blocks(becomes: Becomes) -> Rule:
    """A rule of blocks in plane 0. `becomes` gives the places that a step sets, by those that are set and the phase."""
    new_places = cache(lambda places, phase: frozenset(becomes(places, phase)))

    def step(torus: Torus) -> dict[int, Plane]:
        """Plane 0 after a step."""
        old, phase, cells = torus.planes[0], torus.phase, set[Cell]()
        ground = len(new_places(frozenset(range(4) if old.ground else ()), phase)) // 4
        for block in torus.blocks(old.cells):
            new = new_places(frozenset(place for place in range(4) if old.has(block[place])), phase)
            cells.update(block[place] for place in range(4) if (place in new) != ground)
        return {0: Plane(ground, frozenset(cells))}

    return step


def of_names(text: str) -> Rule:
    """The rule of a text like `: R NORTH >PLN0 ;`: planes become what names show. Fails for other texts."""
    written = [(int(plane), name) for name, plane in re.findall(r"(\S+) >PLN([0-3])", text)]
    assert text == f": R {' '.join(f'{name} >PLN{plane}' for plane, name in written)} ;"
    return lambda torus: {plane: torus.shown(name, plane & 2) for plane, name in written}


class PlainMachine:
    """A blank machine, which can go back by so many steps. `known` has its rules by their names. Any other rule writes what
    names show."""

    def __init__(self, known: dict[str, Rule], backs: int = 0) -> None:
        self.known, self.rules = known, dict[str, Rule]()
        self.entries: list[dict[str, Any]] = []
        self.position, self.colours = 0, list(range(16))
        self.past: deque[list[Plane]] = deque(maxlen=backs)
        self.side, self.planes = 256, [Plane()] * 4

    def step(self) -> None:
        """Does a step by the entry at the position, keeps the planes before it, and moves the position on."""
        entry = self.entries[self.position]
        torus, planes = Torus(self.side, self.planes, entry["grid"] == "ODD", entry["phase"]), [*self.planes]
        for name in {entry["a"], entry["b"]} - {"-"}:
            for plane, written in self.rules[name](torus).items():
                planes[plane] = written
        self.past.append(self.planes)
        self.planes = planes
        self.position = (self.position + 1) % len(self.entries)

    def answer(self, line: bytes) -> bytes:
        """Does a command, which has to be well formed, and returns its reply without an LF."""
        command = json.loads(line)
        word = command.pop("do")
        reply = getattr(self, f"do_{word}")(**command)
        return json.dumps(
            reply if "fault" in reply else reply | {"ok": word}, separators=(",", ":"), sort_keys=True
        ).encode()

    def do_side(self, side: int) -> dict[str, Any]:
        """Makes a blank torus of this side, and goes to the first entry."""
        self.side, self.planes, self.position = side, [Plane()] * 4, 0
        return {}

    def do_rule(self, name: str, half: str, hood: str, minor: str, text: str) -> dict[str, Any]:
        """Keeps a known rule, or one that writes what names show. Fault 40 for a text that stops if a name shows 1."""
        if stops := re.fullmatch(r": R (\S+) IF DROP THEN ;", text):
            return {"address": 1 << lines_of(hood, minor).index(stops[1]), "fault": 40}
        self.rules[name] = self.known[name] if name in self.known else of_names(text)
        return {}

    def do_cycle(self, entries: list[dict[str, Any]]) -> dict[str, Any]:
        """Keeps a cycle, and goes to its first entry."""
        self.entries, self.position = entries, 0
        return {}

    def do_set(self, plane: int, row: int, bits: str) -> dict[str, Any]:
        """Sets a row to these hexadecimal digits. Fails if the plane's ground is 1."""
        kept = frozenset(cell for cell in Torus(self.side, self.planes).cells(plane) if cell[1] != row)
        cells = enumerate(f"{int(bits, 16):0{self.side}b}")
        self.planes = [*self.planes]
        self.planes[plane] = Plane(0, kept.union((x, row) for x, bit in cells if bit == "1"))
        return {}

    def do_run(self, n: int) -> dict[str, Any]:
        """Does n steps, and returns the position after them."""
        for _ in range(n):
            self.step()
        return {"position": self.position}

    def do_back(self, n: int) -> dict[str, Any]:
        """Goes back to the planes before n steps. Raises IndexError if fewer are kept."""
        for _ in range(n):
            self.planes = self.past.pop()
        self.position = (self.position - n) % len(self.entries)
        return {"position": self.position}

    def do_plane(self, plane: int) -> dict[str, Any]:
        """Returns all rows of a plane, as hexadecimal digits."""
        return {"rows": [f"{row:0{self.side // 4}x}" for row in self.planes[plane].rows(self.side)]}

    def do_map(self, colours: list[int]) -> dict[str, Any]:
        """Keeps the colours of the sixteen states."""
        self.colours = colours
        return {}

    def do_colours(self, row: int) -> dict[str, Any]:
        """Returns the colours of a row's cells, a hexadecimal digit each."""
        states = states_of(self.planes, ((x, row) for x in range(self.side)))
        return {"colours": "".join(f"{self.colours[state]:x}" for state in states)}

    def do_count(self, mask: int) -> dict[str, Any]:
        """Counts the cells with a state whose bit is set in the mask."""
        counted = states_counted(self.side, *self.planes)
        return {"count": sum(number for state, number in counted.items() if mask >> state & 1)}
