"""Worked examples of rules that are known, answered by plain steps over cells; and what is known of these by hand."""

from __future__ import annotations

import json
from collections.abc import Callable, Iterable, Iterator
from copy import copy
from functools import cache, partial
from itertools import product

import pytest
from examples.plain import EIGHT, FOUR, Cell, Cells, Plane, PlainMachine, Rule, Torus, of_blocks, of_cells
from oracle.examples import Example
from oracle.wirings import HOODS, MINORS, names_of, reads_cells
from support.playing import assert_answers
from support.programs import TOP

Places = frozenset[int]
BLOCK, PAIRS = frozenset(range(4)), ({0, 2}, {1, 3})


def turned(places: Iterable[int], turn: int) -> Places:
    """Places of a block, moved on by so many, clockwise."""
    return frozenset((place + turn) % 4 for place in places)


def critters(places: Places, phase: int) -> Places:
    """A block of two stays, one of three is turned by half a turn, and all but those of two are inverted."""
    return places if len(places) == 2 else BLOCK - (turned(places, 2) if len(places) == 3 else places)


def critters_undone(places: Places, phase: int) -> Places:
    """The block that becomes this one."""
    blocks = (frozenset(place for place in BLOCK if number >> place & 1) for number in range(16))
    return next(block for block in blocks if critters(block, phase) == places)


def echo(places: Places, phase: int) -> Places:
    """The cells of a block of one or three go to the opposite place; those of two go on by one place."""
    return turned(places, {1: 2, 2: 1, 3: 2}.get(len(places), 0))


def hpp(places: Places, phase: int) -> Places:
    """Two particles head on turn; all others cross the block."""
    return turned(places, 1 if places in PAIRS else 2)


def tm(places: Places, phase: int) -> Places:
    """Two particles head on stay; all others go on by one place, in phase 0 against the clock."""
    return turned(places, 0 if places in PAIRS else 1 if phase else 3)


def balls(places: Places, phase: int) -> Places:
    """A lone cell of a block crosses it; two on a diagonal go to the other one; all others stay."""
    return turned(places, 2 if len(places) == 1 else 1 if places in PAIRS else 0)


def tron(places: Places, phase: int) -> Places:
    """A block of four equal cells is inverted."""
    return BLOCK - places if len(places) in (0, 4) else places


def banks(torus: Torus, cells: Cells) -> Iterable[Cell]:
    """A cell of three or four set neighbours is set, one of two that meet at a corner is cleared, and each other one stays."""
    counts = torus.counts(cells, FOUR)
    for cell in cells | counts.keys():
        north, south, *_ = (one in cells for one in torus.cells_at(cell, FOUR))
        if counts[cell] > 2 or cell in cells and not (counts[cell] == 2 and north != south):
            yield cell


def grown(ways: list[Cell], torus: Torus, cells: Cells) -> Iterable[Cell]:
    """The other cells that have a single set neighbour are set too."""
    return cells.union(cell for cell, count in torus.counts(cells, ways).items() if count == 1)


def life(torus: Torus, cells: Cells) -> Iterable[Cell]:
    """A cell with three neighbours is set, and one with two stays."""
    return (cell for cell, count in torus.counts(cells, EIGHT).items() if count == 3 or count == 2 and cell in cells)


def voted(votes: set[int], torus: Torus, cells: Cells) -> Iterable[Cell]:
    """The cells that win so many votes, their own among them."""
    return (cell for cell, count in torus.counts(cells, [*EIGHT, (0, 0)]).items() if count in votes)


def trace(torus: Torus) -> dict[int, Plane]:
    """Plane 2 becomes what plane 0 was. Plane 3 keeps all cells that have changed before."""
    now, before, changed = map(torus.cells, (0, 2, 3))
    return {2: Plane(0, now), 3: Plane(0, changed | now ^ before)}


def wave(present: int, torus: Torus) -> dict[int, Plane]:
    """The next present, which is odd in its neighbours and the past, and the next past."""
    past = 1 - present
    cells = torus.cells(past)
    for way in FOUR:
        cells ^= torus.moved(torus.cells(present), *way)
    return {present: Plane(0, cells), past: torus.planes[present]}


def signals(torus: Torus) -> dict[int, Plane]:
    """A head becomes a tail, a tail wire again, and wire a head if one or two heads lie beside it."""
    heads, tails, circuit = map(torus.cells, range(3))
    counts = torus.counts(heads, EIGHT)
    born = (cell for cell in counts.keys() & circuit - heads - tails if counts[cell] in (1, 2))
    return {0: Plane(0, frozenset(born)), 1: Plane(0, heads)}


def falling(torus: Torus, grains: Cells, walls: Cells) -> Iterable[Cell]:
    """In each block a grain falls if there is room below it, and else to the other side if its way there is free."""
    fallen, full = set(grains), grains | walls
    for upper_left, upper_right, lower_right, lower_left in torus.blocks(grains):
        sides = (upper_left, lower_left), (upper_right, lower_right)
        for (above, below), (beside, across) in (sides, sides[::-1]):
            if above in grains and below not in full:
                fallen ^= {above, below}
            elif above in grains and beside not in full and across not in full:
                fallen ^= {above, across}
    assert len(fallen) == len(grains)
    return fallen


# The rules of each example that have a name there, but those that write what names show.
KNOWN: dict[str, dict[str, Rule]] = {
    "banks_signals": {"B": of_cells(banks, 0)},
    "corner_cells": {},
    "counts_without_a_pattern": {},
    "critters": {"C": of_blocks(critters), "U": of_blocks(critters_undone)},
    "dendrites": {"D": of_cells(partial(grown, FOUR), 0), "E": of_cells(partial(grown, EIGHT), 0)},
    "echoes": {"E": of_blocks(echo)},
    "gases": {"G": of_blocks(hpp), "T": of_blocks(tm)},
    "interaction_gate": {"B": of_blocks(balls)},
    "majority": {
        "M": of_cells(partial(voted, {5, 6, 7, 8, 9}), 0),
        "V": of_cells(partial(voted, {4, 6, 7, 8, 9}), 0),
        "T": trace,
    },
    "sand": {"S": of_cells(falling, 0, 1)},
    "second_order": {"R": partial(wave, 0), "U": partial(wave, 1)},
    "steps_without_a_pattern": {"L": of_cells(life, 0)},
    "tron": {"T": of_blocks(tron)},
    "wirings": {},
    "wireworld": {"W": signals},
}


def lines(name: str) -> list[list[bytes]]:
    """The lines of each part of an example."""
    return [part.bytes_sent().splitlines() for part in example(name).parts]


@cache
def example(name: str) -> Example:
    """A worked example of this name."""
    return Example(TOP / f"crates/cam6_host/sessions/{name}.example")


def answers(name: str) -> Iterator[bytes]:
    """What comes back for each part of an example."""
    backs = sum(json.loads(line)["n"] for part in lines(name) for line in part if b'"do":"back"' in line)
    for part in lines(name):
        machine = PlainMachine(KNOWN[name], backs)
        yield b"".join(machine.answer(line) + b"\n" for line in part)


@pytest.mark.parametrize("name", KNOWN)
def test_plain_steps_say_what_the_file_says(name: str) -> None:
    assert_answers(example(name), answers(name))


@pytest.mark.parametrize("hood", HOODS)
def test_each_name_is_looked_up_where_no_other_shows_the_same(hood: str) -> None:
    """Each name of each wiring has its line in each half. No two names that read cells show the same."""
    rules = [json.loads(line) for part in lines("wirings") for line in part if b'"name":"X"' in line]
    named = {(rule["half"], rule["hood"], rule["minor"], rule["text"].split()[2]) for rule in rules}
    for minor, half, is_odd in product(MINORS, "AB", (0, 1)):
        names = names_of(hood, minor)
        assert named >= {(half, hood, minor, name) for name in names}
        torus, cells = Torus(128, starts("wirings")[0].planes, is_odd), list(filter(reads_cells, names))
        assert len({torus.shown(name, "AB".index(half) * 2) for name in cells}) == len(cells)


@cache
def starts(name: str) -> list[PlainMachine]:
    """The machines of an example as they are where each of its pictures takes its first step."""
    found, is_new = list[PlainMachine](), False
    for part in lines(name):
        machine = PlainMachine(KNOWN[name])
        for line in part:
            word = json.loads(line)["do"]
            if word in ("side", "rule", "cycle", "set"):
                machine.answer(line)
            elif word == "run" and is_new:
                found.append(copy(machine))
            is_new = word in ("side", "set") or is_new and word != "run"
    return found


def history(machine: PlainMachine, steps: int, plane: int = 0) -> list[Plane]:
    """A plane at the start, and after each of so many steps."""
    machine, planes = copy(machine), [machine.planes[plane]]
    for _ in range(steps):
        machine.step()
        planes.append(machine.planes[plane])
    return planes


def flights(name: str, number: int, steps: int, side: int = 128) -> list[Cells]:
    """The set cells of plane 0 of an example's picture, step by step, on a ground of 0."""
    machine = starts(name)[number]
    assert machine.side == side
    return [plane.cells for plane in history(machine, steps) if plane.ground == 0]


BLOCKS = [frozenset(place for place in BLOCK if number >> place & 1) for number in range(16)]


@pytest.mark.parametrize("becomes", [critters, critters_undone, echo, hpp, tm, balls])
def test_a_block_keeps_its_number_of_cells(becomes: Callable[[Places, int], Places]) -> None:
    """Or it has as many as there were others, in Critters. No two blocks become one."""
    for phase in (0, 1):
        after = [becomes(block, phase) for block in BLOCKS]
        assert len(set(after)) == len(BLOCKS)
        for block, became in zip(BLOCKS, after):
            assert len(became) == (4 - len(block) if becomes in (critters, critters_undone) else len(block))


def test_signals_turn_a_corner_are_filled_and_meet() -> None:
    turns, ends, meet = (flights("banks_signals", number, 37) for number in range(3))
    corner, straight, moved = turns[36], ends[35], Torus(128, []).moved
    south, east, west = {(25, 44), (26, 45)}, {(25, 82), (26, 81)}, {(57, 82), (56, 81)}
    assert turns[37] == corner and ends[36] == meet[16] == straight
    assert all(turns[n] == corner - moved(south, n, 0) for n in range(16))
    assert all(turns[n] == corner - {(47, 20 + n), (48, 21 + n)} for n in range(31, 35))
    assert all(ends[n] == straight - moved(east, n, 0) for n in range(33))
    assert all(meet[n] == straight - moved(east, n, 0) - moved(west, -n, 0) for n in range(14))


# A glider that moves right, and from step to step the cells that are otherwise than the ground.
GLIDER = {
    0: {(1, 1), (2, 2), (2, 3), (1, 4)},
    1: {(1, 1), (3, 2), (3, 3), (1, 4)},
    2: {(4, 1), (2, 2), (2, 3), (4, 4)},
    3: {(4, 1), (3, 2), (3, 3), (4, 4)},
}


@pytest.mark.parametrize("number", [1, 3, 5])
def test_gliders_move_two_columns_in_four_steps(number: int) -> None:
    """The one begins beyond the seam. The other is its mirror image, and moves left."""
    machine = starts("critters")[number]
    for n, plane in enumerate(history(machine, 40)):
        right = {(x + n // 4 * 2, y) for x, y in GLIDER[n % 4]}
        left = frozenset((5 - x, y + 64) for x, y in right)
        moved = Torus(machine.side, []).moved
        assert plane == Plane(n % 2, moved(right, -8, 0) | moved(left, 0, 0))


def test_dendrites_have_as_many_cells_as_is_known() -> None:
    states = flights("dendrites", 0, 31)
    assert states[2] == {(64, 64)} | {(64 + i * n, 64 + j * n) for i, j in FOUR for n in (1, 2)}
    come = [4 * 3 ** (bin(step).count("1") - 1) for step in range(1, 32)]
    assert [len(cells) for cells in states] == [1 + sum(come[:steps]) for steps in range(32)]


# The ways of particles from the four places of a block.
WAYS = {0: [(1, 1), (-1, 1), (-1, -1), (1, -1)], 7: [(0, 1), (-1, 0), (0, -1), (1, 0)]}


@pytest.mark.parametrize(("first", "side"), product(WAYS, (0, 1, 2)))
def test_particles_keep_their_ways_and_turn_where_two_meet(first: int, side: int) -> None:
    number, side = first + 2 * side, 128 << side
    cells = [(0, 0), (1, side // 4), (1, side // 2 + 1), (0, side * 3 // 4 + 1)]
    for n, particles in enumerate(flights("gases", number, 8, side)):
        assert particles == {((x + i * n) % side, (y + j * n) % side) for (x, y), (i, j) in zip(cells, WAYS[first])}
    pair = flights("gases", number + 1, 2 * side, side)
    if first == 0:
        assert pair[5] == {(5, 5), (6, 6)} and pair[6] == {(6, 5), (5, 6)} and pair[8] == {(8, 3), (3, 8)}
        assert pair[side] == pair[0]
    else:
        assert pair[4] == pair[5] == {(0, 4), (1, 5)} and pair[6] == {(side - 1, 4), (2, 5)}
        assert pair[2 * side] == pair[0]


DOWN, UP = {(6, 6), (4, 4)}, {(6, 17), (4, 19)}
# Two balls, from step to step, where they meet.
MEETING: dict[int, set[Cell]] = {
    6: {(10, 10), (11, 11), (11, 12), (10, 13)},
    7: {(11, 10), (10, 11), (10, 12), (11, 13)},
    8: {(12, 9), (10, 11), (10, 12), (12, 14)},
    9: {(13, 8), (11, 10), (11, 13), (13, 15)},
}


def test_balls_that_meet_go_on_two_columns_late() -> None:
    moved = Torus(128, []).moved
    for n, cells in enumerate(flights("interaction_gate", 0, 23)):
        late = 2 if n > 7 else 0
        both = moved(DOWN, n - late, n) | moved(UP, n - late, -n)
        assert cells == MEETING.get(n, both) | moved(DOWN, n + 32, n) | moved(UP, n + 64, -n)
        assert n < 8 or both == MEETING.get(n, both)


def test_a_grain_falls_and_a_pillar_slides() -> None:
    assert flights("sand", 0, 5) == [{(0, (126 + n) % 128)} for n in range(6)]
    assert flights("sand", 1, 1)[1] == {(11, 13), (10, 13), (11, 15), (10, 15)}


def test_waves_leave_four_copies() -> None:
    """Modulo 2, so many cells away as the steps are."""
    states = flights("second_order", 0, 256)
    for steps in (1, 2, 4, 8, 16, 32):
        copies = Cells()
        for i, j in FOUR:
            copies ^= Torus(128, []).moved(states[0], i * steps, j * steps)
        assert copies == (states[steps] ^ states[steps - 2] if steps > 1 else states[1])
    assert states[256] == states[0] and not states[255]


def test_tron_fills_a_blank_torus_and_all_but_the_block_of_a_cell() -> None:
    one = starts("tron")[0]
    last = {(65, 63), (66, 63), (66, 64), (63, 65), (66, 65), (63, 66), (64, 66), (65, 66), (66, 66)}
    assert history(one, 2)[1:] == [Plane(1, Cells({(65, 64), (64, 65), (65, 65)})), Plane(0, Cells(last))]
    blank = copy(one)
    blank.planes = [Plane()] * 4
    assert history(blank, 2) == [Plane(0), Plane(1), Plane(0)]


def test_signals_pass_the_gate_six_steps_apart() -> None:
    """The clocks' signals alone, 21 steps after their birth."""
    came = [steps for steps, heads in enumerate(flights("wireworld", 0, 107)) if (67, 36) in heads]
    assert came == [turn + steps for turn in (0, 36, 72) for steps in (33, 39, 45) if turn + steps < 108]
