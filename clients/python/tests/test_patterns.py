"""Run-length texts in and out, and emulated Margolus patterns. All patterns here were written for these tests."""

from __future__ import annotations

import gzip
import random
from collections.abc import Callable
from pathlib import Path
from typing import Any
from unittest import mock

import pytest
from by_oracle import Torus, lists

from cam6 import Machine, patterns, rules
from cam6.patterns import PatternError

GLIDER = "#C A glider.\n#CXRLE Pos=-3,4 Gen=12\nx = 3, y = 3, rule = B3/S23\nbo$2bo$3o!\nafter the end\n"
TABLE = "# n_states:2\n# neighborhood:Margolus\n# symmetries:rotate4\n#\n# 1,0,0,0 : 0,0,0,1\n# 0,1,1,0 : 1,0,0,1\n"
# Texts that are no patterns, with the line and the column that are to blame.
MALFORMED = {
    (1, 1): ["", "bo$2bo$3o!\n", "x = 3, y = \n3o!\n", "x = 3; y = 3\n3o!\n", "x = 3, y = 3 rule = B3/S23\n3o!\n"]
    + ["x = 99999999, y = 99999999\n!\n"],
    (2, 1): ["#C only a remark\n"] + [f"x = 3, y = 1\n{row}!\n" for row in ("2 o", "3", "yX")],
    (2, 2): ["x = 3, y = 3\n4o!\n", "x = 3, y = 1\nbzo!\n"],
    (2, 3): ["x = 3, y = 3\n3ob!\n"],
    (2, 7): ["x = 3, y = 2\n3o$3o$o!\n"],
    (3, 1): ["x = 3, y = 3\nbo$2bo$3o\n"],
    (3, 2): ["x = 3, y = 1\n\n.ypA!\n"],
}
CORNERS = [(0, 0), (1, 0), (0, 1), (1, 1)]
BBM = "BBM-Margolus-emulated"


def test_a_pattern() -> None:
    glider = patterns.read(GLIDER)
    assert (glider.width, glider.height, glider.rule) == (3, 3, "B3/S23")
    assert (glider.x, glider.y, glider.generation) == (-3, 4, 12)
    assert lists(glider.cells) == [[0, 1, 0], [0, 0, 1], [1, 1, 1]]
    assert [lists(plane) for plane in glider.planes] == [[[0, 1, 0], [0, 0, 1], [1, 1, 1]]]
    assert glider.comments == "#C A glider.\n#CXRLE Pos=-3,4 Gen=12"
    assert patterns.write(glider) == "#CXRLE Pos=-3,4 Gen=12\nx = 3, y = 3, rule = B3/S23\nbo$2bo$3o!\n"


def test_spaces_and_remarks() -> None:
    pattern = patterns.read("#C\r\n#P 2 -3\n\n  x=4,y = 5 , rule = B3/S23\r\n  b2o\tb $\r\n3$ 4o\n!\n")
    assert (pattern.x, pattern.y, pattern.rule) == (2, -3, "B3/S23")
    assert lists(pattern.cells) == [[0, 1, 1, 0], [0] * 4, [0] * 4, [0] * 4, [1] * 4]


def test_states() -> None:
    pattern = patterns.read("x = 7, y = 1\n.AoXpAyO!\n")
    assert lists(pattern.cells) == [[0, 1, 1, 24, 25, 255, 0]]
    with pytest.raises(PatternError, match="state 255"):
        pattern.planes
    four = patterns.read("x = 3, y = 1\nAHO!\n")
    assert [lists(plane) for plane in four.planes] == [[[1, 0, 1]], [[0, 0, 1]], [[0, 0, 1]], [[0, 1, 1]]]


@pytest.mark.parametrize("place", MALFORMED)
def test_malformed_texts(place: tuple[int, int]) -> None:
    for text in MALFORMED[place]:
        with pytest.raises(PatternError, match=f"line {place[0]}, column {place[1]}: ") as caught:
            patterns.read(text)
        assert (caught.value.line, caught.value.column) == place


def test_patterns_there_and_back() -> None:
    source = random.Random(3)
    for k in range(60):
        width, height = source.choice([1, 2, 70, 128, 300]), source.choice([1, 3, 40])
        most, density = source.choice([1, 1, 3, 15, 255]), source.choice([0, 0.01, 0.3, 1])
        states = (source.randint(1, most) if source.random() < density else 0 for _ in range(width * height))
        rows = [[next(states) for _ in range(width)] for _ in range(height)]
        text = patterns.write(rows, rule="R", x=k - 30, y=2 * k)
        assert max(map(len, text.split("\n"))) <= 70
        pattern = patterns.read(text)
        assert lists(pattern.cells) == rows
        assert (pattern.x, pattern.y, pattern.rule) == (k - 30, 2 * k, "R")
        assert patterns.write(pattern) == text


@pytest.mark.parametrize("cells", [[[0, 1], [0]], [[256]], [[-1]], [[True]], [[0.5]], [["1"]]])
def test_cells_that_are_none(cells: Any) -> None:
    with pytest.raises(PatternError):
        patterns.write(cells)


def test_other_texts_that_are_none() -> None:
    """The name of a rule has one line, and what is read is a text."""
    data: Any = GLIDER.encode()
    with pytest.raises(PatternError):
        patterns.write([[1]], rule="two\nlines")
    with pytest.raises(PatternError):
        patterns.read(data)


@pytest.mark.parametrize("name", ["glider.rle", "glider.rle.gz", "glider.txt"])
def test_files(name: str, tmp_path: Path) -> None:
    (tmp_path / name).write_bytes(gzip.compress(GLIDER.encode()) if name.endswith(".gz") else GLIDER.encode())
    assert patterns.load(str(tmp_path / name)).rows == patterns.read(GLIDER).rows


@pytest.mark.parametrize(
    ("data", "sentence"),
    [
        (b"[M2] (golly 3.3)\n", "a.mc is a macrocell file"),
        (b"#Life 1.05\n", "a.lif is a Life 1.05 or 1.06 file"),
        (b"#MCell 4.00\n", "a.mcl is an MCell file"),
        (b"PK\x03\x04", "a.zip is a zip archive"),
        (b"local g = golly()\n", "a.lua is no run-length text"),
        (b"x = 1, y = 1\n2o!\n", "a.rle: line 2, column 2: "),
    ],
)
def test_other_files(data: bytes, sentence: str, tmp_path: Path) -> None:
    path = tmp_path / sentence.split()[0].rstrip(":")
    path.write_bytes(data)
    with pytest.raises(PatternError, match=sentence):
        patterns.load(str(path))


def test_marks() -> None:
    pattern = patterns.emulate([[0, 1, 0], [1, 0, 0], [0, 0, 1]], corner=(0, 0), rule=BBM)
    assert lists(pattern.cells) == [[1, 4, 1], [4, 2, 2], [1, 2, 3]]
    assert "AD" in patterns.write(pattern)
    with pytest.raises(PatternError):
        patterns.emulate([[4]])


@pytest.mark.parametrize("corner", CORNERS)
def test_marks_there_and_back(corner: tuple[int, int]) -> None:
    source = random.Random(5)
    rows = [[source.randrange(2) for _ in range(9)] for _ in range(7)]
    emulated = patterns.emulate(rows, corner=corner, rule="CrittersMargolus_emulated:T128,128")
    found = patterns.emulated(emulated)
    assert (found.corner, lists(found.cells), found.torus) == (corner, rows, (128, 128))
    assert found.rule.text == rules.margolus("critters").text


def test_a_table_in_the_comments() -> None:
    found = patterns.emulated(patterns.read(TABLE + "x = 2, y = 2, rule = Mine:T256\nAB$2B!\n"))
    assert (found.torus, found.rule.text) == ((256, 256), rules.margolus("bbm").text)
    assert found.rule.name == "Mine"


def test_what_lies_outside_stays() -> None:
    """There is a hole in the upper right corner, and nothing beyond the pattern."""
    found = patterns.emulated(patterns.read(f"x = 3, y = 2, rule = {BBM}\nAB.$3B!\n"))
    assert found.rule.text == rules.margolus("bbm", edge=True).text
    lower, upper, grids = found.planes(128, 10, 20)
    assert grids == ("EVEN", "ODD")
    assert lists(upper)[20][9:14] == [1, 0, 0, 1, 1]
    assert lists(upper)[21][9:14] == [1, 0, 0, 0, 1]
    assert not any(map(any, lists(lower)))


THREE = "# n_states:3\n# neighborhood:Margolus\n# 1,0,2,0 : 0,1,2,0\nx = 2, y = 2, rule = Three\nCB$FB!\n"
FOUR = THREE.replace("n_states:3", "n_states:4").replace("0,1,2,0", "0,1,3,0")


def test_three_states() -> None:
    found = patterns.emulated(patterns.read(THREE))
    assert (found.filling, lists(found.cells)) == (3, [[1, 0], [2, 0]])


def test_four_states_leave_no_room_for_an_outside() -> None:
    with pytest.raises(PatternError, match="leave no room for an outside"):
        patterns.emulated(patterns.read(FOUR))
    assert patterns.emulated(patterns.read(FOUR), outside=2).filling == 2


def test_a_fourth_state_that_never_comes_leaves_its_room() -> None:
    never = THREE.replace("n_states:3", "n_states:4")
    assert patterns.emulated(patterns.read(never)).filling == 3


@pytest.mark.parametrize(
    ("text", "sentence"),
    [
        (f"x = 2, y = 1, rule = {BBM}\n2B!\n", "has no marks"),
        (f"x = 2, y = 1, rule = {BBM}\n2A!\n", "column 1 and row 0"),
        (f"x = 3, y = 1, rule = {BBM}\nABB!\n", "column 2 and row 0 .* lacks the mark"),
        ("x = 2, y = 1, rule = Another\nAB!\n", "what the rule 'Another' is"),
        (f"x = 2, y = 1, rule = {BBM}\nIB!\n", "5 states"),
    ],
)
def test_patterns_that_are_refused(text: str, sentence: str) -> None:
    with pytest.raises(PatternError, match=sentence):
        patterns.emulated(patterns.read(text))


@pytest.mark.parametrize(
    ("rows", "corner", "rule", "place", "sentence"),
    [
        ([[0, 1], [1, 0]], (1, 0), BBM, (2, 2), "even column and an odd row"),
        ([[0, 1], [1, 0]], (0, 0), "CrittersMargolus_emulated:T20,20", (), "torus of 20 by 20 cells"),
        ([[0] * 129], (0, 0), BBM, (), "129 by 1 cells"),
    ],
)
def test_places_that_are_refused(
    rows: list[list[int]], corner: tuple[int, int], rule: str, place: tuple[int, ...], sentence: str
) -> None:
    found = patterns.emulated(patterns.emulate(rows, corner=corner, rule=rule))
    with pytest.raises(PatternError, match=sentence):
        found.planes(128, *place)


@pytest.mark.parametrize("corner", CORNERS)
def test_a_pattern_is_put_on_a_machine(corner: tuple[int, int]) -> None:
    emulated = patterns.emulate([[1, 0, 0], [0, 0, 1]], corner=corner, rule=BBM)
    board = mock.Mock(spec=["side", "cycle", "rule", "put"], side=128)
    x, y = patterns.emulated(emulated).put(board)
    planes = {call.args[0]: call.args[1] for call in board.put.call_args_list}
    assert planes[0][y][x] == 1
    first, *_, last = [call for call in board.method_calls if call[0] != "put"]
    assert first == mock.call.cycle(("-", "-", "EVEN", 0))
    assert last.args[0][2] == ("ODD" if (x + corner[0]) % 2 else "EVEN")


def test_a_ball_runs_along_its_diagonal() -> None:
    """It is taken from its marks to a torus and back."""
    rows = [[1, 0, 0, 0]] + [[0] * 4] * 3
    found = patterns.emulated(patterns.emulate(rows, corner=(0, 0), rule=f"{BBM}:T128"))
    lower, _, grids = found.planes(128, 0, 0)
    torus = Torus(4)
    torus.planes[0] = [bytes(row[:4]) for row in lists(lower)[:4]]
    for grid in grids:
        torus.step(found.rule, grid)
    assert torus.planes[0][2] == bytes([0, 0, 1, 0])


@pytest.mark.parametrize("corner", CORNERS)
def test_balls_run_and_come_back(corner: tuple[int, int], local: Callable[..., Machine]) -> None:
    """They run through a pattern of their own, whose edge is walls that stay."""
    rows = [[0] * 12 for _ in range(10)]
    rows[2][2] = rows[7][9] = 1
    machine = local()
    machine.set_side(128)
    for plane in (0, 1):
        machine.random(plane, seed=plane)
    found = patterns.emulated(patterns.emulate(rows, corner=corner, rule=BBM))
    x, y = found.put(machine)
    first = machine.save()
    machine.run(60)
    after = [list(map(int, row[x : x + 12])) for row in machine.plane(0)[y : y + 10]]
    assert sum(sum(row) for row in after) == 2
    assert machine.count([1]) == 2
    machine.back(60)
    assert machine.save() == first
