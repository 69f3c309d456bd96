"""`cam6_rle` makes lines of patterns that are written as run-length text, and such texts of replies. The oracle says which cells
a pattern has. With `--patterns FOLDER` other patterns are read than those of Debian's golly."""

from __future__ import annotations

import re
from pathlib import Path
from typing import NamedTuple

import pytest
from examples.rules import ADD_EIGHT
from oracle.machine import SIDES
from oracle.patterns import Cells, Pattern, random_cells, read_pattern, replies_of
from support.commands import cycle_command, rule_command
from support.programs import Ran, assert_refused, ran
from support.sessions import line_of

GLIDER = "#C A glider that goes down and to the right.\nx = 3, y = 3, rule = B3/S23\nbo$2bo$3o!\n"
BLINKER = "#CXRLE Pos=-1,254\nx = 3, y = 1\n3o!\n"
WIRE = "x = 6, y = 3, rule = WireWorld\n.4C$C..AB\nC$.4C!\nbehind the end there may be anything\n"
SPACED = "#C\n#P 2 -3\n\n  x=4,y = 5 , rule = B3/S23\n  b2o\tb $\r\n3$ 4o\n!\n"


class Place(NamedTuple):
    """Where a pattern is set: the side of the torus, the column and the row of its origin, and the planes."""

    side: int = 256
    column: int = 0
    row: int = 0
    planes: tuple[int, ...] = (0,)

    def words(self) -> list[str]:
        """The arguments by which cam6_rle makes it."""
        words = f"--side {self.side} --column {self.column} --row {self.row} --planes {''.join(map(str, self.planes))}"
        return words.split()


def read(cam6_rle: str, words: list[str], text: str) -> Ran:
    """Runs cam6_rle on a text."""
    return ran([cam6_rle, *words], text.encode("latin-1"), patience=60)


def assert_is_set(cam6_rle: str, text: str, place: Place) -> None:
    """Fails if the lines of a pattern aren't those of the oracle."""
    assert read(cam6_rle, place.words(), text) == Ran(0, read_pattern(text).set_lines(*place).encode(), b"")


PLACED = {
    "a_glider": (GLIDER, Place()),
    "a_blinker_over_the_top_seam": (BLINKER, Place(column=3, row=1)),
    "a_wire": (WIRE, Place(side=128, column=126, row=127, planes=(1, 3))),
    "a_spaced_text": (SPACED, Place(side=512, column=511, row=2, planes=(2,))),
}


@pytest.mark.parametrize(("text", "place"), PLACED.values(), ids=PLACED)
def test_a_pattern_is_set(text: str, place: Place, cam6_rle: str) -> None:
    assert_is_set(cam6_rle, text, place)


NO_HEADERS = ["#C only a remark\n", "bo$2bo$3o!\n", "x = 3, y = \n3o!\n", "x = 3; y = 3\n3o!\n"]
NO_HEADERS += ["x = 3, y = 3 rule = B3/S23\n3o!\n"]
# Texts that are no patterns: the text, the arguments, the place and the cause.
MALFORMED = [
    ("", "", "line 0, column 1", "a header"),
    *((text, "", "line 1, column 1", "a header") for text in NO_HEADERS),
    ("x = 3, y = 3\nbo$2bo$3o\n", "", "line 2, column 1", "end"),
    ("x = 3, y = 3\n4o!\n", "", "line 2, column 2", "wide"),
    ("x = 3, y = 3\n3ob!\n", "", "line 2, column 3", "wide"),
    ("x = 3, y = 2\n3o$3o$o!\n", "", "line 2, column 7", "high"),
    ("x = 3, y = 2\n3o2$$!\n", "", "line 2, column 5", "high"),
    *((f"x = 3, y = 1\n{cells}!\n", "", "line 2, column 2", "byte") for cells in ("bzo", "2 o", "2\no", "3")),
    ("x = 3, y = 1\n513o!\n", "", "line 2, column 3", "number"),
    ("x = 3, y = 1\n\n.AB!\n", "", "line 3, column 3", "states"),
    ("x = 3, y = 1\n.DA!\n", "--planes 01", "line 2, column 2", "states"),
    ("x = 3, y = 1\npA!\n", "--planes 0123", "line 2, column 1", "byte"),
    ("x = 129, y = 1\n!\n", "--side 128", "line 1, column 1", "wide"),
    ("x = 1, y = 257\n!\n", "", "line 1, column 1", "high"),
    ("x = 99999999999999999999999999, y = 1\n!\n", "", "line 1, column 1", "wide"),
]


@pytest.mark.parametrize(("text", "words", "place", "cause"), MALFORMED)
def test_a_malformed_text_is_refused_at_its_place(text: str, words: str, place: str, cause: str, cam6_rle: str) -> None:
    done = read(cam6_rle, words.split(), text)
    assert_refused(done, 3, cause)
    assert done.errors.decode().startswith(f"cam6_rle: {place}: ")


# Arguments that are refused, and replies that show no frames: the status, and what stands on standard error.
ROW = '{"colours":"' + 128 * "0" + '","ok":"colours"}\n'
PLANES, RULE = "--planes takes one to four different digits", "--rule takes one line, and needs\n--replies\n"
FAULTS: list[tuple[list[str], str, int, str]] = [
    *((["--planes", planes], "", 2, f"cam6_rle: {PLANES}") for planes in ("", "4", "010")),
    (["--rule", "B3/S23"], "", 2, RULE),
    (["--replies", "--rule", "a\nb"], "", 2, RULE),
    (["--side", "100"], "", 2, "--side"),
    (["--column", "512"], "", 2, "--column"),
    (["--replies"], "x\n", 3, "cam6_rle: line 1 is not a reply\n"),
    (["--replies"], 127 * ROW, 3, "cam6_rle: line 127 leaves a frame incomplete\n"),
]


@pytest.mark.parametrize(("words", "text", "status", "message"), FAULTS, ids=[" ".join(fault[0]) for fault in FAULTS])
def test_arguments_and_replies_are_refused(
    words: list[str], text: str, status: int, message: str, cam6_rle: str
) -> None:
    assert_refused(read(cam6_rle, words, text), status, message)


# Cells that are written as a text, the side, and the rule that the text names.
WRITTEN: dict[str, tuple[Cells, int, str]] = {
    "no_cells": ({}, 128, ""),
    "one_cell": ({(255, 255): 1}, 256, ""),
    "cells_of_one_plane": (random_cells(1, 256, 1, 0.3), 256, "B3/S23"),
    "few_cells_of_one_plane": (random_cells(2, 512, 1, 0.001), 512, ""),
    "cells_of_four_planes": (random_cells(3, 128, 15, 0.5), 128, "CAM6"),
}


@pytest.mark.parametrize(("cells", "side", "rule"), WRITTEN.values(), ids=WRITTEN)
def test_cells_are_written_and_read_back(cells: Cells, side: int, rule: str, cam6_rle: str) -> None:
    done = read(cam6_rle, ["--replies", *(["--rule", rule] if rule else [])], replies_of(cells, side))
    text = done.output.decode("latin-1")
    assert (done.status, done.errors) == (0, b"")
    assert text.startswith(f"x = {side}, y = {side}" + (f", rule = {rule}" if rule else "") + "\n")
    assert max(map(len, text.split("\n"))) <= 70
    assert read_pattern(text) == Pattern(side, side, (0, 0), cells)
    assert_is_set(cam6_rle, text, Place(side=side, planes=read_pattern(text).planes()))


def test_a_glider_goes_in_moves_by_a_cell_each_way_and_comes_out(cam6: str, cam6_rle: str) -> None:
    set_lines = read(cam6_rle, Place(column=255, row=254).words(), GLIDER).output.decode()
    life = f": L {ADD_EIGHT} {{ 0 0 CENTER 1 0 0 0 0 0 }} >PLN0 ;"
    rule, cycle = rule_command("L", "A", "N/MOORE", "&/CENTERS", life), cycle_command(("L", "-", "EVEN", 0))
    steps = set_lines + line_of(do="run", n=4)
    session = "\n".join([line_of(**rule), line_of(**cycle), steps, line_of(do="plane", plane=0), ""])
    done = ran([cam6], session.encode(), patience=60)
    assert (done.status, done.errors) == (0, b"")
    came = read_pattern(read(cam6_rle, ["--replies"], done.output.decode()).output.decode())
    assert came.cells == {((x + 256) % 256, (y + 255) % 256): 1 for x, y in read_pattern(GLIDER).cells}


# The header of a text, and what comes after it. A letter above O or o is a state that four planes don't have.
TEXT = re.compile(r"^\s*x\s*=\s*(\d+)\s*,\s*y\s*=\s*(\d+).*\n([^!]*)", re.M)
TOO_MANY_STATES = re.compile("[P-Zp-z]")


def fits_a_torus(path: Path) -> bool:
    """Whether a file has a pattern that is no larger than a torus, with the states of four planes."""
    found = TEXT.search(path.read_text(encoding="latin-1"))
    return bool(found and max(int(found[1]), int(found[2])) <= max(SIDES) and not TOO_MANY_STATES.search(found[3]))


def pytest_generate_tests(metafunc: pytest.Metafunc) -> None:
    """Has each pattern of the folder of `--patterns` be set."""
    if "elsewhere" in metafunc.fixturenames:
        folder = Path(metafunc.config.getoption("patterns"))
        paths = [pytest.param(path, id=path.name) for path in sorted(folder.rglob("*.rle")) if fits_a_torus(path)]
        skip = pytest.mark.skip(reason=f"LEFT OUT: {folder} has no patterns")
        metafunc.parametrize("elsewhere", paths or [pytest.param(folder, id="none", marks=skip)])


def test_a_pattern_of_another_program_is_set(elsewhere: Path, cam6_rle: str) -> None:
    text = elsewhere.read_text(encoding="latin-1")
    pattern = read_pattern(text)
    side = next(side for side in SIDES if max(pattern.width, pattern.height) <= side)
    assert_is_set(cam6_rle, text, Place(side, side - 2, side - 1, pattern.planes()))
