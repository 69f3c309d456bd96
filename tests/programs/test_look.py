"""The examples, and how `./look` shows them by examples/shown.txt.

Each entry of the gallery has an example, which sets a machine up without a fault and without a step. Each film fits a terminal
and is never empty. Nothing flashes more than three times a second, and the way back ends with the first picture.
"""

from __future__ import annotations

import json
import os
import pty
import re
import subprocess
import termios
from collections.abc import Callable
from contextlib import suppress
from pathlib import Path
from typing import NamedTuple

import pytest
from oracle.palette import PALETTE, default_palette
from support.programs import TOP, Ran, private, ran

LOOK, FOLDER, GALLERY = str(TOP / "look"), TOP / "examples", TOP / "docs" / "GALLERY.md"
SIDE, COLUMNS, ROWS = 128, 80, 24
# A flash is a pair of changes, up and down, by a tenth of full light. Viewers should not see more than three a second.
CHANGE, FLASHES = 0.1, 3
# What begins a picture on a terminal.
HOME = b"\x1b[H"

Look = Callable[..., Ran]
# The colours of all cells, row by row, as a machine shows them.
Picture = list[str]


def lines_of(path: Path) -> list[str]:
    """The lines of a file."""
    return path.read_text(encoding="utf-8").splitlines()


class Film(NamedTuple):
    """How an example is shown: a line of examples/shown.txt, whose head says what its columns mean."""

    name: str
    x: int
    y: int
    w: int
    h: int
    light: str
    each: int
    rate: int
    steps: int
    way: str
    # The lines of the example.
    lines: list[str]

    def pictures(self, steps: int) -> int:
        """How many pictures so many steps have: the first one, those forward, and those back if there is a way."""
        return 1 + -(-steps // self.each) * (1 if self.way == "none" else 2)


def film_of(line: str) -> Film:
    """The film of a line of examples/shown.txt."""
    name, x, y, w, h, light, each, rate, steps, way, _ = line.split(maxsplit=10)
    lines = lines_of(FOLDER / f"{name}.lines")
    return Film(name, int(x), int(y), int(w), int(h), light, int(each), int(rate), int(steps), way, lines)


FILMS = [film_of(line) for line in lines_of(FOLDER / "shown.txt") if not line.startswith("#")]
NAMES = [film.name for film in FILMS]
each_film = pytest.mark.parametrize("film", FILMS, ids=NAMES)


def test_the_gallery_has_twenty_entries_and_the_letters() -> None:
    entries = re.findall(r"^    \./look (\w+)$", GALLERY.read_text(encoding="utf-8"), re.M)
    assert len(entries) == 21
    assert sorted(entries) == sorted(NAMES) == sorted(path.stem for path in FOLDER.glob("*.lines"))
    assert {path.stem for path in FOLDER.glob("*.turn")} == {film.name for film in FILMS if film.way == "turn"}


@each_film
def test_an_example_only_sets_a_machine_up(film: Film, cam6: str) -> None:
    picture, commands = lines_of(TOP / "docs" / "pictures" / f"{film.name}.lines"), [*map(json.loads, film.lines)]
    assert (picture[1], picture[-1]) == ("example", "picture")
    assert {it["do"] for it in commands} <= {"side", "rule", "cycle", "set", "map"}
    assert commands[0] == {"do": "side", "side": SIDE}
    assert [json.loads(it).get("ok") for it in private(cam6, film.lines, 256)] == [it["do"] for it in commands]
    colours = next((it["colours"] for it in commands if it["do"] == "map"), [*range(16)])
    assert film.light in ("-", PALETTE[colours[1]])


def brightness_of(light: tuple[int, int, int]) -> float:
    """The relative luminance of a light, 0 to 1."""
    parts = (level / 255 for level in light)
    red, green, blue = (part / 12.92 if part <= 0.04045 else ((part + 0.055) / 1.055) ** 2.4 for part in parts)
    return float(0.2126 * red + 0.7152 * green + 0.0722 * blue)


BRIGHTNESS = {f"{colour:x}": brightness_of(light) for colour, light in enumerate(default_palette())}


def flashes(lights: list[float], rate: int) -> float:
    """The most flashes in a second, of pictures of these mean lights at this rate."""
    changes, way, low, high = [], 0, lights[0], lights[0]
    for at, light in enumerate(lights):
        falls, rises = light <= high - CHANGE and way >= 0, light >= low + CHANGE and way <= 0
        if falls or rises:
            changes.append(at)
            way, low, high = -1 if falls else 1, light, light
        low, high = min(low, light), max(high, light)
    return max((sum(begin <= at < begin + rate for at in changes) for begin in changes), default=0) / 2


def test_flashes_are_counted() -> None:
    """By hand: eight pictures a second, dark and light by turns, change eight times."""
    assert flashes([0.0, 1.0, 0.0, 1.0, 0.0, 1.0, 0.0, 1.0, 0.0], 8) == 4
    assert flashes([0.0, 0.09, 0.0, 0.09], 4) == 0


def played(film: Film, cam6: str) -> list[Picture]:
    """All cells of each picture, on and back, as a private machine plays the film. Nothing may be refused."""
    picture, times = [f'{{"do":"colours","row":{row}}}' for row in range(SIDE)], -(-film.steps // film.each)
    on, back = (times * [f'{{"do":"{word}","n":{film.each}}}', *picture] for word in ("run", "back"))
    if film.way == "turn":
        back = [*lines_of(FOLDER / f"{film.name}.turn"), *on]
    lines = [*film.lines, *picture, *on, *(back if film.way != "none" else [])]
    replies = [json.loads(reply) for reply in private(cam6, lines, 256)]
    assert not [reply for reply in replies if "fault" in reply]
    rows = [reply["colours"] for reply in replies if "colours" in reply]
    return [rows[at : at + SIDE] for at in range(0, len(rows), SIDE)]


@each_film
def test_a_film(film: Film, cam6: str) -> None:
    """It fits a terminal, is never empty, shows plane 0 alone, doesn't flash, and ends with its first picture."""
    pictures = played(film, cam6)
    assert len(pictures) == film.pictures(film.steps)
    assert film.w <= COLUMNS and (film.h + 1) // 2 + 2 <= ROWS
    columns, rows = [(film.x + i) % SIDE for i in range(film.w)], [(film.y + j) % SIDE for j in range(film.h)]
    windows = [["".join(cells[row][column] for column in columns) for row in rows] for cells in pictures]
    assert all(set("".join(window)) != {"0"} for window in windows)
    seen = {cell for cells in pictures for row in cells for cell in row}
    assert film.light == "-" or seen <= {"0", f"{PALETTE.index(film.light):x}"}
    # The window, its quarters and its middle: column, row, width and height.
    w, h = film.w // 2, film.h // 2
    quarters = [(column, row, w, h) for column in (0, w) for row in (0, h)]
    for column, row, w, h in [(0, 0, film.w, film.h), *quarters, (w // 2, h // 2, w, h)]:
        parts = ["".join(line[column : column + w] for line in window[row : row + h]) for window in windows]
        lights = [sum(map(BRIGHTNESS.__getitem__, part)) / len(part) for part in parts]
        assert flashes(lights, film.rate) <= FLASHES, (column, row)
    if film.way == "back":
        assert pictures[-1] == pictures[0]
        return
    undone = private(cam6, [*film.lines, '{"do":"back","n":0}'], 256)[-1]
    assert json.loads(undone).get("fault") == 64, "it can't be undone"
    first, last = ([re.sub("[^0]", "#", row) for row in pictures[at]] for at in (0, -1))
    assert film.way != "turn" or last == first, "the same cells are lit, in whatever colour"


def on_terminal(size: tuple[int, int], command: list[str]) -> Ran:
    """What a program writes on a terminal of so many rows and columns."""
    ours, theirs = pty.openpty()
    termios.tcsetwinsize(theirs, size)
    with subprocess.Popen(command, stdout=theirs, stderr=subprocess.PIPE) as it, open(ours, "rb", 0) as terminal:
        os.close(theirs)
        written = b""
        # The terminal can't be read once its other end is closed.
        with suppress(OSError):
            while part := terminal.read(65536):
                written += part
        errors = it.communicate()[1]
    return Ran(it.returncode, written, errors)


@pytest.fixture
def look(cam6: str, cam6_draw: str, monkeypatch: pytest.MonkeyPatch) -> Look:
    """Runs `./look` with the programs under test. It writes into a pipe, or on a terminal of so many rows and columns."""
    monkeypatch.setenv("CAM6", cam6)
    monkeypatch.setenv("CAM6_DRAW", cam6_draw)
    return lambda *words, size=None: on_terminal(size, [LOOK, *words]) if size else ran([LOOK, *words])


@each_film
def test_three_steps_are_shown(film: Film, look: Look) -> None:
    done = look(film.name, "3")
    frames = done.output.split(HOME)[1:]
    assert (done.status, done.errors) == (0, b"")
    assert len(frames) == film.pictures(3)
    assert {frame.count(b"\n") for frame in frames} == {(film.h + 1) // 2}
    assert film.way != "back" or frames[-1] == frames[0]


def test_the_letters_need_no_name_the_names_are_listed_and_help_is_printed(look: Look) -> None:
    assert look("4") == look("letters", "4")
    done = look("--list")
    assert done.status == 0
    assert [line.split()[0] for line in done.output.decode().splitlines()] == NAMES
    assert look("--help").output.startswith(b"Shows a rule of the gallery")


@pytest.mark.parametrize("words", ["nobody", "letters x", "0", "4 5 6", "--all", "life 65536", "--list life"])
def test_arguments_are_refused(words: str, look: Look) -> None:
    assert look(*words.split()).status == 2


def test_a_terminal_holds_the_first_picture_or_is_too_small(look: Look) -> None:
    wanted = b"look: life needs 62 columns and 23 rows; this terminal has 40 and 12\n"
    assert look("life", "2", size=(12, 40)) == Ran(1, b"", wanted)
    done = look("life", "2", "20", size=(24, 80))
    assert (done.status, done.output.count(HOME)) == (0, 3 + 19)


def test_a_file_is_shown(look: Look, tmp_path: Path) -> None:
    path = tmp_path / "mine.lines"
    # Without a LF at its end.
    path.write_text("\n".join(lines_of(FOLDER / "letters.lines")), encoding="utf-8")
    done = look(str(path), "2")
    assert (done.status, done.errors, done.output.count(HOME)) == (0, b"", 5)


FLY = '{"do":"fly"}', 'line 1 of {path} is answered {{"fault":3}}'
NO_CYCLE = '{"do":"side","side":512}', "{path} sets no cycle, so nothing can run"


@pytest.mark.parametrize(("line", "errors"), [FLY, NO_CYCLE])
def test_a_file_that_cannot_be_shown_is_refused(line: str, errors: str, look: Look, tmp_path: Path) -> None:
    path = tmp_path / "mine.lines"
    path.write_text(line, encoding="utf-8")
    assert look(str(path), "2") == Ran(1, b"", f"look: {errors.format(path=path)}\n".encode())
