"""stdin and stdout of cam6_draw: a session's replies, and the pictures of them on a terminal, put together pixel by pixel."""

from __future__ import annotations

from collections.abc import Callable
from typing import Any

from oracle.lines import plain
from oracle.palette import PALETTE

SIDE = 128
# The cells of the first frame that are set.
CELLS = {(0, 0), (127, 127), (127, 0), (0, 127), (1, 2), (120, 120), (7, 7), (8, 8), (119, 119)}
# The columns and the rows that are drawn, which go round the corner of the torus.
WINDOW = [place % SIDE for place in range(120, 136)]


def in_plane(x: int, y: int) -> int:
    """The colour of a cell of the first frame: 1 if it is set, otherwise 0."""
    return int((x, y) in CELLS)


def in_colours(x: int, y: int) -> int:
    """The colour of a cell of the second frame, 0 to 15."""
    return (3 * x + 5 * y + x * y // 64) % 16


def replies() -> str:
    """Lines of replies for cam6_draw: a plane, then all rows in colours, and among them replies without a picture."""
    rows = [sum(in_plane(x, y) << SIDE - 1 - x for x in range(SIDE)) for y in range(SIDE)]
    spelled: list[dict[str, Any]] = [{"ok": "rule"}, {"ok": "cycle"}]
    spelled += [{"ok": "plane", "rows": [f"{row:0{SIDE // 4}x}" for row in rows]}]
    spelled += [{"ok": "run", "position": 0}, {"fault": 61}, {"count": len(CELLS), "ok": "count"}]
    spelled += [
        {"colours": "".join(f"{in_colours(x, y):x}" for x in range(SIDE)), "ok": "colours"} for y in range(SIDE)
    ]
    return "".join(f"{plain(reply).decode()}\n" for reply in [*spelled, {"ok": "run", "position": 0}])


def hue(colour: int) -> int:
    """The terminal's number for one of the sixteen colours, 0 to 15: the nearest one of its cube."""
    lights = bytes.fromhex(PALETTE[colour])
    red, green, blue = (0 if light < 48 else 1 if light < 115 else (light - 35) // 40 for light in lights)
    return 16 + 36 * red + 6 * green + blue


def terminal(colour: Callable[[int, int], int]) -> str:
    """The text that draws the cells of `WINDOW` on a terminal, two rows to a line. `colour` gets a column and a row."""
    lines = ""
    for upper, lower in zip(WINDOW[::2], WINDOW[1::2]):
        hues = [(hue(colour(x, upper)), hue(colour(x, lower))) for x in WINDOW]
        lines += "".join(f"\x1b[38;5;{above}m\x1b[48;5;{below}m\u2580" for above, below in hues) + "\x1b[0m\x1b[K\n"
    return f"\x1b[H{lines}\x1b[J"


def draw_frames() -> str:
    """Both frames, as cam6_draw writes them to a terminal."""
    return terminal(in_plane) + terminal(in_colours)


# The functions that make the texts of files.
FILES = {"crates/cam6_draw/stdin": replies, "crates/cam6_draw/stdout": draw_frames}
