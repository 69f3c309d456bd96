"""How many frames a second the page shows at side 256, beside a client in Python that has the same planes and shows none.

The figures are printed after the tests.
"""

from __future__ import annotations

import random
import re
import time
from collections.abc import Callable
from pathlib import Path

import pytest
from service.pages import Socket
from service.users import answers
from support.programs import PATIENCE
from support.sessions import line_of

from browser import cells
from browser.teacher import TORUS, Teacher

pytestmark = [pytest.mark.browser, pytest.mark.slow, pytest.mark.alone, pytest.mark.timeout(1800)]
ENTRIES = ("letters", "echoes", "critters", "rings", "time_tunnel")
# Frames are counted for so many seconds, and if fewer came than that, until so many have come, or for so many seconds at most.
SECONDS, LEAST, MOST_SECONDS = 1.0, 8, 20.0
# The page has to have so many frames a second, or on a busy computer a sixth of what the client has, in one of so many tries.
WANTED, SHARE, TRIES = 15, 1 / 6, 6
# The dial: 64 steps a second, a step a frame, and as many as there may be.
SLOW, FAST = 0.52, 1.0
COUNT = (Path(__file__).parent / "frames.js").read_text(encoding="utf-8")
# The planes that a rule's words write, of each half.
HALVES = {"A": "01", "B": "23"}


def asked_for_a_frame(teacher: Teacher, lines: list[str]) -> list[str]:
    """What a client asks for a frame: steps, and the planes that the rules write."""
    rules = cells.machine_after(teacher.cam6, lines)["rules"]
    words = [word for rule in rules for word in re.findall(r">PLN(\S)", rule["text"])]
    planes = sorted({plane for word in words for plane in HALVES.get(word, word)})
    steps = int(teacher.value("document.getElementById('each').value"))
    return [line_of(do="run", n=steps), *[line_of(do="plane", plane=int(plane)) for plane in planes]]


def noise() -> list[str]:
    """The lines of a box of random cells in the middle."""
    rows = {row: random.Random(row).getrandbits(130) for row in range(60, 191)}
    return [line_of(do="set", plane=0, row=row, bits=f"{bits << 66:064x}") for row, bits in rows.items()]


def frames_of_client(port: int, lines: list[str], asked: list[str]) -> float:
    """How many frames a second a client has. It asks for two at a time, as the page does."""
    with Socket(port, patience=PATIENCE) as one:
        answers(one, lines)
        for line in asked:
            one.send(line)
        begun, count, passed = time.monotonic(), 0, 0.0
        while passed < SECONDS / 2 or count < LEAST and passed < MOST_SECONDS:
            for line in asked:
                one.send(line)
            for _ in asked:
                one.read()
            count, passed = count + 1, time.monotonic() - begun
        return count / passed


def frames_of_page(teacher: Teacher, dial: float) -> tuple[float, float]:
    """The frames and the steps a second of the page, from random cells in the middle at side 256."""
    # To choose a side that is there already does nothing.
    for side in ("128", "256"):
        teacher.choose("#side", side)
        teacher.wait_until(f"{TORUS}.side === '{side}' && {TORUS}.count === '0'")
    teacher.click("[data-tool=random]")
    teacher.drag((60, 60), (100, 100), (190, 190))
    teacher.slide("#dial", dial)
    how = (1000 * SECONDS, LEAST, 1000 * MOST_SECONDS)
    passed, frames, steps = teacher.script(f"return (async function () {{ {COUNT} }})(...arguments)", *how)
    teacher.pause()
    return frames / passed, steps / passed


@pytest.mark.parametrize("entry", ENTRIES)
def test_frames_are_many_enough(own: Teacher, record_property: Callable[[str, str], None], entry: str) -> None:
    lines = own.set_up(entry)
    port, asked = int(own.value("location.port")), asked_for_a_frame(own, lines)
    machine = [*lines, line_of(do="side", side=256), *noise()]
    for _ in range(TRIES):
        before = frames_of_client(port, machine, asked)
        frames, steps = frames_of_page(own, SLOW)
        after = frames_of_client(port, machine, asked)
        if frames >= (wanted := min(WANTED, before * SHARE, after * SHARE)):
            break
    most = frames_of_page(own, FAST)
    slow, fast = (f"{found[0]:.1f} frames, {found[1]:.0f} steps" for found in ((frames, steps), most))
    figures = f"a step a frame: {slow}; the most steps: {fast}; a client: {before:.1f} and {after:.1f} frames"
    record_property("figures", f"{own.browser}, {entry}, {figures}")
    assert frames >= wanted
