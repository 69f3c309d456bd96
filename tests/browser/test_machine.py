"""The page with a machine of its own: drawing, rules, time, files. The canvas shows the cells of a private machine."""

from __future__ import annotations

import json
import re
from collections.abc import Callable

import pytest
from PIL import Image, ImageChops
from pages.texts import sessions_of
from selenium.webdriver.common.keys import Keys
from support.programs import TOP, private, wait_until
from support.sessions import line_of

from browser import cells
from browser.teacher import Teacher, moved

pytestmark = pytest.mark.browser
BALLS, LETTERS = "billiard_balls", "letters"
# Steps that balls run, and steps that are done before a reload, or before the window is looked at.
STEPS, FEW = 60, 17
GLIDER = "x = 3, y = 3, rule = B3/S23\nbo$2bo$3o!"
GLIDER_CELLS = {(1, 0), (2, 1), (0, 2), (1, 2), (2, 2)}


def test_the_session_of_readme_is_clicked_and_typed(own: Teacher) -> None:
    assert own.torus("state") == "ready"
    typed = next(sessions_of("README.md"))[1]
    # Those that only look at the cells are left out.
    session = [line for line in typed if not re.search('"do":"(plane|count)"', line)]
    own.begin_anew()
    own.write_rule(json.loads(session[0]))
    own.wait_until("document.getElementById('cycle').children.length === 1")
    own.pick("pencil", 1)
    own.drag((0, 0))
    own.assert_shows(session[:3])
    own.click("#step")
    own.assert_shows(session)
    assert private(own.cam6, [*session, line_of(do="count", mask=2)])[-1] == '{"count":5,"ok":"count"}'
    own.click("#back")
    # The rule of README can't be undone. The page says why, and nothing has changed.
    own.wait_until("document.getElementById('trouble').dataset.fault === '64'")
    own.assert_shows(session)


def test_balls_run_and_are_taken_back(own: Teacher) -> None:
    lines = own.set_up(BALLS)
    first = own.canvas()
    own.click("#step", STEPS // 2)
    own.key(Keys.ARROW_RIGHT, STEPS // 2)
    own.assert_shows([*lines, moved(STEPS)])
    own.assert_count(STEPS)
    own.click("#back", STEPS // 2)
    own.key(Keys.ARROW_LEFT, STEPS // 2)
    own.assert_shows(lines)
    own.assert_count(0)
    assert own.canvas().tobytes() == first.tobytes()
    own.click("#back")
    own.assert_shows([*lines, moved(-1)])
    own.assert_count(-1)


def test_the_window_shows_the_cells(own: Teacher) -> None:
    lines = own.set_up(LETTERS)
    own.key(Keys.ARROW_RIGHT, FEW)
    own.assert_shows([*lines, moved(FEW)])
    # The middle of the window is the corner of the torus: letters lie over both seams.
    shown = cells.picture_after(own.cam6, [*lines, moved(FEW)])
    middle = ImageChops.offset(shown, 50, 50).crop((0, 0, 100, 100))
    assert len(cells.lit_pixels(middle)) > 50
    wait_until(lambda: own.seen(-50, -50, 100).tobytes() == middle.tobytes())
    assert cells.difference(own.seen(-50, -50, 100), middle) == ""


# Ways to run and to pause: what is pressed, where the dial stands, and for how many steps; below 0 they are undone.
WAYS = {
    "button": (lambda own: own.click("#run"), 0.5, 40),
    "space": (lambda own: own.key(" "), 0.5, 20),
    "b": (lambda own: own.key("b"), 0.5, -30),
    "dial": (lambda own: own.click("#run"), -1, -30),
}


@pytest.mark.parametrize(("press", "dial", "steps"), WAYS.values(), ids=WAYS)
def test_time_runs_and_pauses(own: Teacher, press: Callable[[Teacher], None], dial: float, steps: int) -> None:
    lines = own.set_up(LETTERS)
    own.slide("#dial", dial)
    own.script("document.activeElement.blur()")
    press(own)
    assert wait_until(lambda: own.count() / steps > 1)
    press(own)
    own.assert_shows([*lines, moved(own.wait_for_count())])


def test_the_scrubber_goes_to_a_step(own: Teacher) -> None:
    lines = own.set_up(LETTERS)
    own.click("#run")
    assert wait_until(lambda: own.count() > 40)
    count = own.pause()
    own.slide("#scrubber", count // 2)
    own.assert_shows([*lines, moved(count // 2)])
    own.slide("#scrubber", 0)
    own.assert_shows(lines)


FAULTS = {
    "an unknown word": ": F CENTER FOO >PLN0 ;",
    "too few numbers": ": F ( a comment ) CENTER + >PLN0 ;",
    "no THEN": ": F CENTER IF NORTH >PLN0 ;",
    "no end": ": F CENTER",
}


@pytest.mark.parametrize("text", FAULTS.values(), ids=FAULTS)
def test_a_fault_is_shown_at_its_token(own: Teacher, text: str) -> None:
    rule = {"name": "F", "half": "A", "hood": "N/VONN", "minor": "&/CENTERS", "text": text}
    (reply,) = map(json.loads, private(own.cam6, [line_of(do="rule", **rule)]))
    entries = json.loads((TOP / "docs" / "errors.json").read_text(encoding="utf-8"))["errors"]
    title = next(entry["title"] for entry in entries if entry["number"] == reply["fault"])
    own.begin_anew()
    own.write_rule(rule)
    own.wait_until("!document.getElementById('rule-fault').hidden")
    token = reply.get("token", "")
    fields = own.value("({ ...document.getElementById('rule-fault').dataset })")
    assert fields == {"fault": str(reply["fault"]), "token": str(token)}
    assert title.lower() in own.value("document.getElementById('rule-fault').textContent").lower()
    # A fault at the end of the text has the number of the token that is missing.
    tokens = [*text.split(), ""]
    marks = "[...document.querySelectorAll('#rule-marks mark')].map(one => [one.dataset.token, one.textContent])"
    marked = [(number, text.strip("⏎ \n")) for number, text in own.value(marks)]
    assert marked == ([(str(token), tokens[min(token, len(tokens)) - 1])] if token else [])
    own.write_rule(rule | {"text": ": F CENTER >PLN0 ;"})
    own.wait_until("document.getElementById('rule-fault').hidden")


def test_the_pencil_draws_a_line(own: Teacher) -> None:
    own.begin_anew()
    own.pick("pencil", 1)
    own.drag((10, 20), (11, 20), (12, 20), (13, 20), (14, 20))
    own.assert_shows([line_of(do="set", plane=0, row=20, bits=f"003e{0:060x}")])


def test_a_box_is_drawn_in_two_planes_and_cleared(own: Teacher) -> None:
    own.begin_anew()
    own.pick("box", 6)
    own.drag((40, 60), (42, 62), (43, 63))
    rows = {60: "f", 61: "9", 62: "9", 63: "f"}
    bits = {row: f"{0:010x}{digit}{0:053x}" for row, digit in rows.items()}
    own.assert_shows([line_of(do="set", plane=plane, row=row, bits=bits[row]) for plane in (1, 2) for row in rows])
    own.key(Keys.ESCAPE)
    own.click("#clear")
    own.assert_shows([])


def test_a_pattern_is_pasted_and_a_text_that_is_none_is_named_with_its_line(own: Teacher) -> None:
    own.begin_anew()
    own.click("#pattern")
    own.fill("#paste-text", "x = 3, y = 3\nbo$2b?$3o!")
    own.click("#paste")
    assert "2" in own.wait_until(
        "(place => !place.hidden && place.textContent)(document.getElementById('paste-fault'))"
    )
    own.fill("#paste-text", GLIDER)
    own.click("#paste")
    own.wait_until("document.getElementById('torus').dataset.piece && !document.querySelector('dialog[open]')")
    own.key(Keys.ENTER)
    assert wait_until(lambda: len(cells.lit_pixels(own.canvas())) == len(GLIDER_CELLS))
    found = cells.lit_pixels(own.canvas())
    left, top = (min(places) for places in zip(*found))
    assert {(x - left, y - top) for x, y in found} == GLIDER_CELLS
    # It is in the machine too, which the page brings along.
    own.reload()
    assert wait_until(lambda: cells.lit_pixels(own.canvas()) == found)


def test_a_page_that_is_loaded_again_goes_on(own: Teacher) -> None:
    lines = own.set_up(BALLS)
    own.click("#step", FEW)
    own.assert_count(FEW)
    for _ in range(2):
        own.reload()
        own.assert_shows([*lines, moved(FEW)])
    own.click("#back", FEW)
    own.assert_shows(lines)


def test_a_machine_is_kept_as_a_file_and_loaded(own: Teacher) -> None:
    lines = [*own.set_up(LETTERS), moved(3)]
    own.click("#step", 3)
    own.assert_shows(lines)
    path = own.download("#save-file")
    line = path.read_text(encoding="utf-8").strip()
    machine = json.loads(line)
    assert machine.get("machine", machine) == cells.machine_after(own.cam6, lines)
    assert private(own.cam6, [line]) == ['{"ok":"load"}']
    own.begin_anew()
    own.element("#load-file").send_keys(str(path))
    own.assert_shows(lines)


def test_a_picture_has_a_pixel_for_each_cell_and_a_film_the_states_one_after_another(own: Teacher) -> None:
    lines = own.set_up(LETTERS)
    own.click("#keep-picture")
    own.choose("#picture-scale", "1")
    with Image.open(own.download("#picture")) as picture:
        assert cells.difference(picture.convert("RGBA"), cells.picture_after(own.cam6, lines)) == ""
    own.click("#keep-picture")
    own.fill("#film-frames", "5")
    with Image.open(own.download("#film")) as film:
        assert film.n_frames == 5
        for step in range(film.n_frames):
            film.seek(step)
            wanted = cells.picture_after(own.cam6, [*lines, *[moved(1)] * step])
            assert cells.difference(film.convert("RGBA"), wanted) == "", f"frame {step}"


@pytest.mark.parametrize("entry, each, is_hidden", [("critters", "2", False), (LETTERS, "1", True)])
def test_a_rule_that_flashes_has_a_warning(own: Teacher, entry: str, each: str, is_hidden: bool) -> None:
    own.set_up(entry)
    own.wait_until(f"document.getElementById('warning').hidden === {str(is_hidden).lower()}")
    assert own.value("document.getElementById('each').value") == each
