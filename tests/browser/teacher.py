"""Whoever uses the page: what a hand does with it by mouse and keys, and what an eye sees."""

from __future__ import annotations

import base64
import re
import time
from collections.abc import Iterator
from contextlib import contextmanager
from io import BytesIO
from pathlib import Path
from typing import Any

from PIL import Image
from selenium.webdriver.common.action_chains import ActionChains
from selenium.webdriver.common.actions.action_builder import ActionBuilder
from selenium.webdriver.remote.webelement import WebElement
from selenium.webdriver.support.wait import WebDriverWait
from support.programs import PATIENCE, TOP, wait_until
from support.sessions import line_of

from browser import cells
from browser.browsers import Browser

POLL = 0.03
# The seconds and the looks for which a count has to stay, so that no step is under way.
STAYS, LOOKS = 1.0, 25
# Seconds after which a browser is asked again for what it has not done.
ASKS_AGAIN = 3
READY = "document.documentElement.dataset.ready === '1'"
TORUS = "document.getElementById('torus').dataset"
# Where the torus is in the window, which place of it is in its left upper corner there, its side, and the pixels of a cell.
VIEW = f"""(({{ x, y }}, {{ left, top, side, zoom }}) => [x, y, left, top, side, zoom].map(Number))(
  document.getElementById('torus').getBoundingClientRect(), {TORUS})"""
# The names of files that a browser has not written yet. Chromium begins with a hidden one, which has no such ending.
UNFINISHED = re.compile(r"^\.|\.(crdownload|part|tmp)$")


def moved(count: int) -> str:
    """The line that goes so many steps on, or back if the count is below 0."""
    return line_of(do="run", n=count) if count >= 0 else line_of(do="back", n=-count)


class Teacher:
    """A user of the page in a browser. What is waited for and doesn't come raises selenium's TimeoutException."""

    def __init__(self, browser: Browser, cam6: str) -> None:
        self.browser, self.driver, self.cam6 = browser, browser.driver, cam6

    # What an eye sees.

    def script(self, body: str, *values: object) -> Any:
        """What a JavaScript function with this body returns. `arguments` has the values. A promise is awaited."""
        return self.driver.execute_script(body, *values)

    def value(self, expression: str, *values: object) -> Any:
        """The value of a JavaScript expression on the page. `arguments` has the values."""
        return self.script(f"return {expression}", *values)

    def wait_until(self, condition: str, *values: object) -> Any:
        """Waits until a JavaScript expression has a value that isn't false, null, 0 or empty, and returns the value."""
        waits = WebDriverWait(self.driver, PATIENCE, POLL)
        return waits.until(lambda _: self.value(condition, *values), f"it never came to be so: {condition} {values}")

    def torus(self, name: str) -> str:
        """What the page tells of the torus under a name of its dataset, as `count` or `state`, always as a text."""
        return str(self.value(f"{TORUS}.{name}"))

    def canvas(self) -> Image.Image:
        """The picture (RGBA) on the canvas that has a pixel for each cell, whatever the window shows of it."""
        url: str = self.value("document.getElementById('cells').toDataURL('image/png')")
        return Image.open(BytesIO(base64.b64decode(url.partition(",")[2]))).convert("RGBA")

    def seen(self, column: int, row: int, size: int) -> Image.Image:
        """What the window shows of a square of cells, `size` a side, from this cell on: the middle pixel of each."""
        zoom = self.value(VIEW)[-1]
        x, y = self.place(column, row)
        window = Image.open(BytesIO(self.driver.get_screenshot_as_png())).convert("RGBA")
        # A pixel of the new picture is taken half a pixel after its corner.
        corner = (x + 0.5 - zoom / 2, y + 0.5 - zoom / 2)
        return window.transform((size, size), Image.Transform.AFFINE, (zoom, 0, corner[0], 0, zoom, corner[1]))

    def errors(self, *pardoned: str) -> list[str]:
        """What the console got since the last call: errors, and the page's own warnings. Those with one of these texts are
        left out."""
        kinds = {("SEVERE", True), ("SEVERE", False), ("WARNING", True)}
        messages = self.driver.get_log("browser")
        errors = [one["message"] for one in messages if (one["level"], one["source"] == "console-api") in kinds]
        return [error for error in errors if not any(text in error for text in pardoned)]

    def count(self) -> int:
        """The number of steps since the first state, as the page shows it now; below 0 before that state."""
        return int(self.torus("count"))

    def wait_for_count(self) -> int:
        """Waits until the count stays while the page is ready, and returns it. It stays for a second, and for so many
        looks, since steps take longer on a busy computer. Fails if it never stays."""
        looks: list[tuple[float, int]] = []

        def stays() -> bool:
            looks.append((time.monotonic(), self.count()))
            if looks[0][1] != looks[-1][1] or self.torus("state") != "ready":
                looks[:-1] = []
            return len(looks) > LOOKS and looks[-1][0] - looks[0][0] > STAYS

        assert wait_until(stays), f"the count doesn't settle: {looks}"
        return looks[0][1]

    def assert_count(self, count: int) -> None:
        """Fails if the count doesn't come to be this one, and stay."""
        wait_until(lambda: self.count() == count)
        assert self.wait_for_count() == count

    def assert_shows(self, lines: list[str]) -> None:
        """Fails if the canvas doesn't come to show what a private machine has after these lines."""
        wanted = cells.picture_after(self.cam6, lines)
        wait_until(lambda: self.canvas().tobytes() == wanted.tobytes())
        difference = cells.difference(self.canvas(), wanted)
        assert not difference, "\n".join([f"{difference}; wanted is what ./cam6 has after", *lines])

    # What a hand does.

    @contextmanager
    def window(self) -> Iterator[None]:
        """Opens another window, in which all happens within the context. It stays open after that."""
        first = self.driver.current_window_handle
        self.driver.switch_to.new_window("window")
        yield
        self.driver.switch_to.window(first)

    def go(self, address: str) -> None:
        """Goes to an address. Another text after `#` alone would not load the page anew, so it comes from elsewhere."""
        self.driver.get("about:blank")
        self.driver.get(address)

    def open(self, address: str) -> None:
        """Goes to the page, and waits until it is ready."""
        self.go(address)
        self.wait_until(READY)

    def reload(self) -> None:
        """Loads the page again, and waits until it is ready."""
        self.driver.refresh()
        self.wait_until(READY)

    def element(self, selector: str) -> WebElement:
        """Waits for the first element of a CSS selector to be there and not disabled, and returns it."""
        script = "(found => found && !found.disabled && found)(document.querySelector(arguments[0]))"
        element: WebElement = self.wait_until(script, selector)
        return element

    def click(self, selector: str, times: int = 1) -> None:
        """Clicks an element so many times."""
        for _ in range(times):
            self.element(selector).click()

    def fill(self, selector: str, text: str) -> None:
        """Types a text into a field, in the place of what is there."""
        field = self.element(selector)
        field.clear()
        field.send_keys(text)

    def choose(self, selector: str, value: str) -> None:
        """Chooses the option of a menu that has this value (not this text)."""
        option = "[...arguments[0].options].find(one => one.value === arguments[1])"
        self.value(option, self.element(selector), value).click()

    def slide(self, selector: str, value: float) -> None:
        """Moves a slider, by a script, since mouse and keys don't reach each value."""
        tells = "['input', 'change'].forEach(name => arguments[0].dispatchEvent(new Event(name, { bubbles: true })))"
        self.script(f"arguments[0].value = arguments[1]; {tells}", self.element(selector), value)

    def key(self, key: str, times: int = 1) -> None:
        """Presses a key, which goes to the element that has the focus, so many times."""
        for _ in range(times):
            ActionChains(self.driver, duration=0).send_keys(key).perform()

    def place(self, column: int, row: int) -> tuple[int, int]:
        """The pixel (x, y) of the window in the middle of a cell. The column and the row wrap round the torus."""
        x, y, left, top, side, zoom = self.value(VIEW)
        return int(x + ((column - left) % side + 0.5) * zoom), int(y + ((row - top) % side + 0.5) * zoom)

    def drag(self, first: tuple[int, int], *others: tuple[int, int]) -> None:
        """Presses the button on a cell, moves over the others, and lets it go on the last. One cell alone is clicked."""
        actions = ActionBuilder(self.driver, duration=0)
        mouse = actions.pointer_action.move_to_location(*self.place(*first)).pointer_down()
        for other in others:
            mouse.move_to_location(*self.place(*other))
        mouse.pointer_up()
        actions.perform()

    def pick(self, tool: str, state: int) -> None:
        """Takes a tool, by its `data-tool`, and the state 0 to 15 that tools draw."""
        self.fill("#draw-state", str(state))
        self.click(f"[data-tool={tool}]")

    def set_up(self, entry: str) -> list[str]:
        """Chooses an entry of the gallery by its name. Fails if it isn't shown then. Returns its example's lines."""
        self.click("#gallery")
        self.click(f"[data-entry={entry}]")
        lines = (TOP / "examples" / f"{entry}.lines").read_text(encoding="utf-8").splitlines()
        self.assert_shows(lines)
        return lines

    def begin_anew(self) -> None:
        """Makes a new machine by the page's button, and fails if it doesn't come to be blank."""
        self.click("#tab-about")
        self.click("#blank")
        self.assert_shows([])

    def write_rule(self, rule: dict[str, str]) -> None:
        """Fills the editor with a rule (members half, hood, minor, name and text), and presses Define."""
        self.click("#tab-rule")
        for part in ("half", "hood", "minor"):
            self.choose(f"#rule-{part}", rule[part])
        self.fill("#rule-name", rule["name"])
        self.fill("#rule-text", rule["text"])
        self.click("#define")

    def pause(self) -> int:
        """Waits until time runs, pauses it, and returns the count at which it stays."""
        self.click("#run[aria-pressed=true]")
        return self.wait_for_count()

    def download(self, selector: str) -> Path:
        """Clicks an element, waits for the one new file that the page gives to keep, and returns its path."""
        before = {*self.browser.downloads.iterdir()}
        self.click(selector)

        def new(_: object) -> list[Path]:
            paths = [*{*self.browser.downloads.iterdir()} - before]
            return paths if all(not UNFINISHED.search(one.name) and one.stat().st_size > 0 for one in paths) else []

        # A file may get another name while it is looked at.
        waits = WebDriverWait(self.driver, PATIENCE, POLL, [FileNotFoundError])
        paths: list[Path] = waits.until(new, "no file was kept")
        assert len(paths) == 1
        return paths[0]

    def size(self, width: int, height: int) -> None:
        """Gives the page in the window a size in pixels. Asks the browser again until it has it, or fails."""

        def is_taken() -> bool:
            more = self.value("[outerWidth - innerWidth, outerHeight - innerHeight]")
            self.driver.set_window_size(width + more[0], height + more[1])
            return wait_until(lambda: self.value("[innerWidth, innerHeight]") == [width, height], ASKS_AGAIN)

        assert wait_until(is_taken), f"the window never comes to be {width} by {height}"
