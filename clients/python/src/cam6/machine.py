"""A machine, by calls that are named as the commands of the manual."""

from __future__ import annotations

import base64
import threading
from collections.abc import Iterable, Iterator, Sequence
from types import TracebackType
from typing import TYPE_CHECKING, Any, Optional, Protocol, TypeVar

from . import lines, placing
from .cells import Array, Row, random_rows
from .errors import Cam6Error
from .lines import Call
from .pipeline import Pipeline, outcome

if TYPE_CHECKING:
    from .pictures import Film, Picture
    from .sessions import Session

T = TypeVar("T")

# How many pictures of a film are asked for in one write.
AHEAD = 16
# How wide a picture is shown in a notebook, in pixels, at least.
SHOWN_WIDTH = 512


class Transport(Protocol):
    """What carries lines to a machine."""

    def query(self, lines: Sequence[bytes]) -> list[bytes]:
        """The replies to lines, in order."""

    def close(self) -> None:
        """Ends it."""


class Machine:
    """A machine of `cam6`: a torus of `side` by `side` cells in four planes, with rules, a cycle and colours.

    `cam6.local()` and `cam6.connect()` make one. Use it in a `with` block, or call `close()`. Several threads may use
    it: each call is done as a whole, but for `put` of a part of a plane and for `frames`.

    All calls raise `TypeError` if an argument is of another kind, and `ValueError` if it is out of its range. Then
    nothing was sent. They raise a `Fault` if `cam6` refuses the command. Then the machine is as it was. They raise
    `Lost` if the program or the host is gone, and `GaveUp` or `Diverged` if it has a journal and can't go on.
    """

    def __init__(self, transport: Transport, side: int, session: Optional[Session] = None) -> None:
        self._transport = transport
        self._side = side
        self._lock = threading.RLock()
        # The halves of the rules that were defined here, and the names of those that were values.
        self._halves: dict[str, str] = {}
        self._names: dict[Any, str] = {}
        self.session = session
        """The session of a machine with a journal, or None."""

    def __enter__(self) -> Machine:
        return self

    def __exit__(
        self, kind: Optional[type[BaseException]], error: Optional[BaseException], trace: Optional[TracebackType]
    ) -> None:
        self.close()

    def __repr__(self) -> str:
        return f"<cam6 machine of {self._side} by {self._side} cells>"

    def close(self) -> None:
        """Ends the program, or leaves the seat. A seat keeps its machine. A second time it does nothing."""
        self._transport.close()

    def _query(self, sent: Sequence[bytes]) -> list[bytes]:
        """The replies to lines, while no other thread sends any."""
        with self._lock:
            return self._transport.query(sent)

    def _now(self, call: Call[T]) -> T:
        """Sends the lines of a call, and returns its value."""
        value = outcome(call, self._query(call.lines))
        if call.side is not None:
            self._side = call.side
        return value

    def pipeline(self) -> Pipeline:
        """An empty pipeline: calls that are sent in one write. See `Pipeline`."""
        return Pipeline(self)

    # Cells

    @property
    def side(self) -> int:
        """How many columns and rows the machine has: 128, 256 or 512."""
        return self._side

    def set_side(self, n: int) -> None:
        """Makes all planes blank with `n` columns and rows, and the position 0. Rules, cycle and colours stay.

        `n` is 128, 256 or 512. Raises `SideAboveLimit` if it is above the machine's limit.
        """
        self._now(lines.set_side(n))

    def set_row(self, plane: int, row: int, bits: Row) -> None:
        """Writes a row of a plane.

        `plane` is 0 to 3, and `row` is 0 to `side` - 1. `bits` are the cells from column 0 on: a list, bytes or a numpy
        array of `side` numbers 0 and 1, `side` / 8 packed bytes, or a text of `side` / 4 hexadecimal digits.
        """
        self._now(lines.set_row(plane, row, bits, self._side))

    def clear(self, plane: int) -> None:
        """Clears a plane, 0 to 3."""
        self._now(lines.clear(plane))

    def row(self, plane: int, row: int) -> bytes:
        """The cells of a row, a byte each: `row(0, 5)[7]` is 0 or 1, the cell of plane 0 in row 5 and column 7.

        `plane` is 0 to 3, and `row` is 0 to `side` - 1.
        """
        return self._now(lines.row(plane, row, self._side))

    def plane(self, plane: int) -> Array:
        """The cells of a plane, 0 to 3: an array of 0 and 1, by row and column.

        It is a numpy array of uint8. Without numpy it is a list of `bytes`, one object a row.
        """
        return self._now(lines.plane(plane))

    def cells(self) -> Array:
        """The states of all cells, an array of 0 to 15 by row and column.

        Plane 0 counts 1, plane 1 counts 2, plane 2 counts 4 and plane 3 counts 8.
        """
        return self._now(lines.states())

    def put(self, plane: int, cells: Any, x: int = 0, y: int = 0) -> None:
        """Writes cells on a plane, with the upper left one at column `x` and row `y`. What is beside them stays.

        `plane` is 0 to 3. `cells` are up to `side` rows of up to `side` numbers 0 and 1: lists, bytes or a numpy array.
        They go on over the seams of the torus, and `x` and `y` may be negative. The rows are sent in one write.
        """
        placed = placing.placed(plane, cells, x, y, self._side)
        if placed.width == self._side:
            rows = placed.whole_rows()
        else:
            asked = [lines.row_line(placed.plane, row) for row in placed.row_numbers()]
            old = Call(
                asked, b'{"bits":"', lambda replies: [lines.digits_of_reply(reply).decode() for reply in replies]
            )
            rows = placed.over(self._now(old))
        self._now(lines.set_rows(placed.plane, rows))

    def random(self, plane: int, density: float = 0.5, seed: Any = None) -> None:
        """Fills a plane, 0 to 3, with random cells. Each is set with the probability `density`, 0 to 1.

        The same `seed` gives the same cells, on each computer and with or without numpy. It is one that `random.Random`
        takes: a number, a text or bytes. None gives other cells each time.
        """
        number = lines.number(plane, "plane", 0, 3)
        rows = random_rows(self._side, placing.checked_density(density), seed)
        self._now(lines.set_rows(number, enumerate(rows)))

    def count(self, mask: Any = 65_534) -> int:
        """How many cells have a state of the mask: those whose state s has bit s set in it.

        `mask` is 0 to 65535, or the states themselves: `count([1, 3])` is `count(0b1010)`. Without it the cells that
        are set in some plane are counted.
        """
        return self._now(lines.count(mask))

    def colour_map(self, colours: Sequence[int]) -> None:
        """Gives each state a colour: sixteen numbers of 0 to 15, that of state 0 first."""
        self._now(lines.colour_map(colours))

    def colours(self, row: int) -> str:
        """The colours of a row's cells, a hexadecimal digit each. `row` is 0 to `side` - 1."""
        return self._now(lines.colours(row, self._side))

    # Rules and steps

    def rule(
        self, name: Any, text: Any = None, *, half: str = "A", hood: str = "N/MOORE", minor: str = "&/CENTERS"
    ) -> None:
        """Defines a rule, or redefines it.

        `name` has 1 to 24 visible ASCII characters without `"` and `\\`, and is not `-`. `text` is the text of the rule,
        or a value of `cam6.rules`, which brings its own half, neighbourhood and minor assignment. Such a value alone
        has the name that it brings, as in `rule(cam6.rules.life("B3/S23"))`.

        `half` is A or B. `hood` is N/MOORE, N/VONN, N/MARG, N/MARG-PH or N/MARG-HV. `minor` is &/CENTERS, &/PHASES or
        &/HV.

        Raises the faults 20 to 28 for the text, 40 to 43 if the rule stops at an address, `RuleInUse` if the cycle uses
        the rule, and `TooManyRules` if there are 16 already.
        """
        self._now(self._rule(name, text, half, hood, minor))

    def _rule(self, name: Any, text: Any, half: Any, hood: Any, minor: Any) -> Call[None]:
        """The call that defines a rule, given by its parts or as a value. Notes its half and its name at once."""
        if text is None and hasattr(name, "text"):
            name, text = getattr(name, "name", None), name
        if isinstance(text, str) or not hasattr(text, "text"):
            call = lines.rule(name, text, half, hood, minor)
        elif (half, hood, minor) != ("A", "N/MOORE", "&/CENTERS"):
            raise ValueError("a rule of cam6.rules brings its own half, hood and minor, so leave them out")
        else:
            half = getattr(text, "half", "A")
            call = lines.rule(name, text.text, half, text.hood, text.minor)
            self._names[text] = name
        self._halves[name] = half
        return call

    def drop(self, name: str) -> None:
        """Forgets a rule. Raises `NoSuchRule`, or `RuleInUse` if the cycle uses it."""
        self._now(lines.drop(name))

    def rules(self) -> list[str]:
        """The names of the rules, in the order in which they were defined."""
        return self._now(lines.rules())

    def cycle(self, *entries: Any) -> None:
        """Says what each step does, by 1 to 16 entries, and sets the position to 0.

        An entry is a mapping with some of `a`, `b`, `grid` and `phase`, such as `{"a": "P", "grid": "ODD"}`. Without
        them it has `-`, `-`, `EVEN` and 0. These four in a tuple are an entry too. So is a name alone: it stands for its
        own half if this machine object defined the rule, and for half A if not. A value of `cam6.rules` stands for its
        whole cycle, once `rule` has given it a name. `cycle({})` does nothing in a step, and so frees all rules.

        Raises `NoSuchRule` or `RuleOfOtherHalf`.
        """
        self._now(self._cycle(entries))

    def _cycle(self, entries: Iterable[Any]) -> Call[None]:
        """The call that sets the cycle, each entry spelled out."""
        spelled: list[Any] = []
        for entry in entries:
            spelled += self._entries_of(entry) if hasattr(entry, "cycle") else [entry]
        return lines.cycle(spelled, self._halves)

    def _entries_of(self, value: Any) -> list[dict[str, Any]]:
        """The entries of a rule's own cycle. Raises ValueError if the rule has no name."""
        name = self._names.get(value) or getattr(value, "name", None)
        if not name:
            raise ValueError("this rule has no name yet: define it with rule(name, value) first")
        key = str(getattr(value, "half", "A")).lower()
        return [{key: name, "grid": grid, "phase": phase} for grid, phase in value.cycle]

    def run(self, n: int = 1) -> int:
        """Does `n` steps, 0 to 2,147,483,647. Returns the position in the cycle after them.

        More than 65,535 steps are asked for by several commands, one after another. Raises `NoCycle`.
        """
        return self._steps("run", n)

    def back(self, n: int = 1) -> int:
        """Undoes `n` steps, 0 to 2,147,483,647. Returns the position in the cycle after that.

        The steps need not have been done before. Raises `NoCycle`, or `NotReversible` if a rule of the cycle can't be
        undone.
        """
        return self._steps("back", n)

    def _steps(self, word: str, n: Any) -> int:
        """Does or undoes steps, and returns the position. Sends a line at a time, so that not much is under way if the
        call is interrupted."""
        call = lines.steps(word, n)
        replies: list[bytes] = []
        with self._lock:
            for line in call.lines:
                replies += self._query([line])
                if not replies[-1].startswith(call.ok):
                    break
        return outcome(call, replies)

    # Saved machines

    def save(self) -> bytes:
        """The line that loads this machine: all of it but its limit, in bytes without LF. `load` takes it."""
        return self._now(lines.save())

    def load(self, saved: bytes) -> None:
        """Replaces the machine by one that `save` returned, here or elsewhere. `side` may change.

        Raises `LoadSpelling` or `NotASavedMachine` if it was changed since, and `SideAboveLimit`.
        """
        self._now(lines.load(saved))

    def ask(self, line: Any) -> dict[str, Any]:
        """Sends a line as it stands, and returns the reply. Raises the `Fault` of a line that is refused.

        `line` is a text, bytes or a mapping, without LF. Nothing in it is checked.
        """
        return self._now(lines.ask(line))

    # Pictures

    def frames(self, n: int, every: int = 1, plane: int = 0, back: bool = False, *, ahead: int = 1) -> Iterator[Array]:
        """Yields `n` pictures of a plane, an array each, and does `every` steps after each. `back` undoes them.

        `n` and `every` are 0 or more, and `plane` is 0 to 3. `frames(10)` and `frames(10)` again yield twenty different
        pictures, and then `frames(20, back=True)` leads to the first one. If you leave the loop early the machine is
        `every` steps after the last picture. `ahead` pictures are asked for in one write, which is faster: if you
        leave the loop early, up to `ahead` times `every` steps more are done.
        """
        n, every = lines.number(n, "n", 0, lines.LARGEST), lines.number(every, "every", 0, lines.MOST_OF_CALL)
        ahead = lines.number(ahead, "ahead", 1, 4096)
        shown, moved = lines.plane(plane), lines.steps("back" if _truth(back, "back") else "run", every)
        return self._frames(n, shown, moved, ahead)

    def _frames(self, n: int, shown: Call[Array], moved: Call[int], ahead: int) -> Iterator[Array]:
        """Yields `n` pictures, and does the steps after each. Up to `ahead` are asked for in one write."""
        each = [*shown.lines, *moved.lines]
        while n > 0:
            some = min(n, ahead)
            replies = self._query(each * some)
            for at in range(0, len(replies), len(each)):
                picture = outcome(shown, replies[at : at + 1])
                outcome(moved, replies[at + 1 : at + len(each)])
                yield picture
            n -= some

    def picture(self, scale: int = 1, palette: Any = None, crop: Optional[tuple[int, int, int, int]] = None) -> Picture:
        """A picture of all cells in their colours. See `cam6.pictures.picture`.

        A cell is `scale` pixels wide and high, 1 to 16. `palette` has the sixteen colours. `crop` is x, y, width and
        height, over the seams.
        """
        from . import pictures

        colours = self._now(lines.all_colours(self._side))
        return pictures.picture(colours, palette=palette, scale=scale, crop=crop)

    def png(self, scale: int = 1, palette: Any = None) -> bytes:
        """A PNG file of all cells in their colours, `scale` pixels a cell."""
        return self.picture(scale=scale, palette=palette).png()

    def film(
        self,
        frames: int,
        every: int = 1,
        plane: int = 0,
        back: bool = False,
        *,
        ms: int = 40,
        scale: int = 1,
        palette: Any = None,
        crop: Optional[tuple[int, int, int, int]] = None,
    ) -> Film:
        """A film of `frames` pictures of a plane, with `every` steps after each. See `frames` and `cam6.pictures.film`.

        Each picture stays for `ms` milliseconds. The machine is `frames` times `every` steps further after that.
        """
        from . import pictures

        shown = self.frames(frames, every, plane, back, ahead=AHEAD)
        return pictures.film(shown, ms=ms, palette=palette, scale=scale, crop=crop)

    def apng(self, frames: Any, ms: int = 40) -> bytes:
        """An animated PNG file. `frames` is how many pictures of plane 0 are run, or arrays such as `frames()` yields."""
        from . import pictures

        shown = frames if isinstance(frames, Iterable) else self.frames(frames, ahead=AHEAD)
        return pictures.film(shown, ms=ms).apng()

    def show(self, palette: Any = None, crop: Optional[tuple[int, int, int, int]] = None) -> None:
        """Prints all cells on a terminal in their colours, two rows a line. `crop` is x, y, width and height."""
        from . import pictures

        colours = self._now(lines.all_colours(self._side))
        print(pictures.terminal(colours, palette=palette, crop=crop))

    def _repr_png_(self) -> Optional[bytes]:
        """The picture of all cells for a notebook, as a PNG file. None if it cannot be made."""
        try:
            return self.png()
        except (Cam6Error, ImportError):
            return None

    def _repr_html_(self) -> Optional[str]:
        """The picture of all cells for a notebook, as HTML. None if it cannot be made."""
        data = self._repr_png_()
        if data is None:
            return None
        text, width = base64.b64encode(data).decode(), max(SHOWN_WIDTH, self._side)
        return f'<img width="{width}" style="image-rendering:pixelated" src="data:image/png;base64,{text}">'


def _truth(value: Any, name: str) -> bool:
    """Checks that a value is True or False, and returns it."""
    if not isinstance(value, bool):
        raise TypeError(f"{name} is True or False, not {value!r:.60}")
    return value


def side_of(transport: Transport) -> int:
    """The side of the machine on a channel, found by a `row` line. The machine stays as it is."""
    reply = transport.query([lines.row_line(0, 0)])[0]
    return len(lines.digits_of_reply(reply)) * 4
