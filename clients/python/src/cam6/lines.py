"""Commands as lines of bytes, and what is read from their replies.

Each function checks its arguments and returns a `Call`. It raises `TypeError` if an argument is of another kind, and
`ValueError` if it is out of its range. So whatever is refused here was not sent.
"""

from __future__ import annotations

import json
import operator
import re
from collections.abc import Callable, Iterable, Mapping, Sequence
from typing import Any, Generic, Optional, TypeVar, Union

from . import cells
from .cells import SIDES, Array, Row
from .errors import Cam6Error, command_of, shortened
from .wirings import HOODS, MINORS

T = TypeVar("T")

# How many bytes a line may have, and one that loads a machine.
LINE_LIMIT, LOAD_LIMIT = 16_384, 2_097_152
LOAD_HEAD, LOAD_TAIL = b'{"do":"load","machine":', b"}"
SAVE_HEAD, SAVE_TAIL = b'{"machine":', b',"ok":"save"}'
SAVE = b'{"do":"save"}'
LOADED = b'{"ok":"load"}'
# The most steps of a line, and of a call.
MOST_STEPS, MOST_OF_CALL = 65_535, 2**31 - 1
LARGEST = 2**64 - 1
# A reply that begins so is one to a command that changed the machine.
CHANGES = tuple(b'{"ok":"%s"' % word for word in b"set clear rule drop cycle run back side map load".split())
# A line of steps, as `steps` writes it.
STEPS = re.compile(rb'\{"do":"(run|back)","n":(0|[1-9][0-9]{0,4})\}')

Entry = Union[str, Mapping[str, Any], Sequence[Any]]


class Call(Generic[T]):
    """Lines, and how their replies are read. If all of them succeed the machine has `side`, unless that is None."""

    __slots__ = ("lines", "ok", "read", "side")

    def __init__(
        self, lines: list[bytes], ok: bytes, read: Callable[[list[bytes]], T], side: Optional[int] = None
    ) -> None:
        self.lines, self.ok, self.read, self.side = lines, ok, read, side


def number(value: Any, name: str, low: int, high: int) -> int:
    """Returns a value as an `int` if it is a whole number of a range, else raises. numpy's whole numbers are taken.
    True, 1.0 and "1" are not."""
    if type(value) is not int:
        if isinstance(value, bool) or type(value).__name__ in ("bool_", "bool"):
            raise TypeError(f"{name} is a whole number from {low} to {high}, not {value!r}")
        try:
            value = operator.index(value)
        except TypeError:
            raise TypeError(f"{name} is a whole number from {low} to {high}, not {value!r:.60}") from None
    if not low <= value <= high:
        raise ValueError(f"{name} is a whole number from {low} to {high}, not {value}")
    return int(value)


def text_of(value: Any, name: str) -> str:
    """Returns a value if it is a text that UTF-8 can encode, else raises."""
    if not isinstance(value, str):
        raise TypeError(f"{name} is a text, not {value!r:.60}")
    try:
        value.encode()
    except UnicodeEncodeError:
        raise ValueError(f"{name} has a half of a surrogate pair, which UTF-8 can't say") from None
    return str(value)


def one_of(value: Any, name: str, words: Iterable[str]) -> str:
    """Returns a value if it is one of some words, else raises."""
    words = list(words)
    if not isinstance(value, str):
        raise TypeError(f"{name} is one of {', '.join(words)}, not {value!r:.60}")
    if value not in words:
        raise ValueError(f"{name} is one of {', '.join(words)}, not {value!r:.60}")
    return str(value)


def rule_name(value: Any, name: str = "name") -> str:
    """Returns a value if a rule may have it as its name, else raises."""
    text = text_of(value, name)
    if not 1 <= len(text) <= 24 or text == "-" or any(not "!" <= letter <= "~" or letter in '"\\' for letter in text):
        raise ValueError(
            f'{name} has 1 to 24 visible ASCII characters without " and \\, and is not "-"; this is {value!r:.60}'
        )
    return text


def compact(value: Any) -> bytes:
    """A value as JSON without blanks, its keys in the order that they have."""
    return json.dumps(value, separators=(",", ":"), ensure_ascii=False).encode()


def between(reply: bytes, head: bytes, tail: bytes) -> bytes:
    """What stands in a reply between two parts that are the same in each of its kind. Raises `Cam6Error` if it lacks
    them."""
    if not reply.startswith(head) or not reply.endswith(tail):
        raise Cam6Error(f"This is no reply of cam6: {shortened(reply)}. Does cam6 really run there?")
    return reply[len(head) : -len(tail)]


def nothing(replies: list[bytes]) -> None:
    """Reads a reply that says only that the command was done: it has no value."""


def _position(replies: list[bytes]) -> int:
    """The position in the cycle, of a reply to `run` or `back`."""
    return int(replies[-1][replies[-1].rindex(b":") + 1 : -1])


def _colours(replies: list[bytes]) -> str:
    """The digits of the colours of a row, of a reply to `colours`."""
    return between(replies[0], b'{"colours":"', b'","ok":"colours"}').decode("ascii")


def _count(replies: list[bytes]) -> int:
    """The number of cells, of a reply to `count`."""
    return int(between(replies[0], b'{"count":', b',"ok":"count"}'))


def _names(replies: list[bytes]) -> list[str]:
    """The names of the rules, of a reply to `rules`."""
    return [str(name) for name in json.loads(replies[0])["names"]]


def set_row(plane: Any, row: Any, bits: Row, side: int) -> Call[None]:
    """The call that writes a row of a plane. `bits` are as for `cells.digits_of`."""
    plane, row = number(plane, "plane", 0, 3), number(row, "row", 0, side - 1)
    digits = cells.digits_of(bits, side)
    return Call([f'{{"do":"set","plane":{plane},"row":{row},"bits":"{digits}"}}'.encode()], b'{"ok":"set"}', nothing)


def set_rows(plane: int, rows: Iterable[tuple[int, str]]) -> Call[None]:
    """The call that writes rows of a plane, each by its number and its digits. Nothing is checked again."""
    head = f'{{"do":"set","plane":{plane},"row":'
    lines = [f'{head}{row},"bits":"{digits}"}}'.encode() for row, digits in rows]
    return Call(lines, b'{"ok":"set"}', nothing)


def clear(plane: Any) -> Call[None]:
    """The call that clears a plane."""
    return Call([b'{"do":"clear","plane":%d}' % number(plane, "plane", 0, 3)], b'{"ok":"clear"}', nothing)


def row_line(plane: int, row: int) -> bytes:
    """The line that shows a row of a plane. Nothing is checked."""
    return b'{"do":"row","plane":%d,"row":%d}' % (plane, row)


def digits_of_reply(reply: bytes) -> bytes:
    """The digits in a reply to `row`."""
    return between(reply, b'{"bits":"', b'","ok":"row"}')


def row(plane: Any, row: Any, side: int) -> Call[bytes]:
    """The call that returns the cells of a row of a plane, a byte each."""
    line = row_line(number(plane, "plane", 0, 3), number(row, "row", 0, side - 1))

    def read(replies: list[bytes]) -> bytes:
        """The cells of the row, a byte each."""
        digits = digits_of_reply(replies[0])
        return bytes(cells.bits_of_digits(digits, len(digits) * 4)[0])

    return Call([line], b'{"bits":"', read)


def array_of_reply(reply: bytes) -> Array:
    """The cells in a reply to `plane`. Rows have the same length, and there are as many as a row has cells."""
    rows = between(reply, b'{"ok":"plane","rows":["', b'"]}')
    side = rows.find(b'"') * 4
    return cells.bits_of_digits(rows.replace(b'","', b""), side)


def _array(replies: list[bytes]) -> Array:
    """The cells of a plane by row and column, of a reply to `plane`."""
    return array_of_reply(replies[0])


def plane(plane: Any) -> Call[Array]:
    """The call that returns the cells of a plane, by row and column."""
    line = b'{"do":"plane","plane":%d}' % number(plane, "plane", 0, 3)
    return Call([line], b'{"ok":"plane","rows":[', _array)


def states() -> Call[Array]:
    """The call that returns the states 0 to 15 of all cells, by row and column. It has a line for each plane."""

    def read(replies: list[bytes]) -> Array:
        """The states of all cells, by row and column."""
        return cells.states_of([array_of_reply(reply) for reply in replies])

    return Call([b'{"do":"plane","plane":%d}' % plane for plane in range(4)], b'{"ok":"plane","rows":[', read)


def rule(name: Any, text: Any, half: Any, hood: Any, minor: Any) -> Call[None]:
    """The call that defines a rule."""
    command = {
        "do": "rule",
        "name": rule_name(name),
        "half": one_of(half, "half", "AB"),
        "hood": one_of(hood, "hood", HOODS),
        "minor": one_of(minor, "minor", MINORS),
        "text": text_of(text, "text"),
    }
    return Call([compact(command)], b'{"ok":"rule"}', nothing)


def drop(name: Any) -> Call[None]:
    """The call that forgets a rule."""
    return Call([compact({"do": "drop", "name": rule_name(name)})], b'{"ok":"drop"}', nothing)


def rules() -> Call[list[str]]:
    """The call that returns the names of the rules."""
    return Call([b'{"do":"rules"}'], b'{"names":[', _names)


def entry_of(entry: Any, halves: Mapping[str, str]) -> dict[str, Any]:
    """An entry of a cycle, of a name, of a mapping with some of a, b, grid and phase, or of these four in their order.

    `halves` has the halves of names. A name alone is one of half A unless it says otherwise.
    """
    if isinstance(entry, str):
        entry = {halves.get(entry, "A").lower(): entry}
    elif isinstance(entry, Sequence) and not isinstance(entry, (bytes, bytearray)):
        if not 1 <= len(entry) <= 4:
            raise ValueError(f"an entry has a, b, grid and phase, not {len(entry)} values")
        entry = dict(zip(("a", "b", "grid", "phase"), entry))
    elif not isinstance(entry, Mapping):
        raise TypeError(f"an entry is a name, a mapping or a tuple, not {entry!r:.60}")
    if unknown := [key for key in entry if key not in ("a", "b", "grid", "phase")]:
        raise ValueError(f"an entry has the keys a, b, grid and phase, not {unknown[0]!r:.60}")
    names = {key: entry.get(key, "-") for key in "ab"}
    return {
        **{key: name if name == "-" else rule_name(name, key) for key, name in names.items()},
        "grid": one_of(entry.get("grid", "EVEN"), "grid", ("EVEN", "ODD")),
        "phase": number(entry.get("phase", 0), "phase", 0, 3),
    }


def cycle(entries: Sequence[Any], halves: Mapping[str, str]) -> Call[None]:
    """The call that says what each step does. `halves` is as for `entry_of`."""
    spelled = [entry_of(entry, halves) for entry in entries]
    if not 1 <= len(spelled) <= 16:
        raise ValueError(f"a cycle has 1 to 16 entries, not {len(spelled)}")
    return Call([compact({"do": "cycle", "entries": spelled})], b'{"ok":"cycle"}', nothing)


def steps(word: str, n: Any) -> Call[int]:
    """The call that does steps (`word` is "run") or undoes them ("back"), and returns the position. It has several
    lines if `n` is above 65,535."""
    left = number(n, "n", 0, MOST_OF_CALL)
    whole, rest = divmod(left, MOST_STEPS)
    parts = [MOST_STEPS] * whole + ([rest] if rest or not whole else [])
    ok = b'{"ok":"%s","position":' % word.encode()
    return Call([steps_line(word.encode(), part) for part in parts], ok, _position)


def steps_line(word: bytes, n: int) -> bytes:
    """The line that does so many steps (`word` is b"run") or undoes them (b"back"). Nothing is checked."""
    return b'{"do":"%s","n":%d}' % (word, n)


def set_side(side: Any) -> Call[None]:
    """The call that changes the side."""
    side = number(side, "side", 1, LARGEST)
    if side not in SIDES:
        raise ValueError(f"side is 128, 256 or 512, not {side}")
    return Call([b'{"do":"side","side":%d}' % side], b'{"ok":"side"}', nothing, side)


def colour_map(colours: Any) -> Call[None]:
    """The call that gives each state a colour: sixteen numbers, that of state 0 first."""
    if isinstance(colours, (str, bytes)) or not isinstance(colours, Iterable):
        raise TypeError(f"colours are sixteen numbers from 0 to 15, not {colours!r:.60}")
    numbers = [number(colour, "a colour", 0, 15) for colour in colours]
    if len(numbers) != 16:
        raise ValueError(f"colours are sixteen numbers from 0 to 15, not {len(numbers)}")
    return Call([compact({"do": "map", "colours": numbers})], b'{"ok":"map"}', nothing)


def colours(row: Any, side: int) -> Call[str]:
    """The call that returns the colours of a row's cells, as hexadecimal digits."""
    line = b'{"do":"colours","row":%d}' % number(row, "row", 0, side - 1)
    return Call([line], b'{"colours":"', _colours)


def all_colours(side: int) -> Call[Array]:
    """The call that returns the colours 0 to 15 of all cells, by row and column. It has a line for each row."""

    def read(replies: list[bytes]) -> Array:
        """The colours of all cells, by row and column."""
        return cells.numbers_of([_colours([reply]) for reply in replies])

    return Call([b'{"do":"colours","row":%d}' % row for row in range(side)], b'{"colours":"', read)


def count(mask: Any) -> Call[int]:
    """The call that counts the cells whose states are in the mask: 16 bits, or the states themselves."""
    if isinstance(mask, Iterable) and not isinstance(mask, (str, bytes)):
        mask = sum({1 << number(state, "a state", 0, 15) for state in mask})
    return Call([b'{"do":"count","mask":%d}' % number(mask, "mask", 0, 65_535)], b'{"count":', _count)


def load_line(reply: bytes) -> bytes:
    """The line that loads what a reply to `save` shows. It is made by bytes, as a load line has one spelling."""
    return LOAD_HEAD + between(reply, SAVE_HEAD, SAVE_TAIL) + LOAD_TAIL


def save() -> Call[bytes]:
    """The call that returns the line that loads the machine again."""
    return Call([SAVE], SAVE_HEAD, lambda replies: load_line(replies[0]))


def load(saved: Any) -> Call[None]:
    """The call that replaces the machine by one that was saved. `saved` is its load line, with or without LF."""
    if not isinstance(saved, (bytes, bytearray)):
        raise TypeError(f"saved is the bytes that save() returns, not {saved!r:.60}")
    line = bytes(saved)
    line = line[:-1] if line.endswith(b"\n") else line
    if not line.startswith(LOAD_HEAD) or b"\n" in line:
        raise ValueError(f"saved is one load line, as save() returns it; this begins with {shortened(line, 30)}")
    if len(line) > LOAD_LIMIT:
        raise ValueError(f"a load line has at most {LOAD_LIMIT:,} bytes, not {len(line):,}")
    return Call([line], LOADED, nothing, side_of_load(line))


def side_of_load(line: bytes) -> int:
    """The side of the machine that a load line has. One of version 1 has none, and its side is 256."""
    found = re.search(rb'"side":([0-9]{1,20}),"version":2\}\}$', line)
    return int(found[1]) if found else 256


def ask(line: Any) -> Call[dict[str, Any]]:
    """The call that sends a line as it stands, and returns the reply as a dict."""
    data = _line_of(line)
    if b"\n" in data:
        raise ValueError("a line ends where its LF stands, so it has none inside")
    command = command_of(data)
    side = {"side": command.get("side"), "load": None}.get(str(command.get("do")))
    if command.get("do") == "load":
        side = side_of_load(data)
    return Call([data], b"{", lambda replies: dict(json.loads(replies[0])), side if type(side) is int else None)


def _line_of(line: Any) -> bytes:
    """A line as bytes: of a text, of bytes, or of a mapping, which is spelled as JSON. Raises `TypeError` or
    `ValueError`."""
    if isinstance(line, str):
        return text_of(line, "line").encode()
    if isinstance(line, (bytes, bytearray)):
        return bytes(line)
    if isinstance(line, Mapping):
        try:
            text = json.dumps(
                dict(line), separators=(",", ":"), ensure_ascii=False, allow_nan=False, default=operator.index
            )
        except (TypeError, ValueError) as cause:
            raise type(cause)(f"line is a command that JSON can say: {cause}") from None
        except RecursionError:
            raise ValueError("line is a command that JSON can say: this one is nested too deep") from None
        return text_of(text, "line").encode()
    raise TypeError(f"line is a text, bytes or a mapping, not {line!r:.60}")


def is_fault(reply: bytes) -> bool:
    """Whether a reply refuses its line."""
    return reply.startswith((b'{"fault":', b'{"address":', b'{"cause":'))


def blank(side: int) -> bytes:
    """The line that loads a new machine of this side: cells 0, no rules, no cycle, and each state its own colour."""
    rows = [["0" * (side // 4)] * side] * 4
    machine = {
        "colours": list(range(16)),
        "cycle": [],
        "planes": rows,
        "position": 0,
        "rules": [],
        "side": side,
        "version": 2,
    }
    return LOAD_HEAD + compact(machine) + LOAD_TAIL
