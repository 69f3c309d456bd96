"""Lines: what the bytes of one say as JSON, and which command or event that is; or the line's fault.

The reader of JSON is as strict as serde_json is, and so stricter than Python's: a surrogate has its other half, lists and
objects are 127 deep at most, and a number that is too large for a float is none. Of a key that is repeated the last one
counts. A line that loads a machine has one spelling, which is the plainest.
"""

from __future__ import annotations

import json
import re
from collections.abc import Callable
from itertools import accumulate
from typing import Any

from oracle.wirings import HOODS, MINORS

LINE_LIMIT, MOST_NESTED = 16384, 127
# A line that begins so may have more bytes than another one.
LOAD_HEAD, LOAD_LIMIT = b'{"do":"load",', 2097152
LARGEST_NUMBER = 2**64 - 1
# The first digits of the least number that is too large for a float, which is so many digits long.
TOO_LARGE, TOO_LONG = 17976931348623158, 309
Shape = Callable[[Any], bool]
DIGITS = "0123456789abcdefABCDEF"


class NoJson(ValueError):
    """The bytes are no JSON value."""


class Unclear(Exception):
    """It takes exact arithmetic to say whether a number is too large: no line of ours has one."""


def json_of(line: bytes) -> Any:
    """The JSON value of a line. Numbers that no line may have are floats. Raises ValueError if none, or Unclear."""
    text = line.decode()
    marks = [mark for mark in re.findall(r'"(?:[^"\\]|\\.)*"?|[][{}]', text, re.DOTALL) if mark in "[]{}"]
    if max(accumulate(1 if mark in "[{" else -1 for mark in marks), default=0) > MOST_NESTED:
        raise NoJson
    value = json.loads(text, parse_int=number, parse_float=number, parse_constant=number, object_pairs_hook=members)
    return members([("", value)])[""]


def members(pairs: list[tuple[str, Any]]) -> dict[str, Any]:
    """The object of these members, by the last one of each key. Raises ValueError if a text in it can't be encoded."""
    json.dumps(pairs, ensure_ascii=False).encode()
    return dict(pairs)


def number(text: str) -> int | float:
    """An int if the text is 0 to 2**64 - 1 in digits alone, else a float. Raises NoJson if it is none or too large."""
    found = re.fullmatch(r"(-?)([0-9]+)(?:\.([0-9]+))?(?:[eE]([+-]?[0-9]+))?", text)
    if not found:
        raise NoJson
    _, whole, part, exponent = found.groups("")
    if text == whole and len(whole) <= 20 and int(whole) <= LARGEST_NUMBER:
        return int(whole)
    if is_too_large(whole + part, len(whole), exponent or "0"):
        raise NoJson
    return float(text)


def is_too_large(digits: str, whole: int, exponent: str) -> bool:
    """Whether digits with this exponent, `whole` before the point, are too large for a float. May raise Unclear."""
    first, power = digits.lstrip("0"), exponent.lstrip("+-").lstrip("0") or "0"
    if not first or len(power) > 9:
        return bool(first) and not exponent.startswith("-")
    ten = -int(power) if exponent.startswith("-") else int(power)
    length = whole - (len(digits) - len(first)) + ten
    if length != TOO_LONG:
        return length > TOO_LONG
    beyond = int(first[:17].ljust(17, "0")) - TOO_LARGE
    if abs(beyond) < 1000:
        raise Unclear
    return beyond > 0


def is_number(value: Any) -> bool:
    """Whether a value is an int: of a line's numbers, one from 0 to 2**64 - 1 in digits alone. `True` is none."""
    return type(value) is int


def is_text(value: Any) -> bool:
    """Whether a value is a text."""
    return isinstance(value, str)


def is_bits(value: Any) -> bool:
    """Whether a value is 32, 64 or 128 hexadecimal digits, those of a row of some side."""
    return is_text(value) and len(value) in (32, 64, 128) and all(digit in DIGITS for digit in value)


def one_of(*words: str) -> Shape:
    """A check whether a value is one of these words."""
    return lambda value: is_text(value) and value in words


def is_object(value: Any, **shapes: Shape) -> bool:
    """Whether the value is an object with exactly these keys, each of its shape."""
    is_keyed = isinstance(value, dict) and set(value) == set(shapes)
    return is_keyed and all(is_shape(value[key]) for key, is_shape in shapes.items())


def object_of(**shapes: Shape) -> Shape:
    """A check for objects whose members pass these checks."""
    return lambda value: is_object(value, **shapes)


def is_list_of(is_shape: Shape, length: int | None = None) -> Shape:
    """A check for lists whose values pass a check, of this length if one is given."""
    return lambda value: isinstance(value, list) and len(value) in (length or len(value),) and all(map(is_shape, value))


RULE = {"name": is_text, "half": one_of("A", "B"), "hood": one_of(*HOODS), "minor": one_of(*MINORS), "text": is_text}
ENTRY = {"a": is_text, "b": is_text, "grid": one_of("EVEN", "ODD"), "phase": is_number}
MAP, CYCLE = is_list_of(is_number, 16), is_list_of(object_of(**ENTRY))
MACHINE = {
    "colours": MAP,
    "cycle": CYCLE,
    "planes": is_list_of(is_list_of(is_bits), 4),
    "position": is_number,
    "rules": is_list_of(object_of(**RULE)),
    "version": is_number,
}
# By its version: a saved machine of the first one has no side.
MACHINES = {1: MACHINE, 2: MACHINE | {"side": is_number}}


def is_machine(value: Any) -> bool:
    """Whether a value has the form of a saved machine, of either version: just its members, each of its kind. Numbers
    may be out of range."""
    version = value.get("version") if isinstance(value, dict) else None
    return is_number(version) and version in MACHINES and is_object(value, **MACHINES[version])


def numbers(names: str) -> dict[str, Shape]:
    """A check for a number for each of these keys, by key. `names` has them with blanks between."""
    return dict.fromkeys(names.split(), is_number)


COMMANDS: dict[str, dict[str, Shape]] = {
    "set": {**numbers("plane row"), "bits": is_bits},
    "clear": numbers("plane"),
    "row": numbers("plane row"),
    "plane": numbers("plane"),
    "rule": RULE,
    "drop": {"name": is_text},
    "rules": {},
    "cycle": {"entries": CYCLE},
    "run": numbers("n"),
    "back": numbers("n"),
    "map": {"colours": MAP},
    "colours": numbers("row"),
    "count": numbers("mask"),
    "side": numbers("side"),
    "save": {},
    "load": {"machine": is_machine},
}


def is_one_of(value: Any, key: str, table: dict[str, dict[str, Shape]]) -> bool:
    """Whether a value is an object with a word of the table at `key`, and just the word's other keys, each of its
    shape."""
    word = value.get(key) if isinstance(value, dict) else None
    return is_text(word) and word in table and is_object(value, **{key: is_text}, **table[word])


def is_command(value: Any) -> bool:
    """Whether a value has the form of a command. Numbers may be out of range."""
    return is_one_of(value, "do", COMMANDS)


def is_asked(value: Any) -> bool:
    """Whether an ask may hold the value: a command that loads nothing."""
    return is_command(value) and value["do"] != "load"


EVENTS: dict[str, dict[str, Shape]] = {
    "ask": {**numbers("user"), "command": is_asked},
    "lease": numbers("user board"),
    **dict.fromkeys(("band", "preempt", "fail", "repair"), numbers("board")),
    "evict": {},
    "collect": numbers("user"),
}


def is_event(value: Any) -> bool:
    """Whether a value has the form of an event. Numbers may be out of range."""
    return is_one_of(value, "event", EVENTS)


def is_spelled(line: bytes, command: dict[str, Any]) -> bool:
    """Whether a line has the spelling that it needs. Only a load needs one: `plain`, in lower case."""
    if command.get("do") != "load":
        return True
    digits = str(command["machine"]["planes"])
    return line == plain(command) and digits == digits.lower()


def read_line(line: bytes, is_shape: Shape) -> int | dict[str, Any]:
    """The command or event of a line, or its fault: 1 too long, 2 no JSON, 3 another shape, 4 not `is_spelled`."""
    if len(line) > (LOAD_LIMIT if line.startswith(LOAD_HEAD) else LINE_LIMIT):
        return 1
    try:
        value = json_of(line)
    except ValueError:
        return 2
    if not is_shape(value):
        return 3
    return value if is_spelled(line, value) else 4


def lines_of(text: bytes) -> list[bytes]:
    """The lines of bytes, without their LFs. The last one may lack its LF."""
    lines = text.split(b"\n")
    return lines if lines[-1] else lines[:-1]


def plain(value: Any) -> bytes:
    """The compact JSON of a value in UTF-8, its keys in byte order, without an LF."""
    return json.dumps(value, separators=(",", ":"), sort_keys=True, ensure_ascii=False).encode()
