"""What can go wrong: one exception for each kind, and one for each number with which `cam6` refuses a line."""

from __future__ import annotations

import json
import pkgutil
import re
from functools import lru_cache
from collections.abc import Sequence
from typing import Any, Optional

from .wirings import names_at

# How many characters of a rule's text are shown before and after the token of a fault.
SHOWN = 60


class Cam6Error(Exception):
    """What this package raises, but for arguments: those raise `TypeError` or `ValueError`, and nothing is sent."""


class Lost(Cam6Error):
    """The program or the host can't be reached, or is gone. Whether it did the last commands is not known."""


class NoSeat(Cam6Error):
    """Each seat of the host is taken, or the one that was asked for is."""


class GaveUp(Cam6Error):
    """No host did the commands before the deadline. They count as not done, and are not tried again.

    `undone` has the lines that were not done. `replies` has the replies to those before them in the same call.
    """

    def __init__(self, sentence: str, undone: Sequence[bytes] = (), replies: Sequence[bytes] = ()) -> None:
        super().__init__(sentence)
        self.undone = list(undone)
        self.replies = list(replies)

    def __reduce__(self) -> tuple[Any, ...]:
        return type(self), (str(self), self.undone, self.replies)


class Diverged(Cam6Error):
    """A host answers otherwise than the one before: it is of another version, or has another limit."""


class BadJournal(Cam6Error):
    """The file is no journal, is damaged before its last line, or is open in another program."""


class Fault(Cam6Error):
    """`cam6` refused a line. The machine is as it was before. There is a subclass for each number.

    - `number`, `title`, `sentence`, `advice`: the number, and what docs/errors.json says of it.
    - `reply`: the reply as a dict, and `line`: the bytes of the line.
    - `index`: the place of the call in its pipeline, from 0; `results`: all results of that pipeline.
    - `token`: of a text, the place of the token, from 1. 0 stands for the whole text.
    - `address`: of a rule that stops, the least address at which it does.
    - `cause`, `entry`, `half`, `phase`, `states`: why `back` can't undo, and where.

    A field that the reply doesn't have is None.
    """

    number = 0

    def __init__(self, reply: dict[str, Any], line: bytes = b"") -> None:
        self.reply, self.line = reply, line
        self.index: Optional[int] = None
        self.results: Optional[list[Any]] = None
        self.token: Optional[int] = reply.get("token")
        self.address: Optional[int] = reply.get("address")
        self.cause: Optional[str] = reply.get("cause")
        self.entry: Optional[int] = reply.get("entry")
        self.half: Optional[str] = reply.get("half")
        self.phase: Optional[int] = reply.get("phase")
        states = reply.get("states")
        self.states: Optional[tuple[int, int]] = (states[0], states[1]) if states else None
        super().__init__(self._describe())

    def __reduce__(self) -> tuple[Any, ...]:
        return type(self), (self.reply, self.line), {"index": self.index, "results": self.results}

    @property
    def title(self) -> str:
        """A few words, such as "no cycle"."""
        return sentences(self.number)[0]

    @property
    def sentence(self) -> str:
        """What happened."""
        return sentences(self.number)[1]

    @property
    def advice(self) -> str:
        """What to do."""
        return sentences(self.number)[2]

    def _describe(self) -> str:
        """The message: number, sentence, advice, and the place in the line if the reply has one."""
        parts = [f"{self.number}: {self.sentence} {self.advice}"]
        if self.token is not None:
            parts.append(shown_token(command_of(self.line).get("text", ""), self.token))
        if self.address is not None:
            parts.append(shown_address(command_of(self.line), self.address))
        if self.cause is not None:
            parts.append(shown_cause(self))
        return "\n".join(part for part in parts if part)


class LineTooLong(Fault):
    """1: the line has more than 16,384 bytes, or, as a load, more than 2,097,152."""

    number = 1


class NotJson(Fault):
    """2: the line is no JSON value."""

    number = 2


class NotACommand(Fault):
    """3: the line is JSON, but not a command."""

    number = 3


class LoadSpelling(Fault):
    """4: a load line is spelled otherwise than `save` spells it."""

    number = 4


class UnknownWord(Fault):
    """20: the text has a word that is not known."""

    number = 20


class NameTaken(Fault):
    """21: the text defines a name that can't be defined."""

    number = 21


class OutOfPlace(Fault):
    """22: a token stands where it may not, or the text ends too early."""

    number = 22


class DefinitionTooLarge(Fault):
    """23: a definition's size is above 4,096."""

    number = 23


class TooManyIfs(Fault):
    """24: more than 16 `IF`s are open at once."""

    number = 24


class OutputOfOtherHalf(Fault):
    """25: the text writes to a plane of the other half."""

    number = 25


class NumberTooLarge(Fault):
    """26: a number in the text is above 65,535."""

    number = 26


class NoDefinition(Fault):
    """27: the text has no definition."""

    number = 27


class TextTooLong(Fault):
    """28: the text has more than 64 definitions or more than 8,192 bytes."""

    number = 28


class ValueMissing(Fault):
    """40: the rule stops, as a word needs more values than the stack has."""

    number = 40


class StackFull(Fault):
    """41: the rule stops, as the stack has more than 32 values."""

    number = 41


class NoSuchCase(Fault):
    """42: the rule stops, as the index of a case is not below the number of its words."""

    number = 42


class ResultOutOfRange(Fault):
    """43: the rule stops, as a result is below 0 or above 65,535."""

    number = 43


class NoSuchRule(Fault):
    """60: there is no rule of this name."""

    number = 60


class RuleInUse(Fault):
    """61: the cycle uses the rule."""

    number = 61


class TooManyRules(Fault):
    """62: the machine has 16 rules already."""

    number = 62


class NoCycle(Fault):
    """63: there is no cycle."""

    number = 63


class NotReversible(Fault):
    """64: a rule of the cycle can't be undone."""

    number = 64


class NumberOutOfRange(Fault):
    """65: a number is out of its range, or a name is not valid."""

    number = 65


class RuleOfOtherHalf(Fault):
    """66: the cycle gives a half a rule of the other one."""

    number = 66


class SideAboveLimit(Fault):
    """67: the side is above the machine's limit."""

    number = 67


class NotASavedMachine(Fault):
    """68: no machine can have been saved as this one."""

    number = 68


class SeatTaken(Fault):
    """80: the user of this seat has a connection already."""

    number = 80


class NoSuchSeat(Fault):
    """81: the host has no user of this number."""

    number = 81


FAULTS: dict[int, type[Fault]] = {kind.number: kind for kind in Fault.__subclasses__()}


def fault_of(reply: bytes, line: bytes) -> Fault:
    """The exception of a reply that refuses a line. Raises `Cam6Error` if the reply refuses nothing."""
    try:
        value = json.loads(reply)
        kind = FAULTS[value["fault"]]
    except (ValueError, KeyError, TypeError, RecursionError):
        raise Cam6Error(f"This is no reply of cam6: {shortened(reply)}. Does cam6 really run there?") from None
    return kind(value, line)


@lru_cache(maxsize=None)
def sentences(number: int) -> tuple[str, str, str]:
    """The title of a number, what happened, and what to do. Three empty texts if there is no such number."""
    data = pkgutil.get_data(__package__, "errors.json") or b""
    for entry in json.loads(data)["errors"]:
        if entry["number"] == number:
            return entry["title"], entry["happened"], entry["do"]
    return "", "", ""


def shortened(data: bytes, most: int = 80) -> str:
    """Bytes as quoted text for a message: the first `most` of them, and `..` if there are more."""
    text = data[:most].decode("utf-8", "replace")
    return repr(text) + (".." if len(data) > most else "")


def command_of(line: bytes) -> dict[str, Any]:
    """The object that a line says. It is empty if there is none, or if it is nested too deep for Python."""
    try:
        value = json.loads(line)
    except (ValueError, RecursionError):
        return {}
    return value if isinstance(value, dict) else {}


def shown_token(text: object, token: int) -> str:
    """The line of a text that has the token (from 1), with a caret under it. "" if the token is 0, or if `text` is no
    str."""
    if not isinstance(text, str) or token == 0:
        return ""
    found = list(re.finditer(r"[^ \t\r\n]+", text))
    if token <= len(found):
        start, word = found[token - 1].start(), found[token - 1][0]
        head = f"token {token}, {word}"
    else:
        text = text.rstrip(" \t\r\n") + " "
        start, head = len(text), f"token {token}, the end of the text"
    first = max(text.rfind("\n", 0, start), text.rfind("\r", 0, start)) + 1
    line = re.split(r"[\r\n]", text[first:])[0].replace("\t", " ")
    column = start - first
    cut = max(0, column - SHOWN)
    before = ".." if cut else ""
    after = ".." if len(line) > column + SHOWN else ""
    shown = before + line[cut : column + SHOWN] + after
    return f"{head}:\n    {shown.rstrip()}\n    {' ' * (column - cut + len(before))}^"


def shown_address(command: dict[str, Any], address: int) -> str:
    """The address, and the names that are 1 there by the command's neighbourhood and minor assignment, if it has
    these."""
    names = names_at(str(command.get("hood")), str(command.get("minor")), address)
    if names is None:
        return f"address {address}"
    return f"address {address}: " + (", ".join(names) + " are 1" if names else "every name is 0")


def shown_cause(fault: Fault) -> str:
    """Why a rule can't be undone, and where. Two blocks that become one are drawn."""
    where = f"entry {fault.entry}, half {fault.half}"
    if fault.cause == "hood":
        return f"{where}: the rule's neighbourhood has no blocks."
    if fault.cause == "centres":
        return f"{where}: the rule's minor assignment is &/CENTERS, so it sees the other half."
    if fault.states is None:
        return where
    one, other = map(block_rows, fault.states)
    picture = f"    {one[0]}       {other[0]}\n    {one[1]}   +   {other[1]}"
    key = "\n    (# the lower plane, o the upper one, @ both)" if "o" in picture or "@" in picture else ""
    return f"{where}, phase {fault.phase}: these two blocks become one.\n{picture}{key}"


def block_rows(state: int) -> tuple[str, str]:
    """The two rows of a block: bits 0 to 3 are the lower plane's cells, clockwise from the upper left one."""
    cells = [".#o@"[(state >> place & 1) + 2 * (state >> place + 4 & 1)] for place in range(4)]
    return f"{cells[0]} {cells[1]}", f"{cells[3]} {cells[2]}"
