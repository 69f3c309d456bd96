"""Patterns as run-length text, as Golly and other programs keep them, and Golly's emulated Margolus patterns.

`read` and `write` go from texts to cells and back. `emulated` takes a pattern apart whose states also code where the
blocks begin, so that a machine can run it on its own two grids.
"""

from __future__ import annotations

import gzip
import os
import re
from dataclasses import dataclass, field, replace
from typing import Any, Dict, Iterator, List, Optional, Sequence, Tuple, Union

from . import rules
from .cells import numpy
from .rules import Rule, RuleError

# What a text may ask for at most.
MOST_CELLS, MOST_STATE, LINE = 1 << 26, 255, 70
# Golly's rules of emulated blocks, by their names, where no table stands in the pattern's comments.
EMULATED_RULES: Dict[str, str] = {
    "BBM-Margolus-emulated": "bbm",
    "CrittersMargolus_emulated": "critters",
    "HPPMargolus_emulated": "hpp",
    "TripATronMargolus_emulated": "tron",
}
# How files of other formats begin, and what they are.
_OTHERS = (
    (b"[M2]", "a macrocell file"),
    (b"#Life 1.0", "a Life 1.05 or 1.06 file"),
    (b"#MCell", "an MCell file"),
    (b"PK\x03\x04", "a zip archive"),
    (b"\x1f\x8b", "a compressed file within a compressed file"),
)

Rows = Tuple[bytes, ...]


class PatternError(ValueError):
    """A text that is no pattern, or a pattern that a machine can't hold.

    line and column, both from 1 on, say where in the text; both are 0 if no place in it is to blame.
    """

    def __init__(self, message: str, line: int = 0, column: int = 0) -> None:
        super().__init__(f"line {line}, column {column}: {message}" if line else message)
        self.line, self.column = line, column


@dataclass(frozen=True)
class Pattern:
    """Cells with their states 0 to 255, and what a text says about them.

    rule: the name in the header, which nothing looks at. x and y: where the upper left corner lies. generation: the
    number of steps that were done. comments: the lines that begin with `#`.
    """

    width: int
    height: int
    rows: Rows
    rule: str = ""
    x: int = 0
    y: int = 0
    generation: int = 0
    comments: str = field(default="", repr=False)

    @property
    def cells(self) -> Any:
        """The states as an array by row and column: numpy's uint8 if numpy is there, else a list of bytes objects."""
        return _array(self.rows)

    @property
    def planes(self) -> List[Any]:
        """The states as bit planes, the lowest bit first: as many as the largest state needs, and one at least.

        Raises PatternError if a state is above 15, as a machine has four planes.
        """
        most = max((max(row) for row in self.rows if row), default=0)
        if most > 15:
            raise PatternError(f"the pattern has state {most}, and the states of a machine's cells are 0 to 15")
        return [_array(_plane(self.rows, plane)) for plane in range(max(1, most.bit_length()))]


def _array(rows: Sequence[bytes]) -> Any:
    """Rows as numpy's array by row and column, or as a list of bytes without numpy."""
    module = numpy()
    if module is None:
        return list(rows)
    flat = module.frombuffer(b"".join(rows), module.uint8)
    return flat.reshape(len(rows), len(rows[0]) if rows else 0).copy()


def _plane(rows: Sequence[bytes], plane: int) -> Rows:
    """The bits of one plane of rows of states."""
    bits = bytes(state >> plane & 1 for state in range(256))
    return tuple(row.translate(bits) for row in rows)


# Reading.


def read(text: str) -> Pattern:
    """Reads a run-length text: remarks, a header such as `x = 3, y = 3, rule = B3/S23`, and cells up to a `!`.

    `b` and `.` are state 0, `o` and `A` state 1, `B` to `X` states 2 to 24, and `pA` to `yO` states 25 to 255.
    `#CXRLE Pos=-3,4 Gen=7`, `#P -3 4` and `#R -3 4` say where the pattern lies. Raises PatternError with the line and
    the column.
    """
    if not isinstance(text, str):
        raise PatternError(f"a run-length text is a str, not {text!r:.40}")
    lines = text.split("\n")
    for number, line in enumerate(lines, 1):
        line = line.strip()
        if line and not line.startswith("#"):
            comments = [line.rstrip("\r") for line in lines[: number - 1] if line.startswith("#")]
            pattern = replace(_header(line, number), comments="\n".join(comments))
            return replace(_remarks(pattern), rows=_rows(pattern, lines, number))
    raise PatternError("the text ends before a header such as x = 3, y = 3", len(lines), 1)


def load(path: Union[str, "os.PathLike[str]"]) -> Pattern:
    """Reads a file of run-length text, which may be compressed by gzip.

    Raises PatternError for a file of another format, with its name, and OSError if the file can't be read.
    """
    with open(path, "rb") as file:
        data = file.read()
    if data.startswith(b"\x1f\x8b"):
        data = gzip.decompress(data)
    name = os.path.basename(os.fspath(path))
    for begin, kind in _OTHERS:
        if data.startswith(begin):
            raise PatternError(f"{name} is {kind}: only run-length text is read, files that end in .rle")
    if not name.lower().endswith((".rle", ".rle.gz")) and not re.search(rb"^\s*x\s*=", data, re.MULTILINE):
        raise PatternError(f"{name} is no run-length text: it has no header such as x = 3, y = 3")
    try:
        return read(data.decode("latin-1"))
    except PatternError as error:
        raise _in_file(name, error) from None


def _in_file(name: str, error: PatternError) -> PatternError:
    """An error of a text as one of a file: with its name in front."""
    named = PatternError(f"{name}: {error}")
    named.line, named.column = error.line, error.column
    return named


def _header(line: str, number: int) -> Pattern:
    """An empty pattern with the width, height and rule of a header line. Raises PatternError."""
    found = re.fullmatch(r"x\s*=\s*(\d+)\s*,\s*y\s*=\s*(\d+)\s*(?:,\s*rule\s*=\s*(.*?)\s*|,.*)?", line)
    if found is None:
        raise PatternError(f"{line[:40]!r} is no header such as x = 3, y = 3", number, 1)
    width, height = int(found[1]), int(found[2])
    if width * height > MOST_CELLS:
        raise PatternError(f"the pattern has {width:,} by {height:,} cells, and {MOST_CELLS:,} is the most", number, 1)
    return Pattern(width, height, (), found[3] or "")


def _remarks(pattern: Pattern) -> Pattern:
    """The pattern with the place and the generation that its comments give, the last ones counting."""
    for line in pattern.comments.split("\n"):
        if found := re.match(r"#CXRLE\b.*?\bPos\s*=\s*(-?\d+)\s*,\s*(-?\d+)", line) or re.match(
            r"#[PR]\s+(-?\d+)\s+(-?\d+)", line
        ):
            pattern = replace(pattern, x=int(found[1]), y=int(found[2]))
        if found := re.match(r"#CXRLE\b.*?\bGen\s*=\s*(\d+)", line):
            pattern = replace(pattern, generation=int(found[1]))
    return pattern


_SIGNS = re.compile(r"[ \t\r]*(?:(\d*)([p-y]?[A-X]|[bo.$])|(!)|(\S))")


def _rows(pattern: Pattern, lines: List[str], header: int) -> Rows:
    """The rows of the cells after line `header`, each as wide as the pattern. Raises PatternError with the place."""
    rows = [bytearray() for _ in range(pattern.height)]
    y = 0
    for number, line in enumerate(lines[header:], header + 1):
        at = 0
        while found := _SIGNS.match(line, at):
            at = found.end()
            if found[3]:
                return tuple(bytes(row.ljust(pattern.width, b"\0")) for row in rows)
            column = found.start(4 if found[4] else 2) + 1
            if found[4]:
                raise PatternError(f"{found[4]!r} is no sign of a cell", number, column)
            count = int(found[1] or 1)
            if found[2] == "$":
                y = min(y + count, pattern.height + 1)
                continue
            if y >= pattern.height:
                raise PatternError(f"the pattern is more than {pattern.height} cells high", number, column)
            if len(rows[y]) + count > pattern.width:
                raise PatternError(f"a row is more than {pattern.width} cells wide", number, column)
            rows[y] += bytes([_state(found[2], number, column)]) * count
    raise PatternError("the cells end before a !", len(lines), 1)


def _state(sign: str, line: int, column: int) -> int:
    """The state of a sign. Raises PatternError if it is above 255."""
    if sign in "b.":
        return 0
    if sign == "o":
        return 1
    state = ord(sign[-1]) - 64 + (24 * (ord(sign[0]) - 111) if len(sign) == 2 else 0)
    if state > MOST_STATE:
        raise PatternError(f"{sign!r} is state {state}, and states are 0 to {MOST_STATE}", line, column)
    return state


# Writing.


def write(pattern: Union[Pattern, Any], *, rule: str = "", x: int = 0, y: int = 0) -> str:
    """The run-length text of a pattern, or of an array of states 0 to 255 by row and column, in lines of 70 bytes at
    most.

    rule, x and y are for an array: the name in the header, and where the upper left corner lies. Raises PatternError
    if rows differ in length, or a state is none.
    """
    if not isinstance(pattern, Pattern):
        rows = _rows_of(pattern)
        pattern = Pattern(len(rows[0]) if rows else 0, len(rows), rows, rule, x, y)
    if re.search(r"[\r\n]", pattern.rule):
        raise PatternError("the name of a rule is one line")
    head = ""
    if pattern.x or pattern.y or pattern.generation:
        generation = f" Gen={pattern.generation}" if pattern.generation else ""
        head = f"#CXRLE Pos={pattern.x},{pattern.y}{generation}\n"
    name = f", rule = {pattern.rule}" if pattern.rule else ""
    return f"{head}x = {pattern.width}, y = {pattern.height}{name}\n{_wrapped(_runs(pattern.rows))}"


def _rows_of(cells: Any) -> Rows:
    """Rows of states as bytes, from an array or any rows of numbers. Raises PatternError if rows differ in length, or a
    state is none."""
    rows = []
    for row in cells:
        try:
            rows.append(
                bytes(row)
                if isinstance(row, (bytes, bytearray))
                else bytes(rules._number(cell) for cell in _listed(row))
            )
        except ValueError as error:
            raise PatternError(f"a row has a state that is none: {error}") from None
        if len(rows[-1]) != len(rows[0]):
            raise PatternError("the rows differ in length")
    return tuple(rows)


def _listed(row: Any) -> Any:
    """The row as numbers of Python: an array of truth values has 0 and 1."""
    module = numpy()
    if module is not None and isinstance(row, module.ndarray):
        return row.astype(module.uint8).tolist() if row.dtype == bool else row.tolist()
    return row


def _runs(rows: Rows) -> Iterator[str]:
    """The signs with their counts. States that end a row, and rows that end a pattern, are left out if they are 0."""
    most = max((max(row) for row in rows if row), default=0)
    signs = ["b", "o"] if most < 2 else ["."] + [_sign(state) for state in range(1, most + 1)]
    ends = 0
    for row in rows:
        ended = row.rstrip(b"\0")
        if ended and ends:
            yield _rle_run(ends, "$")
            ends = 0
        for found in re.finditer(rb"(.)\1*", ended, re.DOTALL):
            yield _rle_run(len(found[0]), signs[found[1][0]])
        ends += 1
    yield "!"


def _sign(state: int) -> str:
    """The sign of a state above 0, in a pattern of more than two states."""
    more, letter = divmod(state - 1, 24)
    return (chr(111 + more) if more else "") + chr(65 + letter)


def _rle_run(count: int, sign: str) -> str:
    """A run of equal signs as run-length text: its count, if above 1, and the sign."""
    return sign if count == 1 else f"{count}{sign}"


def _wrapped(runs: Iterator[str]) -> str:
    """The runs as lines of 70 bytes at most, each with its LF. No run is cut."""
    lines, line = [], ""
    for run in runs:
        if len(line) + len(run) > LINE:
            lines.append(line)
            line = ""
        line += run
    return "\n".join([*lines, line]) + "\n"


# Golly's emulated Margolus patterns. Of a pattern's state s > 0 the cell's state is (s - 1) // 2, and an odd s marks
# the upper left corner of a block of the step that comes next. State 0 is no cell.


@dataclass(frozen=True)
class Emulated:
    """A Margolus pattern without its marks.

    rows: the cells' states. outside: for each cell 1 if it is none. corner: the column and the row, 0 or 1, at which
    the first block within the pattern begins. torus: the columns and rows of the torus that Golly runs it on, or
    None. rule: a rule for half A. filling: the state of what lies outside.
    """

    width: int
    height: int
    rows: Rows = field(repr=False)
    outside: Rows = field(repr=False)
    corner: Tuple[int, int]
    torus: Optional[Tuple[int, int]]
    rule: Rule
    filling: int

    @property
    def cells(self) -> Any:
        """The states of the cells as an array by row and column. What is no cell has the state of what lies outside."""
        return _array(self._filled())

    def _filled(self) -> Rows:
        """The rows, where what is no cell has the state of the outside."""
        fill = bytes([self.filling])
        return tuple(
            bytes(fill[0] if no_cell else state for state, no_cell in zip(row, none))
            for row, none in zip(self.rows, self.outside)
        )

    def grids(self, x: int, y: int) -> Tuple[str, str]:
        """The grid of the first step and that of the second one, if the upper left corner lies at this column and row.

        Raises PatternError if there is no such grid: blocks begin at even columns and rows, or at odd ones.
        """
        column, row = (self.corner[0] + x) % 2, (self.corner[1] + y) % 2
        if column != row:
            raise PatternError(
                f"at column {x} and row {y} the blocks begin at an even column and an odd row, or the reverse"
            )
        return ("ODD", "EVEN") if column else ("EVEN", "ODD")

    def planes(self, side: int, x: Optional[int] = None, y: Optional[int] = None) -> Tuple[Any, Any, Tuple[str, str]]:
        """Plane 0 and plane 1 of a whole torus, and the grids of the first and the second step.

        side: 128, 256 or 512. x and y: the column and the row of the upper left corner; without them the pattern lies
        in the middle. Raises PatternError if the pattern doesn't fit.
        """
        if self.torus is not None and self.torus != (side, side):
            wide, high = self.torus
            raise PatternError(
                f"the pattern runs on a torus of {wide} by {high} cells, and this one has {side} by {side}: torus=None"
                " of `emulated` lets it lie on a larger one, where it moves otherwise once something reaches its edge"
            )
        if self.width > side or self.height > side:
            raise PatternError(f"the pattern has {self.width} by {self.height} cells, and the torus {side} by {side}")
        x, y = self._place(side, x, y)
        grids = self.grids(x, y)
        rows = [bytearray([self.filling]) * side for _ in range(side)]
        for down, row in enumerate(self._filled()):
            for right, state in enumerate(row):
                rows[(y + down) % side][(x + right) % side] = state
        states = [bytes(row) for row in rows]
        return _array(_plane(states, 0)), _array(_plane(states, 1)), grids

    def _place(self, side: int, x: Optional[int], y: Optional[int]) -> Tuple[int, int]:
        """The given column and row, or the middle for None. If `y` is None it is moved by one if no grid would have the
        blocks."""
        if x is None:
            x = (side - self.width) // 2
        if y is None:
            y = (side - self.height) // 2
            y += (self.corner[0] + x + self.corner[1] + y) % 2
        return x, y

    def put(
        self, machine: Any, x: Optional[int] = None, y: Optional[int] = None, name: Optional[str] = None
    ) -> Tuple[int, int]:
        """Puts the pattern on a machine: planes 0 and 1, the rule, and a cycle that begins with the right grid.

        x, y: as for `planes`. name: what the machine calls the rule. Returns the place. Half B gets no rule.
        """
        name = name or self.rule.name
        x, y = self._place(machine.side, x, y)
        lower, upper, grids = self.planes(machine.side, x, y)
        machine.cycle(("-", "-", "EVEN", 0))
        machine.rule(name, self.rule)
        machine.cycle(*((name, "-", grid, 0) for grid in grids))
        machine.put(0, lower)
        machine.put(1, upper)
        return x, y


def emulated(
    pattern: Pattern,
    *,
    rule: Union[Rule, str, Sequence[int], None] = None,
    outside: Optional[int] = None,
    torus: Optional[str] = "its own",
) -> Emulated:
    """Takes one of Golly's emulated Margolus patterns apart.

    rule: a notation of `rules.margolus`, a table of `rules.margolus_table`, or a rule; without it the table in the
    pattern's comments or the name in its header says it. outside: the state of what lies outside, as if cells were
    there; without it blocks that reach outside stay as they are, as in Golly, for rules of two or three states.
    torus=None: the pattern lies on a larger torus than its own.

    Raises PatternError if the pattern has no marks, or marks of several grids, if its rule is none, or if four states
    leave no room for an outside.
    """
    if outside is not None and outside not in range(4):
        raise PatternError(f"outside is the state of a cell, 0 to 3, not {outside!r}")
    corner = _corner(pattern)
    bounds = re.search(r":T(\d+)(?:,(\d+))?$", pattern.rule) if torus else None
    size = (int(bounds[1]), int(bounds[2] or bounds[1])) if bounds else None
    rows = tuple(bytes((state - 1) // 2 if state else 0 for state in row) for row in pattern.rows)
    states = max(max(row) for row in rows if row) + 1
    if states > 4:
        raise PatternError(f"the pattern's blocks have {states} states, and a half has room for four")
    is_open = ":T" not in pattern.rule and outside is None
    table = _rule_of(pattern, rule, states, is_open)
    filling = outside if outside is not None else 0
    if is_open:
        filling = 3 if ">PLNA" in table.text else 2
    none = tuple(bytes(int(not state) for state in row) for row in pattern.rows)
    return Emulated(pattern.width, pattern.height, rows, none, corner, size, table, filling)


def _corner(pattern: Pattern) -> Tuple[int, int]:
    """The column and the row, each 0 or 1, of the marks. Raises PatternError if there are none, or if they are on
    several grids."""
    corner: Optional[Tuple[int, int]] = None
    for y, row in enumerate(pattern.rows):
        for found in re.finditer(rb"[" + _ODD + rb"]", row):
            here = (found.start() % 2, y % 2)
            corner = corner or here
            if here != corner:
                raise PatternError(
                    f"the mark at column {found.start()} and row {y} is of another grid than those before"
                )
    if corner is None:
        raise PatternError("the pattern has no marks: in an emulated one odd states mark upper left corners of blocks")
    # A cell at such a place is a corner, or no cell. One elsewhere is none.
    for y, row in enumerate(pattern.rows[corner[1] :: 2]):
        for x, state in enumerate(row[corner[0] :: 2]):
            if state and not state % 2:
                at = (2 * x + corner[0], 2 * y + corner[1])
                raise PatternError(
                    f"the cell at column {at[0]} and row {at[1]} of the pattern lacks the mark of a corner"
                )
    return corner


_ODD = b"".join(re.escape(bytes([state])) for state in range(1, 256, 2))


def _rule_of(pattern: Pattern, rule: Union[Rule, str, Sequence[int], None], states: int, is_open: bool) -> Rule:
    """The rule of a pattern of so many states. If it is open, what lies outside has a state of its own. Raises
    PatternError if there is no such rule."""
    name = pattern.rule.split(":")[0]
    if isinstance(rule, Rule):
        return rule
    if rule is None:
        rule = pattern.comments if _IS_TABLE in pattern.comments else EMULATED_RULES.get(name)
    if rule is None:
        raise PatternError(f"no table in the comments says what the rule {name!r} is: give one, as in rule='bbm'")
    try:
        if not (isinstance(rule, str) and _IS_TABLE in rule):
            return rules.margolus(rule, edge=is_open, name=name[:24])
        if not is_open:
            return rules.margolus_table(rule, name=name[:24])
        return _open_rule(rule, states, name[:24])
    except RuleError as error:
        raise PatternError(f"the rule {name!r}: {error}") from None


def _open_rule(table: str, states: int, name: str) -> Rule:
    """The rule of a table with an outside, for the fewest states that stay among themselves. Raises RuleError if that
    takes four."""
    for fewer in range(max(2, states), 4):
        try:
            return rules.margolus_table(table, states=fewer, edge=True, name=name)
        except RuleError:
            continue
    raise RuleError("its four states leave no room for an outside: say which state lies there, as in outside=0")


_IS_TABLE = "neighborhood:Margolus"


def emulate(cells: Any, *, corner: Tuple[int, int] = (0, 0), rule: str = "", x: int = 0, y: int = 0) -> Pattern:
    """The pattern that Golly's emulated rules take: each cell's state with the mark of its place in its block.

    cells: an array of states 0 to 3 by row and column. corner: the column and the row of the first upper left corner,
    (0, 0) if the next step is on the grid of the pattern's own corner, (1, 1) if it is on the other one. rule:
    Golly's name of it, such as "CrittersMargolus_emulated". Raises PatternError for other states.
    """
    rows = _rows_of(cells)
    if any(state > 3 for row in rows for state in row):
        raise PatternError("a cell's state is 0 to 3")
    marked = tuple(
        bytes(
            2 * state + (1 if right % 2 == corner[0] % 2 and down % 2 == corner[1] % 2 else 2)
            for right, state in enumerate(row)
        )
        for down, row in enumerate(rows)
    )
    return Pattern(len(rows[0]) if rows else 0, len(rows), marked, rule, x, y)
