"""Texts of rules from the notations of others: Life-like, Generations, Margolus blocks, and functions of Python.

Each builder returns a `Rule`: a text with its neighbourhood, its minor assignment, its half and its cycle. A text is
at most 8,192 bytes long, and its definitions have at most size 4,096. A builder refuses with `RuleError` what doesn't
fit.
"""

from __future__ import annotations

import functools
import inspect
import itertools
import operator
import re
from dataclasses import dataclass
from typing import Any, Callable, Dict, Iterable, List, Optional, Sequence, Tuple, Union

from . import words
from .wirings import HOODS, MINORS
from .words import MOST_BYTES, MOST_SIZE, WordError

ALTERNATING = (("EVEN", 0), ("ODD", 0))
# Rules of blocks by their names: what each of the sixteen blocks becomes. Upper left 1, upper right 2, lower left 4,
# lower right 8.
MARGOLUS_NAMES: Dict[str, str] = {
    "bbm": "0,8,4,3,2,5,9,7,1,6,10,11,12,13,14,15",
    "critters": "15,14,13,3,11,5,6,1,7,9,10,2,12,4,8,0",
    "hpp": "0,8,4,12,2,10,9,14,1,6,5,13,3,11,7,15",
    "swap": "0,8,4,12,2,10,6,14,1,9,5,13,3,11,7,15",
    "tron": "15,1,2,3,4,5,6,7,8,9,10,11,12,13,14,0",
}
# Which places a block's transition is tried at, by the word that Golly's tables have for it: a place's number in the
# block (upper left, upper right, lower left, lower right) for each of the four places.
_SYMMETRIES: Dict[str, Tuple[Tuple[int, ...], ...]] = {
    "none": ((0, 1, 2, 3),),
    "reflect_horizontal": ((0, 1, 2, 3), (1, 0, 3, 2)),
    "reflect_vertical": ((0, 1, 2, 3), (2, 3, 0, 1)),
    "rotate4": ((0, 1, 2, 3), (2, 0, 3, 1), (3, 2, 1, 0), (1, 3, 0, 2)),
    "permute": tuple(itertools.permutations(range(4))),
}
_SYMMETRIES["rotate4reflect"] = _SYMMETRIES["rotate4"] + tuple((b, a, d, c) for a, b, c, d in _SYMMETRIES["rotate4"])
# The places of a block clockwise from the upper left one, as numbers in reading order; and the bit of the address at
# which a cell sees the place so many corners further clockwise.
_CLOCKWISE = (0, 1, 3, 2)

Block = Tuple[int, int, int, int]


class RuleError(ValueError):
    """A notation that is no rule, or a rule that doesn't fit into a text."""


@dataclass(frozen=True)
class Rule:
    """A rule that a machine can be given, by `machine.rule(name, rule)`.

    text: CAM Forth, at most 8,192 bytes. hood and minor: the names that it may read. half: "A" or "B". name: what a
    machine calls it unless another one is given. cycle: the grid and the phase of each step, 1 to 16 of them.
    """

    text: str
    hood: str = "N/MOORE"
    minor: str = "&/CENTERS"
    half: str = "A"
    name: str = "R"
    cycle: Tuple[Tuple[str, int], ...] = (("EVEN", 0),)

    def __post_init__(self) -> None:
        if not isinstance(self.text, str):
            raise RuleError(f"a rule's text is a str, not {self.text!r:.40}")
        if self.hood not in HOODS:
            raise RuleError(f"{self.hood!r} is no neighbourhood: use one of {', '.join(HOODS)}")
        if self.minor not in MINORS:
            raise RuleError(f"{self.minor!r} is no minor assignment: use one of {', '.join(MINORS)}")
        if self.half not in ("A", "B"):
            raise RuleError(f"{self.half!r} is no half: use 'A' or 'B'")
        if len(self.text.encode()) > MOST_BYTES:
            raise RuleError(
                f"the text has {len(self.text.encode()):,} bytes, and a rule's text has {MOST_BYTES:,} at most"
            )
        object.__setattr__(self, "cycle", _checked_cycle(self.cycle))

    def entries(self, name: Optional[str] = None) -> List[Dict[str, Any]]:
        """The entries of a cycle that does this rule alone, under its own name or another one."""
        a, b = (name or self.name, "-") if self.half == "A" else ("-", name or self.name)
        return [{"a": a, "b": b, "grid": grid, "phase": phase} for grid, phase in self.cycle]


def _checked_cycle(cycle: Iterable[Sequence[Any]]) -> Tuple[Tuple[str, int], ...]:
    """The grids and phases of a cycle of 1 to 16 entries, as pairs. Raises RuleError if they are none."""
    entries = tuple(tuple(entry) for entry in cycle)
    if not 1 <= len(entries) <= 16:
        raise RuleError(f"a cycle has 1 to 16 entries, not {len(entries)}")
    for entry in entries:
        if len(entry) != 2 or entry[0] not in ("EVEN", "ODD") or not 0 <= _number(entry[1]) <= 3:
            raise RuleError(f"{entry!r} is no entry of a rule's cycle: use a grid and a phase, as in ('ODD', 0)")
    return tuple((grid, _number(phase)) for grid, phase in entries)


# Counts of neighbours.

_EIGHT = "NORTH SOUTH + WEST + EAST + N.WEST + N.EAST + S.WEST + S.EAST +"
_FOUR = "NORTH SOUTH + WEST + EAST +"


def life(notation: str, *, half: str = "A") -> Rule:
    """A Life-like rule: "B3/S23", "23/3" (survivals first), or "B13/S012V" for the four neighbours of von Neumann.

    Raises RuleError if the notation is none of these.
    """
    born, stays, neighbours = _births_and_survivals(notation, r"B([0-8]*)/?S([0-8]*)(V?)", r"([0-8]*)/([0-8]*)(V?)")[:3]
    return outer_totalistic(born, stays, neighbours=4 if neighbours else 8, half=half, name=notation.strip().upper())


def outer_totalistic(
    born: Iterable[int], stays: Iterable[int], *, neighbours: int = 8, half: str = "A", name: str = "LIFE"
) -> Rule:
    """A cell that is not set is set if the number of its set neighbours is in `born`; one that is set stays if it is
    in `stays`.

    neighbours: 8 or 4. Counts are 0 to 8, or 0 to 4. Raises RuleError for another number.
    """
    count, hood = _counted(neighbours)
    births, survivals = _checked_counts(born, neighbours), _checked_counts(stays, neighbours)
    # Of each count: neither, survival alone, birth alone, or both.
    cases = [("0", "CENTER", "NC", "1")[(k in survivals) + 2 * (k in births)] for k in range(neighbours + 1)]
    not_centre = ": NC CENTER 0= ; " if "NC" in cases else ""
    text = f": SUM {count} ; {not_centre}: R SUM {{ {' '.join(cases)} }} {_lower(half)} ;"
    return Rule(text, hood, "&/CENTERS", half, _as_name(name, "LIFE"))


def totalistic(counts: Union[str, Iterable[int]], *, neighbours: int = 8, half: str = "A", name: str = "VOTE") -> Rule:
    """A cell becomes set if the number of set cells among itself and its neighbours is in `counts`.

    counts: numbers from 0 to 9 (0 to 5 for four neighbours), or their digits in a text such as "46789". neighbours: 8
    or 4. Raises RuleError for another number.
    """
    count, hood = _counted(neighbours)
    chosen = _checked_counts(map(int, _digits(counts)) if isinstance(counts, str) else counts, neighbours + 1)
    cases = " ".join(str(int(k in chosen)) for k in range(neighbours + 2))
    return Rule(
        f": SUM CENTER {count} + ; : R SUM {{ {cases} }} {_lower(half)} ;",
        hood,
        "&/CENTERS",
        half,
        _as_name(name, "VOTE"),
    )


def generations(notation: str, *, half: str = "A") -> Rule:
    """A Generations rule of two or three states: "B2/S/C3", or "/2/3" with the survivals first, as MCell has it.

    State 1, a cell of the lower plane, is alive. State 2, one of the upper plane, is dying. Raises RuleError for more
    states: a neighbour is seen in one plane alone.
    """
    born, stays, four, states = _births_and_survivals(
        notation, r"B([0-8]*)/S([0-8]*)/C?(\d+)(V?)", r"([0-8]*)/([0-8]*)/C?(\d+)(V?)", 3
    )
    neighbours, name = 4 if four else 8, notation.strip().upper()
    if states == 2:
        return outer_totalistic(born, stays, neighbours=neighbours, half=half, name=name)
    if states != 3:
        raise RuleError(f"{notation!r} has {states} states: half a machine has room for 2 or 3 of a Generations rule")
    count, hood = _counted(neighbours)
    births, survivals = _checked_counts(born, neighbours), _checked_counts(stays, neighbours)
    alive = " ".join("1" if k in survivals else "2" for k in range(neighbours + 1))
    ready = " ".join(str(int(k in births)) for k in range(neighbours + 1))
    rule = f": R CENTER' IF 0 ELSE SUM CENTER IF {{ {alive} }} ELSE {{ {ready} }} THEN THEN {_both(half)} ;"
    return Rule(f": SUM {count} ; {rule}", hood, "&/CENTERS", half, _as_name(name, "GENERATIONS"))


def _births_and_survivals(
    notation: str, named: str, bare: str, states_at: int = 0
) -> Tuple[List[int], List[int], bool, int]:
    """The counts of births and of survivals, whether there are four neighbours, and the number of states. `named` and
    `bare` are the patterns of the two notations, `states_at` the group of the number (0: 2 states). Raises
    RuleError."""
    if not isinstance(notation, str):
        raise RuleError(f"a notation is a text such as B3/S23, not {notation!r:.40}")
    text = notation.strip().upper()
    found = re.fullmatch(named, text) or re.fullmatch(bare, text)
    if found is None:
        raise RuleError(f"{notation!r} is no such rule: write it as {'B2/S/C3' if states_at else 'B3/S23'}")
    born, stays = (found[1], found[2]) if text.startswith("B") else (found[2], found[1])
    states = int(found[states_at]) if states_at else 2
    return [int(k) for k in born], [int(k) for k in stays], bool(found[found.re.groups]), states


def _counted(neighbours: int) -> Tuple[str, str]:
    """The words that count four or eight neighbours, and the neighbourhood that has them. Raises RuleError for another
    number."""
    if neighbours not in (4, 8):
        raise RuleError(f"a cell has 4 or 8 neighbours, not {neighbours!r}")
    return (_EIGHT, "N/MOORE") if neighbours == 8 else (_FOUR, "N/VONN")


def _checked_counts(counts: Iterable[int], most: int) -> List[int]:
    """Returns the counts as a list. Raises RuleError unless each is a whole number from 0 to `most`."""
    numbers = [_number(count) for count in _listed(counts)]
    for number in numbers:
        if not 0 <= number <= most:
            raise RuleError(f"{number} is no count of {most} cells")
    return numbers


def _digits(counts: str) -> str:
    """The digits of a text of counts, without an M in front. Raises RuleError if it has anything else."""
    digits = counts.strip().upper()
    digits = digits[1:] if digits.startswith("M") else digits
    if not re.fullmatch("[0-9]*", digits):
        raise RuleError(f"{counts!r} is no list of digits")
    return digits


# Blocks.


def successors(notation: Union[str, Sequence[int]]) -> Tuple[int, ...]:
    """What each of the sixteen blocks becomes, from "MS,D0;8;4;3;.." (MCell), "M0,8,4,3,.." (Golly), a name, or the
    numbers.

    A block's number has 1 for its upper left cell, 2 for the upper right one, 4 for the lower left one and 8 for the
    lower right one. The names are bbm, critters, hpp, swap and tron. Raises RuleError for anything else.
    """
    if isinstance(notation, str):
        text = MARGOLUS_NAMES.get(notation.strip().lower(), notation.strip()).split(":")[0]
        found = re.fullmatch(r"(?:MS,?\s*D|M)?\s*(\d+(?:\s*[,;]\s*\d+)*)\s*[,;]?", text, re.IGNORECASE)
        if found is None:
            raise RuleError(f"{notation!r} is no Margolus rule: write sixteen numbers as MS,D0;8;4;3;..")
        numbers = [int(number) for number in re.split("[,;]", found[1])]
    else:
        numbers = [_number(number) for number in _listed(notation)]
    if len(numbers) != 16:
        raise RuleError(f"there are {len(numbers)} numbers: a Margolus rule has one for each of the sixteen blocks")
    for number in numbers:
        if not 0 <= number <= 15:
            raise RuleError(f"{number} is no block: blocks are 0 to 15")
    return tuple(numbers)


def margolus(notation: Union[str, Sequence[int]], *, half: str = "A", edge: bool = False, name: str = "BLOCKS") -> Rule:
    """A rule of two-state blocks in MCell's or Golly's notation, by name, or as sixteen numbers. See `successors`.

    edge: a block with a cell of the upper plane stays as it is, so that the upper plane can mark what lies outside of a
    pattern. The cycle has the even grid and the odd one in turn. Raises RuleError for a notation that is none.
    """
    blocks_after = successors(notation)
    tables = _by_corner(lambda block: _bits(blocks_after[sum(bit << place for place, bit in enumerate(block))]), 2)
    if isinstance(notation, str) and notation.strip().lower() in MARGOLUS_NAMES:
        name = notation.strip()
    hood, body = _block_body(tables, ("CENTER", "CW", "OPP", "CCW"))
    if edge:
        text = f": R CENTER' CW' OR CCW' OR OPP' OR 0= IF {body} {_lower(half)} THEN ;"
    else:
        text = f": R {body} {_lower(half)} ;"
    return Rule(text, hood, "&/PHASES", half, _as_name(name, "BLOCKS"), ALTERNATING)


def blocks(
    after: Callable[[Block], Sequence[int]],
    states: int = 4,
    *,
    half: str = "A",
    edge: bool = False,
    name: str = "BLOCKS",
) -> Rule:
    """A rule of blocks whose cells have up to four states, from a function that gives the block after each block.

    after: takes the states of the upper left, upper right, lower left and lower right cell, and returns as many.
    states: 2 to 4. A state is the bit of the lower plane and twice the bit of the upper one. edge, for up to three
    states: a block with a cell of state 3 stays as it is, and for two states also one with a cell of state 2. Raises
    RuleError if the function returns anything else than a block.
    """
    states = _number(states)
    if not 2 <= states <= (3 if edge else 4):
        raise RuleError(f"blocks of {states} states{' with an edge' if edge else ''} don't fit into two planes")
    if states == 2:
        images = [_checked_block(after(_bits(number)), 2) for number in range(16)]
        numbers = [sum(bit << place for place, bit in enumerate(image)) for image in images]
        return margolus(numbers, half=half, edge=edge, name=name)

    def kept_outside(block: Block) -> Sequence[int]:
        """What a block becomes. One with a cell of a higher state stays."""
        return block if max(block) >= states else _checked_block(after(block), states)

    tables = _by_corner(kept_outside, 4)
    hood, body = _block_body(tables, ("CENTER", "CENTER'", "CW", "CW'", "OPP", "OPP'", "CCW", "CCW'"))
    return Rule(f": R {body} {_both(half)} ;", hood, "&/PHASES", half, _as_name(name, "BLOCKS"), ALTERNATING)


def margolus_table(
    text: str, *, states: Optional[int] = None, half: str = "A", edge: bool = False, name: str = "BLOCKS"
) -> Rule:
    """A rule of blocks from one of Golly's rule tables whose neighbourhood is Margolus, of two to four states.

    The text has lines such as `n_states:3`, `symmetries:rotate4`, `var a={0,1,2}` and `1,a,0,0 : 0,a,1,0`. The first
    transition that fits counts, and a block that none fits stays. Lines may begin with `#`, as they do in Golly's
    patterns. states: fewer than the table's, if blocks of so many states have these alone after a step. edge: as for
    `blocks`. Raises RuleError with the line if the text is no such table.
    """
    table = _table_of(text)
    return blocks(table.next_block, states or table.states, half=half, edge=edge, name=name)


class _Table:
    """A rule table of Golly: its number of states, and the block after each block."""

    def __init__(self) -> None:
        self.states, self.symmetries = 2, "none"
        self.variables: Dict[str, List[str]] = {}
        self.transitions: List[Tuple[List[str], List[str]]] = []

    def next_block(self, block: Block) -> Tuple[int, ...]:
        """What the first transition that fits makes of a block. One that none fits stays."""
        for left, right in self.transitions:
            for places in _SYMMETRIES[self.symmetries]:
                found = self.bound([left[place] for place in places], block)
                if found is not None:
                    return tuple(int(found.get(word, word)) for word in (right[place] for place in places))
        return block

    def bound(self, left: Sequence[str], block: Block) -> Optional[Dict[str, int]]:
        """The values of the variables by which the left side is this block, or None if it is not."""
        found: Dict[str, int] = {}
        for word, state in zip(left, block):
            if word in self.variables:
                if str(state) not in self.variables[word] or found.setdefault(word, state) != state:
                    return None
            elif word != str(state):
                return None
        return found


def _table_of(text: str) -> _Table:
    """Reads a rule table of Golly. Raises RuleError, with the line if one is to blame."""
    table, is_margolus = _Table(), False
    for number, line in enumerate(text.splitlines(), 1):
        line = line.lstrip("# \t").split("#")[0].strip()
        if found := re.fullmatch(r"n_states:\s*(\d+)", line):
            table.states = int(found[1])
        elif found := re.fullmatch(r"neighborhood:\s*(\w+)", line):
            is_margolus = found[1] == "Margolus"
        elif found := re.fullmatch(r"symmetries:\s*(\w+)", line):
            table.symmetries = found[1]
            if found[1] not in _SYMMETRIES:
                raise RuleError(f"line {number}: the symmetry {found[1]!r} is none of {', '.join(_SYMMETRIES)}")
        elif found := re.fullmatch(r"var\s+(\w+)\s*=\s*\{([\w\s,]*)\}", line):
            table.variables[found[1]] = [word.strip() for word in found[2].split(",")]
        elif found := re.fullmatch(r"(\w+(?:\s*,\s*\w+){3})\s*:\s*(\w+(?:\s*,\s*\w+){3})", line):
            left, right = ([word.strip() for word in side.split(",")] for side in found.groups())
            for word in left + right:
                if not (word in table.variables or word.isdigit() and int(word) < table.states):
                    raise RuleError(f"line {number}: {word!r} is no state and no variable")
            table.transitions.append((left, right))
    if not is_margolus or not table.transitions:
        raise RuleError("the text has no line neighborhood:Margolus, or no transitions such as 1,0,0,0 : 0,0,0,1")
    return table


def _bits(number: int) -> Block:
    """The four cells of a block 0 to 15, that of bit 0 first: upper left, upper right, lower left, lower right."""
    return number & 1, number >> 1 & 1, number >> 2 & 1, number >> 3 & 1


def _checked_block(block: Sequence[int], states: int) -> Tuple[int, ...]:
    """A block as a tuple. Raises RuleError if it is none of four cells with so many states."""
    cells = tuple(_number(cell) for cell in block)
    if len(cells) != 4 or not all(0 <= cell < states for cell in cells):
        raise RuleError(f"{block!r} is no block of four cells with states 0 to {states - 1}")
    return cells


def _by_corner(after: Callable[[Block], Sequence[int]], states: int) -> List[List[int]]:
    """For each corner of a block, in reading order, what its cell becomes, by what it sees: itself first, then
    clockwise."""
    tables = [[0] * states**4 for _ in range(4)]
    for block in itertools.product(range(states), repeat=4):
        image = _checked_block(after((block[0], block[1], block[2], block[3])), states)
        for corner in range(4):
            turn = _CLOCKWISE.index(corner)
            seen = [block[_CLOCKWISE[(turn + k) % 4]] for k in range(4)]
            tables[corner][sum(state * states**k for k, state in enumerate(seen))] = image[corner]
    return tables


def _block_body(tables: List[List[int]], names: Sequence[str]) -> Tuple[str, str]:
    """The neighbourhood, and words that leave what a cell becomes. `tables` are those of `_by_corner`, and `names` what
    a cell sees, by the bits of their index."""
    terms = [([name], 1 << k) for k, name in enumerate(names)]
    if all(table == tables[0] for table in tables):
        return "N/MARG", _case(terms, tables[0])
    # HORZ is 1 in a block's right column, and VERT in its lower row: the corners in reading order.
    terms += [(["HORZ"], len(tables[0])), (["VERT"], 2 * len(tables[0]))]
    return "N/MARG-HV", _case(terms, list(itertools.chain(*tables)))


# Functions of Python.


def table(
    function: Callable[..., Any],
    *,
    hood: Optional[str] = None,
    minor: Optional[str] = None,
    half: str = "A",
    name: str = "",
    cycle: Optional[Sequence[Tuple[str, int]]] = None,
) -> Rule:
    """A rule from a function whose parameters are names of neighbours, such as `lambda center, north, south: ..`.

    A parameter is the name in small letters, with `_` for a point and at the end for a prime: n_west is N.WEST,
    center_ is CENTER'. other and other_ are &CENTER and &CENTER'. Each argument is 0 or 1. The function returns 0 or
    1 for the lower plane, or a pair of bits for the lower and the upper one. It is called for each of the 2^n
    arguments, n being at most 12.

    hood, minor: by default the first ones that have all names. cycle: by default the even grid, and for blocks both
    in turn. Raises RuleError if the text doesn't fit, as for many functions of eleven neighbours and more, or if a
    name or a returned value is none.
    """
    parameters = list(inspect.signature(function).parameters)
    hood, minor, names = _wiring_of(parameters, hood, minor)
    values, is_both = _values(function, len(names))
    body = _words_for(names, values)
    text = f": R {body} {_both(half) if is_both else _lower(half)} ;"
    size = _size(body) + 1
    if size > MOST_SIZE or len(text) > MOST_BYTES:
        raise RuleError(
            f"the rule doesn't fit: it has size {size:,} of {MOST_SIZE:,} and {len(text):,} bytes of {MOST_BYTES:,}."
            " Look at fewer neighbours, or at their sum alone"
        )
    usual = ALTERNATING if hood.startswith("N/MARG") else (("EVEN", 0),)
    called = name or getattr(function, "__name__", "").upper().replace("<LAMBDA>", "TABLE")
    return Rule(
        text,
        hood,
        minor,
        half,
        _as_name(called, "TABLE"),
        usual if cycle is None else tuple((grid, phase) for grid, phase in cycle),
    )


def _name_of(parameter: str) -> str:
    """The neighbour's name that a parameter stands for, without the sign of the other half."""
    prime = "'" if parameter.endswith("_") else ""
    return parameter.rstrip("_").upper().replace("_", ".") + prime


def _wiring_of(parameters: List[str], hood: Optional[str], minor: Optional[str]) -> Tuple[str, str, List[str]]:
    """The neighbourhood, the minor assignment, and the name of each parameter there. The first ones that have all names
    are taken for None. Raises RuleError if none has."""
    for chosen, known in ((hood, HOODS), (minor, MINORS)):
        if chosen is not None and chosen not in known:
            raise RuleError(f"{chosen!r} is none of {', '.join(known)}")
    for tried_hood in [hood] if hood else list(HOODS):
        default = ["&/PHASES", "&/HV", "&/CENTERS"] if tried_hood.startswith("N/MARG") else list(MINORS)
        for tried_minor in [minor] if minor else default:
            names = [_name_in_wiring(_name_of(parameter), tried_hood, tried_minor) for parameter in parameters]
            if all(names):
                return tried_hood, tried_minor, [name for name in names if name]
    raise RuleError(
        f"no neighbourhood has all of {', '.join(map(_name_of, parameters)) or 'no names'}: "
        "parameters are names such as center, center_, north, n_west, cw, opp, horz, phase and other"
    )


def _name_in_wiring(name: str, hood: str, minor: str) -> Optional[str]:
    """Returns the name itself if the neighbourhood has it, else its `&` name if the minor assignment has that, else
    None. The `&` name of `OTHER` is `&CENTER`."""
    if name in HOODS[hood]:
        return name
    other = "&" + name.replace("OTHER", "CENTER") if name != "CENTER" and name != "CENTER'" else name
    return other if other in MINORS[minor] else None


def _values(function: Callable[..., Any], count: int) -> Tuple[List[int], bool]:
    """What the function returns at each address of `count` bits, as lower + 2 upper, and whether it returns pairs.
    Raises RuleError."""
    if count > 12:
        raise RuleError(f"the function has {count} parameters, and a rule sees twelve names")
    returned = [function(*(address >> k & 1 for k in range(count))) for address in range(1 << count)]
    is_both = any(isinstance(value, (tuple, list)) for value in returned)
    values = []
    for address, value in enumerate(returned):
        bits = [
            int(bit) if isinstance(bit, bool) else _number(bit)
            for bit in (value if is_both and _is_pair(value) else [value])
        ]
        if len(bits) != 1 + is_both or not all(bit in (0, 1) for bit in bits):
            raise RuleError(
                f"the function returned {value!r} at address {address}: return 0 or 1, or always a pair of them"
            )
        values.append(sum(bit << k for k, bit in enumerate(bits)))
    return values, is_both


def _is_pair(value: Any) -> bool:
    """Whether a value is a tuple or list of two."""
    return isinstance(value, (tuple, list)) and len(value) == 2


def _words_for(names: List[str], values: List[int]) -> str:
    """Words that leave the value of each address: a case over sums where neighbours stand for one another, else
    choices."""
    names, values = _needed(names, values)
    if not names:
        return str(values[0])
    for k, name in enumerate(names):
        low, high = _halves(values, k)
        changes = {a ^ b for a, b in zip(low, high)}
        if len(changes) == 1:
            change = changes.pop()
            changed = name if change == 1 else f"{name} {change} *"
            rest = _words_for(names[:k] + names[k + 1 :], low)
            return changed if rest == "0" else f"{rest} {changed} XOR"
    flat = _flat_case(names, values)
    if len(names) <= 2 or _size(flat) <= 64:
        return flat
    split = min(
        range(len(names)), key=lambda k: sum(_estimate(names[:k] + names[k + 1 :], half) for half in _halves(values, k))
    )
    if sum(_estimate(names[:split] + names[split + 1 :], half) for half in _halves(values, split)) + 3 >= _size(flat):
        return flat
    clear, set_ = (_words_for(names[:split] + names[split + 1 :], half) for half in _halves(values, split))
    return f"{names[split]} IF {set_} ELSE {clear} THEN"


def _needed(names: List[str], values: List[int]) -> Tuple[List[str], List[int]]:
    """The names on which the values depend, and the values by these names alone. `values` has one for each address."""
    for k in reversed(range(len(names))):
        low, high = _halves(values, k)
        if low == high:
            names, values = names[:k] + names[k + 1 :], low
    return names, values


def _halves(values: List[int], k: int) -> Tuple[List[int], List[int]]:
    """The values at which bit k of the address is 0, and those at which it is 1."""
    return (
        [value for address, value in enumerate(values) if not address >> k & 1],
        [value for address, value in enumerate(values) if address >> k & 1],
    )


def _estimate(names: List[str], values: List[int]) -> int:
    """The size that the words of a flat case would have, or 1 if the values are all equal."""
    names, values = _needed(names, values)
    return _size(_flat_case(names, values)) if names else 1


def _flat_case(names: List[str], values: List[int]) -> str:
    """Words of a case over all that is seen. Names that stand for one another are counted."""
    terms: List[Tuple[List[str], int]] = []
    weight = 1
    cases = [0]
    for members in _classes(names, values):
        terms.append(([names[k] for k in members], weight))
        weight *= len(members) + 1
        cases = [
            address + sum(1 << k for k in members[:count]) for count in range(len(members) + 1) for address in cases
        ]
    return _case(terms, [values[address] for address in cases])


def _classes(names: List[str], values: List[int]) -> List[List[int]]:
    """The names in groups, any two of which can change places. A name stands as its index."""
    groups: List[List[int]] = []
    for k in range(len(names)):
        for group in groups:
            if _can_swap(values, group[0], k):
                group.append(k)
                break
        else:
            groups.append([k])
    return groups


def _can_swap(values: List[int], i: int, j: int) -> bool:
    """Whether the values stay if the bits i and j of each address change places."""
    swap = (1 << i) | (1 << j)
    return all(
        value == values[address ^ swap] for address, value in enumerate(values) if address >> i & 1 != address >> j & 1
    )


def _case(terms: Sequence[Tuple[Sequence[str], int]], values: Sequence[int]) -> str:
    """A case over the sum of the terms. A term is the sum of some names, times its weight."""
    if list(values) == [0, 1] and len(terms) == 1:
        return terms[0][0][0]
    parts: List[str] = []
    for names, weight in terms:
        parts.append(names[0])
        for name in names[1:]:
            parts += [name, "+"]
        parts += [str(weight), "*"] if weight > 1 else []
        parts += ["+"] if len(parts) > 0 and weight > 1 else []
    return f"{' '.join(parts)} {{ {' '.join(map(str, values))} }}"


def _size(body: str) -> int:
    """The size of a body that uses no defined names."""
    size, inside = 0, False
    for token in body.split():
        inside = (inside or token == "{") and token != "}"
        size += 0 if token in ("THEN", "}") else 2 if inside and token != "{" else 1
    return size


# Undoing.


@dataclass(frozen=True)
class Cause:
    """Why a rule can't be undone: hood, centres or meeting; and for meeting the phase and the two states that become
    one.

    A state is 0 to 255. Its bits 0 to 3 are the cells of the lower plane clockwise from the upper left one, and its
    bits 4 to 7 those of the upper plane.
    """

    cause: str
    phase: Optional[int] = None
    states: Optional[Tuple[int, int]] = None


def is_reversible(rule: Rule) -> bool:
    """Whether a machine can undo the rule, found out here without a machine. Raises RuleError if its text is no
    rule."""
    return cause(rule) is None


@functools.lru_cache(maxsize=256)
def cause(rule: Rule) -> Optional[Cause]:
    """Why a machine can't undo the rule, as its fault 64 says, or None if it can. Raises RuleError if its text is no
    rule."""
    try:
        program = words.Program(rule.text, rule.hood, rule.minor, rule.half)
        if not rule.hood.startswith("N/MARG"):
            return Cause("hood")
        if rule.minor == "&/CENTERS":
            return Cause("centres")
        phases = range(4) if any("PHASE" in name for name in program.names) else range(1)
        for phase in phases:
            smaller: Dict[int, int] = {}
            for state in range(256):
                image = _image(program, state, phase)
                if image in smaller:
                    return Cause("meeting", phase, (smaller[image], state))
                smaller[image] = state
    except WordError as error:
        raise RuleError(f"the text is no rule: {error}") from None
    return None


def _image(program: words.Program, state: int, phase: int) -> int:
    """The state 0 to 255 that a block of this state becomes at a phase 0 to 3. The bits are as for `Cause`."""
    image = 0
    for place in range(4):
        seen = {"PHASE": phase & 1, "PHASE'": phase >> 1, "HORZ": int(place in (1, 2)), "VERT": int(place in (2, 3))}
        seen.update({"&" + name: bit for name, bit in seen.items()})
        for turn, name in enumerate(("CENTER", "CW", "OPP", "CCW")):
            seen[name] = state >> (place + turn) % 4 & 1
            seen[name + "'"] = state >> (place + turn) % 4 + 4 & 1
        lower, upper = program.at(seen)
        image |= lower << place | upper << place + 4
    return image


# What several builders need.


def _lower(half: str) -> str:
    """The word that writes the lower plane of a half."""
    return ">PLN2" if half == "B" else ">PLN0"


def _both(half: str) -> str:
    """The word that writes both planes of a half."""
    return ">PLNB" if half == "B" else ">PLNA"


def _number(value: Any) -> int:
    """Returns a whole number, also of numpy, as an int. Raises RuleError for anything else, and for True and False."""
    if isinstance(value, bool):
        raise RuleError(f"{value} is no number")
    try:
        return operator.index(value)
    except TypeError:
        raise RuleError(f"{value!r} is no whole number") from None


def _listed(values: Any) -> List[Any]:
    """The values as a list. Raises RuleError if they are none."""
    try:
        return list(values)
    except TypeError:
        raise RuleError(f"{values!r:.40} is no list of numbers") from None


def _as_name(text: str, default: str) -> str:
    """The text as a rule's name, if it can be one, else the default."""
    is_name = re.fullmatch(r"[!#-\[\]-~]{1,24}", text) is not None and text != "-"
    return text if is_name else default
