"""Worked examples of whole tables, of tables that undo others, and of caches of them, answered by plain formulas and no words.

A formula says the new bits of a place by what it sees. Each of the 256 states of a block is tried at each of the four phases,
and for each state the one that becomes it is looked for.
"""

from __future__ import annotations

from collections.abc import Callable, Iterable, Iterator, Sequence
from functools import cache

import pytest
from examples.rules import ADD_EIGHT, BALLS, BESIDE, CRITTERS, HPP, S4, TM, TURNING
from oracle.examples import Example
from oracle.wirings import BLOCKS, CENTRES, lines_of
from support.playing import assert_answers
from support.programs import TOP

STATES, PHASES, PLACES = range(256), range(4), range(4)
NAMES = ("CENTER", "CW", "OPP", "CCW")
AROUND = ("NORTH", "SOUTH", "WEST", "EAST", "N.WEST", "N.EAST", "S.WEST", "S.EAST")
MOST_BYTES = 8192
EXAMPLES = ("caches", "inverses", "inverses_refused", "tables")


class View:
    """What a place sees under names. Places of a block are counted clockwise from the upper left one."""

    def __init__(self, shown: dict[str, int]) -> None:
        self.shown = shown
        lower, upper = ([shown.get(f"{name}{mark}", 0) for name in NAMES] for mark in ("", "'"))
        self.center, self.cw, self.opp, self.ccw = lower
        self.center2, self.cw2, self.opp2, self.ccw2 = upper
        self.low, self.high, self.right, self.below = (shown.get(n, 0) for n in ("PHASE", "PHASE'", "HORZ", "VERT"))
        self.other_row = self.cw if self.right != self.below else self.ccw
        self.balls, self.upper_balls, self.around = sum(lower), sum(upper), sum(shown.get(n, 0) for n in AROUND)
        self.is_pair = self.balls == 2 and self.center == self.opp


# The new lower and upper bit of a place.
Formula = Callable[[View], tuple[int, int]]


def kept(lower: Callable[[View], int]) -> Formula:
    """A rule that writes the lower plane alone."""
    return lambda see: (int(lower(see)), see.center2)


def balls(see: View) -> int:
    """A lone ball crosses its block, two on a diagonal go to the other one, and all others stay."""
    return see.opp if see.balls == 1 else see.cw if see.is_pair else see.center


def critters(see: View) -> int:
    """A block of two stays, one of three is turned by half a turn, and all but those of two are inverted."""
    return see.center if see.balls == 2 else 1 - (see.opp if see.balls == 3 else see.center)


def by_phase(see: View) -> tuple[int, int]:
    """At each phase another: nothing, the one turn, the other, or each plane becomes the other."""
    planes = (see.center, see.center2), (see.cw, see.cw2), (see.ccw, see.ccw2), (see.center2, see.center)
    return planes[see.low + 2 * see.high]


TRON = f"{S4} : T S4 {{ 1 CENTER CENTER CENTER 0 }} >PLN0"
SUM, FULL = f": 8SUM {ADD_EIGHT} ;", ": L CENTER CW AND CCW AND OPP AND ; : U CENTER' CW' AND CCW' AND OPP' AND ;"
# By the text of each rule.
FORMULAS: dict[str, Formula] = {
    # They have tables that undo them.
    BALLS: kept(balls),
    CRITTERS: kept(critters),
    f"{HPP} >PLN0 ;": kept(lambda s: s.cw if s.is_pair else s.opp),
    f"{TM} >PLN0 ;": kept(lambda s: s.center if s.is_pair else s.ccw if s.low else s.cw),
    f"{TRON} ;": kept(lambda s: s.center ^ (s.balls in (0, 4))),
    f"{TRON} CW CW' XOR >PLN1 ;": lambda s: (s.center ^ (s.balls in (0, 4)), s.cw2 ^ s.cw),
    ": R CENTER' >PLN0 CW >PLN1 ;": lambda s: (s.center2, s.cw),
    ": R CW >PLN0 ;": kept(lambda s: s.cw),
    ": R CW >PLN2 ;": kept(lambda s: s.cw),
    f"{BESIDE} : R BESIDE >PLN0 ;": kept(lambda s: s.other_row),
    ": R CENTER VERT 0= OPP AND XOR >PLN0 ;": kept(lambda s: s.center if s.below else s.center ^ s.opp),
    TURNING: by_phase,
    ": R ;": kept(lambda s: s.center),
    # Two states of a block meet.
    ": R CENTER CW AND >PLN0 ;": kept(lambda s: s.center & s.cw),
    ": R CENTER CENTER' OR >PLN0 ;": kept(lambda s: s.center | s.center2),
    ": R PHASE IF 0 ELSE CENTER THEN >PLN0 ;": kept(lambda s: 0 if s.low else s.center),
    ": R &PHASE' IF 1 ELSE CW THEN >PLN0 ;": kept(lambda s: 1 if s.high else s.cw),
    ": R CENTER >PLN0 PHASE PHASE' AND IF CENTER ELSE CENTER' THEN >PLN1 ;": lambda s: (
        s.center,
        s.center if s.low and s.high else s.center2,
    ),
    ": R &HORZ IF &VERT IF CW ELSE CCW THEN ELSE CENTER THEN >PLN0 ;": kept(
        lambda s: (s.cw if s.below else s.ccw) if s.right else s.center
    ),
    ": R VERT 0= CENTER AND >PLN2 ;": kept(lambda s: 0 if s.below else s.center),
    f"{BESIDE} : S BESIDE CENTER &VERT IF OR ELSE AND THEN >PLN0 ;": kept(
        lambda s: s.center | s.other_row if s.below else s.center & s.other_row
    ),
    ": R CENTER CW XOR CCW XOR OPP XOR >PLN0 ;": kept(lambda s: s.balls % 2),
    ": R CENTER DUP >PLN0 >PLN1 ;": lambda s: (s.center, s.center),
    f"{FULL} : R L U AND IF &PHASE ELSE CENTER THEN >PLN0 ;": kept(
        lambda s: s.low if s.balls + s.upper_balls == 8 else s.center
    ),
    # Of cells.
    f"{SUM} : LIFE 8SUM {{ 0 0 CENTER 1 0 0 0 0 0 }} >PLN0 ;": kept(
        lambda s: s.around == 3 or s.around == 2 and s.center
    ),
    f"{SUM} : BRAIN 8SUM 2 = CENTER 0= AND CENTER' 0= AND >PLN0 CENTER >PLN1 ;": lambda s: (
        int(s.around == 2 and not s.center and not s.center2),
        s.center,
    ),
    ": R CENTER >PLN0 ;": kept(lambda s: s.center),
    ": R 0 >PLN0 ;": kept(lambda s: 0),
}
# Each other one inverts the lower plane.
FORMULAS |= {
    f": R {n} CENTER XOR >PLN0 ;": (kept(lambda s: s.center), kept(lambda s: 1 - s.center))[n % 2] for n in range(65)
}
# By hand.
FAULTS = {": R CENTER 0= - >PLN0 ;": '{"address":0,"fault":40}', ": R NORTH >PLN0 ;": '{"fault":20,"token":3}'}


def name_at(line: str) -> str:
    """The name of a line, or the one that shows the same under a minor assignment."""
    return line if "CENTER" in line else line.lstrip("&")


def of_block(state: int, phase: int, place: int) -> View:
    """What a place of a block sees."""
    shown = {
        f"{name}{mark}": state >> first + (place + n) % 4 & 1
        for mark, first in (("", 0), ("'", 4))
        for n, name in enumerate(NAMES)
    }
    return View(shown | {"PHASE": phase % 2, "PHASE'": phase // 2, "HORZ": int(place in (1, 2)), "VERT": place // 2})


@cache
def entries(wiring: str, formula: Formula) -> list[int]:
    """The entry of each address by a formula."""
    _, hood, minor = wiring.split()
    names = list(map(name_at, lines_of(hood, minor)))
    seen = (View({name: address >> line & 1 for line, name in enumerate(names)}) for address in range(4096))
    return [lower + 2 * upper for lower, upper in map(formula, seen)]


def images(formula: Formula, phase: int) -> list[int]:
    """What each state of a block becomes by a formula."""
    blocks = [[formula(of_block(state, phase, place)) for place in PLACES] for state in STATES]
    return [sum(lower << k | upper << 4 + k for k, (lower, upper) in enumerate(block)) for block in blocks]


def meeting(formula: Formula) -> str | None:
    """The least phase at which two states have one image, the least such state with a smaller one, and that one."""
    for phase in PHASES:
        new = images(formula, phase)
        for state in STATES:
            if new[state] in new[:state]:
                return f"meeting at phase {phase} of {new.index(new[state])} and {state}"
    return None


def table(wiring: str, becomes: Sequence[Sequence[int]]) -> list[int]:
    """The table by which each state becomes another one, by the phase. Any other address has its own bits."""
    found: dict[int, int] = {}
    _, hood, minor = wiring.split()
    for phase, states in enumerate(becomes):
        for state, new in enumerate(states):
            for place in PLACES:
                entry, shown = (new >> place & 1) + 2 * (new >> 4 + place & 1), of_block(state, phase, place).shown
                address = sum(shown.get(name_at(name), 0) << line for line, name in enumerate(lines_of(hood, minor)))
                assert found.setdefault(address, entry) == entry
    return [found.get(address, address % 4) for address in range(4096)]


@cache
def undone(wiring: str, formula: Formula) -> list[int]:
    """The table that undoes a rule."""
    new = [images(formula, phase) for phase in PHASES]
    return table(wiring, [[new[phase].index(state) for state in STATES] for phase in PHASES])


def refusal(wiring: str, text: str) -> str | None:
    """Why a rule has no table that undoes it."""
    _, hood, minor = wiring.split()
    cause = "hood" if hood not in BLOCKS else "centres" if minor in CENTRES else None
    return cause or FAULTS.get(text) or meeting(FORMULAS[text.strip()])


def lines_of_table(entries: Sequence[int]) -> Iterator[str]:
    """The entries of a table, 64 in a line."""
    digits = "".join(map(str, entries))
    yield from (digits[first : first + 64] for first in range(0, 4096, 64))


def answers_of_cache(capacity: int, lines: Iterable[str]) -> Iterator[str]:
    """What comes back from a cache: which tables it had kept, and those that are shown."""
    kept_keys: list[str] = []
    for line in lines:
        word, *wiring, text = line.split(" ", 4) if " " in line else [line, ""]
        if word == "evict":
            yield "true" if kept_keys else "false"
            kept_keys = kept_keys[:-1]
        elif word == "table":
            is_undone, shown = kept_keys[0].startswith("undo"), kept_keys[0].split(" ", 4)
            make = undone if is_undone else entries
            yield from lines_of_table(make(" ".join(shown[1:4]), FORMULAS[shown[4].strip()]))
        elif len(text.encode()) > MOST_BYTES:
            yield '{"fault":28,"token":0}'
        elif why := FAULTS.get(text) or (refusal(" ".join(wiring), text) if word == "undo" else None):
            yield why
        else:
            yield "true" if line in kept_keys else "false"
            kept_keys = [line, *(key for key in kept_keys if key != line)][:capacity]


def answers(way: str, lines: list[str]) -> Iterator[str]:
    """What comes back for a part of an example."""
    word, *words = way.split()
    if word == "cache":
        yield from answers_of_cache(int(words[0]), lines)
        return
    wiring = " ".join(words[-3:])
    for text in lines:
        if word == "tables":
            yield from lines_of_table(entries(wiring, FORMULAS[text]))
        elif why := refusal(wiring, text):
            yield why
        elif words[0] == "twice":
            yield from lines_of_table(table(wiring, [images(FORMULAS[text], phase) for phase in PHASES]))
        else:
            yield from lines_of_table(undone(wiring, FORMULAS[text]))


@pytest.mark.parametrize("name", EXAMPLES)
def test_formulas_say_what_the_file_says(name: str) -> None:
    example = Example(TOP / f"crates/cam6_try_rules/data/{name}.example")
    came = (answers(part.way, [line.decode() for line, _ in part.sent]) for part in example.parts)
    assert_answers(example, ("".join(f"{line}\n" for line in lines).encode() for lines in came))
