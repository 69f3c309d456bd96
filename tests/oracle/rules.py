"""Rules: a text's words, tried at all addresses; what a block becomes; and why a rule can't be undone."""

from __future__ import annotations

from functools import cache
from itertools import product
from typing import Any, NamedTuple

from oracle import forth
from oracle.wirings import TURNS, lines_of

CENTRES = {"CENTER", "CENTER'"}
# The states of a block. Bits 0 to 3 are its lower plane's places clockwise from the upper left one, 4 to 7 the upper one's.
STATES = range(256)


class Key(NamedTuple):
    """What a rule is made of."""

    half: str
    hood: str
    minor: str
    text: str


def bit_of_block(name: str, state: int, phase: int, place: int) -> int:
    """The bit that place 0 to 3 of a block sees under a name. `state` is one of `STATES`."""
    is_upper, word = name.endswith("'"), name.strip("&'")
    if word in TURNS:
        return state >> ((place + TURNS[word]) % 4 + 4 * is_upper) & 1
    return {"PHASE": phase >> is_upper & 1, "HORZ": int(place in (1, 2)), "VERT": int(place in (2, 3))}[word]


class Rule:
    """A rule's words at a cell. What the cell sees is a list of bits, by the names of the rule in the order of their
    lines. The words are tried at all addresses, from the least on. Lines of names that the rule hasn't are left out.

    `stop` is where the words stop first, if they do. `tables` has what they write: lower bit and twice the upper one, by the
    bits of the first eight names, for each sight of the others.
    """

    def __init__(self, key: Key) -> None:
        self.key = key
        definition, lines = forth.read_text(key.text, key.half, key.hood, key.minor), lines_of(key.hood, key.minor)
        self.names = [name for name in lines if name in definition.seen | CENTRES]
        self.bits_of: dict[tuple[int, ...], tuple[int, int]] = {}
        self.stop: dict[str, int] | None = None
        self.tables = [bytearray(256) for _ in range(16)]
        for bits in product((0, 1), repeat=len(self.names)):
            seen = dict(zip(self.names, reversed(bits)))
            try:
                lower, upper = self.bits_of[bits[::-1]] = forth.bits_of(definition, seen)
            except forth.RuleFault as fault:
                address = sum(bit << lines.index(name) for name, bit in seen.items())
                self.stop = {"address": address, "fault": fault.args[0]}
                return
            sight = sum(bit << place for place, bit in enumerate(bits[::-1]))
            self.tables[sight >> 8][sight & 255] = lower | upper << 1

    def at(self, address: int) -> int:
        """What the words write at an address: lower bit and twice the upper one."""
        lines = lines_of(self.key.hood, self.key.minor)
        lower, upper = self.bits_of[tuple(address >> lines.index(name) & 1 for name in self.names)]
        return lower | upper << 1

    @cache
    def images(self, phase: int) -> list[int]:
        """For each state of a block, in order, the state that it becomes."""
        return [self.image(state, phase) for state in STATES]

    def image(self, state: int, phase: int) -> int:
        """What a state of a block becomes."""
        new = 0
        for place in range(4):
            lower, upper = self.bits_of[tuple(bit_of_block(name, state, phase, place) for name in self.names)]
            new |= lower << place | upper << place + 4
        return new

    @cache
    def cause(self) -> dict[str, Any] | None:
        """Why the rule can't be undone, or None. `states` has the least one that becomes what a lower one does, after
        that one, at the least phase."""
        if not self.key.hood.startswith("N/MARG"):
            return {"cause": "hood"}
        if self.key.minor == "&/CENTERS":
            return {"cause": "centres"}
        for phase in range(4):
            first: dict[int, int] = {}
            for state, image in enumerate(self.images(phase)):
                if first.setdefault(image, state) != state:
                    return {"cause": "meeting", "phase": phase, "states": [first[image], state]}
        return None


@cache
def rule_of(half: str, hood: str, minor: str, text: str) -> Rule | dict[str, int]:
    """The rule of a text, or the reply with its fault, if it isn't one or if its words stop at an address."""
    try:
        rule = Rule(Key(half, hood, minor, text))
    except forth.TextFault as fault:
        return {"fault": fault.number, "token": fault.token}
    return rule.stop or rule
