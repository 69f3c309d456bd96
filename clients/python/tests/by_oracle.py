"""Rules and planes by the oracle of tests/oracle, which shares nothing with the package."""

from __future__ import annotations

import itertools
import json
from collections.abc import Iterable, Sequence
from typing import Any

from fakes import compact
from oracle import forth, torus
from oracle.rules import Rule, rule_of
from oracle.wirings import FIRST_PLANE, names_of
from support.programs import private


def oracle_rule(rule: Any) -> Rule:
    """The oracle's rule for one of the package. Fails if the text is no rule, or is too large."""
    made = rule_of(rule.half, rule.hood, rule.minor, rule.text)
    assert isinstance(made, Rule), (rule.text, made)
    return made


def definition_of(rule: Any) -> forth.Definition:
    """What the text of a rule says. A text that is none, or is too large, raises its fault."""
    return forth.read_text(rule.text, rule.half, rule.hood, rule.minor)


def size_of(rule: Any) -> int:
    """The size of a rule, as the manual counts it."""
    return definition_of(rule).size


def images(rule: Any, names: Sequence[str]) -> dict[tuple[int, ...], tuple[int, int]]:
    """The bits that a rule leaves, lower and upper, for all bits of these names; the others show 0."""
    definition = definition_of(rule)
    blank = dict.fromkeys(names_of(rule.hood, rule.minor), 0)
    every = itertools.product((0, 1), repeat=len(names))
    return {bits: forth.bits_of(definition, blank | dict(zip(names, bits))) for bits in every}


class Torus(torus.Torus):
    """A torus that steps by rules of the package."""

    def step(self, rule: Any, grid: str = "EVEN", phase: int = 0) -> None:
        """Does a step by a rule of one half. The planes of the other half stay."""
        first = FIRST_PLANE[rule.half]
        self.planes[first : first + 2] = self.step_half(oracle_rule(rule), grid, phase)


def replies_of(program: str, commands: Iterable[dict[str, Any]], side: int = 128) -> list[dict[str, Any]]:
    """The replies of a private machine to commands, read as JSON. `side` is its limit."""
    return [
        json.loads(reply) for reply in private(program, (compact(**command).decode() for command in commands), side)
    ]


def digits(row: Iterable[int]) -> str:
    """A row of bits as hexadecimal digits, column 0 the highest bit of the first one."""
    cells = "".join(str(int(bit)) for bit in row)
    return f"{int(cells, 2):0{len(cells) // 4}x}"


def bits_of(text: str) -> list[int]:
    """Hexadecimal digits as a row of bits, as docs/MANUAL.md has it."""
    return [int(bit) for digit in text for bit in f"{int(digit, 16):04b}"]


def lists(cells: Any) -> list[list[int]]:
    """An array, or rows of any kind, as lists of numbers."""
    return [[int(cell) for cell in row] for row in cells]


def value(found: Any) -> Any:
    """An array, or bytes of cells, as lists of numbers. All else stays."""
    if hasattr(found, "tolist"):
        return found.tolist()
    if isinstance(found, list) and found and isinstance(found[0], bytes):
        return lists(found)
    return list(found) if isinstance(found, bytes) and not found.startswith(b"{") else found
