"""Machines as they are saved, and the commands that save and load them."""

from __future__ import annotations

from typing import Any

from support.commands import Command, do

SAVE = do("save")
COLOURS = list(range(16))


def blank_rows(side: int) -> list[str]:
    """The rows of a blank plane."""
    return ["0" * (side // 4)] * side


def blank(number: int, **other: Any) -> Command:
    """A blank machine of this side as version 2 saves it, but with the members of `other`."""
    machine = {"colours": COLOURS, "cycle": [], "planes": [blank_rows(number)] * 4, "position": 0, "rules": []}
    return machine | {"side": number, "version": 2} | other


def first_version(machine: Command) -> Command:
    """A saved machine as the first version saves it: without its side, whatever that is."""
    return {key: value for key, value in machine.items() if key != "side"} | {"version": 1}


def load(machine: Any) -> Command:
    """The command that loads a machine, valid or not."""
    return do("load", machine=machine)


def entry(a: str = "-", b: str = "-", grid: str = "EVEN", phase: int = 0) -> Command:
    """An entry of a cycle: the rules of halves A and B by name (`-` is none), the grid and the phase."""
    return {"a": a, "b": b, "grid": grid, "phase": phase}


def rule(name: str, text: str, half: str = "A", hood: str = "N/MARG", minor: str = "&/PHASES") -> Command:
    """A rule as it is saved."""
    return {"half": half, "hood": hood, "minor": minor, "name": name, "text": text}
