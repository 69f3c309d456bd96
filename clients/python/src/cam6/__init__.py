"""cam6: the cellular automata machine CAM-6, by a proved program, from Python.

    import cam6

    with cam6.local() as machine:
        machine.rule("P", ": P CENTER NORTH XOR SOUTH XOR WEST XOR EAST XOR >PLN0 ;", hood="N/VONN")
        machine.cycle("P")
        machine.put(0, [[1]], x=128, y=128)
        machine.run(64)
        print(machine.count())

`local` starts the program, and `connect` takes a seat of a host. Both return a `Machine`. `rules` makes rules from other
notations, `patterns` reads and writes patterns, and `pictures` draws.
"""

from __future__ import annotations

import importlib
from typing import TYPE_CHECKING, Any

from .errors import (
    BadJournal,
    Cam6Error,
    Diverged,
    Fault,
    GaveUp,
    Lost,
    NoSeat,
)
from .machine import Machine
from .pipeline import Pipeline
from .starting import connect, local

if TYPE_CHECKING:
    from . import patterns, pictures, rules

__all__ = [
    "BadJournal",
    "Cam6Error",
    "Diverged",
    "Fault",
    "GaveUp",
    "Lost",
    "Machine",
    "NoSeat",
    "Pipeline",
    "connect",
    "errors",
    "local",
    "patterns",
    "pictures",
    "rules",
]
__version__ = "1.0.0"


def __getattr__(name: str) -> Any:
    if name in ("errors", "patterns", "pictures", "rules"):
        return importlib.import_module(f"{__name__}.{name}")
    raise AttributeError(f"module {__name__!r} has no attribute {name!r}")
