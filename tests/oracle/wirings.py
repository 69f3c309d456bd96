"""The thirty wirings: for each neighbourhood and minor assignment the names of the address lines, and what a name means.

The names are those of Toffoli and Margolus, Cellular Automata Machines (1987), chapters 5, 7 and 12.
"""

from __future__ import annotations

# The names by their lines, from 0 on; a dot is a line without a name.
SINGLE_CELLS = {
    "N/MOORE": "CENTER CENTER' NORTH SOUTH WEST EAST N.WEST N.EAST S.WEST S.EAST",
    "N/VONN": "CENTER CENTER' NORTH SOUTH WEST EAST NORTH' SOUTH' WEST' EAST'",
}
BLOCKS = {
    "N/MARG": "CENTER CENTER' CW CCW OPP CW' CCW' OPP' . .",
    "N/MARG-PH": "CENTER CENTER' CW CCW OPP CW' CCW' OPP' PHASE PHASE'",
    "N/MARG-HV": "CENTER CENTER' CW CCW OPP CW' CCW' OPP' HORZ VERT",
}
HOODS = SINGLE_CELLS | BLOCKS
# The minor assignments, whose names are of the last two lines. A block can't be undone if it sees the other half's centres.
CENTRES = {"&/CENTERS": "&CENTER &CENTER'"}
SEEN_BY_BLOCKS = {"&/PHASES": "&PHASE &PHASE'", "&/HV": "&HORZ &VERT"}
MINORS = CENTRES | SEEN_BY_BLOCKS

# The columns to the east and the rows to the south at which a name reads a cell.
BESIDE = {
    "CENTER": (0, 0),
    "NORTH": (0, -1),
    "SOUTH": (0, 1),
    "WEST": (-1, 0),
    "EAST": (1, 0),
    "N.WEST": (-1, -1),
    "N.EAST": (1, -1),
    "S.WEST": (-1, 1),
    "S.EAST": (1, 1),
}
# Places of a block clockwise from its upper left cell, as columns and rows from there, and how far a name turns.
PLACES = [(0, 0), (1, 0), (1, 1), (0, 1)]
TURNS = {"CENTER": 0, "CW": 1, "OPP": 2, "CCW": 3}

FIRST_PLANE = {"A": 0, "B": 2}


def lines_of(hood: str, minor: str) -> list[str]:
    """The names of the twelve address lines; a dot is a line without a name."""
    return f"{HOODS[hood]} {MINORS[minor]}".split()


def names_of(hood: str, minor: str) -> list[str]:
    """The names of a wiring, in the order of their lines."""
    return [name for name in lines_of(hood, minor) if name != "."]


def reads_cells(name: str) -> bool:
    """Whether a name reads cells. The others read the phase, or where a cell is in its block."""
    return name.strip("&'") not in ("PHASE", "HORZ", "VERT")
