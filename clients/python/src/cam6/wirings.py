"""The names under which a rule sees its surroundings, by neighbourhood and minor assignment."""

from __future__ import annotations

from typing import Optional

# The names by the bits of the address, from bit 0 on. A neighbourhood has bits 0 to 9.
HOODS: dict[str, list[str]] = {
    "N/MOORE": "CENTER CENTER' NORTH SOUTH WEST EAST N.WEST N.EAST S.WEST S.EAST".split(),
    "N/VONN": "CENTER CENTER' NORTH SOUTH WEST EAST NORTH' SOUTH' WEST' EAST'".split(),
    "N/MARG": "CENTER CENTER' CW CCW OPP CW' CCW' OPP'".split(),
    "N/MARG-PH": "CENTER CENTER' CW CCW OPP CW' CCW' OPP' PHASE PHASE'".split(),
    "N/MARG-HV": "CENTER CENTER' CW CCW OPP CW' CCW' OPP' HORZ VERT".split(),
}
# A minor assignment has bits 10 and 11.
MINORS: dict[str, list[str]] = {
    "&/CENTERS": ["&CENTER", "&CENTER'"],
    "&/PHASES": ["&PHASE", "&PHASE'"],
    "&/HV": ["&HORZ", "&VERT"],
}


def names_at(hood: str, minor: str, address: int) -> Optional[list[str]]:
    """The names that are 1 at an address of 0 to 4095, or None if there is no such wiring."""
    if hood not in HOODS or minor not in MINORS:
        return None
    names = dict(enumerate(HOODS[hood]))
    names.update(enumerate(MINORS[minor], 10))
    return [name for bit, name in sorted(names.items()) if address >> bit & 1]
