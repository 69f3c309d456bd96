"""What the canvas has to show: the picture of a private machine after some lines, a pixel for each cell."""

from __future__ import annotations

import json
from collections.abc import Iterable
from typing import Any

from PIL import Image, ImageChops
from oracle.palette import PALETTE
from support.programs import private

BLACK, NOTHING = (0, 0, 0, 255), (0, 0, 0, 0)


def machine_after(cam6: str, lines: Iterable[str]) -> dict[str, Any]:
    """The machine, as JSON of a reply to `save`, that a private machine (program `cam6`) has after these lines."""
    machine: dict[str, Any] = json.loads(private(cam6, [*lines, '{"do":"save"}'])[-1])["machine"]
    return machine


def picture_after(cam6: str, lines: Iterable[str]) -> Image.Image:
    """The picture (RGBA, a pixel for each cell) of a private machine, the program `cam6`, after these lines."""
    machine = machine_after(cam6, lines)
    side, colours = machine["side"], machine["colours"]
    planes = ["".join(f"{int(row, 16):0{side}b}" for row in rows) for rows in machine["planes"]]
    # A cell's state has the bit of plane 3 first, and the bit of plane 0 last.
    states = bytes(int(d + c + b + a, 2) for a, b, c, d in zip(*planes))
    picture = Image.frombytes("P", (side, side), states)
    picture.putpalette(bytes.fromhex("".join(PALETTE[colour] for colour in colours)))
    return picture.convert("RGBA")


def lit_pixels(picture: Image.Image, ground: tuple[int, ...] = BLACK) -> set[tuple[int, int]]:
    """The places (column, row) of the pixels that have another light than the ground, opaque black if none is named."""
    return {divmod(place, picture.width)[::-1] for place, light in enumerate(picture.getdata()) if light != ground}


def difference(came: Image.Image, wanted: Image.Image) -> str:
    """How two pictures differ, in words. It is empty if they don't."""
    if came.size != wanted.size:
        return f"the picture has {came.size} pixels, and not {wanted.size}"
    places = sorted(lit_pixels(ImageChops.difference(came, wanted), NOTHING))
    return f"{len(places)} pixels differ, as those at {places[:3]}" if places else ""
