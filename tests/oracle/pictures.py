"""Pictures of a session's replies: each plane, and each run of rows in colours, is a picture of the whole torus."""

from __future__ import annotations

import json
from collections.abc import Iterator, Sequence

from PIL import Image

from oracle.palette import default_palette

Light = tuple[int, int, int]


def pictures(replies: str) -> Iterator[Image.Image]:
    """The picture of each plane or run of rows in colours, a pixel for each cell: the number of its colour."""
    rows: list[bytes] = []
    for reply in map(json.loads, replies.splitlines()):
        if "colours" in reply:
            rows.append(bytes(int(colour, 16) for colour in reply["colours"]))
        elif "rows" in reply:
            rows = [bytes(map(int, f"{int(row, 16):0{4 * len(row)}b}")) for row in reply["rows"]]
        if rows and len(rows) == len(rows[0]):
            yield Image.frombytes("P", (len(rows), len(rows)), b"".join(rows))
            rows = []


def draw(
    replies: str, scale: int, window: Sequence[int] | None, palette: Sequence[Light] | None = None
) -> list[Image.Image]:
    """The pictures in RGB of a window (column, row, width, height), or of all if it is None. A cell has `scale` pixels
    each way. A window goes round the torus."""
    images = []
    for image in pictures(replies):
        x, y, width, height = window or (0, 0, *image.size)
        part = Image.new("P", (width, height))
        for column in range(-(x % image.width), width, image.width):
            for row in range(-(y % image.height), height, image.height):
                part.paste(image, (column, row))
        part = part.resize((width * scale, height * scale), Image.Resampling.NEAREST)
        part.putpalette([level for light in palette or default_palette() for level in light])
        images.append(part.convert("RGB"))
    return images
