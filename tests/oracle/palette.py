"""The lights of the sixteen colours."""

from __future__ import annotations

# Red, green and blue of each, by the number of its colour.
PALETTE = (
    "000000 ffd23f 3fa7ff 9be564 ee4266 ff8c42 b388eb ffb3c6 3bceac d9f2b4 7fdbff e8f8ff c98a5b ffe8c2 d0c8ff ffffff"
).split()


def default_palette() -> list[tuple[int, int, int]]:
    """Red, green and blue of the sixteen colours, each from 0 to 255, by the number of the colour."""
    return [(light[0], light[1], light[2]) for light in map(bytes.fromhex, PALETTE)]
