"""Pictures of cells: PNG files, animated PNG and GIF files, and text for a terminal.

Colours and pixels are those of `cam6_draw`. PNG files need no other package. GIF files need Pillow.
"""

from __future__ import annotations

import importlib
import io
import operator
import os
import struct
import zlib
from typing import Any, Iterable, List, Optional, Sequence, Tuple, Union

from .cells import numpy

# The colours 0 to 15, as `cam6_draw --palette` takes them. In a picture of a plane, colour 0 is a cell that is not set.
PALETTE = (
    "000000,ffd23f,3fa7ff,9be564,ee4266,ff8c42,b388eb,ffb3c6,3bceac,d9f2b4,7fdbff,e8f8ff,c98a5b,ffe8c2,d0c8ff,ffffff"
)
MOST_SCALE, MOST_WINDOW = 64, 512
_DIGITS = bytes.maketrans(bytes(range(16)), b"0123456789abcdef")

Light = Tuple[int, int, int]
Palette = Union[str, Sequence[Union[str, Sequence[int]]]]
Crop = Tuple[int, int, int, int]


class PictureError(ValueError):
    """Cells, a palette, a window or a file that no picture can be made of."""


class Picture:
    """A picture of cells. A notebook shows it.

    width and height: in pixels.
    """

    def __init__(self, rows: Sequence[bytes], lights: Sequence[Light], scale: int) -> None:
        self._rows, self._lights, self._scale = list(rows), list(lights), scale
        self.width, self.height = len(rows[0]) * scale, len(rows) * scale

    def png(self) -> bytes:
        """The picture as a PNG file with a palette, of 1, 2 or 4 bits a pixel."""
        depth = self._depth()
        return _png_file(self._head(depth), _chunk(b"IDAT", self._packed(depth)))

    def ppm(self) -> bytes:
        """The picture as a netpbm file in the format P6, as `cam6_draw --ppm` writes it."""
        return f"P6\n{self.width} {self.height}\n255\n".encode() + self.rgb()

    def rgb(self) -> bytes:
        """Three bytes for each pixel, row by row: red, green and blue."""
        wide = [bytes(light) * self._scale for light in self._lights]
        return b"".join(b"".join(map(wide.__getitem__, row)) * self._scale for row in self._rows)

    def save(self, path: Union[str, "os.PathLike[str]"]) -> None:
        """Writes a file, PNG or netpbm by the end of its name: .png or .ppm. Raises PictureError for another one."""
        makers = {".png": self.png, ".ppm": self.ppm}
        _save(path, makers.get(_end_of(path)), "a picture's name ends in .png or .ppm")

    def _repr_png_(self) -> bytes:
        """The picture for a notebook, as a PNG file."""
        return self.png()

    def _depth(self) -> int:
        """The bits of a pixel that the largest colour needs: 1, 2 or 4."""
        most = max(max(row) for row in self._rows)
        return 1 if most < 2 else 2 if most < 4 else 4

    def _head(self, depth: int) -> List[bytes]:
        """The chunks of a PNG file that come before its pixels: its size and its colours."""
        size = struct.pack(">IIBBBBB", self.width, self.height, depth, 3, 0, 0, 0)
        lights = b"".join(bytes(light) for light in self._lights[: 1 << depth])
        return [_chunk(b"IHDR", size), _chunk(b"PLTE", lights)]

    def _packed(self, depth: int) -> bytes:
        """The compressed rows. A row that is drawn again is the one above it, by the filter for that."""
        digits = [b"%x" % colour * self._scale for colour in range(16)]
        missing = b"0" * (-self.width % (8 // depth))
        again = b"\2" + bytes((self.width * depth + 7) // 8)
        parts: List[bytes] = []
        for row in self._rows:
            text = b"".join(map(digits.__getitem__, row)) if self._scale > 1 else row.translate(_DIGITS)
            text += missing
            parts.append(b"\0" + int(text, 1 << depth).to_bytes(len(text) * depth // 8, "big"))
            parts.append(again * (self._scale - 1))
        return zlib.compress(b"".join(parts), 6)


class Film:
    """Pictures of one size, one after another. A notebook shows it.

    ms: how long each picture stays, in milliseconds. pictures: all of them.
    """

    def __init__(self, pictures: Sequence[Picture], ms: int) -> None:
        if not pictures:
            raise PictureError("a film has one picture at least")
        first = pictures[0]
        for number, picture in enumerate(pictures):
            if (picture.width, picture.height) != (first.width, first.height):
                raise PictureError(f"picture {number} of the film has another size than the first one")
        self.pictures, self.ms = list(pictures), _checked_number("ms", ms, 1, 65_535)
        self.width, self.height = first.width, first.height

    def __len__(self) -> int:
        return len(self.pictures)

    def apng(self) -> bytes:
        """The film as an animated PNG file, which plays again and again. Its colours are those of the first picture."""
        depth = max(picture._depth() for picture in self.pictures)
        head, palette = self.pictures[0]._head(depth)
        parts, order = [_chunk(b"acTL", struct.pack(">II", len(self.pictures), 0))], 0
        for number, picture in enumerate(self.pictures):
            shown = struct.pack(">IIIIIHHBB", order, self.width, self.height, 0, 0, self.ms, 1000, 0, 0)
            parts.append(_chunk(b"fcTL", shown))
            order += 1
            packed = picture._packed(depth)
            if number == 0:
                parts.append(_chunk(b"IDAT", packed))
            else:
                parts.append(_chunk(b"fdAT", struct.pack(">I", order) + packed))
                order += 1
        return _png_file([head, parts[0], palette], *parts[1:])

    def gif(self) -> bytes:
        """The film as a GIF file. A pause is a multiple of ten milliseconds there. Raises ImportError without
        Pillow."""
        try:
            image = importlib.import_module("PIL.Image")
        except ImportError:
            raise ImportError("a GIF file needs Pillow (pip install pillow); apng() needs no other package") from None
        frames = []
        for picture in self.pictures:
            wide = [bytes([colour]) * picture._scale for colour in range(16)]
            pixels = b"".join(b"".join(map(wide.__getitem__, row)) * picture._scale for row in picture._rows)
            frame = image.frombytes("P", (picture.width, picture.height), pixels)
            frame.putpalette(b"".join(bytes(light) for light in picture._lights))
            frames.append(frame)
        out, pause = io.BytesIO(), max(10, round(self.ms / 10) * 10)
        frames[0].save(out, "GIF", save_all=True, append_images=frames[1:], duration=pause, loop=0, optimize=False)
        return out.getvalue()

    def save(self, path: Union[str, "os.PathLike[str]"]) -> None:
        """Writes a file, animated PNG or GIF by the end of its name: .png, .apng or .gif. Raises PictureError for
        another one."""
        makers = {".png": self.apng, ".apng": self.apng, ".gif": self.gif}
        _save(path, makers.get(_end_of(path)), "a film's name ends in .png, .apng or .gif")

    def _repr_png_(self) -> bytes:
        """The film for a notebook, as an animated PNG file."""
        return self.apng()


def picture(
    cells: Any,
    colours: Optional[Sequence[int]] = None,
    palette: Optional[Palette] = None,
    scale: int = 1,
    crop: Optional[Crop] = None,
) -> Picture:
    """A picture of an array of numbers 0 to 15, by row and column.

    colours: sixteen numbers 0 to 15, the colour of each state; without them a state's number is its colour. palette:
    the sixteen colours, as six hexadecimal digits or three numbers 0 to 255 each. scale: pixels a cell, 1 to 64.
    crop: column, row, width and height of what is drawn, across the seams; width and height are 1 to 512. Raises
    PictureError for anything else.
    """
    scale = _checked_number("scale", scale, 1, MOST_SCALE)
    return Picture(_cropped(_colour_rows(cells, colours), crop), lights_of(palette), scale)


def film(
    frames: Iterable[Any],
    ms: int = 40,
    colours: Optional[Sequence[int]] = None,
    palette: Optional[Palette] = None,
    scale: int = 1,
    crop: Optional[Crop] = None,
) -> Film:
    """A film of arrays as `picture` takes them, or of pictures.

    ms: how long each picture stays, 1 to 65,535 milliseconds. Raises PictureError if there is no picture, or if sizes
    differ. More than three flashes a second can harm people: show rules that invert all cells two steps a picture.
    """
    shown = [frame if isinstance(frame, Picture) else picture(frame, colours, palette, scale, crop) for frame in frames]
    return Film(shown, ms)


def terminal(
    cells: Any,
    colours: Optional[Sequence[int]] = None,
    palette: Optional[Palette] = None,
    scale: int = 1,
    crop: Optional[Crop] = None,
    home: bool = False,
) -> str:
    """Text that draws cells on a terminal of 256 colours, two rows of pixels a line of characters.

    The arguments are those of `picture`. home: the text begins at the upper left corner and clears what is below, as
    `cam6_draw --text` does, so that one picture replaces the other.
    """
    scale = _checked_number("scale", scale, 1, MOST_SCALE)
    hues = [_hue(light) for light in lights_of(palette)]
    rows = [row for row in _cropped(_colour_rows(cells, colours), crop) for _ in range(scale)]
    lines = []
    for k in range(0, len(rows), 2):
        line = ""
        for i, colour in enumerate(rows[k]):
            lower = f"\x1b[48;5;{hues[rows[k + 1][i]]}m" if k + 1 < len(rows) else "\x1b[49m"
            line += f"\x1b[38;5;{hues[colour]}m{lower}\u2580" * scale
        lines.append(f"{line}\x1b[0m\x1b[K\n")
    text = "".join(lines)
    return f"\x1b[H{text}\x1b[J" if home else text


def lights_of(palette: Optional[Palette] = None) -> List[Light]:
    """The sixteen colours of a palette, red, green and blue of each. Raises PictureError if it is none."""
    groups = palette if palette is not None else PALETTE
    groups = groups.split(",") if isinstance(groups, str) else groups
    lights = []
    for group in groups:
        try:
            light = bytes.fromhex(group.lstrip("#")) if isinstance(group, str) else bytes(map(operator.index, group))
        except (TypeError, ValueError):
            raise PictureError(
                f"{group!r} is no colour: use six hexadecimal digits, or three numbers 0 to 255"
            ) from None
        if len(light) != 3:
            raise PictureError(f"{group!r} is no colour: use six hexadecimal digits, or three numbers 0 to 255")
        lights.append((light[0], light[1], light[2]))
    if len(lights) != 16:
        raise PictureError(f"a palette has sixteen colours, and this one has {len(lights)}")
    return lights


def _colour_rows(cells: Any, colours: Optional[Sequence[int]]) -> List[bytes]:
    """The rows of cells, a byte a cell: its colour 0 to 15. Raises PictureError for other numbers, or rows that differ
    in length."""
    rows = _array_rows(cells) if hasattr(cells, "dtype") else [_row(row) for row in cells]
    if not rows or not rows[0]:
        raise PictureError("a picture has one cell at least")
    for number, row in enumerate(rows):
        if len(row) != len(rows[0]):
            raise PictureError(f"row {number} of the cells has another length than the first one")
        if row.translate(None, bytes(range(16))):
            raise PictureError(f"row {number} of the cells has a number that is not from 0 to 15")
    if colours is None:
        return rows
    numbers = [_checked_number("a colour", colour, 0, 15) for colour in colours]
    if len(numbers) != 16:
        raise PictureError(f"there are {len(numbers)} colours, and a cell has sixteen states")
    return [row.translate(bytes(numbers) + bytes(240)) for row in rows]


def _array_rows(cells: Any) -> List[bytes]:
    """The rows of a numpy array, a byte a cell. Raises PictureError unless its numbers are 0 to 15."""
    module = numpy()
    if cells.ndim != 2 or not (cells.dtype == bool or module.issubdtype(cells.dtype, module.integer)):
        raise PictureError("an array of cells has rows and columns of whole numbers")
    if cells.size and (cells.min() < 0 or cells.max() > 15):
        raise PictureError("a cell's number is 0 to 15")
    data, width = cells.astype(module.uint8).tobytes(), cells.shape[1]
    return [data[at : at + width] for at in range(0, len(data), width)] if width else []


def _row(row: Any) -> bytes:
    """A row of cells as bytes, one a cell. Raises PictureError if it is none. Numbers of 16 and more are not
    refused."""
    if isinstance(row, (bytes, bytearray)):
        return bytes(row)
    try:
        return bytes(map(operator.index, row))
    except (TypeError, ValueError):
        raise PictureError("a row of cells has whole numbers from 0 to 15") from None


def _cropped(rows: List[bytes], crop: Optional[Crop]) -> List[bytes]:
    """The rows of a window, which may reach round the torus, or all rows for None. Raises PictureError."""
    if crop is None:
        return rows
    try:
        column, row, width, height = map(operator.index, crop)
    except (TypeError, ValueError):
        raise PictureError(f"crop is a column, a row, a width and a height, not {crop!r}") from None
    width, height = _checked_number("the width of crop", width, 1, MOST_WINDOW), _checked_number(
        "the height of crop", height, 1, MOST_WINDOW
    )
    side = len(rows[0])
    column %= side
    chosen = (rows[(row + down) % len(rows)] for down in range(height))
    return [(cells * ((column + width - 1) // side + 1))[column : column + width] for cells in chosen]


def _checked_number(what: str, number: Any, least: int, most: int) -> int:
    """Returns a whole number from `least` to `most`. Raises PictureError for another value."""
    try:
        value = operator.index(number)
    except TypeError:
        raise PictureError(f"{what} is a whole number, not {number!r}") from None
    if isinstance(number, bool) or not least <= value <= most:
        raise PictureError(f"{what} is {least} to {most}, not {number!r}")
    return value


def _hue(light: Light) -> int:
    """The terminal's number for a colour, 16 to 231: the nearest one of its cube of 6 by 6 by 6."""
    steps = [0 if amount < 48 else 1 if amount < 115 else (amount - 35) // 40 for amount in light]
    return 16 + 36 * steps[0] + 6 * steps[1] + steps[2]


def _chunk(kind: bytes, body: bytes) -> bytes:
    """A chunk of a PNG file, with its size and its checksum."""
    return struct.pack(">I", len(body)) + kind + body + struct.pack(">I", zlib.crc32(kind + body))


def _png_file(head: Sequence[bytes], *chunks: bytes) -> bytes:
    """The bytes of a PNG file: its signature, these chunks, and the chunk that ends it."""
    return b"".join([b"\x89PNG\r\n\x1a\n", *head, *chunks, _chunk(b"IEND", b"")])


def _end_of(path: Union[str, "os.PathLike[str]"]) -> str:
    """The ending of a file's name with its point, in small letters, or ""."""
    return os.path.splitext(os.fspath(path))[1].lower()


def _save(path: Union[str, "os.PathLike[str]"], maker: Any, refusal: str) -> None:
    """Writes what a function makes to a file. Raises PictureError with `refusal` if there is no such function."""
    if maker is None:
        raise PictureError(f"{refusal}, not as in {os.fspath(path)!r}")
    data = maker()
    with open(path, "wb") as file:
        file.write(data)
