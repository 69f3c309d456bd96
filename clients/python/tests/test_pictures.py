"""Pictures by pixel: against a renderer of its own, the pictures of docs/pictures, and cam6_draw."""

from __future__ import annotations

import argparse
import importlib
import io
import json
import random
import struct
from collections.abc import Sequence
from pathlib import Path
from typing import Any, Optional

import by_oracle
import pytest
from oracle.palette import default_palette
from PIL import Image, ImageSequence
from support.programs import TOP, private, ran

from cam6 import pictures
from cam6.pictures import PictureError

FOLDER = TOP / "docs" / "pictures"
LIGHTS = default_palette()
Cells = list[list[int]]
numpy: Any = importlib.import_module("numpy")


def rendered(cells: Sequence[Sequence[int]], scale: int, crop: Optional[Sequence[int]], lights: Sequence[Any]) -> bytes:
    """The pixels, one by one: pixel (i, j) shows the cell at column X + i / N and row Y + j / N, round the torus."""
    column, row, width, height = crop or (0, 0, len(cells[0]), len(cells))
    pixels = bytearray()
    for j in range(height * scale):
        for i in range(width * scale):
            pixels += bytes(lights[cells[(row + j // scale) % len(cells)][(column + i // scale) % len(cells[0])]])
    return bytes(pixels)


def chunks_of(data: bytes) -> list[tuple[bytes, bytes]]:
    """The chunks of a PNG file: their kinds and their bodies."""
    chunks, at = [], 8
    while at < len(data):
        size, kind = struct.unpack(">I4s", data[at : at + 8])
        chunks.append((kind, data[at + 8 : at + 8 + size]))
        at += 12 + size
    return chunks


def frames_of(data: bytes) -> list[tuple[int, int, bytes]]:
    """The pictures of a file as Pillow reads them: width, height and pixels."""
    with Image.open(io.BytesIO(data)) as image:
        return [(frame.width, frame.height, frame.convert("RGB").tobytes()) for frame in ImageSequence.Iterator(image)]


def some_cells(source: random.Random, width: int, height: int, most: int = 15) -> Cells:
    """Random cells of states 0 to `most`."""
    return [[source.randint(0, most) for _ in range(width)] for _ in range(height)]


def test_against_a_plain_renderer() -> None:
    source = random.Random(23)
    for k in range(80):
        width, height = source.choice([1, 3, 8, 13]), source.choice([1, 2, 9])
        cells = some_cells(source, width, height, source.choice([0, 1, 3, 4, 15]))
        crop = None
        if k % 2:
            crop = source.randrange(30), source.randrange(30), source.randint(1, 40), source.randint(1, 20)
        scale = source.choice([1, 1, 2, 5])
        shown = pictures.picture([bytes(row) for row in cells] if k % 3 else cells, scale=scale, crop=crop)
        want = rendered(cells, scale, crop, LIGHTS)
        assert shown.rgb() == want
        assert frames_of(shown.png()) == [(shown.width, shown.height, want)]
        assert shown.ppm() == f"P6\n{shown.width} {shown.height}\n255\n".encode() + want


@pytest.mark.parametrize("kind", ["triples", "texts", "text"])
def test_colours_and_palettes(kind: str) -> None:
    source = random.Random(23)
    cells, numbers = some_cells(source, 8, 8), source.sample(range(16), 16)
    lights = [tuple(source.randrange(256) for _ in range(3)) for _ in range(16)]
    mapped = [[numbers[state] for state in row] for row in cells]
    texts = ["#%02x%02x%02x" % light for light in lights]
    palette: Any = {"triples": lights, "texts": texts, "text": ",".join(text[1:] for text in texts)}[kind]
    shown = pictures.picture(cells, colours=numbers, palette=palette)
    assert shown.rgb() == rendered(mapped, 1, None, lights)


def test_films() -> None:
    source = random.Random(23)
    frames = [some_cells(source, 9, 5, most) for most in (1, 15, 3)]
    film = pictures.film(iter(frames), ms=70, scale=3)
    data = film.apng()
    assert frames_of(data) == [(27, 15, rendered(frame, 3, None, LIGHTS)) for frame in frames]
    chunks = chunks_of(data)
    assert [kind for kind, _ in chunks][:4] == [b"IHDR", b"acTL", b"PLTE", b"fcTL"]
    controls = [struct.unpack(">IIIIIHHBB", body) for kind, body in chunks if kind == b"fcTL"]
    assert [control[5:7] for control in controls] == [(70, 1000)] * 3
    orders = [body[:4] for kind, body in chunks if kind in (b"fcTL", b"fdAT")]
    assert [struct.unpack(">I", order)[0] for order in orders] == list(range(5))
    assert len(film) == 3
    assert pictures.film(film.pictures, ms=70).apng() == data


def test_films_as_gif() -> None:
    source = random.Random(23)
    frames = [some_cells(source, 9, 5) for _ in range(3)]
    data = pictures.film(frames, ms=70, scale=2).gif()
    with Image.open(io.BytesIO(data)) as image:
        assert (image.n_frames, image.info["duration"], image.info["loop"]) == (3, 70, 0)
    assert frames_of(data) == [(18, 10, rendered(frame, 2, None, LIGHTS)) for frame in frames]


@pytest.mark.parametrize("kind", ["uint8", "int64", ">u2"])
def test_arrays_of_numpy(kind: str) -> None:
    cells = some_cells(random.Random(23), 12, 7)
    array = numpy.array(cells, dtype=kind)
    assert pictures.picture(array).rgb() == rendered(cells, 1, None, LIGHTS)
    assert pictures.picture(array.T).rgb() == rendered(list(zip(*cells)), 1, None, LIGHTS)
    truths = rendered([[int(cell > 7) for cell in row] for row in cells], 1, None, LIGHTS)
    assert pictures.picture(array > 7).rgb() == truths


@pytest.mark.parametrize(("shape", "value"), [((2, 2), 16), ((2, 2), -1), ((7, 12), 1.0), ((4,), 0), ((2, 0), 0)])
def test_arrays_that_are_no_picture(shape: tuple[int, ...], value: float) -> None:
    with pytest.raises(PictureError):
        pictures.picture(numpy.full(shape, value))


def test_files(tmp_path: Path) -> None:
    shown, film = pictures.picture([[0, 1]]), pictures.film([[[0, 1]]])
    files: dict[str, tuple[Any, bytes]] = {
        "a.png": (shown, shown.png()),
        "a.PPM": (shown, shown.ppm()),
        "b.png": (film, film._repr_png_()),
    }
    for name, (saved, want) in files.items():
        saved.save(str(tmp_path / name))
        assert (tmp_path / name).read_bytes() == want
    others: dict[str, Any] = {"a.jpg": shown, "b.ppm": film}
    for name, unsaved in others.items():
        with pytest.raises(PictureError):
            unsaved.save(str(tmp_path / name))


@pytest.mark.parametrize(
    "cells", [[], [[]], [[0], [0, 1]], [[16]], [[-1]], [[256]], [["1"]], [[0.5]], [b"\x10"]], ids=repr
)
def test_cells_that_are_no_picture(cells: Any) -> None:
    with pytest.raises(PictureError):
        pictures.picture(cells)


@pytest.mark.parametrize(
    ("option", "wrong"),
    [
        ("scale", [0, 65, True, 1.5]),
        ("crop", [(0, 0, 1), (0, 0, 0, 1), (0, 0, 1, 513)]),
        ("colours", [[0] * 15, [16] * 16]),
        ("palette", ["000000", ["00"] * 16, [(0, 0, 256)] * 16, [None] * 16]),
    ],
)
def test_options_that_are_none(option: str, wrong: list[Any]) -> None:
    for one in wrong:
        with pytest.raises(PictureError):
            print(pictures.picture([[0]], **{option: one}), "by", one)


@pytest.mark.parametrize(
    ("frames", "ms"), [([], 40), ([[[0]], [[0, 0]]], 40), ([[[0]]], 0), ([[[0]]], 65_536)], ids=repr
)
def test_films_that_are_none(frames: Any, ms: int) -> None:
    with pytest.raises(PictureError):
        pictures.film(frames, ms=ms)


def test_a_terminal_shows_two_rows_a_line() -> None:
    text = pictures.terminal([[0, 1], [1, 0], [1, 1]])
    assert text.count("\n") == 2
    assert text.count("\u2580") == 4
    assert text.startswith("\x1b[38;5;16m\x1b[48;5;221m\u2580")
    assert text.endswith("\x1b[38;5;221m\x1b[49m\u2580\x1b[0m\x1b[K\n")
    assert pictures.terminal([[0, 1], [1, 0], [1, 1]], home=True) == f"\x1b[H{text}\x1b[J"


def options_of(words: Sequence[str]) -> dict[str, Any]:
    """The options of cam6_draw, as arguments of `picture`."""
    parser = argparse.ArgumentParser(argument_default=argparse.SUPPRESS)
    parser.add_argument("--scale", type=int)
    parser.add_argument("--crop", type=int, nargs=4)
    parser.add_argument("--palette")
    return vars(parser.parse_known_args(words)[0])


def gallery_of(name: str) -> tuple[dict[str, Any], list[str]]:
    """The options of a picture of docs/pictures, and its command lines."""
    first, *lines = (FOLDER / f"{name}.lines").read_text().splitlines()
    commands, side = [], 256
    for line in lines:
        example = (TOP / "examples" / f"{name}.lines").read_text().splitlines() if line == "example" else [line]
        for other in example:
            if other == "picture":
                commands += [f'{{"do":"colours","row":{row}}}' for row in range(side)]
            else:
                side = json.loads(other).get("side", side)
                commands.append(other)
    return options_of(first.removeprefix("#").split()), commands


GALLERY = sorted(path.stem for path in FOLDER.glob("*.lines"))


def test_the_gallery_has_pictures() -> None:
    assert len(GALLERY) > 15


@pytest.mark.parametrize("name", GALLERY)
def test_a_picture_of_the_gallery(name: str, cam6: str) -> None:
    """It is drawn here from the same lines."""
    given, commands = gallery_of(name)
    replies = [json.loads(line) for line in private(cam6, commands, 256)]
    cells = [[int(digit, 16) for digit in reply["colours"]] for reply in replies if "colours" in reply]
    picture = pictures.picture(cells, **given)
    assert frames_of((FOLDER / f"{name}.png").read_bytes()) == [(picture.width, picture.height, picture.rgb())]


PALETTE = ",".join(f"{number * 0x0F1E2D % (1 << 24):06x}" for number in range(16))


@pytest.mark.parametrize(
    ("side", "words"),
    [
        (128, []),
        (128, ["--scale", "3"]),
        (256, ["--crop", "250", "120", "40", "9", "--scale", "2"]),
        (128, ["--crop", "100", "127", "300", "5"]),
        (128, ["--palette", PALETTE]),
    ],
    ids=lambda value: "-".join(value)[:30] if isinstance(value, list) else str(value),
)
def test_beside_cam6_draw(side: int, words: list[str], cam6_draw: str) -> None:
    source = random.Random(29)
    cells = some_cells(source, side, side)
    plane = [[cell & 1 for cell in row] for row in cells]
    answered: list[Any] = [{"colours": "".join(f"{cell:x}" for cell in row), "ok": "colours"} for row in cells]
    answered.append({"ok": "plane", "rows": [by_oracle.digits(row) for row in plane]})
    replies = "".join(json.dumps(reply, separators=(",", ":")) + "\n" for reply in answered).encode()
    given = options_of(words)
    drawn = ran([cam6_draw, "--ppm", *words], replies)
    want = pictures.picture(cells, **given).ppm() + pictures.picture(plane, **given).ppm()
    assert (drawn.status, drawn.output) == (0, want)
    if "--scale" not in words:
        shown = pictures.terminal(cells, home=True, **given) + pictures.terminal(plane, home=True, **given)
        written = ran([cam6_draw, "--text", *words], replies)
        assert (written.status, written.output.decode()) == (0, shown)
