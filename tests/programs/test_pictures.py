"""`cam6_draw` draws the pictures of the gallery, and `tools/film` packs its films.

The oracle draws the same. The gallery shows each picture. What can't be drawn or packed is refused.
"""

from __future__ import annotations

import json
import re
import sys
from argparse import ArgumentParser
from collections.abc import Iterable
from io import BytesIO
from pathlib import Path

import pytest
from PIL import Image, ImageSequence
from oracle.pictures import draw
from support.programs import TOP, assert_refused, ran
from support.tools import tool

FILM = [sys.executable, str(TOP / "tools" / "film")]
FOLDER, GALLERY = TOP / "docs" / "pictures", TOP / "docs" / "GALLERY.md"
LARGEST, LARGEST_FILM = 20_000, 100_000

gallery = tool("tools/gallery-pictures")
PICTURES: list[str] = gallery.names_of(".lines")
FILMS: list[str] = gallery.names_of(".frames")
FILES: list[str] = gallery.names_of(".png")


def test_the_gallery_shows_each_picture_once_and_an_entry_its_own() -> None:
    shown = []
    for part in re.split(r"^### ", GALLERY.read_text(encoding="utf-8"), flags=re.M)[1:]:
        # An entry has the name of the line that shows it.
        if entry := re.search(r"^    \./look (\w+)$", part, re.M):
            pictures = re.findall(r"!\[[^]]+\]\(pictures/(\w+)\.png\)", part)
            assert entry[1] in pictures
            shown += pictures
    assert sorted(shown) == PICTURES


def test_each_picture_and_each_film_has_a_small_file() -> None:
    assert FILES == sorted(PICTURES + FILMS)
    sizes = {name: (FOLDER / f"{name}.png").stat().st_size for name in FILES}
    assert [name for name in FILES if sizes[name] >= (LARGEST_FILM if name in FILMS else LARGEST)] == []


# The size of a picture, and its pixels.
Picture = tuple[tuple[int, int], bytes]


def pixels_of(images: Iterable[Image.Image]) -> list[Picture]:
    """The sizes and the pixels of pictures."""
    return [(image.size, image.convert("RGB").tobytes()) for image in images]


def pictures_in(file: Path | BytesIO) -> list[Picture]:
    """The pictures of a PNG file: one, or those of an animation."""
    with Image.open(file, formats=["PNG"]) as image:
        return pixels_of(ImageSequence.Iterator(image))


def files_in(data: bytes) -> list[Picture]:
    """The pictures of P6 files that follow one another."""
    file, pictures = BytesIO(data), []
    while file.tell() < len(data):
        head = [file.readline() for _ in range(3)]
        assert head[0] == b"P6\n" and head[2] == b"255\n", head
        width, height = map(int, head[1].split())
        pictures.append(((width, height), file.read(3 * width * height)))
    return pictures


# The options of cam6_draw that the oracle knows.
OPTIONS = ArgumentParser()
OPTIONS.add_argument("--scale", type=int, default=1)
OPTIONS.add_argument("--crop", type=int, nargs=4)
OPTIONS.add_argument("--palette", type=lambda lights: [tuple(bytes.fromhex(light)) for light in lights.split(",")])


def join_pictures(images: list[Image.Image], gap: int) -> Image.Image:
    """Pictures side by side on white, with so many pixels between two."""
    width = sum(image.width + gap for image in images) - gap
    strip = Image.new("RGB", (width, images[0].height), "white")
    for number, image in enumerate(images):
        strip.paste(image, (number * (image.width + gap), 0))
    return strip


@pytest.mark.parametrize("name", PICTURES + FILMS)
def test_the_programs_and_the_oracle_draw_it(name: str, cam6: str, cam6_draw: str) -> None:
    drawing, wanted = gallery.drawing_of(name), pictures_in(FOLDER / f"{name}.png")
    done = ran([cam6], "".join(f"{line}\n" for line in drawing.lines).encode())
    replies = [json.loads(reply) for reply in done.output.splitlines()]
    assert (done.status, len(replies)) == (0, len(drawing.lines))
    assert not [reply for reply in replies if "fault" in reply]
    asked, theirs = OPTIONS.parse_args(drawing.draw), ran([cam6_draw, "--ppm", *drawing.draw], done.output)
    ours = draw(done.output.decode(), asked.scale, asked.crop, asked.palette)
    assert theirs.status == 0
    if not drawing.is_film:
        assert pixels_of(ours[-1:]) == wanted
        assert files_in(theirs.output)[-1:] == wanted
        return
    gap = int(drawing.film[drawing.film.index("--gap") + 1]) if "--strip" in drawing.film else None
    assert pixels_of(ours if gap is None else [join_pictures(ours, gap)]) == wanted
    packed = ran([*FILM, *drawing.film], theirs.output)
    assert packed.status == 0
    assert pictures_in(BytesIO(packed.output)) == wanted


@pytest.mark.parametrize("options", [[], ["--pause", "65535"], ["--strip"]])
def test_a_film_keeps_each_colour_and_pictures_that_are_equal(options: list[str]) -> None:
    pixels = bytes(light for level in range(255) for light in (level, 7, 255))
    packed = ran([*FILM, *options], 3 * (b"P6\n255 1\n255\n" + pixels))
    with Image.open(BytesIO(packed.output)) as film:
        pauses = [image.info.get("duration") for image in ImageSequence.Iterator(film)]
    strip = ((781, 1), (8 * b"\xff\xff\xff").join([pixels] * 3))
    wanted = [strip] if options == ["--strip"] else [((255, 1), pixels)] * 3
    assert pauses == ([None] if options == ["--strip"] else 3 * [float(options[1]) if options else 80.0])
    assert pictures_in(BytesIO(packed.output)) == wanted


# What is refused: the program, its arguments and input, the status, and what stands on standard error.
ROW, RUN = b'{"colours":"' + 128 * b"0" + b'","ok":"colours"}\n', b'{"ok":"run","position":0}\n'
DOT, TALL = b"P6\n1 1\n255\n\1\2\3", b"P6\n1 2\n255\n" + bytes(6)
MANY_COLOURS = b"P6\n257 1\n255\n" + bytes(b for n in range(257) for b in (n % 256, n // 256, 0))
ONE_OF = "give either --ppm or --text, not both\n"
REFUSED = [
    ("cam6_draw", b"", 2, ONE_OF),
    ("cam6_draw --ppm --text", b"", 2, ONE_OF),
    ("cam6_draw --ppm --frames 5", b"", 2, "--frames needs --text\n"),
    *((f"cam6_draw --text --frames {n}", b"", 2, "--frames takes a whole number from 1 to 1000\n") for n in (0, 1001)),
    ("cam6_draw --ppm --scale 17", b"", 2, "--scale takes a whole number from 1 to 16\n"),
    ("cam6_draw --ppm --crop 512 0 1 1", b"", 2, "--crop takes a column and a row from 0 to 511"),
    ("cam6_draw --ppm --crop 0 0 1 0", b"", 2, "--crop takes a column and a row from 0 to 511"),
    ("cam6_draw --ppm --crop 1 2 3", b"", 2, "--crop <X> <Y> <W> <H>"),
    ("cam6_draw --ppm --palette 000000", b"", 2, "--palette takes sixteen groups"),
    ("cam6_draw --pmp", b"", 2, "--pmp"),
    ("cam6_draw --ppm", b"x\n", 3, "cam6_draw: line 1 is not a reply\n"),
    ("cam6_draw --text", RUN + b"[]\n", 3, "cam6_draw: line 2 is not a reply\n"),
    ("cam6_draw --ppm", ROW, 3, "cam6_draw: line 1 leaves a frame incomplete\n"),
    ("cam6_draw --ppm", ROW + ROW + RUN, 3, "cam6_draw: line 3 leaves a frame incomplete\n"),
    ("cam6_draw --ppm", 127 * ROW, 3, "cam6_draw: line 127 leaves a frame incomplete\n"),
    ("film", b"", 3, "film: there is no picture on standard input\n"),
    ("film", b"P5\n1 1\n255\n\1", 3, "film: picture 1 is no P6 file of 255 levels\n"),
    ("film", DOT + DOT[:-1], 3, "film: picture 2 breaks off\n"),
    ("film", DOT + TALL, 3, "film: the pictures have different sizes\n"),
    ("film --strip", DOT + TALL, 3, "film: the pictures have different heights\n"),
    ("film", b"P6\n1 0\n255\n", 3, "film: picture 1 is no P6 file of 255 levels\n"),
    ("film", MANY_COLOURS, 3, "257 colours"),
    *((f"film --pause {n}", DOT, 2, f"{n} is no whole number from 1 to 65535") for n in (0, 65536)),
    ("film --reel", DOT, 2, "--reel"),
]


@pytest.mark.parametrize(("words", "data", "status", "message"), REFUSED, ids=[f"{it[0]}: {it[3]}" for it in REFUSED])
def test_nothing_is_drawn_or_packed(words: str, data: bytes, status: int, message: str, cam6_draw: str) -> None:
    name, *options = words.split()
    command = FILM if name == "film" else [cam6_draw]
    assert_refused(ran([*command, *options], data), status, message)


@pytest.mark.parametrize(("word", "front"), [("--version", b"cam6_draw 1 ("), ("--help", b"Reads replies")])
def test_the_program_tells_of_itself(word: str, front: bytes, cam6_draw: str) -> None:
    done = ran([cam6_draw, word])
    assert (done.status, done.output[: len(front)]) == (0, front)
