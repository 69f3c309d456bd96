"""The prose of the pages is within its bounds, and their links lead somewhere.

Code and headings are no prose. The entries of DECISIONS and the tables of MODEL are not measured.
"""

from __future__ import annotations

import os.path
import re
from collections import Counter
from collections.abc import Iterable
from functools import cache

import pytest
from markdown_it import MarkdownIt
from markdown_it.token import Token
from pages.texts import PROSE, text_of
from support.programs import TOP

README = "README.md"
# Pages whose prose isn't measured, and those whose tables aren't. Their links are followed.
FREE_PROSE = {"docs/DECISIONS.md"}
FREE_TABLES = {"docs/DECISIONS.md", "docs/MODEL.md"}
# The bounds. Each is the most that a page may have.
MEAN_WORDS = 17  # of a sentence
LONG_SENTENCE = 30  # a sentence with more words is a long one
LONG_PERCENT = 7.99  # of the sentences: less than 8 in a hundred are long
SENTENCE_WORDS = 45
PARAGRAPH_WORDS = 90
CELL_WORDS = 25
LINE_CHARACTERS = 100  # without the targets of links
SEMICOLONS = 3
README_LINES = 160

LINK = re.compile(r"!?\[([^\[\]]*)\]\(<?([^()<>\s]+)>?(?:\s+\"[^\"]*\")?\)")
SENTENCE_END = re.compile(r"(?<=[.!?])[\"')*_]*\s+(?=[\"'(\[*_]*[A-Z0-9])")


def plain(inline: Token) -> str:
    """A text as it is read: with one word in place of code, and without images and the targets of links."""
    spelled = {"code_inline": "Code", "softbreak": " ", "hardbreak": " ", "image": ""}
    return "".join(spelled.get(part.type, part.content) for part in inline.children or [])


@cache
def texts(name: str, *kinds: str) -> list[Token]:
    """The texts of a page of these kinds: `heading`, `paragraph`, and the cells of tables, `th` and `td`."""
    tokens = MarkdownIt("commonmark").enable("table").parse(text_of(name))
    pairs = zip(tokens, tokens[1:])
    return [text for before, text in pairs if text.type == "inline" and before.type.removesuffix("_open") in kinds]


def targets(name: str) -> list[str]:
    """Where the links and the images of a page lead."""
    parts = (part for text in texts(name, "heading", "paragraph", "th", "td") for part in text.children or [])
    return [str(target) for part in parts for key in ("href", "src") if (target := part.attrs.get(key))]


def words(text: str) -> int:
    """How many words a text has."""
    return len(re.findall(r"[A-Za-z0-9][\w'’/.-]*", text))


def longer(texts: Iterable[str], most: int) -> list[str]:
    """The texts with more words than that."""
    return [text for text in texts if words(text) > most]


@pytest.mark.parametrize("name", sorted({*PROSE} - FREE_PROSE))
def test_prose_is_within_its_bounds(name: str) -> None:
    """Sentences, paragraphs and lines are short, and there are few semicolons."""
    source, inlines = text_of(name).splitlines(), texts(name, "paragraph")
    paragraphs = [plain(inline) for inline in inlines]
    parts = [part for paragraph in paragraphs for part in SENTENCE_END.split(paragraph)]
    counts = [words(part) for part in parts if words(part)]
    assert sum(counts) <= MEAN_WORDS * len(counts), f"{sum(counts) / len(counts):.1f} words a sentence"
    long_ones = longer(parts, LONG_SENTENCE)
    assert 100 * len(long_ones) <= LONG_PERCENT * len(counts), long_ones
    assert longer(parts, SENTENCE_WORDS) == []
    assert longer(paragraphs, PARAGRAPH_WORDS) == []
    lines = [LINK.sub(r"[\1]", line) for inline in inlines if inline.map for line in source[slice(*inline.map)]]
    assert [line for line in lines if len(line) > LINE_CHARACTERS] == []
    assert sum(paragraph.count(";") for paragraph in paragraphs) <= SEMICOLONS


@pytest.mark.parametrize("name", sorted({*PROSE} - FREE_TABLES))
def test_cells_of_tables_are_short(name: str) -> None:
    assert longer(map(plain, texts(name, "th", "td")), CELL_WORDS) == []


def test_readme_is_short() -> None:
    assert text_of(README).count("\n") <= README_LINES


def anchors(name: str) -> set[str]:
    """The anchors of a page's headings, as GitHub makes them."""
    found, counts = set(), Counter[str]()
    for heading in texts(name, "heading"):
        text = re.sub(r"[`*]", "", LINK.sub(r"\1", heading.content)).lower()
        anchor = re.sub(r"[^\w -]", "", text).replace(" ", "-")
        found.add(f"{anchor}-{counts[anchor]}" if counts[anchor] else anchor)
        counts[anchor] += 1
    return found


def path_of(name: str, target: str) -> str:
    """The file to which a link of a page leads, from the top of the repository."""
    path = target.partition("#")[0]
    return os.path.normpath(os.path.join(os.path.dirname(name), path)) if path else name


@pytest.mark.parametrize("name", PROSE)
def test_links_lead_somewhere(name: str) -> None:
    """Each link leads to a file of the repository and, if it names a heading, to one of that page.

    An address of a network isn't followed.
    """
    for target in targets(name):
        if not re.match(r"[a-z][a-z0-9+.-]*:", target):
            path, anchor = path_of(name, target), target.partition("#")[2]
            assert not path.startswith("..") and (TOP / path).exists(), target
            assert not anchor or (path.endswith(".md") and anchor in anchors(path)), target


def test_readme_links_to_each_page() -> None:
    assert {*PROSE} - {README} <= {path_of(README, target) for target in targets(README)}
