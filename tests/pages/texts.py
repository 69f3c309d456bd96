"""The pages of the repository, and their parts: tables, blocks, what stands in backticks, sessions."""

from __future__ import annotations

import re
from collections.abc import Iterator
from pathlib import Path

from support.programs import TOP

# The pages whose prose is measured.
PROSE = ["README.md", "CONTRIBUTING.md", "CHANGELOG.md", *sorted(f"docs/{page.name}" for page in TOP.glob("docs/*.md"))]
PAGES = [*PROSE, "tools/bench/README.md"]
CRATES = TOP / "crates"
# Where a crate has worked examples: those that its program plays, and those that tests play at it.
EXAMPLES = ["data", "sessions", "events", "connections"]
# The lines of a session over connections: the number of the connection, which way the line goes, and the line.
Served = list[tuple[str, str, str]]


def text_of(path: str | Path) -> str:
    """A file's text. Its path is from the top of the repository."""
    return (TOP / path).read_text(encoding="utf-8")


def sources_of(crate: str) -> list[Path]:
    """The paths of all sources of a crate, sorted."""
    return sorted((CRATES / crate / "src").rglob("*.rt"))


def named(text: str) -> list[str]:
    """The pieces of a text that stand in backticks."""
    return re.findall(r"`([^`]+)`", text)


LINES = [line.partition("#")[0].partition(":") for line in text_of("crates.txt").splitlines()]
# The crates of crates.txt in order, each with the crates and libraries that it stands on.
LISTED = {name.split()[0]: uses.split() for name, colon, uses in LINES if colon}


def rows(text: str) -> Iterator[list[str]]:
    """The rows of a page's tables, each a list of its columns, without heads and rules."""
    lines = text.splitlines()
    for line, after in zip(lines, [*lines[1:], ""]):
        if line.startswith("| ") and not after.startswith("|---"):
            yield [column.strip() for column in re.split(r"(?<!\\)\|", line)[1:-1]]


def blocks(text: str) -> Iterator[tuple[str, list[str]]]:
    """Indented blocks, each with the paragraph before it; their lines without four spaces."""
    before, block = "", list[str]()
    for part in [*re.split(r"\n(?:[ ]*\n)+", f"\n{text}\n"), ""]:
        paragraph = part.strip("\n")
        if paragraph and all(line.startswith("    ") for line in paragraph.splitlines()):
            block += ([""] if block else []) + [line[4:] for line in paragraph.splitlines()]
            continue
        if block:
            yield before, block
        before, block = paragraph, []


def sessions_of(page: str | Path) -> Iterator[tuple[list[str], list[str], list[str]]]:
    """A page's sessions: the arguments of the program, the lines that are typed, and the replies.

    A block that begins with a typed line goes on with the session before it. Raises ValueError if a line is neither.
    """
    sessions: list[tuple[list[str], list[str]]] = []
    for _, block in blocks(text_of(page)):
        if block[0].startswith("$ ./cam6") and any(line.startswith("> ") for line in block):
            sessions.append((block[0].split()[2:], block[1:]))
        elif block[0].startswith("> ") and sessions:
            sessions[-1][1].extend(block)
    for words, lines in sessions:
        if strange := [line for line in lines if line[:2] not in ("> ", "< ")]:
            raise ValueError(f"{page}: a session has the line {strange[0]}")
        ways = [[line[2:] for line in lines if line.startswith(way)] for way in "><"]
        yield words, ways[0], ways[1]


def served_sessions_of(page: str) -> Iterator[tuple[list[str], Served]]:
    """A page's sessions over connections: the arguments of the program, and the lines that are sent or come back."""
    for _, block in blocks(text_of(page)):
        lines = [re.match(r"(\d+)([<>]) (.*)", line) for line in block[1:]]
        if block[0].startswith("$ ./cam6 serve") and lines:
            yield block[0].split()[2:], [(line[1], line[2], line[3]) for line in lines if line]
