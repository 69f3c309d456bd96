"""Words that were replaced stand nowhere, save in CHANGELOG and in the decisions of the past."""

from __future__ import annotations

import re
import subprocess

import pytest
from support.programs import TOP

# Files that may have the old words: what has happened, this list, and packed bytes.
FREE = (":!CHANGELOG.md", ":!docs/DECISIONS.md", ":!tests/pages/test_words.py", ":!crates/cam6_web_page", ":!*.png")
RATTLE = ("crates/*.rt", "crates/*.antt", "crates/*.edit")
# Code of Rattle: a line that isn't a comment.
CODE = r"^(?!\s*(?://|--)).*"
# What was replaced, with the files where it may not stand, and with what is meant otherwise.
GONE = {
    "turns of reads, steps and permits": (
        CODE + r"(?:\bturns\b|turns_|_turns|TURNS\b|\bTurns\b)",
        RATTLE,
        "Turns run-length",
    ),
    "hall, house": (r"(?i)(?:\b|_)(?:halls?|houses?)(?:\b|_)", (), None),
    "chair, shelf": (r"(?i)chairs?\b|shel(?:f|ves)(?:\b|_)", (), None),
    "door": (r"(?i)(?:\b|_)doors?(?:\b|_)", (), None),
    "talk": (r"(?i)(?:\b|_)talk(?:s|ed|ing)?(?:\b|_)", (), None),
    "lent room": (r"\b(?:Table|Half)?Room\b|\broom: (?:&|Box)|\brooms\b", RATTLE, None),
    "words and modes of crates": (r"cam6_(?:turns|modes)|cam6_\w+_words|\b(?:draw|rle)_words\b", (), None),
    "edits, wrong bodies": (
        r"(?i)wrong.bod(?:y|ies)|(?:more|tested|quick|every)-edits?\b|(?<![-.{])\bedits?\b(?! replies)",
        ("*.md", "tests", "tools", "test", "build"),
        "in the kit's|Edit `fleet.env`|BAD EDIT|RENAMED",
    ),
    "plain script": (r"(?i)plain scripts?", (), None),
    "participles for verbs": (
        r"\b(?:fn|def|function) (?:part|drawn|told|said|after|until|last|check_beside)\b",
        (),
        None,
    ),
    "behind of time": (r"(?i)(?:\b|_)behind(?:\b|_)|IsBehind", (), "(?i)proxy|GALLERY|gallery|the colour|the light"),
    "he of a user": (r"\b(?:[Hh]e|[Hh]is|[Hh]im)\b", (), None),
}
# A line of each, which must be found.
PLANTED = {
    "turns of reads, steps and permits": "src/lines.rt:1:    turns: &mut u64,",
    "hall, house": "src/hosts.rt:1:    house: &Arc<House<R>>,",
    "chair, shelf": "src/steps.rt:1:pub(crate) type Chair = Seat<Option<Place>, View>;",
    "door": "tests/doors.py:1:    return by_doors()",
    "talk": "src/talking.rt:1:pub fn talk<S: Read>(stream: S)",
    "lent room": "src/rooms.rt:1:    room: &mut Tables,",
    "words and modes of crates": "crates.txt:1:cam6_web_words: clap",
    "edits, wrong bodies": "docs/TESTING.md:1:Each edit is a wrong body.",
    "plain script": "README.md:1:A plain script works the answers out.",
    "participles for verbs": "src/terms.rt:1:pub fn after(clock: &impl Clock, seconds: u64)",
    "behind of time": "docs/SERVER.md:1:Behind the last band the board is idle.",
    "he of a user": "docs/SERVER.md:1:A user has his own machine.",
}


def lines_of(*paths: str) -> list[str]:
    """The lines of the files under git, each as `FILE:NUMBER:TEXT`."""
    command = ["git", "grep", "-nI", "", "--", *(paths or (".",)), *FREE]
    return subprocess.run(command, cwd=TOP, check=True, capture_output=True, text=True).stdout.splitlines()


def found(word: str, lines: list[str]) -> list[str]:
    """The lines that have a replaced word, also in the file's name."""
    pattern, _, otherwise = GONE[word]
    has, is_meant = re.compile(pattern), re.compile(otherwise or r"(?!)")
    texts = ((line, line.split(":", 2)) for line in lines)
    return [line for line, (name, _, text) in texts if has.search(text) and not is_meant.search(f"{name} {text}")]


@pytest.mark.parametrize("word", GONE)
def test_a_planted_word_is_found(word: str) -> None:
    """The pattern of the word finds it in a line that has it."""
    assert found(word, [PLANTED[word]]) == [PLANTED[word]]


@pytest.mark.parametrize("word", GONE)
def test_a_replaced_word_stands_nowhere(word: str) -> None:
    """No line under git has the word."""
    assert found(word, lines_of(*GONE[word][1])) == []
