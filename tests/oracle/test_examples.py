"""Worked examples, played through the oracle in place of the program. So the files judge what other tests are judged by."""

from __future__ import annotations

from pathlib import Path

import pytest
from oracle.answers import is_known, part_answers
from oracle.examples import Example
from support.playing import assert_answers, examples

FOLDERS = ("crates/cam6_host/sessions", "crates/cam6_host/events", "crates/cam6_try_rules/data")


# They take more than ten seconds.
SLOW = ("gases_undone", "halves_undone", "tables_with_programs", "wirings")
KNOWN = [one for one in examples(*FOLDERS) if is_known(one.values[0])]


@pytest.mark.parametrize(
    "path", [pytest.param(*one.values, id=one.id, marks=[pytest.mark.slow] * (one.id in SLOW)) for one in KNOWN]
)
def test_the_oracle_says_what_the_file_says(path: Path) -> None:
    example = Example(path)
    assert_answers(example, (b"".join(answer + b"\n" for answer in part_answers(part)) for part in example.parts))
