"""Files that a script makes are in the repository, byte for byte. Each worked example names the script that gives its answers, if
there is one besides the oracle. The oracle's replies are written into an example whose replies are otherwise."""

from __future__ import annotations

import re

import pytest
from examples.frames import FILES
from examples.test_formulas import EXAMPLES
from examples.test_plain import KNOWN
from examples.writing import answered
from support.playing import both_lines, first_other
from support.programs import TOP

SESSIONS = TOP / "crates/cam6_host/sessions"
FOLDERS = ("crates/*/data", "crates/cam6_host/connections", "crates/cam6_host/sessions", "crates/cam6_host/events")
ANSWERED = {"test_formulas": EXAMPLES, "test_plain": KNOWN}
GALLERY = ("examples/*.lines", "examples/*.turn", "docs/pictures/*.lines")


@pytest.mark.parametrize("path", FILES)
def test_the_script_makes_the_file_that_is_there(path: str) -> None:
    made, there = FILES[path]().encode(), (TOP / path).read_bytes()
    line = first_other(made, there)
    assert not line, f"line {line}\n{both_lines(made, there, line)}"


def test_each_example_names_the_script_of_its_answers() -> None:
    for path in sorted(path for folder in FOLDERS for path in TOP.glob(f"{folder}/*.example")):
        head = re.match(r"(?:#.*\n)*", path.read_text(encoding="utf-8"))
        scripts = {script for script, names in ANSWERED.items() if path.stem in names}
        assert set(re.findall(r"tests/examples/(\w+)\.py", head[0] if head else "")) == scripts, path


def test_each_rule_of_the_gallery_is_one_of_a_worked_example() -> None:
    """But the one that keeps where a ball has been."""
    worked = "".join(path.read_text(encoding="utf-8") for path in sorted(SESSIONS.glob("*.example")))
    lines = {line for pattern in GALLERY for path in TOP.glob(pattern) for line in path.read_text().splitlines()}
    rules = {line for line in lines if '"do":"rule"' in line and '"name":"TRACE"' not in line}
    assert [line for line in rules if line not in worked] == []


RUN, PLANE = '> {"do":"run","n":1} => {"ok":"run","position":', "= 255 *1\n"


@pytest.mark.parametrize(
    ("name", "wrong", "right"),
    [
        ("wrong_session", f"{RUN}1", f"{RUN}0"),
        ("wrong_plane", PLANE, ""),
        ("parity", "", ""),
        ("saved_machines", "", ""),
    ],
)
def test_wrong_replies_are_written_anew(name: str, wrong: str, right: str) -> None:
    path = SESSIONS / f"{name}.example"
    assert answered(path) == path.read_text(encoding="utf-8").replace(wrong, right)
