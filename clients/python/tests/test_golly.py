"""Golly's own emulated patterns beside bgolly, for a hundred generations forward and back.

They need the package golly of packages.txt. GOLLY is its folder, by default /usr/share/golly.
"""

from __future__ import annotations

import os
import shutil
import subprocess
from collections.abc import Sequence
from pathlib import Path
from typing import Any

import pytest
from by_oracle import lists

from cam6 import Machine, local, patterns, rules
from cam6.patterns import PatternError

GOLLY = Path(os.environ.get("GOLLY", "/usr/share/golly"))
# What a state with marks is without them. 255 stands for no cell.
UNMARKED = bytes([255]) + bytes((state - 1) // 2 for state in range(1, 256))


@pytest.fixture(scope="session", autouse=True)
def golly() -> None:
    """Fails if bgolly or its patterns are not there."""
    if not shutil.which("bgolly") or not (GOLLY / "Patterns" / "Margolus").is_dir():
        pytest.fail(f"there is no bgolly, or no folder {GOLLY}: packages.txt has the package golly", pytrace=False)


def generation(path: Path, number: int, folder: Path) -> patterns.Pattern:
    """The pattern of a file as bgolly has it after so many generations."""
    out = str(folder / "out.rle")
    words = ["-q", "-q", "-a", "RuleLoader", "-s", f"{GOLLY}/Rules/", "-m", str(number), "-o", out, str(path)]
    subprocess.run(["bgolly", *words], stdout=subprocess.DEVNULL, stderr=subprocess.DEVNULL, check=True)
    return patterns.load(out)


def states_of(machine: Machine, found: patterns.Emulated, x: int, y: int) -> list[bytes]:
    """The states of the cells at which a pattern was put, round the torus."""
    rows, side = [bytes(row) * 2 for row in lists(machine.cells())], machine.side
    return [rows[(y + j) % side][x % side :][: found.width] for j in range(found.height)]


def are_equal(ours: list[bytes], theirs: Sequence[bytes]) -> bool:
    """Whether the states are those of the pattern with marks, where that has cells."""
    for row, marked in zip(ours, theirs):
        want = marked.translate(UNMARKED)
        if row != want and any(a != b and b != 255 for a, b in zip(row, want)):
            return False
    return len(ours) == len(theirs)


@pytest.mark.slow
@pytest.mark.parametrize(
    ("name", "side", "generations", "given", "can_be_undone"),
    [
        ("BBM", 128, 100, {}, True),
        ("CrittersOscillators", 128, 100, {"torus": None}, True),
        ("TMGas", 128, 100, {"outside": 1}, True),
        ("Sand-Test", 128, 100, {}, False),
        ("DLA", 512, 12, {}, False),
        ("TMGas_largeWithHole", 512, 12, {"outside": 1}, True),
    ],
)
def test_beside_bgolly(
    name: str, side: int, generations: int, given: dict[str, Any], can_be_undone: bool, cam6: str, tmp_path: Path
) -> None:
    path = GOLLY / "Patterns" / "Margolus" / f"{name}.rle"
    found = patterns.emulated(patterns.load(str(path)), **given)
    assert rules.is_reversible(found.rule) == can_be_undone
    with local(cam6, side_limit=side) as machine:
        machine.set_side(side)
        x, y = found.put(machine)
        for number in range(1, generations + 1):
            machine.run()
            ours = states_of(machine, found, x, y)
            assert are_equal(ours, generation(path, number, tmp_path).rows), f"generation {number}"
        if can_be_undone:
            machine.back(generations)
            assert states_of(machine, found, x, y) == [bytes(row) for row in found.cells]


@pytest.mark.slow
def test_the_whole_folder() -> None:
    """Each file of Golly's patterns is read and written again, or refused by its name."""
    read = refused = 0
    for path in (GOLLY / "Patterns").rglob("*"):
        if path.is_dir():
            continue
        try:
            pattern = patterns.load(str(path))
        except PatternError as error:
            assert path.name in str(error)
            refused += 1
            continue
        assert patterns.read(patterns.write(pattern)).rows == pattern.rows
        read += 1
    assert read > 3 * refused
