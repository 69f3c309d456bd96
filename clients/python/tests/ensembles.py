"""What the tests of examples/ensemble.py share: the oracle's counts of its tasks, and how the script is run.

The rules are written here anew, as texts for the oracle, and the random cells are drawn here. So nothing of what
is expected comes from the package, from the script or from the program.
"""

from __future__ import annotations

import functools
import itertools
import json
import os
import random
import subprocess
import sys
import tempfile
from pathlib import Path
from types import SimpleNamespace
from typing import Any

import by_oracle
from support.programs import TOP
from support.tools import tool

SCRIPT = str(TOP / "clients" / "python" / "examples" / "ensemble.py")
SOURCE = str(TOP / "clients" / "python" / "src")
SIDE = 128
# Seconds in which a run has to end.
PATIENCE = 500
# Tasks that the oracle does soon: three seeds, and a step a part.
FEW_STEPS, FEW_SEEDS = 3, 3
LIMIT = f"--limit={PATIENCE}"
FEW = [f"--seeds={FEW_SEEDS}", "--rules=all", f"--steps={FEW_STEPS}", "--every=1", "--part=1", f"--side={SIDE}", LIMIT]

AROUND = ": N NORTH SOUTH + WEST + EAST + N.WEST + N.EAST + S.WEST + S.EAST + ;"
BLOCK = ": S CENTER CW + OPP + CCW + ; : NC CENTER 0= ; : NO OPP 0= ;"


def cases(counts: str, most: int) -> str:
    """The words 0 and 1 of a case over the counts 0 to `most`: 1 at the digits of `counts`."""
    return " ".join("1" if str(count) in counts else "0" for count in range(most + 1))


def life(born: str, stays: str) -> str:
    """The text of a rule that knows the eight neighbours by their number. `born` and `stays` are digits."""
    return f"{AROUND} : R CENTER IF N {{ {cases(stays, 8)} }} ELSE N {{ {cases(born, 8)} }} THEN >PLN0 ;"


# A text for each rule of the script, and the grids of its steps.
TEXTS = {
    "life": life("3", "23"),
    "highlife": life("36", "23"),
    "day-night": life("3678", "34678"),
    "diamoeba": life("35678", "5678"),
    "vote": f"{AROUND} : R CENTER N + {{ {cases('46789', 9)} }} >PLN0 ;",
    "brain": f"{AROUND} : R N 2 = CENTER 0= AND CENTER' 0= AND >PLN0 CENTER >PLN1 ;",
    "critters": f"{BLOCK} : R S {{ NC NC CENTER NO NC }} >PLN0 ;",
    "tron": f"{BLOCK} : R S {{ NC CENTER CENTER CENTER NC }} >PLN0 ;",
}
BLOCK_RULES = ("critters", "tron")


@functools.lru_cache(maxsize=None)
def counts_of(rule: str, seed: int, steps: int) -> tuple[int, ...]:
    """The counts at steps 0, 1, 2 and so on, by the oracle: how many cells are set in some plane. At step 0 the cells
    are the bits of a random number, from the highest on."""
    is_block = rule in BLOCK_RULES
    wiring = {"hood": "N/MARG", "minor": "&/PHASES"} if is_block else {"hood": "N/MOORE", "minor": "&/CENTERS"}
    torus, kept = by_oracle.Torus(SIDE), SimpleNamespace(text=TEXTS[rule], half="A", **wiring)
    text = f"{random.Random(seed).getrandbits(SIDE * SIDE):0{SIDE * SIDE // 4}x}"
    for y in range(SIDE):
        torus.put(0, y, text[y * SIDE // 4 : (y + 1) * SIDE // 4])
    found = [torus.count(0xFFFE)]
    for step in range(steps):
        torus.step(kept, "ODD" if is_block and step % 2 else "EVEN")
        found.append(torus.count(0xFFFE))
    return tuple(found)


def oracle_counts() -> dict[str, list[int]]:
    """The counts of the tasks `FEW` by the oracle, for each `rule/seed`."""
    tasks = itertools.product(TEXTS, range(FEW_SEEDS))
    return {f"{rule}/{seed}": list(counts_of(rule, seed, FEW_STEPS)) for rule, seed in tasks}


def environment(program: str, first: str = "") -> dict[str, str]:
    """An environment with the package, and the program. `first` is a folder whose modules hide others."""
    path = [first, SOURCE] if first else [SOURCE]
    return dict(os.environ, PYTHONPATH=os.pathsep.join(path), CAM6=program)


def run(program: str, *words: str, first: str = "") -> subprocess.CompletedProcess[str]:
    """Runs the script to its end, which may have any status. Returns that and what it wrote."""
    command, env = [sys.executable, SCRIPT, *words], environment(program, first)
    return subprocess.run(command, env=env, capture_output=True, text=True, timeout=PATIENCE, check=False)


def counts_by(program: str, *words: str) -> dict[str, list[int]]:
    """The counts that the script writes, for each `rule/seed`. Fails if its status is not 0."""
    with tempfile.TemporaryDirectory() as folder:
        path = Path(folder) / "counts"
        done = run(program, *words, "--output", str(path))
        assert done.returncode == 0, f"{done.stdout}{done.stderr}"
        counts: dict[str, list[int]] = json.loads(path.read_text())
    return counts


def script() -> Any:
    """examples/ensemble.py as a module."""
    return tool("clients/python/examples/ensemble.py")
