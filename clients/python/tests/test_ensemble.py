"""The example of an ensemble, without Dask: one task after another, part by part, and what it refuses."""

from __future__ import annotations

import dataclasses
import os
from pathlib import Path
from typing import Any

import ensembles
import pytest

from cam6 import Lost

Task = tuple[str, int]


def test_the_counts_are_those_of_the_oracle(cam6: str) -> None:
    assert ensembles.counts_by(cam6, "--serial", *ensembles.FEW) == ensembles.oracle_counts()


def test_the_oracle_tells_seeds_apart() -> None:
    """Otherwise a wrong seed could have the counts of the right one."""
    starts = {ensembles.counts_of("life", seed, 0) for seed in range(ensembles.FEW_SEEDS)}
    assert len(starts) == ensembles.FEW_SEEDS


def test_the_oracle_tells_rules_apart() -> None:
    ways = {ensembles.counts_of(rule, 0, 1)[1:] for rule in ensembles.TEXTS}
    assert len(ways) == len(ensembles.TEXTS)


@pytest.fixture
def plan(cam6: str, tmp_path: Path) -> Any:
    """A plan of parts that are kept in the folder `tmp_path`."""
    return ensembles.script().Plan(cam6, ensembles.SIDE, 3, 1, 1, 60.0, str(tmp_path), "run")


def counts_by(plan: Any, rule: str = "critters", seed: int = 1, **changes: Any) -> list[int]:
    """The counts of a task, whose parts this process does in order, by the plan with some changes."""
    changed, run_part = dataclasses.replace(plan, **changes), ensembles.script().run_part
    return [count for number in range(changed.parts) for count in run_part(rule, seed, changed, number)[0]]


@pytest.mark.parametrize(
    ("rule", "seed", "changes"),
    [("critters", 1, {}), ("brain", 0, {"part": 2}), ("tron", 0, {"part": 3, "folder": None})],
)
def test_parts_have_the_counts_of_the_oracle(rule: str, seed: int, changes: dict[str, Any], plan: Any) -> None:
    assert counts_by(plan, rule, seed, **changes) == list(ensembles.counts_of(rule, seed, 3))


def test_what_is_kept_is_not_done_again(plan: Any) -> None:
    assert counts_by(plan) == counts_by(plan, program="/no/such/program")


def test_a_file_that_was_cut_short_is_done_again(plan: Any) -> None:
    first, path = counts_by(plan), Path(plan.path("critters", 1, 1))
    whole = path.read_bytes()
    for length in (0, 1, whole.index(b"\n") + 1, len(whole) - 1):
        path.write_bytes(whole[:length])
        assert counts_by(plan) == first
        assert path.read_bytes() == whole


def test_a_part_whose_program_fails_leaves_nothing(plan: Any, tmp_path: Path) -> None:
    with pytest.raises(Lost):
        counts_by(plan, program="/bin/false")
    assert os.listdir(tmp_path) == []


def test_a_part_before_that_is_not_there(plan: Any) -> None:
    with pytest.raises(FileNotFoundError, match="do all workers see this folder"):
        ensembles.script().run_part("critters", 1, plan, 1)


RIGHT = {("life", 0): [1, 2], ("life", 1): [3, 4]}


@pytest.mark.parametrize(
    ("counts", "where"),
    [
        (RIGHT, None),
        ({("life", 0): [1, 2], ("life", 1): [3, 5]}, "life, seed 1, step 1: [4], and [5] by Dask"),
        ({("life", 0): [1, 2]}, "life, seed 1, step 0: [3], and []"),
        ({("life", 0): [1], ("life", 1): [3, 4]}, "life, seed 0, step 1: [2], and []"),
        ({("life", 0): [1, 2, 3], ("life", 1): [3, 4]}, "life, seed 0, step 2: [], and [3]"),
        ({("life", 0): [3, 4], ("life", 1): [1, 2]}, "life, seed 0, step 0: [1], and [3]"),
    ],
)
def test_differences_are_found(counts: dict[Task, list[int]], where: str, plan: Any) -> None:
    right, other = (ensembles.script().Done(dict(each), 1.0, 1.0) for each in (RIGHT, counts))
    sentence = ensembles.script().difference(plan, right, other)
    assert sentence is None if where is None else where in sentence


@pytest.fixture
def no_dask(tmp_path: Path) -> str:
    """A folder whose module hides Dask."""
    (tmp_path / "distributed.py").write_text("raise ImportError\n")
    return str(tmp_path)


@pytest.mark.parametrize("words", [[], ["--compare"], ["--scheduler", "tcp://127.0.0.1:1"]])
def test_without_dask_it_says_how_to_get_it(words: list[str], cam6: str, no_dask: str) -> None:
    done = ensembles.run(cam6, *words, first=no_dask)
    assert (done.returncode, done.stdout, done.stderr.count("\n")) == (2, "", 1)
    assert "apt-get install python3-distributed" in done.stderr


def test_without_dask_tasks_are_done_one_after_another(cam6: str, no_dask: str) -> None:
    done = ensembles.run(cam6, "--serial", "--seeds=1", "--rules=life", "--steps=20", first=no_dask)
    assert (done.returncode, done.stderr) == (0, "")
    assert "serial: 1 tasks, 1 at once" in done.stdout


@pytest.mark.parametrize(
    ("words", "why"),
    [
        (["--seeds=0"], "--seeds is above 0"),
        (["--limit=0"], "--limit is above 0"),
        (["--limit=1e6"], "--limit is below"),
        (["--retries=-1"], "--retries"),
        (["--steps=30"], "multiples of --every"),
        (["--part=30"], "multiples of --every"),
        (["--rules=life,nolife"], "there is no rule 'nolife'"),
        (["--serial", "--compare"], "not allowed with"),
        (["--scheduler=tcp://10.1.2.3:8786"], "whoever reaches it can run code"),
        (["--scheduler=10.1.2.3:8786"], "whoever reaches it can run code"),
        (["--scheduler=tcp://localhost.example:8786"], "whoever reaches it can run code"),
        (["--scheduler=tcp://127.0.0.1:1", "--kill=1"], "--kill is for workers"),
        (["--scheduler=tcp://127.0.0.1:1", "--part=100"], "need a --folder"),
    ],
)
def test_refused_arguments(words: list[str], why: str, cam6: str) -> None:
    done = ensembles.run(cam6, *words)
    assert (done.returncode, done.stdout) == (2, "")
    assert why in done.stderr


@pytest.mark.parametrize(
    "address", ["tls://10.1.2.3:8786", "tcp://127.0.0.1:8786", "localhost:8786", "tcp://[::1]:8786"]
)
def test_addresses_that_are_taken(address: str) -> None:
    assert ensembles.script().is_safe(address)


def test_a_program_that_is_not_there() -> None:
    done = ensembles.run("/no/such/program", "--serial")
    assert (done.returncode, done.stdout, done.stderr.count("\n")) == (1, "", 1)
    assert "There is no program '/no/such/program'" in done.stderr
