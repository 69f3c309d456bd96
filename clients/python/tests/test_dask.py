"""The example of an ensemble by Dask, where workers, computers and programs die, or don't answer.

Serial runs are those of the oracle (test_ensemble.py). Here runs by Dask have to be equal to both.
"""

from __future__ import annotations

import contextlib
import functools
import os
import re
import shlex
import signal
import subprocess
import sys
from collections.abc import Callable, Iterator
from pathlib import Path
from typing import Any

import ensembles
import pytest
from support.programs import free_port, wait_until

pytestmark = [pytest.mark.slow, pytest.mark.ensemble]

# Eight tasks of three parts, and seven counts each.
SOME = ["--seeds=1", "--rules=all", "--steps=600", "--every=100", "--part=200", ensembles.LIMIT]
# A program that dies when it is started for the first time.
DYING = 'mkdir "$0.died" 2> /dev/null && kill -9 $$\nexec PROGRAM "$@"\n'
Made = Callable[[str, str], str]


@functools.lru_cache(maxsize=None)
def serial_counts(program: str) -> dict[str, list[int]]:
    """The counts of a serial run."""
    return ensembles.counts_by(program, "--serial", *SOME)


@pytest.fixture
def shell_program(cam6: str, tmp_path: Path) -> Made:
    """Makes a program of the shell. PROGRAM in its text stands for the one under test."""

    def made(name: str, text: str) -> str:
        path = tmp_path / name
        path.write_text("#!/bin/sh\n" + text.replace("PROGRAM", shlex.quote(cam6)))
        path.chmod(0o755)
        return str(path)

    return made


@contextlib.contextmanager
def computers(program: str, folder: Path) -> Iterator[tuple[str, list[subprocess.Popen[bytes]]]]:
    """A scheduler and two workers, each with its nanny, in groups of processes of their own. Yields the scheduler's address,
    and the workers."""
    port, here = free_port(), ["--host=127.0.0.1", "--no-dashboard"]
    address = f"tcp://127.0.0.1:{port}"
    worker = ["dask_worker", address, "--nthreads=1", f"--local-directory={folder}", *here]
    how: dict[str, Any] = {"stdout": subprocess.DEVNULL, "stderr": subprocess.DEVNULL, "start_new_session": True}
    started = [
        subprocess.Popen(
            [sys.executable, "-m", f"distributed.cli.{name}", *words], env=ensembles.environment(program), **how
        )
        for name, *words in (["dask_scheduler", f"--port={port}", *here], worker, worker)
    ]
    try:
        yield address, started[1:]
    finally:
        for process in reversed(started):
            if process.poll() is None:
                os.killpg(process.pid, signal.SIGKILL)
            process.wait()


@pytest.fixture(scope="module")
def address(cam6: str, tmp_path_factory: pytest.TempPathFactory) -> Iterator[str]:
    """The address of a scheduler that tests share which kill no worker."""
    with computers(cam6, tmp_path_factory.mktemp("dask")) as (there, _):
        yield there


@pytest.fixture
def shared(address: str, tmp_path: Path) -> list[str]:
    """The words that have the script use this scheduler."""
    return ["--scheduler", address, "--folder", str(tmp_path / "kept")]


def processes_of(path: str) -> list[Path]:
    """The processes whose first word is this path."""
    found = []
    for words in Path("/proc").glob("[0-9]*/cmdline"):
        with contextlib.suppress(OSError):
            if words.read_bytes().split(b"\0")[0] == path.encode():
                found.append(words)
    return found


def test_the_counts_are_those_of_the_oracle(cam6: str, shared: list[str]) -> None:
    assert ensembles.counts_by(cam6, *shared, *ensembles.FEW) == ensembles.oracle_counts()


def test_a_worker_is_killed(cam6: str, tmp_path: Path) -> None:
    """The script starts the workers by itself."""
    program = tmp_path / "cam6"
    program.symlink_to(cam6)
    done = ensembles.run(str(program), "--compare", "--kill=6", *SOME)
    assert done.returncode == 0, done.stdout + done.stderr
    after = re.search(r"a worker was killed after (\d+) of 24 parts", done.stdout)
    # No worker may be within a part when the sixth has come. Then it is tried again after the next one.
    assert after and 6 <= int(after[1]) < 24, done.stdout
    assert "parts that were cut off and done anew: 1\n" in done.stdout
    assert "equal: 56 counts" in done.stdout
    assert processes_of(str(program)) == []


def test_a_part_whose_program_dies_is_tried_again(cam6: str, shared: list[str], shell_program: Made) -> None:
    dying = shell_program("dying", DYING)
    assert ensembles.counts_by(dying, *shared, *SOME) == serial_counts(cam6)
    assert os.path.isdir(f"{dying}.died")


def test_a_part_whose_program_dies_may_not_be_tried_again(shared: list[str], shell_program: Made) -> None:
    done = ensembles.run(shell_program("dying", DYING), "--retries=0", *shared, *SOME)
    assert (done.returncode, done.stdout) == (1, "")
    pattern = r"^ensemble.py: [a-z-]+\.seed-\d\..*status -9 \(signal 9\)"
    assert re.search(pattern, done.stderr, re.M), done.stderr


def test_a_program_does_not_answer(shared: list[str], shell_program: Made) -> None:
    """It is left long before it would end by itself."""
    silent = shell_program("silent", f"exec sleep {2 * ensembles.PATIENCE}\n")
    done = ensembles.run(silent, "--seeds=1", "--rules=life", "--limit=1", "--retries=0", *shared)
    assert (done.returncode, done.stdout) == (1, "")
    assert "No reply came in time" in done.stderr


def test_a_second_run_goes_on(cam6: str, shared: list[str], tmp_path: Path) -> None:
    kept = tmp_path / "kept"

    def times() -> dict[str, int]:
        return {path.name: path.stat().st_mtime_ns for path in kept.iterdir()}

    first = ensembles.counts_by(cam6, *shared, *SOME)
    assert first == serial_counts(cam6)
    made = times()
    assert len(made) == 24
    gone = {name for name in made if name.startswith("tron.") and not name.endswith(".steps-0-200")}
    for name in gone:
        (kept / name).unlink()
    assert ensembles.counts_by(cam6, *shared, *SOME) == first
    again = times()
    assert {name for name in again if again[name] != made[name]} == gone
    assert sorted(again) == sorted(made)


def test_a_computer_is_lost(cam6: str, tmp_path: Path) -> None:
    """Two computers work for a scheduler. One of them, a worker with its nanny, is gone for good in the middle."""
    kept, steps = tmp_path / "kept", [
        "--seeds=2",
        "--rules=all",
        "--steps=3000",
        "--every=500",
        "--part=1000",
        ensembles.LIMIT,
    ]
    how: dict[str, Any] = {"stdout": subprocess.PIPE, "stderr": subprocess.STDOUT, "text": True}
    with computers(cam6, tmp_path) as (address, [lost, _]):
        command = [sys.executable, ensembles.SCRIPT, "--compare", "--scheduler", address, "--folder", str(kept), *steps]
        with subprocess.Popen(command, env=ensembles.environment(cam6), **how) as run:
            wait_until(lambda: run.poll() is not None or kept.is_dir() and len(os.listdir(kept)) > 12, 600, 0.01)
            assert run.poll() is None
            os.killpg(lost.pid, signal.SIGKILL)
            output = run.communicate(timeout=600)[0]
    assert run.returncode == 0, output
    assert "equal: 112 counts" in output
    assert "Dask: 16 tasks, 2 at once" in output
