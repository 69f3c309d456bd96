"""python -m cam6: what is printed, what is written, and with which status it ends."""

from __future__ import annotations

import os
import subprocess
import sys
from collections.abc import Callable
from pathlib import Path

import pytest
from fakes import Breaking, OracleMachine, compact
from oracle.machine import answers
from support.programs import TOP, free_port

from cam6 import Machine

SOURCE = str(TOP / "clients" / "python" / "src")
LINES = [compact(do="side", side=128), compact(do="set", plane=0, row=3, bits="f" * 32), compact(do="count", mask=2)]
Result = tuple[int, str, str]
Main = Callable[..., Result]


@pytest.fixture
def main(cam6: str, tmp_path: Path) -> Main:
    """Runs it with these words in the folder `tmp_path`. Returns its status, its output and its errors."""

    def run(*words: str) -> Result:
        path = os.pathsep.join([SOURCE, os.environ.get("PYTHONPATH", "")])
        environment = {**os.environ, "PYTHONPATH": path, "CAM6": cam6}
        command = [sys.executable, "-m", "cam6", *words]
        done = subprocess.run(command, capture_output=True, text=True, cwd=tmp_path, env=environment, check=False)
        return done.returncode, done.stdout, done.stderr

    return run


def written(folder: Path, name: str, lines: list[bytes]) -> str:
    """The path of a file with these lines, of which the last one has no LF."""
    (folder / name).write_bytes(b"\n".join(lines))
    return str(folder / name)


@pytest.mark.parametrize("words", [(), ("play",), ("film",), ("seats",), ("keep",)])
def test_help(words: tuple[str, ...], main: Main) -> None:
    status, out, err = main(*words, "--help")
    assert (status, err) == (0, "")
    assert "usage: python -m cam6" in out


@pytest.mark.parametrize(
    "words", [(), ("fly",), ("play",), ("film", "x"), ("keep", "a"), ("play", "x", "--side-limit", "64")]
)
def test_refused_arguments(words: tuple[str, ...], main: Main) -> None:
    assert main(*words)[0] == 2


def test_play(main: Main, tmp_path: Path) -> None:
    want = b"\n".join(answers(LINES, 256)).decode() + "\n"
    assert main("play", written(tmp_path, "good.lines", LINES)) == (0, want, "")


def test_play_with_a_fault(main: Main, tmp_path: Path) -> None:
    sent = [*LINES, b'{"do":"run","n":1}', LINES[-1]]
    path = written(tmp_path, "bad.lines", [*sent, b""])
    want = b"\n".join(answers(sent, 256)).decode() + "\n"
    sentence = "63: There is no cycle to run or to undo. Set a cycle first."
    assert main("play", path) == (1, want, f"{path}, line 4: {sentence}\n")


@pytest.mark.parametrize(
    ("words", "sentence"),
    [
        (("play", "no.lines"), "No such file"),
        (("film", "nothing", "-o", "x.png"), "there is no file nothing, nothing.lines or examples/nothing.lines"),
        (("seats", "127.0.0.1:PORT"), "Nothing listens"),
        (("keep", "127.0.0.1:PORT", "1", "x"), "Nothing listens"),
        (("play", os.devnull, "--program", "/no/cam6"), "There is no program"),
    ],
)
def test_what_is_not_there(words: tuple[str, ...], sentence: str, main: Main) -> None:
    port = str(free_port())
    status, _, err = main(*(word.replace("PORT", port) for word in words))
    assert status == 1
    assert sentence in err and "Traceback" not in err


def test_seats(main: Main, breaking: Callable[..., Breaking]) -> None:
    host = breaking(users=3)
    host.taken[1].acquire()
    assert main("seats", f"127.0.0.1:{host.port}") == (0, "1 free\n2 taken\n3 free\n", "")


def test_keep(main: Main, breaking: Callable[..., Breaking], local: Callable[..., Machine], tmp_path: Path) -> None:
    oracle, host = OracleMachine(128), breaking()
    oracle.answer(LINES[1])
    host.machines[2].answer(LINES[1])
    status, out, err = main("keep", f"127.0.0.1:{host.port}", "3", "kept")
    assert (status, err) == (0, "")
    assert "seat 3, side 128" in out
    saved = (tmp_path / "kept").read_bytes()
    assert saved == oracle.load_line() + b"\n"
    machine = local()
    machine.load(saved)
    assert machine.count() == 128


def test_keep_at_no_seat_writes_nothing(main: Main, breaking: Callable[..., Breaking], tmp_path: Path) -> None:
    assert main("keep", f"127.0.0.1:{breaking().port}", "9", "other")[0] == 1
    assert not (tmp_path / "other").exists()


def test_film(main: Main, tmp_path: Path) -> None:
    entry = {"a": "-", "b": "-", "grid": "ODD", "phase": 0}
    written(tmp_path, "life.lines", [*LINES, compact(do="cycle", entries=[entry])])
    status, _, err = main("film", "life", "-o", "out.png", "--frames", "3")
    assert (status, err) == (0, "")
    data = (tmp_path / "out.png").read_bytes()
    assert data.startswith(b"\x89PNG\r\n\x1a\n") and b"acTL" in data
