"""`./live` on a terminal of its own: Ctrl-C ends both programs, and so do its other ends.

It listens at ports of its own choice, 6007 and beside. So these tests are played one after another.
"""

from __future__ import annotations

import os
import pty
import re
import resource
import select
import signal
import socket
import subprocess
import time
import urllib.request
from collections.abc import Callable, Iterator
from contextlib import ExitStack, closing, suppress
from pathlib import Path

import pytest
from support.programs import TOP, wait_until

pytestmark = pytest.mark.xdist_group("live")

LIVE = str(TOP / "live")
# Seconds in which it has to start, and to end.
START, END = 60, 30
ADDRESS = re.compile(rb"open (http://\S+/) in")


class Live:
    """./live on a terminal, until it has ended."""

    def __init__(self, *words: str) -> None:
        self.output = b""
        ours, theirs = pty.openpty()

        def begin() -> None:
            # A shell in the background has its programs ignore the one, and nohup the other, and what they start does too.
            signal.signal(signal.SIGINT, signal.SIG_DFL)
            signal.signal(signal.SIGHUP, signal.SIG_DFL)
            os.login_tty(theirs)

        self.process = subprocess.Popen([LIVE, *words], preexec_fn=begin)
        os.close(theirs)
        self.terminal = open(ours, "r+b", buffering=0)

    def press_ctrl_c(self) -> None:
        """Types Ctrl-C."""
        self.terminal.write(b"\x03")

    def read(self) -> bool:
        """Reads what was written by now. Returns whether more may come."""
        with suppress(OSError):
            while select.select([self.terminal], [], [], 0)[0] and (part := self.terminal.read(4096)):
                self.output += part
            return True
        return False

    def address(self) -> str:
        """The address that it prints, or nothing."""
        wait_until(lambda: not self.read() or ADDRESS.search(self.output), START)
        found = ADDRESS.search(self.output)
        return found[1].decode() if found else ""

    def status(self) -> int:
        """The status with which it ends, or less than 0 if a signal ends it."""
        status = self.process.wait(END)
        self.read()
        return status

    def left(self) -> list[int]:
        """The processes of its session that still run."""
        found = []
        for path in Path("/proc").glob("[0-9]*/stat"):
            with suppress(OSError):
                state, _, _, session, *_ = path.read_text(errors="replace").rpartition(")")[2].split()
                if int(session) == self.process.pid and state != "Z":
                    found.append(int(path.parent.name))
        return found

    def program(self, word: bytes) -> tuple[int, list[bytes]]:
        """The process of the program that has this among its arguments, and all of them."""
        words = {process: Path(f"/proc/{process}/cmdline").read_bytes().split(b"\0") for process in self.left()}
        return next(
            (process, arguments)
            for process, arguments in words.items()
            if word in arguments and b"bash" not in arguments[0]
        )

    def close(self) -> None:
        """Closes the terminal, and ends what is left."""
        self.terminal.close()
        for process in self.left():
            with suppress(ProcessLookupError):
                os.kill(process, signal.SIGKILL)
        self.process.wait()


Starts = Callable[..., Live]


@pytest.fixture
def live(cam6: str, cam6_web: str, monkeypatch: pytest.MonkeyPatch) -> Iterator[Starts]:
    """Starts `./live` with the programs under test, as often as it is called: `live("--alone")`."""
    monkeypatch.setenv("CAM6", cam6)
    monkeypatch.setenv("CAM6_WEB", cam6_web)
    with ExitStack() as stack:
        yield lambda *words: stack.enter_context(closing(Live(*words)))


def hosts_at(address: str) -> str:
    """How many hosts a page's program has, or nothing if it isn't there."""
    with suppress(OSError, ValueError), urllib.request.urlopen(f"{address}hosts", timeout=END) as answer:
        return str(answer.read(), "utf-8").strip()
    return ""


# How it is ended: by Ctrl-C, or by a signal to it alone or to all.
ENDS: dict[str, Callable[[Live], object]] = {
    "ctrl_c": Live.press_ctrl_c,
    "sigterm": lambda it: it.process.terminate(),
    "sigint": lambda it: it.process.send_signal(signal.SIGINT),
    "sighup": lambda it: it.process.send_signal(signal.SIGHUP),
    "sigterm_to_all": lambda it: os.killpg(it.process.pid, signal.SIGTERM),
}
WAYS = [*(("", "1", end) for end in ENDS), ("--alone", "0", "ctrl_c"), ("--users 2 --port 6117", "1", "ctrl_c")]


@pytest.mark.parametrize(("words", "hosts", "end"), WAYS)
def test_both_programs_end(words: str, hosts: str, end: str, live: Starts) -> None:
    it = live(*words.split())
    address = it.address()
    assert hosts_at(address) == hosts, "the page is there"
    # A helper that the shell has just started would run the shell's traps if a signal came then.
    assert len(it.left()) == 2 + int(hosts), "nothing runs but the script and its programs"
    ENDS[end](it)
    assert (it.status(), it.left()) == (0, [])
    assert hosts_at(address) == "", "nobody listens"
    assert b"line" not in it.output and b"rror" not in it.output, it.output


def test_both_programs_end_with_their_terminal(live: Starts) -> None:
    it = live()
    address = it.address()
    assert address
    it.terminal.close()
    assert wait_until(lambda: not it.left(), END), it.left()
    assert hosts_at(address) == "", "nobody listens"


@pytest.mark.parametrize("pause", [0.05, 0.1, 0.2, 0.3, 0.5])
def test_ctrl_c_while_it_starts_leaves_nothing(pause: float, live: Starts) -> None:
    it = live()
    time.sleep(pause)
    it.press_ctrl_c()
    assert it.status() in (0, -signal.SIGINT)
    assert it.left() == []


@pytest.mark.parametrize(("what", "word"), [("the host", b"serve"), ("the page's program", b"--host")])
def test_it_ends_with_each_of_its_programs(what: str, word: bytes, live: Starts) -> None:
    it = live()
    assert it.address()
    os.kill(it.program(word)[0], signal.SIGKILL)
    assert (it.status(), it.left()) == (1, [])
    assert f"{what} ended".encode() in it.output
    assert b"illed" not in it.output, "the shell says nothing of its own"


@pytest.mark.parametrize("word", [b"serve", b"--host"])
def test_a_later_message_of_each_program_is_passed_on(word: bytes, live: Starts) -> None:
    it = live()
    assert it.address()
    process, words = it.program(word)
    # The program may open only a few more files than it has.
    most = max(map(int, os.listdir(f"/proc/{process}/fd"))) + 3
    resource.prlimit(process, resource.RLIMIT_NOFILE, (most, most))
    with ExitStack() as stack:
        for _ in range(8):
            stack.enter_context(socket.create_connection(("127.0.0.1", int(words[words.index(b"--port") + 1]))))
        assert wait_until(lambda: it.read() and b": cannot accept a connection" in it.output, START), it.output
    it.press_ctrl_c()
    assert (it.status(), it.left()) == (0, [])


# A host that takes no notice of SIGTERM, and says much.
LOUD = """#!/bin/sh
trap '' TERM
echo before >&2
echo listening on 127.0.0.1:6006 >&2
seq 9999 >&2
printf 'no end' >&2
exec sleep 600
"""


def test_all_that_a_program_says_is_passed_on(live: Starts, tmp_path: Path, monkeypatch: pytest.MonkeyPatch) -> None:
    loud = tmp_path / "loud"
    loud.write_text(LOUD, encoding="utf-8")
    loud.chmod(0o755)
    monkeypatch.setenv("CAM6", str(loud))
    it = live()
    assert wait_until(lambda: it.read() and it.output.endswith(b"no end"), START), it.output
    it.press_ctrl_c()
    assert (it.status(), it.left()) == (0, [])
    assert it.output.startswith(b"before\r\n")
    assert b"".join(b"%d\r\n" % number for number in range(1, 10_000)) + b"no end" in it.output


def test_it_takes_no_ports_that_are_taken(live: Starts) -> None:
    with ExitStack() as stack:
        for port in (6006, 6007):
            with suppress(OSError):
                stack.enter_context(socket.create_server(("127.0.0.1", port)))
        it, named = live(), live("--port", "6007")
        assert (named.status(), named.left()) == (3, [])
        assert b"no port is free" in named.output
        address = it.address()
        assert address not in ("", "http://127.0.0.1:6007/")
        assert hosts_at(address) == "1", "the page is there"
        it.press_ctrl_c()
        assert it.status() == 0


ARGUMENTS = [
    ("--help", 0, b"usage: ./live"),
    ("--fast", 2, b"there is no option --fast"),
    ("life", 2, b"it takes no arguments"),
    ("--users", 2, b"--users takes a number"),
    ("--users 0", 2, b"0 is no whole number"),
    ("--users 33", 2, b"33"),
    ("--port 65536", 2, b"65536 is no port"),
]


@pytest.mark.parametrize(("words", "status", "text"), ARGUMENTS)
def test_arguments_end_it(words: str, status: int, text: bytes, live: Starts) -> None:
    it = live(*words.split())
    assert it.status() == status
    assert text in it.output
