"""The programs as child processes: runs to an end, private machines, hosts, pages, and connections to them."""

from __future__ import annotations

import os
import socket
import struct
import subprocess
import tempfile
import threading
import time
from collections.abc import Callable, Iterable, Mapping
from pathlib import Path
from subprocess import DEVNULL, PIPE
from typing import Any, NamedTuple, Self

TOP = Path(__file__).parents[2]
# The crate of each program, and the players, which ./build doesn't build.
CRATES = {"cam6": "cam6_host", "cam6_draw": "cam6_draw", "cam6_rle": "cam6_rle", "cam6_web": "cam6_web"}
PLAYERS = {"cam6_try_rules": "cam6_try_rules"}
# What is added to the environment of a program, and the command by which it listens at a port.
Env = Mapping[str, str] | None
Command = Callable[[int], list[str]]
# Seconds within which a program has to listen, to answer a line, and to end.
START, PATIENCE, END = 20.0, 60.0, 600.0
# The exit status of a host whose port is taken, and how often another port is tried.
NETWORK_FAILED, STARTS = 7, 5


def built(name: str, named: str | None = None) -> Path | None:
    """The path of a program, or None if it isn't there: of `named` if it is given, or else the one that was built."""
    crate = (CRATES | PLAYERS)[name]
    places = [Path(named)] if named else [TOP / "crates" / crate / "out" / crate, TOP / name]
    return next((path.resolve() for path in places if os.access(path, os.X_OK)), None)


class Ran(NamedTuple):
    """What a program did: its exit status, and what it wrote to its output and to its errors."""

    status: int
    output: bytes
    errors: bytes = b""


def ran(command: Iterable[str], data: bytes = b"", env: Env = None, patience: float = END) -> Ran:
    """Runs a program to its end, with `data` as its input. Raises TimeoutExpired if it takes longer than `patience`."""
    all_env = os.environ | dict(env or {})
    # By files, since megabytes go through a pipe in thousands of switches between two processes.
    with tempfile.TemporaryFile() as given, tempfile.TemporaryFile() as output:
        given.write(data)
        given.seek(0)
        done = subprocess.run([*command], stdin=given, stdout=output, stderr=PIPE, env=all_env, timeout=patience)
        output.seek(0)
        return Ran(done.returncode, output.read(), done.stderr)


def assert_refused(done: Ran, status: int, message: str) -> None:
    """Fails if a program didn't end with this status, without output, and with this text among its errors."""
    assert (done.status, done.output) == (status, b"")
    assert message in done.errors.decode()


def private(cam6: str, lines: Iterable[str], side: int = 512) -> list[str]:
    """Runs `cam6 alone` on these lines, and returns its replies. Fails if the program does."""
    done = ran([cam6, "alone", "--side", str(side)], "".join(f"{line}\n" for line in lines).encode())
    assert done.status == 0, done
    return done.output.decode().splitlines()


def free_port() -> int:
    """A port of this machine that nobody listens at now."""
    with socket.socket() as free:
        free.bind(("127.0.0.1", 0))
        return int(free.getsockname()[1])


def of_process(pid: int, name: str) -> int:
    """A number that the system knows of a process: VmRSS (in kB) or Threads, for example. It is 0 if there is none."""
    with open(f"/proc/{pid}/status", encoding="utf-8") as lines:
        return next((int(line.split()[1]) for line in lines if line.startswith(f"{name}:")), 0)


def wait_until(is_so: Callable[[], Any], seconds: float = PATIENCE, pause: float = 0.02) -> bool:
    """Waits until something is so, for so many seconds at most. Returns whether it came to be so."""
    end = time.monotonic() + seconds
    while not (found := is_so()) and time.monotonic() < end:
        time.sleep(pause)
    return bool(found)


class NotListening(OSError):
    """A program doesn't begin to listen. `done` is how it ended."""

    def __init__(self, command: list[str], done: Ran) -> None:
        super().__init__(f"{' '.join(command)} doesn't listen: {done}")
        self.done = done


class Listener:
    """A program that listens at a port until it is ended."""

    process: subprocess.Popen[bytes]
    # The first line of its errors.
    first = "listening on 127.0.0.1:{}"

    def __init__(self, command: Command, port: int | None, env: Env = None, stdin: int = DEVNULL) -> None:
        self.command_at, self.port, self.env, self.stdin = command, port or free_port(), dict(env or {}), stdin
        self.errors: list[str] = []
        for _ in range(1 if port else STARTS):
            if self.begins():
                return
            if self.process.returncode != NETWORK_FAILED:
                break
            self.port = free_port()
        errors = "".join(f"{line}\n" for line in self.errors).encode()
        raise NotListening(self.command_at(self.port), Ran(self.process.returncode, b"", errors))

    def begins(self) -> bool:
        """Starts the program, and waits for its first line. Returns whether it listens. If not, it has ended."""
        self.errors = []
        command, env = self.command_at(self.port), os.environ | self.env
        self.process = subprocess.Popen(command, stdin=self.stdin, stdout=PIPE, stderr=PIPE, env=env)
        has_written = threading.Event()

        def listen() -> None:
            """Keeps the lines of the program's errors, until it ends."""
            assert self.process.stderr
            for line in self.process.stderr:
                self.errors.append(line.decode(errors="replace").rstrip("\n"))
                has_written.set()
            has_written.set()

        self.reader = threading.Thread(target=listen, daemon=True)
        self.reader.start()
        has_written.wait(START)
        if self.errors[:1] == [self.first.format(self.port)]:
            return True
        self.ended(START)
        self.kill()
        return False

    def begin(self) -> None:
        """Starts the program again, at the same port. Fails if it doesn't listen after `START` seconds of trying."""
        assert wait_until(self.begins, START), self.errors

    def kill(self) -> None:
        """Ends the program by SIGKILL, and waits until it has ended."""
        self.process.kill()
        self.ended()

    def ended(self, patience: float = PATIENCE) -> Ran | None:
        """Waits until the program ends by itself. Returns how it ended, or None if it doesn't within so many seconds.
        The first line of its errors, which says where it listens, is left out."""
        try:
            status = self.process.wait(patience)
        except subprocess.TimeoutExpired:
            return None
        self.reader.join()
        assert self.process.stdout
        output = b"" if self.process.stdout.closed else self.process.stdout.read()
        self.process.stdout.close()
        return Ran(status, output, "".join(f"{line}\n" for line in self.errors[1:]).encode())

    def is_running(self) -> bool:
        """Whether the program has not ended."""
        return self.process.poll() is None

    def of_process(self, name: str) -> int:
        """A number that the system knows of the process, as VmRSS (in kB) or Threads."""
        return of_process(self.process.pid, name)

    def __enter__(self) -> Self:
        return self

    def __exit__(self, *_: object) -> None:
        self.kill()


class Host(Listener):
    """`cam6 serve`, with options such as `--users=4`."""

    def __init__(
        self, cam6: str, *options: str, port: int | None = None, env: Env = None, stdin: int = DEVNULL
    ) -> None:
        super().__init__(lambda at: [cam6, "serve", f"--port={at}", *options], port, env, stdin)


class Page(Listener):
    """`cam6_web`, with hosts at these ports, or with a machine for each socket if there are none."""

    first = "listening on http://127.0.0.1:{}/"

    def __init__(self, cam6_web: str, *ports: int, port: int | None = None, options: tuple[str, ...] = ()) -> None:
        hosts = [word for at in ports for word in ("--host", f"127.0.0.1:{at}")]
        super().__init__(lambda at: [cam6_web, "--port", str(at), *hosts, *options], port)

    @property
    def address(self) -> str:
        """The address of the page, for a browser."""
        return f"http://127.0.0.1:{self.port}/"


class Peer:
    """A connection, line by line: to a port of this machine, or one that is there. If `seat` is a number, it asks for that
    seat; `reply` is the answer."""

    def __init__(self, port: int | socket.socket, seat: int | None = None, patience: float = PATIENCE) -> None:
        own = "127.0.0.1"
        self.socket = port if isinstance(port, socket.socket) else socket.create_connection((own, port), patience)
        self.socket.setsockopt(socket.IPPROTO_TCP, socket.TCP_NODELAY, 1)
        self.file = self.socket.makefile("rb")
        self.reply = None if seat is None else self.ask(f'{{"seat":{seat}}}')

    def send(self, data: bytes | str) -> None:
        """Sends bytes, or the bytes of a text."""
        self.socket.sendall(data.encode() if isinstance(data, str) else data)

    def read(self) -> str | None:
        """The next line without its LF, or None if the connection has ended."""
        line = self.file.readline()
        return line[:-1].decode() if line.endswith(b"\n") else None

    def ask(self, line: str) -> str | None:
        """Sends a line, and returns the next one that comes, or None if the connection has ended."""
        self.send(f"{line}\n")
        return self.read()

    def close(self) -> None:
        """Closes the connection."""
        self.file.close()
        self.socket.close()

    def reset(self) -> None:
        """Closes the connection by a reset."""
        self.socket.setsockopt(socket.SOL_SOCKET, socket.SO_LINGER, struct.pack("ii", 1, 0))
        self.close()

    def __enter__(self) -> Self:
        return self

    def __exit__(self, *_: object) -> None:
        self.close()
