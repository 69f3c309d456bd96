"""A program that answers line by line, over its standard streams."""

from __future__ import annotations

import os
import select
import subprocess
import time
from contextlib import suppress
from subprocess import PIPE

from support.programs import PATIENCE


class LineProcess:
    """A program that is sent a line when it has answered the one before. All lines and answers are kept.

    Nothing is waited for without end. A line that doesn't come in time is `nothing`, and so are all after it.
    """

    def __init__(self, command: list[str]) -> None:
        self.process = subprocess.Popen(command, bufsize=0, stdin=PIPE, stdout=PIPE, stderr=PIPE)
        assert self.process.stdin and self.process.stdout
        self.input, self.output = self.process.stdin.fileno(), self.process.stdout.fileno()
        os.set_blocking(self.input, False)
        self.lines: list[bytes] = []
        self.answers: list[bytes] = []
        self.unread, self.end = b"", 0.0

    def left(self) -> float:
        """The seconds that are left for what is being sent, and for what comes back for it."""
        return max(0.0, self.end - time.monotonic())

    def send(self, data: bytes) -> None:
        """Sends bytes, for `PATIENCE` seconds at most. What the program doesn't take by then is dropped."""
        self.end = time.monotonic() + PATIENCE
        with suppress(BrokenPipeError):
            while data and select.select([], [self.input], [], self.left())[1]:
                data = data[os.write(self.input, data) :]

    def ask(self, line: bytes) -> bytes:
        """Sends a line, and returns the next line that comes back, or `nothing` if none comes in time."""
        self.send(line + b"\n")
        while b"\n" not in self.unread and select.select([self.output], [], [], self.left())[0]:
            more = os.read(self.output, 1 << 16)
            self.unread += more
            if not more:
                break
        reply, end, self.unread = self.unread.partition(b"\n")
        return reply if end else b"nothing"

    def answer(self, line: bytes) -> bytes:
        """Sends a line, and returns what comes back. Keeps both. Sends nothing more after a line that got `nothing`."""
        is_silent = self.answers[-1:] == [b"nothing"]
        self.lines.append(line)
        self.answers.append(b"nothing" if is_silent else self.ask(line))
        return self.answers[-1]

    def rest(self, data: bytes = b"") -> bytes:
        """Sends the last bytes, and returns all that comes back until the program ends. It is a line more if the
        program doesn't end well."""
        if self.answers[-1:] == [b"nothing"]:
            return b"nothing\n"
        self.send(data)
        try:
            output, errors = self.process.communicate(timeout=self.left())
        except subprocess.TimeoutExpired:
            return self.unread + b"nothing\n"
        return self.unread + output + how_it_ended(self.process.returncode, errors)

    def __enter__(self) -> LineProcess:
        return self

    def __exit__(self, *_: object) -> None:
        """The program is gone after this, also if it did not end."""
        with self.process:
            self.process.kill()


def how_it_ended(status: int, errors: bytes) -> bytes:
    """Nothing if a program ended with status 0 and no errors, else a line with both."""
    return b"" if (status, errors) == (0, b"") else b"the program: status %d, %r\n" % (status, errors)
