"""Stands for the program: the machine of tests/oracle, and hosts by it that break.

The oracle shares nothing with the program, and nothing with this package. What a test expects comes from it.
"""

from __future__ import annotations

import json
import socket
import ssl
import threading
import time
from collections.abc import Callable
from pathlib import Path
from typing import Any, Optional

from oracle.machine import Alone

HERE = Path(__file__).parent
# Seconds for which a silent host is silent.
SILENT = 30
PARITY = ": P CENTER NORTH XOR SOUTH XOR WEST XOR EAST XOR >PLN0 ;"
BALLS = (
    ": S4 CENTER CW + CCW + OPP + ; : D CENTER OPP = IF CW ELSE CENTER THEN ; "
    ": B S4 { CENTER OPP D CENTER CENTER } >PLN0 ;"
)


class OracleMachine(Alone):
    """An oracle machine: it answers line by line."""

    def ask(self, **command: Any) -> Any:
        """The reply to a command, read as JSON."""
        return json.loads(self.answer(compact(**command)))

    def load_line(self) -> bytes:
        """The line that loads the machine, made as the manual says."""
        return load_of(self.answer(b'{"do":"save"}'))


def load_of(reply: bytes) -> bytes:
    """The line that loads what a reply to `save` has."""
    return b'{"do":"load","machine":' + reply[len(b'{"machine":') : -len(b',"ok":"save"}')] + b"}"


def compact(**fields: Any) -> bytes:
    """A command as a line, without LF."""
    return json.dumps(fields, separators=(",", ":")).encode()


def north(name: str) -> bytes:
    """The line of a rule of this name by which each cell becomes its north neighbour."""
    return compact(do="rule", name=name, half="A", hood="N/VONN", minor="&/CENTERS", text=": R NORTH >PLN0 ;")


class Breaking:
    """A host of oracle machines, in a thread, that breaks as a test wants it to.

    `breaks` gets the number of a line, counted over all connections, and the line. What it returns is done: `"before"`
    closes the connection before the line is done, `"after"` when it is done and not answered, a whole number after so
    many bytes of the answer, `"silent"` never answers, bytes are answered instead, and None does nothing.
    """

    def __init__(
        self,
        breaks: Callable[[int, bytes], Any] = lambda number, line: None,
        users: int = 4,
        limit: int = 128,
        tls: Optional[ssl.SSLContext] = None,
    ) -> None:
        self.breaks, self.limit, self.tls = breaks, limit, tls
        self.machines = [OracleMachine(limit) for _ in range(users)]
        self.taken = [threading.Lock() for _ in range(users)]
        self.heard: list[bytes] = []
        self.first: list[bytes] = []
        self.count = 0
        self.listener = socket.create_server(("127.0.0.1", 0))
        self.port: int = self.listener.getsockname()[1]
        self.streams: list[socket.socket] = []
        threading.Thread(target=self.accept, daemon=True).start()

    def accept(self) -> None:
        """Takes connections until the listener is closed."""
        while True:
            try:
                stream = self.listener.accept()[0]
            except OSError:
                return
            stream.setsockopt(socket.IPPROTO_TCP, socket.TCP_NODELAY, 1)
            self.streams.append(stream)
            threading.Thread(target=self.converse, args=(stream,), daemon=True).start()

    def converse(self, stream: socket.socket) -> None:
        """Answers the lines of a connection."""
        try:
            if self.tls:
                stream = self.tls.wrap_socket(stream, server_side=True)
            with stream, stream.makefile("rb") as lines:
                self.first.append(lines.readline().rstrip(b"\n"))
                seat = json.loads(self.first[-1])["seat"] - 1
                if not 0 <= seat < len(self.taken):
                    stream.sendall(b'{"fault":81}\n')
                elif not self.taken[seat].acquire(blocking=False):
                    stream.sendall(b'{"fault":80}\n')
                else:
                    try:
                        stream.sendall(b'{"ok":"seat"}\n')
                        all(self.answer(stream, seat, line.rstrip(b"\n")) for line in lines)
                    finally:
                        self.taken[seat].release()
        except (OSError, ValueError):
            pass

    def answer(self, stream: socket.socket, seat: int, line: bytes) -> bool:
        """Answers a line, or breaks. Returns whether the connection goes on."""
        self.count += 1
        self.heard.append(line)
        what = self.breaks(self.count, line)
        if isinstance(what, bytes):
            stream.sendall(what + b"\n")
            return True
        reply = b"" if what == "before" else self.machines[seat].answer(line) + b"\n"
        if what is None or isinstance(what, int):
            stream.sendall(reply[:what])
        if what == "silent":
            time.sleep(SILENT)
        return what is None

    def stop(self) -> None:
        """Closes all connections, and takes no more."""
        for stream in [self.listener, *self.streams]:
            try:
                stream.shutdown(socket.SHUT_RDWR)
            except OSError:
                pass
        self.listener.close()

    def __enter__(self) -> Breaking:
        return self

    def __exit__(self, *_: object) -> None:
        self.stop()


def once(at: int, what: Any) -> Callable[[int, bytes], Any]:
    """A `breaks` that returns `what` at line `at`, and None at all others."""
    return lambda number, line: what if number == at else None
