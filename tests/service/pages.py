"""Clients of the page's program, and hosts that it connects to: requests over HTTP, and WebSockets, frame by frame. Requests
and frames may be right or wrong. `websockets` has the protocol.

The rows of `data` say what is sent, and what has to come back. A text of a row is a text, or a list of its parts. A part
may say how many times its text comes. `PORT` is the port. `or` has what may come in place of a status or of a close code.
"""

from __future__ import annotations

import gzip
import http.client
import io
import json
import socket
import threading
from collections.abc import Iterator, Mapping
from contextlib import suppress
from pathlib import Path
from socketserver import StreamRequestHandler, ThreadingTCPServer
from typing import Any, Optional, cast

import pytest
from support.programs import Peer
from websockets.client import ClientConnection
from websockets.connection import Event
from websockets.exceptions import InvalidStatus
from websockets.frames import Frame, Opcode
from websockets.uri import parse_uri

from .users import SEAT

Row = dict[str, Any]
# Fields of a handshake. One that is None is left out.
Fields = Mapping[str, Optional[str]]


def rows_of(name: str) -> list[Row]:
    """The rows of this file of `data`, named without `.json`."""
    rows: list[Row] = json.loads((Path(__file__).parent / "data" / f"{name}.json").read_text(encoding="utf-8"))
    return rows


def each_row(name: str) -> list[Any]:
    """The rows of a file, for `parametrize`. The words of a row are the name of its test."""
    return [pytest.param(row, id=row["what"]) for row in rows_of(name)]


def text_of(parts: Any) -> str:
    """A text of a row of the data: as it is, or its parts joined, each as often as it says."""
    if isinstance(parts, str):
        return parts
    return "".join(part if isinstance(part, str) else part["text"] * part["times"] for part in parts)


class Answer:
    """An answer to a request: all that a server sent. The status 0 is none: the server ended without a word."""

    def __init__(self, whole: bytes) -> None:
        file = io.BytesIO(whole)
        words = file.readline().split()
        self.status = int(words[1]) if len(words) > 1 else 0
        self.fields, self.body = http.client.parse_headers(file), file.read()

    @property
    def text(self) -> str:
        """The body as a text. It may be compressed."""
        is_packed = self.fields["content-encoding"] == "gzip" and self.body
        return (gzip.decompress(self.body) if is_packed else self.body).decode(errors="replace")


def answer_to(port: int, *lines: str, ends: bool = False) -> Answer:
    """Sends the lines of a request, and then an empty one or, if `ends`, the end of its own side. Reads the answer
    until the server ends."""
    whole, request = b"", "\r\n".join(lines if ends else (*lines, "", "")).replace("PORT", str(port))
    with socket.create_connection(("127.0.0.1", port), timeout=20) as tcp:
        with suppress(BrokenPipeError, ConnectionResetError):
            tcp.sendall(request.encode("latin-1"))
            if ends:
                tcp.shutdown(socket.SHUT_WR)
        with suppress(ConnectionResetError):
            while part := tcp.recv(65536):
                whole += part
    return Answer(whole)


def get(port: int, path: str, fields: Mapping[str, str] | None = None) -> Answer:
    """Sends a well-formed GET with these fields besides Host, or in its place, and returns the answer."""
    all_fields = {"Host": "127.0.0.1:PORT"} | dict(fields or {})
    return answer_to(port, f"GET {path} HTTP/1.1", *(f"{name}: {value}" for name, value in all_fields.items()))


class AnyFrame(Frame):
    """A frame that may break any rule."""

    def check(self) -> None:
        """Finds no frame wrong, so that a wrong one is sent."""


def frame_of(opcode: int, payload: bytes = b"", *, last: bool = True, masked: bool = True, **row: Any) -> bytes:
    """The bytes of a frame as a client sends it, right or wrong. `row` may have the payload in digits (`hex`), or a
    `text` that comes `times` times, and the three `reserved` bits."""
    payload = payload or bytes.fromhex(row.get("hex", "")) or row.get("text", "").encode() * row.get("times", 1)
    bits = (bool(row.get("reserved", 0) & bit) for bit in (4, 2, 1))
    return AnyFrame(cast(Opcode, opcode), payload, last, *bits).serialize(mask=masked)


class Socket(Peer):
    """A WebSocket to a port of this machine. Its messages are lines. Raises InvalidStatus if the server refuses it."""

    def __init__(
        self, port: int, seat: int | None = None, path: str = "/ws", fields: Fields | None = None, patience: float = 20
    ) -> None:
        """Shakes hands, with these fields in place of the usual ones, and asks for a seat."""
        super().__init__(port, None, patience)
        self.protocol = ClientConnection(parse_uri(f"ws://127.0.0.1:{port}{path}"), max_size=None)
        request = self.protocol.connect()
        wanted: dict[str, str | None] = {"Host": request.headers["Host"], **(fields or {})}
        wanted.setdefault("Origin", f"http://{wanted['Host']}")
        for name, value in wanted.items():
            request.headers.pop(name, None)
            if value is not None:
                request.headers[name] = value
        self.protocol.send_request(request)
        self.flush()
        self.events = self.received()
        next(self.events, None)
        if self.protocol.handshake_exc:
            self.close()
            raise self.protocol.handshake_exc
        self.reply = None if seat is None else self.ask(SEAT % seat)

    def flush(self) -> None:
        """Sends what the protocol has to say: the handshake, and answers to pings and closes."""
        self.socket.sendall(b"".join(self.protocol.data_to_send()))

    def received(self) -> Iterator[Event]:
        """What comes: the answer to the handshake, and frames, until the server has ended. A reset is an end."""
        data = b"any"
        while data:
            data = b""
            with suppress(ConnectionResetError):
                data = self.socket.recv(65536)
            if data:
                self.protocol.receive_data(data)
            else:
                self.protocol.receive_eof()
            with suppress(OSError):
                self.flush()
            if self.protocol.parser_exc and not isinstance(self.protocol.parser_exc, EOFError):
                raise self.protocol.parser_exc
            yield from self.protocol.events_received()

    def frame(self) -> Frame | None:
        """The next frame, or None if the server has ended. Each message of the server is a frame. A ping is answered."""
        got = next(self.events, None)
        assert got is None or isinstance(got, Frame) and got.fin, f"the server sends a part of a message: {got}"
        return got

    def read(self) -> str | None:
        """The next text, after any pings and pongs. None if the server ends, or sends a frame of another kind."""
        while (got := self.frame()) and got.opcode in (Opcode.PING, Opcode.PONG):
            pass
        return got.data.decode() if got and got.opcode is Opcode.TEXT else None

    def send(self, data: bytes | str) -> None:
        """Sends a text as a frame, or bytes as they are."""
        super().send(frame_of(Opcode.TEXT, data.encode()) if isinstance(data, str) else data)

    def try_to_send(self, data: bytes) -> None:
        """Sends bytes as they are. If the connection fails, or that takes longer than its patience, drops the rest."""
        with suppress(OSError):
            self.send(data)

    def ask(self, line: str) -> str | None:
        """Sends a text, and returns the next one of the server, or None as `read` does."""
        self.send(line)
        return self.read()

    def closed(self) -> tuple[int, str] | None:
        """The code and the reason with which the server closes, or None if it ends without. Passes other frames
        over."""
        while (got := self.frame()) and got.opcode is not Opcode.CLOSE:
            pass
        close = self.protocol.close_rcvd
        return (close.code, close.reason) if got and close else None

    def leave(self, reason: str = "") -> int | None:
        """Closes as a page does, with code 1000. Returns the server's code, or None if it ends without."""
        self.protocol.send_close(1000, reason)
        self.flush()
        with self:
            end = self.closed()
        return end and end[0]


def status_of(port: int, path: str = "/ws", fields: Fields | None = None) -> int:
    """The status of the answer to a handshake, 101 if it succeeds. Closes the connection."""
    try:
        Socket(port, path=path, fields=fields).close()
    except InvalidStatus as refused:
        return refused.response.status_code
    return 101


class Received(StreamRequestHandler):
    """A connection: what the host got by it, and whether it has ended. The line `L` is answered by `[L]`. After `end` the
    host ends the connection, and `bytes` is answered by a line that isn't UTF-8."""

    def handle(self) -> None:
        """Keeps the bytes that come, and answers each line, until `end` or the end of the connection."""
        self.data, self.has_ended = b"", threading.Event()
        cast(Recorder, self.server).connections.append(self)
        with suppress(OSError):
            for line in self.rfile:
                self.data += line
                if line == b"end\n":
                    break
                self.wfile.write(b"\xff\n" if line == b"bytes\n" else b"[%s]\n" % line.removesuffix(b"\n"))
        self.has_ended.set()


class Recorder(ThreadingTCPServer):
    """A host that writes down each byte that it gets. `connections` are in the order in which they came."""

    daemon_threads, block_on_close, request_queue_size = True, False, 512

    def __init__(self) -> None:
        super().__init__(("127.0.0.1", 0), Received)
        self.port: int = self.server_address[1]
        self.connections: list[Received] = []
        threading.Thread(target=self.serve_forever, args=(0.05,), daemon=True).start()

    def server_close(self) -> None:
        """Ends the thread of the server, and closes its socket."""
        self.shutdown()
        super().server_close()
