"""Lines of bytes to a program or a host, and its replies: over pipes, TCP or TLS.

A channel writes and reads at once. If it wrote all lines first, both sides could wait for each other for ever: the
program for somebody who reads its replies, and the client for somebody who reads its lines.
"""

from __future__ import annotations

import os
import select
import socket
import ssl
import subprocess
import tempfile
import time
from collections.abc import Callable, Sequence
from typing import IO, Any, Optional, Union

from .errors import Lost

# How many bytes one write offers, and how many one read takes.
WRITTEN, READ = 65_536, 1 << 20
# Seconds in which a host has to take a connection, and in which a program has to end once its input has.
TO_CONNECT, TO_END = 5.0, 5.0
# Seconds after which a silent connection is looked after, between two looks, and the looks before it counts as lost.
KEEP_ALIVE = (("TCP_KEEPIDLE", 20), ("TCP_KEEPINTVL", 5), ("TCP_KEEPCNT", 3))
STATUSES = {2: "it refused its arguments", 3: "a read failed", 4: "a write failed", 5: "it ran out of memory"}

Heard = Callable[[list[bytes]], None]


class Channel:
    """Lines to a machine and replies from it, one reply for each line, in their order.

    If a call is interrupted, for example by Ctrl-C, the lines that were sent are done all the same, and no others. The
    next call drops their replies.
    """

    def __init__(self) -> None:
        self._out, self._sent = b"", 0
        self._owed = 0
        self._half: list[bytes] = []
        self._ended: Optional[str] = None
        # How many seconds `query` may take, or None.
        self._deadline: Optional[float] = None

    def query(self, lines: Sequence[bytes]) -> list[bytes]:
        """The replies to lines. Raises `Lost` if the other side ends before, or the deadline passes."""
        replies: list[bytes] = []
        until = None if self._deadline is None else time.monotonic() + self._deadline
        self.exchange(lines, replies.extend, until)
        return replies

    def exchange(self, lines: Sequence[bytes], heard: Heard, until: Optional[float] = None) -> None:
        """Sends lines, and calls `heard` with the replies as they come, some at a time.

        Raises `Lost` if the other side ends before, or if `time.monotonic()` passes `until`.
        """
        if self._ended is not None:
            raise Lost(self._ended)
        stale = self._owed
        if lines:
            self._out, self._sent = b"\n".join([self._out[self._sent :] + lines[0], *lines[1:], b""]), 0
        self._owed += len(lines)
        try:
            self._go_on(stale, heard, until)
        except BaseException:
            self._forget_unsent()
            raise

    def _go_on(self, stale: int, heard: Heard, until: Optional[float]) -> None:
        """Sends what is unsent, and reads until nothing is owed. Drops the first `stale` replies."""
        view = memoryview(self._out)
        while self._owed:
            if self._sent < len(view):
                self._sent += self._guarded(self._write, view[self._sent : self._sent + WRITTEN])
            self._await(until)
            data = self._guarded(self._read)
            if data is None:
                continue
            if not data:
                self._end(self._why_ended())
            replies = self._split(data)
            self._owed -= len(replies)
            dropped = min(stale, len(replies))
            stale -= dropped
            if len(replies) > dropped:
                heard(replies[dropped:] if dropped else replies)

    def _forget_unsent(self) -> None:
        """Forgets the lines of which nothing was sent."""
        is_inside = 0 < self._sent and self._out[self._sent - 1 : self._sent] != b"\n"
        end = self._out.find(b"\n", self._sent) + 1 if is_inside else self._sent
        self._owed -= self._out.count(b"\n", end)
        self._out = self._out[:end]

    def close(self) -> None:
        """Ends the channel. A second time it does nothing."""
        if self._ended is None:
            self._ended = "This machine was closed."
            self._close()

    def __del__(self) -> None:
        try:
            self.close()
        except Exception:
            pass

    def _split(self, data: bytes) -> list[bytes]:
        """The replies that these data complete, without LF. A last part is kept for the next data. Raises `Lost` if
        there are more than are owed."""
        replies = data.split(b"\n")
        last = replies.pop()
        if replies and self._half:
            replies[0] = b"".join([*self._half, replies[0]])
            self._half = []
        if last:
            self._half.append(last)
        if len(replies) > self._owed:
            self._end("There was a reply to a line that was not sent. Does cam6 really run there?")
        return replies

    def _guarded(self, act: Callable[..., Any], *args: Any) -> Any:
        """Calls a function of the system. If it fails, ends the channel and raises `Lost`."""
        try:
            return act(*args)
        except OSError as cause:
            return self._end(self._why_broken(cause))

    def _end(self, sentence: str) -> None:
        """Closes the channel for good, and raises `Lost` with this sentence."""
        self._ended = sentence
        self._close()
        raise Lost(sentence)

    def _await(self, until: Optional[float]) -> None:
        """Waits until something can be read, or written if something is unsent. Ends the channel and raises `Lost` if
        `until` passes."""
        left = None if until is None or until == float("inf") else until - time.monotonic()
        if left is not None and left <= 0 or not self._wait(self._sent < len(self._out), left):
            self._end("No reply came in time.")

    # What each kind of channel does its own way.
    def _write(self, data: memoryview) -> int:
        """Writes some of the bytes, and returns how many: 0 if none can be written now."""
        raise NotImplementedError

    def _read(self) -> Optional[bytes]:
        """Reads what is there: b"" at the end of all, None if there is nothing yet."""
        raise NotImplementedError

    def _wait(self, is_writing: bool, seconds: Optional[float]) -> bool:
        """Waits for some seconds at most. Returns whether it can read, or write if `is_writing`."""
        raise NotImplementedError

    def _close(self) -> None:
        """Frees what the system holds for the channel."""
        raise NotImplementedError

    def _why_ended(self) -> str:
        """The sentence for an end of the other side."""
        return "The host closed the connection."

    def _why_broken(self, cause: OSError) -> str:
        """The sentence for an error of the system."""
        return f"The connection broke: {cause.strerror or cause}."


def can_go_on(reads: int, writes: int, is_writing: bool, seconds: Optional[float]) -> bool:
    """Whether the file `reads` can be read, or `writes` written if `is_writing`, within some seconds (None: without
    end). Both are descriptors, and may be the same."""
    if not hasattr(select, "poll"):
        ready = select.select([reads], [writes] if is_writing else [], [], seconds)
        return any(ready)
    poll = select.poll()
    poll.register(reads, select.POLLIN | (select.POLLOUT if is_writing and reads == writes else 0))
    if is_writing and reads != writes:
        poll.register(writes, select.POLLOUT)
    return bool(poll.poll(None if seconds is None else max(1, int(seconds * 1000))))


class Process(Channel):
    """A program that reads lines from its standard input, and writes replies to its standard output."""

    def __init__(self, words: Sequence[str], deadline: Optional[float] = None) -> None:
        super().__init__()
        self._deadline = deadline
        self._ended = "This program was not started."
        self._errors: IO[bytes] = tempfile.TemporaryFile()
        try:
            self._process = subprocess.Popen(
                words, stdin=subprocess.PIPE, stdout=subprocess.PIPE, stderr=self._errors, bufsize=0
            )
        except OSError as cause:
            self._errors.close()
            raise Lost(why_not_started(words[0], cause)) from cause
        assert self._process.stdin and self._process.stdout
        self._to, self._from = self._process.stdin, self._process.stdout
        self._writes, self._reads = self._to.fileno(), self._from.fileno()
        os.set_blocking(self._writes, False)
        os.set_blocking(self._reads, False)
        self._ended = None

    def _write(self, data: memoryview) -> int:
        """Writes to the program's input, and returns how many bytes. Bytes for a program that has ended count as
        written."""
        try:
            return os.write(self._writes, data)
        except BlockingIOError:
            return 0
        except BrokenPipeError:
            return len(data)  # What the program wrote before it ended, and its status, is read next.

    def _read(self) -> Optional[bytes]:
        """Reads the program's output: b"" at its end, None if there is nothing yet."""
        try:
            return os.read(self._reads, READ)
        except BlockingIOError:
            return None

    def _wait(self, is_writing: bool, seconds: Optional[float]) -> bool:
        """Waits for the program's input or output."""
        return can_go_on(self._reads, self._writes, is_writing, seconds)

    def _close(self) -> None:
        """Closes both pipes, and kills the program if it does not end within 5 seconds."""
        self._to.close()
        self._from.close()
        try:
            self._process.wait(TO_END)
        except subprocess.TimeoutExpired:
            self._process.kill()
            self._process.wait()
        self._errors.close()

    def _why_ended(self) -> str:
        """The sentence for its end: with which status it ended, and what it wrote to its errors."""
        try:
            status = self._process.wait(TO_END)
        except subprocess.TimeoutExpired:
            return "The program closed its output."
        self._errors.seek(0)
        text = self._errors.read(2000).decode("utf-8", "replace").strip()
        why = STATUSES.get(status, f"signal {-status}" if status < 0 else "")
        return f"The program ended with status {status}" + (f" ({why})" if why else "") + (f": {text}" if text else ".")


def why_not_started(program: str, cause: OSError) -> str:
    """Why a program can't be started, and what to do."""
    how = "./build builds it. Pass its path, as in cam6.local('path/to/cam6')."
    if isinstance(cause, FileNotFoundError):
        place = "" if os.path.dirname(program) else " on the PATH"
        return f"There is no program {program!r}{place}. {how}"
    if isinstance(cause, PermissionError):
        return f"The file {program!r} may not be run as a program. {how}"
    return f"The program {program!r} can't be started: {cause.strerror or cause}. {how}"


class Connection(Channel):
    """A connection over TCP, with TLS or without."""

    def __init__(self, stream: Union[socket.socket, ssl.SSLSocket]) -> None:
        super().__init__()
        self._stream = stream
        stream.setsockopt(socket.IPPROTO_TCP, socket.TCP_NODELAY, 1)
        stream.setsockopt(socket.SOL_SOCKET, socket.SO_KEEPALIVE, 1)
        for name, value in KEEP_ALIVE:
            if hasattr(socket, name):
                stream.setsockopt(socket.IPPROTO_TCP, getattr(socket, name), value)
        stream.setblocking(False)

    def _write(self, data: memoryview) -> int:
        """Sends to the host, and returns how many bytes. Bytes for a connection that was reset count as sent."""
        try:
            return self._stream.send(data)
        except (BlockingIOError, ssl.SSLWantReadError, ssl.SSLWantWriteError):
            return 0
        except (BrokenPipeError, ConnectionResetError):
            return len(data)  # What the host wrote before it closed is read next.

    def _read(self) -> Optional[bytes]:
        """Reads what the host sent, with what TLS has buffered: b"" at the end, None if there is nothing yet."""
        try:
            data = self._stream.recv(READ)
            while data and isinstance(self._stream, ssl.SSLSocket) and self._stream.pending():
                data += self._stream.recv(READ)  # TLS keeps the rest of a record, and `_wait` would not see it.
            return data
        except (BlockingIOError, ssl.SSLWantReadError, ssl.SSLWantWriteError):
            return None

    def _wait(self, is_writing: bool, seconds: Optional[float]) -> bool:
        """Waits for the socket."""
        number = self._stream.fileno()
        return can_go_on(number, number, is_writing, seconds)

    def _close(self) -> None:
        """Closes the socket."""
        self._stream.close()


def open_connection(
    address: tuple[str, int], tls: Union[None, bool, ssl.SSLContext], server_name: Optional[str], seconds: float
) -> Connection:
    """Opens a connection to a host and a port, within `seconds`, at most 5. `tls` is as for `connect`. The
    certificate's name is `server_name`, or the host's if that is None. Raises `Lost`, and says what to do."""
    try:
        stream = socket.create_connection(address, timeout=min(TO_CONNECT, seconds))
    except OSError as cause:
        raise Lost(why_not_connected(address, cause)) from cause
    if not tls:
        return Connection(stream)
    context = ssl.create_default_context() if tls is True else tls
    try:
        return Connection(context.wrap_socket(stream, server_hostname=server_name or address[0]))
    except (OSError, ValueError) as cause:
        stream.close()
        raise Lost(f"TLS with {address[0]}:{address[1]} failed: {cause}.") from cause


def why_not_connected(address: tuple[str, int], cause: OSError) -> str:
    """Why an address can't be connected to, and what to do."""
    host, port = address
    if isinstance(cause, ConnectionRefusedError):
        return f"Nothing listens at {host}:{port}. Start a host there: cam6 serve --port {port}"
    if isinstance(cause, socket.gaierror):
        return f"The name {host!r} is not known: {cause.strerror}. Check its spelling."
    if isinstance(cause, (socket.timeout, TimeoutError)):
        return f"{host}:{port} does not answer. Check the address, and whether a firewall is between."
    return f"{host}:{port} can't be reached: {cause.strerror or cause}."
