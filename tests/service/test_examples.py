"""Worked examples over connections, played at `cam6 serve`: those of crates/cam6_host/connections, each at a host of its own,
and each session over one connection. Both builds of the program play them."""

from __future__ import annotations

import re
import socket
import time
from concurrent.futures import ThreadPoolExecutor
from contextlib import ExitStack, suppress
from pathlib import Path

import pytest
from oracle.examples import Example, Part, Unplayable, limit_of
from support.playing import assert_answers, examples
from support.programs import Host, Peer

from .users import connected

# Seconds in which a whole session has to be answered.
SESSION_PATIENCE = 600
SEAT, SEATED, TAKEN = b'{"seat":%d}\n', b'{"ok":"seat"}', b'{"fault":80}'
# What an example says of a host's end, by its exit status.
ENDS = {0: b"ended", 5: b"no memory", 7: b"network failed"}


class Stream(Peer):
    """A connection that has a number in its example. If the host takes no more of what is sent, its answers show it."""

    def send(self, data: bytes | str) -> None:
        with suppress(OSError):
            super().send(data)

    def line(self) -> bytes:
        """The next line that comes back, or that there is none."""
        try:
            line = self.file.readline()
        except TimeoutError:
            return b"nothing"
        except OSError:
            line = b""
        return line[:-1] if line.endswith(b"\n") else b"end"

    def shut(self) -> bytes:
        """Says that nothing more is sent."""
        with suppress(OSError):
            self.socket.shutdown(socket.SHUT_WR)
        return b"shut"

    def do(self, rest: bytes) -> bytes:
        """What comes of something that is done at the connection."""
        word, _, text = rest.partition(b" ")
        if word in (b"send", b"part"):
            self.send(text + b"\n" if word == b"send" else text)
            return b"sent"
        if rest == b"shut":
            return self.shut()
        if word == b"slowly":
            for byte in text + b"\n":
                self.send(bytes([byte]))
                time.sleep(0.001)
        elif rest != b"read":
            self.send(rest + b"\n")
        return self.line()


def crowd(port: int, count: int, users: int) -> bytes:
    """So many connect, and then ask for the seats of so many users in turn: how many are seated, and how many hear that
    somebody has the seat, and are closed."""
    with connected(Stream, port, count) as streams:
        for number, stream in enumerate(streams):
            stream.send(SEAT % (number % users + 1))
        heard = [stream.line() for stream in streams]
        ends = [stream.line() for stream, line in zip(streams, heard) if line == TAKEN]
    return b"%d seated, %d taken" % (heard.count(SEATED), ends.count(b"end"))


def answer_to(line: bytes, host: Host, streams: dict[bytes, Stream], stack: ExitStack) -> bytes:
    """What comes back for a line, which is for a host, or for one of the streams to it. The stack closes them in the end."""
    number, _, rest = line.partition(b" ")
    if line == b"ended":
        return how_it_ends(host)
    if number == b"many":
        return crowd(host.port, *map(int, rest.split()))
    if rest != b"open" and number not in streams:
        return b"nothing"
    if rest == b"close":
        streams.pop(number).close()
        return b"closed"
    if rest != b"open":
        return streams[number].do(rest)
    try:
        streams[number] = stack.enter_context(Stream(host.port))
    except OSError:
        return b"refused"
    return b"open"


def how_it_ends(host: Host) -> bytes:
    """How a host ends, as an example says it."""
    done = host.ended()
    if done is None:
        return b"not ended"
    if done.status == 0 and (done.output or done.errors):
        return b"ended, and wrote"
    return ENDS.get(done.status, b"status %d" % done.status)


def host_answers(cam6: str, part: Part) -> bytes:
    """What comes back for lines for a host, up to the first one for which nothing comes. Its end comes in the end."""
    sizes = re.fullmatch(r"host (\d+) (\d+)(?: within (\d+))? connections (\d+)", part.way)
    if not sizes:
        raise Unplayable(f"no host: {part.way}")
    values = zip(("users", "boards", "side", "connections"), sizes.groups("256"))
    lines, answers, streams = [line for line, _ in part.sent], list[bytes](), dict[bytes, Stream]()
    lines += [] if b"ended" in lines else [b"ended"]
    with Host(cam6, *(f"--{name}={value}" for name, value in values)) as host, ExitStack() as stack:
        while lines and b"nothing" not in answers:
            answers.append(answer_to(lines.pop(0), host, streams, stack))
    return b"".join(answer + b"\n" for answer in answers)


def session_answers(cam6: str, part: Part) -> bytes:
    """What comes back after the seat, of all lines at once; and that there was no seat, or that the host didn't end well.
    It may end before it has taken all lines, and then it doesn't answer the others."""
    options = ("--users=1", "--boards=1", f"--side={limit_of(part.way)}", "--connections=1")
    heard = bytearray()
    with Host(cam6, *options) as host:
        with Stream(host.port, patience=SESSION_PATIENCE) as stream, ThreadPoolExecutor(1) as pool:
            pool.submit(stream.send, SEAT % 1 + part.bytes_sent()).add_done_callback(lambda _: stream.shut())
            with suppress(OSError):
                while more := stream.socket.recv(1 << 20):
                    heard += more
        end = how_it_ends(host)
    first, end_of_first, rest = bytes(heard).partition(b"\n")
    answers = rest if (first, end_of_first) == (SEATED, b"\n") else b"no seat\n"
    return answers if end == b"ended" else answers + b"the host: " + end + b"\n"


@pytest.mark.parametrize("path", examples("crates/cam6_host/connections"))
def test_connections(either_cam6: str, path: Path) -> None:
    example = Example(path)
    assert_answers(example, (host_answers(either_cam6, part) for part in example.parts))


@pytest.mark.parametrize("path", examples("crates/cam6_host/sessions"))
def test_a_session_over_a_connection(either_cam6: str, path: Path) -> None:
    example = Example(path)
    assert_answers(example, (session_answers(either_cam6, part) for part in example.parts))
