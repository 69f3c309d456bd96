"""A session of the Python client in a process of its own: random commands until it is over, and a last save. If its
process was killed it goes on with its journal. The journal says which of the last commands count.

What it sent and got is in its record, a file of a JSON object a line, which stays if the process is killed:

    {"ask":[..]}                         these lines are about to be sent
    {"got":[..],"seconds":s,             their replies, how long they took, how many new seats were taken meanwhile, and how many
     "seats":n,"again":n}                commands were played again there
    {"kept":n,"got":[..]}                the process was killed amid lines, of which the first n count; their replies, null where
                                         nobody read one
    {"end":true}                         the session has ended by itself
"""

from __future__ import annotations

import json
import random
import re
import ssl
import sys
import time
from collections.abc import Iterable
from dataclasses import dataclass, field
from pathlib import Path
from typing import Any

import cam6
from cam6.sessions import Session

from .commands import SAVE, Commands


def texts(lines: Iterable[bytes]) -> list[str]:
    """Lines, which may have any bytes, as texts that fit into JSON: a letter for each byte (latin-1)."""
    return [line.decode("latin-1") for line in lines]


@dataclass
class Played:
    """A whole record: each line with its reply, which is None where nobody read it; the seconds of calls with a new seat;
    how many new seats there were, and commands that were played again; whether the session ended by itself; and the lines
    that were asked last without an answer."""

    lines: list[tuple[bytes, str | None]] = field(default_factory=list)
    waits: list[float] = field(default_factory=list)
    seats: int = 0
    again: int = 0
    has_ended: bool = False
    asked: list[bytes] = field(default_factory=list)


def read(path: Path) -> Played:
    """Reads a record. If there is none, it is empty. A last row without its LF is left out."""
    played = Played()
    for row in map(json.loads, path.read_bytes().split(b"\n")[:-1] if path.exists() else []):
        if "ask" in row:
            played.asked = [line.encode("latin-1") for line in row["ask"]]
        elif "end" in row:
            played.has_ended = True
        else:
            played.lines += zip(played.asked[: row.get("kept", len(played.asked))], row["got"])
            played.asked = []
            played.seats += row.get("seats", 0)
            played.again += row.get("again", 0)
            played.waits += [row["seconds"]] if row.get("seats") else []
    return played


@dataclass(frozen=True)
class Player:
    """What a session is to do: the arguments of `cam6.connect`, TLS by an authority, if any, and how it plays."""

    how: dict[str, Any]
    authority: str
    seed: int
    is_small: bool
    pause: float
    record: str
    over: str

    def write(self, **row: Any) -> None:
        """Adds a row to the record."""
        with open(self.record, "ab", buffering=0) as file:
            file.write(json.dumps(row).encode() + b"\n")

    def resume(self, session: Session, before: Played) -> list[bytes]:
        """Notes what became of the lines amid which the process was killed. Returns those that don't count yet."""
        kept, asked, known = session.asked - len(before.lines), before.asked, session.resumed
        assert 0 <= kept <= len(asked), f"{session.asked} are in the journal, {len(before.lines)} and {len(asked)} here"
        are_these = all(is_left_of(line, whole) for (line, _), whole in zip(known, asked[kept - len(known) : kept]))
        assert are_these, "the journal has other commands without an answer than those that were asked for last"
        self.write(kept=kept, got=[None] * (kept - len(known)) + texts(reply for _, reply in known))
        return asked[kept:]

    def ask(self, machine: cam6.Machine, session: Session, sent: list[bytes]) -> list[bytes]:
        """Sends lines at once, and returns their replies. Writes lines to the record first, and replies at the end."""
        self.write(ask=texts(sent))
        seats, again, begun = session.recoveries, session.replayed, time.monotonic()
        replies = machine._query(sent)
        seconds, seats, again = time.monotonic() - begun, session.recoveries - seats, session.replayed - again
        self.write(got=texts(replies), seconds=seconds, seats=seats, again=again)
        return replies

    def play(self) -> None:
        """Plays until the file `over` is there, saves, and writes the end to the record."""
        is_new, before = not Path(self.record).exists(), read(Path(self.record))
        # A process that goes on has other commands.
        commands, pauses = Commands(self.seed * 1_000_000 + len(before.lines), self.is_small), random.Random(self.seed)
        tls = ssl.create_default_context(cafile=self.authority) if self.authority else None
        with cam6.connect(**self.how, tls=tls) as machine:
            session = machine.session
            assert session
            left = [] if is_new else self.resume(session, before)
            sent = left or commands.some()
            while sent:
                commands.keep_saved(self.ask(machine, session, sent))
                commands.side = session.journal.side
                time.sleep(pauses.uniform(0, 2 * self.pause))
                sent = [] if Path(self.over).exists() else commands.some()
            self.ask(machine, session, [SAVE])
            self.write(end=True)


def is_left_of(line: bytes, whole: bytes) -> bool:
    """Whether a line of the journal is the one that was asked for, or what is left of its steps."""
    left, of = (re.fullmatch(rb'\{"do":"(run|back)","n":(\d+)\}', text) for text in (line, whole))
    return line == whole or bool(left and of and left[1] == of[1] and int(left[2]) < int(of[2]))


if __name__ == "__main__":
    Player(**json.loads(sys.argv[1])).play()
