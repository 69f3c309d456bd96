"""Sessions that are compared. One that fails is shown as lines that can be piped into `./cam6`."""

from __future__ import annotations

import json
import os
import tempfile
import zlib
from collections.abc import Sequence
from itertools import zip_longest
from pathlib import Path
from typing import Any

# The most characters of a line that are shown.
SHOWN = 300


def line_of(**command: Any) -> str:
    """The line of a command, as compact as it can be: `line_of(do="run", n=1)`."""
    return json.dumps(command, separators=(",", ":"), ensure_ascii=False)


def short(line: object, first: int = 0) -> str:
    """At most `SHOWN` characters of a line's `repr`, from character `first` on. `...` is no line."""
    text = "nothing" if line is ... else repr(line)
    return f"{'.. ' * (first > 0)}{text[first : first + SHOWN]}{' ..' * (len(text) > first + SHOWN)}"


def show_both(came: object, wanted: object) -> str:
    """What came and what is wanted, as far as they are shown: around the first character that differs."""
    pairs = enumerate(zip_longest(repr(came), repr(wanted)))
    place = next((place for place, (one, other) in pairs if one != other), 0)
    first = 0 if place < SHOWN else place - SHOWN // 2
    return f"  is     {short(came, first)}\n  wanted {short(wanted, first)}"


def write_session(sent: bytes) -> Path:
    """Writes what was sent to a file, and returns its path. Each test has one file, in which the shortest session found
    comes last."""
    test = zlib.crc32(os.environ.get("PYTEST_CURRENT_TEST", "").encode())
    path = Path(tempfile.gettempdir(), f"cam6-session-{os.getpid()}-{test:08x}.lines")
    path.write_bytes(sent)
    return path


def assert_replies(
    sent: Sequence[bytes | str], came: Sequence[object], wanted: Sequence[object], command: str = "./cam6 alone"
) -> None:
    """Fails if what came back differs from what is wanted. The message has the first difference, and then the lines up to
    it. A file has them too, and can be piped into the command."""
    pairs = enumerate(zip_longest(came, wanted, fillvalue=Ellipsis))
    place = next((place for place, (one, other) in pairs if one != other), None)
    if place is None:
        return
    line, one, other = (lines[place] if place < len(lines) else ... for lines in (sent, came, wanted))
    session = sent[: place + 1]
    file = write_session(b"".join((line if isinstance(line, bytes) else line.encode()) + b"\n" for line in session))
    # Bytes that are no UTF-8 are shown as `\xNN`.
    texts = (line if isinstance(line, str) else line.decode(errors="backslashreplace") for line in session)
    raise AssertionError(
        f"reply {place + 1} of {len(wanted)} to {short(line)}\n{show_both(one, other)}\n"
        f"the session, to be piped into {command}, is {file}:\n" + "\n".join(texts)
    )
