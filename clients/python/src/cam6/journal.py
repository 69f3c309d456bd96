"""A journal: a machine that was saved, the commands that changed it since, and those that are not answered yet.

Together they are the machine that counts. It can be built again at any seat of any host that has the same limit.

A journal in a file has one JSON object a line:

    {"journal":1,"limit":256,"number":12,"load":L,"done":[[C,R],..],"ask":[C,..]}

        begins each journal. It has all that was known when the file was written anew: the load line L, the commands that
        changed the machine since then with their replies, and those without an answer, after 12 others in all

    {"ask":C}                 the command C is about to be sent
    {"part":C,"reply":R}      some steps of the first command without an answer were done by C
    {"reply":R}               the first command without an answer has the reply R
    {"reply":null}            the same, of a command that changed nothing
    {"drop":n}                the n commands without an answer were given up, and don't count

A command is written before it is sent. If the program or the computer stops, the last line may be torn. It is cut off
when the file is opened. A checkpoint writes a new file beside the old one, and then takes its place.
"""

from __future__ import annotations

import json
import os
from collections import deque
from collections.abc import Sequence
from typing import IO, Any, Optional

from . import lines
from .errors import BadJournal, command_of

MEMORY = ":memory:"
SYNCS = ("none", "checkpoint", "each")


class Journal:
    """What is known of the machine that counts.

    `load` is the load line, `tail` the commands since then with their replies, and `pending` the commands without an
    answer. `number` counts the commands that were asked for, from the journal's beginning.

    `sync` says when the system has to have written a file to its disk: `none` never, `checkpoint` at checkpoints and as
    the file is opened, and `each` also before commands are sent. Whatever it is, nothing is lost if only the program
    ends.
    """

    def __init__(self, path: Optional[str], sync: str, limit: int) -> None:
        self.path, self.sync, self.limit = path, sync, limit
        self.load = lines.blank(min(256, limit))
        self.tail: list[tuple[bytes, bytes]] = []
        self.pending: deque[bytes] = deque()
        self.number = 0
        self.size = 0
        self._file: Optional[IO[bytes]] = None
        # Whether the file lacks what is known here, or may be another one after a crash, since a write or a sync failed.
        self._is_stale = False
        if path is not None:
            try:
                self._open(path)
            except BaseException:
                self._close()
                raise

    @property
    def side(self) -> int:
        """The side of the machine that the journal rebuilds: that of the last `side` command done since the load line,
        else the load line's."""
        sides = (command_of(line).get("side") for line, reply in reversed(self.tail) if reply == b'{"ok":"side"}')
        return int(next(sides, None) or lines.side_of_load(self.load))

    def _open(self, path: str) -> None:
        """Reads the journal that is there, or begins one."""
        if not os.path.exists(path) or os.path.getsize(path) == 0:
            self._rewrite()
            return
        self._file = open(path, "r+b", buffering=0)
        lock(self._file, path)
        if os.fstat(self._file.fileno()).st_ino != os.stat(path).st_ino:
            raise BadJournal(f"The journal {path!r} is open in another program. End that one first.")
        good = self._read(self._file.read(), path)
        self._file.truncate(good)
        self._file.seek(good)
        if self.sync != "none":
            # The last program may have ended before its syncs. What it asked for is sent next.
            os.fsync(self._file.fileno())
            sync_folder(os.path.dirname(path) or ".")
        self.size = good

    def _read(self, data: bytes, path: str) -> int:
        """Takes up what whole lines say. Returns how many bytes these are. Raises `BadJournal` if one is not of a
        journal, or if the limit is another one."""
        whole = data.rfind(b"\n") + 1
        rows = data[:whole].split(b"\n")[:-1]
        if not rows:
            raise BadJournal(f"{path!r} is no journal: it has no whole line. It stays as it is.")
        limit = self.limit
        for place, row in enumerate(rows, 1):
            try:
                self._take(json.loads(row), place == 1)
            except (ValueError, LookupError, TypeError, AttributeError, OverflowError, RecursionError):
                what = "is no journal" if place == 1 else "is damaged"
                raise BadJournal(f"{path!r} {what}: line {place} is not one of a journal. It stays as it is.") from None
        if self.limit != limit:
            raise BadJournal(
                f"{path!r} is the journal of a machine with the limit {self.limit}: say limit={self.limit}."
            )
        return whole

    def _take(self, entry: dict[str, Any], is_first: bool) -> None:
        """Applies a line of the file to the state in memory. Raises an error if it is none of a journal."""
        if is_first:
            if entry["journal"] != 1 or entry["limit"] not in (128, 256, 512):
                raise ValueError
            self.limit, self.load = int(entry["limit"]), bytes_of(entry["load"])
            if not self.load.startswith(lines.LOAD_HEAD):
                raise ValueError
            self.tail = [(bytes_of(command), bytes_of(reply)) for command, reply in entry.get("done", [])]
            self.pending.extend(bytes_of(command) for command in entry.get("ask", []))
            self.number = int(entry["number"]) + len(self.pending)
        elif "ask" in entry:
            self.pending.append(bytes_of(entry["ask"]))
            self.number += 1
        elif "part" in entry:
            self._apply_part(bytes_of(entry["part"]), bytes_of(entry["reply"]))
        elif "done" in entry:
            # A command that changed the machine, of a file that an earlier version wrote anew.
            self.tail.append((bytes_of(entry["done"]), bytes_of(entry["reply"])))
        elif "drop" in entry:
            self._apply_drop(int(entry["drop"]))
        else:
            self._apply_reply(None if entry["reply"] is None else bytes_of(entry["reply"]))

    # What happens, in memory

    def _apply_part(self, line: bytes, reply: bytes) -> None:
        """Moves some steps of the first pending command to the tail."""
        self.tail.append((line, reply))
        self.pending[0] = rest_of(self.pending[0], line)

    def _apply_reply(self, reply: Optional[bytes]) -> None:
        """Moves the first pending command to the tail, unless it changed nothing (None). A load empties the tail."""
        line = self.pending.popleft()
        if reply == lines.LOADED:
            self.load, self.tail = line, []
        elif reply is not None:
            self.tail.append((line, reply))

    def _apply_drop(self, count: int) -> None:
        """Forgets all pending commands, of which there must be `count`."""
        if count != len(self.pending):
            raise ValueError
        self.pending.clear()
        self.number -= count

    # What happens, in memory and in the file

    def record_commands(self, commands: Sequence[bytes]) -> None:
        """Notes commands before they are sent. Raises `OSError` if they can't be written, and then nothing is noted."""
        self._write([{"ask": text_of(command)} for command in commands], self.sync == "each", is_known=False)
        self.pending.extend(commands)
        self.number += len(commands)

    def record_part(self, line: bytes, reply: bytes) -> None:
        """Notes that some steps of the first pending command were done: by the line `line`, with this reply. The rest
        stays pending."""
        self._apply_part(line, reply)
        self._write([{"part": text_of(line), "reply": text_of(reply)}], False)

    def record_replies(self, replies: Sequence[bytes]) -> None:
        """Notes replies to the first pending commands, one each, in order. These are not pending after that."""
        rows = []
        for reply in replies:
            kept = reply if reply.startswith(lines.CHANGES) else None
            self._apply_reply(kept)
            rows.append({"reply": None if kept is None else text_of(kept)})
        self._write(rows, False)

    def drop_pending(self) -> list[bytes]:
        """Gives all pending commands up, and returns them in order. They count as never asked for."""
        dropped = list(self.pending)
        if dropped:
            self._apply_drop(len(dropped))
            self._write([{"drop": len(dropped)}], self.sync != "none")
        return dropped

    def checkpoint(self, load: bytes) -> None:
        """Replaces the saved machine and the commands since by this load line. Pending commands stay."""
        self.load, self.tail = load, []
        if self._file:
            self._rewrite()
        self.size = 0

    def close(self) -> None:
        """Writes the file to its disk, unless `sync` is `none`, and closes it."""
        try:
            if self._file and self.sync != "none":
                os.fsync(self._file.fileno())
        finally:
            self._close()

    def _close(self) -> None:
        """Closes the file, if there is one, without syncing it to the disk."""
        if self._file:
            self._file.close()
            self._file = None

    def _write(self, rows: list[dict[str, Any]], is_synced: bool, is_known: bool = True) -> None:
        """Appends lines to the file, if there is one, and syncs it if `is_synced`. A stale file is written anew first,
        and that is all if memory has what they say already (`is_known`)."""
        if self._file is None:
            return
        if self._is_stale:
            self._rewrite()
            if is_known:
                return
        data = b"".join(lines.compact(row) + b"\n" for row in rows)
        try:
            written = self._file.write(data)
            while written < len(data):
                written += self._file.write(data[written:])
            if is_synced:
                os.fsync(self._file.fileno())
        except BaseException:
            self._is_stale = True
            raise
        self.size += len(data)

    def _rewrite(self) -> None:
        """Begins the file anew: beside the old one, so that one of them is whole at any time."""
        assert self.path is not None
        new = open(self.path + ".new", "a+b", buffering=0)
        try:
            lock(new, self.path)
            new.truncate(0)
            data = lines.compact(self._first_line()) + b"\n"
            if new.write(data) != len(data):
                raise OSError(f"the journal {self.path!r} can't be written whole: is the disk full?")
            if self.sync != "none":
                os.fsync(new.fileno())
            # Until the new name is on the disk the old file may come back, without what is written from now on.
            self._is_stale = True
            os.replace(self.path + ".new", self.path)
        except BaseException:
            new.close()
            raise
        self._close()
        self._file = new
        if self.sync != "none":
            sync_folder(os.path.dirname(self.path) or ".")
        self._is_stale = False

    def _first_line(self) -> dict[str, Any]:
        """All that is known, as the first line of a file. So a file that is cut has all of it, or is no journal."""
        return {
            "journal": 1,
            "limit": self.limit,
            "number": self.number - len(self.pending),
            "load": text_of(self.load),
            "done": [[text_of(command), text_of(reply)] for command, reply in self.tail],
            "ask": [text_of(command) for command in self.pending],
        }


def rest_of(line: bytes, part: bytes) -> bytes:
    """The line of the steps that are left of the line `line` after those of `part`. Raises `ValueError` if they are no
    lines of steps one way, or `part` has more."""
    whole, done = lines.STEPS.fullmatch(line), lines.STEPS.fullmatch(part)
    if not whole or not done or whole[1] != done[1] or int(done[2]) > int(whole[2]):
        raise ValueError
    return lines.steps_line(whole[1], int(whole[2]) - int(done[2]))


def text_of(data: bytes) -> str:
    """Bytes as a text that JSON can say, also if they are no UTF-8."""
    return data.decode("utf-8", "surrogateescape") if data.isascii() else data.decode("latin-1").translate(_SHIFTED)


def bytes_of(text: str) -> bytes:
    """The bytes of which `text_of` made this text."""
    return text.translate(_SHIFTED_BACK).encode("latin-1")


# Bytes above 127 stand as the characters U+E080 to U+E0FF, which mean nothing, so that each text is valid UTF-8.
_SHIFTED = {byte: 0xE000 + byte for byte in range(128, 256)}
_SHIFTED_BACK = {0xE000 + byte: byte for byte in range(128, 256)}


def lock(file: IO[bytes], path: str) -> None:
    """Keeps other programs from the file until it is closed. Raises `BadJournal`, which names `path`, if one has it.
    Does nothing on a system without `fcntl`."""
    try:
        import fcntl
    except ImportError:
        return
    try:
        fcntl.flock(file.fileno(), fcntl.LOCK_EX | fcntl.LOCK_NB)
    except OSError:
        raise BadJournal(f"The journal {path!r} is open in another program. End that one first.") from None


def sync_folder(path: str) -> None:
    """Has the system write the names in a folder to its disk."""
    number = os.open(path, os.O_RDONLY)
    try:
        os.fsync(number)
    finally:
        os.close(number)
