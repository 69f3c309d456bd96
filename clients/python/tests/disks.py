"""A disk on which the journal's files are, of a computer that can fail at each act and each byte.

What stands for `open` and for the module `os` in `cam6.journal` keeps files in a folder, and what of them is on the disk.
"""

from __future__ import annotations

import os
from collections.abc import Iterator
from contextlib import contextmanager
from dataclasses import dataclass
from errno import ENOSPC
from pathlib import Path
from typing import IO, Any, Optional
from unittest import mock

from cam6 import journal


class Crash(BaseException):
    """The program has ended in the middle of what it did."""


@dataclass(frozen=True)
class Failure:
    """What fails, and when: the act `at`, counted from 0. Acts are writes, cuts, renames, and syncs of a file or a folder.

    A write is done up to its byte `cut`, as Python cuts it. Nothing is done of another act, unless it is interrupted.

    - `"kill"` ends the program.
    - `"power"` ends the computer. Of what was not synced, `kept` bytes are kept, and the first `renames` renames.
    - `"error"` is an `OSError`, and the program goes on.
    - `"interrupt"` is a `KeyboardInterrupt` after the act, and the program goes on.
    """

    at: int
    cut: int = 0
    kind: str = "kill"
    kept: int = 0
    renames: int = 0


@dataclass
class Content:
    """How much of a file's content is on the disk."""

    synced: int = 0


class File:
    """A file that is open."""

    def __init__(self, disk: Disk, file: IO[bytes], content: Content) -> None:
        self.disk, self.file, self.content = disk, file, content

    def write(self, data: bytes) -> int:
        """Writes data, or as much of it as comes before a failure."""
        failure = self.disk.count_act()
        if failure:
            self.file.write(data[: failure.cut])
            raise self.disk.error_of(failure)
        return self.file.write(data)

    def truncate(self, size: int) -> int:
        """Cuts the file."""
        with self.disk.act():
            self.content.synced = min(self.content.synced, size)
            return self.file.truncate(size)

    def __getattr__(self, name: str) -> Any:
        return getattr(self.file, name)


class Disk:
    """The files of the journal at a path. `failure` is the next failure, and `ended` the one that ended the program."""

    def __init__(self, path: Path) -> None:
        self.path = path
        self.contents: dict[str, Content] = {}
        self.files: list[File] = []
        self.failure: Optional[Failure] = None
        self.ended: Optional[Failure] = None
        # What the journal's name led to before a rename that is not on the disk yet: its data, or None if there was none.
        self.before: list[tuple[Optional[bytes], Content]] = []
        self.count = 0

    @contextmanager
    def used(self) -> Iterator[None]:
        """Has `cam6.journal` use this disk within the context."""
        with mock.patch.object(journal, "open", self.open, create=True):
            with mock.patch.object(journal, "os", System(self)):
                yield

    def begin(self, failure: Optional[Failure]) -> None:
        """Begins a program on this disk, in which this failure is to happen."""
        self.failure, self.ended, self.count = failure, None, 0

    def count_act(self) -> Optional[Failure]:
        """Counts an act. Returns the failure that happens in it, if one does. Raises `Crash` after the end."""
        if self.ended:
            raise Crash
        self.count += 1
        return self.failure if self.failure and self.count > self.failure.at else None

    def error_of(self, failure: Failure) -> BaseException:
        """Lets a failure happen, and returns the exception to raise."""
        self.failure = None
        if failure.kind == "error":
            return OSError(ENOSPC, "No space left on device")
        if failure.kind == "interrupt":
            return KeyboardInterrupt()
        self.ended = failure
        return Crash()

    @contextmanager
    def act(self) -> Iterator[None]:
        """Counts an act that is done whole, or not at all."""
        failure = self.count_act()
        if failure and failure.kind != "interrupt":
            raise self.error_of(failure)
        yield
        if failure:
            raise self.error_of(failure)

    def open(self, path: str, mode: str, buffering: int = -1) -> File:
        """Opens a file."""
        content = self.contents.setdefault(path, Content())
        self.files.append(File(self, open(path, mode, buffering=buffering), content))
        return self.files[-1]

    def end(self) -> None:
        """Ends the program: closes its files. If the power failed, loses what is not on the disk."""
        for file in self.files:
            getattr(file.file, "raw", file.file).close()  # What is in a buffer is lost.
        self.files.clear()
        if self.ended and self.ended.kind == "power":
            self.lose(self.ended)

    def left(self, kept: int, renames: int) -> Optional[bytes]:
        """What the journal's file would have if the computer ended now, or None if there would be none."""
        now = self.path.read_bytes() if self.path.exists() else None
        data, content = [*self.before, (now, self.contents.get(str(self.path), Content()))][: renames + 1][-1]
        return None if data is None else data[: content.synced + kept]

    def lose(self, failure: Failure) -> None:
        """Cuts the journal to what is on the disk, and to as much of the rest as the failure leaves."""
        data = self.left(failure.kept, failure.renames)
        self.before.clear()
        self.path.unlink(missing_ok=True)
        if data is not None:
            self.path.write_bytes(data)
            self.contents[str(self.path)] = Content(len(data))


class System:
    """The module `os`, on a disk."""

    def __init__(self, disk: Disk) -> None:
        self.disk = disk

    def fsync(self, number: int) -> None:
        """Notes that the content of a file is on the disk, or the names of the folder. Does nothing after the end."""
        if self.disk.ended:
            return
        with self.disk.act():
            synced = [file for file in self.disk.files if not file.file.closed and file.fileno() == number]
            for file in synced:
                file.content.synced = os.fstat(number).st_size
            if not synced:
                self.disk.before.clear()

    def replace(self, new: str, path: str) -> None:
        """Renames a file."""
        disk = self.disk
        with disk.act():
            old = disk.path.read_bytes() if disk.path.exists() else None
            disk.before.append((old, disk.contents.get(path, Content())))
            os.replace(new, path)
            disk.contents[path] = disk.contents.pop(new)

    def __getattr__(self, name: str) -> Any:
        return getattr(os, name)
