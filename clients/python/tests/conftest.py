"""Fixtures of the client's tests: its machines, and hosts that break."""

from __future__ import annotations

from collections.abc import Callable, Iterator
from contextlib import ExitStack
from pathlib import Path
from typing import Any

import pytest
from fakes import Breaking

from cam6 import Machine, connect, local

# Its assertions show both sides, as those of tests do.
pytest.register_assert_rewrite("calls")


@pytest.fixture(name="local")
def local_machines(cam6: str) -> Iterator[Callable[..., Machine]]:
    """Starts `cam6 alone` as `cam6.local` does, as often as it is called: `local(side_limit=128)`."""
    with ExitStack() as stack:
        yield lambda **options: stack.enter_context(local(cam6, **options))


@pytest.fixture
def machine(cam6: str) -> Iterator[Machine]:
    """A private machine of side 128."""
    with local(cam6, side_limit=128) as it:
        yield it


@pytest.fixture
def breaking() -> Iterator[Callable[..., Breaking]]:
    """Starts a host of oracle machines that breaks, as often as it is called."""
    with ExitStack() as stack:
        yield lambda *options, **more: stack.enter_context(Breaking(*options, **more))


@pytest.fixture
def connected() -> Iterator[Callable[..., Machine]]:
    """Connects with a journal to a port of this computer, as often as it is called: `connected(port, deadline=2)`."""
    usual: dict[str, Any] = {"journal": ":memory:", "limit": 128, "every_seconds": 0.01, "deadline": 20}
    with ExitStack() as stack:
        yield lambda port, **options: stack.enter_context(connect("127.0.0.1", port, **{**usual, **options}))


@pytest.fixture
def port(breaking: Callable[..., Breaking]) -> int:
    """The port of a host that does not break."""
    return breaking().port


@pytest.fixture
def path(tmp_path: Path) -> Path:
    """The path of a journal that is not there yet."""
    return tmp_path / "journal"
