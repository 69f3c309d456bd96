"""The helpers of the tests find what they are there to find."""

from __future__ import annotations

import re
from collections.abc import Callable
from pathlib import Path

import pytest
from support.programs import Host, Page, Peer, Ran, private
from support.sessions import assert_replies


def test_a_host_begins_again_at_its_port_and_a_page_listens(
    host: Callable[..., Host], page: Callable[..., Page]
) -> None:
    one = host("--connections=1")
    with Peer(one.port, 1) as peer:
        assert peer.reply == '{"ok":"seat"}'
    assert one.ended() == Ran(0, b"", b"")
    one.begin()
    assert one.is_running() and page().is_running()


def test_a_private_machine_replies(cam6: str) -> None:
    assert private(cam6, ['{"do":"rules"}', "{"]) == ['{"names":[],"ok":"rules"}', '{"fault":2}']


def test_a_session_that_fails_is_shown() -> None:
    sent = ['{"do":"rules"}', "{}", "["]
    with pytest.raises(AssertionError, match=r"reply 2 of 3 to '\{\}'\n  is     'b'") as raised:
        assert_replies(sent, ["a", "b", "c"], ["a", "B", "c"])
    assert str(raised.value).endswith('.lines:\n{"do":"rules"}\n{}')
    file = re.search(r"to be piped into ./cam6 alone, is (.*):$", str(raised.value), re.M)
    assert file and Path(file[1]).read_bytes() == b'{"do":"rules"}\n{}\n'
    with pytest.raises(AssertionError, match="is     nothing"):
        assert_replies(sent, ["a", "b"], ["a", "b", "c"])
    assert_replies(sent, ["a", "b", "c"], ["a", "b", "c"])


def test_a_long_line_is_shown_where_it_differs() -> None:
    sent, long = [b"\xff"], "0" * 5000
    with pytest.raises(AssertionError, match=r"is     \.\. 0+0x0+ \.\.\n  wanted \.\. 0+0y0+ \.\.") as raised:
        assert_replies(sent, [f"{long}x{long}"], [f"{long}y{long}"])
    assert len(str(raised.value)) < 1000 and r"\xff" in str(raised.value)
    with pytest.raises(AssertionError, match=r"is     \.\. 0+'\n  wanted \.\. 0+y'\n"):
        assert_replies(sent, [f"{long}"], [f"{long}y"])
