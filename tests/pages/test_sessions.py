"""Each session of the pages is what the program answers. What stands before `..` at an answer's end is how it begins."""

from __future__ import annotations

from collections.abc import Callable, Iterable
from contextlib import ExitStack

import pytest
from _pytest.mark import ParameterSet
from oracle.examples import Example
from pages.texts import PAGES, Served, served_sessions_of, sessions_of
from support.programs import TOP, Host, Peer, ran
from support.sessions import assert_replies


def of_pages(sessions_of: Callable[[str], Iterable[Iterable[object]]]) -> list[ParameterSet]:
    """The sessions of all pages, as parameters of a test."""
    found = ((f"{page}-{number}", session) for page in PAGES for number, session in enumerate(sessions_of(page), 1))
    return [pytest.param(*session, id=name) for name, session in found]


def assert_answers(sent: list[str], came: list[str], wanted: list[str]) -> None:
    """Fails if the answers aren't those that a page tells."""
    pairs = zip(came, wanted)
    wholes = [one if begun.endswith("..") and one.startswith(begun[:-2]) else begun for one, begun in pairs]
    assert_replies(sent, came, wholes + wanted[len(came) :])


@pytest.mark.parametrize(("words", "typed", "answered"), of_pages(sessions_of))
def test_a_session_comes_back(cam6: str, words: list[str], typed: list[str], answered: list[str]) -> None:
    """A blank machine answers a page's session as the page says."""
    done = ran([cam6, *words], "".join(f"{line}\n" for line in typed).encode())
    assert done.status == 0
    assert_answers(typed, done.output.decode().splitlines(), answered)


@pytest.mark.parametrize(("words", "lines"), of_pages(served_sessions_of))
def test_a_session_over_connections_comes_back(host: Callable[..., Host], words: list[str], lines: Served) -> None:
    """A host answers each connection of a page's session as the page says."""
    served = host(*words[1:])
    with ExitStack() as stack:
        numbers = {number for number, _, _ in lines}
        peers = {number: stack.enter_context(Peer(served.port)) for number in sorted(numbers)}
        for number, way, line in lines:
            if way == ">":
                peers[number].send(f"{line}\n")
            else:
                assert_answers([line], [peers[number].read() or "nothing"], [line])


def test_the_lines_of_a_session_are_printed() -> None:
    """`tools/typed` prints what a page's session or an example's part sends, and refuses one that isn't there."""
    typed, page = next(sessions_of("README.md"))[1], str(TOP / "README.md")
    done = ran([str(TOP / "tools/typed"), page])
    assert (done.status, done.output.decode()) == (0, "".join(f"{line}\n" for line in typed))
    example = TOP / "crates/cam6_host/sessions/undone.example"
    assert ran([str(TOP / "tools/typed"), str(example), "2"]).output == Example(example).parts[1].bytes_sent()
    for words in ([page, "99"], [page, "0"], [page, "one"], ["NO-PAGE.md"], [str(example), "99"]):
        assert ran([str(TOP / "tools/typed"), *words]).status == 2
