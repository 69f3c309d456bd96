"""The page in the browser, as far as no browser is needed."""

from __future__ import annotations

import re
import shutil
from operator import attrgetter
from pathlib import Path

import pytest
from support.programs import TOP, ran

WEB = TOP / "web"
FILES = sorted(path for path in WEB.iterdir() if path.suffix in (".html", ".css", ".js"))
# An address of another machine where a file is loaded: in an attribute, an import, a `url(..)` or a call of `fetch`.
ELSEWHERE = re.compile(
    r"""(src|href|action|poster)=["']?([a-z]+:)?//"""
    r"""|(from|import|fetch|url|WebSocket|Worker) ?\(?["']?(https?|wss?):|@import"""
)
# What the page's own rule on what may be loaded would refuse.
INLINE = re.compile(r"""<script[^>]*>[^<]|<style|style=["']| on[a-z]+=["']|javascript:""")
# What makes a later node lack what that of Debian 12 lacks.
OLD = "--import=data:text/javascript,delete%20globalThis.CustomEvent"


def test_the_program_has_the_files_as_they_stand() -> None:
    """tools/embed would write what is there: all of the page, in 150,000 bytes at most."""
    done = ran([str(TOP / "tools/embed"), "--check"])
    assert done.status == 0, done.output.decode() + done.errors.decode()


@pytest.mark.parametrize("path", FILES, ids=attrgetter("name"))
def test_a_file_loads_nothing_from_elsewhere(path: Path) -> None:
    """No file names another machine, and no page has a script or a style within itself."""
    text = path.read_text(encoding="utf-8")
    assert ELSEWHERE.search(text) is None
    assert path.suffix != ".html" or INLINE.search(text) is None


@pytest.mark.parametrize("script", sorted(WEB.glob("*.js")), ids=attrgetter("name"))
def test_a_script_is_a_module(script: Path, tmp_path: Path) -> None:
    copy = shutil.copy(script, tmp_path / "module.mjs")
    done = ran(["node", "--check", str(copy)])
    assert done.status == 0, done.errors.decode()


@pytest.mark.parametrize("options", ["", OLD], ids=["node", "node 18"])
@pytest.mark.parametrize("test", sorted(WEB.glob("tests/*.test.mjs")), ids=attrgetter("name"))
def test_modules_do_what_their_tests_say(test: Path, options: str) -> None:
    done = ran(["node", "--test", str(test)], env={"NODE_OPTIONS": options})
    assert done.status == 0, done.output.decode()
