"""The code of docs/PYTHON.md, typed in order into one session with the program, and the scripts cut into notebooks."""

from __future__ import annotations

import ast
import contextlib
import io
import json
import os
import re
import textwrap
from pathlib import Path
from typing import Any

import pytest
from support.programs import TOP
from support.tools import tool

from cam6 import rules

PAGE = TOP / "docs" / "PYTHON.md"
EXAMPLES = TOP / "clients" / "python" / "examples"
SHELL = ("pip ", "export ", "cd ", "python3 ", "env/bin/")


def blocks() -> list[str]:
    """The blocks of the page: commands of a shell, and Python."""
    found = re.findall(r"(?<=\n\n)(?:    .*\n|\n(?=    ))+", PAGE.read_text())
    return [textwrap.dedent(block).strip("\n") for block in found]


def typed(block: str, names: dict[str, Any]) -> Any:
    """The last value of a block, or what it printed if it has none."""
    tree = ast.parse(block)
    end = tree.body[-1].value if isinstance(tree.body[-1], ast.Expr) else None
    del tree.body[len(tree.body) - (end is not None) :]
    printed = io.StringIO()
    with contextlib.redirect_stdout(printed):
        exec(compile(tree, block, "exec"), names)
        value = eval(compile(ast.Expression(end), block, "eval"), names) if end else None
    return printed.getvalue() if value is None else value


@pytest.mark.slow
def test_the_walk(cam6: str, tmp_path: Path, monkeypatch: pytest.MonkeyPatch) -> None:
    (tmp_path / "cam6").symlink_to(cam6)
    monkeypatch.setenv("PATH", str(tmp_path), prepend=os.pathsep)
    monkeypatch.chdir(tmp_path)
    names: dict[str, Any] = {}
    try:
        last = [typed(block, names) for block in blocks() if not block.startswith(SHELL)]
    finally:
        if "machine" in names:
            names["machine"].close()
    assert (tmp_path / "critters.png").stat().st_size > 1000
    assert any(value is True for value in last)
    assert any(isinstance(value, str) and "rule = B3/S23\n18$" in value for value in last)
    assert names["critters"] == rules.margolus("critters")


NOTEBOOKS = tool("clients/python/examples/notebooks.py")


@pytest.mark.parametrize("name", NOTEBOOKS.NAMES)
def test_a_notebook_has_the_cells_of_its_script(name: str) -> None:
    cells = NOTEBOOKS.cells_of((EXAMPLES / f"{name}.py").read_text())
    made = json.loads((EXAMPLES / f"{name}.ipynb").read_text())
    assert [(cell["cell_type"], "".join(cell["source"])) for cell in made["cells"]] == cells
    code = [cell for cell in made["cells"] if cell["cell_type"] == "code"]
    assert [cell["execution_count"] for cell in code] == list(range(1, len(code) + 1))
    assert any(cell["outputs"] for cell in code)
