#!/usr/bin/env python3
"""Makes the notebooks of this folder from its scripts, and executes them, without Jupyter.

    python notebooks.py             all of them
    python notebooks.py entropy     one of them

A script is cut into cells at lines `# %%` and `# %% [markdown]`. What a cell prints, its last value and the figures
of matplotlib that it draws are written into the notebook. A cell that raises ends everything.
"""

from __future__ import annotations

import ast
import base64
import contextlib
import io
import json
import os
import re
import sys
import tempfile
from typing import Any, Dict, List, Tuple

FOLDER = os.path.dirname(os.path.abspath(__file__))
NAMES = ["critters_density", "hpp_gas", "ball_gun", "entropy", "sweep"]


def cells_of(script: str) -> List[Tuple[str, str]]:
    """The kinds and the texts of the cells of a script. What stands before the first one is left out."""
    parts = re.split(r"^# %%(.*)\n", script, flags=re.MULTILINE)
    cells = []
    for head, body in zip(parts[1::2], parts[2::2]):
        text = body.strip("\n")
        if "[markdown]" in head:
            cells.append(("markdown", "\n".join(line[2:] for line in text.split("\n"))))
        else:
            cells.append(("code", text))
    return cells


def lines_of(text: str) -> List[str]:
    """The lines of a text as a notebook keeps them: each but the last with its LF."""
    return text.splitlines(keepends=True)


def execute_cell(text: str, number: int, names: Dict[str, Any]) -> List[Dict[str, Any]]:
    """Executes the text of a cell with the variables `names`, and returns its outputs as a notebook has them. `number`
    counts its code cells from 1."""
    tree, last = ast.parse(text), None
    end = tree.body[-1] if tree.body else None
    if isinstance(end, ast.Expr):
        del tree.body[-1]
        last = ast.Expression(end.value)
    printed = io.StringIO()
    with contextlib.redirect_stdout(printed):
        exec(compile(tree, f"cell {number}", "exec"), names)
        value = eval(compile(last, f"cell {number}", "eval"), names) if last else None
    outputs: List[Dict[str, Any]] = []
    if printed.getvalue():
        outputs.append({"output_type": "stream", "name": "stdout", "text": lines_of(printed.getvalue())})
    if value is not None:
        outputs.append(
            {"output_type": "execute_result", "execution_count": number, "metadata": {}, "data": data_of(value)}
        )
    for png in take_figures():
        data = {"image/png": png, "text/plain": ["<Figure>"]}
        outputs.append({"output_type": "display_data", "metadata": {}, "data": data})
    return outputs


def data_of(value: Any) -> Dict[str, Any]:
    """How a notebook shows a value, by the type of the data."""
    data: Dict[str, Any] = {"text/plain": lines_of(re.sub(" at 0x[0-9a-f]+", "", repr(value)))}
    if hasattr(value, "_repr_png_"):
        data["image/png"] = base64.b64encode(value._repr_png_()).decode()
    return data


def take_figures() -> List[str]:
    """Closes the open figures of matplotlib, and returns them as PNG files in Base64."""
    pyplot: Any = sys.modules.get("matplotlib.pyplot")
    found = []
    for number in pyplot.get_fignums() if pyplot else []:
        out = io.BytesIO()
        pyplot.figure(number).savefig(out, format="png", dpi=80, bbox_inches="tight", metadata={"Software": None})
        found.append(base64.b64encode(out.getvalue()).decode())
        pyplot.close(number)
    return found


def notebook(script: str) -> Dict[str, Any]:
    """A notebook with the cells of a script and their outputs."""
    cells: List[Dict[str, Any]] = []
    names: Dict[str, Any] = {"__name__": "__main__"}
    for at, (kind, text) in enumerate(cells_of(script)):
        cell: Dict[str, Any] = {"cell_type": kind, "id": f"cell-{at}", "metadata": {}, "source": lines_of(text)}
        if kind == "code":
            number = 1 + sum(other["cell_type"] == "code" for other in cells)
            cell.update(execution_count=number, outputs=execute_cell(text, number, names))
        cells.append(cell)
    kernel = {"display_name": "Python 3", "language": "python", "name": "python3"}
    return {
        "cells": cells,
        "metadata": {"kernelspec": kernel, "language_info": {"name": "python"}},
        "nbformat": 4,
        "nbformat_minor": 5,
    }


def main() -> None:
    """Writes the notebook of each script that the arguments name, or of all of them."""
    os.environ.setdefault("MPLBACKEND", "Agg")
    asked = sys.argv[1:] or NAMES
    for name in asked:
        with open(os.path.join(FOLDER, f"{name}.py"), encoding="utf-8") as file:
            script = file.read()
        here = os.getcwd()
        with tempfile.TemporaryDirectory() as folder:
            os.chdir(folder)
            try:
                made = notebook(script)
            finally:
                os.chdir(here)
        with open(os.path.join(FOLDER, f"{name}.ipynb"), "w", encoding="utf-8") as file:
            json.dump(made, file, ensure_ascii=False, indent=1)
            file.write("\n")
        print(f"{name}.ipynb", flush=True)


if __name__ == "__main__":
    main()
