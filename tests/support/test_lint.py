"""`tools/lint` in small repositories: it finds a fault of each kind in each kind of file, and nothing where nothing is wrong."""

from __future__ import annotations

import re
import shutil
import subprocess
from pathlib import Path

import pytest
from support.programs import TOP, ran

pytestmark = [pytest.mark.lint, pytest.mark.slow]
LINT = str(TOP / "tools" / "lint")
GOOD = 'from __future__ import annotations\n\n\ndef twice(n: int) -> int:\n    return n + n\n\n\nprint(f"{twice(2)}")\n'
PYTHON, BASH = "#!/usr/bin/env python3\n", "#!/usr/bin/env bash\n"
FINE = {
    "good.py": GOOD,
    "tools/fine": PYTHON + GOOD,
    "fair": f'{BASH}echo "$1"\n',
    "web/good.js": "export const two = 2;\n",
}
# Files with one fault each, and the program that finds it.
FAULTS = {
    "untyped.py": ("mypy", "def twice(n):\n    return n + n\n"),
    "tools/wrong": ("mypy", f'{PYTHON}two: int = "two"\n'),
    "deploy/unused.py": ("pyflakes", "import os\n"),
    "tools/undefined": ("pyflakes", f"{PYTHON}print(missing)  # type: ignore[name-defined]  # It is planted.\n"),
    "examples/wide.py": ("black", "two = [1,\n  2]\n"),
    "deploy/wide": ("black", f"{PYTHON}two = 1+1\n"),
    "web/wrong.js": ("tsc", "/** @type {number} */\nexport const two = 'two';\n"),
    "web/tests/wrong.mjs": ("tsc", "export const twice = n => n + n;\n"),
    "deploy/unquoted": ("shellcheck", f"{BASH}echo $1\n"),
    "tools/lib/unquoted.sh": ("shellcheck", "# shellcheck shell=bash\necho $1\n"),
    "without_a_code.py": ("ignores", "two = 2  # type: ignore  # It is planted.\n"),
    "without_a_reason.py": ("ignores", "\ntwo = 2  # noqa: E501\n"),
    "without_a_reason": ("ignores", f'{BASH}\n# shellcheck disable=SC2086\necho "$1"\n'),
}
NOTHING = dict.fromkeys(["mypy", "pyflakes", "black", "tsc", "shellcheck", "ignores"], 0)


def lint(folder: Path, files: dict[str, str]) -> tuple[int, dict[str, int], str]:
    """Makes a repository of files, by their texts, with the settings of this one, and reads it. Returns the status, how many
    findings each program has, and what is printed."""
    for name in ("pyproject.toml", "jsconfig.json"):
        shutil.copy(TOP / name, folder)
    for name, text in files.items():
        (folder / name).parent.mkdir(parents=True, exist_ok=True)
        (folder / name).write_text(text)
    subprocess.run(["git", "init", "-q", folder], check=True)
    done = ran([LINT, str(folder)])
    output = done.output.decode()
    counts = re.findall(r"lint: (\w+): .* (\d+) findings", output)
    return done.status, {name: int(count) for name, count in counts}, output


def test_nothing_is_found_where_nothing_is_wrong(tmp_path: Path) -> None:
    status, counts, output = lint(tmp_path, FINE)
    assert (status, counts) == (0, NOTHING), output
    assert output.endswith("\n0 findings\n")
    assert "lint: mypy: 2 files" in output and "lint: shellcheck: 1 files" in output and "lint: tsc: 1 files" in output


def test_each_fault_is_found(tmp_path: Path) -> None:
    """Each by its program, and no other file is blamed."""
    status, counts, output = lint(tmp_path, FINE | {name: fault for name, (_, fault) in FAULTS.items()})
    assert status == 1, output
    blamed = {(name, path) for path in [*FAULTS, *FINE] for name in counts if is_blamed(path, name, output)}
    assert blamed >= {(name, path) for path, (name, _) in FAULTS.items()}, output
    assert not {path for _, path in blamed} & set(FINE), output
    assert output.endswith(f"\n{sum(counts.values())} findings\n")


def is_blamed(path: str, name: str, output: str) -> bool:
    """Whether a program has a finding in a file."""
    own = output.partition(f"lint: {name}: ")[0].rpartition("lint: ")[2]
    return re.search(rf"(^|\s|/){re.escape(path)}(:|\(|$)", own, re.MULTILINE) is not None


def test_there_may_be_ten_ignores(tmp_path: Path) -> None:
    """There are those of pyproject.toml too."""
    row = '# It is planted.\nprint("two")  # noqa: T201\n'
    begun = lint(tmp_path, {"some.py": row})[2]
    own = int(re.findall(r"lint: ignores: (\d+) of at most 10", begun)[0]) - 1
    assert lint(tmp_path, {"some.py": row * (10 - own)})[:2] == (0, NOTHING)
    status, counts, _ = lint(tmp_path, {"some.py": row * (11 - own)})
    assert (status, counts["ignores"]) == (1, 11)


def test_it_says_how_it_is_used() -> None:
    done = ran([LINT, "--help"])
    assert done.status == 0 and b"usage: lint" in done.output
