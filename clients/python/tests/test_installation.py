"""The package is installed by the commands of docs/PYTHON.md, without a network, and runs a machine from there."""

from __future__ import annotations

import os
import shlex
import shutil
import subprocess
import sys
from pathlib import Path

import pytest
from support.programs import TOP
from test_page import blocks

pytestmark = pytest.mark.slow

MACHINE = """
import sys, cam6
with cam6.local(sys.argv[1]) as machine:
    machine.set_row(0, 5, "f" * 64)
    print(machine.count(), cam6.__file__)
"""


@pytest.fixture
def client(tmp_path: Path) -> Path:
    """A copy of the package's folder, as setuptools leaves files beside what it builds."""
    ignored = shutil.ignore_patterns("build", "*.egg-info", "tests", "__pycache__")
    return Path(shutil.copytree(TOP / "clients" / "python", tmp_path / "clients" / "python", ignore=ignored))


def done(command: str, folder: Path) -> str:
    """What commands of a shell print. pip may ask no index, and `python3` is the interpreter of this test."""
    path = f"{Path(sys.executable).parent}:{os.environ['PATH']}"
    env = {**os.environ, "PIP_NO_INDEX": "1", "PIP_DISABLE_PIP_VERSION_CHECK": "1", "PATH": path}
    ran = subprocess.run(["bash", "-ec", command], cwd=folder, env=env, capture_output=True, text=True, check=False)
    assert ran.returncode == 0, ran.stdout + ran.stderr
    return ran.stdout


def check(env: Path, cam6: str) -> None:
    """Runs a machine by the package of an environment, and looks for its other files."""
    count, place = done(f"bin/python -I -c {shlex.quote(MACHINE)} {cam6}", env).split()
    package = Path(place).parent
    assert count == "256"
    assert package.is_relative_to(env)
    assert {path.name for path in package.iterdir() if path.suffix in (".json", ".typed")} == {
        "errors.json",
        "py.typed",
    }
    assert "usage:" in done("bin/cam6-python --help", env)


def test_it_is_installed_by_the_commands_of_the_page(client: Path, cam6: str, tmp_path: Path) -> None:
    """By the setuptools of the system, which the environment sees, and without a network."""
    install, first = blocks()[:2]
    assert "pip install" in install and "import cam6" in first
    (tmp_path / "cam6").symlink_to(cam6)
    assert done(f"{install}\n{first}", tmp_path).endswith("<cam6 machine of 256 by 256 cells>\n")
    check(tmp_path / "env", cam6)


def test_its_wheel_is_installed_where_nothing_else_is(client: Path, cam6: str, tmp_path: Path) -> None:
    done("python3 -m venv --system-site-packages maker && python3 -m venv env", tmp_path)
    done(f"maker/bin/pip wheel --no-build-isolation --wheel-dir . {client}", tmp_path)
    done("env/bin/pip install cam6-*.whl", tmp_path)
    check(tmp_path / "env", cam6)
