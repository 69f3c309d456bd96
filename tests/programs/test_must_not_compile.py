"""The programs of tests/programs/refused must not compile, for their reason. One of them compiles.

The second line of each says which errors the compiler has to name, or that it accepts the program. They aren't `.rt` files,
since such a file has to be part of a crate.
"""

from __future__ import annotations

import re
import shutil
import subprocess
from pathlib import Path

import pytest
from support.programs import TOP

# One worker compiles them all.
pytestmark = [pytest.mark.slow, pytest.mark.xdist_group("must_not_compile")]

FILES = sorted((Path(__file__).parent / "refused").glob("*.rt.txt"))
TEXTS = {path.name.partition(".")[0]: path.read_text(encoding="utf-8") for path in FILES}
WANTED = {name: text.split("\n")[1].removeprefix("//! ") for name, text in TEXTS.items()}
# The crate that the programs are compiled in, and the crates that it stands on.
LINE = "cam6_tried: cam6_planes cam6_wiring cam6_entries cam6_table cam6_band cam6_server\n"


@pytest.fixture(scope="module")
def verdicts(request: pytest.FixtureRequest, tmp_path_factory: pytest.TempPathFactory) -> dict[str, str]:
    """What the compiler finds in each program whose test is run.

    They are the modules of one crate. The compiler looks for some errors only if there are no others. So what it refuses is
    left out, and the rest is compiled again, until all of the rest is accepted.
    """
    rt, top, found = shutil.which("rt"), tmp_path_factory.mktemp("crates"), dict[str, str]()
    assert rt, "there is no rt on the PATH; docs/INSTALL.md says how the Rattle kit is installed"
    shutil.copy(TOP / "HANDLES", top)
    shutil.copytree(TOP / "crates", top / "crates", ignore=shutil.ignore_patterns("out"))
    (top / "crates.txt").write_text((TOP / "crates.txt").read_text(encoding="utf-8") + LINE, encoding="utf-8")
    crate, tests = top / "crates" / "cam6_tried", {test.name for test in request.session.items}
    left = [name for name in TEXTS if f"test_the_compiler_names_the_reason[{name}]" in tests]
    while left:
        shutil.rmtree(crate, ignore_errors=True)
        (crate / "src").mkdir(parents=True)
        modules = "".join(f"mod {name};\n" for name in left)
        texts = {name: re.sub(r"^#!\[tactic.*\n", "", TEXTS[name], flags=re.M) for name in left}
        for name, text in (texts | {"lib": f"#![tactic(auto)]\n{modules}#[test]\nfn is_compiled() {{}}\n"}).items():
            (crate / "src" / f"{name}.rt").write_text(text, encoding="utf-8")
        done = subprocess.run([rt, "try", "--test"], cwd=crate, capture_output=True, text=True, check=False)
        text, pattern = done.stdout + done.stderr, r"(?<![a-z_]){}\.rt:[0-9].*error\[([a-z0-9-]+)\]"
        errors = {name: sorted(set(re.findall(pattern.format(name), text))) for name in left if done.returncode}
        refused = {name: f"refused: {' '.join(some)}" for name, some in errors.items() if some}
        found |= refused or dict.fromkeys(left, f"refused: {text}" if done.returncode else "accepted")
        left = [name for name in left if name not in found]
    return found


@pytest.mark.parametrize("name", TEXTS)
def test_the_compiler_names_the_reason(name: str, verdicts: dict[str, str]) -> None:
    assert verdicts[name] == WANTED[name]


def test_one_program_compiles() -> None:
    """Otherwise all could be refused for a reason of their crate."""
    assert [*WANTED.values()].count("accepted") == 1
