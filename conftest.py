"""What tests/ and clients/python/tests share: the programs, and hosts, pages and libraries that go when their test ends."""

from __future__ import annotations

import os
import subprocess
from collections.abc import Callable, Iterator
from contextlib import ExitStack
from functools import cache
from pathlib import Path

import hypothesis
import pytest
from support.programs import CRATES, PLAYERS, Host, Page, built

SUPPORT = Path(__file__).parent / "tests" / "support"
# Programs take their time, and more of it on a busy computer. The phase `target` is left out: no test has a target, and without
# one that phase shrinks sessions that passed. So is `explain`, which runs a failure again and again.
PHASES = [hypothesis.Phase[name] for name in ("explicit", "reuse", "generate", "shrink")]
PATIENT = hypothesis.settings(
    deadline=None,
    print_blob=True,
    stateful_step_count=30,
    suppress_health_check=list(hypothesis.HealthCheck),
    phases=PHASES,
)
hypothesis.settings.register_profile("programs", PATIENT, max_examples=100)
# `--hypothesis-profile long` tries far more.
hypothesis.settings.register_profile("long", PATIENT, max_examples=5_000)
hypothesis.settings.load_profile("programs")
# Where Debian's golly has its patterns.
PATTERNS = "/usr/share/golly/Patterns"


def pytest_collection_modifyitems(items: list[pytest.Item]) -> None:
    """Slow tests come first, so that in the end no worker is left alone with one."""
    items.sort(key=lambda item: item.get_closest_marker("slow") is None)


def pytest_addoption(parser: pytest.Parser) -> None:
    """An option for each program, by which another build is tested."""
    for name, crate in (CRATES | PLAYERS).items():
        option = f"--{name.replace('_', '-')}"
        parser.addoption(option, metavar="PATH", help=f"the program {name} (crates/{crate}/out/{crate})")
    fleet = parser.getgroup("fleet", "a fleet behind HAProxy")
    fleet.addoption("--fleet-seconds", type=int, default=10, metavar="N", help="how long there is trouble")
    fleet.addoption("--fleet-seed", type=int, default=1, metavar="N", help="which trouble there is")
    fleet.addoption("--fleet-sessions", type=int, default=8, metavar="N", help="how many sessions go on, 1 to 64")
    fleet.addoption("--fleet-ports", action="store_true", help="no network namespaces, and so no cables")
    parser.addoption("--patterns", metavar="FOLDER", default=PATTERNS, help="patterns of another program (%(default)s)")


def program(name: str) -> Callable[..., str]:
    """Makes the fixture of a program, which is its path."""

    @pytest.fixture(scope="session", name=name)
    def path_of(request: pytest.FixtureRequest) -> str:
        """The path of a program: the one an option names, else the one `./build` left. Fails if there is none."""
        named = request.config.getoption(name)
        path = built(name, named)
        if path is None and named:
            pytest.fail(f"there is no program {named}", pytrace=False)
        if path is None:
            builder = f"rt run in crates/{PLAYERS[name]}" if name in PLAYERS else "./build"
            pytest.fail(f"there is no program {name}: {builder} builds it", pytrace=False)
        return str(path)

    return path_of


cam6, cam6_draw, cam6_rle, cam6_web, cam6_try_rules = map(program, CRATES | PLAYERS)


@pytest.fixture(scope="session", params=["", ".by-rattle"], ids=["llvm", "rattle"])
def either_cam6(request: pytest.FixtureRequest, cam6: str) -> str:
    """The path of the program cam6, as each of the two compilers builds it."""
    path = f"{cam6}{request.param}"
    if request.config.getoption("cam6") and not os.path.exists(path):
        pytest.skip(f"--cam6 names a program that has no {path} beside it")
    return path


@pytest.fixture
def host(cam6: str) -> Iterator[Callable[..., Host]]:
    """Starts `cam6 serve` with options, as often as it is called: `host("--users=4")`."""
    with ExitStack() as stack:
        yield lambda *options, **how: stack.enter_context(Host(cam6, *options, **how))


@pytest.fixture
def page(cam6_web: str) -> Iterator[Callable[..., Page]]:
    """Starts `cam6_web` with hosts at these ports, or with a machine for each socket if there are none."""
    with ExitStack() as stack:
        yield lambda *ports, **how: stack.enter_context(Page(cam6_web, *ports, **how))


@pytest.fixture(scope="session")
def library(tmp_path_factory: pytest.TempPathFactory) -> Callable[[str], str]:
    """Compiles a library of tests/support that is loaded into a program: `library("short_reads")` is its path."""
    folder = tmp_path_factory.mktemp("libraries")

    @cache
    def compiled(name: str) -> str:
        """The path of a library, which is compiled at the first call."""
        path, source = str(folder / f"{name}.so"), str(SUPPORT / f"{name}.c")
        command = [os.environ.get("CC", "cc"), "-shared", "-fPIC", "-O2", "-o", path, source, "-ldl"]
        subprocess.run(command, check=True)
        return path

    return compiled
