"""What the tests of services share."""

from __future__ import annotations

import os
import re
import shutil
from collections.abc import Iterator
from contextlib import ExitStack

import pytest
from support.programs import TOP, Host, Page, Peer, private

from .fleets.services import Fleet, Ground, ended_by_sigterm
from .users import LINES, Hosts, Session, seated, steady

# The package of each program that a fleet takes.
PACKAGES = {"haproxy": "haproxy", "openssl": "openssl", "systemd-analyze": "systemd", "ip": "iproute2"}


def pytest_collection_modifyitems(config: pytest.Config, items: list[pytest.Item]) -> None:
    """Marks the tests of fleets. Each may take 600 s and four times as long as the option `--fleet-seconds` says."""
    for item in items:
        if item.path.parent.name == "fleets":
            item.add_marker("fleet")
            item.add_marker(pytest.mark.timeout(600 + 4 * config.getoption("--fleet-seconds")))


@pytest.fixture(scope="session")
def usual(cam6: str) -> Session:
    """The session of a user who goes on at a host, with the replies of a private machine."""
    return Session(LINES, private(cam6, LINES))


@pytest.fixture
def host_with_user(host: Hosts, usual: Session) -> Iterator[Hosts]:
    """Starts a host at which a user goes on until the test has ended: `host_with_user(2, "--users=5")` is one with user 2."""
    with ExitStack() as stack:

        def begin(user: int, *options: str) -> Host:
            """Starts a host with these options, at which this user goes on."""
            one = host(*options)
            stack.enter_context(steady(seated(Peer, one.port, user), usual))
            return one

        yield begin


@pytest.fixture(scope="session")
def readme(cam6: str) -> Session:
    """The session of README, with the replies of a private machine."""
    lines = re.findall(r"^    > (.+)$", (TOP / "README.md").read_text(encoding="utf-8"), re.M)
    assert len(lines) > 3, "README has a session"
    return Session(lines, private(cam6, lines))


@pytest.fixture(scope="module")
def bare(cam6_web: str) -> Iterator[Page]:
    """A page without a host."""
    with Page(cam6_web) as page:
        yield page


@pytest.fixture(scope="module")
def fleet(request: pytest.FixtureRequest, cam6: str, tmp_path_factory: pytest.TempPathFactory) -> Iterator[Fleet]:
    """Three hosts behind HAProxy: in network namespaces, or at ports if none can be made."""
    is_plain = request.config.getoption("--fleet-ports")
    with pytest.MonkeyPatch.context() as patch, ExitStack() as stack:
        # Debian keeps some programs there, which not everybody has on the PATH.
        patch.setenv("PATH", f"{os.environ['PATH']}:/usr/sbin:/sbin")
        for program, package in PACKAGES.items():
            if not shutil.which(program) and not (program == "ip" and is_plain):
                pytest.fail(f"there is no {program}: install the package {package} of packages.txt", pytrace=False)
        stack.enter_context(ended_by_sigterm())
        ground = Ground()
        if not is_plain:
            stack.callback(ground.close)
            ground.make_nodes()
        made = Fleet(ground, cam6, tmp_path_factory.mktemp("fleet"), users=32, boards=2)
        stack.callback(made.kill)
        made.start()
        yield made
