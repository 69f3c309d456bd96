"""What a fleet does without trouble: who comes in, who is refused, who stays, and whose seat is free again."""

from __future__ import annotations

import http.client
import os
import re
import subprocess
import time
from collections.abc import Callable, Iterator
from concurrent.futures import ThreadPoolExecutor
from contextlib import ExitStack, closing, suppress
from functools import partial
from pathlib import Path

import pytest
from service.pages import Answer, Socket, get
from service.users import BALLS, NO_JSON, NO_NAMES, NO_SEAT, PLANES, ROW, RULES, RUN, SAVE, SEAT, SEATED, START
from service.users import answers, closed, seated
from support.programs import Peer, private, wait_until
from support.sessions import assert_replies

from .services import DEPLOY, HOSTS, NAME, OVER, Fleet, Proxy, ended_by_sigterm

# How long the fleet waits for a first line (CAM6_WAIT), until it knows that a silent user's machine is gone (CAM6_SILENT and
# three times CAM6_ASKED) or one that acknowledges nothing (CAM6_UNREAD), and what a busy machine adds.
WAIT, GONE, GRACE = 2, 5, 20
PER_SOURCE = 100
SET, SET_OK = f'{{"do":"set","plane":0,"row":0,"bits":"{"5a" * 32}"}}', '{"ok":"set"}'


def test_a_fleet_is_made_in_any_thread() -> None:
    def is_made() -> bool:
        with ended_by_sigterm():
            return True

    with ThreadPoolExecutor(1) as pool:
        assert pool.submit(is_made).result()


@pytest.mark.parametrize("file", sorted(path.name for path in DEPLOY.glob("*.cfg")))
def test_haproxy_accepts_each_file_as_it_stands(fleet: Fleet, file: str) -> None:
    env = {key: value for key, value in os.environ.items() if not key.startswith("CAM6_")}
    env |= {key: fleet.values[key] for key in ("CAM6_CERTIFICATES", "CAM6_LUA")}
    done = subprocess.run(["haproxy", "-c", "-q", "-f", DEPLOY / file], capture_output=True, env=env, check=False)
    assert (done.returncode, done.stderr.decode()) == (0, "")


@pytest.mark.parametrize("name", ["cam6", "cam6_web"])
def test_systemd_accepts_each_unit(request: pytest.FixtureRequest, fleet: Fleet, tmp_path: Path, name: str) -> None:
    text, unit = (DEPLOY / f"{name}@.service").read_text(encoding="utf-8"), tmp_path / f"{name}@7001.service"
    unit.write_text(text.replace(f"/opt/cam6/{name} ", f"{request.getfixturevalue(name)} "), encoding="utf-8")
    done = subprocess.run(["systemd-analyze", "verify", str(unit)], capture_output=True, check=False)
    assert (done.returncode, [line for line in done.stderr.decode().splitlines() if name in line]) == (0, [])
    # It may find 1.5 of 10 open.
    words = ["systemd-analyze", "security", "--offline=true", "--threshold=15", str(unit)]
    assert subprocess.run(words, capture_output=True, check=False).returncode == 0, "the unit is exposed to much"


# What is sent in parts, and the answers.
FIRST = {
    "a seat, in two parts, and more": (['{"se', 'at":31}\n{"do":"rul', 'es"}\n'], [SEATED, NO_NAMES]),
    "no line": (["no line\n"], [NO_JSON]),
    "a seat that isn't there": (['{"seat":99}\n'], [NO_SEAT]),
    "the seat 0": (['{"seat":0}\n'], [NO_SEAT]),
}


@pytest.mark.parametrize(("parts", "wanted"), FIRST.values(), ids=FIRST)
def test_a_first_line_is_answered(fleet: Fleet, parts: list[str], wanted: list[str]) -> None:
    with fleet.user() as one:
        for part in parts:
            one.send(part)
            time.sleep(0.3)
        assert [one.read() for _ in wanted] == wanted


@pytest.mark.parametrize("sent, least, most", [("x" * 20000, 0, 1), ("", WAIT - 0.5, WAIT + 2)], ids=["long", "silent"])
def test_who_takes_no_seat_is_closed(fleet: Fleet, sent: str, least: float, most: float) -> None:
    begun = time.monotonic()
    with fleet.user() as one:
        one.send(sent)
        assert closed([one], most)
    assert time.monotonic() - begun > least


def connected_to_edge(fleet: Fleet, port: int, certificate: str | None) -> Peer:
    """A connection from the front's machine to the first host's edge proxy: with a certificate, none, or no TLS."""
    stream = fleet.stream_to("front", fleet.ground.address("one"), port)
    return Peer(stream) if certificate is None else fleet.by_tls(stream, None, certificate)


@pytest.mark.parametrize("certificate, wanted", [(None, None), ("", None), ("users.pem", None), ("front.pem", NO_SEAT)])
def test_an_edge_proxy_lets_in_the_front_alone(fleet: Fleet, certificate: str | None, wanted: str | None) -> None:
    came = None
    with suppress(OSError), connected_to_edge(fleet, fleet.edge_ports["one"], certificate) as one:
        came = one.ask(SEAT % 99)
    assert came == wanted


def test_an_edge_proxy_whose_host_has_ended_says_so_at_once(fleet: Fleet) -> None:
    port, waits = fleet.ground.port(7299), []
    with fleet.edge("one", port, "127.0.0.1:1"):
        for _ in range(3):
            with connected_to_edge(fleet, port, "front.pem") as one:
                begun = time.monotonic()
                with suppress(*OVER):
                    assert one.ask(SEAT % 1) is None
                waits.append(time.monotonic() - begun)
    # An edge proxy that tried again would do so after a second, each time.
    assert min(waits) < 0.8


@pytest.fixture
def cabled(fleet: Fleet) -> Fleet:
    """The fleet. The test is left out if no cable can be pulled."""
    if not fleet.ground.has_cables:
        pytest.skip("LEFT OUT: this takes network namespaces")
    return fleet


@pytest.mark.root
def test_a_host_is_not_reached_from_another_machine(cabled: Fleet) -> None:
    with pytest.raises(ConnectionRefusedError):
        cabled.stream_to("front", cabled.ground.address("one"), cabled.ports["one"])


@pytest.mark.parametrize(("connect", "seat"), [(Fleet.tls_user, 1), (Fleet.user, 2)])
def test_a_user_who_thinks_for_long_keeps_the_seat(fleet: Fleet, connect: Callable[[Fleet], Peer], seat: int) -> None:
    with connect(fleet) as one:
        assert answers(one, [SEAT % seat, SET]) == [SEATED, SET_OK]
        time.sleep(3 * WAIT)
        assert one.ask(ROW % 0) == f'{{"bits":"{"5a" * 32}","ok":"row"}}'


@pytest.mark.root
@pytest.mark.parametrize("seat, is_asking", [(21, False), (22, True)], ids=["who was silent", "who is owed a reply"])
def test_the_seat_is_free_of_a_user_whose_machine_is_gone(cabled: Fleet, seat: int, is_asking: bool) -> None:
    with cabled.tls_user("gone") as one:
        assert answers(one, [SEAT % seat, *START[:2]]) == [SEATED, '{"ok":"rule"}', '{"ok":"cycle"}']
        begun = time.monotonic()
        one.ask(RUN % 100)
        steps = 100 + int(200 / (time.monotonic() - begun))
        (name,) = cabled.hosts_with(seat)
        # What the user has got so far is acknowledged.
        time.sleep(0.5)
        if is_asking:
            # The run takes longer than the cable is in place: some two seconds.
            before = cabled.hosts[name].seconds()
            one.send(f"{RUN % min(steps, 65535)}\n")
            assert wait_until(lambda: cabled.hosts[name].seconds() > before, pause=0.002), "the host doesn't run"
        with cabled.ground.pulled("gone"):
            assert wait_until(lambda: not cabled.is_taken(name, seat), GONE + GRACE)


def test_one_address_has_so_many_connections_and_no_more(fleet: Fleet) -> None:
    many: list[Peer] = []
    with ExitStack() as stack:
        for _ in range(PER_SOURCE + 20):
            with suppress(ConnectionResetError):
                many.append(stack.enter_context(fleet.user("127.0.0.9")))
        wait_until(lambda: len(many) - closed(many, 0) <= PER_SOURCE, WAIT / 2)
        assert len(many) - closed(many, 0) == PER_SOURCE
        assert fleet.answer_of(SEAT % 99) == NO_SEAT, "another address is served beside it"


@pytest.fixture(scope="module")
def seats(fleet: Fleet) -> Iterator[Callable[[str], Peer]]:
    """The front of numbered seats. Seats 33 to 64 are those of the second host, and so on. It is called for a connection."""

    def connect(value: str) -> Peer:
        if value == "CAM6_SEATS_TLS":
            stream = fleet.stream_to("users", fleet.ground.address("front"), fleet.port_of(value))
            return fleet.by_tls(stream, "two.cam6.example")
        return Peer(fleet.stream_to("front", "127.0.0.1", fleet.port_of(value)))

    with Proxy(fleet, "front", "haproxy-seats.cfg", "haproxy-seats") as proxy:
        assert wait_until(lambda: all(proxy.is_up(name, name) for name in HOSTS), GRACE)
        yield connect


# The front that is asked, what is sent, and the seat that is taken of a host.
BY = {
    "its number, in one packet": ("CAM6_SEATS", [SEAT % 41 + f"\n{SET}\n"], 9, "two"),
    "its number, in three packets": ("CAM6_SEATS", ['{"se', 'at":64}\n', f"{SET}\n"], 32, "two"),
    "its number, before more": ("CAM6_SEATS", ['{ "seat" : 75 }\n' + SET + f"\n{RULES}" * 5000 + "\n"], 11, "three"),
    "the port of its host": ("CAM6_SEATS_THREE", [SEAT % 13 + f"\n{SET}\n"], 13, "three"),
    "the name of its host": ("CAM6_SEATS_TLS", [SEAT % 14 + "\n", f"{SET}\n"], 14, "two"),
}


@pytest.mark.parametrize("how", BY)
def test_a_seat_is_taken_by(fleet: Fleet, seats: Callable[[str], Peer], how: str) -> None:
    value, parts, seat, host = BY[how]
    with seats(value) as one:
        for part in parts:
            one.send(part)
            time.sleep(0.1)
        assert [one.read(), one.read()] == [SEATED, SET_OK]
        assert fleet.hosts_with(seat) == [host]
        assert {one.read() for _ in range(parts[-1].count(RULES))} <= {NO_NAMES}, "what was sent with it is answered"


@pytest.mark.parametrize("seat", [0, 97, 12345])
def test_a_number_beyond_all_seats_is_none(seats: Callable[[str], Peer], seat: int) -> None:
    with seats("CAM6_SEATS") as one:
        assert one.ask(SEAT % seat) == NO_SEAT


@pytest.mark.parametrize(("path", "status", "server"), [("/metrics", 200, 'server="two"'), ("/", 403, "")])
def test_the_front_counts_for_prometheus_alone(fleet: Fleet, path: str, status: int, server: str) -> None:
    connection = http.client.HTTPConnection("127.0.0.1", fleet.port_of("CAM6_METRICS"), timeout=20)
    with fleet.ground.within("front"), closing(connection):
        connection.request("GET", path)
        answer = connection.getresponse()
        text = answer.read().decode()
    assert answer.status == status
    assert f'haproxy_server_status{{proxy="fleet",{server},state="UP"}} 1' in text or not server


class Pages:
    """The front of the page, with two programs that sit down at the fleet."""

    def __init__(self, fleet: Fleet, cam6_web: str) -> None:
        self.fleet, ground = fleet, fleet.ground
        ports = {name: ground.port(usual) for name, usual in (("one", 6007), ("two", 6008))}
        self.plain = ground.port(8080)
        own = {f"CAM6_WEB_{name.upper()}": f"127.0.0.1:{port}" for name, port in ports.items()}
        own |= {"CAM6_PAGE_PLAIN": f"127.0.0.1:{self.plain}", "CAM6_PAGE": f"127.0.0.1:{ground.port(8443)}"}
        self.front = Proxy(fleet, "front", "haproxy-page.cfg", "haproxy-page", own)
        words = [cam6_web, "--name", NAME, "--host", f"127.0.0.1:{fleet.plain}", "--port"]
        self.programs = {name: fleet.service("front", f"page-{name}", [*words, str(at)]) for name, at in ports.items()}

    def count(self, name: str) -> int:
        """How often the front has connected to a program."""
        return int(self.front.stats(name, "pages")["stot"])

    def get(self, path: str, **fields: str) -> Answer:
        """Gets a path from the front of the page, with these fields."""
        with self.fleet.ground.within("front"):
            return get(self.plain, path, {"Host": NAME, "Connection": "close", **fields})

    def seated(self, name: str) -> Socket:
        """A socket with a seat that no other test takes, of a browser that has the cookie of a program."""
        fields = {"Host": NAME, "Origin": f"https://{NAME}", "Cookie": f"cam6={name}"}
        with self.fleet.ground.within("front"):
            return seated(partial(Socket, path="/ws/1", fields=fields), self.plain, 30)


def test_a_browser_stays_with_a_program_and_goes_on_at_the_other_one(fleet: Fleet, cam6_web: str, cam6: str) -> None:
    pages, lines = Pages(fleet, cam6_web), [*BALLS, RUN % 9, SAVE]
    with pages.programs["one"], pages.programs["two"], pages.front:
        assert wait_until(lambda: all(pages.front.is_up(name, "pages") for name in pages.programs), GRACE)
        first = pages.get("/")
        found = re.search(r"cam6=(one|two)", first.fields.get("set-cookie", ""))
        assert first.status == 200 and found
        name, other = found[1], "two" if found[1] == "one" else "one"
        assert [pages.get("/app.js", Cookie=f"cam6={name}").status for _ in range(4)] == [200] * 4
        assert pages.count(other) == 0
        assert pages.get("/hosts", Cookie=f"cam6={name}").text.strip() == "1", "its host is the front of hosts"
        with pages.seated(name) as one:
            came = answers(one, lines)
            assert_replies(lines, came, private(cam6, lines, 256))
            pages.programs[name].kill()
            assert one.read() is None
        load = str(came[-1]).replace(',"ok":"save"}', "}").replace("{", '{"do":"load",', 1)
        with pages.seated(name) as two:
            assert pages.count(other) > 0
            again = answers(two, [load, RUN % 5, PLANES[0]])
            assert again[-1] == private(cam6, [*BALLS, RUN % 14, PLANES[0]], 256)[-1]
