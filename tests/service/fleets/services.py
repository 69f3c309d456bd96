"""A fleet: its machines, their programs, which run by the files of deploy/ as these stand, and connections to them.

What the tests give other values than deploy/ does stands in `Fleet.values`, and nowhere else.
"""

from __future__ import annotations

import csv
import ctypes
import os
import socket
import ssl
import subprocess
import threading
from collections.abc import Iterator
from contextlib import contextmanager, suppress
from pathlib import Path
from signal import SIGCONT, SIGSTOP, SIGTERM, signal
from subprocess import DEVNULL, Popen
from typing import Self

import pytest
from service.users import SEAT, TAKEN
from support.programs import TOP, Env, Peer, free_port, of_process, wait_until

DEPLOY, NAME, HOSTS = TOP / "deploy", "cam6.example", ("one", "two", "three")
NODES = ("users", "gone", "front", *HOSTS)
# What the names of network namespaces begin with, and the flag of this kind of namespace.
OWN, CLONE_NEWNET = f"cam6-{os.getpid()}-", 0x40000000
# Seconds in which a program has to be there, and in which a connection has to be made and a line to be answered.
START, PATIENCE = 60, 15
# What is raised by a connection that is over.
OVER = (ConnectionError, ssl.SSLError)
# The values that name the socket of an HAProxy's commands: each file of deploy/ reads one of them.
ADMINS = ("CAM6_ADMIN", "CAM6_EDGE_ADMIN", "CAM6_SEATS_ADMIN", "CAM6_PAGE_ADMIN")
# The usual ports of the fronts and of what they count, without TLS and by TLS.
PORTS = {"CAM6_PLAIN": 6006, "CAM6_METRICS": 8404, "CAM6_SEATS": 6100}
PORTS |= {"CAM6_SEATS_ONE": 6101, "CAM6_SEATS_TWO": 6102, "CAM6_SEATS_THREE": 6103}
TLS_PORTS = {"CAM6_TLS": 6443, "CAM6_SEATS_TLS": 6444}
WAITS = {"CAM6_WAIT": "2s", "CAM6_SILENT": "2s", "CAM6_ASKED": "1s", "CAM6_UNREAD": "5s", "CAM6_STOPPING": "5s"}


def ip(*words: str) -> None:
    """Runs `ip` with these arguments. Raises CalledProcessError if it fails."""
    subprocess.run(["ip", *words], check=True, stdin=DEVNULL, capture_output=True)


@contextmanager
def ended_by_sigterm() -> Iterator[None]:
    """Within the context a SIGTERM ends the tests by `pytest.exit`, so that they remove programs and namespaces. In a
    thread other than the main one, as a worker of xdist may have, it does nothing."""
    if threading.current_thread() is not threading.main_thread():
        yield
        return
    before = signal(SIGTERM, lambda *_: pytest.exit("ended by SIGTERM"))
    try:
        yield
    finally:
        signal(SIGTERM, before)


class Ground:
    """The machines of a fleet, its nodes. All of them are this machine, at free ports, until cables are laid. Then each node
    is a network namespace, and so is the switch. Its cable can be pulled: what is sent then is lost, without an error.
    """

    has_cables = False

    def make_nodes(self) -> None:
        """Makes the nodes as network namespaces, and joins each to the switch. That takes root, and `ip`. Prints it if
        it can't be done."""
        switch = OWN + "switch"
        try:
            for node in ("switch", *NODES):
                ip("netns", "add", OWN + node)
            self.has_cables = True
            ip("-n", switch, "link", "add", "bridge", "type", "bridge")
            ip("-n", switch, "link", "set", "bridge", "up")
            for node in NODES:
                own = OWN + node
                ip("-n", switch, "link", "add", node, "type", "veth", "peer", "name", "cable", "netns", own)
                ip("-n", switch, "link", "set", node, "master", "bridge", "up")
                ip("-n", own, "addr", "add", f"{self.address(node)}/24", "dev", "cable")
                ip("-n", own, "link", "set", "cable", "up")
                ip("-n", own, "link", "set", "lo", "up")
        except subprocess.CalledProcessError as cause:
            self.has_cables = False
            print(f"fleet: no network namespaces can be made ({cause.stderr.decode().strip()})", flush=True)

    def address(self, node: str) -> str:
        """The address of a node, as other nodes see it."""
        return f"10.77.0.{11 + NODES.index(node)}" if self.has_cables else "127.0.0.1"

    def port(self, usual: int) -> int:
        """A port for a program: `usual` if a node has ports of its own, else any free one."""
        return usual if self.has_cables else free_port()

    @contextmanager
    def pulled(self, node: str) -> Iterator[None]:
        """Pulls a node's cable within the context."""
        link = ["-n", OWN + "switch", "link", "set", node]
        ip(*link, "nomaster")
        try:
            yield
        finally:
            ip(*link, "master", "bridge")

    @contextmanager
    def within(self, node: str) -> Iterator[None]:
        """Runs a `with` block in which this thread makes its sockets at a node."""
        if not self.has_cables:
            yield
            return
        libc = ctypes.CDLL(None, use_errno=True)
        with open("/proc/thread-self/ns/net", "rb") as home, open(f"/run/netns/{OWN}{node}", "rb") as there:
            if libc.setns(there.fileno(), CLONE_NEWNET):
                raise OSError(ctypes.get_errno(), "setns")
            try:
                yield
            finally:
                libc.setns(home.fileno(), CLONE_NEWNET)

    def close(self) -> None:
        """Removes all nodes. Programs that still run there go on without a network."""
        for node in (*reversed(NODES), "switch"):
            with suppress(subprocess.CalledProcessError):
                ip("netns", "del", OWN + node)


class Service:
    """A program at a node, which can be killed, stopped and started again."""

    def __init__(self, ground: Ground, node: str, words: list[str], log: Path, env: Env = None) -> None:
        first = ["ip", "netns", "exec", OWN + node] if ground.has_cables else []
        self.words, self.log, self.env = [*first, *words], log, os.environ | dict(env or {})
        # All processes so far. The last one is the program, `process`.
        self.processes: list[Popen[bytes]] = []

    def start(self, *more: str) -> None:
        """Starts the program, with these arguments too, and doesn't wait. Its log gets what it writes."""
        with self.log.open("ab") as log:
            self.process = Popen([*self.words, *more], stdin=DEVNULL, stdout=log, stderr=log, env=self.env)
        self.processes.append(self.process)

    def kill(self) -> None:
        """Ends the program, and those that ran before, by SIGKILL, and waits until they have ended."""
        for process in self.processes:
            process.kill()
            process.wait()

    @contextmanager
    def stopped(self) -> Iterator[None]:
        """Stops the program by SIGSTOP within the context. What is sent to it waits."""
        self.process.send_signal(SIGSTOP)
        try:
            yield
        finally:
            self.process.send_signal(SIGCONT)

    def __enter__(self) -> Self:
        self.start()
        return self

    def __exit__(self, *_: object) -> None:
        self.kill()

    def of_process(self, name: str) -> int:
        """A number that the system knows of the process, as VmRSS (in kB) or Threads; 0 if it knows none."""
        return of_process(self.process.pid, name)

    def seconds(self) -> float:
        """The processor time of the process so far, in seconds."""
        stat = Path(f"/proc/{self.process.pid}/stat").read_text(encoding="utf-8")
        user, system = stat.rpartition(")")[2].split()[11:13]
        return (int(user) + int(system)) / os.sysconf("SC_CLK_TCK")


class Proxy(Service):
    """HAProxy at a node, with a file of deploy/, and with values of its own. It answers commands at the socket `admin`."""

    def __init__(self, fleet: Fleet, node: str, file: str, name: str, own: Env = None) -> None:
        self.admin = str(fleet.folder / f"{name}.sock")
        values = {**fleet.values, **dict.fromkeys(ADMINS, self.admin), **(own or {})}
        words = ["haproxy", "-db", "-f", str(DEPLOY / file)]
        super().__init__(fleet.ground, node, words, fleet.folder / f"{name}.log", values)

    def start(self, *more: str) -> None:
        """Starts the proxy, and waits until it answers. Fails if it doesn't within `START` seconds."""
        super().start(*more)
        wait_until(lambda: self.is_there() or self.process.poll() is not None, START)
        assert self.is_there(), f"{' '.join(self.words)} is not there; {self.log} says why"

    def is_there(self) -> bool:
        """Whether this very process answers."""
        with suppress(OSError):
            return f"Pid: {self.process.pid}\n" in self.ask("show info")
        return False

    def ask(self, command: str) -> str:
        """Sends a command to the proxy's admin socket, and returns the answer."""
        with socket.socket(socket.AF_UNIX) as admin:
            admin.settimeout(5)
            admin.connect(self.admin)
            admin.sendall(command.encode() + b"\n")
            return admin.makefile(encoding="utf-8").read()

    def stats(self, server: str, backend: str = "fleet") -> dict[str, str]:
        """The proxy's counts for a server by their names. They are empty if it has no such server."""
        rows = csv.DictReader(self.ask("show stat").lstrip("# ").splitlines())
        return next((row for row in rows if (row["pxname"], row["svname"]) == (backend, server)), {})

    def state(self, server: str, backend: str = "fleet") -> str:
        """A server's status, as UP, DOWN, DRAIN or MAINT. It is empty if the proxy has no such server."""
        return self.stats(server, backend).get("status", "").partition(" ")[0]

    def is_up(self, server: str, backend: str = "fleet") -> bool:
        """Whether the proxy has looked at a server, and found it up. Before that it takes each server for one that is
        up."""
        return self.state(server, backend) == "UP" and "OK" in self.stats(server, backend)["check_status"]


class Fleet:
    """Three hosts with their edge proxies, and a front."""

    def __init__(self, ground: Ground, cam6: str, folder: Path, users: int, boards: int) -> None:
        self.ground, self.folder, self.users = ground, folder, users
        self.ports = {name: ground.port(7001) for name in HOSTS}
        self.edge_ports = {name: ground.port(7200) for name in HOSTS}
        self.certificates, self.authority = folder / "certificates", folder / "certificates" / "ca.pem"
        words = [str(DEPLOY / "certificates"), str(self.certificates), NAME, *HOSTS]
        subprocess.run(words, check=True, stdout=DEVNULL)
        self.values = WAITS | {"CAM6_USERS": str(users), "CAM6_MOST": "1000", "CAM6_LUA": str(DEPLOY / "renumber.lua")}
        self.values["CAM6_CERTIFICATES"] = str(self.certificates)
        self.values |= {
            f"CAM6_{name.upper()}": f"{ground.address(name)}:{port}" for name, port in self.edge_ports.items()
        }
        self.values |= {name: f"127.0.0.1:{ground.port(usual)}" for name, usual in PORTS.items()}
        self.values |= {name: f"{ground.address('front')}:{ground.port(usual)}" for name, usual in TLS_PORTS.items()}
        self.plain, self.tls = self.port_of("CAM6_PLAIN"), self.port_of("CAM6_TLS")
        serve = [cam6, "serve", f"--users={users}", f"--boards={boards}", "--side=256"]
        self.hosts = {name: self.service(name, name, [*serve, f"--port={port}"]) for name, port in self.ports.items()}
        self.edges = {name: self.edge(name, self.edge_ports[name], f"127.0.0.1:{self.ports[name]}") for name in HOSTS}
        self.front = Proxy(self, "front", "haproxy.cfg", "haproxy")

    def port_of(self, value: str) -> int:
        """The port of the address that is this one of the fleet's values."""
        return int(self.values[value].rpartition(":")[2])

    def service(self, node: str, name: str, words: list[str], env: Env = None) -> Service:
        """A program at a node, not yet started, with a log of this name."""
        return Service(self.ground, node, words, self.folder / f"{name}.log", env)

    def edge(self, node: str, port: int, host: str) -> Proxy:
        """The edge proxy of a host, not yet started."""
        own = {"CAM6_EDGE": f"{self.ground.address(node)}:{port}", "CAM6_HOST": host, "CAM6_NODE": node}
        return Proxy(self, node, "haproxy-edge.cfg", f"{node}-{port}", own)

    def start(self) -> None:
        """Starts all programs, and waits until the front has all hosts."""
        for service in (*self.hosts.values(), *self.edges.values(), self.front):
            service.start()
        assert self.is_ready(START), f"the hosts are {[*map(self.front.state, HOSTS)]}; {self.folder} has the logs"

    def kill(self) -> None:
        """Ends all programs."""
        for service in (self.front, *self.edges.values(), *self.hosts.values()):
            service.kill()

    def is_ready(self, seconds: float) -> bool:
        """Waits until the front has found all hosts up, for so many seconds at most. Returns whether it has."""
        return wait_until(lambda: all(map(self.front.is_up, HOSTS)), seconds)

    def stream_to(self, node: str, address: str, port: int, source: str = "") -> socket.socket:
        """A connection from a node to an address, from the address `source` if there is one."""
        with self.ground.within(node):
            return socket.create_connection((address, port), PATIENCE, (source, 0) if source else None)

    def by_tls(self, stream: socket.socket, name: str | None = NAME, certificate: str = "") -> Peer:
        """Starts TLS on a connection, with this file of the fleet as the client's certificate, if any. Sends `name`,
        and checks it if it is the usual one."""
        context = ssl.create_default_context(cafile=self.authority)
        context.check_hostname = name == NAME
        if certificate:
            context.load_cert_chain(self.certificates / certificate)
        return Peer(context.wrap_socket(stream, server_hostname=name))

    def user(self, source: str = "") -> Peer:
        """A connection to the front without TLS, from its own machine."""
        return Peer(self.stream_to("front", "127.0.0.1", self.plain, source))

    def tls_user(self, node: str = "users") -> Peer:
        """A connection to the front by TLS."""
        return self.by_tls(self.stream_to(node, self.ground.address("front"), self.tls))

    def at_host(self, name: str) -> Peer:
        """A connection to a host, from its own machine."""
        return Peer(self.stream_to(name, "127.0.0.1", self.ports[name]))

    def answer_of(self, line: str) -> str | None:
        """What a line is answered at the front, or None if the connection is over before."""
        with self.user() as one, suppress(*OVER):
            return one.ask(line)
        return None

    def is_taken(self, name: str, seat: int) -> bool:
        """Whether a seat of a host is taken. If not, it is for a moment, until the host has seen that this one is
        over."""
        with self.at_host(name) as one, suppress(*OVER):
            return one.ask(SEAT % seat) == TAKEN
        return False

    def hosts_with(self, seat: int) -> list[str]:
        """The hosts at which a seat is taken."""
        return [name for name in HOSTS if self.is_taken(name, seat)]
