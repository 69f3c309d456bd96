"""How a machine is started: a program of one's own, or a seat of a host."""

from __future__ import annotations

import os
import ssl
from collections.abc import Sequence
from typing import Any, Optional, Union

from . import lines
from .cells import SIDES
from .channels import Channel, Process
from .journal import MEMORY, SYNCS, Journal
from .machine import Machine, side_of
from .sessions import Address, Connector, Session, take_seat

# The most seats that a host has.
MOST_SEATS = 32

Host = Union[str, Sequence[Union[str, tuple[str, int]]]]


def local(
    program: Union[str, os.PathLike[str]] = "cam6", side_limit: int = 256, *, deadline: Optional[float] = None
) -> Machine:
    """Starts `cam6 alone`, and returns its machine.

    `program` is its path, or a name on the PATH. `side_limit` is the largest side that the machine may have: 128, 256
    or 512. The machine begins with 256 columns and rows, or with 128 if that is the limit.

    `deadline` is how many seconds a call may take, above 0. After them the program is stopped, and the call raises
    `Lost`. None stands for no end. A pipeline is one call, and a long `run` is one for each 65,535 steps.

    Raises `Lost` if there is no such program, or if it ends at once.
    """
    limit = checked_limit(side_limit, "side_limit")
    until = None if deadline is None else checked_seconds(deadline, "deadline", False)
    path = os.fspath(program)
    if not isinstance(path, str) or not path:
        raise TypeError(f"program is a path, not {program!r:.60}")
    return machine_on(Process([path, "alone", "--side", str(limit)], until))


def connect(
    host: Host,
    port: int = 6006,
    *,
    limit: int = 256,
    seats: int = 32,
    seat: Optional[int] = None,
    tls: Union[None, bool, ssl.SSLContext] = None,
    server_name: Optional[str] = None,
    journal: Union[None, str, os.PathLike[str]] = None,
    sync: str = "checkpoint",
    every_seconds: float = 0.1,
    deadline: Optional[float] = 60,
) -> Machine:
    """Takes a seat of a host that runs `cam6 serve`, and returns the machine of that seat.

    `host` is a name or an address, or a list of them. Each may have a port of its own, as `"name:7000"` or
    `("name", 7000)`. The others have `port`, 1 to 65535. `seat` is 1 to 32. None stands for the first free one of 1 to
    `seats`. `tls` is True for the system's certificates, or an `ssl.SSLContext`. `server_name` is the name in the
    host's certificate, if it is not that of the host.

    Without a journal you get the machine that is at the seat, as its last user left it. If the connection ends, calls
    raise `Lost`.

    With a journal you get a machine that outlives its hosts. It begins blank, or as the journal has it. If the
    connection ends, it goes on at any free seat of any of the hosts, and `seat` is only the first one that is tried.
    `journal` is the path of a file, or `":memory:"`. These have a meaning only with a journal:

    - `limit`: the largest side of each host's machines (`--side`): 128, 256 or 512.
    - `sync`: when the system has to write the file to its disk. `"checkpoint"` as it is opened and at each checkpoint,
      `"each"` also before each command, `"none"` never. If only the program ends, nothing is lost with any of them.
    - `every_seconds`: a checkpoint is made when answers took so long together, 0 or more. Long runs are split so.
    - `deadline`: seconds without any progress after which calls raise `GaveUp`, above 0. None stands for no end.

    Raises `Lost` if no host can be reached, `NoSeat` if no seat is free, `Diverged` if the host has another limit, and
    `BadJournal`. A journal that has commands already waits for a host until the deadline, and raises `GaveUp`.
    """
    connector = Connector(
        checked_addresses(host, lines.number(port, "port", 1, 65_535)),
        lines.number(seats, "seats", 1, MOST_SEATS),
        None if seat is None else lines.number(seat, "seat", 1, MOST_SEATS),
        checked_tls(tls),
        None if server_name is None else lines.text_of(server_name, "server_name"),
    )
    side_limit = checked_limit(limit, "limit")
    lines.one_of(sync, "sync", SYNCS)
    every = checked_seconds(every_seconds, "every_seconds", True)
    until = None if deadline is None else checked_seconds(deadline, "deadline", False)
    if journal is None:
        connector.is_bound = seat is not None
        return machine_on(take_seat(connector))
    path = os.fspath(journal)
    if not isinstance(path, str) or not path:
        raise TypeError(f"journal is a path or {MEMORY!r}, not {journal!r:.60}")
    session = Session(connector, Journal(None if path == MEMORY else path, sync, side_limit), every, until)
    return Machine(session, session.journal.side, session)


def machine_on(transport: Channel) -> Machine:
    """Returns the machine on a channel. If it doesn't answer, closes the channel and raises `Lost`."""
    try:
        return Machine(transport, side_of(transport))
    except BaseException:
        transport.close()
        raise


def checked_limit(value: Any, name: str) -> int:
    """Returns a side that may be the limit of a machine. Raises `TypeError` or `ValueError`, which says `name`, unless
    it is 128, 256 or 512."""
    limit = lines.number(value, name, 1, lines.LARGEST)
    if limit not in SIDES:
        raise ValueError(f"{name} is 128, 256 or 512, not {limit}")
    return limit


def checked_seconds(value: Any, name: str, is_zero_taken: bool) -> float:
    """Returns a number of seconds as a float: above 0, or from 0 if `is_zero_taken`, and below 1,000,000. Raises
    `TypeError` or `ValueError`, which says `name`."""
    if isinstance(value, (bool, str, bytes)):
        raise TypeError(f"{name} is a number of seconds, not {value!r:.60}")
    try:
        seconds = float(value)
    except (TypeError, ValueError):
        raise TypeError(f"{name} is a number of seconds, not {value!r:.60}") from None
    if not 0 <= seconds < 1e6 or not seconds and not is_zero_taken:
        raise ValueError(f"{name} is a number of seconds {'from 0' if is_zero_taken else 'above 0'}, not {value!r}")
    return seconds


def checked_tls(value: Any) -> Union[None, bool, ssl.SSLContext]:
    """Returns `value` if it is None, a truth value or an `ssl.SSLContext`. Raises `TypeError` if not."""
    if value is None or isinstance(value, (bool, ssl.SSLContext)):
        return value
    raise TypeError(f"tls is None, True or an ssl.SSLContext, not {value!r:.60}")


def checked_addresses(hosts: Any, port: int) -> list[Address]:
    """The addresses of one host or of a list, without the second of equal ones. `port` is for those without their own.
    Raises `TypeError` or `ValueError`."""
    if isinstance(hosts, str):
        hosts = [hosts]
    elif not isinstance(hosts, Sequence) or isinstance(hosts, (bytes, bytearray)):
        raise TypeError(f"host is a name, or a list of names, not {hosts!r:.60}")
    addresses = [checked_address(host, port) for host in hosts]
    if not addresses:
        raise ValueError("host is a name, or a list of at least one name")
    return list(dict.fromkeys(addresses))


def checked_address(host: Any, port: int) -> Address:
    """The address of a name, which gets `port`, of a text "name:port", or of a pair of both. Raises `TypeError` or
    `ValueError`."""
    if isinstance(host, str):
        name, colon, own = host.partition(":")
        if colon and ":" not in own:
            if not own.isascii() or not own.isdigit():
                raise ValueError(f"host has a port of 1 to 65535 after its colon, not {own!r:.60}")
            host, port = name, int(own)
    elif isinstance(host, Sequence) and not isinstance(host, (bytes, bytearray)) and len(host) == 2:
        host, port = host
    else:
        raise TypeError(f"host is a name, or a pair of a name and a port, not {host!r:.60}")
    name = lines.text_of(host, "host")
    if not name or any(letter.isspace() for letter in name) or "\0" in name:
        raise ValueError(f"host is the name of a computer, not {name!r:.60}")
    return name, lines.number(port, "port", 1, 65_535)
