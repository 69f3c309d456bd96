"""Pipelines: many calls in one write, against the oracle."""

from __future__ import annotations

import random
from collections.abc import Callable

import pytest
from by_oracle import value
from calls import Batches
from fakes import Breaking, compact
from oracle.machine import answers
from support.programs import Host
from support.stateful import play

import cam6
from cam6 import Machine
from cam6.errors import FAULTS

Local = Callable[..., Machine]


def looks(source: random.Random, count: int) -> list[bytes]:
    """Lines that a machine of the oracle answers quickly, some of them with faults."""
    number = source.randrange
    ways: list[Callable[[], bytes]] = [
        lambda: compact(do="set", plane=number(4), row=number(128), bits=f"{source.getrandbits(128):032x}"),
        lambda: compact(do="row", plane=number(4), row=number(130)),
        lambda: compact(do="rules"),
        lambda: compact(do="run", n=1),
        lambda: b"no command",
    ]
    return [source.choices(ways, [8, 6, 1, 1, 1])[0]() for _ in range(count)]


@pytest.mark.slow
def test_calls_in_batches_return_what_they_return_one_by_one(cam6: str) -> None:
    play(lambda: Batches(cam6, 512), examples=40, steps=30)


@pytest.mark.slow
@pytest.mark.parametrize("where", ["local", "connection", "journal"])
def test_a_hundred_thousand_lines(where: str, local: Local, host: Callable[..., Host]) -> None:
    """Both sides would wait for each other if they were all written first: they are 10 MB, and so are the replies."""
    # Once all rows are set, the same lines have the same replies each time.
    some = looks(random.Random(1), 1000)
    first = answers(some * 2, 128)
    sent, want = some * 100, first[:1000] + first[1000:] * 99
    if where == "local":
        machine = local(side_limit=128)
    else:
        port = host("--users=4", "--side=128", "--boards=1").port
        machine = cam6.connect("127.0.0.1", port, limit=128, journal=":memory:" if where == "journal" else None)
    with machine:
        assert machine._query(sent) == want
        assert machine.session is None or machine.session.asked == 100_000


def test_the_first_fault_is_raised_with_its_place(local: Local) -> None:
    """What stands after it is done."""
    many = local(side_limit=128).pipeline().set_row(0, 0, "f" * 32).run().drop("P").set_row(0, 1, "f" * 32).count()
    assert len(many) == 5
    with pytest.raises(FAULTS[63]) as raised:
        many.execute()
    assert raised.value.index == 1
    results = raised.value.results
    assert results and (results[0], results[3], results[4]) == (None, None, 256)
    assert isinstance(results[2], FAULTS[60])
    assert many.execute() == []


def test_a_block_executes_at_its_end(machine: Machine) -> None:
    with machine.pipeline() as many:
        many.set_row(0, 0, "f" * 32)
        assert machine.count() == 0
    assert machine.count() == 128


def test_a_block_that_raises_does_nothing(machine: Machine) -> None:
    machine.set_row(0, 0, "f" * 32)
    with pytest.raises(KeyError):
        with machine.pipeline() as many:
            many.clear(0)
            raise KeyError
    assert machine.count() == 128
    assert len(many) == 0


def test_a_pipeline_knows_the_side_that_its_calls_make(local: Local) -> None:
    machine = local()
    saved = machine.save()
    many = machine.pipeline().set_side(128).set_row(0, 127, "f" * 32)
    assert (many.side, machine.side) == (128, 256)
    with pytest.raises(ValueError):
        many.set_row(0, 128, "f" * 32)
    many.count().load(saved).set_row(3, 255, "1" * 64).ask('{"do":"rules"}').count()
    assert many.execute() == [None, None, 128, None, None, {"names": [], "ok": "rules"}, 64]
    assert machine.side == 256


def test_put_random_and_cells(local: Local) -> None:
    one, other = local(side_limit=128), local(side_limit=128)
    bits = [[x % 3 == 0 for x in range(128)] for _ in range(5)]
    one.put(1, bits, x=7, y=126)
    one.random(2, 0.3, seed="a")
    other.pipeline().put(1, bits, x=7, y=126).random(2, 0.3, seed="a").execute()
    assert one.save() == other.save()
    with pytest.raises(ValueError, match="128 cells"):
        other.pipeline().put(1, [[1]])
    [states] = other.pipeline().cells().execute()
    assert value(states) == value(one.cells())


def test_a_host_that_goes_away_in_the_middle(breaking: Callable[..., Breaking]) -> None:
    port = breaking(lambda number, line: "after" if number == 50 else None).port
    with cam6.connect("127.0.0.1", port) as machine:
        many = machine.pipeline()
        for _ in range(100):
            many.rules()
        with pytest.raises(cam6.Lost):
            many.execute()


@pytest.mark.parametrize("reply", [b"", b"hello", b'{"ok":"other"}', b'{"fault":5}', b"[]"])
def test_replies_that_no_cam6_gives_are_reported(reply: bytes, breaking: Callable[..., Breaking]) -> None:
    """They don't pass for values."""
    calls: dict[str, list[int]] = {"clear": [0], "row": [0, 0], "plane": [0], "rules": [], "run": [1], "colours": [0]}
    for name, arguments in (calls | {"count": [1], "save": [], "cells": []}).items():
        host = breaking(lambda number, line: reply if number > 1 else None)
        with cam6.connect("127.0.0.1", host.port) as machine:
            with pytest.raises(cam6.Cam6Error, match="no reply of cam6"):
                getattr(machine, name)(*arguments)


def test_more_replies_than_lines(breaking: Callable[..., Breaking]) -> None:
    reply = b'{"names":[],"ok":"rules"}\nmore\nmore'
    host = breaking(lambda number, line: reply if number > 1 else None)
    with cam6.connect("127.0.0.1", host.port) as machine:
        with pytest.raises(cam6.Lost, match="a line that was not sent"):
            machine.rules()
            machine.rules()
