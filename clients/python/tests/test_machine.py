"""Machines: every call against the oracle, and bad input of every call."""

from __future__ import annotations

import contextlib
import inspect
import json
import random
from collections.abc import Callable, Sequence
from concurrent.futures import ThreadPoolExecutor
from typing import Any

import pytest
from by_oracle import bits_of, digits, value
from calls import Calls
from fakes import BALLS, PARITY, OracleMachine, compact
from oracle.lines import COMMANDS
from support.programs import Host
from support.stateful import play

import cam6
from cam6.errors import FAULTS
from cam6.machine import Machine
from cam6.pipeline import Pipeline

Local = Callable[..., Machine]
Kind = type[Exception]


@pytest.mark.slow
@pytest.mark.parametrize("limit", [128, 256, 512])
def test_random_sessions(limit: int, cam6: str) -> None:
    """Random commands of all kinds have the replies of the oracle."""
    play(lambda: Calls(cam6, limit), examples=40, steps=30)


def test_each_command_by_its_call(cam6: str) -> None:
    """By hand, so that none is left to chance."""
    calls = Calls(cam6, 128)
    calls.words.clear()
    steps: list[dict[str, Any]] = [{"do": "run", "n": 3}, {"do": "back", "n": 1}]
    looks = [{"do": "row", "plane": 0, "row": 3}, {"do": "plane", "plane": 0}, {"do": "colours", "row": 3}]
    for line in (
        *(compact(do="side", side=128), compact(do="set", plane=0, row=3, bits="8" * 32)),
        compact(do="rule", name="B", half="A", hood="N/MARG", minor="&/PHASES", text=BALLS),
        compact(do="cycle", entries=[{"a": "B", "b": "-", "grid": "ODD", "phase": 0}]),
        *(
            compact(**arguments)
            for arguments in [*steps, *looks, {"do": "count", "mask": 2}, {"do": "rules"}, {"do": "save"}]
        ),
        *(compact(do="map", colours=[*range(15, -1, -1)]), OracleMachine(128).load_line()),
        compact(do="clear", plane=0),
        compact(do="drop", name="B"),
    ):
        calls.send_line(line)
    calls.teardown()
    assert calls.words == set(COMMANDS)


def test_put_and_cells(local: Local) -> None:
    oracle, source, machine = OracleMachine(128), random.Random(9), local(side_limit=128)
    for plane in range(4):
        machine.random(plane, 0.4, seed=plane)
        bits = [[source.randrange(2) for _ in range(50)] for _ in range(9)]
        machine.put(plane, bits, x=100, y=-5)
        rows = value(machine.plane(plane))
        assert [[rows[(j - 5) % 128][(100 + i) % 128] for i in range(50)] for j in range(9)] == bits
        for row, cells in enumerate(rows):
            oracle.ask(do="set", plane=plane, row=row, bits=digits(cells))
    assert machine.save() == oracle.load_line()
    states = value(machine.cells())
    for mask in (1, 2, 0xFFFE, 0x8001):
        assert machine.count(mask) == sum(mask >> state & 1 for row in states for state in row)
        assert machine.count(mask) == oracle.ask(do="count", mask=mask)["count"]
    assert machine.count([0, 15]) == machine.count(0x8001)
    machine.colour_map([*range(15, -1, -1)])
    assert machine.colours(3) == "".join(f"{15 - state:x}" for state in states[3])


def test_ask(local: Local) -> None:
    machine = local()
    for line in ('{"do":"rules"}', b'{"do":"rules"}', {"do": "rules"}):
        assert machine.ask(line) == {"names": [], "ok": "rules"}
    machine.ask('{"do": "side", "side": 128}')
    assert machine.side == 128
    with pytest.raises(FAULTS[65]):
        machine.ask({"do": "side", "side": 99})
    with pytest.raises(FAULTS[2]):
        machine.ask("")
    assert machine.side == 128
    saved = machine.save()
    machine.set_side(256)
    machine.ask(saved)
    assert (machine.side, machine.save()) == (128, saved)


def nested(count: int) -> str:
    """So many lists, one in the other."""
    return "[" * count + "]" * count


@pytest.mark.parametrize(
    ("line", "number"),
    [
        (nested(100_000), 1),
        (nested(8_000), 2),
        ('{"do":"run","n":' + nested(100_000) + "}", 1),
        ('{"do":"run","n":' + nested(8_000) + "}", 2),
        ('{"do":"side","side":128,"x":' + nested(8_000) + "}", 2),
        ('{"do":"load","machine":' + nested(100_000) + "}", 2),
    ],
    ids=["long", "lists", "long_run", "run", "side", "load"],
)
def test_what_is_nested_too_deep_for_python(
    line: str, number: int, local: Local, host: Callable[..., Host], connected: Callable[..., Machine]
) -> None:
    """The machine refuses it, for its length or as no JSON. So it does through a journal."""
    for machine in (local(), connected(host("--users=1").port, limit=256)):
        with pytest.raises(FAULTS[number]) as raised:
            machine.ask(line)
        assert raised.value.line == line.encode()
        faults = machine.pipeline().ask(line).ask({"do": "side", "side": 128}).execute(raise_on_error=False)
        assert [type(fault) for fault in faults] == [FAULTS[number], dict]
        assert machine.side == 128


def test_a_mapping_that_is_nested_too_deep_for_python(machine: Machine) -> None:
    """JSON can't say it, so nothing is sent."""
    deep: list[Any] = []
    for _ in range(100_000):
        deep = [deep]
    with pytest.raises(ValueError, match="nested too deep"):
        machine.ask({"do": deep})
    assert machine.rules() == []


def test_more_steps_than_a_command_may_ask_for(local: Local) -> None:
    """The rule does nothing, so that it is quick."""
    machine = local(side_limit=128)
    machine.cycle({}, {}, {})
    assert machine.run(0) == 0
    assert machine.run(65_536) == 65_536 % 3
    assert machine.back(65_538) == (65_536 - 65_538) % 3
    with pytest.raises(FAULTS[63]):
        local().run(1_000_000)


def test_a_saved_machine_is_loaded_elsewhere(local: Local) -> None:
    one, other = local(side_limit=512), local()
    one.random(2, seed=1)
    other.load(one.save() + b"\n")
    assert other.save() == one.save()
    one.set_side(512)
    with pytest.raises(FAULTS[67]):
        other.load(one.save())
    assert other.side == 256


def cycle_of(machine: Machine) -> Any:
    """The entries of a machine's cycle."""
    return json.loads(machine.save())["machine"]["cycle"]


class Balls:
    """What a builder of rules returns."""

    text, name, half, hood, minor = BALLS, "balls", "A", "N/MARG", "&/PHASES"
    cycle = (("EVEN", 0), ("ODD", 0))


def test_rules_of_builders(local: Local) -> None:
    value: Any = Balls()
    machine = local()
    machine.rule("mine", value)
    machine.cycle(value)
    assert cycle_of(machine) == [{"a": "mine", "b": "-", "grid": grid, "phase": 0} for grid in ("EVEN", "ODD")]
    machine.rule(Balls())
    assert machine.rules() == ["mine", "balls"]
    with pytest.raises(ValueError):
        machine.rule("other", value, hood="N/MARG")
    saved = json.loads(machine.save())["machine"]["rules"][0]
    assert saved == {"name": "mine", "half": "A", "hood": "N/MARG", "minor": "&/PHASES", "text": BALLS}


P_ENTRY = {"a": "P", "b": "-", "grid": "EVEN", "phase": 0}


@pytest.mark.parametrize(
    ("arguments", "want"),
    [
        (["P"], [P_ENTRY]),
        (["Q"], [{**P_ENTRY, "a": "-", "b": "Q"}]),
        ([{}], [{**P_ENTRY, "a": "-"}]),
        ([("P", "Q", "ODD", 3)], [{"a": "P", "b": "Q", "grid": "ODD", "phase": 3}]),
        ([("P",), {"b": "Q", "phase": 1}], [P_ENTRY, {**P_ENTRY, "a": "-", "b": "Q", "phase": 1}]),
        (["P"] * 16, [P_ENTRY] * 16),
    ],
)
def test_entries_of_a_cycle(arguments: list[Any], want: list[Any], machine: Machine) -> None:
    """They are names, mappings and tuples."""
    machine.rule("P", PARITY, hood="N/VONN")
    machine.rule("Q", ": Q NORTH >PLN2 ;", half="B")
    machine.cycle(*arguments)
    assert cycle_of(machine) == want


def test_a_cycle_keeps_its_rules(machine: Machine) -> None:
    machine.rule("P", PARITY, hood="N/VONN")
    machine.cycle("P")
    with pytest.raises(FAULTS[61]):
        machine.drop("P")
    machine.cycle({})
    machine.drop("P")
    with pytest.raises(FAULTS[60]):
        machine.cycle("P")


def test_frames_forward_and_back(local: Local) -> None:
    """Frames are the planes that single calls show, and the way back ends at the first one."""
    machine, one = local(side_limit=128), local(side_limit=128)
    for each in (machine, one):
        each.rule("B", BALLS, hood="N/MARG", minor="&/PHASES")
        each.cycle(("B", "-", "EVEN"), ("B", "-", "ODD"))
        each.random(0, 0.1, seed=4)
    want = []
    for _ in range(7):
        want.append(value(one.plane(0)))
        one.run(2)
    assert [value(frame) for frame in machine.frames(7, 2, ahead=3)] == want
    assert machine.save() == one.save()
    back = [value(frame) for frame in machine.frames(7, 2, back=True)]
    assert back[1:] == want[:0:-1]
    assert value(machine.plane(0)) == want[0]
    assert list(machine.frames(0)) == []


def test_a_loop_over_frames_that_is_left(machine: Machine) -> None:
    machine.cycle(*[{}] * 16)
    for number, _ in enumerate(machine.frames(10)):
        if number == 4:
            break
    assert machine.run(0) == 5


def test_frames_without_a_cycle(local: Local) -> None:
    with pytest.raises(FAULTS[63]):
        list(local(side_limit=128).frames(3))


@pytest.mark.parametrize("after", range(1, 5))
def test_replies_of_an_interrupted_call_are_dropped(
    after: int, machine: Machine, monkeypatch: pytest.MonkeyPatch
) -> None:
    """After Ctrl-C the next call has its own reply."""
    channel: Any = machine._transport
    machine.set_row(0, 0, "f" * 32)
    left, wait = [after], channel._wait

    def interrupted(*arguments: Any) -> Any:
        left[0] -= 1
        if not left[0]:
            raise KeyboardInterrupt
        return wait(*arguments)

    with monkeypatch.context() as patch:
        patch.setattr(channel, "_wait", interrupted)
        with contextlib.suppress(KeyboardInterrupt):
            machine._query([compact(do="row", plane=0, row=n) for n in range(100)] * 100)
    assert machine.count() == 128
    assert machine.rules() == []


def test_threads_have_their_own_replies(machine: Machine) -> None:
    for row in range(8):
        machine.set_row(0, row, f"{row}" * 32)

    def is_right(row: int) -> bool:
        return all(list(machine.row(0, row)) == bits_of(f"{row}" * 32) for _ in range(100))

    with ThreadPoolExecutor(8) as pool:
        assert [*pool.map(is_right, range(8))] == [True] * 8


class Nobody:
    """A transport that nothing may be sent by."""

    def query(self, sent: Sequence[bytes]) -> list[bytes]:
        """Fails, since nothing may be sent."""
        raise AssertionError(f"sent: {sent!r:.200}")

    def close(self) -> None:
        """Does nothing."""


NOT_NUMBERS: list[Any] = [True, False, 1.0, "1", None, [1], b"1", 1j]
NOT_TEXTS: list[Any] = [None, 1, b"P", ["P"], True]
# Calls with numbers, each with all numbers that are wrong in its place.
NUMBERS: dict[str, list[int]] = {"plane": [-1, 4, 2**70], "row": [-1, 128, 2**70], "n": [-1, 2**31, 2**70]}
CALLS: dict[str, dict[str, Any]] = {
    "set_row": {"plane": 0, "row": 0, "bits": "0" * 32},
    **{"clear": {"plane": 0}, "row": {"plane": 0, "row": 0}, "plane": {"plane": 0}, "random": {"plane": 0}},
    **{"run": {"n": 1}, "back": {"n": 1}, "colours": {"row": 0}, "put": {"plane": 0, "cells": [[1]]}},
}
PLACES = [(name, arguments, key) for name, arguments in CALLS.items() for key in NUMBERS if key in arguments]
RULE: dict[str, Any] = {"name": "P", "text": PARITY, "half": "A", "hood": "N/VONN", "minor": "&/CENTERS"}
NO_WORDS = {"half": ["C", "a", "", "AB"], "hood": ["MOORE", ""], "minor": ["CENTERS", ""], "text": ["\udc80"]}
NO_NAMES = ["", "-", "x" * 25, 'a"b', "a\\b", "a b", "é", "\x7f", "a\n", "\ud800"]
# A call, what it raises, and arguments of which each raises that.
Wrong = tuple[str, Kind, list[Any]]
BAD: list[Wrong] = [
    *((name, TypeError, [{**arguments, key: no} for no in NOT_NUMBERS]) for name, arguments, key in PLACES),
    *((name, ValueError, [{**arguments, key: no} for no in NUMBERS[key]]) for name, arguments, key in PLACES),
    ("set_side", ValueError, [[n] for n in (0, 1, 64, 127, 1024, 2**70)]),
    ("set_side", TypeError, [[no] for no in NOT_NUMBERS]),
    *(("rule", TypeError, [{**RULE, key: no} for no in NOT_TEXTS]) for key in RULE),
    *(("rule", ValueError, [{**RULE, key: no} for no in wrong]) for key, wrong in NO_WORDS.items()),
    ("rule", ValueError, [{**RULE, "name": no} for no in NO_NAMES]),
    ("drop", ValueError, [[no] for no in NO_NAMES]),
    ("drop", TypeError, [[no] for no in NOT_TEXTS]),
    ("colour_map", ValueError, [[range(15)], [[0] * 15 + [16]], [[0] * 15 + [-1]]]),
    ("colour_map", TypeError, [[[0] * 15 + [True]], [[0] * 15 + [1.0]], ["0" * 16], [7]]),
    ("count", ValueError, [[-1], [65536], [[16]]]),
    ("count", TypeError, [[[True]], [True], ["2"], [None]]),
    ("load", ValueError, [[b""], [b'{"do":"save"}'], [b'{"machine":{},"ok":"save"}']]),
    ("load", ValueError, [[b'{"do":"load","machine":{}}\n{"do":"rules"}']]),
    ("load", ValueError, [[b'{"do":"load","machine":' + b" " * 2_097_152]]),
    ("load", TypeError, [["{}"], [None]]),
    ("ask", ValueError, [["a\nb"], [b"\n"], ["\ud800"], [{"do": float("nan")}]]),
    ("ask", TypeError, [[7], [None], [["do"]], [{"do": ...}]]),
    ("cycle", ValueError, [[], [{}] * 17, [{"grid": "even"}], [{"phase": 4}], [{"c": "P"}], [{"a": ""}]]),
    ("cycle", ValueError, [[("P", "-", "EVEN", 0, 0)], [()]]),
    ("cycle", TypeError, [[{"grid": 1}], [{"phase": True}], [{"a": None}], [7], [b"P"]]),
    ("set_row", ValueError, [[0, 0, "0" * 64], [0, 0, [0] * 127 + [2]]]),
    ("set_row", TypeError, [[0, 0, 5], [0, 0, None]]),
    ("put", ValueError, [[0, [[2]]], [0, [[1], [1, 1]]], [0, [[1] * 129]]]),
    ("put", TypeError, [[0, "ab"], [0, [[1] * 128], 0.5]]),
    ("random", ValueError, [[0, 1.1], [0, -0.1], [0, float("nan")]]),
    ("random", TypeError, [[0, "1"], [0, True], [0, 0.5, [1]]]),
]
ONLY_MACHINES: list[Wrong] = [
    ("frames", ValueError, [[-1], [1, -1], [1, 1, 4]]),
    ("frames", TypeError, [[1.0], [1, True], [1, 1, 0, 1]]),
    ("film", ValueError, [[-1], [1, 1, 4]]),
    ("apng", ValueError, [[-1]]),
    ("apng", TypeError, [[None]]),
]


def refused(target: Any, name: str, arguments: Any, kind: Kind) -> None:
    """Fails unless a call raises an error of this kind, in one line."""
    with pytest.raises(kind) as raised:
        if isinstance(arguments, dict):
            getattr(target, name)(**arguments)
        else:
            getattr(target, name)(*arguments)
    assert "\n" not in str(raised.value)


def each(wrong: list[Wrong]) -> list[Any]:
    """Each call with its arguments, as parameters of a test."""
    every = [(name, arguments, kind) for name, kind, many in wrong for arguments in many]
    return [pytest.param(*one, id=f"{one[0]}-{one[1]!r:.40}-{one[2].__name__}") for one in every]


@pytest.mark.parametrize(("name", "arguments", "kind"), each(BAD))
def test_bad_input(name: str, arguments: Any, kind: Kind) -> None:
    """Each kind of bad input of each call raises TypeError or ValueError, and nothing is sent."""
    refused(Machine(Nobody(), 128), name, arguments, kind)
    pipeline = Pipeline(Machine(Nobody(), 128))
    refused(pipeline, name, arguments, kind)
    assert len(pipeline) == 0


@pytest.mark.parametrize(("name", "arguments", "kind"), each(ONLY_MACHINES))
def test_bad_input_of_pictures(name: str, arguments: Any, kind: Kind) -> None:
    refused(Machine(Nobody(), 128), name, arguments, kind)


def public(kind: type) -> dict[str, Any]:
    """The public names of a class."""
    return {name: value for name, value in vars(kind).items() if not name.startswith("_")}


def test_each_call_is_tried_with_bad_input() -> None:
    free = {"close", "pipeline", "rules", "save", "cells", "picture", "png", "show", "side"}
    assert set(public(Machine)) - free == {name for name, _, _ in BAD + ONLY_MACHINES}


@pytest.mark.parametrize(
    ("wrong", "kind"),
    [
        ([{"side_limit": 64}, {"deadline": 0}], ValueError),
        ([{"side_limit": True}, {"program": ""}, {"program": 7}, {"deadline": True}], TypeError),
    ],
)
def test_bad_input_of_local(wrong: list[dict[str, Any]], kind: Kind) -> None:
    for options in wrong:
        with pytest.raises(kind):
            print(cam6.local(**options), "by", options)


@pytest.mark.parametrize(
    ("key", "kind", "wrong"),
    [
        ("host", ValueError, [[], "", "a b", "a:x", "a:99999"]),
        ("host", TypeError, [7, [("a",)]]),
        ("port", ValueError, [0, 65536]),
        ("port", TypeError, ["6006"]),
        ("limit", ValueError, [100]),
        ("limit", TypeError, [256.0]),
        ("seats", ValueError, [0, 33]),
        ("seat", ValueError, [0]),
        ("seat", TypeError, [True]),
        ("tls", TypeError, ["yes"]),
        ("server_name", TypeError, [7]),
        ("sync", ValueError, ["always"]),
        ("sync", TypeError, [1]),
        ("every_seconds", ValueError, [-1]),
        ("every_seconds", TypeError, ["1"]),
        ("deadline", ValueError, [0, float("nan")]),
        ("deadline", TypeError, [True]),
        ("journal", TypeError, [7, ""]),
    ],
)
def test_bad_input_of_connect(key: str, kind: Kind, wrong: list[Any]) -> None:
    for one in wrong:
        with pytest.raises(kind):
            print(cam6.connect(**{"host": "h", key: one}), "by", one)


@pytest.mark.parametrize(("kind", "name"), [(kind, name) for kind in (Machine, Pipeline) for name in public(kind)])
def test_each_call_has_a_docstring(kind: type, name: str) -> None:
    assert inspect.getdoc(getattr(kind, name))


OWN = {"execute", "reset", "side"}


@pytest.mark.parametrize("name", sorted(set(public(Pipeline)) - OWN))
def test_a_call_of_a_pipeline_has_the_arguments_of_the_machines(name: str) -> None:
    here, there = (inspect.signature(getattr(kind, name)).parameters for kind in (Pipeline, Machine))
    assert list(here.values()) == list(there.values())


def test_a_pipeline_has_all_calls() -> None:
    not_later = {"close", "pipeline", "side", "frames", "picture", "png", "film", "apng", "show"}
    assert set(public(Machine)) - not_later == set(public(Pipeline)) - OWN
