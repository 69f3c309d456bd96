"""Lines: each is a command as the oracle's reader reads it, and has the values of the call's arguments."""

from __future__ import annotations

import json
from typing import Any

import pytest
from fakes import PARITY, OracleMachine
from oracle.lines import COMMANDS, is_command, read_line

from cam6 import lines
from cam6.errors import Cam6Error
from cam6.lines import Call

ENTRY = {"a": "P", "b": "-", "grid": "ODD", "phase": 2}
RULE = {"name": "a'#~", "half": "B", "hood": "N/MARG-HV", "minor": "&/HV", "text": ': R "\\\t\r\n\u007f\u2028é ;'}
BLANK = lines.blank(128)
CALLS: list[tuple[Call[Any], dict[str, Any]]] = [
    (lines.set_row(3, 127, "Ff" * 16, 128), {"do": "set", "plane": 3, "row": 127, "bits": "Ff" * 16}),
    (lines.set_row(0, 0, bytes(128), 128), {"do": "set", "plane": 0, "row": 0, "bits": "0" * 32}),
    (lines.clear(2), {"do": "clear", "plane": 2}),
    (lines.row(1, 2, 128), {"do": "row", "plane": 1, "row": 2}),
    (lines.plane(0), {"do": "plane", "plane": 0}),
    (lines.rule(**RULE), {"do": "rule", **RULE}),
    (lines.drop("P"), {"do": "drop", "name": "P"}),
    (lines.rules(), {"do": "rules"}),
    (lines.cycle([ENTRY], {}), {"do": "cycle", "entries": [ENTRY]}),
    (lines.steps("run", 7), {"do": "run", "n": 7}),
    (lines.steps("back", 65535), {"do": "back", "n": 65535}),
    (lines.set_side(512), {"do": "side", "side": 512}),
    (lines.colour_map(range(16)), {"do": "map", "colours": list(range(16))}),
    (lines.colours(127, 128), {"do": "colours", "row": 127}),
    (lines.count(65535), {"do": "count", "mask": 65535}),
    (lines.save(), {"do": "save"}),
    (lines.load(BLANK), json.loads(BLANK)),
]


@pytest.mark.parametrize(("call", "want"), CALLS, ids=[want["do"] for _, want in CALLS])
def test_a_line_has_the_values_of_the_arguments(call: Call[Any], want: dict[str, Any]) -> None:
    [line] = call.lines
    assert read_line(line, is_command) == want


def test_each_command_has_a_line() -> None:
    assert {want["do"] for _, want in CALLS} == set(COMMANDS)


@pytest.mark.parametrize(
    ("call", "count"),
    [(lines.states(), 4), (lines.all_colours(256), 256), (lines.set_rows(1, [(0, "0" * 32)] * 3), 3)],
    ids=["states", "all_colours", "set_rows"],
)
def test_calls_of_many_lines(call: Call[Any], count: int) -> None:
    assert len(call.lines) == count


@pytest.mark.parametrize("n", [0, 1, 65535, 65536, 131070, 131071, 10_000_000])
def test_more_steps_than_a_line_may_ask_for_add_up(n: int) -> None:
    parts = [json.loads(line)["n"] for line in lines.steps("run", n).lines]
    assert sum(parts) == n
    assert max(parts) <= 65535
    assert len(parts) == 1 or 0 not in parts


def test_a_saved_machine_becomes_a_load_line() -> None:
    """By bytes, with all that a text may have."""
    oracle = OracleMachine(128)
    oracle.ask(do="rule", name="P", half="A", hood="N/VONN", minor="&/CENTERS", text="( \u007f \u2028 é )\n" + PARITY)
    reply = oracle.answer(b'{"do":"save"}')
    line = lines.load_line(reply)
    assert line == oracle.load_line()
    assert OracleMachine(256).answer(line) == b'{"ok":"load"}'
    for wrong in (b"", b'{"fault":1}', reply[:-1], reply[1:]):
        with pytest.raises(Cam6Error):
            lines.load_line(wrong)


@pytest.mark.parametrize("side", [128, 256, 512])
def test_a_blank_machine(side: int) -> None:
    oracle = OracleMachine(512)
    oracle.ask(do="side", side=side)
    assert lines.blank(side) == oracle.load_line()
    assert lines.side_of_load(lines.blank(side)) == side


def test_replies_with_a_fault_and_without() -> None:
    faults = [b'{"fault":63}', b'{"address":0,"fault":40}', b'{"cause":"hood","entry":0,"fault":64,"half":"A"}']
    others = [b'{"ok":"set"}', b'{"names":["fault"],"ok":"rules"}', b'{"count":1,"ok":"count"}', b'{"bits":"0"}']
    assert [lines.is_fault(reply) for reply in faults + others] == [True] * 3 + [False] * 4
