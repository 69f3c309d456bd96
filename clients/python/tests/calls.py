"""Random commands by calls of a machine, or of its pipeline, each beside the oracle."""

from __future__ import annotations

import json
from typing import Any

import by_oracle
from fakes import load_of
from hypothesis.stateful import RuleBasedStateMachine, rule
from oracle.lines import Unclear, is_command, read_line
from oracle.lines import plain as line_of
from oracle.machine import Alone
from programs.test_random_sessions import MOST_CELLS, Sessions
from support.sessions import assert_replies

import cam6
from cam6 import lines
from cam6.errors import FAULTS

KEYS = {"run": "position", "back": "position", "rules": "names", "colours": "colours", "count": "count"}


def wanted(command: dict[str, Any] | None, reply: bytes) -> Any:
    """What a call returns for a command, by a reply of the oracle; or the fields of its fault."""
    value, word = json.loads(reply), command["do"] if command else ""
    if "fault" in value:
        return value
    if word == "row":
        return by_oracle.bits_of(value["bits"])
    if word == "plane":
        return [by_oracle.bits_of(row) for row in value["rows"]]
    return load_of(reply) if word == "save" else value[KEYS[word]] if word in KEYS else None


def call_method(machine: Any, command: dict[str, Any]) -> Any:
    """Does a command by the method that stands for it."""
    word, rest = command["do"], {key: value for key, value in command.items() if key != "do"}
    if word == "cycle":
        return machine.cycle(*rest["entries"])
    if word == "load":
        return machine.load(line_of(command))
    if word == "side":
        return machine.set_side(rest["side"])
    return getattr(machine, {"set": "set_row", "map": "colour_map"}.get(word, word))(**rest)


class Calls(Sessions):
    """A session of calls."""

    words: set[str] = set()

    def __init__(self, program: str, limit: int) -> None:
        RuleBasedStateMachine.__init__(self)
        self.calls = cam6.local(program, side_limit=limit)
        self.oracle = self.alone = Alone(limit)
        self.machine, self.sent = self.oracle.machine, [{"do": "rules"}]
        self.asked: list[bytes] = []
        self.way = f"./cam6 alone --side {limit}"

    def send_line(self, line: bytes) -> None:
        """Does a line by its own call, unless it asks for too many steps. A call may ask for more steps than a line."""
        try:
            value = read_line(line, is_command)
        except Unclear:
            return
        command = value if isinstance(value, dict) else None
        is_long = command is not None and command.get("n", 0) > lines.MOST_STEPS
        reply = None if is_long else self.oracle.short_answer(line, MOST_CELLS)
        if reply is None:
            return
        try:
            self.call(command, line, reply)
        except (TypeError, ValueError):
            # What is refused here would have been refused there, and nothing has changed.
            assert b'"fault"' in reply

    def call(self, command: dict[str, Any] | None, line: bytes, reply: bytes) -> None:
        """Does a command by its own call, or sends the line. Fails if what comes of it is not what the reply says."""
        try:
            got = by_oracle.value(call_method(self.calls, command) if command else self.calls.ask(line))
        except cam6.Fault as fault:
            assert type(fault) is FAULTS[fault.number]
            got = fault.reply
        want = wanted(command, reply)
        self.asked.append(line)
        if got != want:
            before = [None] * (len(self.asked) - 1)
            assert_replies(self.asked, [*before, got], [*before, want], self.way)
        assert self.calls.side == self.oracle.machine.torus.side
        self.words.add(command["do"] if command else "")

    def teardown(self) -> None:
        """Compares the whole machine in the end."""
        with self.calls:
            assert self.calls.save() == load_of(self.oracle.answer(lines.SAVE))


class Batches(Calls):
    """The same by a pipeline. A load that is refused is left out, since what follows it would be for another machine."""

    def __init__(self, program: str, limit: int) -> None:
        super().__init__(program, limit)
        self.many, self.want = self.calls.pipeline(), list[Any]()

    def call(self, command: dict[str, Any] | None, line: bytes, reply: bytes) -> None:
        """Adds a call to the pipeline. It is done and compared later."""
        if command and not (command["do"] == "load" and b'"fault"' in reply):
            call_method(self.many, command)
            self.want.append(wanted(command, reply))

    @rule()
    def execute(self) -> None:
        """Does the calls, and compares what they return."""
        got = self.many.execute(raise_on_error=False)
        assert [one.reply if isinstance(one, cam6.Fault) else by_oracle.value(one) for one in got] == self.want
        assert all(one.index == index for index, one in enumerate(got) if isinstance(one, cam6.Fault))
        assert len(self.many) == 0
        self.want.clear()

    def teardown(self) -> None:
        """Does the calls that are left, and compares the whole machine."""
        self.execute()
        super().teardown()
