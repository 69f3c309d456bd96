"""Faults: each number with its sentence, its fields and what is drawn, against the oracle."""

from __future__ import annotations

import itertools
import json
import pickle
import signal
import threading
from collections.abc import Callable
from typing import Any

import pytest
from oracle.machine import answers
from oracle.wirings import HOODS, MINORS
from programs.test_errors import lines_of, load_line
from support.programs import TOP, free_port

import cam6
from cam6 import Machine, errors, wirings
from cam6.errors import FAULTS, Fault

PAGE = TOP / "docs" / "errors.json"
ENTRIES = {entry["number"]: entry for entry in json.loads(PAGE.read_bytes())["errors"]}
# The numbers of faults, as docs/ERRORS.md has them.
NUMBERS = {*range(1, 5), *range(20, 29), *range(40, 44), *range(60, 69), 80, 81}
FIELDS = ("token", "address", "cause", "entry", "half", "phase")
Local = Callable[..., Machine]


def example_of(entry: Any) -> list[bytes]:
    """The lines of an entry's example, up to the one that is refused."""
    lines, last = lines_of(entry["lines"]), entry["lines"][-1]
    if isinstance(last, dict) and "load" in last:
        saved = answers([*(line.encode() for line in lines), b'{"do":"save"}'])[-1]
        lines.append(load_line(saved.decode(), *last["load"]))
    return [line.encode() for line in lines]


def test_the_sentences_are_those_of_the_pages() -> None:
    """The file of the package is docs/errors.json, byte for byte."""
    assert (TOP / "clients/python/src/cam6/errors.json").read_bytes() == PAGE.read_bytes()


def test_each_number_has_a_class() -> None:
    assert set(FAULTS) == NUMBERS
    assert len(Fault.__subclasses__()) == 28


@pytest.mark.parametrize("number", sorted(NUMBERS))
def test_a_class_has_what_the_page_says(number: int) -> None:
    fault, entry = FAULTS[number]({"fault": number}), ENTRIES[number]
    assert (fault.number, fault.title) == (number, entry["title"])
    assert (fault.sentence, fault.advice) == (entry["happened"], entry["do"])
    assert entry["happened"] in str(fault)
    assert f"{number}:" in (type(fault).__doc__ or "")


@pytest.mark.parametrize("kind", [cam6.Lost, cam6.NoSeat, cam6.GaveUp, cam6.Diverged, cam6.Fault, cam6.BadJournal])
def test_each_error_is_one_of_cam6(kind: type) -> None:
    assert issubclass(kind, cam6.Cam6Error)


@pytest.mark.parametrize("number", [number for number, entry in ENTRIES.items() if entry["program"] == "alone"])
def test_an_example_of_the_page_raises_its_class(number: int, local: Local) -> None:
    """It has the fields that the oracle has."""
    sent = example_of(ENTRIES[number])
    want = json.loads(answers(sent)[-1])
    assert want["fault"] == number
    machine = local()
    machine._query(sent[:-1])
    with pytest.raises(FAULTS[number]) as raised:
        machine.ask(sent[-1])
    fault = raised.value
    assert (fault.reply, fault.line) == (want, sent[-1])
    assert {field: getattr(fault, field) for field in FIELDS} == {field: want.get(field) for field in FIELDS}
    assert fault.states == (tuple(want["states"]) if "states" in want else None)


@pytest.mark.parametrize(
    "error",
    [
        FAULTS[64]({"fault": 64, "cause": "meeting", "states": [1, 2], "entry": 0, "half": "A", "phase": 1}, b"line"),
        cam6.GaveUp("sentence", [b"a"], [b"b"]),
        cam6.Lost("sentence"),
    ],
    ids=lambda error: type(error).__name__,
)
def test_errors_go_from_one_process_to_another(error: cam6.Cam6Error) -> None:
    again = pickle.loads(pickle.dumps(error))
    assert (type(again), str(again), again.__dict__) == (type(error), str(error), error.__dict__)


@pytest.mark.parametrize("reply", [b"hello", b"{}", b'{"fault":5}', b'{"fault":"1"}', b"[]", b"\xff", b'{"fault":[1]}'])
def test_what_is_no_reply(reply: bytes) -> None:
    with pytest.raises(cam6.Cam6Error, match="no reply of cam6"):
        errors.fault_of(reply, b"")


@pytest.mark.parametrize(
    ("text", "token", "want"),
    [
        (": R FOO ;", 3, "token 3, FOO:\n    : R FOO ;\n        ^"),
        (": R FOO ;", 1, "token 1, ::\n    : R FOO ;\n    ^"),
        (": R\n FOO ;\n", 3, "token 3, FOO:\n     FOO ;\n     ^"),
        (": R\r\n\tFOO ;", 3, "token 3, FOO:\n     FOO ;\n     ^"),
        (": R", 3, "token 3, the end of the text:\n    : R\n        ^"),
        ("", 1, "token 1, the end of the text:\n    \n     ^"),
        pytest.param("x" * 9000, 0, "", id="long"),
    ],
)
def test_a_caret_is_under_the_token(text: str, token: int, want: str) -> None:
    """By hand."""
    assert errors.shown_token(text, token) == want


def test_of_a_long_line_the_part_round_the_token_is_shown() -> None:
    text = ": R " + "NORTH " * 300 + "FOO " + "SOUTH " * 300 + ";"
    head, line, caret = errors.shown_token(text, 303).split("\n")
    assert head == "token 303, FOO:"
    assert line[caret.index("^") :][:4] == "FOO "
    assert len(line) < 140


def test_the_fault_of_a_text_shows_where_it_is(local: Local) -> None:
    with pytest.raises(errors.UnknownWord) as raised:
        local().rule("R", ": R NORTHEAST >PLN0 ;")
    assert "    : R NORTHEAST >PLN0 ;\n        ^" in str(raised.value)


def test_names_at_an_address_are_those_of_the_oracle() -> None:
    for hood, minor in itertools.product(HOODS, MINORS):
        every = f"{HOODS[hood]} {MINORS[minor]}".split()
        for address in (0, 1, 2, 5, 64, 1024, 2048, 3072, 1023, 4095):
            want = [name for bit, name in enumerate(every) if address >> bit & 1 and name != "."]
            assert wirings.names_at(hood, minor, address) == want, (hood, minor, address)
    assert wirings.names_at("N/NONE", "&/HV", 1) is None


def test_the_fault_of_an_address_has_its_names(local: Local) -> None:
    """A rule that stops where north and the minor names are 1."""
    with pytest.raises(errors.ValueMissing) as raised:
        local().rule("R", ": R NORTH &CENTER AND &CENTER' AND IF XOR THEN ;", hood="N/VONN")
    assert raised.value.address == 4 + 1024 + 2048
    assert "address 3076: NORTH, &CENTER, &CENTER' are 1" in str(raised.value)


def test_a_block_is_drawn() -> None:
    """State 1 is the upper left cell, 2 the upper right, 4 the lower right and 8 the lower left, 16 on the upper plane."""
    drawn = {state: errors.block_rows(state) for state in (0, 1, 2, 4, 8 + 16 + 128)}
    assert drawn == {0: (". .", ". ."), 1: ("# .", ". ."), 2: (". #", ". ."), 4: (". .", ". #"), 152: ("o .", "@ .")}


def test_two_blocks_that_become_one_are_drawn(machine: Machine) -> None:
    machine.rule("R", ": R CENTER CW AND >PLN0 ;", hood="N/MARG", minor="&/PHASES")
    machine.cycle("R")
    with pytest.raises(errors.NotReversible) as raised:
        machine.back()
    assert raised.value.states == (0, 1)
    assert "    . .       # .\n    . .   +   . ." in str(raised.value)


@pytest.mark.parametrize(
    ("program", "sentence"),
    [
        ("no-such-program", "no program 'no-such-program' on the PATH. ./build builds it"),
        ("/no/such", "no program '/no/such'. ./build builds it"),
        (__file__, "may not be run as a program|can't be started"),
        ("/bin/false", "ended with status 1"),
        ("/bin/cat", "ended with status 1|no reply of cam6"),
    ],
)
def test_a_program_that_is_not_there(program: str, sentence: str) -> None:
    """Each has a sentence of its own, which says what to do."""
    with pytest.raises(cam6.Lost, match=sentence):
        cam6.local(program)


def test_nobody_listens() -> None:
    with pytest.raises(cam6.Lost, match="Nothing listens at 127.0.0.1:[0-9]+. Start a host there: cam6 serve"):
        cam6.connect("127.0.0.1", free_port())


def test_a_name_that_is_not_known() -> None:
    with pytest.raises(cam6.Lost, match="not known"):
        cam6.connect("no-such-name.invalid")


def test_a_program_that_is_killed_is_lost(machine: Machine) -> None:
    """It stays so."""
    channel: Any = machine._transport
    channel._process.kill()
    for _ in range(2):
        with pytest.raises(cam6.Lost, match="status -9 .signal 9"):
            machine.rules()


def test_a_program_that_does_not_answer_is_killed_after_the_deadline(local: Local) -> None:
    machine = local(deadline=3)
    channel: Any = machine._transport
    process = channel._process
    process.send_signal(signal.SIGSTOP)
    awake = threading.Timer(30, process.send_signal, [signal.SIGCONT])
    awake.start()
    for _ in range(2):
        with pytest.raises(cam6.Lost, match="No reply came in time"):
            machine.rules()
    awake.cancel()
    assert process.returncode == -signal.SIGKILL


def test_a_closed_machine(machine: Machine) -> None:
    machine.close()
    machine.close()
    with pytest.raises(cam6.Lost, match="closed"):
        machine.rules()
    assert machine._repr_png_() is None
