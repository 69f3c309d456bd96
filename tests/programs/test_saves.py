"""The largest machines are saved and loaded, and lines are as long as they may be, and longer.

A machine with sixteen rules of 8,192 bytes goes from one run to another, between seats of a host, and from one limit to
another, and is run and undone. What comes back is written by hand, or by the oracle. `test_growth.py` measures what is held.
"""

from __future__ import annotations

from collections.abc import Callable, Iterator
from contextlib import ExitStack
from functools import partial
from itertools import cycle, islice

import pytest
from examples.named_rules import REVERSIBLE
from examples.saving import SAVE, blank, entry, first_version, load, rule
from oracle.lines import LINE_LIMIT, LOAD_HEAD, LOAD_LIMIT, plain
from oracle.machine import SIDES, Machine
from support.commands import Command, cycle_command, do, rule_command
from support.line_process import LineProcess
from support.programs import Host, Peer
from support.sessions import short

Ask = Callable[[bytes], bytes]
Asks = Callable[..., Ask]
Connects = Callable[..., Peer]
LinesOf = Callable[[int], "list[Pair]"]
# A line, or a command, and what comes back for it.
Pair = tuple[bytes | Command, bytes]

MOST_BYTES_OF_A_TEXT = 8192
# What comments of large rules are made of: letters that are one, two or six times as long in a line.
FILLERS = ["".join(map(chr, range(1, 32))), "\x01", "x", "\u00e9", '"\\', "\x7f\u00a0", "\U0001f600", " \x1f\n\t\r"]
RULES, NO_RULES, SEATED = do("rules"), plain({"names": [], "ok": "rules"}), plain({"ok": "seat"})


def fault(number: int) -> bytes:
    """The reply that reports a fault."""
    return plain({"fault": number})


def is_saved(machine: Command) -> Pair:
    """A save, and the reply that has this machine."""
    return SAVE, plain({"machine": machine, "ok": "save"})


def is_loaded(machine: Command) -> Pair:
    """The line that loads a machine, with its reply."""
    return load(machine), plain({"ok": "load"})


UNTOUCHED: list[Pair] = [(do("run", n=0), fault(63)), is_saved(blank(256))]


def reply(peer: Peer, line: bytes) -> bytes:
    """The reply to a line over a connection."""
    peer.send(line + b"\n")
    return (peer.read() or "").encode()


def assert_answers(ask: Ask, *pairs: Pair) -> None:
    """Fails at the first line that isn't answered so. They are too long to be compared by pytest."""
    for number, (line, wanted) in enumerate(pairs, 1):
        line = line if isinstance(line, bytes) else plain(line)
        came = ask(line)
        if came != wanted:
            pytest.fail(f"line {number}, {short(line)}\n  is     {short(came)}\n  wanted {short(wanted)}")


@pytest.fixture
def alone(cam6: str) -> Iterator[Asks]:
    """Starts private machines of a limit, or other programs, which have to end well in the end."""
    with ExitStack() as stack:
        processes: list[LineProcess] = []

        def begin(*words: str, limit: int = 512) -> Ask:
            processes.append(stack.enter_context(LineProcess([cam6, *(words or ("alone", "--side", str(limit)))])))
            return processes[-1].ask

        yield begin
        assert [process.rest() for process in processes] == [b""] * len(processes)


@pytest.fixture
def connected(host: Callable[..., Host]) -> Iterator[Connects]:
    """Connects to a host of three users with machines of limit 512, at a seat or at none. The host goes on after that."""
    it = host("--users=3", "--boards=2", "--side=512", "--connections=0")
    with ExitStack() as stack:
        yield lambda *seat: stack.enter_context(Peer(it.port, *seat))
    assert it.is_running()


def machine_of(fillers: list[str]) -> Command:
    """A machine of side 512 with sixteen rules that can be undone, of as many bytes as they may have, and sixteen entries.
    Two rules have the same filler in their comments, and the next two have the next one."""
    rules = []
    for i, (word, (half, hood, minor, text)) in enumerate(islice(cycle(REVERSIBLE.items()), 16)):
        filler, most = fillers[i // 2 % len(fillers)], MOST_BYTES_OF_A_TEXT - len(f"(  ) {text}".encode())
        times, rest = divmod(most, len(filler.encode()))
        rules.append(rule(f"{word}_{i}", f"( {filler * times}{'x' * rest} ) {text}", half, hood, minor))
    a, b = (cycle([rule["name"] for rule in rules if rule["half"] == half]) for half in "AB")
    entries = [entry(next(a), next(b), ("EVEN", "ODD")[i // 3 % 2], i % 4) for i in range(16)]
    rows = [["0" * 128] * 512 for _ in range(4)]
    for plane, y, digits in [(0, 0, "8001"), (1, 511, "1"), (2, 255, "00f"), (3, 256, "abc"), (0, 300, "0000dead")]:
        rows[plane][y] = digits.ljust(128, "0")
    return blank(512, planes=rows, rules=rules, cycle=entries, position=5, colours=list(range(15, -1, -1)))


# Comments have letters of all kinds, or control characters, which are six times as long in a line.
LARGE, LARGEST = machine_of(FILLERS), machine_of(["\x01"])
LARGEST_LOAD = plain(load(LARGEST))


def course_of(machine: Command, steps: int) -> tuple[Pair, Command, Pair]:
    """A run of so many steps of a machine, with the reply; the machine after it; and a way back, with the reply."""
    model, ran = Machine(512), do("run", n=steps)
    model.reply(load(machine))
    pair: Pair = ran, plain(model.reply(ran))
    back: Pair = do("back", n=steps), plain({"ok": "back", "position": machine["position"]})
    return pair, model.reply(SAVE)["machine"], back


@pytest.mark.parametrize("machine", [LARGE, LARGEST], ids=["comments_of_all_kinds", "control_characters"])
def test_a_machine_with_sixteen_rules_of_8192_bytes(machine: Command, alone: Asks) -> None:
    run, after, back = course_of(machine, 43)
    loaded, saved, untouched = is_loaded(machine), is_saved(machine), is_saved(blank(256))
    # It is run and undone, and it is undone where it was not run.
    assert_answers(alone(), loaded, run, is_saved(after), back, saved)
    assert_answers(alone(), loaded, saved, is_loaded(after), back, saved, is_loaded(blank(128)), is_saved(blank(128)))
    # It is above the limit of 256. If it is no machine, that doesn't matter.
    nobody = load(machine | {"position": 16})
    assert_answers(alone(limit=256), (load(machine), fault(67)), untouched, (nobody, fault(68)), untouched)


# A line is cut after each so many bytes, by so many tests.
STEP, PARTS = 1000, 4


@pytest.mark.slow
@pytest.mark.parametrize("part", range(PARTS))
def test_a_line_that_is_cut_loads_nothing(part: int, alone: Asks) -> None:
    ask = alone()
    assert_answers(ask, is_loaded(LARGE))
    for number, end in enumerate(range(part * STEP, len(LARGEST_LOAD), PARTS * STEP)):
        assert_answers(ask, (LARGEST_LOAD[:end], fault(2)))
        if number % 24 == 0:
            assert_answers(ask, is_saved(LARGE))
    assert_answers(ask, is_saved(LARGE), is_loaded(LARGEST), is_saved(LARGEST))


def filled(size: int, front: bytes, unit: bytes, rear: bytes = b"") -> bytes:
    """A line of so many bytes, with units repeated between its front and its rear."""
    times, rest = divmod(size - len(front) - len(rear), len(unit))
    return front + unit * times + unit[:rest] + rear


def loads_of(size: int, more_than_load: int = 4) -> list[Pair]:
    """Lines of so many bytes that begin as a load, with their faults: those of commands, or of events if a load with
    something after it has fault 3. Lines that have a machine are left out if they are too long."""
    found = [
        (filled(size, LOAD_HEAD, b" "), 2),
        (filled(size, LOAD_HEAD, b"\xff"), 2),
        (filled(size, LOAD_HEAD + b'"machine":', b"["), 2),
        (filled(size, LOAD_HEAD + b'"x":"', b"x", b'"}'), 3),
        (filled(size, LOAD_HEAD, b" ", b'"x":0}'), 3),
        (filled(size, plain(load(blank(128))), b" "), more_than_load),
        (filled(size, LARGEST_LOAD, b"\t"), more_than_load),
        (filled(size, LARGEST_LOAD, b" ", b"x"), 2),
    ]
    return [(line, fault(number if size <= LOAD_LIMIT else 1)) for line, number in found if len(line) == size]


def others_of(size: int) -> list[Pair]:
    """Lines of so many bytes that begin otherwise, and how a machine without rules answers them."""
    fronts = [b'{"do": "load",', b' {"do":"load",', b'{"do":"loads",']
    found = [
        (filled(size, plain(RULES), b" "), NO_RULES),
        *((filled(size, front, b" ", b'"machine":0}'), fault(3)) for front in fronts),
        (filled(size, b'{"do":"load"', b" ", b"}"), fault(3)),
        (filled(size, b'{"do":"load"', b" "), fault(2)),
        (filled(size, b"x", b"x"), fault(2)),
    ]
    return [(line, reply if size <= LINE_LIMIT else fault(1)) for line, reply in found]


REPLAY = ("replay", "--users", "1", "--boards", "1", "--cache", "1")
SIZES = [LINE_LIMIT, LINE_LIMIT + 1, LOAD_LIMIT, LOAD_LIMIT + 1]
LENGTHS = [(of, size) for of in (loads_of, others_of) for size in SIZES]
LENGTHS += [(loads_of, LOAD_LIMIT - 1), (loads_of, 3 * LOAD_LIMIT)]
long_lines = pytest.mark.parametrize(("lines_of", "size"), LENGTHS)


@long_lines
def test_long_lines(lines_of: LinesOf, size: int, alone: Asks) -> None:
    assert_answers(alone(limit=256), *lines_of(size), *UNTOUCHED)


@long_lines
def test_long_lines_at_a_seat(lines_of: LinesOf, size: int, connected: Connects) -> None:
    assert_answers(partial(reply, connected(3)), *lines_of(size), *UNTOUCHED)


@pytest.mark.parametrize("size", SIZES)
def test_a_line_that_begins_as_a_load_is_no_event(size: int, alone: Asks) -> None:
    assert_answers(alone(*REPLAY), *loads_of(size, 3))


def test_long_lines_of_a_replay(alone: Asks) -> None:
    """No load is asked for. An event is as long as a line may be. A machine is saved if it is asked for."""
    command, few = plain(load(blank(128))), plain(load(blank(128, planes=[[], [], [], []])))
    front, evict = b'{"event":"ask","user":1,"command":', b'{"event":"evict"'
    pairs: list[Pair] = [(command, fault(3)), (front + command + b"}", fault(1))]
    pairs += [(front + few + b"}", fault(3)), (few, fault(3))]
    pairs += [(filled(LINE_LIMIT, evict, b" ", b"}"), plain({"refused": 109}))]
    pairs += [(filled(LINE_LIMIT + 1, evict, b" ", b"}"), fault(1))]
    pairs += [({"event": "ask", "user": 1, "command": SAVE}, plain({"left": 0, "ok": "ask"}))]
    saved = plain({"ok": "collect", "reply": {"machine": blank(256), "ok": "save"}})
    assert_answers(alone(*REPLAY), *pairs, ({"event": "collect", "user": 1}, saved))


SEAT, BLANK = plain({"seat": 1}), plain(load(blank(256)))
# Lines in the place of one that asks for a seat.
FIRST_LINES = {
    "a load": (BLANK, 3),
    "the largest load": (LARGEST_LOAD, 3),
    "a load and a blank": (BLANK + b" ", 3),
    "a load without its end": (LARGEST_LOAD[:-1], 2),
    "a seat, as long as a load may be": (filled(LOAD_LIMIT, LOAD_HEAD, b" ", b'"seat":1}'), 3),
    "blanks, as long as a load may be": (filled(LOAD_LIMIT, LOAD_HEAD, b" "), 2),
    "a byte more of blanks": (filled(LOAD_LIMIT + 1, LOAD_HEAD, b" "), 1),
    "a seat, and a byte more": (filled(LOAD_LIMIT + 1, LOAD_HEAD, b" ", b'"seat":1}'), 1),
    "a save": (plain(SAVE), 3),
    "a seat, too long": (filled(LINE_LIMIT + 1, SEAT, b" "), 1),
    "a seat that begins as a load": (LOAD_HEAD + b'"seat":1}', 3),
    "a seat and a load, too long": (filled(LINE_LIMIT + 1, b'{"seat":1,', b" ", b'"do":"load"}'), 1),
}


@pytest.mark.parametrize(("line", "number"), FIRST_LINES.values(), ids=FIRST_LINES)
def test_a_first_line_is_refused(line: bytes, number: int, connected: Connects) -> None:
    peer = connected()
    assert_answers(partial(reply, peer), (line, fault(number)))
    assert peer.read() is None, "the connection is closed"


def test_a_first_line_is_as_long_as_a_line_may_be(connected: Connects) -> None:
    assert_answers(partial(reply, connected()), (filled(LINE_LIMIT, SEAT, b" "), SEATED))


def test_a_machine_goes_from_seat_to_seat(alone: Asks, connected: Connects) -> None:
    (run, after, _), (_, further, back) = (course_of(LARGE, steps) for steps in (21, 42))
    one, two = connected(1), connected(2)
    assert (one.reply, two.reply) == (SEATED.decode(), SEATED.decode())
    at_one, at_two = partial(reply, one), partial(reply, two)
    assert_answers(at_one, is_loaded(LARGE), run, is_saved(after))
    # Another user's machine is as it was.
    assert_answers(at_two, is_saved(blank(256)), (RULES, NO_RULES))
    # It goes on alone, and back at another seat.
    ran_further: Pair = run[0], plain({"ok": "run", "position": (LARGE["position"] + 42) % 16})
    assert_answers(alone(), is_loaded(after), ran_further, is_saved(further))
    assert_answers(at_two, is_loaded(further), back, is_saved(LARGE))
    assert_answers(at_one, is_saved(after))


BALL = [do("side", side=128), rule_command("B", *REVERSIBLE["BALLS"])]
BALL += [cycle_command(("B", "-", "EVEN", 0), ("B", "-", "ODD", 0))]
BALL += [do("set", plane=0, row=127, bits="0" * 31 + "1"), do("run", n=3), SAVE]
# The machine is the same under each limit.
LOADED = [load([*map(Machine(128).reply, BALL)][-1]["machine"]), SAVE, do("run", n=300), SAVE, do("back", n=302), SAVE]
LOADED += [do("side", side=512), do("side", side=256), RULES, SAVE]


@pytest.mark.parametrize("limit", SIDES)
@pytest.mark.parametrize("commands", [BALL, LOADED], ids=["saved", "loaded"])
def test_a_machine_of_side_128_goes_from_limit_to_limit(commands: list[Command], limit: int, alone: Asks) -> None:
    replies = map(plain, map(Machine(limit).reply, commands))
    assert_answers(alone(limit=limit), *zip(commands, replies))


def test_what_is_above_the_limit_is_refused_in_both_versions(alone: Asks) -> None:
    loads = [load(machine) for machine in (blank(256), first_version(blank(256)), blank(512))]
    assert_answers(alone(limit=128), *((line, fault(67)) for line in loads), is_saved(blank(128)))
