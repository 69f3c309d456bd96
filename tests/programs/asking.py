"""Random commands for a machine, as rules of a state machine of hypothesis: rules of all kinds and broken ones, cycles, pictures,
steps both ways, looks at all that can be shown, machines that are saved and loaded, what is refused, and lines that are broken.

A session that fails shrinks, and is printed as lines that can be piped into the program.
"""

from __future__ import annotations

from copy import deepcopy
from random import Random
from typing import Any

from examples.named_rules import REVERSIBLE
from examples.saving import blank_rows, first_version
from hypothesis import strategies as st
from hypothesis.stateful import Bundle, RuleBasedStateMachine, rule
from oracle.host import Replay
from oracle.lines import Unclear, lines_of, plain
from oracle.machine import SIDES, Alone, Machine
from oracle.wirings import FIRST_PLANE
from programs.breaking import Breaker
from programs.texts import rules
from support.commands import Command, cycle_command, do, rule_command
from support.line_process import LineProcess
from support.sessions import assert_replies

NAMES = st.sampled_from(["R", "S", "T", "~", "--", "!" * 24, "{}"])
NO_NAMES = st.sampled_from(["", "-", "x" * 25, "a b", 'a"b', "a\\b", "é", "a\x7f", "\x00", "a\n"])
NUMBERS = st.sampled_from([0, 1, 3, 4, 15, 16, 17, 127, 128, 255, 256, 511, 512, 65535, 65536, 2**63, 2**64 - 1])
PLANES, GRIDS, PHASES = st.integers(0, 3), st.sampled_from(["EVEN", "ODD"]), st.integers(0, 3)
FREE = cycle_command(("-", "-", "EVEN", 0))
FEW, MANY = st.text("137f8F", max_size=4), st.text("0123456789abcdefABCDEF", min_size=128, max_size=128)


def edited(draw: st.DrawFn, items: list[Any], new: Any) -> list[Any]:
    """Draws `items` in another order, several times, fewer of them, or with `new` before another or in its place."""
    at = draw(st.integers(0, len(items)))
    first, last = items[:at], items[at:]
    ways = [items[::-1], first, last, items * 2, (items * 17)[:40], [*first, new, *last], [*first, new, *last[1:]]]
    return draw(st.sampled_from(ways))


def entries(names: st.SearchStrategy[str], phases: st.SearchStrategy[int]) -> st.SearchStrategy[Command]:
    """Draws entries of a cycle with these names and phases."""
    return st.fixed_dictionaries({"a": names, "b": names, "grid": GRIDS, "phase": phases})


def change(draw: st.DrawFn, machine: Command) -> None:
    """Changes one thing of a saved machine, in place."""
    key, number = draw(st.sampled_from(sorted(machine))), draw(NUMBERS)
    items, rows = machine[key], blank_rows(draw(st.sampled_from(SIDES)))
    if key in ("position", "side", "version"):
        machine[key] = draw(st.sampled_from([number, *SIDES, 0, 1, 2, len(machine["cycle"])]))
    elif key == "colours":
        machine[key] = edited(draw, items, number)
    elif key == "planes":
        plane = draw(PLANES) % max(1, len(items))
        row = "8".rjust(draw(st.sampled_from([32, 64, 128])), "0")
        some = [*items[:plane], edited(draw, items[plane], row), *items[plane + 1 :]] if items else []
        machine[key] = draw(st.sampled_from([some, edited(draw, items, rows), [rows] * 4, [[]] * 4]))
    else:
        names = [*(kept["name"] for kept in machine["rules"]), "-", draw(NAMES | NO_NAMES)]
        new = draw(entries(st.sampled_from(names), PHASES | NUMBERS))
        new = {"name": draw(st.sampled_from(names))} | draw(rules()) if key == "rules" else new
        word = draw(st.sampled_from(sorted(new)))
        machine[key] = edited(draw, items, draw(st.sampled_from([new, *({**it, word: new[word]} for it in items)])))


@st.composite
def changed(draw: st.DrawFn, machine: Command) -> Command:
    """A copy of a saved machine, seldom as of the first version, with up to three changes. It may be invalid."""
    machine = first_version(machine) if draw(st.integers(0, 4)) == 0 else deepcopy(machine)
    for _ in range(draw(st.integers(0, 3))):
        change(draw, machine)
    return machine


class Asking(RuleBasedStateMachine):
    """A program, beside the oracle. Commands are for the machine of `machine_at`."""

    saved: Bundle[Command] = Bundle("saved")

    def __init__(self, command: list[str], oracle: Alone | Replay) -> None:
        super().__init__()
        self.command, self.oracle, self.process = command, oracle, LineProcess(command)
        self.lines: list[bytes] = []
        self.came: list[bytes] = []
        self.wanted: list[bytes] = []
        # The commands so far, as lines like them may be broken.
        self.sent: list[Command] = [do("rules")]

    def machine_at(self) -> Machine:
        """The machine of the oracle that is asked next."""
        raise NotImplementedError

    def do(self, command: Command) -> None:
        """Sends a command to the machine of `machine_at`, and checks what comes back."""
        raise NotImplementedError

    def answer(self, line: bytes) -> bytes | None:
        """The oracle's reply to a line, which has to come back, or None if the line isn't to be sent."""
        return self.oracle.answer(line)

    def send_line(self, line: bytes) -> None:
        """Sends a line, and compares its reply with the oracle's. Sends nothing if that is `Unclear` or None."""
        try:
            wanted = self.answer(line)
        except Unclear:
            return
        if wanted is not None:
            self.lines.append(line)
            self.wanted.append(wanted)
            self.came.append(self.process.ask(line))
            self.compare()

    def send_value(self, value: Command) -> None:
        """Sends a command or an event in its plainest spelling, and keeps it as one that may be broken later."""
        self.sent.append(value)
        self.send_line(plain(value))

    def compare(self) -> None:
        """Fails if what came back differs from what is wanted."""
        assert_replies(self.lines, self.came, self.wanted, f"./cam6 {' '.join(self.command[1:])}")

    def end(self, last: bytes) -> None:
        """Sends a last line without its LF. The program has to end well."""
        if last:
            self.lines.append(last)
            self.wanted.append(self.oracle.answer(last))
        self.came += lines_of(self.process.rest(last))
        self.compare()

    def row(self, data: st.DataObject) -> int:
        """Draws the number of a row, often one at a seam."""
        side = self.machine_at().torus.side
        return data.draw(st.sampled_from([0, 1, 15, 16, side - 17, side - 1]) | st.integers(0, side - 1))

    def digits(self, data: st.DataObject) -> str:
        """Draws the digits of a row, most of them zeros, or any."""
        count = self.machine_at().torus.side // 4
        few = data.draw(FEW).rjust(data.draw(st.integers(0, count)), "0").ljust(count, "0")[:count]
        return few if data.draw(st.integers(0, 3)) else data.draw(MANY)[:count]

    @rule(name=NAMES, of=rules())
    def keep_a_rule(self, name: str, of: dict[str, str]) -> None:
        """Sends a rule, which may be invalid, and lists the rules."""
        self.do(do("rule", name=name, **of))
        self.do(do("rules"))

    @rule(of=rules(("rule", "block", "block")), data=st.data(), way=st.sampled_from(["run", "back"]))
    def keep_a_rule_and_use_it(self, of: dict[str, str], data: st.DataObject, way: str) -> None:
        """Sends a rule, which may be invalid, and a cycle of it. Sets two rows, one of them at the seam of the torus.
        Does a step, and shows both planes."""
        first, side = FIRST_PLANE[of["half"]], self.machine_at().torus.side
        some = data.draw(st.lists(entries(st.just("-"), PHASES), min_size=1, max_size=2))
        cycle = [entry | {of["half"].lower(): "R"} for entry in some] * data.draw(st.sampled_from([1, 8]))
        for command in (FREE, do("rule", name="R", **of), do("cycle", entries=cycle)):
            self.do(command)
        for row in (data.draw(st.sampled_from([0, side - 1])), self.row(data)):
            self.do(do("set", plane=first + data.draw(st.integers(0, 1)), row=row, bits=self.digits(data)))
        for command in (do(way, n=1), do("plane", plane=first), do("plane", plane=first + 1)):
            self.do(command)

    @rule(data=st.data(), count=st.sampled_from([1, 2, 3, 16]))
    def cycle(self, data: st.DataObject, count: int) -> None:
        """Sets a cycle of rules that are there."""
        kept = self.machine_at().rules.items()
        names = {half: ["-", *(name for name, rule in kept if rule.key.half == half)] for half in "AB"}
        a, b = (st.sampled_from(names[half]) for half in "AB")
        entry = st.fixed_dictionaries({"a": a, "b": b, "grid": GRIDS, "phase": PHASES})
        self.do(do("cycle", entries=data.draw(st.lists(entry, min_size=count, max_size=count))))

    @rule(data=st.data(), wrong=st.sampled_from(["half", "half", "name", "phase", "count"]))
    def refused_cycle(self, data: st.DataObject, wrong: str) -> None:
        """Sends a cycle that may be refused: with rules of the other half, with names or phases of all kinds, or with
        any number of entries."""
        names = ["-", *self.machine_at().rules, *(["X", data.draw(NO_NAMES)] if wrong == "name" else [])]
        entry = entries(st.sampled_from(names), NUMBERS if wrong == "phase" else PHASES)
        count = data.draw(st.sampled_from([0, 1, 2, 16, 17, 40] if wrong == "count" else [1, 2]))
        self.do(do("cycle", entries=data.draw(st.lists(entry, min_size=count, max_size=count))))

    @rule(data=st.data())
    def picture(self, data: st.DataObject) -> None:
        """Sets a row."""
        self.do(do("set", plane=data.draw(PLANES), row=self.row(data), bits=self.digits(data)))

    @rule(way=st.sampled_from(["run", "back"]), n=st.integers(0, 4) | st.sampled_from([1000, 65535, 65536]))
    def steps(self, way: str, n: int) -> None:
        """Does or undoes steps."""
        self.do(do(way, n=n))

    @rule(plane=PLANES, data=st.data(), mask=st.sampled_from([1, 2, 65534, 65535]) | st.integers(0, 65535))
    def look(self, plane: int, data: st.DataObject, mask: int) -> None:
        """Shows a row and its colours, and counts the cells of some states."""
        row = self.row(data)
        for command in (do("row", plane=plane, row=row), do("colours", row=row), do("count", mask=mask)):
            self.do(command)

    @rule(word=st.sampled_from(["plane", "plane", "clear"]), plane=PLANES)
    def plane(self, word: str, plane: int) -> None:
        """Shows a plane, or clears it."""
        self.do(do(word, plane=plane))

    @rule(side=st.sampled_from(SIDES))
    def side(self, side: int) -> None:
        """Makes a blank torus of this side. Does a step, whose reply has the position."""
        self.do(do("side", side=side))
        self.do(do("run", n=1))

    @rule(colours=st.lists(st.integers(0, 15), min_size=16, max_size=16))
    def colours(self, colours: list[int]) -> None:
        """Sets other colours."""
        self.do(do("map", colours=colours))

    @rule(name=NAMES | NO_NAMES)
    def drop(self, name: str) -> None:
        """Drops a rule, and lists those that are left."""
        self.do(do("drop", name=name))
        self.do(do("rules"))

    @rule(target=saved, way=st.sampled_from(["run", "back"]), n=st.integers(0, 3))
    def save(self, way: str, n: int) -> Command:
        """Does some steps, and saves the machine. Returns it, so that it can be loaded later."""
        self.do(do(way, n=n))
        self.do(do("save"))
        machine: Command = self.machine_at().do(do("save"))["machine"]
        return machine

    @rule(target=saved, of=rules(("block",)), side=st.sampled_from(SIDES[:2]))
    def save_of_another_user(self, of: dict[str, str], side: int) -> Command:
        """Returns a machine that another user saved, so that it can be loaded later."""
        other, picture = Machine(side), do("set", plane=1, row=3, bits="8" * (side // 4))
        *_, reply = map(other.reply, (do("rule", name="O", **of), picture, do("save")))
        machine: Command = reply["machine"]
        return machine

    @rule(machine=saved)
    def load(self, machine: Command) -> None:
        """Loads a saved machine, and asks for its position."""
        self.do(do("load", machine=machine))
        self.do(do("run", n=0))

    @rule(machine=saved, data=st.data())
    def load_another(self, machine: Command, data: st.DataObject) -> None:
        """Loads a saved machine with a few things changed."""
        self.do(do("load", machine=data.draw(changed(machine))))

    @rule(number=NUMBERS | st.integers(0, 2**64 - 1), data=st.data())
    def refused(self, number: int, data: st.DataObject) -> None:
        """Sends a command with a number or a name of any kind, which may be refused."""
        digits, other = self.digits(data), "0" * data.draw(st.sampled_from([32, 64, 128]))
        numbered = [("clear", "plane"), ("plane", "plane"), ("run", "n"), ("back", "n"), ("count", "mask")]
        commands = [do(word, **{key: number}) for word, key in [*numbered, ("colours", "row"), ("side", "side")]]
        places = [{"plane": number, "row": 0}, {"plane": 0, "row": number}]
        commands += [do("row", **place) for place in places] + [do("set", bits=digits, **place) for place in places]
        commands += [do("set", plane=0, row=0, bits=other), do("map", colours=[number, *range(15)])]
        commands.append(do("rule", name=data.draw(NO_NAMES)) | data.draw(rules(("block",))))
        self.do(data.draw(st.sampled_from(commands)))

    @rule(word=st.sampled_from(list(REVERSIBLE)), count=st.sampled_from([3, 15, 16, 17]), last=st.integers(0, 2))
    def many_rules(self, word: str, count: int, last: int) -> None:
        """Defines rules, up to one more than there can be, and sets a cycle of one of the first three. Then drops all,
        from the first on."""
        entry = {"a": "-", "b": "-", "grid": "EVEN", "phase": 0} | {REVERSIBLE[word][0].lower(): f"n{last}"}
        self.do(FREE)
        for number in range(count):
            self.do(rule_command(f"n{number}", *REVERSIBLE[word]))
        for command in (do("rules"), do("cycle", entries=[entry])):
            self.do(command)
        for number in range(count):
            self.do(do("drop", name=f"n{number}"))
        self.do(do("save"))

    @rule(line=st.sampled_from([b"", b" ", b"{", b"{}", b"\xff", b'{"do":"fly"}', b'{"do":"run","n":-1}', b"[" * 200]))
    def no_command(self, line: bytes) -> None:
        """Sends a line that is no command."""
        self.send_line(line)

    @rule(random=st.randoms(use_true_random=False), data=st.data())
    def broken(self, random: Random, data: st.DataObject) -> None:
        """Sends a line like one that was sent before, but broken."""
        for line in Breaker(random).line(data.draw(st.sampled_from(self.sent))).split(b"\n"):
            self.send_line(line)
