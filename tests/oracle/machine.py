"""The machine of one user: what each command does and answers, whatever its line says."""

from __future__ import annotations

from typing import Any

from oracle.lines import is_command, plain, read_line
from oracle.rules import Rule, rule_of
from oracle.torus import Torus
from oracle.wirings import FIRST_PLANE

SIDES = (128, 256, 512)
# What a command answers: what its reply has besides its word, or the number of its fault.
Answer = int | dict[str, Any]


def is_rule_name(name: str) -> bool:
    """Whether a rule may have this name: 1 to 24 visible ASCII characters, no double quote or backslash, not `-`."""
    return 1 <= len(name) <= 24 and all("!" <= byte <= "~" and byte not in '"\\' for byte in name) and name != "-"


def sorted_by_keys(values: dict[str, Any]) -> dict[str, Any]:
    """An object with its keys in their order."""
    return dict(sorted(values.items()))


class Machine:
    """A machine of a largest side. The steps of a command are put off until `settle`."""

    def __init__(self, limit: int) -> None:
        self.limit, self.torus = limit, Torus(min(256, limit))
        self.rules: dict[str, Rule] = {}
        self.entries: list[dict[str, Any]] = []
        self.position = 0
        self.colours = list(range(16))
        # The way of steps that were put off, how many, and the position before them.
        self.due: tuple[str, int, int] | None = None

    def do(self, command: dict[str, Any]) -> dict[str, Any]:
        """Does a command, but puts its steps off. Returns its reply, with the position after them, or its fault."""
        word = command["do"]
        answer = getattr(self, f"do_{word}")(**{key: value for key, value in command.items() if key != "do"})
        if isinstance(answer, int):
            return {"fault": answer}
        return sorted_by_keys(answer if "fault" in answer else {"ok": word} | answer)

    def reply(self, command: dict[str, Any]) -> dict[str, Any]:
        """Does a command and its steps, and returns the reply."""
        reply = self.do(command)
        self.settle()
        return reply

    def is_long(self, most: int) -> bool:
        """Whether the steps that were put off, times the cells of the torus, are more than `most`."""
        return self.due is not None and self.due[1] * self.torus.side**2 > most

    def forget(self) -> None:
        """Drops the steps that were put off, and goes back to the position before them."""
        if self.due:
            self.position, self.due = self.due[2], None

    def settle(self) -> None:
        """Does the steps that were put off."""
        if not self.due:
            return
        way, n, self.position = self.due
        self.due, start, done = None, (self.position, self.torus.planes), 0
        while n:
            if way == "before":
                self.position = (self.position - 1) % len(self.entries)
            self.step(way)
            if way == "after":
                self.position = (self.position + 1) % len(self.entries)
            n, done = n - 1, done + 1
            if (self.position, self.torus.planes) == start:
                # From here on all comes again.
                n %= done

    def step(self, way: str) -> None:
        """Replaces the planes by those "after" the entry at the position, or "before" it. A half without a rule keeps
        its planes."""
        entry, new = self.entries[self.position], list(self.torus.planes)
        of_half = self.torus.step_half if way == "after" else self.torus.undo_half
        for half, first in FIRST_PLANE.items():
            if entry[half.lower()] != "-":
                rule = self.rules[entry[half.lower()]]
                new[first : first + 2] = of_half(rule, entry["grid"], entry["phase"])
        self.torus.planes = new

    def has_row(self, plane: int, row: int) -> bool:
        """Whether there is such a row."""
        return plane < 4 and row < self.torus.side

    def uses(self) -> list[tuple[int, str, str]]:
        """Each use of a rule in the cycle, in order, A before B: the entry's number from 0, the half and the name."""
        halves = [(i, half, entry[half.lower()]) for i, entry in enumerate(self.entries) for half in "AB"]
        return [(i, half, name) for i, half, name in halves if name != "-"]

    def is_used(self, name: str) -> bool:
        """Whether the cycle has a rule."""
        return any(name == used for _, _, used in self.uses())

    def do_set(self, plane: int, row: int, bits: str) -> Answer:
        """Sets a row to these digits. Fault 65 if there is no such row, or if they are those of another side."""
        if not self.has_row(plane, row) or len(bits) != self.torus.side // 4:
            return 65
        self.torus.put(plane, row, bits)
        return {}

    def do_clear(self, plane: int) -> Answer:
        """Clears a plane."""
        if plane > 3:
            return 65
        self.torus.planes[plane] = Torus(self.torus.side).planes[plane]
        return {}

    def do_row(self, plane: int, row: int) -> Answer:
        """Shows a row."""
        return {"bits": self.torus.digits(plane, row)} if self.has_row(plane, row) else 65

    def do_plane(self, plane: int) -> Answer:
        """Shows a plane."""
        return {"rows": [self.torus.digits(plane, y) for y in range(self.torus.side)]} if plane < 4 else 65

    def do_rule(self, name: str, half: str, hood: str, minor: str, text: str) -> Answer:
        """Defines a rule, or redefines it. Fault 65 (its name), 61 (in use), 62 (too many), or that of its text."""
        if not is_rule_name(name):
            return 65
        if self.is_used(name):
            return 61
        if name not in self.rules and len(self.rules) == 16:
            return 62
        rule = rule_of(half, hood, minor, text)
        if isinstance(rule, dict):
            return rule
        self.rules[name] = rule
        return {}

    def do_drop(self, name: str) -> Answer:
        """Drops a rule. Fault 60 if there is none, 61 if the cycle uses it."""
        if name not in self.rules:
            return 60
        if self.is_used(name):
            return 61
        del self.rules[name]
        return {}

    def do_rules(self) -> Answer:
        """Lists the names of the rules, in the order in which they were defined."""
        return {"names": list(self.rules)}

    def do_cycle(self, entries: list[dict[str, Any]]) -> Answer:
        """Sets the cycle, and goes to its first entry. Fault 65, 60 (no such rule) or 66 (one of the other half)."""
        if not 1 <= len(entries) <= 16 or any(entry["phase"] > 3 for entry in entries):
            return 65
        for half, name in ((half, entry[half.lower()]) for entry in entries for half in "AB"):
            if name != "-" and name not in self.rules:
                return 60
            if name != "-" and self.rules[name].key.half != half:
                return 66
        self.entries, self.position = entries, 0
        return {}

    def why_not(self, n: int) -> int | None:
        """The fault of n steps: 65 if they are too many, 63 if there is no cycle; or None."""
        return 65 if n > 65535 else None if self.entries else 63

    def put_off(self, way: str, n: int) -> Answer:
        """Puts n steps off, "after" or "before" the position. Returns the position after them, which counts at once."""
        self.due = way, n, self.position
        self.position = (self.position + (n if way == "after" else -n)) % len(self.entries)
        return {"position": self.position}

    def do_run(self, n: int) -> Answer:
        """Does n steps by the entries from the position on, or has the fault of `why_not`."""
        return self.why_not(n) or self.put_off("after", n)

    def do_back(self, n: int) -> Answer:
        """Undoes steps by the entries before the position. Faults of `why_not`, or 64 if a rule has no inverse."""
        if fault := self.why_not(n):
            return fault
        for i, half, name in self.uses():
            if cause := self.rules[name].cause():
                return {"entry": i, "fault": 64, "half": half} | cause
        return self.put_off("before", n)

    def do_side(self, side: int) -> Answer:
        """Makes a blank torus of this side, and goes to the first entry. Fault 65 or, above the limit, 67."""
        if side not in SIDES:
            return 65
        if side > self.limit:
            return 67
        self.torus, self.position = Torus(side), 0
        return {}

    def do_map(self, colours: list[int]) -> Answer:
        """Keeps the colours of the states."""
        if any(colour > 15 for colour in colours):
            return 65
        self.colours = colours
        return {}

    def do_colours(self, row: int) -> Answer:
        """Shows a row in colours."""
        if not self.has_row(0, row):
            return 65
        return {"colours": "".join(f"{self.colours[state]:x}" for state in self.torus.states(row))}

    def do_count(self, mask: int) -> Answer:
        """Counts the cells with a state whose bit is set in the mask."""
        return 65 if mask > 65535 else {"count": self.torus.count(mask)}

    def do_save(self) -> Answer:
        """Shows the whole machine."""
        side, rules = self.torus.side, self.rules.items()
        return {
            "machine": {
                "colours": list(self.colours),
                "cycle": [sorted_by_keys(entry) for entry in self.entries],
                "planes": [[self.torus.digits(plane, y) for y in range(side)] for plane in range(4)],
                "position": self.position,
                "rules": [sorted_by_keys({"name": name} | rule.key._asdict()) for name, rule in rules],
                "side": side,
                "version": 2,
            }
        }

    def do_load(self, machine: dict[str, Any]) -> Answer:
        """Becomes a machine that was saved. Fault 68 if none was saved so, 67 if its side is above the limit."""
        new = saved_machine(machine)
        if new is None:
            return 68
        if new.torus.side > self.limit:
            return 67
        self.torus, self.rules, self.colours = new.torus, new.rules, new.colours
        self.entries, self.position = new.entries, new.position
        return {}


def saved_machine(machine: dict[str, Any]) -> Machine | None:
    """The machine that was saved so, with the largest limit; or None, if none was. `machine` passes `is_machine`."""
    new, cycle, side, planes = Machine(max(SIDES)), machine["cycle"], machine.get("side", 256), machine["planes"]
    if new.do_side(side) != {} or any(len(rows) != side for rows in planes):
        return None
    rows = [(plane, y, digits) for plane, rows in enumerate(planes) for y, digits in enumerate(rows)]
    if any(new.do_set(*row) != {} for row in rows if row[2] != "0" * (side // 4)):
        return None
    for rule in machine["rules"]:
        if rule["name"] in new.rules or new.do_rule(**rule) != {}:
            return None
    if new.do_map(machine["colours"]) != {} or cycle and new.do_cycle(cycle) != {}:
        return None
    new.position = machine["position"]
    return new if new.position < max(1, len(cycle)) else None


class Alone:
    """The machine of one user, line by line."""

    def __init__(self, limit: int = 256) -> None:
        self.machine = Machine(limit)

    def answer(self, line: bytes) -> bytes:
        """Does the command of a line, with its steps, and returns the reply or the fault, without an LF."""
        return self.short_answer(line, None) or b""

    def short_answer(self, line: bytes, most: int | None) -> bytes | None:
        """As `answer`; or None, with nothing done, if steps times cells are more than `most`, if that isn't None."""
        command = read_line(line, is_command)
        if isinstance(command, int):
            return plain({"fault": command})
        reply = self.machine.do(command)
        if most is not None and self.machine.is_long(most):
            self.machine.forget()
            return None
        self.machine.settle()
        return plain(reply)


def answers(lines: list[bytes], limit: int = 256) -> list[bytes]:
    """The replies of a new machine to lines, each without an LF. `limit` is its largest side."""
    alone = Alone(limit)
    return [alone.answer(line) for line in lines]
