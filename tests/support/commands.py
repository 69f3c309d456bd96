"""Commands, and the random commands of a user: rules and cycles of them, pictures, steps both ways, looks, and commands that are
refused."""

from __future__ import annotations

from collections.abc import Callable, Sequence
from random import Random
from typing import Any

from examples.named_rules import CELLS, CROWDED, OTHERS, REVERSIBLE, RULES

Command = dict[str, Any]


def do(word: str, **named: Any) -> Command:
    """The command of this word and these fields."""
    return {"do": word} | named


def rule_command(name: str, half: str, hood: str, minor: str, text: str) -> Command:
    """The command that defines a rule."""
    return do("rule", name=name, half=half, hood=hood, minor=minor, text=text)


def cycle_command(*entries: tuple[str, str, str, int]) -> Command:
    """The command that sets a cycle, by the two rules, the grid and the phase of each entry."""
    return do("cycle", entries=[dict(zip(("a", "b", "grid", "phase"), entry)) for entry in entries])


NAMES = {"A": ["R", "S", "T"], "B": ["U", "V", "r"]}
FREE = cycle_command(("-", "-", "EVEN", 0))
NO_TEXTS = [": R FOO ;", ": R + >PLN0 ;"]
LARGE = [4, 255, 65536, 2**64 - 1]
# The most steps of a command, by side.
MOST = {128: 5, 256: 3, 512: 2}
# How often each is asked for.
WEIGHTS = {"steps": 12, "picture": 3, "shown": 3, "other_rules": 3, "refused": 2, "blank": 0.5}


class Asker:
    """The random commands of a user, who begins with a torus of the side `first`. `side` tells its side later on. `steps` are the
    numbers of steps of a command, few of them if it is empty."""

    def __init__(self, random: Random, first: int, side: Callable[[], int], steps: Sequence[int] = ()) -> None:
        self.random, self.side, self.steps = random, side, steps
        # The rules that are there, by names; and what the user has in mind.
        self.words: dict[str, str] = {}
        self.wishes: list[Command | Callable[[], Command]] = [do("run", n=1)] if random.random() < 0.1 else []
        self.wishes += [do("side", side=first), *self.new_rules(), *self.pictures()]

    def command(self) -> Command:
        """The next command: of those that the user has in mind, or another."""
        if self.wishes:
            wish = self.wishes.pop(0)
            return wish() if callable(wish) else wish
        word = self.random.choices(list(WEIGHTS), list(WEIGHTS.values()))[0]
        command: Command = getattr(self, f"ask_{word}")()
        return command

    def new_rules(self) -> list[Command]:
        """Rules and a cycle of them, now and then some that can't be undone. A cycle that is there frees its rules first."""
        choice = self.random.random()
        among = REVERSIBLE if choice < 0.6 else CROWDED if choice > 0.96 else REVERSIBLE | OTHERS
        lines, self.words = [FREE] if self.words else [], {}
        for word in self.random.sample(list(among), self.random.randrange(1, 1 + min(3, len(among)))):
            name = self.random.choice(NAMES[RULES[word][0]][: 1 + len(self.words)])
            self.words[name] = word
            lines.append(rule_command(name, *RULES[word]))
        return [*lines, self.cycle()]

    def cycle(self) -> Command:
        """The command that sets a random cycle of the rules."""
        halves = {half: [name for name, word in self.words.items() if RULES[word][0] == half] for half in "AB"}
        entries = []
        for _ in range(self.random.choice([1, 2, 2, 3, 4, 16])):
            a, b = (self.random.choice([*names, *names, *names, "-"]) for names in halves.values())
            entries.append((a, b, self.random.choice(["EVEN", "ODD"]), self.random.randrange(4)))
        return cycle_command(*entries)

    def pictures(self) -> list[Callable[[], Command]]:
        """Two to four commands to set a row. Their digits are chosen when the side is known."""
        return [self.ask_picture] * self.random.randrange(2, 5)

    def row(self) -> int:
        """The number of a row, which is often one at a seam."""
        side = self.side()
        return self.random.choice([0, 15, 16, side - 17, side - 1, self.random.randrange(side)])

    def digits(self) -> str:
        """The hexadecimal digits of a row with few set cells."""
        digits = ["0"] * (self.side() // 4)
        for _ in range(self.random.randrange(1, 4)):
            place = self.random.choice([0, len(digits) - 1, self.random.randrange(len(digits))])
            digits[place] = f"{self.random.randrange(1, 16):x}"
        return "".join(digits)

    def ask_picture(self) -> Command:
        """A command that sets a row."""
        return do("set", plane=self.random.randrange(4), row=self.row(), bits=self.digits())

    def ask_steps(self) -> Command:
        """A command of steps, fewer at large sides."""
        some = [*range(1, MOST[self.side()] + 1)]
        return do(self.random.choice(["run", "run", "back"]), n=self.random.choice(self.steps or [0, *some, *some]))

    def ask_shown(self) -> Command:
        """A command that shows a part of the machine, or sets other colours."""
        looks = [do("row", plane=self.random.randrange(4), row=self.row()), do("colours", row=self.row()), do("rules")]
        looks += [do("count", mask=self.random.choice([1, 2, 65534, self.random.randrange(65536)]))]
        looks += [do("map", colours=[self.random.randrange(16) for _ in range(16)])]
        return self.random.choice(looks)

    def ask_other_rules(self) -> Command:
        """Plans another cycle, other rules, another text for a name, or too many rules. Returns the first command."""
        choice, name = self.random.random(), self.random.choice(list(self.words))
        if choice < 0.3:
            return self.cycle()
        if choice < 0.7:
            self.wishes += self.new_rules()
        elif choice < 0.97:
            half = RULES[self.words[name]][0]
            other = self.random.choice([rule for rule in (OTHERS | REVERSIBLE).values() if rule[0] == half])
            dropped = [do("drop", name=name)] if self.random.random() < 0.5 else []
            self.wishes += [FREE, *dropped, rule_command(name, *other), self.cycle()]
        else:
            self.wishes += [rule_command(f"n{number}", *RULES["TURN"]) for number in range(16)] + self.new_rules()
        return self.command()

    def ask_blank(self) -> Command:
        """Plans to clear all planes and to draw pictures on them. Returns the first command."""
        self.wishes += [*(do("clear", plane=plane) for plane in range(4)), *self.pictures()]
        return do("side", side=self.side()) if self.random.random() < 0.5 else self.command()

    def ask_refused(self) -> Command:
        """A command that may be refused."""
        number, side, bits = self.random.choice(LARGE), self.side(), self.digits()
        name, other = self.random.choice(["R", "U", "X", *self.words]), self.random.choice(["-", "R", "U"])
        refused = [do("set", plane=number, row=0, bits=bits), do("set", plane=0, row=side, bits=bits)]
        refused += [do("set", plane=0, row=0, bits="0" * (32 if side == 256 else 64)), do("clear", plane=number)]
        refused += [do("row", plane=0, row=side), do("colours", row=side), do("count", mask=65536)]
        refused += [do("drop", name=name), do("run", n=65536), do("back", n=2**64 - 1)]
        refused += [do("map", colours=[*range(15), 16]), do("side", side=self.random.choice([64, 256, 512]))]
        refused += [cycle_command(*[(name, other, "ODD", 0)] * times) for times in (0, 1, 17)]
        refused += [cycle_command((name, other, "ODD", 4)), cycle_command(("-", name, "ODD", 0))]
        refused += [rule_command("-", *RULES["TURN"]), rule_command(name, *RULES["TURN"])]
        return self.random.choice([*refused, rule_command(name, "A", *CELLS, self.random.choice(NO_TEXTS))])
