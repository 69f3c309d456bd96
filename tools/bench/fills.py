"""How long `cam6 alone` takes for a line that keeps a rule whose table is expensive to fill: the text is read and compiled, and
tried at all 4,096 addresses. Rules have some 4,090 words and read all twelve lines, unless their name says otherwise. It prints
the least time of each rule in milliseconds, from the line to its reply.

usage: fills.py PROGRAM [TIMES] [--random SEED] [--count N]     TIMES lines of each rule, 12 by default; with a seed N random
                                                                rules in place of the named ones, the most expensive ones first
"""

from __future__ import annotations

import argparse
import random
import subprocess
import time
from collections.abc import Callable, Iterable

from waits import LINES, repeated, rule_line

MOST_VALUES = 30
MOST_SHOWN = 15


def size_of(unit: str) -> int:
    """The instructions of a unit: each word is one, but for THEN."""
    return sum(word != "THEN" for word in unit.split())


def rule(start: str, unit: str) -> Callable[[int], str]:
    """Returns a function that makes texts of a rule: the words of the start, and the unit again and again. Each number
    given to it makes another text."""
    size = size_of(unit)

    def text_of(number: int) -> str:
        """The text of this number."""
        return repeated(number, start, unit, size)

    return text_of


def over(values: int) -> str:
    """Words that push so many values, and one more: `values` + 1 in all."""
    return " ".join(["1"] * (values + 1))


def ups(lines: Iterable[str], values: int = 1) -> str:
    """Words that push so many values for each line that is 1."""
    return " ".join(f"{line} IF {' '.join(['0'] * values)} THEN" for line in lines)


def downs(lines: Iterable[str], values: int = 1) -> str:
    """Words that drop so many values for each line that is 1."""
    return " ".join(f"{line} IF {' '.join(['DROP'] * values)} THEN" for line in lines)


def at_once(values: int = 1) -> str:
    """Words that push so many values if a line is 1, and drop them at once, for one line after another."""
    return " ".join(f"{ups([line], values)} {downs([line], values)}" for line in LINES)


def in_groups(*groups: Iterable[str]) -> str:
    """Words that push a value for each line of a group that is 1, and then drop them, group by group."""
    return " ".join(f"{ups(group)} {downs(group)}" for group in [list(group) for group in groups])


RULES = {
    "XOR, without an IF": rule("1", " ".join(f"{line} XOR" for line in LINES)),
    "X IF 1 XOR THEN": rule("1", " ".join(f"{line} IF 1 XOR THEN" for line in LINES)),
    "X IF 1 XOR ELSE 2 XOR THEN": rule("1", " ".join(f"{line} IF 1 XOR ELSE 2 XOR THEN" for line in LINES)),
    "X IF 0= THEN": rule("1", " ".join(f"{line} IF 0= THEN" for line in LINES)),
    "the same over 30 values": rule(over(30), " ".join(f"{line} IF 0= THEN" for line in LINES)),
    "X XOR DUP IF SWAP THEN ROT": rule("1 1 1", " ".join(f"{line} XOR DUP IF SWAP THEN ROT" for line in LINES)),
    "each of twelve lines a value more, and less again": rule("1", f"{ups(LINES)} {downs(reversed(LINES))}"),
    "the same over 19 values": rule(over(18), f"{ups(LINES)} {downs(reversed(LINES))}"),
    "the same, less again in the same order": rule(over(18), f"{ups(LINES)} {downs(LINES)}"),
    "each line a value more, and at once less again": rule("1", at_once()),
    "the same over 8 values": rule(over(8), at_once()),
    "the same over 16 values": rule(over(16), at_once()),
    "the same over 25 values": rule(over(25), at_once()),
    "the same over 30 values, once more": rule(over(29), at_once()),
    "four values more and less at once, over 25": rule(over(25), at_once(4)),
    "two lines at a time, over 25 values": rule(over(25), in_groups(*zip(LINES[::2], LINES[1::2]))),
    "two lines far apart at a time, over 25 values": rule(over(25), in_groups(*zip(LINES[:6], LINES[6:]))),
    "three lines at a time, over 25 values": rule(over(25), in_groups(*zip(LINES[:4], LINES[4:8], LINES[8:]))),
    "six lines at a time, over 25 values": rule(over(24), in_groups(LINES[::2], LINES[1::2])),
    "six lines alone, over 24 values": rule(over(23), in_groups(LINES[:6])),
}


def random_rule(source: random.Random) -> tuple[str, Callable[[int], str]]:
    """A random rule: its name, and the function that makes its texts. Some lines push values, and the same lines drop
    them in some order, with other words between."""
    count = source.randint(1, 12)
    chosen = [(line, source.choice([1, 1, 1, 2])) for line in source.sample(LINES, count)]
    depth = source.randint(0, MOST_VALUES - sum(values for _, values in chosen))
    between = [f"{source.choice(LINES)} XOR", "SWAP", "DUP XOR"] if depth > 2 else [""]

    def words(way: Callable[..., str], order: list[tuple[str, int]]) -> list[str]:
        """What `way` makes of each line and its number of values, in this order, with random words between."""
        return [
            f"{way([line], values)} {' '.join(source.choices(between, k=source.choice([0, 0, 0, 1, 2])))}"
            for line, values in order
        ]

    back = source.choice([chosen, chosen[::-1], source.sample(chosen, count)])
    unit = " ".join(" ".join([*words(ups, chosen), *words(downs, back)]).split())
    return f"over {depth}: {unit}"[:110], rule(over(depth), unit)


def least_times(program: str, rules: dict[str, Callable[[int], str]], times: int) -> dict[str, float]:
    """Defines each rule so many times. Returns the least milliseconds of each by its name, without rules that are
    refused."""
    found = {}
    with subprocess.Popen([program, "alone"], stdin=subprocess.PIPE, stdout=subprocess.PIPE) as alone:
        assert alone.stdin and alone.stdout
        for name, text_of in rules.items():
            took = []
            for number in range(1, times + 1):
                line = rule_line("R", "A", "N/MARG-HV", "&/PHASES", text_of(number))
                began = time.perf_counter()
                alone.stdin.write(line)
                alone.stdin.flush()
                reply = alone.stdout.readline()
                took.append(time.perf_counter() - began)
                if b'"ok"' not in reply:
                    took = []
                    break
            if took:
                found[name] = 1000 * min(took)
        alone.stdin.close()
    return found


def main() -> None:
    """Prints the least times of the rules above, or of random ones."""
    parser = argparse.ArgumentParser(
        prog="fills.py", description=__doc__, formatter_class=argparse.RawDescriptionHelpFormatter
    )
    parser.add_argument("program")
    parser.add_argument("times", nargs="?", type=int, default=12)
    parser.add_argument("--random", type=int, metavar="SEED")
    parser.add_argument("--count", type=int, default=100)
    asked = parser.parse_args()
    if asked.random is None:
        found = list(least_times(asked.program, RULES, asked.times).items())
    else:
        source = random.Random(asked.random)
        found = list(
            least_times(asked.program, dict(random_rule(source) for _ in range(asked.count)), asked.times).items()
        )
        found = sorted(found, key=lambda it: -it[1])[:MOST_SHOWN]
    print("| a line that keeps a rule | milliseconds |\n|---|---|")
    for name, milliseconds in found:
        print(f"| {name} | {milliseconds:.1f} |")


if __name__ == "__main__":
    main()
