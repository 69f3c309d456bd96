"""What comes back for the lines of a worked example, by the oracle."""

from __future__ import annotations

from collections.abc import Callable, Iterable
from itertools import product
from typing import Any

from oracle import wirings
from oracle.examples import Example, Part, limit_of, outcome_of, sizes_of
from oracle.forth import TextFault, read_text
from oracle.host import Replay
from oracle.lines import is_command, lines_of, plain, read_line
from oracle.machine import answers
from oracle.rules import bit_of_block, rule_of


def readings_answer(line: bytes) -> bytes:
    """The command of a line in its plainest spelling, with the digits of `bits` in lower case; or the line's fault."""
    command = read_line(line, is_command)
    if isinstance(command, int):
        return plain({"fault": command})
    return plain(command | {"bits": command["bits"].lower()} if "bits" in command else command)


def text_answer(text: str, half: str, hood: str, minor: str) -> bytes:
    """The reply that a text reads as a rule, or its fault and the token. The words aren't executed."""
    try:
        read_text(text, half, hood, minor)
    except TextFault as fault:
        return plain({"fault": fault.number, "token": fault.token})
    return b'{"ok":"rule"}'


def table_text(entries: Iterable[int]) -> bytes:
    """The 4,096 entries of a table as digits, 64 a line, without an LF at the end."""
    digits = "".join(map(str, entries))
    return "\n".join(digits[first : first + 64] for first in range(0, 4096, 64)).encode()


def table_answer(text: str, half: str, hood: str, minor: str) -> bytes:
    """The entries of a rule's table at all addresses, as `table_text` has them; or the reply with the rule's fault."""
    rule = rule_of(half, hood, minor, text)
    return plain(rule) if isinstance(rule, dict) else table_text(map(rule.at, range(4096)))


def inverse_answer(text: str, *words: str) -> bytes:
    """The table that undoes a rule's (half, hood, minor), or after `twice` the one that undoes that; or why there is
    none."""
    *twice, half, hood, minor = words
    rule = rule_of(half, hood, minor, text)
    if isinstance(rule, dict):
        return plain(rule)
    if cause := rule.cause():
        states = " and ".join(map(str, cause.get("states", [])))
        return (f"meeting at phase {cause['phase']} of {states}" if states else str(cause["cause"])).encode()
    entries, names = [address % 4 for address in range(4096)], wirings.lines_of(hood, minor)
    for phase, place in product(range(4), range(4)):
        for state, image in enumerate(rule.images(phase)):
            now, new = (state, image) if twice else (image, state)
            bits = [name != "." and bit_of_block(name, now, phase, place) for name in names]
            entries[sum(bit << line for line, bit in enumerate(bits))] = new >> place & 1 | (new >> place + 4 & 1) << 1
    return table_text(entries)


def part_answers(part: Part) -> list[bytes]:
    """What the oracle answers to each line of a part, in order, without an LF at the end."""
    word, *rest = part.way.split()
    if word == "session":
        return answers(lines_of(part.bytes_sent()), limit_of(part.way))
    if word == "events":
        users, boards, cache, limit = sizes_of(part.way)
        replay = Replay(users, boards, cache, limit)
        return [outcome_of(replay.answer, line) for line, _ in part.sent]
    ways: dict[str, Callable[..., bytes]] = {"texts": text_answer, "tables": table_answer, "inverses": inverse_answer}
    return [readings_answer(line) if word == "readings" else ways[word](line.decode(), *rest) for line, _ in part.sent]


def is_known(path: Any) -> bool:
    """Whether the oracle can answer all parts of the example in this file."""
    ways = {part.way.split()[0] for part in Example(path).parts}
    return ways <= {"session", "events", "readings", "texts", "tables", "inverses"}
