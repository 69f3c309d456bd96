"""CAM Forth: what a text says, word by word, or its first fault; and what its words write at a cell.

A text is read token by token as the language has it. Its words are done one after another on a stack, up to the fault at
which they stop.
"""

from __future__ import annotations

import re
from collections.abc import Callable, Iterator
from typing import Any, NamedTuple, NoReturn

from oracle.wirings import HOODS, MINORS, names_of

MOST_BYTES, MOST_DEFINITIONS, MOST_SIZE, MOST_IFS = 8192, 64, 4096, 16
MOST_VALUES, LARGEST = 32, 65535

# A kind of item and its content: a number, a name, a word, bits to write, a definition, or bodies.
Item = tuple[str, Any]
Leaves = Callable[..., list[int]]

# How many values a word takes, and what it leaves of them.
STACK_WORDS: dict[str, tuple[int, Leaves]] = {
    "DUP": (1, lambda a: [a, a]),
    "DROP": (1, lambda a: []),
    "SWAP": (2, lambda a, b: [b, a]),
    "OVER": (2, lambda a, b: [a, b, a]),
    "ROT": (3, lambda a, b, c: [b, c, a]),
    "+": (2, lambda a, b: [a + b]),
    "-": (2, lambda a, b: [a - b]),
    "*": (2, lambda a, b: [a * b]),
    "AND": (2, lambda a, b: [a & b]),
    "OR": (2, lambda a, b: [a | b]),
    "XOR": (2, lambda a, b: [a ^ b]),
    "0=": (1, lambda a: [int(a == 0)]),
    "=": (2, lambda a, b: [int(a == b)]),
    "<": (2, lambda a, b: [int(a < b)]),
    ">": (2, lambda a, b: [int(a > b)]),
}
# The half of an output word, and the bits that it writes: which plane of the half, and which bit of the value.
OUTPUTS = {
    ">PLN0": ("A", [(0, 0)]),
    ">PLN1": ("A", [(1, 0)]),
    ">PLNA": ("A", [(0, 0), (1, 1)]),
    ">PLN2": ("B", [(0, 0)]),
    ">PLN3": ("B", [(1, 0)]),
    ">PLNB": ("B", [(0, 0), (1, 1)]),
}
NEIGHBOURS = {name for hood in HOODS for minor in MINORS for name in names_of(hood, minor)}
SIGNS = {":", ";", "(", ")", "{", "}", "IF", "ELSE", "THEN"}
LITERAL = re.compile("[0-9]+")
RESERVED = SIGNS | set(STACK_WORDS) | set(OUTPUTS) | NEIGHBOURS


class TextFault(Exception):
    """A text is no rule. The token is the one at which that is seen, counted from 1."""

    def __init__(self, number: int, token: int) -> None:
        super().__init__(number, token)
        self.number, self.token = number, token


class RuleFault(Exception):
    """The words of a rule stop, with the number of a fault."""


class Definition(NamedTuple):
    """A body, its size, and the neighbours that it may look at."""

    body: list[Item]
    size: int
    seen: frozenset[str]


def seen_by(items: list[Item]) -> Iterator[str]:
    """The names of the neighbours that items may look at, definitions included. A name may come more than once."""
    for kind, content in items:
        if kind == "neighbour":
            yield content
        elif kind == "name":
            yield from content.seen
        elif kind == "case":
            yield from seen_by(content)
        elif kind == "if":
            for body in content:
                yield from seen_by(body)


class Reader:
    """Reads a text for a half under a wiring, up to its first fault. `at` is the number of the last token so far."""

    def __init__(self, text: str, half: str, hood: str, minor: str) -> None:
        self.half, self.neighbours = half, names_of(hood, minor)
        self.is_long = len(text.encode()) > MOST_BYTES
        self.tokens, self.at, self.size = re.findall("[^ \t\r\n]+", text), 0, 0
        self.definitions: dict[str, Definition] = {}

    def fault(self, number: int) -> NoReturn:
        """Raises a TextFault with this number and the number of the last token."""
        raise TextFault(number, self.at)

    def token(self) -> str | None:
        """Takes the next token. After the last one there is None, with a number of its own."""
        self.at = min(self.at, len(self.tokens)) + 1
        return self.tokens[self.at - 1] if self.at <= len(self.tokens) else None

    def word(self) -> str | None:
        """Takes the next token that is in no comment, or None at the end. Raises fault 22 if a comment has no end."""
        token = self.token()
        while token == "(":
            token = self.token()
            while token is not None and not token.endswith(")"):
                token = self.token()
            if token is None:
                self.fault(22)
            token = self.token()
        return token

    def read(self) -> Definition:
        """Reads the whole text, and returns its last definition, the rule. Raises TextFault at the first fault."""
        if self.is_long:
            self.fault(28)
        last = None
        while (token := self.word()) is not None:
            if token != ":":
                self.fault(22)
            if len(self.definitions) == MOST_DEFINITIONS:
                self.fault(28)
            last = self.definition()
        return last or self.fault(27)

    def definition(self) -> Definition:
        """Reads a name and a body, after the `:`. Keeps the definition, and returns it."""
        name = self.token() or self.fault(22)
        if name in RESERVED or LITERAL.fullmatch(name) or name in self.definitions:
            self.fault(21)
        self.size = 0
        body = self.body()
        self.definitions[name] = Definition(body, self.size, frozenset(seen_by(body)))
        return self.definitions[name]

    def body(self) -> list[Item]:
        """Reads the items up to a `;`, and returns them. `opened` has a list of bodies for each IF that is open."""
        whole: list[Item] = []
        opened: list[list[list[Item]]] = []
        while (token := self.word()) != ";":
            items = opened[-1][-1] if opened else whole
            if token in (None, ":", ")", "}") or token in ("ELSE", "THEN") and not opened:
                self.fault(22)
            elif token == "IF":
                if len(opened) == MOST_IFS:
                    self.fault(24)
                self.grow(1)
                opened.append([[]])
                items.append(("if", opened[-1]))
            elif token == "ELSE":
                if len(opened[-1]) == 2:
                    self.fault(22)
                self.grow(1)
                opened[-1].append([])
            elif token == "THEN":
                opened.pop()
            elif token == "{":
                self.grow(1)
                items.append(("case", self.case()))
            else:
                items.append(self.item(str(token), 0))
        return self.fault(22) if opened else whole

    def case(self) -> list[Item]:
        """Reads the words up to a `}`, after the `{`, and returns an item for each."""
        items = []
        while (token := self.word()) != "}":
            if token is None or token in SIGNS:
                self.fault(22)
            items.append(self.item(token, 1))
        return items

    def item(self, token: str, more: int) -> Item:
        """The item of a word. Adds its size and `more` to the size of the definition that is read."""
        size, item = 1, self.item_of(token)
        if item[0] == "name":
            size = max(1, item[1].size)
        self.grow(size + more)
        return item

    def item_of(self, token: str) -> Item:
        """The item that a token stands for. Raises TextFault if there is none, or if it may not be used here."""
        if LITERAL.fullmatch(token):
            digits = token.lstrip("0") or "0"
            if len(digits) > 5 or int(digits) > LARGEST:
                self.fault(26)
            return "literal", int(digits)
        if token in OUTPUTS:
            half, bits = OUTPUTS[token]
            return ("output", bits) if half == self.half else self.fault(25)
        if token in STACK_WORDS:
            return "word", STACK_WORDS[token]
        if token in self.neighbours:
            return "neighbour", token
        if token in self.definitions:
            return "name", self.definitions[token]
        self.fault(20)

    def grow(self, size: int) -> None:
        """Adds to the size of the definition that is read. Raises fault 23 if it is too large then."""
        self.size += size
        if self.size > MOST_SIZE:
            self.fault(23)


def read_text(text: str, half: str, hood: str, minor: str) -> Definition:
    """The last definition of a text, which is the rule. Raises TextFault at the first fault."""
    return Reader(text, half, hood, minor).read()


class Cell:
    """A cell that sees a bit under each name, with its stack and the bits that it writes."""

    def __init__(self, seen: dict[str, int]) -> None:
        self.seen, self.stack = seen, list[int]()
        self.written = [seen["CENTER"], seen["CENTER'"]]

    def do(self, items: list[Item]) -> None:
        """Executes items, one after another. Raises RuleFault if one stops."""
        for kind, content in items:
            getattr(self, f"do_{kind}")(content)

    def pop(self, count: int) -> list[int]:
        """Removes the upper `count` values of the stack, and returns them, the top last. May raise RuleFault 40."""
        first = len(self.stack) - count
        if first < 0:
            raise RuleFault(40)
        values = self.stack[first:]
        del self.stack[first:]
        return values

    def push(self, values: list[int]) -> None:
        """Pushes values on the stack, the last one on top. Raises RuleFault 41 if there are too many then."""
        self.stack += values
        if len(self.stack) > MOST_VALUES:
            raise RuleFault(41)

    def do_literal(self, value: int) -> None:
        """Pushes a number."""
        self.push([value])

    def do_neighbour(self, name: str) -> None:
        """Pushes what is seen under a name."""
        self.push([self.seen[name]])

    def do_word(self, word: tuple[int, Leaves]) -> None:
        """Pops what a word takes, and pushes what it leaves. Raises RuleFault 43 if that is out of range."""
        count, leaves = word
        values = leaves(*self.pop(count))
        if any(not 0 <= value <= LARGEST for value in values):
            raise RuleFault(43)
        self.push(values)

    def do_output(self, bits: list[tuple[int, int]]) -> None:
        """Pops a value, and writes bits of it: for each pair, this plane of the half (0 or 1) gets this bit."""
        [value] = self.pop(1)
        for plane, bit in bits:
            self.written[plane] = value >> bit & 1

    def do_name(self, definition: Definition) -> None:
        """Executes a definition."""
        self.do(definition.body)

    def do_if(self, bodies: list[list[Item]]) -> None:
        """Pops a value. Does the first body if it isn't 0, or else the second one, if there is one."""
        [value] = self.pop(1)
        if value != 0:
            self.do(bodies[0])
        elif len(bodies) == 2:
            self.do(bodies[1])

    def do_case(self, items: list[Item]) -> None:
        """Pops a value, and does the word with this index, from 0. Raises RuleFault 42 if there is none."""
        [index] = self.pop(1)
        if index >= len(items):
            raise RuleFault(42)
        self.do([items[index]])


def bits_of(definition: Definition, seen: dict[str, int]) -> tuple[int, int]:
    """The new lower and upper bit of a cell that sees this, by names. Raises RuleFault if the words stop."""
    cell = Cell(seen)
    cell.do(definition.body)
    lower, upper = cell.written
    return lower, upper
