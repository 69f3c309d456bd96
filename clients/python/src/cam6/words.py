"""The words of rules, evaluated here: what a text does at an address, without a machine.

`rules.is_reversible` needs it. The machine has its own evaluation, which is proved; this one only saves a question.
"""

from __future__ import annotations

import re
from typing import Callable, Dict, List, Mapping, Optional, Tuple, Union

from .wirings import HOODS, MINORS

MOST_BYTES, MOST_SIZE, MOST_VALUES, LARGEST = 8192, 4096, 32, 65_535

_TWO: Dict[str, Callable[[int, int], int]] = {
    "+": lambda a, b: a + b,
    "-": lambda a, b: a - b,
    "*": lambda a, b: a * b,
    "AND": lambda a, b: a & b,
    "OR": lambda a, b: a | b,
    "XOR": lambda a, b: a ^ b,
    "=": lambda a, b: int(a == b),
    "<": lambda a, b: int(a < b),
    ">": lambda a, b: int(a > b),
}
_MOVES: Dict[str, Tuple[int, Tuple[int, ...]]] = {
    "DUP": (1, (0, 0)),
    "DROP": (1, ()),
    "SWAP": (2, (1, 0)),
    "OVER": (2, (0, 1, 0)),
    "ROT": (3, (1, 2, 0)),
}
# Which planes an output word writes: for each the bit of the value, and the plane of the half (0 lower, 1 upper).
_OUTPUTS: Dict[str, Dict[str, Tuple[Tuple[int, int], ...]]] = {
    "A": {">PLN0": ((0, 0),), ">PLN1": ((0, 1),), ">PLNA": ((0, 0), (1, 1))},
    "B": {">PLN2": ((0, 0),), ">PLN3": ((0, 1),), ">PLNB": ((0, 0), (1, 1))},
}

Token = str
Body = List[Union[Token, "Choice", "Case"]]


class WordError(ValueError):
    """A text that is no rule, or that stops. `token` is the number of the token, from 1 on, or 0 for the whole text."""

    def __init__(self, message: str, token: int = 0) -> None:
        super().__init__(message)
        self.token = token


class Choice:
    """An `IF`: the body for a value that is not 0, and the other one."""

    def __init__(self) -> None:
        self.bodies: List[Body] = [[]]


class Case:
    """The words between braces."""

    def __init__(self) -> None:
        self.words: List[Token] = []


class Program:
    """A text, read. `names` are the neighbours that it looks at."""

    def __init__(self, text: str, hood: str, minor: str, half: str) -> None:
        self.neighbours = HOODS[hood] + MINORS[minor]
        self.outputs = _OUTPUTS[half]
        self.definitions: Dict[str, Body] = {}
        self.names: List[str] = []
        self._bits_at: Dict[Tuple[int, ...], Tuple[int, int]] = {}
        self._read(re.findall("[^ \t\r\n]+", text))

    def _read(self, tokens: List[Token]) -> None:
        """Reads all definitions of a text. Raises WordError with the token."""
        last: Optional[str] = None
        at = 0
        while (at := _past_comments(tokens, at)) < len(tokens):
            if tokens[at] != ":" or at + 1 == len(tokens):
                raise WordError(f"{tokens[at]!r} stands where a definition begins with a colon and a name", at + 1)
            last = tokens[at + 1]
            if self._is_word(last) or last in self.definitions:
                raise WordError(f"{last!r} has a meaning already", at + 2)
            body, at = self._body(tokens, at + 2)
            self.definitions[last] = body
        if last is None:
            raise WordError("the text has no definition")
        self.last = last

    def _is_word(self, token: Token) -> bool:
        """Whether a token has a meaning of its own, so that no definition may have it as its name."""
        signs = token in (":", ";", "(", ")", "{", "}", "IF", "ELSE", "THEN", "0=")
        known = token in _TWO or token in _MOVES or any(token in _OUTPUTS[half] for half in "AB")
        named = any(token in names for names in (*HOODS.values(), *MINORS.values()))
        return signs or known or named or _is_number(token)

    def _body(self, tokens: List[Token], at: int) -> Tuple[Body, int]:
        """The body up to a `;`, and the index of the token after that. `at` is where it begins. Raises WordError."""
        whole: Body = []
        opened: List[Choice] = []
        while (at := _past_comments(tokens, at)) < len(tokens):
            token = tokens[at]
            items = opened[-1].bodies[-1] if opened else whole
            if token == ";" and not opened:
                return whole, at + 1
            if token == "IF":
                choice = Choice()
                items.append(choice)
                opened.append(choice)
            elif token == "ELSE" and opened and len(opened[-1].bodies) == 1:
                opened[-1].bodies.append([])
            elif token == "THEN" and opened:
                opened.pop()
            elif token == "{":
                case, at = self._case(tokens, at + 1)
                items.append(case)
            else:
                items.append(self._word(token, at))
            at += 1
        raise WordError("the text ends inside a definition", len(tokens))

    def _case(self, tokens: List[Token], at: int) -> Tuple[Case, int]:
        """The words up to a `}`, and the index of that. `at` is where they begin. Raises WordError."""
        case = Case()
        while (at := _past_comments(tokens, at)) < len(tokens):
            if tokens[at] == "}":
                return case, at
            case.words.append(self._word(tokens[at], at))
            at += 1
        raise WordError("the text ends inside braces", len(tokens))

    def _word(self, token: Token, at: int) -> Token:
        """Returns a token within a body, and notes the name if a neighbour has it. Raises WordError if it is no
        word."""
        if token in self.neighbours:
            if token not in self.names:
                self.names.append(token)
        elif _is_number(token):
            if len(token.lstrip("0")) > 5 or int(token[-5:]) > LARGEST:
                raise WordError(f"{token} is above {LARGEST}", at + 1)
        elif not (
            token in _TWO or token in _MOVES or token == "0=" or token in self.outputs or token in self.definitions
        ):
            raise WordError(f"{token!r} is no word of the language, the neighbourhood or the text", at + 1)
        return token

    def at(self, seen: Mapping[str, int]) -> Tuple[int, int]:
        """The new bits of a cell, lower and upper, for the bits that it sees under its names. Raises WordError if the
        rule stops."""
        sight = (seen["CENTER"], seen["CENTER'"], *(seen[name] for name in self.names))
        if sight not in self._bits_at:
            written = [seen["CENTER"], seen["CENTER'"]]
            self._do(self.definitions[self.last], [], seen, written)
            self._bits_at[sight] = written[0], written[1]
        return self._bits_at[sight]

    def _do(self, body: Body, stack: List[int], seen: Mapping[str, int], written: List[int]) -> None:
        """Executes a body on the stack. `written` gets the new bits."""
        for item in body:
            if isinstance(item, Choice):
                chosen = 0 if _pop(stack, 1)[0] else 1
                if chosen < len(item.bodies):
                    self._do(item.bodies[chosen], stack, seen, written)
            elif isinstance(item, Case):
                (index,) = _pop(stack, 1)
                if index >= len(item.words):
                    raise WordError(f"a case of {len(item.words)} words has no word {index}")
                self._do_word(item.words[index], stack, seen, written)
            else:
                self._do_word(item, stack, seen, written)

    def _do_word(self, word: Token, stack: List[int], seen: Mapping[str, int], written: List[int]) -> None:
        """Executes one word. Raises WordError if a value or the stack is too large."""
        if word in self.neighbours:
            stack.append(seen[word])
        elif _is_number(word):
            stack.append(int(word[-5:]))
        elif word in _TWO:
            value = _TWO[word](*_pop(stack, 2))
            if not 0 <= value <= LARGEST:
                raise WordError(f"{word} gives {value}, which is not from 0 to {LARGEST}")
            stack.append(value)
        elif word == "0=":
            stack.append(int(_pop(stack, 1)[0] == 0))
        elif word in _MOVES:
            taken, left = _MOVES[word]
            values = _pop(stack, taken)
            stack.extend(values[place] for place in left)
        elif word in self.outputs:
            (value,) = _pop(stack, 1)
            for bit, plane in self.outputs[word]:
                written[plane] = value >> bit & 1
        else:
            self._do(self.definitions[word], stack, seen, written)
        if len(stack) > MOST_VALUES:
            raise WordError(f"the stack has more than {MOST_VALUES} values")


def _is_number(token: Token) -> bool:
    """Whether a token has digits alone."""
    return token.isascii() and token.isdigit()


def _past_comments(tokens: List[Token], at: int) -> int:
    """The index of the first token from `at` on that is in no comment, or how many there are if there is none."""
    while at < len(tokens) and tokens[at] == "(":
        begin = at
        at += 1
        while at < len(tokens) and not tokens[at].endswith(")"):
            at += 1
        if at == len(tokens):
            raise WordError("the text ends inside a comment", begin + 1)
        at += 1
    return at


def _pop(stack: List[int], count: int) -> List[int]:
    """Removes the top values of the stack, and returns them, the topmost last. Raises WordError if there are fewer."""
    if len(stack) < count:
        raise WordError(f"a word needs {count} values, and the stack has {len(stack)}")
    values = stack[-count:]
    del stack[-count:]
    return values
