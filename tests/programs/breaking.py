"""Lines that were changed: in bytes, in the spelling of their JSON, or in what it says.

Nobody knows here what a changed line says, if anything. `oracle.lines` reads it and finds out.
"""

from __future__ import annotations

from collections.abc import Callable, Iterable, Iterator
from copy import deepcopy
from random import Random
from typing import Any

from oracle.lines import LINE_LIMIT, LOAD_HEAD, LOAD_LIMIT, plain

LARGE, SMALL = "1" + "0" * 400, "0." + "0" * 400 + "1"
NUMBERS = [
    *"0 1 2 3 4 15 16 17 127 128 255 256 65535 65536 18446744073709551615 18446744073709551616 -0 -1 0.0 1.0 1.5".split(),
    *"1e2 1E0 1e+1 1e-1 0e0 -1e999 1e999 1e308 1e309 1e-999 0e999 01 00 -01 +1 1. .5 1e 1e+ - 0x1 1_0 NaN".split(),
    *"Infinity -Infinity 1/2 1,0 9223372036854775807 9223372036854775808 -9223372036854775808".split(),
    *"-9223372036854775809 0.1e1 10e-1 1.0e0 2E00 ١ ４ 1e00000000000000001".split(),
    *[str(2**64 - 1), str(2**64)] * 3,
    *["9" * 30, LARGE, SMALL, LARGE + "e-400", SMALL + "e+400"],
]
VALUES = ["null", "true", "false", "[]", "{}", '""', '"0"', '"1"', "[0]", '{"n":1}', "nul", "True", "tru"]
VALUES += ["nulls", "'0'", ""]
KEYS = ["do", "n", "plane", "row", "event", "user", "board", "command", "x", "", "do ", "Do", "entries", "name", "bits"]
# In strings: escapes that are none, halves of surrogates, and bytes that are no UTF-8.
PIECES = [
    *(rb"\x", rb"\u12", rb"\u123g", rb"\ud800", rb"\udc00", rb"\ud800\u0041", rb"\uD83D\uDE00", rb"\ud800\ud800"),
    *(b"\\", b"\x00", b"\x1f", b"\x7f", b"\t", b"\xff", b"\x80", b"\xc0\x80", b"\xe2\x82", b"\xed\xa0\x80"),
    *(b"\xf4\x90\x80\x80", b"\xc3\xa9", b"\xf0\x9f\x98\x80", rb"\/", rb"\n", rb"\"", b"\xef\xbb\xbf", b"\xc2\xa0"),
    *(rb"\u0000", b"'", b'"', b" ", rb"\U0041", rb"\e"),
]
BYTES = b'"\\{}[],: 019.-+eEtnu\x00\t\r\x0b\x0c\x1f\x7f\x80\xc3\xff/'
SPACES = [b""] * 6 + [b" ", b"  ", b"\t", b"\r", b" \t "]
NO_SPACES = [b"\x0b", b"\x0c", b"\xc2\xa0", b"\xef\xbb\xbf", b"\x00", b"//", b"/**/", b"#", b",", b";"]


class Raw(bytes):
    """JSON, or none, as it is to stand in a line."""


def places(value: Any) -> Iterator[tuple[Any, int | str]]:
    """The places in a value, at any depth: the list or object, and the index or key. Of over 100 items there are
    three."""
    keys = value if isinstance(value, dict) else range(len(value)) if isinstance(value, list) else []
    if isinstance(keys, range) and len(keys) > 100:
        keys = [0, len(keys) // 2, len(keys) - 1]
    for key in keys:
        yield value, key
        yield from places(value[key])


class Speller:
    """Writes a value as JSON, in any of its spellings."""

    def __init__(self, random: Random) -> None:
        self.random, self.escapes = random, random.choice([0, 0, 0.02, 0.5])
        self.spaces = SPACES if random.random() < 0.4 else [b""]

    def spell(self, value: Any) -> bytes:
        """Spells a value as JSON, in any way: blanks, escapes, the order of keys. A `Raw` stands as it is, JSON or
        not."""
        if isinstance(value, Raw):
            text = bytes(value)
        elif isinstance(value, dict):
            keys = self.random.sample(list(value), len(value)) if value and self.random.random() < 0.6 else list(value)
            text = self.join(self.text(key) + self.space() + b":" + self.spell(value[key]) for key in keys)
            text = b"{" + text + b"}"
        elif isinstance(value, list):
            text = b"[" + self.join(map(self.spell, value)) + b"]"
        else:
            text = self.text(value) if isinstance(value, str) else plain(value)
        return self.space() + text + self.space()

    def space(self) -> bytes:
        """Blanks, or nothing."""
        return self.random.choice(self.spaces)

    def join(self, parts: Iterable[bytes]) -> bytes:
        """Joins parts by commas. If there are none, returns blanks or nothing."""
        return b",".join(parts) or self.space()

    def text(self, text: str) -> bytes:
        """A JSON string with its quotes, whose letters may be escapes."""
        return b'"' + b"".join(map(self.letter, text)) + b'"'

    def letter(self, letter: str) -> bytes:
        """A letter as it stands in a JSON string, maybe as an escape."""
        if self.random.random() < self.escapes:
            digits = letter.encode("utf-16-be").hex()
            units = [digits[i : i + 4] for i in range(0, len(digits), 4)]
            return "".join("\\u" + self.random.choice([unit, unit.upper()]) for unit in units).encode()
        return b"\\/" if letter == "/" and self.random.random() < 0.1 else plain(letter)[1:-1]


class Breaker:
    """Changes lines at random, in what they say, in their spelling, or in their bytes."""

    def __init__(self, random: Random) -> None:
        self.random = random
        self.saying = [
            self.change_number,
            self.change_number,
            self.change_value,
            self.leave_out,
            self.add_key,
            self.rename_key,
        ]
        self.saying += [self.nest, self.change_text]
        self.writing = [self.spell] * 4 + [self.repeat_key, self.change_string]

    def line(self, value: dict[str, Any]) -> bytes:
        """The bytes of a line that says this value, or of a broken one like it. An LF among them makes two lines."""
        choice, pick = self.random.random(), self.random.choice
        if choice < 0.35:
            value = deepcopy(value)
            pick(self.saying)(value, *pick(list(places(value))))
            return self.spell(value)
        if choice < 0.7:
            spell: Callable[[dict[str, Any]], bytes] = pick(self.writing)
            return spell(value)
        return self.change_bytes(self.spell(value) if self.random.random() < 0.5 else plain(value))

    def spell(self, value: Any) -> bytes:
        """Spells a value in any way. A command that loads a machine mostly begins with `LOAD_HEAD`, as a long line
        must."""
        speller = Speller(self.random)
        is_load = isinstance(value, dict) and list(value) == ["do", "machine"] and value["do"] == "load"
        if is_load and self.random.random() < 0.8:
            return LOAD_HEAD + b'"machine":' + speller.spell(value["machine"]) + b"}"
        return speller.spell(value)

    def any_value(self) -> Raw:
        """A number or another value of JSON, or something that is no JSON."""
        return Raw(self.random.choice(self.random.choice([NUMBERS, NUMBERS, VALUES])).encode())

    def change_value(self, _: Any, inner: Any, key: Any) -> None:
        """Puts another value, or what is no JSON, under a key or an index."""
        inner[key] = self.any_value()

    def change_number(self, value: Any, inner: Any, key: Any) -> None:
        """Replaces a number of `value` by another one, or by no JSON. Without any, replaces what is at `key`."""
        numbers = [(inner, key) for inner, key in places(value) if isinstance(inner[key], int)]
        inner, key = self.random.choice(numbers or [(inner, key)])
        inner[key] = Raw(self.random.choice(NUMBERS).encode())

    def leave_out(self, _: Any, inner: Any, key: Any) -> None:
        """Removes a member of an object, or an item of a list."""
        del inner[key]

    def add_key(self, _: Any, inner: Any, key: Any) -> None:
        """Adds a member to an object, maybe in place of one, or an item to the end of a list."""
        if isinstance(inner, dict):
            inner[self.random.choice(KEYS)] = self.random.choice([0, "x", self.any_value()])
        else:
            inner.append(self.random.choice([0, 15, *inner]))

    def rename_key(self, _: Any, inner: Any, key: Any) -> None:
        """Renames a key of an object, or reverses a list."""
        if isinstance(inner, dict):
            inner[self.random.choice([*KEYS, key.upper(), key + " "])] = inner.pop(key)
        else:
            inner.reverse()

    def nest(self, _: Any, inner: Any, key: Any) -> None:
        """Replaces a value by one that is nested about as deep as can be, or far deeper. It may lack its last
        bracket."""
        depth = self.random.choice([1, *range(122, 129), *range(122, 129), 5000])
        first, last = self.random.choice([(b"[", b"]"), (b'{"a":', b"}")])
        inside = self.random.choice([b"1", b"{}", b"[]"])
        inner[key] = Raw(first * depth + inside + last * (depth - (self.random.random() < 0.1)))

    def change_text(self, value: Any, inner: Any, key: Any) -> None:
        """Replaces, adds or removes a letter of a text in `value`, or leaves it."""
        inner, key = self.random.choice([(inner, key) for inner, key in places(value) if isinstance(inner[key], str)])
        i = self.random.randrange(len(inner[key]) + 1)
        letter = self.random.choice([*"AB-0f()>;: \t\n\x00\x0b", "é", "😀", " ; ", " DUP ", ""])
        inner[key] = inner[key][:i] + letter + inner[key][i + self.random.randrange(2) :]

    def repeat_key(self, value: dict[str, Any]) -> bytes:
        """Spells a line in which one key stands twice, or each key of the object does."""
        line = self.spell(value).strip()
        if self.random.random() < 0.2:
            return line[:-1] + b"," + self.spell(value).lstrip()[1:]
        key = self.random.choice(list(value))
        other = self.random.choice([self.any_value(), value[key], self.random.choice(["run", "evict", "x"])])
        member = Speller(self.random).text(key) + b":" + self.spell(other)
        return self.random.choice([b"{" + member + b"," + line[1:], line[:-1] + b"," + member + b"}"])

    def change_string(self, value: dict[str, Any]) -> bytes:
        """Spells a line, and inserts a piece after one of its quotes. The piece may be right there or not."""
        line = self.spell(value)
        quotes = [i for i, byte in enumerate(line) if byte == ord('"')]
        i = self.random.choice(quotes if self.random.random() < 0.5 else quotes[:20] + quotes[-60:])
        return line[: i + 1] + self.random.choice(PIECES) + line[i + 1 :]

    def change_bytes(self, line: bytes) -> bytes:
        """Changes bytes of a line at a place, which is as often near an end of a long one. Or cuts or doubles the line,
        makes it longer, puts it into another code, adds something before or after it, or empties it."""
        random, i = self.random, self.random.randrange(len(line))
        if len(line) > LINE_LIMIT and random.random() < 0.5:
            i = random.choice([random.randrange(100), len(line) - 1 - random.randrange(400)])
        first, last, byte = line[:i], line[i:], bytes([random.choice([*BYTES, random.randrange(256)])])
        more, code = random.choice([*NO_SPACES, *[b"\r"] * 3]), random.choice(["utf-16-le", "utf-16", "utf-8-sig"])
        ways = [[first + byte + last, first + byte + last[1:]]] * 2
        ways += [[first + last[1:]] * 2 + [first + last[2:], first + last[5:]], [first, last], [first + b"\n" + last]]
        ways += [
            [line + between + line for between in (b"", b" ", b",", b"\r", b"\n")],
            [line + more] * 2 + [more + line],
        ]
        ways += [[line.decode(errors="replace").encode(code)] * 3 + [b"", b" ", b"\r", b"\x00"], self.pad(line)]
        return random.choice(random.choice(ways))

    def pad(self, line: bytes) -> list[bytes]:
        """Three lines: this one with space, or with `x`, at its end, at or near its end or front, and near its front.
        Most are about as long as may be."""
        is_longest = line.startswith(LOAD_HEAD) and self.random.random() < 0.2
        limit, at = (LOAD_LIMIT, len(LOAD_HEAD)) if is_longest else (LINE_LIMIT, 1)
        length = limit + self.random.choice([-1, 0, 0, 1, 1, 2, LINE_LIMIT, 2 * LINE_LIMIT])
        space = self.random.choice([b" ", b" ", b"\t", b"x"]) * max(0, length - len(line))
        front = line[:-1] + space + line[-1:] if is_longest else space + line
        return [line + space, front, line[:at] + space + line[at:]]
