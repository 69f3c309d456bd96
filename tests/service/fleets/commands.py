"""What a session of a fleet sends: random commands by a seed, several at once now and then, saves and loads, and lines that are
refused. A small session has few steps, so that the oracle can do the same.
"""

from __future__ import annotations

import json
from random import Random

from support.commands import Asker

SAVED, LOAD, SAVE = b'{"machine":', b'{"do":"load","machine":', b'{"do":"save"}'
REFUSED = [b"no JSON", b'{"do":"fly"}', b"\xff\xfe", b"", b"[]", b'{"do":"set","plane":0}', b'{"do":"run","n":65536}']
PLANES = [b'{"do":"plane","plane":%d}' % plane for plane in range(4)]


class Commands:
    """What a user sends. It reads the replies for machines to load. `side` is that of the torus."""

    def __init__(self, seed: int, is_small: bool) -> None:
        self.rng, self.is_small, self.side = Random(seed), is_small, 128 if is_small else 256
        steps = [1, 1, 1, 2, 2, 3] if is_small else [1, 2, 5, 10, 50, 200, 1000]
        self.asker = Asker(self.rng, self.side, lambda: self.side, steps)
        self.saved: bytes | None = None

    def some(self) -> list[bytes]:
        """One line, or several that are sent at once, without LFs."""
        count = 1 if self.rng.random() < 0.8 else self.rng.randrange(2, 8 if self.is_small else 30)
        return [self.one() for _ in range(count)]

    def one(self) -> bytes:
        """A command in one of two spellings, or, once the machine is set up, a line of another kind. Without an LF."""
        if not self.asker.wishes and self.rng.random() < 0.06:
            return self.rng.choice([SAVE, self.saved or SAVE, *self.rng.sample(REFUSED, 3), *PLANES])
        return json.dumps(self.asker.command(), separators=self.rng.choice([(",", ":"), (", ", ": ")])).encode()

    def keep_saved(self, replies: list[bytes]) -> None:
        """Keeps the last machine that the replies have saved, as a load line."""
        for reply in replies:
            if reply.startswith(SAVED):
                self.saved = LOAD + reply[len(SAVED) : -len(b',"ok":"save"}')] + b"}"
