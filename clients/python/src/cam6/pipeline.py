"""Many calls at once: their lines are sent in one write."""

from __future__ import annotations

from collections.abc import Sequence
from types import TracebackType
from typing import TYPE_CHECKING, Any, Optional, TypeVar

from . import lines, placing
from .cells import Row, random_rows
from .errors import Fault, fault_of
from .lines import Call

if TYPE_CHECKING:
    from .machine import Machine

T = TypeVar("T")


def outcome(call: Call[T], replies: list[bytes]) -> T:
    """What a call returns by its replies. Raises the `Fault` of the first reply that refuses its line."""
    ok, is_raw = call.ok, len(call.ok) == 1
    for at, reply in enumerate(replies):
        if not reply.startswith(ok) or is_raw and lines.is_fault(reply):
            raise fault_of(reply, call.lines[at])
    return call.read(replies)


class Pipeline:
    """Calls that wait until `execute()`, which sends all their lines in one write and reads the replies meanwhile.

    It has the calls of a `Machine` with the same arguments, and each returns the pipeline itself. As a context manager
    it executes at the end of the block, unless the block raises. It is no transaction: what stands after a refused
    call is done.

        with machine.pipeline() as many:
            for row in range(10):
                many.set_row(0, row, "f" * 64)
    """

    def __init__(self, machine: Machine) -> None:
        self._machine = machine
        self._calls: list[Call[Any]] = []
        self._side: Optional[int] = None

    def __len__(self) -> int:
        """How many calls wait."""
        return len(self._calls)

    def __enter__(self) -> Pipeline:
        return self

    def __exit__(
        self, kind: Optional[type[BaseException]], error: Optional[BaseException], trace: Optional[TracebackType]
    ) -> None:
        if kind is None:
            self.execute()
        else:
            self.reset()

    @property
    def side(self) -> int:
        """The side that the machine will have after the calls that wait, if none is refused."""
        return self._machine.side if self._side is None else self._side

    def reset(self) -> None:
        """Forgets the calls that wait."""
        self._calls, self._side = [], None

    def execute(self, raise_on_error: bool = True) -> list[Any]:
        """Does the calls, and returns what each of them would have, in order. The pipeline is empty after that.

        If calls are refused, raises the first `Fault`, with its `index` in the pipeline and all `results`. With
        `raise_on_error=False` faults stand in the list instead. Raises `Lost` if the machine is gone before all is
        answered.
        """
        calls = self._calls
        self.reset()
        replies = self._machine._query([line for call in calls for line in call.lines])
        results: list[Any] = []
        at = 0
        for index, call in enumerate(calls):
            end = at + len(call.lines)
            if call.read is lines.nothing and end == at + 1 and replies[at] == call.ok and call.side is None:
                results.append(None)
            else:
                results.append(self._result(call, replies[at:end], index))
            at = end
        first = next((result for result in results if isinstance(result, Fault)), None) if raise_on_error else None
        if first is not None:
            first.results = results
            raise first
        return results

    def _result(self, call: Call[T], replies: list[bytes], index: int) -> Any:
        """The value of a call by its replies. If it is a fault, notes its place in the pipeline."""
        try:
            value = outcome(call, replies)
        except Fault as fault:
            fault.index = index
            return fault
        if call.side is not None:
            self._machine._side = call.side
        return value

    def _later(self, call: Call[Any]) -> Pipeline:
        """Adds a call to the pipeline."""
        self._calls.append(call)
        if call.side is not None:
            self._side = call.side
        return self

    def set_row(self, plane: int, row: int, bits: Row) -> Pipeline:
        """See `Machine.set_row`."""
        return self._later(lines.set_row(plane, row, bits, self.side))

    def clear(self, plane: int) -> Pipeline:
        """See `Machine.clear`."""
        return self._later(lines.clear(plane))

    def row(self, plane: int, row: int) -> Pipeline:
        """See `Machine.row`."""
        return self._later(lines.row(plane, row, self.side))

    def plane(self, plane: int) -> Pipeline:
        """See `Machine.plane`."""
        return self._later(lines.plane(plane))

    def rule(
        self, name: Any, text: Any = None, *, half: str = "A", hood: str = "N/MOORE", minor: str = "&/CENTERS"
    ) -> Pipeline:
        """See `Machine.rule`."""
        return self._later(self._machine._rule(name, text, half, hood, minor))

    def drop(self, name: str) -> Pipeline:
        """See `Machine.drop`."""
        return self._later(lines.drop(name))

    def rules(self) -> Pipeline:
        """See `Machine.rules`."""
        return self._later(lines.rules())

    def cycle(self, *entries: Any) -> Pipeline:
        """See `Machine.cycle`."""
        return self._later(self._machine._cycle(entries))

    def run(self, n: int = 1) -> Pipeline:
        """See `Machine.run`."""
        return self._later(lines.steps("run", n))

    def back(self, n: int = 1) -> Pipeline:
        """See `Machine.back`."""
        return self._later(lines.steps("back", n))

    def set_side(self, n: int) -> Pipeline:
        """See `Machine.set_side`."""
        return self._later(lines.set_side(n))

    def colour_map(self, colours: Sequence[int]) -> Pipeline:
        """See `Machine.colour_map`."""
        return self._later(lines.colour_map(colours))

    def colours(self, row: int) -> Pipeline:
        """See `Machine.colours`."""
        return self._later(lines.colours(row, self.side))

    def count(self, mask: Any = 65_534) -> Pipeline:
        """See `Machine.count`."""
        return self._later(lines.count(mask))

    def save(self) -> Pipeline:
        """See `Machine.save`."""
        return self._later(lines.save())

    def load(self, saved: bytes) -> Pipeline:
        """See `Machine.load`."""
        return self._later(lines.load(saved))

    def ask(self, line: Any) -> Pipeline:
        """See `Machine.ask`."""
        return self._later(lines.ask(line))

    def cells(self) -> Pipeline:
        """See `Machine.cells`."""
        return self._later(lines.states())

    def put(self, plane: int, cells: Any, x: int = 0, y: int = 0) -> Pipeline:
        """See `Machine.put`. Here the cells have to be as wide as the machine: a pipeline can't read what is beside."""
        placed = placing.placed(plane, cells, x, y, self.side)
        if placed.width != self.side:
            raise ValueError(f"in a pipeline put takes rows of {self.side} cells, not {placed.width}")
        return self._later(lines.set_rows(placed.plane, placed.whole_rows()))

    def random(self, plane: int, density: float = 0.5, seed: Any = None) -> Pipeline:
        """See `Machine.random`."""
        number = lines.number(plane, "plane", 0, 3)
        rows = random_rows(self.side, placing.checked_density(density), seed)
        return self._later(lines.set_rows(number, enumerate(rows)))
