"""Random plays by hypothesis."""

from __future__ import annotations

from collections.abc import Callable

import hypothesis
from hypothesis.stateful import RuleBasedStateMachine, run_state_machine_as_test


def play(begin: Callable[[], RuleBasedStateMachine], examples: int, steps: int = 50) -> None:
    """Plays so many examples of so many steps. `begin` makes what is played, anew for each of them."""
    settings = hypothesis.settings(stateful_step_count=steps, max_examples=examples)
    # hypothesis gives this function no types.
    run_state_machine_as_test(begin, settings=settings)  # type: ignore[no-untyped-call]
