"""A sweep over all reversible Margolus rules of two states that conserve number."""

# %% [markdown]
# # All Margolus rules that conserve number
#
# A block of two by two cells has one of sixteen states: one without a set cell, four with one, six with two, four with
# three, and one with four. A rule that can be undone and conserves number permutes each of these groups. So there are
# 24 times 720 times 24 of them, which makes 414,720. Each of them is tried here, up to symmetry, from the same five
# cells: after how many steps are they there again?

# %%
import collections
import itertools
import math
import os
from collections.abc import Iterator, Sequence
from typing import Optional

import cam6

PROGRAM = os.environ.get("CAM6", "cam6")
SIDE, MOST = 128, 1536
Rule = tuple[int, ...]  # the image of each block
CELLS = [[0, 1, 1], [1, 1, 0], [0, 1, 0]]

BITS = range(4)  # upper left, upper right, lower left, lower right
GROUPS = [[block for block in range(16) if bin(block).count("1") == count] for count in range(5)]
SINGLES, PAIRS, TRIPLES = GROUPS[1:4]

# %% [markdown]
# ## Symmetries
#
# A rule that is turned, mirrored, inverted (set cells for others) or run back is the same rule, seen otherwise. That
# makes 32 views of it. A class keeps the least one.

# %%
TURN, MIRROR = (2, 0, 3, 1), (1, 0, 3, 2)


def moved(block: int, places: Sequence[int]) -> int:
    """A block whose cells have moved: cell `k` has the state that `places[k]` had."""
    return sum((block >> places[bit] & 1) << bit for bit in BITS)


def views() -> Iterator[list[int]]:
    """The changes of a block that turn, mirror and complement, each as a list of sixteen."""
    for turns, is_mirrored, is_inverted in itertools.product(range(4), (False, True), (False, True)):
        change = list(range(16))
        for _ in range(turns):
            change = [moved(block, TURN) for block in change]
        change = [moved(block, MIRROR) if is_mirrored else block for block in change]
        yield [15 - block if is_inverted else block for block in change]


VIEWS = list(views())


def seen(rule: Rule, view: list[int], is_undone: bool) -> Rule:
    """The rule in a view, or the one that undoes it."""
    other = [0] * 16
    for block, image in enumerate(rule):
        before, after = view[block], view[image]
        if is_undone:
            before, after = after, before
        other[before] = after
    return tuple(other)


def rule_of(singles: Sequence[int], pairs: Sequence[int], triples: Sequence[int]) -> Rule:
    """The rule of a class: what it makes of blocks of one, two and three cells."""
    rule = list(range(16))
    for group, images in ((SINGLES, singles), (PAIRS, pairs), (TRIPLES, triples)):
        for block, image in zip(group, images):
            rule[block] = image
    return tuple(rule)


def classes() -> Iterator[tuple[Rule, int]]:
    """The least rule of each class, and how many rules are in it."""
    ways = [(view, is_undone) for view in VIEWS for is_undone in (False, True)]
    for singles, triples in itertools.product(itertools.permutations(SINGLES), itertools.permutations(TRIPLES)):
        bare = rule_of(singles, PAIRS, triples)
        others = [seen(bare, view, is_undone) for view, is_undone in ways]
        key = [tuple(rule[block] for block in SINGLES + TRIPLES) for rule in others]
        if min(key) < singles + triples:
            continue
        stay = [way for way, other in zip(ways, key) if other == singles + triples]
        for pairs in itertools.permutations(PAIRS):
            rule = rule_of(singles, pairs, triples)
            family = {seen(rule, *way) for way in stay}
            if min(family) == rule:
                yield rule, len(family) * len(ways) // len(stay)


found = list(classes())
print(f"{len(found):,} classes of {sum(size for _, size in found):,} rules")

# %% [markdown]
# ## The sweep
#
# One machine does all. A pipeline sends the lines of a rule in one write: the rule, the cells, and a plane after 2, 4,
# 6, 8, 12 and more steps. If the cells are there again after n steps, the period divides n. A ball that meets nothing
# needs 128 steps for a turn of the torus.

# %%
TIMES: list[int] = sorted({2 * 2**a * 3**b for a in range(12) for b in (0, 1, 2) if 2 * 2**a * 3**b <= MOST})
LONG = f"more than {MOST:,}"

machine = cam6.local(PROGRAM)
machine.set_side(SIDE)
machine.put(0, CELLS, x=63, y=63)
rows = [bytes(row) for row in machine.plane(0)]
first = b"".join(rows)


def period(rule: Rule) -> Optional[int]:
    """The least time of TIMES after which the cells are there again, or None."""
    for times in (TIMES[:8], TIMES[8:16], TIMES[16:]):
        pipeline = machine.pipeline()
        pipeline.cycle({})
        pipeline.rule("R", cam6.rules.margolus(rule))
        pipeline.cycle({"a": "R", "grid": "EVEN"}, {"a": "R", "grid": "ODD"})
        pipeline.put(0, rows)
        at = 0
        for time in times:
            pipeline.run(time - at).plane(0)
            at = time
        planes = pipeline.execute()[5::2]
        for time, plane in zip(times, planes):
            if b"".join(map(bytes, plane)) == first:
                return time
    return None


limit = int(os.environ.get("SWEEP", len(found)))  # SWEEP=100 tries a hundred classes
periods: dict[Optional[int], int] = collections.Counter()
members: dict[Optional[int], int] = collections.Counter()
examples: dict[Optional[int], Rule] = {}
for rule, size in found if limit >= len(found) else found[:: len(found) // limit][:limit]:
    time = period(rule)
    periods[time] += 1
    members[time] += size
    examples.setdefault(time, rule)

# %%
print(f"{'period divides':>16} {'classes':>8} {'rules':>9}  the least rule")
for time in sorted(periods, key=lambda time: time or math.inf):
    print(f"{time or LONG:>16} {periods[time]:>8,} {members[time]:>9,}  MS,D{';'.join(map(str, examples[time]))}")

# %% [markdown]
# ## Rules that know no direction
#
# 128 of the rules do the same to a block however it is turned. Known ones among them: billiard balls, the HPP gas,
# and a swap along diagonals.

# %%
isotropic = [(rule, size) for rule, size in found if all(seen(rule, view, False) == rule for view in VIEWS[::4])]
print(len(isotropic), "classes of", sum(size for _, size in isotropic), "rules")
for rule, _ in isotropic[:limit]:
    names = [
        name
        for name in cam6.rules.MARGOLUS_NAMES
        if any(seen(rule, view, way) == cam6.rules.successors(name) for view in VIEWS for way in (False, True))
    ]
    print(f"{str(period(rule) or LONG):>16}  MS,D{';'.join(map(str, rule))}  {' '.join(names)}")
machine.close()
