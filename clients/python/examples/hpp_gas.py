"""A gas that relaxes, and comes back to its first state exactly."""

# %% [markdown]
# # A gas relaxes, and comes back
#
# The HPP gas has particles that run along diagonals. Two that meet head on leave at right angles. Here all of them
# first run along falling diagonals. Collisions turn more and more of them, until half of them run along rising ones.
# Then time runs back, and all run along falling ones again.

# %%
import os
from typing import Any

import cam6

PROGRAM = os.environ.get("CAM6", "cam6")
SIDE, STEPS = 256, 80

machine = cam6.local(PROGRAM)
gas = cam6.rules.margolus("hpp")
machine.rule("HPP", gas)
machine.cycle(gas)
print(gas.text, gas.hood, cam6.rules.is_reversible(gas))

# %% [markdown]
# A particle on a falling diagonal is always at a cell whose column and row have an even sum, and one on a rising
# diagonal never is. So the first state is a random plane without its cells of odd sums.

# %%
machine.random(0, density=0.2, seed=1)
falling = [[int(cell) * ((x + y + 1) % 2) for x, cell in enumerate(row)] for y, row in enumerate(machine.plane(0))]
machine.put(0, falling)
first = machine.save()
print(machine.count(), "particles")


def share(plane: Any) -> float:
    """The share of particles that run along falling diagonals."""
    even = sum(bytes(row[y % 2 :: 2]).count(1) for y, row in enumerate(plane))
    return even / sum(bytes(row).count(1) for row in plane)


forward = [share(plane) for plane in machine.frames(STEPS)]
for step in (0, 1, 2, 4, 8, 16, 32, 64, STEPS - 1):
    print(f"step {step:3}: {forward[step]:.4f} on falling diagonals")

# %% [markdown]
# Back. `frames` yields a picture and then undoes a step. So the last picture, of the first state, is followed by one
# step too many.

# %%
back = [share(plane) for plane in machine.frames(STEPS + 1, back=True)]
machine.run(1)
print("the way out, the other way round:", back[1:] == forward[::-1])
print("the first machine again, byte for byte:", machine.save() == first)

# %%
try:
    import matplotlib.pyplot as pyplot
except ImportError:
    print("matplotlib is not there, so no curve is drawn")
else:
    figure, axes = pyplot.subplots(figsize=(6, 3.5))
    axes.plot(forward + back)
    axes.axvline(STEPS, linestyle=":", color="grey")
    axes.set(xlabel="steps done, and from the dotted line on undone", ylabel="share on falling diagonals")
    figure.savefig("hpp_gas.png", dpi=80, bbox_inches="tight")

# %% [markdown]
# ## Far away and back
#
# It doesn't matter how long the gas has been mixed. After 100,000 steps nothing of the first state can be seen.

# %%
machine.run(100_000)
print(f"after 100,000 steps: {share(machine.plane(0)):.4f}")
machine.back(100_000)
print("the first machine again, byte for byte:", machine.save() == first)

# %% [markdown]
# ## A dense square
#
# It sends a wave along each diagonal, and the waves meet on the far side of the torus. They are slow to die: on each
# diagonal the gas keeps the difference between the particles that fly one way and those that fly the other way.

# %%
machine.set_side(128)
machine.random(0, density=0.2, seed=1)
machine.put(0, [[1] * 32] * 32, x=48, y=48)
film = machine.film(33, every=4, scale=2, ms=80)
film.save("hpp_gas_film.png")
machine.close()
film
