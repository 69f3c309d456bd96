"""How a crowd of Critters thins out, and how it comes back."""

# %% [markdown]
# # Density decay of Critters
#
# Critters keep the number of set cells over every two steps. A crowd in the middle of an empty torus can't shrink,
# but it can spread: gliders leave it, and after a while the crowd is thinner. This page measures how thin, and then
# takes all of it back.

# %%
import os
from typing import Any

import cam6

PROGRAM = os.environ.get("CAM6", "cam6")
SIDE, LOW, HIGH = 256, 96, 160  # the crowd is a square of 64 cells a side
EVERY, SAMPLES = 200, 150

machine = cam6.local(PROGRAM)
critters = cam6.rules.margolus("critters")
machine.rule("CRITTERS", critters)
machine.cycle(critters)
print(critters.text, critters.hood, cam6.rules.is_reversible(critters))

# %% [markdown]
# The crowd is half full. `random` fills a whole plane, so its middle is cut out and put back on a blank one.

# %%
machine.random(0, density=0.5, seed=6)
crowd = [row[LOW:HIGH] for row in machine.plane(0)[LOW:HIGH]]
machine.clear(0)
machine.put(0, crowd, x=LOW, y=LOW)
first = machine.save()
film = machine.film(48, every=50, scale=1, crop=(32, 32, 192, 192), ms=80)
film.save("critters_density_film.png")
film

# %% [markdown]
# Now the measure: the share of set cells in the square where the crowd was, at even steps alone.


# %%
def density(plane: Any) -> float:
    """The share of set cells in the square."""
    return sum(bytes(row[LOW:HIGH]).count(1) for row in plane[LOW:HIGH]) / (HIGH - LOW) ** 2


machine.load(first)
densities = [density(plane) for plane in machine.frames(SAMPLES, every=EVERY)]
for sample in (0, 1, 2, 5, 10, 20, 50, 100, SAMPLES - 1):
    print(f"step {sample * EVERY:6}: density {densities[sample]:.3f}, {machine.count():5} cells in all")

# %%
try:
    import matplotlib.pyplot as pyplot
except ImportError:
    print("matplotlib is not there, so no curve is drawn")
else:
    figure, axes = pyplot.subplots(figsize=(6, 3.5))
    axes.plot([sample * EVERY for sample in range(SAMPLES)], densities)
    axes.axhline(machine.count() / SIDE**2, linestyle=":", label="spread over the whole torus")
    axes.set(xlabel="steps", ylabel="density in the square", ylim=(0, 0.55))
    axes.legend()
    figure.savefig("critters_density.png", dpi=80, bbox_inches="tight")

# %% [markdown]
# No cell was lost, and nothing else was. As many steps back the machine is the first one again, byte for byte.

# %%
machine.back(SAMPLES * EVERY)
print("the first machine again:", machine.save() == first)
machine.close()
