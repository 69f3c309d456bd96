"""Entropy by compressed size over time, forward and back."""

# %% [markdown]
# # Entropy forward and back
#
# How many bytes does a picture need? The size that zlib compresses it to is a rough measure of its disorder. It grows
# as a picture is scrambled, although each of these rules can be undone and so no information is lost. On the way back
# it shrinks.

# %%
import os
import zlib
from typing import Any

import cam6

PROGRAM = os.environ.get("CAM6", "cam6")
SIDE, EVERY, SAMPLES = 128, 4, 150
FACE = [
    "..########..",
    ".#........#.",
    "#..........#",
    "#..##..##..#",
    "#..##..##..#",
    "#..........#",
    "#.#......#.#",
    "#..######..#",
    ".#........#.",
    "..########..",
]
cells = [[int(sign == "#") for sign in line for _ in range(4)] for line in FACE for _ in range(4)]


def size(plane: Any) -> int:
    """The compressed size of a plane, in bytes."""
    return len(zlib.compress(b"".join(map(bytes, plane)), 9))


# %% [markdown]
# Three rules of blocks. `echoes` turns pairs and lets single cells cross, `hpp` is a gas, and `critters` are known
# from elsewhere.

# %%
echoes = cam6.rules.table(
    lambda center, cw, ccw, opp: [center, opp, ccw, opp, center][center + cw + ccw + opp], name="ECHOES"
)
rules = {"echoes": echoes, "hpp": cam6.rules.margolus("hpp"), "critters": cam6.rules.margolus("critters")}
machine = cam6.local(PROGRAM)
curves = {}
for name, rule in rules.items():
    machine.set_side(SIDE)
    machine.cycle({})
    machine.rule("R", rule)
    machine.cycle({"a": "R", "grid": "EVEN"}, {"a": "R", "grid": "ODD"})
    machine.put(0, cells, x=40, y=44)
    first = machine.plane(0)
    forward = [size(plane) for plane in machine.frames(SAMPLES, every=EVERY)]
    back = [size(plane) for plane in machine.frames(SAMPLES + 1, every=EVERY, back=True)]
    machine.run(EVERY)  # the last picture was undone once more
    curves[name] = forward + back
    is_home = b"".join(map(bytes, machine.plane(0))) == b"".join(map(bytes, first))
    print(f"{name:9} {forward[0]:4} bytes, at the turn {back[0]:4}, at home {back[-1]:4}, the same face: {is_home}")

# %% [markdown]
# The curve of the way back is the curve of the way out in a mirror, exactly.

# %%
for name, curve in curves.items():
    print(name, "mirrored:", curve[:SAMPLES] == curve[: SAMPLES - 1 : -1][:SAMPLES])

# %%
try:
    import matplotlib.pyplot as pyplot
except ImportError:
    print("matplotlib is not there, so no curve is drawn")
else:
    figure, axes = pyplot.subplots(figsize=(6, 3.5))
    for name, curve in curves.items():
        axes.plot([EVERY * sample for sample in range(len(curve))], curve, label=name)
    axes.axvline(EVERY * SAMPLES, linestyle=":", color="grey")
    axes.set(xlabel="steps done, and from the dotted line on undone", ylabel="compressed bytes")
    axes.legend()
    figure.savefig("entropy.png", dpi=80, bbox_inches="tight")

# %% [markdown]
# The face after 100 steps of `echoes`, and home again.

# %%
machine.set_side(SIDE)
machine.cycle({})
machine.rule("R", echoes)
machine.cycle({"a": "R", "grid": "EVEN"}, {"a": "R", "grid": "ODD"})
machine.put(0, cells, x=40, y=44)
out = list(machine.frames(25, every=4))
home = list(machine.frames(26, every=4, back=True))
film = cam6.pictures.film(out + home, ms=80, scale=2)
film.save("entropy_film.png")
machine.close()
film
