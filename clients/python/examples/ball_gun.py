"""A gun of balls: a source that shoots, and takes every ball back if time runs the other way."""

# %% [markdown]
# # A gun of balls
#
# Billiard balls are kept in number, so no pattern of balls alone can be a gun. This gun has a source, in plane 1.
# Once in a cycle of sixteen steps the source inverts its cell of plane 0, after the balls have moved. So it sets a
# ball if there is none, and takes one away if there is one. To invert twice is to do nothing, so the rule can be
# undone.

# %%
import os

import cam6

PROGRAM = os.environ.get("CAM6", "cam6")
SIDE, SHOTS = 128, 40

GUN = """
    : S4 CENTER CW + CCW + OPP + ;
    : D CENTER OPP = IF CW ELSE CENTER THEN ;
    : MOVED S4 { CENTER OPP D CENTER CENTER } ;      ( the rule of billiard balls )
    : GUN MOVED CENTER' &PHASE AND XOR >PLN0 ;
"""
gun = cam6.rules.Rule(
    GUN, "N/MARG", "&/PHASES", name="GUN", cycle=(("EVEN", 1), ("ODD", 0)) + (("EVEN", 0), ("ODD", 0)) * 7
)
print("can be undone:", cam6.rules.is_reversible(gun))

machine = cam6.local(PROGRAM)
machine.set_side(SIDE)
machine.rule("GUN", gun)
machine.cycle(gun)

# %% [markdown]
# ## One gun
#
# A ball flies along a diagonal, and is home after 128 steps, a turn of the torus. There its source takes it away in
# place of a new shot. So eight shots put balls on the torus and the next eight take them away.

# %%
machine.put(1, [[1]], x=64, y=64)
balls = []
for _ in range(SHOTS):
    balls.append(machine.count([1, 3]))
    machine.run(16)
print("balls before each shot:", balls)

# %% [markdown]
# ## Four guns
#
# Which way a gun shoots depends on the parity of its column and its row. Here the ways of balls cross, and balls that
# meet turn.

# %%
machine.set_side(SIDE)
for x, y in [(64, 64), (20, 101), (41, 100), (91, 21)]:
    machine.put(1, [[1]], x=x, y=y)
machine.colour_map([0, 1, 4, 4] + [0] * 12)
pictures = []
for _ in range(64):
    pictures.append(machine.picture(scale=3))
    machine.run(4)
film = cam6.pictures.film(pictures, ms=60)
film.save("ball_gun_film.png")
film

# %% [markdown]
# Back: each ball flies into the gun that shot it.

# %%
machine.back(256)
print("balls left after the way back:", machine.count([1, 3]))
machine.run(16 * SHOTS)
machine.back(16 * SHOTS)
print("balls left after", SHOTS, "shots and back:", machine.count([1, 3]))
machine.close()
