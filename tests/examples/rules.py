"""Texts of rules that several examples have."""

from __future__ import annotations

# Adds up the eight neighbours.
ADD_EIGHT = "NORTH SOUTH + WEST + EAST + N.WEST + N.EAST + S.WEST + S.EAST +"
# Counts the cells of a block.
S4 = ": S4 CENTER CW + CCW + OPP + ;"
# Billiard balls and Critters.
BALLS = f"{S4} : D CENTER OPP = IF CW ELSE CENTER THEN ; : B S4 {{ CENTER OPP D CENTER CENTER }} >PLN0 ;"
CRITTERS = f"{S4} : NC CENTER 0= ; : NO OPP 0= ; : C S4 {{ NC NC CENTER NO NC }} >PLN0 ;"
# The two gases, and TRON, up to the value that they write.
PAIR = ": PAIR CENTER OPP = CW CCW = AND CENTER CW = 0= AND ;"
HPP = f"{PAIR} : G PAIR IF CW ELSE OPP THEN"
TM = f"{PAIR} : T PAIR IF CENTER ELSE &PHASE {{ CW CCW }} THEN"
TRON = f"{S4} : W S4 {{ 1 CENTER CENTER CENTER 0 }}"
# The cell in the block's other row.
BESIDE = ": BESIDE &HORZ &VERT XOR IF CW ELSE CCW THEN ;"
# At each phase another: nothing, the one turn, the other, or each plane becomes the other.
TURNING = (
    ": I PHASE PHASE' 2 * + ; : L I { CENTER CW CCW CENTER' } ;"
    " : U I { CENTER' CW' CCW' CENTER } ; : R L >PLN0 U >PLN1 ;"
)
