"""Rules by words, for random schedules and for machines that are saved: half, neighbourhood, minor assignment and text."""

from __future__ import annotations

from examples.rules import ADD_EIGHT, BALLS, BESIDE, CRITTERS, TM, TRON, TURNING

BLOCKS, CELLS = ("N/MARG", "&/PHASES"), ("N/VONN", "&/CENTERS")
SUM = f": 8SUM {ADD_EIGHT} ;"
PARITY = ": P CENTER NORTH XOR SOUTH XOR WEST XOR EAST XOR >PLN0 ;"
# Two have the text of another one, elsewhere.
REVERSIBLE = {
    "BALLS": ("A", *BLOCKS, BALLS),
    "TURN": ("A", *BLOCKS, ": R CW >PLN0 ;"),
    "LIKE_TURN": ("A", "N/MARG-PH", "&/HV", ": R CW >PLN0 ;"),
    "KEPT": ("A", *BLOCKS, ": R ;"),
    "PHASED": ("A", *BLOCKS, f"{TM} >PLN0 ;"),
    "EXCHANGED": ("A", "N/MARG-HV", "&/PHASES", ": R CENTER' >PLN0 CW >PLN1 ;"),
    "BY_PHASE": ("A", "N/MARG-PH", "&/PHASES", TURNING),
    "GAS": ("B", *BLOCKS, f"{TM} >PLN2 ;"),
    "OTHER_ROW": ("B", "N/MARG", "&/HV", f"{BESIDE} : R BESIDE >PLN2 CENTER CENTER' XOR >PLN3 ;"),
    "LIKE_KEPT": ("B", *BLOCKS, ": R ;"),
    "BACKWARD": ("B", "N/MARG-HV", "&/HV", ": R CCW' >PLN3 ;"),
}
# These set each cell of a blank torus.
CROWDED = {
    "CRITTERS": ("A", *BLOCKS, CRITTERS),
    "INVERTED": ("B", "N/MARG-PH", "&/HV", f"{TRON} >PLN2 CW CW' XOR PHASE' XOR >PLN3 ;"),
}
OTHERS = {
    "PARITY": ("A", *CELLS, PARITY),
    "LIFE": ("A", "N/MOORE", "&/CENTERS", f"{SUM} : L 8SUM {{ 0 0 CENTER 1 0 0 0 0 0 }} >PLN0 ;"),
    "BRAIN": ("A", "N/MOORE", "&/HV", f"{SUM} : B 8SUM 2 = CENTER 0= AND CENTER' 0= AND >PLN0 CENTER >PLN1 ;"),
    "NORTH": ("A", *CELLS, ": R NORTH >PLN0 ;"),
    "SOUTH": ("A", *CELLS, ": R SOUTH >PLN0 ;"),
    "OTHER_HALF": ("A", "N/MARG", "&/CENTERS", ": R OPP &CENTER XOR >PLN0 ;"),
    "LOST": ("A", *BLOCKS, ": R CENTER CW AND >PLN0 ;"),
    "COPY": ("B", *CELLS, ": R &CENTER >PLN2 EAST' >PLN3 ;"),
    "WEST": ("B", "N/MOORE", "&/PHASES", ": R WEST CENTER' &PHASE AND XOR >PLN2 ;"),
}
RULES = REVERSIBLE | CROWDED | OTHERS
