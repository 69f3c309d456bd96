"""Worked examples: scripts that write them, and plain functions and formulas that answer them."""
