"""Tests of `cam6 serve` and cam6_web over connections."""
