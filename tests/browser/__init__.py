"""Tests of the page in browsers."""
