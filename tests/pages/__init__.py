"""Tests of the pages for people: their prose, their links, what they name and the sessions that they show."""
