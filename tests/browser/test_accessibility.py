"""The page fits a small window, names its controls for a screen reader, and has texts of enough contrast."""

from __future__ import annotations

from pathlib import Path

import pytest

from browser.teacher import Teacher

pytestmark = pytest.mark.browser
# A window that all fits, and what has to be in sight there.
SMALL = (1024, 700)
IN_SIGHT = ("#torus", "#run", "#step", "#back", "#dial", "#scrubber", "#gallery", "#state", "#help", "#panel")
PALE = (Path(__file__).parent / "pale.js").read_text(encoding="utf-8")
NAMELESS = """[...document.querySelectorAll('button, input, select, textarea, canvas:not([hidden])')]
  .filter(one => !(one.textContent.trim() || one.ariaLabel || one.getAttribute('aria-labelledby') || one.title
    || one.labels && one.labels.length) || one.tagName === 'BUTTON' && !(one.textContent.trim() || one.ariaLabel))
  .map(one => one.outerHTML.slice(0, 80))"""
CUT = """arguments[0].filter(selector => {
  const box = document.querySelector(selector).getBoundingClientRect();
  const [left, top, right, bottom] = [box.left, box.top, box.right, box.bottom].map(Math.round);
  return !(left >= 0 && top >= 0 && left < right && top < bottom && right <= innerWidth && bottom <= innerHeight);
})"""


def test_a_small_window_is_wide_enough_and_has_the_controls_in_sight(own: Teacher) -> None:
    own.size(*SMALL)
    own.wait_until(f"document.documentElement.scrollWidth <= {SMALL[0]}")
    own.wait_until(f"document.getElementById('torus').getBoundingClientRect().right <= {SMALL[0]}")
    assert own.value(CUT, IN_SIGHT) == []


def test_each_control_has_a_name(own: Teacher) -> None:
    assert own.value(NAMELESS) == []


@pytest.mark.parametrize("theme", ["light", "dark"])
def test_texts_have_contrast(own: Teacher, theme: str) -> None:
    assert own.script(PALE, theme) == []
