#!/usr/bin/env python3
"""Writes files of examples anew: the replies of a worked example, by the oracle, and what a script of this folder makes. A line of
an example that has no reply yet needs one to be written over: `> LINE => {}`, or `< plane` below it."""

from __future__ import annotations

import argparse
import sys
from pathlib import Path

TOP = Path(__file__).parents[2]


def main() -> None:
    """Writes the files that differ, and prints their names."""
    parser = argparse.ArgumentParser(description=__doc__)
    parser.add_argument("files", metavar="FILE", nargs="+", type=Path)
    given = parser.parse_args()
    sys.path.insert(0, str(TOP / "tests"))
    from examples.frames import FILES
    from examples.writing import answered

    makers = {TOP / path: make for path, make in FILES.items()}
    for file in given.files:
        make = makers.get(file.resolve())
        if file.name.startswith("wrong_"):
            parser.error(f"{file} has an answer that is wrong on purpose: write its replies by hand")
        try:
            text = make() if make else answered(file)
        except (AssertionError, OSError, ValueError) as why:
            parser.error(str(why))
        if file.read_text(encoding="utf-8") != text:
            file.write_text(text, encoding="utf-8")
            print(f"written: {file}")


if __name__ == "__main__":
    main()
