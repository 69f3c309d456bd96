"""How long `cam6 alone` takes to load a machine and to save it: one with sixteen rules of 8,192 bytes, one without rules, and
one whose rules do all 4,096 words at each address. It prints the least and the median of each in milliseconds, from the line to
its reply, and the bytes of the line of the load.

usage: loads.py PROGRAM [TIMES]     each line so many times, 20 by default
"""

from __future__ import annotations

import argparse
import json
import subprocess
import time
from statistics import median
from typing import Any

MOST_BYTES_OF_A_TEXT = 8192
TURN = ": R CW >PLN0 ;"
NAMES = "CENTER CENTER' NORTH SOUTH WEST EAST N.WEST N.EAST S.WEST S.EAST &CENTER &CENTER'".split()
# Reads each line, and does as many words at each address as a rule may have.
LONGEST = f": A {' '.join(f'{name} DROP' for name in NAMES)} {'1 DROP ' * 20}; : R {'A ' * 64};"


def line_of(command: dict[str, Any]) -> bytes:
    """The line of a command, as a load has to be written: keys sorted, and LF at the end."""
    return json.dumps(command, separators=(",", ":"), sort_keys=True, ensure_ascii=False).encode() + b"\n"


def load(side: int, rules: list[dict[str, str]], cycle: list[dict[str, Any]]) -> bytes:
    """The line, with LF, that loads a machine whose cells are blank. `rules` and `cycle` are as in a saved machine."""
    rows, colours = [["0" * (side // 4)] * side] * 4, list(range(16))
    machine = {
        "colours": colours,
        "cycle": cycle,
        "planes": rows,
        "position": 0,
        "rules": rules,
        "side": side,
        "version": 2,
    }
    return line_of({"do": "load", "machine": machine})


def rules_of(hood: str, minor: str, text: str) -> list[dict[str, str]]:
    """Sixteen rules of one text."""
    return [{"half": "A", "hood": hood, "minor": minor, "name": f"R{number}", "text": text} for number in range(16)]


def loads() -> dict[str, bytes]:
    """The lines of loads, by what each loads. A control character is six bytes in a line."""
    comment = "\x01" * (MOST_BYTES_OF_A_TEXT - len(f"(  ) {TURN}"))
    largest = rules_of("N/MARG", "&/PHASES", f"( {comment} ) {TURN}")
    cycle = [{"a": rule["name"], "b": "-", "grid": "EVEN", "phase": 0} for rule in largest]
    return {
        "sixteen rules of 8,192 bytes, side 512, sixteen entries": load(512, largest, cycle),
        "no rules, side 512": load(512, [], []),
        "sixteen rules that do all 4,096 words at each address, side 128": load(
            128, rules_of("N/MOORE", "&/CENTERS", LONGEST), []
        ),
    }


def milliseconds(alone: subprocess.Popen[bytes], line: bytes, times: int) -> str:
    """Sends a line so many times. Returns the least and the median milliseconds until its reply, as two cells of a
    table. Ends the script if it is refused."""
    assert alone.stdin and alone.stdout
    taken = []
    for _ in range(times):
        began = time.perf_counter()
        alone.stdin.write(line)
        alone.stdin.flush()
        reply = alone.stdout.readline()
        taken.append(1000 * (time.perf_counter() - began))
        if b'"ok":' not in reply:
            raise SystemExit(f"loads.py: a line is answered {reply[:100]!r}")
    return f"{min(taken):.1f} | {median(taken):.1f}"


def main() -> None:
    """Prints the times of the loads, and of a save after each."""
    layout = argparse.RawDescriptionHelpFormatter
    parser = argparse.ArgumentParser(prog="loads.py", description=__doc__, formatter_class=layout)
    parser.add_argument("program")
    parser.add_argument("times", nargs="?", type=int, default=20)
    asked = parser.parse_args()
    print("| what | bytes | least, ms | median, ms |\n|---|---|---|---|")
    with subprocess.Popen(
        [asked.program, "alone", "--side", "512"], stdin=subprocess.PIPE, stdout=subprocess.PIPE
    ) as alone:
        assert alone.stdin
        for what, line in loads().items():
            print(f"| load of {what} | {len(line):,} | {milliseconds(alone, line, asked.times)} |")
            print(f"| save of that machine | | {milliseconds(alone, line_of({'do': 'save'}), asked.times)} |")
        alone.stdin.close()


if __name__ == "__main__":
    main()
