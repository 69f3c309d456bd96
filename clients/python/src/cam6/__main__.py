"""python -m cam6: plays files, makes films, and looks at the seats of a host.

    python -m cam6 play FILE                     sends the lines of FILE to a machine, and prints the replies
    python -m cam6 film NAME -o out.png          makes an animated PNG file of a machine that NAME sets up
    python -m cam6 seats HOST:PORT               prints which seats are free
    python -m cam6 keep HOST:PORT SEAT FILE      saves the machine of a seat in FILE, as a load line

Statuses: 0 all was done; 1 it was not, and standard error says why; 2 the arguments are refused.
"""

from __future__ import annotations

import argparse
import os
import sys
from collections.abc import Sequence
from typing import Optional

from . import lines, local
from .channels import open_connection
from .errors import Cam6Error, fault_of
from .machine import Machine, side_of
from .sessions import SEATED, TAKEN
from .starting import MOST_SEATS, checked_address

# How many lines are sent in one write.
AT_ONCE = 1000


def main(words: Optional[Sequence[str]] = None) -> int:
    """Does what the arguments say. Returns the status."""
    asked = parser().parse_args(words)
    try:
        status: int = asked.act(asked)
        return status
    except BrokenPipeError:
        return 1
    except (Cam6Error, OSError, ValueError, ImportError) as error:
        print(f"cam6 {asked.word}: {error}", file=sys.stderr)
        return 1


def parser() -> argparse.ArgumentParser:
    """Makes the parser of the arguments."""
    raw = argparse.RawDescriptionHelpFormatter
    top = argparse.ArgumentParser(prog="python -m cam6", description=__doc__, formatter_class=raw)
    parts = top.add_subparsers(dest="word", required=True, metavar="WORD")
    program = argparse.ArgumentParser(add_help=False)
    program.add_argument("--program", default=os.environ.get("CAM6", "cam6"), help="the program cam6 (cam6, or $CAM6)")
    program.add_argument("--side-limit", type=int, default=256, choices=[128, 256, 512], help="the largest side (256)")

    part = parts.add_parser("play", parents=[program], help="send the lines of a file, and print the replies")
    part.add_argument("file", metavar="FILE", help="a file of command lines, or - for standard input")
    part.add_argument("--show", action="store_true", help="draw the cells on the terminal at the end")
    part.set_defaults(act=play)

    part = parts.add_parser("film", parents=[program], help="make an animated PNG file")
    part.add_argument("name", metavar="NAME", help="a file of command lines, or an entry NAME of examples/NAME.lines")
    part.add_argument("-o", "--output", required=True, metavar="FILE", help="the file to write")
    add_numbers(part)
    part.add_argument("--back", action="store_true", help="undo the steps")
    part.set_defaults(act=film)

    part = parts.add_parser("seats", help="print which seats of a host are free")
    part.add_argument("address", metavar="HOST:PORT")
    part.set_defaults(act=seats)

    part = parts.add_parser("keep", help="save the machine of a seat")
    part.add_argument("address", metavar="HOST:PORT")
    part.add_argument("seat", metavar="SEAT", type=int)
    part.add_argument("file", metavar="FILE")
    part.set_defaults(act=keep)
    return top


def add_numbers(part: argparse.ArgumentParser) -> None:
    """Adds the options of `film` that take a number."""
    numbers = (
        ("frames", 60, "pictures"),
        ("every", 1, "steps after each picture"),
        ("plane", 0, "the plane that is shown"),
        ("ms", 40, "milliseconds for each picture"),
        ("scale", 2, "pixels a cell"),
    )
    for name, value, what in numbers:
        part.add_argument(f"--{name}", type=int, default=value, help=f"{what} ({value})")


def lines_of(path: str) -> list[bytes]:
    """The lines of a file, or of standard input if the path is `-`, without their LF."""
    if path == "-":
        data = sys.stdin.buffer.read()
    else:
        with open(path, "rb") as file:
            data = file.read()
    found = data.split(b"\n")
    return found if found[-1] else found[:-1]


def play_lines(machine: Machine, sent: Sequence[bytes], path: str, is_printed: bool) -> int:
    """Sends lines, and explains each fault on standard error. Prints the replies if `is_printed`. Returns how many
    faults there were."""
    faults = 0
    for first in range(0, len(sent), AT_ONCE):
        some = sent[first : first + AT_ONCE]
        for number, (line, reply) in enumerate(zip(some, machine._query(some)), first + 1):
            if is_printed:
                sys.stdout.buffer.write(reply + b"\n")
            if lines.is_fault(reply):
                faults += 1
                print(f"{path}, line {number}: {fault_of(reply, line)}", file=sys.stderr)
    sys.stdout.flush()
    return faults


def play(asked: argparse.Namespace) -> int:
    """Sends the lines of a file, and prints the replies. Returns the exit status: 1 if a line was refused."""
    sent = lines_of(asked.file)
    with local(asked.program, asked.side_limit) as machine:
        faults = play_lines(machine, sent, asked.file, True)
        if asked.show:
            machine._side = side_of(machine._transport)  # The lines may have changed it.
            machine.show()
    return 1 if faults else 0


def find_lines_file(name: str) -> str:
    """Returns the first of NAME, NAME.lines and examples/NAME.lines that is a file. Raises ValueError if none is."""
    paths = [name, f"{name}.lines", os.path.join("examples", f"{name}.lines")]
    found = next((path for path in paths if os.path.isfile(path)), None)
    if found is None:
        raise ValueError(f"there is no file {', '.join(paths[:-1])} or {paths[-1]}")
    return found


def film(asked: argparse.Namespace) -> int:
    """Makes an animated PNG file. Returns the exit status. If a line was refused, it is 1 and no file is written."""
    path = find_lines_file(asked.name)
    with local(asked.program, asked.side_limit) as machine:
        if play_lines(machine, lines_of(path), path, False):
            return 1
        pictures = machine.film(asked.frames, asked.every, asked.plane, asked.back, ms=asked.ms, scale=asked.scale)
        data = pictures.apng()
    write_whole(asked.output, data)
    print(f"{asked.output}: {asked.frames} pictures, {len(data):,} bytes")
    return 0


def seats(asked: argparse.Namespace) -> int:
    """Prints which seats are free, and takes each for a moment to find out. Returns the exit status: 1 if no host
    answers."""
    address = checked_address(asked.address, 6006)
    for seat in range(1, MOST_SEATS + 1):
        there = open_connection(address, None, None, 5)
        reply = there.query([b'{"seat":%d}' % seat])[0]
        there.close()
        if reply not in (SEATED, TAKEN):
            return 0 if seat > 1 else report_no_host(asked.address, reply)
        print(f"{seat} {'free' if reply == SEATED else 'taken'}", flush=True)
    return 0


def report_no_host(address: str, reply: bytes) -> int:
    """Prints that something else than a host answers at an address. Returns the exit status 1."""
    print(f"cam6 seats: {address} answers {reply[:60]!r}. Does cam6 serve really run there?", file=sys.stderr)
    return 1


def keep(asked: argparse.Namespace) -> int:
    """Saves the machine of a seat in a file, as its load line. Returns the exit status 0."""
    from . import connect

    with connect(asked.address, seat=asked.seat, seats=MOST_SEATS) as machine:
        saved = machine.save()
        side = machine.side
    write_whole(asked.file, saved + b"\n")
    print(f"{asked.file}: the machine of seat {asked.seat}, side {side}, {len(saved) + 1:,} bytes")
    return 0


def write_whole(path: str, data: bytes) -> None:
    """Writes a file beside the old one, and then takes its place, so that one of them is whole at any time."""
    with open(f"{path}.new", "wb") as file:
        file.write(data)
        file.flush()
        os.fsync(file.fileno())
    os.replace(f"{path}.new", path)


if __name__ == "__main__":
    sys.exit(main())
