#!/usr/bin/env python3
"""An ensemble: counts of many random tori under many rules, on all processors or on many computers.

    ./ensemble.py                                        a first try: 8 seeds, 2 rules, 200 steps
    ./ensemble.py --seeds 256 --rules all --steps 2000   the full size
    ./ensemble.py --serial                               one task after another, without Dask
    ./ensemble.py --compare                              both ways, and whether they are equal

A task is a rule and a seed. It has a machine of its own, which is a process `cam6 alone`. Its set cells are counted at
regular steps, and only the counts come back. A long task is cut into parts. Each part loads the machine that the part
before it has saved in a folder. So a worker that is killed loses no more than the part that it was doing.

It needs Dask: the package python3-distributed of Debian, with /usr/bin/python3. Whoever reaches a port of Dask can run
code there, so the ports are on the loopback, or speak TLS.
"""

from __future__ import annotations

import argparse
import contextlib
import dataclasses
import json
import logging
import os
import signal
import statistics
import sys
import tempfile
import time
from collections.abc import Iterator, Sequence
from typing import Any, Optional

import cam6

# The builders of cam6.rules that make the rules, and their notations.
RULES = {
    "life": ("life", "B3/S23"),
    "critters": ("margolus", "critters"),
    "highlife": ("life", "B36/S23"),
    "day-night": ("life", "B3678/S34678"),
    "diamoeba": ("life", "B35678/S5678"),
    "vote": ("totalistic", "46789"),
    "brain": ("generations", "B2/S/C3"),
    "tron": ("margolus", "tron"),
}
FIRST_TRY = "life,critters"
DENSITY = 0.5
# Seconds in which Dask has to start a worker in the place of a killed one.
TO_START = 30
LOOPBACK = ("localhost", "127.0.0.1", "::1")
NO_DASK = "Dask is not there: apt-get install python3-distributed, and use /usr/bin/python3. Or run with --serial."

Task = tuple[str, int]
Counts = list[int]


class Failed(Exception):
    """A task that could not be done, however often it was tried."""


@dataclasses.dataclass(frozen=True)
class Plan:
    """What all tasks have in common. `part` is how many steps a part has, and `limit` how many seconds it may take."""

    program: str
    side: int
    steps: int
    every: int
    part: int
    limit: float
    folder: Optional[str]
    run: str

    @property
    def parts(self) -> int:
        """How many parts a task has."""
        return -(-self.steps // self.part)

    def span(self, number: int) -> tuple[int, int]:
        """The step at which a part begins, and the one at which it ends. Parts count from 0."""
        return number * self.part, min((number + 1) * self.part, self.steps)

    def name(self, rule: str, seed: int, number: int) -> str:
        """The name of a part. It has all that the counts depend on, so equal names have equal counts."""
        begin, end = self.span(number)
        return f"{rule}.seed-{seed}.side-{self.side}.every-{self.every}.steps-{begin}-{end}"

    def path(self, rule: str, seed: int, number: int) -> str:
        """The file in which a part is kept when it is done."""
        return os.path.join(self.folder or "", self.name(rule, seed, number))


@dataclasses.dataclass
class Done:
    """The counts of all tasks, and the seconds: in all, and those within the tasks."""

    counts: dict[Task, Counts]
    seconds: float
    within: float
    workers: int = 1


# What a worker does.


def run_machine(plan: Plan, rule: str, seed: int, steps: int, saved: Optional[bytes]) -> tuple[Counts, bytes]:
    """The counts of a machine of its own, after each `every` of these steps, and the machine saved after them.

    If there is no saved machine it begins with random cells, and the first count is of those. The machine is asked by
    one call, so that the limit holds for all of it.
    """
    with cam6.local(plan.program, plan.side, deadline=plan.limit) as machine:
        many = machine.pipeline()
        if saved is None:
            builder, notation = RULES[rule]
            made = getattr(cam6.rules, builder)(notation)
            many.set_side(plan.side).rule("R", made).cycle(made).random(0, DENSITY, seed).count()
        else:
            many.load(saved)
        begun = len(many)
        for _ in range(steps // plan.every):
            many.run(plan.every).count()
        *results, after = many.save().execute()
    first = results[begun - 1 : begun] if saved is None else []
    return first + results[begun + 1 :: 2], after


def read_part(path: str) -> Optional[tuple[Counts, bytes]]:
    """Reads the file of a part: its counts, and the machine saved after it. Returns None if the part is not done. A
    file that was cut short counts as none."""
    try:
        with open(path, "rb") as file:
            counts, saved, _ = file.read().split(b"\n")
    except (FileNotFoundError, ValueError):
        return None
    return json.loads(counts), saved


def counts_of_part(plan: Plan, rule: str, seed: int, number: int) -> Counts:
    """Returns the counts of a part. Does the part first if the folder doesn't have it yet."""
    begin, end = plan.span(number)
    path = plan.path(rule, seed, number)
    found = read_part(path)
    if found:
        return found[0]
    before = read_part(plan.path(rule, seed, number - 1)) if number else None
    if number and not before:
        raise FileNotFoundError(f"{plan.folder} lacks the part before: do all workers see this folder?")
    half = f"{path}.{plan.run}.{os.uname().nodename}.{os.getpid()}.half"
    with open(half, "wb") as file:
        try:
            counts, saved = run_machine(plan, rule, seed, end - begin, before[1] if before else None)
        except BaseException:
            os.unlink(half)
            raise
        file.write(b"%s\n%s\n" % (json.dumps(counts).encode(), saved))
    os.replace(half, path)
    return counts


def run_part(rule: str, seed: int, plan: Plan, number: int) -> tuple[Counts, float]:
    """The counts of a part, and how many seconds it took here. Without a folder the part is the whole task."""
    began = time.perf_counter()
    if plan.folder is None:
        counts = run_machine(plan, rule, seed, plan.steps, None)[0]
    else:
        counts = counts_of_part(plan, rule, seed, number)
    return counts, time.perf_counter() - began


# What this computer does.


def run_serially(plan: Plan, tasks: Sequence[Task]) -> Done:
    """Runs all tasks, one after another, each as a whole."""
    began = time.perf_counter()
    counts = {(rule, seed): run_machine(plan, rule, seed, plan.steps, None)[0] for rule, seed in tasks}
    seconds = time.perf_counter() - began
    return Done(counts, seconds, seconds)


def dask() -> Any:
    """The module of Dask. Ends with status 2 if it is not there."""
    try:
        import distributed
    except ImportError:
        print(f"ensemble.py: {NO_DASK}", file=sys.stderr)
        raise SystemExit(2) from None
    return distributed


@contextlib.contextmanager
def client_of(asked: argparse.Namespace) -> Iterator[Any]:
    """A client of the scheduler that was asked for, or of worker processes on this computer."""
    distributed = dask()
    with contextlib.ExitStack() as stack:
        place = asked.scheduler
        if place is None:
            place = stack.enter_context(
                distributed.LocalCluster(
                    n_workers=asked.workers,
                    threads_per_worker=1,
                    processes=True,
                    host="127.0.0.1",
                    dashboard_address=None,
                    local_directory=stack.enter_context(tempfile.TemporaryDirectory()),
                    silence_logs=logging.CRITICAL,
                )
            )
        client = stack.enter_context(distributed.Client(place))
        client.wait_for_workers(asked.workers)
        yield client
        if asked.kill:
            # Dask complains if the new worker is closed while it starts. On a busy computer it may never start.
            with contextlib.suppress(distributed.TimeoutError):
                client.wait_for_workers(asked.workers, timeout=TO_START)


def submit(client: Any, plan: Plan, tasks: Sequence[Task], number: int, retries: int) -> list[Any]:
    """Submits a part of each of these tasks to Dask, and returns their futures. Later parts go first, so that tasks end
    early."""
    futures: list[Any] = client.map(
        run_part,
        [rule for rule, _ in tasks],
        [seed for _, seed in tasks],
        plan=plan,
        number=number,
        key=[f"{plan.name(rule, seed, number)}.{plan.run}" for rule, seed in tasks],
        retries=retries,
        priority=number,
        pure=False,
    )
    return futures


def unfinished_parts(plan: Plan) -> list[str]:
    """The names of the files of parts that this run began and has not ended."""
    assert plan.folder
    return [name for name in os.listdir(plan.folder) if f".{plan.run}." in name and name.endswith(".half")]


def worker_of(half: str) -> int:
    """The id of the process that writes a part, by the name of the part's file."""
    return int(half.split(".")[-2])


def kill_worker(plan: Plan) -> bool:
    """Kills a worker of this computer that is within a part, if there is one. Returns whether one was killed so."""
    for worker in map(worker_of, unfinished_parts(plan)):
        os.kill(worker, signal.SIGKILL)
        time.sleep(0.1)
        if worker in map(
            worker_of, unfinished_parts(plan)
        ):  # If not, its part was just ending. It may have begun another one.
            return True
    return False


def error_of(result: Any) -> Optional[BaseException]:
    """What a part raised at last, or None if it returned. Dask says it as an exception, or as a triple with one.

    The future's own status is no sign: it changes again if the worker is killed after the result was read.
    """
    errors = result if isinstance(result, tuple) else (result,)
    return next((error for error in errors if isinstance(error, BaseException)), None)


def run_by_dask(plan: Plan, tasks: Sequence[Task], asked: argparse.Namespace) -> Done:
    """Runs all tasks by Dask. With `--kill N` also kills a worker after N parts. Raises `Failed` if a part was tried as
    often as it may be.

    A part is submitted when the part before it has come back. So no task of Dask needs the result of another one, which
    may be lost with its worker.
    """
    with client_of(asked) as client:
        workers = sum(client.nthreads().values())
        began = time.perf_counter()
        places = {future: (task, 0) for future, task in zip(submit(client, plan, tasks, 0, asked.retries), tasks)}
        to_kill, within = asked.kill, 0.0
        found: dict[tuple[Task, int], Counts] = {}
        coming = dask().as_completed(places, with_results=True, raise_errors=False)
        for future, result in coming:
            task, number = places.pop(future)  # Dask forgets what nobody waits for, and so never does it again.
            error = error_of(result)
            if error:
                raise Failed(f"{plan.name(*task, number)}: {error}")
            found[task, number], seconds = result
            within += seconds
            if number + 1 < plan.parts:
                [after] = submit(client, plan, [task], number + 1, asked.retries)
                places[after] = task, number + 1
                coming.add(after)
            if to_kill and len(found) >= to_kill and kill_worker(plan):
                to_kill = 0
                print(f"a worker was killed after {len(found)} of {len(tasks) * plan.parts} parts")
        seconds = time.perf_counter() - began
    counts = {task: [count for number in range(plan.parts) for count in found[task, number]] for task in tasks}
    return Done(counts, seconds, within, workers)


def remove_cut_off(plan: Plan) -> int:
    """Removes what parts of this run left that were cut off, as their worker was killed. Returns how many these are."""
    names = unfinished_parts(plan)
    for name in names:
        os.unlink(os.path.join(plan.folder or "", name))
    return len(names)


def difference(plan: Plan, one: Done, other: Done) -> Optional[str]:
    """The first place where the counts by Dask (`other`) differ from the serial ones, as text, or None if they are
    equal."""
    for (rule, seed), counts in one.counts.items():
        others = other.counts.get((rule, seed), [])
        for at in range(max(len(counts), len(others))):
            if counts[at : at + 1] != others[at : at + 1]:
                place = f"{rule}, seed {seed}, step {at * plan.every}"
                return f"{place}: {counts[at:at + 1]}, and {others[at:at + 1]} by Dask"
    return None


def times_text(done: Done, way: str) -> str:
    """How long the tasks took, as a line that begins with `way`."""
    tasks = len(done.counts)
    each = 1000 * done.seconds * done.workers / tasks
    within = 1000 * done.within / tasks
    text = f"{way}: {tasks} tasks, {done.workers} at once, {done.seconds:.2f} s"
    return f"{text}. Each took {each:.1f} ms: {within:.1f} within it, and {each - within:.1f} around it"


def counts_text(plan: Plan, done: Done) -> str:
    """The mean count of each rule over its seeds, with the deviation, at five steps."""
    last = plan.steps // plan.every
    shown = sorted({last * place // 4 for place in range(5)})
    lines = ["rule      " + "".join(f"{f'step {at * plan.every}':>18}" for at in shown)]
    for name in dict.fromkeys(rule for rule, _ in done.counts):
        rows = [counts for (rule, _), counts in done.counts.items() if rule == name]
        columns = [[counts[at] for counts in rows] for at in shown]
        cells = [f"{statistics.mean(column):.1f} ± {statistics.pstdev(column):.1f}" for column in columns]
        lines.append(f"{name:10}" + "".join(f"{cell:>18}" for cell in cells))
    return "\n".join(lines)


def parser() -> argparse.ArgumentParser:
    """The options."""
    options = argparse.ArgumentParser(description=__doc__, formatter_class=argparse.RawDescriptionHelpFormatter)
    options.add_argument("--program", default=os.environ.get("CAM6", "cam6"), help="the program cam6, on each computer")
    options.add_argument("--seeds", type=int, default=8, help="how many seeds, from 0 on (8)")
    options.add_argument("--rules", default=FIRST_TRY, help=f"all, or some of {','.join(RULES)} ({FIRST_TRY})")
    options.add_argument("--steps", type=int, default=200, help="steps of each task (200)")
    options.add_argument("--every", type=int, default=20, help="steps from one count to the next (20)")
    options.add_argument("--side", type=int, default=128, choices=(128, 256, 512), help="columns and rows (128)")
    options.add_argument("--part", type=int, default=10_000, help="the most steps of a part (10000)")
    options.add_argument("--limit", type=float, default=60, help="the most seconds of a part (60)")
    options.add_argument("--retries", type=int, default=3, help="how often a part that failed is tried again (3)")
    options.add_argument("--workers", type=int, default=2, help="worker processes (2)")
    options.add_argument("--scheduler", help="a scheduler's address, which is used when it has so many workers")
    options.add_argument("--folder", help="where parts are kept, to go on after a stop; all workers must see it")
    options.add_argument("--output", help="a file for all counts, as JSON")
    options.add_argument("--kill", type=int, default=0, metavar="N", help="kill a worker after N parts, to try that")
    ways = options.add_mutually_exclusive_group()
    ways.add_argument("--serial", action="store_true", help="one task after another, without Dask")
    ways.add_argument("--compare", action="store_true", help="both ways, and whether they are equal")
    return options


def is_safe(address: str) -> bool:
    """Whether an address of Dask is on the loopback, or speaks TLS."""
    scheme, _, rest = address.rpartition("://")
    return scheme == "tls" or rest.rpartition(":")[0].strip("[]") in LOOPBACK


def why_refused(asked: argparse.Namespace) -> Optional[str]:
    """The sentence that says why the options are refused, or None if they are not."""
    for name in ("seeds", "steps", "every", "part", "limit", "workers"):
        if getattr(asked, name) <= 0:
            return f"--{name} is above 0"
    if asked.limit >= 1e6 or asked.retries < 0 or asked.kill < 0:
        return "--limit is below 1000000, and --retries and --kill are 0 or more"
    if asked.steps % asked.every or asked.part % asked.every:
        return "--steps and --part are multiples of --every"
    unknown = [name for name in asked.rules if name not in RULES]
    if unknown:
        return f"there is no rule {unknown[0]!r}: use some of {','.join(RULES)}"
    if asked.scheduler and not is_safe(asked.scheduler):
        return f"{asked.scheduler} is neither on the loopback nor TLS, and whoever reaches it can run code"
    if asked.scheduler and asked.kill:
        return "--kill is for workers on this computer"
    if asked.scheduler and asked.steps > asked.part and not asked.folder:
        return "parts need a --folder that all workers see"
    return None


def run_tasks(asked: argparse.Namespace, folder: Optional[str]) -> int:
    """Runs the tasks as the options say, and prints what came of it. Returns the exit status."""
    run = os.urandom(4).hex()
    plan = Plan(asked.program, asked.side, asked.steps, asked.every, asked.part, asked.limit, folder, run)
    tasks = [(rule, seed) for rule in asked.rules for seed in range(asked.seeds)]
    alone = run_serially(plan, tasks) if asked.serial or asked.compare else None
    shared = None if asked.serial else run_by_dask(plan, tasks, asked)
    done = shared or alone
    assert done
    print(counts_text(plan, done))
    if alone:
        print(times_text(alone, "serial"))
    if shared:
        print(times_text(shared, "Dask"))
        if folder:
            print(f"parts that were cut off and done anew: {remove_cut_off(plan)}")
    if asked.output:
        with open(asked.output, "w", encoding="utf-8") as file:
            json.dump({f"{rule}/{seed}": counts for (rule, seed), counts in done.counts.items()}, file, indent=0)
    if alone and shared:
        where = difference(plan, alone, shared)
        print(f"NOT EQUAL: {where}" if where else f"equal: {sum(map(len, alone.counts.values()))} counts")
        return 1 if where else 0
    return 0


def main() -> int:
    """Reads the options. Returns the exit status: 1 if something failed or differs, and 2 if it can't begin."""
    options = parser()
    asked = options.parse_args()
    asked.rules = list(RULES) if asked.rules == "all" else asked.rules.split(",")
    if os.sep in asked.program:
        asked.program = os.path.abspath(asked.program)  # Workers may have been started in another folder.
    refused = why_refused(asked)
    if refused:
        options.error(refused)
    if not asked.serial:
        dask()
    with contextlib.ExitStack() as stack:
        folder = asked.folder and os.path.abspath(asked.folder)
        if folder:
            os.makedirs(folder, exist_ok=True)
        elif not asked.scheduler:
            folder = stack.enter_context(tempfile.TemporaryDirectory())
        try:
            return run_tasks(asked, folder)
        except (cam6.Cam6Error, Failed, OSError) as error:
            print(f"ensemble.py: {error}", file=sys.stderr)
    return 1


if __name__ == "__main__":
    sys.exit(main())
