"""Journals under any list of crashes: of the program and of its computer at each byte that is written, and of hosts.

A program has a list of commands. It asks for some at a time, and begins again whenever it has ended. What it hears is
compared with one oracle machine that never failed. Hosts are oracle machines too. A clock of their own tells how long they
take, so that each run of an example is the same.
"""

from __future__ import annotations

import json
import tempfile
from collections.abc import Callable, Iterator, Sequence
from contextlib import closing, contextmanager
from dataclasses import dataclass, field, replace
from enum import Enum
from errno import ENOSPC
from functools import partial
from pathlib import Path
from typing import Any, Optional
from unittest import mock

import pytest
from disks import Crash, Disk, Failure
from fakes import OracleMachine, compact, north
from hypothesis import assume, example, given, note, settings
from hypothesis import strategies as st
from hypothesis.stateful import RuleBasedStateMachine, initialize, invariant, precondition, rule
from oracle.machine import answers

from cam6 import BadJournal, Lost, lines, sessions
from cam6.journal import Journal
from cam6.sessions import Session

LIMIT = 128
# The steps of this cycle do nothing. Its position shows how many were done.
CYCLE = compact(do="cycle", entries=[{"a": "-", "b": "-", "grid": "EVEN", "phase": 0}] * 16)
SAVED = lines.blank(LIMIT).replace(b'"' + b"0" * 32, b'"' + b"f" * 32, 1)


def named(word: str, **more: Any) -> st.SearchStrategy[bytes]:
    """A command by strategies for its fields."""
    return st.builds(lambda **keys: compact(do=word, **keys), **more)


NAMES = st.sampled_from(["R", "S"])
COMMANDS = st.one_of(
    named("run", n=st.integers(0, 20)),
    # More steps than are done at once, at first.
    named("run", n=st.integers(21, 60)),
    named("back", n=st.integers(1, 60)),
    named("set", plane=st.integers(0, 4), row=st.integers(0, 3), bits=st.sampled_from(["1" * 32, "8" * 32])),
    named("count", mask=st.just(2)),
    named("drop", name=NAMES),
    st.builds(north, NAMES),
    named("map", colours=st.sampled_from([[*range(16)], [*range(15, -1, -1)]])),
    named("clear", plane=st.integers(0, 1)),
    named("side", side=st.sampled_from([128, 256])),
    st.sampled_from([CYCLE, SAVED, lines.SAVE, b"no command", b"\xff\xc3\xa9"]),
)


FAILURES = st.builds(
    Failure,
    at=st.integers(0, 4) | st.integers(0, 40),
    cut=st.integers(-80, 80) | st.sampled_from([20_000, 10_000]),
    kind=st.sampled_from(["kill", "power", "error", "interrupt"]),
    kept=st.integers(0, 200),
    renames=st.integers(0, 2),
)
SOON = st.builds(replace, FAILURES, at=st.integers(0, 5))
# What is raised if the program goes on.
GOES_ON = (OSError, KeyboardInterrupt)


@dataclass(frozen=True)
class Story:
    """The commands of a program, and how it asks for them. Hosts break at some lines, counted over all connections, and
    hand on `at_once` replies at a time. `tick` is how many seconds pass between two looks at the clock."""

    commands: list[bytes]
    batch: int
    sync: str
    tick: float
    at_once: int
    breaks: dict[int, str]


STORIES = st.builds(
    Story,
    commands=st.lists(COMMANDS, max_size=8),
    batch=st.integers(1, 4),
    sync=st.sampled_from(["each", "checkpoint"]),
    tick=st.sampled_from([0.0, 0.001, 0.004]),
    at_once=st.integers(1, 3),
    breaks=st.dictionaries(st.integers(1, 40), st.sampled_from(["before", "after"]), max_size=3),
)


@dataclass
class Clock:
    """What stands for the module `time`."""

    tick: float
    now: float = 0.0

    def monotonic(self) -> float:
        """The seconds since the beginning."""
        self.now += self.tick
        return self.now

    def sleep(self, seconds: float) -> None:
        """Lets seconds pass."""
        self.now += seconds


@dataclass
class Seat:
    """A seat of a host, and the connections to it. It breaks at some lines, and hands on `at_once` replies at a time."""

    breaks: dict[int, str]
    at_once: int
    machine: OracleMachine = field(default_factory=lambda: OracleMachine(LIMIT))
    seat: Optional[int] = 1
    address: tuple[str, int] = ("a.test", 6006)
    count: int = 0

    def find_seat(self, seconds: float) -> Seat:
        """A connection that has the seat."""
        return self

    def exchange(self, sent: Sequence[bytes], heard: Callable[[list[bytes]], None], until: float = 0) -> None:
        """Answers lines, or breaks at one of them."""
        replies: list[bytes] = []
        for line in sent:
            self.count += 1
            what = self.breaks.get(self.count)
            if what != "before":
                replies.append(self.machine.answer(line))
            if what == "after":
                replies.pop()
            if replies and (what or len(replies) == self.at_once or line is sent[-1]):
                heard(replies)
                replies = []
            if what:
                raise Lost("The connection ended.")

    def close(self) -> None:
        """Leaves the machine as it is."""


def are_steps(line: bytes) -> bool:
    """Whether a line asks for steps. Of a long run the journal may have what is left of it."""
    return line.startswith((b'{"do":"run"', b'{"do":"back"'))


class Program:
    """A program that asks for all commands of a story, in as many lives as it takes."""

    def __init__(self, story: Story, path: Path) -> None:
        self.story, self.path = story, path
        self.sent = [CYCLE, *story.commands, lines.SAVE]
        self.want = answers(self.sent, LIMIT)
        # How many commands were asked for, how many of them are on the disk, and how many the next life has to know.
        self.asked = self.synced = self.least = 0

    def opened(self, seat: Any) -> Session:
        """The session of a new life. It goes on where the last one was."""
        session = Session(seat, Journal(str(self.path), self.story.sync, LIMIT), 0.01, None)
        first = session.asked - len(session.resumed)
        for place, (line, reply) in enumerate(session.resumed, first):
            assert reply == self.want[place]
            assert line == self.sent[place] or are_steps(line) and are_steps(self.sent[place])
        return session

    def live(self, seat: Any) -> None:
        """Asks for all that is left."""
        with closing(self.opened(seat)) as session:
            assert self.least <= session.asked <= min(self.asked + self.story.batch, len(self.sent))
            self.note(session, 0)
            while session.asked < len(self.sent):
                place, saves = session.asked, session.checkpoints
                batch = self.sent[place : place + self.story.batch]
                try:
                    assert session.query(batch) == self.want[place : place + self.story.batch]
                    assert session.asked == place + len(batch)
                except GOES_ON:
                    saves = session.checkpoints  # The last one may not be on the disk.
                self.note(session, place if session.checkpoints > saves else 0)

    def note(self, session: Session, saved: int) -> None:
        """Notes how far it is, with so many commands in a machine that was saved."""
        self.asked = self.least = session.asked
        self.synced = max(self.synced, self.asked if self.story.sync == "each" else saved)

    def end(self, kind: str) -> None:
        """It has ended. Only if the computer did too, what is not on the disk may be lost."""
        self.least = self.synced if kind == "power" else self.least


@contextmanager
def computer(story: Story) -> Iterator[tuple[Program, Disk, Seat]]:
    """A program with a disk, a clock and a seat of its own."""
    with tempfile.TemporaryDirectory() as folder:
        program = Program(story, Path(folder) / "journal")
        disk, seat = Disk(program.path), Seat(story.breaks, story.at_once)
        with disk.used(), mock.patch.object(sessions, "time", Clock(story.tick)):
            yield program, disk, seat


@pytest.mark.slow
@settings(deadline=None, max_examples=150)
@given(story=STORIES, fails=st.lists(FAILURES, max_size=4))
def test_replies_are_those_of_one_machine_that_never_failed(story: Story, fails: list[Failure]) -> None:
    """Whatever ends the program, each reply is that of its place in the list, and no command is lost that may not be."""
    with computer(story) as (program, disk, seat):
        for failure in [*fails, None]:
            disk.begin(failure)
            try:
                program.live(seat)
                break
            except (Crash, *GOES_ON):
                disk.end()
                note(f"ended by {disk.ended or failure}, with {program.asked} commands asked for")
                program.end(disk.ended.kind if disk.ended else "kill")
        disk.begin(None)
        with closing(program.opened(seat)) as session:
            assert session.asked == len(program.sent)
            assert session.query([lines.SAVE]) == program.want[-1:]


@pytest.mark.slow
@settings(deadline=None, max_examples=60)
@given(story=STORIES, cuts=st.lists(st.integers(0, 2000), min_size=1, max_size=3))
def test_a_file_that_is_cut_has_the_machine_of_the_commands_before(story: Story, cuts: list[int]) -> None:
    """At any length after its first line. The program goes on from there."""
    with computer(story) as (program, disk, seat):
        program.live(seat)
        for cut in cuts:
            data = program.path.read_bytes()
            data = data[: max(data.index(b"\n") + 1, len(data) - cut)]
            program.path.write_bytes(data)
            first, *rows = map(json.loads, data.split(b"\n")[:-1])
            program.least = first["number"] + len(first["ask"]) + sum("ask" in row for row in rows)
            program.live(seat)


class Lives:
    """Programs that have a journal one after the other. What fails ends each of them."""

    def __init__(self, path: Path, sync: str) -> None:
        self.disk, self.sync = Disk(path), sync

    def opened(self) -> Journal:
        """The journal of a new program, for which nothing fails yet."""
        self.disk.begin(None)
        return Journal(str(self.disk.path), self.sync, LIMIT)

    def ends(self, made: Journal, failure: Failure) -> Journal:
        """The program of this journal begins to save, and ends by a failure. Returns the journal of the next one."""
        self.disk.begin(failure)
        with pytest.raises(Crash):
            made.checkpoint(lines.blank(LIMIT))
        self.disk.end()
        return self.opened()


# The acts of a checkpoint.
CUT, WRITE, SYNC, RENAME, SYNC_FOLDER = range(5)


@pytest.mark.parametrize("sync", ["checkpoint", "each"])
def test_the_next_program_has_a_checkpoint_on_the_disk(sync: str, path: Path) -> None:
    """A program is killed before the name of the new file is on the disk. What the next one gives up stays so."""
    lives = Lives(path, sync)
    with lives.disk.used():
        first = lives.opened()
        first.record_commands([RUN])
        first.checkpoint(SAVED)
        second = lives.ends(first, Failure(SYNC_FOLDER, kind="kill"))
        assert second.drop_pending() == [RUN]
        last = lives.ends(second, Failure(CUT, kind="power"))
        assert (list(last.pending), last.number) == ([], 0)


@pytest.mark.parametrize("kind", ["error", "interrupt"])
@pytest.mark.parametrize("at", [CUT, WRITE, SYNC, RENAME, SYNC_FOLDER])
def test_what_is_asked_for_after_a_failed_checkpoint_is_on_the_disk(at: int, kind: str, path: Path) -> None:
    """The program goes on after an error, or after Ctrl-C."""
    lives = Lives(path, "each")
    with lives.disk.used():
        first = lives.opened()
        lives.disk.begin(Failure(at, kind=kind))
        with pytest.raises(GOES_ON):
            first.checkpoint(SAVED)
        first.record_commands([RUN])
        last = lives.ends(first, Failure(CUT, kind="power"))
        assert (list(last.pending), last.number) == ([RUN], 1)


def test_a_journal_is_opened_after_an_error(path: Path) -> None:
    """The error came as it was opened, or as it was closed. The program still has the error, and no file is open."""
    lives = Lives(path, "each")
    with lives.disk.used():
        # The first file is written anew. A file that is there is cut, and synced with its folder.
        for at in [SYNC_FOLDER, 0, 1, 2]:
            lives.disk.begin(Failure(at, kind="error"))
            with pytest.raises(OSError) as raised:
                Journal(str(path), "each", LIMIT)
            made = lives.opened()
            lives.disk.begin(Failure(0, kind="error"))
            with pytest.raises(OSError) as raised_too:
                made.close()
            lives.opened().close()
            assert raised.value.errno == raised_too.value.errno == ENOSPC


def is_json(row: bytes) -> bool:
    """Whether a line is JSON."""
    try:
        json.loads(row)
    except ValueError:
        return False
    return True


@settings(deadline=None)
@given(data=st.data(), asked=st.lists(st.binary(max_size=8), min_size=2, max_size=5), count=st.integers(0, 5))
def test_a_damaged_middle_is_reported(data: st.DataObject, asked: list[bytes], count: int) -> None:
    """A line ends too early, or has other bytes, or goes on with the next one. It is named, and the file stays as it is."""
    with tempfile.TemporaryDirectory() as folder:
        path = Path(folder) / "journal"
        with closing(Journal(str(path), "none", LIMIT)) as made:
            made.record_commands(asked)
            made.record_replies([b'{"fault":2}'] * min(count, len(asked)))
        rows = path.read_bytes().splitlines(keepends=True)
        place = data.draw(st.integers(1, len(rows) - 2), "place")
        row = rows[place][: data.draw(st.integers(0, len(rows[place]) - 2), "kept")]
        row += data.draw(st.binary(max_size=8), "put").replace(b"\n", b"") + data.draw(st.sampled_from([b"\n", b""]))
        damaged = b"".join([*rows[:place], row, *rows[place + 1 :]])
        assume(not is_json(damaged.split(b"\n")[place]))
        path.write_bytes(damaged)
        with pytest.raises(BadJournal, match=f"is damaged: line {place + 1} "):
            Journal(str(path), "none", LIMIT)
        assert path.read_bytes() == damaged


KEYS = ["journal", "ask", "part", "reply", "drop", "done", "number", "x"]
VALUES = st.recursive(
    st.none() | st.booleans() | st.integers() | st.floats() | st.text(max_size=4),
    lambda values: st.lists(values, max_size=2) | st.dictionaries(st.sampled_from(KEYS), values, max_size=2),
    max_leaves=4,
)


@settings(deadline=None)
@given(row=VALUES.map(json.dumps))
@example(row='{"drop":1e999}')
@example(row='{"reply":' + "[" * 9999 + "]" * 9999 + "}")
def test_a_line_that_is_none_of_a_journal_is_reported(row: str) -> None:
    """Each JSON value is taken as a line of a journal, or reported as damage."""
    with tempfile.TemporaryDirectory() as folder:
        path = Path(folder) / "journal"
        Journal(str(path), "none", LIMIT).close()
        data = path.read_bytes() + f"{row}\n".encode()
        path.write_bytes(data)
        try:
            Journal(str(path), "none", LIMIT).close()
        except BadJournal as error:
            assert "is damaged: line 2" in str(error)
        assert path.read_bytes() == data


# What a journal knows after each of its lines, as its page says it.


@dataclass(frozen=True)
class Known:
    """A load line, the commands since then with their replies, those without an answer, and how many there were."""

    load: bytes
    tail: tuple[tuple[bytes, bytes], ...] = ()
    pending: tuple[bytes, ...] = ()
    number: int = 0

    def asked(self, line: bytes) -> Known:
        """After a line was asked for."""
        return replace(self, pending=(*self.pending, line), number=self.number + 1)

    def answered(self, reply: bytes) -> Known:
        """After the first line without an answer has one."""
        line, rest = self.pending[0], self.pending[1:]
        if reply == b'{"ok":"load"}':
            return replace(self, load=line, tail=(), pending=rest)
        is_kept = reply.startswith(b'{"ok":') and line != COUNT
        return replace(self, pending=rest, tail=(*self.tail, (line, reply)) if is_kept else self.tail)

    def parted(self, steps: int) -> Known:
        """After some steps of the first line without an answer."""
        left = json.loads(self.pending[0])["n"] - steps
        part = compact(do="run", n=steps), DONE
        return replace(self, tail=(*self.tail, part), pending=(compact(do="run", n=left), *self.pending[1:]))

    def dropped(self) -> Known:
        """After the lines without an answer were given up."""
        return replace(self, pending=(), number=self.number - len(self.pending))

    def saved(self, load: bytes) -> Known:
        """The state after a checkpoint."""
        return replace(self, load=load, tail=())


def known_to(made: Journal) -> Known:
    """The state of a journal: its load line, its tail and what is pending."""
    return Known(made.load, tuple(made.tail), tuple(made.pending), made.number)


def known_from(data: Optional[bytes]) -> Known:
    """The state of a journal whose file has this content."""
    made = Journal(None, "none", LIMIT)
    made._read(data or b"", "what is left")
    return known_to(made)


COUNT, LOAD, RUN = compact(do="count", mask=2), lines.LOAD_HEAD + b"{}}", compact(do="run", n=9)
DONE = b'{"ok":"run","position":0}'
REPLIES = {COUNT: b'{"count":0,"ok":"count"}', LOAD: b'{"ok":"load"}', b"\xff\xc3": b'{"fault":2}'}
Act = Callable[[Known], Known]


class Sync(Enum):
    """Whether the lines of an act are on the disk after it, and whether the file is written anew."""

    NEVER, SYNCED, ANEW = range(3)


class Journals(RuleBasedStateMachine):
    """A journal, and what its file may say if the program ends now (`file`), or the computer does (`power`)."""

    def __init__(self) -> None:
        super().__init__()
        self.folder = tempfile.TemporaryDirectory()
        self.disk = Disk(Path(self.folder.name) / "journal")
        self.used = self.disk.used()
        self.used.__enter__()
        self.sync = ""

    def teardown(self) -> None:
        """Removes the file of the journal."""
        self.disk.end()
        self.used.__exit__(None, None, None)
        self.folder.cleanup()

    @initialize(sync=st.sampled_from(["each", "checkpoint"]), failure=st.none() | SOON)
    def begin(self, sync: str, failure: Optional[Failure]) -> None:
        """Opens a new journal, of which something may fail."""
        self.sync = sync
        self.file = self.power = [Known(lines.blank(LIMIT))]
        self.open(failure)

    def open(self, failure: Optional[Failure] = None) -> None:
        """A program opens the journal. If it fails in that, it does so again, or another one does."""
        self.disk.begin(failure)
        try:
            self.journal = Journal(str(self.disk.path), self.sync, LIMIT)
        except GOES_ON:
            return self.open()
        except Crash:
            return self.end()
        self.now, self.is_stale = known_to(self.journal), False
        assert self.now in self.file
        # What the last program wrote is on the disk now.
        self.file = self.power = [self.now]

    def end(self) -> None:
        """The program has ended, or its computer. Another one begins."""
        assert self.disk.ended
        self.file = self.power if self.disk.ended.kind == "power" else self.file
        self.disk.end()
        self.open()

    @rule(failure=SOON)
    def fail_next(self, failure: Failure) -> None:
        """Has one of the next calls of the system fail."""
        self.disk.begin(failure)

    def do(self, call: Callable[[], Any], acts: list[Act], sync: Sync = Sync.NEVER, is_known: bool = True) -> None:
        """Does what leads to some lines of the file. It may fail after each of them."""
        after = states_of(self.now, acts)[-1]
        is_anew = self.is_stale or sync is Sync.ANEW
        if is_anew:
            # The old file stays as it is. A new one has what is known, and then lines of what is not known yet.
            ends, new = [after], [after] if is_known else states_of(self.now, acts)
            states, power = [*self.file, *new], new
        else:
            ends = [states_of(before, acts)[-1] for before in self.file]
            states = [state for before in self.file for state in states_of(before, acts)]
            power = [*self.power, *states]
        try:
            call()
        except GOES_ON:
            self.file, self.power = states, [*self.power, *states]
            # A file whose name is not on the disk is stale, too.
            self.is_stale = self.is_stale or sync is not Sync.ANEW or bool(self.disk.before)
            self.now = after if is_known else self.now
        except Crash:
            self.file, self.power = states, [*self.power, *states]
            self.end()
        else:
            self.file, self.power = ends, power if sync is Sync.NEVER else ends
            self.is_stale, self.now = False, after
        assert known_to(self.journal) == self.now

    @invariant()
    def is_written(self) -> None:
        """If the program ended now, or the computer, the file would say what it may."""
        assert known_from(self.disk.path.read_bytes()) in self.file
        for renames in range(len(self.disk.before) + 1):
            assert known_from(self.disk.left(0, renames)) in self.power

    @rule(sent=st.lists(st.sampled_from([RUN, LOAD, b"\xff\xc3", compact(do="clear", plane=0), COUNT]), max_size=3))
    def ask(self, sent: list[bytes]) -> None:
        """Records commands."""
        acts: list[Act] = [partial(Known.asked, line=line) for line in sent]
        sync = Sync.SYNCED if self.sync == "each" else Sync.NEVER
        self.do(lambda: self.journal.record_commands(sent), acts, sync, is_known=False)

    @precondition(lambda self: bool(self.now.pending))
    @rule(count=st.integers(1, 3))
    def answer(self, count: int) -> None:
        """Records replies to the first commands that have none."""
        replies = [REPLIES.get(line, DONE) for line in self.now.pending[:count]]
        self.do(
            lambda: self.journal.record_replies(replies), [partial(Known.answered, reply=reply) for reply in replies]
        )

    @precondition(lambda self: b'"run"' in b"".join(self.now.pending[:1]))
    @rule(steps=st.integers(0, 3))
    def do_part(self, steps: int) -> None:
        """Records a part of the first pending run."""
        steps = min(steps, json.loads(self.now.pending[0])["n"])
        part = compact(do="run", n=steps)
        self.do(lambda: self.journal.record_part(part, DONE), [partial(Known.parted, steps=steps)])

    @precondition(lambda self: bool(self.now.pending))
    @rule()
    def drop(self) -> None:
        """Those without an answer are given up."""
        self.do(self.journal.drop_pending, [Known.dropped], Sync.SYNCED)

    @rule(load=st.sampled_from([LOAD, SAVED]))
    def save(self, load: bytes) -> None:
        """Makes a checkpoint."""
        self.do(lambda: self.journal.checkpoint(load), [partial(Known.saved, load=load)], Sync.ANEW)

    @rule(failure=st.none() | SOON)
    def open_again(self, failure: Optional[Failure]) -> None:
        """The program ends by itself, and another one begins. Either may fail in that."""
        try:
            self.journal.close()
        except GOES_ON:
            self.open(failure)
        except Crash:
            self.end()
        else:
            self.power = self.power if self.is_stale else self.file
            self.open(failure)


def states_of(known: Known, acts: list[Act]) -> list[Known]:
    """What is known before some acts, and after each of them."""
    states = [known]
    for act in acts:
        states.append(act(states[-1]))
    return states


TestJournals = pytest.mark.slow(Journals.TestCase)
TestJournals.settings = settings(deadline=None, max_examples=100, stateful_step_count=20)
