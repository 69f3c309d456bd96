"""Sessions that lose nothing: a machine that outlives its hosts.

What a machine replies depends on its own accepted commands alone. That is the clause `headline` of `run` in `cam6_core`:
two lists of events that agree on a user's accepted commands give them equal replies. So a load line and the commands
since then make the same machine again at any seat of any host with the same limit.
"""

from __future__ import annotations

import random
import ssl
import time
from collections.abc import Iterator, Sequence
from typing import Optional, Union

from . import lines
from .channels import Connection, Heard, open_connection
from .errors import Diverged, GaveUp, Lost, NoSeat, shortened
from .journal import Journal

Address = tuple[str, int]

SEATED, TAKEN, NO_SUCH = b'{"ok":"seat"}', b'{"fault":80}', b'{"fault":81}'
# Seconds to wait before the next try: the first time, and at most. Each wait is times 0.5 to 1.5 at random.
FIRST_WAIT, LONGEST_WAIT = 0.02, 1.0
# Seconds in which a host has to answer the first line, and for how long a taken seat is asked for again.
TO_SIT, TO_BE_FREE = 10.0, 0.5
# How many lines and bytes are written to the journal, and then sent, at once.
CHUNK_LINES, CHUNK_BYTES = 1000, 1 << 20
# How many steps a second a board is taken to do before that is measured.
FIRST_RATE = 2000.0
# Bytes after which a journal is written anew, whatever its commands took.
MOST_JOURNAL = 8 << 20


class Connector:
    """The addresses of hosts, and how a seat is taken at one of them."""

    def __init__(
        self,
        addresses: Sequence[Address],
        seats: int,
        seat: Optional[int],
        tls: Union[None, bool, ssl.SSLContext],
        server_name: Optional[str],
    ) -> None:
        self.addresses, self.seats, self.tls, self.server_name = list(addresses), seats, tls, server_name
        self.address, self.seat = self.addresses[0], seat
        self.is_bound = False

    def find_seat(self, seconds: float) -> Connection:
        """Opens a connection that has a seat, at the first host that gives one, from the last host on. Each host has
        these seconds. If none gives one, raises `NoSeat` if a host had none free, else the first `Lost`."""
        last: Union[Lost, NoSeat, None] = None
        at = self.addresses.index(self.address)
        for address in self.addresses[at:] + self.addresses[:at]:
            try:
                return self._seat_at(address, time.monotonic() + seconds)
            except (Lost, NoSeat) as cause:
                last = cause if last is None or isinstance(cause, NoSeat) else last
        assert last is not None
        raise last

    def _seat_at(self, address: Address, until: float) -> Connection:
        """Tries the seats of one host in order, and returns a connection that has one. Raises `NoSeat` if none is free.
        Raises `Lost` if the host can't be reached, or answers otherwise or not before `until`."""
        taken, end = 0, self.seats + 1
        for seat in self._order():
            if seat >= end:
                continue
            left = max(0.001, until - time.monotonic())
            there = open_connection(address, self.tls, self.server_name, left)
            reply = self._first_reply(there, seat, left)
            if reply == SEATED:
                self.address, self.seat = address, seat
                return there
            there.close()
            if reply == NO_SUCH:
                end = min(end, seat)
            elif reply == TAKEN:
                taken += 1
            else:
                raise Lost(f"{address[0]}:{address[1]} answers {shortened(reply)}. Does cam6 serve really run there?")
        raise NoSeat(self._why_none(address, taken, end))

    def _order(self) -> list[int]:
        """The seats to try, the last one first. A bound connector has one alone."""
        if self.is_bound and self.seat is not None:
            return [self.seat]
        first = [] if self.seat is None else [self.seat]
        return first + [seat for seat in range(1, self.seats + 1) if seat != self.seat]

    def _first_reply(self, there: Connection, seat: int, seconds: float) -> bytes:
        """Asks for a seat, and returns the reply. If none comes within `seconds`, at most 10, closes the connection and
        raises `Lost`."""
        replies: list[bytes] = []
        try:
            there.exchange([b'{"seat":%d}' % seat], replies.extend, time.monotonic() + min(TO_SIT, seconds))
        except BaseException:
            there.close()
            raise
        return replies[0]

    def _why_none(self, address: Address, taken: int, end: int) -> str:
        """The sentence for `NoSeat`: why no seat was free, and what to do. `taken` counts the taken seats. `end` is the
        first seat that the host doesn't have, or `seats` + 1."""
        where = f"{address[0]}:{address[1]}"
        if self.is_bound and taken:
            return f"Seat {self.seat} at {where} is taken. Ask for another one, or wait until it is free."
        if self.is_bound:
            return f"There is no seat {self.seat} at {where}: seats are numbered from 1. Start cam6 serve with --users."
        if end == self.seats + 1 and self.seats < 32:
            return f"The seats 1 to {self.seats} at {where} are taken. Say seats= if there are more of them."
        return f"All {taken} seats at {where} are taken. Wait until one is free, or start cam6 serve with more --users."


def take_seat(connector: Connector) -> Connection:
    """Returns a connection that has a seat. If none is free, tries again for 0.5 seconds, then raises `NoSeat`. Raises
    `Lost` at once."""
    until = time.monotonic() + TO_BE_FREE
    while True:
        try:
            return connector.find_seat(TO_SIT)
        except NoSeat:
            if time.monotonic() > until:
                raise
        time.sleep(FIRST_WAIT)


class Session:
    """A machine whose commands are kept in a journal until they are in a saved machine.

    It carries lines as a `Channel` does. If the connection ends it takes another seat, loads the saved machine, plays
    the commands since then and compares their replies, and goes on.

    - `seat` and `address`: where it sits, or sat last.
    - `asked`: how many commands were asked for since the journal's beginning.
    - `resumed`: the commands without an answer that the journal had when it was opened, with their replies.
    - `recoveries`, `replayed`, `checkpoints`: how often it took a new seat after the first one, how many commands it
      played again, and how often it saved.
    """

    def __init__(self, connector: Connector, journal: Journal, every_seconds: float, deadline: Optional[float]) -> None:
        self.journal = journal
        self.every_seconds, self.deadline = every_seconds, deadline
        self.recoveries = self.replayed = self.checkpoints = 0
        self.resumed: list[tuple[bytes, bytes]] = []
        self._connector = connector
        self._there: Optional[Connection] = None
        # Seconds of answers since the last checkpoint, steps a second, and how many answers there were in all.
        self._busy, self._rate, self._done = 0.0, FIRST_RATE, 0
        # Whether this call has sent anything, and whether all is over.
        self._is_sent = self._is_closed = False
        try:
            self._take_first_seat()
        except BaseException:
            self.close()
            raise

    @property
    def seat(self) -> Optional[int]:
        """The seat, or None before the first one."""
        return self._connector.seat

    @property
    def address(self) -> Address:
        """The host and the port."""
        return self._connector.address

    @property
    def asked(self) -> int:
        """How many commands were asked for since the journal's beginning."""
        return self.journal.number

    def _take_first_seat(self) -> None:
        """Takes the first seat, and does the commands that the journal has without a reply. A new journal does not wait
        for a host, so that a mistyped address is reported at once."""
        if self.journal.number == 0:
            try:
                self._rebuild(take_seat(self._connector), self._time_of_deadline())
            except Lost:
                if self._connector.seat is None:
                    raise
        if self._there is None:
            self._recover(self._time_of_deadline(), Lost("No host was reached."))
        self.recoveries = 0
        waiting = list(self.journal.pending)
        self.resumed = list(zip(waiting, self._finish_pending()))

    def _time_of_deadline(self) -> float:
        """When the next call has to have made progress, by `time.monotonic()`. Infinity without a deadline."""
        return float("inf") if self.deadline is None else time.monotonic() + self.deadline

    def _patience(self) -> float:
        """Seconds after which a silent host is left for another one: a third of the deadline. Infinity without one."""
        return float("inf") if self.deadline is None else self.deadline / 3

    # Lines

    def query(self, sent: Sequence[bytes]) -> list[bytes]:
        """The replies to lines, each as of one machine that never failed.

        Raises `GaveUp` if no host did the next of them before the deadline, and `Diverged`.
        """
        if self._is_closed:
            raise Lost("This machine was closed.")
        replies: list[bytes] = []
        left = list(chunks_of(sent))
        try:
            self._finish_pending()  # What is left of a call that was interrupted.
            while left:
                self.journal.record_commands(left[0])
                del left[0]
                replies += self._finish_pending()
                self._checkpoint_if_due()
        except GaveUp as cause:
            undone = cause.undone + [line for chunk in left for line in chunk]
            raise GaveUp(str(cause), undone, replies + cause.replies) from cause.__cause__
        return replies

    def _finish_pending(self) -> list[bytes]:
        """Sends the commands without a reply, at as many seats as it takes, and returns all their replies in order.
        Raises `GaveUp` if there is no progress before the deadline, which drops what is left, and `Diverged`."""
        replies: list[bytes] = []
        until, wait = self._time_of_deadline(), FIRST_WAIT
        self._is_sent = False
        while self.journal.pending:
            done = self._done
            failure: Union[Lost, GaveUp, None] = None
            try:
                if self._there is None:
                    self._recover(until, Lost("The connection ended."))
                self._send(replies, until)
            except (Lost, GaveUp) as cause:
                failure = cause
                self._leave()
            if self._done != done:
                until, wait = self._time_of_deadline(), FIRST_WAIT
            elif isinstance(failure, GaveUp) or failure and time.monotonic() >= until:
                sentence = self._why_given_up(failure)
                raise GaveUp(sentence, self.journal.drop_pending(), replies) from failure
            elif failure:
                wait = pause_before_retry(wait, until)
        return replies

    def _why_given_up(self, cause: Exception) -> str:
        """The sentence for `GaveUp`: which command could not be done, and what failed last."""
        what = "A host was lost each time that it did" if self._is_sent else "No host could do"
        return f"{what} {shortened(self.journal.pending[0])}, for {self.deadline:g} seconds. At last: {cause}"

    def _send(self, replies: list[bytes], until: float) -> None:
        """Sends the pending commands before the first long run, or one part of it if it comes first. Replies go to the
        journal and to `replies`. If the exchange fails, leaves the seat and raises."""
        there = self._there
        assert there is not None
        pending = list(self.journal.pending)
        short = next((at for at, line in enumerate(pending) if self._is_long(line)), len(pending))
        started = time.monotonic()
        until = min(until, started + self._patience())
        self._is_sent = True

        def heard(some: list[bytes]) -> None:
            """Notes replies in the journal as they come."""
            self._done += len(some)
            replies.extend(some)
            self.journal.record_replies(some)

        try:
            if short:
                there.exchange(pending[:short], heard, until)
            else:
                self._send_part(there, pending[0], heard, until)
        except BaseException:
            self._leave()
            raise
        finally:
            self._busy += time.monotonic() - started
        if not short:
            self._checkpoint_if_due()

    def _most_steps(self) -> int:
        """The most steps of one line: as many as take about `every_seconds`, 1 to 65,535."""
        return max(1, min(lines.MOST_STEPS, int(self._rate * max(self.every_seconds, 0.01))))

    def _is_long(self, line: bytes) -> bool:
        """Whether a line is a run of more steps than one checkpoint interval takes."""
        found = lines.STEPS.fullmatch(line)
        return found is not None and self._most_steps() < int(found[2]) <= lines.MOST_STEPS

    def _send_part(self, there: Connection, line: bytes, heard: Heard, until: float) -> None:
        """Does a part of the long run `line`, and notes it in the journal. If the part is refused, `heard` gets that
        reply as the one to the whole run."""
        found = lines.STEPS.fullmatch(line)
        assert found is not None
        steps = self._most_steps()
        part = lines.steps_line(found[1], steps)
        started = time.monotonic()
        replies: list[bytes] = []
        there.exchange([part], replies.extend, until)
        if lines.is_fault(replies[0]):
            heard(replies)
            return
        self._done += 1
        self.journal.record_part(part, replies[0])
        rate = steps / max(time.monotonic() - started, 1e-6)
        self._rate = min(max(rate, self._rate / 4, 1.0), self._rate * 4)

    # Checkpoints

    def _checkpoint_if_due(self) -> None:
        """Saves the machine if answers took long enough, or if the journal is large."""
        is_long_ago = self._busy >= self.every_seconds and self.journal.tail
        if is_long_ago or self.journal.size > MOST_JOURNAL:
            self.checkpoint()

    def checkpoint(self) -> bool:
        """Saves the machine into the journal, so that the commands so far need not be played again.

        It happens by itself each time that the answers took `every_seconds` together. Returns whether the host could
        do it. If not, nothing is lost: the next command takes another seat.
        """
        if self._there is None:
            return False
        try:
            heard: list[bytes] = []
            self._there.exchange([lines.SAVE], heard.extend, time.monotonic() + self._patience())
        except Lost:
            self._leave()
            return False
        except BaseException:
            self._leave()
            raise
        self.journal.checkpoint(lines.load_line(heard[0]))
        self._busy = 0.0
        self.checkpoints += 1
        return True

    # Seats

    def _recover(self, until: float, cause: Lost) -> None:
        """Takes a seat and brings its machine to the session's state by the journal, again and again until that
        succeeds. Raises `GaveUp` from the last failure once `until` is over (from `cause` if nothing was tried), and
        `Diverged` at once."""
        wait = FIRST_WAIT
        last: Union[Lost, NoSeat] = cause
        while True:
            left = until - time.monotonic()
            if left <= 0:
                raise GaveUp(str(last)) from last
            try:
                self._rebuild(
                    self._connector.find_seat(min(left, TO_SIT)), min(until, time.monotonic() + self._patience())
                )
                self.recoveries += 1
                return
            except (Lost, NoSeat) as error:
                last = error
            wait = pause_before_retry(wait, until)

    def _rebuild(self, there: Connection, until: float) -> None:
        """Loads the saved machine at the seat, plays the commands since then, and keeps the connection. Raises
        `Diverged` if the limit or a reply differs, and `Lost`. Then the connection is closed."""
        try:
            self._compare_limit(there, until)
            known = [(self.journal.load, lines.LOADED), *self.journal.tail]
            replies: list[bytes] = []
            there.exchange([line for line, _ in known], replies.extend, until)
        except BaseException:
            there.close()
            raise
        for (line, before), now in zip(known, replies):
            if now != before:
                there.close()
                raise Diverged(
                    f"The host at {self.address[0]}:{self.address[1]} answers {shortened(line)} by {shortened(now)}. "
                    f"Before it was {shortened(before)}. Use hosts of one version and one limit."
                )
        self.replayed += len(known) - 1
        self._there = there

    def _compare_limit(self, there: Connection, until: float) -> None:
        """Raises `Diverged` if the host's largest side is not that of the session. Asks for larger sides to find out,
        so the machine at the seat may be blank after it."""
        replies: list[bytes] = []
        there.exchange([b'{"do":"side","side":512}', b'{"do":"side","side":256}'], replies.extend, until)
        limit = next((side for side, reply in zip((512, 256), replies) if reply == b'{"ok":"side"}'), 128)
        if limit != self.journal.limit:
            raise Diverged(
                f"The host at {self.address[0]}:{self.address[1]} has the limit {limit}, and the session has "
                f"{self.journal.limit}. Say limit={limit}, or start cam6 serve with --side {self.journal.limit}."
            )

    def _leave(self) -> None:
        """Closes the connection. The session goes on at another seat."""
        if self._there is not None:
            self._there.close()
            self._there = None

    def close(self) -> None:
        """Leaves the seat and closes the journal, which stays. A second time it does nothing."""
        self._is_closed = True
        self._leave()
        self.journal.close()


def chunks_of(sent: Sequence[bytes]) -> Iterator[list[bytes]]:
    """The lines in their order, in lists of at most 1,000 lines and 1 MiB. A longer line stands alone."""
    chunk: list[bytes] = []
    size = 0
    for line in sent:
        if chunk and (len(chunk) >= CHUNK_LINES or size + len(line) > CHUNK_BYTES):
            yield chunk
            chunk, size = [], 0
        chunk.append(line)
        size += len(line)
    if chunk:
        yield chunk


def pause_before_retry(wait: float, until: float) -> float:
    """Sleeps for `wait` seconds, times 0.5 to 1.5 at random, but not beyond `until`. Returns the next wait: twice as
    long, 1 second at most."""
    time.sleep(max(0.0, min(wait * random.uniform(0.5, 1.5), until - time.monotonic())))
    return min(LONGEST_WAIT, 2 * wait)
