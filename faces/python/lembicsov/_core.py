"""The library's producer, and the futures of its records. It has no thread and no socket, and its owner sees to it that one at a
time calls."""

from __future__ import annotations

import ctypes
import logging
import os
import time
import weakref
from functools import partial
from typing import Callable, Iterable, NamedTuple, Protocol, TypeVar

from ._futures import AnyFuture, Many, Pending, keeping
from ._given import as_addresses, as_blob, as_config, as_headers, as_partition, as_timestamp, moment, spell, spell_sent
from ._library import INT32, INT64, UINT64, Action, Handle, State, Status, Ticket, kp, native, words_of
from ._open import One, Open, Telling
from ._queue import SIZE, Queue
from ._values import ADVICE, BufferFull, Closed, Forked, NotReady, OpenFailed, Outcome
from ._values import ProducerError, Record, RecordRefused, RecordTooLarge, Report, Settings, Spent, Statistics

logger = logging.getLogger("lembicsov")

PIECE = 1 << 18  # How many bytes a call takes.
VALUES, VALUES_SIZE = 1024, 1 << 20  # How many values a call sends, and how many bytes of them.
LENGTH = 8  # How many bytes a length has.
CHARGE = SIZE + 128  # What a value in the queue takes of buffer_memory, at most.
ANY = INT32(-1)  # The partition of a record that names none.
NEVER = 2**64 - 1
SHORT, LONG = 0.001, 3600.0  # How many seconds to wait where memory was refused, and at most.

OnReport = Callable[[Report, Record], object]


class Plain(Protocol):
    """A connection over a socket alone."""

    node: int
    descriptor: int  # The socket's.
    out: bytes  # What was taken and not written.


P = TypeVar("P", bound=Plain)


class Told(NamedTuple):
    """What is to be told: reports, and flushes that are done with them; and how many reports have come, kept ones too."""

    reports: list[Telling]
    flushes: list[AnyFuture]
    come: int


def clock() -> int:
    """The clock of all calls on a producer."""
    return time.monotonic_ns() // 1_000_000


class Core:
    def __init__(
        self, bootstrap: str | Iterable[str], topic: str, client_id: str, on_report: OnReport | None, settings: Settings
    ) -> None:
        self.topic = topic
        self.is_forked = False
        self.failure: OpenFailed | None = None
        self.room = bytearray(PIECE)  # For what is taken, and what is read.
        self.queue = Queue()
        self.is_attended = False  # Somebody calls `hand_over` soon: what is sent may be queued.
        self.keeps = on_report is None  # Reports may be kept, and nobody is told.
        self._on_report = on_report
        self._is_opening = True
        self._is_short = False  # Memory was refused, and the call is to be made again.
        self._is_spent = False  # Each request was used, and no value is queued any more.
        self._ticked = 0  # When the last tick was.
        self._turn = 0  # The partition of the next values that are accepted together and name none.
        self._is_used = False  # A record was accepted.
        self._flushes: list[tuple[dict[int, int], AnyFuture]] = []  # With the counts of when they were asked for.
        self._behind: list[Callable[[], object]] = []  # What is called once the queue is empty.
        self._left: list[Telling] = []  # Who is to be told of values that were in the queue and are never sent.
        # What the library is to accept, until that is noted: for which partition, how many that has had, and whose it is. A partition
        # below 0 is the library's to choose.
        self._noting: tuple[int, int, list[One] | Many] | None = None
        self._is_closing = False
        # What the library writes to.
        self._producer, self._action, self._ticket, self._state = Handle(), Action(), Ticket(), State()
        self._open = Open(self._producer)
        self._size, self._accepted, self._port = ctypes.c_size_t(), ctypes.c_size_t(), ctypes.c_uint16()
        self._handle, self._ticket_at = ctypes.byref(self._producer), ctypes.byref(self._ticket)
        self._size_at, self._accepted_at = ctypes.byref(self._size), ctypes.byref(self._accepted)
        self._taken, self._room_at = memoryview(self.room), (ctypes.c_char * PIECE).from_buffer(self.room)
        self._at, self._room_place = ctypes.addressof(self._producer), ctypes.addressof(self._room_at)
        names = topic.encode(), client_id.encode(), as_addresses(bootstrap)
        slices = [argument for name in names for argument in (name, len(name))]
        seed = int.from_bytes(os.urandom(8), "little")
        self._config = as_config(settings)
        status = kp.kp_producer_new(self._handle, self._config, *slices, seed, clock())
        if status != Status.OK:
            raise (MemoryError if status == Status.OUT_OF_MEMORY else ValueError)(words_of(status))
        _cores.add(self)

    def check(self) -> None:
        """Tells a forked child that it may not call."""
        if self.is_forked:
            raise Forked("the producer is the parent process's: open one after the fork")

    def statistics(self) -> Statistics:
        self.hand_over()
        state = self._see()
        seen = state.buffer_used, state.requests_in_flight, state.nodes, state.partitions, state.refused
        return Statistics(self.open_records, *seen)

    @property
    def open_records(self) -> int:
        return len(self.queue.records) + self._open.records

    @property
    def is_flushing(self) -> bool:
        """Whether a flush is to be told that it is done."""
        return bool(self._flushes)

    def _see(self) -> State:
        kp.kp_producer_state(self._handle, self._state)
        return self._state

    # ---- connections

    def actions(self) -> list[tuple[int, int]]:
        """What is to be done next, each with its node."""
        actions, action = [], self._action
        while kp.kp_producer_next_action(self._handle, clock(), action) == Status.OK and action.kind != Action.NOTHING:
            actions.append((action.kind, action.node))
        return actions

    def address(self, node: int) -> tuple[str, int]:
        status = kp.kp_producer_address(self._handle, node, self._room_at, PIECE, self._size_at, self._port)
        if status != Status.OK:
            raise ProducerError(words_of(status))
        return bytes(self._taken[: self._size.value]).decode(), self._port.value

    def connected(self, node: int) -> bool:
        """Whether the connection is of use; where not, it is to be closed."""
        status: int = kp.kp_producer_connected(self._handle, node, clock())
        return status == Status.OK

    def lost(self, node: int) -> None:
        kp.kp_producer_lost(self._handle, node, clock())

    def take(self, node: int) -> memoryview:
        """What is to be written next, as long as the room is not used again; empty where there is nothing."""
        status = kp.kp_producer_take(self._handle, node, clock(), self._room_at, PIECE, self._size_at)
        self._note_taken(status)
        return self._taken[: self._size.value]

    def _note_taken(self, status: int) -> None:
        if status == Status.OUT_OF_MEMORY:
            self._is_short = True
        elif status != Status.OK and status != Status.NO_CONNECTION:
            raise ProducerError(words_of(status))

    def write_out(self, connections: list[P]) -> list[tuple[P, Exception | None]]:
        """Takes all that is to be written, and writes it: the connections whose `out` is not empty, or was not before, and those that
        have failed, with their faults. Only where there is `native`."""
        status, changed = native.write_out(self._at, clock(), self._room_place, PIECE, connections)
        self._note_taken(status)
        told: list[tuple[P, Exception | None]] = changed
        return told

    def read_in(self, connection: Plain) -> bool:
        """Reads and hears what has come: whether the connection has ended. Only where there is `native`."""
        has_ended: bool = native.read_in(self._at, clock(), self._room_place, PIECE, connection)
        return has_ended

    def feed(self, node: int, piece: bytes | None, size: int) -> None:
        """Hears what was read: a piece, or what is in the room. Where it is refused, an action closes the connection."""
        kp.kp_producer_feed(self._handle, node, self._room_at if piece is None else piece, size, clock())

    # ---- time

    def tick(self) -> bool:
        """Whether the producer has just become ready, or has failed to."""
        self._ticked = clock()
        kp.kp_producer_tick(self._handle, self._ticked)
        if not self._is_opening:
            return False
        state = self._see()
        self._is_opening = state.phase == State.OPENING
        if state.phase == State.FAILED:
            self.failure = OpenFailed(state.refused)
        return not self._is_opening

    def wait(self) -> float:
        """For how many seconds there is nothing to do, if no connection is ready before."""
        if self._is_short:
            self._is_short = False
            return SHORT
        # What has come due since the last tick is told too.
        due: int = kp.kp_producer_next_due(self._handle, self._ticked)
        return LONG if due == NEVER else min(max(due - clock(), 0) / 1000, LONG)

    # ---- records

    def send(self, record: One) -> int:
        """Has a record accepted: the status of that."""
        status = self.hand_over()
        if status == Status.OK and not (self.is_attended and self._queues(record)):
            status = self._send(record)
        return status

    def _queues(self, record: One) -> bool:
        """Begins to queue values with this one, as many as there surely is room for, where that may be: whether it has."""
        is_open = not (self._is_closing or self._is_spent)
        may_queue = self._is_used and is_open and self._config.max_request_size >= CHARGE
        if not may_queue or not isinstance(record.sent, bytes):
            return False
        self.queue.open((self._config.buffer_memory - self._see().buffer_used) // CHARGE)
        return self.queue.put(record, record.sent) is True

    def hand_over(self) -> int:
        """Has all in the queue accepted, for one partition: the status of the first that is refused."""
        if self._noting is not None:
            self._mend()
        queue = self.queue.close()
        if queue:
            ones = list(queue)
            status, _ = self._send_values(*spell_sent(ones), self._turn, self.queue.stamp, ones)
            if status == Status.OK:
                self._end_turn()
            elif status == Status.SPENT:
                self._is_spent = True
                self._leave_unsent(queue)
            else:
                self._is_short = self._is_short or status == Status.OUT_OF_MEMORY
                return status
        if self._behind:
            self._go_on_behind()
        return Status.OK

    def _leave_unsent(self, queue: list[One]) -> None:
        """Those in the queue are never sent."""
        report = Report(self._turn, None, Outcome.ENDED, ADVICE[Outcome.ENDED])
        left: list[Telling] = [(record, 0, report) for record in queue]
        self._left += left
        del queue[: len(left)]

    def _end_turn(self) -> None:
        """What comes next goes to the next partition."""
        self._turn = (self._turn + 1) % self._see().partitions

    def _go_on_behind(self) -> None:
        while self._behind:
            self._behind[0]()
            del self._behind[0]

    def send_next(self, many: Many) -> int:
        """Has the next of many values accepted, as many as one call takes: the status of the first that is refused.

        Where they name no partition all of the call go to one, and those of the next call to the next.
        """
        status = self.hand_over()
        if status != Status.OK:
            return status
        values = many.values[many.at : many.at + VALUES]
        text, lengths = spell(values)
        while len(values) > 1 and len(text) > VALUES_SIZE:
            values = values[: len(values) // 2]
            text, lengths = spell(values)
        place = self._turn if many.partition < 0 else many.partition
        status, accepted = self._send_values(text, lengths, place, many.timestamp, many)
        many.at += accepted
        if status == Status.OK and many.partition < 0:
            self._end_turn()
        return status

    def _send(self, record: One) -> int:
        status: int
        sent = record.sent
        if native is not None and type(sent) is bytes and type(record) is Pending:
            status = self._open.accept_value(record, moment(), clock())  # type: ignore[attr-defined]
            self._is_used = self._is_used or status == Status.OK
            return status
        value, key, partition, headers, timestamp = sent if isinstance(sent, Record) else (sent, None, None, (), None)
        key_blob, value_blob, asked = as_blob(key), as_blob(value), ANY if partition is None else INT32(as_partition(partition))
        words = *key_blob, *value_blob, *as_headers(headers), INT64(as_timestamp(timestamp)), UINT64(clock())
        self._ticket.number, self._noting = NEVER, (-1, 0, [record])
        status = kp.kp_producer_send(self._handle, asked, *words, self._ticket_at)
        self._is_used = self._note() > 0 or self._is_used
        self._noting = None
        return status

    def _send_values(self, text: bytes, lengths: bytes, place: int, stamp: int, whose: list[One] | Many) -> tuple[int, int]:
        """Has values accepted, as they are spelled: the status of the first that is refused, and how many were before it."""
        self._accepted.value, self._noting = 0, (place, self._open.count(place), whose)
        status = kp.kp_producer_send_batch(
            self._handle, place, text, len(text), lengths, len(lengths) // LENGTH, stamp, clock(), self._accepted_at,
        )
        accepted = self._note()
        self._noting = None
        return status, accepted

    def _note(self) -> int:
        """Notes what the library has accepted: how many. Where it was broken off and is made again it makes each step once."""
        if self._noting is None:
            return 0
        place, first, whose = self._noting
        if place < 0:
            place, first = self._ticket.partition, self._ticket.number
            accepted = int(first != NEVER)
        else:
            accepted = self._accepted.value
        if accepted > 0 and self._open.count(place) == first:
            self._open.put(place, whose, accepted)
        queue = self.queue.records
        if accepted > 0 and queue and isinstance(whose, list) and queue[0] is whose[0]:
            del queue[:accepted]
        return accepted

    def _mend(self) -> None:
        """Notes what a call has left that was broken off: what a signal's handler raises, as KeyboardInterrupt is, may come between
        any two steps of the main thread."""
        self._note()
        self._open.recount()
        self._noting = None

    def refusal(self, status: int) -> tuple[Exception, bool]:
        """What a send is told that is refused, and whether it may be accepted in a while."""
        if status == Status.BUFFER_FULL:
            kp.kp_producer_flush(self._handle)  # What lingers makes room only once it is sent.
            return BufferFull(words_of(status)), True
        if status == Status.OUT_OF_MEMORY:
            self._is_short = True
            return MemoryError(words_of(status)), True
        if status == Status.NOT_READY and self.failure is None:
            return NotReady(words_of(status)), True
        if status in (Status.NOT_READY, Status.CLOSED, Status.NO_PRODUCER):
            return self.failure or Closed(words_of(Status.CLOSED)), False
        if status == Status.SPENT:
            return Spent(words_of(status)), False
        return (RecordTooLarge if status == Status.TOO_LARGE else RecordRefused)(words_of(status)), False

    def flush(self, future: AnyFuture) -> None:
        """What was accepted goes out without lingering. The future is done once all of it is told."""
        self._behind.append(partial(self._flush, future))
        self.hand_over()

    def _flush(self, future: AnyFuture) -> None:
        kp.kp_producer_flush(self._handle)
        self._flushes.append((self._open.counts(), future))

    def close(self) -> None:
        """No record is accepted any more, and all that were go out."""
        self._is_closing = True
        self._behind.append(partial(kp.kp_producer_close, self._handle))
        self.hand_over()

    def end(self) -> Told:
        """Gives up what is left, so that each record that is open has its report, and frees the producer."""
        self._is_closing = True
        if self.hand_over() != Status.OK:  # Memory was refused.
            self._leave_unsent(self.queue.close())
            self._go_on_behind()
        kp.kp_producer_end(self._handle)
        told = self.fetch()
        kp.kp_producer_free(self._handle)
        self._state = State()
        return told

    # ---- reports

    def fetch(self) -> Told:
        """What has come to be told, by `settle`, once the core's owner holds no lock."""
        telling, self._left = self._left, []
        come = len(telling) + self._open.records
        with keeping:
            telling += self._open.fetch(self.keeps)
        come -= self._open.records
        done: list[AnyFuture] = []
        if self._flushes:
            done = [future for counts, future in self._flushes if self._open.is_past(counts)]
            self._flushes = [flush for flush in self._flushes if flush[1] not in done]
        return Told(telling, done, come)

    def fetch_kept(self) -> None:
        """Has those futures keep their reports that may. What else has come `fetch` tells of. Only where there is `native`."""
        with keeping:
            self._open.fetch_runs(self.keeps)

    def settle(self, told: Told) -> None:
        for owner, number, report in told.reports:
            if self._on_report is not None:
                try:
                    self._on_report(report, owner.record(number))
                except Exception:
                    logger.exception("on_report failed")
            owner.tell(number, report)
        for future in told.flushes:
            if not future.done():
                future.set_result(None)


_cores: weakref.WeakSet[Core] = weakref.WeakSet()


def _tell_forked() -> None:
    for core in _cores:
        core.is_forked = True
        core.queue.close()


os.register_at_fork(after_in_child=_tell_forked)


def tell_unclosed(core: Core) -> None:
    """What is told of a producer that was not closed."""
    if not core.is_forked:
        logger.warning("the producer of topic %s was not closed: %d records had no report", core.topic, core.open_records)
