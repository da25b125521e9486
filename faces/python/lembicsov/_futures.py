"""Who awaits the reports of records: futures, of one record each or of many."""

from __future__ import annotations

import asyncio
import os
import threading
import time
from bisect import bisect
from concurrent.futures import Future, TimeoutError
from concurrent.futures._base import FINISHED, PENDING
from typing import Any, Callable, Iterable, Iterator, Protocol, Sequence, Tuple, Union, overload

from ._given import as_bytes, as_partition, as_timestamp
from ._library import native
from ._values import NOT_DELIVERED, Bytes, NotDelivered, Outcome, Record, RecordTooLarge, Report, SomeNotDelivered
from ._waiting import hold_back, let_go

Sent = Union[bytes, Record]  # A value alone, or a record that is more than that.
# Reports of values one after the other, to one partition and with offsets that go up by one: the first place, how many, the first.
Run = Tuple[int, int, Report]
AnyFuture = Union["Future[Any]", "asyncio.Future[Any]"]

DELIVERED = Outcome.DELIVERED
# In place of a partition: no report was kept, and nobody has begun to wait for it, or only for its result, or for more.
ALONE, AWAITED, WATCHED = -1, -2, -3

# Who keeps reports has it, and so has whoever begins to wait for a future, and who refuses some of many values.
keeping = threading.RLock()
os.register_at_fork(before=keeping.acquire, after_in_parent=keeping.release, after_in_child=keeping.release)


def fault_of(report: Report) -> type[NotDelivered] | None:
    return None if report.outcome is DELIVERED else NOT_DELIVERED.get(report.outcome)


new = tuple.__new__  # It makes a report in half the time of its own way.


def delivered(partition: int, offset: int) -> Report:
    return new(Report, (partition, offset, DELIVERED, "", 0))


def behind(first: Report, k: int) -> Report:
    """The report that is so many behind the first of a run, with k above 0."""
    return delivered(first.partition, (first.offset or 0) + k)


def record_of(sent: Sent) -> Record:
    return sent if isinstance(sent, Record) else Record(sent)


def tell(future: AnyFuture, report: Report, sent: Sent) -> None:
    """Has the future of a record done."""
    if future.done():
        return  # The task that awaited it was cancelled.
    fault = fault_of(report)
    if fault is None:
        future.set_result(report)
    else:
        future.set_exception(fault(report, record_of(sent)))


class Server(Protocol):
    """Who may be served by those that wait, in the place of a thread."""

    def serve(self, future: Any, until: float) -> bool: ...


class Watched:
    """An attribute of a future that is made, with the others of this kind, once it is looked at."""

    def __set_name__(self, kind: type, name: str) -> None:
        self._name = name

    def __get__(self, future: Awaited | None, kind: type) -> Any:
        if future is None:
            return self
        future.watch()
        return future.__dict__[self._name]


class Awaited(Future):  # type: ignore[type-arg]
    """What comes of what was accepted, which nobody can call back; of a record that is its report.

    Most are done before anybody waits for them. So what it takes to wait is made only where somebody begins to, under `keeping`:
    for those that wait for the result alone these are locks, for any other all that a future has. Before that a report is kept by two
    assignments (`_open.keep`, `keep`), and is made from them where it is asked for.
    """

    __slots__ = ()
    sent: Any  # What was sent, until it is told, and behind a report that was kept its offset.
    _partition: int  # That of the report that was kept.
    _stage: str = PENDING  # The state, where no report was kept.
    _exception: BaseException | None = None
    _given: Any = None  # The result, where no report was kept.
    _held_back: list[threading.Lock] | None = None  # Those that wait for the result alone.
    server: Callable[[], Server | None] | None = None  # Who may be served in place of waiting.
    _condition: Any = Watched()
    _waiters: Any = Watched()
    _done_callbacks: Any = Watched()
    __init__ = object.__init__  # That of futures would make all of it at once, and one in Python takes as long as the rest.

    def watch(self) -> None:
        with keeping:
            if self._partition < 0:
                self._partition = WATCHED
            if "_condition" not in self.__dict__:
                self.__dict__.update(_condition=threading.Condition(), _waiters=[], _done_callbacks=[])

    def _wait(self, timeout: float | None) -> None:
        """Waits until it is done, where all who wait do so for the result alone."""
        with keeping:
            if self._partition == ALONE:
                self._partition = AWAITED
        server = self.server() if self.server is not None else None
        if server is not None and server.serve(self, time.monotonic() + (threading.TIMEOUT_MAX if timeout is None else timeout)):
            return
        with keeping:
            if self._held_back is None:
                self._held_back = []
            if self._partition != AWAITED:
                return
            turn = hold_back(self._held_back)
        if not turn.acquire(timeout=-1 if timeout is None else min(max(timeout, 0.0), threading.TIMEOUT_MAX)):
            with keeping:
                if turn in self._held_back:
                    self._held_back.remove(turn)

    @property
    def _state(self) -> str:
        return self._stage if self._partition < 0 else FINISHED

    @_state.setter
    def _state(self, state: str) -> None:
        self._stage = state

    @property
    def _result(self) -> Any:
        return self._given if self._partition < 0 else delivered(self._partition, self.sent)

    @_result.setter
    def _result(self, result: Any) -> None:
        self._given = result

    def set_result(self, result: Any) -> None:
        super().set_result(result)
        self._wake()

    def set_exception(self, exception: BaseException | None) -> None:
        super().set_exception(exception)
        self._wake()

    def _wake(self) -> None:
        with keeping:
            if self._held_back:  # (nobody begins to wait for the result alone any more)
                let_go(self._held_back)

    def is_awaited(self) -> bool:
        """Whether it is not done, and those who wait do so for the result alone."""
        return self._partition == AWAITED

    def cancel(self) -> bool:
        return False

    def done(self) -> bool:
        return self._state == FINISHED

    def result(self, timeout: float | None = None) -> Any:
        partition = self._partition
        if partition == ALONE or partition == AWAITED:
            begun = time.monotonic()
            self._wait(timeout)
            partition = self._partition
            if partition == AWAITED:
                raise TimeoutError
            timeout = None if timeout is None else timeout - (time.monotonic() - begun)
        return super().result(timeout) if partition < 0 else new(Report, (partition, self.sent, DELIVERED, "", 0))

    def exception(self, timeout: float | None = None) -> BaseException | None:
        return self._exception if self._state == FINISHED else super().exception(timeout)

    # ---- as the owner of a record

    def record(self, number: int) -> Record:
        return record_of(self.sent)

    def keep(self, number: int, partition: int, offset: int, count: int) -> int:
        """Keeps the report of what was delivered, where all who wait do so for the result alone: whether it has, as 1 or 0. The caller
        has `keeping`."""
        if self._partition == WATCHED:
            return 0
        self.sent, self._partition = offset, partition
        if self._held_back:
            let_go(self._held_back)
        return 1

    def tell(self, number: int, report: Report) -> None:
        if report.outcome is DELIVERED and report.offset is not None:
            with keeping:
                if self.keep(number, report.partition, report.offset, 1):
                    return
        sent, self.sent = self.sent, b""
        tell(self, report, sent)


class Pending(Awaited):
    """With what each has, which is faster in slots than in a dictionary."""

    __slots__ = "sent", "_partition"


def pending(sent: Any) -> Pending:
    """A future of what was sent, for which nobody waits yet."""
    future: Pending = Pending()
    future.sent, future._partition = sent, ALONE
    return future


if native is not None:
    Pending = native.futures(Awaited, Report, DELIVERED)  # type: ignore[misc]
    pending = native.pending


class Single:
    """A record, whose report is the result of a future of asyncio."""

    __slots__ = ("_future", "sent")

    def __init__(self, future: asyncio.Future[Report], sent: Sent) -> None:
        self._future = future
        self.sent = sent

    def record(self, number: int) -> Record:
        return record_of(self.sent)

    def keep(self, number: int, partition: int, offset: int, count: int) -> int:
        return 0  # Futures of asyncio are told by their loop.

    def tell(self, number: int, report: Report) -> None:
        tell(self._future, report, self.sent)


class Reports(Sequence[Report]):
    """Reports in order, each of which is made when it is looked at, so that a million of them take hardly any memory."""

    def __init__(self, runs: list[Run]) -> None:
        self._runs = sorted(runs)
        self._places = [run[0] for run in self._runs]

    def __len__(self) -> int:
        return sum(self._runs[-1][:2]) if self._runs else 0

    @overload
    def __getitem__(self, place: int) -> Report: ...

    @overload
    def __getitem__(self, place: slice) -> list[Report]: ...

    def __getitem__(self, place: int | slice) -> Report | list[Report]:
        places = range(len(self))[place]
        if isinstance(places, range):
            return [self[it] for it in places]
        at, _, first = self._runs[bisect(self._places, places) - 1]
        return behind(first, places - at) if places > at else first

    def __iter__(self) -> Iterator[Report]:
        for _, count, first in self._runs:
            yield first
            for k in range(1, count):
                yield behind(first, k)

    def __eq__(self, other: object) -> bool:
        return isinstance(other, Sequence) and list(self) == list(other)

    def __repr__(self) -> str:
        return repr(list(self))


class Many:
    """Values that are sent together, whose reports are a future's result once all are told."""

    def __init__(self, future: AnyFuture, values: Iterable[Bytes], partition: int | None, timestamp: int | None) -> None:
        self.future = future
        self.values: list[Any] = list(values)
        if set(map(type, self.values)) - {bytes}:
            self.values = [as_bytes(value) for value in self.values]
        self.partition, self.timestamp = as_partition(partition), as_timestamp(timestamp)
        self.at = 0  # So many were accepted or refused.
        self._asked = partition, timestamp
        self._untold = len(self.values)
        self._runs: list[Run] = []  # The reports that have come.
        self._errors: dict[int, Exception] = {}  # By place.
        if self._untold == 0:
            future.set_result(Reports([]))

    def record(self, place: int) -> Record:
        return Record(self.values[place], None, self._asked[0], (), self._asked[1])

    def keep(self, place: int, count: int, first: Report) -> int:
        """Has the reports of so many values one after the other, but not the last report of all: how many. The caller has
        `keeping`."""
        kept = min(count, self._untold - 1)
        if kept > 0:
            self._untold -= kept
            self._runs.append((place, kept, first))
        return kept

    def tell(self, place: int, report: Report) -> None:
        fault = fault_of(report)
        self._count(1, {} if fault is None else {place: fault(report, self.record(place))}, [(place, 1, report)])

    def refuse(self, error: Exception) -> None:
        """The next value is refused, and so are all behind it, where it is not for its size."""
        places = range(self.at, self.at + 1 if isinstance(error, RecordTooLarge) else len(self.values))
        self.at = places.stop
        self._count(len(places), dict.fromkeys(places, error), [])

    def _count(self, told: int, errors: dict[int, Exception], runs: list[Run]) -> None:
        with keeping:
            self._untold -= told
            self._errors.update(errors)
            self._runs += runs
            if self._untold > 0 or self.future.done():
                return
        if not self._errors:
            return self.future.set_result(Reports(self._runs))
        reports: list[Report | None] = [None] * len(self.values)
        for at, count, first in self._runs:
            reports[at : at + count] = [first, *(behind(first, k) for k in range(1, count))]
        self.future.set_exception(SomeNotDelivered(reports, dict(sorted(self._errors.items()))))


class Part:
    """Those of many values that one call accepted, so many, for a partition, from this number on."""

    def __init__(self, many: Many, first: int, count: int) -> None:
        self.end = first + count
        self._many = many
        self._shift = many.at - first  # From a number to the place among the many.

    def record(self, number: int) -> Record:
        return self._many.record(number + self._shift)

    def keep(self, number: int, partition: int, offset: int, count: int) -> int:
        return self._many.keep(number + self._shift, count, delivered(partition, offset))

    def tell(self, number: int, report: Report) -> None:
        self._many.tell(number + self._shift, report)
