"""The producer with a thread of its own."""

from __future__ import annotations

import concurrent.futures
import threading
import weakref
from ssl import SSLContext
from typing import TYPE_CHECKING, Iterable, Sequence

from ._core import Core, OnReport
from ._futures import Many, Pending, pending
from ._host import Host
from ._library import native
from ._values import Bytes, Headers, ProducerError, Record, Report, Settings, Statistics

if TYPE_CHECKING:
    from typing_extensions import Self, Unpack


class Producer:
    """A producer of one topic, for any threads, with a thread of its own.

    `bootstrap` has brokers' addresses, as "host:port,host:port" or one by one; with `ssl` connections have TLS. `on_report` is
    called in the producer's thread, as the futures' callbacks are, with each report and its record; none of these may wait for the
    producer. `send` waits for `max_block` seconds where there is no room, and a connection has `connect_timeout` seconds to open.
    """

    def __init__(
        self, bootstrap: str | Iterable[str], topic: str, *, ssl: SSLContext | None = None, on_report: OnReport | None = None,
        max_block: float = 60.0, connect_timeout: float = 10.0, client_id: str = "lembicsov", **settings: Unpack[Settings]
    ) -> None:
        self._core = Core(bootstrap, topic, client_id, on_report, settings)
        self._host = Host(self._core, ssl, connect_timeout)
        self._max_block = max_block
        if native is not None:
            self._queued = self._core.queue.put_value  # type: ignore[assignment, attr-defined]
        self._unclosed = weakref.finalize(self, self._host.abandon)
        self._host.thread.start()

    def send(
        self, value: Bytes | None, *, key: Bytes | None = None, partition: int | None = None, headers: Headers = (),
        timestamp: int | None = None
    ) -> concurrent.futures.Future[Report]:
        """Sends a record: the future's result is its report, or its exception a `NotDelivered`.

        Without a partition it goes to that of its key, and without a key to each in turn; of values alone those that come together in a
        millisecond go to one. The timestamp is in milliseconds since 1970, or now. A record that is not accepted, after `max_block`
        seconds at most, is told by an exception at once.
        """
        if key is None and partition is None and timestamp is None and not headers and type(value) is bytes:
            report = self._queued(value)
            if report is not None:
                return report
            report = pending(value)
        else:
            report = pending(Record(value, key, partition, headers, timestamp))
        self._core.check()
        if native is not None:
            report.server = self._host.itself
        self._host.accept(self._core.send, report, self._max_block)
        return report

    def send_many(
        self, values: Iterable[Bytes], *, partition: int | None = None, timestamp: int | None = None
    ) -> concurrent.futures.Future[Sequence[Report]]:
        """Sends values without keys by a few calls: the future's result is the sequence of their reports, or its exception
        `SomeNotDelivered`, also where not all are accepted. Without a partition some go to one, and others to the next."""
        self._core.check()
        many = Many(pending(b""), values, partition, timestamp)
        while many.at < len(many.values):
            try:
                self._host.accept(self._core.send_next, many, self._max_block)
            except (ProducerError, MemoryError) as error:
                many.refuse(error)
        return many.future  # type: ignore[return-value]

    def flush(self, timeout: float | None = None) -> bool:
        """Sends without lingering what was accepted, and waits until all of it has its report: whether it has."""
        self._check()
        try:
            self._host.flush().result(timeout)
        except concurrent.futures.TimeoutError:
            return False
        return True

    def close(self, timeout: float | None = None) -> None:
        """Accepts no more, waits for so many seconds at most until all that was accepted has its report, and gives up what is left:
        each future is done then."""
        self._check()
        self._host.close(timeout)
        self._unclosed.detach()

    def statistics(self) -> Statistics:
        """What is to be seen of it."""
        self._core.check()
        return self._host.statistics()

    def _queued(self, value: bytes) -> Pending | None:
        """The future of a value alone that is put into the queue, where that may be."""
        report = pending(value)
        is_queued = self._core.queue.put(report, value)
        return report if is_queued or (is_queued is None and not self._host.withdraw(report)) else None

    def _check(self) -> None:
        self._core.check()
        if threading.current_thread() is self._host.thread:
            raise RuntimeError("the producer's thread can't wait for itself")

    def __enter__(self) -> Self:
        return self

    def __exit__(self, *_: object) -> None:
        self.close()
