"""The producer over the loop of asyncio."""

from __future__ import annotations

import asyncio
import logging
import socket
import weakref
from functools import partial
from ssl import SSLContext
from typing import TYPE_CHECKING, Any, Callable, Iterable, Sequence, TypeVar, cast

from ._core import SHORT, Core, OnReport, tell_unclosed
from ._futures import Many, Single
from ._given import as_bytes
from ._library import Action, Status
from ._values import Bytes, Headers, ProducerError, Record, Report, Settings, Statistics

if TYPE_CHECKING:
    from typing_extensions import Self, Unpack

logger = logging.getLogger("lembicsov")

Sending = TypeVar("Sending")


class Connection(asyncio.Protocol):
    """A node's connection that is open."""

    def __init__(self, producer: AsyncProducer, node: int) -> None:
        self.producer, self.node = producer, node
        self.takes_bytes = True
        self.has_ended = asyncio.Event()

    def connection_made(self, transport: asyncio.BaseTransport) -> None:
        self.transport = cast(asyncio.Transport, transport)
        transport.get_extra_info("socket").setsockopt(socket.SOL_SOCKET, socket.SO_KEEPALIVE, 1)
        self.producer._opened(self)

    def data_received(self, data: bytes) -> None:
        self.producer._heard(self, as_bytes(data))

    def pause_writing(self) -> None:
        self.takes_bytes = False

    def resume_writing(self) -> None:
        self.takes_bytes = True
        self.producer._soon()

    def connection_lost(self, error: Exception | None) -> None:
        self.has_ended.set()
        self.producer._ended(self, error)


class AsyncProducer:
    """A producer of one topic over the running loop of asyncio, with no thread. What its arguments are, `Producer` says.

    `on_report` is called in the loop. A task that is cancelled while it awaits a report does not call its record back.
    """

    def __init__(
        self, bootstrap: str | Iterable[str], topic: str, *, ssl: SSLContext | None = None, on_report: OnReport | None = None,
        max_block: float = 60.0, connect_timeout: float = 10.0, client_id: str = "lembicsov", **settings: Unpack[Settings]
    ) -> None:
        self._loop = asyncio.get_running_loop()
        self._core = Core(bootstrap, topic, client_id, on_report, settings)
        self._ssl, self._max_block, self._connect_timeout = ssl, max_block, connect_timeout
        self._dials: dict[int, asyncio.Task[None]] = {}  # By node, of the connections that are being opened.
        self._connections: dict[int, Connection] = {}  # By node, those that are open.
        self._transports: set[Connection] = set()  # Those that have not ended, of use or not.
        self._waiting = 0  # How many sends wait for room.
        self._gate = asyncio.Lock()  # The first of them has it, and the others wait for it, in order.
        self._changed = asyncio.Event()  # There may be room.
        self._refusal: Exception = ProducerError()  # The last one.
        self._done = asyncio.Event()
        self._is_closing = False
        self._is_soon = False  # The handle is of a turn that comes at once, and not of one that is due later.
        self._handle: asyncio.Handle = self._loop.call_soon(self._turn)
        self._unclosed = weakref.finalize(self, tell_unclosed, self._core)

    async def send(
        self, value: Bytes | None, *, key: Bytes | None = None, partition: int | None = None, headers: Headers = (),
        timestamp: int | None = None
    ) -> Report:
        """Sends a record, and gives its report, or raises a `NotDelivered`."""
        return await (await self.enqueue(value, key=key, partition=partition, headers=headers, timestamp=timestamp))

    async def enqueue(
        self, value: Bytes | None, *, key: Bytes | None = None, partition: int | None = None, headers: Headers = (),
        timestamp: int | None = None
    ) -> asyncio.Future[Report]:
        """Waits only until the record is accepted: the future's result is its report, or its exception a `NotDelivered`."""
        report: asyncio.Future[Report] = self._loop.create_future()
        if key is None and partition is None and timestamp is None and not headers and type(value) is bytes:
            record = Single(report, value)
            if self._waiting == 0 and self._core.queue.put(record, value):
                return report
        else:
            record = Single(report, Record(value, key, partition, headers, timestamp))
        await self._accept(self._core.send, record)
        return report

    async def send_many(
        self, values: Iterable[Bytes], *, partition: int | None = None, timestamp: int | None = None
    ) -> Sequence[Report]:
        """Sends values without keys by a few calls, and gives the sequence of their reports, or raises `SomeNotDelivered`."""
        many = Many(self._loop.create_future(), values, partition, timestamp)
        while many.at < len(many.values):
            try:
                await self._accept(self._core.send_next, many)
            except (ProducerError, MemoryError) as error:
                many.refuse(error)
        return cast("Sequence[Report]", await many.future)  # type: ignore[misc]

    async def flush(self, timeout: float | None = None) -> bool:
        """Sends without lingering what was accepted, and waits until all of it has its report: whether it has."""
        self._core.check()
        if self._done.is_set():
            return True
        flushed: asyncio.Future[Any] = self._loop.create_future()
        self._core.flush(flushed)
        self._soon()
        try:
            await asyncio.wait_for(flushed, timeout)
        except asyncio.TimeoutError:
            return False
        return True

    async def close(self, timeout: float | None = None) -> None:
        """Accepts no more, waits for so many seconds at most until all that was accepted has its report, and gives up what is left:
        each future is done then."""
        self._core.check()
        self._core.close()
        self._is_closing = True
        self._changed.set()
        self._soon()
        try:
            await asyncio.wait_for(self._done.wait(), timeout)
        except asyncio.TimeoutError:
            pass
        finally:
            self._end()
            self._unclosed.detach()
        for connection in list(self._transports):
            await connection.has_ended.wait()

    def statistics(self) -> Statistics:
        """What is to be seen of it."""
        self._core.check()
        return self._core.statistics()

    async def __aenter__(self) -> Self:
        return self

    async def __aexit__(self, *_: object) -> None:
        await self.close()

    # ---- what is sent

    async def _accept(self, attempt: Callable[[Sending], int], what: Sending) -> None:
        """Attempts to send it, behind those that wait, until that is accepted or has been refused for `max_block` seconds."""
        self._core.check()
        if self._waiting == 0 and self._is_accepted(attempt, what):
            return
        self._waiting += 1
        try:
            await asyncio.wait_for(self._accept_in_turn(attempt, what), self._max_block)
        except asyncio.TimeoutError:
            raise self._refusal from None
        finally:
            self._waiting -= 1

    async def _accept_in_turn(self, attempt: Callable[[Sending], int], what: Sending) -> None:
        async with self._gate:
            while not self._is_accepted(attempt, what):
                if isinstance(self._refusal, MemoryError):
                    await asyncio.sleep(SHORT)  # Nothing tells when there is memory again.
                else:
                    self._changed.clear()
                    await self._changed.wait()

    def _is_accepted(self, attempt: Callable[[Sending], int], what: Sending) -> bool:
        self._core.is_attended = self._is_soon
        status = attempt(what)
        self._soon()
        if status == Status.OK:
            return True
        self._refusal, may_wait = self._core.refusal(status)
        if not may_wait:
            raise self._refusal
        return False

    # ---- the loop

    def _soon(self) -> None:
        """Something changed: there is a turn once the loop has heard what there is to hear."""
        if not self._is_soon:
            self._is_soon = True
            self._handle.cancel()
            self._handle = self._loop.call_soon(self._turn)

    def _turn(self) -> None:
        self._handle.cancel()
        self._is_soon = False
        if self._done.is_set():
            return
        try:
            before = self._core.open_records
            self._core.hand_over()
            has_changed = self._core.tick()
            self._act()
            told = self._core.fetch()
            # Who waits for room looks again only then: a refused look asks for a turn, and they would take turns without end.
            if has_changed or self._core.open_records < before:
                self._changed.set()
            self._core.settle(told)
        except Exception:
            logger.exception("the producer of topic %s has failed", self._core.topic)
            return self._end()
        if self._core.failure is not None or (self._is_closing and self._core.open_records == 0):
            return self._end()
        if not self._is_soon:
            self._handle = self._loop.call_later(self._core.wait(), self._turn)

    def _act(self) -> None:
        """Connects and closes as the library asks, and writes what it gives."""
        for kind, node in self._core.actions():
            if kind == Action.CONNECT:
                self._dials[node] = self._loop.create_task(self._dial(node))
            else:
                self._lose(node, "it is of no use")
        for node, connection in list(self._connections.items()):
            while connection.takes_bytes and (out := self._core.take(node)):
                connection.transport.write(bytes(out))

    def _end(self) -> None:
        if self._done.is_set():
            return
        self._done.set()
        for node in [*self._connections, *self._dials]:
            self._lose(node, "the producer has ended")
        self._core.settle(self._core.end())
        self._changed.set()

    # ---- connections

    async def _dial(self, node: int) -> None:
        host, port = self._core.address(node)
        made = self._loop.create_connection(partial(Connection, self, node), host, port, ssl=self._ssl)
        try:
            await asyncio.wait_for(made, self._connect_timeout)
        except Exception as error:
            if self._dials.get(node) is asyncio.current_task():
                self._lose(node, str(error) or "it took too long to open")

    def _opened(self, connection: Connection) -> None:
        node = connection.node
        self._transports.add(connection)
        if self._dials.pop(node, None) is None:
            return connection.transport.abort()  # It was given up while it was opened.
        self._connections[node] = connection
        self._soon()
        if not self._core.connected(node):
            self._lose(node, "memory was refused")

    def _heard(self, connection: Connection, piece: bytes) -> None:
        if self._connections.get(connection.node) is connection:
            self._core.feed(connection.node, piece, len(piece))
            self._turn()

    def _ended(self, connection: Connection, why: object) -> None:
        self._transports.discard(connection)
        if self._connections.get(connection.node) is connection:
            self._lose(connection.node, why or "the broker has ended it")

    def _lose(self, node: int, why: object) -> None:
        logger.info("no connection to node %d: %s", node, why)
        connection, dial = self._connections.pop(node, None), self._dials.pop(node, None)
        if connection is not None:
            connection.transport.abort()
        if dial is not None and dial is not asyncio.current_task():
            dial.cancel()
        self._core.lost(node)
        self._soon()
