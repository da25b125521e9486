"""A thread that moves the bytes of a producer between the library and sockets."""

from __future__ import annotations

import contextlib
import errno
import logging
import select
import socket
import threading
import time
import weakref
from ssl import SSLContext, SSLSocket, SSLWantReadError, SSLWantWriteError
from typing import Any, Callable, Tuple, TypeVar

from ._core import SHORT, Core, Told, tell_unclosed
from ._futures import Pending, pending
from ._library import Action, Status, native
from ._values import ProducerError, Statistics
from ._waiting import hold_back, let_go

logger = logging.getLogger("lembicsov")

READ, WRITE = select.EPOLLIN, select.EPOLLOUT
FIRST = getattr(select, "EPOLLEXCLUSIVE", 0)  # Of those that wait for a socket the first is woken, of those that wait now.
WAITS = BlockingIOError, InterruptedError, SSLWantReadError, SSLWantWriteError
Sending = TypeVar("Sending")
Event = Tuple[int, int]  # A descriptor, and what has come of it.
MOMENT = 0.001  # For how many seconds the thread leaves what is not urgent.
NAP = 1.0  # How many seconds the thread sleeps at most: nearly nothing is due before it wakes by itself.


class Connection:
    """To a node: its name is looked up, it is connected to, shakes hands where there is TLS, and then is open."""

    def __init__(self, node: int, host: str, port: int, until: float) -> None:
        self.node, self.host, self.port = node, host, port
        self.until = until  # It is to be open before this moment.
        self.addresses: list[Any] = []  # Those that were not tried, as getaddrinfo has them.
        self.socket: socket.socket | None = None
        self.events = 0  # What the socket is watched for.
        self.descriptor = -1  # The socket's.
        self.is_open = False
        self.out = b""  # What was taken and not written.

    def look_up(self, flags: int = 0) -> None:
        self.addresses = list(socket.getaddrinfo(self.host, self.port, type=socket.SOCK_STREAM, flags=flags))


class Waiting:
    """Waits for sockets, and for being woken."""

    def __init__(self, how: int = 0) -> None:
        self.sockets = select.epoll()
        self._waker, self._woken = socket.socketpair()
        self._waker.setblocking(False)
        self._woken.setblocking(False)
        self.sockets.register(self._woken, READ | how)
        self._call = self._woken.fileno(), READ  # What comes of it where it was woken.

    def wait(self, timeout: float) -> list[Event]:
        """What has come of sockets within so many seconds, and nothing where it was woken."""
        ready: list[Event] = self.sockets.poll(max(0.0, timeout))
        if self._call in ready:
            ready.remove(self._call)
            with contextlib.suppress(BlockingIOError):  # Another that waits by it has heard it.
                self._woken.recv(1024)
        return ready

    def wake(self) -> None:
        with contextlib.suppress(OSError):  # It was woken so often, or is closed.
            self._waker.send(b"\0")

    def close(self) -> None:
        self.sockets.close()
        self._waker.close()
        self._woken.close()


def waiting_first() -> Waiting | None:
    """One that is woken in place of another; none where the system can't."""
    try:
        return Waiting(FIRST) if FIRST else None
    except OSError:
        return None


class Host:
    """Calls the library: its thread moves the bytes and tells the reports, and others send, in turn by a lock."""

    def __init__(self, core: Core, ssl: SSLContext | None, connect_timeout: float) -> None:
        self.core = core
        self.thread = threading.Thread(target=self._run, name=f"lembicsov {core.topic}", daemon=True)
        self._ssl, self._connect_timeout = ssl, connect_timeout
        self._is_native = native is not None and ssl is None  # What TLS has to do is in Python.
        self._lock = threading.RLock()  # It is taken once at a time: `_check` tells who would take it twice.
        self._held_back: list[threading.Lock] = []  # Those that were refused for a while.
        self._closing: list[threading.Lock] = []  # Those that wait for the end.
        self._connections: dict[int, Connection] = {}
        self._open: list[Connection] = []
        self._torn: Connection | None = None  # Something was taken that is neither written nor in `out` yet, or it is not lost yet.
        self._looked_up: list[Connection] = []
        self._is_closing = self._is_ending = self._has_ended = False
        self._is_over = False  # All that there was is told, too.
        self._is_asleep = False  # The thread waits, and nobody has woken it.
        self._is_helped = False  # Another has written for it meanwhile.
        self._until = 0.0  # When it wakes by itself.
        self._waiting = Waiting()  # The thread.
        self._watched: dict[int, Connection] = {}  # By descriptor.
        # Who waits for the only report that is to come reads it in the thread's place, so that the two need not change places.
        self._standing_in = waiting_first() if self._is_native else None
        self._waiters = [self._waiting, *([self._standing_in] if self._standing_in else [])]
        self._awaited: Pending | None = None  # Whose report it is.
        self._was_helped_out = False  # Somebody stood in, and may have left something.
        self.itself = weakref.ref(self)

    # ---- for other threads

    def _check(self) -> None:
        """Tells a signal's handler, or what else the interpreter calls in the midst of a call of this thread, that it may not call."""
        if self._lock._is_owned():  # type: ignore[attr-defined]
            raise RuntimeError("a signal's handler has called the producer in the midst of a call: let it raise, or set a flag")

    def accept(self, attempt: Callable[[Sending], int], what: Sending, max_block: float) -> None:
        """Attempts to send it until that is accepted, or has been refused for so many seconds."""
        self._check()
        until = 0.0
        turn: threading.Lock | None = None
        while True:
            with self._lock:
                try:
                    status = attempt(what)
                    if status == Status.OK:
                        if self._is_asleep:
                            self._send_off()
                        return
                    error, may_wait = self.core.refusal(status)
                    self._wake()
                    now = time.monotonic()
                    until = until or now + max_block
                    if not may_wait or now >= until or threading.current_thread() is self.thread:
                        raise error
                    turn = hold_back(self._held_back, turn)
                except BaseException:
                    self._wake()  # What a signal's handler has broken off is the thread's to mend.
                    raise
            turn.acquire(timeout=SHORT if status == Status.OUT_OF_MEMORY else min(until - now, threading.TIMEOUT_MAX))

    def withdraw(self, record: Pending) -> bool:
        """Takes a record out of the queue, where it is still in it: whether it was."""
        self._check()
        with self._lock:
            return self.core.queue.withdraw(record)

    def serve(self, future: Pending, until: float) -> bool:
        """Waits, until this moment at most, for the report of a future that is the only one that is open, in the place of the thread,
        which sleeps on: whether it did. What else there is to do than to read and to note that report is left to the thread."""
        if self._standing_in is None or self.core.is_forked or self._lock._is_owned():  # type: ignore[attr-defined]
            return False
        with self._lock:
            if self._awaited is not None or self.core.open_records != 1 or not (self._is_asleep and self.core.keeps):
                return False
            self._awaited, self._was_helped_out = future, True
        try:
            while future.is_awaited() and (left := until - time.monotonic()) > 0:
                ready = self._standing_in.wait(min(left, NAP))
                with self._lock:
                    self._stand_in(ready)
        except BaseException:
            self._waiting.wake()  # What a signal's handler has broken off is the thread's to mend.
            raise
        finally:
            self._awaited = None
        return True

    def _stand_in(self, ready: list[Event]) -> None:
        """Hears what has come, and has those keep their reports that may."""
        for descriptor, events in ready:
            self._hear(descriptor, events)
        self.core.fetch_kept()
        if self.core.open_records > 0 or self.core.is_flushing or self._is_closing:
            self._wake()
        elif ready:
            self._is_helped = False
            let_go(self._held_back)

    def flush(self) -> Pending:
        self._check()
        flushed = pending(b"")
        with self._lock:
            if not self._has_ended:
                self.core.flush(flushed)
                self._wake()
                return flushed
        flushed.set_result(None)
        return flushed

    def statistics(self) -> Statistics:
        self._check()
        with self._lock:
            return self.core.statistics()

    def close(self, timeout: float | None) -> None:
        self._check()
        with self._lock:
            self.core.close()
            self._is_closing = True
            self._wake()
        self._await_end(threading.TIMEOUT_MAX if timeout is None else timeout)
        with self._lock:
            self._is_ending = True
            self._wake()
        self._await_end(threading.TIMEOUT_MAX)
        self.thread.join()

    def _await_end(self, timeout: float) -> None:
        """Waits for so many seconds at most until all is told. (A `join` that a signal's handler breaks off may take the thread for
        ended.)"""
        until = time.monotonic() + timeout
        turn: threading.Lock | None = None
        while (left := until - time.monotonic()) > 0:
            with self._lock:
                if self._is_over:
                    return
                turn = hold_back(self._closing, turn)
            turn.acquire(timeout=min(left, threading.TIMEOUT_MAX))

    def abandon(self) -> None:
        """The producer was let go, or the process ends, without a close."""
        if self.core.is_forked or not self.thread.is_alive():
            return
        tell_unclosed(self.core)
        self._is_ending = True
        self._waiting.wake()  # With no lock, since whoever collects the garbage may have it.
        if threading.current_thread() is not self.thread:
            self.thread.join(1)

    def _wake(self) -> None:
        if self._is_asleep:
            self._waiting.wake()
            self._is_asleep, self.core.is_attended = False, True

    def _send_off(self) -> None:
        """What was accepted goes out. The first since the thread fell asleep does so without waking it, which is faster; for more the
        thread is woken, so that they are accepted together."""
        is_first, self._is_helped = not self._is_helped, True
        if is_first:
            try:
                self._write_all()
                sleep = self._until - time.monotonic()
                if sleep <= MOMENT or sleep <= self._wait():
                    return  # It wakes in time.
            except ProducerError:
                pass  # The thread meets it too, and tells it.
        self._wake()

    def _look_up(self, connection: Connection) -> None:
        """Looks a name up in a thread of its own, since it takes as long as it takes."""
        try:
            connection.look_up()
        except (OSError, UnicodeError) as error:
            logger.info("%s is not found: %s", connection.host, error)
        with self._lock:
            self._looked_up.append(connection)
            self._wake()

    # ---- the thread

    def _run(self) -> None:
        try:
            self._serve()
        except BaseException:
            logger.exception("the producer of topic %s has failed", self.core.topic)
        try:
            self._end()
        finally:
            with self._lock:
                self._is_over = True
                let_go(self._closing)

    def _end(self) -> None:
        with self._lock:
            for connection in list(self._connections.values()):
                self._lose(connection, "the producer has ended")
            told = self.core.end()
            self._has_ended, self._is_asleep = True, False
            let_go(self._held_back)
        self._settle(told)
        for those in self._waiters:
            those.close()

    def _serve(self) -> None:
        ready: list[Event] = []
        has_ended = False
        while not has_ended:
            with self._lock:
                told = self._come_by(ready)
                has_ended = not self._is_asleep
            self._settle(told)
            if not has_ended:
                ready = self._waiting.wait(self._until - time.monotonic())

    def _settle(self, told: Told) -> None:
        self.core.settle(told)
        awaited = self._awaited
        if awaited is not None and not awaited.is_awaited() and self._standing_in is not None:
            self._awaited = None
            self._standing_in.wake()

    def _come_by(self, ready: list[Event]) -> Told:
        """Does all that there is to do now, and is asleep where more may come."""
        core = self.core
        self._is_asleep = self._is_helped = core.is_attended = False
        if self._torn is not None:
            self._mend()
        if self._was_helped_out:
            self._was_helped_out = self._awaited is not None
            ready = [*ready, *((it.descriptor, READ) for it in self._open)]
        for descriptor, events in ready:
            self._hear(descriptor, events)
        told = self._fetch()
        core.hand_over()
        if told.come > 0 and core.open_records == 0 and not self._is_closing and (now := time.monotonic()) < self._until:
            # All is told, and whoever waits for that goes on at once. What else there may be to do is done in a moment.
            self._until = min(self._until, now + MOMENT)
            self._is_asleep = True
            return told
        if core.tick():
            let_go(self._held_back)
        self._act()
        more = self._fetch()
        is_done = self._is_closing and core.open_records == 0
        has_ended = self._is_ending or is_done or core.failure is not None
        self._until = time.monotonic() + self._wait()
        self._is_asleep = not has_ended
        return Told(told.reports + more.reports, told.flushes + more.flushes, told.come + more.come)

    def _fetch(self) -> Told:
        told = self.core.fetch()
        if told.come > 0:
            let_go(self._held_back)
        return told

    def _act(self) -> None:
        """Connects and closes as the library asks, and writes what it gives."""
        for kind, node in self.core.actions():
            if kind == Action.CONNECT:
                self._connect(node)
            elif node in self._connections:
                self._lose(self._connections[node], "it is of no use")
            else:
                self.core.lost(node)
        looked_up, self._looked_up = self._looked_up, []
        for connection in looked_up:
            if self._is_current(connection):
                self._dial(connection, "it has no address")
        for connection in list(self._connections.values()):
            if not connection.is_open and time.monotonic() >= connection.until:
                self._lose(connection, "it took too long to open")
        self._write_all()

    def _write_all(self) -> None:
        if self._torn is not None:
            self._mend()
        if self._is_native:
            for connection, fault in self.core.write_out(self._open):
                if fault is None:
                    self._await(connection, READ | WRITE if connection.out else READ)
                else:
                    self._lose(connection, fault)
            return
        for connection in list(self._open):
            self._torn = connection
            if out := connection.out or self.core.take(connection.node):
                self._guard(self._write, connection, out)
            self._torn = None

    def _mend(self) -> None:
        """Loses the connection to which a call wrote that was broken off, or which that was to lose."""
        assert self._torn is not None
        self._lose(self._torn, "a call was broken off")

    def _wait(self) -> float:
        """For how many seconds there is nothing to do, if no socket is ready before."""
        wait = min(self.core.wait(), NAP)
        for connection in self._connections.values():
            if not connection.is_open:
                wait = min(wait, max(0.0, connection.until - time.monotonic()))
        return wait

    def _hear(self, descriptor: int, events: int) -> None:
        """A socket is ready. One that is watched no more was lost since."""
        if descriptor in self._watched:
            connection = self._watched[descriptor]
            if not connection.is_open:
                self._guard(self._go_on, connection)
            elif events & ~WRITE:
                self._guard(self._read, connection)

    # ---- a connection

    def _is_current(self, connection: Connection) -> bool:
        return self._connections.get(connection.node) is connection

    def _guard(self, act: Callable[..., None], connection: Connection, *words: object) -> None:
        try:
            act(connection, *words)
        except (OSError, ValueError) as error:
            self._lose(connection, error)

    def _lose(self, connection: Connection, why: object) -> None:
        self._torn = connection
        if connection in self._open:
            self._open.remove(connection)
        logger.info("no connection to %s:%d: %s", connection.host, connection.port, why)
        self._hang_up(connection)
        self.core.lost(connection.node)
        self._connections.pop(connection.node, None)
        self._torn = None

    def _hang_up(self, connection: Connection) -> None:
        if connection.socket is not None:
            self._watched.pop(connection.descriptor, None)
            for those in self._waiters:
                with contextlib.suppress(OSError, ValueError):  # It has none, or was closed before, by a call that was broken off.
                    those.sockets.unregister(connection.socket)
            connection.socket.close()
            connection.socket = None

    def _watch(self, connection: Connection, end: socket.socket) -> None:
        """The connection has this socket from now on."""
        connection.socket, connection.events, connection.descriptor = end, WRITE, end.fileno()
        self._watched[connection.descriptor] = connection
        self._waiting.sockets.register(end, WRITE)

    def _await(self, connection: Connection, events: int) -> None:
        end = connection.socket
        if connection.events == events or end is None:
            return
        connection.events = events
        if self._standing_in is None or not connection.is_open:
            self._waiting.sockets.modify(end, events)
        else:
            self._torn = connection
            self._waiting.sockets.unregister(end)
            self._waiting.sockets.register(end, events | FIRST)
            self._torn = None

    def _connect(self, node: int) -> None:
        connection = Connection(node, *self.core.address(node), time.monotonic() + self._connect_timeout)
        self._connections[node] = connection
        try:
            connection.look_up(socket.AI_NUMERICHOST)
            self._looked_up.append(connection)
        except (OSError, UnicodeError):
            threading.Thread(target=self._look_up, args=(connection,), name="lembicsov names", daemon=True).start()

    def _dial(self, connection: Connection, why: object) -> None:
        """Begins to connect to the next address; where there is none the connection is lost."""
        while connection.addresses:
            family, kind, protocol, _, address = connection.addresses.pop(0)
            try:
                end = socket.socket(family, kind, protocol)
                self._watch(connection, end)
                end.setblocking(False)
                end.setsockopt(socket.IPPROTO_TCP, socket.TCP_NODELAY, 1)
                end.setsockopt(socket.SOL_SOCKET, socket.SO_KEEPALIVE, 1)
                status = end.connect_ex(address)
                if status in (0, errno.EINPROGRESS):
                    return
                raise OSError(status, "it is not reached")
            except OSError as error:
                why = error
                self._hang_up(connection)
        self._lose(connection, why)

    def _go_on(self, connection: Connection) -> None:
        """Goes on with a connection that is being opened."""
        end = connection.socket
        assert end is not None
        if not isinstance(end, SSLSocket):
            status = end.getsockopt(socket.SOL_SOCKET, socket.SO_ERROR)
            if status != 0:
                self._hang_up(connection)
                return self._dial(connection, OSError(status, "it is not reached"))
            if self._ssl is not None:
                self._waiting.sockets.unregister(end)
                connection.socket = None  # Where the next line fails it has closed the socket.
                end = self._ssl.wrap_socket(end, server_hostname=connection.host, do_handshake_on_connect=False)
                self._watch(connection, end)
        if isinstance(end, SSLSocket):
            try:
                end.do_handshake()
            except SSLWantReadError:
                return self._await(connection, READ)
            except SSLWantWriteError:
                return self._await(connection, WRITE)
        connection.is_open = True
        self._open.append(connection)
        if self._standing_in is not None:
            self._standing_in.sockets.register(end, READ | FIRST)  # Before the thread's, which `_await` makes anew.
        self._await(connection, READ)
        logger.info("connected to %s:%d", connection.host, connection.port)
        if not self.core.connected(connection.node):
            self._lose(connection, "memory was refused")

    def _read(self, connection: Connection) -> None:
        end, room = connection.socket, self.core.room
        assert end is not None
        if self._is_native:
            if self.core.read_in(connection):
                raise ConnectionError("the broker has ended it")
            return
        size = len(room)
        while size == len(room) or isinstance(end, SSLSocket):  # Of TLS there may be more than the socket tells.
            try:
                size = end.recv_into(room)
            except WAITS:
                return
            if size == 0:
                raise ConnectionError("the broker has ended it")
            self.core.feed(connection.node, None, size)

    def _write(self, connection: Connection, out: bytes | memoryview) -> None:
        end = connection.socket
        assert end is not None
        sent = 1
        while out and sent > 0:
            try:
                sent = end.send(out)
            except WAITS:
                sent = 0
            connection.out = bytes(out[sent:])
            out = connection.out or self.core.take(connection.node)
        self._await(connection, READ | WRITE if connection.out else READ)
