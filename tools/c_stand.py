"""What a C program over libkp_c.a is tried on: a compiler, the loopback broker, a relay before its nodes, which loses connections
and nodes and keeps what it carried, and the records in that."""

import os
import select
import shlex
import shutil
import socket
import struct
import subprocess
import sys
import threading
import time
from contextlib import suppress
from functools import lru_cache
from pathlib import Path

ROOT = Path(__file__).resolve().parent.parent
PIECE = 1 << 16


class Wrong(Exception):
    """What is wrong with a run."""


# ---- the compiler

# What the C library's headers and the program want of a compiler. The kit's clang has no headers.
HEADERS = {
    "stdarg.h": "typedef __builtin_va_list va_list, __gnuc_va_list;",
    "stdbool.h": "#define bool _Bool\n#define true 1\n#define false 0",
    "stddef.h": "typedef __SIZE_TYPE__ size_t;\ntypedef __WCHAR_TYPE__ wchar_t;\n#define NULL ((void *)0)",
}


def compiler(folder):
    """The words that begin and end a call of the compiler: of that which CC names, of gcc, of clang, or else of the kit's clang,
    with the kit's C library and headers in the folder."""
    if os.environ.get("CC"):
        return shlex.split(os.environ["CC"]), []
    for name in ("gcc", "clang"):
        if shutil.which(name):
            return [name], []
    if not shutil.which("rt"):
        sys.exit("neither gcc nor clang nor rt is here")
    said = subprocess.run(["rt", "doc"], capture_output=True, text=True, check=True)
    kit = Path(said.stdout.strip()).parent / "toolchain"
    for name, text in HEADERS.items():
        (folder / name).write_text(f"{text}\n")
    begin, end = ("Scrt1.o", "crti.o"), ("libc.so.6", "libc_nonshared.a", "crtn.o")
    words = [kit / "bin/clang", "-isystem", folder, "-fuse-ld=lld", "-nostdlib", *(kit / "lib" / it for it in begin)]
    return words, [kit / "lib" / it for it in end]


def build(library, program, sources, *words):
    """Builds a program over the library, with all warnings as errors."""
    begin, end = compiler(program.parent)
    flags = ["-std=c11", "-O2", "-g", "-Wall", "-Wextra", "-Wpedantic", "-Werror", "-I", ROOT / "crates/kp_c/include"]
    if subprocess.run([*begin, *flags, *words, "-o", program, *sources, library, *end]).returncode != 0:
        sys.exit(f"{program.name} can't be built")
    return program


# ---- the broker


class Broker:
    """The loopback broker in a process of its own, with so many partitions and nodes, and a plan of faults."""

    def __init__(self, loopback, partitions, nodes, plan="", topic="t"):
        words = [loopback, topic, str(partitions), *["0"] * nodes, *([plan] if plan else [])]
        pipes = dict(stdin=subprocess.PIPE, stdout=subprocess.PIPE, stderr=subprocess.PIPE)
        self.process = subprocess.Popen(words, text=True, **pipes)
        said = [self.process.stderr.readline().strip() for _ in range(nodes)]
        self.addresses = [it.rpartition(" ")[2] for it in said]
        if not all(it.startswith("listening at ") for it in said):
            self.kill()
            raise Wrong(f"the broker does not listen: {said}")

    def end(self, seconds):
        """Ends it, within so many seconds. The text of its logs."""
        logged, _ = self.process.communicate("", timeout=seconds)
        if self.process.returncode != 0:
            raise Wrong(f"the broker's status is {self.process.returncode}")
        return logged

    def kill(self):
        self.process.kill()
        self.process.communicate()


# ---- the relay

PRODUCE, METADATA = 0, 3
HELD = 1.5  # How many seconds a connection is held.
NARROW = 4096  # How many bytes a relay's socket has room for, and a segment takes.


def local(port):
    """A socket bound to this port, beside others that are bound there and do not listen; 0 is any free one."""
    bound = socket.socket()
    bound.setsockopt(socket.SOL_SOCKET, socket.SO_REUSEADDR, 1)
    bound.bind(("127.0.0.1", port))
    return bound


def frames_in(held):
    """The whole frames at the front of these bytes, which are taken from there."""
    while len(held) >= 4 and len(held) >= (size := 4 + int.from_bytes(held[:4], "big")):
        frame = bytes(held[:size])
        del held[:size]
        yield frame


class Link:
    """A connection of the producer's, and the relay's to the node."""

    def __init__(self, node, near, far):
        self.node, self.near, self.far = node, near, far
        self.asked, self.answered = bytearray(), bytearray()  # What came of the producer and of the node, and is no frame yet.
        self.to_near, self.to_far = bytearray(), bytearray()  # What is to be written.
        self.asks_metadata = False
        self.cut_at = None  # The request in whose answer the connection is to be reset.
        self.held_until = 0.0  # Nothing is read nor written before this moment.
        self.has_ended = False  # The node has ended its connection.


class Relay:
    """Relays connections to nodes, from addresses of its own, which it puts in the place of theirs where they tell of them. The
    plan says at which Produce requests, by their numbers from 0 on over all nodes, it does what: "cut": half of the request goes
    on, and the connection is reset; "cut-answer": half of its answer goes back, and the connection is reset; "hold": for HELD
    seconds nothing is read of the connection nor written to it; "leave": the nodes of `leaving` are away until `come_back`: their
    connections are reset, and none is to be had; with `begins_away` they are so from the beginning. The connections are so narrow
    that a producer's writes do not always fit."""

    def __init__(self, addresses, plan, leaving=(), begins_away=False):
        self.plan, self.leaving = plan, leaving
        self.targets = [(host, int(port)) for host, port in (it.rsplit(":", 1) for it in addresses)]
        self.places = [local(0) for _ in addresses]  # They stay, so that nobody else is given the port of a node that is away.
        self.ports = [it.getsockname()[1] for it in self.places]
        self.addresses = [f"127.0.0.1:{it}" for it in self.ports]
        self.listeners = {}
        self.links = []
        self.count = 0  # How many Produce requests came.
        self.carried = []  # Those that went on.
        self.done = []  # What was done of the plan.
        self.has_left, self.is_to_come_back, self.is_to_end = (threading.Event() for _ in range(3))
        self.fault = None
        self.listen(it for it in range(len(addresses)) if not (begins_away and it in leaving))
        self.thread = threading.Thread(target=self.serve, daemon=True)
        self.thread.start()

    def end(self):
        """Ends all connections."""
        self.is_to_end.set()
        self.thread.join()

    def check(self):
        """All of the plan was done."""
        if self.fault:
            raise Wrong(f"the relay: {self.fault!r}")
        if len(self.done) != len(self.plan):
            raise Wrong(f"{self.count} Produce requests came, and of {list(self.plan.values())} the relay did {self.done}")

    # ---- nodes

    def listen(self, nodes):
        for node in nodes:
            self.listeners[node] = local(self.ports[node])
            self.listeners[node].setsockopt(socket.SOL_SOCKET, socket.SO_RCVBUF, NARROW)
            self.listeners[node].setsockopt(socket.IPPROTO_TCP, socket.TCP_MAXSEG, NARROW)
            self.listeners[node].listen()

    def leave(self):
        for node in self.leaving:
            self.listeners.pop(node).close()
        for link in [it for it in self.links if it.node in self.leaving]:
            self.reset(link)
        self.has_left.set()

    def come_back(self):
        self.is_to_come_back.set()

    # ---- links

    def accept(self, node):
        near, _ = self.listeners[node].accept()
        try:
            far = socket.create_connection(self.targets[node])
        except OSError:
            near.close()
            return
        for end in (near, far):
            end.setsockopt(socket.IPPROTO_TCP, socket.TCP_NODELAY, 1)
            end.setblocking(False)
        self.links.append(Link(node, near, far))

    def drop(self, link):
        self.links.remove(link)
        link.near.close()
        link.far.close()

    def reset(self, link):
        for end in (link.near, link.far):
            end.setsockopt(socket.SOL_SOCKET, socket.SO_LINGER, struct.pack("ii", 1, 0))
        self.drop(link)

    def cut(self, link, end, last):
        """Resets a connection behind the last bytes for one end, of which it writes as many as can be written at once."""
        with suppress(OSError):
            end.send(last)
        self.reset(link)

    # ---- requests

    def hear(self, link):
        piece = link.near.recv(PIECE)
        if not piece:
            self.drop(link)
            return
        link.asked += piece
        for frame in frames_in(link.asked):
            api, _, correlation = struct.unpack_from(">hhi", frame, 4)
            link.asks_metadata |= api == METADATA
            act = self.plan.get(self.count) if api == PRODUCE else None
            self.count += api == PRODUCE
            if act:
                self.done.append(act)
                self.do(act, link, frame, correlation)
            if link not in self.links:
                return
            link.to_far += frame
            if api == PRODUCE:
                self.carried.append(frame)

    def do(self, act, link, frame, correlation):
        if act == "leave":
            self.leave()
        elif act == "hold":
            link.held_until = time.monotonic() + HELD
        elif act == "cut-answer":
            link.cut_at = correlation
        elif act == "cut":
            self.cut(link, link.far, link.to_far + frame[: len(frame) // 2])

    # ---- answers

    def answer(self, link):
        piece = link.far.recv(PIECE)
        link.has_ended = not piece
        link.answered += piece
        for frame in frames_in(link.answered):
            (correlation,) = struct.unpack_from(">i", frame, 4)
            if link.asks_metadata and correlation == 0:
                link.asks_metadata = False
                frame = self.renamed(frame)
            link.to_near += frame
            if correlation == link.cut_at:
                self.cut(link, link.near, link.to_near[: -(len(frame) // 2)])
                return

    def renamed(self, frame):
        """An answer to Metadata (version 1), with the relay's ports in the place of the nodes'."""
        ports = dict(zip((port for _, port in self.targets), self.ports))
        told, at = bytearray(frame), 12
        for _ in range(struct.unpack_from(">i", told, 8)[0]):
            at += 6 + struct.unpack_from(">h", told, at + 4)[0]
            (port,) = struct.unpack_from(">i", told, at)
            struct.pack_into(">i", told, at, ports[port])
            at += 6 + max(0, struct.unpack_from(">h", told, at + 4)[0])
        return bytes(told)

    # ---- serving

    def serve(self):
        try:
            while not self.is_to_end.is_set():
                if self.is_to_come_back.is_set():
                    self.is_to_come_back.clear()
                    self.listen(self.leaving)
                self.turn()
        except Exception as fault:  # What check tells.
            self.fault = fault
        for link in list(self.links):
            self.drop(link)
        for end in [*self.places, *self.listeners.values()]:
            end.close()

    def turn(self):
        """Waits until a socket is ready, for a short while, and does what is to be done."""
        now = time.monotonic()
        for link in [it for it in self.links if it.has_ended and not it.to_near]:
            self.drop(link)
        reads, writes = {it: (self.accept, node) for node, it in self.listeners.items()}, {}
        for link in self.links:
            if link.held_until <= now:
                reads[link.near] = (self.hear, link)
            if not link.has_ended:
                reads[link.far] = (self.answer, link)
            if link.to_far and not link.has_ended:
                writes[link.far] = (link, link.to_far)
            if link.to_near and link.held_until <= now:
                writes[link.near] = (link, link.to_near)
        readable, writable, _ = select.select(list(reads), list(writes), [], 0.02)
        for end in readable:
            act, what = reads[end]
            self.guard(what, act, what)
        for end in writable:
            link, held = writes[end]
            self.guard(link, self.write, end, held)

    @staticmethod
    def write(end, held):
        del held[: end.send(held)]

    def guard(self, what, act, *words):
        """Does something with a link or a node, if that is still there. A link whose connection fails is ended."""
        if what not in self.links and what not in self.listeners:
            return
        try:
            act(*words)
        except (BlockingIOError, InterruptedError):
            pass
        except OSError:
            if what in self.links:
                self.drop(what)


# ---- what was carried


def table_of():
    """Of each byte what it adds to a checksum."""
    table = []
    for byte in range(256):
        for _ in range(8):
            byte = byte >> 1 ^ (0x82F63B78 if byte & 1 else 0)
        table.append(byte)
    return table


TABLE = table_of()


def crc32c(held):
    """The checksum of a batch (RFC 3720, appendix B.4)."""
    table, value = TABLE, 0xFFFFFFFF
    for byte in held:
        value = table[(value ^ byte) & 0xFF] ^ value >> 8
    return value ^ 0xFFFFFFFF


class Reader:
    """Bytes that are read from the front on (protocol guide, "Protocol Primitive Types")."""

    def __init__(self, held):
        self.held, self.at = held, 0

    def take(self, size):
        self.at += size
        if size < 0 or self.at > len(self.held):
            raise Wrong("a Produce request ends too soon")
        return self.held[self.at - size : self.at]

    def number(self, size):
        return int.from_bytes(self.take(size), "big", signed=True)

    def text(self):
        size = self.number(2)
        return None if size < 0 else self.take(size)

    def varint(self):
        value, shift, byte = 0, 0, 0x80
        while byte >= 0x80:
            byte = self.held[self.at]
            value |= (byte & 0x7F) << shift
            shift += 7
            self.at += 1
        return value >> 1 ^ -(value & 1)

    def blob(self):
        size = self.varint()
        return None if size < 0 else self.take(size)


def batches_in(frame):
    """The batches of a Produce request (version 3), each with its partition."""
    request = Reader(frame)
    request.take(12)
    request.text()
    transaction, acks, _ = request.text(), request.number(2), request.number(4)
    if transaction is not None or acks != -1:
        raise Wrong("a Produce request has a transaction, or does not wait for all replicas")
    for _ in range(request.number(4)):
        if request.text() != b"t":
            raise Wrong("a Produce request is for another topic")
        for _ in range(request.number(4)):
            yield request.number(4), request.take(request.number(4))
    if request.at != len(frame):
        raise Wrong("a Produce request is too long")


@lru_cache
def headers_in(held):
    """The headers at the end of a record."""
    reader = Reader(held)
    headers = [(reader.blob(), reader.blob()) for _ in range(reader.varint())]
    if reader.at != len(held):
        raise Wrong("a record is too long")
    return headers


def records_in(bytes_of_batch):
    """The sequence number of the first record of a batch (magic 2, not compressed), and its records: of each the time, the key,
    the value and the headers."""
    batch = Reader(bytes_of_batch)
    batch.take(8)
    size, _, magic, checksum, attributes = (batch.number(it) for it in (4, 4, 1, 4, 2))
    last, first_time, last_time, _, _, sequence, count = (batch.number(it) for it in (4, 8, 8, 8, 2, 4, 4))
    if (size, magic, attributes) != (len(bytes_of_batch) - 12, 2, 0) or checksum & 0xFFFFFFFF != crc32c(bytes_of_batch[21:]):
        raise Wrong("a batch is none, or its checksum is another")
    records = []
    for place in range(count):
        end = batch.varint() + batch.at
        attributes, time_of, delta = batch.number(1), first_time + batch.varint(), batch.varint()
        records.append((time_of, batch.blob(), batch.blob(), headers_in(batch.take(end - batch.at))))
        if attributes != 0 or delta != place:
            raise Wrong("a record of a batch is none")
    if batch.at != len(bytes_of_batch) or last != count - 1 or last_time != max(it[0] for it in records):
        raise Wrong("a batch has other records than it says")
    return sequence, records
