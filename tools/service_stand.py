"""What the service and the command line are tried on: the programs, a relay that is fickle, and what judges how long something took."""

import math
import os
import resource
import shutil
import signal
import socket
import struct
import subprocess
import tempfile
import threading
import time
from contextlib import suppress
from dataclasses import dataclass

from c_stand import PIECE, Relay, Wrong, frames_in
from program_cases import program_of
from service_script import input_of, read_played

SECONDS = 20  # The most that a program takes.
ASKING = 0  # The correlation id of the handshake's first request, Metadata.
HELLO = 1  # The correlation id of the last answer of a handshake (InitProducerId).
NEVER = 2_147_483_647  # A correlation id that no request has that is made here.


class Late(Wrong):
    """What took too long, as it may when the machine is busy."""


# ---- programs


@dataclass
class Ended:
    """A program that has ended."""

    status: int
    out: bytes
    err: str
    seconds: float
    usage: resource.struct_rusage

    @property
    def processor(self):
        """How many seconds of a processor it took."""
        return self.usage.ru_utime + self.usage.ru_stime

    @property
    def sleeps(self):
        """How often a thread of it went to sleep."""
        return self.usage.ru_nvcsw


def ran(*words, given=b"", out=None, seconds=SECONDS):
    """Runs a program to its end."""
    with tempfile.TemporaryFile() as fed, tempfile.TemporaryFile() as told, tempfile.TemporaryFile() as said:
        fed.write(given)
        fed.seek(0)
        began = time.monotonic()
        process = subprocess.Popen(words, stdin=fed, stdout=out or told, stderr=said)
        watch = threading.Timer(seconds, process.kill)
        watch.start()
        _, status, usage = os.wait4(process.pid, 0)
        took = time.monotonic() - began
        process.returncode = os.waitstatus_to_exitcode(status)
        watch.cancel()
        told.seek(0)
        said.seek(0)
        if process.returncode == -signal.SIGKILL:
            raise Wrong(f"it had not ended after {seconds} seconds")
        return Ended(process.returncode, told.read(), said.read().decode(errors="replace"), took, usage)


class Programs:
    """The programs, in a folder where they can be run."""

    def __init__(self, folder, *files):
        copies = [shutil.copy(it, folder) for it in files]
        self.kprod, self.pack, self.replay, self.client_runs, self.loopback = copies
        for program in copies:
            os.chmod(program, 0o755)

    def of(self, words):
        """The program of a call's words."""
        name = program_of([it.encode() for it in words])
        return {"kprod_pack": self.pack, "kprod_replay": self.replay}.get(name, self.kprod)

    def run(self, *words, given=b"", seconds=SECONDS, told=""):
        """What `kprod run` prints of these lines. Its status is 0, and on standard error it tells just this."""
        ended = ran(self.kprod, "run", "--file", "-", *words, given=given, seconds=seconds)
        if ended.status != 0 or ended.err != told:
            raise Wrong(f"kprod's status is {ended.status}: {ended.err.strip()}")
        return ended

    def produce(self, *blocks):
        """Has kp_client_runs play these producers, one after the other. What came of each."""
        ended = ran(self.client_runs, given=input_of(blocks).encode())
        if ended.status != 0 or ended.err:
            raise Wrong(f"the status of kp_client_runs is {ended.status}: {ended.err.strip()}")
        return ended, read_played(ended.out.decode())

    def produce_all(self, *blocks):
        """The same of producers that are opened. Of one that says that it is done no record comes back."""
        ended, all_came = self.produce(*blocks)
        if len(all_came) != len(blocks) or any(isinstance(it, str) or (it.ending == "Done" and it.back) for it in all_came):
            raise Wrong(f"it said {ended.out.decode()}")
        return ended, all_came


# ---- the relay


class Fickle(Relay):
    """A relay before one node, which may stand at another address of this machine. Its plan says of Produce requests, beside what a
    relay does: "end": the connection ends behind the answer; "end-and-leave": and the node is away then; "known": the answer says
    that the broker has these records already (code 46); "gather": for so many seconds from the first such request on answers are
    kept back, and then all are given at once; "slow": the node takes so many seconds for the answer, and for one after the other;
    "strays": in its place come so many answers to a request that was never made. Other words say what it does once it has given the answer that ends the handshake:
    "shut": the node is away; "swallow": connections to it are neither taken nor refused; "curt": each ends as soon as it was made.
    A node is back after so many seconds. A connection that was idle for so many seconds behind an answer ends. Of the handshake's
    answers, those to the requests of these correlation ids have these codes in turn, and are as they are behind them."""

    def __init__(self, address, plan=None, host="127.0.0.1", behind_hello="", away=math.inf, idle=math.inf, gathering=0.0, codes=None, pace=0.0, strays=0):
        self.host, self.behind_hello, self.away, self.idle, self.gathering = host, behind_hello, away, idle, gathering
        self.codes, self.pace, self.strays = codes or {}, pace, strays
        self.refused = 0  # How many handshakes were answered so.
        self.accepted = 0  # How many connections were made.
        self.back_at = math.inf
        self.is_curt = False
        self.swallowing, self.fillers = None, []
        self.is_gathering, self.kept = False, []
        self.groups = []  # Of each time that answers were kept back the requests that came, and when.
        super().__init__([address], plan or {}, [0])
        self.address = f"{host}:{self.ports[0]}"

    def end(self):
        super().end()
        for end in [*self.fillers, *([self.swallowing] if self.swallowing else [])]:
            end.close()

    # ---- away

    def listen(self, nodes):
        for node in nodes:
            listener = socket.socket()
            listener.setsockopt(socket.SOL_SOCKET, socket.SO_REUSEADDR, 1)
            listener.bind((self.host, self.ports[node]))
            listener.listen()
            listener.setblocking(False)
            self.listeners[node] = listener

    def leave(self):
        super().leave()
        self.back_at = time.monotonic() + self.away

    def shut(self):
        self.listeners.pop(0).close()

    def curt(self):
        self.is_curt = True

    def swallow(self):
        """Takes no connection, and fills the place in which one would wait to be taken."""
        self.swallowing = self.listeners.pop(0)
        self.swallowing.listen(0)
        for _ in range(3):
            filler = socket.socket()
            filler.setblocking(False)
            filler.connect_ex((self.host, self.ports[0]))
            self.fillers.append(filler)

    def restore(self):
        self.back_at, self.is_curt = math.inf, False
        if self.swallowing:
            for filler in self.fillers:
                filler.close()
            with suppress(BlockingIOError):
                while True:
                    self.swallowing.accept()[0].close()
            self.swallowing.listen()
            self.listeners[0], self.swallowing, self.fillers = self.swallowing, None, []
        elif not self.listeners:
            self.listen(self.leaving)

    # ---- links

    def accept(self, node):
        if self.is_curt:
            near, _ = self.listeners[node].accept()
            near.close()
        else:
            super().accept(node)
            self.links[-1].acts, self.links[-1].idle_since = {}, math.inf
            self.links[-1].slow, self.links[-1].next_at = [], math.inf
        self.accepted += 1

    def turn(self):
        now = time.monotonic()
        if self.back_at <= now:
            self.restore()
        for link in [it for it in self.links if it.idle_since + self.idle <= now]:
            self.drop(link)
        for link in [it for it in self.links if it.next_at <= now]:
            link.to_near += link.slow.pop(0)
            link.next_at = now + self.pace if link.slow else math.inf
        super().turn()

    # ---- requests and answers

    def hear(self, link):
        link.idle_since = math.inf
        super().hear(link)

    def do(self, act, link, frame, correlation):
        link.acts[correlation] = act
        if act != "gather":
            super().do(act, link, frame, correlation)
            return
        asked = time.monotonic(), frame
        if self.is_gathering:
            self.groups[-1].append(asked)
        else:
            self.is_gathering = True
            self.groups.append([asked])
            threading.Timer(self.gathering, self.give_kept, [link]).start()

    def give_kept(self, link):
        self.is_gathering = False
        kept, self.kept = self.kept, []
        with suppress(OSError):
            link.near.send(b"".join(kept))

    def answer(self, link):
        piece = link.far.recv(PIECE)
        link.has_ended = not piece
        link.answered += piece
        for frame in frames_in(link.answered):
            (correlation,) = struct.unpack_from(">i", frame, 4)
            self.give(link, frame, correlation, link.acts.pop(correlation, None))

    def give(self, link, frame, correlation, act):
        link.idle_since = time.monotonic()
        if self.codes.get(correlation):
            link.to_near += refused(frame, correlation, self.codes[correlation].pop(0))
            self.refused += 1
            return
        if correlation == HELLO and self.behind_hello:
            getattr(self, self.behind_hello)()
            self.back_at = time.monotonic() + self.away
        if act == "end-and-leave":
            self.shut()
            self.back_at = time.monotonic() + self.away
        if act in ("end", "end-and-leave"):
            link.has_ended = True  # It is dropped once all is written.
        if act == "known":
            # Behind the size, the correlation id, a list of one topic, t, and in that a list of one partition, 0.
            frame = frame[:23] + struct.pack(">hq", 46, -1) + frame[33:]
        if act == "strays":
            frame = self.strays * (frame[:4] + struct.pack(">i", NEVER) + frame[8:])
        if act == "gather" and self.is_gathering:
            self.kept.append(frame)
        elif act == "slow":
            if not link.slow:
                link.next_at = time.monotonic() + self.pace
            link.slow.append(frame)
        else:
            link.to_near += frame


def refused(frame, correlation, code):
    """An answer of the handshake with this code in place of its own: to Metadata that of the one topic, else that of the id."""
    at = 12  # Behind the size, the correlation id and the throttle time.
    if correlation == ASKING:
        at = 8
        (brokers,) = struct.unpack_from(">i", frame, at)
        at += 4
        for _ in range(brokers):
            (host,) = struct.unpack_from(">h", frame, at + 4)
            (rack,) = struct.unpack_from(">h", frame, at + 6 + host + 4)
            at += 6 + host + 4 + 2 + max(rack, 0)
        at += 8  # The controller's id and the count of topics.
    return frame[:at] + struct.pack(">h", code) + frame[at + 2 :]


# ---- judges


def same(what, value, wanted):
    if value != wanted:
        raise Wrong(f"{what}: {value}, and not {wanted}")


def within(what, value, least, most):
    if not least <= value <= most:
        raise Wrong(f"{what}: {value:.4g}, and not {least} to {most}")


def soon(what, value, most, least=0):
    within(what, value, least, math.inf)
    if value > most:
        raise Late(f"{what}: {value:.4g}, and not {most} at most")
