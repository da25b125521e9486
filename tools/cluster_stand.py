"""A cluster in this process: its nodes listen at sockets of this machine, go down, hang and come back."""

import socket
import struct
import threading
from contextlib import suppress
from struct import pack

from c_stand import PIECE, local
from embed_brokers import HANG_UP, HOST, METADATA, PRODUCER_ID, TOPIC, Brokers, Wire, api_of, array_of, text_of

NO_LEADER = 5


class Cluster(Brokers):
    """So many nodes at sockets of this machine, which tell of themselves under this host's name. A connection that was idle for so
    many seconds ends, and where it is curt each does behind an answer to a Produce request. The first answers to Metadata and those
    that give producer ids have these codes."""

    def __init__(self, nodes, partitions, plan="", host=HOST, idle=None, is_curt=False, codes=None):
        super().__init__(nodes, partitions)
        self.host, self.idle, self.is_curt = host, idle, is_curt
        self.codes = {METADATA: [], PRODUCER_ID: []} | (codes or {})
        if plan:
            self.take_plan(plan)
        self.lock = threading.RLock()
        self.places = [local(0) for _ in range(nodes)]  # They stay, so that nobody else is given the port of a node that is down.
        self.ports = [it.getsockname()[1] for it in self.places]
        self.addresses = [f"127.0.0.1:{it}" for it in self.ports]
        self.states = ["down"] * nodes
        self.listeners, self.ends = {}, {}

    # ---- nodes

    def come_up(self, *nodes):
        for node in nodes:
            listener = local(self.ports[node])
            listener.listen()
            with self.lock:
                self.states[node], self.listeners[node] = "up", listener
            threading.Thread(target=self.serve, args=[node, listener], daemon=True).start()

    def hang(self, *nodes):
        """What comes to them is taken, and never answered."""
        with self.lock:
            for node in nodes:
                self.states[node] = "hold"

    def go_down(self, *nodes):
        """Their connections are reset, and none is to be had."""
        with self.lock:
            for node in nodes:
                self.states[node] = "down"
                listener = self.listeners.pop(node)
                with suppress(OSError):
                    listener.shutdown(socket.SHUT_RDWR)
                listener.close()
                for end in [it for it, its in self.ends.items() if its == node]:
                    self.reset(end)

    def move_lead(self, origin, target):
        with self.lock:
            super().move_lead(origin, target)

    def end(self):
        """Ends all connections."""
        self.go_down(*list(self.listeners))
        for place in self.places:
            place.close()

    @staticmethod
    def reset(end):
        with suppress(OSError):
            end.setsockopt(socket.SOL_SOCKET, socket.SO_LINGER, struct.pack("ii", 1, 0))
            end.shutdown(socket.SHUT_RDWR)

    # ---- connections

    def serve(self, node, listener):
        with suppress(OSError):
            while True:
                end, _ = listener.accept()
                end.setsockopt(socket.IPPROTO_TCP, socket.TCP_NODELAY, 1)
                with self.lock:
                    self.ends[end] = node
                threading.Thread(target=self.serve_one, args=[node, end], daemon=True).start()

    def serve_one(self, node, end):
        end.settimeout(self.idle)
        with end, suppress(OSError):
            self.converse(node, end)
        with self.lock:
            self.ends.pop(end)

    def converse(self, node, end):
        wire = Wire(node)
        while piece := end.recv(PIECE):
            for content in wire.hear(piece):
                with self.lock:
                    answer = self.answer(node, content) if self.states[node] == "up" else None
                if answer == HANG_UP:
                    return
                if answer:
                    end.sendall(answer)
                    if self.is_curt and api_of(content) not in (METADATA, PRODUCER_ID):
                        return
            wire.requests.clear()

    # ---- answers

    def body_of(self, node, content):
        api = api_of(content)
        if self.codes.get(api):
            code = self.codes[api].pop(0)
            if api == PRODUCER_ID:
                return pack(">ihqh", 0, code, -1, -1)
            topic = pack(">h", code) + text_of(TOPIC) + bytes(1) + array_of([])
            return array_of(self.nodes()) + pack(">i", 0) + array_of([topic])
        return super().body_of(node, content)

    def nodes(self):
        """Those of the nodes that are not down."""
        return [pack(">i", it) + text_of(self.host) + pack(">ih", self.ports[it], -1) for it, state in enumerate(self.states) if state != "down"]

    def lead_of(self, partition, leader):
        """Who leads the partition: nobody, where its leader is down."""
        if self.states[leader] == "down":
            return pack(">hiiiii", NO_LEADER, partition, -1, 1, leader, 0)
        return pack(">hiiiiii", 0, partition, leader, 1, leader, 1, leader)

    def chart(self):
        topic = pack(">h", 0) + text_of(TOPIC) + bytes(1) + array_of([self.lead_of(*it) for it in enumerate(self.leaders)])
        return array_of(self.nodes()) + pack(">i", 0) + array_of([topic])
