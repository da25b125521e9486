"""The brokers of a cluster in memory: their answers to requests (protocol guide: Produce v3, Metadata v1, InitProducerId v0), the
rule by which a log takes a producer's batches (KIP-98), and faults that are planned."""

from dataclasses import dataclass, field
from struct import pack

from c_stand import PRODUCE, Reader, Wrong, batches_in, records_in

METADATA, PRODUCER_ID = 3, 22
VERSIONS = {PRODUCE: 3, METADATA: 1, PRODUCER_ID: 0}
KINDS = {PRODUCE: "produce", METADATA: "metadata", PRODUCER_ID: "id"}  # Of a request, by its api key.
TOPIC, HOST, PORT = b"t", b"127.0.0.1", 9092  # The first node's port; those of the others stand behind it.
UNKNOWN_TOPIC, NOT_LEADER, OUT_OF_ORDER, DUPLICATE = 3, 6, 45, 46
FIRST_PRODUCER_ID = 1000
KNOWN_BATCHES = 5  # Of so many batches of a producer a log knows where they stand.
HANG_UP = "hang-up"  # What comes in place of an answer where the connection ends.


def text_of(bytes_of_text):
    return pack(">h", len(bytes_of_text)) + bytes_of_text


def array_of(parts):
    return pack(">i", len(parts)) + b"".join(parts)


def api_of(content):
    """The api of a request, which is of the version that is spoken of it."""
    request = Reader(content)
    api, version, _, _ = request.number(2), request.number(2), request.number(4), request.text()
    if version != VERSIONS.get(api):
        raise Wrong(f"a request of the api {api} in version {version}")
    if api == METADATA and [request.text() for _ in range(request.number(4))] != [TOPIC]:
        raise Wrong("a Metadata request is for another topic")
    if api == PRODUCER_ID and (request.text(), request.number(4) < 0) != (None, False):
        raise Wrong("a producer id is asked for with a transaction, or for no time")
    if api != PRODUCE and request.at != len(content):
        raise Wrong("a request is too long")
    return api


@dataclass
class Known:
    """What a log knows of a producer."""

    records: int = 0  # How many it took from it.
    batches: list = field(default_factory=list)  # Of its last batches each one's sequence number, length and offset.


@dataclass
class Log:
    """A partition's log."""

    values: list = field(default_factory=list)
    known: dict = field(default_factory=dict)

    def offer(self, batch):
        """The code and the offset by which a batch is answered."""
        producer = self.known.setdefault(int.from_bytes(batch[43:51], "big"), Known())
        sequence, records = records_in(batch)
        count = len(records)
        for known, length, offset in producer.batches:
            if (known, length) == (sequence, count):
                return 0, offset
        if sequence == producer.records:
            offset = len(self.values)
            self.values += [value for _, _, value, _ in records]
            producer.records += count
            producer.batches = [*producer.batches, (sequence, count, offset)][-KNOWN_BATCHES:]
            return 0, offset
        is_older = producer.batches and sequence + count <= producer.batches[0][0]
        return DUPLICATE if is_older else OUT_OF_ORDER, -1


class Brokers:
    """So many nodes, which lead so many partitions in turn at first, have one set of logs, and do what a plan says with Produce
    requests, by their numbers from 0 on."""

    def __init__(self, nodes, partitions):
        self.states = ["up"] * nodes  # "up": it answers; "hold": what comes waits; "down": nothing listens.
        self.leaders = [partition % nodes for partition in range(partitions)]
        self.logs = [Log() for _ in range(partitions)]
        self.next_id, self.produced = FIRST_PRODUCER_ID, 0
        self.plan = {}
        self.seen = []  # What came: of which kind, to which node, and at which moment.

    def state(self, node):
        return self.states[node] if node < len(self.states) else "down"

    def take_plan(self, text):
        """Takes a plan, as in `1=drop-reply,3=late:7`."""
        for entry in text.split(","):
            number, _, action = entry.partition("=")
            self.plan[int(number)] = action

    def move_lead(self, origin, target):
        """All that a node leads goes to another, where that is there."""
        if target < len(self.states):
            self.leaders = [target if it == origin else it for it in self.leaders]

    # ---- what is answered

    def answer(self, node, content):
        """The frame with which a node answers a request, HANG_UP, or nothing."""
        body = self.body_of(node, content)
        if body in (None, HANG_UP):
            return body
        frame = content[4:8] + body  # It begins with the request's correlation id.
        return pack(">i", len(frame)) + frame

    def body_of(self, node, content):
        api = api_of(content)
        if api == METADATA:
            return self.chart()
        if api == PRODUCER_ID:
            self.next_id += 1
            return pack(">ihqh", 0, 0, self.next_id - 1, 0)
        action, _, number = self.plan.get(self.produced, "").partition(":")
        self.produced += 1
        return self.do(action, int(number or 0), node, content)

    def do(self, action, number, node, content):
        """What the plan says is done with a Produce request."""
        if action == "drop-request":
            return None
        if action == HANG_UP:
            return HANG_UP
        if action == "move":
            self.move_lead(node, number)
        if action in ("drop-reply", "repeat"):
            self.take(node, content)
        elif action not in ("", "refuse", "late", "move"):
            raise Wrong(f"a plan says {action}")
        return None if action == "drop-reply" else self.take(node, content, action, number)

    def take(self, node, content, action="", code=0):
        """The answer to a Produce request's batches, once they were offered to the logs of the partitions that the node leads."""
        parts = []
        for partition, batch in batches_in(bytes(4) + content):
            answer = NOT_LEADER, -1
            if not 0 <= partition < len(self.logs):
                answer = UNKNOWN_TOPIC, -1
            elif self.leaders[partition] == node:
                answer = (code, -1) if action == "refuse" else self.logs[partition].offer(batch)
                answer = (code, -1) if action == "late" else answer
            parts.append(pack(">ihqq", partition, *answer, -1))
        return array_of([text_of(TOPIC) + array_of(parts)]) + pack(">i", 0)

    def chart(self):
        """The answer to a Metadata request: the nodes, and the leader of each partition, which has its one replica."""
        nodes = [pack(">i", it) + text_of(HOST) + pack(">ih", PORT + it, -1) for it in range(len(self.states))]
        leads = [pack(">hiiiiii", 0, partition, it, 1, it, 1, it) for partition, it in enumerate(self.leaders)]
        topic = pack(">h", 0) + text_of(TOPIC) + bytes(1) + array_of(leads)
        return array_of(nodes) + pack(">i", 0) + array_of([topic])


class Wire:
    """A connection to a node, and the requests that wait there."""

    def __init__(self, node):
        self.node, self.held, self.requests = node, bytearray(), []

    def hear(self, bytes_of_frames):
        """Bytes come to the node. The requests that are whole with them."""
        self.held += bytes_of_frames
        came = []
        while len(self.held) >= 4 and len(self.held) >= (end := 4 + int.from_bytes(self.held[:4], "big")):
            came.append(bytes(self.held[4:end]))
            del self.held[:end]
        self.requests += came
        return came
