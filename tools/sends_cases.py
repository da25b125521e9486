"""Cases of the sender core as its player plays them (crates/kp_producer_runs): what goes out, comes back and is appended as bytes, with checksums
that are computed here, and what calls answer as Rust's `Debug` has it. The core is of the topic "t", as the client "kp".

- `core NAME=NUMBER ..`: the core is made, of so many `partitions` and `senders` (1), with audits or without (`audits=0`), with this
  `correlation` id for its first request (2), and with these values of the configuration, as in `batch.size=0`; the clock shows 0.
- `append SENDER PARTITION/NUMBER RECORD`: an item, accepted now, is appended; a refusal tells the item that comes back. `may` has the
  same words, and is whether it may be appended. `feed LETTERS` appends sender 0's first items for partition 0, a letter each.
- A record is its value, and behind commas all else that it has, as in `v,key=k,h=w,timestamp=1234`, where `h` is a header; `null` is
  Kafka's null.
- `send` or `send NODE`: the next request to node 0, or to this one, as `CORRELATION PARTITION:ID/SEQUENCE+RECORD+RECORD ..` or
  `CORRELATION init`, or `idle`.
- `reply CORRELATION TOPIC PARTITION:CODE@OFFSET ..`, with a bar between two topics, where `-` is one of no name: a reply to batches is
  heard. `N told`, of so many items; `stale`, to no request in flight; or a fault. `reply-init CORRELATION CODE ID EPOCH` is one that
  gives a producer id, and `hear CONTENT` any content.
- `tick`, `drop` and `lead`, and `close`, `flush` and `end`; `told SENDER`: all that the sender is told, `PARTITION/NUMBER OUTCOME` each;
  `fetch SENDER`: the oldest of it.
- `list CALL`: one of the calls above joins a list; `make-all`: the calls of the list are made.
- `audit PARTITION`: the runs that were handed over, `SENDER:FIRST+COUNT` each.

All other steps go to the player as they are (crates/kp_producer_runs/src/cores.rt), and so do all of a core that is made of numbers.
"""
from __future__ import annotations

import re

from c_stand import Wrong, batches_in, records_in
from kafka_bytes import Record, batch_of, debug, debug_list, debug_record, id_answer, id_frame, produce_answer, produce_frame
from written_cases import Step

REQUEST = re.compile(r"(\d+)((?: \d+:\d+/\d+(?:\+[^ +]*)+)+| init)")
# What a core is made of, in the order in which the player has it.
CORE = {"partitions": 1, "senders": 1, "correlation": 2, "audits": 1, "batch.size": 16384, "linger.ms": 0, "buffer.memory": 33554432,
        "max.request.size": 1048576, "request.timeout.ms": 30000, "delivery.timeout.ms": 120000, "retry.backoff.ms": 100,
        "max.in.flight": 5, "sequence.limit": 2**31}
UNSENT = "expired", "fenced", "ended"


# ---- bytes


def blob_of(word: str) -> bytes | None:
    return None if word == "null" else word.encode()


def record_of(word: str) -> Record:
    value, *others = word.split(",")
    timestamp, key, headers = 0, None, []
    for name, _, it in (other.partition("=") for other in others):
        if name == "timestamp":
            timestamp = int(it)
        elif name == "key":
            key = blob_of(it)
        else:
            headers.append((name.encode(), blob_of(it)))
    return timestamp, key, blob_of(value), headers


def request_of(correlation: int, batches: str, timeout: int) -> bytes:
    """The frame of a request with these batches, or for a producer id."""
    if batches == " init":
        return id_frame(correlation)
    written = []
    for partition, producer_id, sequence, words in re.findall(r" (\d+):(\d+)/(\d+)\+([^ ]*)", batches):
        records = [record_of(it) for it in words.split("+")]
        written.append((int(partition), batch_of(int(producer_id), int(sequence), records)))
    return produce_frame(correlation, written, timeout)


def reply_of(correlation: str, topics: str) -> bytes:
    """The content of a reply to batches."""
    written = []
    for topic in filter(None, topics.split(" | ")):
        name, *words = topic.split()
        partitions = [re.fullmatch(r"(-?\d+):(-?\d+)@(-?\d+)", it).groups() for it in words]
        written.append((name.removeprefix("-").encode(), [tuple(map(int, it)) for it in partitions]))
    return produce_answer(int(correlation), written)


# ---- what calls answer


def debug_item(sender: str, place: str, word: str, at: str) -> str:
    partition, number = place.split("/")
    return debug("Item", sender=sender, partition=partition, number=number, at=at, body=debug_record(record_of(word)))


def debug_report(sender: str, told: str) -> str:
    place, outcome, *more = told.split()
    partition, number = place.split("/")
    if outcome in UNSENT:
        outcome, more = "Unsent", [outcome.capitalize()]
    elif outcome == "delivered" and not more:
        outcome = "delivered_no_offset"
    name = outcome.title().replace("_", "") + (f"({more[0]})" if more else "")
    return f"Fetch(Some({debug('Report', sender=sender, partition=partition, number=number, outcome=name)}))"


def answer_of(step: str, wanted: str, timeout: int) -> str:
    """What the answer to a call is, where this is told of it."""
    kind, *words = step.split()
    count = re.fullmatch(r"(\d+) told(, reconnect)?", wanted)
    if kind == "append":
        back = re.fullmatch(r"(\w+), back (\d+) (\S+) (\S+) at (\d+)", wanted)
        return f"Append(Err(({back[1]}, {debug_item(*back.groups()[1:])})))" if back else f"Append(Ok(())){wanted}"
    if kind == "send":
        if request := REQUEST.fullmatch(wanted):
            frame = request_of(int(request[1]), request[2], timeout)
            return f"Request(Ok(Some({debug('Outgoing', correlation=request[1], bytes=debug('Blob', bytes=debug_list(frame)))})))"
        return "Request(Ok(None))" if wanted == "idle" else f"Request(Err({wanted}))"
    if kind in ("reply", "reply-init", "hear"):
        if count or wanted == "stale":
            return f"Reply(Ok({debug('Replied', known=str(bool(count)).lower(), reports=count[1] if count else 0)}))"
        return "Reply(Err(Ended))" if wanted == "Ended" else f"Reply(Err(ReplyFault({wanted})))"
    if kind == "tick":
        return f"Tick({debug('Ticked', reports=count[1], reconnect=str(bool(count[2])).lower())})"
    if kind == "end":
        return f"End({count[1]})"
    if kind == "fetch":
        return "Fetch(None)" if wanted == "none" else debug_report(words[0], wanted)
    return {"drop": "Disconnect"}.get(kind, kind.capitalize()) + wanted


def debug_audit(wanted: str) -> str:
    if wanted == "none":
        return "None"
    runs = [re.fullmatch(r"(\d+):(\d+)\+(\d+)", it).groups() for it in wanted.split(", ") if it]
    return f"Some({debug_list(debug('Run', sender=sender, first=first, count=count) for sender, first, count in runs)})"


# ---- what is told

WRONG = re.compile(r'wanted "(.*)", came "(.*)"')


def word_of(value: bytes | None) -> str:
    return "null" if value is None else value.decode(errors="backslashreplace")


def told_of(frame: bytes) -> str:
    """The batches of a request as a case has them; its bytes, where it has none, or they are none."""
    told = []
    try:
        for partition, batch in batches_in(frame):
            sequence, records = records_in(batch)
            told.append(f"{partition}:{int.from_bytes(batch[43:51], 'big')}/{sequence}")
            for timestamp, key, value, headers in records:
                named = [("key", key)] if key is not None else []
                named += [(word_of(name), it) for name, it in headers] + ([("timestamp", b"%d" % timestamp)] if timestamp else [])
                told[-1] += f"+{word_of(value)}" + "".join(f",{name}={word_of(it)}" for name, it in named)
    except (Wrong, IndexError):
        told = []
    return " ".join(told) or frame.hex()


def legible(fault: str) -> str:
    """What is told of a wrong step, with batches in the place of their bytes where these differ."""
    told = re.sub(r"\[((?:\d+, ){20,}\d+)\]", lambda it: told_of(bytes(map(int, it[1].split(", ")))), fault)
    wrong = WRONG.search(told)
    return fault if wrong and wrong[1] == wrong[2] else told


# ---- steps

CALLS = {"append", "send", "reply", "reply-init", "hear", "tick", "drop", "lead", "close", "flush", "end", "fetch"}


class Expander:
    """The steps of a case, with bytes."""

    def __init__(self) -> None:
        self.core, self.listed, self.is_plain = CORE, [], False

    def __call__(self, step: str, wanted: str) -> list[Step]:
        return [Step(words, answer, step) for words, answer in self.steps(step, wanted)]

    def steps(self, step: str, wanted: str) -> list[tuple[str, str]]:
        kind, _, rest = step.partition(" ")
        self.is_plain = "true" in rest or "false" in rest if kind == "core" else self.is_plain
        if self.is_plain:
            return [(step, wanted)]
        if kind == "core":
            return [(self.made(rest), wanted)]
        if kind == "feed":
            return [it for number, letter in enumerate(rest) for it in self.steps(f"append 0 0/{number} {letter}", wanted)]
        if kind == "told":
            return [it for told in [*filter(None, wanted.split(", ")), "none"] for it in self.steps(f"fetch {rest}", told)]
        if kind == "list":
            self.listed.append(rest)
            return [(f"list {self.call(rest)}", wanted)]
        if kind == "make-all":
            listed, self.listed = self.listed, []
            answers = [self.answer(call, it.removeprefix("-")) for call, it in zip(listed, wanted.split("; "), strict=True)]
            return [(step, debug_list(answers))]
        if kind == "audit":
            return [(step, debug_audit(wanted))]
        return [(self.call(step), self.answer(step, wanted) if kind in CALLS else wanted)]

    def made(self, words: str) -> str:
        """The core that the words name, as the player has it."""
        given = dict(it.split("=") for it in words.split())
        self.core = {name: int(given.pop(name, value)) for name, value in CORE.items()}
        if given:
            raise KeyError(*given)
        return " ".join(["core", *(str(it) if name != "audits" else str(it == 1).lower() for name, it in self.core.items())])

    def answer(self, step: str, wanted: str) -> str:
        return answer_of(step, wanted, self.core["request.timeout.ms"])

    def call(self, step: str) -> str:
        kind, _, rest = step.partition(" ")
        if kind in ("append", "may"):
            sender, place, word = rest.split()
            return f"{kind} {sender} {place.replace('/', ' ')} {batch_of(0, 0, [record_of(word)]).hex()}"
        if kind == "reply":
            correlation, _, topics = rest.partition(" ")
            return f"hear {reply_of(correlation, topics).hex()}"
        return f"hear {id_answer(*map(int, rest.split())).hex()}" if kind == "reply-init" else step
