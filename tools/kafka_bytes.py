"""Requests, answers and batches as bytes (protocol guide, "Produce API", version 3, and "InitProducerId API", version 0; Kafka's
documentation, "Record Batch"), and how Rust's `Debug` shows the records of a batch. The topic is "t", the client "kp"; a record is its
timestamp, key, value and headers.
"""
from __future__ import annotations

from c_stand import crc32c

Record = tuple[int, "bytes | None", "bytes | None", list]


def number(value: int, size: int) -> bytes:
    return value.to_bytes(size, "big", signed=True)


def text(value: bytes) -> bytes:
    return number(len(value), 2) + value


def array(items: list[bytes]) -> bytes:
    return number(len(items), 4) + b"".join(items)


def frame_of(content: bytes) -> bytes:
    return number(len(content), 4) + content


def varint(value: int) -> bytes:
    value, out = value << 1 ^ (value >> 63), []
    while value >= 0x80:
        out.append(value & 0x7F | 0x80)
        value >>= 7
    return bytes([*out, value])


def blob(value: bytes | None) -> bytes:
    return varint(-1) if value is None else varint(len(value)) + value


def batch_of(producer_id: int, sequence: int, records: list[Record]) -> bytes:
    times = [it[0] for it in records]
    written = b""
    for place, (timestamp, key, value, headers) in enumerate(records):
        fields = b"\0" + varint(timestamp - times[0]) + varint(place) + blob(key) + blob(value) + varint(len(headers))
        written += blob(fields + b"".join(blob(name) + blob(it) for name, it in headers))
    head = number(0, 2) + number(len(records) - 1, 4) + number(times[0], 8) + number(max(times), 8)
    covered = head + number(producer_id, 8) + number(0, 2) + number(sequence, 4) + number(len(records), 4) + written
    counted = number(-1, 4) + number(2, 1) + crc32c(covered).to_bytes(4, "big") + covered
    return number(0, 8) + frame_of(counted)


def produce_frame(correlation: int, batches: list[tuple[int, bytes]], timeout: int = 30000) -> bytes:
    """A request with these batches, each behind its partition, which all replicas in sync are to have."""
    head = number(0, 2) + number(3, 2) + number(correlation, 4) + text(b"kp") + number(-1, 2) + number(-1, 2) + number(timeout, 4)
    return frame_of(head + array([text(b"t") + array([number(partition, 4) + frame_of(batch) for partition, batch in batches])]))


def id_frame(correlation: int) -> bytes:
    """A request for a producer id without a transaction."""
    return frame_of(number(22, 2) + number(0, 2) + number(correlation, 4) + text(b"kp") + number(-1, 2) + number(2**31 - 1, 4))


def produce_answer(correlation: int, topics: list[tuple[bytes, list[tuple[int, int, int]]]]) -> bytes:
    """The content of an answer, of each topic's partitions with code and offset."""
    written = []
    for name, partitions in topics:
        stored = [number(it, 4) + number(code, 2) + number(offset, 8) + number(-1, 8) for it, code, offset in partitions]
        written.append(text(name) + array(stored))
    return number(correlation, 4) + array(written) + number(0, 4)


def id_answer(correlation: int, code: int, producer_id: int, epoch: int) -> bytes:
    return number(correlation, 4) + number(0, 4) + number(code, 2) + number(producer_id, 8) + number(epoch, 2)


# ---- Debug


def debug(name: str, **fields) -> str:
    return f"{name} {{ " + ", ".join(f"{it}: {value}" for it, value in fields.items()) + " }"


def debug_list(items) -> str:
    return f"[{', '.join(map(str, items))}]"


def debug_blob(value: bytes | None) -> str:
    return "None" if value is None else f"Some({debug('Blob', bytes=debug_list(value))})"


def debug_record(record: Record) -> str:
    timestamp, key, value, headers = record
    named = [debug("Header", key=debug("Text", text=f'"{name.decode()}"'), value=debug_blob(it)) for name, it in headers]
    return debug("Record", timestamp=debug("Timestamp", millis=timestamp), key=debug_blob(key), value=debug_blob(value),
                 headers=debug("Seq", items=debug_list(named)))
