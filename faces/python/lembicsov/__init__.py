"""An idempotent Kafka producer over the library `libkp`, with a thread of its own or over asyncio."""

from ._async_producer import AsyncProducer
from ._producer import Producer
from ._values import BufferFull, Closed, Forked, MayStand, NotDelivered, NotReady, NotSent, OpenFailed, Outcome, ProducerError
from ._values import Record, RecordRefused, RecordTooLarge, Rejected, Report, Settings, SomeNotDelivered, Spent, Statistics

__all__ = [
    "AsyncProducer", "BufferFull", "Closed", "Forked", "MayStand", "NotDelivered", "NotReady", "NotSent", "OpenFailed", "Outcome",
    "Producer", "ProducerError", "Record", "RecordRefused", "RecordTooLarge", "Rejected", "Report", "Settings", "SomeNotDelivered",
    "Spent", "Statistics",
]
