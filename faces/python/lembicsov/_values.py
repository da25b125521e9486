"""What a producer is told and tells: settings, records, reports and errors."""

from __future__ import annotations

from enum import Enum
from typing import NamedTuple, Optional, Sequence, Tuple, TypedDict, Union

from ._library import error_name, outcome_words

Bytes = Union[bytes, bytearray, memoryview]
Headers = Sequence[Tuple[str, Optional[Bytes]]]


class Settings(TypedDict, total=False):
    """How a producer is configured, by Kafka's names; README.md has the defaults."""

    batch_size: int
    linger_ms: int
    buffer_memory: int
    max_request_size: int
    request_timeout_ms: int
    delivery_timeout_ms: int
    retry_backoff_ms: int
    max_in_flight_requests_per_connection: int
    sequence_limit: int
    reconnect_backoff_ms: int
    reconnect_backoff_max_ms: int
    metadata_max_age_ms: int
    open_timeout_ms: int
    keep_to_one: bool


class Record(NamedTuple):
    """A record as it was sent: `producer.send(**record._asdict())` sends it again."""

    value: Bytes | None
    key: Bytes | None = None
    partition: int | None = None
    headers: Headers = ()
    timestamp: int | None = None


class Outcome(Enum):
    """What became of a record."""

    DELIVERED = 0
    DELIVERED_NO_OFFSET = 1
    UNKNOWN = 2
    REJECTED = 3
    EXPIRED = 4
    FENCED = 5
    ENDED = 6

    @property
    def words(self) -> str:
        """What it says of the record."""
        return outcome_words(self.value)


ADVICE = {
    Outcome.DELIVERED: "",
    Outcome.DELIVERED_NO_OFFSET: "",
    Outcome.UNKNOWN: "send it again only where a second one does no harm, or look for it in the log first",
    Outcome.REJECTED: "look at the error; its partition takes no more from this producer: open another one",
    Outcome.EXPIRED: "send it again, or give it up",
    Outcome.FENCED: "send it with another producer, once it is known what became of the earlier one",
    Outcome.ENDED: "send it with another producer",
}


class Report(NamedTuple):
    """What became of a record, and what to do about it."""

    partition: int
    offset: int | None  # None where none is known.
    outcome: Outcome
    advice: str
    error: int = 0  # Kafka's error code, where the record was rejected.

    @property
    def error_name(self) -> str:
        """Kafka's name of the error, as `MESSAGE_TOO_LARGE`."""
        return error_name(self.error) if self.error else ""


class Statistics(NamedTuple):
    """What is to be seen of a producer."""

    open_records: int  # Those that were accepted and have no report yet.
    buffer_used: int  # The bytes that they take of buffer_memory.
    requests_in_flight: int
    nodes: int
    partitions: int  # 0 before it is ready.
    error: int  # Kafka's code of the last error by which a broker refused to make it ready, or 0.


class ProducerError(Exception):
    """What a producer tells of."""


class Forked(ProducerError):
    """The producer is the parent process's: open one after the fork."""


class Closed(ProducerError):
    """The producer takes no more records."""


class BufferFull(ProducerError):
    """`buffer_memory` had no room for the record for `max_block` seconds. Send it later."""


class NotReady(ProducerError):
    """No broker has made the producer ready within `max_block` seconds. Send the record later."""


class OpenFailed(NotReady):
    """No broker has made the producer ready within `open_timeout_ms`, and none will: open another one."""

    def __init__(self, code: int) -> None:
        super().__init__(code)
        self.code = code  # Kafka's error code of the last refusal; 0 where there was none.
        self.name = error_name(code) if code else ""

    def __str__(self) -> str:
        why = f"the last error was {self.name or 'error'} ({self.code})" if self.code else "no broker answered"
        return f"the producer was not made ready in time: {why}"


class Spent(ProducerError):
    """Each of the producer's 2,147,483,646 requests went out, or every number of the partition's records was used: open another
    producer. What this one was sent is told of."""


class RecordRefused(ProducerError, ValueError):
    """The record can't be sent: there is no such partition, or its parts are no record's."""


class RecordTooLarge(RecordRefused):
    """The record has more bytes than a request may have (`max_request_size`)."""


class NotDelivered(ProducerError):
    """The record is not known to stand in the log: it is one of the three classes below."""

    def __init__(self, report: Report, record: Record) -> None:
        super().__init__(report, record)
        self.report = report
        self.record = record

    def __str__(self) -> str:
        report = self.report
        error = f" by {report.error_name or 'error'} ({report.error})" if report.error else ""
        return f"partition {report.partition}: {report.outcome.words}{error}: {report.advice}"


class NotSent(NotDelivered):
    """The record was never sent."""


class MayStand(NotDelivered):
    """The record was sent and given up before an answer came: it may stand in the log or not."""


class Rejected(NotDelivered):
    """A broker refused the record's batch for good; `report.error` says why."""


class SomeNotDelivered(ProducerError):
    """Of values that were sent together some are not known to stand in the log."""

    def __init__(self, reports: list[Report | None], errors: dict[int, Exception]) -> None:
        super().__init__(reports, errors)
        self.reports = reports  # By place among the values; None of one that was not accepted.
        self.errors = errors  # By place, of each that was not delivered.

    def __str__(self) -> str:
        place, first = next(iter(self.errors.items()))
        return f"{len(self.errors)} of {len(self.reports)} values were not delivered; value {place}: {first}"


# Of the outcomes of a record that is not known to stand in the log.
NOT_DELIVERED: dict[Outcome, type[NotDelivered]] = {
    Outcome.UNKNOWN: MayStand,
    Outcome.REJECTED: Rejected,
    Outcome.EXPIRED: NotSent,
    Outcome.FENCED: NotSent,
    Outcome.ENDED: NotSent,
}
