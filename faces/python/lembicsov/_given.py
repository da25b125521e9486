"""What is given to a producer, as the library takes it."""

from __future__ import annotations

import ctypes
import operator
import struct
import time
from typing import Any, Iterable, cast

from ._library import DEFAULTS, FALSE, SIZE, TRUE, Config, Span, Status, native, words_of
from ._values import Bytes, Headers, RecordRefused, Settings

NO_BLOB = FALSE, b"", SIZE(0)
NO_HEADERS = ctypes.byref(Span()), SIZE(0), b"", SIZE(0)


def as_bytes(value: Bytes) -> bytes:
    return value if isinstance(value, bytes) else bytes(memoryview(value))


def spell(values: list[Any]) -> tuple[bytes, bytes]:
    """Values one after the other, and their lengths."""
    return b"".join(values), struct.pack(f"{len(values)}Q", *map(len, values))


def spell_sent(records: list[Any]) -> tuple[bytes, bytes]:
    """The same of the values that records have."""
    return spell([record.sent for record in records])


if native is not None:
    spell = spell_sent = native.spell


def as_blob(value: Bytes | None) -> tuple[Any, bytes, Any]:
    """Whether there is one, its bytes, and how many they are."""
    if value is None:
        return NO_BLOB
    held = as_bytes(value)
    return TRUE, held, SIZE(len(held))


def as_partition(partition: int | None) -> int:
    if partition is not None and not 0 <= operator.index(partition) < 2**31:
        raise RecordRefused(words_of(Status.NO_PARTITION))
    return -1 if partition is None else partition


def moment() -> int:
    """The timestamp of what is sent now."""
    return time.time_ns() // 1_000_000


def as_timestamp(timestamp: int | None) -> int:
    if timestamp is not None and not 0 <= operator.index(timestamp) < 2**63:
        raise RecordRefused(words_of(Status.BAD_TIMESTAMP))
    return moment() if timestamp is None else timestamp


def as_headers(headers: Headers) -> tuple[Any, Any, bytes, Any]:
    """The lengths of names and values, how many headers there are, names and values one after the other, and their length."""
    if not headers:
        return NO_HEADERS
    spans = (Span * len(headers))()
    parts: list[bytes] = []
    for span, (name, value) in zip(spans, headers):
        parts += name.encode(), b"" if value is None else as_bytes(value)
        span.name_len, span.value_len, span.has_value = len(parts[-2]), len(parts[-1]), value is not None
    text = b"".join(parts)
    return ctypes.byref(spans), SIZE(len(spans)), text, SIZE(len(text))


def as_addresses(bootstrap: str | Iterable[str]) -> bytes:
    """As the library takes them: Kafka has an IPv6 address in brackets."""
    text = bootstrap if isinstance(bootstrap, str) else ",".join(bootstrap)
    return text.translate({ord(mark): None for mark in "[] "}).encode()


def as_config(settings: Settings) -> Config:
    config = Config(**DEFAULTS)
    for name, value in cast("dict[str, int]", settings).items():
        if name not in DEFAULTS:
            raise TypeError(f"a producer has no setting {name}")
        if not 0 <= operator.index(value) < 2**64:
            raise ValueError(f"{name} is out of range")
        setattr(config, name, value)
    return config
