"""The C library by ctypes: its structs, its calls and its words, as `kp.h` has them."""

from __future__ import annotations

import ctypes
import os
from contextlib import suppress
from ctypes import POINTER, c_bool, c_char_p, c_int32, c_int64, c_size_t, c_uint8, c_uint16, c_uint32, c_uint64, c_void_p
from pathlib import Path
from typing import Any, Callable


class Status:
    """Those of the statuses that this package tells apart; `words_of` has each in words."""

    OK, NO_PRODUCER, OUT_OF_MEMORY, CLOSED, NOT_READY, NO_PARTITION, TOO_LARGE, BUFFER_FULL, SPENT = range(9)
    NO_CONNECTION, BAD_TIMESTAMP = 10, 13


class Handle(ctypes.Structure):
    _fields_ = [("at", c_void_p), ("full", c_bool)]


class Action(ctypes.Structure):
    NOTHING, CONNECT, CLOSE = range(3)
    _fields_ = [("kind", c_uint32), ("node", c_uint32)]


class Ticket(ctypes.Structure):
    _fields_ = [("number", c_uint64), ("partition", c_uint32)]


class Span(ctypes.Structure):
    _fields_ = [("name_len", c_uint64), ("value_len", c_uint64), ("has_value", c_bool)]


class State(ctypes.Structure):
    OPENING, READY, FAILED, SPENT = range(4)
    _fields_ = [
        *((name, c_uint64) for name in ("untold", "buffer_used", "requests_in_flight", "nodes", "partitions")),
        ("phase", c_uint32),
        ("refused", c_int32),
        ("is_flushed", c_bool),
    ]


DEFAULTS = {
    "batch_size": 16_384,
    "linger_ms": 0,
    "buffer_memory": 33_554_432,
    "max_request_size": 1_048_576,
    "request_timeout_ms": 30_000,
    "delivery_timeout_ms": 120_000,
    "retry_backoff_ms": 100,
    "max_in_flight_requests_per_connection": 5,
    "sequence_limit": 2_147_483_648,
    "reconnect_backoff_ms": 50,
    "reconnect_backoff_max_ms": 1_000,
    "metadata_max_age_ms": 300_000,
    "open_timeout_ms": 60_000,
    "keep_to_one": 0,
}


class Config(ctypes.Structure):
    _fields_ = [(name, c_uint64) for name in DEFAULTS]


HANDLE = POINTER(Handle)
BYTES = c_char_p, c_size_t
ROOM = c_void_p, c_size_t  # What ctypes made, `bytes`, or an address.
NOW = c_uint64

# What ctypes makes of an argument. A call is faster that is given these, of which those that stay the same are made once for all.
INT32, SIZE, INT64, UINT64 = (kind.from_param for kind in (c_int32, c_size_t, c_int64, c_uint64))
FALSE, TRUE = c_bool.from_param(False), c_bool.from_param(True)

# By call its result and its arguments.
CALLS: dict[str, tuple[Any, list[Any] | None]] = {
    "kp_producer_new": (c_int32, [HANDLE, POINTER(Config), *BYTES, *BYTES, *BYTES, c_uint64, NOW]),
    "kp_producer_free": (None, [HANDLE]),
    "kp_producer_state": (c_int32, [HANDLE, POINTER(State)]),
    "kp_producer_next_action": (c_int32, [HANDLE, NOW, POINTER(Action)]),
    "kp_producer_address": (c_int32, [HANDLE, c_uint32, *ROOM, POINTER(c_size_t), POINTER(c_uint16)]),
    "kp_producer_connected": (c_int32, [HANDLE, c_uint32, NOW]),
    "kp_producer_lost": (c_int32, [HANDLE, c_uint32, NOW]),
    "kp_producer_take": (c_int32, [HANDLE, c_uint32, NOW, *ROOM, POINTER(c_size_t)]),
    "kp_producer_feed": (c_int32, [HANDLE, c_uint32, *ROOM, NOW]),
    "kp_producer_tick": (c_int32, [HANDLE, NOW]),
    "kp_producer_next_due": (c_uint64, [HANDLE, NOW]),
    "kp_producer_send": (c_int32, None),  # It is given what the functions above make.
    "kp_producer_send_batch": (c_int32, [HANDLE, c_int32, *BYTES, *ROOM, c_int64, NOW, POINTER(c_size_t)]),
    "kp_producer_report_runs": (c_size_t, [HANDLE, *ROOM]),
    "kp_producer_flush": (c_int32, [HANDLE]),
    "kp_producer_close": (c_int32, [HANDLE]),
    "kp_producer_end": (c_int32, [HANDLE]),
    "kp_status_words": (c_size_t, [c_int32, *ROOM]),
    "kp_outcome_words": (c_size_t, [c_uint32, *ROOM]),
    "kp_error_name": (c_size_t, [c_int32, *ROOM]),
}


def load() -> ctypes.PyDLL:
    """The library: the one inside the package, else the one that LEMBICSOV_LIBRARY names, else the loader's.

    No call of it blocks, and each is short, so that the interpreter's lock is kept: to let go of it and wait for it takes longer.
    """
    inside = Path(__file__).with_name("libkp.so")
    name = str(inside) if inside.exists() else os.environ.get("LEMBICSOV_LIBRARY") or "libkp.so"
    try:
        library = ctypes.PyDLL(name)
        for call, (result, arguments) in CALLS.items():
            function = getattr(library, call)
            function.restype, function.argtypes = result, arguments
    except (OSError, AttributeError) as error:
        raise ImportError(
            f"lembicsov needs the shared library libkp.so, which `./library --into DIR` builds, and can't use {name} ({error}): "
            "set LEMBICSOV_LIBRARY to its path, or put it beside the package's files"
        ) from error
    return library


kp = load()

# What `_native.c` calls.
NATIVE = "kp_producer_send", "kp_producer_take", "kp_producer_feed", "kp_producer_report_runs"

native: Any = None  # What `_native.c` has, where it was built.
with suppress(ImportError):
    from . import _native

    _native.use(*(ctypes.cast(getattr(kp, call), c_void_p).value for call in NATIVE))
    native = _native


def _words(call: Callable[..., int], number: int) -> str:
    room = (c_uint8 * 256)()
    return bytes(room[: call(number, room, len(room))]).decode()


def words_of(status: int) -> str:
    """A status in words."""
    return _words(kp.kp_status_words, status)


def outcome_words(outcome: int) -> str:
    """What an outcome says of the record."""
    return _words(kp.kp_outcome_words, outcome)


def error_name(code: int) -> str:
    """Kafka's name of an error code, as `MESSAGE_TOO_LARGE`; nothing of one that Kafka does not have."""
    return _words(kp.kp_error_name, code)
