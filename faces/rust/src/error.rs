//! What goes wrong.

use crate::ffi::status;
use crate::{ErrorCode, Record};
use std::error::Error;
use std::fmt;

/// A record is not accepted: why, and the record itself.
#[derive(Clone, Debug, PartialEq, Eq)]
pub struct SendError {
    /// The record, as it was given.
    pub record: Record,
    /// Why it is not accepted.
    pub kind: SendErrorKind,
}

/// Some values of a batch are not accepted.
#[derive(Clone, Copy, Debug, PartialEq, Eq)]
pub struct BatchError {
    /// How many of the first were accepted. They have reports.
    pub accepted: usize,
    /// Why the one behind them is not accepted.
    pub kind: SendErrorKind,
}

/// Why a record is not accepted. It was not sent, and has no report.
#[derive(Clone, Copy, Debug, PartialEq, Eq)]
#[non_exhaustive]
pub enum SendErrorKind {
    /// No broker has made the producer ready within `max_block`: it may be sent again.
    NotReady,
    /// No broker has made the producer ready within `open_timeout`, and none will: build another one. With it the last refusal
    /// of a broker, if there was one.
    Failed(Option<ErrorCode>),
    /// `buffer_memory` was full for all of `max_block`: it may be sent again.
    BufferFull,
    /// Memory was wanting for all of `max_block`: it may be sent again.
    OutOfMemory,
    /// The topic has no such partition.
    NoPartition,
    /// It is larger than `max_request_size`.
    TooLarge,
    /// Its timestamp is before 1970.
    BadTimestamp,
    /// Each of the producer's 2,147,483,646 requests went out, or every number of the partition's records was used: build another
    /// producer. What this one was sent is told of.
    Spent,
    /// The producer is closed.
    Closed,
    /// This process was forked from the one that has built the producer: build one in each process.
    Forked,
}

impl SendErrorKind {
    pub(crate) fn of(number: i32) -> SendErrorKind {
        match number {
            status::OUT_OF_MEMORY => SendErrorKind::OutOfMemory,
            status::NOT_READY => SendErrorKind::NotReady,
            status::NO_PARTITION => SendErrorKind::NoPartition,
            status::TOO_LARGE => SendErrorKind::TooLarge,
            status::BUFFER_FULL => SendErrorKind::BufferFull,
            status::SPENT => SendErrorKind::Spent,
            status::BAD_TIMESTAMP => SendErrorKind::BadTimestamp,
            _ => SendErrorKind::Closed,
        }
    }

    /// Whether the same record may be accepted later by the same producer.
    pub fn is_passing(self) -> bool {
        matches!(self, SendErrorKind::NotReady | SendErrorKind::BufferFull | SendErrorKind::OutOfMemory)
    }
}

impl fmt::Display for SendErrorKind {
    fn fmt(&self, f: &mut fmt::Formatter<'_>) -> fmt::Result {
        f.write_str(match self {
            SendErrorKind::NotReady => "the producer is not ready",
            SendErrorKind::Failed(None) => "no broker could be used in time",
            SendErrorKind::Failed(Some(code)) => return write!(f, "no broker could be used in time: {code}"),
            SendErrorKind::BufferFull => "the buffer is full",
            SendErrorKind::OutOfMemory => "out of memory",
            SendErrorKind::NoPartition => "there is no such partition",
            SendErrorKind::TooLarge => "the record is too large",
            SendErrorKind::BadTimestamp => "the timestamp is before 1970",
            SendErrorKind::Spent => "every correlation id, or every number of the partition's records, was used",
            SendErrorKind::Closed => "the producer is closed",
            SendErrorKind::Forked => "the producer belongs to the process that this one was forked from",
        })
    }
}

impl fmt::Display for SendError {
    fn fmt(&self, f: &mut fmt::Formatter<'_>) -> fmt::Result {
        write!(f, "a record is not accepted: {}", self.kind)
    }
}

impl Error for SendErrorKind {}

impl Error for SendError {}

impl fmt::Display for BatchError {
    fn fmt(&self, f: &mut fmt::Formatter<'_>) -> fmt::Result {
        write!(f, "the value behind {} accepted ones is not accepted: {}", self.accepted, self.kind)
    }
}

impl Error for BatchError {}

/// `flush` or `close` has not waited to the end.
#[derive(Clone, Copy, Debug, PartialEq, Eq)]
#[non_exhaustive]
pub enum WaitError {
    /// The timeout is over.
    TimedOut {
        /// How many records had no report then. After `close` they have one: they were given up.
        open: u64,
    },
    /// This process was forked from the one that has built the producer: build one in each process.
    Forked,
}

impl fmt::Display for WaitError {
    fn fmt(&self, f: &mut fmt::Formatter<'_>) -> fmt::Result {
        match self {
            WaitError::TimedOut { open } => write!(f, "the timeout is over, and {open} records were open"),
            WaitError::Forked => SendErrorKind::Forked.fmt(f),
        }
    }
}

impl Error for WaitError {}
