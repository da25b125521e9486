//! What became of a record.

use crate::ffi;
use std::fmt;

/// The place of an accepted record among those of its partition.
#[derive(Clone, Copy, Debug, PartialEq, Eq, Hash)]
#[repr(C)] // That of `kp_ticket`.
pub struct Ticket {
    /// How many records this producer had accepted for the partition before it.
    pub number: u64,
    /// The partition that it goes to.
    pub partition: u32,
}

/// What became of the record with a ticket. Each accepted record has one.
#[derive(Clone, Copy, Debug, PartialEq, Eq)]
pub struct Report {
    /// That of the record.
    pub ticket: Ticket,
    /// What became of it.
    pub outcome: Outcome,
}

/// What became of a record. Its words are the library's; [`Outcome::advice`] tells what to do.
#[derive(Clone, Copy, Debug, PartialEq, Eq)]
pub enum Outcome {
    /// It stands in the log.
    Delivered {
        /// Where in its partition's log.
        offset: i64,
    },
    /// It stands in the log, at an offset that the broker no longer knows.
    DeliveredNoOffset,
    /// It was sent, and given up before an answer came: it may stand in the log or not.
    Unknown,
    /// The broker refused its batch for good. It may stand in the log or not, where an earlier attempt was lost.
    Rejected(ErrorCode),
    /// It was never sent: the delivery timeout was over.
    Expired,
    /// It was never sent: an earlier record of its partition was rejected, or its end is unknown.
    Fenced,
    /// It was never sent: the producer was ended.
    Ended,
}

impl Outcome {
    /// Whether the record stands in the log.
    pub fn is_delivered(self) -> bool {
        matches!(self, Outcome::Delivered { .. } | Outcome::DeliveredNoOffset)
    }

    /// What to do about it.
    pub fn advice(self) -> &'static str {
        match self {
            Outcome::Delivered { .. } | Outcome::DeliveredNoOffset => "nothing is to be done",
            Outcome::Unknown => "send it again only where a second one does no harm, or look for it in the log first",
            Outcome::Rejected(_) => "look at the error code; its partition takes no more from this producer: build another one",
            Outcome::Expired => "send it again, or give it up",
            Outcome::Fenced => "send it with another producer, once it is known what became of the earlier one",
            Outcome::Ended => "send it with another producer",
        }
    }
}

impl fmt::Display for Outcome {
    fn fmt(&self, f: &mut fmt::Formatter<'_>) -> fmt::Result {
        let number = match self {
            Outcome::Delivered { .. } => 0,
            Outcome::DeliveredNoOffset => 1,
            Outcome::Unknown => 2,
            Outcome::Rejected(code) => return write!(f, "{}: {code}", ffi::outcome_words(3)),
            Outcome::Expired => 4,
            Outcome::Fenced => 5,
            Outcome::Ended => 6,
        };
        f.write_str(&ffi::outcome_words(number))
    }
}

/// Reports that go on with each other, as those of a batch do.
#[derive(Debug)]
pub(crate) struct Run {
    /// The one that is given next, where any is left.
    next: Report,
    left: u64,
}

impl From<&ffi::Run> for Run {
    fn from(told: &ffi::Run) -> Run {
        let outcome = match told.outcome {
            0 => Outcome::Delivered { offset: told.detail },
            1 => Outcome::DeliveredNoOffset,
            3 => Outcome::Rejected(ErrorCode(told.detail as i32)),
            4 => Outcome::Expired,
            5 => Outcome::Fenced,
            6 => Outcome::Ended,
            _ => Outcome::Unknown,
        };
        let next = Report { ticket: Ticket { number: told.number, partition: told.partition }, outcome };
        Run { next, left: told.count }
    }
}

impl Run {
    /// Whether each was given.
    pub(crate) fn is_over(&self) -> bool {
        self.left == 0
    }
}

impl Iterator for Run {
    type Item = Report;

    fn next(&mut self) -> Option<Report> {
        self.left = self.left.checked_sub(1)?;
        let told = self.next;
        // Behind the last one there may be no number.
        self.next.ticket.number = told.ticket.number.wrapping_add(1);
        if let Outcome::Delivered { offset } = &mut self.next.outcome {
            *offset = offset.wrapping_add(1);
        }
        Some(told)
    }
}

/// An error code of a broker (protocol guide, "Error Codes").
#[derive(Clone, Copy, Debug, PartialEq, Eq, Hash)]
pub struct ErrorCode(pub i32);

impl ErrorCode {
    /// Kafka's name of it, as `MESSAGE_TOO_LARGE`; that of an unknown one is empty.
    pub fn name(self) -> String {
        ffi::error_name(self.0)
    }
}

impl fmt::Display for ErrorCode {
    fn fmt(&self, f: &mut fmt::Formatter<'_>) -> fmt::Result {
        write!(f, "error code {} {}", self.0, self.name())
    }
}
