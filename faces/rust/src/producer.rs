//! The handle.

use crate::ffi::Core;
use crate::record::Headers;
use crate::report::Run;
use crate::shared::{millis, Inner, Shared};
use crate::{BatchError, Builder, Record, RecordRef, Report, SendError, SendErrorKind, Ticket, WaitError};
use std::collections::VecDeque;
use std::mem;
use std::sync::{Arc, Mutex, PoisonError};
use std::thread::JoinHandle;
use std::time::Duration;

/// A producer of one topic. It is a handle, to be cloned over threads.
///
/// Where the last handle is dropped, or the process ends, before [`close`](Producer::close), what is left is given up, and
/// [`Builder::on_warning`] is told how many records were open.
#[derive(Clone, Debug)]
pub struct Producer {
    owner: Arc<Owner>,
}

/// What the handles have together.
#[derive(Debug)]
struct Owner {
    shared: Arc<Shared>,
    host: Mutex<Option<JoinHandle<()>>>,
}

impl Producer {
    /// Begins to build a producer of a topic, which finds its brokers by `"host:port,host:port"`.
    pub fn builder(bootstrap: impl Into<String>, topic: impl Into<String>) -> Builder {
        Builder::new(bootstrap.into(), topic.into())
    }

    pub(crate) fn new(shared: Arc<Shared>, host: JoinHandle<()>) -> Producer {
        Producer { owner: Arc::new(Owner { shared, host: Mutex::new(Some(host)) }) }
    }

    #[inline]
    fn shared(&self) -> &Shared {
        &self.owner.shared
    }

    /// Accepts a record, whose report comes later. It waits where the producer is not ready, or its buffer is full, for `max_block` at
    /// most, and not at all in a callback.
    ///
    /// # Errors
    ///
    /// The record is not sent, and comes back, with the reason.
    #[inline(always)]
    pub fn send(&self, record: Record) -> Result<Ticket, SendError> {
        let headers = record.spelled_headers();
        self.accept(&record.lend(), &headers).map_err(|kind| SendError { record, kind })
    }

    /// Accepts a record as [`send`](Producer::send) does, whose bytes stay the caller's, so that none are moved to memory of its own
    /// before.
    ///
    /// # Errors
    ///
    /// The record is not sent, for this reason.
    #[inline(always)]
    pub fn send_ref(&self, record: RecordRef<'_>) -> Result<Ticket, SendErrorKind> {
        self.accept(&record, &record.spelled_headers())
    }

    #[inline(always)]
    fn accept(&self, record: &RecordRef<'_>, headers: &Headers) -> Result<Ticket, SendErrorKind> {
        let call = |core: &mut Core, now| core.send(record, headers, record.timestamp_ms.unwrap_or(now));
        self.shared().accept(record.size(), call)
    }

    /// Accepts values for a partition, or for each in turn, as records without keys and headers: as `send` of each, at less cost. Their
    /// tickets are not told: the numbers of a partition go up by one with each record that is accepted for it.
    ///
    /// # Errors
    ///
    /// Only some of the first values are accepted.
    pub fn send_batch(&self, partition: Option<u32>, values: &[&[u8]]) -> Result<(), BatchError> {
        let bytes = values.concat();
        let lengths: Vec<u64> = values.iter().map(|it| it.len() as u64).collect();
        let (mut accepted, mut at) = (0, 0);
        let sent = self.shared().accept(bytes.len(), |core, now| {
            let (count, sent) = core.send_batch(partition, &bytes[at..], &lengths[accepted..], now);
            at += values[accepted..][..count].iter().map(|it| it.len()).sum::<usize>();
            accepted += count;
            sent
        });
        sent.map_err(|kind| BatchError { accepted, kind })
    }

    /// The reports that come, the oldest first, of which each is given once, to whoever fetches it. The iterator ends when the
    /// producer has, and at once where [`Builder::on_report`] has a callback. It takes as many as there are, and what it has not
    /// given it puts back when it is dropped. Reports that nobody fetches stay, at 40 bytes for those of a batch.
    pub fn reports(&self) -> Reports<'_> {
        Reports { shared: self.shared(), timeout_ms: u64::MAX, fetched: VecDeque::new() }
    }

    /// Has all that was accepted go out, without lingering, and waits until all of it has its report, for so long at most.
    ///
    /// # Errors
    ///
    /// The timeout is over. What was accepted still goes out.
    pub fn flush(&self, timeout: Duration) -> Result<(), WaitError> {
        let shared = self.shared();
        if shared.is_forked() {
            return Err(WaitError::Forked);
        }
        let mut inner = shared.lock();
        inner.core.flush();
        inner.flushing += 1;
        shared.look(inner);
        let is_flushed = |it: &mut Inner| !it.is_telling && it.core.state().is_flushed;
        let mut inner = shared.wait_until(shared.lock(), shared.until(millis(timeout)), is_flushed);
        inner.flushing -= 1;
        let flushed = if is_flushed(&mut inner) { Ok(()) } else { inner.all_told() };
        if inner.flushing == 0 && inner.held_back > 0 {
            // Those that are held back have flushed nothing meanwhile.
            inner.news += 1;
            shared.stir(inner);
        }
        flushed
    }

    /// Accepts nothing more, and waits until all that was accepted has its report, for so long at most: what is left then is given
    /// up, and has its report when this returns. Called in a callback it does not wait, and gives nothing up.
    ///
    /// # Errors
    ///
    /// The timeout is over, and records were given up.
    pub fn close(&self, timeout: Duration) -> Result<(), WaitError> {
        let shared = self.shared();
        if shared.is_forked() {
            return Err(WaitError::Forked);
        }
        let mut inner = shared.lock();
        inner.core.close();
        inner.is_closed = true;
        inner.news += 1;
        shared.ring(inner);
        shared.stir(shared.lock());
        let mut inner = shared.wait_until(shared.lock(), shared.until(millis(timeout)), |_| false);
        let closed = inner.all_told();
        if !shared.is_within() {
            inner.gives_up = true;
            shared.ring(inner);
            drop(shared.wait_until(shared.lock(), u64::MAX, |_| false));
            self.owner.join();
        }
        closed
    }

    /// How many accepted records have no report yet; none in a forked process.
    pub fn open_records(&self) -> u64 {
        match self.shared().is_forked() {
            true => 0,
            false => self.shared().lock().core.state().untold,
        }
    }
}

impl Owner {
    /// Waits until the host's thread is gone.
    fn join(&self) {
        let host = self.host.lock().unwrap_or_else(PoisonError::into_inner).take();
        let _ = host.map(JoinHandle::join);
    }
}

impl Drop for Owner {
    fn drop(&mut self) {
        if self.shared.is_forked() {
            // The thread is not of this process.
            mem::forget(self.host.get_mut().map(Option::take));
        } else {
            self.shared.abandon();
            if !self.shared.is_within() {
                self.join();
            }
        }
    }
}

/// Reports, which are waited for: see [`Producer::reports`].
#[derive(Debug)]
pub struct Reports<'a> {
    shared: &'a Shared,
    timeout_ms: u64,
    fetched: VecDeque<Run>,
}

impl Reports<'_> {
    /// The iterator ends too where for so long no report comes.
    #[must_use]
    pub fn timeout(mut self, timeout: Duration) -> Self {
        self.timeout_ms = millis(timeout);
        self
    }
}

impl Iterator for Reports<'_> {
    type Item = Report;

    fn next(&mut self) -> Option<Report> {
        if self.fetched.is_empty() {
            self.fetched = self.shared.fetch(self.timeout_ms);
        }
        let run = self.fetched.front_mut()?;
        let report = run.next();
        if run.is_over() {
            self.fetched.pop_front();
        }
        report
    }
}

impl Drop for Reports<'_> {
    fn drop(&mut self) {
        self.shared.put_back(mem::take(&mut self.fetched));
    }
}
