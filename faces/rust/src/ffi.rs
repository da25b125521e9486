//! The C library's calls, and those of the system that std has no words for: all of the crate's unsafe code.

use crate::record::Headers;
use crate::{RecordRef, Ticket};
use std::ffi::{c_int, c_short, c_ulong, c_void};
use std::io;
use std::mem;
use std::os::fd::{AsRawFd, BorrowedFd, RawFd};
use std::ptr;
use std::sync::atomic::{AtomicU32, Ordering};
use std::sync::Once;

/// The statuses of `kp.h` that are told apart.
pub(crate) mod status {
    pub(crate) const OK: i32 = 0;
    pub(crate) const OUT_OF_MEMORY: i32 = 2;
    pub(crate) const NOT_READY: i32 = 4;
    pub(crate) const NO_PARTITION: i32 = 5;
    pub(crate) const TOO_LARGE: i32 = 6;
    pub(crate) const BUFFER_FULL: i32 = 7;
    pub(crate) const SPENT: i32 = 8;
    pub(crate) const BAD_TIMESTAMP: i32 = 13;
}

/// `kp_producer`.
#[derive(Debug)]
#[repr(C)]
struct Handle {
    at: *mut c_void,
    full: bool,
}

/// `kp_config`.
#[derive(Clone, Debug)]
#[repr(C)]
pub(crate) struct Config {
    pub(crate) batch_size: u64,
    pub(crate) linger_ms: u64,
    pub(crate) buffer_memory: u64,
    pub(crate) max_request_size: u64,
    pub(crate) request_timeout_ms: u64,
    pub(crate) delivery_timeout_ms: u64,
    pub(crate) retry_backoff_ms: u64,
    pub(crate) max_in_flight: u64,
    pub(crate) sequence_limit: u64,
    pub(crate) reconnect_backoff_ms: u64,
    pub(crate) reconnect_backoff_max_ms: u64,
    pub(crate) metadata_max_age_ms: u64,
    pub(crate) open_timeout_ms: u64,
    pub(crate) keep_to_one: u64,
}

/// `KP_CONFIG_DEFAULT`.
pub(crate) const DEFAULT: Config = Config {
    batch_size: 16384,
    linger_ms: 0,
    buffer_memory: 33_554_432,
    max_request_size: 1_048_576,
    request_timeout_ms: 30_000,
    delivery_timeout_ms: 120_000,
    retry_backoff_ms: 100,
    max_in_flight: 5,
    sequence_limit: 2_147_483_648,
    reconnect_backoff_ms: 50,
    reconnect_backoff_max_ms: 1000,
    metadata_max_age_ms: 300_000,
    open_timeout_ms: 60_000,
    keep_to_one: 0,
};

/// `kp_action`.
#[derive(Default)]
#[repr(C)]
pub(crate) struct Action {
    pub(crate) kind: u32,
    pub(crate) node: u32,
}

/// `KP_CONNECT` and `KP_CLOSE`.
pub(crate) const CONNECT: u32 = 1;
pub(crate) const CLOSE: u32 = 2;

/// `kp_span`.
#[derive(Clone, Copy, Debug)]
#[repr(C)]
pub(crate) struct Span {
    name_len: u64,
    value_len: u64,
    has_value: bool,
}

impl Span {
    pub(crate) fn of(name_len: usize, value_len: Option<usize>) -> Span {
        Span { name_len: name_len as u64, value_len: value_len.unwrap_or(0) as u64, has_value: value_len.is_some() }
    }
}

/// `kp_report_run`.
#[derive(Clone, Copy, Debug, Default)]
#[repr(C)]
pub(crate) struct Run {
    pub(crate) number: u64,
    pub(crate) detail: i64,
    pub(crate) count: u64,
    pub(crate) partition: u32,
    pub(crate) outcome: u32,
}

/// `kp_state`.
#[derive(Debug, Default)]
#[repr(C)]
pub(crate) struct State {
    pub(crate) untold: u64,
    pub(crate) buffer_used: u64,
    pub(crate) requests_in_flight: u64,
    pub(crate) nodes: u64,
    pub(crate) partitions: u64,
    pub(crate) phase: u32,
    pub(crate) refused: i32,
    pub(crate) is_flushed: bool,
}

impl State {
    /// Whether all that is open is one record, which is on its way.
    pub(crate) fn is_only_one(&self) -> bool {
        self.untold == 1 && self.requests_in_flight == 1
    }
}

/// `KP_FAILED`.
pub(crate) const FAILED: u32 = 2;

/// `KP_SPENT`.
pub(crate) const SPENT: u32 = 3;

// SAFETY: these are the declarations of `kp.h` and of the C library. The safe ones take whatever their types allow: a handle is none
// or holds a producer that is its alone, since nothing else makes one, and calls on either return.
unsafe extern "C" {
    fn kp_producer_new(
        producer: &mut Handle, config: &Config, topic: *const u8, topic_len: usize, client: *const u8, client_len: usize,
        addresses: *const u8, addresses_len: usize, seed: u64, now: u64,
    ) -> i32;
    safe fn kp_producer_free(producer: &mut Handle);
    safe fn kp_producer_state(producer: &mut Handle, state: &mut State) -> i32;
    safe fn kp_producer_next_action(producer: &mut Handle, now: u64, action: &mut Action) -> i32;
    fn kp_producer_address(
        producer: &mut Handle, node: u32, host: *mut u8, host_room: usize, host_len: &mut usize, port: &mut u16,
    ) -> i32;
    safe fn kp_producer_connected(producer: &mut Handle, node: u32, now: u64) -> i32;
    safe fn kp_producer_lost(producer: &mut Handle, node: u32, now: u64) -> i32;
    fn kp_producer_take(producer: &mut Handle, node: u32, now: u64, room: *mut u8, room_len: usize, count: &mut usize) -> i32;
    fn kp_producer_feed(producer: &mut Handle, node: u32, bytes: *const u8, len: usize, now: u64) -> i32;
    safe fn kp_producer_tick(producer: &mut Handle, now: u64) -> i32;
    safe fn kp_producer_next_due(producer: &mut Handle, now: u64) -> u64;
    fn kp_producer_send(
        producer: &mut Handle, partition: i32, has_key: bool, key: *const u8, key_len: usize, has_value: bool, value: *const u8,
        value_len: usize, spans: *const Span, spans_len: usize, headers: *const u8, headers_len: usize, timestamp_ms: i64,
        now: u64, ticket: &mut Ticket,
    ) -> i32;
    fn kp_producer_send_batch(
        producer: &mut Handle, partition: i32, values: *const u8, values_len: usize, lengths: *const u64, lengths_len: usize,
        timestamp_ms: i64, now: u64, accepted: &mut usize,
    ) -> i32;
    fn kp_producer_report_runs(producer: &mut Handle, room: *mut Run, room_len: usize) -> usize;
    safe fn kp_producer_flush(producer: &mut Handle) -> i32;
    safe fn kp_producer_close(producer: &mut Handle) -> i32;
    safe fn kp_producer_end(producer: &mut Handle) -> i32;
    fn kp_status_words(status: i32, room: *mut u8, room_len: usize) -> usize;
    fn kp_outcome_words(outcome: u32, room: *mut u8, room_len: usize) -> usize;
    fn kp_error_name(code: i32, room: *mut u8, room_len: usize) -> usize;

    fn poll(polled: *mut Polled, count: c_ulong, timeout_ms: c_int) -> c_int;
    fn setsockopt(socket: c_int, level: c_int, name: c_int, value: *const c_void, len: u32) -> c_int;
    fn pthread_atfork(prepare: Option<AtFork>, parent: Option<AtFork>, child: Option<AtFork>) -> c_int;
    safe fn atexit(call: extern "C" fn()) -> c_int;
}

type AtFork = extern "C" fn();

/// A producer of the library's. Calls are made one at a time, since they take `&mut self`, and the time that they tell never goes
/// back. In a forked process it is not freed, and all other calls are the owner's to leave out.
#[derive(Debug)]
pub(crate) struct Core {
    handle: Handle,
    now: u64,
    forks: u32,
}

// SAFETY: the library keeps nothing of a thread, and calls may come from different ones, if they are ordered.
unsafe impl Send for Core {}

/// Whether a call was done, or else its status.
#[inline]
fn done(number: i32) -> Result<(), i32> {
    match number {
        status::OK => Ok(()),
        _ => Err(number),
    }
}

/// The library's number of a partition.
#[inline]
fn number_of(partition: Option<u32>) -> Result<i32, i32> {
    partition.map_or(Ok(-1), |it| i32::try_from(it).map_err(|_| status::NO_PARTITION))
}

// SAFETY of the calls below: pointers and lengths are those of slices, which live through the call, and whose pointers are not null
// where they are empty. What is written is borrowed for that alone.
impl Core {
    #[rustfmt::skip]
    pub(crate) fn new(config: &Config, topic: &str, client: &str, addresses: &str, seed: u64) -> Result<Core, i32> {
        let mut core = Core { handle: Handle { at: ptr::null_mut(), full: false }, now: 0, forks: forks() };
        done(unsafe {
            kp_producer_new(
                &mut core.handle, config, topic.as_ptr(), topic.len(), client.as_ptr(), client.len(),
                addresses.as_ptr(), addresses.len(), seed, core.now,
            )
        })?;
        Ok(core)
    }

    /// The time of the calls that follow, in milliseconds, where it is not before that of those that were made.
    pub(crate) fn set_now(&mut self, now: u64) {
        self.now = self.now.max(now);
    }

    #[inline]
    pub(crate) fn now(&self) -> u64 {
        self.now
    }

    pub(crate) fn state(&mut self) -> State {
        let mut state = State::default();
        kp_producer_state(&mut self.handle, &mut state);
        state
    }

    pub(crate) fn next_action(&mut self) -> Action {
        let mut action = Action::default();
        kp_producer_next_action(&mut self.handle, self.now, &mut action);
        action
    }

    /// The host and port of a node; of none both are empty.
    pub(crate) fn address(&mut self, node: u32) -> (String, u16) {
        let (mut host, mut len, mut port) = ([0; 1024], 0, 0);
        unsafe { kp_producer_address(&mut self.handle, node, host.as_mut_ptr(), host.len(), &mut len, &mut port) };
        (String::from_utf8_lossy(&host[..len]).into_owned(), port)
    }

    pub(crate) fn connected(&mut self, node: u32) -> Result<(), i32> {
        done(kp_producer_connected(&mut self.handle, node, self.now))
    }

    pub(crate) fn lost(&mut self, node: u32) {
        kp_producer_lost(&mut self.handle, node, self.now);
    }

    pub(crate) fn take(&mut self, node: u32, room: &mut [u8]) -> Result<usize, i32> {
        let mut count = 0;
        done(unsafe { kp_producer_take(&mut self.handle, node, self.now, room.as_mut_ptr(), room.len(), &mut count) })?;
        Ok(count)
    }

    /// Where it is refused, the library tells to close the connection.
    pub(crate) fn feed(&mut self, node: u32, bytes: &[u8]) {
        unsafe { kp_producer_feed(&mut self.handle, node, bytes.as_ptr(), bytes.len(), self.now) };
    }

    pub(crate) fn tick(&mut self) {
        kp_producer_tick(&mut self.handle, self.now);
    }

    pub(crate) fn next_due(&mut self) -> u64 {
        kp_producer_next_due(&mut self.handle, self.now)
    }

    #[inline(always)]
    #[rustfmt::skip]
    pub(crate) fn send(&mut self, record: &RecordRef<'_>, (spans, headers): &Headers, timestamp_ms: i64) -> Result<Ticket, i32> {
        let partition = number_of(record.partition)?;
        let (key, value) = (record.key.unwrap_or_default(), record.value.unwrap_or_default());
        let mut ticket = Ticket { number: 0, partition: 0 };
        done(unsafe {
            kp_producer_send(
                &mut self.handle, partition, record.key.is_some(), key.as_ptr(), key.len(),
                record.value.is_some(), value.as_ptr(), value.len(), spans.as_ptr(), spans.len(),
                headers.as_ptr(), headers.len(), timestamp_ms, self.now, &mut ticket,
            )
        })?;
        Ok(ticket)
    }

    /// How many of the values were accepted, and whether all are.
    #[rustfmt::skip]
    pub(crate) fn send_batch(
        &mut self, partition: Option<u32>, values: &[u8], lengths: &[u64], timestamp_ms: i64,
    ) -> (usize, Result<(), i32>) {
        let mut accepted = 0;
        let sent = number_of(partition).and_then(|partition| done(unsafe {
            kp_producer_send_batch(
                &mut self.handle, partition, values.as_ptr(), values.len(), lengths.as_ptr(), lengths.len(),
                timestamp_ms, self.now, &mut accepted,
            )
        }));
        (accepted, sent)
    }

    /// How many runs were fetched. They are of as many reports as there are and the room has places.
    pub(crate) fn runs(&mut self, room: &mut [Run]) -> usize {
        unsafe { kp_producer_report_runs(&mut self.handle, room.as_mut_ptr(), room.len()) }
    }

    pub(crate) fn flush(&mut self) {
        kp_producer_flush(&mut self.handle);
    }

    pub(crate) fn close(&mut self) {
        kp_producer_close(&mut self.handle);
    }

    pub(crate) fn end(&mut self) {
        kp_producer_end(&mut self.handle);
    }
}

impl Drop for Core {
    fn drop(&mut self) {
        if self.forks == forks() {
            kp_producer_free(&mut self.handle);
        }
    }
}

// ---- words

fn words(write: impl Fn(*mut u8, usize) -> usize) -> String {
    let mut room = [0; 256];
    let len = write(room.as_mut_ptr(), room.len());
    String::from_utf8_lossy(&room[..len]).into_owned()
}

pub(crate) fn status_words(number: i32) -> String {
    words(|room, len| unsafe { kp_status_words(number, room, len) })
}

pub(crate) fn outcome_words(number: u32) -> String {
    words(|room, len| unsafe { kp_outcome_words(number, room, len) })
}

pub(crate) fn error_name(code: i32) -> String {
    words(|room, len| unsafe { kp_error_name(code, room, len) })
}

// ---- the system

/// `struct pollfd`. A descriptor below 0 is passed over.
#[derive(Clone, Copy, Debug)]
#[repr(C)]
pub(crate) struct Polled {
    descriptor: RawFd,
    events: c_short,
    revents: c_short,
}

const POLLIN: c_short = 1;
const POLLOUT: c_short = 4;

impl Polled {
    pub(crate) fn none() -> Polled {
        Polled { descriptor: -1, events: 0, revents: 0 }
    }

    /// What is to be read is awaited, and room to write where it is wanted.
    pub(crate) fn of(descriptor: BorrowedFd<'_>, wants_to_write: bool) -> Polled {
        let events = if wants_to_write { POLLIN | POLLOUT } else { POLLIN };
        Polled { descriptor: descriptor.as_raw_fd(), events, revents: 0 }
    }

    /// Whether there is something to read, an end and a fault among it.
    pub(crate) fn may_be_read(&self) -> bool {
        self.revents & !POLLOUT != 0
    }

    pub(crate) fn is_ready(&self) -> bool {
        self.revents != 0
    }
}

/// Waits until one of them is ready, for so many milliseconds at most, and tells how many are. Where it fails, none is told as ready.
pub(crate) fn wait_for(polled: &mut [Polled], timeout_ms: u64) -> usize {
    let timeout = c_int::try_from(timeout_ms).unwrap_or(c_int::MAX);
    // SAFETY: the slice is of so many elements of C's layout.
    let count = unsafe { poll(polled.as_mut_ptr(), polled.len() as c_ulong, timeout) };
    usize::try_from(count).unwrap_or(0)
}

/// Has the system look, from time to time, whether a peer that says nothing is still there.
pub(crate) fn set_keepalive(socket: BorrowedFd<'_>) -> io::Result<()> {
    const SOL_SOCKET: c_int = 1;
    const SO_KEEPALIVE: c_int = 9;
    let (on, len): (c_int, _) = (1, mem::size_of::<c_int>() as u32);
    // SAFETY: the option's value is an int, which lives through the call.
    match unsafe { setsockopt(socket.as_raw_fd(), SOL_SOCKET, SO_KEEPALIVE, (&raw const on).cast(), len) } {
        0 => Ok(()),
        _ => Err(io::Error::last_os_error()),
    }
}

static FORKS: AtomicU32 = AtomicU32::new(0);

extern "C" fn count_fork() {
    FORKS.fetch_add(1, Ordering::Relaxed);
}

/// How many forks are between this process and the first of its line that has called `watch`.
#[inline]
pub(crate) fn forks() -> u32 {
    FORKS.load(Ordering::Relaxed)
}

/// Has forks counted from now on, and this called when the process ends by `exit` or a return of `main`.
pub(crate) fn watch(at_exit: extern "C" fn()) {
    static ONCE: Once = Once::new();
    ONCE.call_once(|| {
        // SAFETY: what is called in a forked process only counts.
        unsafe { pthread_atfork(None, None, Some(count_fork)) };
        atexit(at_exit);
    });
}
