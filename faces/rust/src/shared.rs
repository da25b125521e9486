//! What the handles of a producer and its host share. Who serves, and what the locks are for, is in [`crate::serving`].

use crate::bell::Bell;
use crate::ffi::{self, Core};
use crate::report::Run;
use crate::service::Service;
use crate::serving::{this_thread, Glances, Seat, MOMENT_MS};
use crate::{ErrorCode, SendErrorKind, WaitError};
use std::collections::VecDeque;
use std::fmt;
use std::mem;
use std::sync::{Arc, Condvar, Mutex, MutexGuard, PoisonError, Weak};
use std::time::{Duration, Instant, SystemTime, UNIX_EPOCH};

/// A duration in whole milliseconds, as the library counts.
pub(crate) fn millis(duration: Duration) -> u64 {
    u64::try_from(duration.as_millis()).unwrap_or(u64::MAX)
}

/// Milliseconds since the beginning of 1970.
fn timestamp_now() -> i64 {
    let since = SystemTime::now().duration_since(UNIX_EPOCH).unwrap_or_default();
    i64::try_from(since.as_millis()).unwrap_or(i64::MAX)
}

/// What is under the producer's lock.
pub(crate) struct Inner {
    pub(crate) core: Core,
    /// When the library is told another time, of which it knows whole milliseconds.
    ticks_at: Instant,
    /// The timestamp of what is accepted at this moment, so that the system's clock is asked for it once a millisecond.
    stamp: (u64, i64),
    /// Reports go to a callback, by the host.
    pub(crate) has_callback: bool,
    /// Reports that nobody has fetched, or that the callback was not given.
    pub(crate) told: VecDeque<Run>,
    /// Reports are on their way to the callback.
    pub(crate) is_telling: bool,
    /// What the host is to tell by the other callback.
    pub(crate) warnings: Vec<String>,

    pub(crate) seat: Seat,
    /// How often the seat was taken or left.
    pub(crate) moves: u64,
    /// Who serves is to look again before it sleeps.
    pub(crate) is_rung: bool,
    /// Who serves looks again at this moment, if nothing wakes it before.
    pub(crate) wakes_at: u64,
    /// About how many bytes were accepted since somebody looked.
    pub(crate) unseen: u64,
    /// The thread that has last sent so much that there may have been a full batch, and when.
    pub(crate) sender: Option<(usize, u64)>,
    /// When a turn was made.
    pub(crate) turned_at: u64,
    /// A sender has written since a turn was made.
    pub(crate) was_helped: bool,
    /// The host waits without a limit until the seat is left.
    pub(crate) is_host_asleep: bool,
    /// The host waits for a moment, and then tells the time.
    pub(crate) is_timed: bool,

    /// How often there was news: reports, another phase, a close.
    pub(crate) news: u64,
    /// There is news, of which those that wait were not told.
    pub(crate) is_new: bool,
    /// How many threads wait and don't serve.
    pub(crate) waiting: usize,
    /// How many threads wait for a flush.
    pub(crate) flushing: usize,
    /// How many threads wait in a `send`.
    pub(crate) held_back: usize,

    /// No record is accepted any more, and nothing is served once all are told of.
    pub(crate) is_closed: bool,
    /// What is left is to be given up.
    pub(crate) gives_up: bool,
    /// Nothing is served any more.
    pub(crate) is_over: bool,
}

impl Inner {
    fn new(core: Core, has_callback: bool, began: Instant) -> Inner {
        Inner {
            core,
            ticks_at: began,
            stamp: (u64::MAX, 0),
            has_callback,
            told: VecDeque::new(),
            is_telling: false,
            warnings: Vec::new(),
            seat: Seat::Vacant,
            moves: 0,
            is_rung: true, // The host begins at once.
            wakes_at: 0,
            unseen: 0,
            sender: None,
            turned_at: 0,
            was_helped: false,
            is_host_asleep: false,
            is_timed: false,
            news: 0,
            is_new: false,
            waiting: 0,
            flushing: 0,
            held_back: 0,
            is_closed: false,
            gives_up: false,
            is_over: false,
        }
    }

    /// The timestamp of what is accepted now.
    #[inline]
    fn timestamp(&mut self) -> i64 {
        let now = self.core.now();
        if self.stamp.0 != now {
            self.stamp = (now, timestamp_now());
        }
        self.stamp.1
    }

    /// Whether nothing more comes.
    pub(crate) fn has_ended(&self) -> bool {
        self.is_over && !self.is_telling
    }

    /// Whether the host is to take the seat, where it is vacant, without leaving others a moment for it.
    pub(crate) fn needs_host(&self) -> bool {
        self.has_callback || (self.is_rung && self.waiting == 0) || self.wakes_at <= self.core.now()
    }

    /// Whether another thread sends so much that it serves.
    pub(crate) fn is_left_to_sender(&self) -> bool {
        self.sender.is_some_and(|(thread, at)| thread != this_thread() && self.core.now() <= at + MOMENT_MS)
    }

    /// Whether an answer may have come, or no turn was made in this millisecond.
    fn may_hear(&mut self) -> bool {
        self.core.state().requests_in_flight > 0 || self.turned_at < self.core.now()
    }

    /// Whether nothing more is accepted, so that all is done once there are no records without a report.
    pub(crate) fn has_no_more_to_come(&self) -> bool {
        self.is_closed || self.gives_up
    }

    /// How many records wait for a report that comes.
    fn open_records(&mut self) -> u64 {
        if self.has_ended() {
            0
        } else {
            self.core.state().untold
        }
    }

    /// It fails where records have no report.
    pub(crate) fn all_told(&mut self) -> Result<(), WaitError> {
        match self.core.state().untold {
            0 => Ok(()),
            open => Err(WaitError::TimedOut { open }),
        }
    }
}

/// The producer's lock, held.
pub(crate) type Held<'a> = MutexGuard<'a, Inner>;

/// What of a producer's settings is not the library's alone.
pub(crate) struct Settings {
    pub(crate) linger_ms: u64,
    pub(crate) batch_size: u64,
    pub(crate) max_block_ms: u64,
    pub(crate) has_callback: bool,
    pub(crate) on_warning: Option<OnWarning>,
}

pub(crate) type OnWarning = Box<dyn Fn(&str) + Send + Sync>;

pub(crate) struct Shared {
    pub(crate) service: Mutex<Service>,
    inner: Mutex<Inner>,
    pub(crate) bell: Arc<Bell>,
    /// There is news, or the seat is vacant: for those that wait and don't serve.
    pub(crate) progress: Condvar,
    /// The seat is vacant, or there is something for the host alone.
    pub(crate) vacancy: Condvar,
    pub(crate) settings: Settings,
    pub(crate) glances: Glances,
    began: Instant,
    forks: u32,
}

impl fmt::Debug for Shared {
    fn fmt(&self, f: &mut fmt::Formatter<'_>) -> fmt::Result {
        f.debug_struct("Shared").finish_non_exhaustive()
    }
}

/// The producers of this process, for what is told when it ends.
static LIVING: Mutex<Vec<Weak<Shared>>> = Mutex::new(Vec::new());

impl Shared {
    pub(crate) fn new(core: Core, service: Service, bell: Arc<Bell>, settings: Settings) -> Arc<Shared> {
        let began = Instant::now();
        let shared = Arc::new(Shared {
            service: Mutex::new(service),
            inner: Mutex::new(Inner::new(core, settings.has_callback, began)),
            bell,
            progress: Condvar::new(),
            vacancy: Condvar::new(),
            settings,
            glances: Glances::default(),
            began,
            forks: ffi::forks(),
        });
        let mut living = LIVING.lock().unwrap_or_else(PoisonError::into_inner);
        living.retain(|it| it.strong_count() > 0);
        living.push(Arc::downgrade(&shared));
        shared
    }

    /// The moment, in milliseconds since the producer was built.
    pub(crate) fn now(&self) -> u64 {
        millis(self.began.elapsed())
    }

    pub(crate) fn lock(&self) -> Held<'_> {
        let now = Instant::now();
        let mut inner = self.inner.lock().unwrap_or_else(PoisonError::into_inner);
        self.tell_time(&mut inner, now);
        inner
    }

    /// As `lock`, for a record: at a time that may be a moment ago.
    #[inline(always)]
    fn lock_soon(&self) -> Held<'_> {
        let mut inner = self.inner.lock().unwrap_or_else(PoisonError::into_inner);
        if !inner.is_timed {
            self.tell_time(&mut inner, Instant::now());
        }
        inner
    }

    /// Tells the library the time, where another millisecond has begun.
    pub(crate) fn tell_time(&self, inner: &mut Inner, now: Instant) {
        if now >= inner.ticks_at {
            let millis = millis(now - self.began);
            inner.core.set_now(millis);
            inner.ticks_at = self.began + Duration::from_millis(millis + 1);
        }
    }

    /// Whether this is another process than that which has built the producer. In it no lock is to be taken: who held it is gone.
    #[inline]
    pub(crate) fn is_forked(&self) -> bool {
        self.forks != ffi::forks()
    }

    pub(crate) fn warn(&self, words: &str) {
        if let Some(on_warning) = &self.settings.on_warning {
            on_warning(words);
        }
    }

    // ---- records and reports

    /// Makes a call that accepts about so many bytes, with the timestamp of the first time, and again for `max_block` where it is
    /// refused for a while.
    #[inline(always)]
    pub(crate) fn accept<T>(
        &self, bytes: usize, mut call: impl FnMut(&mut Core, i64) -> Result<T, i32>,
    ) -> Result<T, SendErrorKind> {
        if self.is_forked() {
            return Err(SendErrorKind::Forked);
        }
        let mut inner = self.lock_soon();
        let (timestamp_ms, mut until) = (inner.timestamp(), None);
        loop {
            match call(&mut inner.core, timestamp_ms) {
                Ok(accepted) => {
                    self.look_at(inner, bytes as u64);
                    return Ok(accepted);
                }
                Err(number) => inner = self.hold_back(inner, number, &mut until)?,
            }
        }
    }

    /// Waits until what was refused, with this number, may be accepted, for `max_block` from the first time on, whose end is noted.
    #[cold]
    fn hold_back<'a>(&'a self, mut inner: Held<'a>, number: i32, until: &mut Option<u64>) -> Result<Held<'a>, SendErrorKind> {
        let kind = kind_of(number, &mut inner.core);
        // Records that linger would keep a buffer full until they have lingered. Who waits for a flush would wait for another one.
        if kind == SendErrorKind::BufferFull && self.settings.linger_ms > 0 && inner.flushing == 0 {
            inner.core.flush();
        }
        let news = inner.news;
        self.look(inner);

        let until = *until.get_or_insert_with(|| self.until(self.settings.max_block_ms));
        let mut inner = self.lock();
        let now = inner.core.now();
        if until <= now || !kind.is_passing() {
            return Err(kind);
        }
        let again = if kind == SendErrorKind::OutOfMemory { until.min(now + 1) } else { until };
        inner.held_back += 1;
        self.wait_until(inner, again, |it| it.news != news).held_back -= 1;
        Ok(self.lock_soon())
    }

    /// Has what was accepted looked at, where there may be a full batch, or it lingers for less long than who serves sleeps.
    #[inline(always)]
    fn look_at(&self, mut inner: Held<'_>, bytes: u64) {
        inner.unseen += bytes;
        let is_full = inner.unseen >= self.settings.batch_size;
        let is_due = inner.core.now().saturating_add(self.settings.linger_ms) < inner.wakes_at;
        if is_full || is_due {
            self.look_now(inner, is_full);
        }
    }

    #[inline(never)]
    fn look_now(&self, mut inner: Held<'_>, is_full: bool) {
        if self.settings.linger_ms == 0 {
            // The first alone is written here. Who serves has the others, many at a time; and it rests where they can't be sent yet,
            // so that not each of them is looked at in vain.
            if mem::replace(&mut inner.was_helped, true) {
                self.ring(inner);
            } else if self.look(inner) {
                self.ring(self.lock());
            }
            return;
        }
        let serves = is_full && !inner.has_callback && !self.is_within();
        if serves {
            inner.sender = Some((this_thread(), inner.core.now()));
        }
        if serves && inner.seat == Seat::Vacant && inner.may_hear() {
            self.serve_between(inner);
        } else {
            self.look(inner);
        }
    }

    /// All reports that nobody has fetched, which are waited for; none where the time is over, or none comes any more.
    pub(crate) fn fetch(&self, timeout_ms: u64) -> VecDeque<Run> {
        if self.is_forked() || self.settings.has_callback {
            return VecDeque::new();
        }
        let mut inner = self.wait_until(self.lock(), self.until(timeout_ms), |it| !it.told.is_empty());
        mem::take(&mut inner.told)
    }

    /// Puts reports back that were fetched, in front of those that came since.
    pub(crate) fn put_back(&self, mut reports: VecDeque<Run>) {
        if !reports.is_empty() && !self.is_forked() {
            let mut inner = self.lock();
            reports.append(&mut inner.told);
            inner.told = reports;
            self.stir(inner);
        }
    }

    // ---- the end

    /// Gives up what is left, and tells how many records were open.
    pub(crate) fn abandon(&self) {
        let mut inner = self.lock();
        let open = inner.open_records();
        inner.gives_up = true;
        self.ring(inner);
        self.warn_of(open);
    }

    fn warn_of(&self, open: u64) {
        if open > 0 {
            self.warn(&format!("the producer was not closed, and {open} records were open"));
        }
    }
}

fn kind_of(number: i32, core: &mut Core) -> SendErrorKind {
    let state = core.state();
    match SendErrorKind::of(number) {
        SendErrorKind::NotReady if state.phase == ffi::FAILED => {
            SendErrorKind::Failed((state.refused != 0).then_some(ErrorCode(state.refused)))
        }
        kind => kind,
    }
}

/// Tells of each producer that was not closed how many records are open.
pub(crate) extern "C" fn tell_at_exit() {
    let living = LIVING.try_lock().map(|mut it| mem::take(&mut *it)).unwrap_or_default();
    for shared in living.iter().filter_map(Weak::upgrade).filter(|it| !it.is_forked()) {
        let open = shared.lock().open_records();
        shared.warn_of(open);
    }
}
