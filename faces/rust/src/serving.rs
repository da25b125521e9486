//! Who serves the sockets of a producer, and how threads wait and wake each other.
//!
//! One thread serves at a time: it has the *seat*. It sleeps in `poll`, makes a turn, in which it reads what has come, makes the
//! library's calls and writes, and sleeps again. Threads that wait, in `reports`, `flush`, `close` or a `send` that is held back,
//! serve themselves where the seat is vacant, so that an answer wakes whoever waits for it and nobody else. The host's thread
//! serves where nobody waits, and makes all callbacks; where reports go to a callback, it alone serves. A sender writes itself what
//! is to go out now, where the thread that has the seat sleeps, or nobody has it: full batches, and of records that don't linger
//! the first since a turn was made. For those that follow it rings, so that they go out many at a time.
//!
//! Of records that linger, a thread that sends many serves too, between one and the next: whenever so much was accepted that a
//! batch may be full, it makes a turn where the seat is vacant, without waiting in `poll`. So what it accepts, what is written of
//! it and what is heard stay in the caches of one processor, and it does not run ahead as far as there is room. The others leave
//! the seat to it, until for a [`MOMENT`] no sender has come so far: who has the seat leaves it as soon as `poll` ends, and who
//! waits looks once in a moment.
//!
//! # Locks
//!
//! - The *service* ([`Shared::service`]) guards the sockets, and the bytes that were read and not heard, or taken and not written.
//!   It is held in a turn by the thread that has the seat, and by a sender without the seat that takes and writes.
//! - The *producer's lock* ([`Shared::lock`]) guards the library's producer, the reports that nobody has fetched, the seat, and all
//!   else by which threads tell each other something. It is held for some calls of the library.
//!
//! **Order.** Who holds the service may take the producer's lock, and never the other way round. A sender without the seat only
//! tries the service, and rings where somebody has it.
//!
//! **Blocking.** Nobody holds the producer's lock while it waits, or while streams, connectors or callbacks run: these are the
//! caller's, and may call the producer. In `poll`, in a callback and while a connection is made, no lock is held. Streams are read,
//! written and dropped by a thread that holds the service; they do not block, since their sockets are set so.
//!
//! **Sockets** come and go only in a turn, so that in `poll` each of the list is there, but for the moment in which a panic ends
//! all. A sender without the seat does no more than write: the answer ends the `poll` that has begun before, since each open socket
//! is in its list.
//!
//! **Awake.** In `poll` a thread sleeps, but for who waits for the answer to the only record: it looks for a [`GLANCE`] first
//! (`wait_for_one`), ever more seldom where that is in vain. The seat seems asleep meanwhile: the bell ends such a look as it ends
//! `poll`.
//!
//! **The clock** is asked with each hold of the producer's lock, but for a record that is accepted while the host stands by for a
//! moment (`is_timed`): the host has asked when that began, and asks when it ends. It takes longer than the lock.
//!
//! # Why no wake-up is lost
//!
//! Whatever a thread does for another one to see it does under the producer's lock, and under that lock each thread looks before it
//! sleeps, and says that it will. So of two such steps one is first, and the second sees what it did.
//!
//! - *There is something to look at* ([`Shared::look`], [`Shared::ring`]), *and who serves goes to sleep* (`sleep`). Where the
//!   first comes first, it finds the seat awake and sets `is_rung`, which who serves sees, and makes another turn. Where the second
//!   comes first, the seat is asleep, and the bell is rung, whose byte ends `poll`, also one that has not begun. Where `poll` has
//!   ended, and the turn's calls are not made, the seat still seems asleep: they see what was rung for, and the byte ends the next
//!   `poll`. Once it was rung for, and nothing could be sent, who serves rests: it stays awake to the eyes of others, for a
//!   millisecond at most.
//! - *A thread takes the seat, and goes to sleep before its first turn.* That is one step. What there is to do is told by
//!   `is_rung`, by `wakes_at` or by `poll`: who left the seat, and left something to do, has rung.
//! - *A sender writes itself, and who serves sleeps on.* What it leaves it rings for: a socket that takes no more, one that has
//!   failed, and whatever is due before `wakes_at`, when `poll` ends by itself. What can't be sent now waits for an answer, a
//!   connection or a moment, each of which ends `poll`.
//! - *A sender finds that somebody has the service*, after it saw the seat asleep or vacant. It rings, which looks at the seat
//!   anew.
//! - *There is something to look at, and nobody serves.* The first that rings wakes the host. `is_rung` stays set until a turn is
//!   made, so that others need not.
//! - *The seat is left* (`vacate`), *and a thread begins to wait* ([`Shared::wait_until`]). Where the first comes first, the seat
//!   is vacant, and the thread takes it. Where the second does, the thread is among `waiting`, all of which are woken: one that has
//!   still to wait takes the seat.
//! - *A sender serves, and a thread waits* (`stand_aside`). It sleeps for a moment, and looks, and is not among `waiting`: nobody
//!   need wake it, and it seldom has the sender wait for the lock. When no sender has come for a moment it waits as others do. A
//!   sender that itself begins to wait says that it sends no more.
//! - *The seat is left to a sender, without a turn.* What `poll` has told of the sockets the next one tells too. What the bell has
//!   told it does not: where it was rung, there is a turn first.
//! - *The seat is left, and the host stands by* ([`Shared::stand_by`]). While the seat is vacant the host waits for a [`MOMENT`] at
//!   most, and takes it where nobody else did for so long, and no sender came, or something is rung for or due. Without a limit it
//!   waits only while another thread has the seat, and says so by `is_host_asleep`, by which who leaves wakes it. So a thread that
//!   waits again and again wakes nobody, and what nobody waits for is left alone for two moments at most.
//! - *There is news* (reports, room, another phase), *and a thread waits for it*. It comes by the thread's own turn, or by
//!   another's, whose thread wakes all of `waiting` before it sleeps or when it leaves (`is_new`). What comes by no turn
//!   (`put_back`, `close`, the end of a `flush`) wakes these, and who serves ([`Shared::stir`]).
//!
//! # Ends
//!
//! - **`close`**: who serves finds that all is told, closes the connections, and then sets `is_over`, after which nobody takes the
//!   seat. All are woken. `close` returns once the host's thread is gone, which makes all callbacks before.
//! - **The last handle is dropped**: nobody waits then, since whoever waits has a handle. The host is rung, and gives up what is
//!   left.
//! - **Fork**: each call asks first whether this is another process. There it takes no lock, since who held it is not there. The
//!   host asks after each callback, which may have forked: it goes no further.
//! - **A callback or stream that panics** ends the producer ([`Ending`]): connections are closed, nothing is accepted, and all are
//!   woken. The panic unwinds through the host, or through the call in which a thread served or wrote. It may poison the service's
//!   lock, behind which nothing is left, and never the producer's.
//! - **A callback or stream that calls the producer** does so in a thread that is [`Within`] it. Such a call never waits, and takes
//!   no lock that its thread has.
//! - **A full buffer**: `send` waits like all others, and so may serve; each piece of news has it try again, until `max_block` is
//!   over.

use crate::ffi::{self, Polled};
use crate::service::{Called, Service};
use crate::shared::{Held, Inner, Shared};
use std::cell::Cell;
use std::mem;
use std::ptr;
use std::sync::atomic::{AtomicU32, Ordering};
use std::sync::{MutexGuard, PoisonError, TryLockError};
use std::thread;
use std::time::{Duration, Instant};

/// For how long, in milliseconds, who serves rests where what it was woken for can't be sent yet: so long senders need not wake it.
const REST_MS: u64 = 1;

/// How long, in milliseconds, the seat may be vacant until the host looks, and is left to a sender that came.
pub(crate) const MOMENT_MS: u64 = 1;
const MOMENT: Duration = Duration::from_millis(MOMENT_MS);

/// For how long who waits for the answer to the only record stays awake, at most.
const GLANCE: Duration = Duration::from_micros(60);

/// Who serves.
#[derive(Clone, Copy, Debug, PartialEq, Eq)]
pub(crate) enum Seat {
    /// Nobody.
    Vacant,
    /// A thread does, and looks again before it sleeps where it is rung.
    Awake,
    /// A thread does, and is in `poll`, or about to be: the bell wakes it.
    Asleep,
}

thread_local! {
    /// The producer in whose callback, or with whose sockets, this thread is.
    static WITHIN: Cell<*const Shared> = const { Cell::new(ptr::null()) };
}

/// A number of this thread, which no other one has that lives.
pub(crate) fn this_thread() -> usize {
    WITHIN.with(|it| ptr::from_ref(it).addr())
}

/// This thread is within a producer, until this is dropped: then it is within this one again.
pub(crate) struct Within(*const Shared);

impl Drop for Within {
    fn drop(&mut self) {
        WITHIN.set(self.0);
    }
}

/// Ends the producer where it is dropped, which is where a callback or a stream has panicked: else it is forgotten.
pub(crate) struct Ending<'a>(pub(crate) &'a Shared);

impl Drop for Ending<'_> {
    fn drop(&mut self) {
        let _within = self.0.enter();
        self.0.service().end();
        let mut inner = self.0.lock();
        inner.core.close();
        (inner.is_over, inner.is_telling) = (true, false);
        drop(inner);
        self.0.bell.ring();
        self.0.progress.notify_all();
        self.0.vacancy.notify_one();
    }
}

/// What became of a look at what may be sent.
struct Sent {
    is_nothing: bool,
    /// There is something for who serves.
    is_left: bool,
}

/// What a turn has come to.
#[derive(Default)]
struct Turn {
    called: Called,
    /// There is something to do at once.
    is_busy: bool,
    /// A socket takes no more for now.
    wants_to_write: bool,
}

impl Turn {
    /// Whether there is something for who serves next.
    fn is_left(&self) -> bool {
        self.is_busy || self.wants_to_write
    }

    /// Whether the seat is for a sender.
    fn leaves_to_sender(&self, inner: &Inner) -> bool {
        !self.is_left() && inner.is_left_to_sender()
    }
}

/// How often who waits for the answer to the only record looks for it awake: ever more seldom, where it does not come so soon. Who
/// has the seat alone uses it.
#[derive(Debug, Default)]
pub(crate) struct Glances {
    /// So many of those that wait go to sleep at once, behind one that has looked in vain.
    pause: AtomicU32,
    /// How many of these there are still.
    left: AtomicU32,
}

impl Glances {
    const MOST: u32 = 1023;

    fn is_one_due(&self) -> bool {
        let left = self.left.load(Ordering::Relaxed);
        self.left.store(left.saturating_sub(1), Ordering::Relaxed);
        left == 0
    }

    fn note(&self, has_come: bool) {
        let pause = self.pause.load(Ordering::Relaxed);
        let pause = if has_come { pause / 2 } else { (2 * pause + 1).min(Self::MOST) };
        self.pause.store(pause, Ordering::Relaxed);
        self.left.store(if has_come { 0 } else { pause }, Ordering::Relaxed);
    }
}

impl Shared {
    // ---- this thread

    pub(crate) fn enter(&self) -> Within {
        Within(WITHIN.replace(self))
    }

    /// Whether this thread is in a callback of the producer, or has its sockets, and can't wait for itself.
    pub(crate) fn is_within(&self) -> bool {
        ptr::eq(WITHIN.get(), self)
    }

    /// The moment until which a call may wait, or one that is over, where it may not. That of now may be almost over: so it is none for
    /// a call that may not wait, as the next may begin before the call looks.
    pub(crate) fn until(&self, millis: u64) -> u64 {
        match millis > 0 && !self.is_within() {
            true => self.now().saturating_add(millis).saturating_add(1),
            false => 0,
        }
    }

    // ---- looking at what has changed

    /// Has who serves look again, or the host, where nobody serves and it was not rung before.
    pub(crate) fn ring(&self, mut inner: Held<'_>) {
        let was_rung = mem::replace(&mut inner.is_rung, true);
        match inner.seat {
            Seat::Asleep => self.wake(inner),
            Seat::Vacant if !was_rung => {
                drop(inner);
                self.vacancy.notify_one();
            }
            Seat::Awake | Seat::Vacant => {}
        }
    }

    /// Wakes who serves, and sleeps.
    fn wake(&self, mut inner: Held<'_>) {
        inner.seat = Seat::Awake;
        drop(inner);
        self.bell.ring();
    }

    /// Has those that wait look again whether they still have to, who serves among them.
    pub(crate) fn stir(&self, inner: Held<'_>) {
        let waiting = inner.waiting;
        if inner.seat == Seat::Asleep {
            self.wake(inner);
        } else {
            drop(inner);
        }
        if waiting > 0 {
            self.progress.notify_all();
        }
    }

    /// Has what may be sent go out: by who serves and is awake, or else by this thread, which tells whether there was nothing.
    pub(crate) fn look(&self, mut inner: Held<'_>) -> bool {
        if inner.seat == Seat::Awake {
            inner.is_rung = true;
            return false;
        }
        drop(inner);
        let ending = Ending(self);
        let sent = self.send_out();
        mem::forget(ending);
        if sent.is_left {
            self.ring(self.lock());
        }
        sent.is_nothing
    }

    /// Takes what may be sent and writes it.
    fn send_out(&self) -> Sent {
        let _within = self.enter();
        let mut service = match self.service.try_lock() {
            Ok(service) => service,
            Err(TryLockError::Poisoned(poisoned)) => poisoned.into_inner(),
            Err(TryLockError::WouldBlock) => return Sent { is_nothing: false, is_left: true },
        };
        let mut is_nothing = true;
        loop {
            let mut inner = self.lock();
            let taken = service.take(&mut inner);
            let due = service.wakes_at(&mut inner.core);
            let is_late = due < inner.wakes_at && inner.seat == Seat::Asleep;
            inner.wakes_at = inner.wakes_at.min(due);
            let is_left = taken.is_short || inner.gives_up || is_late;
            drop(inner);
            service.write();
            is_nothing &= taken.bytes == 0;
            if is_left || !service.may_give_more() {
                return Sent { is_nothing, is_left: is_left || service.wants_to_write() || service.is_busy() };
            }
        }
    }

    // ---- waiting

    /// Waits until this is so, or nothing more comes, or this moment, and serves meanwhile where nobody does.
    pub(crate) fn wait_until<'a>(&'a self, mut inner: Held<'a>, until: u64, is_so: impl Fn(&mut Inner) -> bool) -> Held<'a> {
        if inner.sender.is_some_and(|(thread, _)| thread == this_thread()) {
            inner.sender = None;
        }
        while !inner.has_ended() && !is_so(&mut inner) && inner.core.now() < until {
            inner = if inner.is_left_to_sender() && !inner.is_rung {
                self.stand_aside(inner, until)
            } else if inner.seat == Seat::Vacant && !inner.has_callback {
                self.serve(inner, until, &is_so)
            } else {
                self.pause(inner, until)
            };
        }
        inner
    }

    /// Waits until there is news, or the seat is left.
    fn pause<'a>(&'a self, mut inner: Held<'a>, until: u64) -> Held<'a> {
        inner.waiting += 1;
        let left = Duration::from_millis(until.saturating_sub(inner.core.now()));
        let (mut inner, _) = self.progress.wait_timeout(inner, left).unwrap_or_else(PoisonError::into_inner);
        inner.waiting -= 1;
        self.tell_time(&mut inner, Instant::now());
        inner
    }

    /// Looks away for a moment, in which a sender serves.
    fn stand_aside<'a>(&'a self, inner: Held<'a>, until: u64) -> Held<'a> {
        let left = Duration::from_millis(until.saturating_sub(inner.core.now()));
        drop(inner);
        thread::sleep(left.min(MOMENT));
        self.lock()
    }

    /// The host waits: for a moment, or until the thread that has the seat leaves it.
    pub(crate) fn stand_by<'a>(&'a self, mut inner: Held<'a>, is_long: bool) -> Held<'a> {
        if is_long {
            inner.is_host_asleep = true;
            inner = self.vacancy.wait(inner).unwrap_or_else(PoisonError::into_inner);
            inner.is_host_asleep = false;
        } else {
            inner.is_timed = true;
            (inner, _) = self.vacancy.wait_timeout(inner, MOMENT).unwrap_or_else(PoisonError::into_inner);
            inner.is_timed = false;
        }
        self.tell_time(&mut inner, Instant::now());
        inner
    }

    // ---- serving

    pub(crate) fn service(&self) -> MutexGuard<'_, Service> {
        self.service.lock().unwrap_or_else(PoisonError::into_inner)
    }

    /// Takes the seat, which is vacant, and serves until this is so, or nothing more comes, or this moment.
    pub(crate) fn serve<'a>(&'a self, inner: Held<'a>, until: u64, is_so: impl Fn(&mut Inner) -> bool) -> Held<'a> {
        let (turn, inner) = self.sit(inner, until, is_so);
        self.vacate(inner, turn.is_left())
    }

    /// A sender takes the seat, which is vacant, between one record and the next, and makes turns while there is something to do at
    /// once.
    pub(crate) fn serve_between(&self, inner: Held<'_>) {
        let (mut turn, mut inner) = self.sit(inner, 0, |_| true);
        while turn.is_busy {
            (turn, inner) = self.sit(inner, 0, |_| true);
        }
        drop(self.vacate(inner, turn.is_left()));
    }

    /// Has the seat until this is so, or nothing more comes, or this moment: what the last turn has come to.
    fn sit<'a>(&'a self, mut inner: Held<'a>, until: u64, is_so: impl Fn(&mut Inner) -> bool) -> (Turn, Held<'a>) {
        inner.seat = Seat::Awake;
        inner.moves += 1;
        let ending = Ending(self);
        let (mut turn, mut polled) = (Turn::default(), Vec::new());
        loop {
            self.sleep(inner, &turn, until, &mut polled);
            inner = self.lock();
            let is_rung = inner.seat == Seat::Awake || polled[0].may_be_read();
            if !is_rung && turn.leaves_to_sender(&inner) {
                break;
            }
            drop(inner);
            (turn, inner) = self.turn(&mut polled);
            let is_done = is_so(&mut inner) || until <= inner.core.now() || turn.leaves_to_sender(&inner);
            // What others have rung for meanwhile is sent first, as far as it can be.
            if inner.is_over || (is_done && (!inner.is_rung || turn.called.was_in_vain)) {
                break;
            }
        }
        mem::forget(ending);
        (turn, inner)
    }

    /// Waits in `poll` until there is something to do, or this moment.
    fn sleep(&self, mut inner: Held<'_>, turn: &Turn, until: u64, polled: &mut Vec<Polled>) {
        let mut left = inner.wakes_at.min(until).saturating_sub(inner.core.now());
        let was_in_vain = turn.called.was_in_vain;
        if turn.is_busy || (inner.is_rung && !was_in_vain) {
            left = 0;
        } else if was_in_vain {
            left = left.min(REST_MS);
        } else if left > 0 {
            inner.seat = Seat::Asleep;
        }
        let is_waited_for = mem::take(&mut inner.is_new) && inner.waiting > 0;
        let has_warnings = !inner.warnings.is_empty();
        let is_only_one = left > 0 && inner.core.state().is_only_one();
        drop(inner);
        if is_waited_for {
            self.progress.notify_all();
        }
        if has_warnings {
            self.vacancy.notify_one();
        }
        if polled.is_empty() {
            self.service().list(polled);
        }
        if is_only_one {
            self.wait_for_one(polled, left);
        } else {
            ffi::wait_for(polled, left);
        }
        if polled[0].may_be_read() {
            self.bell.quiet();
        }
    }

    /// Waits for the answer to the only record: awake for a [`GLANCE`], since going to sleep and being woken would take about as
    /// long as an answer that comes so soon.
    fn wait_for_one(&self, polled: &mut [Polled], left: u64) {
        if self.glances.is_one_due() {
            let began = Instant::now();
            while ffi::wait_for(polled, 0) == 0 && began.elapsed() < GLANCE {}
            let has_come = polled.iter().any(Polled::is_ready);
            self.glances.note(has_come);
            if has_come {
                return;
            }
        }
        ffi::wait_for(polled, left);
    }

    /// Reads, makes the library's calls and writes, and lists what is to be waited for.
    fn turn<'a>(&'a self, polled: &mut Vec<Polled>) -> (Turn, Held<'a>) {
        let _within = self.enter();
        let mut service = self.service();
        service.hear(polled, self.now());
        service.list(polled);
        let mut inner = self.lock();
        inner.seat = Seat::Awake;
        let called = if inner.is_over { Called::default() } else { service.call(&mut inner) };
        if called.is_last || service.wants_to_write() || service.is_closing() {
            drop(inner);
            service.write();
            if called.is_last {
                service.end();
            }
            service.list(polled);
            inner = self.lock();
            inner.is_over |= called.is_last;
        }
        let turn = Turn { called, is_busy: service.is_busy(), wants_to_write: service.wants_to_write() };
        (turn, inner)
    }

    /// Leaves the seat to those that wait, or to the host, which looks at once where something is left to do.
    fn vacate<'a>(&'a self, mut inner: Held<'a>, is_left: bool) -> Held<'a> {
        (inner.seat, inner.is_new) = (Seat::Vacant, false);
        inner.moves += 1;
        inner.is_rung |= is_left;
        let (is_asleep, is_waited_for) = (mem::take(&mut inner.is_host_asleep), inner.waiting > 0);
        let is_to_look = is_left || is_asleep || inner.is_over || !inner.warnings.is_empty();
        if !is_waited_for && !is_to_look {
            return inner;
        }
        drop(inner);
        if is_waited_for {
            self.progress.notify_all();
        }
        if is_to_look {
            self.vacancy.notify_one();
        }
        self.lock()
    }
}
