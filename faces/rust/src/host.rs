//! The host: the producer's own thread, which serves where nobody else does, and makes the callbacks.

use crate::report::Run;
use crate::serving::{Ending, Seat};
use crate::shared::{Held, Shared};
use crate::Report;
use std::collections::VecDeque;
use std::mem;
use std::sync::Arc;

pub(crate) type OnReport = Box<dyn FnMut(Report) + Send>;

pub(crate) struct Host {
    shared: Arc<Shared>,
    on_report: Option<OnReport>,
    /// Those that the callback is given.
    reports: VecDeque<Run>,
}

impl Host {
    pub(crate) fn new(shared: Arc<Shared>, on_report: Option<OnReport>) -> Host {
        Host { shared, on_report, reports: VecDeque::new() }
    }

    /// Sees to it that the producer is served, to its end.
    pub(crate) fn run(mut self) {
        let shared = Arc::clone(&self.shared);
        mem::forget(shared.enter()); // For good: the callback may drop a handle when it is dropped.
        let ending = Ending(&shared);
        let (mut held, mut seen) = (shared.lock(), None);
        while let Some(inner) = self.call_back(&shared, held) {
            let is_quiet = seen.replace(inner.moves) == Some(inner.moves) && !inner.is_left_to_sender();
            held = if inner.seat == Seat::Vacant && (is_quiet || inner.needs_host()) {
                seen = None; // Behind this, those that wait have a moment to take the seat.
                shared.serve(inner, u64::MAX, |it| {
                    !it.warnings.is_empty() || if it.has_callback { !it.told.is_empty() } else { it.waiting > 0 }
                })
            } else {
                shared.stand_by(inner, is_quiet)
            };
        }
        mem::forget(ending);
    }

    /// Makes the callbacks that there are to be made, with no lock held. It gives none where nothing more is to be done.
    fn call_back<'a>(&mut self, shared: &'a Shared, mut inner: Held<'a>) -> Option<Held<'a>> {
        loop {
            let warnings = mem::take(&mut inner.warnings);
            if inner.has_callback {
                mem::swap(&mut self.reports, &mut inner.told);
            }
            if warnings.is_empty() && self.reports.is_empty() {
                return (!inner.is_over).then_some(inner);
            }
            drop(inner);
            for warning in warnings {
                shared.warn(&warning);
            }
            if let Some(on_report) = &mut self.on_report {
                self.reports.drain(..).flatten().for_each(on_report);
            }
            // Where a callback has forked, this is the child's only thread, and the sockets are its parent's.
            if shared.is_forked() {
                return None;
            }
            inner = shared.lock();
            inner.is_telling &= !inner.told.is_empty();
            shared.stir(inner);
            inner = shared.lock();
        }
    }
}
