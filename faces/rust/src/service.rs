//! The sockets of a producer: bytes are moved between them and the library by whichever thread serves.

use crate::bell::Bell;
use crate::connect::{Connector, Stream};
use crate::ffi::{self, status, Action, Core, Polled};
use crate::line::{Line, Open};
use crate::report::Run;
use crate::shared::{millis, Inner};
use crate::ErrorCode;
use std::io::{self, ErrorKind};
use std::iter;
use std::mem;
use std::net::TcpStream;
use std::os::fd::BorrowedFd;
use std::sync::mpsc::{self, Receiver, Sender};
use std::sync::Arc;
use std::thread;
use std::time::Duration;

/// How many reports are fetched of the library at once.
const REPORTS: usize = 1024;

/// What came of connecting to a node.
struct Made {
    node: u32,
    attempt: u64,
    result: io::Result<Box<dyn Stream>>,
}

pub(crate) struct Service {
    connector: Arc<dyn Connector>,
    connect_timeout: Duration,
    request_timeout_ms: u64,
    bell: Arc<Bell>,
    /// By node.
    lines: Vec<Line>,
    /// Those that are to be dropped once the producer's lock is left, since streams may do anything when they are.
    closing: Vec<Line>,
    /// How many connections were tried to be made.
    attempts: u64,
    makes: Sender<Made>,
    made: Receiver<Made>,
    runs: Vec<ffi::Run>,
    warnings: Vec<String>,
    phase: u32,
    refused: i32,
}

/// What the library's calls of a turn came to.
#[derive(Default)]
pub(crate) struct Called {
    /// Somebody had rung, and nothing could be sent.
    pub(crate) was_in_vain: bool,
    /// There is nothing more to do.
    pub(crate) is_last: bool,
}

/// What was taken to be sent.
pub(crate) struct Taken {
    pub(crate) bytes: usize,
    /// Memory was refused: it is to be tried again soon.
    pub(crate) is_short: bool,
}

impl Service {
    pub(crate) fn new(
        connector: Arc<dyn Connector>, connect_timeout: Duration, request_timeout_ms: u64, bell: Arc<Bell>,
    ) -> Service {
        let (makes, made) = mpsc::channel();
        Service {
            connector,
            connect_timeout,
            request_timeout_ms,
            bell,
            lines: Vec::new(),
            closing: Vec::new(),
            attempts: 0,
            makes,
            made,
            runs: vec![ffi::Run::default(); REPORTS],
            warnings: Vec::new(),
            phase: 0,
            refused: 0,
        }
    }

    /// Closes all connections, and takes none that are being made.
    pub(crate) fn end(&mut self) {
        self.lines.clear();
        self.made = mpsc::channel().1;
    }

    // ---- without the producer's lock

    /// Reads what has come, by what `poll` has told of the list that it was given, and sees which connections were made.
    pub(crate) fn hear(&mut self, polled: &[Polled], now: u64) {
        let ready = polled.iter().skip(1).map(Polled::may_be_read).chain(iter::repeat(false));
        for (line, may_be_read) in self.lines.iter_mut().zip(ready) {
            match line {
                Line::Open(open) if open.may_have_more() || may_be_read => open.read(),
                Line::Opening { until, address, .. } if *until <= now => {
                    self.warnings.push(not_connected(address, &ErrorKind::TimedOut.into()));
                    *line = Line::Failed;
                }
                _ => {}
            }
        }
        while let Ok(made) = self.made.try_recv() {
            self.open(made);
        }
    }

    /// What was made is the node's connection, if it is still awaited.
    fn open(&mut self, made: Made) {
        let Some(line) = self.lines.get_mut(made.node as usize) else { return };
        let Line::Opening { attempt, address, .. } = line else { return };
        if *attempt != made.attempt {
            return;
        }
        let address = mem::take(address);
        let opened = made.result.and_then(|stream| set_nonblocking(stream.socket()).map(|()| stream));
        *line = match opened {
            Ok(stream) => Line::Open(Open::new(stream, address)),
            Err(error) => {
                self.warnings.push(not_connected(&address, &error));
                Line::Failed
            }
        };
    }

    /// Closes what is to be closed, and writes what was taken, as far as sockets take it.
    pub(crate) fn write(&mut self) {
        self.closing.clear();
        for line in &mut self.lines {
            if let Line::Open(open) = line {
                open.write();
            }
        }
    }

    /// What is waited for: the bell, and behind it each line.
    pub(crate) fn list(&self, polled: &mut Vec<Polled>) {
        polled.clear();
        polled.push(Polled::of(self.bell.socket(), false));
        polled.extend(self.lines.iter().map(|it| match it {
            Line::Open(open) => Polled::of(open.stream.socket(), open.wants_to_write()),
            _ => Polled::none(),
        }));
    }

    fn opened(&self) -> impl Iterator<Item = &Open> {
        self.lines.iter().filter_map(|it| if let Line::Open(open) = it { Some(open) } else { None })
    }

    /// Whether there is something to do at once.
    pub(crate) fn is_busy(&self) -> bool {
        self.opened().any(Open::is_busy) || self.lines.iter().any(|it| matches!(it, Line::Failed))
    }

    /// Whether there is something to write, which after [`Service::write`] waits until its socket takes more.
    pub(crate) fn wants_to_write(&self) -> bool {
        self.opened().any(Open::wants_to_write)
    }

    /// Whether there are connections to close, which [`Service::write`] does.
    pub(crate) fn is_closing(&self) -> bool {
        !self.closing.is_empty()
    }

    /// Whether the library may have more to send, which could be written at once.
    pub(crate) fn may_give_more(&self) -> bool {
        self.opened().any(Open::may_give_more)
    }

    // ---- in a hold of the producer's lock

    /// Makes the library's calls: it hears what came, and tells what is to be done.
    pub(crate) fn call(&mut self, inner: &mut Inner) -> Called {
        let was_rung = mem::take(&mut inner.is_rung);
        (inner.turned_at, inner.was_helped) = (inner.core.now(), false);
        self.tell_lines(&mut inner.core);
        inner.core.tick();
        if inner.gives_up {
            inner.core.close();
            inner.core.end();
        }
        self.act(&mut inner.core);
        let taken = self.take(inner);
        let is_told = self.fetch(inner);

        let state = inner.core.state();
        if state.refused != mem::replace(&mut self.refused, state.refused) && state.refused != 0 {
            self.warnings.push(format!("a broker refuses to take part: {}", ErrorCode(state.refused)));
        }
        let has_changed = state.phase != mem::replace(&mut self.phase, state.phase);
        if has_changed && state.phase == ffi::SPENT {
            self.warnings.push("every correlation id was used: no record is accepted any more".into());
        }
        let is_last = state.phase == ffi::FAILED || (inner.has_no_more_to_come() && state.untold == 0);

        inner.warnings.append(&mut self.warnings);
        inner.wakes_at = if taken.is_short { inner.core.now() + 1 } else { self.wakes_at(&mut inner.core) };
        if is_told || has_changed || is_last {
            inner.news += 1;
            inner.is_new = true;
        }
        Called { was_in_vain: was_rung && taken.bytes == 0 && !inner.is_rung, is_last }
    }

    /// Tells the library what has come of the connections.
    fn tell_lines(&mut self, core: &mut Core) {
        for (node, line) in (0..).zip(&mut self.lines) {
            let told = match line {
                Line::Open(open) => open.tell(node, core).map_err(|error| {
                    self.warnings.push(format!("the connection to {} has ended: {error}", open.address));
                }),
                Line::Failed => Err(()),
                Line::None | Line::Opening { .. } => Ok(()),
            };
            if told.is_err() {
                self.closing.push(mem::replace(line, Line::None));
                core.lost(node);
            }
        }
    }

    /// Does with connections what the library asks for.
    fn act(&mut self, core: &mut Core) {
        loop {
            let Action { kind, node } = core.next_action();
            match kind {
                ffi::CONNECT => {
                    let (host, port) = core.address(node);
                    self.connect(node, host, port, core.now());
                }
                ffi::CLOSE => {
                    let line = self.lines.get_mut(node as usize);
                    self.closing.extend(line.map(|it| mem::replace(it, Line::None)));
                    core.lost(node);
                }
                _ => return,
            }
        }
    }

    /// Begins to connect to a node, in a thread, since looking its name up may take long.
    fn connect(&mut self, node: u32, host: String, port: u16, now: u64) {
        let place = node as usize;
        while self.lines.len() <= place {
            self.lines.push(Line::None);
        }
        self.attempts += 1;
        let (attempt, address, timeout) = (self.attempts, format!("{host}:{port}"), self.connect_timeout);
        let (connector, makes, bell) = (Arc::clone(&self.connector), self.makes.clone(), Arc::clone(&self.bell));
        let make = move || {
            let result = connector.open(&host, port, timeout);
            let _ = makes.send(Made { node, attempt, result });
            bell.ring();
        };
        self.lines[place] = match thread::Builder::new().name("lembicsov-connect".into()).spawn(make) {
            Ok(_) => Line::Opening { attempt, until: now.saturating_add(millis(timeout)), address },
            Err(error) => {
                self.warnings.push(not_connected(&address, &error));
                Line::Failed
            }
        };
    }

    /// Takes what is to be sent.
    pub(crate) fn take(&mut self, inner: &mut Inner) -> Taken {
        let mut taken = Taken { bytes: 0, is_short: false };
        for (node, line) in (0..).zip(&mut self.lines) {
            if let Line::Open(open) = line {
                let (count, ended) = open.take(node, &mut inner.core);
                taken.bytes += count;
                taken.is_short |= ended == Err(status::OUT_OF_MEMORY);
            }
        }
        inner.unseen = 0;
        taken
    }

    /// Fetches the reports that there are: whether there are any.
    fn fetch(&mut self, inner: &mut Inner) -> bool {
        let before = inner.told.len();
        loop {
            let count = inner.core.runs(&mut self.runs);
            let runs = &self.runs[..count];
            inner.told.extend(runs.iter().map(Run::from));
            if runs.iter().map(|it| it.count).sum::<u64>() < REPORTS as u64 {
                break;
            }
        }
        let is_told = inner.told.len() > before;
        inner.is_telling |= is_told && inner.has_callback;
        is_told
    }

    /// When there is something to do again. It is never later than what is sent now would be waited for, so that who sends need not
    /// wake for that whoever serves.
    pub(crate) fn wakes_at(&self, core: &mut Core) -> u64 {
        let opening = self.lines.iter().map(|it| if let Line::Opening { until, .. } = it { *until } else { u64::MAX });
        let most = core.now().saturating_add(self.request_timeout_ms);
        opening.fold(core.next_due().min(most), u64::min)
    }
}

fn not_connected(address: &str, error: &io::Error) -> String {
    format!("{address} can't be connected to: {error}")
}

/// What a duplicate of a descriptor has set is set for the socket.
fn set_nonblocking(socket: BorrowedFd<'_>) -> io::Result<()> {
    TcpStream::from(socket.try_clone_to_owned()?).set_nonblocking(true)
}
