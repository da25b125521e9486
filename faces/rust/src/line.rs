//! The connection to a node, and the bytes on their way over it.

use crate::connect::Stream;
use crate::ffi::Core;
use std::io::{self, ErrorKind};

/// How many bytes are read, and how many are taken of the library, before they are handled.
const READ: usize = 16 << 10;
const TAKEN: usize = 64 << 10;

/// What there is of the connection to a node.
pub(crate) enum Line {
    None,
    /// A thread makes it, until this moment at most.
    Opening {
        attempt: u64,
        until: u64,
        address: String,
    },
    Open(Open),
    /// It could not be made, which the library is to be told.
    Failed,
}

/// A connection that is open, or has ended, which the library is to be told.
pub(crate) struct Open {
    pub(crate) stream: Box<dyn Stream>,
    pub(crate) address: String,
    /// The library knows of it.
    is_known: bool,
    /// The first of these bytes were read, and the library has not heard them.
    read: Box<[u8]>,
    read_len: usize,
    /// The first of these bytes were taken of the library, and the first of those are written.
    taken: Box<[u8]>,
    taken_len: usize,
    written: usize,
    /// The stream may hold back what it was given to write.
    is_unflushed: bool,
    /// The stream may have more to read, of which its socket does not tell.
    may_have_more: bool,
    /// The library may have more to send.
    may_give_more: bool,
    /// Why it has ended.
    fault: Option<io::Error>,
}

impl Open {
    pub(crate) fn new(stream: Box<dyn Stream>, address: String) -> Open {
        Open {
            stream,
            address,
            is_known: false,
            read: vec![0; READ].into(),
            read_len: 0,
            taken: vec![0; TAKEN].into(),
            taken_len: 0,
            written: 0,
            is_unflushed: false,
            may_have_more: true,
            may_give_more: false,
            fault: None,
        }
    }

    pub(crate) fn wants_to_write(&self) -> bool {
        self.is_unflushed || self.written < self.taken_len
    }

    pub(crate) fn may_have_more(&self) -> bool {
        self.may_have_more
    }

    /// Whether the library may have more to send, which could be written at once.
    pub(crate) fn may_give_more(&self) -> bool {
        self.may_give_more && !self.wants_to_write()
    }

    /// Whether there is something to do at once.
    pub(crate) fn is_busy(&self) -> bool {
        self.may_have_more || self.fault.is_some() || self.may_give_more()
    }

    /// Tells the library what has come of the connection. Where that has ended, why.
    pub(crate) fn tell(&mut self, node: u32, core: &mut Core) -> io::Result<()> {
        if !self.is_known {
            core.connected(node).map_err(|_| ErrorKind::OutOfMemory)?;
            self.is_known = true;
        }
        if self.read_len > 0 {
            core.feed(node, &self.read[..self.read_len]);
            self.read_len = 0;
        }
        self.fault.take().map_or(Ok(()), Err)
    }

    /// Takes what the library has to send, once all that was taken before is written: how many bytes, and the last status.
    pub(crate) fn take(&mut self, node: u32, core: &mut Core) -> (usize, Result<(), i32>) {
        if self.wants_to_write() {
            return (0, Ok(()));
        }
        (self.taken_len, self.written) = (0, 0);
        let ended = loop {
            match core.take(node, &mut self.taken[self.taken_len..]) {
                Ok(count) if count > 0 => self.taken_len += count,
                ended => break ended.map(drop),
            }
            if self.taken_len == TAKEN {
                break Ok(());
            }
        };
        self.may_give_more = self.taken_len == TAKEN;
        (self.taken_len, ended)
    }

    /// Writes what was taken, as far as the socket takes it.
    pub(crate) fn write(&mut self) {
        while self.wants_to_write() && self.fault.is_none() {
            let waiting = &self.taken[self.written..self.taken_len];
            let done = if waiting.is_empty() {
                self.stream.flush().map(|()| self.is_unflushed = false)
            } else {
                self.is_unflushed = true;
                match self.stream.write(waiting) {
                    Ok(0) => Err(ErrorKind::WriteZero.into()),
                    written => written.map(|count| self.written += count),
                }
            };
            match done {
                Err(error) if error.kind() == ErrorKind::WouldBlock => return,
                Err(error) if error.kind() != ErrorKind::Interrupted => self.fault = Some(error),
                _ => {}
            }
        }
    }

    /// Reads what has come, as far as there is room for it.
    pub(crate) fn read(&mut self) {
        self.may_have_more = true;
        while self.read_len < READ && self.fault.is_none() {
            match self.stream.read(&mut self.read[self.read_len..]) {
                Ok(0) => self.fault = Some(ErrorKind::UnexpectedEof.into()),
                Ok(count) => self.read_len += count,
                Err(error) if error.kind() == ErrorKind::WouldBlock => {
                    self.may_have_more = false;
                    return;
                }
                Err(error) if error.kind() == ErrorKind::Interrupted => {}
                Err(error) => self.fault = Some(error),
            }
        }
    }
}
