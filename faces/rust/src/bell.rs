//! What ends a wait in `poll`.

use std::io::{self, PipeReader, PipeWriter, Read, Write};
use std::os::fd::{AsFd, BorrowedFd};

/// A pipe, by which whoever has something for the thread that serves wakes it.
#[derive(Debug)]
pub(crate) struct Bell {
    reader: PipeReader,
    writer: PipeWriter,
}

impl Bell {
    pub(crate) fn new() -> io::Result<Bell> {
        let (reader, writer) = io::pipe()?;
        Ok(Bell { reader, writer })
    }

    /// Both ends live as long as the bell, and few bytes are ever in it, so that this neither fails nor blocks.
    pub(crate) fn ring(&self) {
        let _ = (&self.writer).write(&[1]);
    }

    /// It waits where nobody has rung.
    pub(crate) fn quiet(&self) {
        let _ = (&self.reader).read(&mut [0; 64]);
    }

    pub(crate) fn socket(&self) -> BorrowedFd<'_> {
        self.reader.as_fd()
    }
}
