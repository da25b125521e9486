//! How connections are made.

use crate::ffi;
use std::io::{self, Read, Write};
use std::net::{TcpStream, ToSocketAddrs};
use std::os::fd::{AsFd, BorrowedFd};
use std::time::{Duration, Instant};

/// Makes connections to brokers, by TCP or through whatever else keeps the order of bytes, such as TLS.
///
/// The stream is read until it tells [`WouldBlock`](io::ErrorKind::WouldBlock), so that it may hold bytes back, and it is flushed
/// after each write, again once its socket takes more where that tells `WouldBlock`. Calls come one at a time, from any thread that has
/// a handle.
pub trait Connect: Send + Sync + 'static {
    /// A connection.
    type Stream: Read + Write + Send + 'static;

    /// Connects to a broker, within about so long. It is called in a thread of its own, for each connection anew, and may block.
    fn connect(&self, host: &str, port: u16, timeout: Duration) -> io::Result<Self::Stream>;

    /// The socket under a stream: the producer waits for it, and has made it non-blocking before the first read and write.
    fn socket(stream: &Self::Stream) -> BorrowedFd<'_>;
}

/// Connects by TCP, with `TCP_NODELAY` and keepalive. The name is looked up each time, and its addresses are tried in turn.
#[derive(Clone, Copy, Debug, Default)]
pub struct Tcp;

impl Connect for Tcp {
    type Stream = TcpStream;

    fn connect(&self, host: &str, port: u16, timeout: Duration) -> io::Result<TcpStream> {
        let until = Instant::now() + timeout;
        let addresses: Vec<_> = (host, port).to_socket_addrs()?.collect();
        let mut failed = io::Error::new(io::ErrorKind::NotFound, "the name has no address");
        for (tried, address) in addresses.iter().enumerate() {
            // The time that is left is shared among those that are left, so that one which is silent leaves some to the others.
            let left = until.saturating_duration_since(Instant::now()) / (addresses.len() - tried) as u32;
            match TcpStream::connect_timeout(address, left.max(Duration::from_millis(1))) {
                Ok(stream) => {
                    stream.set_nodelay(true)?;
                    ffi::set_keepalive(stream.as_fd())?;
                    return Ok(stream);
                }
                Err(error) => failed = error,
            }
        }
        Err(failed)
    }

    fn socket(stream: &TcpStream) -> BorrowedFd<'_> {
        stream.as_fd()
    }
}

/// A connection, of whatever type.
pub(crate) trait Stream: Read + Write + Send {
    fn socket(&self) -> BorrowedFd<'_>;
}

/// A [`Connect`] of whatever type.
pub(crate) trait Connector: Send + Sync {
    fn open(&self, host: &str, port: u16, timeout: Duration) -> io::Result<Box<dyn Stream>>;
}

impl<C: Connect> Connector for C {
    fn open(&self, host: &str, port: u16, timeout: Duration) -> io::Result<Box<dyn Stream>> {
        Ok(Box::new(Connected::<C>(self.connect(host, port, timeout)?)))
    }
}

/// What a [`Connect`] has made.
struct Connected<C: Connect>(C::Stream);

impl<C: Connect> Stream for Connected<C> {
    fn socket(&self) -> BorrowedFd<'_> {
        C::socket(&self.0)
    }
}

impl<C: Connect> Read for Connected<C> {
    fn read(&mut self, room: &mut [u8]) -> io::Result<usize> {
        self.0.read(room)
    }
}

impl<C: Connect> Write for Connected<C> {
    fn write(&mut self, bytes: &[u8]) -> io::Result<usize> {
        self.0.write(bytes)
    }

    fn flush(&mut self) -> io::Result<()> {
        self.0.flush()
    }
}
