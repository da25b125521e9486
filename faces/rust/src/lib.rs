#![doc = include_str!("../README.md")]
#![deny(unsafe_code)]
#![warn(missing_docs, missing_debug_implementations)]

#[cfg(not(any(has_library, doc)))]
compile_error!("LEMBICSOV_LIBRARY_DIR names no folder: it is to be the one that `./library --into DIR` has filled");

#[cfg(not(target_os = "linux"))]
compile_error!("the library and the calls of the system in src/ffi.rs are those of Linux");

mod bell;
mod builder;
mod connect;
mod error;
#[allow(unsafe_code)]
mod ffi;
mod host;
mod line;
mod producer;
mod record;
mod report;
mod service;
mod serving;
mod shared;

pub use builder::Builder;
pub use connect::{Connect, Tcp};
pub use error::{BatchError, SendError, SendErrorKind, WaitError};
pub use producer::{Producer, Reports};
pub use record::{Record, RecordRef};
pub use report::{ErrorCode, Outcome, Report, Ticket};
