//! Processes that are forked, or end, while they have a producer.

mod common;

use common::{Broker, LONG, TOPIC};
use lembicsov::{Producer, Record, RecordRef, SendErrorKind, WaitError};
use std::env;
use std::process::{self, Command};
use std::sync::{mpsc, OnceLock};

unsafe extern "C" {
    fn fork() -> i32;
    fn _exit(status: i32) -> !;
    fn waitpid(process: i32, status: &mut i32, options: i32) -> i32;
}

/// Where the program that is run again finds the broker.
const BOOTSTRAP: &str = "MISUSE_BOOTSTRAP";

#[test]
fn a_forked_process_is_told_so() {
    let broker = Broker::start(1, 1, "");
    let producer = broker.builder().build().unwrap();
    producer.send(Record::new("a")).unwrap();
    producer.flush(LONG).unwrap();
    let (record, own) = (Record::new("b"), producer.clone());
    // SAFETY: the child makes the calls that are to be refused, drops what it has, and ends.
    match unsafe { fork() } {
        0 => {
            let is_told = producer.send(record).is_err_and(|it| it.kind == SendErrorKind::Forked)
                && producer.send_ref(RecordRef::new("b")) == Err(SendErrorKind::Forked)
                && producer.send_batch(None, &[b"b"]).is_err_and(|it| it.kind == SendErrorKind::Forked)
                && producer.flush(LONG) == Err(WaitError::Forked)
                && producer.close(LONG) == Err(WaitError::Forked)
                && producer.reports().next().is_none()
                && producer.open_records() == 0;
            drop((producer, own));
            unsafe { _exit(if is_told { 0 } else { 1 }) }
        }
        child => {
            let mut status = -1;
            assert_eq!(unsafe { waitpid(child, &mut status, 0) }, child);
            assert_eq!(status, 0);
        }
    }
    producer.send(Record::new("c")).unwrap();
    producer.close(LONG).unwrap();
    assert_eq!(broker.end()[&0], ["a", "c"]);
}

#[test]
fn a_process_that_is_forked_in_a_callback_goes_no_further() {
    let broker = Broker::start(1, 1, "");
    let (tell, told) = mpsc::channel();
    // SAFETY: the child goes back to the producer's thread, and ends with it.
    let on_report = move |_| tell.send(unsafe { fork() }).unwrap();
    let producer = broker.builder().on_report(on_report).build().unwrap();
    producer.send(Record::new("a")).unwrap();
    let (child, mut status) = (told.recv_timeout(LONG).unwrap(), -1);
    assert_eq!(unsafe { waitpid(child, &mut status, 0) }, child);
    producer.close(LONG).unwrap();
    assert_eq!(broker.end()[&0], ["a"]);
}

#[test]
fn a_process_that_ends_tells_what_was_open() {
    let broker = Broker::start(1, 1, "");
    let words = ["--exact", "--ignored", "--nocapture", "ends_without_close"];
    let ended = Command::new(env::current_exe().unwrap()).args(words).env(BOOTSTRAP, broker.bootstrap()).output().unwrap();
    assert_eq!(ended.status.code(), Some(3));
    assert_eq!(String::from_utf8(ended.stderr).unwrap(), "the producer was not closed, and 2 records were open\n");
}

#[test]
#[ignore = "another run runs it, in a process of its own"]
fn ends_without_close() {
    static PRODUCER: OnceLock<Producer> = OnceLock::new();
    let builder = Producer::builder(env::var(BOOTSTRAP).unwrap(), TOPIC).linger(LONG).delivery_timeout(2 * LONG);
    let producer = PRODUCER.get_or_init(|| builder.on_warning(|it| eprintln!("{it}")).build().unwrap());
    producer.send(Record::new("a")).unwrap();
    producer.send(Record::new("b")).unwrap();
    process::exit(3);
}
