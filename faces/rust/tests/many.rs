//! A thousand producers, one after the other, leave nothing behind. It is alone in its process, which is looked at.

mod common;

use common::{Broker, LONG};
use lembicsov::Record;
use std::time::Duration;
use std::{fs, thread};

const PRODUCERS: usize = 1000;

/// How often it is looked whether what was closed is gone, and for how long is waited before it is looked again.
const LOOKS: usize = 100;
const PAUSE: Duration = Duration::from_millis(10);

/// What the process has: kilobytes of memory, threads and descriptors.
fn used() -> (u64, u64, usize) {
    let status = fs::read_to_string("/proc/self/status").unwrap();
    let number = |name| {
        let line = status.lines().find(|it| it.starts_with(name)).unwrap();
        line.split_whitespace().nth(1).unwrap().parse().unwrap()
    };
    (number("VmRSS:"), number("Threads:"), fs::read_dir("/proc/self/fd").unwrap().count())
}

fn open_and_close(broker: &Broker, number: usize) {
    let producer = broker.builder().build().unwrap();
    producer.send(Record::new(number.to_string())).unwrap();
    producer.close(LONG).unwrap();
    assert!(producer.reports().next().unwrap().outcome.is_delivered());
}

#[test]
fn a_thousand_producers() {
    let broker = Broker::start(1, 1, "");
    (0..PRODUCERS / 10).for_each(|it| open_and_close(&broker, it));
    thread::sleep(PAUSE);
    let before = used();
    (PRODUCERS / 10..PRODUCERS).for_each(|it| open_and_close(&broker, it));
    let mut after = used();
    // (for a moment the system may still count a thread that was joined)
    for _ in 0..LOOKS {
        if (after.1, after.2) == (before.1, before.2) {
            break;
        }
        thread::sleep(PAUSE);
        after = used();
    }
    assert!(after.0 <= before.0 + 1024, "memory has grown from {} to {} kB", before.0, after.0);
    assert_eq!((after.1, after.2), (before.1, before.2), "threads or descriptors are left");
    assert_eq!(broker.end()[&0].len(), PRODUCERS);
}
