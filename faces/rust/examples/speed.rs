//! speed BOOTSTRAP TOPIC [COUNT [SIZE [THREADS [LINGER_MS]]]]: publishes so many records of so many bytes in so many threads, record
//! by record, which own their values and which are lent them, and in batches, and prints how many a second; then one record at a time,
//! and prints how long they take from `send` to the report.

use lembicsov::{Producer, Record, RecordRef};
use std::env;
use std::error::Error;
use std::str::FromStr;
use std::thread;
use std::time::{Duration, Instant};

/// How many values go by one call of `send_batch`.
const GROUP: usize = 256;

/// How many records are sent one at a time.
const SINGLE: usize = 20_000;

struct Words {
    bootstrap: String,
    topic: String,
    count: usize,
    size: usize,
    threads: usize,
    linger: Duration,
}

impl Words {
    fn read() -> Result<Words, Box<dyn Error>> {
        let mut words = env::args().skip(1);
        let bootstrap = words.next().ok_or("usage: speed BOOTSTRAP TOPIC [COUNT [SIZE [THREADS [LINGER_MS]]]]")?;
        let topic = words.next().unwrap_or_else(|| "t".into());
        let mut number = |default| words.next().map_or(Ok(default), |it| usize::from_str(&it));
        let (count, size, threads, linger) = (number(1_000_000)?, number(100)?, number(1)?, number(5)?);
        Ok(Words { bootstrap, topic, count, size, threads: threads.max(1), linger: Duration::from_millis(linger as u64) })
    }

    fn producer(&self, linger: Duration) -> Result<Producer, Box<dyn Error>> {
        let producer = Producer::builder(&self.bootstrap, &self.topic).linger(linger).build()?;
        producer.send(Record::new("first"))?;
        producer.flush(Duration::from_secs(10))?;
        assert_eq!(producer.reports().take(1).count(), 1);
        Ok(producer)
    }

    /// Sends by a function in each of the threads, which is told how many records it is to send, and prints how fast that went.
    fn rate(&self, name: &str, send: impl Fn(&Producer, usize) + Sync) -> Result<(), Box<dyn Error>> {
        let producer = self.producer(self.linger)?;
        let each = self.count / self.threads;
        let begun = Instant::now();
        let delivered = thread::scope(|scope| {
            for _ in 0..self.threads {
                scope.spawn(|| {
                    send(&producer, each);
                    producer.flush(Duration::from_secs(10)).unwrap(); // The last ones don't linger.
                });
            }
            producer.reports().take(each * self.threads).filter(|it| it.outcome.is_delivered()).count()
        });
        let took = begun.elapsed().as_secs_f64();
        println!("{name}: {delivered} delivered, {:.0} records a second", delivered as f64 / took);
        Ok(producer.close(Duration::from_secs(10))?)
    }

    fn latency(&self) -> Result<(), Box<dyn Error>> {
        let producer = self.producer(Duration::ZERO)?;
        let mut took = Vec::with_capacity(SINGLE);
        for _ in 0..SINGLE {
            let record = Record::new(vec![b'x'; self.size]);
            let begun = Instant::now();
            producer.send(record)?;
            producer.reports().next().ok_or("no report")?;
            took.push(begun.elapsed());
        }
        took.sort_unstable();
        let [p50, p99] = [50, 99].map(|percent| took[took.len() * percent / 100].as_nanos() as f64 / 1000.0);
        println!("one record at a time: p50 {p50:.1} us, p99 {p99:.1} us");
        Ok(producer.close(Duration::from_secs(10))?)
    }
}

fn main() -> Result<(), Box<dyn Error>> {
    let words = Words::read()?;
    words.rate("record by record", |producer, count| {
        for _ in 0..count {
            producer.send(Record::new(vec![b'x'; words.size])).unwrap();
        }
    })?;
    words.rate("record by record, lent", |producer, count| {
        let value = vec![b'x'; words.size];
        for _ in 0..count {
            producer.send_ref(RecordRef::new(&value)).unwrap();
        }
    })?;
    words.rate("in batches", |producer, count| {
        let value = vec![b'x'; words.size];
        for from in (0..count).step_by(GROUP) {
            producer.send_batch(None, &vec![&value[..]; GROUP.min(count - from)]).unwrap();
        }
    })?;
    words.latency()
}
