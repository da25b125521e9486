//! Threads that wait serve the sockets, and threads that send write: many at once, and now and then.

mod common;

use common::{check, record, send_all, warnings, Broker, Relay, Sent, COUNT, LONG, TOPIC};
use lembicsov::{Connect, Producer, Record, Report, SendErrorKind, Tcp, Ticket};
use std::io::{self, Read, Write};
use std::net::TcpStream;
use std::os::fd::{AsFd, BorrowedFd};
use std::panic;
use std::sync::atomic::{AtomicBool, AtomicUsize, Ordering};
use std::sync::{mpsc, Arc, OnceLock};
use std::thread::{self, JoinHandle};
use std::time::{Duration, Instant};

const SECOND: Duration = Duration::from_secs(1);

/// Pauses of up to five milliseconds, shorter and longer than the host leaves what nobody waits for.
fn pause(number: usize) {
    thread::sleep(Duration::from_micros(number as u64 * 379 % 5000));
}

/// Spawns so many threads, each of which is given its number and a handle.
fn spawn<T: Send + 'static>(count: usize, producer: &Producer, act: fn(usize, Producer) -> T) -> Vec<JoinHandle<T>> {
    let own = |number| (number, producer.clone());
    (0..count).map(own).map(|(number, producer)| thread::spawn(move || act(number, producer))).collect()
}

/// Whether this comes about soon.
fn comes(is_so: impl Fn() -> bool) -> bool {
    let until = Instant::now() + 5 * SECOND;
    while !is_so() && Instant::now() < until {
        thread::sleep(Duration::from_millis(1));
    }
    is_so()
}

fn join<T>(threads: Vec<JoinHandle<Vec<T>>>) -> Vec<T> {
    threads.into_iter().flat_map(|it| it.join().unwrap()).collect()
}

/// Sends a record, and waits for a report, which may be another one's.
fn send_and_wait(producer: &Producer, thread: usize, number: usize) -> ((Ticket, String), Report) {
    let (record, value) = record(thread, number);
    let ticket = producer.send(record).unwrap();
    ((ticket, value), producer.reports().next().unwrap())
}

fn check_all(broker: Broker, producer: &Producer, told: Vec<((Ticket, String), Report)>) {
    producer.close(LONG).unwrap();
    assert_eq!(producer.reports().count(), 0);
    let (sent, reports): (Sent, Vec<Report>) = told.into_iter().unzip();
    check(&sent, &reports, &broker.end());
}

// ---- as it goes

#[test]
fn many_threads_wait_for_each_record() {
    let broker = Broker::start(5, 3, "");
    let producer = broker.builder().build().unwrap();
    let send = |thread, producer: Producer| (0..2000).map(|it| send_and_wait(&producer, thread, it)).collect();
    let told = join(spawn(8, &producer, send));
    check_all(broker, &producer, told);
}

#[test]
fn one_thread_waits_for_each_record_now_and_then() {
    let broker = Broker::start(2, 1, "");
    let producer = broker.builder().build().unwrap();
    let send = |number| {
        pause(number);
        send_and_wait(&producer, 0, number)
    };
    let told = (0..1000).map(send).collect();
    check_all(broker, &producer, told);
}

#[test]
fn one_thread_flushes_each_record() {
    let broker = Broker::start(2, 1, "");
    let producer = broker.builder().linger(SECOND / 50).build().unwrap();
    let flush = |it| {
        let (record, value) = record(0, it);
        let ticket = producer.send(record).unwrap();
        producer.flush(LONG).unwrap();
        ((ticket, value), producer.reports().timeout(Duration::ZERO).next().expect("what is flushed is told"))
    };
    let told = (0..1000).map(flush).collect();
    check_all(broker, &producer, told);
}

#[test]
fn threads_wait_while_others_send_now_and_then() {
    let broker = Broker::start(3, 1, "");
    let producer = broker.builder().build().unwrap();
    let wait = |_, producer: Producer| producer.reports().inspect(|it| pause(it.ticket.number as usize)).collect::<Vec<_>>();
    let send = |thread, producer: Producer| {
        let send = |number| {
            pause(number * (thread + 1));
            let (record, value) = record(thread, number);
            (producer.send(record).unwrap(), value)
        };
        (0..500).map(send).collect::<Sent>()
    };
    let waiting = spawn(3, &producer, wait);
    let sent = join(spawn(3, &producer, send));
    producer.close(LONG).unwrap();
    check(&sent, &join(waiting), &broker.end());
}

#[test]
fn what_nobody_waits_for_is_heard_too() {
    let broker = Broker::start(1, 1, "");
    let producer = broker.builder().build().unwrap();
    for number in 0..20 {
        send_and_wait(&producer, 0, number);
        let wait = Duration::from_millis(number as u64);
        assert_eq!(producer.reports().timeout(wait).next(), None);
        producer.send(Record::new("a")).unwrap();
        assert!(comes(|| producer.open_records() == 0));
        assert!(producer.reports().next().is_some());
    }
    producer.close(LONG).unwrap();
}

#[test]
fn reports_that_are_put_back_go_to_those_that_wait() {
    let broker = Broker::start(1, 1, "");
    let producer = broker.builder().build().unwrap();
    for _ in 0..10 {
        for _ in 0..4 {
            producer.send(Record::new("a")).unwrap();
        }
        producer.flush(LONG).unwrap();
        let mut fetched = producer.reports();
        assert!(fetched.next().is_some());
        let waiting = spawn(3, &producer, |_, producer| producer.reports().timeout(LONG).next());
        thread::sleep(SECOND / 50);
        let begun = Instant::now();
        drop(fetched);
        assert!(waiting.into_iter().all(|it| it.join().unwrap().is_some()));
        assert!(begun.elapsed() < 5 * SECOND);
    }
    producer.close(LONG).unwrap();
}

#[test]
fn two_threads_flush_while_others_send() {
    let broker = Broker::start(3, 3, "");
    let producer = broker.builder().linger(SECOND / 200).buffer_memory(300_000).build().unwrap();
    let is_over = Arc::new(AtomicBool::new(false));
    let flush = |producer: Producer, is_over: Arc<AtomicBool>| {
        move || {
            let flushes = (0..).take_while(|_| !is_over.load(Ordering::Relaxed));
            flushes.map(|it| producer.flush(LONG).map(|()| pause(it)).unwrap()).count()
        }
    };
    let flushing = [0; 2].map(|_| thread::spawn(flush(producer.clone(), Arc::clone(&is_over))));
    let sent = send_all(&producer, COUNT);
    is_over.store(true, Ordering::Relaxed);
    assert!(flushing.into_iter().all(|it| it.join().unwrap() > 1));
    producer.close(LONG).unwrap();
    check(&sent, &producer.reports().collect::<Vec<_>>(), &broker.end());
}

/// Sends so many records of a thread, with a flush behind one of about so many, at others in each thread.
fn send_and_flush(thread: usize, producer: &Producer, count: usize, each: usize) -> Sent {
    let send = |number| {
        let (record, value) = record(thread, number);
        let ticket = producer.send(record).unwrap();
        if number % (each + thread) == 0 {
            producer.flush(LONG).unwrap();
        }
        (ticket, value)
    };
    (0..count).map(send).collect()
}

#[test]
fn a_full_buffer_is_flushed_beside_other_flushes() {
    let broker = Broker::start(2, 1, "");
    let producer = broker.builder().linger(LONG).delivery_timeout(2 * LONG).buffer_memory(3000).build().unwrap();
    let begun = Instant::now();
    let sent = join(spawn(4, &producer, |thread, producer| send_and_flush(thread, &producer, 1000, 7)));
    producer.close(LONG).unwrap();
    assert!(begun.elapsed() < LONG / 2, "a send has waited for records that linger");
    check(&sent, &producer.reports().collect::<Vec<_>>(), &broker.end());
}

#[test]
fn a_callback_sends_each_next_record() {
    const LAST: u64 = 5000;
    let broker = Broker::start(1, 1, "");
    let own: Arc<OnceLock<Producer>> = Arc::default();
    let (borrowed, (ends, ended)) = (Arc::clone(&own), mpsc::channel());
    let on_report = move |report: Report| match report.ticket.number {
        LAST => ends.send(()).unwrap(),
        number => drop(borrowed.get().unwrap().send(Record::new((number + 1).to_string())).unwrap()),
    };
    let producer = broker.builder().on_report(on_report).build().unwrap();
    own.set(producer.clone()).unwrap();
    producer.send(Record::new("0")).unwrap();
    ended.recv_timeout(LONG).unwrap();
    producer.close(LONG).unwrap();
    assert!(broker.end()[&0].iter().enumerate().all(|(number, it)| *it == number.to_string()));
}

// ---- what goes wrong with brokers

#[test]
fn the_broker_is_away_while_a_thread_waits() {
    let broker = Broker::start(3, 1, "");
    let relay = Relay::start(broker.addresses[0]);
    let (on_warning, said) = warnings();
    let producer = relay.builder().on_warning(on_warning).build().unwrap();
    let waiting = spawn(2, &producer, |_, producer| producer.reports().collect::<Vec<_>>());
    let mut sent = send_all(&producer, 1000);
    for _ in 0..5 {
        said.lock().unwrap().clear();
        relay.leave();
        sent.extend(send_all(&producer, 100));
        assert!(comes(|| said.lock().unwrap().iter().any(|it| it.contains("has ended"))), "the host tells what others see");
        thread::sleep(SECOND / 4);
        relay.come_back();
        sent.extend(send_all(&producer, 1000));
        producer.flush(LONG).unwrap();
    }
    producer.close(LONG).unwrap();
    check(&sent, &join(waiting), &broker.end());
}

#[test]
fn a_lost_answer_is_missed_in_time() {
    let broker = Broker::start(1, 1, "1=drop-request,2=drop-reply");
    let producer = broker.builder().request_timeout(SECOND / 2).build().unwrap();
    let waiting = spawn(1, &producer, |_, producer| producer.reports().collect::<Vec<_>>());
    let mut sent = vec![];
    for number in 0..4 {
        thread::sleep(SECOND / 10);
        let begun = Instant::now();
        let (record, value) = record(0, number);
        sent.push((producer.send(record).unwrap(), value));
        producer.flush(LONG).unwrap();
        assert!(begun.elapsed() < 3 * SECOND, "{:?}", begun.elapsed());
    }
    producer.close(LONG).unwrap();
    check(&sent, &join(waiting), &broker.end());
}

// ---- timeouts and ends

#[test]
fn who_serves_heeds_its_timeout() {
    let broker = Broker::start(1, 1, "");
    let producer = broker.builder().build().unwrap();
    for number in 0..5 {
        send_and_wait(&producer, 0, number);
        let begun = Instant::now();
        assert_eq!(producer.reports().timeout(SECOND / 5).next(), None);
        assert!(begun.elapsed() >= SECOND / 5 && begun.elapsed() < 2 * SECOND);
    }
    producer.close(LONG).unwrap();
}

#[test]
fn a_handle_is_dropped_while_another_thread_waits() {
    let broker = Broker::start(1, 1, "");
    let (on_warning, said) = warnings();
    let builder = broker.builder().linger(LONG).delivery_timeout(2 * LONG).on_warning(on_warning);
    let producer = builder.build().unwrap();
    producer.send(Record::new("first")).unwrap();
    producer.flush(LONG).unwrap();
    let waiting = spawn(2, &producer, |_, producer| producer.reports().timeout(SECOND / 2).count());
    producer.send(Record::new("a")).unwrap();
    drop(producer);
    assert!(said.lock().unwrap().is_empty());
    assert_eq!(waiting.into_iter().map(|it| it.join().unwrap()).sum::<usize>(), 1);
    assert_eq!(*said.lock().unwrap(), ["the producer was not closed, and 1 records were open"]);
    assert_eq!(broker.end()[&0], ["first"]);
}

#[test]
fn all_waits_end_with_the_producer() {
    for number in 0..100 {
        let broker = Broker::start(1, 1, "");
        let producer = broker.builder().build().unwrap();
        let waiting = spawn(3, &producer, |_, producer| producer.reports().map(|it| it.ticket).collect::<Vec<_>>());
        let flushing = spawn(2, &producer, |_, producer| {
            while producer.send(Record::new("a")).is_ok() {
                producer.flush(LONG).unwrap();
            }
        });
        pause(number);
        let closing = spawn(2, &producer, |_, producer| producer.close(LONG).unwrap());
        closing.into_iter().chain(flushing).for_each(|it| it.join().unwrap());
        let told = join(waiting).len() + producer.reports().count();
        assert_eq!(broker.end().get(&0).map_or(0, Vec::len), told);
    }
}

// ---- streams

/// TCP, and what is called before each read and each write.
struct Hooked<R, W>(R, W);

struct HookedStream<R, W>(TcpStream, R, W);

trait Hook: Fn() + Clone + Send + Sync + 'static {}

impl<F: Fn() + Clone + Send + Sync + 'static> Hook for F {}

impl<R: Hook, W: Hook> Connect for Hooked<R, W> {
    type Stream = HookedStream<R, W>;

    fn connect(&self, host: &str, port: u16, timeout: Duration) -> io::Result<Self::Stream> {
        Ok(HookedStream(Tcp.connect(host, port, timeout)?, self.0.clone(), self.1.clone()))
    }

    fn socket(stream: &Self::Stream) -> BorrowedFd<'_> {
        stream.0.as_fd()
    }
}

impl<R: Hook, W> Read for HookedStream<R, W> {
    fn read(&mut self, room: &mut [u8]) -> io::Result<usize> {
        (self.1)();
        self.0.read(room)
    }
}

impl<R, W: Hook> Write for HookedStream<R, W> {
    fn write(&mut self, bytes: &[u8]) -> io::Result<usize> {
        (self.2)();
        self.0.write(bytes)
    }

    fn flush(&mut self) -> io::Result<()> {
        Ok(())
    }
}

/// What panics once it is told to, and what tells it to.
fn bomb() -> (impl Hook, Arc<AtomicBool>) {
    let is_lit = Arc::new(AtomicBool::new(false));
    let fuse = Arc::clone(&is_lit);
    let go_off = move || {
        if fuse.load(Ordering::SeqCst) {
            panic::resume_unwind(Box::new("a stream"));
        }
    };
    (go_off, is_lit)
}

fn ends_when_lit(connector: impl Connect, is_lit: &AtomicBool) {
    let broker = Broker::start(1, 1, "");
    let producer = Producer::builder(broker.bootstrap(), TOPIC).build_over(connector).unwrap();
    producer.send(Record::new("a")).unwrap();
    producer.flush(LONG).unwrap();
    let waiting = spawn(3, &producer, |_, producer| producer.reports().count());
    thread::sleep(SECOND / 20);
    is_lit.store(true, Ordering::SeqCst);
    let sending = spawn(1, &producer, |_, producer| producer.send(Record::new("b")).is_ok());
    let sent: Vec<_> = sending.into_iter().map(JoinHandle::join).collect();
    let unwound = sent.iter().filter(|it| it.is_err()).count();
    // What another connection reads or writes may have met it before.
    let accepted = sent.iter().filter(|it| !matches!(it, Ok(false))).count();
    let counts: Vec<_> = waiting.into_iter().map(JoinHandle::join).collect();
    assert!(unwound + counts.iter().filter(|it| it.is_err()).count() <= 1, "one thread alone has met it");
    assert!(counts.into_iter().flatten().sum::<usize>() <= 1);
    assert_eq!(producer.send(Record::new("c")).unwrap_err().kind, SendErrorKind::Closed);
    assert_eq!(producer.open_records(), accepted as u64);
    assert_eq!(producer.flush(LONG).is_err(), accepted > 0);
    assert_eq!(producer.close(LONG).is_err(), accepted > 0);
}

#[test]
fn a_read_that_panics_ends_the_producer() {
    let (go_off, is_lit) = bomb();
    ends_when_lit(Hooked(go_off, || ()), &is_lit);
}

#[test]
fn a_write_that_panics_ends_the_producer() {
    let (go_off, is_lit) = bomb();
    ends_when_lit(Hooked(|| (), go_off), &is_lit);
}

#[test]
fn a_stream_may_send() {
    const MOST: usize = 100;
    let broker = Broker::start(1, 1, "");
    let own: Arc<OnceLock<Producer>> = Arc::default();
    let count = Arc::new(AtomicUsize::new(0));
    let (borrowed, counted) = (Arc::clone(&own), Arc::clone(&count));
    let send = move || {
        let Some(producer) = borrowed.get().filter(|_| counted.load(Ordering::SeqCst) < MOST) else { return };
        counted.fetch_add(usize::from(producer.send(Record::new(vec![b'n'; 900])).is_ok()), Ordering::SeqCst);
        // (many, so that in some of them a millisecond ends)
        for _ in 0..500 {
            assert!(producer.flush(LONG).is_err(), "what is being written is not flushed");
        }
    };
    let builder = broker.builder().buffer_memory(3000);
    let producer = builder.build_over(Hooked(|| (), send)).unwrap();
    producer.send(Record::new("first")).unwrap();
    producer.flush(LONG).unwrap();
    own.set(producer.clone()).unwrap();
    let begun = Instant::now();
    for _ in 0..MOST {
        producer.send(Record::new(vec![b'x'; 900])).unwrap();
    }
    assert!(begun.elapsed() < LONG / 2, "a call in a stream waits");
    producer.close(LONG).unwrap();
    assert_eq!(producer.reports().filter(|it| it.outcome.is_delivered()).count(), 1 + MOST + count.load(Ordering::SeqCst));
}

// ---- senders that serve

/// The name of threads that send, by which it is seen that these have read.
const SENDER: &str = "sender";

fn is_sender() -> bool {
    thread::current().name() == Some(SENDER)
}

/// A producer whose batches are small and linger, and which has connections. In it each sender soon serves.
fn lingering(broker: &Broker, connector: impl Connect) -> (Producer, Sent) {
    let producer = broker.builder().linger(SECOND / 100).batch_size(2000).build_over(connector).unwrap();
    let (record, value) = record(0, 0);
    let sent = vec![(producer.send(record).unwrap(), value)];
    producer.flush(LONG).unwrap();
    (producer, sent)
}

/// Sends from so many threads, until this is so.
fn send_until(threads: usize, producer: &Producer, is_so: impl Fn() -> bool) -> Sent {
    let send = |thread| {
        let producer = producer.clone();
        let records = (0..5000).map(move |it| record(thread, it));
        let send = move || records.map(|(it, value)| (producer.send(it).unwrap(), value)).collect();
        thread::Builder::new().name(SENDER.into()).spawn(send).unwrap()
    };
    let (mut sent, until) = (Sent::new(), Instant::now() + LONG);
    while !is_so() && Instant::now() < until {
        sent.extend(join((0..threads).map(send).collect()));
    }
    assert!(is_so());
    sent
}

/// What counts how often senders have called it.
fn counter() -> (impl Hook, Arc<AtomicUsize>) {
    let count = Arc::new(AtomicUsize::new(0));
    let counts = Arc::clone(&count);
    let add = move || {
        counts.fetch_add(usize::from(is_sender()), Ordering::SeqCst);
    };
    (add, count)
}

#[test]
fn many_senders_serve_where_nobody_waits() {
    let broker = Broker::start(3, 3, "");
    let (add, count) = counter();
    let (producer, mut sent) = lingering(&broker, Hooked(add, || ()));
    sent.extend(send_until(4, &producer, || count.load(Ordering::SeqCst) > 100));
    assert!(comes(|| producer.open_records() == 0), "the host serves behind the last of them");
    producer.close(LONG).unwrap();
    check(&sent, &producer.reports().collect::<Vec<_>>(), &broker.end());
}

#[test]
fn a_sender_serves_while_others_wait() {
    let broker = Broker::start(3, 1, "");
    let (add, count) = counter();
    let (producer, mut sent) = lingering(&broker, Hooked(add, || ()));
    let waiting = spawn(2, &producer, |_, producer| producer.reports().collect::<Vec<_>>());
    for round in 1..=10 {
        sent.extend(send_until(1, &producer, || count.load(Ordering::SeqCst) > 20 * round));
        assert!(comes(|| producer.open_records() == 0), "who waits serves behind it");
    }
    producer.close(LONG).unwrap();
    check(&sent, &join(waiting), &broker.end());
}

#[test]
fn senders_flush_while_others_send() {
    let broker = Broker::start(3, 1, "");
    let (producer, mut sent) = lingering(&broker, Tcp);
    sent.extend(join(spawn(4, &producer, |thread, producer| send_and_flush(thread, &producer, 20_000, 500))));
    producer.close(LONG).unwrap();
    check(&sent, &producer.reports().collect::<Vec<_>>(), &broker.end());
}

#[test]
fn a_read_that_panics_in_a_sender_ends_the_producer() {
    let broker = Broker::start(1, 1, "");
    let (go_off, is_lit) = bomb();
    let go_off_in_sender = move || {
        if is_sender() {
            go_off();
        }
    };
    let (producer, _) = lingering(&broker, Hooked(go_off_in_sender, || ()));
    let waiting = spawn(2, &producer, |_, producer| producer.reports().count());
    is_lit.store(true, Ordering::SeqCst);
    let own = producer.clone();
    let send = move || while own.send(Record::new(vec![b'x'; 100])).is_ok() {};
    assert!(thread::Builder::new().name(SENDER.into()).spawn(send).unwrap().join().is_err());
    assert!(waiting.into_iter().all(|it| it.join().is_ok()));
    assert_eq!(producer.send(Record::new("c")).unwrap_err().kind, SendErrorKind::Closed);
    assert!(producer.flush(LONG).is_err() && producer.close(LONG).is_err());
}

#[test]
fn a_stream_may_send_while_a_sender_reads_it() {
    const MOST: usize = 100;
    let broker = Broker::start(1, 1, "");
    let own: Arc<OnceLock<Producer>> = Arc::default();
    let count = Arc::new(AtomicUsize::new(0));
    let (borrowed, counted) = (Arc::clone(&own), Arc::clone(&count));
    let send = move || {
        let Some(producer) = borrowed.get().filter(|_| is_sender() && counted.load(Ordering::SeqCst) < MOST) else { return };
        producer.send(Record::new(vec![b'n'; 3000])).unwrap();
        counted.fetch_add(1, Ordering::SeqCst);
    };
    let (producer, first) = lingering(&broker, Hooked(send, || ()));
    own.set(producer.clone()).unwrap();
    let sent = send_until(1, &producer, || count.load(Ordering::SeqCst) == MOST);
    producer.close(LONG).unwrap();
    let count = first.len() + sent.len() + MOST;
    assert_eq!(producer.reports().filter(|it| it.outcome.is_delivered()).count(), count);
}
