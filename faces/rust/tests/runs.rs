//! Records that go to brokers, and what becomes of them.

mod common;

use common::{check, quiet_port, record, records_in, run, send_all, warnings, Broker, Masked, Relay, COUNT, LONG, TOPIC};
use lembicsov::{Connect, ErrorCode, Outcome, Producer, Record, RecordRef, Report, SendErrorKind, Tcp, Ticket, WaitError};
use std::collections::HashMap;
use std::fs;
use std::io;
use std::net::{TcpListener, TcpStream};
use std::os::fd::{AsFd, BorrowedFd};
use std::sync::atomic::{AtomicBool, AtomicUsize, Ordering};
use std::sync::{mpsc, Arc, Mutex, OnceLock};
use std::thread;
use std::time::{Duration, Instant};

const SECOND: Duration = Duration::from_secs(1);

/// How long brokers are away.
const AWAY: Duration = Duration::from_secs(5);

// ---- as it goes

#[test]
fn one_node_with_keys_and_headers() {
    let broker = Broker::start(3, 1, "");
    let relay = Relay::start(broker.addresses[0]);
    let producer = relay.builder().linger(Duration::from_millis(1)).build().unwrap();
    let sent = send_all(&producer, COUNT);
    producer.close(LONG).unwrap();
    let reports: Vec<_> = producer.reports().collect();
    check(&sent, &reports, &broker.end());

    let (mut homes, mut count) = (HashMap::new(), 0);
    for (partition, key, value, headers) in relay.carried().iter().flat_map(|it| records_in(it)) {
        if let Some(key) = &key {
            assert_eq!(*homes.entry(key.clone()).or_insert(partition), partition, "a key went to several partitions");
        }
        let text = String::from_utf8(value.clone().unwrap()).unwrap();
        let numbers: Vec<usize> = text.split('-').skip(1).map(|it| it.parse().unwrap()).collect();
        let wanted_key = common::key(numbers[1]).map(String::into_bytes);
        let wanted = vec![(b"trace".to_vec(), value), (b"empty".to_vec(), Some(vec![])), (b"none".to_vec(), None)];
        assert_eq!((key, headers), (wanted_key, wanted));
        count += 1;
    }
    assert_eq!(count, COUNT);
}

#[test]
fn three_nodes_with_keys_and_headers() {
    let broker = Broker::start(7, 3, "");
    let producer = broker.builder().build().unwrap();
    run(broker, producer);
}

#[test]
fn a_small_buffer_and_linger() {
    let broker = Broker::start(3, 1, "");
    let builder = broker.builder().buffer_memory(100_000).batch_size(200_000).linger(SECOND / 2);
    let producer = builder.build().unwrap();
    let begun = Instant::now();
    run(broker, producer);
    assert!(begun.elapsed() < 15 * SECOND, "a full buffer waited for records that lingered");
}

#[test]
fn batches_of_values() {
    let broker = Broker::start(2, 1, "");
    let producer = broker.builder().buffer_memory(200_000).build().unwrap();
    let values: Vec<String> = (0..COUNT).map(|it| format!("value-{it}")).collect();
    for group in values.chunks(COUNT / 2) {
        let group: Vec<_> = group.iter().map(String::as_bytes).collect();
        producer.send_batch(Some(1), &group).unwrap();
    }
    let refused = producer.send_batch(Some(2), &[b"a"]).unwrap_err();
    assert_eq!((refused.accepted, refused.kind), (0, SendErrorKind::NoPartition));
    let large = vec![0; 2 << 20];
    let refused = producer.send_batch(None, &[b"a", &large, b"b"]).unwrap_err();
    assert_eq!((refused.accepted, refused.kind), (1, SendErrorKind::TooLarge));
    producer.close(LONG).unwrap();
    assert_eq!(producer.reports().filter(|it| it.outcome.is_delivered()).count(), COUNT + 1);
    let logs = broker.end();
    assert_eq!(logs[&1][..COUNT], values);
}

#[test]
fn records_that_are_lent() {
    let broker = Broker::start(2, 1, "");
    let relay = Relay::start(broker.addresses[0]);
    let producer = relay.builder().build().unwrap();
    let line = String::from("order-17 paid");
    let (key, value) = line.split_once(' ').unwrap();
    let headers = [("trace", Some(b"7f3a".as_slice())), ("empty", Some(&[])), ("none", None)];
    let lent = [
        RecordRef::new(value).partition(1),
        RecordRef::new("").partition(1).headers(&headers).key(key),
        RecordRef::null().key("").timestamp_ms(0).partition(1),
    ];
    for (number, record) in (0..).zip(lent) {
        assert_eq!(producer.send_ref(record), Ok(Ticket { number, partition: 1 }));
    }
    let of_key = producer.send(Record::new("a").key(key)).unwrap().partition;
    assert_eq!(producer.send_ref(RecordRef::new("a").key(key)).unwrap().partition, of_key);
    let in_turn = [(); 2].map(|()| producer.send_ref(RecordRef::new("a")).unwrap().partition);
    assert_ne!(in_turn[0], in_turn[1]);

    assert_eq!(producer.send_ref(RecordRef::new("a").partition(2)), Err(SendErrorKind::NoPartition));
    assert_eq!(producer.send_ref(RecordRef::new("a").timestamp_ms(-1)), Err(SendErrorKind::BadTimestamp));
    assert_eq!(producer.send_ref(RecordRef::new(&vec![0; 2 << 20])), Err(SendErrorKind::TooLarge));
    producer.close(LONG).unwrap();
    assert_eq!(producer.send_ref(RecordRef::new("a")), Err(SendErrorKind::Closed));
    assert_eq!(producer.reports().filter(|it| it.outcome.is_delivered()).count(), 7);
    drop(broker.end());

    let carried: Vec<_> = relay.carried().iter().flat_map(|it| records_in(it)).filter(|it| it.0 == 1).take(3).collect();
    let own = |text: &str| Some(text.as_bytes().to_vec());
    let headers = vec![(b"trace".to_vec(), own("7f3a")), (b"empty".to_vec(), own("")), (b"none".to_vec(), None)];
    let wanted = [(1, None, own("paid"), vec![]), (1, own("order-17"), own(""), headers), (1, own(""), None, vec![])];
    assert_eq!(carried, wanted);
}

#[test]
fn reports_go_to_a_callback() {
    let broker = Broker::start(3, 1, "");
    let told = Arc::new(Mutex::new(Vec::new()));
    let keeps = Arc::clone(&told);
    let producer = broker.builder().on_report(move |it| keeps.lock().unwrap().push(it)).build().unwrap();
    let sent = send_all(&producer, COUNT);
    producer.flush(LONG).unwrap();
    check_told(&sent, &told);
    assert_eq!(producer.reports().count(), 0);
    producer.close(LONG).unwrap();
    check(&sent, &told.lock().unwrap(), &broker.end());
}

/// When `flush` has returned, each record was told of.
fn check_told(sent: &common::Sent, told: &Mutex<Vec<Report>>) {
    assert_eq!(told.lock().unwrap().len(), sent.len());
}

#[test]
fn flush_waits_for_callbacks() {
    let broker = Broker::start(1, 1, "");
    let count = Arc::new(AtomicUsize::new(0));
    let counts = Arc::clone(&count);
    let on_report = move |_| {
        thread::sleep(SECOND / 4);
        counts.fetch_add(1, Ordering::SeqCst);
    };
    let producer = broker.builder().on_report(on_report).build().unwrap();
    producer.send(Record::new("a")).unwrap();
    thread::sleep(SECOND / 8);
    producer.flush(LONG).unwrap();
    assert_eq!(count.load(Ordering::SeqCst), 1);
    producer.close(LONG).unwrap();
}

#[test]
fn a_callback_may_send_and_close() {
    let broker = Broker::start(1, 1, "");
    let own: Arc<OnceLock<Producer>> = Arc::default();
    let (borrowed, (ends, ended)) = (Arc::clone(&own), mpsc::channel());
    let on_report = move |report: Report| {
        let producer = borrowed.get().unwrap();
        match report.ticket.number {
            0 => drop(producer.send(Record::new("second")).unwrap()),
            _ => {
                assert_eq!(producer.flush(LONG), Ok(()));
                ends.send(producer.close(LONG)).unwrap();
            }
        }
    };
    let producer = broker.builder().on_report(on_report).build().unwrap();
    own.set(producer.clone()).unwrap();
    producer.send(Record::new("first")).unwrap();
    assert!(ended.recv_timeout(LONG).is_ok());
    producer.close(LONG).unwrap();
    assert_eq!(broker.end()[&0], ["first", "second"]);
}

#[test]
fn a_stream_that_holds_bytes_back() {
    struct Masking;

    impl Connect for Masking {
        type Stream = Masked;

        fn connect(&self, host: &str, port: u16, timeout: Duration) -> io::Result<Masked> {
            Ok(Masked::new(Tcp.connect(host, port, timeout)?, 0x5a))
        }

        fn socket(stream: &Masked) -> BorrowedFd<'_> {
            stream.socket.as_fd()
        }
    }

    // The stream holds more back of what it tells of so many partitions than is read at once.
    let broker = Broker::start(1000, 1, "");
    let relay = Relay::start_masked(broker.addresses[0], 0x5a);
    let producer = relay.builder().build_over(Masking).unwrap();
    run(broker, producer);
}

#[test]
fn handles_go_to_other_threads() {
    fn goes<T: Clone + Send + Sync + 'static>() {}
    goes::<Producer>();
}

#[test]
fn connections_have_nodelay_and_keepalive() {
    let listener = TcpListener::bind("127.0.0.1:0").unwrap();
    let stream = Tcp.connect("localhost", listener.local_addr().unwrap().port(), SECOND).unwrap();
    assert!(stream.nodelay().unwrap());
    // Of each socket the system tells its addresses, and the kind of its timer, of which 2 is keepalive (proc_net_tcp).
    let [local, peer] = [stream.local_addr(), stream.peer_addr()].map(|it| format!("0100007F:{:04X}", it.unwrap().port()));
    let timer_of = |sockets: String| {
        let mut rows = sockets.lines().map(|it| it.split_whitespace().collect::<Vec<_>>());
        rows.find(|it| it[1..3] == [&local, &peer]).map(|it| it[5].to_owned())
    };
    // While others come and go it may leave one out.
    let timer = (0..100).find_map(|_| timer_of(fs::read_to_string("/proc/net/tcp").unwrap())).unwrap();
    assert!(timer.starts_with("02:"), "{timer}");
}

// ---- what goes wrong with brokers

#[test]
fn a_connection_that_takes_too_long() {
    /// The first connection takes long, and comes to nothing.
    #[derive(Default)]
    struct Slow(AtomicBool);

    impl Connect for Slow {
        type Stream = TcpStream;

        fn connect(&self, host: &str, port: u16, timeout: Duration) -> io::Result<TcpStream> {
            if !self.0.swap(true, Ordering::Relaxed) {
                thread::sleep(3 * SECOND);
                return Err(io::ErrorKind::Other.into());
            }
            Tcp.connect(host, port, timeout)
        }

        fn socket(stream: &TcpStream) -> BorrowedFd<'_> {
            stream.as_fd()
        }
    }

    let broker = Broker::start(1, 1, "");
    let (on_warning, said) = warnings();
    let producer = broker.builder().connect_timeout(SECOND / 4).on_warning(on_warning).build_over(Slow::default()).unwrap();
    let begun = Instant::now();
    producer.send(Record::new("a")).unwrap();
    assert!(begun.elapsed() < 3 * SECOND);
    producer.close(LONG).unwrap();
    assert_eq!(*said.lock().unwrap(), [format!("{} can't be connected to: timed out", broker.bootstrap())]);
    assert_eq!(broker.end()[&0], ["a"]);
}

#[test]
fn leaders_that_move() {
    let broker = Broker::start(6, 3, "4=move:1,9=move:2,15=move:0,22=move:1,30=move:2,31=move:0");
    let producer = broker.builder().build().unwrap();
    run(broker, producer);
}

#[test]
fn nodes_that_hang_up() {
    let broker = Broker::start(3, 3, "4=hang-up,9=move:1,15=hang-up,16=hang-up,25=hang-up");
    let producer = broker.builder().build().unwrap();
    run(broker, producer);
}

#[test]
fn lost_answers() {
    let broker = Broker::start(3, 3, "5=drop-reply,9=drop-request,14=drop-reply");
    let producer = broker.builder().request_timeout(SECOND).build().unwrap();
    run(broker, producer);
}

#[test]
fn late_answers() {
    let broker = Broker::start(3, 1, "6=late:7,14=repeat,20=late:19");
    let producer = broker.builder().build().unwrap();
    run(broker, producer);
}

#[test]
fn a_broker_that_is_away_for_five_seconds() {
    let broker = Broker::start(3, 1, "");
    let relay = Relay::start(broker.addresses[0]);
    let (on_warning, said) = warnings();
    let producer = relay.builder().on_warning(on_warning).build().unwrap();
    let mut sent = send_all(&producer, COUNT / 2);
    relay.leave();
    let left = Instant::now();
    let before = producer.open_records();
    let more = thread::spawn({
        let producer = producer.clone();
        move || (0..COUNT / 2).map(|it| record(9, it)).map(|(it, value)| (producer.send(it).unwrap(), value)).collect::<Vec<_>>()
    });
    thread::sleep(AWAY.saturating_sub(left.elapsed()));
    assert!(producer.open_records() > before, "records are accepted while the broker is away");
    relay.come_back();
    sent.extend(more.join().unwrap());
    producer.close(LONG).unwrap();
    let reports: Vec<_> = producer.reports().collect();
    check(&sent, &reports, &broker.end());
    let said = said.lock().unwrap();
    assert!(
        said.iter().any(|it| it.contains("has ended")) && said.iter().any(|it| it.contains("can't be connected to")),
        "{said:?}"
    );
}

#[test]
fn a_broker_that_comes_and_goes() {
    let broker = Broker::start(5, 1, "");
    let relay = Relay::start(broker.addresses[0]);
    let builder = relay.builder().buffer_memory(50_000).linger(Duration::from_millis(5)).request_timeout(2 * SECOND);
    let producer = builder.build().unwrap();
    let is_over = AtomicBool::new(false);
    let sent = thread::scope(|scope| {
        scope.spawn(|| {
            for wait in (0..500).map(|it| Duration::from_millis(37 * it % 150)).take_while(|_| !is_over.load(Ordering::Relaxed)) {
                relay.leave();
                thread::sleep(wait / 2);
                relay.come_back();
                producer.flush(LONG).unwrap();
                thread::sleep(wait);
            }
        });
        let sent = send_all(&producer, COUNT);
        is_over.store(true, Ordering::Relaxed);
        sent
    });
    producer.close(LONG).unwrap();
    let reports: Vec<_> = producer.reports().collect();
    check(&sent, &reports, &broker.end());
    assert!(relay.carried().len() > 2, "the broker was never away");
}

#[test]
fn a_broker_that_comes_up_only_afterwards() {
    let port = quiet_port();
    let producer = Producer::builder(format!("localhost:{port}"), TOPIC).build().unwrap();
    let late = thread::spawn(move || {
        thread::sleep(SECOND);
        Broker::start_at(3, &[port], "")
    });
    let sent = send_all(&producer, COUNT);
    producer.close(LONG).unwrap();
    let reports: Vec<_> = producer.reports().collect();
    check(&sent, &reports, &late.join().unwrap().end());
}

#[test]
fn a_batch_that_is_refused() {
    let broker = Broker::start(1, 1, "0=refuse:10");
    let producer = broker.builder().linger(SECOND / 10).max_in_flight_requests_per_connection(1).build().unwrap();
    let value = vec![b'x'; 10_000];
    let tickets: Vec<_> = (0..3).map(|_| producer.send(Record::new(value.clone())).unwrap().number).collect();
    assert_eq!(tickets, [0, 1, 2]);
    producer.close(LONG).unwrap();
    let outcomes: Vec<_> = producer.reports().map(|it| it.outcome).collect();
    let rejected = Outcome::Rejected(ErrorCode(10));
    assert_eq!(outcomes, [rejected, Outcome::Fenced, Outcome::Fenced]);
    assert_eq!(rejected.to_string(), "the broker refused its batch: error code 10 MESSAGE_TOO_LARGE");
    assert!(rejected.advice().contains("build another one"));
}

// ---- refusals, timeouts and ends

#[test]
fn what_is_refused_comes_back() {
    let broker = Broker::start(2, 1, "");
    let producer = broker.builder().build().unwrap();
    let refused = |it: Record| {
        let error = producer.send(it.clone()).unwrap_err();
        assert_eq!(error.record, it);
        error.kind
    };
    assert_eq!(refused(Record::new("a").partition(2)), SendErrorKind::NoPartition);
    assert_eq!(refused(Record::new("a").partition(u32::MAX)), SendErrorKind::NoPartition);
    assert_eq!(refused(Record::new("a").timestamp_ms(-1)), SendErrorKind::BadTimestamp);
    assert_eq!(refused(Record::new(vec![0; 2 << 20])), SendErrorKind::TooLarge);
    assert_eq!(producer.send(Record::null().key("gone").timestamp_ms(0).partition(1)).unwrap().partition, 1);
    producer.close(LONG).unwrap();
    assert_eq!(refused(Record::new("a")), SendErrorKind::Closed);
    assert_eq!(producer.close(LONG), Ok(()));
}

#[test]
fn settings_that_are_refused() {
    let words = |it: io::Result<Producer>| it.unwrap_err().to_string();
    assert!(words(Producer::builder("localhost", TOPIC).build()).contains("an address is not host:port"));
    assert!(words(Producer::builder("localhost:9092", "").build()).contains("the topic's name is empty"));
    let builder = Producer::builder("localhost:9092", TOPIC);
    assert!(words(builder.max_in_flight_requests_per_connection(6).build()).contains("not from 1 to 5"));
}

#[test]
fn send_waits_for_a_broker_and_for_room() {
    let port = quiet_port();
    let alone = Producer::builder(format!("127.0.0.1:{port}"), TOPIC).max_block(SECOND / 2).build().unwrap();
    let begun = Instant::now();
    let error = alone.send(Record::new("a")).unwrap_err();
    assert_eq!((error.kind, error.record), (SendErrorKind::NotReady, Record::new("a")));
    assert!(begun.elapsed() >= SECOND / 2);
    alone.close(Duration::ZERO).unwrap();

    let broker = Broker::start(1, 1, "");
    let relay = Relay::start(broker.addresses[0]);
    let producer = relay.builder().buffer_memory(10_000).max_block(SECOND / 2).build().unwrap();
    while producer.send(Record::new("first")).is_err() {}
    producer.flush(LONG).unwrap();
    relay.leave();
    let begun = Instant::now();
    let (count, error) =
        (1..).find_map(|it| producer.send(Record::new(vec![b'x'; 1000])).err().map(|error| (it, error))).unwrap();
    assert_eq!(error.kind, SendErrorKind::BufferFull);
    assert!(begun.elapsed() >= SECOND / 2);
    assert_eq!(producer.flush(SECOND / 10), Err(WaitError::TimedOut { open: count - 1 }));
    relay.come_back();
    producer.flush(LONG).unwrap();
    producer.send(error.record).unwrap();
    producer.close(LONG).unwrap();
    assert_eq!(producer.reports().filter(|it| it.outcome.is_delivered()).count() as u64, count + 1);
}

#[test]
fn no_broker_in_time() {
    let port = quiet_port();
    let builder = Producer::builder(format!("127.0.0.1:{port}"), TOPIC).open_timeout(SECOND / 2);
    let producer = builder.build().unwrap();
    assert_eq!(producer.send(Record::new("a")).unwrap_err().kind, SendErrorKind::Failed(None));
    assert_eq!(producer.reports().next(), None);
    producer.close(LONG).unwrap();
}

#[test]
fn close_gives_up_in_an_outage() {
    let broker = Broker::start(2, 1, "");
    let relay = Relay::start(broker.addresses[0]);
    let producer = relay.builder().build().unwrap();
    let sent = send_all(&producer, 1000);
    producer.flush(LONG).unwrap();
    relay.leave();
    let more = send_all(&producer, 1000);
    let begun = Instant::now();
    assert_eq!(producer.close(SECOND), Err(WaitError::TimedOut { open: 1000 }));
    assert!(begun.elapsed() >= SECOND && begun.elapsed() < 10 * SECOND);
    let reports: Vec<_> = producer.reports().collect();
    let delivered = reports.iter().filter(|it| it.outcome.is_delivered()).count();
    let given_up = reports.iter().filter(|it| matches!(it.outcome, Outcome::Unknown | Outcome::Ended)).count();
    assert_eq!((delivered, given_up), (sent.len(), more.len()));
    assert_eq!(producer.send(Record::new("a")).unwrap_err().kind, SendErrorKind::Closed);
}

#[test]
fn reports_of_a_batch_are_given_in_pieces() {
    let broker = Broker::start(1, 1, "");
    let producer = broker.builder().linger(LONG).delivery_timeout(2 * LONG).build().unwrap();
    let tickets: Vec<_> = (0..10).map(|_| producer.send(Record::new("a")).unwrap()).collect();
    producer.flush(LONG).unwrap();
    let pieces = (0..9).flat_map(|it| producer.reports().take(it % 3).collect::<Vec<_>>());
    let told: Vec<_> = pieces.chain(producer.reports().timeout(Duration::ZERO)).collect();
    let delivered = |ticket: &Ticket| Report { ticket: *ticket, outcome: Outcome::Delivered { offset: ticket.number as i64 } };
    assert_eq!(told, tickets.iter().map(delivered).collect::<Vec<_>>());
    producer.close(LONG).unwrap();
}

#[test]
fn reports_are_waited_for() {
    let broker = Broker::start(1, 1, "");
    let producer = broker.builder().build().unwrap();
    let begun = Instant::now();
    assert_eq!(producer.reports().timeout(SECOND / 4).next(), None);
    assert!(begun.elapsed() >= SECOND / 4);
    for _ in 0..3 {
        producer.send(Record::new("a")).unwrap();
    }
    producer.flush(LONG).unwrap();
    let mut reports = producer.reports();
    assert_eq!(reports.next().unwrap().ticket.number, 0);
    producer.send(Record::new("a")).unwrap();
    producer.flush(LONG).unwrap();
    drop(reports);
    let rest: Vec<_> = producer.reports().timeout(Duration::ZERO).map(|it| it.ticket.number).collect();
    assert_eq!(rest, [1, 2, 3]);
    let fetching = thread::spawn({
        let producer = producer.clone();
        move || producer.reports().count()
    });
    producer.close(LONG).unwrap();
    assert_eq!(fetching.join().unwrap(), 0);
}

#[test]
fn a_handle_that_is_dropped_tells_what_was_open() {
    let broker = Broker::start(1, 1, "");
    let (on_warning, said) = warnings();
    let told = Arc::new(Mutex::new(Vec::new()));
    let keeps = Arc::clone(&told);
    let builder = broker.builder().linger(LONG).delivery_timeout(2 * LONG).on_warning(on_warning);
    let producer = builder.on_report(move |it| keeps.lock().unwrap().push(it.outcome)).build().unwrap();
    for value in ["a", "b", "c"] {
        producer.send(Record::new(value)).unwrap();
    }
    drop(producer.clone());
    assert!(said.lock().unwrap().is_empty());
    drop(producer);
    assert_eq!(*said.lock().unwrap(), ["the producer was not closed, and 3 records were open"]);
    assert_eq!(*told.lock().unwrap(), [Outcome::Ended; 3]);
}

#[test]
fn a_callback_that_panics_ends_the_producer() {
    let broker = Broker::start(1, 1, "");
    let producer = broker.builder().on_report(|_| std::panic::resume_unwind(Box::new("a callback"))).build().unwrap();
    producer.send(Record::new("a")).unwrap();
    let _ = producer.flush(LONG);
    producer.close(LONG).unwrap();
    assert_eq!(producer.send(Record::new("a")).unwrap_err().kind, SendErrorKind::Closed);
}
