//! What the runs share: a broker, a relay before it, and what is looked at afterwards.
#![allow(dead_code)] // Each file of runs has its own copy of this.

use lembicsov::{Builder, Outcome, Producer, Record, Report, Ticket};
use std::collections::{BTreeMap, HashMap};
use std::io::{self, BufRead, BufReader, Read, Write};
use std::net::{Shutdown, SocketAddr, TcpListener, TcpStream};
use std::process::{self, Child, Command, Stdio};
use std::sync::atomic::{AtomicBool, AtomicU16, Ordering};
use std::sync::{Arc, Mutex};
use std::thread::{self, JoinHandle};
use std::time::Duration;

pub const TOPIC: &str = "t";
pub const COUNT: usize = 100_000;
pub const THREADS: usize = 4;
pub const LONG: Duration = Duration::from_secs(60);

pub type Logs = BTreeMap<u32, Vec<String>>;

/// A port of this machine where nobody listens. It is none of those that the system gives, from 32768 on, to whoever names none, so
/// that nobody else comes to listen there.
pub fn quiet_port() -> u16 {
    static COUNT: AtomicU16 = AtomicU16::new(0);
    // Other processes begin elsewhere.
    let ports = || 10_000 + ((process::id() * 64 + u32::from(COUNT.fetch_add(1, Ordering::Relaxed))) % 20_000) as u16;
    std::iter::repeat_with(ports).find(|it| TcpListener::bind(("127.0.0.1", *it)).is_ok()).unwrap()
}

/// The loopback broker, in a process of its own.
pub struct Broker {
    child: Child,
    pub addresses: Vec<SocketAddr>,
}

impl Broker {
    pub fn start(partitions: u32, nodes: usize, plan: &str) -> Broker {
        Broker::start_at(partitions, &vec![0; nodes], plan)
    }

    pub fn start_at(partitions: u32, ports: &[u16], plan: &str) -> Broker {
        let program = std::env::var_os("KP_LOOPBACK").expect("KP_LOOPBACK names no loopback broker");
        let mut command = Command::new(program);
        command.arg(TOPIC).arg(partitions.to_string()).args(ports.iter().map(u16::to_string));
        command.args(Some(plan).filter(|it| !it.is_empty()));
        let pipes = command.stdin(Stdio::piped()).stdout(Stdio::piped()).stderr(Stdio::piped());
        let mut child = pipes.spawn().expect("the loopback broker starts");
        let said = BufReader::new(child.stderr.take().unwrap()).lines().take(ports.len());
        let addresses = said.map(|it| it.unwrap().strip_prefix("listening at ").expect("it listens").parse().unwrap()).collect();
        Broker { child, addresses }
    }

    pub fn bootstrap(&self) -> String {
        let addresses: Vec<_> = self.addresses.iter().map(SocketAddr::to_string).collect();
        addresses.join(",")
    }

    pub fn builder(&self) -> Builder {
        Producer::builder(self.bootstrap(), TOPIC)
    }

    /// Ends it, once its connections have ended: what its logs have.
    pub fn end(mut self) -> Logs {
        drop(self.child.stdin.take());
        let mut logs = Logs::new();
        for line in BufReader::new(self.child.stdout.take().unwrap()).lines().map(Result::unwrap) {
            let words: Vec<_> = line.splitn(4, ' ').collect();
            let log = logs.entry(words[1].parse().unwrap()).or_default();
            assert_eq!((words[0], words[2].parse().unwrap()), ("log", log.len()), "a log has the line {line}");
            log.push(words[3].to_owned());
        }
        assert!(self.child.wait().unwrap().success(), "the broker has failed");
        logs
    }
}

impl Drop for Broker {
    fn drop(&mut self) {
        let _ = self.child.kill();
        let _ = self.child.wait();
    }
}

/// Relays connections to a broker, from an address of its own, and may be away. It keeps what went to the broker.
pub struct Relay {
    pub address: SocketAddr,
    shared: Arc<Relayed>,
    server: Option<JoinHandle<()>>,
}

struct Relayed {
    target: SocketAddr,
    streams: Mutex<Vec<TcpStream>>,
    carried: Mutex<Vec<Arc<Mutex<Vec<u8>>>>>,
    /// What each byte is changed by on its way.
    mask: u8,
    is_away: AtomicBool,
    is_over: AtomicBool,
}

impl Relay {
    pub fn start(target: SocketAddr) -> Relay {
        Relay::start_masked(target, 0)
    }

    /// Between the producer and the relay each byte is changed by this mask.
    pub fn start_masked(target: SocketAddr, mask: u8) -> Relay {
        let listener = TcpListener::bind(("127.0.0.1", quiet_port())).unwrap();
        let address = listener.local_addr().unwrap();
        let shared = Arc::new(Relayed {
            target,
            streams: Mutex::default(),
            carried: Mutex::default(),
            mask,
            is_away: AtomicBool::new(false),
            is_over: AtomicBool::new(false),
        });
        let serving = Arc::clone(&shared);
        let server = Some(thread::spawn(move || serving.serve(listener)));
        Relay { address, shared, server }
    }

    /// A producer that goes by the relay alone.
    pub fn builder(&self) -> Builder {
        Producer::builder(self.address.to_string(), TOPIC).keep_to_one(true)
    }

    /// Ends all connections, and takes none.
    pub fn leave(&self) {
        self.shared.is_away.store(true, Ordering::SeqCst);
        while TcpStream::connect(self.address).is_ok() {
            thread::sleep(Duration::from_millis(1));
        }
        self.shared.hang_up();
    }

    pub fn come_back(&self) {
        self.shared.is_away.store(false, Ordering::SeqCst);
    }

    /// What went to the broker, by connection.
    pub fn carried(&self) -> Vec<Vec<u8>> {
        self.shared.carried.lock().unwrap().iter().map(|it| it.lock().unwrap().clone()).collect()
    }
}

impl Drop for Relay {
    fn drop(&mut self) {
        self.shared.is_over.store(true, Ordering::SeqCst);
        let _ = self.server.take().unwrap().join();
        self.shared.hang_up();
    }
}

impl Relayed {
    fn serve(self: Arc<Relayed>, listener: TcpListener) {
        let address = listener.local_addr().unwrap();
        let mut listener = Some(listener);
        while !self.is_over.load(Ordering::SeqCst) {
            if self.is_away.load(Ordering::SeqCst) {
                listener = None;
            } else if listener.is_none() {
                listener = TcpListener::bind(address).ok();
            }
            if let Some(listening) = &listener {
                listening.set_nonblocking(true).unwrap();
                if let Ok((near, _)) = listening.accept() {
                    near.set_nonblocking(false).unwrap();
                    self.relay(near);
                }
            }
            thread::sleep(Duration::from_millis(1));
        }
    }

    fn relay(self: &Arc<Relayed>, near: TcpStream) {
        let Ok(far) = TcpStream::connect(self.target) else { return };
        let carried = Arc::new(Mutex::new(Vec::new()));
        self.carried.lock().unwrap().push(Arc::clone(&carried));
        for stream in [&near, &far] {
            stream.set_nodelay(true).unwrap();
            self.streams.lock().unwrap().push(stream.try_clone().unwrap());
        }
        let (mask, from, to) = (self.mask, near.try_clone().unwrap(), far.try_clone().unwrap());
        thread::spawn(move || copy(from, to, mask, |bytes| carried.lock().unwrap().extend_from_slice(bytes)));
        thread::spawn(move || copy(far, near, mask, |_| ()));
    }

    fn hang_up(&self) {
        for stream in self.streams.lock().unwrap().drain(..) {
            let _ = stream.shutdown(Shutdown::Both);
        }
    }
}

fn copy(mut from: TcpStream, mut to: TcpStream, mask: u8, keep: impl Fn(&[u8])) {
    let mut piece = vec![0; 1 << 16];
    while let Ok(len) = from.read(&mut piece) {
        piece[..len].iter_mut().for_each(|it| *it ^= mask);
        keep(&piece[..len]);
        if len == 0 || to.write_all(&piece[..len]).is_err() {
            break;
        }
    }
    let _ = to.shutdown(Shutdown::Both);
    let _ = from.shutdown(Shutdown::Both);
}

// ---- records

/// What was accepted, with its value.
pub type Sent = Vec<(Ticket, String)>;

/// Three of four records have a key.
pub fn key(number: usize) -> Option<String> {
    (number & 3 != 0).then(|| format!("key-{}", number % 1009))
}

/// Record `number` of a thread, and its value.
pub fn record(thread: usize, number: usize) -> (Record, String) {
    let value = format!("value-{thread}-{number}");
    let record = Record::new(value.as_str()).header("trace", value.as_str()).header("empty", "").null_header("none");
    match key(number) {
        Some(key) => (record.key(key), value),
        None => (record, value),
    }
}

/// Sends so many records from each of four threads.
pub fn send_all(producer: &Producer, count: usize) -> Sent {
    let send = |thread| {
        let producer = producer.clone();
        move || (0..count / THREADS).map(|it| record(thread, it)).map(|(it, value)| (producer.send(it).unwrap(), value)).collect()
    };
    let threads: Vec<JoinHandle<Sent>> = (0..THREADS).map(|it| thread::spawn(send(it))).collect();
    threads.into_iter().flat_map(|it| it.join().unwrap()).collect()
}

/// Each record was told of once, as delivered, and stands where it was told, in the order of the tickets; nothing else is there.
pub fn check(sent: &Sent, reports: &[Report], logs: &Logs) {
    assert_eq!(reports.len(), sent.len(), "so many reports came for so many records");
    let told: HashMap<Ticket, Outcome> = reports.iter().map(|it| (it.ticket, it.outcome)).collect();
    assert_eq!(told.len(), reports.len(), "a record was told of twice");
    assert_eq!(logs.values().map(Vec::len).sum::<usize>(), sent.len(), "the logs do not have each record once");
    for (ticket, value) in sent {
        assert_eq!(told.get(ticket), Some(&Outcome::Delivered { offset: ticket.number as i64 }), "{ticket:?}");
        assert_eq!(logs[&ticket.partition].get(ticket.number as usize), Some(value), "{ticket:?}");
    }
}

/// Sends from four threads, closes, and checks.
pub fn run(broker: Broker, producer: Producer) {
    let sent = send_all(&producer, COUNT);
    producer.close(LONG).unwrap();
    let reports: Vec<_> = producer.reports().collect();
    check(&sent, &reports, &broker.end());
}

/// A callback for warnings, and what it was given, in words.
pub fn warnings() -> (impl Fn(&str) + Send + Sync + 'static, Arc<Mutex<Vec<String>>>) {
    let said = Arc::new(Mutex::new(Vec::new()));
    let keeps = Arc::clone(&said);
    (move |it: &str| keeps.lock().unwrap().push(it.to_string()), said)
}

// ---- what was carried

/// Bytes that are read from the front on (protocol guide, "Protocol Primitive Types").
struct Wire<'a>(&'a [u8]);

impl<'a> Wire<'a> {
    fn take(&mut self, len: usize) -> &'a [u8] {
        let (front, rest) = self.0.split_at(len);
        self.0 = rest;
        front
    }

    fn number(&mut self, len: usize) -> i64 {
        let mut bytes = [0; 8];
        bytes[8 - len..].copy_from_slice(self.take(len));
        i64::from_be_bytes(bytes) << (64 - 8 * len) >> (64 - 8 * len)
    }

    fn varint(&mut self) -> i64 {
        let mut value = 0_u64;
        for shift in (0..).step_by(7) {
            let byte = self.take(1)[0];
            value |= u64::from(byte & 0x7f) << shift;
            if byte < 0x80 {
                break;
            }
        }
        (value >> 1) as i64 ^ -((value & 1) as i64)
    }

    fn bytes(&mut self) -> Option<Vec<u8>> {
        let len = self.varint();
        (len >= 0).then(|| self.take(len as usize).to_vec())
    }

    fn text(&mut self) -> Option<&'a [u8]> {
        let len = self.number(2);
        (len >= 0).then(|| self.take(len as usize))
    }
}

/// A record that was asked to be put into a partition: key, value and headers.
pub type Carried = (u32, Option<Vec<u8>>, Option<Vec<u8>>, Vec<(Vec<u8>, Option<Vec<u8>>)>);

/// The records of the Produce requests (version 3) that these bytes have.
pub fn records_in(bytes: &[u8]) -> Vec<Carried> {
    let (mut stream, mut records) = (Wire(bytes), Vec::new());
    while !stream.0.is_empty() {
        let len = stream.number(4) as usize;
        let mut request = Wire(stream.take(len));
        if request.number(2) != 0 {
            continue;
        }
        request.take(6);
        request.text();
        assert_eq!((request.text(), request.number(2)), (None, -1), "no transaction, and all replicas are awaited");
        request.take(4);
        for _ in 0..request.number(4) {
            assert_eq!(request.text(), Some(TOPIC.as_bytes()));
            for _ in 0..request.number(4) {
                let (partition, len) = (request.number(4) as u32, request.number(4) as usize);
                put_batch(&mut records, partition, Wire(request.take(len)));
            }
        }
    }
    records
}

fn put_batch(records: &mut Vec<Carried>, partition: u32, mut batch: Wire<'_>) {
    batch.take(57);
    for _ in 0..batch.number(4) {
        batch.varint();
        batch.take(1);
        batch.varint();
        batch.varint();
        let (key, value) = (batch.bytes(), batch.bytes());
        let headers = (0..batch.varint()).map(|_| (batch.bytes().unwrap(), batch.bytes())).collect();
        records.push((partition, key, value, headers));
    }
    assert!(batch.0.is_empty(), "a batch has more than its records");
}

// ---- a stream that holds bytes back

/// A stream as TLS has them: what it reads and writes is changed, it reads more of its socket than it gives at once, and it holds
/// back what it was given to write until it is flushed.
pub struct Masked {
    pub socket: TcpStream,
    mask: u8,
    read: Vec<u8>,
    to_write: Vec<u8>,
}

impl Masked {
    pub fn new(socket: TcpStream, mask: u8) -> Masked {
        Masked { socket, mask, read: Vec::new(), to_write: Vec::new() }
    }
}

impl Read for Masked {
    fn read(&mut self, room: &mut [u8]) -> io::Result<usize> {
        if self.read.is_empty() {
            let mut piece = [0; 1 << 16];
            let len = self.socket.read(&mut piece)?;
            self.read.extend(piece[..len].iter().map(|it| it ^ self.mask));
        }
        let len = self.read.len().min(room.len()).min(7);
        room[..len].copy_from_slice(&self.read[..len]);
        self.read.drain(..len);
        Ok(len)
    }
}

impl Write for Masked {
    fn write(&mut self, bytes: &[u8]) -> io::Result<usize> {
        if self.to_write.len() > 1 << 16 {
            self.flush()?;
        }
        self.to_write.extend(bytes.iter().map(|it| it ^ self.mask));
        Ok(bytes.len())
    }

    fn flush(&mut self) -> io::Result<()> {
        while !self.to_write.is_empty() {
            let len = self.socket.write(&self.to_write)?;
            self.to_write.drain(..len);
        }
        Ok(())
    }
}
