//! How a producer is built.

use crate::bell::Bell;
use crate::ffi::{self, Config, Core};
use crate::host::{Host, OnReport};
use crate::service::Service;
use crate::shared::{millis, tell_at_exit, OnWarning, Settings, Shared};
use crate::{Connect, Producer, Report, Tcp};
use std::collections::hash_map::RandomState;
use std::fmt;
use std::hash::{BuildHasher, Hasher};
use std::io::{self, ErrorKind};
use std::sync::Arc;
use std::thread;
use std::time::Duration;

/// No connection is waited for longer.
const CONNECT_MOST: Duration = Duration::from_secs(3600);

/// Builds a producer. Settings have Kafka's names, defaults and ranges, but for those that say so.
#[must_use]
pub struct Builder {
    bootstrap: String,
    topic: String,
    client_id: String,
    config: Config,
    max_block: Duration,
    connect_timeout: Duration,
    on_report: Option<OnReport>,
    on_warning: Option<OnWarning>,
}

/// Setters of the library's settings, with the type that they take, and what becomes of it.
macro_rules! settings {
    ($($(#[$doc:meta])* $name:ident: $type:ty => $field:ident = $value:expr;)*) => {
        $(
            $(#[$doc])*
            pub fn $name(mut self, $name: $type) -> Self {
                self.config.$field = ($value)($name);
                self
            }
        )*
    };
}

impl Builder {
    pub(crate) fn new(bootstrap: String, topic: String) -> Builder {
        Builder {
            bootstrap,
            topic,
            client_id: "lembicsov".into(),
            config: ffi::DEFAULT,
            max_block: Duration::from_secs(60),
            connect_timeout: Duration::from_secs(10),
            on_report: None,
            on_warning: None,
        }
    }

    settings! {
        /// A batch that has so many bytes is full, and goes out (16384).
        batch_size: u64 => batch_size = u64::from;
        /// How long one that is not full waits for more records (0).
        linger: Duration => linger_ms = millis;
        /// How many bytes the records may have that have no report (33554432).
        buffer_memory: u64 => buffer_memory = u64::from;
        /// How many bytes the batches of a request may have (1048576).
        max_request_size: u64 => max_request_size = u64::from;
        /// How long an answer is awaited (30 seconds).
        request_timeout: Duration => request_timeout_ms = millis;
        /// How long a record has until its report (120 seconds).
        delivery_timeout: Duration => delivery_timeout_ms = millis;
        /// How long a batch waits before it is sent again (100 milliseconds).
        retry_backoff: Duration => retry_backoff_ms = millis;
        /// How many requests await their answers over a connection (5, which is the most).
        max_in_flight_requests_per_connection: u64 => max_in_flight = u64::from;
        /// How long an address is left alone after it has failed (50 milliseconds).
        reconnect_backoff: Duration => reconnect_backoff_ms = millis;
        /// How long it is left alone at most, where it has failed in a row (1 second).
        reconnect_backoff_max: Duration => reconnect_backoff_max_ms = millis;
        /// How often the leaders are asked for where nothing has failed (5 minutes).
        metadata_max_age: Duration => metadata_max_age_ms = millis;
        /// How long the producer tries to become ready before it fails for good (60 seconds). Not Kafka's.
        open_timeout: Duration => open_timeout_ms = millis;
        /// All goes to the one address that answered, as through a tunnel (false). Not Kafka's.
        keep_to_one: bool => keep_to_one = u64::from;
    }

    /// The name in each request, for the brokers' logs (`lembicsov`).
    pub fn client_id(self, client_id: impl Into<String>) -> Self {
        Builder { client_id: client_id.into(), ..self }
    }

    /// How long a `send` waits for the producer to be ready, and for room in its buffer (60 seconds).
    pub fn max_block(self, max_block: Duration) -> Self {
        Builder { max_block, ..self }
    }

    /// How long a connection may take to be made (10 seconds). Kafka's `socket.connection.setup.timeout.ms`.
    pub fn connect_timeout(self, connect_timeout: Duration) -> Self {
        Builder { connect_timeout: connect_timeout.min(CONNECT_MOST), ..self }
    }

    /// Has each report given to this callback, by the producer's thread, and not to [`Producer::reports`]. While it runs, no answer is
    /// heard.
    pub fn on_report(self, on_report: impl FnMut(Report) + Send + 'static) -> Self {
        Builder { on_report: Some(Box::new(on_report)), ..self }
    }

    /// Has what concerns no call told to this callback, in words for a log: connections that fail or end, refusals of brokers, and how
    /// many records were open where the producer was not closed. The producer's thread calls it, or that which drops the last handle
    /// or ends the process.
    pub fn on_warning(self, on_warning: impl Fn(&str) + Send + Sync + 'static) -> Self {
        Builder { on_warning: Some(Box::new(on_warning)), ..self }
    }

    /// Builds the producer, and starts its thread, which begins to connect by [`Tcp`]. It does not wait: the first `send` does.
    ///
    /// # Errors
    ///
    /// A name, an address or a setting is refused (`InvalidInput`, in words that say which), memory is wanting, or the system gives no
    /// thread.
    pub fn build(self) -> io::Result<Producer> {
        self.build_over(Tcp)
    }

    /// As [`build`](Builder::build), with connections that are made in another way, such as through TLS.
    ///
    /// # Errors
    ///
    /// Those of `build`.
    pub fn build_over(self, connector: impl Connect) -> io::Result<Producer> {
        ffi::watch(tell_at_exit);
        // The keys of a hash map are random.
        let seed = RandomState::new().build_hasher().finish();
        let core = Core::new(&self.config, &self.topic, &self.client_id, &self.bootstrap, seed).map_err(refused)?;
        let bell = Arc::new(Bell::new()?);
        let service = Service::new(Arc::new(connector), self.connect_timeout, self.config.request_timeout_ms, Arc::clone(&bell));
        let settings = Settings {
            linger_ms: self.config.linger_ms,
            batch_size: self.config.batch_size,
            max_block_ms: millis(self.max_block),
            has_callback: self.on_report.is_some(),
            on_warning: self.on_warning,
        };
        let shared = Shared::new(core, service, bell, settings);
        let host = Host::new(Arc::clone(&shared), self.on_report);
        let thread = thread::Builder::new().name("lembicsov".into()).spawn(move || host.run())?;
        Ok(Producer::new(shared, thread))
    }
}

fn refused(number: i32) -> io::Error {
    let kind = if number == ffi::status::OUT_OF_MEMORY { ErrorKind::OutOfMemory } else { ErrorKind::InvalidInput };
    io::Error::new(kind, ffi::status_words(number))
}

impl fmt::Debug for Builder {
    fn fmt(&self, f: &mut fmt::Formatter<'_>) -> fmt::Result {
        let mut named = f.debug_struct("Builder");
        named.field("bootstrap", &self.bootstrap).field("topic", &self.topic).finish_non_exhaustive()
    }
}
