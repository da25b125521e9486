//! What is published.

use crate::ffi::Span;

/// How long a record's names and values of headers are, and all of these one after the other, as the library takes them.
pub(crate) type Headers = (Vec<Span>, Vec<u8>);

/// Spells headers, of which there may be none.
#[inline]
fn spell<'a>(headers: impl ExactSizeIterator<Item = (&'a str, Option<&'a [u8]>)>) -> Headers {
    if headers.len() == 0 {
        return Headers::default();
    }
    let mut bytes = Vec::new();
    let spell = |(name, value): (&str, Option<&[u8]>)| {
        bytes.extend_from_slice(name.as_bytes());
        bytes.extend_from_slice(value.unwrap_or_default());
        Span::of(name.len(), value.map(<[u8]>::len))
    };
    let spans = headers.map(spell).collect();
    (spans, bytes)
}

/// A record: a value, and what may go with it. It owns its bytes, so that a refused one comes back whole.
///
/// ```
/// use lembicsov::Record;
///
/// let record = Record::new("paid").key("order-17").header("trace", "7f3a").null_header("retried");
/// # assert_eq!(record, record.clone());
/// ```
#[derive(Clone, Debug, PartialEq, Eq)]
pub struct Record {
    pub(crate) partition: Option<u32>,
    pub(crate) key: Option<Vec<u8>>,
    pub(crate) value: Option<Vec<u8>>,
    pub(crate) headers: Vec<(String, Option<Vec<u8>>)>,
    pub(crate) timestamp_ms: Option<i64>,
}

impl Record {
    /// A record with this value, without key and headers, for each partition in turn.
    pub fn new(value: impl Into<Vec<u8>>) -> Record {
        Record { value: Some(value.into()), ..Record::null() }
    }

    /// A record whose value is Kafka's null: with a key, in a compacted topic, the key's tombstone.
    pub fn null() -> Record {
        Record { partition: None, key: None, value: None, headers: Vec::new(), timestamp_ms: None }
    }

    /// With this key, by which its partition is chosen (murmur2), where none is named.
    #[must_use]
    pub fn key(self, key: impl Into<Vec<u8>>) -> Record {
        Record { key: Some(key.into()), ..self }
    }

    /// For this partition.
    #[must_use]
    pub fn partition(self, partition: u32) -> Record {
        Record { partition: Some(partition), ..self }
    }

    /// With one more header.
    #[must_use]
    pub fn header(mut self, name: impl Into<String>, value: impl Into<Vec<u8>>) -> Record {
        self.headers.push((name.into(), Some(value.into())));
        self
    }

    /// With one more header, whose value is Kafka's null.
    #[must_use]
    pub fn null_header(mut self, name: impl Into<String>) -> Record {
        self.headers.push((name.into(), None));
        self
    }

    /// Of this time, in milliseconds since the beginning of 1970, and not of that at which it is sent.
    #[must_use]
    pub fn timestamp_ms(self, timestamp_ms: i64) -> Record {
        Record { timestamp_ms: Some(timestamp_ms), ..self }
    }

    /// The record as one that is lent, but for its headers.
    #[inline]
    pub(crate) fn lend(&self) -> RecordRef<'_> {
        RecordRef {
            partition: self.partition,
            key: self.key.as_deref(),
            value: self.value.as_deref(),
            headers: &[],
            timestamp_ms: self.timestamp_ms,
        }
    }

    #[inline]
    pub(crate) fn spelled_headers(&self) -> Headers {
        spell(self.headers.iter().map(|(name, value)| (name.as_str(), value.as_deref())))
    }
}

/// A record whose bytes are its sender's, for [`Producer::send_ref`](crate::Producer::send_ref).
///
/// ```
/// use lembicsov::RecordRef;
///
/// let line = String::from("order-17 paid");
/// let (key, value) = line.split_once(' ').unwrap();
/// let headers = [("trace", Some(b"7f3a".as_slice())), ("retried", None)];
/// let record = RecordRef::new(value).key(key).headers(&headers);
/// # assert_eq!(record, record.clone());
/// ```
#[derive(Clone, Copy, Debug, PartialEq, Eq)]
pub struct RecordRef<'a> {
    pub(crate) partition: Option<u32>,
    pub(crate) key: Option<&'a [u8]>,
    pub(crate) value: Option<&'a [u8]>,
    headers: &'a [(&'a str, Option<&'a [u8]>)],
    pub(crate) timestamp_ms: Option<i64>,
}

impl<'a> RecordRef<'a> {
    /// A record with this value, without key and headers, for each partition in turn.
    #[inline]
    pub fn new(value: &'a (impl AsRef<[u8]> + ?Sized)) -> RecordRef<'a> {
        RecordRef { value: Some(value.as_ref()), ..RecordRef::null() }
    }

    /// A record whose value is Kafka's null: with a key, in a compacted topic, the key's tombstone.
    #[inline]
    pub fn null() -> RecordRef<'a> {
        RecordRef { partition: None, key: None, value: None, headers: &[], timestamp_ms: None }
    }

    /// With this key, by which its partition is chosen (murmur2), where none is named.
    #[must_use]
    #[inline]
    pub fn key(self, key: &'a (impl AsRef<[u8]> + ?Sized)) -> RecordRef<'a> {
        RecordRef { key: Some(key.as_ref()), ..self }
    }

    /// For this partition.
    #[must_use]
    #[inline]
    pub fn partition(self, partition: u32) -> RecordRef<'a> {
        RecordRef { partition: Some(partition), ..self }
    }

    /// With these headers, of which those without a value have Kafka's null.
    #[must_use]
    #[inline]
    pub fn headers(self, headers: &'a [(&'a str, Option<&'a [u8]>)]) -> RecordRef<'a> {
        RecordRef { headers, ..self }
    }

    /// Of this time, in milliseconds since the beginning of 1970, and not of that at which it is sent.
    #[must_use]
    #[inline]
    pub fn timestamp_ms(self, timestamp_ms: i64) -> RecordRef<'a> {
        RecordRef { timestamp_ms: Some(timestamp_ms), ..self }
    }

    /// About how many bytes it has.
    #[inline]
    pub(crate) fn size(&self) -> usize {
        self.key.map_or(0, <[u8]>::len) + self.value.map_or(0, <[u8]>::len)
    }

    #[inline]
    pub(crate) fn spelled_headers(&self) -> Headers {
        spell(self.headers.iter().copied())
    }
}
