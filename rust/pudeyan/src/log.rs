use crate::numbers;

/// An entry of a link log.
#[derive(Clone, Copy, Debug, PartialEq, Eq, Hash)]
pub struct Entry {
    /// The slot counter, modulo 4,294,967,296.
    pub stamp: u32,
    /// The link's number.
    pub link: u32,
    /// How many blocks it took.
    pub blocks: u32,
}

/// A link log's record. Any numbers are written; replaying refuses those
/// outside their limits.
#[derive(Clone, Debug, PartialEq, Eq, Hash)]
pub struct Log(Vec<u8>);

impl Log {
    /// The log of the entries, in their order.
    pub fn new(entries: &[Entry]) -> Log {
        let mut record = Vec::new();
        for entry in entries {
            record.extend(entry.stamp.to_le_bytes());
            numbers::put(&mut record, entry.link);
            numbers::put(&mut record, entry.blocks);
        }
        Log(record)
    }

    /// The record.
    pub fn record(&self) -> &[u8] {
        &self.0
    }
}

impl AsRef<[u8]> for Log {
    fn as_ref(&self) -> &[u8] {
        self.record()
    }
}
