//! The record call: 128 bytes to a node, its mark, entries and message (document 01, "Added by us").

use crate::refusals;
use crate::refusals::Refusal;
use crate::stream::Entry;

/// Where the mark and the parent count stand.
pub const MARK_AT: usize = 4;
pub const COUNT_AT: usize = 5;
/// Where the entries begin.
pub const ENTRIES_AT: usize = 6;
/// The bytes of an entry: kind and id.
pub const ENTRY_BYTES: usize = 5;
/// Where the message begins.
pub const MESSAGE_AT: usize = 46;

/// What a record holds.
#[derive(Clone, Debug, Default)]
pub struct Record {
    pub id: u32,
    pub mark: u8,
    pub entries: Vec<Entry>,
    pub message: Vec<u8>,
}

/// The record at the head of the bytes left, or none where the records have ended.
pub fn record(left: &[u8]) -> Result<Option<Record>, Refusal> {
    refusals::record_length(left.len())?;
    if left.is_empty() {
        return Ok(None);
    }
    let bytes = &left[..refusals::RECORD];
    refusals::record_entries(bytes[COUNT_AT])?;
    let record = parts(bytes);
    refusals::record_kinds(record.entries.iter().map(|entry| entry.kind))?;
    Ok(Some(record))
}

/// The conditions of the record call, each taken by itself, in document 01's order; bytes that are cut off are 0.
pub fn checks(left: &[u8]) -> Vec<Result<(), Refusal>> {
    let bytes = padded(left);
    let kinds = parts(&bytes).entries.into_iter().map(|entry| entry.kind);
    vec![
        refusals::record_length(left.len()),
        refusals::record_entries(bytes[COUNT_AT]),
        refusals::record_kinds(kinds),
    ]
}

/// The record at the head of some bytes; those that are cut off are 0.
pub fn padded(left: &[u8]) -> Vec<u8> {
    let mut bytes = left.to_vec();
    bytes.resize(refusals::RECORD, 0);
    bytes
}

/// What the bytes of a record say, of which each may be wrong.
pub fn parts(bytes: &[u8]) -> Record {
    Record {
        id: id(bytes),
        mark: bytes[MARK_AT],
        entries: entries(&bytes[ENTRIES_AT..MESSAGE_AT], usize::from(bytes[COUNT_AT])),
        message: message(&bytes[MESSAGE_AT..]),
    }
}

/// The id at the head of some bytes.
fn id(bytes: &[u8]) -> u32 {
    u32::from_le_bytes([bytes[0], bytes[1], bytes[2], bytes[3]])
}

/// The first `count` entries.
fn entries(bytes: &[u8], count: usize) -> Vec<Entry> {
    bytes
        .chunks_exact(ENTRY_BYTES)
        .take(count)
        .map(|entry| Entry {
            kind: entry[0],
            id: id(&entry[1..]),
        })
        .collect()
}

/// The bytes before the first zero byte.
fn message(bytes: &[u8]) -> Vec<u8> {
    bytes
        .iter()
        .copied()
        .take_while(|byte| *byte != 0)
        .collect()
}
