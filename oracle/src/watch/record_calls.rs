//! Tells which kinds of input a record call is.

use crate::kinds::Kind;
use crate::kinds::Kinds;
use crate::record_bytes;
use crate::record_bytes::ROOM;
use crate::records;
use crate::records::Record;
use crate::refusals;

/// The most bytes left that are looked at: two records.
const LEFT: usize = 2 * refusals::RECORD;
/// The ids at both ends.
const ENDS: [u32; 2] = [0, u32::MAX];

/// Looks at a record call: the bytes left, its refusal, and its record unless there is none.
pub fn watch(kinds: &mut Kinds, left: &[u8], refusal: u8, record: Option<&Record>) {
    if left.len() <= LEFT {
        kinds.add(Kind::RecordLength, left.len());
    }
    if refusal == 0 && record.is_none() {
        kinds.add(Kind::RecordEnded, 0);
    }
    if left.len() >= refusals::RECORD {
        whole(kinds, left);
    }
    if let Some(record) = record {
        accepted(kinds, left, record);
    }
}

/// A whole record, accepted or not.
fn whole(kinds: &mut Kinds, left: &[u8]) {
    let count = usize::from(left[records::COUNT_AT]);
    kinds.add(Kind::RecordCount, count);
    if count <= refusals::ENTRIES {
        for place in 0..count {
            kinds.add(Kind::UsedKind, place_and_kind(left, place));
        }
    }
}

/// A record that was accepted.
fn accepted(kinds: &mut Kinds, left: &[u8], record: &Record) {
    if left.len() > refusals::RECORD {
        kinds.add(Kind::RecordBehind, 0);
    }
    if let Some(end) = ENDS.iter().position(|end| *end == record.id) {
        kinds.add(Kind::RecordId, end);
    }
    kinds.add(Kind::RecordMark, usize::from(record.mark));
    for (place, entry) in record.entries.iter().enumerate() {
        if entry.kind == 0 && entry.id != 0 {
            kinds.add(Kind::AnonymousId, place);
        }
    }
    for place in record.entries.len()..refusals::ENTRIES {
        kinds.add(Kind::UnusedKind, place_and_kind(left, place));
    }
    message(kinds, &left[records::MESSAGE_AT..refusals::RECORD], record);
}

/// The message of an accepted record, in its room.
fn message(kinds: &mut Kinds, room: &[u8], record: &Record) {
    let length = record.message.len();
    kinds.add(Kind::RecordMessage, length);
    for byte in &record.message {
        kinds.add(Kind::RecordByte, usize::from(*byte));
    }
    for byte in &room[ROOM.min(length + 1)..] {
        kinds.add(Kind::ByteBehind, usize::from(*byte));
    }
}

/// An entry's place and its kind, those above the limit as one.
fn place_and_kind(left: &[u8], place: usize) -> usize {
    let kind = left[record_bytes::kind_at(place)].min(refusals::RECORD_KIND + 1);
    place << 8 | usize::from(kind)
}
