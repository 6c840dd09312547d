//! The bytes of single records: whole ones, their parts at random, and bytes beyond their limits.

use crate::random::Random;
use crate::records;
use crate::refusals;
use crate::stream::Entry;

/// The bytes that a message has room in.
pub const ROOM: usize = refusals::RECORD - records::MESSAGE_AT;

/// Marks outside 21 to 7E.
const BAD_MARKS: [u8; 8] = [0x20, 0x7f, 0x00, 0x0a, 0x1f, 0x80, 0xc2, 0xff];
/// Bytes that no message may hold.
const BAD_BYTES: [u8; 8] = [0x09, 0x1f, 0x7f, 0x0d, 0x80, 0x0b, 0xc2, 0xff];

/// The bytes of a record: id, mark, parent count, entries and the message's room; what is not given of the last two is 0.
pub fn whole(id: u32, mark: u8, count: u8, entries: &[Entry], room: &[u8]) -> Vec<u8> {
    let mut bytes = id.to_le_bytes().to_vec();
    bytes.extend([mark, count]);
    for entry in entries {
        bytes.push(entry.kind);
        bytes.extend(entry.id.to_le_bytes());
    }
    bytes.resize(records::MESSAGE_AT, 0);
    bytes.extend(room);
    bytes.resize(refusals::RECORD, 0);
    bytes
}

/// Where the kind of the entry with this number stands.
pub fn kind_at(entry: usize) -> usize {
    records::ENTRIES_AT + entry * records::ENTRY_BYTES
}

/// The kind of an entry that passes, used or not.
pub fn kind(random: &mut Random, used: bool) -> u8 {
    let kinds: &[u8] = if used {
        &[0, 1, 1, 2, 2, 2, 2]
    } else {
        &[0, 0, 1, 2, 3, 255]
    };
    random.pick(kinds)
}

/// The room of a message that passes, and behind its zero byte anything.
pub fn message(random: &mut Random) -> Vec<u8> {
    let length = match random.weighted(&[6, 2, 6, 2]) {
        0 => 0,
        1 => 1,
        2 => random.below(ROOM as u64) as usize,
        _ => random.pick(&[ROOM - 1, ROOM]),
    };
    let from: &[u8] = random.pick(&[b"abc d ~".as_slice(), b"ab  \n", b"\n\n\na"]);
    let behind: &[u8] = random.pick(&[b"\0".as_slice(), b"\0z\n", b"\0\x01\xff"]);
    room(random, length, from, behind)
}

/// The room of a message of so many bytes out of `from`; if it is longer, a zero byte and bytes out of `behind` follow.
pub fn room(random: &mut Random, length: usize, from: &[u8], behind: &[u8]) -> Vec<u8> {
    let mut room: Vec<u8> = (0..length).map(|_| random.pick(from)).collect();
    if length < ROOM {
        room.push(0);
    }
    room.resize_with(ROOM, || random.pick(behind));
    room
}

/// Puts a byte beyond its limit, or at it, into a record.
pub fn spoil(random: &mut Random, record: &mut [u8]) {
    let entry = random.below(refusals::ENTRIES as u64) as usize;
    let letter = random.from(records::MESSAGE_AT as u64, refusals::RECORD as u64 - 1);
    let (place, byte) = match random.below(4) {
        0 => (records::MARK_AT, random.pick(&BAD_MARKS)),
        1 => (records::COUNT_AT, random.pick(&[8, 9, 10, 255])),
        2 => (kind_at(entry), random.pick(&[2, 3, 4, 255])),
        _ => (letter as usize, random.pick(&BAD_BYTES)),
    };
    record[place] = byte;
}
