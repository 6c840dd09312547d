//! A list of record calls at every limit: lengths, parent counts, kinds, ids, marks, messages, and several conditions broken at once.

use crate::record_bytes;
use crate::record_bytes::ROOM;
use crate::records;
use crate::refusals;
use crate::stream::Command;
use crate::stream::Entry;
use crate::stream::Repeat;

/// The id of a record, which tells the order of its bytes, and those at both ends.
const ID: u32 = 0x0403_0201;
const ENDS: [u32; 2] = [0, u32::MAX];
/// Marks on both sides of what text accepts, and at the ends of a byte.
const MARKS: [u8; 8] = [0x00, 0x0a, 0x20, 0x21, 0x7e, 0x7f, 0x80, 0xff];
/// The entries of each record: all kinds that pass, with the ids at both ends, Anonymous ones with an id too.
const ENTRIES: [(u8, u32); 8] = [
    (2, 0),
    (1, u32::MAX),
    (0, 7),
    (2, ID),
    (1, 0),
    (0, 0),
    (2, u32::MAX),
    (1, 9),
];
/// How many bytes of two records are left.
const LENGTHS: [usize; 7] = [0, 1, 127, 128, 129, 255, 256];
/// Parent counts at their limit, and at the ends of a byte.
const COUNTS: [u8; 7] = [0, 1, 7, 8, 9, 128, 255];
/// Kinds at their limit, and at the end of a byte.
const KINDS: [u8; 3] = [2, 3, 255];
/// How many parents a record has whose kinds are tried, and in which entries: used ones and, behind three parents, unused ones.
const PARENTS: [u8; 2] = [3, 8];
const PLACES: [usize; 4] = [0, 2, 3, 7];

/// The list with this number.
pub fn list(number: u32) -> Vec<Command> {
    let left = [
        lengths(),
        counts(),
        kinds(),
        ids_and_marks(),
        messages(),
        broken(),
    ]
    .concat();
    let calls: Vec<_> = left.into_iter().map(Command::Record).collect();
    let quiet = Repeat {
        times: 2,
        commands: calls[..4].to_vec(),
    };
    [
        vec![Command::List(number)],
        calls,
        vec![Command::Repeat(quiet)],
    ]
    .concat()
}

/// A record with so many parents and this message.
fn record(id: u32, mark: u8, count: u8, room: &[u8]) -> Vec<u8> {
    let entries = ENTRIES.map(|(kind, id)| Entry { kind, id });
    record_bytes::whole(id, mark, count, &entries, room)
}

/// The first bytes of two records.
fn lengths() -> Vec<Vec<u8>> {
    let first = record(ID, b'o', refusals::ENTRIES as u8, b"first");
    let two = [first, record(ENDS[0], b'@', 1, b"second")].concat();
    LENGTHS.map(|length| two[..length].to_vec()).to_vec()
}

/// Each parent count.
fn counts() -> Vec<Vec<u8>> {
    COUNTS.map(|count| record(ID, b'o', count, b"")).to_vec()
}

/// Each kind in each place.
fn kinds() -> Vec<Vec<u8>> {
    let of_count = |count| PLACES.map(|place| KINDS.map(|kind| with_kind(count, place, kind)));
    PARENTS.map(of_count).concat().concat()
}

/// A record with so many parents and this kind in one of its entries.
fn with_kind(count: u8, place: usize, kind: u8) -> Vec<u8> {
    let mut bytes = record(ID, b'o', count, b"");
    bytes[record_bytes::kind_at(place)] = kind;
    bytes
}

/// The ids at both ends, and each mark.
fn ids_and_marks() -> Vec<Vec<u8>> {
    let ids = ENDS.map(|id| record(id, b'o', 0, b""));
    let marks = MARKS.map(|mark| record(ID, mark, 0, b""));
    [ids.to_vec(), marks.to_vec()].concat()
}

/// Messages of every length at a limit, with zero bytes behind them and with others, and of bytes that text refuses.
fn messages() -> Vec<Vec<u8>> {
    let rooms = [
        b"m".repeat(ROOM),
        b"m".repeat(ROOM - 1),
        b"m".to_vec(),
        [b"m\0".as_slice(), &b"z".repeat(ROOM - 2)].concat(),
        [b"\0".as_slice(), &b"z".repeat(ROOM - 1)].concat(),
        b"two\nlines\n\0\n".to_vec(),
        b"\x01\x1f\x7f\x80\xc2\xff".to_vec(),
    ];
    rooms.map(|room| record(ID, b'o', 1, &room)).to_vec()
}

/// Two conditions broken at once, each pair, and all three.
fn broken() -> Vec<Vec<u8>> {
    let cut = |bytes: Vec<u8>| bytes[..refusals::RECORD - 1].to_vec();
    let too_many = refusals::ENTRIES as u8 + 1;
    let other_kind = refusals::RECORD_KIND + 1;
    vec![
        cut(record(ID, b'o', too_many, b"")),
        cut(with_kind(1, 0, other_kind)),
        with_kind(too_many, 0, other_kind),
        cut(with_kind(too_many, 0, other_kind)),
        record(ID, b'o', too_many, b"")[..=records::COUNT_AT].to_vec(),
    ]
}
