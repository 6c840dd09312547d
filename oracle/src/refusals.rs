//! Document 01's refusals: each condition of "Where a call turns back" once, with its number and its limit, that of entries as document 02
//! changes it.

/// The most columns, and the most cells of a shape.
pub const COLUMNS: usize = 64;
/// The most entries of a row, and of a record.
pub const ENTRIES: usize = 8;
/// The greatest minimum row height.
pub const HEIGHT: u64 = 16;
/// The most bytes of a message.
pub const MESSAGE: usize = 512;
/// The bytes of a record.
pub const RECORD: usize = 128;
/// The greatest kind of a record's entry.
pub const RECORD_KIND: u8 = 2;
/// The greatest refusal number.
pub const LAST: u8 = 12;
/// The refusals of each call of a generated list, by its letter, in document 01's order; a preview has those of its row.
pub const OF_CALLS: [(u8, &[u8]); 8] = [
    (b'N', &[1]),
    (b'R', &[2]),
    (b'P', &[5, 12, 8]),
    (b'T', &[5, 6, 7, 3, 4, 8]),
    (b'W', &[3, 4]),
    (b'B', &[3, 4]),
    (b'V', &[3]),
    (b'D', &[9, 10, 11]),
];
/// The refusals at which the page program can stop: a record's entries, message and lines are within the limits of 3, 6 and 8.
pub const OF_PAGE: &[u8] = &[9, 10, 11, 5, 7, 4];
/// The refusals at which the listing program can stop, which ignores messages.
pub const OF_LISTING: &[u8] = &[9, 10, 11, 5, 4];

/// The number of a refusal.
#[derive(Clone, Copy, Debug, PartialEq, Eq)]
pub struct Refusal(pub u8);

/// Refuses with `number` where `condition` holds.
fn refuse(number: u8, condition: bool) -> Result<(), Refusal> {
    if condition {
        Err(Refusal(number))
    } else {
        Ok(())
    }
}

/// The numbers of the conditions that hold, in the order of their checks.
pub fn broken(checks: Vec<Result<(), Refusal>>) -> Vec<u8> {
    let broken = checks.into_iter().filter_map(Result::err);
    broken.map(|Refusal(number)| number).collect()
}

/// 1: minimum row height above 16.
pub fn height(height: u64) -> Result<(), Refusal> {
    refuse(1, height > HEIGHT)
}

/// 2: id not held, no Empty column, 64 columns.
pub fn no_column(held: bool, some_empty: bool, columns: usize) -> Result<(), Refusal> {
    refuse(2, !held && !some_empty && columns >= COLUMNS)
}

/// 3: more than 8 entries.
pub fn entries(count: usize) -> Result<(), Refusal> {
    refuse(3, count > ENTRIES)
}

/// 4: node line would have more than 64 cells.
pub fn node_line(cells: usize) -> Result<(), Refusal> {
    refuse(4, cells > COLUMNS)
}

/// 5: mark outside 21 to 7E.
pub fn mark(mark: u8) -> Result<(), Refusal> {
    refuse(5, !(0x21..=0x7e).contains(&mark))
}

/// 6: message above 512 bytes.
pub fn message_length(message: &[u8]) -> Result<(), Refusal> {
    refuse(6, message.len() > MESSAGE)
}

/// 7: message byte not 0A or 20 to 7E.
pub fn message_bytes(message: &[u8]) -> Result<(), Refusal> {
    refuse(
        7,
        message
            .iter()
            .any(|byte| !matches!(byte, 0x0a | 0x20..=0x7e)),
    )
}

/// 8: output shorter than the lines need.
pub fn output(length: usize, need: usize) -> Result<(), Refusal> {
    refuse(8, length < need)
}

/// 9: fewer than 128 bytes left, but not none.
pub fn record_length(left: usize) -> Result<(), Refusal> {
    refuse(9, left < RECORD && left != 0)
}

/// 10: parent count above 8.
pub fn record_entries(count: u8) -> Result<(), Refusal> {
    refuse(10, usize::from(count) > ENTRIES)
}

/// 11: kind above 2 in a used entry.
pub fn record_kinds(mut kinds: impl Iterator<Item = u8>) -> Result<(), Refusal> {
    refuse(11, kinds.any(|kind| kind > RECORD_KIND))
}

/// 12: shape wider than 64 cells.
pub fn shape_width(width: u64) -> Result<(), Refusal> {
    refuse(12, width > COLUMNS as u64)
}
