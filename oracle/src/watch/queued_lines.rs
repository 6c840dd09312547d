//! Tells which kinds a queued line is.

use std::ops::RangeInclusive;

use crate::kinds::Kind;
use crate::measure::BOX_CHARACTERS;
use crate::measure::SHIFT_SEQUENCES;

/// The bytes of a queued line that are white space, other than the blank.
const SPACES: RangeInclusive<u8> = 0x09..=0x0d;

/// The kinds that a queued line is, each with its value.
pub fn kinds(line: &[u8]) -> Vec<(Kind, usize)> {
    [
        odd_bytes(line),
        holds(line, Kind::QueuedBox, &BOX_CHARACTERS),
        holds(line, Kind::QueuedShift, &SHIFT_SEQUENCES),
        not_completed(line),
    ]
    .concat()
}

/// The bytes that are no UTF-8, and those that are white space.
fn odd_bytes(line: &[u8]) -> Vec<(Kind, usize)> {
    let no_utf8 = line.utf8_chunks().flat_map(|chunk| chunk.invalid());
    let spaces = line.iter().filter(|byte| SPACES.contains(byte));
    no_utf8
        .map(|byte| (Kind::QueuedByte, usize::from(*byte)))
        .chain(spaces.map(|byte| (Kind::QueuedSpace, usize::from(*byte))))
        .collect()
}

/// Those of these byte strings that stand in the line, by their place.
fn holds(line: &[u8], kind: Kind, these: &[&str]) -> Vec<(Kind, usize)> {
    let stands = |one: &str| line.windows(one.len()).any(|bytes| bytes == one.as_bytes());
    let places = these.iter().enumerate().filter(|(_, one)| stands(one));
    places.map(|(place, _)| (kind, place)).collect()
}

/// The bytes that begin a box character or a shift sequence and do not complete it, as a number.
fn not_completed(line: &[u8]) -> Vec<(Kind, usize)> {
    let places = (0..line.len()).filter_map(|place| begun(&line[place..]));
    places
        .map(|bytes| {
            let number = bytes
                .iter()
                .fold(0, |number, byte| number << 8 | usize::from(*byte));
            (Kind::QueuedBegun, number)
        })
        .collect()
}

/// As many bytes of a box character or a shift sequence as stand at the beginning, where some do and none is complete.
fn begun(bytes: &[u8]) -> Option<&[u8]> {
    let all = BOX_CHARACTERS.iter().chain(&SHIFT_SEQUENCES);
    let shared = |one: &str| {
        bytes
            .iter()
            .zip(one.bytes())
            .take_while(|(a, b)| **a == *b)
            .count()
    };
    let is_complete = all.clone().any(|one| shared(one) == one.len());
    let most = all.map(|one| shared(one)).max().unwrap_or(0);
    (most > 0 && !is_complete).then(|| &bytes[..most])
}
