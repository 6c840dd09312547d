//! The histories: a linear one, and such as open so many lines, after which eight rows come again and again that leave these open.

use crate::records;
use crate::refusals;

/// The first id of the lines.
const FIRST: u32 = 1000;
/// How far the id of a line is moved by a row of its own.
const MOVED: u32 = 500;
/// The kind of a direct parent.
const PARENT: u8 = 2;
/// The mark of every row.
const MARK: u8 = b'o';

/// A node and its parents.
type Row = (u32, Vec<u32>);

/// Records with so many lines open, at least `rows` of them beside those that open the lines.
pub fn records(lines: u32, rows: usize) -> Vec<u8> {
    let all = match lines {
        1 => linear(rows),
        _ => branched(lines, rows),
    };
    all.iter()
        .flat_map(|(node, parents)| record(*node, parents))
        .collect()
}

/// Rows of which each is the only parent of the one before it.
fn linear(rows: usize) -> Vec<Row> {
    (FIRST..)
        .take(rows)
        .map(|node| (node, vec![node + 1]))
        .collect()
}

/// The rows that open so many lines, then at least so many rows that leave them open.
fn branched(lines: u32, rows: usize) -> Vec<Row> {
    let cycle = cycle(lines);
    let cycles = rows.div_ceil(cycle.len());
    let again = (0..cycles).flat_map(|_| cycle.iter().cloned());
    opening(lines).into_iter().chain(again).collect()
}

/// Rows that open the lines, each as many as a record has room for.
fn opening(lines: u32) -> Vec<Row> {
    let ids: Vec<u32> = (FIRST..FIRST + lines).collect();
    (1..)
        .zip(ids.chunks(refusals::ENTRIES))
        .map(|(node, ids)| (node, ids.to_vec()))
        .collect()
}

/// Eight rows that leave the same lines open: straight rows, a fork and merges, in different columns.
fn cycle(lines: u32) -> [Row; 8] {
    let (first, middle, last) = (FIRST, FIRST + lines / 2, FIRST + lines - 1);
    [
        (first, vec![first + MOVED]),
        (first + MOVED, vec![first]),
        (middle, vec![middle + MOVED]),
        (middle + MOVED, vec![middle]),
        (last, vec![last + MOVED, first]),
        (last + MOVED, vec![last]),
        (middle, vec![middle, first]),
        (1, vec![middle]),
    ]
}

/// A record without a message.
fn record(node: u32, parents: &[u32]) -> [u8; refusals::RECORD] {
    let mut bytes = [0; refusals::RECORD];
    bytes[..4].copy_from_slice(&node.to_le_bytes());
    bytes[4] = MARK;
    bytes[5] = parents.len() as u8;
    for (place, parent) in parents.iter().enumerate() {
        let at = records::ENTRIES_AT + place * records::ENTRY_BYTES;
        bytes[at] = PARENT;
        bytes[at + 1..at + records::ENTRY_BYTES].copy_from_slice(&parent.to_le_bytes());
    }
    bytes
}
