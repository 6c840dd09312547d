//! Document 01's marked rows M1 to M10 as lists, and a list about the stream format itself.

use std::iter;

use crate::machine::Machine;
use crate::record_bytes;
use crate::refusals;
use crate::stream::encode;
use crate::stream::Command;
use crate::stream::Drawing;
use crate::stream::Entry;
use crate::stream::HandShaper;
use crate::stream::Letters;
use crate::stream::Options;
use crate::stream::Repeat;
use crate::stream::Row;
use crate::stream::Slot;
use crate::stream::Width;

/// The code of an Anonymous entry.
pub const ANONYMOUS: u8 = 0;
/// The code of an Ancestor entry.
pub const ANCESTOR: u8 = 1;
/// The code of a Parent entry.
pub const PARENT: u8 = 2;
/// The code of a Parent column.
pub const PARENT_COLUMN: u8 = 4;

/// The lists of M1 to M10, numbered like these; each row is previewed right before it is drawn.
pub fn lists() -> Vec<Vec<Command>> {
    let cases = [m1(), m2(), m3(), m4(), m5(), m6(), m7(), m8(), m9(), m10()];
    cases
        .into_iter()
        .zip(1..)
        .map(|(case, number)| {
            let calls = case.into_iter().flat_map(previewed);
            iter::once(Command::List(number)).chain(calls).collect()
        })
        .collect()
}

/// A command, a row call with its preview in front of it.
fn previewed(command: Command) -> Vec<Command> {
    match &command {
        Command::Row(row) => vec![Command::Preview(row.clone()), command],
        _ => vec![command],
    }
}

/// A merge and its two sides, by row and renderer calls, then as records.
fn m1() -> Vec<Command> {
    let rows = [
        (30, vec![(PARENT, 20), (PARENT, 10)]),
        (20, vec![(PARENT, 10)]),
        (10, vec![]),
    ];
    let mut commands = vec![new(1, 0)];
    for (node, entries) in &rows {
        commands.push(row(*node, entries));
        commands.push(drawn(&commands));
    }
    for (node, entries) in &rows {
        commands.push(record(*node, entries));
    }
    commands
}

/// Height 1, no staggering: column 0 twice; separator no, then yes.
fn m2() -> Vec<Command> {
    vec![new(1, 0), row(1, &[]), row(2, &[])]
}

/// Staggering: columns 0, 1, 0.
fn m3() -> Vec<Command> {
    vec![new(1, 1), row(1, &[]), row(2, &[]), row(3, &[])]
}

/// Staggering at height 2: column 0 twice, no separator.
fn m4() -> Vec<Command> {
    vec![new(2, 1), row(1, &[]), row(2, &[])]
}

/// One id named twice: one column, Parent 7; a merge; no link line.
fn m5() -> Vec<Command> {
    vec![new(1, 0), row(5, &[(PARENT, 7), (ANCESTOR, 7)])]
}

/// Two Anonymous entries: two term cells; afterwards no columns.
fn m6() -> Vec<Command> {
    vec![new(1, 0), row(5, &[(ANONYMOUS, 0), (ANONYMOUS, 0)])]
}

/// A reserved node: column 0, head.
fn m7() -> Vec<Command> {
    vec![new(1, 0), Command::Reserve(9), row(9, &[])]
}

/// A swap with dashed strokes; column 0 holds Parent 4.
fn m8() -> Vec<Command> {
    vec![
        new(1, 0),
        Command::Reserve(6),
        Command::Reserve(4),
        row(6, &[(PARENT, 4)]),
    ]
}

/// After 64 reservations: a new id gives 2, a held one passes; a held node with two unheld parents gives 4, with one it passes.
fn m9() -> Vec<Command> {
    let last = refusals::COLUMNS as u32;
    let quiet = Repeat {
        times: 1,
        commands: (1..last).map(Command::Reserve).collect(),
    };
    vec![
        new(1, 0),
        Command::Repeat(quiet),
        Command::Reserve(last),
        Command::Reserve(100),
        Command::Reserve(1),
        row(1, &[(PARENT, 101), (PARENT, 102)]),
        row(1, &[(PARENT, 101)]),
    ]
}

/// Column 0 holds Parent 7, set by a row and by hand: the width call gives 1, the preview and the row 2 cells.
fn m10() -> Vec<Command> {
    let entries = [(PARENT, 7), (PARENT, 8)];
    vec![
        new(1, 0),
        row(5, &[(PARENT, 7)]),
        width(7, &entries),
        row(7, &entries),
        holds_parent(7),
        width(7, &entries),
        row(7, &entries),
    ]
}

/// A new shaper, Persistent and Top.
fn new(height: u64, stagger: u8) -> Command {
    Command::New(Options {
        height,
        stagger,
        ..Options::default()
    })
}

/// Entries out of kinds and ids.
fn entries(pairs: &[(u8, u32)]) -> Vec<Entry> {
    pairs
        .iter()
        .map(|(kind, id)| Entry {
            kind: *kind,
            id: *id,
        })
        .collect()
}

/// The row with this node and these entries.
pub fn row_of(node: u32, pairs: &[(u8, u32)]) -> Row {
    Row {
        node,
        entries: entries(pairs),
    }
}

/// A row call.
pub fn row(node: u32, pairs: &[(u8, u32)]) -> Command {
    Command::Row(row_of(node, pairs))
}

/// A width call with node and entries.
fn width(node: u32, pairs: &[(u8, u32)]) -> Command {
    Command::Width(Width::of(row_of(node, pairs)))
}

/// An ASCII renderer call with mark `o` after these commands, its output just long enough.
fn drawn(before: &[Command]) -> Command {
    let mut machine = Machine::new(&Letters::all());
    for command in before {
        machine.run(command);
    }
    let mut drawing = Drawing {
        renderer: 0,
        mark: b'o',
        length: 0,
    };
    drawing.length = machine.renderer_need(&drawing).unwrap_or(0) as u32;
    Command::Renderer(drawing)
}

/// A record call on one whole record with mark `o` and no message.
fn record(node: u32, pairs: &[(u8, u32)]) -> Command {
    let count = pairs.len() as u8;
    Command::Record(record_bytes::whole(node, b'o', count, &entries(pairs), &[]))
}

/// A shaper of height 1 whose column 0 holds this id as Parent, named by the row of node 5.
fn holds_parent(id: u32) -> Command {
    Command::Shaper(HandShaper {
        count: 1,
        options: Options {
            height: 1,
            ..Options::default()
        },
        slots: vec![Slot {
            kind: PARENT_COLUMN,
            id,
            origin: 5,
        }],
        ..HandShaper::default()
    })
}

/// A list about the format: short payloads, payloads with unused bytes, letters that nobody knows, a nested repeat, and a stream that ends within a command.
pub fn format_list(number: u32) -> Vec<u8> {
    let mut stream = encode(&[Command::List(number)]);
    for (letter, payload) in [
        (b'N', &[2][..]),
        (b'N', &[]),
        (b'N', &[1, 0, 0, 0, 0, 0, 0, 0, 9, 9, 9, 77, 77]),
        (b'R', &[5]),
        (b'R', &[0, 0, 0, 0x80, 66]),
        (b'?', &[1, 2, 3]),
        (b'l', &[]),
        (0, &[]),
        (
            b'X',
            &[
                2, 0, 0, 0, b'R', 1, 0, 7, b'X', 4, 0, 9, 0, 0, 0, b'?', 0, 0, b'R', 4, 0,
            ],
        ),
        (b'X', &[1]),
        (b'S', &[3]),
        (
            b'S',
            &[
                2, 0, 0, 0, 0, 0, 0, 0, 0, 0, 0, 0, 0, 0, 0, 0, 0, 17, 0, 0, 0, 0, 0, 0, 0, 0, 0,
                0, 3, 4, 8,
            ],
        ),
        (
            b'S',
            &[
                2, 0, 0, 0, 0, 0, 0, 0, 0, 0, 0, 0, 0, 0, 0, 0, 0, 1, 0, 0, 0, 0, 0, 0, 0, 0, 0, 0,
                2, 4, 8, 0, 0, 0, 3, 9, 0, 0, 0, 6, 1, 0, 0, 5,
            ],
        ),
        (b'O', &[8]),
        (b'O', &[9, 0, 0, 0, 77]),
        (b'O', &[]),
        (b'X', &[2, 0, 0, 0, b'O', 1, 0, 8, b'O', 4, 0, 9]),
        (b'B', &[1, 0, 0, 0, 2, 0, 2]),
        (b'W', &[1, 0, 0, 0, 2, 0, 2]),
        (b'W', &[8, 0, 0, 0, 9]),
        (b'B', &[8, 0, 0, 0, 9]),
        (b'B', &[]),
        (b'B', &[3, 0, 0, 0, 1, 0, 2, 9, 0, 0, 0, 77]),
        (b'X', &[2, 0, 0, 0, b'B', 1, 0, 7]),
        (b'V', &[1]),
        (
            b'Q',
            &[
                1, 3, 0, 0, 0, 0, 0, 0, 0, 1, 0, 0, 0, 0, 0, 0, 0, 9, 0, b'|',
            ],
        ),
        (b'T', &[0, b'o', 30, 0, 0, 0, 3, 0, 0, 0, 0, 0, 2, 0, b'a']),
        (
            b'T',
            &[9, b'o', 60, 0, 0, 0, 3, 0, 0, 0, 0, 0, 1, 0, b'a', b'b'],
        ),
        (
            b'T',
            &[9, b'o', 0x90, 1, 0, 0, 3, 0, 0, 0, 0, 0, 1, 0, b'a', b'b'],
        ),
        (b'H', &[7, 0, 0, 0, 1, 1, 1, 1, 1, 1]),
        (b'P', &[0, b'o', 3]),
        (b'P', &[0, b'o', 9]),
        (b'D', &[]),
        (b'D', &[0; 127]),
        (b'D', &[0; 129]),
    ] {
        raw(&mut stream, letter, payload);
    }
    stream
}

/// Appends a command with any letter and payload.
fn raw(stream: &mut Vec<u8>, letter: u8, payload: &[u8]) {
    stream.push(letter);
    stream.extend((payload.len() as u16).to_le_bytes());
    stream.extend(payload);
}

/// A command that the stream ends within.
pub fn cut_command() -> Vec<u8> {
    vec![b'R', 4, 0, 1, 0, 0]
}
