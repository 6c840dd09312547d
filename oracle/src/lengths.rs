//! Lists whose calls have no entries, one, as many as may be, one fewer, one more and a thousand, and a list of the greatest widths.

use crate::machine::Machine;
use crate::marked::PARENT_COLUMN;
use crate::refusals;
use crate::stream::Command;
use crate::stream::Drawing;
use crate::stream::Entry;
use crate::stream::HandShaper;
use crate::stream::Letters;
use crate::stream::Options;
use crate::stream::Repeat;
use crate::stream::Row;
use crate::stream::Slot;
use crate::stream::Text;
use crate::stream::Width;

/// The letters of the calls that have entries: row, preview, width and text.
pub const CALLS: [u8; 4] = *b"WBVT";

/// How many entries these calls have.
pub const COUNTS: [usize; 6] = [0, 1, 7, 8, 9, 1000];

/// The node of each call.
const NODE: u32 = 1;

/// The output length of a text call that is refused.
const SHORT: u32 = 40;

/// The first of the ids that are held where no entry is.
const HELD: u32 = 1000;

/// The lists, numbered from `first` on: one with named entries and one with Anonymous ones.
pub fn lists(first: u32) -> Vec<Vec<Command>> {
    [named, anonymous]
        .into_iter()
        .zip(first..)
        .map(|(entry, number)| list(number, entry))
        .collect()
}

/// An Ancestor or a Parent entry, each with an id of its own.
fn named(place: u32) -> Entry {
    Entry {
        kind: 1 + (place % 2) as u8,
        id: 100 + place,
    }
}

/// An Anonymous entry.
fn anonymous(_place: u32) -> Entry {
    Entry::default()
}

/// A width call, a preview, a row and a text call for each count, on new shapers.
fn list(number: u32, entry: fn(u32) -> Entry) -> Vec<Command> {
    let mut machine = Machine::new(&Letters::all());
    let mut commands = vec![Command::List(number)];
    for count in COUNTS {
        let row = Row {
            node: NODE,
            entries: (0..count as u32).map(entry).collect(),
        };
        let before = [
            new(0),
            Command::Width(Width::of(row.clone())),
            Command::Preview(row.clone()),
            Command::Row(row.clone()),
            new(0),
        ];
        for command in &before {
            machine.run(command);
        }
        let last = text(&machine, row);
        machine.run(&last);
        commands.extend(before);
        commands.push(last);
    }
    commands
}

/// The list with this number: the width call with as many entries as may be, of which no column holds one, on 64 columns, on 63 with the
/// previous node's to their right, and on a shaper set by hand with 64 and the previous node's to their right.
pub fn widest(number: u32) -> Vec<Command> {
    let columns = refusals::COLUMNS as u32;
    let lone = Row {
        node: NODE,
        entries: Vec::new(),
    };
    vec![
        Command::List(number),
        new(0),
        reserved(columns),
        width(),
        new(1),
        reserved(columns - 1),
        Command::Row(lone),
        width(),
        past_the_columns(),
        width(),
    ]
}

/// So many reservations, made quietly.
fn reserved(count: u32) -> Command {
    Command::Repeat(Repeat {
        times: 1,
        commands: (HELD..HELD + count).map(Command::Reserve).collect(),
    })
}

/// The width call with a node and as many entries as may be, of which no column holds one.
fn width() -> Command {
    Command::Width(Width::of(Row {
        node: NODE,
        entries: (0..refusals::ENTRIES as u32).map(named).collect(),
    }))
}

/// A staggering shaper set by hand: 64 Parent columns, and the previous node's to their right.
fn past_the_columns() -> Command {
    let columns = refusals::COLUMNS as u32;
    let slot = |id| Slot {
        kind: PARENT_COLUMN,
        id,
        origin: 0,
    };
    Command::Shaper(HandShaper {
        count: u64::from(columns),
        has_previous: 1,
        previous: u64::from(columns),
        options: options(1),
        slots: (HELD..HELD + columns).map(slot).collect(),
    })
}

/// Height 1, with this flag for staggering.
fn options(stagger: u8) -> Options {
    Options {
        height: 1,
        stagger,
        ..Options::default()
    }
}

/// A new shaper of height 1, with this flag for staggering.
fn new(stagger: u8) -> Command {
    Command::New(options(stagger))
}

/// The text call of this row on the machine, drawn curved with mark `o`, its output just long enough.
fn text(machine: &Machine, row: Row) -> Command {
    let mut text = Text {
        drawing: Drawing {
            renderer: 3,
            mark: b'o',
            length: SHORT,
        },
        row,
        message: b"a message".to_vec(),
    };
    if let Some(need) = machine.text_need(&text) {
        text.drawing.length = need as u32;
    }
    Command::Text(text)
}
