//! A list of calls with queries behind each of them: who started each line, in every case of which it matters.

use crate::machine::Machine;
use crate::marked::row;
use crate::marked::row_of;
use crate::marked::ANCESTOR;
use crate::marked::ANONYMOUS;
use crate::marked::PARENT;
use crate::refusals;
use crate::stream::Command;
use crate::stream::Drawing;
use crate::stream::HandShaper;
use crate::stream::Letters;
use crate::stream::Options;
use crate::stream::Repeat;
use crate::stream::Slot;
use crate::stream::Text;

/// The codes of dashes.
const PERSISTENT: u8 = 0;
const ONCE: u8 = 1;
/// The codes of columns.
const EMPTY_COLUMN: u8 = 0;
const BLOCKED_COLUMN: u8 = 1;
const RESERVED_COLUMN: u8 = 2;
const ANCESTOR_COLUMN: u8 = 3;
const PARENT_COLUMN: u8 = 4;
/// An origin that no row has given.
const JUNK: u32 = 77;

/// The list with this number.
pub fn list(number: u32) -> Vec<Command> {
    let cases = [
        first_and_later(),
        itself(),
        only_reserved(),
        moved(),
        moved_within_a_merge(),
        merged(),
        turned(),
        not_named(),
        refused(),
        by_text(),
        quietly(),
        by_hand(),
        in_two(),
        moved_by_hand(),
        past_the_count(),
        above_the_count(),
        turned_by_hand(),
    ];
    let cases = cases.into_iter().flatten();
    [Command::List(number)].into_iter().chain(cases).collect()
}

/// The calls, each with a query for every one of these ids behind it.
fn asked(calls: Vec<Command>, ids: &[u32]) -> Vec<Command> {
    let queries = || ids.iter().copied().map(Command::Origin);
    let asked = calls.into_iter().flat_map(|call| {
        let call = [call].into_iter();
        call.chain(queries())
    });
    asked.collect()
}

/// An id that three rows name, its own row, and a row that names it anew.
fn first_and_later() -> Vec<Command> {
    let calls = vec![
        new(PERSISTENT),
        row(5, &[(PARENT, 7)]),
        row(6, &[(PARENT, 7)]),
        row(8, &[(ANCESTOR, 7), (PARENT, 5)]),
        Command::Reserve(7),
        row(7, &[]),
        row(3, &[(ANCESTOR, 7), (PARENT, 7)]),
        row(7, &[(PARENT, 5)]),
    ];
    asked(calls, &[7, 5, 6])
}

/// Rows that name themselves: one that did not wait, one that waits, and one that is named by another first.
fn itself() -> Vec<Command> {
    let calls = vec![
        new(PERSISTENT),
        row(7, &[(PARENT, 7)]),
        row(4, &[(PARENT, 7)]),
        row(7, &[(PARENT, 4), (ANCESTOR, 7)]),
        row(4, &[(PARENT, 4)]),
        row(9, &[(PARENT, 4)]),
    ];
    asked(calls, &[7, 4])
}

/// Ids that are reserved: before they are named, once they are, and after their own row.
fn only_reserved() -> Vec<Command> {
    let calls = vec![
        new(PERSISTENT),
        Command::Reserve(9),
        Command::Reserve(9),
        row(8, &[(PARENT, 9)]),
        Command::Reserve(9),
        row(9, &[]),
        Command::Reserve(9),
        row(9, &[(PARENT, 9)]),
    ];
    asked(calls, &[9, 8])
}

/// Single entries that are swapped: one that a row has named, and one that is only reserved.
fn moved() -> Vec<Command> {
    let calls = vec![
        new(PERSISTENT),
        Command::Reserve(6),
        row(5, &[(PARENT, 4)]),
        row(6, &[(PARENT, 4)]),
        new(PERSISTENT),
        Command::Reserve(6),
        Command::Reserve(4),
        row(6, &[(PARENT, 4)]),
    ];
    asked(calls, &[4, 6])
}

/// A swap into a column that carried another node, and one of an id that the next rows name again.
fn moved_within_a_merge() -> Vec<Command> {
    let calls = vec![
        new(PERSISTENT),
        row(9, &[(PARENT, 2)]),
        row(1, &[(PARENT, 2), (ANCESTOR, 3)]),
        row(2, &[(PARENT, 3)]),
        row(8, &[(PARENT, 2), (PARENT, 3)]),
        row(3, &[(PARENT, 2)]),
    ];
    asked(calls, &[2, 3])
}

/// A Parent entry merged into an Ancestor column, and an Ancestor entry into a Parent column.
fn merged() -> Vec<Command> {
    let calls = vec![
        new(PERSISTENT),
        row(5, &[(ANCESTOR, 7), (PARENT, 8)]),
        row(6, &[(PARENT, 7), (ANCESTOR, 8)]),
    ];
    asked(calls, &[7, 8])
}

/// Ancestor columns that Once dashes turn Parent.
fn turned() -> Vec<Command> {
    let calls = vec![
        new(ONCE),
        row(5, &[(ANCESTOR, 7)]),
        row(6, &[(ANCESTOR, 7), (ANCESTOR, 8)]),
        row(9, &[]),
    ];
    asked(calls, &[7, 8])
}

/// Anonymous entries, whose ids are not named, and an id named twice by one row.
fn not_named() -> Vec<Command> {
    let calls = vec![
        new(PERSISTENT),
        row(5, &[(ANONYMOUS, 7), (PARENT, 8), (ANCESTOR, 8)]),
        Command::Preview(row_of(6, &[(PARENT, 7)])),
        Command::Preview(row_of(8, &[(PARENT, 8)])),
    ];
    asked(calls, &[7, 8])
}

/// Calls that are refused: a row with too many entries, a row whose node line is too wide, and a reservation where no column is left.
fn refused() -> Vec<Command> {
    let many: Vec<_> = (0..=refusals::ENTRIES).map(|_| (PARENT, 4)).collect();
    let quiet = Repeat {
        times: 1,
        commands: (100..163).map(Command::Reserve).collect(),
    };
    let calls = vec![
        new(PERSISTENT),
        row(5, &[(PARENT, 3)]),
        row(3, &many),
        Command::Repeat(quiet),
        row(3, &[(PARENT, 4), (PARENT, 100)]),
        row(3, &[(PARENT, 4), (PARENT, 200)]),
        Command::Reserve(200),
    ];
    asked(calls, &[3, 4, 100, 200])
}

/// Text calls: one that is accepted, one whose output is too short, and one whose mark does not pass.
fn by_text() -> Vec<Command> {
    let mut machine = Machine::new(&Letters::all());
    let mut calls = vec![new(PERSISTENT)];
    machine.run(&calls[0]);
    for (node, id, less, mark) in [
        (5, 7, 0, b'o'),
        (6, 7, 0, b'o'),
        (7, 9, 1, b'o'),
        (7, 9, 0, b' '),
        (7, 9, 0, b'o'),
    ] {
        let call = Command::Text(text(&machine, node, id, less, mark));
        machine.run(&call);
        calls.push(call);
    }
    asked(calls, &[7, 9])
}

/// A text call of a row with one Parent entry; its output is so many bytes too short.
fn text(machine: &Machine, node: u32, id: u32, less: u32, mark: u8) -> Text {
    let mut text = Text {
        drawing: Drawing {
            renderer: 0,
            mark,
            length: 0,
        },
        row: row_of(node, &[(PARENT, id)]),
        message: b"a".to_vec(),
    };
    let need = machine.text_need(&text).unwrap_or(0) as u32;
    text.drawing.length = need.saturating_sub(less);
    text
}

/// Rows, a reservation and a query that are repeated quietly.
fn quietly() -> Vec<Command> {
    let repeat = Repeat {
        times: 2,
        commands: vec![
            Command::Reserve(6),
            row(5, &[(PARENT, 7), (PARENT, 6)]),
            Command::Origin(7),
            row(7, &[(PARENT, 8)]),
        ],
    };
    asked(vec![new(PERSISTENT), Command::Repeat(repeat)], &[6, 7, 8])
}

/// Columns of every kind, all with an origin: an Empty and a Reserved one are then named, the Blocked one becomes Empty and is named later.
fn by_hand() -> Vec<Command> {
    let slots = [
        (EMPTY_COLUMN, 7, JUNK),
        (RESERVED_COLUMN, 9, JUNK),
        (PARENT_COLUMN, 7, 5),
        (BLOCKED_COLUMN, 0, JUNK),
        (ANCESTOR_COLUMN, 8, u32::MAX),
        (PARENT_COLUMN, 6, 0),
    ];
    let calls = vec![
        set(slots.len() as u64, PERSISTENT, &slots),
        row(1, &[(PARENT, 2)]),
        row(3, &[(PARENT, 9), (PARENT, 4)]),
        Command::Reserve(10),
        row(7, &[(PARENT, 10)]),
    ];
    asked(calls, &[7, 9, 8, 6, 2, 4, 10])
}

/// An id in two columns that carry different nodes, and one that is Reserved in the first and named in the second.
fn in_two() -> Vec<Command> {
    let slots = [
        (PARENT_COLUMN, 7, 5),
        (RESERVED_COLUMN, 9, JUNK),
        (ANCESTOR_COLUMN, 7, 6),
        (PARENT_COLUMN, 9, 4),
    ];
    let calls = vec![
        set(slots.len() as u64, PERSISTENT, &slots),
        row(1, &[(PARENT, 7), (PARENT, 9)]),
        row(7, &[]),
        row(9, &[]),
        row(7, &[]),
    ];
    asked(calls, &[7, 9])
}

/// Swaps: of the node's own id out of its second column, and of an id with an origin into an Empty column with one that does not count.
fn moved_by_hand() -> Vec<Command> {
    let twice = [
        (PARENT_COLUMN, 7, 1),
        (EMPTY_COLUMN, 0, JUNK),
        (PARENT_COLUMN, 7, 2),
    ];
    let into = [
        (EMPTY_COLUMN, 0, JUNK),
        (PARENT_COLUMN, 7, 1),
        (RESERVED_COLUMN, 8, JUNK),
    ];
    let calls = vec![
        set(twice.len() as u64, PERSISTENT, &twice),
        row(7, &[(PARENT, 7)]),
        set(into.len() as u64, PERSISTENT, &into),
        row(3, &[(PARENT, 7)]),
        set(into.len() as u64, PERSISTENT, &into),
        row(3, &[(ANCESTOR, 8)]),
    ];
    asked(calls, &[7, 8, 3])
}

/// Slots past the count: their ids do not wait, and columns that are made there carry the node of their row.
fn past_the_count() -> Vec<Command> {
    let slots = [
        (PARENT_COLUMN, 7, 5),
        (PARENT_COLUMN, 8, JUNK),
        (RESERVED_COLUMN, 9, JUNK),
        (EMPTY_COLUMN, 0, JUNK),
    ];
    let calls = vec![
        set(1, PERSISTENT, &slots),
        row(1, &[(PARENT, 2), (PARENT, 8)]),
        Command::Reserve(9),
        row(4, &[(PARENT, 9)]),
    ];
    asked(calls, &[7, 8, 9, 2])
}

/// A count above 64, with more slots than that: the last two do not count.
fn above_the_count() -> Vec<Command> {
    let slots: Vec<_> = (0..66).map(|id| (PARENT_COLUMN, id, 1000 + id)).collect();
    let calls = vec![
        set(u64::MAX, PERSISTENT, &slots),
        row(63, &[(PARENT, 200)]),
        row(0, &[(PARENT, 62)]),
    ];
    asked(calls, &[0, 62, 63, 64, 65, 200])
}

/// Ancestor columns set by hand, which a row that does not name them turns Parent, with Once dashes.
fn turned_by_hand() -> Vec<Command> {
    let slots = [(ANCESTOR_COLUMN, 7, 5), (ANCESTOR_COLUMN, 8, 6)];
    let calls = vec![
        set(slots.len() as u64, ONCE, &slots),
        row(1, &[]),
        row(2, &[(ANCESTOR, 7)]),
    ];
    asked(calls, &[7, 8])
}

/// A new shaper of height 1 with these dashes.
fn new(dash: u8) -> Command {
    Command::New(options(dash))
}

/// A shaper of height 1 with this count, these dashes and slots: each its kind, its id and its origin.
fn set(count: u64, dash: u8, slots: &[(u8, u32, u32)]) -> Command {
    let slots = slots.iter().map(|(kind, id, origin)| Slot {
        kind: *kind,
        id: *id,
        origin: *origin,
    });
    Command::Shaper(HandShaper {
        count,
        options: options(dash),
        slots: slots.collect(),
        ..HandShaper::default()
    })
}

/// Options of height 1 with these dashes.
fn options(dash: u8) -> Options {
    Options {
        height: 1,
        dash,
        ..Options::default()
    }
}
