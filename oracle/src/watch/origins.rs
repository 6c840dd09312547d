//! Tells which kinds a query is, by what the call in front of it did with the id, and which origins that do not count a shaper set by hand has.

use std::collections::BTreeMap;

use crate::codes;
use crate::column::Column;
use crate::column::ColumnsExt;
use crate::kinds::Kind;
use crate::kinds::Kinds;
use crate::machine::Answer;
use crate::machine::Machine;
use crate::origins;
use crate::origins::Started;
use crate::pipeline::types::DashStyle;
use crate::refusals;
use crate::render::Ancestor;
use crate::stream::Command;
use crate::stream::HandShaper;
use crate::stream::Row;
use crate::stream::Slot;
use crate::waiting;

/// What of the list so far tells more about its next call.
#[derive(Default)]
pub struct Origins {
    /// The columns that the next call finds, and who started the line of its node.
    columns: Vec<Column<u32>>,
    own: Option<Started>,
    /// The call that the next queries stand behind.
    last: Last,
    /// The ids that rows have drawn, each with the node that had started its line until then.
    ended: BTreeMap<u32, u32>,
}

/// A call that queries stand behind.
#[derive(Default)]
enum Last {
    /// A shaper set by hand.
    Set(HandShaper),
    /// An accepted row or text call.
    Drawn(Drawn),
    /// A refused row or text call, and its letter.
    Refused(Row, u8),
    #[default]
    Other,
}

/// An accepted row.
struct Drawn {
    row: Row,
    node_column: usize,
    before: Vec<Column<u32>>,
    after: Vec<Column<u32>>,
    dashes: DashStyle,
}

impl Origins {
    /// Looks at a call before it is made.
    pub fn before(&mut self, machine: &Machine, command: &Command) {
        if let Some(row) = waiting::row_of(command) {
            let columns = machine.shaper.columns();
            self.columns.clone_from(columns);
            self.own = Some(machine.origins.started(columns, row.node));
        }
    }

    /// Looks at a call after it was made. A query leaves the call in front of it as the last one.
    pub fn after(
        &mut self,
        kinds: &mut Kinds,
        machine: &Machine,
        command: &Command,
        answer: &Answer,
    ) {
        match (command, answer) {
            (Command::Origin(id), Answer::Origin(started)) => {
                self.query(kinds, machine, *id, *started);
            }
            (Command::Shaper(hand), Answer::Shaper) => {
                junk(kinds, hand);
                self.ended.clear();
                self.last = Last::Set(hand.clone());
            }
            (Command::Preview(row), Answer::Preview(0, previewed, _)) => {
                preview(kinds, machine, previewed.column, row);
                self.last = Last::Other;
            }
            (Command::New(_) | Command::Repeat(_), _) => {
                self.ended.clear();
                self.last = Last::Other;
            }
            _ => match (waiting::row_of(command), answer.refusal()) {
                (Some(row), Some(0)) => self.drawn(kinds, machine, row),
                (Some(row), Some(_)) => self.last = Last::Refused(row.clone(), command.letter()),
                _ => self.last = Last::Other,
            },
        }
    }

    /// An accepted row.
    fn drawn(&mut self, kinds: &mut Kinds, machine: &Machine, row: &Row) {
        if let Some(Started::By(first)) = self.own {
            self.ended.insert(row.node, first);
        }
        let shaper = &machine.shaper;
        let drawn = Drawn {
            row: row.clone(),
            node_column: shaper.previous_node_column().unwrap_or_default(),
            before: std::mem::take(&mut self.columns),
            after: shaper.columns().clone(),
            dashes: shaper.options().graph_row_shape_style.dash_style,
        };
        if let Last::Set(hand) = &self.last {
            drawn.filled(kinds, hand);
        }
        self.last = Last::Drawn(drawn);
    }

    /// A query for this id, with this answer.
    fn query(&self, kinds: &mut Kinds, machine: &Machine, id: u32, started: Started) {
        let hand = usize::from(machine.origins.are_by_hand());
        kinds.add(Kind::Query, 3 * hand + number(started));
        match &self.last {
            Last::Set(shaper) => set(kinds, shaper, id, started),
            Last::Drawn(drawn) => drawn.query(kinds, hand, id, started),
            Last::Refused(row, letter) if names(row, id) || row.node == id => {
                let text = usize::from(*letter == b'T');
                kinds.add(Kind::QueryAfterRefused, 3 * text + number(started));
            }
            _ => {}
        }
        if let (Some(before), Started::By(now)) = (self.ended.get(&id), started) {
            if *before != now {
                kinds.add(Kind::QueryNamedAnew, hand);
            }
        }
        if is_in_two(machine, id) {
            kinds.add(Kind::QueryInTwo, 0);
        }
    }
}

impl Drawn {
    /// A query behind the row, on a shaper set by hand or not.
    fn query(&self, kinds: &mut Kinds, hand: usize, id: u32, started: Started) {
        let named = names(&self.row, id);
        let own = id == self.row.node;
        let held = self.before.find(&id).map(|place| &self.before[place]);
        if let Some(place) = origins::moved_from(&self.before, self.node_column, &self.row) {
            if named {
                let was_named = codes::is_named(&self.before[place]);
                kinds.add(Kind::QuerySwapped, 2 * hand + usize::from(was_named));
            }
        }
        if own && started == Started::NotWaiting {
            kinds.add(Kind::QueryDrawn, hand);
        }
        if own && named {
            kinds.add(Kind::QueryOfItself, hand);
        }
        if named && matches!(started, Started::By(first) if first != self.row.node) {
            kinds.add(Kind::QueryKept, hand);
        }
        if named && !own && matches!(held, Some(Column::Reserved(_))) {
            kinds.add(Kind::QueryAfterReserved, hand);
        }
        if self.is_merged(id) {
            kinds.add(Kind::QueryMerged, hand);
        }
        if self.is_turned(id) {
            kinds.add(Kind::QueryTurned, hand);
        }
    }

    /// Whether a Parent entry was merged into the id's Ancestor column, which Persistent dashes would have kept.
    fn is_merged(&self, id: u32) -> bool {
        let place = self.before.find(&id);
        self.dashes == DashStyle::Persistent
            && place.is_some_and(|place| {
                place != self.node_column && self.before[place] == Column::Ancestor(id)
            })
            && self.after.contains(&Column::Parent(id))
    }

    /// Whether Once dashes turned the id's column from Ancestor to Parent: no Parent entry names it, and it was not Parent.
    fn is_turned(&self, id: u32) -> bool {
        let direct = |entry| matches!(codes::ancestor(entry), Ancestor::Parent(it) if it == id);
        self.dashes == DashStyle::Once
            && self.after.contains(&Column::Parent(id))
            && !self.before.contains(&Column::Parent(id))
            && !self.row.entries.iter().any(direct)
    }

    /// Columns that the row right behind this shaper names, whose slots had an origin that did not count: by whether the slot was Empty,
    /// Reserved or past the count.
    fn filled(&self, kinds: &mut Kinds, hand: &HandShaper) {
        let swaps = origins::moved_from(&self.before, self.node_column, &self.row).is_some();
        for (place, slot) in hand.slots.iter().enumerate() {
            let now = self.after.get(place).is_some_and(codes::is_named);
            if slot.origin == 0 || !now || swaps && place == self.node_column {
                continue;
            }
            match self.before.get(place) {
                Some(Column::Empty) => kinds.add(Kind::JunkFilled, 0),
                Some(Column::Reserved(_)) => kinds.add(Kind::JunkFilled, 1),
                None => kinds.add(Kind::JunkFilled, 2),
                _ => {}
            }
        }
    }
}

/// An accepted preview with its node in this column: whether it swaps, and the id had been named.
fn preview(kinds: &mut Kinds, machine: &Machine, node_column: usize, row: &Row) {
    let columns = machine.shaper.columns();
    if let Some(place) = origins::moved_from(columns, node_column, row) {
        let was_named = codes::is_named(&columns[place]);
        kinds.add(Kind::PreviewSwapped, usize::from(was_named));
    }
}

/// A query on a shaper just set by hand.
fn set(kinds: &mut Kinds, hand: &HandShaper, id: u32, started: Started) {
    if hand.count > refusals::COLUMNS as u64 {
        kinds.add(Kind::QueryAbove, number(started));
    }
    let mut past = hand.slots.iter().skip(live(hand));
    let holds = |slot: &Slot| codes::held(&codes::column(slot)) == Some(id);
    if past.any(holds) && started == Started::NotWaiting {
        kinds.add(Kind::QueryPast, 0);
    }
}

/// Origins of a shaper set by hand that do not count: by whether the slot is Empty, Blocked, Reserved or past the count.
fn junk(kinds: &mut Kinds, hand: &HandShaper) {
    let some = hand.slots.iter().enumerate();
    for (place, slot) in some.filter(|(_, slot)| slot.origin != 0) {
        match codes::column(slot) {
            _ if place >= live(hand) => kinds.add(Kind::Junk, 3),
            Column::Empty => kinds.add(Kind::Junk, 0),
            Column::Blocked => kinds.add(Kind::Junk, 1),
            Column::Reserved(_) => kinds.add(Kind::Junk, 2),
            _ => {}
        }
    }
}

/// How many columns of a shaper set by hand are live.
fn live(hand: &HandShaper) -> usize {
    hand.count.min(refusals::COLUMNS as u64) as usize
}

/// Whether two columns that hold the id carry different nodes.
fn is_in_two(machine: &Machine, id: u32) -> bool {
    let columns = machine.shaper.columns().iter();
    let held = columns.zip(machine.origins.carried());
    let mut carried = held.filter_map(|(column, origin)| {
        let holds = codes::held(column) == Some(id);
        origin.filter(|_| holds)
    });
    let first = carried.next();
    carried.any(|other| Some(other) != first)
}

/// Whether an entry of the row names the id.
fn names(row: &Row, id: u32) -> bool {
    row.entries
        .iter()
        .filter_map(waiting::named)
        .any(|named| named == id)
}

/// The number of an answer.
fn number(started: Started) -> usize {
    match started {
        Started::NotWaiting => 0,
        Started::Unnamed => 1,
        Started::By(_) => 2,
    }
}
