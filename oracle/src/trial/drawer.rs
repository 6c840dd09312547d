//! The Rust behind its calls, or a wrong machine in its place.

use std::collections::BTreeMap;

use crate::calls;
use crate::calls::Shape;
use crate::calls::Shaper;
use crate::codes;
use crate::column::Column;
use crate::machine::Machine;
use crate::origins::Origins;
use crate::origins::Started;
use crate::pipeline::types::DashStyle;
use crate::stream::Command;
use crate::stream::Letters;
use crate::stream::Row;
use crate::waiting;

use super::lines::Stroke;
use super::lines::RENDERERS;
use super::seen;
use super::seen::Answers;
use super::seen::Begun;
use super::seen::Drawn;
use super::seen::Links;
use super::seen::Seen;
use super::seen::View;
use super::seen::Written;
use super::wrong::Outcome;
use super::wrong::TrueRow;
use super::wrong::Wrong;

/// The Rust's machine, with a fault or none.
pub struct Drawer<F> {
    machine: Machine,
    /// The Rust with nothing wrong, which makes the same calls; its origins are read by columns.
    truth: Machine,
    fault: Option<F>,
    /// The ids for which the fault carries a node of its own.
    namers: BTreeMap<u32, u32>,
    dashes: DashStyle,
    /// Which mark is next.
    turn: u64,
    /// How many rows were accepted.
    rows: u64,
    /// The foot lines of the last accepted row.
    above: [Vec<Stroke>; RENDERERS],
}

/// What a call finds: the shaper, and what the column of its node carries, 0 where nothing.
struct Before {
    shaper: Shaper,
    carried: u32,
}

impl<F: Wrong> Drawer<F> {
    /// A machine that no call has been made on; the first row is drawn with the mark of this turn.
    pub fn new(fault: Option<F>, turn: u64) -> Self {
        Self {
            machine: Machine::new(&Letters::all()),
            truth: Machine::new(&Letters::all()),
            fault,
            namers: BTreeMap::new(),
            dashes: DashStyle::Persistent,
            turn,
            rows: 0,
            above: Default::default(),
        }
    }

    /// Makes a call and gives its refusal number, 0 for none.
    fn run(&mut self, call: &Command) -> u8 {
        self.truth.run(call);
        self.machine.run(call).refusal().unwrap_or(0)
    }

    /// Who started the line of an id in truth.
    fn true_start(&self, id: u32) -> Started {
        let truth = &self.truth;
        truth.origins.started(truth.shaper.columns(), id)
    }

    /// Who started the line of an id: as the truth says, but by the node that the fault carries, if it does.
    fn start(&self, id: u32) -> Started {
        let namer = self.namers.get(&id).copied();
        match self.true_start(id) {
            Started::By(first) => Started::By(namer.unwrap_or(first)),
            other => other,
        }
    }

    /// What a column carries, if it is Ancestor or Parent: what the machine carries for its id, else 0.
    fn carried(&self, column: &Column<u32>) -> Option<u32> {
        let id = codes::held(column).filter(|_| codes::is_named(column))?;
        match self.start(id) {
            Started::By(first) => Some(self.fault.map_or(first, |fault| fault.carried(first))),
            _ => Some(0),
        }
    }

    /// What a call finds.
    fn before(&self, call: &Command) -> Before {
        let carried = match waiting::row_of(call).map(|row| self.start(row.node)) {
            Some(Started::By(first)) => first,
            _ => 0,
        };
        Before {
            shaper: self.machine.shaper.clone(),
            carried,
        }
    }

    /// What is seen of a call that draws nothing.
    fn seen(&self, number: u8) -> Seen {
        let columns = self.machine.shaper.columns();
        Seen {
            number,
            columns: columns.clone(),
            origins: columns.iter().map(|column| self.carried(column)).collect(),
            drawn: None,
            differs: None,
        }
    }

    /// An accepted reservation.
    fn reserved(&mut self, before: &Shaper, id: u32) -> Seen {
        if let Some(fault) = self.fault {
            let columns = self.machine.shaper.columns().clone();
            self.set_columns(fault.reserved(before.columns(), id, columns));
        }
        self.seen(0)
    }

    /// An accepted row or text call; a text call is held against the row call with its node and entries.
    fn drawn(&mut self, before: &Before, call: &Command) -> Seen {
        if let (Command::Text(_), Some(fault)) = (call, self.fault) {
            self.set_shaper(fault.written(&before.shaper, self.machine.shaper.clone()));
        }
        let row = waiting::row_of(call).expect("a row or text call");
        match calls::row(&before.shaper, row) {
            Ok((counted, shape)) => {
                let after = View::new(&self.machine.shaper);
                let differs = seen::difference(&after, &View::new(&counted));
                let outcome = self.outcome(before, row, &shape);
                self.end_row(outcome, differs)
            }
            Err(refusal) => Seen {
                differs: Some(format!("the row call gives {refusal:?}")),
                ..self.seen(0)
            },
        }
    }

    /// What an accepted row with this shape leaves and shows, after the fault.
    fn outcome(&mut self, before: &Before, row: &Row, shape: &Shape) -> Outcome {
        let mut outcome = Outcome {
            columns: self.machine.shaper.columns().clone(),
            drawn: Drawn {
                node: shape.row.node_column,
                lines: self.lines(shape),
                links: Links::new(&shape.row),
            },
        };
        let row = TrueRow {
            before: before.shaper.columns(),
            carried: before.carried,
            row,
            shape,
            later: self.rows > 0,
            above: &self.above,
        };
        if let Some(fault) = self.fault {
            fault.spoil(&row, &mut outcome);
            fault.take_names(&row, &mut self.namers);
        }
        outcome
    }

    /// The lines that each renderer writes of a shape.
    fn lines(&self, shape: &Shape) -> [Written; RENDERERS] {
        std::array::from_fn(|renderer| {
            let given = calls::renderer(shape, renderer as u8, seen::mark(self.turn));
            let given = given.map_err(|refusal| format!("{refusal:?}"));
            seen::written(given, renderer, self.dashes)
        })
    }

    /// Stores what an accepted row leaves.
    fn end_row(&mut self, outcome: Outcome, differs: Option<String>) -> Seen {
        self.set_columns(outcome.columns);
        self.rows += 1;
        self.turn += 1;
        for (above, lines) in self.above.iter_mut().zip(&outcome.drawn.lines) {
            if let Ok(lines) = lines {
                above.clone_from(&lines.foot);
            }
        }
        Seen {
            drawn: Some(outcome.drawn),
            differs,
            ..self.seen(0)
        }
    }

    /// Puts other columns into the shaper.
    fn set_columns(&mut self, columns: Vec<Column<u32>>) {
        let shaper = &self.machine.shaper;
        let previous = shaper.previous_node_column();
        self.set_shaper(Shaper::by_hand(columns, *shaper.options(), previous));
    }

    /// Puts another shaper in its place; what the machine itself reads of the origins is not looked at.
    fn set_shaper(&mut self, shaper: Shaper) {
        self.machine.origins = Origins::by_hand(shaper.columns(), &[]);
        self.machine.shaper = shaper;
    }
}

impl<F: Wrong> Answers for Drawer<F> {
    fn begin(&mut self, opening: &Command) -> Begun {
        let number = self.run(opening);
        self.dashes = seen::dashes(opening, number);
        if let Command::New(_) = opening {
            self.truth.origins = Origins::by_columns();
            self.machine.origins = Origins::by_columns();
            if let Some(fault) = self.fault {
                let columns = self.machine.shaper.columns().clone();
                self.set_columns(fault.fresh(columns));
            }
        }
        Begun {
            number,
            columns: self.machine.shaper.columns().clone(),
        }
    }

    fn call(&mut self, call: &Command) -> Seen {
        let before = self.before(call);
        match (self.run(call), call) {
            (0, Command::Reserve(id)) => self.reserved(&before.shaper, *id),
            (0, _) => self.drawn(&before, call),
            (number, _) => self.seen(number),
        }
    }

    fn started(&self, id: u32) -> Started {
        let started = self.start(id);
        self.fault
            .map_or(started, |fault| fault.answer(id, started))
    }
}
