//! What was seen on the way through the histories.

use std::collections::BTreeMap;

use crate::origins::Started;
use crate::stream::Command;

/// The columns from which on a list counts as nearly full.
pub const NEARLY_FULL: usize = 60;

/// How often each thing was seen.
#[derive(Default)]
pub struct Counts {
    pub lists: u64,
    pub nearly_full: u64,
    pub calls: u64,
    /// Accepted rows, those of text calls among them.
    pub rows: u64,
    pub texts: u64,
    pub refusals: BTreeMap<u8, u64>,
    pub text_refusals: BTreeMap<u8, u64>,
    pub swaps: u64,
    pub staggered: u64,
    pub dashed_to_solid: u64,
    pub reservations_between: u64,
    /// Queries that gave a node, of these another than the last accepted row's, none, and not waiting.
    pub nodes: u64,
    pub earlier_nodes: u64,
    pub unnamed: u64,
    pub not_waiting: u64,
}

impl Counts {
    /// Counts a refused call.
    pub fn refused(&mut self, call: &Command, number: u8) {
        let refusals = match call {
            Command::Text(_) => &mut self.text_refusals,
            _ => &mut self.refusals,
        };
        *refusals.entry(number).or_default() += 1;
    }

    /// Counts a query, with the node of the last accepted row.
    pub fn query(&mut self, given: Started, last: Option<u32>) {
        match given {
            Started::By(node) => {
                self.nodes += 1;
                self.earlier_nodes += u64::from(Some(node) != last);
            }
            Started::Unnamed => self.unnamed += 1,
            Started::NotWaiting => self.not_waiting += 1,
        }
    }

    /// Prints each count.
    pub fn print(&self) {
        println!("lists {}", self.lists);
        println!(
            "lists with {NEARLY_FULL} columns or more {}",
            self.nearly_full
        );
        println!("reserving, row and text calls {}", self.calls);
        println!("accepted rows, those of text calls too {}", self.rows);
        println!("accepted text calls {}", self.texts);
        for (number, count) in &self.refusals {
            println!("new shaper, reserving and row calls refused with {number} {count}");
        }
        for (number, count) in &self.text_refusals {
            println!("text calls refused with {number} {count}");
        }
        println!("rows with a swap {}", self.swaps);
        println!("nodes placed by staggering {}", self.staggered);
        println!("dashed strokes that became solid {}", self.dashed_to_solid);
        println!("reservations between rows {}", self.reservations_between);
        println!("queries that give a node {}", self.nodes);
        println!(
            "of these, another than the last row's {}",
            self.earlier_nodes
        );
        println!("queries that give none {}", self.unnamed);
        println!("queries that give not waiting {}", self.not_waiting);
    }
}
