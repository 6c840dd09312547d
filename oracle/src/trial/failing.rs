//! The clauses of a statement that fail after a call.

use std::collections::BTreeMap;
use std::collections::BTreeSet;

/// A clause of a statement; they are printed in their order.
pub trait Clause: Copy + Ord {
    /// The clause's name.
    fn name(self) -> &'static str;

    /// The clause in words.
    fn words(self) -> &'static str;
}

/// The first call after which a clause does not hold, and the clauses that fail there.
pub struct Failure<C> {
    pub call: usize,
    pub failing: Failing<C>,
}

impl<C: Clause> Failure<C> {
    /// The failure after this call, if a clause fails there.
    pub fn after(call: usize, failing: Failing<C>) -> Option<Self> {
        (!failing.0.is_empty()).then_some(Self { call, failing })
    }
}

/// The clauses that fail after a call, each with what stands there first.
#[derive(Debug)]
pub struct Failing<C>(BTreeMap<C, String>);

impl<C: Clause> Failing<C> {
    /// Tries a clause, with words for what was found where it does not hold.
    pub fn claim(&mut self, clause: C, holds: bool, found: impl FnOnce() -> String) {
        if !holds {
            self.0.entry(clause).or_insert_with(found);
        }
    }

    /// The clauses that fail.
    pub fn clauses(&self) -> BTreeSet<C> {
        self.0.keys().copied().collect()
    }

    /// Prints each clause that fails: its name, its words, and what was found.
    pub fn print(&self) {
        for (clause, found) in &self.0 {
            println!("  {}: {}", clause.name(), clause.words());
            println!("    found: {found}");
        }
    }
}

impl<C> Default for Failing<C> {
    /// No clause fails.
    fn default() -> Self {
        Self(BTreeMap::new())
    }
}

/// The names of clauses, joined by blanks.
pub fn names<C: Clause>(clauses: &BTreeSet<C>) -> String {
    let names: Vec<_> = clauses.iter().map(|clause| clause.name()).collect();
    names.join(" ")
}
