//! A statement about lists of calls, tried on a machine's answers to them.

mod drawer;
mod failing;
mod lines;
mod ours;
mod printed;
mod seen;
mod wrong;

use std::collections::BTreeSet;
use std::time::Duration;

use crate::replay::Replay;
use crate::shrink;
use crate::stream::show;
use crate::stream::Command;

pub use failing::Clause;
pub use failing::Failing;
pub use failing::Failure;
pub use lines::cell;
pub use lines::equal;
pub use lines::head_below;
pub use lines::shown;
pub use lines::Lines;
pub use lines::Stroke;
pub use lines::RENDERERS;
pub use seen::asked;
pub use seen::column_at;
pub use seen::places;
pub use seen::Answers;
pub use seen::Drawn;
pub use seen::Links;
pub use seen::Seen;
pub use wrong::trimmed;
pub use wrong::Outcome;
pub use wrong::TrueRow;
pub use wrong::Wrong;

use drawer::Drawer;

/// How many lists one run of our program answers.
const BATCH: u32 = 50;
/// How long one short list may take while a failure is made smaller.
const SHORT_RUN: Duration = Duration::from_secs(5);

/// A statement about the calls of a list, and the lists on which it is tried.
pub trait Statement {
    /// Its clauses.
    type Clause: Clause;
    /// What the wrong machines do of which it has to fail.
    type Fault: Wrong;
    /// What is counted on the way.
    type Counts: Default;

    /// What is said to fail where it does not hold.
    const NAME: &'static str;

    /// The list with this number: a shaper, then reserving, row and text calls.
    fn list(seed: u64, number: u32) -> Vec<Command>;

    /// Whether such a list may begin with this command.
    fn opens(first: &Command) -> bool;

    /// Tries the statement on such a list, which is left where a clause fails.
    fn check(
        list: &[Command],
        answers: &mut dyn Answers,
        counts: &mut Self::Counts,
    ) -> Option<Failure<Self::Clause>>;
}

/// Whose answers a statement is tried on.
pub enum Whose<F> {
    /// The Rust's, or those of a wrong machine in its place.
    Rust(Option<F>),
    /// Those of our program.
    Ours(Replay),
}

/// What a statement is tried on.
pub struct Task<F> {
    pub lists: u32,
    pub seed: u64,
    pub whose: Whose<F>,
}

/// What came out.
pub struct Findings<S: Statement> {
    pub counts: S::Counts,
    /// On how many lists the statement failed, and at which clauses.
    failed: u32,
    clauses: BTreeSet<S::Clause>,
}

impl<S: Statement> Findings<S> {
    /// Nothing yet.
    fn new() -> Self {
        Self {
            counts: S::Counts::default(),
            failed: 0,
            clauses: BTreeSet::new(),
        }
    }

    /// Whether the statement holds on every list.
    pub fn hold(&self) -> bool {
        self.failed == 0
    }
}

impl<F: Wrong> Task<F> {
    /// Tries a statement on so many lists and gives what came out; the first failure is printed. Of a wrong machine all lists are tried,
    /// and where it fails the last line says so.
    pub fn run<S: Statement<Fault = F>>(&self) -> Result<Findings<S>, String> {
        let mut findings = Findings::new();
        let mut first = 0;
        while first < self.lists && (findings.hold() || self.fault().is_some()) {
            let end = self.lists.min(first.saturating_add(BATCH));
            self.batch(first, end, &mut findings)?;
            first = end;
        }
        self.print_end(&findings);
        Ok(findings)
    }

    /// The wrong machine's fault.
    pub fn fault(&self) -> Option<F> {
        match &self.whose {
            Whose::Rust(fault) => *fault,
            Whose::Ours(_) => None,
        }
    }

    /// Tries a statement on the lists with these numbers; the first failure is printed.
    fn batch<S: Statement<Fault = F>>(
        &self,
        first: u32,
        end: u32,
        findings: &mut Findings<S>,
    ) -> Result<(), String> {
        let lists: Vec<_> = (first..end)
            .map(|number| S::list(self.seed, number))
            .collect();
        let answers = self.whose.answers(first, &lists)?;
        for ((list, mut answers), number) in lists.iter().zip(answers).zip(first..) {
            let Some(failure) = S::check(list, answers.as_mut(), &mut findings.counts) else {
                continue;
            };
            if findings.hold() {
                self.report::<S>(number, list, &failure);
            }
            findings.failed += 1;
            findings.clauses.extend(failure.failing.clauses());
            if self.fault().is_none() {
                break;
            }
        }
        Ok(())
    }

    /// Makes a failing list smaller, with the same clauses that fail, and prints it.
    fn report<S: Statement<Fault = F>>(
        &self,
        number: u32,
        list: &[Command],
        failure: &Failure<S::Clause>,
    ) {
        let name = S::NAME;
        println!("{name} fails on list {number}, after {number} lists on which it holds");
        let clauses = failure.failing.clauses();
        println!("clauses that fail: {}", failing::names(&clauses));
        let small = shrink::shrink(list.to_vec(), |commands| {
            self.failure::<S>(number, commands)
                .is_some_and(|failure| failure.failing.clauses() == clauses)
        });
        println!("history, {} of {} commands:", small.len(), list.len());
        for (place, command) in small.iter().enumerate() {
            println!("  {place}: {}", show(command));
        }
        match self.failure::<S>(number, &small) {
            Some(failure) => {
                println!("after command {}:", failure.call);
                failure.failing.print();
            }
            None => {
                println!("the failure does not come again: one history is answered in two ways")
            }
        }
    }

    /// The failure on these commands, if they are a list of the statement and there is one.
    fn failure<S: Statement<Fault = F>>(
        &self,
        number: u32,
        commands: &[Command],
    ) -> Option<Failure<S::Clause>> {
        let (first, calls) = commands.split_first()?;
        let is_call = |call: &Command| {
            matches!(
                call,
                Command::Reserve(_) | Command::Row(_) | Command::Text(_)
            )
        };
        if !S::opens(first) || !calls.iter().all(is_call) {
            return None;
        }
        let whose = self.whose.for_short_runs();
        let answers = whose.answers(number, &[commands.to_vec()]).ok()?.pop();
        S::check(commands, answers?.as_mut(), &mut S::Counts::default())
    }

    /// Prints the last line of a wrong machine of which the statement fails.
    fn print_end<S: Statement<Fault = F>>(&self, findings: &Findings<S>) {
        if let (Some(fault), false) = (self.fault(), findings.hold()) {
            println!(
                "mutant {} fails at {} on {} of {} lists",
                fault.name(),
                failing::names(&findings.clauses),
                findings.failed,
                self.lists
            );
        }
    }
}

impl<F: Wrong> Whose<F> {
    /// The answers to lists; the first has this number.
    fn answers(&self, first: u32, lists: &[Vec<Command>]) -> Result<Vec<Box<dyn Answers>>, String> {
        let mut boxed: Vec<Box<dyn Answers>> = Vec::new();
        match self {
            Whose::Rust(fault) => {
                for (_, number) in lists.iter().zip(first..) {
                    boxed.push(Box::new(Drawer::new(*fault, u64::from(number))));
                }
            }
            Whose::Ours(replay) => {
                for answered in ours::answers(replay, first, lists)? {
                    boxed.push(Box::new(answered));
                }
            }
        }
        Ok(boxed)
    }

    /// The same with a short time limit.
    fn for_short_runs(&self) -> Whose<F> {
        match self {
            Whose::Rust(fault) => Whose::Rust(*fault),
            Whose::Ours(replay) => Whose::Ours(replay.within(SHORT_RUN)),
        }
    }
}
