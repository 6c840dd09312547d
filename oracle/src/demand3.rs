//! Document 01's demand 3 as a program over a machine's answers: "A drawn history keeps every line."

mod check;
mod clauses;
mod counts;
mod faults;

use crate::generator;
use crate::stream::Command;
use crate::trial::Answers;
use crate::trial::Failure;
use crate::trial::Statement;
use crate::trial::Task;

use clauses::Clause;
use counts::Counts;
use faults::Fault;

/// Demand 3.
struct Demand3;

impl Statement for Demand3 {
    type Clause = Clause;
    type Fault = Fault;
    type Counts = Counts;

    const NAME: &'static str = "demand 3";

    fn list(seed: u64, number: u32) -> Vec<Command> {
        generator::history(seed, number)
    }

    fn opens(first: &Command) -> bool {
        matches!(first, Command::New(_))
    }

    fn check(
        history: &[Command],
        answers: &mut dyn Answers,
        counts: &mut Counts,
    ) -> Option<Failure<Clause>> {
        check::check(history, answers, counts)
    }
}

/// Tries demand 3 on histories, prints what came out, and says whether it holds.
pub fn run(task: &Task<Fault>) -> Result<bool, String> {
    let findings = task.run::<Demand3>()?;
    if findings.hold() {
        findings.counts.print();
        println!("demand 3 holds on {} lists", task.lists);
    }
    Ok(findings.hold())
}
