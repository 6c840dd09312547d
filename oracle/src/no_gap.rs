//! R-9 of document 02 as a program over a machine's answers: "No gap on the way to a parent."

mod by_hand;
mod check;
mod clauses;
mod counts;
mod faults;
mod marks;
mod row;

use crate::generator;
use crate::stream::Command;
use crate::trial::Answers;
use crate::trial::Failure;
use crate::trial::Statement;
use crate::trial::Task;

use clauses::Clause;
use counts::Counts;
use faults::Fault;

/// R-9 of histories.
struct NoGap;

impl Statement for NoGap {
    type Clause = Clause;
    type Fault = Fault;
    type Counts = Counts;

    const NAME: &'static str = "R-9";

    fn list(seed: u64, number: u32) -> Vec<Command> {
        generator::history(seed, number)
    }

    fn opens(first: &Command) -> bool {
        matches!(first, Command::New(_))
    }

    fn check(
        history: &[Command],
        answers: &mut dyn Answers,
        counts: &mut Counts,
    ) -> Option<Failure<Clause>> {
        check::check(history, answers, counts)
    }
}

/// R-9 of single rows on shapers made by hand; what is counted is the accepted rows.
struct ByHand;

impl Statement for ByHand {
    type Clause = Clause;
    type Fault = Fault;
    type Counts = u64;

    const NAME: &'static str = "R-9 of rows on a shaper made by hand";

    fn list(seed: u64, number: u32) -> Vec<Command> {
        generator::rows_by_hand(seed, number)
    }

    fn opens(first: &Command) -> bool {
        matches!(first, Command::Shaper(_))
    }

    fn check(
        list: &[Command],
        answers: &mut dyn Answers,
        rows: &mut u64,
    ) -> Option<Failure<Clause>> {
        by_hand::check(list, answers, rows)
    }
}

/// Tries R-9 on histories and, unless the machine is a wrong one, on as many lists of rows on shapers made by hand; prints what came out,
/// and says whether it holds.
pub fn run(task: &Task<Fault>) -> Result<bool, String> {
    let findings = task.run::<NoGap>()?;
    if !findings.hold() {
        return Ok(false);
    }
    findings.counts.print();
    if task.fault().is_none() {
        let findings = task.run::<ByHand>()?;
        if !findings.hold() {
            return Ok(false);
        }
        let rows = findings.counts;
        println!("no gap in {rows} rows on shapers made by hand");
    }
    println!("no gap on {} lists", task.lists);
    Ok(true)
}
