//! Our program's answers to lists. `replay` prints no shape for a text call, so that it runs twice: with the calls as they are, which gives
//! each verdict and the shaper after it, and queries behind each call; and with each accepted text call replaced by the row call as which it counts, each accepted row drawn
//! by all renderers. No answer is the Rust's; the lists are made with its help.

use std::collections::BTreeMap;
use std::collections::VecDeque;
use std::iter;

use crate::column::Column;
use crate::machine::OUTPUT;
use crate::origins::Started;
use crate::refusals;
use crate::replay::Ended;
use crate::replay::Replay;
use crate::stream::encode;
use crate::stream::Command;
use crate::stream::Drawing;
use crate::waiting;

use super::lines::RENDERERS;
use super::printed::Printed;
use super::printed::RowAnswer;
use super::seen;
use super::seen::Answers;
use super::seen::Begun;
use super::seen::Drawn;
use super::seen::Seen;
use super::seen::View;
use super::seen::Written;

/// The most bytes that one command prints beside its output.
const PRINTED: usize = 1 << 16;

/// The answers to one list.
pub struct Answered {
    number: u8,
    fresh: Vec<Column<u32>>,
    seen: VecDeque<(Seen, Starts)>,
    /// What the queries behind the last call gave.
    starts: Starts,
}

/// What queries gave, by id.
type Starts = BTreeMap<u32, Started>;

impl Answers for Answered {
    fn begin(&mut self, _opening: &Command) -> Begun {
        Begun {
            number: self.number,
            columns: self.fresh.clone(),
        }
    }

    fn call(&mut self, _call: &Command) -> Seen {
        let (seen, starts) = self.seen.pop_front().expect("an answer for each call");
        self.starts = starts;
        seen
    }

    fn started(&self, id: u32) -> Started {
        self.starts[&id]
    }
}

/// A list that the first run has answered.
struct Answering<'a> {
    /// Its number, from which on the marks take turns.
    list: u32,
    opening: &'a Command,
    calls: &'a [Command],
    /// What the command gave that it begins with.
    number: u8,
    fresh: View,
    /// What each call gave: its refusal number and the shaper after it, of a row call all.
    given: Vec<Given>,
    /// What the queries behind each call gave.
    starts: Vec<Starts>,
}

/// What a call gave.
#[derive(Clone, Debug, PartialEq, Eq)]
struct Given {
    number: u8,
    shaper: View,
    /// Of a row call.
    row: Option<RowAnswer>,
}

/// Our program's answers to lists; the first has this number.
pub fn answers(
    replay: &Replay,
    first: u32,
    lists: &[Vec<Command>],
) -> Result<Vec<Answered>, String> {
    let numbered = || (first..).zip(lists);
    let stream: Vec<_> = numbered()
        .flat_map(|(number, list)| {
            let begin = iter::once(Command::List(number));
            begin.chain(with_queries(list))
        })
        .collect();
    let answering: Vec<_> = run(replay, &stream, |printed| {
        numbered()
            .map(|(number, list)| Answering::read(number, list, printed))
            .collect()
    })?;
    let stream: Vec<_> = answering.iter().flat_map(Answering::commands).collect();
    run(replay, &stream, |printed| {
        answering.iter().map(|list| list.draw(printed)).collect()
    })
}

/// A list with queries behind each of its calls but the first command.
fn with_queries(list: &[Command]) -> Vec<Command> {
    let queries: Vec<_> = seen::asked(list).into_iter().map(Command::Origin).collect();
    let (opening, calls) = list.split_at(1);
    let calls = calls.iter().flat_map(|call| {
        let call = iter::once(call.clone());
        call.chain(queries.iter().cloned())
    });
    opening.iter().cloned().chain(calls).collect()
}

/// Runs the program on these commands and reads all that it prints.
fn run<T>(
    replay: &Replay,
    commands: &[Command],
    read: impl FnOnce(&mut Printed) -> Result<T, String>,
) -> Result<T, String> {
    let most = commands.iter().map(|it| PRINTED + output(it)).sum();
    let run = replay.run(&encode(commands), most);
    if let Ended::Badly(words) = run.ended {
        return Err(format!("{}: {words}", replay.program.display()));
    }
    let mut printed = Printed::new(&run.printed);
    let answers = read(&mut printed).and_then(|answers| {
        printed.end()?;
        Ok(answers)
    });
    answers.map_err(|words| format!("the program's answers cannot be read: {words}"))
}

/// The output length of a command that has one.
fn output(command: &Command) -> usize {
    let length = match command {
        Command::Text(text) => text.drawing.length,
        Command::Renderer(drawing) => drawing.length,
        _ => 0,
    };
    length.min(OUTPUT) as usize
}

impl<'a> Answering<'a> {
    /// Reads the first run's answers to the list with this number.
    fn read(number: u32, list: &'a [Command], printed: &mut Printed) -> Result<Self, String> {
        let (opening, calls) = list.split_first().expect("a shaper");
        printed.list(number)?;
        let (refusal, fresh) = opened(opening, printed)?;
        let asked = seen::asked(list);
        let (mut all_given, mut all_starts) = (Vec::new(), Vec::new());
        for call in calls {
            all_given.push(given(call, printed)?);
            all_starts.push(starts(&asked, printed)?);
        }
        Ok(Self {
            list: number,
            opening,
            calls,
            number: refusal,
            fresh,
            given: all_given,
            starts: all_starts,
        })
    }

    /// Each call with the shaper before it and what the first run gave for it.
    fn steps(&self) -> impl Iterator<Item = Step<'_>> {
        let shapers = self.given.iter().map(|given| &given.shaper);
        let before = std::iter::once(&self.fresh).chain(shapers);
        let calls = self.calls.iter().zip(&self.given).zip(before);
        let mut turn = u64::from(self.list);
        calls.map(move |((call, given), before)| {
            let step = Step {
                call,
                given,
                before,
                mark: seen::mark(turn),
            };
            turn += u64::from(step.is_drawn());
            step
        })
    }

    /// The list for the second run.
    fn commands(&self) -> Vec<Command> {
        let mut commands = vec![Command::List(self.list), self.opening.clone()];
        commands.extend(self.steps().flat_map(|step| step.commands()));
        commands
    }

    /// Reads the second run's answers to the list.
    fn draw(&self, printed: &mut Printed) -> Result<Answered, String> {
        printed.list(self.list)?;
        if opened(self.opening, printed)? != (self.number, self.fresh.clone()) {
            return Err("the program begins a list in two ways".to_owned());
        }
        let mut seen = VecDeque::new();
        for (step, starts) in self.steps().zip(&self.starts) {
            seen.push_back((self.seen(&step, printed)?, starts.clone()));
        }
        Ok(Answered {
            number: self.number,
            fresh: self.fresh.columns.clone(),
            seen,
            starts: Starts::new(),
        })
    }

    /// What is seen of a call in both runs.
    fn seen(&self, step: &Step, printed: &mut Printed) -> Result<Seen, String> {
        let second = step.second(printed)?;
        let drawn = match &second.row {
            Some(row) if step.is_drawn() => Some(Drawn {
                node: row.node,
                lines: self.lines(step, printed)?,
                links: row.links.clone(),
            }),
            _ => None,
        };
        Ok(Seen {
            number: step.given.number,
            columns: step.given.shaper.columns.clone(),
            origins: step.given.shaper.origins.clone(),
            drawn,
            differs: step.difference(&second),
        })
    }

    /// The lines that each renderer call writes.
    fn lines(&self, step: &Step, printed: &mut Printed) -> Result<[Written; RENDERERS], String> {
        let dashes = seen::dashes(self.opening, self.number);
        let mut lines = Vec::new();
        for renderer in 0..RENDERERS {
            let (number, bytes) = printed.renderer(step.room())?;
            let text = String::from_utf8(bytes.to_vec()).map_err(|error| error.to_string());
            let given = match number {
                0 => text,
                number => Err(format!("refusal {number}")),
            };
            lines.push(seen::written(given, renderer, dashes));
        }
        Ok(lines.try_into().expect("as many as there are renderers"))
    }
}

/// A call, what the first run gave for it, the shaper before it, and the mark with which its row is drawn.
struct Step<'a> {
    call: &'a Command,
    given: &'a Given,
    before: &'a View,
    mark: u8,
}

impl Step<'_> {
    /// Whether the call is an accepted row or text call.
    fn is_drawn(&self) -> bool {
        self.given.number == 0 && waiting::row_of(self.call).is_some()
    }

    /// The commands of the second run: the call, an accepted text call as its row call and a refused one left out, then a drawn row's renderer calls.
    fn commands(&self) -> Vec<Command> {
        let mut commands = match self.call {
            Command::Text(_) if self.given.number != 0 => Vec::new(),
            Command::Text(text) => vec![Command::Row(text.row.clone())],
            call => vec![call.clone()],
        };
        if self.is_drawn() {
            commands.extend((0..RENDERERS).map(|renderer| {
                Command::Renderer(Drawing {
                    renderer: renderer as u8,
                    mark: self.mark,
                    length: self.room() as u32,
                })
            }));
        }
        commands
    }

    /// An output length that is enough for the row's lines: nine of them at most, each with eight bytes at most for a cell.
    fn room(&self) -> usize {
        let entries = waiting::row_of(self.call).map_or(0, |row| row.entries.len());
        let width = self.before.columns.len() + entries + 2;
        9 * (8 * width.min(refusals::COLUMNS) + 2)
    }

    /// What the second run gave for the call; a refused text call, which it leaves out, leaves the shaper as it was.
    fn second(&self, printed: &mut Printed) -> Result<Given, String> {
        match self.call {
            Command::Text(_) if self.given.number != 0 => Ok(Given {
                number: self.given.number,
                shaper: self.before.clone(),
                row: None,
            }),
            Command::Text(text) => given(&Command::Row(text.row.clone()), printed),
            call => given(call, printed),
        }
    }

    /// Words for how the second run differs from the first, if it does.
    fn difference(&self, second: &Given) -> Option<String> {
        let first = self.given;
        let differs = match self.call {
            Command::Text(_) => (first.number, &first.shaper) != (second.number, &second.shaper),
            _ => first != second,
        };
        differs.then(|| format!("{first:?} with text calls, {second:?} with their row calls"))
    }
}

/// Reads what the command gave that a list begins with: its refusal number and the shaper.
fn opened(opening: &Command, printed: &mut Printed) -> Result<(u8, View), String> {
    match opening {
        Command::New(_) => printed.new_shaper(),
        Command::Shaper(_) => Ok((0, printed.shaper()?)),
        _ => unreachable!("a new shaper, or one set by hand"),
    }
}

/// Reads what the queries for these ids gave.
fn starts(asked: &[u32], printed: &mut Printed) -> Result<Starts, String> {
    asked
        .iter()
        .map(|id| Ok((*id, printed.origin()?)))
        .collect()
}

/// Reads what a call gave.
fn given(call: &Command, printed: &mut Printed) -> Result<Given, String> {
    let (number, shaper, row) = match call {
        Command::Reserve(_) => {
            let (number, shaper) = printed.reserve()?;
            (number, shaper, None)
        }
        Command::Row(_) => {
            let row = printed.row()?;
            (row.number, row.shaper.clone(), Some(row))
        }
        Command::Text(_) => {
            let (number, shaper) = printed.text(output(call))?;
            (number, shaper, None)
        }
        _ => unreachable!("a reserving, row or text call"),
    };
    Ok(Given {
        number,
        shaper,
        row,
    })
}
