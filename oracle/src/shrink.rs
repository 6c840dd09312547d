//! Makes a list smaller as long as both sides still differ on it.

use std::time::Duration;
use std::time::Instant;

use crate::stream::Command;
use crate::stream::Fields;
use crate::stream::Walk;

/// How long shrinking may take.
const TIME: Duration = Duration::from_secs(120);

/// A smaller list on which `differs` still holds.
pub fn shrink(commands: Vec<Command>, differs: impl Fn(&[Command]) -> bool) -> Vec<Command> {
    let mut shrinking = Shrinking {
        commands,
        differs,
        deadline: Instant::now() + TIME,
    };
    while shrinking.drop_commands() | shrinking.alter_commands() {}
    shrinking.commands
}

/// A list on its way to a smaller one.
struct Shrinking<F> {
    commands: Vec<Command>,
    differs: F,
    deadline: Instant,
}

impl<F: Fn(&[Command]) -> bool> Shrinking<F> {
    /// Takes a smaller list if both sides still differ on it.
    fn take(&mut self, smaller: Vec<Command>) -> bool {
        let taken = Instant::now() < self.deadline && (self.differs)(&smaller);
        if taken {
            self.commands = smaller;
        }
        taken
    }

    /// Drops commands, many at first, then one by one.
    fn drop_commands(&mut self) -> bool {
        let mut some = false;
        let mut size = self.commands.len();
        while size > 0 {
            some |= self.drop_runs(size);
            size /= 2;
        }
        some
    }

    /// Drops runs of `size` commands, from the end on.
    fn drop_runs(&mut self, size: usize) -> bool {
        let mut some = false;
        let mut end = self.commands.len();
        while end > 0 {
            let start = end.saturating_sub(size);
            let smaller = [&self.commands[..start], &self.commands[end..]].concat();
            some |= self.take(smaller);
            end = start;
        }
        some
    }

    /// Alters each command in every way that makes it smaller.
    fn alter_commands(&mut self) -> bool {
        let mut some = false;
        for place in 0..self.commands.len() {
            let mut attempt = 0;
            while let Some(command) = altered(&self.commands[place], attempt) {
                let mut smaller = self.commands.clone();
                smaller[place] = command;
                if self.take(smaller) {
                    some = true;
                } else {
                    attempt += 1;
                }
                if Instant::now() >= self.deadline {
                    return false;
                }
            }
        }
        some
    }
}

/// The command after the attempt with this number, or none where there are no more.
fn altered(command: &Command, attempt: usize) -> Option<Command> {
    let mut altered = command.clone();
    let mut walk = Alter {
        left: Some(attempt),
    };
    altered.walk(&mut walk);
    walk.left.is_none().then_some(altered)
}

/// Counts down the ways to make a command smaller, and takes one of them.
struct Alter {
    left: Option<usize>,
}

impl Alter {
    /// Whether this way is the one to take.
    fn turn(&mut self) -> bool {
        match self.left {
            Some(0) => {
                self.left = None;
                true
            }
            Some(left) => {
                self.left = Some(left - 1);
                false
            }
            None => false,
        }
    }

    /// Halves a list, or drops one of its items.
    fn drop_items<T>(&mut self, items: &mut Vec<T>) {
        if items.len() > 2 && self.turn() {
            items.truncate(items.len() / 2);
        } else if items.len() > 2 && self.turn() {
            items.drain(..items.len() / 2);
        }
        for place in (0..items.len()).rev() {
            if self.turn() {
                items.remove(place);
                return;
            }
        }
    }
}

impl Walk for Alter {
    fn number(&mut self, _name: &'static str, _size: usize, value: u64) -> u64 {
        let mut before = None;
        for smaller in [0, value / 2, value.saturating_sub(1)] {
            if smaller < value && before != Some(smaller) && self.turn() {
                return smaller;
            }
            before = Some(smaller);
        }
        value
    }

    fn list<T: Fields>(&mut self, _name: &'static str, _size: usize, items: &mut Vec<T>) {
        self.drop_items(items);
        for item in items {
            item.walk(self);
        }
    }

    fn bytes(&mut self, _name: &'static str, bytes: &mut Vec<u8>) {
        self.drop_items(bytes);
    }

    /// Each byte of the rest has its place, so that a smaller one is tried, too.
    fn rest(&mut self, name: &'static str, bytes: &mut Vec<u8>) {
        self.drop_items(bytes);
        for byte in bytes {
            self.u8(name, byte);
        }
    }

    fn commands(&mut self, commands: &mut Vec<Command>) {
        self.drop_items(commands);
        for command in commands {
            command.walk(self);
        }
    }
}
