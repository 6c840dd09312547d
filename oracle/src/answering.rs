//! Whole streams: each command answered in turn.

use std::io;
use std::io::Write;

use crate::answers;
use crate::machine::Counts;
use crate::machine::Machine;
use crate::stream::encode;
use crate::stream::Command;
use crate::stream::Commands;
use crate::stream::Letters;
use crate::watch::Watch;

/// How many bytes are kept before they are written.
const KEPT: usize = 1 << 20;

/// Answers a stream.
pub fn answer_to(stream: &[u8], built: &Letters, out: &mut impl Write) -> io::Result<()> {
    let mut machine = Machine::new(built);
    let mut text = Vec::new();
    for command in Commands::new(stream) {
        answers::answer(&mut machine, &command, &mut text);
        if text.len() > KEPT {
            out.write_all(&text)?;
            text.clear();
        }
    }
    out.write_all(&text)
}

/// The answers to a stream, and the counts of its calls and of the kinds of input in it.
pub fn answers_of(stream: &[u8], built: &Letters) -> (Vec<u8>, Counts) {
    let mut machine = Machine::new(built);
    let mut watch = Watch::default();
    let mut text = Vec::new();
    for command in Commands::new(stream) {
        watch.before(&machine, &command);
        let answer = answers::answer(&mut machine, &command, &mut text);
        watch.after(&machine, &command, &answer);
    }
    machine.counts.kinds = watch.kinds;
    (text, machine.counts)
}

/// The stream of these commands, its answers, and the counts of its calls.
pub fn answered(commands: &[Command], built: &Letters) -> (Vec<u8>, Vec<u8>, Counts) {
    let stream = encode(commands);
    let (text, counts) = answers_of(&stream, built);
    (stream, text, counts)
}
