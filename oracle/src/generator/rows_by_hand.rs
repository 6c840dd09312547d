//! Rows on shapers set by hand.

use super::values;
use super::Generator;
use crate::random::Random;
use crate::stream::Command;
use crate::stream::Letters;
use crate::stream::ALL_LETTERS;

/// The list with this number: a shaper set by hand, then one to four rows, refused ones among them.
pub fn rows_by_hand(seed: u64, number: u32) -> Vec<Command> {
    let mut random = Random::new(seed, u64::from(number));
    let ids = values::few_ids(&mut random);
    let letters = Letters::all();
    let mut generator = Generator::new(random, &letters, ids, [0; ALL_LETTERS.len()]);
    let shaper = generator.hand_shaper();
    generator.push(Command::Shaper(shaper));
    for _ in 0..generator.random.from(1, 4) {
        let row = generator.row();
        generator.push(Command::Row(row));
    }
    generator.commands
}
