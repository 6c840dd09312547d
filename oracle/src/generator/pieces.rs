//! Queued lines of pieces of which it matters how their cells are counted: box characters, shift sequences, and bytes that only begin like one.

use super::Generator;
use crate::measure::BOX_CHARACTERS;
use crate::measure::SHIFT_SEQUENCES;

/// How often each sort of piece comes in a line: box characters, shift sequences, begun ones, altered ones, other characters, plain bytes.
type Mixture = [u64; 6];

/// Pieces of every sort.
pub const EVERY_SORT: Mixture = [4, 2, 3, 3, 2, 4];

/// The mixtures of lines of pieces.
const MIXTURES: [Mixture; 6] = [
    EVERY_SORT,
    [1, 0, 0, 0, 0, 0],
    [0, 1, 0, 0, 0, 0],
    [4, 0, 0, 0, 0, 4],
    [0, 4, 0, 0, 0, 4],
    [0, 0, 4, 4, 2, 1],
];

/// Other characters of UTF-8: of two bytes and of three, most of which begin like a box character.
const OTHER_CHARACTERS: [&str; 16] = [
    "é", "═", "━", "┃", "╌", "╬", "╱", "╵", "°", "¶", "¸", "\u{85}", "\u{a0}", "\u{2003}",
    "\u{200b}", "→",
];

/// Plain bytes, those of the shift sequences among them.
const PLAIN: [&str; 13] = [
    " ", "  ", "    ", "|", "~", "a", "o", "x ", "qq", "(0", "(B", "0", "(",
];

impl Generator<'_> {
    /// So many bytes of pieces in one of the mixtures; the last piece is cut where it goes beyond.
    pub fn pieces(&mut self, length: usize) -> Vec<u8> {
        let mixture = self.random.pick(&MIXTURES);
        let mut line = Vec::new();
        while line.len() < length {
            line.extend(self.piece(&mixture));
        }
        line.truncate(length);
        line
    }

    /// A piece in this mixture.
    pub fn piece(&mut self, mixture: &Mixture) -> Vec<u8> {
        match self.random.weighted(mixture) {
            0 => self.random.pick(&BOX_CHARACTERS).into(),
            1 => self.random.pick(&SHIFT_SEQUENCES).into(),
            2 => self.begun(),
            3 => self.altered(),
            4 => self.random.pick(&OTHER_CHARACTERS).into(),
            _ => self.random.pick(&PLAIN).into(),
        }
    }

    /// A box character or a shift sequence, the one as often as the other.
    fn whole(&mut self) -> Vec<u8> {
        let of = self.random.pick(&[&BOX_CHARACTERS[..], &SHIFT_SEQUENCES]);
        self.random.pick(of).into()
    }

    /// The first bytes of a box character or of a shift sequence.
    pub fn begun(&mut self) -> Vec<u8> {
        let mut piece = self.whole();
        let bytes = self.random.from(1, piece.len() as u64 - 1);
        piece.truncate(bytes as usize);
        piece
    }

    /// A box character or a shift sequence with any byte in place of one behind its first.
    fn altered(&mut self) -> Vec<u8> {
        let mut piece = self.whole();
        let place = self.random.from(1, piece.len() as u64 - 1);
        piece[place as usize] = self.random.next() as u8;
        piece
    }
}
