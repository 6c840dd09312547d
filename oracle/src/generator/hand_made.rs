//! States and shapes set by hand, also such as no call leads to.

use super::pieces::EVERY_SORT;
use super::Generator;
use crate::calls;
use crate::refusals;
use crate::stream::Cell;
use crate::stream::HandShape;
use crate::stream::HandShaper;
use crate::stream::HandState;
use crate::stream::Slot;

/// What may stand at the end of a queued line: blanks, and characters that are not trimmed, though the crate would trim some.
const QUEUE_ENDS: [&str; 13] = [
    "",
    "",
    "",
    " ",
    "   ",
    "\t",
    "\n ",
    "\u{2003}",
    "\u{3000}  ",
    "\u{200b}",
    "\u{200b} ",
    "\x1b(B",
    "\x1b(B  ",
];

/// Parts of a queued line.
const QUEUE_PARTS: [&str; 12] = [
    "  ",
    "| ",
    "\u{2502} ",
    "\u{b7} ",
    "~ ",
    "a",
    "\x1b(0x \x1b(B",
    "\t~",
    "|\n",
    " \r\x0b\x0ca ",
    "\u{a0}\u{2003}| ",
    "   ",
];

impl Generator<'_> {
    /// A shaper set by hand, of any kind.
    pub fn hand_shaper(&mut self) -> HandShaper {
        if self.random.once_in(5) {
            return self.wide_shaper();
        }
        let count = match self.random.weighted(&[20, 4, 2, 1]) {
            0 => self.random.below(7),
            1 => self.random.from(7, 20),
            2 => self.random.from(21, 62),
            _ => self.random.pick(&[63, 64, 65, 66, 128, 1 << 32, u64::MAX]),
        };
        let slots = self.slots(count.min(70));
        self.shaper_of(count, slots)
    }

    /// A shaper with 58 to 64 columns or a count above, most of them holding an id.
    pub fn wide_shaper(&mut self) -> HandShaper {
        let count = self
            .random
            .pick(&[58, 60, 61, 62, 63, 63, 64, 64, 64, 65, 70, u64::MAX]);
        let given = count.min(70);
        let first = self.random.pick(&[0, 100, u32::MAX - 70]);
        let mut slots: Vec<_> = (0..given as u32)
            .map(|place| Slot {
                kind: self.random.pick(&[2, 3, 4, 4]),
                id: first + place,
                origin: self.origin(),
            })
            .collect();
        for _ in 0..self.random.pick(&[0, 0, 1, 2, 5]) {
            let place = self.random.below(given) as usize;
            slots[place] = self.slot();
        }
        self.shaper_of(count, slots)
    }

    /// The shaper with this count and these slots.
    fn shaper_of(&mut self, count: u64, slots: Vec<Slot>) -> HandShaper {
        HandShaper {
            count,
            has_previous: self.random.pick(&[0, 1, 1, 1, 2]),
            previous: self.previous(count),
            options: self.options(),
            slots,
        }
    }

    /// A previous node column: below the count, at it, above it.
    fn previous(&mut self, count: u64) -> u64 {
        let live = count.min(refusals::COLUMNS as u64);
        match self.random.weighted(&[5, 5, 2, 2]) {
            0 => self.random.below(live + 1),
            1 => live,
            2 => live + 1,
            _ => self
                .random
                .pick(&[0, 62, 63, 64, 65, u64::from(u32::MAX), u64::MAX]),
        }
    }

    /// About as many slots as asked: fewer, or more, now and then.
    fn slots(&mut self, count: u64) -> Vec<Slot> {
        let given = match self.random.weighted(&[10, 2, 1]) {
            0 => count,
            1 => self.random.below(count + 1),
            _ => count + 2,
        };
        (0..given).map(|_| self.slot()).collect()
    }

    /// One slot.
    fn slot(&mut self) -> Slot {
        Slot {
            kind: self.random.pick(&[0, 0, 1, 2, 2, 3, 3, 4, 4, 4, 5]),
            id: self.id(),
            origin: self.origin(),
        }
    }

    /// What a slot carries, of whatever kind it is: an id of the list, nothing, or any number.
    fn origin(&mut self) -> u32 {
        match self.random.weighted(&[6, 2, 2]) {
            0 => self.id(),
            1 => 0,
            _ => self.random.next() as u32,
        }
    }

    /// A text state set by hand.
    pub fn hand_state(&mut self) -> HandState {
        let bytes = self.queue();
        HandState {
            queued: self.random.pick(&[0, 1, 1, 1, 7]),
            length: self.queued_length(bytes.len() as u64),
            row_height: self.row_height(),
            bytes,
        }
    }

    /// A text state with a queued line of any bytes or of pieces, and of any length up to some bytes beyond its array; blanks end it now
    /// and then.
    pub fn any_queued(&mut self) -> HandState {
        let length = self.random.from(0, calls::QUEUE as u64 + 3);
        let mut bytes = if self.random.once_in(2) {
            self.pieces(length as usize)
        } else {
            let from: Vec<_> = (0..=self.random.pick(&[0x7e, 0xff])).collect();
            self.characters(length, &from)
        };
        let blanks = self.random.pick(&[0, 0, 0, 1, 5, 100]).min(bytes.len());
        let end = bytes.len();
        bytes[end - blanks..].fill(b' ');
        HandState {
            queued: 1,
            length,
            row_height: self.row_height(),
            bytes,
        }
    }

    /// A row height, also such as no call leads to.
    fn row_height(&mut self) -> u64 {
        self.random
            .pick(&[0, 1, 1, 1, 2, 3, 16, 1 << 32, u64::MAX - 1, u64::MAX])
    }

    /// The length of a queued line with so many bytes given: those, some more, fewer, or one at the array's end or beyond it.
    fn queued_length(&mut self, given: u64) -> u64 {
        let long = if given < 500 { 1 } else { 20 };
        match self.random.weighted(&[12, 3, 3, long]) {
            0 => given,
            1 => given + self.random.below(4),
            2 => self.random.below(given + 1),
            _ => self.random.pick(&[511, 512, 513, 1 << 32, u64::MAX]),
        }
    }

    /// The bytes of a queued line.
    fn queue(&mut self) -> Vec<u8> {
        if self.random.once_in(8) {
            return self.long_queue();
        }
        let mut line = Vec::new();
        for _ in 0..self.random.below(9) {
            line.extend(self.part());
        }
        line.extend(self.end());
        line
    }

    /// A part of a queued line.
    fn part(&mut self) -> Vec<u8> {
        if self.random.once_in(2) {
            return self.piece(&EVERY_SORT);
        }
        self.random.pick(&QUEUE_PARTS).into()
    }

    /// The end of a queued line, now and then within a box character or a shift sequence.
    fn end(&mut self) -> Vec<u8> {
        let mut end = Vec::new();
        if self.random.once_in(4) {
            end.extend(self.begun());
        }
        end.extend_from_slice(self.random.pick(&QUEUE_ENDS).as_bytes());
        end
    }

    /// A queued line about as long as its array, which ends in blanks or not.
    fn long_queue(&mut self) -> Vec<u8> {
        let character = self.random.pick(b"aaab ");
        let mut line = vec![character; self.random.pick(&[510, 511, 512, 512, 514])];
        let blanks = self.random.pick(&[0, 0, 1, 3, 200]);
        let end = line.len().min(calls::QUEUE);
        line[end - blanks..end].fill(b' ');
        line
    }

    /// A shape set by hand.
    pub fn hand_shape(&mut self) -> HandShape {
        let width = match self.random.weighted(&[20, 3, 2]) {
            0 => self.random.below(9),
            1 => self.random.pick(&[30, 62, 63, 64]),
            _ => self.random.pick(&[65, 66, 100, 1 << 32, u64::MAX]),
        };
        self.hand_shape_of(width)
    }

    /// A shape of this width set by hand.
    pub fn hand_shape_of(&mut self, width: u64) -> HandShape {
        let given = match self.random.weighted(&[10, 1, 1]) {
            0 => width.min(66),
            1 => self.random.below(width.min(64) + 1),
            _ => width.min(64) + 1,
        };
        let busy = self.random.from(1, 6);
        HandShape {
            node: self.id(),
            merge: self.random.flag(),
            separator: self.random.flag(),
            dash: self.random.flag(),
            placement: self.random.flag(),
            head: self.random.flag(),
            root: self.random.flag(),
            column: self.random.pick(&[0, 0, 1, 2, 63, 64, 65, u64::MAX]),
            width,
            has_link: self.random.pick(&[0, 1, 1, 2]),
            has_term: self.random.pick(&[0, 0, 1, 2]),
            cells: (0..given).map(|_| self.cell(busy)).collect(),
        }
    }

    /// One cell; its marks are the rarer, the less busy the shape is.
    fn cell(&mut self, busy: u64) -> Cell {
        Cell {
            node: self.random.pick(&[0, 0, 1, 1, 2, 2, 2, 3, 4]),
            link: self.link(busy),
            from: self.link(busy),
            term: self.random.pick(&[0, 0, 0, 1, 2]),
            ancestry: self.random.pick(&[0, 0, 1, 2, 2, 3]),
            parent: self.random.pick(&[0, 0, 1, 2]),
        }
    }

    /// The marks of a cell, and free bits now and then.
    fn link(&mut self, busy: u64) -> u16 {
        let bits = if self.random.once_in(8) { 16 } else { 13 };
        (0..bits)
            .filter(|_| self.random.below(10) < busy)
            .fold(0, |marks, place| marks | 1 << place)
    }
}
