//! Single values: ids, entries, options, marks, messages, lengths.

use super::Generator;
use crate::codes;
use crate::random::Random;
use crate::stream::Entry;
use crate::stream::Options;

/// Ids that a list draws its few from.
const IDS: [u32; 12] = [0, u32::MAX, 1, 2, 3, 5, 7, 9, 10, 256, 65_536, u32::MAX - 1];

/// Bytes that no message may hold.
const BAD_BYTES: [u8; 9] = [0x09, 0x1f, 0x7f, 0x0d, 0x80, 0x00, 0x0b, 0xc2, 0xff];

/// The few ids of one list.
pub fn few_ids(random: &mut Random) -> Vec<u32> {
    let count = random.from(2, 7);
    if random.once_in(6) {
        return near_ids(random, count);
    }
    (0..count).map(|_| random.pick(&IDS)).collect()
}

/// So many ids, of which each differs from the first in one bit or in one byte.
fn near_ids(random: &mut Random, count: u64) -> Vec<u32> {
    let first = random.next() as u32;
    let mut ids = vec![first];
    for _ in 1..count {
        let bit = 1 << random.below(32);
        let byte = (random.from(1, 255) as u32) << (8 * random.below(4));
        ids.push(first ^ random.pick(&[bit, byte]));
    }
    ids
}

impl Generator<'_> {
    /// An id of the list's few, one that is held, or a new one.
    pub fn id(&mut self) -> u32 {
        match self.random.weighted(&[10, 6, 1]) {
            0 => self.random.pick(&self.ids),
            1 => self.held(),
            _ => self.random.from(1000, 1200) as u32,
        }
    }

    /// An id that a column holds, if there is one.
    fn held(&mut self) -> u32 {
        let held: Vec<_> = self
            .machine
            .shaper
            .columns()
            .iter()
            .filter_map(codes::held)
            .collect();
        if held.is_empty() {
            self.random.pick(&self.ids)
        } else {
            self.random.pick(&held)
        }
    }

    /// A node: often one that is held.
    pub fn node(&mut self) -> u32 {
        if self.random.once_in(3) {
            self.held()
        } else {
            self.id()
        }
    }

    /// The entries of a row: repeats, the node itself and Anonymous ones among them.
    pub fn entries(&mut self, node: u32) -> Vec<Entry> {
        let count = match self.random.weighted(&[480, 680, 400, 280, 140, 16, 4]) {
            0 => 0,
            1 => 1,
            2 => 2,
            3 => self.random.from(3, 6),
            4 => self.random.pick(&[7, 7, 8, 8, 8, 9]),
            5 => self.random.from(10, 40),
            _ => self.random.pick(&[999, 1000, 1000, 1000, 1001, 1500]),
        };
        let mut entries: Vec<Entry> = Vec::new();
        let fresh = self
            .random
            .pick(&[None, None, None, Some(2000), Some(2050), Some(2100)]);
        for place in 0..count {
            let entry = self.entry(node, fresh.map(|first| first + place as u32), &entries);
            entries.push(entry);
        }
        entries
    }

    /// One entry after those before it; where it is given an id of its own, it mostly takes that.
    fn entry(&mut self, node: u32, own: Option<u32>, before: &[Entry]) -> Entry {
        let kind = self.random.pick(&[0, 1, 1, 1, 2, 2, 2, 2, 2, 2, 2, 3]);
        if !before.is_empty() && self.random.once_in(7) {
            let id = self.random.pick(before).id;
            return Entry { kind, id };
        }
        let id = if self.random.once_in(12) {
            node
        } else {
            own.unwrap_or_else(|| self.id())
        };
        Entry { kind, id }
    }

    /// The options of a shaper: mostly heights that pass.
    pub fn options(&mut self) -> Options {
        let height = match self.random.weighted(&[24, 8, 6, 2]) {
            0 => self.random.pick(&[0, 1, 1, 1, 2]),
            1 => self.random.from(2, 5),
            2 => self.random.from(6, 17),
            _ => self.random.pick(&[16, 17, 18, 256, 1 << 32, u64::MAX]),
        };
        Options {
            height,
            stagger: self.random.flag(),
            dash: self.random.flag(),
            placement: self.random.flag(),
        }
    }

    /// A mark: mostly one that passes.
    pub fn mark(&mut self) -> u8 {
        match self.random.weighted(&[30, 10, 8, 2]) {
            0 => self.random.pick(b"o@*x"),
            1 => self.any_mark(),
            2 => self.random.pick(&[0x21, 0x7e, b'|', b'~', b'\\']),
            _ => self.bad_mark(),
        }
    }

    /// Any mark that passes.
    pub fn any_mark(&mut self) -> u8 {
        self.random.from(0x21, 0x7e) as u8
    }

    /// A mark that does not pass.
    pub fn bad_mark(&mut self) -> u8 {
        let below = self.random.pick(&[0x20, 0x00, 0x0a, 0x1f]);
        let above = self.random.pick(&[0x7f, 0x80, 0xff]);
        self.random.pick(&[below, above])
    }

    /// A message: short ones, ones of several lines, and both sides of each limit.
    pub fn message(&mut self) -> Vec<u8> {
        match self.random.weighted(&[22, 8, 28, 18, 4, 3, 1, 14]) {
            0 => Vec::new(),
            1 => self.characters(1, b"a \n"),
            2 => self.short(20, b"abc d"),
            3 => self.short(40, b"ab  \n"),
            4 => self.long(),
            5 => self.damaged(),
            6 => {
                let length = self.random.pick(&[511, 512, 513]);
                self.characters(length, b"\n\n\n\n\n\n\n\na")
            }
            _ => self.medium(),
        }
    }

    /// A message of 41 to 510 bytes: few line ends or many, anywhere, often also at its beginning or its end.
    pub fn medium(&mut self) -> Vec<u8> {
        let length = self.random.from(41, 510);
        let from: &[u8] =
            self.random
                .pick(&[b"abcdefgh ~!".as_slice(), b"abc def gh ~!  \n", b"ab \n"]);
        let mut message = self.characters(length, from);
        let place = self.random.below(length) as usize;
        for place in [0, place, length as usize - 1] {
            if self.random.once_in(3) {
                message[place] = b'\n';
            }
        }
        message
    }

    /// A message of 511 to 513 bytes, or a longer one.
    fn long(&mut self) -> Vec<u8> {
        let length = self.random.pick(&[511, 512, 512, 513, 513, 600]);
        let mut message = self.characters(length, b"abcdefgh ~!");
        for _ in 0..self.random.below(4) {
            let place = self.random.below(length) as usize;
            message[place] = b'\n';
        }
        message
    }

    /// A message with a byte that it may not hold.
    fn damaged(&mut self) -> Vec<u8> {
        let length = self.random.pick(&[1, 5, 20, 512, 513]);
        let mut message = self.characters(length, b"ab c\n");
        self.spoil(&mut message);
        message
    }

    /// Puts a byte that it may not hold into a message that is not empty.
    pub fn spoil(&mut self, message: &mut [u8]) {
        let place = self.random.below(message.len() as u64) as usize;
        message[place] = self.random.pick(&BAD_BYTES);
    }

    /// Up to `most` characters out of `from`.
    pub fn short(&mut self, most: u64, from: &[u8]) -> Vec<u8> {
        let length = self.random.from(1, most);
        self.characters(length, from)
    }

    /// So many characters out of `from`.
    pub fn characters(&mut self, length: u64, from: &[u8]) -> Vec<u8> {
        (0..length).map(|_| self.random.pick(from)).collect()
    }

    /// An output length: one byte short, exact, longer, or anything where the need is not known.
    pub fn length(&mut self, need: Option<usize>) -> u32 {
        let Some(need) = need else {
            return self.random.below(60) as u32;
        };
        let need = need as u32;
        match self.random.weighted(&[50, 10, 26, 3, 5, 3, 3]) {
            0 => need,
            1 => need.saturating_sub(1),
            2 => need + self.random.from(1, 20) as u32,
            3 => 0,
            4 => self.random.below(400) as u32,
            5 => need / 2,
            _ => need + self.random.pick(&[61, 1000, 3000]),
        }
    }
}
