//! Seeded record files for the two programs: few ids, every limit of a record from both sides, damaged bytes and cut ends.

use crate::random::Random;
use crate::record_bytes;
use crate::refusals;
use crate::stream::Entry;

/// The most records of a short file.
const RECORDS: u64 = 12;
/// How seldom a file is long, and very long, and the most records of these.
const LONG_EVERY: u64 = 10;
const LONG: u64 = 100;
const VERY_LONG_EVERY: u64 = 100;
const VERY_LONG: u64 = 3000;
/// How far below its child's the id of a parent lies at most in a long file, so that no more lines are open.
const NEAR: u64 = 20;
/// Ids that a file draws its few from.
const IDS: [u32; 10] = [0, u32::MAX, 1, 2, 3, 7, 10, 256, 65_536, u32::MAX - 1];
/// The first id of a file whose parents are all new.
const FRESH: u32 = 1000;

/// How a file's ids are chosen.
#[derive(Clone, Copy)]
enum Ids {
    /// Out of a few, so that they collide.
    Few,
    /// Each record's below that of the record before it, and its parents' below that.
    Falling,
    /// The same, and its parents' not far below, so that the columns never run out.
    Near,
    /// Parents that no record has named before.
    Fresh,
}

/// A file in the making.
struct Maker {
    random: Random,
    ids: Ids,
    few: Vec<u32>,
    next: u32,
    bytes: Vec<u8>,
}

/// The file with this number.
pub fn file(seed: u64, number: u32) -> Vec<u8> {
    let mut random = Random::new(seed, u64::from(number));
    let very_long = u64::from(number) % VERY_LONG_EVERY == VERY_LONG_EVERY / 2;
    let long = very_long || random.once_in(LONG_EVERY);
    let ids = if long {
        random.pick(&[Ids::Few, Ids::Near, Ids::Near])
    } else {
        random.pick(&[
            Ids::Few,
            Ids::Few,
            Ids::Few,
            Ids::Falling,
            Ids::Falling,
            Ids::Fresh,
        ])
    };
    let few = (0..random.from(2, 6)).map(|_| random.pick(&IDS)).collect();
    let mut maker = Maker {
        random,
        ids,
        few,
        next: FRESH,
        bytes: Vec::new(),
    };
    let records = match (very_long, long) {
        (true, _) => maker.random.from(VERY_LONG / 3 + 1, VERY_LONG),
        (_, true) => maker.random.from(RECORDS + 1, LONG),
        _ => maker.few_records(),
    };
    maker.fill(records as u32);
    maker.damage();
    maker.bytes
}

impl Maker {
    /// How many records a short file has.
    fn few_records(&mut self) -> u64 {
        match self.ids {
            Ids::Fresh => RECORDS,
            _ => self.random.from(0, RECORDS),
        }
    }

    /// Puts so many whole records into the file.
    fn fill(&mut self, records: u32) {
        for left in (0..records).rev() {
            self.record(left);
        }
    }

    /// Puts in a record that passes, with any bytes where they are ignored; so many records follow it.
    fn record(&mut self, left: u32) {
        let id = self.node(left);
        let mark = self.mark();
        let count = self.count();
        let entries: Vec<_> = (0..refusals::ENTRIES)
            .map(|place| self.entry(left, place < usize::from(count)))
            .collect();
        let room = record_bytes::message(&mut self.random);
        let record = record_bytes::whole(id, mark, count, &entries, &room);
        self.bytes.extend(record);
    }

    /// A record's id.
    fn node(&mut self, left: u32) -> u32 {
        match self.ids {
            Ids::Few => self.random.pick(&self.few),
            Ids::Falling | Ids::Near => left,
            Ids::Fresh => FRESH + left,
        }
    }

    /// A mark that passes.
    fn mark(&mut self) -> u8 {
        self.random
            .pick(&[b'o', b'o', b'o', b'@', b'*', 0x21, 0x7e, b'|', b'\\'])
    }

    /// A record's parent count.
    fn count(&mut self) -> u8 {
        let most = refusals::ENTRIES as u8;
        match self.ids {
            Ids::Fresh => self.random.pick(&[most, most, most, most - 1]),
            _ => self.random.pick(&[0, 0, 1, 1, 1, 1, 2, 2, 2, 3, 4, most]),
        }
    }

    /// An entry, used or not.
    fn entry(&mut self, left: u32, used: bool) -> Entry {
        let kind = record_bytes::kind(&mut self.random, used);
        let id = match self.ids {
            Ids::Falling if left > 0 => self.random.below(u64::from(left)) as u32,
            Ids::Near => left.saturating_sub(self.random.from(1, NEAR) as u32),
            Ids::Fresh => {
                self.next += 100;
                self.next
            }
            _ => self.random.pick(&self.few),
        };
        Entry { kind, id }
    }

    /// Leaves the file as it is, cuts it, or damages some of its bytes.
    fn damage(&mut self) {
        match self.random.weighted(&[12, 3, 8, 6, 3]) {
            0 => {}
            1 => self.cut(),
            2 => {
                let start = self.any_record();
                self.spoil(start);
            }
            3 => self.spoil_much(),
            _ => {
                for _ in 0..self.random.from(1, 4) {
                    self.alter();
                }
            }
        }
    }

    /// Cuts the file anywhere.
    fn cut(&mut self) {
        let length = self.random.from(0, self.bytes.len() as u64);
        self.bytes.truncate(length as usize);
    }

    /// Where one of the records begins, if there is one.
    fn any_record(&mut self) -> Option<usize> {
        let last = (self.bytes.len() / refusals::RECORD).checked_sub(1)?;
        Some(self.random.from(0, last as u64) as usize * refusals::RECORD)
    }

    /// Puts several bytes beyond their limits, or at them, into one of the records, and may end the file within it.
    fn spoil_much(&mut self) {
        let start = self.any_record();
        for _ in 0..self.random.from(2, 8) {
            self.spoil(start);
        }
        if let (Some(start), true) = (start, self.random.once_in(2)) {
            let length = self.random.from(1, refusals::RECORD as u64 - 1);
            self.bytes.truncate(start + length as usize);
        }
    }

    /// Puts a byte beyond its limit, or at it, into the record that begins there.
    fn spoil(&mut self, start: Option<usize>) {
        if let Some(start) = start {
            record_bytes::spoil(&mut self.random, &mut self.bytes[start..]);
        }
    }

    /// Puts any byte anywhere.
    fn alter(&mut self) {
        if self.bytes.is_empty() {
            return;
        }
        let place = self.random.below(self.bytes.len() as u64) as usize;
        self.bytes[place] = self.random.below(256) as u8;
    }
}
