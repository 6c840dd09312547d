//! The bytes left for record calls: every part of a record at its limits and beyond them, cut records, and bytes behind a record.

use super::Generator;
use crate::record_bytes;
use crate::record_bytes::ROOM;
use crate::refusals;
use crate::stream::Entry;

impl Generator<'_> {
    /// The bytes left for a record call: a record, often spoiled, whole or cut, or none, and often bytes behind it.
    pub fn record(&mut self) -> Vec<u8> {
        let mut bytes = self.whole_record();
        for _ in 0..self.random.pick(&[0, 0, 0, 1, 1, 6]) {
            record_bytes::spoil(&mut self.random, &mut bytes);
        }
        match self.random.weighted(&[10, 4, 1, 3, 1]) {
            0 => {}
            1 => bytes.truncate(self.random.from(1, refusals::RECORD as u64 - 1) as usize),
            2 => bytes.clear(),
            3 => {
                let length = self.random.from(1, refusals::RECORD as u64);
                let behind = self.any_bytes(length);
                bytes.extend(behind);
            }
            _ => {
                let next = self.whole_record();
                bytes.extend(next);
            }
        }
        bytes
    }

    /// A record with any mark, and any bytes where they are ignored; its parent count alone may refuse it.
    fn whole_record(&mut self) -> Vec<u8> {
        let count = self.parent_count();
        let entries: Vec<_> = (0..refusals::ENTRIES)
            .map(|place| self.record_entry(place < usize::from(count)))
            .collect();
        let room = self.room();
        let mark = self.random.next() as u8;
        record_bytes::whole(self.any_id(), mark, count, &entries, &room)
    }

    /// A parent count: often beyond its limit.
    fn parent_count(&mut self) -> u8 {
        if self.random.once_in(4) {
            return self.random.next() as u8;
        }
        self.random.from(0, refusals::ENTRIES as u64) as u8
    }

    /// An entry of a record, used or not.
    fn record_entry(&mut self, used: bool) -> Entry {
        Entry {
            kind: record_bytes::kind(&mut self.random, used),
            id: self.any_id(),
        }
    }

    /// An id as calls have it, or any.
    fn any_id(&mut self) -> u32 {
        if self.random.once_in(2) {
            return self.random.next() as u32;
        }
        self.id()
    }

    /// A message's room: a message that text accepts, or one of any length and any bytes, and any behind its zero byte.
    fn room(&mut self) -> Vec<u8> {
        if self.random.once_in(2) {
            return record_bytes::message(&mut self.random);
        }
        let any: Vec<_> = (1..=u8::MAX).collect();
        let behind: Vec<_> = (0..=u8::MAX).collect();
        let length = self.random.from(0, ROOM as u64) as usize;
        record_bytes::room(&mut self.random, length, &any, &behind)
    }

    /// So many bytes, of any value.
    fn any_bytes(&mut self, length: u64) -> Vec<u8> {
        (0..length).map(|_| self.random.next() as u8).collect()
    }
}
