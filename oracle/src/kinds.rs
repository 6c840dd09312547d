//! The kinds of input that a comparison has to see: how often each came, and with how many of its values.

use std::collections::BTreeMap;

/// A kind of input.
#[derive(Clone, Copy, Debug, PartialEq, Eq, PartialOrd, Ord)]
pub enum Kind {
    MessageLength,
    LineEnd,
    LongList,
    LongHistory,
    LongBranch,
    Octopus,
    NearlyFull,
    NearlyFullList,
    OneBit,
    OneByte,
    RendererMark,
    TextMark,
    QueuedLength,
    QueuedByte,
    QueuedSpace,
    QueuedBox,
    QueuedShift,
    QueuedBegun,
    OtherLongest,
    RendererLengths,
    TextLengths,
    PreviewColumn,
    PreviewWidth,
    PreviewThenRow,
    PreviewThenText,
    PreviewAgain,
    OtherWidth,
    PreviewAbove,
    PreviewRepeated,
    PreviewSwapped,
    Query,
    QuerySwapped,
    QueryOfItself,
    QueryKept,
    QueryAfterReserved,
    QueryNamedAnew,
    QueryMerged,
    QueryTurned,
    QueryDrawn,
    QueryAfterRefused,
    QueryInTwo,
    QueryAbove,
    QueryPast,
    QueryRepeated,
    Junk,
    JunkFilled,
    BrokenRow,
    BrokenPreview,
    BrokenRenderer,
    BrokenText,
    BrokenRecordCall,
    RecordLength,
    RecordEnded,
    RecordBehind,
    RecordId,
    RecordMark,
    RecordCount,
    UsedKind,
    UnusedKind,
    AnonymousId,
    RecordMessage,
    RecordByte,
    ByteBehind,
    RecordRepeated,
    LongFile,
    VeryLongFile,
    BrokenRecord,
}

/// The kinds of generated lists, each with the number of its values and in words.
pub const OF_LISTS: &[(Kind, usize, &str)] = &[
    (
        Kind::MessageLength,
        470,
        "messages of 41 to 510 bytes, by length",
    ),
    (Kind::LineEnd, 510, "line ends in these, by place"),
    (Kind::LongList, 1, "lists of more than 160 calls"),
    (
        Kind::LongHistory,
        1,
        "lists of more than 2000 accepted rows",
    ),
    (Kind::LongBranch, 1, "ids that wait for 1000 rows"),
    (
        Kind::Octopus,
        6,
        "rows of 3 to 8 parents after the 160th call of a list, by count",
    ),
    (Kind::NearlyFull, 7, "calls on 58 to 64 columns, by count"),
    (
        Kind::NearlyFullList,
        1,
        "lists of more than 2000 calls on 58 to 64 columns",
    ),
    (
        Kind::OneBit,
        32,
        "ids that differ from a held one in one bit, by bit",
    ),
    (
        Kind::OneByte,
        4,
        "ids that differ from a held one in one byte, by byte",
    ),
    (Kind::RendererMark, 94, "marks of renderer calls, by mark"),
    (Kind::TextMark, 94, "marks of text calls, by mark"),
    (
        Kind::QueuedLength,
        516,
        "queued lines with a length of 0 to 515, by length",
    ),
    (
        Kind::QueuedByte,
        128,
        "queued bytes that are no UTF-8, by byte",
    ),
    (
        Kind::QueuedSpace,
        5,
        "queued bytes 09 to 0D, which are white space, by byte",
    ),
    (
        Kind::QueuedBox,
        18,
        "queued lines with a box character, by character",
    ),
    (
        Kind::QueuedShift,
        2,
        "queued lines with a shift sequence, by sequence",
    ),
    (
        Kind::QueuedBegun,
        6,
        "bytes of queued lines that begin a box character or a shift sequence and do not complete it, by these bytes",
    ),
    (
        Kind::OtherLongest,
        2,
        "text calls whose longest line by bytes is not the one with most cells, by whether a queued line set by hand is written",
    ),
    (
        Kind::RendererLengths,
        1,
        "renderer calls with every output length",
    ),
    (Kind::TextLengths, 1, "text calls with every output length"),
    (
        Kind::PreviewColumn,
        64,
        "accepted previews, by the node's column",
    ),
    (Kind::PreviewWidth, 64, "accepted previews, by width"),
    (
        Kind::PreviewThenRow,
        3,
        "previews with the same row call right behind them, by refusal",
    ),
    (
        Kind::PreviewThenText,
        1,
        "previews with an accepted text call of the same row right behind them",
    ),
    (
        Kind::PreviewAgain,
        3,
        "previews with the same preview right behind them, by refusal",
    ),
    (
        Kind::OtherWidth,
        2,
        "previews with a width call right behind them that gives fewer cells or more, by which",
    ),
    (
        Kind::PreviewAbove,
        3,
        "previews on a shaper just set by hand with a count above 64, by refusal",
    ),
    (Kind::PreviewRepeated, 1, "quiet repeats of previews"),
    (
        Kind::PreviewSwapped,
        2,
        "accepted previews with a swap, by whether a row had named the id before",
    ),
    (
        Kind::Query,
        6,
        "queries, by whether the shaper was set by hand, and by answer",
    ),
    (
        Kind::QuerySwapped,
        4,
        "queries behind a swap for the id that it moved, by whether the shaper was set by hand and whether a row had named the id before",
    ),
    (
        Kind::QueryOfItself,
        2,
        "queries behind a row that names its own node, for that node, by whether the shaper was set by hand",
    ),
    (
        Kind::QueryKept,
        2,
        "queries behind a row for an id that another row had named first, by whether the shaper was set by hand",
    ),
    (
        Kind::QueryAfterReserved,
        2,
        "queries behind a row for an id that was only reserved before it, by whether the shaper was set by hand",
    ),
    (
        Kind::QueryNamedAnew,
        2,
        "queries for an id that was named again since its own row, now by another, by whether the shaper was set by hand",
    ),
    (
        Kind::QueryMerged,
        2,
        "queries behind a row that made the id's Ancestor column Parent, by whether the shaper was set by hand",
    ),
    (
        Kind::QueryTurned,
        2,
        "queries behind a row after which Once dashes made the id's Ancestor column Parent, by whether the shaper was set by hand",
    ),
    (
        Kind::QueryDrawn,
        2,
        "queries behind a row for its node, which does not wait, by whether the shaper was set by hand",
    ),
    (
        Kind::QueryAfterRefused,
        6,
        "queries behind a refused row or text call for an id of it, by which and by answer",
    ),
    (
        Kind::QueryInTwo,
        1,
        "queries for an id in two columns that carry different nodes",
    ),
    (
        Kind::QueryAbove,
        3,
        "queries on a shaper just set by hand with a count above 64, by answer",
    ),
    (
        Kind::QueryPast,
        1,
        "queries for an id that stands past the count alone",
    ),
    (Kind::QueryRepeated, 1, "quiet repeats of queries"),
    (
        Kind::Junk,
        4,
        "origins set by hand that do not count, by whether their slot is Empty, Blocked, Reserved or past the count",
    ),
    (
        Kind::JunkFilled,
        3,
        "columns with such an origin that the row behind names, by whether their slot was Empty, Reserved or past the count",
    ),
    (
        Kind::BrokenRow,
        1,
        "row calls with two conditions broken, by pair",
    ),
    (
        Kind::BrokenPreview,
        1,
        "previews with two conditions broken, by pair",
    ),
    (
        Kind::BrokenRenderer,
        3,
        "renderer calls with two conditions broken, by pair",
    ),
    (
        Kind::BrokenText,
        15,
        "text calls with two conditions broken, by pair",
    ),
    (
        Kind::BrokenRecordCall,
        3,
        "record calls with two conditions broken, by pair",
    ),
    (
        Kind::RecordLength,
        257,
        "record calls with 0 to 256 bytes left, by length",
    ),
    (
        Kind::RecordEnded,
        1,
        "record calls that say that the records have ended",
    ),
    (
        Kind::RecordBehind,
        1,
        "accepted records with bytes behind them",
    ),
    (
        Kind::RecordId,
        2,
        "accepted records with the id 0 or 4294967295, by id",
    ),
    (Kind::RecordMark, 256, "accepted records, by mark"),
    (
        Kind::RecordCount,
        256,
        "parent counts of whole records, by count",
    ),
    (
        Kind::UsedKind,
        32,
        "used entries of kind 0, 1, 2 and above, by place and kind",
    ),
    (
        Kind::UnusedKind,
        32,
        "unused entries of kind 0, 1, 2 and above in accepted records, by place and kind",
    ),
    (
        Kind::AnonymousId,
        8,
        "Anonymous entries with an id in accepted records, by place",
    ),
    (
        Kind::RecordMessage,
        83,
        "messages of accepted records, by length",
    ),
    (
        Kind::RecordByte,
        255,
        "bytes in messages of accepted records, by byte",
    ),
    (
        Kind::ByteBehind,
        256,
        "bytes behind the zero byte of a message of accepted records, by byte",
    ),
    (Kind::RecordRepeated, 1, "quiet repeats of record calls"),
];

/// The kinds of record files.
pub const OF_FILES: &[(Kind, usize, &str)] = &[
    (Kind::LongFile, 1, "files of more than 12 records"),
    (Kind::VeryLongFile, 1, "files of more than 1000 records"),
    (
        Kind::BrokenRecord,
        10,
        "last records with two conditions broken, by pair",
    ),
];

/// How often each value of each kind came.
#[derive(Clone, Debug, Default)]
pub struct Kinds(BTreeMap<(Kind, usize), u64>);

impl Kinds {
    /// Counts one of a kind, with this value.
    pub fn add(&mut self, kind: Kind, value: usize) {
        *self.0.entry((kind, value)).or_default() += 1;
    }

    /// Counts each pair of conditions that are broken at once.
    pub fn add_pairs(&mut self, kind: Kind, broken: &[u8]) {
        for (place, later) in broken.iter().enumerate() {
            for earlier in &broken[..place] {
                self.add(kind, usize::from(*earlier) << 8 | usize::from(*later));
            }
        }
    }

    /// Adds the counts of another.
    pub fn join(&mut self, other: &Kinds) {
        for (place, count) in &other.0 {
            *self.0.entry(*place).or_default() += count;
        }
    }

    /// How many values of a kind came.
    fn values(&self, kind: Kind) -> usize {
        self.0.keys().filter(|(given, _)| *given == kind).count()
    }

    /// How often a kind came.
    fn times(&self, kind: Kind) -> u64 {
        let given = self.0.iter().filter(|((given, _), _)| *given == kind);
        given.map(|(_, count)| count).sum()
    }

    /// Prints how often each of these kinds came, and with how many of its values.
    pub fn print(&self, kinds: &[(Kind, usize, &str)]) {
        for (kind, values, words) in kinds {
            let (times, came) = (self.times(*kind), self.values(*kind));
            println!("kind {words}: {times}, values {came} of {values}");
        }
    }

    /// Those of these kinds of which a value never came, in words.
    pub fn missing(&self, kinds: &[(Kind, usize, &str)]) -> Vec<String> {
        let missing = kinds
            .iter()
            .filter(|(kind, values, _)| self.values(*kind) < *values);
        missing
            .map(|(_, _, words)| format!("not each value came of: {words}"))
            .collect()
    }
}
