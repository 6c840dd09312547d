//! The vector stream: the marked rows, the format, lists of every length, record calls at their limits, queued lines measured in cells,
//! queries for who started a line, widths at their greatest, and a sample of generated lists.

use std::collections::BTreeMap;
use std::collections::BTreeSet;

use crate::answering::answered;
use crate::generator;
use crate::lengths;
use crate::marked;
use crate::measured_lines;
use crate::queried_lines;
use crate::record_limits;
use crate::stream::encode;
use crate::stream::Letters;

/// The seed of the sample.
const SEED: u64 = 1;
/// The number of the list about the format, after M1 to M10.
const FORMAT_LIST: u32 = 11;
/// The number of the first list about the lengths of lists.
const LENGTH_LISTS: u32 = 12;
/// The number of the list about the limits of records.
const RECORD_LIST: u32 = 14;
/// The number of the list about the cells of queued lines.
const MEASURE_LIST: u32 = 15;
/// The number of the list about who started a line.
const QUERY_LIST: u32 = 16;
/// The number of the list about the greatest widths.
const WIDTH_LIST: u32 = 17;
/// The letter of the record call, which works on no state.
const RECORD: u8 = b'D';
/// The first list number of the sample of commands that are built and work on a state.
const BUILT_LISTS: u32 = 1000;
/// The first list number of the sample of all commands.
const ALL_LISTS: u32 = 2000;
/// How many lists a sample looks at.
const LOOKED_AT: u32 = 900;
/// The most bytes of the stream of one sample.
const STREAM_BYTES: usize = 68_000;
/// The most bytes of the answers of one sample, once all is built.
const ANSWER_BYTES: usize = 260_000;
/// Lists with longer answers are taken only for a refusal that no shorter one has.
const LIST_ANSWERS: usize = 3_000;

/// The vector stream.
pub fn stream(built: &Letters) -> Vec<u8> {
    let mut stream: Vec<u8> = marked::lists()
        .iter()
        .flat_map(|list| encode(list))
        .collect();
    stream.extend(marked::format_list(FORMAT_LIST));
    for list in lengths::lists(LENGTH_LISTS) {
        stream.extend(encode(&list));
    }
    stream.extend(encode(&record_limits::list(RECORD_LIST)));
    stream.extend(encode(&measured_lines::list(MEASURE_LIST)));
    stream.extend(encode(&queried_lines::list(QUERY_LIST)));
    stream.extend(encode(&lengths::widest(WIDTH_LIST)));
    stream.extend(sample(BUILT_LISTS, &built.without(RECORD)));
    stream.extend(sample(ALL_LISTS, &Letters::all()));
    stream.extend(marked::cut_command());
    stream
}

/// A generated list that may go into a sample.
struct Candidate {
    stream: Vec<u8>,
    answers: usize,
    refusals: Vec<(u8, u8)>,
}

/// Generated lists: for each letter and refusal the shortest that has it, then further short ones.
fn sample(first: u32, letters: &Letters) -> Vec<u8> {
    let candidates: Vec<_> = (first..first + LOOKED_AT)
        .map(|number| candidate(number, letters))
        .collect();
    let mut chosen = shortest_for_each_refusal(&candidates);
    for place in 0..candidates.len() {
        let short = candidates[place].answers <= LIST_ANSWERS;
        if short && chosen.insert(place) && !fit(&candidates, &chosen) {
            chosen.remove(&place);
        }
    }
    let streams = chosen.iter().map(|place| &candidates[*place].stream);
    streams.flatten().copied().collect()
}

/// The list with this number.
fn candidate(number: u32, letters: &Letters) -> Candidate {
    let commands = generator::list(SEED, number, letters);
    let (stream, text, counts) = answered(&commands, &Letters::all());
    Candidate {
        stream,
        answers: text.len(),
        refusals: counts.refusals.into_keys().collect(),
    }
}

/// The places of the lists with the shortest answers, one for each letter and refusal.
fn shortest_for_each_refusal(candidates: &[Candidate]) -> BTreeSet<usize> {
    let mut shortest = BTreeMap::new();
    for (place, candidate) in candidates.iter().enumerate() {
        for refusal in &candidate.refusals {
            let best = shortest.entry(*refusal).or_insert(place);
            if candidate.answers < candidates[*best].answers {
                *best = place;
            }
        }
    }
    shortest.into_values().collect()
}

/// Whether the chosen lists are not too long together.
fn fit(candidates: &[Candidate], chosen: &BTreeSet<usize>) -> bool {
    let sum = |size: fn(&Candidate) -> usize| -> usize {
        chosen.iter().map(|place| size(&candidates[*place])).sum()
    };
    sum(|candidate| candidate.stream.len()) <= STREAM_BYTES
        && sum(|candidate| candidate.answers) <= ANSWER_BYTES
}
