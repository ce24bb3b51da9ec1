//! Many labels in one call, answered as single calls in turn.

use crate::matching::{match_label, part_bytes};
use crate::{BATCH, BATCH_MOST, TABLE};

/// What a batch answers and writes.
#[derive(Clone, Debug, PartialEq, Eq)]
pub struct Batch {
    pub number: u32,
    /// The bytes written at the start of the verdicts, one for each label.
    pub verdicts: Vec<u8>,
    /// The part bytes written, each stretch with its place in the parts buffer.
    pub parts: Vec<(usize, Vec<u8>)>,
    /// How many bytes at the start of the scratch are zero afterwards because of the call.
    pub clears: usize,
}

/// The labels that the ends, 16 bits each, cut from the buffer. None for half an end, too many
/// labels, and an end that falls or runs past the buffer.
pub fn cut<'a>(labels: &'a [u8], ends: &[u8]) -> Option<Vec<&'a [u8]>> {
    if ends.len() % 2 == 1 || ends.len() / 2 > BATCH_MOST {
        return None;
    }
    let mut begin = 0;
    let mut all = Vec::new();
    for pair in ends.chunks(2) {
        let end = usize::from(pair[0]) + 256 * usize::from(pair[1]);
        // A slice whose end is before its begin or past the buffer isn't there.
        all.push(labels.get(begin..end)?);
        begin = end;
    }
    Some(all)
}

/// Matches the labels of a buffer against one table, with the outputs lent by their lengths.
pub fn match_batch(
    table: &[u8],
    (labels, ends): (&[u8], &[u8]),
    scratch_len: usize,
    verdicts_len: usize,
    parts_len: usize,
    budget: u64,
) -> Batch {
    let mut batch = Batch {
        number: 0,
        verdicts: Vec::new(),
        parts: Vec::new(),
        clears: 0,
    };
    let Some(each) = part_bytes(table) else {
        batch.number = TABLE;
        return batch;
    };
    let fits = |all: &Vec<&[u8]>| all.len() <= verdicts_len && all.len() * each <= parts_len;
    let Some(all) = cut(labels, ends).filter(fits) else {
        batch.number = BATCH;
        return batch;
    };
    for (k, label) in all.into_iter().enumerate() {
        let matched = match_label(table, label, scratch_len, each, budget);
        batch.verdicts.push(match matched.number {
            0 => u8::from(matched.verdict),
            refusal => refusal as u8,
        });
        batch
            .parts
            .extend(matched.parts.map(|parts| (k * each, parts)));
        batch.clears = batch.clears.max(matched.clears);
    }
    batch
}
