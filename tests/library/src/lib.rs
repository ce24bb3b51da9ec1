//! The C functions of libmpt.a, called on slices.

mod registers;

pub use registers::{
    register_init, register_match, register_remove, register_search, register_store,
};

extern "C" {
    fn mpt_compile(
        source: *const u8,
        source_len: usize,
        table: *mut u8,
        table_len: usize,
        answer: *mut u8,
        answer_len: usize,
    ) -> u32;
    fn mpt_write_back(
        table: *const u8,
        table_len: usize,
        source: *mut u8,
        source_len: usize,
        answer: *mut u8,
        answer_len: usize,
    ) -> u32;
    fn mpt_match(
        table: *const u8,
        table_len: usize,
        label: *const u8,
        label_len: usize,
        scratch: *mut u8,
        scratch_len: usize,
        parts: *mut u8,
        parts_len: usize,
        budget: u64,
        answer: *mut u8,
        answer_len: usize,
    ) -> u32;
    fn mpt_match_batch(
        table: *const u8,
        table_len: usize,
        labels: *const u8,
        labels_len: usize,
        ends: *const u8,
        ends_len: usize,
        scratch: *mut u8,
        scratch_len: usize,
        verdicts: *mut u8,
        verdicts_len: usize,
        parts: *mut u8,
        parts_len: usize,
        budget: u64,
        answer: *mut u8,
        answer_len: usize,
    ) -> u32;
}

/// The type of mpt_match.
pub type Match = unsafe extern "C" fn(
    *const u8,
    usize,
    *const u8,
    usize,
    *mut u8,
    usize,
    *mut u8,
    usize,
    u64,
    *mut u8,
    usize,
) -> u32;

/// The type of mpt_match_batch.
pub type MatchBatch = unsafe extern "C" fn(
    *const u8,
    usize,
    *const u8,
    usize,
    *const u8,
    usize,
    *mut u8,
    usize,
    *mut u8,
    usize,
    *mut u8,
    usize,
    u64,
    *mut u8,
    usize,
) -> u32;

/// What a batch is lent besides its answer area.
pub struct Batch<'a> {
    pub table: &'a [u8],
    pub labels: &'a [u8],
    pub ends: &'a [u8],
    pub scratch: &'a mut [u8],
    pub verdicts: &'a mut [u8],
    pub parts: &'a mut [u8],
    pub budget: u64,
}

/// An empty slice is lent as null, as C callers do.
fn start(bytes: &[u8]) -> *const u8 {
    if bytes.is_empty() {
        std::ptr::null()
    } else {
        bytes.as_ptr()
    }
}

fn start_mut(bytes: &mut [u8]) -> *mut u8 {
    if bytes.is_empty() {
        std::ptr::null_mut()
    } else {
        bytes.as_mut_ptr()
    }
}

/// Compiles through C; gives the refusal number.
pub fn compile(source: &[u8], table: &mut [u8], answer: &mut [u8]) -> u32 {
    let (table_len, answer_len) = (table.len(), answer.len());
    unsafe {
        mpt_compile(
            start(source),
            source.len(),
            start_mut(table),
            table_len,
            start_mut(answer),
            answer_len,
        )
    }
}

/// Writes back through C; gives the refusal number.
pub fn write_back(table: &[u8], source: &mut [u8], answer: &mut [u8]) -> u32 {
    let (source_len, answer_len) = (source.len(), answer.len());
    unsafe {
        mpt_write_back(
            start(table),
            table.len(),
            start_mut(source),
            source_len,
            start_mut(answer),
            answer_len,
        )
    }
}

/// Matches through C; gives the refusal number.
pub fn match_label(
    table: &[u8],
    label: &[u8],
    scratch: &mut [u8],
    parts: &mut [u8],
    budget: u64,
    answer: &mut [u8],
) -> u32 {
    unsafe { match_by(mpt_match, table, label, scratch, parts, budget, answer) }
}

/// The same by a given copy of mpt_match.
///
/// # Safety
/// The function keeps to what include/mpt.h says of mpt_match.
pub unsafe fn match_by(
    function: Match,
    table: &[u8],
    label: &[u8],
    scratch: &mut [u8],
    parts: &mut [u8],
    budget: u64,
    answer: &mut [u8],
) -> u32 {
    let (scratch_len, parts_len, answer_len) = (scratch.len(), parts.len(), answer.len());
    function(
        start(table),
        table.len(),
        start(label),
        label.len(),
        start_mut(scratch),
        scratch_len,
        start_mut(parts),
        parts_len,
        budget,
        start_mut(answer),
        answer_len,
    )
}

/// Matches a batch through C; gives the refusal number.
pub fn match_batch(batch: Batch, answer: &mut [u8]) -> u32 {
    unsafe { match_batch_by(mpt_match_batch, batch, answer) }
}

/// The same by a given copy of mpt_match_batch.
///
/// # Safety
/// The function keeps to what include/mpt.h says of mpt_match_batch.
pub unsafe fn match_batch_by(function: MatchBatch, batch: Batch, answer: &mut [u8]) -> u32 {
    let (scratch_len, verdicts_len) = (batch.scratch.len(), batch.verdicts.len());
    let (parts_len, answer_len) = (batch.parts.len(), answer.len());
    function(
        start(batch.table),
        batch.table.len(),
        start(batch.labels),
        batch.labels.len(),
        start(batch.ends),
        batch.ends.len(),
        start_mut(batch.scratch),
        scratch_len,
        start_mut(batch.verdicts),
        verdicts_len,
        start_mut(batch.parts),
        parts_len,
        batch.budget,
        start_mut(answer),
        answer_len,
    )
}
