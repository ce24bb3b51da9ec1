//! The C functions.

use crate::pattern::{from_table, read, size, to_source, to_table, Atom, Matcher, Refusal};
use std::slice::{from_raw_parts, from_raw_parts_mut};

/// A lent input; null stands for no bytes.
pub(crate) unsafe fn input<'a>(start: *const u8, len: usize) -> &'a [u8] {
    if len == 0 {
        &[]
    } else {
        from_raw_parts(start, len)
    }
}

pub(crate) unsafe fn output<'a>(start: *mut u8, len: usize) -> &'a mut [u8] {
    if len == 0 {
        &mut []
    } else {
        from_raw_parts_mut(start, len)
    }
}

/// Writes the answer area and gives the refusal number.
pub(crate) fn answer(area: &mut [u8], number: u32, values: [u64; 3]) -> u32 {
    answer_four(area, number, [values[0], values[1], values[2], 0])
}

pub(crate) fn answer_four(area: &mut [u8], number: u32, values: [u64; 4]) -> u32 {
    for (at, value) in values.into_iter().enumerate() {
        area[8 * at..8 * at + 8].copy_from_slice(&value.to_le_bytes());
    }
    number
}

/// Writes a whole result at the start of the output, or answers its refusal.
fn give(result: Result<Vec<u8>, Refusal>, out: &mut [u8], area: &mut [u8]) -> u32 {
    match result {
        Ok(bytes) => {
            out[..bytes.len()].copy_from_slice(&bytes);
            answer(area, 0, [0, bytes.len() as u64, 0])
        }
        Err((number, position)) => answer(area, number, [position as u64, 0, 0]),
    }
}

/// # Safety
/// Each pointer is the start of as many bytes as its length says.
#[no_mangle]
pub unsafe extern "C" fn mpt_compile(
    source: *const u8,
    source_len: usize,
    table: *mut u8,
    table_len: usize,
    answer: *mut u8,
    answer_len: usize,
) -> u32 {
    if answer_len < 32 {
        return 9;
    }
    let source = input(source, source_len);
    let made = read(source).map(|pattern| to_table(&pattern));
    let fits = made.and_then(|bytes| {
        if bytes.len() > table_len {
            Err((8, source_len))
        } else {
            Ok(bytes)
        }
    });
    give(fits, output(table, table_len), output(answer, answer_len))
}

/// # Safety
/// Each pointer is the start of as many bytes as its length says.
#[no_mangle]
pub unsafe extern "C" fn mpt_write_back(
    table: *const u8,
    table_len: usize,
    source: *mut u8,
    source_len: usize,
    answer: *mut u8,
    answer_len: usize,
) -> u32 {
    if answer_len < 32 {
        return 9;
    }
    let made = from_table(input(table, table_len))
        .ok_or((11, 0))
        .map(|pattern| to_source(&pattern));
    let fits = made.and_then(|bytes| {
        if bytes.len() > source_len {
            Err((8, 0))
        } else {
            Ok(bytes)
        }
    });
    give(fits, output(source, source_len), output(answer, answer_len))
}

/// # Safety
/// Each pointer is the start of as many bytes as its length says.
#[no_mangle]
pub unsafe extern "C" fn mpt_match(
    table: *const u8,
    table_len: usize,
    label: *const u8,
    label_len: usize,
    scratch: *mut u8,
    scratch_len: usize,
    parts: *mut u8,
    parts_len: usize,
    budget: u64,
    area: *mut u8,
    area_len: usize,
) -> u32 {
    if area_len < 32 {
        return 9;
    }
    let area = output(area, area_len);
    let Some(pattern) = from_table(input(table, table_len)) else {
        return answer(area, 11, [0; 3]);
    };
    let (label, scratch) = (input(label, label_len), output(scratch, scratch_len));
    let (number, values) = match_one(&pattern, label, scratch, output(parts, parts_len), budget);
    answer(area, number, values)
}

/// Answers one label by its number and the values of its answer.
pub(crate) fn match_one(
    pattern: &[Atom],
    label: &[u8],
    scratch: &mut [u8],
    parts: &mut [u8],
    budget: u64,
) -> (u32, [u64; 3]) {
    if label.len() > 255 {
        return (12, [0; 3]);
    }
    let places = label.len() + 1;
    let work = (2 * pattern.iter().map(size).sum::<usize>() + 4) * places * places;
    if scratch.len() < work {
        return (13, [0; 3]);
    }
    if parts.len() < 2 * pattern.len() {
        return (14, [0; 3]);
    }
    scratch[..work].fill(0);
    let mut matcher = Matcher::new(label);
    let mut trials = 0;
    if !matcher.trials(pattern, &mut trials, budget) {
        return (15, [0, 0, budget]);
    }
    let Some(ends) = matcher.parts(pattern, 0) else {
        return (0, [0, 0, trials]);
    };
    for (at, end) in ends.iter().enumerate() {
        parts[2 * at..2 * at + 2].copy_from_slice(&(*end as u16).to_le_bytes());
    }
    (0, [0, 1, trials])
}

/// The ends of at most 96 labels of a buffer, if they are whole, never fall and lie in it.
fn ends_in(bytes: &[u8], labels_len: usize) -> Option<Vec<usize>> {
    let number = |pair: &[u8]| usize::from(pair[0]) + 256 * usize::from(pair[1]);
    let ends: Vec<usize> = bytes.chunks_exact(2).map(number).collect();
    let inside = ends.is_sorted() && ends.iter().all(|&end| end <= labels_len);
    (bytes.len().is_multiple_of(2) && ends.len() <= 96 && inside).then_some(ends)
}

/// # Safety
/// Each pointer is the start of as many bytes as its length says.
#[no_mangle]
pub unsafe extern "C" fn mpt_match_batch(
    table: *const u8,
    table_len: usize,
    labels: *const u8,
    labels_len: usize,
    ends: *const u8,
    ends_len: usize,
    scratch: *mut u8,
    scratch_len: usize,
    verdicts: *mut u8,
    verdicts_len: usize,
    parts: *mut u8,
    parts_len: usize,
    budget: u64,
    area: *mut u8,
    area_len: usize,
) -> u32 {
    if area_len < 32 {
        return 9;
    }
    let area = output(area, area_len);
    let Some(pattern) = from_table(input(table, table_len)) else {
        return answer(area, 11, [0; 3]);
    };
    let width = 2 * pattern.len();
    let fits = |ends: &Vec<usize>| ends.len() <= verdicts_len && ends.len() * width <= parts_len;
    let Some(ends) = ends_in(input(ends, ends_len), labels_len).filter(fits) else {
        return answer(area, 16, [0; 3]);
    };
    let (labels, scratch) = (input(labels, labels_len), output(scratch, scratch_len));
    let (verdicts, parts) = (output(verdicts, verdicts_len), output(parts, parts_len));
    let mut begin = 0;
    for (k, &end) in ends.iter().enumerate() {
        let parts = &mut parts[k * width..][..width];
        let (number, values) = match_one(&pattern, &labels[begin..end], scratch, parts, budget);
        verdicts[k] = number as u8 + values[1] as u8;
        begin = end;
    }
    answer(area, 0, [0; 3])
}
