//! The C functions on a register, by moving its bytes in place, one at a time.

use crate::calls::{answer, answer_four, input, match_one, output};
use crate::pattern::{from_table, size};
use crate::summary::beside;

const OPENING: &[u8] = b"MPR\x02\x00\x00\x00\x00";
const SLOT: usize = 44;
const TABLES: usize = 11_272;

/// Where the slot of a number begins.
fn slot_at(number: usize) -> usize {
    8 + SLOT * number
}

/// The length that the directory has for a number.
fn len_of(register: &[u8], number: usize) -> usize {
    let field = &register[slot_at(number)..][..4];
    let more = |len: usize, &byte: &u8| 256 * len + usize::from(byte);
    field.iter().rev().fold(0, more)
}

/// Writes the slot of a table; no bytes for none.
fn put_slot(register: &mut [u8], number: usize, table: &[u8]) {
    let at = slot_at(number);
    for byte in 0..4 {
        register[at + byte] = (table.len() >> (8 * byte)) as u8;
    }
    let more = from_table(table).map_or(vec![0; SLOT - 4], |pattern| beside(&pattern));
    register[at + 4..at + SLOT].copy_from_slice(&more);
}

/// Where the table of a number begins, or would begin; of 256 where the last one ends.
fn begin_of(register: &[u8], number: usize) -> usize {
    let before = (0..number).map(|before| len_of(register, before));
    TABLES + before.sum::<usize>()
}

fn is_good(register: &[u8]) -> bool {
    if register.len() < TABLES || !register.starts_with(OPENING) {
        return false;
    }
    let mut begin = TABLES;
    for number in 0..256 {
        let end = begin + len_of(register, number);
        if end > register.len() {
            return false;
        }
        let found = &register[slot_at(number) + 4..][..SLOT - 4];
        let good = match from_table(&register[begin..end]) {
            Some(pattern) => beside(&pattern) == found,
            None => end == begin && found.iter().all(|&byte| byte == 0),
        };
        if !good {
            return false;
        }
        begin = end;
    }
    true
}

/// Moves the tables after that of a number down over it.
fn close(register: &mut [u8], number: usize) {
    let (len, end) = (len_of(register, number), begin_of(register, 256));
    for at in begin_of(register, number)..end - len {
        register[at] = register[at + len];
    }
    put_slot(register, number, &[]);
}

/// Moves the tables after a number that has none up, and puts one in between.
fn open(register: &mut [u8], number: usize, table: &[u8]) {
    let (begin, end) = (begin_of(register, number), begin_of(register, 256));
    for at in (begin..end).rev() {
        register[at + table.len()] = register[at];
    }
    for (at, &byte) in table.iter().enumerate() {
        register[begin + at] = byte;
    }
    put_slot(register, number, table);
}

fn store(register: &mut [u8], number: usize, table: &[u8]) -> u32 {
    if !is_good(register) {
        return 18;
    }
    if from_table(table).is_none() {
        return 11;
    }
    let others = begin_of(register, 256) - len_of(register, number);
    if others + table.len() > register.len() {
        return 17;
    }
    close(register, number);
    open(register, number, table);
    0
}

fn remove(register: &mut [u8], number: usize) -> u32 {
    if !is_good(register) {
        return 18;
    }
    if len_of(register, number) == 0 {
        return 19;
    }
    close(register, number);
    0
}

/// # Safety
/// Each pointer is the start of as many bytes as its length says.
#[no_mangle]
pub unsafe extern "C" fn mpt_register_init(
    register: *mut u8,
    register_len: usize,
    area: *mut u8,
    area_len: usize,
) -> u32 {
    if area_len < 32 {
        return 9;
    }
    let (register, area) = (output(register, register_len), output(area, area_len));
    if register_len < TABLES {
        return answer(area, 18, [0; 3]);
    }
    for (at, byte) in register[..TABLES].iter_mut().enumerate() {
        *byte = OPENING.get(at).copied().unwrap_or(0);
    }
    answer(area, 0, [0; 3])
}

/// # Safety
/// Each pointer is the start of as many bytes as its length says.
#[no_mangle]
pub unsafe extern "C" fn mpt_register_store(
    register: *mut u8,
    register_len: usize,
    number: u8,
    table: *const u8,
    table_len: usize,
    area: *mut u8,
    area_len: usize,
) -> u32 {
    if area_len < 32 {
        return 9;
    }
    let register = output(register, register_len);
    let refusal = store(register, usize::from(number), input(table, table_len));
    answer(output(area, area_len), refusal, [0; 3])
}

/// # Safety
/// Each pointer is the start of as many bytes as its length says.
#[no_mangle]
pub unsafe extern "C" fn mpt_register_remove(
    register: *mut u8,
    register_len: usize,
    number: u8,
    area: *mut u8,
    area_len: usize,
) -> u32 {
    if area_len < 32 {
        return 9;
    }
    let refusal = remove(output(register, register_len), usize::from(number));
    answer(output(area, area_len), refusal, [0; 3])
}

/// # Safety
/// Each pointer is the start of as many bytes as its length says.
#[no_mangle]
pub unsafe extern "C" fn mpt_register_match(
    register: *const u8,
    register_len: usize,
    number: u8,
    label: *const u8,
    label_len: usize,
    scratch: *mut u8,
    scratch_len: usize,
    parts: *mut u8,
    parts_len: usize,
    budget: u64,
    area: *mut u8,
    area_len: usize,
) -> u32 {
    if area_len < 32 {
        return 9;
    }
    let (register, area) = (input(register, register_len), output(area, area_len));
    if !is_good(register) {
        return answer(area, 18, [0; 3]);
    }
    let number = usize::from(number);
    let begin = begin_of(register, number);
    let Some(pattern) = from_table(&register[begin..begin + len_of(register, number)]) else {
        return answer(area, 19, [0; 3]);
    };
    let (label, scratch) = (input(label, label_len), output(scratch, scratch_len));
    let (refusal, values) = match_one(&pattern, label, scratch, output(parts, parts_len), budget);
    answer(area, refusal, values)
}

/// Whether the 40 bytes beside a length rule a label out.
fn ruled_out(beside: &[u8], label: &[u8]) -> bool {
    let number = |at: usize| usize::from(beside[at]) + 256 * usize::from(beside[at + 1]);
    let first = label.first().map(|&byte| usize::from(byte));
    label.len() < number(4)
        || label.len() > number(6)
        || first.is_some_and(|byte| beside[8 + byte / 8] & (1 << (byte % 8)) == 0)
}

/// Skips by summary, zeroing the scratch that an ordinary call would; the refusal number, verdict,
/// number of the pattern and how many were skipped.
fn search(register: &[u8], label: &[u8], scratch: &mut [u8], parts: &mut [u8]) -> (u32, [u64; 3]) {
    let mut skipped = 0;
    for number in (0..256).filter(|&number| len_of(register, number) > 0) {
        let begin = begin_of(register, number);
        let pattern = from_table(&register[begin..][..len_of(register, number)]).unwrap();
        let beside = &register[slot_at(number) + 4..][..SLOT - 4];
        if ruled_out(beside, label) {
            let places = label.len() + 1;
            let work = (2 * pattern.iter().map(size).sum::<usize>() + 4) * places * places;
            if scratch.len() < work {
                return (13, [0, number as u64, 0]);
            }
            if parts.len() < 2 * pattern.len() {
                return (14, [0, number as u64, 0]);
            }
            scratch[..work].fill(0);
            skipped += 1;
            continue;
        }
        let (refusal, values) = match_one(&pattern, label, scratch, parts, u64::MAX);
        if refusal > 0 {
            return (refusal, [0, number as u64, 0]);
        }
        if values[1] == 1 {
            return (0, [1, number as u64, skipped]);
        }
    }
    (0, [0, 0, skipped])
}

/// # Safety
/// Each pointer is the start of as many bytes as its length says.
#[no_mangle]
pub unsafe extern "C" fn mpt_register_search(
    register: *const u8,
    register_len: usize,
    label: *const u8,
    label_len: usize,
    scratch: *mut u8,
    scratch_len: usize,
    parts: *mut u8,
    parts_len: usize,
    area: *mut u8,
    area_len: usize,
) -> u32 {
    if area_len < 32 {
        return 9;
    }
    let (register, area) = (input(register, register_len), output(area, area_len));
    if !is_good(register) {
        return answer(area, 18, [0; 3]);
    }
    if label_len > 255 {
        return answer(area, 12, [0; 3]);
    }
    let (label, scratch) = (input(label, label_len), output(scratch, scratch_len));
    let (refusal, values) = search(register, label, scratch, output(parts, parts_len));
    answer_four(area, refusal, [0, values[0], values[1], values[2]])
}
