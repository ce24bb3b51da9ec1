//! The calls on a register.

use crate::{start, start_mut};

extern "C" {
    fn mpt_register_init(
        register: *mut u8,
        register_len: usize,
        answer: *mut u8,
        answer_len: usize,
    ) -> u32;
    fn mpt_register_store(
        register: *mut u8,
        register_len: usize,
        number: u8,
        table: *const u8,
        table_len: usize,
        answer: *mut u8,
        answer_len: usize,
    ) -> u32;
    fn mpt_register_remove(
        register: *mut u8,
        register_len: usize,
        number: u8,
        answer: *mut u8,
        answer_len: usize,
    ) -> u32;
    fn mpt_register_match(
        register: *const u8,
        register_len: usize,
        number: u8,
        label: *const u8,
        label_len: usize,
        scratch: *mut u8,
        scratch_len: usize,
        parts: *mut u8,
        parts_len: usize,
        budget: u64,
        answer: *mut u8,
        answer_len: usize,
    ) -> u32;
    fn mpt_register_search(
        register: *const u8,
        register_len: usize,
        label: *const u8,
        label_len: usize,
        scratch: *mut u8,
        scratch_len: usize,
        parts: *mut u8,
        parts_len: usize,
        answer: *mut u8,
        answer_len: usize,
    ) -> u32;
}

/// Starts an empty register through C; gives the refusal number.
pub fn register_init(register: &mut [u8], answer: &mut [u8]) -> u32 {
    let (register_len, answer_len) = (register.len(), answer.len());
    unsafe {
        mpt_register_init(
            start_mut(register),
            register_len,
            start_mut(answer),
            answer_len,
        )
    }
}

/// Stores or replaces a table through C; gives the refusal number.
pub fn register_store(register: &mut [u8], number: u8, table: &[u8], answer: &mut [u8]) -> u32 {
    let (register_len, answer_len) = (register.len(), answer.len());
    unsafe {
        mpt_register_store(
            start_mut(register),
            register_len,
            number,
            start(table),
            table.len(),
            start_mut(answer),
            answer_len,
        )
    }
}

/// Removes a table through C; gives the refusal number.
pub fn register_remove(register: &mut [u8], number: u8, answer: &mut [u8]) -> u32 {
    let (register_len, answer_len) = (register.len(), answer.len());
    unsafe {
        mpt_register_remove(
            start_mut(register),
            register_len,
            number,
            start_mut(answer),
            answer_len,
        )
    }
}

/// Matches against the table of a number through C; gives the refusal number.
pub fn register_match(
    register: &[u8],
    number: u8,
    label: &[u8],
    scratch: &mut [u8],
    parts: &mut [u8],
    budget: u64,
    answer: &mut [u8],
) -> u32 {
    let (scratch_len, parts_len, answer_len) = (scratch.len(), parts.len(), answer.len());
    unsafe {
        mpt_register_match(
            start(register),
            register.len(),
            number,
            start(label),
            label.len(),
            start_mut(scratch),
            scratch_len,
            start_mut(parts),
            parts_len,
            budget,
            start_mut(answer),
            answer_len,
        )
    }
}

/// Searches a register through C; gives the refusal number.
pub fn register_search(
    register: &[u8],
    label: &[u8],
    scratch: &mut [u8],
    parts: &mut [u8],
    answer: &mut [u8],
) -> u32 {
    let (scratch_len, parts_len, answer_len) = (scratch.len(), parts.len(), answer.len());
    unsafe {
        mpt_register_search(
            start(register),
            register.len(),
            start(label),
            label.len(),
            start_mut(scratch),
            scratch_len,
            start_mut(parts),
            parts_len,
            start_mut(answer),
            answer_len,
        )
    }
}
