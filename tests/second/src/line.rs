//! The line tool: an answer for each line of a source, a tab and a label.

use crate::{compile, match_label};

/// The first line of the output.
pub const FIRST: &str = "MPT 2";

const LINE_MOST: usize = 1_024;
const SCRATCH: usize = 65_536;
const BUDGET: u64 = 10_000_000;

/// The answer to one line.
pub fn answer(line: &[u8]) -> String {
    if line.len() > LINE_MOST {
        return "L".to_string();
    }
    let Some(tab) = line.iter().position(|&byte| byte == b'\t') else {
        return "T".to_string();
    };
    let table = match compile(&line[..tab], usize::MAX) {
        Ok(table) => table,
        Err(refusal) => return format!("R {} {}", refusal.number, refusal.position),
    };
    let matched = match_label(&table, &line[tab + 1..], SCRATCH, usize::MAX, BUDGET);
    if matched.number > 0 {
        return format!("M {}", matched.number);
    }
    let Some(parts) = matched.parts else {
        return "0".to_string();
    };
    let end = |pair: &[u8]| (usize::from(pair[0]) + 256 * usize::from(pair[1])).to_string();
    let ends: Vec<String> = parts.chunks(2).map(end).collect();
    format!("1 {}", ends.join(","))
}

/// The answers to all lines of an input; a last line without a newline counts if it has bytes.
pub fn answers(input: &[u8]) -> Vec<String> {
    let mut lines: Vec<&[u8]> = input.split(|&byte| byte == b'\n').collect();
    if lines.last().is_some_and(|line| line.is_empty()) {
        lines.pop();
    }
    lines.into_iter().map(answer).collect()
}
