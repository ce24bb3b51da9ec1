//! How long a label may be with the scratch and budget that the line tool lends: the tables of docs/LINES.md.

use crate::documents::TELEPHONE;
use crate::join;

/// A source, the byte of which the label is made, the longest label that is answered, and the refusal of one byte more.
type Longest = (String, &'static str, usize, &'static str);

const DIGIT: &str = "7";

const SCRATCH: &str = "M 13";
const BUDGET: &str = "M 15";

const PATTERNS: [(&str, usize, &str); 13] = [
    (".E", 86, BUDGET),
    ("1.N", 86, BUDGET),
    (".N.N", 72, BUDGET),
    (".(.N,.A)", 72, BUDGET),
    (".20E", 103, SCRATCH),
    (".E1C.E", 72, BUDGET),
    (".(.(.N,.A))", 71, BUDGET),
    (".(.(.(.N,.A)))", 67, SCRATCH),
    (".(.(.(.(.(.(.(.(.E))))))))", 53, SCRATCH),
    ("1U2N1\"-\"1.6N", 72, SCRATCH),
    ("3N1\".\"2N.U", 72, SCRATCH),
    ("1U.20A1\",\"1U.10A", 67, SCRATCH),
    (TELEPHONE, 47, SCRATCH),
];

/// For so many atoms: with `1N` scratch ends it, with `.N` the one that is named.
const ATOMS: [(usize, usize, usize, &str); 10] = [
    (1, 103, 86, BUDGET),
    (2, 89, 72, BUDGET),
    (4, 72, 60, BUDGET),
    (8, 56, 50, BUDGET),
    (16, 41, 41, SCRATCH),
    (32, 30, 30, SCRATCH),
    (64, 21, 21, SCRATCH),
    (80, 18, 18, SCRATCH),
    (128, 14, 14, SCRATCH),
    (256, 10, 10, SCRATCH),
];

/// Open groups on bytes that no branch takes.
const UNTAKEN: [(&str, usize); 3] = [
    (".(.N,.A)", 65),
    (".(.(.N,.A))", 60),
    (".(.(.(.N,.A)))", 57),
];

fn longest() -> Vec<Longest> {
    let patterns =
        PATTERNS.map(|(source, length, refusal)| (source.to_string(), DIGIT, length, refusal));
    let atoms = ATOMS.map(|(count, exact, open, refusal)| {
        let exact = ("1N".repeat(count), DIGIT, exact, SCRATCH);
        [exact, (".N".repeat(count), DIGIT, open, refusal)]
    });
    let untaken = UNTAKEN.map(|(source, length)| (source.to_string(), "!", length, BUDGET));
    [patterns.to_vec(), atoms.concat(), untaken.to_vec()].concat()
}

fn line(source: &str, byte: &str, length: usize) -> Vec<u8> {
    join(source, byte.repeat(length))
}

pub fn lines() -> Vec<Vec<u8>> {
    let pair = |(source, byte, length, _): Longest| {
        [line(&source, byte, length), line(&source, byte, length + 1)]
    };
    longest().into_iter().flat_map(pair).collect()
}

#[cfg(test)]
mod tests {
    use super::*;

    #[test]
    fn as_the_tables_say() {
        let answer = |source: &str, byte, length| second::line::answer(&line(source, byte, length));
        for (source, byte, length, refusal) in longest() {
            assert!(!answer(&source, byte, length).starts_with('M'), "{source}");
            assert_eq!(answer(&source, byte, length + 1), refusal, "{source}");
        }
    }
}
