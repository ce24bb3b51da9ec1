//! Sources: of a pattern, near a limit, damaged or of any bytes.

use crate::patterns::{large_pattern, pattern, Atom, Body, LETTERS};
use crate::{Limits, Random, OLD_LIMITS};

const ALPHABET: &[u8] = b"0123459..\"\"((,,))AaNnUuEQZ'@-";

pub fn number(random: &mut Random, value: u32) -> String {
    let zeros = if random.once_in(12) {
        random.between(1, 5)
    } else {
        0
    };
    format!("{}{value}", "0".repeat(zeros))
}

/// A source of the pattern, not always the shortest one.
pub fn print(random: &mut Random, pattern: &[Atom]) -> Vec<u8> {
    let mut source = Vec::new();
    for atom in pattern {
        let low = if atom.low == 0 && !random.once_in(6) {
            String::new()
        } else {
            number(random, atom.low)
        };
        let count = match atom.high {
            None => format!("{low}."),
            Some(high) if high == atom.low && !random.once_in(10) => number(random, high),
            Some(high) => format!("{low}.{}", number(random, high)),
        };
        source.extend(count.bytes());
        match &atom.body {
            Body::Codes(set) => {
                let mut letters: Vec<u8> = (0..7)
                    .filter(|bit| set >> bit & 1 == 1)
                    .map(|bit| LETTERS[bit])
                    .collect();
                if random.once_in(8) {
                    letters.reverse();
                    letters.extend(letters.clone());
                }
                for letter in letters {
                    source.push(if random.once_in(4) {
                        letter.to_ascii_lowercase()
                    } else {
                        letter
                    });
                }
            }
            Body::Literal(value) => {
                source.push(b'"');
                for &byte in value {
                    source.extend(if byte == b'"' {
                        &b"\"\""[..]
                    } else {
                        std::slice::from_ref(&byte)
                    });
                }
                source.push(b'"');
            }
            Body::Group(branches) => {
                for (at, branch) in branches.iter().enumerate() {
                    source.push(if at == 0 { b'(' } else { b',' });
                    source.extend(print(random, branch));
                }
                source.push(b')');
            }
        }
    }
    source
}

/// Changes a few bytes: replaced, inserted, removed, copied or cut off.
pub fn mutate(random: &mut Random, bytes: &mut Vec<u8>, alphabet: &[u8]) {
    for _ in 0..random.between(1, 3) {
        let byte = if random.once_in(8) {
            random.bits() as u8
        } else {
            random.pick(alphabet)
        };
        let at = random.below(bytes.len() + 1);
        match random.below(8) {
            0..=2 if at < bytes.len() => bytes[at] = byte,
            3..=4 => bytes.insert(at, byte),
            5 if at < bytes.len() => drop(bytes.remove(at)),
            6 => bytes.truncate(at),
            _ => {
                let end = random.between(at, bytes.len().min(at + 8));
                let copy = bytes[at..end].to_vec();
                bytes.splice(at..at, copy);
            }
        }
    }
}

pub fn random_bytes(random: &mut Random, alphabet: &[u8]) -> Vec<u8> {
    let most = random.pick(&[4, 8, 16, 64, 600]);
    let len = random.between(0, most);
    (0..len)
        .map(|_| {
            if alphabet.is_empty() {
                random.bits() as u8
            } else {
                random.pick(alphabet)
            }
        })
        .collect()
}

/// Atoms with a fault each, or whole, one after the other.
pub fn fault_list(random: &mut Random) -> Vec<u8> {
    let whole: [&[u8]; 6] = [b"1N", b".A", b"2.3\"a\"", b"0U", b"1(1N,1A)", b"00001n"];
    let faults: [&[u8]; 18] = [
        b"5.3N",
        b"10000N",
        b"1Q",
        b"2.1z",
        b"10000.3N",
        b"3.10000N",
        b".10000N",
        b"20000.10000N",
        b"1(",
        b")",
        b",",
        b"1..N",
        b"\"",
        b"1\"\x7f\"",
        b"1\"\"\"",
        b"1()",
        b"09999.9998E",
        b"00010000N",
    ];
    let mut source = Vec::new();
    for _ in 0..random.between(1, 12) {
        source.extend(if random.once_in(4) {
            random.pick(&faults)
        } else {
            random.pick(&whole)
        });
    }
    source
}

/// No digits, a number near 9,999 or one of many digits.
fn near_limit(random: &mut Random) -> String {
    match random.below(4) {
        0 => String::new(),
        1 => format!("{}", random.between(9_997, 10_002)),
        2 => format!(
            "{}{}",
            "0".repeat(random.below(30)),
            random.between(0, 12_000)
        ),
        _ => (0..random.between(1, 40))
            .map(|_| random.pick(&['0', '1', '9']))
            .collect(),
    }
}

/// A count of such numbers, at times about the last atom that the limits allow, with as many zeros
/// as a source has room for, damaged or cut off.
pub fn count_at_limit(random: &mut Random, limits: Limits) -> Vec<u8> {
    let most = limits.atoms;
    let atoms = random.pick(&[0, 0, 1, 2, most - 2, most - 1, most, most + 1]);
    let mut source = b"1N".repeat(atoms);
    let mut start = source.len();
    source.extend(near_limit(random).bytes());
    if !random.once_in(3) {
        source.push(b'.');
        if random.once_in(2) {
            start = source.len();
        }
        source.extend(near_limit(random).bytes());
    }
    let tails: [&[u8]; 8] = [b"N", b"N", b"N,", b"Q", b"\"a\"", b"(1N)", b"N5.3N", b""];
    source.extend(random.pick(&tails));
    if random.once_in(2) {
        let room = limits.source - source.len();
        let zeros = [random.below(6), random.below(room), room];
        source.splice(start..start, b"0".repeat(random.pick(&zeros)));
    }
    match random.below(6) {
        0 => source.truncate(random.between(start, source.len())),
        1 => mutate(random, &mut source, ALPHABET),
        _ => (),
    }
    source
}

/// Some atoms fewer than the limit to some more, a part of them in a group, and something after them.
fn about_most_atoms(random: &mut Random, most: usize) -> Vec<u8> {
    let grouped = random.below(30);
    let plain = random.between(most - 3, most + 1) - grouped;
    let tails: [&[u8]; 7] = [b"", b"5.3N", b".10000N", b"10000N", b"1Q", b",", b"2(1N)"];
    let mut source = b"1N".repeat(plain);
    source.extend(b"1(");
    for at in 0..grouped.max(1) {
        source.extend(if at == 0 || random.once_in(2) {
            &b"1N"[..]
        } else {
            &b",1N"[..]
        });
    }
    source.extend(b")");
    source.extend(random.pick(&tails));
    source
}

/// Groups 6 to 10 deep.
fn about_most_depth(random: &mut Random) -> Vec<u8> {
    let depth = random.between(6, 10);
    let close = if random.once_in(4) { depth - 1 } else { depth };
    let middle = random.pick(&[&b"1N"[..], b"1Q", b"5.3N", b"1N,2A"]);
    let mut source = [b"1(".repeat(depth), middle.to_vec(), b")".repeat(close)].concat();
    if random.once_in(2) {
        source.extend(b"1(1(1N))");
    }
    source
}

/// About as many bytes as the limit, filled up with zeros, letters or a literal.
fn about_most_bytes(random: &mut Random, most: usize) -> Vec<u8> {
    let start = if random.once_in(4) {
        fault_list(random)
    } else {
        b"2(1N,.A)".to_vec()
    };
    let fill = random.between(most - 2, most + 2) - (start.len() + 4).min(most - 2);
    let end = match random.below(4) {
        0 => [b"0".repeat(fill + 2), b"1N".to_vec()].concat(),
        1 => [b"1.".to_vec(), b"N".repeat(fill + 2)].concat(),
        2 => [b"1\"".to_vec(), b"x".repeat(fill + 1), b"\"".to_vec()].concat(),
        _ => [
            b"1\"".to_vec(),
            b"\"\"".repeat(fill / 2 + 1),
            b"\"".to_vec(),
        ]
        .concat(),
    };
    [start, end].concat()
}

/// A source at or just past one of the limits.
pub fn at_limit(random: &mut Random, limits: Limits) -> Vec<u8> {
    match random.below(5) {
        0 => about_most_atoms(random, limits.atoms),
        1 => about_most_depth(random),
        2 => about_most_bytes(random, limits.source),
        // Numbers near 9,999 or of many digits.
        3 => {
            let mut text = || near_limit(random);
            format!("1A{}.{}N{}U", text(), text(), text()).into_bytes()
        }
        _ => fault_list(random),
    }
}

/// A source of 65 to 256 atoms or about the limits, at times damaged.
pub fn large_source(random: &mut Random, limits: Limits) -> Vec<u8> {
    let mut source = match random.below(4) {
        0..=1 => {
            let tree = large_pattern(random);
            print(random, &tree)
        }
        2 => about_most_atoms(random, limits.atoms),
        _ => about_most_bytes(random, limits.source),
    };
    if random.once_in(4) {
        mutate(random, &mut source, ALPHABET);
    }
    source
}

/// A source of a pattern, damaged, of any bytes, or about the limits of version 1.
/// docs/GTM.md has counts of these.
pub fn source(random: &mut Random) -> Vec<u8> {
    match random.below(20) {
        0..=8 => {
            let tree = pattern(random);
            print(random, &tree)
        }
        9..=13 => {
            let tree = pattern(random);
            let mut source = print(random, &tree);
            mutate(random, &mut source, ALPHABET);
            source
        }
        14..=15 => random_bytes(random, ALPHABET),
        16 => random_bytes(random, b""),
        _ => at_limit(random, OLD_LIMITS),
    }
}
