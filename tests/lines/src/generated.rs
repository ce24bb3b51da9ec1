//! Generated lines, mostly of a pattern and a label that is near to it.

use crate::join;
use generate::labels::{cheap_pattern, flatten, most_trials, sample};
use generate::patterns::{large_pattern, pattern};
use generate::sources::{count_at_limit, large_source, mutate, print, random_bytes, source};
use generate::{Atom, Limits, Random, LIMITS};

/// The most trials of a match, so that all lines take about a second.
const DEAREST: u64 = 100_000;

/// The limits as far as a line with a label has room.
const IN_LINE: Limits = Limits {
    source: 1_010,
    ..LIMITS
};

fn label_near(random: &mut Random, tree: &[Atom]) -> Vec<u8> {
    let mut label = Vec::new();
    sample(random, tree, &mut label);
    if random.once_in(3) {
        mutate(random, &mut label, b"aA1-!.\"\x00\x7f\xc8\r\t");
    }
    let mut atoms = Vec::new();
    flatten(tree, &mut atoms);
    while most_trials(&atoms, label.len()) > DEAREST {
        label.truncate(label.len() / 2);
    }
    label
}

fn matched(random: &mut Random) -> Vec<u8> {
    let tree = pattern(random);
    let label = label_near(random, &tree);
    join(print(random, &tree), &label)
}

/// A pattern of 65 to 256 atoms whose source has room in a line.
fn large(random: &mut Random) -> Vec<u8> {
    loop {
        let tree = large_pattern(random);
        let source = print(random, &tree);
        if source.len() <= IN_LINE.source {
            let mut label = label_near(random, &tree);
            label.truncate(10);
            return join(source, label);
        }
    }
}

fn count_in_line(random: &mut Random) -> Vec<u8> {
    count_at_limit(random, IN_LINE)
}

fn large_in_line(random: &mut Random) -> Vec<u8> {
    let source = large_source(random, IN_LINE);
    source[..source.len().min(IN_LINE.source)].to_vec()
}

/// A source of this kind, mostly refused, and any label.
fn refused(random: &mut Random, source: fn(&mut Random) -> Vec<u8>) -> Vec<u8> {
    let len = random.below(8);
    let label: Vec<u8> = (0..len).map(|_| random.pick(b"12aB-.")).collect();
    join(source(random), &label)
}

/// A label about as long as the scratch allows.
fn at_scratch(random: &mut Random) -> Vec<u8> {
    let tree = cheap_pattern(random);
    let mut atoms = Vec::new();
    flatten(&tree, &mut atoms);
    let places = (65_536 / (2 * atoms.len() + 4)).isqrt();
    let mut label = Vec::new();
    sample(random, &tree, &mut label);
    label.resize(places - random.below(2), b'x');
    join(print(random, &tree), &label)
}

fn long_label(random: &mut Random) -> Vec<u8> {
    let len = random.between(250, 260);
    join(source(random), vec![b'1'; len])
}

/// About the greatest length of a line, the tab at any place or missing.
fn long_line(random: &mut Random) -> Vec<u8> {
    let len = random.between(1_022, 1_026);
    let mut line = matched(random);
    line.resize(len, random.pick(b"xN1\t\r"));
    line
}

fn odd(random: &mut Random) -> Vec<u8> {
    let mut line = matched(random);
    mutate(random, &mut line, b"\t\t\t\r\r\0\x7f\x80\xff\n");
    line
}

pub fn line(random: &mut Random) -> Vec<u8> {
    match random.below(100) {
        0..=49 => matched(random),
        50..=54 => large(random),
        55..=72 => refused(random, source),
        73..=75 => refused(random, large_in_line),
        76..=79 => refused(random, count_in_line),
        80..=81 => at_scratch(random),
        82..=83 => long_label(random),
        84 => long_line(random),
        85..=96 => odd(random),
        _ => random_bytes(random, b""),
    }
}
