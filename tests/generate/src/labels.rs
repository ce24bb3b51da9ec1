//! Labels that a pattern is near to, and patterns for long labels.

use crate::patterns::{branch, Atom, Body};
use crate::Random;

pub fn byte_of(random: &mut Random, set: u16) -> u8 {
    let bits: Vec<usize> = (0..7).filter(|bit| set >> bit & 1 == 1).collect();
    let bytes: [&[u8]; 7] = [
        b"aZqXbA",
        b"\x00\x1f\x7f\x0a",
        b"\x00a1-Z\x7f\x80\xc3\xbc\xff",
        b"abz",
        b"0123459",
        b" ./:@[`{~-!\"",
        b"ABZ",
    ];
    let bit = random.pick(&bits);
    random.pick(bytes[bit])
}

/// Adds bytes that satisfy the pattern, as long as the repeats are few.
pub fn sample(random: &mut Random, pattern: &[Atom], label: &mut Vec<u8>) {
    for atom in pattern {
        let high = atom.high.unwrap_or(u32::MAX).min(atom.low + 3);
        let times = random.between(atom.low as usize, high as usize).min(300);
        for _ in 0..times {
            if label.len() > 300 {
                return;
            }
            match &atom.body {
                Body::Codes(set) => label.push(byte_of(random, *set)),
                Body::Literal(value) => label.extend(value),
                Body::Group(branches) => {
                    let branch = &branches[random.below(branches.len())];
                    sample(random, branch, label);
                }
            }
        }
    }
}

pub fn flatten<'a>(pattern: &'a [Atom], all: &mut Vec<&'a Atom>) {
    for atom in pattern {
        all.push(atom);
        if let Body::Group(branches) = &atom.body {
            branches.iter().for_each(|branch| flatten(branch, all));
        }
    }
}

/// At most this many trials.
pub fn most_trials(atoms: &[&Atom], n: usize) -> u64 {
    let stretches = ((n + 1) * (n + 2) * (n + 3) / 6) as u64;
    let repeats = |atom: &&Atom| atom.high.map_or(n, |high| n.min(high as usize)) as u64 + 1;
    atoms.iter().map(repeats).sum::<u64>() * stretches
}

/// The bound of the mission's third demand.
pub fn bound(atoms: usize, n: usize) -> u64 {
    (atoms * (n + 1) * ((n + 1) * (n + 2) * (n + 3) / 6)) as u64
}

/// Cheap patterns for long labels: every repeat number small.
pub fn cheap_pattern(random: &mut Random) -> Vec<Atom> {
    let mut tree = match random.below(3) {
        0 => branch(random, 2, 1),
        1 => branch(random, 3, 0),
        _ => vec![Atom {
            low: 1,
            high: Some(2),
            body: Body::Group(vec![branch(random, 1, 0)]),
        }],
    };
    fn lower(branch: &mut [Atom], random: &mut Random) {
        for atom in branch {
            atom.high = Some(atom.high.unwrap_or(2).min(random.between(1, 3) as u32));
            atom.low = atom.low.min(atom.high.unwrap());
            if let Body::Group(branches) = &mut atom.body {
                branches.iter_mut().for_each(|branch| lower(branch, random));
            }
        }
    }
    lower(&mut tree, random);
    tree
}

/// A literal of about the label's length, so that long labels match too.
pub fn long_match(random: &mut Random) -> (Vec<Atom>, Vec<u8>) {
    let len = random.between(40, 255);
    let cut = random.between(0, len);
    let part = |len: usize| Atom {
        low: 1,
        high: Some(1),
        body: Body::Literal(vec![b'x'; len]),
    };
    let mut tree = vec![part(cut), part(len - cut)];
    if random.once_in(2) {
        tree.push(Atom {
            low: 0,
            high: Some(2),
            body: Body::Group(vec![vec![part(cut)], vec![part(1)]]),
        });
    }
    (tree, vec![b'x'; random.between(len, 256)])
}
