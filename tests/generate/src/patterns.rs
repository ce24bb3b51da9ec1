//! Patterns, within the limits or not.

use crate::{Random, LIMITS, OLD_LIMITS};

/// A pattern as the generator makes it; nothing keeps it within the limits.
#[derive(Clone)]
pub struct Atom {
    pub low: u32,
    pub high: Option<u32>,
    pub body: Body,
}

#[derive(Clone)]
pub enum Body {
    Codes(u16),
    Literal(Vec<u8>),
    Group(Vec<Vec<Atom>>),
}

/// The code letters in the order of their bits.
pub const LETTERS: &[u8; 7] = b"ACELNPU";

pub fn repeat(random: &mut Random) -> (u32, Option<u32>) {
    let small = random.below(4) as u32;
    match random.below(40) {
        0..=13 => (small, Some(small)),
        14..=21 => (0, None),
        22..=25 => (small, None),
        26..=29 => (0, Some(small)),
        30..=35 => (small, Some(small + random.below(4) as u32)),
        36 => (random.between(5, 400) as u32, None),
        37 => (
            random.between(5, 400) as u32,
            Some(random.between(400, 9_999) as u32),
        ),
        38 => {
            let large = random.pick(&[255, 256, 300, 9_000, 9_998, 9_999]);
            (large, Some(large))
        }
        _ => (0, Some(random.between(4, 9_999) as u32)),
    }
}

pub fn literal(random: &mut Random) -> Vec<u8> {
    let len = random.pick(&[0, 1, 1, 1, 1, 2, 2, 3, 5]);
    (0..len)
        .map(|_| random.pick(b"ab12-.!\"\"~ (,)N"))
        .collect()
}

/// A branch of about `atoms` atoms, groups at most `depth` deep.
pub fn branch(random: &mut Random, atoms: usize, depth: usize) -> Vec<Atom> {
    let mut left = atoms.max(1);
    let mut pattern = Vec::new();
    while left > 0 {
        let (low, high) = repeat(random);
        let (body, used) = match random.below(10) {
            0..=4 => (Body::Codes(codes(random)), 1),
            5..=6 => (Body::Literal(literal(random)), 1),
            _ if depth == 0 || left < 2 => (Body::Codes(codes(random)), 1),
            _ => {
                let inside = random.between(1, left - 1);
                let branches = random.between(1, inside.min(4));
                let each = inside / branches;
                (
                    (Body::Group(
                        (0..branches)
                            .map(|_| branch(random, each, depth - 1))
                            .collect(),
                    )),
                    1 + each * branches,
                )
            }
        };
        pattern.push(Atom { low, high, body });
        left -= used.min(left);
    }
    pattern
}

pub fn codes(random: &mut Random) -> u16 {
    let one = 1 << random.below(7);
    if random.once_in(4) {
        one | 1 << random.below(7)
    } else {
        one
    }
}

/// Groups in groups, at most 8 deep, each at times with a second branch.
pub fn nested(random: &mut Random) -> Vec<Atom> {
    let mut inner = branch(random, 2, 0);
    for _ in 0..random.between(2, 8) {
        let (low, high) = repeat(random);
        let mut branches = vec![inner];
        if random.once_in(3) {
            let at = random.below(2);
            branches.insert(at, branch(random, 1, 0));
        }
        inner = vec![Atom {
            low,
            high,
            body: Body::Group(branches),
        }];
        if random.once_in(4) {
            inner.extend(branch(random, 1, 0));
        }
    }
    inner
}

/// A pattern within the limits of either version, or near those of version 1.
/// docs/GTM.md has counts of what is made of these.
pub fn pattern(random: &mut Random) -> Vec<Atom> {
    if random.once_in(20) {
        return nested(random);
    }
    let atoms = match random.below(20) {
        0..=8 => random.between(1, 3),
        9..=15 => random.between(2, 6),
        16..=18 => random.between(4, 16),
        _ => random.between(12, OLD_LIMITS.atoms),
    };
    let depth = random.pick(&[0, 1, 2, 2, 3, 4, 8]);
    branch(random, atoms, depth)
}

/// Lets each atom of a branch be empty.
fn let_be_empty(branch: &mut [Atom]) {
    for atom in branch {
        atom.low = 0;
        if let Body::Group(branches) = &mut atom.body {
            branches.iter_mut().for_each(|branch| let_be_empty(branch));
        }
    }
}

/// About 65 to 256 atoms, mostly such that short labels satisfy them too.
pub fn large_pattern(random: &mut Random) -> Vec<Atom> {
    let (least, most) = (OLD_LIMITS.atoms + 1, LIMITS.atoms);
    let atoms = match random.below(4) {
        0 => random.between(least, least + 16),
        1 => random.between(most - 4, most),
        _ => random.between(least, most),
    };
    let depth = random.pick(&[0, 0, 1, 2, 4, 8]);
    let mut tree = branch(random, atoms, depth);
    if !random.once_in(4) {
        let_be_empty(&mut tree);
    }
    tree
}
