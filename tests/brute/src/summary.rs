//! Summaries by recursion over the pattern, in numbers that no pattern exceeds or that stay at
//! their largest.

use crate::pattern::{classes, size, Atom, Body};

/// The least and the most bytes of what satisfies a pattern or an atom.
type Span = (u128, u128);

fn atom_span(atom: &Atom) -> Span {
    let (least, most) = match &atom.body {
        Body::Codes(_) => (1, 1),
        Body::Literal(value) => (value.len() as u128, value.len() as u128),
        Body::Group(branches) => {
            let spans: Vec<Span> = branches.iter().map(|branch| span(branch)).collect();
            let least = spans.iter().map(|span| span.0).min();
            let most = spans.iter().map(|span| span.1).max();
            (least.unwrap(), most.unwrap())
        }
    };
    let high = atom.high.map_or(u128::MAX, u128::from);
    (
        least.saturating_mul(u128::from(atom.low)),
        most.saturating_mul(high),
    )
}

fn span(pattern: &[Atom]) -> Span {
    let spans = pattern.iter().map(atom_span);
    spans.fold((0, 0), |all, one| {
        (all.0.saturating_add(one.0), all.1.saturating_add(one.1))
    })
}

/// Whether a byte begins something not empty that satisfies the pattern.
fn begins(pattern: &[Atom], byte: u8) -> bool {
    let Some((first, rest)) = pattern.split_first() else {
        return false;
    };
    let here = match &first.body {
        Body::Codes(set) => set & classes(byte) != 0,
        Body::Literal(value) => value.first() == Some(&byte),
        Body::Group(branches) => branches.iter().any(|branch| begins(branch, byte)),
    };
    (here && first.high != Some(0)) || (atom_span(first).0 == 0 && begins(rest, byte))
}

/// The 40 bytes that a register has beside the length of a table.
pub fn beside(pattern: &[Atom]) -> Vec<u8> {
    let (least, most) = span(pattern);
    let atoms: usize = pattern.iter().map(size).sum();
    let mut bytes = Vec::new();
    for number in [
        atoms,
        pattern.len(),
        least.min(256) as usize,
        most.min(256) as usize,
    ] {
        bytes.extend([number as u8, (number >> 8) as u8]);
    }
    for at in 0..32 {
        let bits = (0..8).filter(|bit| begins(pattern, 8 * at + bit));
        bytes.push(bits.map(|bit| 1 << bit).sum());
    }
    bytes
}
