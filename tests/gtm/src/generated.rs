//! Lines of a pattern, a tab and a label: bytes 32 to 126, in labels also 128 to 255.

use generate::labels::{flatten, most_trials, sample};
use generate::patterns::pattern;
use generate::sources::{mutate, print, source};
use generate::{Atom, Body, Random};

const LINES: u64 = 10_000;

/// What the standard or GT.M has beyond the rules here.
const BEYOND: [&[u8]; 12] = [
    b" ", b" ;x", b"1'N", b"1Y", b"1YaY", b"1Z", b"1B", b".Xa", b"1@x", b"1[a]", b"1N(x)", b"1E50N",
];

fn label_near(random: &mut Random, tree: &[Atom]) -> Vec<u8> {
    let mut label = Vec::new();
    sample(random, tree, &mut label);
    if random.once_in(3) {
        mutate(random, &mut label, b"aA1-!.\" (,)~\x80\xc8\xfc");
    }
    label.retain(|byte| !byte.is_ascii_control());
    let mut atoms = Vec::new();
    flatten(tree, &mut atoms);
    while most_trials(&atoms, label.len()) > 200_000 {
        label.truncate(label.len() / 2);
    }
    label
}

/// A group around one atom.
fn lone_group(random: &mut Random) -> Vec<Atom> {
    let mut tree = pattern(random);
    tree.truncate(2);
    let inside = vec![tree.remove(0)];
    let low = random.below(4) as u32;
    let high = random.pick(&[None, Some(low), Some(low + 2)]);
    let body = Body::Group(vec![inside]);
    tree.insert(0, Atom { low, high, body });
    tree
}

fn line(random: &mut Random) -> Vec<u8> {
    let kind = random.below(20);
    let lone = kind == 0;
    let tree = if lone {
        lone_group(random)
    } else {
        pattern(random)
    };
    let mut label = label_near(random, &tree);
    if lone && random.once_in(2) {
        // One byte more than whole bodies have.
        label.extend(label.first().copied());
    }
    let mut text = match kind {
        1..=4 => source(random),
        5 => [&print(random, &tree)[..], random.pick(&BEYOND)].concat(),
        _ => print(random, &tree),
    };
    text.retain(|byte| (32..127).contains(byte));
    [&text[..], b"\t", &label, b"\n"].concat()
}

pub fn lines() -> Vec<u8> {
    (0..LINES)
        .flat_map(|index| line(&mut Random::new(index << 2)))
        .collect()
}
