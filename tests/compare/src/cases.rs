//! Generated calls.

use crate::batches::{ends_of, joined};
use crate::call::{Batch, Call, Case};
use crate::tables::{any_pattern, atom_count, damage, generated_table, table, work};
use generate::labels::{bound, cheap_pattern, flatten, long_match, most_trials, sample};
use generate::sources::{count_at_limit, large_source, mutate, source};
use generate::{Atom, Random, LIMITS, OLD_LIMITS};
use second::VERSION_2;

/// A length about the one needed: mostly enough, at times one short.
pub fn about(random: &mut Random, needed: usize) -> usize {
    match random.below(12) {
        0..=4 => needed,
        5..=6 => needed.saturating_sub(1),
        7..=9 => needed + random.between(1, 40),
        10 => random.below(needed + 1),
        _ => random.pick(&[0, 1, 18, 600]),
    }
}

fn compile_call(random: &mut Random) -> Call {
    let source = match random.below(32) {
        0..=1 => count_at_limit(random, LIMITS),
        2..=3 => count_at_limit(random, OLD_LIMITS),
        4..=6 => large_source(random, LIMITS),
        7 => large_source(random, OLD_LIMITS),
        _ => source(random),
    };
    let needed = second::compile(&source, usize::MAX)
        .map_or(random.below(VERSION_2.table_most()), |table| table.len());
    Call::Compile {
        source,
        table_len: about(random, needed),
    }
}

fn write_back_call(random: &mut Random) -> Call {
    let table = table(random);
    let needed = second::write_back(&table, usize::MAX)
        .map_or(random.below(VERSION_2.source_most), |source| source.len());
    Call::WriteBack {
        table,
        source_len: about(random, needed),
    }
}

/// The atoms of a pattern, those in groups too.
fn atoms_of(tree: &[Atom]) -> Vec<&Atom> {
    let mut atoms = Vec::new();
    flatten(tree, &mut atoms);
    atoms
}

/// A label near the pattern, at most as long as `most` trials allow.
pub fn near_label(random: &mut Random, tree: &[Atom], most: u64) -> Vec<u8> {
    let mut label = Vec::new();
    sample(random, tree, &mut label);
    if most > 200_000 {
        while label.len() < 255 && !random.once_in(300) {
            label.push(random.pick(b"1a-A"));
        }
    } else {
        label.truncate(random.pick(&[5, 8, 10, 12, 12, 12, 24]));
    }
    if random.once_in(3) {
        mutate(random, &mut label, b"aA1-!.\"\x00\x7f\xc8");
    }
    shortened(label, tree, most)
}

fn shortened(mut label: Vec<u8>, tree: &[Atom], most: u64) -> Vec<u8> {
    let atoms = atoms_of(tree);
    while label.len() <= 255 && most_trials(&atoms, label.len()) > most {
        label.truncate(label.len() / 2);
    }
    label
}

/// A label of 200 to 300 bytes.
pub fn long_label(random: &mut Random) -> Vec<u8> {
    let len = random.between(200, 300);
    (0..len).map(|_| random.pick(b"12a")).collect()
}

/// A budget about the count of trials of one label.
pub fn budget_about(random: &mut Random, table: &[u8], label: &[u8]) -> u64 {
    let exact = second::match_label(table, label, usize::MAX, usize::MAX, u64::MAX).trials;
    match random.below(12) {
        0..=4 => exact,
        5..=6 => exact.saturating_sub(1),
        7 => exact + 1,
        8 => bound(atom_count(table), label.len().min(255)),
        9 => u64::MAX,
        10 => random.bits() % (exact + 1),
        _ => random.pick(&[0, 1, 10_000_000]),
    }
}

/// A pattern and a label for it, few of them with as many as `dearest` trials.
fn pattern_and_label(random: &mut Random, dearest: u64) -> (Vec<Atom>, Vec<u8>) {
    let (tree, most) = match random.below(4_000) {
        0..=1 => {
            let (tree, label) = long_match(random);
            let label = shortened(label, &tree, dearest);
            return (tree, label);
        }
        2..=3 => (cheap_pattern(random), dearest),
        4..=30 => (cheap_pattern(random), dearest / 20),
        _ => (any_pattern(random), 200_000),
    };
    let label = near_label(random, &tree, most);
    (tree, label)
}

fn match_call(random: &mut Random, dearest: u64) -> Call {
    let (tree, mut label) = pattern_and_label(random, dearest);
    let atoms = atoms_of(&tree).len();
    let mut table = generated_table(random, &tree);
    if random.once_in(12) {
        damage(random, &mut table);
    }
    // Long labels where the refusal comes before the trials or soon after.
    let long = random.once_in(40);
    if long {
        label = long_label(random);
    }
    let work = work(atoms, label.len().min(255));
    let mut scratch_len = work;
    if random.once_in(3) {
        scratch_len = about(random, work);
    }
    let mut parts_len = 2 * tree.len();
    if random.once_in(3) {
        parts_len = about(random, parts_len);
    }
    if long && atoms > 4 && !random.once_in(20) {
        scratch_len = scratch_len.min(work - 1).min(10_000);
    }
    let budget = if long {
        random.below(100_000) as u64
    } else {
        budget_about(random, &table, &label)
    };
    Call::Match {
        table,
        label,
        scratch_len,
        parts_len,
        budget,
    }
}

/// Few labels as a rule; at times about as many as a batch may have.
fn label_count(random: &mut Random) -> usize {
    match random.below(60) {
        0 => random.between(94, 98),
        1..=3 => random.between(8, 40),
        _ => random.between(0, 7),
    }
}

/// Changes an end, the length of the list or that of the buffer.
fn damage_ends(random: &mut Random, labels: &mut Vec<u8>, ends: &mut Vec<u8>) {
    if ends.is_empty() {
        return ends.push(random.bits() as u8);
    }
    let (at, other) = (random.below(ends.len()), random.below(ends.len()));
    match random.below(8) {
        0..=1 => ends[at] = ends[at].wrapping_add(random.pick(&[1, 255])),
        2 => ends[at] = random.bits() as u8,
        3 => drop(ends.pop()),
        4 => ends.push(random.bits() as u8),
        5 => drop(labels.pop()),
        6 => ends.extend(ends_of(&[labels.len() + 1])),
        _ => ends.swap(at, other),
    }
}

fn batch_call(random: &mut Random) -> Call {
    let tree = any_pattern(random);
    let count = label_count(random);
    let most = (400_000 / (count as u64 + 1)).min(100_000);
    let near = (0..count).map(|_| near_label(random, &tree, most));
    let mut all: Vec<Vec<u8>> = near.collect();
    let mut table = generated_table(random, &tree);
    if random.once_in(16) {
        damage(random, &mut table);
    }
    let (scratch_len, budget) = for_some(random, &table, atoms_of(&tree).len(), &all);
    if count > 0 && random.once_in(10) {
        all[random.below(count)] = long_label(random);
    }
    let (mut labels, mut ends) = joined(&all);
    if random.once_in(4) {
        labels.extend(long_label(random));
    }
    if random.once_in(6) {
        damage_ends(random, &mut labels, &mut ends);
    }
    let mut lens = [count, 2 * tree.len() * count];
    if random.once_in(4) {
        let at = random.below(2);
        lens[at] = about(random, lens[at]);
    }
    Call::Batch(Batch {
        table,
        labels,
        ends,
        scratch_len,
        verdicts_len: lens[0],
        parts_len: lens[1],
        budget,
    })
}

/// Scratch for all labels or about that of one, and a budget about that of the one.
fn for_some(random: &mut Random, table: &[u8], atoms: usize, all: &[Vec<u8>]) -> (usize, u64) {
    let at = random.below(all.len().max(1));
    let one = all.get(at).cloned().unwrap_or_default();
    let longest = all.iter().map(Vec::len).max().unwrap_or(0);
    let scratch_len = if random.once_in(3) {
        about(random, work(atoms, one.len()))
    } else {
        work(atoms, longest)
    };
    (scratch_len, budget_about(random, table, &one))
}

/// One case of everything; no match of more than `dearest` trials.
pub fn case(random: &mut Random, dearest: u64) -> Case {
    let call = match random.below(30) {
        0..=11 => compile_call(random),
        12..=17 => write_back_call(random),
        18 => batch_call(random),
        _ => match_call(random, dearest),
    };
    let answer_len = if random.once_in(10) {
        random.between(0, 40)
    } else {
        32
    };
    Case {
        call,
        answer_len,
        dirt: random.bits() as u8 % 16,
    }
}
