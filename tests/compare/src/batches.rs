//! Fixed batches: each count of labels, each fault of the ends, outputs of every length about the
//! one needed, labels that are refused among others that aren't.

use crate::call::{Batch, Call, Case};
use crate::fixed::changed_tables;
use crate::tables::{atom_count, work, PARTS_MOST};
use second::{Version, VERSION_1, VERSION_2};

pub fn ends_of(ends: &[usize]) -> Vec<u8> {
    let bytes = ends.iter().flat_map(|&end| (end as u16).to_le_bytes());
    bytes.collect()
}

/// The buffer of some labels and their ends.
pub fn joined(labels: &[Vec<u8>]) -> (Vec<u8>, Vec<u8>) {
    let lens = labels.iter().map(Vec::len);
    let ends: Vec<usize> = lens
        .scan(0, |end, len| {
            *end += len;
            Some(*end)
        })
        .collect();
    (labels.concat(), ends_of(&ends))
}

impl Batch {
    fn of(source: &[u8], all: &[Vec<u8>]) -> Self {
        Self::in_version(VERSION_2, source, all)
    }

    /// Each output just as long as the labels need it, and no limit of the trials.
    fn in_version(version: Version, source: &[u8], all: &[Vec<u8>]) -> Self {
        let table = second::compile_to(version, source, usize::MAX).unwrap();
        let (labels, ends) = joined(all);
        let longest = all.iter().map(Vec::len).filter(|&len| len <= 255).max();
        Batch {
            scratch_len: work(atom_count(&table), longest.unwrap_or(0)),
            verdicts_len: all.len(),
            parts_len: all.len() * second::part_bytes(&table).unwrap(),
            table,
            labels,
            ends,
            budget: u64::MAX,
        }
    }

    /// The call, after a change.
    fn with(&self, change: impl FnOnce(&mut Batch)) -> Call {
        let mut batch = self.clone();
        change(&mut batch);
        Call::Batch(batch)
    }

    fn call(&self) -> Call {
        self.with(|_| ())
    }

    fn with_scratch(&self, scratch_len: usize) -> Call {
        self.with(|batch| batch.scratch_len = scratch_len)
    }

    /// The scratch of a label of `len` bytes.
    fn work(&self, len: usize) -> usize {
        work(atom_count(&self.table), len)
    }
}

/// `count` labels of none to three bytes, some of which have a letter.
fn short(count: usize) -> Vec<Vec<u8>> {
    let label = |k: usize| b"12a345"[k % 4..k % 4 + k % 3 + k / 7 % 2].to_vec();
    (0..count).map(label).collect()
}

/// A pattern of so many parts, each of them empty or a byte.
fn many_parts(atoms: usize) -> Vec<u8> {
    b".1N".repeat(atoms)
}

/// Each count about the ends of its range, of empty labels and of others, with whole ends, half an
/// end less and half an end more.
fn counts() -> Vec<Call> {
    let mut calls = Vec::new();
    for count in [
        0, 1, 2, 94, 95, 96, 97, 98, 127, 128, 129, 255, 256, 257, 352,
    ] {
        for labels in [vec![Vec::new(); count], short(count)] {
            for source in [&b".2N.N"[..], b"0N", b"1N"] {
                let batch = Batch::of(source, &labels);
                calls.push(batch.call());
                calls.push(batch.with(|batch| _ = batch.ends.pop()));
                calls.push(batch.with(|batch| batch.ends.push(0)));
            }
        }
    }
    calls
}

/// Verdicts and parts of every length about the one needed, and none at all.
fn outputs() -> Vec<Call> {
    let mut calls = Vec::new();
    for (version, source) in [
        (VERSION_2, b".3N".to_vec()),
        (VERSION_1, b".N1.N.A".to_vec()),
        (VERSION_1, many_parts(VERSION_1.atoms_most)),
        (VERSION_2, many_parts(VERSION_2.atoms_most)),
    ] {
        for count in [1, 2, 5, 96] {
            let batch = Batch::in_version(version, &source, &short(count));
            let about = |len: usize| [0, len / 2, len - 1, len, len + 1, len + 200];
            for verdicts_len in about(batch.verdicts_len) {
                calls.push(batch.with(|batch| batch.verdicts_len = verdicts_len));
            }
            for parts_len in about(batch.parts_len) {
                calls.push(batch.with(|batch| batch.parts_len = parts_len));
            }
            calls.push(batch.with(|batch| {
                batch.verdicts_len -= 1;
                batch.parts_len -= 1;
            }));
        }
    }
    calls
}

/// Each byte of the ends changed to each other value; every cut of them; buffers of every length.
fn ends() -> Vec<Call> {
    let labels = [b"12".to_vec(), Vec::new(), b"345".to_vec(), b"6a".to_vec()];
    let batch = Batch::of(b".2N.N", &labels);
    let mut calls = Vec::new();
    for at in 0..batch.ends.len() {
        for byte in 0..=255 {
            calls.push(batch.with(|batch| batch.ends[at] = byte));
        }
        calls.push(batch.with(|batch| batch.ends.truncate(at)));
    }
    for len in 0..20 {
        calls.push(batch.with(|batch| batch.labels.resize(len, b'7')));
    }
    calls
}

/// In a batch of 96, each end in turn one less than the one before, equal to it and past the buffer.
fn each_end() -> Vec<Call> {
    let batch = Batch::of(b"1.2N", &vec![b"12".to_vec(); 96]);
    let mut calls = Vec::new();
    for k in 0..96_usize {
        let before = 2 * k;
        for end in [before.saturating_sub(1), before, 191, 192, 193, 65_535] {
            let change = |batch: &mut Batch| {
                let end = (end as u16).to_le_bytes();
                batch.ends[2 * k..2 * k + 2].copy_from_slice(&end)
            };
            calls.push(batch.with(change));
        }
    }
    calls
}

/// Labels of 254 to 300 bytes before, between and after short ones, with scratch for all and for
/// the short ones only.
fn long_labels() -> Vec<Call> {
    let mut calls = Vec::new();
    for len in [254, 255, 256, 257, 300, 511, 512] {
        for at in 0..3 {
            let mut labels = vec![b"x".to_vec(), b"5".to_vec()];
            labels.insert(at, [b"x".repeat(len - 1), b"5".to_vec()].concat());
            let batch = Batch::of(b"1.2N", &labels);
            calls.push(batch.call());
            calls.push(batch.with_scratch(batch.work(1)));
            calls.push(batch.with_scratch(batch.work(255) - 1));
            let open = Batch::of(b".\"x\".1N", &labels);
            calls.push(open.with(|batch| batch.budget = 1_000_000));
        }
    }
    calls
}

/// Labels of different lengths, under scratch and budgets that suffice for some of them.
fn some_refused() -> Vec<Call> {
    let digits = |len: usize| b"0123456789".repeat(2)[..len].to_vec();
    let mut calls = Vec::new();
    for (version, source) in [
        (VERSION_2, &b".2N.N"[..]),
        (VERSION_1, b".(1N,2A)1N"),
        (VERSION_1, b"1N.E"),
    ] {
        for lens in [[0, 1, 2, 3, 5, 8], [8, 5, 3, 2, 1, 0], [3, 8, 0, 5, 1, 2]] {
            let mut labels: Vec<Vec<u8>> = lens.map(digits).to_vec();
            labels.insert(3, b"12-".to_vec());
            let batch = Batch::in_version(version, source, &labels);
            for len in lens {
                calls.push(batch.with_scratch(batch.work(len) - 1));
                calls.push(batch.with_scratch(batch.work(len)));
                let room = batch.scratch_len;
                let exact =
                    second::match_label(&batch.table, &digits(len), room, PARTS_MOST, u64::MAX);
                for budget in [exact.trials.saturating_sub(1), exact.trials] {
                    calls.push(batch.with(|batch| batch.budget = budget));
                    calls.push(batch.with(|batch| {
                        batch.budget = budget;
                        batch.scratch_len -= 1;
                    }));
                }
            }
            calls.push(batch.with_scratch(0));
        }
    }
    calls
}

/// Tables that aren't good or are others, alone and beside a fault that comes after theirs.
fn tables() -> Vec<Call> {
    let batch = Batch::of(b".N1.N.A", &short(3));
    let mut calls = Vec::new();
    for table in changed_tables().into_iter().step_by(21) {
        calls.push(batch.with(|batch| batch.table = table.clone()));
        calls.push(batch.with(|batch| {
            batch.table = table;
            batch.ends.push(0);
        }));
    }
    for len in 0..batch.table.len() {
        calls.push(batch.with(|batch| batch.table.truncate(len)));
    }
    calls.push(batch.with(|batch| batch.table.push(0)));
    calls
}

/// Lengths that 16 bits wrap to others: buffers, ends and outputs; and labels at a buffer's far end.
fn wrapped() -> Vec<Call> {
    let batch = Batch::of(b".2N.N", &short(5));
    let mut calls = Vec::new();
    for more in [0, 1, 2, 5, 10, 19] {
        let len = 65_536 + more;
        calls.push(batch.with(|batch| batch.labels.resize(len, b'7')));
        calls.push(batch.with(|batch| batch.verdicts_len = len));
        calls.push(batch.with(|batch| batch.parts_len = len));
        calls.push(batch.with(|batch| {
            batch.ends.resize(len, 0);
            batch.verdicts_len = len;
            batch.parts_len = 4 * len;
        }));
        calls.push(batch.with(|batch| {
            batch.ends = vec![0; 65_536 + len];
            batch.verdicts_len = len;
            batch.parts_len = 4 * len;
        }));
    }
    for len in [65_533, 65_534, 65_535, 65_536, 70_000] {
        calls.push(batch.with(|batch| {
            batch.labels = b"7".repeat(len);
            batch.ends = ends_of(&[3, 65_530, 65_533, 65_533, 65_535]);
        }));
    }
    calls
}

/// Answer areas of every length about the one needed, of batches with each refusal.
pub fn areas() -> Vec<Case> {
    let batch = Batch::of(b".2N.N", &short(5));
    let calls = [
        batch.call(),
        batch.with(|batch| batch.table.push(0)),
        batch.with(|batch| batch.ends.push(0)),
        Batch::of(b"1N", &[]).call(),
    ];
    let mut cases = Vec::new();
    for answer_len in (0..=40).chain([65_536, 65_567, 65_568]) {
        for call in calls.clone() {
            cases.push(Case {
                call,
                answer_len,
                dirt: 2,
            });
        }
    }
    cases
}

pub fn batches() -> Vec<Call> {
    let lists = [
        counts(),
        outputs(),
        ends(),
        each_end(),
        long_labels(),
        some_refused(),
        tables(),
        wrapped(),
    ];
    lists.concat()
}
