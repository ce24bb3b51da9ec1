//! (f): 96 labels in one call, beside as many single calls of the same copy of the library, and
//! beside plain Rust's batch; each at four placements.

use crate::rounds::{median, placements, Rounds};
use crate::tables::table_of;
use crate::{plain, proved};
use library::Batch;
use std::hint::black_box;

const LABELS: usize = 96;

/// A way to answer a batch.
type Way = fn(Batch) -> Result<(), plain::Refusal>;

/// Labels of one length for one pattern without groups.
struct Row {
    name: &'static str,
    table: Vec<u8>,
    labels: Vec<u8>,
    ends: Vec<u8>,
    len: usize,
}

/// What a way has written.
#[derive(Clone, PartialEq)]
struct Outputs {
    scratch: Vec<u8>,
    verdicts: Vec<u8>,
    parts: Vec<u8>,
}

impl Row {
    fn of(name: &'static str, source: &[u8], label: impl Fn(usize) -> String) -> Self {
        let all: Vec<String> = (0..LABELS).map(label).collect();
        let len = all[0].len();
        let ends = (1..=LABELS).flat_map(|k| ((k * len) as u16).to_le_bytes());
        Row {
            name,
            table: table_of(source),
            labels: all.concat().into_bytes(),
            ends: ends.collect(),
            len,
        }
    }

    fn outputs(&self) -> Outputs {
        Outputs {
            scratch: vec![0; plain::work(&self.table, self.len)],
            verdicts: vec![255; LABELS],
            parts: vec![255; LABELS * part_bytes(&self.table)],
        }
    }

    fn answer(&self, way: Way, outputs: &mut Outputs) {
        let batch = Batch {
            table: &self.table,
            labels: black_box(&self.labels),
            ends: &self.ends,
            scratch: &mut outputs.scratch,
            verdicts: &mut outputs.verdicts,
            parts: &mut outputs.parts,
            budget: black_box(u64::MAX),
        };
        assert_eq!(way(batch), Ok(()));
    }

    /// Every way gives the same answers and parts, yes for every label.
    fn time<const WAYS: usize>(&self, ways: [Way; WAYS], rounds: usize) -> Rounds<WAYS> {
        let mut found = self.outputs();
        self.answer(ways[0], &mut found);
        assert_eq!(found.verdicts, [1; LABELS], "{}", self.name);
        let mut runs = ways.map(|way| (way, self.outputs()));
        let mut calls = runs
            .each_mut()
            .map(|(way, outputs)| move || self.answer(*way, outputs));
        let calls = calls.each_mut().map(|call| call as &mut dyn FnMut());
        let timed = Rounds::of(rounds, calls);
        assert!(runs.iter().all(|(_, outputs)| *outputs == found));
        timed
    }
}

/// The bytes of the parts of a pattern without groups.
fn part_bytes(table: &[u8]) -> usize {
    2 * plain::atoms(table)
}

/// The labels of a batch by single calls of the library, with the part bytes of each.
fn single_calls<const PLACE: usize>(batch: Batch) -> Result<(), plain::Refusal> {
    let part_bytes = part_bytes(batch.table);
    let mut begin = 0;
    for (k, end) in batch.ends.as_chunks().0.iter().enumerate() {
        let end = usize::from(u16::from_le_bytes(*end));
        let parts = &mut batch.parts[k * part_bytes..][..part_bytes];
        let label = &batch.labels[begin..end];
        batch.verdicts[k] = plain::verdict_byte(proved::match_label_at::<PLACE>(
            batch.table,
            label,
            batch.scratch,
            parts,
            batch.budget,
        ));
        begin = end;
    }
    Ok(())
}

fn rows() -> [Row; 7] {
    let digits = |len: usize| move |k: usize| "0123456789".repeat(16)[k % 10..][..len].to_string();
    let price = |len: usize| move |k: usize| format!("{k:03}.{k:02}{}", "U".repeat(len - 6));
    let case = |k: usize| format!("S24-{:06}", 12_345 + 37 * k);
    [
        Row::of("2N", b"2N", digits(2)),
        Row::of(".N 64 times", &b".N".repeat(64), digits(2)),
        Row::of("1U2N1\"-\"1.6N", b"1U2N1\"-\"1.6N", case),
        Row::of("3N1\".\"2N.U", b"3N1\".\"2N.U", price(10)),
        Row::of("3N1\".\"2N.U", b"3N1\".\"2N.U", price(60)),
        Row::of(".E", b".E", digits(10)),
        Row::of(".E", b".E", digits(60)),
    ]
}

pub fn batches(rounds: usize) {
    println!("\n(f) a batch of 96 labels, ns a label; ratios of the batch to single calls and to plain Rust's batch");
    println!(
        "{:<16}{:>5}{:>10}{:>10}{:>10}{:>10}{:>8}{:>10}{:>10}{:>8}{:>10}",
        "pattern",
        "n",
        "batch",
        "single",
        "plain",
        "least",
        "median",
        "greatest",
        "least",
        "median",
        "greatest"
    );
    for row in rows() {
        batch_row(&row, rounds);
    }
}

fn batch_row(row: &Row, rounds: usize) {
    let ways: [Way; 12] = [
        proved::match_batch_at::<0>,
        proved::match_batch_at::<1>,
        proved::match_batch_at::<2>,
        proved::match_batch_at::<3>,
        single_calls::<0>,
        single_calls::<1>,
        single_calls::<2>,
        single_calls::<3>,
        plain::match_batch_at::<0>,
        plain::match_batch_at::<1>,
        plain::match_batch_at::<2>,
        plain::match_batch_at::<3>,
    ];
    let timed = row.time(ways, rounds);
    let times = timed.times().map(|time| time / LABELS as f64);
    print!("{:<16}{:>5}", row.name, row.len);
    for way in times.chunks(4) {
        print!("{:>10.1}", median(way.to_vec()));
    }
    let to_single = timed.ratios((0..4).map(|place| (place, 4 + place)));
    let to_plain = timed.ratios(placements(0, 8));
    for [least, middle, greatest] in [to_single, to_plain] {
        print!("{least:>10.2}{middle:>8.2}{greatest:>10.2}");
    }
    println!();
}
