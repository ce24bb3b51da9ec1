//! Compares libmpt.a with the second program, call by call.
//!
//! compare [COUNT] [--sequences COUNT] [--quick] [--seed N] [--dearest TRIALS] [--margin BYTES] [--lines]
//!         [--generated]
//! compare --replay [LINE]    without LINE it is read from standard input

mod batches;
mod call;
mod cases;
mod comparison;
mod expected;
mod fixed;
mod lent;
mod long;
mod registers;
mod searches;
mod sequences;
mod tables;
mod versions;

use call::{Batch, Call, Case};
use comparison::compare;
use expected::Expected;
use generate::Random;
use second::Register;
use sequences::Sequence;
use std::collections::BTreeMap;
use std::io::read_to_string;
use std::process::exit;
use tables::search_trials;

/// Odd, so that no lent slice is aligned.
const MARGIN: usize = 61;

struct Options {
    count: u64,
    /// How many calls are made on registers in sequences; if not named, a tenth of the count.
    sequences: Option<u64>,
    seed: u64,
    /// The most trials of one match; if not named, the generated ones have a limit of their own.
    dearest: Option<u64>,
    /// Bytes kept on both sides of every lent slice; 0 for a run under valgrind.
    margin: usize,
    quick: bool,
    /// Leave the fixed lists out.
    generated: bool,
    /// Print each call before it is made.
    lines: bool,
}

fn options() -> Options {
    let mut options = Options {
        count: 1_000_000,
        sequences: None,
        seed: 1,
        dearest: None,
        margin: MARGIN,
        quick: false,
        generated: false,
        lines: false,
    };
    let mut words = std::env::args().skip(1);
    while let Some(word) = words.next() {
        let mut number = || -> u64 {
            let value = words.next().and_then(|value| value.parse().ok());
            value.unwrap_or_else(|| fail(&format!("{word} takes a number")))
        };
        match word.as_str() {
            "--quick" => (options.count, options.quick) = (100_000, true),
            "--sequences" => options.sequences = Some(number()),
            "--seed" => options.seed = number(),
            "--dearest" => options.dearest = Some(number()),
            "--margin" => options.margin = number() as usize,
            "--lines" => options.lines = true,
            "--generated" => options.generated = true,
            "--replay" => replay(&words.collect::<Vec<_>>().join(" ")),
            _ => {
                options.count = word
                    .parse()
                    .unwrap_or_else(|_| fail(&format!("{word} isn't known")))
            }
        }
    }
    options
}

fn fail(message: &str) -> ! {
    eprintln!("{message}");
    exit(2)
}

fn replay(given: &str) -> ! {
    let line = match given {
        "" => read_to_string(std::io::stdin()).unwrap_or_default(),
        _ => given.to_string(),
    };
    let case = Case::parse(&line).unwrap_or_else(|| fail("not a line of a call"));
    match compare(&case, MARGIN) {
        Ok(Expected { number, result, .. }) => println!("same: number {number}, result {result}"),
        Err(difference) => {
            println!("{difference}");
            exit(1)
        }
    }
    exit(0)
}

/// How often each kind of call gave each number; a match without refusal counts by its verdict.
#[derive(Default)]
struct Tally {
    calls: BTreeMap<(&'static str, u32), u64>,
    /// How often a label of a batch got each byte.
    verdicts: BTreeMap<u8, u64>,
    /// How many patterns the searches skipped.
    skipped: u64,
}

impl Tally {
    /// Makes a call and gives what both sides answer; a difference ends the run.
    fn make(&mut self, case: &Case, options: &Options) -> Expected {
        if options.lines {
            println!("{case}");
        }
        let answered = compare(case, options.margin).unwrap_or_else(|found| differ(&found, case));
        let kind = kind_of(&case.call, &answered);
        *self.calls.entry((kind, answered.number)).or_default() += 1;
        for verdict in &answered.verdicts {
            *self.verdicts.entry(*verdict).or_default() += 1;
        }
        self.skipped += answered.fourth;
        answered
    }

    fn print(&self) {
        for kind in KINDS {
            let counts = self.calls.iter().filter(|((of, _), _)| *of == kind);
            print_counts(kind, counts.map(|((_, number), count)| (*number, *count)));
        }
        let verdicts = self.verdicts.iter();
        print_counts(
            "labels of batches",
            verdicts.map(|(verdict, count)| (u32::from(*verdict), *count)),
        );
        println!("patterns skipped by searches: {}", self.skipped);
        println!("{} calls, no difference", self.calls.values().sum::<u64>());
    }
}

const KINDS: [&str; 15] = [
    "compile",
    "write back",
    "match yes",
    "match no",
    "match refused",
    "batch",
    "init",
    "store",
    "remove",
    "match by number yes",
    "match by number no",
    "match by number refused",
    "search yes",
    "search no",
    "search refused",
];

fn kind_of(call: &Call, answered: &Expected) -> &'static str {
    let ending = match answered.number {
        0 if answered.result == 1 => 0,
        0 => 1,
        _ => 2,
    };
    KINDS[match call {
        Call::Compile { .. } => 0,
        Call::WriteBack { .. } => 1,
        Call::Match { .. } => 2 + ending,
        Call::Batch(_) => 5,
        Call::Init { .. } => 6,
        Call::Store { .. } => 7,
        Call::Remove { .. } => 8,
        Call::MatchNumber { .. } => 9 + ending,
        Call::Search { .. } => 12 + ending,
    }]
}

fn differ(found: &str, case: &Case) -> ! {
    println!("difference: {found}\n{case}");
    exit(1)
}

fn print_counts(name: &str, counts: impl Iterator<Item = (u32, u64)>) {
    let text: Vec<String> = counts
        .map(|(number, count)| format!("{number}: {count}"))
        .collect();
    println!("{name}: {}", text.join(", "));
}

/// Whether a call makes more trials than `most` on a label; of a search whether it might.
fn exceeds(case: &Case, most: u64) -> bool {
    if let Call::Search {
        register, label, ..
    } = &case.call
    {
        let over = |kept: Register| label.len() <= 255 && search_trials(&kept, label) > most;
        return Register::read(register).is_some_and(over);
    }
    if case.call.budget().is_none_or(|budget| budget <= most) {
        return false;
    }
    let ample = usize::MAX;
    let over = |label: &&[u8]| {
        let matched = match &case.call {
            Call::Match { table, .. } | Call::Batch(Batch { table, .. }) => {
                second::match_label(table, label, ample, ample, most)
            }
            Call::MatchNumber {
                register, number, ..
            } => second::register_match(register, *number, label, ample, ample, most),
            _ => return false,
        };
        matched.number == second::BUDGET
    };
    case.call.labels().iter().any(over)
}

/// Makes calls on registers in sequences, each beside a plain map.
fn make_sequences(tally: &mut Tally, options: &Options) {
    let mut left = options.sequences.unwrap_or(options.count / 10);
    let mut index = 0;
    while left > 0 {
        let mut sequence = Sequence::new(options.seed, index);
        let len = left.min(sequence.len);
        for _ in 0..len {
            let case = sequence.next_case();
            let answered = tally.make(&case, options);
            let meant = sequence.take_over(&case, &answered);
            meant.unwrap_or_else(|found| differ(&found, &case));
        }
        left -= len;
        index += 1;
    }
}

fn main() {
    let options = options();
    let mut tally = Tally::default();
    if !options.generated {
        let affordable = |case: &Case| options.dearest.is_none_or(|most| !exceeds(case, most));
        for case in fixed::fixed(options.quick).filter(affordable) {
            tally.make(&case, &options);
        }
    }
    let usual = if options.quick { 2_000_000 } else { 40_000_000 };
    let dearest = options.dearest.unwrap_or(usual);
    for index in 0..options.count {
        let mut random = Random::new(options.seed << 40 ^ index << 2);
        let case = cases::case(&mut random, dearest);
        tally.make(&case, &options);
    }
    make_sequences(&mut tally, &options);
    tally.print();
}
