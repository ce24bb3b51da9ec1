//! (i): a search in a register of 256 patterns, of which 3, 26 and 256 can fit the label by their
//! summaries, beside calls in turn of the same library, by number and with the tables themselves, and
//! beside plain Rust's search, with and without the test of the buffer. The searches are timed at four placements each, as in (c). A
//! library without a search has no rows.

use crate::plain_registers::{search, Searched};
use crate::proved::Search;
use crate::registers::{filled, own_plain, LIBRARY};
use crate::rounds::{median, placements, Rounds};
use crate::tables::table_of;
use crate::{plain, proved};
use std::hint::black_box;

const NUMBERS: usize = 256;

/// Of 256 patterns 1, 10 and 100 percent.
const FITTING: [usize; 3] = [3, 26, NUMBERS];

/// A label and patterns for it: one that it satisfies, some that only fit it by their summaries, and
/// some that don't by length or by first byte.
struct Kinds {
    label: Vec<u8>,
    satisfied: &'static str,
    fitting: [&'static str; 4],
    ruled_out: [&'static str; 4],
}

fn case() -> Kinds {
    Kinds {
        label: b"S24-012345".to_vec(),
        satisfied: "1U2N1\"-\"1.6N",
        fitting: [
            "1U2N1\"/\"1.6N",
            "1U2N1\"-\"1.6A",
            ".U.N1\"-\".L",
            "1(1\"S\",1\"H\")2N1\"-\"1.5N1P",
        ],
        ruled_out: [
            "1U2N1\"-\"1.5N",
            "1L2N1\"-\"1.6N",
            "1U2N1\"-\"7N",
            "1(1\"C\",1\"H\")2N1\"-\"1.6N",
        ],
    }
}

fn price() -> Kinds {
    Kinds {
        label: format!("123.45{}", "U".repeat(54)).into_bytes(),
        satisfied: "3N1\".\"2N.U",
        fitting: [
            "3N1\",\"2N.U",
            "3N1\".\"2N.L",
            ".N1\"-\".E",
            "3N1(1\",\",1\";\")2N.U",
        ],
        ruled_out: [
            "3N1\".\"2N.53U",
            "1U2N1\".\"2N.U",
            "3N1\".\"2N55.U",
            "1(1\"$\",1\"#\")2N1\".\"2N.U",
        ],
    }
}

impl Kinds {
    /// 256 tables, of which so many fit, at equal distances; the last one does, and is the one that
    /// the label satisfies if any is.
    fn tables(&self, fitting: usize, satisfied: bool) -> Vec<Vec<u8>> {
        let before = |k: usize| k * fitting / NUMBERS;
        let source = |k: usize| match before(k + 1) - before(k) {
            1 if satisfied && k + 1 == NUMBERS => self.satisfied,
            1 => self.fitting[before(k) % 4],
            _ => self.ruled_out[(k - before(k)) % 4],
        };
        (0..NUMBERS)
            .map(|k| table_of(source(k).as_bytes()))
            .collect()
    }
}

/// Calls in turn from number 0 on, up to the first that matches; they know of no summaries.
fn in_turn(register: &[u8], label: &[u8], scratch: &mut [u8], parts: &mut [u8]) -> Searched {
    for number in 0..=255 {
        let found = proved::register_match(register, number, label, scratch, parts, u64::MAX);
        if found.unwrap().0 {
            return Searched {
                yes: true,
                number,
                ..Searched::default()
            };
        }
    }
    Searched::default()
}

/// The same with the tables themselves: a match for each, and neither register nor summary is looked at.
fn with_tables(register: &[u8], label: &[u8], scratch: &mut [u8], parts: &mut [u8]) -> Searched {
    let mut at = 8 + 44 * NUMBERS;
    for number in 0..=255u8 {
        let slot = 8 + 44 * usize::from(number);
        let length = u32::from_le_bytes(register[slot..slot + 4].try_into().unwrap()) as usize;
        let table = &register[at..at + length];
        if proved::match_label(table, label, scratch, parts, u64::MAX).unwrap().0 {
            return Searched {
                yes: true,
                number,
                ..Searched::default()
            };
        }
        at += length;
    }
    Searched::default()
}

/// A way to search, with what it is lent: scratch with some to spare, and parts. All is set before
/// the first call.
struct Run {
    way: Search,
    scratch: Vec<u8>,
    parts: [u8; 16],
}

/// A label's register, and the answer of a search there.
struct Row {
    label: Vec<u8>,
    register: Vec<u8>,
    work: usize,
    answer: Searched,
}

impl Row {
    fn of(kinds: &Kinds, fitting: usize, satisfied: bool) -> Self {
        let tables = kinds.tables(fitting, satisfied);
        let register = filled(&LIBRARY, &tables);
        assert!(register == filled(&own_plain(), &tables));
        let label = kinds.label.clone();
        let works = tables.iter().map(|table| plain::work(table, label.len()));
        Row {
            work: works.max().unwrap(),
            answer: Searched {
                refusal: 0,
                yes: satisfied,
                number: if satisfied { 255 } else { 0 },
                skipped: (NUMBERS - fitting) as u64,
            },
            label,
            register,
        }
    }

    /// The last two ways, the calls in turn, say of none that it was skipped; otherwise all ways give
    /// the same answer, parts and scratch.
    fn time<const WAYS: usize>(&self, ways: [Search; WAYS], rounds: usize) -> Rounds<WAYS> {
        let mut runs = ways.map(|way| Run {
            way,
            scratch: vec![255; self.work + 100],
            parts: [255; 16],
        });
        for (at, run) in runs.iter_mut().enumerate() {
            let mut answer = self.answer;
            if at + 2 >= WAYS {
                answer.skipped = 0;
            }
            assert_eq!(self.search(run), answer);
        }
        let first = &runs[0];
        let same = |run: &Run| run.scratch == first.scratch && run.parts == first.parts;
        assert!(runs.iter().all(same));
        let mut calls = runs
            .each_mut()
            .map(|run| move || _ = black_box(self.search(run)));
        let calls = calls.each_mut().map(|call| call as &mut dyn FnMut());
        Rounds::of_unlike(rounds, calls)
    }

    fn search(&self, run: &mut Run) -> Searched {
        let label = black_box(&self.label);
        (run.way)(&self.register, label, &mut run.scratch, &mut run.parts)
    }
}

fn search_row(library: [Search; 4], row: &Row, fitting: usize, rounds: usize) {
    let ways = [
        library[0],
        library[1],
        library[2],
        library[3],
        search::<true, 0>,
        search::<true, 1>,
        search::<true, 2>,
        search::<true, 3>,
        search::<false, 0>,
        search::<false, 1>,
        search::<false, 2>,
        search::<false, 3>,
        with_tables,
        in_turn,
    ];
    let timed = row.time(ways, rounds);
    let matches = if row.answer.yes { "last" } else { "none" };
    print!("{:>3}{fitting:>5}  {matches:<5}", row.label.len());
    let times = timed.times();
    for way in times[..12].chunks(4).chain(times[12..].chunks(1)) {
        print!("{:>11.1}", median(way.to_vec()) / 1e3);
    }
    for turn in [12, 13] {
        let [_, to_turn, _] = timed.ratios((0..4).map(|place| (place, turn)));
        print!("{to_turn:>9.4}");
    }
    for plain in [4, 8] {
        let [least, middle, greatest] = timed.ratios(placements(0, plain));
        print!("{least:>8.2}{middle:>8.2}{greatest:>10.2}");
    }
    println!();
}

pub fn searches(rounds: usize) {
    println!("\n(i) a search in 256 patterns, microseconds a call; ratios to calls in turn, to plain Rust's search, and to that without the test");
    let Some(library) = proved::SEARCHES else {
        return println!("not run: this library has no search");
    };
    print!("{:>3}{:>5}  {:<5}", "n", "fit", "match");
    for way in ["search", "plain", "untested", "tables", "in turn"] {
        print!("{way:>11}");
    }
    print!("{:>9}{:>9}", "to table", "to turn");
    for _ in 0..2 {
        print!("{:>8}{:>8}{:>10}", "least", "median", "greatest");
    }
    println!();
    // A call takes up to half a second on the longer label.
    for (kinds, rounds) in [(case(), rounds), (price(), rounds.min(3))] {
        for fitting in FITTING {
            for satisfied in [true, false] {
                let row = Row::of(&kinds, fitting, satisfied);
                search_row(library, &row, fitting, rounds);
            }
        }
    }
}
