//! (c) and (d): matching. In (c) the times of the library and of plain Rust are medians over four
//! placements of each, and the ratios are the least, median and greatest of the 16 pairs.

use crate::rounds::{median, placements, Rounds};
use crate::tables::table_of;
use crate::{clock, naive, plain, proved};
use std::hint::black_box;

/// A way to match: the library, plain Rust, or plain Rust with the unchecked loop.
type Way = fn(&[u8], &[u8], &mut [u8], &mut [u8], u64) -> Result<plain::Verdict, plain::Refusal>;

/// The trials of a match, and the times of each way.
fn time_match<const WAYS: usize>(
    table: &[u8],
    label: &[u8],
    ways: [Way; WAYS],
    rounds: usize,
) -> (u64, Rounds<WAYS>) {
    let work = plain::work(table, label.len());
    let (mut scratch, mut parts) = (vec![0; work], [0; 128]);
    let found = ways[0](table, label, &mut scratch, &mut parts, u64::MAX);
    // Every way gives the same answer and parts.
    let mut runs = ways.map(|way| (way, vec![0; work], [0; 128]));
    let mut calls = runs.each_mut().map(|(way, scratch, parts)| {
        move || {
            let budget = black_box(u64::MAX);
            assert_eq!(way(table, black_box(label), scratch, parts, budget), found)
        }
    });
    let calls = calls.each_mut().map(|call| call as &mut dyn FnMut());
    let timed = Rounds::of(rounds, calls);
    assert!(runs.iter().all(|run| run.2 == parts));
    (found.unwrap().1, timed)
}

/// The lengths of labels, each with its number of rounds.
pub fn matching(lens: &[(usize, usize)]) {
    println!("\n(c) matching, ns a trial; ratios to plain over the placements");
    println!(
        "{:<16}{:>5}{:>12}{:>10}{:>10}{:>10}{:>10}{:>10}{:>10}",
        "pattern", "n", "trials", "library", "plain", "unsafe", "least", "median", "greatest"
    );
    let digits = |n: usize| (0..n).map(|at| b'0' + (at % 10) as u8).collect::<Vec<u8>>();
    let mixed = |n: usize| (0..n).map(|at| b"12ab3c"[at % 6]).collect::<Vec<u8>>();
    let price = |n: usize| {
        (0..n)
            .map(|at| *b"123.45".get(at).unwrap_or(&b'U'))
            .collect::<Vec<u8>>()
    };
    type Label<'l> = &'l dyn Fn(usize) -> Vec<u8>;
    let rows: [(&str, Label); 4] = [
        (".E", &digits),
        (".(.(.N,.A))", &mixed),
        ("3N1\".\"2N.U", &price),
        (".N.A.N1\"!\"", &digits),
    ];
    for (source, label) in rows {
        for &(n, rounds) in lens {
            matching_row(source, &label(n), rounds);
        }
    }
}

fn matching_row(source: &str, label: &[u8], rounds: usize) {
    let ways: [Way; 9] = [
        proved::match_label_at::<0>,
        proved::match_label_at::<1>,
        proved::match_label_at::<2>,
        proved::match_label_at::<3>,
        plain::match_label_at::<0>,
        plain::match_label_at::<1>,
        plain::match_label_at::<2>,
        plain::match_label_at::<3>,
        plain::match_label_unchecked,
    ];
    let (trials, timed) = time_match(&table_of(source.as_bytes()), label, ways, rounds);
    let times = timed.times().map(|time| time / trials as f64);
    let (library, plain) = (median(times[..4].to_vec()), median(times[4..8].to_vec()));
    let [least, middle, greatest] = timed.ratios(placements(0, 4));
    println!(
        "{source:<16}{:>5}{trials:>12}{library:>10.3}{plain:>10.3}{:>10.3}{least:>10.2}{middle:>10.2}{greatest:>10.2}",
        label.len(),
        times[8],
    );
}

/// `.(.(.(.N,.A)))1"!"` for the backtracking matcher.
fn group_of_groups() -> Vec<naive::Atom> {
    use naive::{Atom, Pattern};
    let any = |body| Atom {
        low: 0,
        high: usize::MAX,
        body,
    };
    let digit = any(Pattern::Code(|byte| byte.is_ascii_digit()));
    let letter = any(Pattern::Code(|byte| byte.is_ascii_alphabetic()));
    let inner = any(Pattern::Group(vec![vec![digit], vec![letter]]));
    let middle = any(Pattern::Group(vec![vec![inner]]));
    let outer = any(Pattern::Group(vec![vec![middle]]));
    vec![
        outer,
        Atom {
            low: 1,
            high: 1,
            body: Pattern::Byte(b'!'),
        },
    ]
}

/// Three rounds, since the longest calls take seconds.
pub fn groups_of_groups(lens: &[usize]) {
    let source = ".(.(.(.N,.A)))1\"!\"";
    println!("\n(d) {source} on digits ended by -!, milliseconds a call");
    println!(
        "{:>5}{:>14}{:>14}{:>12}{:>12}{:>8}{:>14}{:>14}",
        "n", "bound", "trials", "library", "plain", "ratio", "backtracking", "its steps"
    );
    let table = table_of(source.as_bytes());
    let pattern = group_of_groups();
    let mut stopped = false;
    for &n in lens {
        let label = [vec![b'1'; n - 2], b"-!".to_vec()].concat();
        let ways: [Way; 2] = [proved::match_label, plain::match_label];
        let (trials, timed) = time_match(&table, &label, ways, 3);
        let [library, plain] = timed.times().map(|time| time / 1e6);
        let bound =
            plain::atoms(&table) as u64 * ((n + 1) * (n + 1) * (n + 2) * (n + 3) / 6) as u64;
        let ratio = timed.ratio(0, 1);
        print!("{n:>5}{bound:>14}{trials:>14}{library:>12.3}{plain:>12.3}{ratio:>8.2}");
        if stopped {
            println!("{:>14}{:>14}", "-", "-");
            continue;
        }
        let start = clock::nanoseconds();
        let mut search = naive::Search::new(&label, start + 10_000_000_000);
        assert!(!search.run(&pattern));
        stopped = search.stopped;
        let time = (clock::nanoseconds() - start) as f64 / 1e6;
        let shown = if stopped {
            "over 10 s".to_string()
        } else {
            format!("{time:.3}")
        };
        println!("{shown:>14}{:>14}", search.steps);
    }
}
