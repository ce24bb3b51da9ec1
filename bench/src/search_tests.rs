//! Summaries by hand and over all short strings, and the search beside calls in turn, of plain Rust;
//! and of the library, if it has a search.

use crate::plain::{compile, judge, split, work, work_of, Safe, TABLE};
use crate::plain_registers::{init, match_number, remove, search, store, tables_at};
use crate::plain_registers::{Searched, SLOT_1, SLOT_2};
use crate::plain_summaries::{summary, Summary};
use crate::proved;
use crate::tables::in_version_1;

fn table_of(source: &str) -> Vec<u8> {
    let mut table = vec![0; TABLE];
    let len = compile(source.as_bytes(), &mut table).unwrap();
    table.truncate(len);
    table
}

fn summary_of(source: &str) -> Summary {
    summary(&split(&table_of(source)).unwrap().0).0
}

fn set_of(bytes: impl IntoIterator<Item = u8>) -> [u64; 4] {
    let mut set = [0; 4];
    for byte in bytes {
        set[usize::from(byte / 64)] |= 1 << (byte % 64);
    }
    set
}

#[test]
fn summaries_by_hand() {
    let digits = || b'0'..=b'9';
    let rows = [
        ("2N", 2, 2, set_of(digits())),
        (".N", 0, 256, set_of(digits())),
        ("1.N", 1, 256, set_of(digits())),
        ("0N", 0, 0, set_of([])),
        ("0N1\"x\"", 1, 1, set_of(*b"x")),
        ("1\"\"", 0, 0, set_of([])),
        (".\"\"1\"x\"", 1, 1, set_of(*b"x")),
        ("9999.\"\"", 0, 0, set_of([])),
        ("255E", 255, 255, set_of(0..=255)),
        ("256E", 256, 256, set_of(0..=255)),
        ("9999E", 256, 256, set_of(0..=255)),
        ("128\"ab\"", 256, 256, set_of(*b"a")),
        ("127.128\"ab\"", 254, 256, set_of(*b"a")),
        (".3\"ab\"1U", 1, 7, set_of((b'A'..=b'Z').chain(*b"a"))),
        ("1(2N,1\"x\",.C)1\"!\"", 1, 256, {
            set_of(digits().chain(*b"x!").chain(0..=31).chain([127]))
        }),
        ("2(1(3N,1\"ab\"),.0L)", 0, 6, set_of(digits().chain(*b"a"))),
        ("3(1N,2N)2A", 5, 8, set_of(digits())),
        (".(.\"\")1P", 1, 1, {
            let others = (b' '..=b'~').filter(|byte| !byte.is_ascii_alphanumeric());
            set_of(others)
        }),
    ];
    for (source, shortest, longest, first) in rows {
        let expected = Summary {
            shortest,
            longest,
            first,
        };
        assert_eq!(summary_of(source), expected, "{source}");
    }
}

/// Patterns whose strings over `1`, `a` and `-` are at most four bytes long, or have a string of at
/// most four for each fact of the summary but an open length.
const SMALL: [&str; 12] = [
    "1N",
    "1.2N.1A",
    ".1\"a-\"2N",
    "2(1N,1A,1\"-\")",
    "1(.1N,1\"a1\").2P",
    ".2(1(1\"1\",2\"a\"),1P)",
    "0(1N).1A",
    "1\"\".2NP",
    ".N1\"-\"",
    ".(1A,1\"1-\")",
    "2\"-\"0.1(.1A.1N)",
    "1(0.0E,3.4L)",
];

#[test]
fn summaries_of_all_short_strings() {
    let mut strings = vec![vec![]];
    for len in 0..4 {
        let of_len: Vec<Vec<u8>> = strings.iter().filter(|s| s.len() == len).cloned().collect();
        for string in of_len {
            strings.extend(b"1a-".map(|byte| [&string[..], &[byte]].concat()));
        }
    }
    for source in SMALL {
        let bytes = table_of(source);
        let (table, _) = split(&bytes).unwrap();
        let satisfies = |label: &&Vec<u8>| {
            let mut scratch = vec![0; work(&bytes, label.len())];
            let judged = judge::<Safe, 0>(&table, label, &mut scratch, &mut [0; 64], u64::MAX);
            judged.unwrap().0
        };
        let found: Vec<&Vec<u8>> = strings.iter().filter(satisfies).collect();
        let lens = found.iter().map(|label| label.len() as u32);
        let Summary {
            shortest,
            longest,
            first,
        } = summary_of(source);
        assert_eq!(Some(shortest), lens.clone().min(), "{source}");
        assert_eq!(Some(longest.min(4)), lens.max(), "{source}");
        let begins = set_of(found.iter().filter_map(|label| label.first().copied()));
        let seen = set_of(*b"1a-");
        assert!(
            (0..4).all(|at| begins[at] == first[at] & seen[at]),
            "{source}"
        );
    }
}

/// Some patterns by their numbers; of two tables the version is 1.
fn filled() -> Vec<u8> {
    let kept = [
        (0, table_of("1U2N1\"-\"1.6N")),
        (3, in_version_1(&table_of("2N"))),
        (7, table_of(".(1.N,1\"x\"1A)1P")),
        (8, table_of("1.3(1(1N,1A),2\"ab\")")),
        (100, in_version_1(&table_of(".N"))),
        (101, table_of("1N1N1N1N1N1N1N1N1N1N")),
        (200, table_of(".E")),
        (255, table_of("1\"\"")),
    ];
    let bytes: usize = kept.iter().map(|(_, table)| table.len()).sum();
    let mut register = vec![7; tables_at(SLOT_2) + bytes + 20];
    init::<SLOT_2>(&mut register).unwrap();
    for (number, table) in &kept {
        store::<SLOT_2>(&mut register, *number, table).unwrap();
    }
    register
}

const LABELS: [&[u8]; 8] = [
    b"",
    b"1",
    b"42",
    b"S24-012345",
    b"x1a!",
    b"ababab",
    b"\xff\x00",
    b"0123456789",
];

/// Lent scratch and parts, set before the call.
type Lent = (Vec<u8>, Vec<u8>);

fn lent(scratch: usize, parts: usize) -> Lent {
    (vec![255; scratch], vec![255; parts])
}

/// A label that isn't too long by plain Rust's ordinary calls in turn on a good register; a missing
/// number is passed over, and skipped ones aren't counted.
fn in_turn(register: &[u8], label: &[u8], (scratch, parts): &mut Lent) -> Searched {
    for number in 0..=255 {
        let ended = |refusal, yes| Searched {
            refusal,
            yes,
            number,
            skipped: 0,
        };
        match match_number::<SLOT_2>(register, number, label, scratch, parts, u64::MAX) {
            Ok((true, _)) => return ended(0, true),
            Ok((false, _)) | Err((19, _)) => (),
            Err((refusal, _)) => return ended(refusal, false),
        }
    }
    Searched::default()
}

/// Registers of some of the patterns.
fn registers() -> Vec<Vec<u8>> {
    let mut all = vec![filled()];
    for gone in [
        &[200][..],
        &[200, 255],
        &[0, 8, 200, 255],
        &[0, 3, 7, 8, 100, 101, 200, 255],
    ] {
        let mut register = filled();
        for &number in gone {
            remove::<SLOT_2>(&mut register, number).unwrap();
        }
        all.push(register);
    }
    all
}

/// The answer of every way, and the lent bytes after it, which are the same.
fn searched(register: &[u8], label: &[u8], scratch: usize, parts: usize) -> (Searched, Lent) {
    let mut ways: Vec<proved::Search> = vec![search::<true, 0>, search::<false, 0>];
    ways.extend(proved::SEARCHES.into_iter().flatten());
    let answers = ways.into_iter().map(|way| {
        let mut after = lent(scratch, parts);
        let found = way(register, label, &mut after.0, &mut after.1);
        (found, after)
    });
    let answers: Vec<(Searched, Lent)> = answers.collect();
    assert!(answers.iter().all(|answer| *answer == answers[0]));
    answers[0].clone()
}

#[test]
fn a_search_is_calls_in_turn() {
    for register in registers() {
        for label in LABELS {
            // Enough for each atom count, and one less.
            let works = [0, 1, 4, 5, 7, 10].map(|atoms| work_of(atoms, label.len()));
            for scratch in works.into_iter().flat_map(|work| [work - 1, work]) {
                for parts in [0, 1, 2, 7, 8, 20] {
                    let mut expected = lent(scratch, parts);
                    let turn = in_turn(&register, label, &mut expected);
                    let (mut found, after) = searched(&register, label, scratch, parts);
                    assert!(found.refusal == 0 || found.skipped == 0);
                    found.skipped = 0;
                    assert_eq!(found, turn);
                    assert!(after == expected);
                }
            }
        }
    }
}

#[test]
fn a_long_label_is_refused_first() {
    for register in registers() {
        let (found, after) = searched(&register, &[b'1'; 256], 0, 0);
        let expected = Searched {
            refusal: 12,
            ..Searched::default()
        };
        assert_eq!((found, after), (expected, lent(0, 0)));
    }
    // Number 0 has no table here, and 255 bytes are no longer than a label may be.
    let register = &registers()[3];
    let (found, _) = searched(register, &[b'1'; 255], work_of(1, 255) - 1, 20);
    assert_eq!((found.refusal, found.number), (13, 3));
}

#[test]
fn skipped_are_those_looked_at_and_ruled_out() {
    let register = filled();
    let skipped = |register: &[u8], label: &[u8]| {
        let (found, _) = searched(register, label, 10_000, 20);
        (found.yes, found.number, found.skipped)
    };
    // The empty label is too short for 0, 3, 7 and 8.
    assert_eq!(skipped(&register, b""), (true, 100, 4));
    assert_eq!(skipped(&register, b"S24-012345"), (true, 0, 0));
    assert_eq!(skipped(&register, b"42"), (true, 3, 1));
    // Of 7 and 8 a label can begin with x, of 100 and 101 only with a digit.
    assert_eq!(skipped(&register, b"x"), (true, 8, 2));
    assert_eq!(skipped(&register, b"x??"), (true, 200, 4));
    let mut without = register.clone();
    remove::<SLOT_2>(&mut without, 200).unwrap();
    assert_eq!(skipped(&without, b"x??"), (false, 0, 5));
}

#[test]
fn a_changed_register_is_refused() {
    let register = filled();
    let tables = tables_at(SLOT_2);
    let refused = |register: &[u8]| {
        let (mut scratch, mut parts) = lent(10_000, 20);
        let plain = search::<true, 0>(register, b"42", &mut scratch, &mut parts);
        if let Some([library, ..]) = proved::SEARCHES {
            let found = library(register, b"42", &mut scratch, &mut parts);
            assert_eq!(found, plain);
        }
        plain
            == Searched {
                refusal: 18,
                ..Searched::default()
            }
    };
    assert!(!refused(&register));
    // Every byte of the directory counts, whether its number has a table or not.
    for at in 0..tables {
        let mut changed = register.clone();
        changed[at] ^= 1 << (at % 8);
        assert!(refused(&changed), "{at}");
    }
    assert!(refused(&register[..tables - 1]));
    let mut old = vec![0; tables];
    init::<SLOT_1>(&mut old).unwrap();
    assert!(refused(&old));
}
