//! Fixed calls that generated ones hardly reach: long labels with many parts, every set, lengths
//! past 16 bits, counts past 32 bits.

use crate::call::{Call, Case};
use crate::tables::{atom_count, table_of, work, ONE_ATOM, PARTS_MOST};
use generate::{Atom, Body};
use second::VERSION_2;

/// A match with the scratch that it needs and parts for the most atoms.
pub fn matching(table: Vec<u8>, label: Vec<u8>, budget: u64) -> Call {
    Call::Match {
        scratch_len: work(atom_count(&table), label.len().min(255)),
        parts_len: PARTS_MOST,
        table,
        label,
        budget,
    }
}

fn once(body: Body) -> Vec<u8> {
    let (low, high) = (1, Some(1));
    table_of(&[Atom { low, high, body }])
}

pub fn digits(len: usize) -> Vec<u8> {
    b"0123456789".repeat(26)[..len].to_vec()
}

/// Every set as a source, as a table and on every byte.
pub fn each_set() -> Vec<Call> {
    let mut calls = Vec::new();
    for set in 1..128 {
        let table = once(Body::Codes(set));
        let source = second::write_back(&table, 8).unwrap();
        calls.push(Call::Compile {
            source,
            table_len: ONE_ATOM,
        });
        for byte in 0..=255 {
            calls.push(matching(table.clone(), vec![byte], 4));
        }
        calls.push(Call::WriteBack {
            table,
            source_len: 8,
        });
    }
    calls
}

/// Labels of up to 255 bytes that match, most of them also with another last byte: one that only E takes, or `?` for `!`.
pub fn long_labels() -> Vec<Call> {
    let literal = |len| [b"1\"".to_vec(), b"x".repeat(len), b"\"".to_vec()].concat();
    let mut pairs = vec![
        (b"1N".repeat(64), digits(64)),
        (b".N".repeat(64), digits(21)),
        (b"1N".repeat(100), digits(100)),
        (b".1N".repeat(256), digits(40)),
        (b".N".repeat(256), digits(12)),
        (literal(255), b"x".repeat(255)),
        (
            [b"1N".repeat(63), literal(192)].concat(),
            [digits(63), b"x".repeat(192)].concat(),
        ),
        (b".E".to_vec(), digits(255)),
    ];
    for len in [60, 65, 100] {
        for source in [".E", "1.N", ".N.N", "30.50N1.99N"] {
            pairs.push((source.into(), digits(len)));
            pairs.push((source.into(), [&digits(len - 1)[..], b"\xc8"].concat()));
        }
        let words = b"12ab".repeat(25)[..len - 1].to_vec();
        for end in [b"!", b"?"] {
            pairs.push((b".(.N,.A)1\"!\"".to_vec(), [&words[..], end].concat()));
        }
    }
    let call = |(source, label): (Vec<u8>, _)| {
        let table = second::compile(&source, usize::MAX).unwrap();
        matching(table, label, u64::MAX)
    };
    pairs.into_iter().map(call).collect()
}

/// Inputs of a length that 16 bits wrap to a good one, and pools of as much as 65,535 bytes.
pub fn wrapped_inputs() -> Vec<Call> {
    let mut calls = Vec::new();
    for len in [0, 1, 2, 7, 100, 255, 256, 512, 2_030, 2_048].map(|more| 65_536 + more) {
        calls.push(Call::Compile {
            source: [b"1".to_vec(), b"N".repeat(len - 1)].concat(),
            table_len: ONE_ATOM,
        });
        let label = b"5".repeat(len);
        let table = second::compile(b".N", ONE_ATOM).unwrap();
        calls.push(Call::Match {
            table,
            label,
            scratch_len: 6 * 256 * 256,
            parts_len: 2,
            budget: 1_000_000,
        });
    }
    for pool in [
        65_535, 65_536, 65_537, 65_543, 65_791, 66_048, 67_566, 67_584,
    ] {
        // The lengths in the table are the pool's lowest 16 bits.
        let table = once(Body::Literal(b"x".repeat(pool)));
        for table in [table[..table.len() % 65_536].to_vec(), table] {
            let label = b"x".repeat(pool % 256);
            calls.push(matching(table.clone(), label, 10_000_000));
            calls.push(Call::WriteBack {
                table,
                source_len: VERSION_2.source_most,
            });
        }
    }
    calls
}

/// Rooms and answer areas of a length that 16 bits wrap to one too short.
pub fn wrapped_rooms() -> Vec<Case> {
    let mut cases = Vec::new();
    for more in [0, 1, 17, 23, 31] {
        let room = 65_536 + more;
        let table = once(Body::Codes(16));
        let calls = [
            Call::Compile {
                source: b"1N".to_vec(),
                table_len: room,
            },
            Call::WriteBack {
                table: table.clone(),
                source_len: room,
            },
            Call::Match {
                table,
                label: b"5".to_vec(),
                scratch_len: room,
                parts_len: room,
                budget: 3,
            },
        ];
        cases.extend(calls.map(|call| Case {
            call,
            answer_len: room,
            dirt: 1,
        }));
    }
    cases
}

/// More than 2^32 trials, within the budget and not; 255 atoms on as many bytes.
pub fn wide_counts() -> Vec<Call> {
    let pairs = [
        (b".E".repeat(7), u64::MAX),
        (b".E".repeat(7), (1 << 32) + 5),
        (b"1N".repeat(255), u64::MAX),
    ];
    let call = |(source, budget): (Vec<u8>, _)| {
        let table = second::compile(&source, usize::MAX).unwrap();
        matching(table, digits(255), budget)
    };
    pairs.map(call).to_vec()
}
