//! Fixed lists of calls.

use crate::batches::{areas, batches};
use crate::call::{Call, Case};
use crate::long::{each_set, long_labels, wide_counts, wrapped_inputs, wrapped_rooms};
use crate::registers::{register_areas, registers};
use crate::searches::searches;
use crate::tables::{table_in, ONE_ATOM};
use crate::versions::versions;
use generate::{Atom, Body};
use second::{VERSION_1, VERSION_2};

/// Every byte as a code, in a literal, before a code and after an atom.
fn each_byte() -> Vec<Call> {
    let mut calls = Vec::new();
    for byte in 0..=255 {
        for source in [
            vec![b'1', byte],
            vec![b'1', b'"', byte, b'"'],
            vec![byte, b'N'],
            vec![b'1', b'N', byte],
        ] {
            calls.push(Call::Compile {
                source,
                table_len: ONE_ATOM + 1,
            });
        }
    }
    calls
}

/// Repeat numbers about each change of their length, as sources and in tables.
fn each_count() -> Vec<Call> {
    let numbers = [
        0, 1, 2, 7, 9, 10, 11, 99, 100, 101, 255, 256, 999, 1_000, 9_998, 9_999, 10_000, 65_534,
        65_535,
    ];
    let mut calls = Vec::new();
    for low in numbers {
        for source in [
            format!("{low}N"),
            format!("{low}.N"),
            format!(".{low}N"),
            format!("000{low}N"),
        ] {
            calls.push(Call::Compile {
                source: source.into_bytes(),
                table_len: ONE_ATOM,
            });
        }
        for high in numbers {
            calls.push(Call::Compile {
                source: format!("{low}.{high}N").into_bytes(),
                table_len: ONE_ATOM,
            });
            for version in [VERSION_1, VERSION_2] {
                let (high, body) = (Some(high), Body::Codes(16));
                calls.push(Call::WriteBack {
                    table: table_in(version, &[Atom { low, high, body }]),
                    source_len: 10,
                });
            }
        }
    }
    calls
}

/// Numbers that first exceed 9,999 at each place of a source; about the last atom that the limits
/// of either version allow, such counts and those that fall, cut off at each place.
fn each_digit() -> Vec<Call> {
    let mut sources = Vec::new();
    for zeros in 0..=VERSION_2.source_most - 4 {
        let zeros = "0".repeat(zeros);
        sources.push(format!("{zeros}10000N"));
        sources.push(format!("9.{zeros}99999"));
    }
    let counts = [
        "20000N",
        ".10000N",
        "5.10000N",
        "0020000.3N",
        "9999.09998N",
        "9999.10000N",
        "10000.9999N",
        "20000.10000N",
        "5.3N",
    ];
    let about = |most: usize| most - 2..=most + 1;
    for atoms in about(VERSION_1.atoms_most).chain(about(VERSION_2.atoms_most)) {
        let atoms = "1N".repeat(atoms);
        for count in counts {
            sources.extend((0..=count.len()).map(|len| format!("{atoms}{}", &count[..len])));
        }
    }
    let compile = |source: String| Call::Compile {
        source: source.into_bytes(),
        table_len: VERSION_2.table_most(),
    };
    sources.into_iter().map(compile).collect()
}

/// The examples of the papers and what is made of every byte, set, count, digit, short source and
/// changed table, of both versions, the long calls, the batches, the registers and the searches; a quick run has fewer short sources
/// and no count past 32 bits.
pub fn fixed(quick: bool) -> impl Iterator<Item = Case> {
    let short = short_sources(if quick { 4 } else { 5 })
        .into_iter()
        .map(|source| Call::Compile {
            source,
            table_len: 60,
        });
    let calls = examples()
        .into_iter()
        .chain(each_byte())
        .chain(each_count())
        .chain(each_digit())
        .chain(each_set())
        .chain(short)
        .chain(changed_tables().into_iter().flat_map(of_changed))
        .chain(versions())
        .chain(long_labels())
        .chain(wrapped_inputs())
        .chain(batches())
        .chain(registers())
        .chain(searches())
        .chain(if quick { Vec::new() } else { wide_counts() });
    calls
        .map(|call| Case {
            call,
            answer_len: 32,
            dirt: 1,
        })
        .chain(wrapped_rooms())
        .chain(areas())
        .chain(register_areas())
}

/// A changed table written back and matched.
fn of_changed(table: Vec<u8>) -> [Call; 2] {
    let written = Call::WriteBack {
        table: table.clone(),
        source_len: 60,
    };
    let matched = Call::Match {
        table,
        label: b"a\"5bc".to_vec(),
        scratch_len: 720,
        parts_len: 6,
        budget: 9_999,
    };
    [written, matched]
}

/// The matches that the papers name, with tables of both versions, under an ample budget and under each one up to 4.
fn examples() -> Vec<Call> {
    let pairs: [(&[u8], &[u8]); 20] = [
        (b"3N1\".\"2N.U", b"123.45"),
        (b"3N1\".\"2N.U", b"123.45a"),
        (b"1.6N1.2N", b"1234567"),
        (b".N.N", b"12"),
        (b"2(1N,1A)", b"a1"),
        (b"9000(.N)", b"12"),
        (b"300\"\"", b""),
        (b"300N", b"12"),
        (b"1N", b"7"),
        (b"1N", b"x"),
        (b"1N1A", b""),
        (b"0N", b""),
        (b"1E", b"\xc8"),
        (b"1\"a\"\"b\"", b"a\"b"),
        (b".N1N", b"12"),
        (b".5N", b"123456"),
        (b".(.N,1A)", b"a"),
        (b".(.N)", b"12"),
        (b"2N1(3P2A,2P3A).E", b"12!!abc"),
        (b"2N1\"-\"1(3N1\"-\"1N,1N1\":\"4N)", b"12-3:4567"),
    ];
    let mut calls = Vec::new();
    for (source, label) in pairs {
        for budget in [0, 1, 2, 3, 4, u64::MAX] {
            for version in [VERSION_1, VERSION_2] {
                calls.push(Call::Match {
                    table: second::compile_to(version, source, usize::MAX).unwrap(),
                    label: label.to_vec(),
                    scratch_len: 4_000,
                    parts_len: 20,
                    budget,
                });
            }
        }
    }
    calls
}

/// Every source of at most `most` bytes over a small alphabet.
fn short_sources(most: usize) -> Vec<Vec<u8>> {
    let alphabet = b"05.Nq\"(,)\x1f";
    let mut all = vec![Vec::new()];
    let mut from = 0;
    for _ in 0..most {
        let to = all.len();
        for at in from..to {
            for &byte in alphabet {
                let longer = [&all[at][..], &[byte]].concat();
                all.push(longer);
            }
        }
        from = to;
    }
    all
}

/// The source of the tables that are changed.
pub const CHANGED: &[u8] = b"2.(1\"a\"\"\",3.5AN.(.E,1\"\"))1\"bc\".9999L";

/// A table of each version with one byte changed to each other value, at each place; every cut; a
/// byte more.
pub fn changed_tables() -> Vec<Vec<u8>> {
    let mut all = Vec::new();
    for version in [VERSION_1, VERSION_2] {
        let table = second::compile_to(version, CHANGED, usize::MAX).unwrap();
        for at in 0..table.len() {
            for byte in 0..=255 {
                let mut changed = table.clone();
                changed[at] = byte;
                all.push(changed);
            }
        }
        all.extend((0..table.len()).map(|len| table[..len].to_vec()));
        all.extend((0..=255).map(|byte| [&table[..], &[byte]].concat()));
    }
    all
}
