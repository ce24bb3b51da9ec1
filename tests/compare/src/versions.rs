//! Fixed calls about the versions of a table and their limits: headers, atom counts, lengths of the
//! shortest source, tables of 65 to 256 atoms, the largest scratch and parts.

use crate::call::Call;
use crate::long::{digits, matching};
use crate::tables::{atom_count, header, table_in, turned_to, work, PARTS_MOST, RECORD};
use generate::{Atom, Body};
use second::{Version, VERSION_1, VERSION_2};

const VERSIONS: [Version; 2] = [VERSION_1, VERSION_2];

fn table(source: &[u8]) -> Vec<u8> {
    second::compile(source, usize::MAX).unwrap()
}

fn once(body: Body) -> Atom {
    let (low, high) = (1, Some(1));
    Atom { low, high, body }
}

fn compiled(source: Vec<u8>, table_len: usize) -> Call {
    Call::Compile { source, table_len }
}

/// A table written back and matched, whatever it is.
fn tried(table: Vec<u8>) -> [Call; 2] {
    let written = Call::WriteBack {
        table: table.clone(),
        source_len: VERSION_2.source_most,
    };
    let matched = Call::Match {
        table,
        label: b"12".to_vec(),
        scratch_len: work(VERSION_2.atoms_most, 2),
        parts_len: PARTS_MOST,
        budget: 20_000,
    };
    [written, matched]
}

/// A table under the header's version number changed, under the other header, cut at each byte,
/// with each byte of the header left out or twice.
fn headers() -> Vec<Vec<u8>> {
    let mut tables = Vec::new();
    for source in [
        &b"2N"[..],
        b".2(1N,1\"c\")1A",
        b"0\"12\"",
        &b".1N".repeat(64),
    ] {
        for version in VERSIONS {
            let table = turned_to(version, &table(source));
            for number in [0u16, 1, 2, 3, 4, 255, 256, 257, 258, 259, 512, 513, 65_535] {
                let mut changed = table.clone();
                changed[3..5].copy_from_slice(&number.to_le_bytes());
                tables.push(changed);
            }
            for at in 0..version.header_len() + RECORD {
                tables.push(table[..at].to_vec());
                tables.push([&table[..at], &table[at + 1..]].concat());
                tables.push([&table[..=at], &table[at..]].concat());
            }
            tables.push(table);
        }
    }
    tables
}

/// The records of so many atoms `1N`.
fn records(atoms: usize) -> Vec<u8> {
    let record = |last| [1, last, 1, 0, 1, 0, 16, 0, 0, 0];
    let mut records = record(0).repeat(atoms.saturating_sub(1));
    records.extend(record(1));
    records
}

/// Headers with each atom count about a limit, before records of each such count.
fn counts() -> Vec<Vec<u8>> {
    let counts = [
        0, 1, 2, 63, 64, 65, 128, 255, 256, 257, 320, 511, 512, 65_535,
    ];
    let mut tables = Vec::new();
    for version in VERSIONS {
        for named in counts {
            for atoms in [1, 2, 63, 64, 65, 255, 256, 257, 320, 512] {
                tables.push([header(version, named, 0), records(atoms)].concat());
            }
            tables.push([header(version, named, 0), records(named)].concat());
            tables.push(header(version, named, 0));
        }
        tables.push([header(version, 65_536, 0), records(65_536)].concat());
        tables.push([header(version, 65_537, 0), records(65_537)].concat());
    }
    tables
}

/// Patterns to which a literal of any length is added: none, codes, groups, quotes.
fn starts(version: Version) -> [Vec<Atom>; 4] {
    let many = |count: usize| {
        let long = |_| Atom {
            low: 1_234,
            high: Some(5_678),
            body: Body::Codes(127),
        };
        (0..count).map(long).collect::<Vec<_>>()
    };
    let branch = |_| vec![once(Body::Codes(16))];
    let grouped = |count| vec![once(Body::Group((0..count).map(branch).collect()))];
    let quotes = version.source_most / 2 - 9;
    [
        Vec::new(),
        many(version.source_most / 16 - 1),
        grouped(version.atoms_most - 2),
        vec![once(Body::Literal(vec![b'"'; quotes]))],
    ]
}

/// Tables whose shortest source has some bytes fewer than the limit, as many, or more.
fn source_lens() -> Vec<Vec<u8>> {
    let mut tables = Vec::new();
    for version in VERSIONS {
        for start in starts(version) {
            let with = |len| {
                let literal = once(Body::Literal(vec![b'x'; len]));
                [&start[..], &[literal]].concat()
            };
            let alone = second::write_back(&table_in(VERSION_2, &with(0)), usize::MAX);
            let room = version.source_most - alone.unwrap().len();
            for len in [0, room - 1, room, room + 1, room + 2, room + 100] {
                let table = table_in(version, &with(len));
                tables.extend(VERSIONS.map(|version| turned_to(version, &table)));
                tables.push(table);
            }
        }
    }
    tables
}

/// So many atoms as a source: in a row, in a group, each in a branch of a group, in groups of two.
fn shapes(atoms: usize) -> [Vec<u8>; 4] {
    let inside = b"1N".repeat(atoms - 1);
    let branches = [&b".1N"[..], b".1A"].into_iter().cycle();
    let branches: Vec<&[u8]> = branches.take(atoms - 1).collect();
    [
        b".1N".repeat(atoms),
        [&b".("[..], &inside, b")"].concat(),
        [&b".("[..], &branches.join(&b','), b")"].concat(),
        [b".1(.1N)".repeat(atoms / 2), b".1N".repeat(atoms % 2)].concat(),
    ]
}

/// Sources of 65 to 256 atoms and about each limit, compiled with just enough room or a byte less;
/// their tables written back and matched.
fn many_atoms() -> Vec<Call> {
    let mut calls = Vec::new();
    for atoms in 62..=260 {
        for source in shapes(atoms) {
            let needed = VERSION_2.header_len() + RECORD * atoms;
            calls.push(compiled(source.clone(), needed));
            calls.push(compiled(source.clone(), needed - 1));
            let Ok(table) = second::compile(&source, usize::MAX) else {
                continue;
            };
            calls.push(matching(table.clone(), digits(6), u64::MAX));
            calls.push(matching(turned_to(VERSION_1, &table), digits(5), u64::MAX));
            calls.push(Call::WriteBack {
                table,
                source_len: source.len() - atoms % 2,
            });
        }
    }
    for atoms in [300, 512, 683] {
        calls.push(compiled(b"1.N".repeat(atoms), VERSION_2.table_most()));
    }
    calls
}

/// Sources of each length about the limits: letters, zeros, a literal, quotes, no pattern, and
/// groups one in the other.
fn source_limits() -> Vec<Call> {
    let mut calls = Vec::new();
    for most in VERSIONS.map(|version| version.source_most) {
        for len in most - 3..=most + 3 {
            let fill = |start: &[u8], byte: &[u8], end: &[u8]| {
                let left = len - start.len() - end.len();
                let (whole, rest) = (left / byte.len(), left % byte.len());
                [start, &byte.repeat(whole), &b"N".repeat(rest), end].concat()
            };
            for source in [
                fill(b"1", b"N", b""),
                fill(b"", b"0", b"1N"),
                fill(b"1\"", b"x", b"\""),
                fill(b"1\"", b"\"\"", b"\""),
                fill(b".2(1N,2A)1\"", b" ", b"\""),
                fill(b"1", b"N", b"Q"),
                fill(b"1", b"N", b"1"),
                fill(b",", b"N", b""),
                fill(b"", b"1(", b""),
            ] {
                calls.push(compiled(source, VERSION_2.table_most()));
            }
        }
    }
    calls
}

/// Each byte of one record of a table of 256 atoms with each value: of a group around all others,
/// of the last atom and of a literal far in the pool.
fn far_records() -> Vec<Vec<u8>> {
    let literals = b"1\"abcde\"".repeat(255);
    let grouped = [&b"1("[..], &b"1N".repeat(255), b")"].concat();
    let mut tables = Vec::new();
    for (source, index) in [(&grouped, 0), (&grouped, 255), (&literals, 254)] {
        let table = table(source);
        let begin = VERSION_2.header_len() + RECORD * index;
        for at in begin..begin + RECORD {
            for byte in 0..=255 {
                let mut changed = table.clone();
                changed[at] = byte;
                tables.push(changed);
            }
        }
    }
    tables
}

/// Scratch and parts about what 64, 65 and 256 atoms need, and the largest of all.
fn largest() -> Vec<Call> {
    let mut calls = Vec::new();
    let mut lent = |table: &[u8], label: &[u8], scratch_less: usize, parts_less: usize, budget| {
        let parts_len = second::part_bytes(table).unwrap() - parts_less;
        let label = label.to_vec();
        calls.push(Call::Match {
            scratch_len: work(atom_count(table), label.len()) - scratch_less,
            table: table.to_vec(),
            label,
            parts_len,
            budget,
        });
    };
    let new = |atoms| table(&b".1N".repeat(atoms));
    for table in [turned_to(VERSION_1, &new(64)), new(64), new(65), new(256)] {
        for len in [0, 1, 7, 20] {
            for (scratch_less, parts_less) in [(0, 0), (1, 0), (0, 1), (1, 1)] {
                lent(&table, &digits(len), scratch_less, parts_less, 3_000_000);
            }
        }
    }
    for (less, budget) in [(0, 0), (0, 1_000), (1, 0)] {
        lent(&new(256), &digits(255), less, 0, budget);
    }
    lent(&new(256), &digits(255), 0, 1, 0);
    lent(&turned_to(VERSION_1, &new(64)), &digits(255), 0, 0, 500);
    calls
}

/// The oncology site's 80 atoms: letters, digits and dashes, on labels that fit or not.
fn eighty_atoms() -> Vec<Call> {
    let table = table(&b"1U2N1\"-\".3A".repeat(20));
    assert_eq!(atom_count(&table), 80);
    let whole = b"A12-xyz".repeat(20);
    let labels = [&whole[..], &whole[..139], &b"A12-".repeat(20), b""];
    let call = |label: &[u8]| matching(table.clone(), label.to_vec(), 400_000_000);
    labels.map(call).to_vec()
}

pub fn versions() -> Vec<Call> {
    let tables = [headers(), counts(), source_lens(), far_records()].concat();
    let tried = tables.into_iter().flat_map(tried);
    tried
        .chain(many_atoms())
        .chain(source_limits())
        .chain(largest())
        .chain(eighty_atoms())
        .collect()
}
