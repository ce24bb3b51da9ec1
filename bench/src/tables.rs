//! (a) and (b): compiling, testing and writing back. A library from before version 2 has the rows
//! of its own limits and tables.

use crate::rounds::Rounds;
use crate::{plain, proved};
use std::hint::black_box;

/// The table that the library compiles a source to, of its own version.
pub fn table_of(source: &[u8]) -> Vec<u8> {
    let mut table = vec![0; plain::TABLE];
    let len = proved::compile(source, &mut table).unwrap();
    table.truncate(len);
    table
}

fn version(table: &[u8]) -> u8 {
    table[3]
}

/// The version that the library compiles to.
fn own_version() -> u8 {
    version(&table_of(b"1N"))
}

/// A version 2 table within the limits of version 1 as version 1 has it, the count in one byte.
pub fn in_version_1(table: &[u8]) -> Vec<u8> {
    [b"MPT\x01\x00", &table[5..6], &table[7..]].concat()
}

/// Sources of 512 bytes and 64 atoms; four times over they have 2,048 bytes and 256 atoms.
fn sources() -> [(&'static str, Vec<u8>); 3] {
    let codes = b"1.9999NA".repeat(64);
    let literals = b"1.99\"ab\"".repeat(64);
    // 20 groups of two branches, four lone atoms, and a literal that fills the source up.
    let mut groups = b".(12.345NU,1\"ab\"\"c\")".repeat(20);
    groups.extend(b"1A2N.U1\"");
    let missing = 512 - groups.len() - 1;
    groups.extend(vec![b'x'; missing]);
    groups.push(b'"');
    [("codes", codes), ("literals", literals), ("groups", groups)]
}

pub fn compiling(rounds: usize) {
    println!("\n(a) compiling, ns a call");
    println!(
        "{:<12}{:>5}{:>7}{:>12}{:>12}{:>10}",
        "source", "atoms", "bytes", "library", "plain", "ratio"
    );
    for (name, source) in sources() {
        compiling_row(name, &source, rounds);
        if own_version() == 2 {
            compiling_row(name, &source.repeat(4), rounds);
        }
    }
}

fn compiling_row(name: &str, source: &[u8], rounds: usize) {
    let (mut ours, mut theirs) = (vec![0; plain::TABLE], vec![0; plain::TABLE]);
    let len = plain::compile(source, &mut ours).unwrap();
    let expected = match own_version() {
        1 => in_version_1(&ours[..len]),
        _ => ours[..len].to_vec(),
    };
    assert!(table_of(source) == expected, "{name}");
    let timed = Rounds::of(
        rounds,
        [
            &mut || _ = black_box(proved::compile(black_box(source), &mut theirs)),
            &mut || _ = black_box(plain::compile(black_box(source), &mut ours)),
        ],
    );
    let [library, plain] = timed.times();
    println!(
        "{name:<12}{:>5}{:>7}{library:>12.0}{plain:>12.0}{:>10.2}",
        plain::atoms(&expected),
        source.len(),
        timed.ratio(0, 1)
    );
}

pub fn writing_back(rounds: usize) {
    println!("\n(b) testing and writing back, ns a call");
    println!(
        "{:<12}{:>5}{:>9}  {:<12}{:>12}{:>12}{:>10}",
        "table", "atoms", "version", "call", "library", "plain", "ratio"
    );
    for (name, source) in sources() {
        let own = table_of(&source);
        if version(&own) == 1 {
            writing_back_rows(name, &own, rounds);
            continue;
        }
        writing_back_rows(name, &in_version_1(&own), rounds);
        writing_back_rows(name, &own, rounds);
        writing_back_rows(name, &table_of(&source.repeat(4)), rounds);
    }
}

fn writing_back_rows(name: &str, table: &[u8], rounds: usize) {
    let (mut ours, mut theirs) = ([0; plain::SOURCE], [0; plain::SOURCE]);
    assert_eq!(
        proved::write_back(table, &mut theirs),
        plain::write_back(table, &mut ours)
    );
    assert!(ours == theirs && plain::good(table), "{name}");
    // A label that is too long is refused right after the table is tested.
    let long = [b'1'; 256];
    let library_test = |table| proved::match_label(table, &long, &mut [], &mut [], 0);
    assert_eq!(library_test(table), Err((12, 0)));
    let tests = Rounds::of(
        rounds,
        [
            &mut || _ = black_box(library_test(black_box(table))),
            &mut || _ = black_box(plain::good(black_box(table))),
        ],
    );
    let writes = Rounds::of(
        rounds,
        [
            &mut || _ = black_box(proved::write_back(black_box(table), &mut theirs)),
            &mut || _ = black_box(plain::write_back(black_box(table), &mut ours)),
        ],
    );
    let (atoms, version) = (plain::atoms(table), version(table));
    for (call, timed) in [("test", tests), ("write back", writes)] {
        let [library, plain] = timed.times();
        println!(
            "{name:<12}{atoms:>5}{version:>9}  {call:<12}{library:>12.0}{plain:>12.0}{:>10.2}",
            timed.ratio(0, 1)
        );
    }
}
