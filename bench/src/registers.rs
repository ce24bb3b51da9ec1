//! (g): a register with 1, 16 and 256 patterns kept, beside one match without a register and
//! beside plain Rust with a register of the same version.

use crate::plain::{Refusal, Verdict};
use crate::plain_registers::{tables_at, SLOT_1, SLOT_2};
use crate::rounds::Rounds;
use crate::tables::table_of;
use crate::{plain, plain_registers, proved};
use std::hint::black_box;

type Init = fn(&mut [u8]) -> Result<(), Refusal>;
type Store = fn(&mut [u8], u8, &[u8]) -> Result<(), Refusal>;
type Remove = fn(&mut [u8], u8) -> Result<(), Refusal>;
type Match = fn(&[u8], u8, &[u8], &mut [u8], &mut [u8], u64) -> Result<Verdict, Refusal>;

/// The calls of the library or of plain Rust.
pub struct Calls {
    init: Init,
    store: Store,
    remove: Remove,
    match_number: Match,
}

pub const LIBRARY: Calls = Calls {
    init: proved::register_init,
    store: proved::register_store,
    remove: proved::register_remove,
    match_number: proved::register_match,
};

/// Plain Rust's calls on registers with slots of so many bytes.
const fn plain_calls<const SLOT: usize>() -> Calls {
    Calls {
        init: plain_registers::init::<SLOT>,
        store: plain_registers::store::<SLOT>,
        remove: plain_registers::remove::<SLOT>,
        match_number: plain_registers::match_number::<SLOT>,
    }
}

/// The bytes of a slot in a register that the library starts.
fn own_slot() -> usize {
    let mut register = [0; tables_at(SLOT_2)];
    assert_eq!(proved::register_init(&mut register), Ok(()));
    match register[3] {
        1 => SLOT_1,
        _ => SLOT_2,
    }
}

/// Plain Rust's calls on registers of the library's version.
pub fn own_plain() -> Calls {
    match own_slot() {
        SLOT_1 => plain_calls::<SLOT_1>(),
        _ => plain_calls::<SLOT_2>(),
    }
}

/// Bytes to spare, enough for a longer table in place of one.
const SPARE: usize = 100;

const CASE: &[u8] = b"1U2N1\"-\"1.6N";
const DIGITS: &[u8] = b"2N";

/// A register of so many patterns, of which one in the middle is used; the others are four kinds in
/// turn.
struct Kept {
    count: usize,
    used: u8,
    table: Vec<u8>,
}

impl Kept {
    fn new(count: usize, source: &[u8]) -> Self {
        Kept {
            count,
            used: (count / 2) as u8,
            table: table_of(source),
        }
    }

    fn tables(&self) -> Vec<Vec<u8>> {
        let sources = [CASE, DIGITS, b"3N1\".\"2N.U", b".(1.N,1\"x\"1A)1P"];
        let mut tables: Vec<Vec<u8>> = (0..self.count).map(|k| table_of(sources[k % 4])).collect();
        tables[usize::from(self.used)] = self.table.clone();
        tables
    }

    fn filled(&self, calls: &Calls) -> Vec<u8> {
        filled(calls, &self.tables())
    }
}

/// A register of these tables, by their numbers, as a side makes it.
pub fn filled(calls: &Calls, tables: &[Vec<u8>]) -> Vec<u8> {
    let mut register = vec![0; tables_at(own_slot()) + tables.concat().len() + SPARE];
    assert_eq!((calls.init)(&mut register), Ok(()));
    for (number, table) in tables.iter().enumerate() {
        let stored = (calls.store)(&mut register, number as u8, table);
        assert_eq!(stored, Ok(()));
    }
    register
}

/// A match by number in the library and in plain Rust, and one of the library with the same table.
fn match_row(kept: Kept, label: &[u8], rounds: usize) {
    let own_plain = own_plain();
    let register = kept.filled(&LIBRARY);
    assert!(register == kept.filled(&own_plain));
    let work = plain::work(&kept.table, label.len());
    let mut outputs = [(); 3].map(|()| (vec![0; work], [255; 128]));
    let [library, plain, single] = &mut outputs;
    let by_number = |calls: &Calls, (scratch, parts): &mut (Vec<u8>, [u8; 128])| {
        let (label, budget) = (black_box(label), black_box(u64::MAX));
        let found = (calls.match_number)(&register, kept.used, label, scratch, parts, budget);
        assert!(found.is_ok_and(|(yes, _)| yes));
    };
    let by_table = |(scratch, parts): &mut (Vec<u8>, [u8; 128])| {
        let (label, budget) = (black_box(label), black_box(u64::MAX));
        let found = proved::match_label(&kept.table, label, scratch, parts, budget);
        assert!(found.is_ok_and(|(yes, _)| yes));
    };
    let timed = Rounds::of(
        rounds,
        [
            &mut || by_number(&LIBRARY, library),
            &mut || by_number(&own_plain, plain),
            &mut || by_table(single),
        ],
    );
    assert!(outputs[0] == outputs[1] && outputs[0] == outputs[2]);
    let [library, plain, single] = timed.times();
    println!(
        "match {:<20}{:>5}{library:>10.0}{plain:>10.0}{:>10.2}{single:>10.0}{:>10.2}",
        String::from_utf8_lossy(label),
        kept.count,
        timed.ratio(0, 1),
        timed.ratio(0, 2)
    );
}

/// Two calls after which a register keeps what it did before; given the table used and a longer one.
type Change = fn(&Calls, &mut [u8], u8, [&[u8]; 2]);

fn replace_twice(calls: &Calls, register: &mut [u8], number: u8, [table, longer]: [&[u8]; 2]) {
    for table in [longer, table] {
        assert_eq!((calls.store)(register, number, black_box(table)), Ok(()));
    }
}

fn remove_and_store(calls: &Calls, register: &mut [u8], number: u8, [table, _]: [&[u8]; 2]) {
    assert_eq!((calls.remove)(register, black_box(number)), Ok(()));
    assert_eq!((calls.store)(register, number, black_box(table)), Ok(()));
}

fn change_row(name: &str, change: Change, kept: Kept, rounds: usize) {
    let longer = table_of(b"1U2N1\"-\"1.6N1\"-\"1(1N,2A)");
    let tables: [&[u8]; 2] = [&kept.table, &longer];
    let own_plain = own_plain();
    let (mut library, mut plain) = (kept.filled(&LIBRARY), kept.filled(&own_plain));
    let timed = Rounds::of(
        rounds,
        [
            &mut || change(&LIBRARY, &mut library, kept.used, tables),
            &mut || change(&own_plain, &mut plain, kept.used, tables),
        ],
    );
    let before = kept.filled(&LIBRARY);
    let end = before.len() - SPARE;
    assert!(library == plain && library[..end] == before[..end]);
    let [library, plain] = timed.times().map(|time| time / 2.0);
    println!(
        "{name:<26}{:>5}{library:>10.0}{plain:>10.0}{:>10.2}",
        kept.count,
        timed.ratio(0, 1)
    );
}

pub fn registers(rounds: usize) {
    println!("\n(g) a register with some patterns kept, ns a call; ratios to plain Rust and to a match without a register");
    println!(
        "{:<26}{:>5}{:>10}{:>10}{:>10}{:>10}{:>10}",
        "call", "kept", "library", "plain", "ratio", "single", "ratio"
    );
    let counts = [1, 16, 256];
    for (source, label) in [(DIGITS, &b"42"[..]), (CASE, b"S24-012345")] {
        for count in counts {
            match_row(Kept::new(count, source), label, rounds);
        }
    }
    let changes: [(&str, Change); 2] = [
        ("replace", replace_twice),
        ("remove and store", remove_and_store),
    ];
    for (name, change) in changes {
        for count in counts {
            change_row(name, change, Kept::new(count, CASE), rounds);
        }
    }
}
