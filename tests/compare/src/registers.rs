//! Fixed calls on registers: every length about the least one, tables that just fit, each byte of
//! the layout changed, wrong summaries, registers of version 1, tables of both versions, all 256 numbers,
//! what is lent to a match at each limit.

use crate::call::{Call, Case};
use crate::expected::expected;
use crate::fixed::{changed_tables, CHANGED};
use crate::tables::{table_of_len, turned_to, work, ONE_ATOM, PARTS_MOST, RECORD};
use second::{Register, Version, REGISTER_LEAST, SLOT, VERSION_1, VERSION_2};

/// The bytes behind the tables.
const SPARE: u8 = 165;

pub fn table(source: &[u8]) -> Vec<u8> {
    second::compile(source, usize::MAX).unwrap()
}

pub fn old_table(source: &[u8]) -> Vec<u8> {
    second::compile_to(VERSION_1, source, usize::MAX).unwrap()
}

/// A register that keeps some tables and has some bytes to spare.
pub fn register_of(tables: &[(u8, Vec<u8>)], spare: usize) -> Vec<u8> {
    let map = Register {
        capacity: usize::MAX,
        tables: tables.iter().cloned().collect(),
    };
    [map.laid_out(), vec![SPARE; spare]].concat()
}

/// Where the slot of a number begins.
pub fn slot_at(number: u8) -> usize {
    8 + SLOT * usize::from(number)
}

/// Six tables of different lengths and of both versions, the least and the greatest number among
/// theirs.
pub fn six() -> Vec<(u8, Vec<u8>)> {
    vec![
        (0, table(b"1N")),
        (1, old_table(b"1\"ab\"")),
        (2, table(b".2(1N,1\"c\")1A")),
        (7, old_table(b"1N")),
        (128, old_table(b".E1\"\"")),
        (255, table(b"1.3AN")),
    ]
}

fn init(register: &[u8]) -> Call {
    let register = register.to_vec();
    Call::Init { register }
}

pub fn store(register: &[u8], number: u8, table: &[u8]) -> Call {
    Call::Store {
        register: register.to_vec(),
        number,
        table: table.to_vec(),
    }
}

fn remove(register: &[u8], number: u8) -> Call {
    let register = register.to_vec();
    Call::Remove { register, number }
}

/// A match under what each of the six tables needs.
fn matched(register: &[u8], number: u8, label: &[u8]) -> Call {
    Call::MatchNumber {
        register: register.to_vec(),
        number,
        label: label.to_vec(),
        scratch_len: 400,
        parts_len: 4,
        budget: 5_000,
    }
}

/// A search under what each of the six tables needs.
fn searched(register: &[u8], label: &[u8]) -> Call {
    Call::Search {
        register: register.to_vec(),
        label: label.to_vec(),
        scratch_len: 400,
        parts_len: 4,
    }
}

/// A store, a replacement, two removals, two matches, of numbers that six tables have or not, and
/// two searches.
fn each_call(register: &[u8]) -> Vec<Call> {
    let (good, longer) = (table(b"2N"), table(b"1\"abcdef\""));
    vec![
        init(register),
        store(register, 3, &good),
        store(register, 1, &longer),
        store(register, 3, b"MPT"),
        remove(register, 0),
        remove(register, 6),
        matched(register, 2, b"1ca"),
        matched(register, 6, b"1"),
        searched(register, b"1ca"),
        searched(register, b"\x80"),
    ]
}

/// One of the calls that look at a register, each in its turn.
fn call_in_turn(turn: usize, register: &[u8]) -> Call {
    match turn % 4 {
        0 => store(register, 3, &table(b"2N")),
        1 => remove(register, 1),
        2 => matched(register, 255, b"a1"),
        _ => searched(register, b"c1a"),
    }
}

/// Buffers of every length about the least, zero, dirty or cut from a register; lengths about the
/// least one of version 1, and lengths that 16 bits wrap to one too short.
fn lengths() -> Vec<Call> {
    let empty = register_of(&[], 200);
    let least = REGISTER_LEAST;
    let mut calls = Vec::new();
    for len in [0, 1, 3, 7, 8, 9, 1_031, 1_032, 1_033, 1_050, 1_051]
        .into_iter()
        .chain(least - 45..least + 2)
        .chain(least + 17..least + 21)
    {
        for register in [&empty[..len], &vec![0; len], &vec![255; len]] {
            calls.extend(each_call(register));
        }
    }
    for more in [0, 1, 1_032, least - 1, least, least + 18] {
        calls.extend(each_call(&register_of(&[], 65_536 + more - least)));
        calls.push(init(&vec![SPARE; 65_536 + more]));
    }
    calls
}

/// Cuts of a register: every one after the directory, and some before.
fn cuts() -> Vec<Call> {
    let register = register_of(&six(), 3);
    let mut calls = Vec::new();
    for len in (0..REGISTER_LEAST)
        .step_by(199)
        .chain(REGISTER_LEAST..register.len())
    {
        for turn in 0..4 {
            calls.push(call_in_turn(turn, &register[..len]));
        }
    }
    calls
}

/// What is changed at a place: each byte of the opening to each value; each byte of the tables, and
/// of the slots that have one or lie beside such a slot, to some others; the other slots' bytes once.
fn changed_at(at: usize) -> Vec<Call> {
    let register = register_of(&six(), 30);
    let old = register[at];
    let near = [old.wrapping_add(1), old.wrapping_sub(1), old ^ 128];
    let some = [&near[..], &[0, 1, 2, 18, 19, 127, 255]].concat();
    let number = at.wrapping_sub(8) / SLOT;
    let values: Vec<u8> = match at {
        0..8 => (0..=255).collect(),
        _ if at >= REGISTER_LEAST => some,
        _ if [0, 1, 2, 3, 6, 7, 8, 128, 254, 255].contains(&number) => some,
        _ => vec![old + 1 + (at % 255) as u8],
    };
    let mut calls = Vec::new();
    for (turn, &value) in values.iter().enumerate() {
        let mut changed = register.clone();
        changed[at] = value;
        calls.push(call_in_turn(at + turn, &changed));
        if turn == 0 && values.len() > 1 {
            calls.extend(each_call(&changed));
        }
    }
    calls
}

fn changed_bytes() -> impl Iterator<Item = Call> {
    (0..register_of(&six(), 30).len()).flat_map(changed_at)
}

/// The numbers of a slot after the length.
const NUMBERS: [usize; 4] = [4, 6, 8, 10];

/// In the slot of each of the six tables another number for the atoms, the top-level atoms, the
/// shortest and the longest, each bit of the set changed, and the slots of two tables exchanged.
fn wrong_summaries() -> Vec<Call> {
    let register = register_of(&six(), 30);
    let mut calls = Vec::new();
    let mut change = |changed: Vec<u8>| {
        let turn = calls.len();
        calls.push(call_in_turn(turn, &changed));
        calls.push(searched(&changed, b"\x00"));
    };
    for (number, _) in six() {
        let slot = slot_at(number);
        for at in NUMBERS.map(|field| slot + field) {
            let old = u16::from_le_bytes([register[at], register[at + 1]]);
            let near = [old.wrapping_add(1), old.wrapping_sub(1), old + 256];
            for value in [&near[..], &[0, 1, 2, 3, 255, 256, 257, 65_535]].concat() {
                let mut changed = register.clone();
                changed[at..at + 2].copy_from_slice(&value.to_le_bytes());
                change(changed);
            }
        }
        for byte in 0..=255 {
            let mut changed = register.clone();
            changed[slot + 12 + byte / 8] ^= 1 << (byte % 8);
            change(changed);
        }
        for fill in [0, 255] {
            let mut changed = register.clone();
            changed[slot + 12..slot + SLOT].fill(fill);
            change(changed);
        }
        // What lies between the lengths, of another table.
        for (other, _) in six() {
            let mut changed = register.clone();
            changed.copy_within(slot_at(other) + 4..slot_at(other) + SLOT, slot + 4);
            change(changed);
        }
    }
    calls
}

/// Bytes in the slots of numbers without a table.
fn slots_without_tables() -> Vec<Call> {
    let (full, empty) = (register_of(&six(), 30), register_of(&[], 90));
    let two = second::slot(&table(b"2N"));
    let mut calls = Vec::new();
    for (register, number) in [(&full, 3), (&full, 254), (&empty, 0), (&empty, 255)] {
        for at in 4..SLOT {
            for value in [1, 128, 255] {
                let mut changed = register.clone();
                changed[slot_at(number) + at] = value;
                calls.push(call_in_turn(at, &changed));
                calls.push(searched(&changed, b"12"));
            }
        }
        // The slot of a table without its length.
        let mut changed = register.clone();
        changed[slot_at(number) + 4..slot_at(number) + SLOT].copy_from_slice(&two[4..]);
        calls.extend(each_call(&changed));
    }
    calls
}

/// Registers of version 1, under their own version, under 2 and under others.
fn old_registers() -> Vec<Call> {
    let mut calls = Vec::new();
    for tables in [Vec::new(), six(), vec![(0, table(b"2N"))]] {
        let mut old = b"MPR\x01\x00\x00\x00\x00".to_vec();
        old.resize(1_032, 0);
        for (number, table) in tables {
            old[8 + 4 * usize::from(number)] = table.len() as u8;
            old.extend(table);
        }
        for len in [old.len(), 1_300, REGISTER_LEAST, REGISTER_LEAST + 500] {
            for version in [1u16, 2, 0, 3, 257, 258] {
                let mut register = old.clone();
                register.resize(len, 0);
                register[3..5].copy_from_slice(&version.to_le_bytes());
                calls.extend(each_call(&register));
            }
        }
    }
    // The layout of version 2 under other versions.
    for version in [1u16, 0, 3, 257, 258, 513] {
        let mut register = register_of(&six(), 30);
        register[3..5].copy_from_slice(&version.to_le_bytes());
        calls.extend(each_call(&register));
    }
    calls
}

/// Lengths of two or three numbers that end before, at or past the end of the buffer, or whose sum
/// 32 bits wrap to one that fits; each set in a register of two tables of 18 and 19 bytes.
fn summed_lengths() -> Vec<Call> {
    let small = [0, 1, 17, 18, 19, 20, 36, 37, 38, 41, 42, 55];
    let large = [1 << 8, 1 << 16, 1 << 24, 1 << 31].map(|more| more + 18);
    let wrapped = small.map(|len: u32| len.wrapping_neg());
    let lens = [&small[..], &large, &wrapped, &[65_536, 1 << 31, 1 << 24]].concat();
    let register = register_of(&[(0, old_table(b"1N")), (255, table(b"2N"))], 4);
    let mut calls = Vec::new();
    let mut with = |fields: &[(u8, u32)]| {
        let mut changed = register.clone();
        for &(number, len) in fields {
            // The slot of a table, or of none.
            let slot = slot_at(number);
            changed[slot..slot + SLOT].copy_from_slice(&match (len, number) {
                (0, _) => [0; SLOT],
                (_, 255) => second::slot(&table(b"2N")),
                _ => second::slot(&old_table(b"1N")),
            });
            changed[slot..slot + 4].copy_from_slice(&len.to_le_bytes());
        }
        (0..4).for_each(|turn| calls.push(call_in_turn(turn, &changed)));
    };
    for &first in &lens {
        for &last in &lens {
            with(&[(0, first), (255, last)]);
            with(&[(0, 18), (100, first), (255, last)]);
        }
        with(&[(7, first)]);
    }
    // 256 times 2^24 is 2^32.
    for len in [1 << 24, u32::MAX, 18, 19, 1] {
        let all: Vec<(u8, u32)> = (0..=255).map(|number| (number, len)).collect();
        with(&all);
        with(&all[1..]);
    }
    calls
}

/// Tables that aren't good or are others, stored and lying in a register.
fn tables() -> Vec<Call> {
    let mut calls = Vec::new();
    let unchanged = table(CHANGED);
    for (turn, table) in changed_tables().into_iter().step_by(13).enumerate() {
        calls.push(store(&register_of(&six(), 100), 4, &table));
        // The slot of the table before the change, the length aside.
        let mut register = register_of(&[six(), vec![(4, table.clone())]].concat(), 20);
        if !second::good(&table) {
            let slot = slot_at(4) + 4;
            register[slot..slot + SLOT - 4].copy_from_slice(&second::slot(&unchanged)[4..]);
        }
        calls.push(call_in_turn(turn, &register));
    }
    let register = register_of(&six(), 70_000);
    for len in [0, 1, 7, 8, 9, 65_536, 65_536 + ONE_ATOM] {
        let mut table = table(b"1N");
        table.resize(len, 0);
        calls.push(store(&register, 4, &table));
    }
    calls
}

/// Tables of both versions, from the shortest to the longest that one literal makes.
fn tables_to_fit() -> [Vec<u8>; 8] {
    let longest = |version: Version| version.header_len() + RECORD + version.source_most - 3;
    [
        table_of_len(VERSION_1, 18),
        table_of_len(VERSION_1, 19),
        table_of_len(VERSION_2, 19),
        table_of_len(VERSION_1, 40),
        table_of_len(VERSION_2, 40),
        table_of_len(VERSION_2, 257),
        table_of_len(VERSION_1, longest(VERSION_1)),
        table_of_len(VERSION_2, longest(VERSION_2)),
    ]
}

/// Tables for a number before, at and after a kept one, in buffers that they just fit and in those
/// of a byte less or more.
fn fits() -> Vec<Call> {
    let mut calls = Vec::new();
    for kept in tables_to_fit() {
        let alone = register_of(&[(9, kept.clone())], VERSION_2.table_most());
        for stored in tables_to_fit() {
            for capacity in [kept.len().max(stored.len()), kept.len() + stored.len()] {
                for len in [capacity - 1, capacity, capacity + 1] {
                    let register = &alone[..REGISTER_LEAST + len];
                    for number in [0, 9, 255] {
                        calls.push(store(register, number, &stored));
                    }
                }
            }
        }
    }
    calls
}

/// A store of a table of some length, its version by the number, or a removal.
enum Step {
    Store(u8, usize),
    Remove(u8),
}

/// Calls made in turn on one register.
fn in_turn(mut register: Vec<u8>, steps: &[Step]) -> Vec<Call> {
    let mut calls = Vec::new();
    for step in steps {
        let call = match *step {
            Step::Store(number, len) => {
                let version = [VERSION_1, VERSION_2][usize::from(number % 2)];
                store(&register, number, &table_of_len(version, len))
            }
            Step::Remove(number) => remove(&register, number),
        };
        let case = fixed_case(call);
        for (at, bytes) in expected(&case).register {
            register[at..][..bytes.len()].copy_from_slice(&bytes);
        }
        calls.push(case.call);
    }
    calls
}

/// Room that a removal or a shorter table frees, used again to the last byte.
fn freed_room() -> Vec<Call> {
    use Step::{Remove, Store};
    let steps = [
        Store(5, 100),
        Store(200, 100),
        Store(80, 100),
        Store(0, 18),
        Remove(80),
        Store(0, 101),
        Store(0, 100),
        Store(255, 19),
        Store(200, 30),
        Store(255, 70),
        Store(7, 19),
        Remove(5),
        Store(7, 100),
        Remove(5),
        Store(6, 18),
        Remove(0),
        Remove(200),
        Remove(255),
        Remove(7),
        Remove(7),
        Store(1, 301),
        Store(1, 300),
        Store(1, 299),
        Store(2, 18),
    ];
    in_turn(register_of(&[], 300), &steps)
}

/// A version 1 table replaced by the version 2 table of its pattern and the other way round, with
/// no byte to spare, one and two; all tables of a register turned to the other version.
fn versions() -> Vec<Call> {
    let sources = [
        &b"2N"[..],
        b"1\"ab\"",
        b".2(1N,1\"c\")1A",
        &b".1N".repeat(64),
    ];
    let mut calls = Vec::new();
    for source in sources {
        for (kept, stored) in [
            (old_table(source), table(source)),
            (table(source), old_table(source)),
        ] {
            for spare in 0..3 {
                let register = register_of(&[(0, old_table(b"1A")), (5, kept.clone())], spare);
                calls.push(store(&register, 5, &stored));
                calls.push(store(&register, 9, &stored));
                calls.push(matched(&register, 5, b"12"));
                calls.push(remove(&register, 5));
            }
        }
    }
    for version in [VERSION_1, VERSION_2] {
        let turned = six().into_iter();
        let turned: Vec<_> = turned
            .map(|(at, table)| (at, turned_to(version, &table)))
            .collect();
        calls.extend(each_call(&register_of(&turned, 40)));
    }
    calls
}

/// Tables of 64, 65 and 256 atoms, stored, replaced by each other, matched and removed.
fn large_tables() -> Vec<Call> {
    let optional = |atoms| b".1N".repeat(atoms);
    let tables = [
        old_table(&optional(64)),
        table(&optional(64)),
        table(&optional(65)),
        table(&optional(256)),
        table(&[b"1N".repeat(255), b"1\"x\"".to_vec()].concat()),
    ];
    let mut calls = Vec::new();
    for kept in &tables {
        let register = register_of(&[(1, old_table(b"1N")), (80, kept.clone())], 3_000);
        for stored in &tables {
            calls.push(store(&register, 80, stored));
            calls.push(store(&register, 255, stored));
        }
        calls.push(remove(&register, 1));
        calls.push(remove(&register, 80));
        for (atoms, parts_len) in [(256, PARTS_MOST), (64, 128), (63, 128), (256, 127)] {
            calls.push(Call::MatchNumber {
                register: register.clone(),
                number: 80,
                label: b"123456".to_vec(),
                scratch_len: work(atoms, 6),
                parts_len,
                budget: 1_000_000,
            });
        }
    }
    calls
}

/// All 256 numbers: each stored beside all others, replaced, removed and matched; once with small
/// tables and no byte to spare, and some of them with tables far past 16 bits.
fn all_numbers() -> Vec<Call> {
    let (mut calls, mut small, mut large) = (Vec::new(), Vec::new(), Vec::new());
    // Every other table of the large ones is of version 1.
    let of_len = |number: u8, len| {
        let version = [VERSION_1, VERSION_2][usize::from(number % 2)];
        table_of_len(version, len + usize::from(number % 99))
    };
    for number in 0..=255 {
        small.push((number, table(format!("{}N", number % 4).as_bytes())));
        large.push((number, of_len(number, 400)));
    }
    let (register, far) = (register_of(&small, 0), register_of(&large, 10));
    for number in 0..=255 {
        let mut others = small.clone();
        others.remove(usize::from(number));
        calls.push(store(
            &register_of(&others, ONE_ATOM),
            number,
            &table(b"2N"),
        ));
        calls.push(store(&register, number, &table(b"1A")));
        calls.push(store(&register, number, &old_table(b"1A")));
        calls.push(store(&register, number, &table(b"1\"a\"")));
        calls.push(remove(&register, number));
        calls.push(matched(&register, number, b"12"));
        if [0, 1, 127, 128, 200, 254, 255].contains(&number) {
            calls.push(store(&far, number, &table_of_len(VERSION_1, 18)));
            calls.push(store(&far, number, &of_len(number, 410)));
            calls.push(store(&far, number, &of_len(number, 411)));
            calls.push(remove(&far, number));
            calls.push(matched(&far, number, b"xx"));
        }
    }
    calls
}

/// Labels, scratch, parts and budgets about each limit, of numbers that are kept or missing, on
/// registers that are good or not.
fn limits_of_matches() -> Vec<Call> {
    let good = register_of(&six(), 9);
    let bad = [b"MPS", &good[3..]].concat();
    let mut calls = Vec::new();
    for (register, number) in [(&good, 1), (&good, 3), (&good, 255), (&bad, 1)] {
        for label in [
            &b""[..],
            b"ab",
            b"a1b",
            &[b'a'; 255],
            &[b'a'; 256],
            &[b'a'; 300],
        ] {
            let work = work(1, label.len());
            for scratch_len in [0, work - 1, work, work + 9] {
                for parts_len in [0, 1, 2, 7] {
                    for budget in [0, 7, 10_000] {
                        calls.push(Call::MatchNumber {
                            register: register.to_vec(),
                            number,
                            label: label.to_vec(),
                            scratch_len,
                            parts_len,
                            budget,
                        });
                    }
                }
            }
        }
    }
    calls
}

fn fixed_case(call: Call) -> Case {
    Case {
        call,
        answer_len: 32,
        dirt: 1,
    }
}

/// Answer areas of every length about the one needed, of calls that are refused or not.
pub fn register_areas() -> Vec<Case> {
    let good = register_of(&six(), 30);
    let full = register_of(&six(), 0);
    let calls = [
        each_call(&good),
        each_call(&full),
        each_call(&good[..good.len() - 31]),
    ];
    let calls = calls.concat();
    let mut cases = Vec::new();
    for answer_len in (0..=40).chain([65_536, 65_567, 65_568]) {
        for call in calls.clone() {
            cases.push(Case {
                answer_len,
                ..fixed_case(call)
            });
        }
    }
    cases
}

/// The lists one after the other, each made when it is reached.
pub fn registers() -> impl Iterator<Item = Call> {
    let lists: [fn() -> Vec<Call>; 13] = [
        lengths,
        cuts,
        wrong_summaries,
        slots_without_tables,
        old_registers,
        summed_lengths,
        tables,
        fits,
        versions,
        large_tables,
        freed_room,
        all_numbers,
        limits_of_matches,
    ];
    changed_bytes().chain(lists.into_iter().flat_map(|list| list()))
}
