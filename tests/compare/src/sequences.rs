//! Generated calls on a register in sequences, with the plain map that it must mean kept beside.

use crate::call::{Call, Case};
use crate::cases::{about, budget_about, long_label, near_label};
use crate::expected::Expected;
use crate::tables::{any_pattern, any_version, atom_count, generated_table, table};
use crate::tables::{search_trials, table_of_len, work, RECORD};
use generate::patterns::{codes, repeat};
use generate::{Atom, Body, Random};
use second::{Register, REGISTER_LEAST, SLOT, VERSION_2};
use std::collections::BTreeMap;

/// The most trials of a label that is made for a pattern.
const DEAREST: u64 = 20_000;

/// Room for 256 tables of any pattern.
const NEVER_FULL: usize = 256 * VERSION_2.table_most();

type Map = BTreeMap<u8, Vec<u8>>;

pub struct Sequence {
    /// How many calls it has.
    pub len: u64,
    random: Random,
    register: Vec<u8>,
    /// What the register means; None before it is started.
    map: Option<Map>,
    /// The numbers that are mostly used.
    numbers: Vec<u8>,
    /// Numbers that get a table before all else.
    unfilled: Vec<u8>,
    /// Labels near the pattern last offered for each number.
    labels: BTreeMap<u8, Vec<Vec<u8>>>,
}

/// The bytes of a sequence's register and the number of its calls. Every other sequence is short, at
/// times on too few bytes; the others have little, some or much room, or a table for every number.
fn lens(random: &mut Random, index: u64) -> (usize, u64) {
    let (capacity, calls) = match index % 8 {
        1 => (random.between(40, 400), 2_000),
        3 => (random.between(400, 3_000), 2_000),
        5 => (random.between(3_000, 20_000), 2_000),
        7 => (random.pick(&[5_000, 20_000, NEVER_FULL]), 600),
        _ if random.once_in(4) => return (random.pick(&[0, 1, 8, 1_032, 11_271]), 10),
        _ => (random.pick(&[0, 17, 18, 19, 20, 37, 100, 700, 5_000]), 50),
    };
    (REGISTER_LEAST + capacity, calls)
}

fn one_atom(random: &mut Random) -> Vec<Atom> {
    let (low, high) = repeat(random);
    let body = Body::Codes(codes(random));
    vec![Atom { low, high, body }]
}

/// Changes a byte of the opening, of a slot or of a table, or the length of the whole.
fn damage_register(random: &mut Random, register: &mut Vec<u8>, numbers: &[u8]) {
    if register.len() < REGISTER_LEAST {
        return register.resize(random.below(11_300), 0);
    }
    let slot = 8 + SLOT * usize::from(random.pick(numbers));
    let at = random.below(register.len());
    match random.below(14) {
        0 => register[random.between(0, 7)] = random.bits() as u8,
        1..=2 => register[slot + random.below(4)] ^= 1 << random.below(8),
        3 => {
            let field = slot + random.pick(&[0, 4, 6, 8, 10]);
            let step = random.pick(&[1, 255]);
            register[field] = register[field].wrapping_add(step);
        }
        4 => register[slot..slot + 4].fill(random.pick(&[0, 255])),
        5 => register.swap(slot, random.between(8, REGISTER_LEAST - 1)),
        6 => register[at] = random.bits() as u8,
        7 => register.truncate(at),
        8 => register.resize(register.len() + random.between(1, 60), 165),
        9..=10 => register[slot + random.between(4, SLOT - 1)] ^= 1 << random.below(8),
        11 => register[slot..slot + SLOT].fill(random.pick(&[0, 255])),
        12 => register[3] = 1,
        _ => {
            let end = register.len().min(at + random.between(1, 20));
            register[at..end].rotate_left(1);
        }
    }
}

/// The answer of a call that writes no output.
fn numbered(number: u32) -> Expected {
    Expected {
        number,
        ..Expected::default()
    }
}

/// Stores a table in a plain map if there is room; the refusal number.
fn store(map: &mut Map, capacity: usize, number: u8, table: &[u8]) -> u32 {
    if !second::good(table) {
        return second::TABLE;
    }
    let mut then = map.clone();
    then.insert(number, table.to_vec());
    if then.values().map(Vec::len).sum::<usize>() > capacity {
        return second::FULL;
    }
    *map = then;
    0
}

impl Sequence {
    pub fn new(seed: u64, index: u64) -> Self {
        let mut random = Random::new(seed << 40 ^ index << 2 ^ 1);
        let (register_len, len) = lens(&mut random, index);
        let count = random.pick(&[3, 8, 40]);
        let some = (0..count).map(|_| random.bits() as u8);
        let mut numbers: Vec<u8> = some.chain([0, 255]).collect();
        let mut unfilled = Vec::new();
        if index % 8 == 7 {
            numbers = (0..=255).collect();
            unfilled = numbers.clone();
        }
        for at in 1..unfilled.len() {
            unfilled.swap(at, random.below(at + 1));
        }
        Sequence {
            len,
            register: (0..register_len).map(|_| random.bits() as u8).collect(),
            map: None,
            numbers,
            unfilled,
            labels: BTreeMap::new(),
            random,
        }
    }

    /// A number that is mostly used, at times any.
    fn number(&mut self) -> u8 {
        if self.random.once_in(20) {
            return self.random.bits() as u8;
        }
        self.random.pick(&self.numbers)
    }

    /// A number that has a table, if any has one; once in `others` another one.
    fn kept_number(&mut self, others: usize) -> u8 {
        let kept: Vec<u8> = self.map.iter().flat_map(BTreeMap::keys).copied().collect();
        if kept.is_empty() || self.random.once_in(others) {
            return self.number();
        }
        self.random.pick(&kept)
    }

    /// The table of a pattern for a number, with labels for it.
    fn table_of(&mut self, number: u8, tree: &[Atom]) -> Vec<u8> {
        let near = (0..3).map(|_| near_label(&mut self.random, tree, DEAREST));
        let labels = near.collect();
        self.labels.insert(number, labels);
        generated_table(&mut self.random, tree)
    }

    /// A table as long as the room that is left for it, or a byte longer.
    fn fitted(&mut self, number: u8) -> Vec<u8> {
        let others = self.map.iter().flatten().filter(|kept| *kept.0 != number);
        let kept: usize = others.map(|(_, table)| table.len()).sum();
        let room = self.register.len().saturating_sub(REGISTER_LEAST + kept);
        let version = any_version(&mut self.random);
        // A literal's source has three bytes besides it.
        let least = version.header_len() + RECORD;
        let most = least + version.source_most - 3;
        let len = (room + self.random.below(2)).clamp(least, most);
        self.labels
            .insert(number, vec![b"x".repeat((len - least).min(12))]);
        table_of_len(version, len)
    }

    /// A store of a table of one atom, of a pattern, of one that just fits, or of one that may not
    /// be good, by a number below 20.
    fn store(&mut self, register: Vec<u8>, number: u8, kind: usize) -> Call {
        let tree = match kind {
            0..=5 => one_atom(&mut self.random),
            6..=12 => any_pattern(&mut self.random),
            _ => Vec::new(),
        };
        let table = match kind {
            0..=12 => self.table_of(number, &tree),
            13..=16 => self.fitted(number),
            _ => table(&mut self.random),
        };
        Call::Store {
            register,
            number,
            table,
        }
    }

    fn label(&mut self, number: u8) -> Vec<u8> {
        match self.labels.get(&number) {
            _ if self.random.once_in(12) => long_label(&mut self.random),
            Some(labels) => labels[self.random.below(labels.len())].clone(),
            None => b"x".repeat(self.random.below(9)),
        }
    }

    fn match_number(&mut self, register: Vec<u8>) -> Call {
        let number = self.kept_number(12);
        let label = self.label(number);
        let random = &mut self.random;
        let kept = self.map.as_ref().and_then(|map| map.get(&number));
        let table = kept.map_or(&[][..], |table| table);
        let atoms = atom_count(table);
        let parts = second::part_bytes(table).unwrap_or(2);
        let mut lens = [work(atoms, label.len().min(255)), parts];
        if random.once_in(3) {
            let at = random.below(2);
            lens[at] = about(random, lens[at]);
        }
        // The largest scratch takes too long to be lent often.
        if lens[0] > 1_000_000 && !random.once_in(20) {
            lens[0] = random.below(10_000);
        }
        let budget = if label.len() > 60 {
            random.below(10_000) as u64
        } else {
            budget_about(random, table, &label)
        };
        Call::MatchNumber {
            register,
            number,
            label,
            scratch_len: lens[0],
            parts_len: lens[1],
            budget,
        }
    }

    /// A label for a search: near a pattern that is kept, of any bytes, empty or too long. It is cut
    /// until all patterns together make at most `most` trials on it.
    fn searched_label(&mut self, kept: &Register, most: u64) -> Vec<u8> {
        let number = self.kept_number(12);
        let mut label = match self.random.below(24) {
            0 => Vec::new(),
            1 => b"x".repeat(self.random.between(254, 300)),
            2 => long_label(&mut self.random),
            3..=4 => (0..self.random.below(5))
                .map(|_| self.random.bits() as u8)
                .collect(),
            _ => self.label(number),
        };
        while label.len() <= 255 && search_trials(kept, &label) > most {
            label.truncate(label.len() / 2);
        }
        label
    }

    /// A search with scratch and parts for all patterns, or about what one of them needs.
    fn search(&mut self, register: Vec<u8>) -> Call {
        let kept = Register {
            capacity: 0,
            tables: self.map.clone().unwrap_or_default(),
        };
        let most = if self.random.once_in(60) {
            10_000_000
        } else {
            400_000
        };
        let label = self.searched_label(&kept, most);
        let random = &mut self.random;
        let needs = |table: &Vec<u8>| {
            let scratch = work(atom_count(table), label.len().min(255));
            [scratch, second::part_bytes(table).unwrap_or(2)]
        };
        let all: Vec<[usize; 2]> = kept.tables.values().map(needs).collect();
        let mut lens = [0, 1].map(|at| all.iter().map(|need| need[at]).max().unwrap_or(0));
        for (at, len) in lens.iter_mut().enumerate() {
            if !all.is_empty() && random.once_in(4) {
                let one = all[random.below(all.len())][at];
                *len = random.pick(&[one, one, one - 1, one - 1, one + 1, 0]);
            }
        }
        // The largest scratch takes too long to be lent often.
        if lens[0] > 1_000_000 && !random.once_in(20) {
            lens[0] = random.below(10_000);
        }
        Call::Search {
            register,
            label,
            scratch_len: lens[0],
            parts_len: lens[1],
        }
    }

    fn call(&mut self) -> Call {
        let mut register = self.register.clone();
        if self.map.is_none() && self.random.once_in(4) {
            return Call::Init { register };
        }
        if let Some(number) = self.unfilled.pop_if(|_| self.map.is_some()) {
            return self.store(register, number, 0);
        }
        // Now and then a call on a damaged copy, which isn't taken over.
        if self.random.once_in(10) {
            damage_register(&mut self.random, &mut register, &self.numbers);
        }
        match self.random.below(500) {
            0 => Call::Init { register },
            1..=219 => {
                let (number, kind) = (self.number(), self.random.below(20));
                self.store(register, number, kind)
            }
            220..=319 => {
                let number = self.kept_number(5);
                Call::Remove { register, number }
            }
            320..=389 => self.search(register),
            _ => self.match_number(register),
        }
    }

    pub fn next_case(&mut self) -> Case {
        let call = self.call();
        let random = &mut self.random;
        let answer_len = if random.once_in(20) {
            random.pick(&[0, 1, 31, 33, 40])
        } else {
            32
        };
        Case {
            call,
            answer_len,
            dirt: random.bits() as u8 % 16,
        }
    }

    /// What a plain map answers, and what it becomes.
    fn answer_of_map(&mut self, call: &Call) -> Expected {
        let capacity = self.register.len().checked_sub(REGISTER_LEAST);
        if let Call::Init { .. } = call {
            self.map = capacity.map(|_| BTreeMap::new());
        }
        let (Some(map), Some(capacity)) = (&mut self.map, capacity) else {
            return numbered(second::REGISTER);
        };
        match call {
            Call::Store { number, table, .. } => numbered(store(map, capacity, *number, table)),
            Call::Remove { number, .. } => match map.remove(number) {
                Some(_) => numbered(0),
                None => numbered(second::MISSING),
            },
            Call::MatchNumber {
                number,
                label,
                scratch_len,
                parts_len,
                budget,
                ..
            } => match map.get(number) {
                Some(table) => Expected::of_match(second::match_label(
                    table,
                    label,
                    *scratch_len,
                    *parts_len,
                    *budget,
                )),
                None => numbered(second::MISSING),
            },
            Call::Search {
                label,
                scratch_len,
                parts_len,
                ..
            } => {
                let tables = map.clone();
                let map = Register { capacity, tables };
                Expected::of_search(map.search(label, *scratch_len, *parts_len))
            }
            _ => numbered(0),
        }
    }

    /// Looks whether a call answered as the plain map does and left a register that means it.
    pub fn take_over(&mut self, case: &Case, answered: &Expected) -> Result<(), String> {
        if case.answer_len < 32 || case.call.register() != Some(&self.register) {
            return Ok(());
        }
        let wanted = self.answer_of_map(&case.call);
        let same = answered.number == wanted.number
            && answered.values() == wanted.values()
            && answered.writes == wanted.writes;
        if !same {
            return Err(format!("a plain map answers number {}", wanted.number));
        }
        for (at, bytes) in &answered.register {
            self.register[*at..][..bytes.len()].copy_from_slice(bytes);
        }
        if Register::read(&self.register).map(|register| register.tables) != self.map {
            return Err("the register means another map afterwards".to_string());
        }
        Ok(())
    }
}
