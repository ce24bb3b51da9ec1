//! A register: tables by number in one buffer, each with its summary; it answers as a plain map
//! does.

use crate::matching::top_level;
use crate::table::decode;
use crate::{good, match_label, match_unlimited, Matched, Refusal, Summary};
use crate::{FULL, LABEL, LABEL_MOST, MISSING, REGISTER, TABLE};
use std::collections::BTreeMap;

/// The mark, the version and three zeros.
const OPENING: &[u8] = b"MPR\x02\x00\x00\x00\x00";
/// The bytes that the directory has for each number.
pub const SLOT: usize = 44;
const DIRECTORY: usize = SLOT * 256;
pub const REGISTER_LEAST: usize = 11_272;

/// What the directory has for a table: its length, its atoms, its top-level atoms and its summary.
/// None if the table isn't good.
fn good_slot(table: &[u8]) -> Option<[u8; SLOT]> {
    let summary = Summary::of(table)?;
    let (records, _) = decode(table)?;
    let mut slot = [0; SLOT];
    slot[..4].copy_from_slice(&(table.len() as u32).to_le_bytes());
    slot[4..6].copy_from_slice(&(records.len() as u16).to_le_bytes());
    slot[6..8].copy_from_slice(&(top_level(&records).len() as u16).to_le_bytes());
    slot[8..].copy_from_slice(&summary.bytes());
    Some(slot)
}

/// The same, with zeros for what a table that isn't good doesn't give; all zeros for no table.
pub fn slot(table: &[u8]) -> [u8; SLOT] {
    good_slot(table).unwrap_or_else(|| {
        let mut slot = [0; SLOT];
        slot[..4].copy_from_slice(&(table.len() as u32).to_le_bytes());
        slot
    })
}

/// What a search answers and writes.
#[derive(Clone, Debug, PartialEq, Eq)]
pub struct Searched {
    pub number: u32,
    pub verdict: bool,
    /// The number that matched, or at which a refusal ended the search.
    pub at: u8,
    pub skipped: u64,
    /// The bytes written at the start of the parts buffer.
    pub parts: Option<Vec<u8>>,
    /// How many bytes at the start of the scratch are zero afterwards because of the call.
    pub clears: usize,
}

impl Searched {
    /// Nothing found, nothing skipped and nothing written.
    fn none() -> Self {
        Searched {
            number: 0,
            verdict: false,
            at: 0,
            skipped: 0,
            parts: None,
            clears: 0,
        }
    }

    fn refused(number: u32) -> Self {
        Searched {
            number,
            ..Self::none()
        }
    }
}

/// A plain map from number to table, with room for so many bytes of tables.
#[derive(Clone, Debug, PartialEq, Eq)]
pub struct Register {
    pub capacity: usize,
    pub tables: BTreeMap<u8, Vec<u8>>,
}

fn refused(number: u32) -> Refusal {
    Refusal {
        number,
        position: 0,
    }
}

impl Register {
    /// No tables, in a buffer of `len` bytes; None if that is too short for a register.
    pub fn empty(len: usize) -> Option<Self> {
        Some(Register {
            capacity: len.checked_sub(REGISTER_LEAST)?,
            tables: BTreeMap::new(),
        })
    }

    /// The lengths of all tables.
    pub fn kept(&self) -> usize {
        self.tables.values().map(Vec::len).sum()
    }

    pub fn store(&mut self, number: u8, table: &[u8]) -> Result<(), Refusal> {
        if !good(table) {
            return Err(refused(TABLE));
        }
        let mut then = self.clone();
        then.tables.insert(number, table.to_vec());
        if then.kept() > self.capacity {
            return Err(refused(FULL));
        }
        *self = then;
        Ok(())
    }

    pub fn remove(&mut self, number: u8) -> Result<(), Refusal> {
        let removed = self.tables.remove(&number);
        removed.map(drop).ok_or(refused(MISSING))
    }

    pub fn match_label(
        &self,
        number: u8,
        label: &[u8],
        scratch_len: usize,
        parts_len: usize,
        budget: u64,
    ) -> Matched {
        match self.tables.get(&number) {
            Some(table) => match_label(table, label, scratch_len, parts_len, budget),
            None => Matched::refused(MISSING),
        }
    }

    /// Ordinary calls in turn, the numbers upwards, until one matches or is refused.
    pub fn search(&self, label: &[u8], scratch_len: usize, parts_len: usize) -> Searched {
        if label.len() > LABEL_MOST {
            return Searched::refused(LABEL);
        }
        let mut searched = Searched::none();
        for (&at, table) in &self.tables {
            let matched = match_unlimited(table, label, scratch_len, parts_len);
            searched.clears = searched.clears.max(matched.clears);
            if matched.number > 0 {
                return Searched {
                    at,
                    clears: searched.clears,
                    ..Searched::refused(matched.number)
                };
            }
            // The verdict of a pattern that is skipped is that of its ordinary call all the same.
            let skipped = Summary::of(table).unwrap().rules_out(label);
            searched.skipped += u64::from(skipped);
            if matched.verdict {
                return Searched {
                    verdict: true,
                    at,
                    parts: matched.parts,
                    ..searched
                };
            }
        }
        searched
    }

    /// What a buffer means; None if it isn't good.
    pub fn read(buffer: &[u8]) -> Option<Self> {
        let mut register = Self::empty(buffer.len())?;
        let after = buffer.strip_prefix(OPENING)?;
        let (directory, mut rest) = after.split_at_checked(DIRECTORY)?;
        for (number, field) in (0..=255).zip(directory.chunks(SLOT)) {
            let len = u32::from_le_bytes(field[..4].try_into().ok()?) as usize;
            let (table, others) = rest.split_at_checked(len)?;
            rest = others;
            let wanted = match len {
                0 => [0; SLOT],
                _ => good_slot(table)?,
            };
            if wanted != field {
                return None;
            }
            if len > 0 {
                register.tables.insert(number, table.to_vec());
            }
        }
        Some(register)
    }

    /// The bytes at the start of a buffer that means this map.
    pub fn laid_out(&self) -> Vec<u8> {
        let table = |number: u8| self.tables.get(&number).map_or(&[][..], |table| table);
        let mut bytes = OPENING.to_vec();
        bytes.extend((0..=255).flat_map(|number| slot(table(number))));
        bytes.extend(self.tables.values().flatten());
        bytes
    }
}

/// Starts an empty register in a buffer; the bytes written at its start.
pub fn register_init(buffer: &[u8]) -> Result<Vec<u8>, Refusal> {
    let empty = Register::empty(buffer.len()).ok_or(refused(REGISTER))?;
    Ok(empty.laid_out())
}

/// Stores or replaces a table; the bytes written at the start of the buffer.
pub fn register_store(buffer: &[u8], number: u8, table: &[u8]) -> Result<Vec<u8>, Refusal> {
    let mut register = Register::read(buffer).ok_or(refused(REGISTER))?;
    register.store(number, table)?;
    Ok(register.laid_out())
}

/// Removes a table; the bytes written at the start of the buffer.
pub fn register_remove(buffer: &[u8], number: u8) -> Result<Vec<u8>, Refusal> {
    let mut register = Register::read(buffer).ok_or(refused(REGISTER))?;
    register.remove(number)?;
    Ok(register.laid_out())
}

/// Matches a label against the table of a number.
pub fn register_match(
    buffer: &[u8],
    number: u8,
    label: &[u8],
    scratch_len: usize,
    parts_len: usize,
    budget: u64,
) -> Matched {
    match Register::read(buffer) {
        Some(register) => register.match_label(number, label, scratch_len, parts_len, budget),
        None => Matched::refused(REGISTER),
    }
}

/// Looks for the lowest number whose pattern matches a label.
pub fn register_search(
    buffer: &[u8],
    label: &[u8],
    scratch_len: usize,
    parts_len: usize,
) -> Searched {
    match Register::read(buffer) {
        Some(register) => register.search(label, scratch_len, parts_len),
        None => Searched::refused(REGISTER),
    }
}
