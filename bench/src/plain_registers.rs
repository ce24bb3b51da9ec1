//! A register in plain Rust, written for speed: each call tests the whole buffer, and the tables
//! behind one that changes are moved at once. A slot has 4 bytes in version 1 and 44 in version 2.

use crate::plain::{judge, match_tested, split, test, work_of};
use crate::plain::{Refusal, Safe, Table, Uncounted, Verdict};
use crate::plain_summaries::summary;

pub const SLOT_1: usize = 4;
pub const SLOT_2: usize = 44;

/// Where the tables begin.
pub const fn tables_at(slot: usize) -> usize {
    8 + 256 * slot
}

fn opening<const SLOT: usize>() -> [u8; 8] {
    match SLOT {
        SLOT_1 => *b"MPR\x01\x00\x00\x00\x00",
        _ => *b"MPR\x02\x00\x00\x00\x00",
    }
}

fn len_in(slot: &[u8]) -> usize {
    u32::from_le_bytes([slot[0], slot[1], slot[2], slot[3]]) as usize
}

/// What a slot of version 2 has after the length: both counts of atoms, shortest and longest in one
/// number of 16 bits each, then the set; zeros without a table.
type Entry = [u64; 5];

fn entry_of(table: &Table) -> Entry {
    let (summary, tops) = summary(table);
    let lens = u64::from(summary.shortest) << 32 | u64::from(summary.longest) << 48;
    let [a, b, c, d] = summary.first;
    [table.atoms as u64 | (tops as u64) << 16 | lens, a, b, c, d]
}

/// Whether a slot has this entry. On arrays `==` takes several times as long.
#[inline]
fn has_entry(slot: &[u8], entry: &Entry) -> bool {
    let (words, _) = slot[4..].as_chunks();
    let differs = |all: u64, (word, own): (&[u8; 8], &u64)| all | (u64::from_le_bytes(*word) ^ own);
    words.iter().zip(entry).fold(0, differs) == 0
}

/// Where the table of a number begins, its length, 0 for none, and where the last table ends.
struct Place<'a> {
    begin: usize,
    len: usize,
    end: usize,
    table: Option<Table<'a>>,
}

/// Tests a register in one pass, every summary too, and finds the place of a number.
fn find<const SLOT: usize>(register: &[u8], number: u8) -> Option<Place<'_>> {
    let (head, tables) = register.split_at_checked(tables_at(SLOT))?;
    let (opened, directory) = head.split_first_chunk()?;
    if *opened != opening::<SLOT>() {
        return None;
    }
    let (mut begin, mut len, mut end, mut table) = (0, 0, 0, None);
    for (k, slot) in directory.as_chunks::<SLOT>().0.iter().enumerate() {
        let kept = len_in(slot);
        let own = k == usize::from(number);
        if own {
            (begin, len) = (end, kept);
        }
        if kept > 0 {
            let (tested, _) = test(tables.get(end..end + kept)?)?;
            if SLOT == SLOT_2 && !has_entry(slot, &entry_of(&tested)) {
                return None;
            }
            end += kept;
            if own {
                table = Some(tested);
            }
        } else if SLOT == SLOT_2 && !has_entry(slot, &[0; 5]) {
            return None;
        }
    }
    Some(Place {
        begin: tables_at(SLOT) + begin,
        len,
        end: tables_at(SLOT) + end,
        table,
    })
}

fn put_slot<const SLOT: usize>(register: &mut [u8], number: u8, len: usize, entry: Entry) {
    let slot = &mut register[8 + SLOT * usize::from(number)..][..SLOT];
    slot[..4].copy_from_slice(&(len as u32).to_le_bytes());
    for (place, word) in slot[4..].chunks_exact_mut(8).zip(entry) {
        place.copy_from_slice(&word.to_le_bytes());
    }
}

pub fn init<const SLOT: usize>(register: &mut [u8]) -> Result<(), Refusal> {
    let head = register.get_mut(..tables_at(SLOT)).ok_or((18, 0))?;
    head.fill(0);
    head[..8].copy_from_slice(&opening::<SLOT>());
    Ok(())
}

pub fn store<const SLOT: usize>(
    register: &mut [u8],
    number: u8,
    table: &[u8],
) -> Result<(), Refusal> {
    let Place {
        begin, len, end, ..
    } = find::<SLOT>(register, number).ok_or((18, 0))?;
    let (tested, _) = test(table).ok_or((11, 0))?;
    if end - len + table.len() > register.len() {
        return Err((17, 0));
    }
    let entry = match SLOT {
        SLOT_1 => [0; 5],
        _ => entry_of(&tested),
    };
    register.copy_within(begin + len..end, begin + table.len());
    register[begin..begin + table.len()].copy_from_slice(table);
    put_slot::<SLOT>(register, number, table.len(), entry);
    Ok(())
}

pub fn remove<const SLOT: usize>(register: &mut [u8], number: u8) -> Result<(), Refusal> {
    let Place {
        begin, len, end, ..
    } = find::<SLOT>(register, number).ok_or((18, 0))?;
    if len == 0 {
        return Err((19, 0));
    }
    register.copy_within(begin + len..end, begin);
    put_slot::<SLOT>(register, number, 0, [0; 5]);
    Ok(())
}

pub fn match_number<const SLOT: usize>(
    register: &[u8],
    number: u8,
    label: &[u8],
    scratch: &mut [u8],
    parts: &mut [u8],
    budget: u64,
) -> Result<Verdict, Refusal> {
    let found = find::<SLOT>(register, number).ok_or((18, 0))?;
    let table = found.table.ok_or((19, 0))?;
    match_tested::<Safe, 0>(&table, 2 * table.tops(), label, scratch, parts, budget)
}

// ---- the search ----

/// What a search answers: the refusal, the verdict, the number at which it ended, and how many it
/// skipped.
#[derive(Clone, Copy, Debug, Default, PartialEq)]
pub struct Searched {
    pub refusal: u32,
    pub yes: bool,
    pub number: u8,
    pub skipped: u64,
}

fn refused(refusal: u32, number: usize) -> Searched {
    Searched {
        refusal,
        number: number as u8,
        ..Searched::default()
    }
}

/// Whether a slot's summary rules out the label's length or its first byte.
fn rules_out(slot: &[u8; SLOT_2], label: &[u8]) -> bool {
    let shortest = usize::from(u16::from_le_bytes([slot[8], slot[9]]));
    let longest = usize::from(u16::from_le_bytes([slot[10], slot[11]]));
    let begins = |&byte: &u8| slot[12 + usize::from(byte / 8)] >> (byte % 8) & 1 == 1;
    !(shortest..=longest).contains(&label.len()) || !label.first().is_none_or(begins)
}

/// Searches a version 2 register, at a placement; the buffer is tested only if `TESTED`.
pub fn search<const TESTED: bool, const PLACE: usize>(
    register: &[u8],
    label: &[u8],
    scratch: &mut [u8],
    parts: &mut [u8],
) -> Searched {
    if TESTED && find::<SLOT_2>(register, 0).is_none() {
        return refused(18, 0);
    }
    if label.len() > 255 {
        return refused(12, 0);
    }
    let mut used = 0;
    let found = look::<PLACE>(register, label, scratch, parts, &mut used);
    scratch[..used].fill(0);
    found
}

/// The search in a good register. `used` becomes the most scratch of a pattern looked at.
fn look<const PLACE: usize>(
    register: &[u8],
    label: &[u8],
    scratch: &mut [u8],
    parts: &mut [u8],
    used: &mut usize,
) -> Searched {
    let (head, mut tables) = register.split_at(tables_at(SLOT_2));
    let mut skipped = 0;
    for (k, slot) in head[8..].as_chunks::<SLOT_2>().0.iter().enumerate() {
        let len = len_in(slot);
        if len == 0 {
            continue;
        }
        let (table, behind) = tables.split_at(len);
        tables = behind;
        let atoms = usize::from(u16::from_le_bytes([slot[4], slot[5]]));
        let tops = usize::from(u16::from_le_bytes([slot[6], slot[7]]));
        let work = work_of(atoms, label.len());
        if scratch.len() < work {
            return refused(13, k);
        }
        if parts.len() < 2 * tops {
            return refused(14, k);
        }
        *used = work.max(*used);
        if rules_out(slot, label) {
            skipped += 1;
            continue;
        }
        let scratch = &mut scratch[..work];
        let judged = split(table).and_then(|(table, _)| {
            judge::<Uncounted, PLACE>(&table, label, scratch, parts, u64::MAX)
        });
        if judged.is_some_and(|(yes, _)| yes) {
            return Searched {
                refusal: 0,
                yes: true,
                number: k as u8,
                skipped,
            };
        }
    }
    Searched {
        skipped,
        ..Searched::default()
    }
}
