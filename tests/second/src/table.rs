//! Table to source. A table is good when the source printed from it
//! compiles to the same bytes by the limits of its version.

use crate::version::RECORD;
use crate::{compile_to, Refusal, Version, CODES, OPEN, ROOM, TABLE};

#[derive(Clone, Copy)]
pub(crate) struct Record {
    pub kind: u8,
    pub last: u8,
    pub low: u16,
    pub high: u16,
    pub a: u16,
    pub b: u16,
}

/// The records and the pool, as far as the lengths allow; nothing else is looked at.
pub(crate) fn decode(table: &[u8]) -> Option<(Vec<Record>, &[u8])> {
    let version = Version::of(table)?;
    let atoms = version.atom_count(table)?;
    let after = table.get(version.header_len()..)?;
    let (records, pool) = after.split_at_checked(RECORD * atoms)?;
    let record = |bytes: &[u8]| {
        let field = |at: usize| u16::from_le_bytes([bytes[at], bytes[at + 1]]);
        Record {
            kind: bytes[0],
            last: bytes[1],
            low: field(2),
            high: field(4),
            a: field(6),
            b: field(8),
        }
    };
    let records = records.chunks_exact(RECORD).map(record);
    Some((records.collect(), pool))
}

fn count_text(low: u16, high: u16) -> String {
    match (low, high) {
        (low, high) if low == high => low.to_string(),
        (0, OPEN) => ".".to_string(),
        (low, OPEN) => format!("{low}."),
        (0, high) => format!(".{high}"),
        (low, high) => format!("{low}.{high}"),
    }
}

fn literal_text(value: &[u8]) -> Vec<u8> {
    let mut text = vec![b'"'];
    for &byte in value {
        text.extend(vec![byte; if byte == b'"' { 2 } else { 1 }]);
    }
    text.push(b'"');
    text
}

/// What follows an atom: the ends of its branch and of groups. For each open group: the branches
/// still to end, and the group's own last.
fn end_text(mut last: u8, open: &mut Vec<(u16, u8)>) -> Vec<u8> {
    let mut text = Vec::new();
    while last == 1 {
        let Some((branches, group_last)) = open.pop() else {
            break;
        };
        if branches > 1 {
            text.push(b',');
            open.push((branches - 1, group_last));
            break;
        }
        text.push(b')');
        last = group_last;
    }
    text
}

/// The shortest source with this structure, if the table has one at all.
fn print(table: &[u8]) -> Option<Vec<u8>> {
    let (records, pool) = decode(table)?;
    let mut source = Vec::new();
    let mut open = Vec::new();
    for record in records {
        source.extend(count_text(record.low, record.high).bytes());
        match record.kind {
            1 => source.extend(
                (0..7)
                    .filter(|bit| record.a >> bit & 1 == 1)
                    .map(|bit| CODES[bit]),
            ),
            2 => {
                let start = usize::from(record.a);
                let value = pool.get(start..start + usize::from(record.b))?;
                source.extend(literal_text(value));
            }
            3 => {
                source.push(b'(');
                open.push((record.a, record.last));
                continue;
            }
            _ => return None,
        }
        source.extend(end_text(record.last, &mut open));
    }
    Some(source)
}

fn source_of(table: &[u8]) -> Option<Vec<u8>> {
    let source = print(table)?;
    let compiled = compile_to(Version::of(table)?, &source, usize::MAX).ok()?;
    (compiled == table).then_some(source)
}

/// Whether some accepted source compiles to this table.
pub fn good(table: &[u8]) -> bool {
    source_of(table).is_some()
}

/// Writes a table back as its shortest source of at most `room` bytes.
pub fn write_back(table: &[u8], room: usize) -> Result<Vec<u8>, Refusal> {
    let source = source_of(table).ok_or(Refusal {
        number: TABLE,
        position: 0,
    })?;
    if source.len() > room {
        return Err(Refusal {
            number: ROOM,
            position: 0,
        });
    }
    Ok(source)
}
