//! The summary of a pattern in plain Rust: one pass over the records, a call for each branch of a
//! group.

use crate::plain::{Record, Table, CLASSES, OPEN};

/// A length above 255 is written as this.
const CAP: u32 = 256;

/// A set of bytes, a bit each.
pub type Set = [u64; 4];

/// The bytes of each set of codes.
static BYTES: [Set; 128] = {
    let mut sets = [[0; 4]; 128];
    let mut codes = 0;
    while codes < 128 {
        let mut byte = 0;
        while byte < 256 {
            if CLASSES[byte] & codes as u8 != 0 {
                sets[codes][byte / 64] |= 1 << (byte % 64);
            }
            byte += 1;
        }
        codes += 1;
    }
    sets
};

#[derive(Clone, Copy, Debug, PartialEq)]
pub struct Summary {
    pub shortest: u32,
    pub longest: u32,
    pub first: Set,
}

fn add(set: &mut Set, other: &Set) {
    for (word, other) in set.iter_mut().zip(other) {
        *word |= other;
    }
}

impl Summary {
    /// One of the strings that this sums up, then a record's body as often as it says.
    #[inline]
    fn follow(&mut self, record: &Record, shortest: u32, longest: u32, first: &Set) {
        if self.shortest == 0 && record.high > 0 {
            add(&mut self.first, first);
        }
        let most = match record.high {
            OPEN => CAP,
            high => u32::from(high),
        };
        self.shortest = CAP.min(self.shortest + u32::from(record.low) * shortest);
        self.longest = CAP.min(self.longest + most * longest);
    }

    fn or(&mut self, other: &Summary) {
        self.shortest = self.shortest.min(other.shortest);
        self.longest = self.longest.max(other.longest);
        add(&mut self.first, &other.first);
    }
}

/// The summary of the branch from atom `r` on, the number of its atoms, and the atom after it.
fn branch(table: &Table, mut r: usize) -> (Summary, usize, usize) {
    let mut all = Summary {
        shortest: 0,
        longest: 0,
        first: [0; 4],
    };
    let mut atoms = 0;
    loop {
        let record = table.record(r);
        atoms += 1;
        r += 1;
        match record.kind {
            1 => all.follow(&record, 1, 1, &BYTES[record.a]),
            2 => {
                let mut first = [0; 4];
                if record.b > 0 {
                    let byte = table.pool[record.a];
                    first[usize::from(byte / 64)] = 1 << (byte % 64);
                }
                all.follow(&record, record.b as u32, record.b as u32, &first);
            }
            _ => {
                let (mut any, _, mut after) = branch(table, r);
                while after < record.b {
                    let (other, _, end) = branch(table, after);
                    any.or(&other);
                    after = end;
                }
                r = after;
                all.follow(&record, any.shortest, any.longest, &any.first);
            }
        }
        if record.last {
            return (all, atoms, r);
        }
    }
}

/// The summary of a good table's pattern, and the number of its top-level atoms.
pub fn summary(table: &Table) -> (Summary, usize) {
    let (all, tops, _) = branch(table, 0);
    (all, tops)
}
