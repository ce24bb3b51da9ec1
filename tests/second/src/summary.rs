//! The summary of a pattern: the shortest and the longest string that satisfies it and the bytes
//! that begin one. Worked out by the set of all lengths that its strings have.

use crate::matching::{after, branches, in_codes};
use crate::table::{decode, Record};
use crate::{good, OPEN};

/// Stands for every length above 255.
const ABOVE: usize = 256;

/// A set of lengths, a bit each; one bit for all above 255.
#[derive(Clone, Copy, PartialEq, Eq)]
struct Lengths([u64; 5]);

impl Lengths {
    const NONE: Self = Lengths([0; 5]);

    fn only(len: usize) -> Self {
        let mut lengths = Self::NONE;
        lengths.add(len);
        lengths
    }

    fn add(&mut self, len: usize) {
        let len = len.min(ABOVE);
        self.0[len / 64] |= 1 << (len % 64);
    }

    fn all(self) -> impl Iterator<Item = usize> {
        (0..5).flat_map(move |word| {
            let mut bits = self.0[word];
            std::iter::from_fn(move || {
                let bit = bits.trailing_zeros() as usize;
                bits &= bits.checked_sub(1)?;
                Some(64 * word + bit)
            })
        })
    }

    fn or(self, other: Self) -> Self {
        Lengths(std::array::from_fn(|word| self.0[word] | other.0[word]))
    }

    /// Each length with `more` added to it.
    fn raised(self, more: usize) -> Self {
        if more == ABOVE {
            return self
                .all()
                .map(|_| Self::only(ABOVE))
                .fold(Self::NONE, Self::or);
        }
        let (words, bits) = (more / 64, more % 64);
        let mut wide = [0; 9];
        for (at, &word) in self.0.iter().enumerate() {
            wide[at + words] |= word << bits;
            if bits > 0 {
                wide[at + words + 1] |= word >> (64 - bits);
            }
        }
        let above = wide[4..].iter().any(|&word| word != 0);
        Lengths([wide[0], wide[1], wide[2], wide[3], u64::from(above)])
    }

    /// The lengths of one string followed by another.
    fn plus(self, other: Self) -> Self {
        self.all()
            .map(|len| other.raised(len))
            .fold(Self::NONE, Self::or)
    }

    /// The lengths of so many strings one after the other.
    fn times(self, count: u16) -> Self {
        let (mut sums, mut doubled, mut left) = (Self::only(0), self, count);
        while left > 0 {
            if left % 2 == 1 {
                sums = sums.plus(doubled);
            }
            left /= 2;
            if left > 0 {
                doubled = doubled.plus(doubled);
            }
        }
        sums
    }

    /// The lengths of any number of strings one after the other: sums are added until no new one
    /// comes.
    fn any_number(self) -> Self {
        let mut sums = self.or(Self::only(0));
        loop {
            let more = sums.plus(sums);
            if more == sums {
                return sums;
            }
            sums = more;
        }
    }
}

/// A good table with the lengths of what satisfies its atoms.
struct Measured {
    records: Vec<Record>,
    pool: Vec<u8>,
    /// Of each atom.
    wholes: Vec<Lengths>,
    /// Of each atom and all that follow it in its branch.
    rests: Vec<Lengths>,
}

impl Measured {
    fn of(table: &[u8]) -> Option<Self> {
        let (records, pool) = decode(table).filter(|_| good(table))?;
        let count = records.len();
        let mut all = Measured {
            records,
            pool: pool.to_vec(),
            wholes: vec![Lengths::NONE; count],
            rests: vec![Lengths::NONE; count],
        };
        for r in (0..count).rev() {
            let record = all.records[r];
            let body = all.body(r);
            let more = match record.high {
                OPEN => body.any_number(),
                high => body.or(Lengths::only(0)).times(high - record.low),
            };
            all.wholes[r] = body.times(record.low).plus(more);
            all.rests[r] = match record.last {
                1 => all.wholes[r],
                _ => all.wholes[r].plus(all.rests[after(&all.records, r)]),
            };
        }
        Some(all)
    }

    /// The lengths of what satisfies the body of an atom once; later atoms are settled.
    fn body(&self, r: usize) -> Lengths {
        let record = self.records[r];
        match record.kind {
            1 if (0..=255).any(|byte| in_codes(record.a, byte)) => Lengths::only(1),
            1 => Lengths::NONE,
            2 => Lengths::only(usize::from(record.b)),
            _ => {
                let branches = branches(&self.records, r).into_iter();
                branches
                    .map(|start| self.rests[start])
                    .fold(Lengths::NONE, Lengths::or)
            }
        }
    }

    /// Adds the codes and the bytes of literals that begin a string of the branch from atom `r` on.
    fn begin(&self, mut r: usize, codes: &mut u16, bytes: &mut Vec<u8>) {
        // Without any string nothing begins one.
        while self.rests[r] != Lengths::NONE {
            let record = self.records[r];
            let literal = usize::from(record.a)..usize::from(record.a) + usize::from(record.b);
            match record.kind {
                _ if record.high == 0 => (),
                1 => *codes |= record.a,
                2 => bytes.extend(self.pool[literal].first()),
                _ => {
                    for start in branches(&self.records, r) {
                        self.begin(start, codes, bytes);
                    }
                }
            }
            // What follows begins a string where this atom can be empty.
            let can_be_empty = self.wholes[r].0[0] & 1 == 1;
            if record.last == 1 || !can_be_empty {
                return;
            }
            r = after(&self.records, r);
        }
    }
}

/// What is kept beside a pattern.
#[derive(Clone, Debug, PartialEq, Eq)]
pub struct Summary {
    /// 256 if above 255, or if there is no string.
    pub shortest: u16,
    /// 256 if above 255; 0 if there is no string.
    pub longest: u16,
    /// Byte b is bit b % 8 of byte b / 8.
    pub first: [u8; 32],
}

impl Summary {
    /// None if the table isn't good.
    pub fn of(table: &[u8]) -> Option<Self> {
        let measured = Measured::of(table)?;
        let lengths = measured.rests[0];
        let (mut codes, mut bytes) = (0, Vec::new());
        measured.begin(0, &mut codes, &mut bytes);
        let mut first = [0; 32];
        for byte in 0..=255 {
            if in_codes(codes, byte) || bytes.contains(&byte) {
                first[usize::from(byte / 8)] |= 1 << (byte % 8);
            }
        }
        Some(Summary {
            shortest: lengths.all().min().unwrap_or(ABOVE) as u16,
            longest: lengths.all().max().unwrap_or(0) as u16,
            first,
        })
    }

    pub fn begins(&self, byte: u8) -> bool {
        self.first[usize::from(byte / 8)] >> (byte % 8) & 1 == 1
    }

    /// Whether it rules out the label's length, or its first byte if it has one.
    pub fn rules_out(&self, label: &[u8]) -> bool {
        let fits = (usize::from(self.shortest)..=usize::from(self.longest)).contains(&label.len());
        !fits || label.first().is_some_and(|&byte| !self.begins(byte))
    }

    /// Shortest, longest and first bytes as a register has them.
    pub fn bytes(&self) -> Vec<u8> {
        let numbers = [self.shortest, self.longest];
        let numbers = numbers.into_iter().flat_map(u16::to_le_bytes);
        numbers.chain(self.first).collect()
    }
}
