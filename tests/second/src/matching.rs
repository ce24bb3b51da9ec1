//! Matching by relations between places of the label: an atom relates i to j
//! when the stretch i to j satisfies it. Repeats are powers of a relation.

use crate::table::{decode, Record};
use crate::{good, BUDGET, LABEL, LABEL_MOST, OPEN, PARTS, TABLE, WORK};

/// What a matching call answers and writes.
#[derive(Clone, Debug, PartialEq, Eq)]
pub struct Matched {
    pub number: u32,
    pub position: usize,
    pub verdict: bool,
    pub trials: u64,
    /// The bytes written at the start of the parts buffer.
    pub parts: Option<Vec<u8>>,
    /// How many bytes at the start of the scratch are zero afterwards because of the call.
    pub clears: usize,
}

impl Matched {
    /// A refusal that writes nothing.
    pub(crate) fn refused(number: u32) -> Self {
        Matched {
            number,
            position: 0,
            verdict: false,
            trials: 0,
            parts: None,
            clears: 0,
        }
    }
}

/// A set of pairs of places; row i holds the places related to i, a bit each.
#[derive(Clone)]
struct Relation(Vec<[u64; 4]>);

impl Relation {
    fn none(places: usize) -> Self {
        Relation(vec![[0; 4]; places])
    }

    /// Each place related to itself: the empty stretches.
    fn empty_stretches(places: usize) -> Self {
        let mut all = Self::none(places);
        (0..places).for_each(|i| all.add(i, i));
        all
    }

    fn add(&mut self, i: usize, j: usize) {
        self.0[i][j / 64] |= 1 << (j % 64);
    }

    fn has(&self, i: usize, j: usize) -> bool {
        self.0[i][j / 64] >> (j % 64) & 1 == 1
    }

    fn or(&self, other: &Self) -> Self {
        let row = |(x, y): (&[u64; 4], &[u64; 4])| std::array::from_fn(|word| x[word] | y[word]);
        Relation(self.0.iter().zip(&other.0).map(row).collect())
    }

    /// A stretch of this relation followed by one of the other.
    fn then(&self, other: &Self) -> Self {
        let places = self.0.len();
        let mut all = Self::none(places);
        for i in 0..places {
            for m in (0..places).filter(|&m| self.has(i, m)) {
                for word in 0..4 {
                    all.0[i][word] |= other.0[m][word];
                }
            }
        }
        all
    }

    /// Exactly `times` stretches of this relation in a row.
    fn power(&self, times: usize) -> Self {
        let mut result = Self::empty_stretches(self.0.len());
        let mut square = self.clone();
        let mut rest = times;
        while rest > 0 {
            if rest & 1 == 1 {
                result = result.then(&square);
            }
            rest >>= 1;
            if rest > 0 {
                square = square.then(&square);
            }
        }
        result
    }
}

pub(crate) fn in_codes(set: u16, byte: u8) -> bool {
    let ranges: [&[(u8, u8)]; 7] = [
        &[(65, 90), (97, 122)],
        &[(0, 31), (127, 127)],
        &[(0, 255)],
        &[(97, 122)],
        &[(48, 57)],
        &[(32, 47), (58, 64), (91, 96), (123, 126)],
        &[(65, 90)],
    ];
    let holds = |bit: usize| {
        ranges[bit]
            .iter()
            .any(|&(from, to)| from <= byte && byte <= to)
    };
    (0..7).any(|bit| set >> bit & 1 == 1 && holds(bit))
}

/// The index of the first atom after atom `r` and all that it holds.
pub(crate) fn after(records: &[Record], r: usize) -> usize {
    if records[r].kind == 3 {
        usize::from(records[r].b)
    } else {
        r + 1
    }
}

/// The index of the first atom of each branch of group `r`.
pub(crate) fn branches(records: &[Record], r: usize) -> Vec<usize> {
    let mut starts = vec![r + 1];
    let mut at = r + 1;
    while at < usize::from(records[r].b) {
        let next = after(records, at);
        if records[at].last == 1 && next < usize::from(records[r].b) {
            starts.push(next);
        }
        at = next;
    }
    starts
}

/// The relations of one atom: its body once, the atom, the atom with its followers.
struct Atom {
    body: Relation,
    whole: Relation,
    rest: Relation,
}

/// The stretches that satisfy the body of atom `r` once; later atoms are settled.
fn body_of(
    records: &[Record],
    r: usize,
    pool: &[u8],
    label: &[u8],
    atoms: &[Option<Atom>],
) -> Relation {
    let places = label.len() + 1;
    let record = records[r];
    let mut body = Relation::none(places);
    match record.kind {
        1 => (0..label.len())
            .filter(|&i| in_codes(record.a, label[i]))
            .for_each(|i| body.add(i, i + 1)),
        2 => {
            let value = &pool[usize::from(record.a)..][..usize::from(record.b)];
            let here = |i: &usize| label[*i..].starts_with(value);
            (0..places)
                .filter(here)
                .for_each(|i| body.add(i, i + value.len()));
        }
        _ => {
            for start in branches(records, r) {
                body = body.or(&atoms[start].as_ref().unwrap().rest);
            }
        }
    }
    body
}

/// The relations of every atom of a good table.
fn relations(records: &[Record], pool: &[u8], label: &[u8]) -> Vec<Atom> {
    let places = label.len() + 1;
    let mut atoms: Vec<Option<Atom>> = records.iter().map(|_| None).collect();
    for r in (0..records.len()).rev() {
        let record = records[r];
        let body = body_of(records, r, pool, label, &atoms);
        let at_most_once = body.or(&Relation::empty_stretches(places));
        // Beyond the low number, n more bodies reach whatever any number of them reaches.
        let more = if record.high == OPEN {
            label.len()
        } else {
            usize::from(record.high - record.low)
        };
        let whole = body
            .power(usize::from(record.low))
            .then(&at_most_once.power(more));
        let rest = if record.last == 1 {
            whole.clone()
        } else {
            whole.then(&atoms[after(records, r)].as_ref().unwrap().rest)
        };
        atoms[r] = Some(Atom { body, whole, rest });
    }
    atoms.into_iter().flatten().collect()
}

/// The trials so far, and how many there may be.
struct Trials {
    count: u64,
    budget: u64,
}

impl Trials {
    /// Tries ends m from j down to i until one holds; whether one does, or None past the budget.
    fn try_ends(&mut self, i: usize, j: usize, holds: impl Fn(usize) -> bool) -> Option<bool> {
        for m in (i..=j).rev() {
            self.count += 1;
            if self.count > self.budget {
                return None;
            }
            if holds(m) {
                return Some(true);
            }
        }
        Some(false)
    }

    /// The repeats of a body: for each k to `most` the stretches that are made of k.
    fn repeats(&mut self, body: &Relation, most: usize) -> Option<()> {
        let w = body.0.len();
        // made[i * w + j]: the stretch i to j is made of k - 1 bodies.
        let mut made = vec![false; w * w];
        (0..w).for_each(|i| made[i * w + i] = true);
        for _k in 1..=most {
            let mut next = vec![false; w * w];
            for i in 0..w {
                for j in i..w {
                    let holds = |m: usize| body.has(i, m) && made[m * w + j];
                    next[i * w + j] = self.try_ends(i, j, holds)?;
                }
            }
            made = next;
        }
        Some(())
    }

    /// An atom and its followers, for each stretch.
    fn followers(&mut self, whole: &Relation, rest: &Relation) -> Option<()> {
        let w = whole.0.len();
        for i in 0..w {
            for j in i..w {
                self.try_ends(i, j, |m| whole.has(i, m) && rest.has(m, j))?;
            }
        }
        Some(())
    }
}

/// The count of trials as the paper defines it, or None once it exceeds the budget.
fn count_trials(records: &[Record], atoms: &[Atom], n: usize, budget: u64) -> Option<u64> {
    let mut trials = Trials { count: 0, budget };
    for (r, record) in records.iter().enumerate() {
        let most = if record.high == OPEN {
            n
        } else {
            n.min(usize::from(record.high))
        };
        trials.repeats(&atoms[r].body, most)?;
        if record.last == 0 {
            trials.followers(&atoms[r].whole, &atoms[after(records, r)].rest)?;
        }
    }
    Some(trials.count)
}

/// The indices of the top-level atoms.
pub(crate) fn top_level(records: &[Record]) -> Vec<usize> {
    let mut tops = vec![0];
    while records[tops[tops.len() - 1]].last == 0 {
        tops.push(after(records, tops[tops.len() - 1]));
    }
    tops
}

/// The bytes of the parts of a good table, two for each top-level atom.
pub fn part_bytes(table: &[u8]) -> Option<usize> {
    let (records, _) = decode(table).filter(|_| good(table))?;
    Some(2 * top_level(&records).len())
}

/// The ends of the longest-first partition of a label that satisfies the pattern.
fn longest_first(tops: &[usize], atoms: &[Atom], n: usize) -> Vec<usize> {
    let mut ends = Vec::new();
    let mut start = 0;
    for (t, &r) in tops.iter().enumerate() {
        let followers_hold = |m: usize| match tops.get(t + 1) {
            Some(&next) => atoms[next].rest.has(m, n),
            None => m == n,
        };
        start = (start..=n)
            .rev()
            .find(|&m| atoms[r].whole.has(start, m) && followers_hold(m))
            .unwrap();
        ends.push(start);
    }
    ends
}

/// Matches a label against a table, with scratch and parts lent by their lengths.
pub fn match_label(
    table: &[u8],
    label: &[u8],
    scratch_len: usize,
    parts_len: usize,
    budget: u64,
) -> Matched {
    matched(table, label, scratch_len, parts_len, Some(budget))
}

/// The same with unlimited budget: its trials aren't counted, and it has 0 for them.
pub fn match_unlimited(
    table: &[u8],
    label: &[u8],
    scratch_len: usize,
    parts_len: usize,
) -> Matched {
    matched(table, label, scratch_len, parts_len, None)
}

fn matched(
    table: &[u8],
    label: &[u8],
    scratch_len: usize,
    parts_len: usize,
    budget: Option<u64>,
) -> Matched {
    if !good(table) {
        return Matched::refused(TABLE);
    }
    if label.len() > LABEL_MOST {
        return Matched::refused(LABEL);
    }
    let (records, pool) = decode(table).unwrap();
    let places = label.len() + 1;
    let clears = (2 * records.len() + 4) * places * places;
    if scratch_len < clears {
        return Matched::refused(WORK);
    }
    if parts_len < 2 * top_level(&records).len() {
        return Matched::refused(PARTS);
    }
    let atoms = relations(&records, pool, label);
    let trials = match budget {
        Some(budget) => count_trials(&records, &atoms, label.len(), budget).ok_or(budget),
        None => Ok(0),
    };
    let matched = match trials {
        Ok(trials) => verdict(&records, &atoms, label.len(), trials),
        Err(budget) => Matched {
            trials: budget,
            ..Matched::refused(BUDGET)
        },
    };
    Matched { clears, ..matched }
}

/// The verdict with its parts; the scratch aside.
fn verdict(records: &[Record], atoms: &[Atom], n: usize, trials: u64) -> Matched {
    let verdict = atoms[0].rest.has(0, n);
    let parts = verdict.then(|| {
        let ends = longest_first(&top_level(records), atoms, n);
        ends.iter()
            .flat_map(|&end| (end as u16).to_le_bytes())
            .collect()
    });
    Matched {
        number: 0,
        position: 0,
        verdict,
        trials,
        parts,
        clears: 0,
    }
}
