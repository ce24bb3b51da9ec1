//! Recursive readers and a recursive matcher, all by the plainest means.

use std::collections::HashMap;

pub type Refusal = (u32, usize);

/// What a version of tables has of its own.
struct Version {
    opening: &'static [u8; 5],
    header: usize,
    atoms: usize,
    source: usize,
}

const OLD: Version = Version {
    opening: b"MPT\x01\x00",
    header: 8,
    atoms: 64,
    source: 512,
};

const NEW: Version = Version {
    opening: b"MPT\x02\x00",
    header: 9,
    atoms: 256,
    source: 2_048,
};

/// A repeat count and a body; no second number means no upper end.
#[derive(Debug, PartialEq)]
pub struct Atom {
    pub low: u32,
    pub high: Option<u32>,
    pub body: Body,
}

#[derive(Debug, PartialEq)]
pub enum Body {
    Codes(u16),
    Literal(Vec<u8>),
    Group(Vec<Vec<Atom>>),
}

struct Reader<'a> {
    source: &'a [u8],
    at: usize,
    atoms: usize,
    depth: usize,
    faults: Vec<(usize, u32)>,
}

impl Reader<'_> {
    fn peek(&self) -> Option<u8> {
        self.source.get(self.at).copied()
    }

    fn fault(&mut self, number: u32, position: usize) {
        self.faults.push((position, number));
    }

    fn form<T>(&mut self) -> Option<T> {
        self.fault(2, self.at);
        None
    }

    fn pattern(&mut self) -> Option<Vec<Atom>> {
        let mut atoms = vec![self.atom()?];
        while matches!(self.peek(), Some(b'0'..=b'9' | b'.')) {
            atoms.push(self.atom()?);
        }
        Some(atoms)
    }

    /// The digits at the cursor as a number, if there are any.
    fn number(&mut self) -> Option<u128> {
        let start = self.at;
        let mut value: u128 = 0;
        while let Some(digit @ b'0'..=b'9') = self.peek() {
            let fits = value <= 9_999;
            value = value
                .saturating_mul(10)
                .saturating_add(u128::from(digit - b'0'));
            if fits && value > 9_999 {
                self.fault(4, self.at);
            }
            self.at += 1;
        }
        (self.at > start).then_some(value)
    }

    fn atom(&mut self) -> Option<Atom> {
        let start = self.at;
        let first = self.number();
        let mut high = first;
        if self.peek() == Some(b'.') {
            self.at += 1;
            high = self.number();
        } else if first.is_none() {
            return self.form();
        }
        self.atoms += 1;
        if self.atoms > NEW.atoms {
            self.fault(6, start);
        }
        let low = first.unwrap_or(0);
        if low <= 9_999 && high.is_some_and(|high| high < low) {
            self.fault(5, start);
        }
        let body = self.body()?;
        Some(Atom {
            low: low as u32,
            high: high.map(|high| high as u32),
            body,
        })
    }

    fn body(&mut self) -> Option<Body> {
        match self.peek() {
            Some(byte) if byte.is_ascii_alphabetic() => Some(self.codes()),
            Some(b'"') => self.literal(),
            Some(b'(') => self.group(),
            _ => self.form(),
        }
    }

    fn codes(&mut self) -> Body {
        let mut set = 0;
        while let Some(byte) = self.peek().filter(u8::is_ascii_alphabetic) {
            match "ACELNPU".find(byte.to_ascii_uppercase() as char) {
                Some(bit) => set |= 1 << bit,
                None => self.fault(3, self.at),
            }
            self.at += 1;
        }
        Body::Codes(set)
    }

    fn literal(&mut self) -> Option<Body> {
        let mut value = Vec::new();
        self.at += 1;
        loop {
            match self.peek() {
                Some(b'"') if self.source.get(self.at + 1) == Some(&b'"') => {
                    value.push(b'"');
                    self.at += 2;
                }
                Some(b'"') => {
                    self.at += 1;
                    return Some(Body::Literal(value));
                }
                Some(byte @ b' '..=b'~') => {
                    value.push(byte);
                    self.at += 1;
                }
                _ => return self.form(),
            }
        }
    }

    fn group(&mut self) -> Option<Body> {
        if self.depth >= 8 {
            self.fault(7, self.at);
        }
        self.depth += 1;
        let mut branches = Vec::new();
        loop {
            self.at += 1;
            branches.push(self.pattern()?);
            match self.peek() {
                Some(b',') => (),
                Some(b')') => break,
                _ => return self.form(),
            }
        }
        self.at += 1;
        self.depth -= 1;
        Some(Body::Group(branches))
    }
}

/// Reads a source, or gives the refusal of 1 to 7.
pub fn read(source: &[u8]) -> Result<Vec<Atom>, Refusal> {
    if source.len() > NEW.source {
        return Err((1, NEW.source));
    }
    let mut reader = Reader {
        source,
        at: 0,
        atoms: 0,
        depth: 0,
        faults: Vec::new(),
    };
    let pattern = reader.pattern();
    if pattern.is_some() && reader.at < source.len() {
        reader.fault(2, reader.at);
    }
    match reader.faults.iter().min() {
        Some(&(position, number)) => Err((number, position)),
        None => Ok(pattern.unwrap()),
    }
}

fn put(bytes: &mut Vec<u8>, number: usize) {
    bytes.extend((number as u16).to_le_bytes());
}

fn put_records(pattern: &[Atom], before: usize, records: &mut Vec<u8>, pool: &mut Vec<u8>) {
    let mut index = before;
    for (at, atom) in pattern.iter().enumerate() {
        let kind = match atom.body {
            Body::Codes(_) => 1,
            Body::Literal(_) => 2,
            Body::Group(_) => 3,
        };
        records.extend([kind, u8::from(at + 1 == pattern.len())]);
        put(records, atom.low as usize);
        put(records, atom.high.unwrap_or(65_535) as usize);
        let next = index + size(atom);
        match &atom.body {
            Body::Codes(set) => {
                put(records, usize::from(*set));
                put(records, 0);
            }
            Body::Literal(value) => {
                put(records, pool.len());
                put(records, value.len());
                pool.extend(value);
            }
            Body::Group(branches) => {
                put(records, branches.len());
                put(records, next);
                let mut inner = index + 1;
                for branch in branches {
                    put_records(branch, inner, records, pool);
                    inner += branch.iter().map(size).sum::<usize>();
                }
            }
        }
        index = next;
    }
}

/// How many atoms an atom is, with all that it holds.
pub fn size(atom: &Atom) -> usize {
    match &atom.body {
        Body::Group(branches) => 1 + branches.iter().flatten().map(size).sum::<usize>(),
        _ => 1,
    }
}

pub fn to_table(pattern: &[Atom]) -> Vec<u8> {
    let (mut records, mut pool) = (Vec::new(), Vec::new());
    put_records(pattern, 0, &mut records, &mut pool);
    let mut table = NEW.opening.to_vec();
    put(&mut table, records.len() / 10);
    put(&mut table, pool.len());
    [table, records, pool].concat()
}

pub fn to_source(pattern: &[Atom]) -> Vec<u8> {
    let mut source = Vec::new();
    for atom in pattern {
        let first = if atom.low == 0 {
            String::new()
        } else {
            atom.low.to_string()
        };
        let count = match atom.high {
            Some(high) if high == atom.low => high.to_string(),
            Some(high) => format!("{first}.{high}"),
            None => format!("{first}."),
        };
        source.extend(count.bytes());
        match &atom.body {
            Body::Codes(set) => source.extend(
                "ACELNPU"
                    .bytes()
                    .enumerate()
                    .filter(|(bit, _)| set >> bit & 1 == 1)
                    .map(|(_, c)| c),
            ),
            Body::Literal(value) => {
                let text = String::from_utf8(value.clone())
                    .unwrap()
                    .replace('"', "\"\"");
                source.extend(format!("\"{text}\"").bytes());
            }
            Body::Group(branches) => {
                let texts: Vec<Vec<u8>> = branches.iter().map(|branch| to_source(branch)).collect();
                source.push(b'(');
                source.extend(texts.join(&b','));
                source.push(b')');
            }
        }
    }
    source
}

/// A number of any width, the lowest byte first.
fn number_in(bytes: &[u8]) -> usize {
    let more = |number: usize, &byte: &u8| 256 * number + usize::from(byte);
    bytes.iter().rev().fold(0, more)
}

/// Reads a table record by record, or None if it isn't good.
pub fn from_table(table: &[u8]) -> Option<Vec<Atom>> {
    let named = |version: &Version| table.starts_with(version.opening);
    let version = [OLD, NEW].into_iter().find(named)?;
    let header = table.get(..version.header)?;
    let (count, pool_len) = header[5..].split_at(version.header - 7);
    let (atoms, pool_len) = (number_in(count), number_in(pool_len));
    let fits = (1..=version.atoms).contains(&atoms);
    if !fits || table.len() != version.header + 10 * atoms + pool_len {
        return None;
    }
    let (records, pool) = table[version.header..].split_at(10 * atoms);
    let mut reader = TableReader {
        records,
        pool,
        at: 0,
        pool_at: 0,
    };
    let pattern = reader.branch(0)?;
    let whole = reader.at == atoms && reader.pool_at == pool_len;
    (whole && to_source(&pattern).len() <= version.source).then_some(pattern)
}

struct TableReader<'a> {
    records: &'a [u8],
    pool: &'a [u8],
    at: usize,
    pool_at: usize,
}

impl TableReader<'_> {
    fn branch(&mut self, depth: usize) -> Option<Vec<Atom>> {
        let mut pattern = Vec::new();
        loop {
            let (atom, last) = self.atom(depth)?;
            pattern.push(atom);
            if last {
                return Some(pattern);
            }
        }
    }

    fn atom(&mut self, depth: usize) -> Option<(Atom, bool)> {
        let record = self.records.get(10 * self.at..10 * self.at + 10)?;
        let field = |at: usize| u32::from(record[at]) + 256 * u32::from(record[at + 1]);
        let (low, high, a, b) = (field(2), field(4), field(6) as usize, field(8) as usize);
        let high = (high != 65_535).then_some(high);
        if record[1] > 1 || low > 9_999 || high.is_some_and(|high| high > 9_999 || high < low) {
            return None;
        }
        self.at += 1;
        let body = match record[0] {
            1 if (1..128).contains(&a) && b == 0 => Body::Codes(a as u16),
            2 if a == self.pool_at => {
                let value = self.pool.get(a..a + b)?;
                if value.iter().any(|byte| !(32..=126).contains(byte)) {
                    return None;
                }
                self.pool_at += b;
                Body::Literal(value.to_vec())
            }
            3 if depth < 8 && a > 0 => {
                let branches = (0..a)
                    .map(|_| self.branch(depth + 1))
                    .collect::<Option<Vec<_>>>()?;
                if b != self.at {
                    return None;
                }
                Body::Group(branches)
            }
            _ => return None,
        };
        Some((Atom { low, high, body }, record[1] == 1))
    }
}

/// Answers each question of the match by the definitions, each answer kept.
#[derive(Default)]
pub struct Matcher<'a> {
    label: &'a [u8],
    bodies: HashMap<(*const Atom, usize, usize), bool>,
    mades: HashMap<(*const Atom, usize, usize, usize), bool>,
    follows: HashMap<(*const Atom, usize, usize), bool>,
}

impl<'a> Matcher<'a> {
    pub fn new(label: &'a [u8]) -> Self {
        Matcher {
            label,
            ..Matcher::default()
        }
    }

    fn body(&mut self, atom: &Atom, i: usize, j: usize) -> bool {
        if let Some(&known) = self.bodies.get(&(atom as *const _, i, j)) {
            return known;
        }
        let stretch = &self.label[i..j];
        let holds = match &atom.body {
            Body::Codes(set) => stretch.len() == 1 && set & classes(stretch[0]) != 0,
            Body::Literal(value) => stretch == &value[..],
            Body::Group(branches) => branches.iter().any(|branch| self.pattern(branch, i, j)),
        };
        self.bodies.insert((atom, i, j), holds);
        holds
    }

    fn made(&mut self, atom: &Atom, k: usize, i: usize, j: usize) -> bool {
        if k == 0 {
            return i == j;
        }
        if let Some(&known) = self.mades.get(&(atom as *const _, k, i, j)) {
            return known;
        }
        let holds = (i..=j)
            .rev()
            .any(|m| self.body(atom, i, m) && self.made(atom, k - 1, m, j));
        self.mades.insert((atom, k, i, j), holds);
        holds
    }

    /// Whether i to j satisfies the atom. Bodies beyond one for each byte can only be empty.
    fn atom(&mut self, atom: &Atom, i: usize, j: usize) -> bool {
        let high = atom.high.unwrap_or(u32::MAX) as usize;
        let bytes = j - i;
        if self.body(atom, i, i) {
            return self.made(atom, bytes.min(high), i, j);
        }
        (atom.low as usize..=bytes.min(high)).any(|k| self.made(atom, k, i, j))
    }

    pub fn pattern(&mut self, pattern: &[Atom], i: usize, j: usize) -> bool {
        let Some((first, rest)) = pattern.split_first() else {
            return i == j;
        };
        if let Some(&known) = self.follows.get(&(first as *const _, i, j)) {
            return known;
        }
        let holds = (i..=j)
            .rev()
            .any(|m| self.atom(first, i, m) && self.pattern(rest, m, j));
        self.follows.insert((first, i, j), holds);
        holds
    }

    /// Adds the trials of a pattern with all that it holds; gives up once they exceed the budget.
    pub fn trials(&mut self, pattern: &[Atom], trials: &mut u64, budget: u64) -> bool {
        let n = self.label.len();
        for (at, atom) in pattern.iter().enumerate() {
            let most = atom.high.map_or(n, |high| n.min(high as usize));
            let rest = &pattern[at + 1..];
            for i in 0..=n {
                for j in i..=n {
                    for k in 1..=most {
                        let stop = (i..=j)
                            .rev()
                            .find(|&m| self.body(atom, i, m) && self.made(atom, k - 1, m, j));
                        *trials += (j - stop.unwrap_or(i) + 1) as u64;
                    }
                    if !rest.is_empty() {
                        let stop = (i..=j)
                            .rev()
                            .find(|&m| self.atom(atom, i, m) && self.pattern(rest, m, j));
                        *trials += (j - stop.unwrap_or(i) + 1) as u64;
                    }
                    if *trials > budget {
                        return false;
                    }
                }
            }
            if let Body::Group(branches) = &atom.body {
                if !branches
                    .iter()
                    .all(|branch| self.trials(branch, trials, budget))
                {
                    return false;
                }
            }
        }
        true
    }

    /// The first partition in the order of longest first, by backtracking over ends.
    pub fn parts(&mut self, pattern: &[Atom], i: usize) -> Option<Vec<usize>> {
        let n = self.label.len();
        let Some((first, rest)) = pattern.split_first() else {
            return (i == n).then(Vec::new);
        };
        for m in (i..=n).rev() {
            if self.atom(first, i, m) && self.pattern(rest, m, n) {
                let ends = self.parts(rest, m)?;
                return Some([vec![m], ends].concat());
            }
        }
        None
    }
}

/// The set of the codes a byte belongs to, a bit each for A C E L N P U.
pub fn classes(byte: u8) -> u16 {
    match byte {
        b'A'..=b'Z' => 0b1000101,
        b'a'..=b'z' => 0b0001101,
        b'0'..=b'9' => 0b0010100,
        b' '..=b'~' => 0b0100100,
        0..=31 | 127 => 0b0000110,
        128.. => 0b0000100,
    }
}
