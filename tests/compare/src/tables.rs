//! Tables of either version, good or damaged.

use generate::patterns::{branch, large_pattern, pattern};
use generate::sources::random_bytes;
use generate::{Atom, Body, Random};
use second::{Register, Version, VERSION_1, VERSION_2};

pub const RECORD: usize = 10;
/// The length of a version 2 table of one atom without a literal.
pub const ONE_ATOM: usize = VERSION_2.header_len() + RECORD;
/// The part bytes of the most atoms.
pub const PARTS_MOST: usize = 2 * VERSION_2.atoms_most;

fn put(bytes: &mut Vec<u8>, number: usize) {
    bytes.extend((number as u16).to_le_bytes());
}

fn put_records(branch: &[Atom], records: &mut Vec<u8>, pool: &mut Vec<u8>) {
    for (at, atom) in branch.iter().enumerate() {
        let start = records.len();
        records.extend([0, u8::from(at + 1 == branch.len())]);
        put(records, atom.low as usize);
        put(records, atom.high.unwrap_or(65_535) as usize);
        match &atom.body {
            Body::Codes(set) => {
                records[start] = 1;
                put(records, usize::from(*set));
                put(records, 0);
            }
            Body::Literal(value) => {
                records[start] = 2;
                put(records, pool.len());
                put(records, value.len());
                pool.extend(value);
            }
            Body::Group(branches) => {
                records[start] = 3;
                put(records, branches.len());
                put(records, 0);
                branches
                    .iter()
                    .for_each(|branch| put_records(branch, records, pool));
                let next = (records.len() / RECORD) as u16;
                records[start + 8..start + 10].copy_from_slice(&next.to_le_bytes());
            }
        }
    }
}

/// A header with these numbers, as far as its bytes hold them.
pub fn header(version: Version, atoms: usize, pool_len: usize) -> Vec<u8> {
    let mut header = b"MPT".to_vec();
    put(&mut header, usize::from(version.number));
    put(&mut header, atoms);
    header.truncate(version.header_len() - 2);
    put(&mut header, pool_len);
    header
}

/// At most this many trials are made with a table of the right form.
fn most_trials(table: &[u8], len: usize) -> u64 {
    let stretches = ((len + 1) * (len + 2) * (len + 3) / 6) as u64;
    let header_len = Version::of(table).map_or(0, |version| version.header_len());
    let records = table[header_len..]
        .chunks_exact(RECORD)
        .take(atom_count(table));
    let repeats =
        records.map(|record| len.min(usize::from(record[4]) + 256 * usize::from(record[5])));
    repeats.map(|most| (most as u64 + 1) * stretches).sum()
}

/// At most this many trials are made with all patterns of a register.
pub fn search_trials(register: &Register, label: &[u8]) -> u64 {
    let tables = register.tables.values();
    tables
        .map(|table| most_trials(table, label.len().min(255)))
        .sum()
}

/// The table of a pattern, which may pass the version's limits.
pub fn table_in(version: Version, pattern: &[Atom]) -> Vec<u8> {
    let (mut records, mut pool) = (Vec::new(), Vec::new());
    put_records(pattern, &mut records, &mut pool);
    let header = header(version, records.len() / RECORD, pool.len());
    [header, records, pool].concat()
}

pub fn table_of(pattern: &[Atom]) -> Vec<u8> {
    table_in(VERSION_2, pattern)
}

pub fn any_version(random: &mut Random) -> Version {
    random.pick(&[VERSION_1, VERSION_1, VERSION_2, VERSION_2, VERSION_2])
}

/// The atom count that a table names; 1 without a whole header.
pub fn atom_count(table: &[u8]) -> usize {
    let count = Version::of(table).and_then(|version| version.atom_count(table));
    count.unwrap_or(1)
}

/// The records and the pool of a table under a header of this version.
pub fn turned_to(version: Version, table: &[u8]) -> Vec<u8> {
    let Some(own) = Version::of(table).filter(|own| table.len() >= own.header_len()) else {
        return table.to_vec();
    };
    let (own_header, rest) = table.split_at(own.header_len());
    let mut turned = header(version, atom_count(table), 0);
    turned.truncate(version.header_len() - 2);
    turned.extend(&own_header[own.header_len() - 2..]);
    turned.extend(rest);
    turned
}

/// A table of `len` bytes: one literal of x.
pub fn table_of_len(version: Version, len: usize) -> Vec<u8> {
    let body = Body::Literal(vec![b'x'; len - version.header_len() - RECORD]);
    let (low, high) = (1, Some(1));
    table_in(version, &[Atom { low, high, body }])
}

/// The scratch for a table of some atoms and a label of `len` bytes.
pub fn work(atoms: usize, len: usize) -> usize {
    (2 * atoms + 4) * (len + 1) * (len + 1)
}

fn once(body: Body) -> Atom {
    let (low, high) = (1, Some(1));
    Atom { low, high, body }
}

/// Groups one in the other, as deep as the limit or some more.
fn deep(random: &mut Random) -> Vec<Atom> {
    let depth = random.between(7, 10);
    let wrap = |inner, _| {
        let (low, body) = (1, Body::Group(vec![inner]));
        let high = None;
        vec![Atom { low, high, body }]
    };
    (0..depth).fold(vec![once(Body::Codes(16))], wrap)
}

/// Literals whose shortest source has about `most` bytes: 3 and two for each quote, one for each x.
fn about_most_bytes(random: &mut Random, most: usize) -> Vec<Atom> {
    let quotes = (most - 6) / 2;
    let first = random.between(quotes / 4, quotes / 2);
    let literal = |quotes, more| [vec![b'"'; quotes], vec![b'x'; more]].concat();
    let values = [
        literal(first, 0),
        literal(quotes - first - 1, random.between(1, 4)),
    ];
    values.map(|value| once(Body::Literal(value))).to_vec()
}

/// A number, a set, a byte of a literal or a group past its limit.
fn fault(random: &mut Random, atom: &mut Atom) {
    match random.below(6) {
        0 => atom.low = 10_000,
        1 => atom.high = Some(10_000),
        2 => (atom.low, atom.high) = (3, Some(2)),
        3 => atom.body = Body::Codes(random.pick(&[0, 127, 128, 255, 256])),
        4 => atom.body = Body::Literal(vec![random.pick(&[31, 32, 126, 127, 200])]),
        _ => {
            let branches = if random.once_in(2) { 0 } else { 1 };
            atom.body = Body::Group((0..branches).map(|_| Vec::new()).collect());
        }
    }
}

/// A table of the right form that may pass a limit.
fn table_past_limits(random: &mut Random) -> Vec<u8> {
    let version = any_version(random);
    let mut tree = match random.below(3) {
        0 => {
            let atoms = version.atoms_most - 3 + random.below(9);
            let depth = random.pick(&[0, 3]);
            branch(random, atoms, depth)
        }
        1 => deep(random),
        _ => about_most_bytes(random, version.source_most),
    };
    if random.once_in(3) {
        let at = random.below(tree.len());
        fault(random, &mut tree[at]);
    }
    table_in(version, &tree)
}

/// Changes the version, the header with it or not.
fn damage_version(random: &mut Random, table: &mut Vec<u8>) {
    if random.once_in(2) {
        *table = turned_to(any_version(random), table);
    } else if table.len() >= 5 {
        let number = random.pick(&[0u16, 1, 1, 2, 2, 3, 256, 257, 258, 513]);
        table[3..5].copy_from_slice(&number.to_le_bytes());
    }
}

/// Changes a byte or a field of a record.
fn damage_record(random: &mut Random, table: &mut [u8], record: usize) {
    let field = record + random.pick(&[2, 4, 6, 8]);
    match random.below(5) {
        0 => table[record + 1] ^= 1,
        1 => table[record] = random.pick(&[0, 1, 2, 3, 4]),
        2..=3 => table[field] = table[field].wrapping_add(random.pick(&[1, 255])),
        _ => {
            let value = random.pick(&[0u16, 1, 127, 128, 255, 256, 9_999, 10_000, 65_534, 65_535]);
            table[field..field + 2].copy_from_slice(&value.to_le_bytes());
        }
    }
}

/// A record more or less, the atom count with it.
fn damage_count(random: &mut Random, table: &mut Vec<u8>, record: usize) {
    let copy = table[record..record + RECORD].to_vec();
    if random.once_in(2) {
        table.splice(record..record, copy);
        table[5] = table[5].wrapping_add(1);
    } else {
        table.drain(record..record + RECORD);
        table[5] = table[5].wrapping_sub(1);
    }
}

/// A byte more or less in the pool, its length with it or not.
fn damage_pool(random: &mut Random, table: &mut Vec<u8>, header_len: usize) {
    let more = random.once_in(2);
    if more {
        table.push(random.pick(b"a\"\x00 "));
    } else {
        table.pop();
    }
    if random.once_in(2) && table.len() >= header_len {
        let len = &mut table[header_len - 2];
        *len = if more {
            len.wrapping_add(1)
        } else {
            len.wrapping_sub(1)
        };
    }
}

/// Changes fields of records, bytes, the version, the length or the order.
pub fn damage(random: &mut Random, table: &mut Vec<u8>) {
    for _ in 0..random.between(1, 2) {
        let header_len = Version::of(table).unwrap_or(VERSION_2).header_len();
        let records = table.len().saturating_sub(header_len) / RECORD;
        if records == 0 {
            return;
        }
        let record = header_len + RECORD * random.below(records);
        let at = random.below(table.len());
        match random.below(14) {
            0..=1 => table[at] = random.bits() as u8,
            2 => table[at] = table[at].wrapping_add(random.pick(&[1, 255, 2, 254])),
            3..=7 => damage_record(random, table, record),
            8 => table[random.below(header_len)] = random.bits() as u8,
            9 => return damage_count(random, table, record),
            10 => table.truncate(at),
            11..=12 => damage_version(random, table),
            _ => damage_pool(random, table, header_len),
        }
    }
}

/// A pattern of few atoms, or once in 16 of 65 to 256.
pub fn any_pattern(random: &mut Random) -> Vec<Atom> {
    if random.once_in(16) {
        large_pattern(random)
    } else {
        pattern(random)
    }
}

/// The table of a generated pattern; one of many atoms is mostly of version 2.
pub fn generated_table(random: &mut Random, tree: &[Atom]) -> Vec<u8> {
    let table = table_of(tree);
    let version = any_version(random);
    let fits = atom_count(&table) <= version.atoms_most;
    if fits || random.once_in(8) {
        return turned_to(version, &table);
    }
    table
}

pub fn table(random: &mut Random) -> Vec<u8> {
    let tree = any_pattern(random);
    match random.below(20) {
        0..=4 => generated_table(random, &tree),
        5..=14 => {
            let mut table = generated_table(random, &tree);
            damage(random, &mut table);
            table
        }
        15..=17 => {
            let mut table = table_past_limits(random);
            if random.once_in(4) {
                damage(random, &mut table);
            }
            table
        }
        18 => {
            let opening = &header(any_version(random), 0, 0)[..5];
            [opening, &random_bytes(random, b"\x00\x01\x02\x03")].concat()
        }
        _ => random_bytes(random, b""),
    }
}
