//! The work of the library in plain Rust, written for speed.

/// Refusal number and position.
pub type Refusal = (u32, usize);

pub const OPEN: u16 = 65_535;

/// The most atoms and bytes of source.
const ATOMS: usize = 256;
pub const SOURCE: usize = 2_048;

/// The most bytes of a table, header, records and pool.
pub const TABLE: usize = 9 + 10 * ATOMS + SOURCE;

/// The most bytes of parts.
pub const PARTS: usize = 2 * ATOMS;

/// The bit of each code letter, 0 for any other byte.
const LETTER_BITS: [u8; 256] = {
    let mut bits = [0; 256];
    let letters = b"ACELNPU";
    let mut bit = 0;
    while bit < 7 {
        bits[letters[bit] as usize] = 1 << bit;
        bits[letters[bit].to_ascii_lowercase() as usize] = 1 << bit;
        bit += 1;
    }
    bits
};

/// The codes that each byte satisfies, a bit each.
pub const CLASSES: [u8; 256] = {
    let mut classes = [0; 256];
    let mut byte = 0;
    while byte < 256 {
        classes[byte] = match byte as u8 {
            b'A'..=b'Z' => 0b1000101,
            b'a'..=b'z' => 0b0001101,
            b'0'..=b'9' => 0b0010100,
            b' '..=b'~' => 0b0100100,
            0..=31 | 127 => 0b0000110,
            128.. => 0b0000100,
        };
        byte += 1;
    }
    classes
};

// ---- compiling ----

/// The digits at `at`: whether there are any, and their value. The digit that takes it above 9,999 is NUMBER.
fn number(source: &[u8], at: &mut usize) -> Result<(bool, u16), Refusal> {
    let start = *at;
    let mut value = 0;
    while let Some(digit @ b'0'..=b'9') = source.get(*at) {
        value = value * 10 + u32::from(digit - b'0');
        if value > 9_999 {
            return Err((4, *at));
        }
        *at += 1;
    }
    Ok((*at > start, value as u16))
}

/// The count at `at`: its first and second number.
fn count(source: &[u8], at: &mut usize) -> Result<(u16, u16), Refusal> {
    let start = *at;
    let (some_low, low) = number(source, at)?;
    if source.get(*at) != Some(&b'.') {
        return some_low.then_some((low, low)).ok_or((2, start));
    }
    *at += 1;
    match number(source, at)? {
        (false, _) => Ok((low, OPEN)),
        (true, high) if high < low => Err((5, start)),
        (true, high) => Ok((low, high)),
    }
}

/// The byte at `at`; past the end stands one that no pattern continues with.
fn byte(source: &[u8], at: usize) -> u8 {
    source.get(at).copied().unwrap_or(0)
}

/// The set of the letters at `at`.
fn letters(source: &[u8], at: &mut usize) -> Result<u8, Refusal> {
    let mut set = 0;
    while byte(source, *at).is_ascii_alphabetic() {
        let bit = LETTER_BITS[usize::from(byte(source, *at))];
        if bit == 0 {
            return Err((3, *at));
        }
        set |= bit;
        *at += 1;
    }
    Ok(set)
}

/// Adds the value of the literal whose quote is at `at` to the pool.
fn literal(source: &[u8], at: &mut usize, pool: &mut Vec<u8>) -> Result<(), Refusal> {
    loop {
        *at += 1;
        match byte(source, *at) {
            b'"' => {
                *at += 1;
                if byte(source, *at) != b'"' {
                    return Ok(());
                }
            }
            b' '..=b'~' => (),
            _ => return Err((2, *at)),
        }
        pool.push(byte(source, *at));
    }
}

/// The table so far, and the records of the open groups.
struct Builder {
    records: Vec<[u8; 10]>,
    pool: Vec<u8>,
    open: [usize; 8],
    depth: usize,
}

impl Builder {
    /// With room for all that a source of so many bytes can have: arrays of the limits' sizes
    /// would have to be set to zero first.
    fn new(source_len: usize) -> Self {
        Builder {
            records: Vec::with_capacity((source_len / 2).min(ATOMS)),
            pool: Vec::with_capacity(source_len),
            open: [0; 8],
            depth: 0,
        }
    }

    fn put(&mut self, kind: u8, (low, high): (u16, u16), a: u16, b: u16) {
        let [l0, l1] = low.to_le_bytes();
        let [h0, h1] = high.to_le_bytes();
        let [a0, a1] = a.to_le_bytes();
        let [b0, b1] = b.to_le_bytes();
        self.records.push([kind, 0, l0, l1, h0, h1, a0, a1, b0, b1]);
    }

    /// Ends the branches and groups that end at `at`, after an atom; whether the source ends too.
    fn end(&mut self, source: &[u8], at: &mut usize) -> Result<bool, Refusal> {
        let mut ended = self.records.len() - 1;
        loop {
            match byte(source, *at) {
                b'0'..=b'9' | b'.' => return Ok(false),
                b',' if self.depth > 0 => {
                    self.records[ended][1] = 1;
                    // At most 255 branches, since the group is an atom too.
                    self.records[self.open[self.depth - 1]][6] += 1;
                    *at += 1;
                    return Ok(false);
                }
                b')' if self.depth > 0 => {
                    self.records[ended][1] = 1;
                    self.depth -= 1;
                    ended = self.open[self.depth];
                    let after = (self.records.len() as u16).to_le_bytes();
                    self.records[ended][8..10].copy_from_slice(&after);
                    *at += 1;
                }
                _ if *at == source.len() && self.depth == 0 => {
                    self.records[ended][1] = 1;
                    return Ok(true);
                }
                _ => return Err((2, *at)),
            }
        }
    }

    fn write(&self, source_len: usize, table: &mut [u8]) -> Result<usize, Refusal> {
        let records_end = 9 + 10 * self.records.len();
        let len = records_end + self.pool.len();
        if table.len() < len {
            return Err((8, source_len));
        }
        table[..5].copy_from_slice(b"MPT\x02\x00");
        table[5..7].copy_from_slice(&(self.records.len() as u16).to_le_bytes());
        table[7..9].copy_from_slice(&(self.pool.len() as u16).to_le_bytes());
        table[9..records_end].copy_from_slice(self.records.as_flattened());
        table[records_end..len].copy_from_slice(&self.pool);
        Ok(len)
    }
}

/// Compiles in one pass to version 2; the length of the table.
pub fn compile(source: &[u8], table: &mut [u8]) -> Result<usize, Refusal> {
    if source.len() > SOURCE {
        return Err((1, SOURCE));
    }
    let mut builder = Builder::new(source.len());
    let mut at = 0;
    loop {
        let start = at;
        let counted = count(source, &mut at);
        // FORM and RANGE stand at the first byte too and are the lower numbers.
        if builder.records.len() == ATOMS && !matches!(counted, Err((2 | 5, _))) {
            return Err((6, start));
        }
        let counted = counted?;
        match byte(source, at) {
            b'A'..=b'Z' | b'a'..=b'z' => {
                let set = letters(source, &mut at)?;
                builder.put(1, counted, u16::from(set), 0);
            }
            b'"' => {
                let offset = builder.pool.len();
                literal(source, &mut at, &mut builder.pool)?;
                let len = builder.pool.len() - offset;
                builder.put(2, counted, offset as u16, len as u16);
            }
            b'(' => {
                let open = builder.open.get_mut(builder.depth).ok_or((7, at))?;
                *open = builder.records.len();
                builder.depth += 1;
                builder.put(3, counted, 1, 0);
                at += 1;
                continue;
            }
            _ => return Err((2, at)),
        }
        if builder.end(source, &mut at)? {
            return builder.write(source.len(), table);
        }
    }
}

// ---- testing and writing back ----

#[derive(Clone, Copy)]
pub struct Record {
    pub kind: u8,
    pub last: bool,
    pub low: u16,
    pub high: u16,
    pub a: usize,
    pub b: usize,
}

/// What a header says, and the limits of its version.
struct Header {
    len: usize,
    atoms: usize,
    pool_len: usize,
    most_atoms: usize,
    most_source: usize,
}

/// The header of version 1 or 2.
fn header(bytes: &[u8]) -> Option<Header> {
    let number = |low: u8, high: u8| usize::from(u16::from_le_bytes([low, high]));
    match *bytes {
        [b'M', b'P', b'T', 1, 0, atoms, p0, p1, ..] => Some(Header {
            len: 8,
            atoms: usize::from(atoms),
            pool_len: number(p0, p1),
            most_atoms: 64,
            most_source: 512,
        }),
        [b'M', b'P', b'T', 2, 0, a0, a1, p0, p1, ..] => Some(Header {
            len: 9,
            atoms: number(a0, a1),
            pool_len: number(p0, p1),
            most_atoms: ATOMS,
            most_source: SOURCE,
        }),
        _ => None,
    }
}

/// The atom count of a good table.
pub fn atoms(table: &[u8]) -> usize {
    header(table).map_or(0, |header| header.atoms)
}

/// The scratch bytes of a match with a good table.
pub fn work(table: &[u8], label_len: usize) -> usize {
    work_of(atoms(table), label_len)
}

pub fn work_of(atoms: usize, label_len: usize) -> usize {
    (2 * atoms + 4) * (label_len + 1) * (label_len + 1)
}

/// A table by its atom count, records and pool.
pub struct Table<'a> {
    pub atoms: usize,
    records: &'a [[u8; 10]],
    pub pool: &'a [u8],
}

impl Table<'_> {
    pub fn record(&self, r: usize) -> Record {
        let bytes = &self.records[r];
        let field = |at: usize| u16::from_le_bytes([bytes[at], bytes[at + 1]]);
        Record {
            kind: bytes[0],
            last: bytes[1] == 1,
            low: field(2),
            high: field(4),
            a: usize::from(field(6)),
            b: usize::from(field(8)),
        }
    }

    /// The index of the first atom after atom `r`.
    fn after(&self, r: usize) -> usize {
        let record = self.record(r);
        if record.kind == 3 {
            record.b
        } else {
            r + 1
        }
    }

    /// Ends a branch with atom `r` and the groups that end with it, given the open groups and
    /// their branches to come; whether the pattern ends too, or None if a group ends elsewhere.
    fn close(&self, r: usize, open: &mut [(usize, usize); 8], depth: &mut usize) -> Option<bool> {
        while *depth > 0 {
            let (group, branches) = &mut open[*depth - 1];
            *branches -= 1;
            if *branches > 0 {
                return Some(false);
            }
            let closed = self.record(*group);
            if closed.b != r + 1 {
                return None;
            }
            *depth -= 1;
            if !closed.last {
                return Some(false);
            }
        }
        Some(true)
    }

    /// The number of top-level atoms.
    pub fn tops(&self) -> usize {
        let mut tops = 1;
        let mut top = 0;
        while !self.record(top).last {
            top = self.after(top);
            tops += 1;
        }
        tops
    }
}

fn digits(number: u16) -> usize {
    match number {
        0..=9 => 1,
        10..=99 => 2,
        100..=999 => 3,
        _ => 4,
    }
}

/// The length of the shortest count with these two numbers, or None if no count has them.
fn count_len(low: u16, high: u16) -> Option<usize> {
    if low > 9_999 || (high != OPEN && (high > 9_999 || high < low)) {
        return None;
    }
    if low == high {
        return Some(digits(low));
    }
    let low_len = if low == 0 { 0 } else { digits(low) };
    let high_len = if high == OPEN { 0 } else { digits(high) };
    Some(low_len + 1 + high_len)
}

/// A table as its header and length allow, records untested, and its version's limit of source.
pub fn split(bytes: &[u8]) -> Option<(Table<'_>, usize)> {
    let header = header(bytes)?;
    let atoms = header.atoms;
    let rest = &bytes[header.len..];
    if atoms == 0 || atoms > header.most_atoms || rest.len() != 10 * atoms + header.pool_len {
        return None;
    }
    let (records, pool) = rest.split_at(10 * atoms);
    let table = Table {
        atoms,
        records: records.as_chunks().0,
        pool,
    };
    Some((table, header.most_source))
}

/// The length of a literal in source, or None if it has a byte that none has.
fn literal_len(value: &[u8]) -> Option<usize> {
    let mut len = 2 + value.len();
    for &byte in value {
        if !(32..=126).contains(&byte) {
            return None;
        }
        len += usize::from(byte == b'"');
    }
    Some(len)
}

/// A good table with the length of its shortest source, or None.
pub fn test(bytes: &[u8]) -> Option<(Table<'_>, usize)> {
    let (table, most_source) = split(bytes)?;
    let (mut open, mut depth) = ([(0, 0); 8], 0);
    let (mut pool_at, mut len) = (0, 0);
    for r in 0..table.atoms {
        let Record {
            kind,
            last,
            low,
            high,
            a,
            b,
        } = table.record(r);
        if table.records[r][1] > 1 {
            return None;
        }
        len += count_len(low, high)?;
        match kind {
            1 if (1..128).contains(&a) && b == 0 => len += a.count_ones() as usize,
            2 if a == pool_at => {
                len += literal_len(table.pool.get(a..a + b)?)?;
                pool_at += b;
            }
            3 if depth < 8 && a > 0 => {
                open[depth] = (r, a);
                depth += 1;
                len += 1 + a;
                continue;
            }
            _ => return None,
        }
        // The pattern ends with the last record, and no earlier.
        let ends = last && table.close(r, &mut open, &mut depth)?;
        if ends != (r + 1 == table.atoms) {
            return None;
        }
    }
    (depth == 0 && pool_at == table.pool.len() && len <= most_source).then_some((table, len))
}

/// Whether the table is good.
pub fn good(table: &[u8]) -> bool {
    test(table).is_some()
}

struct Writer<'a> {
    out: &'a mut [u8],
    at: usize,
}

impl Writer<'_> {
    fn byte(&mut self, byte: u8) {
        self.out[self.at] = byte;
        self.at += 1;
    }

    fn number(&mut self, number: u16) {
        let len = digits(number);
        let mut rest = number;
        for place in self.out[self.at..self.at + len].iter_mut().rev() {
            *place = b'0' + (rest % 10) as u8;
            rest /= 10;
        }
        self.at += len;
    }
}

/// Writes the shortest source; its length.
pub fn write_back(bytes: &[u8], source: &mut [u8]) -> Result<usize, Refusal> {
    let (table, len) = test(bytes).ok_or((11, 0))?;
    if source.len() < len {
        return Err((8, 0));
    }
    let mut writer = Writer { out: source, at: 0 };
    let mut open = [(0, false); 8];
    let mut depth = 0;
    for r in 0..table.atoms {
        let Record {
            kind,
            last,
            low,
            high,
            a,
            b,
        } = table.record(r);
        if low == high {
            writer.number(low);
        } else {
            if low > 0 {
                writer.number(low);
            }
            writer.byte(b'.');
            if high != OPEN {
                writer.number(high);
            }
        }
        match kind {
            1 => (0..7)
                .filter(|bit| a >> bit & 1 == 1)
                .for_each(|bit| writer.byte(b"ACELNPU"[bit])),
            2 => {
                writer.byte(b'"');
                for &byte in &table.pool[a..a + b] {
                    if byte == b'"' {
                        writer.byte(byte);
                    }
                    writer.byte(byte);
                }
                writer.byte(b'"');
            }
            _ => {
                writer.byte(b'(');
                open[depth] = (a, last);
                depth += 1;
                continue;
            }
        }
        let mut last = last;
        while last && depth > 0 {
            let (branches, group_last) = &mut open[depth - 1];
            *branches -= 1;
            if *branches > 0 {
                writer.byte(b',');
                break;
            }
            writer.byte(b')');
            last = *group_last;
            depth -= 1;
        }
    }
    Ok(len)
}

// ---- matching ----

/// Verdict and trials.
pub type Verdict = (bool, u64);

/// The trials of one question on all stretches: `left` holds i to m in row i, `right` holds
/// m to j in row j. Each trial adds one; None when the budget has none left for the next.
pub trait Trials {
    fn join(
        left: &[u8],
        right: &[u8],
        w: usize,
        trials: u64,
        budget: u64,
        put: impl FnMut(usize, usize, u8),
    ) -> Option<u64>;
}

pub struct Safe;

impl Trials for Safe {
    #[inline]
    fn join(
        left: &[u8],
        right: &[u8],
        w: usize,
        mut trials: u64,
        budget: u64,
        mut put: impl FnMut(usize, usize, u8),
    ) -> Option<u64> {
        for (i, left) in left.chunks_exact(w).enumerate() {
            for (j, right) in right.chunks_exact(w).enumerate().skip(i) {
                let mut found = 0;
                for (&first, &second) in left[i..=j].iter().zip(&right[i..=j]).rev() {
                    if trials == budget {
                        return None;
                    }
                    trials += 1;
                    if first & second != 0 {
                        found = 1;
                        break;
                    }
                }
                put(i, j, found);
            }
        }
        Some(trials)
    }
}

/// For calls that take no budget and report no trials.
pub struct Uncounted;

impl Trials for Uncounted {
    #[inline]
    fn join(
        left: &[u8],
        right: &[u8],
        w: usize,
        trials: u64,
        _: u64,
        mut put: impl FnMut(usize, usize, u8),
    ) -> Option<u64> {
        for (i, left) in left.chunks_exact(w).enumerate() {
            for (j, right) in right.chunks_exact(w).enumerate().skip(i) {
                let mut found = 0;
                for (&first, &second) in left[i..=j].iter().zip(&right[i..=j]).rev() {
                    if first & second != 0 {
                        found = 1;
                        break;
                    }
                }
                put(i, j, found);
            }
        }
        Some(trials)
    }
}

pub struct Unchecked;

impl Trials for Unchecked {
    #[inline]
    fn join(
        left: &[u8],
        right: &[u8],
        w: usize,
        mut trials: u64,
        budget: u64,
        mut put: impl FnMut(usize, usize, u8),
    ) -> Option<u64> {
        assert!(left.len() >= w * w && right.len() >= w * w);
        for j in 0..w {
            for i in 0..=j {
                let mut found = 0;
                let mut m = j;
                // Rows i and j lie in the planes, and m in both of them.
                unsafe {
                    let first = left.as_ptr().add(i * w);
                    let second = right.as_ptr().add(j * w);
                    loop {
                        if trials == budget {
                            return None;
                        }
                        trials += 1;
                        if *first.add(m) & *second.add(m) != 0 {
                            found = 1;
                            break;
                        }
                        if m == i {
                            break;
                        }
                        m -= 1;
                    }
                }
                put(i, j, found);
            }
        }
        Some(trials)
    }
}

/// Matches on byte planes, making every trial; the scratch used is zero afterwards.
pub fn match_label(
    table: &[u8],
    label: &[u8],
    scratch: &mut [u8],
    parts: &mut [u8],
    budget: u64,
) -> Result<Verdict, Refusal> {
    match_label_at::<0>(table, label, scratch, parts, budget)
}

/// The same at a placement.
pub fn match_label_at<const PLACE: usize>(
    table: &[u8],
    label: &[u8],
    scratch: &mut [u8],
    parts: &mut [u8],
    budget: u64,
) -> Result<Verdict, Refusal> {
    match_with::<Safe, PLACE>(table, label, scratch, parts, budget)
}

/// The same with a trial loop without bounds checks.
pub fn match_label_unchecked(
    table: &[u8],
    label: &[u8],
    scratch: &mut [u8],
    parts: &mut [u8],
    budget: u64,
) -> Result<Verdict, Refusal> {
    match_with::<Unchecked, 0>(table, label, scratch, parts, budget)
}

fn match_with<T: Trials, const PLACE: usize>(
    table: &[u8],
    label: &[u8],
    scratch: &mut [u8],
    parts: &mut [u8],
    budget: u64,
) -> Result<Verdict, Refusal> {
    let (table, _) = test(table).ok_or((11, 0))?;
    match_tested::<T, PLACE>(&table, 2 * table.tops(), label, scratch, parts, budget)
}

/// The same with a good table and the bytes of its parts.
pub fn match_tested<T: Trials, const PLACE: usize>(
    table: &Table,
    part_bytes: usize,
    label: &[u8],
    scratch: &mut [u8],
    parts: &mut [u8],
    budget: u64,
) -> Result<Verdict, Refusal> {
    if label.len() > 255 {
        return Err((12, 0));
    }
    let work = work_of(table.atoms, label.len());
    if scratch.len() < work {
        return Err((13, 0));
    }
    if parts.len() < part_bytes {
        return Err((14, 0));
    }
    let scratch = &mut scratch[..work];
    let verdict = judge::<T, PLACE>(table, label, scratch, parts, budget);
    scratch.fill(0);
    verdict.ok_or((15, 0))
}

/// The same with lent bytes that suffice; scratch isn't cleared afterwards. None at the end of the budget.
#[inline]
pub fn judge<T: Trials, const PLACE: usize>(
    table: &Table,
    label: &[u8],
    scratch: &mut [u8],
    parts: &mut [u8],
    budget: u64,
) -> Option<Verdict> {
    let w = label.len() + 1;
    let trials = fill_planes::<T, PLACE>(table, label, scratch, budget)?;
    let atoms = &scratch[4 * w * w..];
    let yes = atoms[w * w + (w - 1) * w] != 0;
    if yes {
        put_parts(table, atoms, w, parts);
    }
    Some((yes, trials))
}

/// The ends of a batch's labels, or its refusal.
fn ends_of(batch: &library::Batch, part_bytes: usize) -> Result<Vec<usize>, Refusal> {
    let count = batch.ends.len() / 2;
    let short = batch.verdicts.len() < count || batch.parts.len() < count * part_bytes;
    let (pairs, half) = batch.ends.as_chunks();
    let ends: Vec<usize> = pairs
        .iter()
        .map(|pair| usize::from(u16::from_le_bytes(*pair)))
        .collect();
    let inside = ends.is_sorted() && ends.last().is_none_or(|&end| end <= batch.labels.len());
    if short || count > 96 || !half.is_empty() || !inside {
        return Err((16, 0));
    }
    Ok(ends)
}

/// Matches the labels of a batch at a placement; the table is tested once.
pub fn match_batch_at<const PLACE: usize>(batch: library::Batch) -> Result<(), Refusal> {
    let (table, _) = test(batch.table).ok_or((11, 0))?;
    let part_bytes = 2 * table.tops();
    let mut begin = 0;
    for (k, end) in ends_of(&batch, part_bytes)?.into_iter().enumerate() {
        let label = &batch.labels[begin..end];
        let parts = &mut batch.parts[k * part_bytes..][..part_bytes];
        batch.verdicts[k] = verdict_byte(match_tested::<Safe, PLACE>(
            &table,
            part_bytes,
            label,
            batch.scratch,
            parts,
            batch.budget,
        ));
        begin = end;
    }
    Ok(())
}

/// What a batch says of a label.
pub fn verdict_byte(found: Result<Verdict, Refusal>) -> u8 {
    match found {
        Ok((yes, _)) => u8::from(yes),
        Err((number, _)) => number as u8,
    }
}

/// The code after it starts 16 times `PLACE` bytes after a multiple of 64.
#[inline(always)]
fn place<const PLACE: usize>() {
    unsafe {
        std::arch::asm!(
            ".p2align 6",
            ".rept {}",
            "nop",
            ".p2align 4",
            ".endr",
            const PLACE,
            options(nomem, nostack, preserves_flags)
        )
    }
}

/// Fills two planes for each atom: "satisfies the atom" with row i and column j, and
/// "the atom and its followers" with row j and column i. Gives the trials made.
fn fill_planes<T: Trials, const PLACE: usize>(
    table: &Table,
    label: &[u8],
    scratch: &mut [u8],
    budget: u64,
) -> Option<u64> {
    place::<PLACE>();
    let n = label.len();
    let w = n + 1;
    let size = w * w;
    let (work, atoms) = scratch.split_at_mut(4 * size);
    let (body, work) = work.split_at_mut(size);
    let (mut made, work) = work.split_at_mut(size);
    let mut next = &mut work[..size];
    let mut trials = 0;
    for r in (0..table.atoms).rev() {
        let record = table.record(r);
        let (here, later) = atoms.split_at_mut(2 * (r + 1) * size);
        let (satisfies, followed) = here[2 * r * size..].split_at_mut(size);
        let followed_by = |atom: usize| &later[(2 * (atom - r - 1) + 1) * size..][..size];

        body.fill(0);
        match record.kind {
            1 => {
                for (i, &byte) in label.iter().enumerate() {
                    body[i * w + i + 1] =
                        u8::from(CLASSES[usize::from(byte)] & record.a as u8 != 0);
                }
            }
            2 => {
                let value = &table.pool[record.a..record.a + record.b];
                for i in 0..w {
                    if label[i..].starts_with(value) {
                        body[i * w + i + value.len()] = 1;
                    }
                }
            }
            _ => {
                let mut at = r + 1;
                let mut begins = true;
                while at < record.b {
                    if begins {
                        let branch = followed_by(at);
                        for i in 0..w {
                            for j in i..w {
                                body[i * w + j] |= branch[j * w + i];
                            }
                        }
                    }
                    begins = table.record(at).last;
                    at = table.after(at);
                }
            }
        }

        let low = usize::from(record.low);
        let most = if record.high == OPEN {
            n
        } else {
            n.min(usize::from(record.high))
        };
        // Past n bodies only empty ones can be added.
        let from = if low > n && body[0] != 0 { n } else { low };
        satisfies.fill(0);
        made.fill(0);
        for i in 0..w {
            made[i * w + i] = 1;
            satisfies[i * w + i] = u8::from(from == 0);
        }
        for k in 1..=most {
            let within = u8::from(k >= from);
            trials = T::join(body, made, w, trials, budget, |i, j, found| {
                next[j * w + i] = found;
                satisfies[i * w + j] |= found & within;
            })?;
            std::mem::swap(&mut made, &mut next);
        }

        if record.last {
            for i in 0..w {
                for j in i..w {
                    followed[j * w + i] = satisfies[i * w + j];
                }
            }
        } else {
            let followers = followed_by(table.after(r));
            trials = T::join(satisfies, followers, w, trials, budget, |i, j, found| {
                followed[j * w + i] = found
            })?;
        }
    }
    Some(trials)
}

/// Writes the longest-first partition of a label that satisfies the pattern.
fn put_parts(table: &Table, atoms: &[u8], w: usize, parts: &mut [u8]) {
    let size = w * w;
    let n = w - 1;
    let mut start = 0;
    let mut r = 0;
    for part in parts.chunks_exact_mut(2) {
        let last = table.record(r).last;
        if last {
            start = n;
        } else {
            let satisfies = &atoms[2 * r * size + start * w..][..w];
            r = table.after(r);
            let followed = &atoms[(2 * r + 1) * size + n * w..][..w];
            start = (start..=n)
                .rev()
                .find(|&m| satisfies[m] & followed[m] != 0)
                .unwrap_or(start);
        }
        part.copy_from_slice(&(start as u16).to_le_bytes());
        if last {
            return;
        }
    }
}
