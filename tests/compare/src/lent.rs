//! Lent bytes, and what must stand in them after the call.

/// Bytes that a call writes, each stretch with its place.
pub type Writes = Vec<(usize, Vec<u8>)>;

/// The byte that stands at a place of an output before the call.
fn dirty(dirt: u8, at: usize) -> u8 {
    match dirt {
        0 => 1,
        1 => 255,
        _ => (at as u32)
            .wrapping_mul(u32::from(dirt) * 2 + 0x9E37_79B1)
            .rotate_left(9) as u8,
    }
}

/// Lent bytes with a margin of other bytes on both sides.
pub struct Lent {
    name: &'static str,
    all: Vec<u8>,
    /// What must stand in all of them after the call.
    wanted: Vec<u8>,
    margin: usize,
}

impl Lent {
    fn new(name: &'static str, all: Vec<u8>, margin: usize) -> Self {
        let wanted = all.clone();
        Lent {
            name,
            all,
            wanted,
            margin,
        }
    }

    pub fn input((name, bytes): (&'static str, &[u8]), margin: usize) -> Self {
        let edge = vec![0xA5; margin];
        Self::new(name, [&edge, bytes, &edge].concat(), margin)
    }

    pub fn output((name, len): (&'static str, usize), margin: usize, dirt: u8) -> Self {
        let all = (0..len + 2 * margin).map(|at| dirty(dirt, at)).collect();
        Self::new(name, all, margin)
    }

    pub fn bytes(&mut self) -> &mut [u8] {
        let end = self.all.len() - self.margin;
        &mut self.all[self.margin..end]
    }

    /// The first difference from the bytes before the call with the writes made on them.
    pub fn check(&mut self, writes: &Writes) -> Result<(), String> {
        for (at, bytes) in writes {
            self.wanted[self.margin + at..][..bytes.len()].copy_from_slice(bytes);
        }
        self.same_as(&self.wanted)
    }

    /// The first difference from the same slice lent to other calls.
    pub fn check_beside(&self, other: &Lent) -> Result<(), String> {
        self.same_as(&other.all)
            .map_err(|difference| format!("{difference} as single calls in turn leave it"))
    }

    fn same_as(&self, wanted: &[u8]) -> Result<(), String> {
        if self.all == wanted {
            return Ok(());
        }
        let pairs = self.all.iter().zip(wanted);
        match pairs
            .enumerate()
            .find(|(_, (found, wanted))| found != wanted)
        {
            None => Ok(()),
            Some((at, (found, wanted))) => Err(format!(
                "{} byte {} is {found}, expected {wanted}",
                self.name,
                at as isize - self.margin as isize
            )),
        }
    }
}
