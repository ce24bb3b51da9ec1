//! The versions of a table: what depends on the version, and nothing else does.

/// A version by its number, its limits and the width of the atom count in its header.
#[derive(Clone, Copy, Debug, PartialEq, Eq)]
pub struct Version {
    pub number: u16,
    count_bytes: usize,
    pub atoms_most: usize,
    pub source_most: usize,
}

pub const VERSION_1: Version = Version {
    number: 1,
    count_bytes: 1,
    atoms_most: 64,
    source_most: 512,
};

/// The version that the compiler writes.
pub const VERSION_2: Version = Version {
    number: 2,
    count_bytes: 2,
    atoms_most: 256,
    source_most: 2_048,
};

const MARK: &[u8; 3] = b"MPT";
/// Where the atom count begins, after the mark and the version.
const COUNT: usize = 5;
const POOL_LEN_BYTES: usize = 2;
pub(crate) const RECORD: usize = 10;

impl Version {
    pub const fn header_len(&self) -> usize {
        COUNT + self.count_bytes + POOL_LEN_BYTES
    }

    /// A table has no more bytes: a pool is no longer than its source.
    pub const fn table_most(&self) -> usize {
        self.header_len() + RECORD * self.atoms_most + self.source_most
    }

    /// The header of a table within the limits.
    pub(crate) fn header(&self, atoms: usize, pool_len: usize) -> Vec<u8> {
        let mut header = MARK.to_vec();
        header.extend(self.number.to_le_bytes());
        header.extend(&atoms.to_le_bytes()[..self.count_bytes]);
        header.extend(&pool_len.to_le_bytes()[..POOL_LEN_BYTES]);
        header
    }

    /// The version that a table names after its mark, if it is one of these.
    pub fn of(table: &[u8]) -> Option<Self> {
        let number = table.strip_prefix(MARK)?.get(..2)?;
        let named = |version: &Self| version.number.to_le_bytes() == number;
        [VERSION_1, VERSION_2].into_iter().find(named)
    }

    /// The atom count in a header of this version.
    pub fn atom_count(&self, table: &[u8]) -> Option<usize> {
        let bytes = table.get(COUNT..COUNT + self.count_bytes)?;
        let more = |count, &byte: &u8| 256 * count + usize::from(byte);
        Some(bytes.iter().rev().fold(0, more))
    }
}
