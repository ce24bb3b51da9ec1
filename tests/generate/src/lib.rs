//! Generated patterns, sources and labels, the same for the same seed.

pub mod labels;
pub mod patterns;
mod random;
pub mod sources;

pub use patterns::{Atom, Body};
pub use random::Random;

/// The most atoms of a pattern and the most bytes of its source.
#[derive(Clone, Copy)]
pub struct Limits {
    pub atoms: usize,
    pub source: usize,
}

/// The compiler's limits.
pub const LIMITS: Limits = Limits {
    atoms: 256,
    source: 2_048,
};

/// The limits of a version 1 table.
pub const OLD_LIMITS: Limits = Limits {
    atoms: 64,
    source: 512,
};
