//! The second program: M patterns compiled, written back, matched and kept in registers,
//! written from the papers alone to be compared with the main one.

mod batch;
pub mod line;
mod matching;
mod register;
mod source;
mod summary;
mod table;
mod version;

pub use batch::{cut, match_batch, Batch};
pub use matching::{match_label, match_unlimited, part_bytes, Matched};
pub use register::{
    register_init, register_match, register_remove, register_search, register_store, slot,
    Register, Searched, REGISTER_LEAST, SLOT,
};
pub use source::{compile, compile_to};
pub use summary::Summary;
pub use table::{good, write_back};
pub use version::{Version, VERSION_1, VERSION_2};

/// A refusal by its number and position, as the table of refusals gives them.
#[derive(Clone, Copy, Debug, PartialEq, Eq)]
pub struct Refusal {
    pub number: u32,
    pub position: usize,
}

pub const LONG: u32 = 1;
pub const FORM: u32 = 2;
pub const CODE: u32 = 3;
pub const NUMBER: u32 = 4;
pub const RANGE: u32 = 5;
pub const ATOMS: u32 = 6;
pub const DEPTH: u32 = 7;
pub const ROOM: u32 = 8;
pub const ANSWER: u32 = 9;
pub const TABLE: u32 = 11;
pub const LABEL: u32 = 12;
pub const WORK: u32 = 13;
pub const PARTS: u32 = 14;
pub const BUDGET: u32 = 15;
pub const BATCH: u32 = 16;
pub const FULL: u32 = 17;
pub const REGISTER: u32 = 18;
pub const MISSING: u32 = 19;

pub const DEPTH_MOST: usize = 8;
pub const NUMBER_MOST: u32 = 9_999;
pub const LABEL_MOST: usize = 255;
pub const BATCH_MOST: usize = 96;

/// The code letters in the order of their bits.
const CODES: &[u8; 7] = b"ACELNPU";

/// The second repeat number that stands for no upper end.
const OPEN: u16 = 65_535;
