//! A third, slow path with the C functions of libmpt.a. It stands in for the
//! proved library while that one isn't there, to test the comparison itself.

mod calls;
mod pattern;
mod registers;
mod summary;

pub use calls::{mpt_compile, mpt_match, mpt_match_batch, mpt_write_back};
pub use registers::{
    mpt_register_init, mpt_register_match, mpt_register_remove, mpt_register_search,
    mpt_register_store,
};
