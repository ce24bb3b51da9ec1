//! Compares the proved library, through its C functions, and the line tool with plain Rust.
//! Times are processor time. A ratio is the library's time by that of plain Rust in the same
//! round, the median over the rounds. A trial loop is slower where it crosses a line of the cache,
//! so in (c) and (f) both are timed at 0, 16, 32 and 48 bytes after a multiple of 64: build.rs links
//! four copies of the library, and plain::place moves the code of plain Rust. In the other
//! sections each lies at one place.
//!
//! bench [--quick]
//! bench [--quick] --tables    (a) and (b) alone
//! bench [--quick] --batches    (f) alone
//! bench [--quick] --registers    (g) alone
//! bench [--quick] --searches    (i) alone
//! bench --lines    the line tool in plain Rust, for the comparison
//!
//! Two libraries are compared by two builds, each with its own MPT_LIB and CARGO_TARGET_DIR, run in
//! turn. A library from before version 2 gets its own tables, and no rows of more than 64 atoms; its
//! register has the version that it starts one with, and without a search it has no rows in (i).

mod batches;
mod clock;
mod lines;
mod matches;
mod naive;
mod plain;
mod plain_registers;
mod plain_summaries;
#[cfg(test)]
mod plain_tests;
mod proved;
mod registers;
mod rounds;
#[cfg(test)]
mod search_tests;
mod searches;
mod tables;

fn main() {
    let given = |word: &str| std::env::args().any(|each| each == word);
    if given("--lines") {
        return lines::answer_input();
    }
    proved::assert_placed();
    let quick = given("--quick");
    let rounds = if quick { 3 } else { 9 };
    if given("--batches") {
        return batches::batches(rounds);
    }
    if given("--registers") {
        return registers::registers(rounds);
    }
    if given("--searches") {
        return searches::searches(rounds);
    }
    tables::compiling(rounds);
    tables::writing_back(rounds);
    if given("--tables") {
        return;
    }
    if quick {
        matches::matching(&[(10, 9), (60, 9)]);
        matches::groups_of_groups(&[5, 10, 15, 20, 25, 50, 100, 150]);
    } else {
        let every_fifth: Vec<usize> = (5..=255).step_by(5).collect();
        matches::matching(&[(10, 27), (60, 27), (255, 5)]);
        matches::groups_of_groups(&every_fifth);
    }
    lines::lines(rounds);
    batches::batches(rounds);
    registers::registers(rounds);
    searches::searches(rounds);
}
