//! The library's calls, answered as plain Rust answers, and its matching functions at four placements.

use crate::plain;
use crate::plain_registers::Searched;

/// A call of the library as plain Rust gives it: the result and trials, or the refusal.
fn answered(number: u32, answer: &[u8; 32]) -> Result<(usize, u64), plain::Refusal> {
    let field = |at: usize| u64::from_le_bytes(answer[8 * at..8 * at + 8].try_into().unwrap());
    match number {
        0 => Ok((field(1) as usize, field(2))),
        _ => Err((number, field(0) as usize)),
    }
}

pub fn compile(source: &[u8], table: &mut [u8]) -> Result<usize, plain::Refusal> {
    let mut answer = [0; 32];
    let number = library::compile(source, table, &mut answer);
    answered(number, &answer).map(|(len, _)| len)
}

pub fn write_back(table: &[u8], source: &mut [u8]) -> Result<usize, plain::Refusal> {
    let mut answer = [0; 32];
    let number = library::write_back(table, source, &mut answer);
    answered(number, &answer).map(|(len, _)| len)
}

pub fn match_label(
    table: &[u8],
    label: &[u8],
    scratch: &mut [u8],
    parts: &mut [u8],
    budget: u64,
) -> Result<plain::Verdict, plain::Refusal> {
    let mut answer = [0; 32];
    let number = library::match_label(table, label, scratch, parts, budget, &mut answer);
    answered(number, &answer).map(|(verdict, trials)| (verdict == 1, trials))
}

/// The same by the copy of the library at a placement.
pub fn match_label_at<const PLACE: usize>(
    table: &[u8],
    label: &[u8],
    scratch: &mut [u8],
    parts: &mut [u8],
    budget: u64,
) -> Result<plain::Verdict, plain::Refusal> {
    let mut answer = [0; 32];
    let copy = COPIES[PLACE];
    let number =
        unsafe { library::match_by(copy, table, label, scratch, parts, budget, &mut answer) };
    answered(number, &answer).map(|(verdict, trials)| (verdict == 1, trials))
}

/// A batch by the copy of the library at a placement.
pub fn match_batch_at<const PLACE: usize>(batch: library::Batch) -> Result<(), plain::Refusal> {
    let mut answer = [0; 32];
    let copy = BATCH_COPIES[PLACE];
    let number = unsafe { library::match_batch_by(copy, batch, &mut answer) };
    answered(number, &answer).map(|_| ())
}

pub fn register_init(register: &mut [u8]) -> Result<(), plain::Refusal> {
    let mut answer = [0; 32];
    let number = library::register_init(register, &mut answer);
    answered(number, &answer).map(|_| ())
}

pub fn register_store(register: &mut [u8], number: u8, table: &[u8]) -> Result<(), plain::Refusal> {
    let mut answer = [0; 32];
    let refusal = library::register_store(register, number, table, &mut answer);
    answered(refusal, &answer).map(|_| ())
}

pub fn register_remove(register: &mut [u8], number: u8) -> Result<(), plain::Refusal> {
    let mut answer = [0; 32];
    let refusal = library::register_remove(register, number, &mut answer);
    answered(refusal, &answer).map(|_| ())
}

pub fn register_match(
    register: &[u8],
    number: u8,
    label: &[u8],
    scratch: &mut [u8],
    parts: &mut [u8],
    budget: u64,
) -> Result<plain::Verdict, plain::Refusal> {
    let mut answer = [0; 32];
    let refusal =
        library::register_match(register, number, label, scratch, parts, budget, &mut answer);
    answered(refusal, &answer).map(|(verdict, trials)| (verdict == 1, trials))
}

/// Declares the copies of mpt_match and mpt_match_batch that build.rs links, by their placements.
macro_rules! copies {
    ($($name:ident $batch:ident),*) => {
        extern "C" {
            $(fn $name(
                table: *const u8,
                table_len: usize,
                label: *const u8,
                label_len: usize,
                scratch: *mut u8,
                scratch_len: usize,
                parts: *mut u8,
                parts_len: usize,
                budget: u64,
                answer: *mut u8,
                answer_len: usize,
            ) -> u32;
            fn $batch(
                table: *const u8,
                table_len: usize,
                labels: *const u8,
                labels_len: usize,
                ends: *const u8,
                ends_len: usize,
                scratch: *mut u8,
                scratch_len: usize,
                verdicts: *mut u8,
                verdicts_len: usize,
                parts: *mut u8,
                parts_len: usize,
                budget: u64,
                answer: *mut u8,
                answer_len: usize,
            ) -> u32;)*
        }
        const COPIES: [library::Match; 4] = [$($name),*];
        const BATCH_COPIES: [library::MatchBatch; 4] = [$($batch),*];
    };
}

copies!(
    mpt_match_0 mpt_match_batch_0,
    mpt_match_16 mpt_match_batch_16,
    mpt_match_32 mpt_match_batch_32,
    mpt_match_48 mpt_match_batch_48
);

/// A search of a register.
pub type Search = fn(&[u8], &[u8], &mut [u8], &mut [u8]) -> Searched;

/// The library's search at four placements, if it has one.
#[cfg(not(search))]
pub const SEARCHES: Option<[Search; 4]> = None;
#[cfg(search)]
pub const SEARCHES: Option<[Search; 4]> = Some([
    searches::at::<0>,
    searches::at::<1>,
    searches::at::<2>,
    searches::at::<3>,
]);

#[cfg(search)]
mod searches {
    use crate::plain_registers::Searched;

    /// The type of mpt_register_search.
    type RegisterSearch = unsafe extern "C" fn(
        *const u8,
        usize,
        *const u8,
        usize,
        *mut u8,
        usize,
        *mut u8,
        usize,
        *mut u8,
        usize,
    ) -> u32;

    /// Declares the copies of mpt_register_search that build.rs links, by their placements.
    macro_rules! copies {
        ($($name:ident),*) => {
            extern "C" {
                $(fn $name(
                    register: *const u8,
                    register_len: usize,
                    label: *const u8,
                    label_len: usize,
                    scratch: *mut u8,
                    scratch_len: usize,
                    parts: *mut u8,
                    parts_len: usize,
                    answer: *mut u8,
                    answer_len: usize,
                ) -> u32;)*
            }
            pub const COPIES: [RegisterSearch; 4] = [$($name),*];
        };
    }

    copies!(
        mpt_register_search_0,
        mpt_register_search_16,
        mpt_register_search_32,
        mpt_register_search_48
    );

    pub fn at<const PLACE: usize>(
        register: &[u8],
        label: &[u8],
        scratch: &mut [u8],
        parts: &mut [u8],
    ) -> Searched {
        let mut answer = [0_u64; 4];
        let refusal = unsafe {
            COPIES[PLACE](
                register.as_ptr(),
                register.len(),
                label.as_ptr(),
                label.len(),
                scratch.as_mut_ptr(),
                scratch.len(),
                parts.as_mut_ptr(),
                parts.len(),
                answer.as_mut_ptr().cast(),
                32,
            )
        };
        let [position, verdict, number, skipped] = answer.map(u64::from_le);
        assert!(position == 0 && verdict < 2 && number < 256);
        Searched {
            refusal,
            yes: verdict == 1,
            number: number as u8,
            skipped,
        }
    }
}

/// Copy k lies 16 k bytes after a multiple of 64, its batch as far from that of copy 0, and its search
/// too.
pub fn assert_placed() {
    let first = BATCH_COPIES[0] as usize;
    for (place, copy) in COPIES.iter().enumerate() {
        let batch = BATCH_COPIES[place] as usize;
        assert_eq!(*copy as usize % 64, 16 * place);
        assert_eq!((batch - first) % 64, 16 * place);
    }
    #[cfg(search)]
    for (place, copy) in searches::COPIES.iter().enumerate() {
        let first = searches::COPIES[0] as usize;
        assert_eq!((*copy as usize - first) % 64, 16 * place);
    }
}
