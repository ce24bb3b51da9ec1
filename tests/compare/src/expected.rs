//! What the second program expects of a call.

use crate::call::{Call, Case};
use crate::lent::Writes;

/// What a call must answer and write.
#[derive(Default)]
pub struct Expected {
    pub number: u32,
    pub position: usize,
    /// Table length, source length or verdict.
    pub result: u64,
    /// Trials; of a search the number of a pattern.
    pub third: u64,
    /// How many patterns a search skipped.
    pub fourth: u64,
    /// What is written to each output, in their order; none for those that aren't named.
    pub writes: Vec<Writes>,
    /// What is written to the register.
    pub register: Writes,
    /// The answers to the labels of a batch.
    pub verdicts: Vec<u8>,
}

impl Expected {
    /// The numbers of the answer area.
    pub fn values(&self) -> [u64; 4] {
        [self.position as u64, self.result, self.third, self.fourth]
    }

    fn refused(refusal: second::Refusal) -> Self {
        Expected {
            number: refusal.number,
            position: refusal.position,
            ..Self::default()
        }
    }

    fn of_bytes(result: Result<Vec<u8>, second::Refusal>) -> Self {
        match result {
            Ok(bytes) => Expected {
                result: bytes.len() as u64,
                writes: vec![vec![(0, bytes)]],
                ..Self::default()
            },
            Err(refusal) => Self::refused(refusal),
        }
    }

    /// Of a call on a register that gives the bytes at its start afterwards.
    fn of_register(result: Result<Vec<u8>, second::Refusal>) -> Self {
        match result {
            Ok(bytes) => Expected {
                register: vec![(0, bytes)],
                ..Self::default()
            },
            Err(refusal) => Self::refused(refusal),
        }
    }

    /// What is written to scratch and parts.
    fn writes(clears: usize, parts: Option<Vec<u8>>) -> Vec<Writes> {
        let parts = parts.map(|parts| (0, parts));
        match clears {
            0 => Vec::new(),
            len => vec![zeros(len), parts.into_iter().collect()],
        }
    }

    pub fn of_match(matched: second::Matched) -> Self {
        Expected {
            number: matched.number,
            position: matched.position,
            result: u64::from(matched.verdict),
            third: matched.trials,
            writes: Self::writes(matched.clears, matched.parts),
            ..Self::default()
        }
    }

    pub fn of_search(searched: second::Searched) -> Self {
        Expected {
            number: searched.number,
            result: u64::from(searched.verdict),
            third: u64::from(searched.at),
            fourth: searched.skipped,
            writes: Self::writes(searched.clears, searched.parts),
            ..Self::default()
        }
    }

    fn of_batch(batch: second::Batch) -> Self {
        Expected {
            number: batch.number,
            writes: vec![
                zeros(batch.clears),
                vec![(0, batch.verdicts.clone())],
                batch.parts,
            ],
            verdicts: batch.verdicts,
            ..Self::default()
        }
    }
}

fn zeros(len: usize) -> Writes {
    vec![(0, vec![0; len])]
}

pub fn expected(case: &Case) -> Expected {
    if case.answer_len >= 32 {
        return answered(&case.call);
    }
    Expected {
        number: second::ANSWER,
        ..Expected::default()
    }
}

fn answered(call: &Call) -> Expected {
    match call {
        Call::Compile { source, table_len } => {
            Expected::of_bytes(second::compile(source, *table_len))
        }
        Call::WriteBack { table, source_len } => {
            Expected::of_bytes(second::write_back(table, *source_len))
        }
        Call::Match {
            table,
            label,
            scratch_len,
            parts_len,
            budget,
        } => Expected::of_match(second::match_label(
            table,
            label,
            *scratch_len,
            *parts_len,
            *budget,
        )),
        Call::Batch(batch) => Expected::of_batch(second::match_batch(
            &batch.table,
            (&batch.labels, &batch.ends),
            batch.scratch_len,
            batch.verdicts_len,
            batch.parts_len,
            batch.budget,
        )),
        _ => on_register(call),
    }
}

fn on_register(call: &Call) -> Expected {
    match call {
        Call::Init { register } => Expected::of_register(second::register_init(register)),
        Call::Store {
            register,
            number,
            table,
        } => Expected::of_register(second::register_store(register, *number, table)),
        Call::Remove { register, number } => {
            Expected::of_register(second::register_remove(register, *number))
        }
        Call::MatchNumber {
            register,
            number,
            label,
            scratch_len,
            parts_len,
            budget,
        } => Expected::of_match(second::register_match(
            register,
            *number,
            label,
            *scratch_len,
            *parts_len,
            *budget,
        )),
        Call::Search {
            register,
            label,
            scratch_len,
            parts_len,
        } => Expected::of_search(second::register_search(
            register,
            label,
            *scratch_len,
            *parts_len,
        )),
        _ => unreachable!("not a call on a register"),
    }
}
