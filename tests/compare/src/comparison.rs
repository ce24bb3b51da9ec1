//! Makes a call of the library and looks at its answer and at every lent byte.

use crate::call::{Batch, Call, Case};
use crate::expected::{expected, Expected};
use crate::lent::Lent;
use crate::tables::{search_trials, turned_to};
use second::{Register, VERSION_2};
use std::fmt;

/// The most register bytes that the matches beside a search look over, all together, and the most
/// trials that they may make.
const DEAREST_IN_TURN: usize = 2_000_000;
const TRIALS_IN_TURN: u64 = 3_000_000;

fn same<T: PartialEq + fmt::Display>(name: &str, found: T, wanted: T) -> Result<(), String> {
    if found == wanted {
        Ok(())
    } else {
        Err(format!("{name} is {found}, expected {wanted}"))
    }
}

fn make(call: &Call, inputs: &mut [Lent], outputs: &mut [Lent], answer: &mut [u8]) -> u32 {
    if call.register().is_some() {
        return make_on_register(call, inputs, outputs, answer);
    }
    match (call, inputs, outputs) {
        (Call::Compile { .. }, [source], [table]) => {
            library::compile(source.bytes(), table.bytes(), answer)
        }
        (Call::WriteBack { .. }, [table], [source]) => {
            library::write_back(table.bytes(), source.bytes(), answer)
        }
        (Call::Match { budget, .. }, [table, label], [scratch, parts]) => library::match_label(
            table.bytes(),
            label.bytes(),
            scratch.bytes(),
            parts.bytes(),
            *budget,
            answer,
        ),
        (Call::Batch(batch), [table, labels, ends], [scratch, verdicts, parts]) => {
            let lent = library::Batch {
                table: table.bytes(),
                labels: labels.bytes(),
                ends: ends.bytes(),
                scratch: scratch.bytes(),
                verdicts: verdicts.bytes(),
                parts: parts.bytes(),
                budget: batch.budget,
            };
            library::match_batch(lent, answer)
        }
        _ => unreachable!("other slices than the call's"),
    }
}

fn make_on_register(
    call: &Call,
    inputs: &mut [Lent],
    outputs: &mut [Lent],
    answer: &mut [u8],
) -> u32 {
    match (call, inputs, outputs) {
        (Call::Init { .. }, [register], []) => library::register_init(register.bytes(), answer),
        (Call::Store { number, .. }, [register, table], []) => {
            library::register_store(register.bytes(), *number, table.bytes(), answer)
        }
        (Call::Remove { number, .. }, [register], []) => {
            library::register_remove(register.bytes(), *number, answer)
        }
        (Call::MatchNumber { number, budget, .. }, [register, label], [scratch, parts]) => {
            library::register_match(
                register.bytes(),
                *number,
                label.bytes(),
                scratch.bytes(),
                parts.bytes(),
                *budget,
                answer,
            )
        }
        (Call::Search { .. }, [register, label], [scratch, parts]) => library::register_search(
            register.bytes(),
            label.bytes(),
            scratch.bytes(),
            parts.bytes(),
            answer,
        ),
        _ => unreachable!("other slices than the call's"),
    }
}

/// The number `at` of an answer area.
fn field(answer: &[u8], at: usize) -> u64 {
    u64::from_le_bytes(answer[8 * at..][..8].try_into().unwrap())
}

fn check_answer(answer: &mut Lent, wanted: &Expected) -> Result<(), String> {
    if wanted.number == second::ANSWER {
        return answer.check(&Vec::new());
    }
    let values = wanted.values();
    let names = ["position", "result", "third number", "fourth number"];
    for (at, name) in names.iter().enumerate() {
        same(name, field(answer.bytes(), at), values[at])?;
    }
    let area = values.iter().flat_map(|value| value.to_le_bytes());
    answer.check(&vec![(0, area.collect())])
}

fn outputs_of(case: &Case, margin: usize) -> Vec<Lent> {
    let outputs = case.call.outputs().into_iter();
    outputs
        .map(|output| Lent::output(output, margin, case.dirt))
        .collect()
}

/// Makes single calls of the library in turn, each with 2T part bytes, and compares what they
/// leave with what a batch left.
fn check_in_turn(case: &Case, number: u32, left: &[Lent], margin: usize) -> Result<(), String> {
    let Call::Batch(Batch { table, budget, .. }) = &case.call else {
        return Ok(());
    };
    let mut area = [0; 32];
    let tested = library::match_label(table, &[], &mut [], &mut [], 0, &mut area);
    let bad = tested == second::TABLE;
    same("table refused", number == second::TABLE, bad)?;
    if number > 0 {
        return Ok(());
    }
    let each = second::part_bytes(table).unwrap();
    let mut outputs = outputs_of(case, margin);
    let [scratch, verdicts, parts] = &mut outputs[..] else {
        unreachable!("other outputs than a batch's")
    };
    for (k, label) in case.call.labels().into_iter().enumerate() {
        let parts = &mut parts.bytes()[k * each..][..each];
        let refusal =
            library::match_label(table, label, scratch.bytes(), parts, *budget, &mut area);
        verdicts.bytes()[k] = match refusal {
            0 => field(&area, 1) as u8,
            _ => refusal as u8,
        };
    }
    check_beside(left, &outputs)
}

/// Makes matches of the library in turn with unlimited budget, the numbers upwards, until one says
/// yes or is refused; its refusal, its verdict and its number.
fn match_in_turn(
    kept: &Register,
    register: &[u8],
    label: &[u8],
    scratch: &mut [u8],
    parts: &mut [u8],
) -> (u32, u64, u64) {
    let mut area = [0; 32];
    for &at in kept.tables.keys() {
        let number =
            library::register_match(register, at, label, scratch, parts, u64::MAX, &mut area);
        if number > 0 || field(&area, 1) == 1 {
            return (number, field(&area, 1), u64::from(at));
        }
    }
    (0, 0, 0)
}

/// Compares what a search answered and left with what matches in turn do, where these are cheap.
fn check_search(
    case: &Case,
    wanted: &Expected,
    left: &[Lent],
    margin: usize,
) -> Result<(), String> {
    let Call::Search {
        register, label, ..
    } = &case.call
    else {
        return Ok(());
    };
    let ended = [0, second::WORK, second::PARTS].contains(&wanted.number);
    let Some(kept) = Register::read(register).filter(|_| ended) else {
        return Ok(());
    };
    let all = wanted.number == 0 && wanted.result == 0;
    let looked_at = |number: &&u8| all || u64::from(**number) <= wanted.third;
    let calls = kept.tables.keys().filter(looked_at).count();
    if calls * register.len() > DEAREST_IN_TURN || search_trials(&kept, label) > TRIALS_IN_TURN {
        return Ok(());
    }
    let mut outputs = outputs_of(case, margin);
    let [scratch, parts] = &mut outputs[..] else {
        unreachable!("other outputs than a search's")
    };
    let found = match_in_turn(&kept, register, label, scratch.bytes(), parts.bytes());
    same("number in turn", found.0, wanted.number)?;
    same("verdict in turn", found.1, wanted.result)?;
    same("number of the pattern in turn", found.2, wanted.third)?;
    check_beside(left, &outputs)
}

fn check_beside(left: &[Lent], single: &[Lent]) -> Result<(), String> {
    let mut pairs = left.iter().zip(single);
    pairs.try_for_each(|(left, single)| left.check_beside(single))
}

/// Compiles what was written back: the result is the version 2 table of the same pattern.
fn check_compiled_again(case: &Case, written: usize, left: &mut [Lent]) -> Result<(), String> {
    let (Call::WriteBack { table, .. }, [source]) = (&case.call, left) else {
        return Ok(());
    };
    let mut again = vec![0; VERSION_2.table_most()];
    let mut area = [0; 32];
    let number = library::compile(&source.bytes()[..written], &mut again, &mut area);
    same("number of compiling again", number, 0)?;
    again.truncate(field(&area, 1) as usize);
    if again == turned_to(VERSION_2, table) {
        return Ok(());
    }
    Err("compiled again it is another table".to_string())
}

/// Makes the call on both sides; gives what both answer, or the first difference.
pub fn compare(case: &Case, margin: usize) -> Result<Expected, String> {
    let wanted = expected(case);
    let lend = |input| Lent::input(input, margin);
    let mut inputs: Vec<Lent> = case.call.inputs().into_iter().map(lend).collect();
    let mut outputs = outputs_of(case, margin);
    let mut answer = Lent::output(("answer", case.answer_len), margin, case.dirt);
    let number = make(&case.call, &mut inputs, &mut outputs, answer.bytes());

    same("number", number, wanted.number)?;
    check_answer(&mut answer, &wanted)?;
    let nothing = Vec::new();
    for (at, output) in outputs.iter_mut().enumerate() {
        output.check(wanted.writes.get(at).unwrap_or(&nothing))?;
    }
    for (at, input) in inputs.iter_mut().enumerate() {
        // A register is the first.
        input.check(if at == 0 { &wanted.register } else { &nothing })?;
    }
    if number != second::ANSWER {
        check_in_turn(case, number, &outputs, margin)?;
        check_search(case, &wanted, &outputs, margin)?;
    }
    if number == 0 {
        check_compiled_again(case, wanted.result as usize, &mut outputs)?;
    }
    Ok(wanted)
}
