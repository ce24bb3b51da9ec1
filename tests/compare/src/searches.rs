//! Fixed searches: summaries of all kinds, what is lent at each limit of each pattern, each first byte,
//! long labels, all 256 numbers, registers that aren't good; and stores that show the summaries.

use crate::call::Call;
use crate::registers::{old_table, register_of, six, store, table};
use crate::tables::{atom_count, table_of_len, work, ONE_ATOM, PARTS_MOST};
use second::{VERSION_1, VERSION_2};

fn search(register: &[u8], label: &[u8], scratch_len: usize, parts_len: usize) -> Call {
    Call::Search {
        register: register.to_vec(),
        label: label.to_vec(),
        scratch_len,
        parts_len,
    }
}

/// One atom of each count with each body, about the lengths at which a summary has 256.
fn atoms() -> Vec<String> {
    let counts = [
        "0",
        "1",
        "2",
        ".",
        "1.",
        ".1",
        "1.2",
        "85",
        "86",
        ".85",
        "84.86",
        "127",
        "128",
        "254",
        "255",
        "256",
        "257",
        "255.",
        "256.",
        ".255",
        ".256",
        "254.257",
        "9998.9999",
        "9999.",
    ];
    let bodies = [
        "N",
        "AP",
        "E",
        "C",
        "\"\"",
        "\"b\"",
        "\"bc\"",
        "\"bcd\"",
        "(1N,1\"bc\")",
        "(.A)",
        "(.\"\",.2N)",
        "(255U)",
        "(128A,127P)",
        "(0N)",
        "(1\"\"1\"~\",2L)",
        "(.1(.2(3.4\"!\")))",
    ];
    let with = |count: &'static str| bodies.map(|body| format!("{count}{body}"));
    counts.into_iter().flat_map(with).collect()
}

/// Groups one in the other, each with the same count.
fn nested(count: &str, inner: &str) -> String {
    let opening = format!("{count}(").repeat(8);
    format!("{opening}{inner}{}", ")".repeat(8))
}

fn sources() -> Vec<String> {
    let mut sources = atoms();
    let beside = [
        ".1U", "1\"x\"", "0E", ".E", "255L", "1\"\"", ".254N", "1(1N,.A)",
    ];
    for (at, atom) in atoms().iter().enumerate() {
        let (one, other) = (beside[at % 8], beside[at / 8 % 8]);
        sources.push(format!("{atom}{one}"));
        sources.push(format!("{one}{atom}"));
        sources.push(format!("{one}1({atom},{other})"));
        sources.push(format!(".2({one}{atom}){other}"));
    }
    for count in [
        "0",
        "1",
        "2",
        ".",
        ".1",
        "1.",
        "9999",
        "0.9999",
        "9998.9999",
    ] {
        for inner in [
            "1N",
            "9999N",
            ".N",
            "0N",
            "1\"\"",
            "1\"ab\",1\"c\"",
            ".1A,255P",
        ] {
            sources.push(nested(count, inner));
        }
    }
    for byte in 32..127u8 {
        let text = if byte == b'"' {
            "\"\"".to_string()
        } else {
            (byte as char).to_string()
        };
        sources.push(format!("1\"{text}a\""));
        sources.push(format!(".1\"{text}\"1\"b\""));
    }
    for set in 1..128 {
        let letters = "ACELNPU".char_indices();
        let letters: String = letters
            .filter(|(bit, _)| set >> bit & 1 == 1)
            .map(|(_, c)| c)
            .collect();
        sources.push(format!("1{letters}"));
        sources.push(format!(".1\"\".{letters}1(.C,1\"~\")"));
    }
    for atoms in [63, 64, 65, 255, 256] {
        sources.extend([".1N", "1N", ".N", "1\"a\"", "0N"].map(|atom| atom.repeat(atoms)));
    }
    sources
}

/// Each of these patterns stored, in both versions by turns, beside two others.
fn summaries() -> impl Iterator<Item = Call> {
    let kept = [(0, table(b"1N")), (255, old_table(b".A2E"))];
    let register = register_of(&kept, 3_000);
    sources().into_iter().enumerate().map(move |(at, source)| {
        let source = source.as_bytes();
        let new = table(source);
        let old = second::compile_to(VERSION_1, source, usize::MAX);
        let stored = old.ok().filter(|_| at % 3 == 0).unwrap_or(new);
        store(&register, at as u8, &stored)
    })
}

/// The atoms and top-level atoms of these rise and fall from number to number.
fn uneven() -> Vec<(u8, Vec<u8>)> {
    vec![
        (0, table(b"1N")),
        (3, table(b"1A1N1N")),
        (4, table(b".2(1N,1\"c\")1A")),
        (9, old_table(b".N.A")),
        (100, table(b"1(1(1(1(1N))),1\"zz\")")),
        (200, table(b"1N1N1N1N")),
        (201, old_table(b"300P")),
        (255, table(b".E")),
    ]
}

/// The numbers at and just below what each table needs, and more than all need.
fn about(needs: impl Iterator<Item = usize>) -> Vec<usize> {
    let mut all: Vec<usize> = needs.flat_map(|need| [need - 1, need]).collect();
    all.extend([0, all.iter().max().unwrap_or(&0) + 9]);
    all.sort_unstable();
    all.dedup();
    all
}

/// Scratch and parts at and just below the limit of every pattern, with labels that match some
/// pattern, none, or only the last.
fn limits() -> Vec<Call> {
    let mut calls = Vec::new();
    for tables in [
        uneven(),
        six(),
        uneven().split_off(3),
        uneven()[..7].to_vec(),
    ] {
        let register = register_of(&tables, 9);
        for label in [
            &b""[..],
            b"7",
            b"a11",
            b"1-1",
            b"c1a",
            b"12ab",
            b"zz",
            b"1234",
            b"\x80",
            b"Q\x00",
        ] {
            let atoms = tables.iter().map(|(_, table)| atom_count(table));
            let scratch = about(atoms.map(|atoms| work(atoms, label.len())));
            let parts = about(
                tables
                    .iter()
                    .map(|(_, table)| second::part_bytes(table).unwrap()),
            );
            for &scratch_len in &scratch {
                for &parts_len in &parts {
                    calls.push(search(&register, label, scratch_len, parts_len));
                }
            }
        }
    }
    calls
}

/// A label that begins with each byte, alone and before another one.
fn first_bytes() -> Vec<Call> {
    let sources = ["1C", "1L", "1N", "1P", "1U", "1\"a\"1E", ".1A1\"1\"", ".E"];
    let numbers = [0, 1, 7, 8, 63, 64, 254, 255];
    let tables = sources.map(|source| table(source.as_bytes()));
    let all: Vec<_> = numbers.into_iter().zip(tables).collect();
    let (register, without) = (register_of(&all, 5), register_of(&all[..7], 5));
    let mut calls = Vec::new();
    for byte in 0..=255 {
        for label in [&[byte][..], &[byte, b'1']] {
            calls.push(search(&register, label, work(2, 2), 4));
            calls.push(search(&without, label, work(2, 2), 4));
        }
    }
    calls
}

/// Labels of every length about the most, some with patterns that only skipping makes cheap.
fn long_labels() -> Vec<Call> {
    let cheap = [
        (1, table(b"2N")),
        (2, table(b"255.256\"xx\"")),
        (5, table_of_len(VERSION_2, ONE_ATOM + 254)),
        (6, table_of_len(VERSION_1, ONE_ATOM - 1 + 255)),
        (7, table(b"256N")),
        (8, table(b"9999(.N)1\"a\"")),
        (250, table(b".1E1\"x\"1.2\"yy\"")),
    ];
    let register = register_of(&cheap, 0);
    let mut calls = Vec::new();
    for len in [253, 254, 255, 256, 257, 300, 65_536, 65_536 + 254] {
        for label in [vec![b'x'; len], vec![b'b'; len]] {
            let most = work(3, len.min(255));
            for scratch_len in [most, most - 1, work(2, len.min(255)) - 1] {
                calls.push(search(&register, &label, scratch_len, 6));
            }
            calls.push(search(&register, &label, most, 5));
            calls.push(search(&register, &label, 0, 0));
        }
    }
    // 256 atoms that only 256 bytes satisfy, beside one that nothing lent is too short for.
    let largest = [(3, table(b"1\"x\"")), (9, table(&b"1N".repeat(256)))];
    let register = register_of(&largest, 0);
    let most = work(256, 255);
    for (scratch_len, parts_len) in [
        (most, PARTS_MOST),
        (most - 1, PARTS_MOST),
        (most, PARTS_MOST - 1),
    ] {
        calls.push(search(&register, &[b'1'; 255], scratch_len, parts_len));
    }
    calls
}

/// All 256 numbers: literals of each length, and each number's own two letters.
fn all_numbers() -> Vec<Call> {
    let of_lens = (0..=255).map(|number| {
        (
            number,
            table_of_len(VERSION_2, ONE_ATOM + usize::from(number)),
        )
    });
    let lens = register_of(&of_lens.collect::<Vec<_>>(), 0);
    let mut calls = Vec::new();
    for len in [0, 1, 2, 60, 254, 255, 256] {
        for scratch_len in [work(1, len), work(1, len) - 1] {
            calls.push(search(&lens, &b"x".repeat(len), scratch_len, 2));
        }
    }
    calls.push(search(&lens, b"xxy", work(1, 3), 2));
    let text = |number: u8| format!("{number:02x}");
    let own = |number: u8| table(format!("1\"{}\"", text(number)).as_bytes());
    let own: Vec<_> = (0..=255).map(|number| (number, own(number))).collect();
    let (all, without) = (register_of(&own, 3), register_of(&own[1..255], 3));
    for number in 0..=255 {
        for register in [&all, &without] {
            calls.push(search(register, text(number).as_bytes(), work(1, 2), 2));
        }
    }
    calls.push(search(&all, b"0g", work(1, 2), 2));
    calls.push(search(&all, b"g0", work(1, 2), 2));
    calls
}

/// Registers without tables or not good, with what is lent too short as well.
fn none_and_bad() -> Vec<Call> {
    let (empty, good) = (register_of(&[], 9), register_of(&uneven(), 9));
    let mut bad = vec![
        good[..good.len() - 10].to_vec(),
        [b"MPS", &good[3..]].concat(),
    ];
    for at in [3, 5, 8 + 12, 8 + 43, 8 + 44, good.len() - 10] {
        let mut changed = good.clone();
        changed[at] ^= 4;
        bad.push(changed);
    }
    let mut calls = Vec::new();
    for register in [&[empty, good][..], &bad].concat() {
        for len in [0, 1, 3, 255, 256, 257] {
            // Nothing to be matched with 255 bytes.
            let lent = if len == 255 { 0 } else { 3_000 };
            calls.push(search(&register, &b"1".repeat(len), lent, 8));
            calls.push(search(&register, &b"1".repeat(len), 0, 0));
        }
    }
    calls
}

/// The lists one after the other, each made when it is reached.
pub fn searches() -> impl Iterator<Item = Call> {
    let lists: [fn() -> Vec<Call>; 5] =
        [limits, first_bytes, long_labels, all_numbers, none_and_bad];
    summaries().chain(lists.into_iter().flat_map(|list| list()))
}
