//! (e): the line tool, as a process that reads a file.

use crate::rounds::Rounds;
use crate::{clock, plain};
use std::fs::File;
use std::io::{stdin, stdout, BufRead, BufWriter, Write};
use std::path::{Path, PathBuf};
use std::process::{Command, Stdio};

const TOOL: &str = concat!(env!("CARGO_MANIFEST_DIR"), "/../crates/mptline/out/mptline");
const EXAMPLES: &str = concat!(env!("CARGO_MANIFEST_DIR"), "/../crates/mptline/stdin");
const LINE_MOST: usize = 1_024;
const BUDGET: u64 = 10_000_000;

// ---- the line tool in plain Rust ----

struct Room {
    table: [u8; plain::TABLE],
    scratch: Vec<u8>,
    parts: [u8; plain::PARTS],
}

impl Room {
    fn answer(&mut self, line: &[u8], out: &mut impl Write) -> std::io::Result<()> {
        if line.len() > LINE_MOST {
            return writeln!(out, "L");
        }
        let Some(tab) = line.iter().position(|&byte| byte == b'\t') else {
            return writeln!(out, "T");
        };
        let len = match plain::compile(&line[..tab], &mut self.table) {
            Ok(len) => len,
            Err((number, position)) => return writeln!(out, "R {number} {position}"),
        };
        let (table, label) = (&self.table[..len], &line[tab + 1..]);
        // An end is at most 255, so an upper byte that stays 255 is after the last part.
        let parts = &mut self.parts[..2 * plain::atoms(table)];
        parts.fill(255);
        match plain::match_label(table, label, &mut self.scratch, parts, BUDGET) {
            Err((number, _)) => writeln!(out, "M {number}"),
            Ok((false, _)) => writeln!(out, "0"),
            Ok((true, _)) => {
                let ends = parts.chunks(2).take_while(|pair| pair[1] == 0);
                for (at, pair) in ends.enumerate() {
                    write!(out, "{}{}", if at == 0 { "1 " } else { "," }, pair[0])?;
                }
                writeln!(out)
            }
        }
    }
}

/// Answers standard input line by line, until its end or a fault.
pub fn answer_input() {
    let mut room = Room {
        table: [0; plain::TABLE],
        scratch: vec![0; 65_536],
        parts: [0; plain::PARTS],
    };
    let (mut input, mut line) = (stdin().lock(), Vec::new());
    let mut out = BufWriter::with_capacity(65_536, stdout().lock());
    let mut open = writeln!(out, "MPT 2").is_ok();
    while open && input.read_until(b'\n', &mut line).is_ok_and(|len| len > 0) {
        let text = line.strip_suffix(b"\n").unwrap_or(&line);
        open = room.answer(text, &mut out).is_ok();
        line.clear();
    }
}

// ---- times ----

/// Lines to read, about half a second of work each.
fn inputs() -> Vec<(&'static str, Vec<u8>)> {
    let examples = std::fs::read(EXAMPLES).unwrap();
    let lines = examples.split(|&byte| byte == b'\n');
    let short: Vec<&[u8]> = lines.filter(|line| line.len() <= 60).collect();
    let mixed = [short.join(&b'\n'), b"\n".to_vec()].concat();
    vec![
        (
            "1U2N1\"-\"1.6N on S24-012345",
            b"1U2N1\"-\"1.6N\tS24-012345\n".repeat(40_000),
        ),
        ("2N on 42", b"2N\t42\n".repeat(1_000_000)),
        ("mixed", mixed.repeat(20)),
        ("no tab", b"no tab\n".repeat(4_000_000)),
    ]
}

/// Processor time of one run over a file, in nanoseconds.
fn time(command: &[&str], input: &Path) -> f64 {
    let start = clock::children();
    let mut run = process(command, input);
    assert!(run.stdout(Stdio::null()).status().unwrap().success());
    (clock::children() - start) as f64
}

fn process(command: &[&str], input: &Path) -> Command {
    let mut run = Command::new(command[0]);
    run.args(&command[1..]).stdin(File::open(input).unwrap());
    run
}

pub fn lines(rounds: usize) {
    println!("\n(e) the line tool, lines a second");
    if !Path::new(TOOL).exists() {
        return println!("not run: ./mptline makes crates/mptline/out/mptline");
    }
    println!(
        "{:<32}{:>10}{:>12}{:>12}{:>8}",
        "lines", "number", "tool", "plain", "ratio"
    );
    let own = std::env::current_exe().unwrap();
    let ways: [&[&str]; 2] = [&[TOOL], &[own.to_str().unwrap(), "--lines"]];
    let file: PathBuf = std::env::temp_dir().join(format!("mpt-bench-{}", std::process::id()));
    for (name, input) in inputs() {
        std::fs::write(&file, &input).unwrap();
        let [tool, plain] = ways.map(|way| process(way, &file).output().unwrap().stdout);
        assert!(tool == plain, "{name}");
        let number = input.iter().filter(|&&byte| byte == b'\n').count();
        let timed = Rounds::<2>::by(rounds, |at| time(ways[at], &file));
        let [tool, plain] = timed.times().map(|time| number as f64 * 1e9 / time);
        println!(
            "{name:<32}{number:>10}{tool:>12.0}{plain:>12.0}{:>8.2}",
            timed.ratio(0, 1)
        );
    }
    std::fs::remove_file(&file).unwrap();
}
