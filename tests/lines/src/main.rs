//! Writes the line tool's examples into a folder: `stdin`, lines of every kind, and `stdout`, the second program's answers.
//!
//! lines FOLDER

mod documents;
mod fixed;
mod generated;
mod longest;

use generate::Random;
use second::line;
use std::collections::BTreeMap;
use std::path::Path;

const GENERATED: u64 = 3_000;

/// A line of a source and a label.
fn join(source: impl AsRef<[u8]>, label: impl AsRef<[u8]>) -> Vec<u8> {
    [source.as_ref(), b"\t", label.as_ref()].concat()
}

/// The last line has no newline.
fn input() -> Vec<u8> {
    let mut lines = [fixed::lines(), longest::lines(), documents::lines()].concat();
    lines.extend((0..GENERATED).map(|index| generated::line(&mut Random::new(index << 2))));
    lines.push(b"1U\tA".to_vec());
    lines.join(&b'\n')
}

/// How often each answer came, by its letter or verdict and its number.
fn tally(answers: &[String]) -> BTreeMap<String, usize> {
    let mut counts = BTreeMap::new();
    for answer in answers {
        let words: Vec<&str> = answer.split(' ').collect();
        let kind = match words[0] {
            "R" | "M" => words[..2].join(" "),
            word => word.to_string(),
        };
        *counts.entry(kind).or_default() += 1;
    }
    counts
}

fn main() -> std::io::Result<()> {
    let folder = std::env::args().nth(1).expect("a folder");
    let input = input();
    let answers = line::answers(&input);
    let output = format!("{}\n{}\n", line::FIRST, answers.join("\n"));
    for (kind, count) in tally(&answers) {
        println!("{kind}: {count}");
    }
    println!("{} bytes in, {} out", input.len(), output.len());
    std::fs::write(Path::new(&folder).join("stdin"), input)?;
    std::fs::write(Path::new(&folder).join("stdout"), output)
}
