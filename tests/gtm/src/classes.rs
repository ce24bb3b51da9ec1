//! What differs between the line tool's answers and GT.M's, by class.

use std::collections::BTreeMap;
use std::path::Path;
use std::process::exit;

/// How often, and the shortest line.
type Tally<'l> = BTreeMap<String, (usize, &'l [u8])>;

fn count<'l>(tally: &mut Tally<'l>, class: String, line: &'l [u8]) {
    let (count, shortest) = tally.entry(class).or_insert((0, line));
    *count += 1;
    if line.len() < shortest.len() {
        *shortest = line;
    }
}

/// Whether a group with no upper end has one branch.
fn open_group(source: &[u8]) -> bool {
    let mut quoted = false;
    // For each open group, whether it is such a group so far.
    let mut groups = Vec::new();
    let mut before = b' ';
    for &byte in source {
        match byte {
            b'"' => quoted = !quoted,
            _ if quoted => (),
            b'(' => groups.push(before == b'.'),
            b',' => _ = groups.pop().map(|_| groups.push(false)),
            b')' if groups.pop() == Some(true) => return true,
            _ => (),
        }
        before = byte;
    }
    false
}

/// The line with each byte above 127 exchanged for a lower one that has the same codes in GT.M and isn't in the line.
fn lowered(line: &[u8], codes: &[&str]) -> Vec<u8> {
    let same = |low: u8, high: u8| {
        let has = |row: &str, byte: u8| row.as_bytes()[usize::from(byte)];
        codes.iter().all(|row| has(row, low) == has(row, high))
    };
    let lower = |byte: u8| (0..128).find(|&low| !line.contains(&low) && same(low, byte));
    let one = |&byte: &u8| {
        if byte < 128 {
            byte
        } else {
            lower(byte).unwrap_or(byte)
        }
    };
    line.iter().map(one).collect()
}

/// An answer of the line tool without parts and position.
fn short(answer: &str) -> String {
    let words: Vec<&str> = answer.split(' ').collect();
    let kept = if words[0] == "1" {
        1
    } else {
        words.len().min(2)
    };
    words[..kept].join(" ")
}

/// Why the answers differ, as docs/GTM.md has it.
fn reason(line: &[u8], codes: &[&str], ours: &str, theirs: &str) -> Option<&'static str> {
    let source = line.split(|&byte| byte == b'\t').next().unwrap();
    let same_lowered = || short(&second::line::answer(&lowered(line, codes))) == theirs;
    let fault = theirs.len() > 1;
    match (ours, theirs) {
        ("R 1" | "R 4" | "R 6" | "R 7", _) if !fault => Some("a limit here"),
        ("R 3", _) if !fault => Some("a code that GT.M ignores where it can"),
        ("R 2", _) if !fault && source.contains(&b' ') => Some("GT.M stops reading at a space"),
        ("M 13" | "M 15", _) if !fault => Some("a limit of the line tool"),
        ("1" | "0", "PATMAXLEN") => Some("a limit of GT.M"),
        ("1" | "0", "NUMOFLOW") => Some("GT.M reads digits, E and digits as a number too"),
        ("0", "1") if !line.is_ascii() && same_lowered() => Some("a code's bytes above 127"),
        ("0", "1") if open_group(source) => Some("GT.M cuts an open group of one atom anywhere"),
        _ => None,
    }
}

/// The pattern and the label, each byte above 127 by its number.
fn shown(line: &[u8]) -> String {
    let one = |&byte: &u8| match byte {
        b'\t' => "  on  ".into(),
        128.. => format!("<{byte}>"),
        _ => char::from(byte).to_string(),
    };
    line.iter().map(one).collect()
}

fn print_tally(title: &str, tally: &Tally) {
    println!(
        "{title}: {}",
        tally.values().map(|(count, _)| count).sum::<usize>()
    );
    for (class, (count, line)) in tally {
        let example = shown(line);
        let dots = if example.len() > 60 { "..." } else { "" };
        println!("{count:>7}  {class:<75}{example:.60}{dots}");
    }
}

/// The bytes that only one side has in a code, as ranges.
fn print_bytes(code: char, theirs: &str) {
    let here = |byte: u8| second::line::answer(&[b'1', code as u8, b'\t', byte]).starts_with('1');
    let differs = |byte: &u8| here(*byte) != (theirs.as_bytes()[usize::from(*byte)] == b'1');
    let mut ranges: Vec<(u8, u8)> = Vec::new();
    for byte in (0..=255).filter(differs) {
        match ranges.last_mut() {
            Some((_, to)) if *to + 1 == byte => *to = byte,
            _ => ranges.push((byte, byte)),
        }
    }
    let one = |(from, to): &(u8, u8)| {
        if from == to {
            format!("{from}")
        } else {
            format!("{from}-{to}")
        }
    };
    println!(
        "{code}: {}",
        ranges.iter().map(one).collect::<Vec<_>>().join(" ")
    );
}

pub fn print(folder: &Path) {
    let lines = std::fs::read(folder.join("lines")).unwrap();
    let mut lines: Vec<&[u8]> = lines.split(|&byte| byte == b'\n').collect();
    // Nothing stands after the last newline.
    lines.pop();
    let read = |name| std::fs::read_to_string(folder.join(name)).unwrap();
    let [ours, theirs] = ["ours", "theirs"].map(read);
    let (ours, theirs): (Vec<&str>, Vec<&str>) = (ours.lines().collect(), theirs.lines().collect());
    assert_eq!(ours.len(), lines.len() + 1);
    assert_eq!(
        theirs.len(),
        lines.len() + 8,
        "GT.M stopped at {:?}",
        lines.get(theirs.len() - 1).map(|line| shown(line))
    );
    let codes = &theirs[lines.len() + 1..];
    let (mut same, mut refused, mut different, mut new) =
        (Tally::new(), Tally::new(), Tally::new(), Tally::new());
    for (at, line) in lines.iter().enumerate() {
        let (ours, theirs) = (short(ours[at + 1]), theirs[at + 1]);
        let class = format!("{ours} here, {theirs} there");
        if ours == theirs {
            count(&mut same, class, line);
        } else if ours.len() > 1 && theirs.len() > 1 {
            count(&mut refused, class, line);
        } else if let Some(reason) = reason(line, codes, &ours, theirs) {
            count(&mut different, format!("{class}: {reason}"), line);
        } else {
            count(&mut new, class, line);
        }
    }
    println!("{} lines, {}\n", lines.len(), theirs[0]);
    print_tally("the same verdict", &same);
    print_tally("refused by both", &refused);
    print_tally("different, as docs/GTM.md explains", &different);
    print_tally("different, not explained", &new);
    println!("\nbytes of a code on one side only");
    for (code, row) in "ACELNPU".chars().zip(codes) {
        print_bytes(code, row);
    }
    if !new.is_empty() {
        exit(1);
    }
}
