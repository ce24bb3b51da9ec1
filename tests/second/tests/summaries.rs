//! Summaries: examples, and all three numbers beside what labels that are tried show.

use second::*;

fn table(source: &[u8]) -> Vec<u8> {
    compile(source, usize::MAX).unwrap()
}

fn summary(source: &str) -> Summary {
    Summary::of(&table(source.as_bytes())).unwrap()
}

/// Shortest, longest and the bytes that begin a string.
fn numbers(source: &str) -> (u16, u16, Vec<u8>) {
    let summary = summary(source);
    let first = (0..=255).filter(|&byte| summary.begins(byte)).collect();
    (summary.shortest, summary.longest, first)
}

fn satisfies(table: &[u8], label: &[u8]) -> bool {
    match_unlimited(table, label, usize::MAX, usize::MAX).verdict
}

#[test]
fn lengths() {
    let lengths = |source| {
        let (shortest, longest, _) = numbers(source);
        (shortest, longest)
    };
    assert_eq!(lengths("3N1\".\"2N.U"), (6, 256));
    assert_eq!(lengths("1.6N1.2N"), (2, 8));
    assert_eq!(lengths("2(1N,1A)"), (2, 2));
    assert_eq!(lengths("9000(.N)"), (0, 256));
    assert_eq!(lengths("300\"\""), (0, 0));
    assert_eq!(lengths(".\"\""), (0, 0));
    assert_eq!(lengths("0N"), (0, 0));
    assert_eq!(lengths(".0N"), (0, 0));
    assert_eq!(lengths("255N"), (255, 255));
    assert_eq!(lengths("256N"), (256, 256));
    assert_eq!(lengths("300N"), (256, 256));
    assert_eq!(lengths("255.9999N"), (255, 256));
    assert_eq!(lengths(".255N"), (0, 255));
    assert_eq!(lengths(".256N"), (0, 256));
    assert_eq!(lengths("85\"abc\""), (255, 255));
    assert_eq!(lengths("51.51\"abcde\".1N"), (255, 256));
    assert_eq!(lengths("127\"ab\".1N"), (254, 255));
    assert_eq!(lengths("128\"ab\""), (256, 256));
    assert_eq!(lengths("1(300N,2A)"), (2, 256));
    assert_eq!(lengths("2(128N,127A)"), (254, 256));
    assert_eq!(lengths("0(300N)"), (0, 0));
    assert_eq!(lengths("9999(9999(9999(9999N)))"), (256, 256));
    assert_eq!(lengths("9999(9999(0(9999N)))"), (0, 0));
    assert_eq!(lengths("9999(.1(.1N))"), (0, 256));
    assert_eq!(lengths("15.17(15.17N)"), (225, 256));
    assert_eq!(lengths("5.15(3.17N)"), (15, 255));
}

#[test]
fn first_bytes() {
    let first = |source| numbers(source).2;
    let digits: Vec<u8> = (b'0'..=b'9').collect();
    let capitals: Vec<u8> = (b'A'..=b'Z').collect();
    assert_eq!(first("1N"), digits);
    assert_eq!(first(".E"), (0..=255).collect::<Vec<_>>());
    assert_eq!(first("1C"), (0..32).chain([127]).collect::<Vec<_>>());
    assert_eq!(first("0N"), []);
    assert_eq!(first("300\"\""), []);
    assert_eq!(first("0N1\"x\""), b"x");
    assert_eq!(first("1\"\"1\"xy\""), b"x");
    assert_eq!(first("1\"xy\".N"), b"x");
    assert_eq!(first(".1\"xy\"1N"), [&digits[..], b"x"].concat());
    assert_eq!(first(".U.N"), [&digits[..], &capitals].concat());
    assert_eq!(first("1U.N"), capitals);
    assert_eq!(first("1(1\"b\",.1\"c\")1\"d\""), b"bcd");
    assert_eq!(first("2(1\"b\",1\"c\")1\"d\""), b"bc");
    assert_eq!(first("2(0N,1\"\")1\"d\""), b"d");
    assert_eq!(first("2(1\"b\",1\"\")1\"d\""), b"bd");
    assert_eq!(first("0(1\"b\")1\"d\""), b"d");
    assert_eq!(first("9999(9999\"b\")"), b"b");
    assert_eq!(first("1\"\"\"\""), b"\"");
}

/// Both versions of a pattern's table have one summary; bytes that aren't a table have none.
#[test]
fn of_tables() {
    for source in [&b"2N"[..], b".2(1N,1\"c\")1A"] {
        let old = compile_to(VERSION_1, source, usize::MAX).unwrap();
        assert_eq!(Summary::of(&old), Summary::of(&table(source)));
    }
    assert_eq!(Summary::of(b""), None);
    assert_eq!(Summary::of(&table(b"2N")[..18]), None);
}

/// Patterns of one and of two atoms, of groups of them and of groups in groups.
fn small_patterns() -> Vec<String> {
    let counts = ["0", "1", "2", ".", "1.", ".1", "1.2", "0.0"];
    let bodies = ["N", "AN", "\"\"", "\"a\"", "\"1a\""];
    let all = |counts: &[&str], bodies: &[String]| -> Vec<String> {
        let with = |count: &&str| -> Vec<String> {
            bodies.iter().map(|body| format!("{count}{body}")).collect()
        };
        counts.iter().flat_map(with).collect()
    };
    let bodies = bodies.map(String::from);
    let atoms = all(&counts, &bodies);
    let some: Vec<&String> = atoms.iter().step_by(3).collect();
    let mut patterns = atoms.clone();
    let mut groups = Vec::new();
    for (at, one) in some.iter().enumerate() {
        for (next, other) in some.iter().enumerate() {
            patterns.push(format!("{one}{other}"));
            if (at + next) % 3 == 0 {
                groups.push(format!("({one},{other})"));
                groups.push(format!("({one}{other})"));
            }
        }
    }
    let grouped = all(&["0", "1", "2", ".", ".1", "1."], &groups);
    for (at, group) in grouped.iter().enumerate() {
        let one = &atoms[at % atoms.len()];
        match at % 5 {
            0 => patterns.push(format!("{group}{one}")),
            1 => patterns.push(format!("{one}{group}")),
            2 => patterns.push(format!(".({group},{one})1\"a\"")),
            3 => patterns.push(format!("1.2(.1\"b\"{group})")),
            _ => (),
        }
    }
    patterns.extend(grouped);
    patterns
}

/// Every string of at most `most` bytes over a few bytes.
fn short_strings(most: usize) -> Vec<Vec<u8>> {
    let mut all = vec![Vec::new()];
    let mut from = 0;
    for _ in 0..most {
        let to = all.len();
        for at in from..to {
            for byte in *b"ab1" {
                all.push([&all[at][..], &[byte]].concat());
            }
        }
        from = to;
    }
    all
}

/// Where a pattern of the list has a string of 5 bytes or less, it has such a one for each byte that
/// it can begin with.
#[test]
fn beside_short_labels() {
    let strings = short_strings(5);
    let mut seen = 0;
    for source in small_patterns() {
        let table = table(source.as_bytes());
        let summary = summary(&source);
        let found: Vec<&Vec<u8>> = strings
            .iter()
            .filter(|label| satisfies(&table, label))
            .collect();
        let shortest = found.iter().map(|label| label.len()).min();
        let longest = found.iter().map(|label| label.len()).max();
        if summary.shortest <= 5 {
            assert_eq!(shortest, Some(usize::from(summary.shortest)), "{source}");
            seen += 1;
        } else {
            assert_eq!(shortest, None, "{source}");
        }
        if summary.longest <= 5 {
            assert_eq!(longest, Some(usize::from(summary.longest)), "{source}");
        }
        for byte in *b"ab1" {
            let begins = found.iter().any(|label| label.first() == Some(&byte));
            assert!(
                begins == summary.begins(byte) || summary.shortest > 5,
                "{source}"
            );
            assert!(!begins || summary.begins(byte), "{source}");
        }
        // What is ruled out is never satisfied.
        assert!(
            !found.iter().any(|label| summary.rules_out(label)),
            "{source}"
        );
    }
    assert!(seen > 1_000);
}

/// Of a pattern that is satisfied by one letter alone all lengths can be tried: the shortest and
/// the longest of 255 bytes or less. A finite longest is at most `finite`; above it comes none or
/// some near 255.
fn beside_long_labels(source: &str, finite: usize) {
    let table = table(source.as_bytes());
    let summary = summary(source);
    let lengths: Vec<usize> = (0..=255)
        .filter(|&len| satisfies(&table, &b"a".repeat(len)))
        .collect();
    let shortest = lengths.first().map_or(256, |&len| len as u16);
    assert_eq!(summary.shortest, shortest, "{source}");
    let longest = lengths.last().copied().unwrap_or(256);
    if summary.longest == 256 {
        assert!(longest > finite, "{source}");
    } else {
        assert_eq!(usize::from(summary.longest), longest, "{source}");
    }
}

#[test]
fn beside_all_lengths() {
    for source in [
        "255A",
        "256A",
        ".255\"a\"",
        "85\"aaa\"",
        "127\"aa\".1A",
        "5.15(3.17A)",
        "100.155A100A",
        "63(1\"aaaa\")1(1A,3A)",
        ".51\"aaaaa\"",
    ] {
        beside_long_labels(source, 255 - 12);
    }
    // At most 60 bytes, or no longest.
    for source in [
        ".A",
        "3.A",
        "2.(1\"aaa\",2\"aa\")",
        ".(.\"\")2A",
        "9000(.2\"\")",
        ".(.3\"aa\")1A",
        "3(2(5\"aa\"))",
        ".(4\"\",3\"aaa\")",
        "7.9(2.3(1.2A))",
        "300(.\"\",0A)3A",
    ] {
        beside_long_labels(source, 60);
    }
}
