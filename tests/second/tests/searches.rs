//! Searches: what request 7 says of them.

use second::*;

fn table(source: &[u8]) -> Vec<u8> {
    compile(source, usize::MAX).unwrap()
}

/// A register of some patterns.
fn register(patterns: &[(u8, &[u8])]) -> Vec<u8> {
    let tables = patterns
        .iter()
        .map(|&(number, source)| (number, table(source)));
    let map = Register {
        capacity: usize::MAX,
        tables: tables.collect(),
    };
    map.laid_out()
}

/// A search lent enough: verdict, number, skipped and the ends of the parts.
fn search(buffer: &[u8], label: &[u8]) -> (bool, u8, u64, Vec<u8>) {
    let found = register_search(buffer, label, usize::MAX, usize::MAX);
    assert_eq!(found.number, 0);
    assert_eq!(found.verdict, found.parts.is_some());
    let ends = found.parts.iter().flat_map(|parts| parts.chunks(2));
    let ends = ends.map(|pair| pair[0]).collect();
    (found.verdict, found.at, found.skipped, ends)
}

fn patterns() -> Vec<u8> {
    register(&[
        (2, b"2N"),
        (5, b"1A.N"),
        (6, b"1.6N1.2N"),
        (9, b"300N"),
        (200, b".E"),
        (255, b".1N1\"x\""),
    ])
}

#[test]
fn lowest_number() {
    let kept = patterns();
    assert_eq!(search(&kept, b"42"), (true, 2, 0, vec![2]));
    assert_eq!(search(&kept, b"a1"), (true, 5, 1, vec![1, 2]));
    // 2N is too short, 1A.N begins otherwise.
    assert_eq!(search(&kept, b"1234567"), (true, 6, 2, vec![6, 7]));
    // 1.6N1.2N isn't skipped; 300N is too long for any label.
    assert_eq!(search(&kept, b"12x"), (true, 200, 3, vec![3]));
    assert_eq!(search(&kept, b"-"), (true, 200, 4, vec![1]));
    // The empty label has no first byte.
    assert_eq!(search(&kept, b""), (true, 200, 4, vec![0]));
    assert_eq!(search(&kept, &[b'z'; 255]), (true, 200, 3, vec![255]));
}

#[test]
fn nothing_found() {
    let none = register(&[]);
    assert_eq!(search(&none, b""), (false, 0, 0, vec![]));
    assert_eq!(search(&none, b"42"), (false, 0, 0, vec![]));
    assert_eq!(register_search(&none, b"42", 0, 0).clears, 0);
    let kept = register(&[(0, b"2N"), (1, b"1A.N"), (255, b"1\"a\"1.A")]);
    assert_eq!(search(&kept, b"-"), (false, 0, 3, vec![]));
    // 2N is skipped; the others look as if they fitted.
    assert_eq!(search(&kept, b"a-"), (false, 0, 1, vec![]));
    assert_eq!(search(&kept, b"4x"), (false, 0, 2, vec![]));
}

#[test]
fn refusals() {
    // 1, 3, 2 and 1 atoms, the last number far away.
    let kept = register(&[(1, b"2N"), (4, b"1A1N1N"), (7, b".N.A"), (250, b".E")]);
    let refused = |label: &[u8], scratch, parts| {
        let found = register_search(&kept, label, scratch, parts);
        assert_eq!(
            (found.verdict, found.skipped, &found.parts),
            (false, 0, &None)
        );
        (found.number, found.at, found.clears)
    };
    assert_eq!(refused(&[b'1'; 256], 0, 0), (LABEL, 0, 0));
    // A label of 3 bytes: 96, 160, 128 and 96 bytes of scratch.
    assert_eq!(refused(b"1-1", 95, 99), (WORK, 1, 0));
    assert_eq!(refused(b"1-1", 96, 99), (WORK, 4, 96));
    // 1A1N1N would be skipped, for its first byte; 1.. for parts too.
    assert_eq!(refused(b"1-1", 159, 99), (WORK, 4, 96));
    assert_eq!(refused(b"1-1", 160, 1), (PARTS, 1, 0));
    assert_eq!(refused(b"1-1", 160, 2), (PARTS, 4, 96));
    assert_eq!(refused(b"1-1", 160, 5), (PARTS, 4, 96));
    assert_eq!(refused(b"1-1", 159, 5), (WORK, 4, 96));
    let found = register_search(&kept, b"1-1", 160, 6);
    assert_eq!(
        (found.number, found.at, found.skipped, found.clears),
        (0, 250, 2, 160)
    );
    // None is looked at after the first that matches.
    let found = register_search(&kept, b"42", 54, 2);
    assert_eq!(
        (found.number, found.verdict, found.at, found.clears),
        (0, true, 1, 54)
    );
    let mut damaged = kept.clone();
    damaged[4] = 1;
    assert_eq!(register_search(&damaged, &[0; 256], 0, 0).number, REGISTER);
}

/// Every search beside ordinary calls in turn, and what is skipped beside their verdicts.
#[test]
fn ordinary_calls_in_turn() {
    let kept = patterns();
    let map = Register::read(&kept).unwrap();
    for label in [
        &b""[..],
        b"1",
        b"12",
        b"12x",
        b"x",
        b"1x",
        b"a12",
        b"-",
        &[b'7'; 40],
    ] {
        for scratch in (0..=24).map(|step| step * (label.len() + 1)) {
            for parts in 0..=5 {
                let found = register_search(&kept, label, scratch, parts);
                let (mut clears, mut skipped) = (0, 0);
                let mut wanted = (0, false, 0, None);
                for (&number, table) in &map.tables {
                    let call = register_match(&kept, number, label, scratch, parts, u64::MAX);
                    clears = clears.max(call.clears);
                    let ruled_out = Summary::of(table).unwrap().rules_out(label);
                    assert!(!(ruled_out && call.verdict));
                    skipped += u64::from(ruled_out && call.number == 0);
                    if call.number > 0 {
                        (wanted, skipped) = ((call.number, false, number, None), 0);
                        break;
                    }
                    if call.verdict {
                        wanted = (0, true, number, call.parts);
                        break;
                    }
                }
                let (number, verdict, at, parts) = wanted;
                let wanted = Searched {
                    number,
                    verdict,
                    at,
                    skipped,
                    parts,
                    clears,
                };
                assert_eq!(found, wanted);
            }
        }
    }
}

#[test]
fn all_numbers() {
    let sources: Vec<Vec<u8>> = (0..=255)
        .map(|number| format!("{number}N").into_bytes())
        .collect();
    let patterns: Vec<(u8, &[u8])> = (0..=255).zip(sources.iter().map(Vec::as_slice)).collect();
    let kept = register(&patterns);
    for len in [0, 1, 2, 31, 254, 255] {
        let label = b"7".repeat(len);
        assert_eq!(
            search(&kept, &label),
            (true, len as u8, len as u64, vec![len as u8])
        );
    }
    assert_eq!(search(&kept, b"x"), (false, 0, 256, vec![]));
    assert_eq!(search(&kept, b"1x"), (false, 0, 255, vec![]));
}
