//! The examples of the papers.

use second::*;

fn table(source: &[u8]) -> Vec<u8> {
    compile(source, usize::MAX).unwrap()
}

fn refusal(source: &[u8]) -> (u32, usize) {
    let refusal = compile(source, usize::MAX).unwrap_err();
    (refusal.number, refusal.position)
}

fn ends(parts: &[u8]) -> Vec<u16> {
    parts
        .chunks(2)
        .map(|pair| u16::from_le_bytes([pair[0], pair[1]]))
        .collect()
}

/// The parts for yes, None for no.
fn parts(source: &[u8], label: &[u8]) -> Option<Vec<u16>> {
    let matched = match_label(&table(source), label, usize::MAX, usize::MAX, u64::MAX);
    assert_eq!((matched.number, matched.position), (0, 0));
    assert_eq!(matched.verdict, matched.parts.is_some());
    matched.parts.map(|parts| ends(&parts))
}

fn trials(source: &[u8], label: &[u8]) -> u64 {
    match_label(&table(source), label, usize::MAX, usize::MAX, u64::MAX).trials
}

#[test]
fn proved_examples() {
    let yes = |ends: &[u16]| Some(ends.to_vec());
    assert_eq!(parts(b"3N1\".\"2N.U", b"123.45"), yes(&[3, 4, 6, 6]));
    assert_eq!(parts(b"3N1\".\"2N.U", b"123.45a"), None);
    assert_eq!(parts(b"1.6N1.2N", b"1234567"), yes(&[6, 7]));
    assert_eq!(parts(b".N.N", b"12"), yes(&[2, 2]));
    assert_eq!(parts(b"2(1N,1A)", b"a1"), yes(&[2]));
    assert_eq!(parts(b"9000(.N)", b"12"), yes(&[2]));
    assert_eq!(parts(b"300\"\"", b""), yes(&[0]));
    assert_eq!(parts(b"300N", b"12"), None);
    assert_eq!(parts(b"1N", b"7"), yes(&[1]));
    assert_eq!(parts(b"1N", b"x"), None);
    assert_eq!(parts(b"1N1A", b""), None);
    assert_eq!(parts(b"0N", b""), yes(&[0]));
    assert_eq!(parts(b"1E", &[200]), yes(&[1]));
    assert_eq!(parts(b"1\"a\"\"b\"", b"a\"b"), yes(&[3]));
    assert_eq!(trials(b"300\"\"", b""), 0);
    assert_eq!(trials(b"1N", b"7"), 3);
    assert_eq!(trials(b"1N", b"x"), 4);
    assert_eq!(trials(b"1N1A", b""), 1);
    assert_eq!(trials(b"0N", b""), 0);
}

#[test]
fn budgets() {
    let at =
        |source: &[u8], label: &[u8], budget| match_label(&table(source), label, 999, 99, budget);
    assert_eq!(at(b"300\"\"", b"", 0).number, 0);
    assert_eq!(at(b"1N", b"7", 3).number, 0);
    let refused = Matched {
        number: 15,
        position: 0,
        verdict: false,
        trials: 2,
        parts: None,
        clears: 24,
    };
    assert_eq!(at(b"1N", b"7", 2), refused);
}

#[test]
fn examples_of_refusals() {
    assert_eq!(refusal(b""), (FORM, 0));
    assert_eq!(refusal(b"2N,"), (FORM, 2));
    assert_eq!(refusal(b"1()"), (FORM, 2));
    assert_eq!(refusal(b"1(2N"), (FORM, 4));
    assert_eq!(refusal(b"5.3"), (RANGE, 0));
    assert_eq!(refusal(b"5.."), (FORM, 2));
    assert_eq!(refusal(b"3Q"), (CODE, 1));
    assert_eq!(refusal(b"3.10000N"), (NUMBER, 6));
    assert_eq!(refusal(b"20000N"), (NUMBER, 4));
    assert!(compile(b"9999N", 19).is_ok());
}

#[test]
fn digits_of_numbers() {
    assert_eq!(refusal(b"0020000N"), (NUMBER, 6));
    assert_eq!(refusal(b"10000.5N"), (NUMBER, 4));
    assert_eq!(refusal(b"99999.99999N"), (NUMBER, 4));
    assert_eq!(refusal(b"10000.99999N"), (NUMBER, 4));
    assert_eq!(refusal(b"9999.010000N"), (NUMBER, 10));
    assert_eq!(refusal(b".10000N"), (NUMBER, 5));
    assert_eq!(refusal(b"1(3U,100000000000000000000N)"), (NUMBER, 9));
    assert!(compile(&[b"0".repeat(2_043), b"9999N".to_vec()].concat(), 19).is_ok());
    assert_eq!(
        refusal(&[b"0".repeat(2_043), b"10000".to_vec()].concat()),
        (NUMBER, 2_047)
    );
    // Of the digit and the place of FORM the lesser one.
    assert_eq!(refusal(b"20000"), (NUMBER, 4));
    assert_eq!(refusal(b"20000."), (NUMBER, 4));
    assert_eq!(refusal(b"20000..N"), (NUMBER, 4));
    assert_eq!(refusal(b"1(20000"), (NUMBER, 6));
    assert_eq!(refusal(b"2000"), (FORM, 4));
    assert_eq!(refusal(b"1..20000N"), (FORM, 2));
    assert_eq!(refusal(b"1N)20000N"), (FORM, 2));
    // RANGE is of numbers that fit.
    assert_eq!(refusal(b"9999.9998"), (RANGE, 0));
    assert_eq!(refusal(b"10000.9999N"), (NUMBER, 4));
    assert_eq!(refusal(b"5.3N20000N"), (RANGE, 0));
    assert_eq!(refusal(b"20000N5.3N"), (NUMBER, 4));
}

#[test]
fn order_of_refusals() {
    assert_eq!(refusal(&[b'N'; 2_049]), (LONG, 2_048));
    assert_eq!(refusal(&[b'N'; 2_048]), (FORM, 0));
    assert_eq!(refusal(b"1.10000Q,"), (NUMBER, 6));
    assert_eq!(refusal(b"10000.3Q"), (NUMBER, 4));
    assert_eq!(refusal(b"1Q10000N"), (CODE, 1));
    assert_eq!(refusal(b"1N\""), (FORM, 2));
    assert_eq!(refusal(b"1\"\x1f"), (FORM, 2));
    assert_eq!(refusal(b"1\"a\"\""), (FORM, 5));
    let atoms = |count| b"1N".repeat(count);
    assert!(compile(&atoms(256), usize::MAX).is_ok());
    assert_eq!(refusal(&atoms(257)), (ATOMS, 512));
    assert_eq!(
        refusal(&[atoms(256), b"5.3N".to_vec()].concat()),
        (RANGE, 512)
    );
    for over in [&b".10000N"[..], b"20000N", b"5.10000N", b"20000"] {
        assert_eq!(refusal(&[&atoms(256), over].concat()), (ATOMS, 512));
        assert_eq!(refusal(&[&atoms(255), over].concat()).0, NUMBER);
    }
    assert_eq!(refusal(&[atoms(256), b",".to_vec()].concat()), (FORM, 512));
    let nested = |depth| [b"1(".repeat(depth), b"1N".to_vec(), b")".repeat(depth)].concat();
    assert!(compile(&nested(8), usize::MAX).is_ok());
    assert_eq!(refusal(&nested(9)), (DEPTH, 17));
    assert_eq!(
        compile(b"2N", 18),
        Err(Refusal {
            number: ROOM,
            position: 2
        })
    );
}

#[test]
fn bytes_of_tables() {
    let two_digits = [
        0x4D, 0x50, 0x54, 0x02, 0x00, 0x01, 0x00, 0x00, 0x00, 0x01, 0x01, 0x02, 0x00, 0x02, 0x00,
        0x10, 0x00, 0x00, 0x00,
    ];
    assert_eq!(table(b"2N"), two_digits);
    assert_eq!(table(b"002n"), two_digits);
    let grouped = table(b".(1\"a\"\"\",2.UA)3.\"\"");
    let records: [u8; 40] = [
        3, 0, 0, 0, 255, 255, 2, 0, 3, 0, //
        2, 1, 1, 0, 1, 0, 0, 0, 2, 0, //
        1, 1, 2, 0, 255, 255, 65, 0, 0, 0, //
        2, 1, 3, 0, 255, 255, 2, 0, 0, 0,
    ];
    assert_eq!(
        grouped,
        [&b"MPT\x02\x00\x04\x00\x02\x00"[..], &records, b"a\""].concat()
    );
}

#[test]
fn written_back() {
    let back = |source: &[u8]| String::from_utf8(write_back(&table(source), 99).unwrap()).unwrap();
    assert_eq!(back(b"002n"), "2N");
    assert_eq!(back(b"0.0nNa"), "0AN");
    assert_eq!(back(b"0.7upnleca"), ".7ACELNPU");
    assert_eq!(
        back(b".(1\"a\"\"\",02.04UA.(.(0.N,.A)1N))3.\"\""),
        ".(1\"a\"\"\",2.4AU.(.(.N,.A)1N))3.\"\""
    );
    assert_eq!(
        write_back(&table(b"2N"), 1),
        Err(Refusal {
            number: ROOM,
            position: 0
        })
    );
    assert_eq!(
        write_back(b"MPT", 9),
        Err(Refusal {
            number: TABLE,
            position: 0
        })
    );
}

#[test]
fn damaged_tables() {
    // Other repeat numbers, codes and literal bytes are another good table, not a fault.
    let table = table(b"2N");
    assert!(good(&table));
    for at in 0..table.len() {
        for byte in 0..=255 {
            let mut damaged = table.clone();
            damaged[at] = byte;
            let number = |at: usize| u16::from_le_bytes([damaged[at], damaged[at + 1]]);
            let (low, high) = (number(11), number(13));
            let fits = low <= 9_999 && low <= high && (high <= 9_999 || high == 65_535);
            let expected = match at {
                11..=14 => fits,
                15 => (1..128).contains(&byte),
                _ => byte == table[at],
            };
            assert_eq!(good(&damaged), expected, "byte {at} is {byte}");
        }
    }
    for length in 0..table.len() {
        assert!(!good(&table[..length]));
    }
    assert!(!good(&[&table[..], &[0]].concat()));
}

#[test]
fn refusals_of_matching() {
    let table = table(b"1N1N");
    let number = |table: &[u8], label: &[u8], scratch, parts, budget| {
        match_label(table, label, scratch, parts, budget).number
    };
    assert_eq!(number(b"MPT", &[b'1'; 256], 0, 0, 0), TABLE);
    assert_eq!(number(&table, &[b'1'; 256], 0, 0, 0), LABEL);
    assert_eq!(number(&table, b"12", 71, 0, 0), WORK);
    assert_eq!(number(&table, b"12", 72, 3, 0), PARTS);
    assert_eq!(number(&table, b"12", 72, 4, 0), BUDGET);
    assert_eq!(number(&table, b"12", 72, 4, 999), 0);
}

/// Two bytes for each end.
fn ends_of(ends: &[u16]) -> Vec<u8> {
    ends.iter().flat_map(|end| end.to_le_bytes()).collect()
}

#[test]
fn batches() {
    // Labels 12, none, 1x, 123 and four bytes after the last end.
    let (labels, ends) = (b"121x123rest", ends_of(&[2, 2, 4, 7]));
    let at = |scratch_len, budget| {
        let table = table(b".2N.N");
        match_batch(&table, (labels, &ends), scratch_len, 4, 16, budget)
    };
    let wanted = Batch {
        number: 0,
        verdicts: vec![1, 1, 0, 1],
        parts: vec![
            (0, vec![2, 0, 2, 0]),
            (4, vec![0; 4]),
            (12, vec![2, 0, 3, 0]),
        ],
        clears: 128,
    };
    assert_eq!(at(128, u64::MAX), wanted);
    let some = |verdicts: [u8; 4], yes: &[usize], clears| Batch {
        number: 0,
        verdicts: verdicts.to_vec(),
        parts: yes.iter().map(|&at| wanted.parts[at].clone()).collect(),
        clears,
    };
    assert_eq!(at(127, u64::MAX), some([1, 1, 0, 13], &[0, 1], 72));
    assert_eq!(at(7, u64::MAX), some([13; 4], &[], 0));
    let least = trials(b".2N.N", b"12");
    assert_eq!(at(999, least), some([1, 1, 15, 15], &[0, 1], 128));
    assert_eq!(at(999, 0), some([15; 4], &[], 128));
}

#[test]
fn refusals_of_batches() {
    let two = table(b"1N1N");
    let number = |table: &[u8], labels: &[u8], ends: &[u8], verdicts_len, parts_len| {
        let batch = match_batch(table, (labels, ends), 0, verdicts_len, parts_len, 0);
        let written = (batch.verdicts, batch.parts, batch.clears);
        assert!(batch.number == 0 || written == (vec![], vec![], 0));
        batch.number
    };
    let ends = |ends: &[u16]| ends_of(ends);
    assert_eq!(number(b"MPT", b"", &[0], 0, 0), TABLE);
    assert_eq!(number(&two, b"", &[], 0, 0), 0);
    assert_eq!(number(&two, b"", &[0], 9, 9), BATCH);
    assert_eq!(number(&two, b"12", &ends(&[1, 2]), 2, 8), 0);
    assert_eq!(number(&two, b"12", &ends(&[1, 2]), 1, 8), BATCH);
    assert_eq!(number(&two, b"12", &ends(&[1, 2]), 2, 7), BATCH);
    assert_eq!(number(&two, b"12", &ends(&[2, 1]), 2, 8), BATCH);
    assert_eq!(number(&two, b"12", &ends(&[1, 3]), 2, 8), BATCH);
    assert_eq!(number(&two, b"", &ends(&[0; 96]), 96, 384), 0);
    assert_eq!(number(&two, b"", &ends(&[0; 97]), 97, 388), BATCH);
    let long = match_batch(&two, (&[b'1'; 256], &ends(&[256])), 0, 1, 4, 0);
    assert_eq!((long.number, long.verdicts), (0, vec![12]));
}

#[test]
fn easy_errors() {
    assert_eq!(parts(b".N1N", b"12"), Some(vec![1, 2]));
    assert_eq!(parts(b".5N", b"12"), Some(vec![2]));
    assert_eq!(parts(b".5N", b"123456"), None);
    assert_eq!(parts(b".(.N,1A)", b"a"), Some(vec![1]));
    assert_eq!(parts(b".(.N)", b"12"), Some(vec![2]));
    assert_eq!(parts(b"9000.(.N)1A", b"a"), Some(vec![0, 1]));
    assert_eq!(parts(b"3.9999(2N)", b"1234"), None);
    assert_eq!(
        parts(b"2N1\"-\"1(3N1\"-\"1N,1N1\":\"4N)", b"12-3:4567"),
        Some(vec![2, 3, 9])
    );
    assert_eq!(parts(b"2N1(3P2A,2P3A).E", b"12!!abc"), Some(vec![2, 7, 7]));
}

#[test]
fn classes_of_codes() {
    let in_class = |code: &str, byte| parts(format!("1{code}").as_bytes(), &[byte]).is_some();
    for byte in 0..=255u8 {
        assert_eq!(in_class("A", byte), byte.is_ascii_alphabetic());
        assert_eq!(in_class("C", byte), byte.is_ascii_control());
        assert!(in_class("E", byte));
        assert_eq!(in_class("L", byte), byte.is_ascii_lowercase());
        assert_eq!(in_class("N", byte), byte.is_ascii_digit());
        assert_eq!(
            in_class("P", byte),
            byte.is_ascii_punctuation() || byte == b' '
        );
        assert_eq!(in_class("U", byte), byte.is_ascii_uppercase());
        assert_eq!(
            in_class("nU", byte),
            byte.is_ascii_digit() || byte.is_ascii_uppercase()
        );
    }
}

#[test]
fn line_tool() {
    let input = b"2N\t42\n2N\t4x\n2N,\t42";
    let answers = ["1 2", "0", "R 2 2"];
    assert_eq!(line::answers(input), answers);
    assert_eq!(line::answers(&[&input[..], b"\n"].concat()), answers);
    assert!(line::answers(b"").is_empty());
    assert_eq!(line::answers(b"\n\t\n"), ["T", "R 2 0"]);
    assert_eq!(line::answer(&[b'\t'; 1_024]), "R 2 0");
    assert_eq!(line::answer(&[b'\t'; 1_025]), "L");
    assert_eq!(line::answer(&[&b"1N\t"[..], &[b'1'; 256]].concat()), "M 12");
    assert_eq!(line::answer(&[&b"1N\t"[..], &[b'1'; 104]].concat()), "M 13");
    assert_eq!(line::answer(&[&b".N\t"[..], &[b'1'; 103]].concat()), "M 15");
    let eighty = [b"1N".repeat(80), b"\t".to_vec(), b"7".repeat(18)].concat();
    assert_eq!(line::answer(&eighty), "0");
    assert_eq!(line::answer(&[&eighty[..], b"7"].concat()), "M 13");
}
