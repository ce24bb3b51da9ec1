//! The worked examples of source documents 000, 001 and 002. What each label gets is worked out from the documents by hand;
//! the tests hold the second program to it.

use crate::join;

type Labels = &'static [&'static str];

/// A source, labels that satisfy it and labels that don't.
type Verdicts = (&'static str, Labels, Labels);

/// A source, a label and the reply.
type Refused = (&'static str, &'static str, &'static str);

/// 000 has rules with no labels: these are the rules' own cases.
const OF_000: [Verdicts; 13] = [
    // A single number: exactly so many, and an empty stretch for zero.
    ("3N", &["123"], &["", "12", "1234", "12a"]),
    ("0N", &[""], &["1", "a"]),
    ("1U0N1U", &["AB"], &["A1B", "A"]),
    // Ranges, with their bounds.
    (".N", &["", "1", "123456789"], &["12a", "-"]),
    ("2.N", &["12", "1234567"], &["", "1", "12a"]),
    (".2N", &["", "1", "12"], &["123", "a"]),
    ("2.4N", &["12", "123", "1234"], &["1", "12345", "12a"]),
    ("2.2N", &["12"], &["1", "123"]),
    // Some stretches may be empty.
    (".N.U.N", &["", "12", "AB", "1AB2"], &["a", "1A2B"]),
    // Upper and lower case letters are equivalent, and several mean the union.
    ("2nA", &["1a", "Z9", "aB"], &["1-", "1"]),
    // A literal is satisfied by its value only.
    (r#"1"abc""#, &["abc"], &["", "ab", "ABC", "abcabc"]),
    (r#".2"ab""#, &["", "ab", "abab"], &["aba", "ababab"]),
    // An alternation is satisfied by any one of its atoms, another one at each repeat.
    ("2(1N,2A)", &["12", "1ab", "ab1", "abcd"], &["1a", "abc"]),
];

pub const TELEPHONE: &str = r#".1(1"("3N1")".1(1"-",1"_"))3N.1(1"-",1"_")4N"#;

const OF_001: [Verdicts; 6] = [
    // Three digits, one point, two digits and any number of upper-case symbols.
    (
        r#"3N1"."2N.U"#,
        &["123.45", "000.00A", "123.45ABC"],
        &["123.45a", "12.345", "123,45", "123.4", "123.45A1"],
    ),
    // A Dutch licence plate of 1985.
    (
        r#"2U1"-"2N1"-"2U"#,
        &["AB-12-CD", "XX-00-XX"],
        &["AB-12-C", "ab-12-cd", "12-AB-34", "AB12CD", "AB-123-CD"],
    ),
    // One to five digits after the decimal point.
    (
        r#"3N1"."1.5N"#,
        &["123.4", "999.99999", "001.50"],
        &["123.", "123.456789", "1000.5", "-12.5", "123.4x"],
    ),
    // The labels that match are the document's.
    (
        r#"2N1"-"1(3N1"-"1N,1N1":"4N)"#,
        &["12-345-6", "12-3:4567"],
        &["12-345:6", "12-3-4567", "12-345-67", "12345-6", "12-"],
    ),
    // A telephone number: the labels that match are the document's.
    (
        TELEPHONE,
        &[
            "5551212",
            "555-1212",
            "555_1212",
            "(000)5551212",
            "(000)555-1212",
            "(000)555_1212",
            "(000)-5551212",
            "(000)-555-1212",
            "(000)-555_1212",
            "(000)_5551212",
            "(000)_555-1212",
            "(000)_555_1212",
        ],
        &[
            "",
            "555 1212",
            "555--1212",
            "555-121",
            "5551212-",
            "-5551212",
            "000-5551212",
            "000)5551212",
            "(00)5551212",
            "(000) 555-1212",
            "(000)-_5551212",
            "(000)(000)5551212",
        ],
    ),
    // The pattern of the extraction, without it.
    (
        r#"4N1","1.3N"#,
        &["1234,5", "1234,567"],
        &["1234,", "1234,5678", "123,45", "1234.5"],
    ),
];

/// Of 001: an alternation, and two patterns of which it takes what either takes.
const EITHER: [Verdicts; 3] = [
    (
        "2N1(3P2A,2P3A).E",
        &["12---ab", "12.,;xyz9!", "34--abc", "34: Abc"],
        &["12--ab", "1---ab", "12----a", ""],
    ),
    (
        "2N3P2A.E",
        &["12---ab", "12.,;xyz9!"],
        &["34--abc", "34: Abc", "12--ab", "1---ab", "12----a", ""],
    ),
    (
        "2N2P3A.E",
        &["34--abc", "34: Abc"],
        &["12---ab", "12.,;xyz9!", "12--ab", "1---ab", "12----a", ""],
    ),
];

const OF_002: [Verdicts; 5] = [
    // The first label is the document's.
    ("3U", &["ABC", "XYZ"], &["ABc", "AB", "ABCD", "A1C"]),
    // A social security number: the first label is this document's, the second one 001's.
    (
        r#"3N1"-"2N1"-"4N"#,
        &["123-45-6789", "123-44-5678"],
        &["123456789", "123-456-789", "123-45-678", "12a-45-6789"],
    ),
    // A control character somewhere.
    (
        ".E1C.E",
        &["\0", "ring\x07", "\x1bA", "a\tb", "a\x7fb\x1f"],
        &["", "plain text", "~ !"],
    ),
    // A name as an account: at most 21 letters before the comma and 11 after it.
    (
        r#"1U.20A1","1U.10A"#,
        &["Smith,John", "A,B", "Abcdefghijklmnopqrstu,ABCDEFGHIJK"],
        &[
            "smith,John",
            "Smith, John",
            "Smith,",
            "Smith",
            "Abcdefghijklmnopqrstuv,A",
            "A,ABCDEFGHIJKL",
        ],
    ),
    // A taxpayer's number or a social security number.
    (
        r#"1(2N1"-"7N,3N1"-"2N1"-"4N).1U"#,
        &["12-3456789", "123-45-6789", "12-3456789A", "123-45-6789Z"],
        &["123456789", "12-345678", "123-45-6789a", "12-3456789AB"],
    ),
];

/// M10, what the base leaves aside, and a pattern as it stands in an M string, its quotes doubled. The replies are by 01's table.
const REFUSED: [Refused; 15] = [
    ("5.3", "1234", "R 5 0"),
    ("5.3N", "1234", "R 5 0"),
    (r#"1U.20A1","10.2A"#, "Smith,John", "R 5 10"),
    ("1YaY", "x", "R 3 1"),
    ("1ZxZ", "x", "R 3 1"),
    ("1I", "\u{e9}", "R 3 1"),
    ("1'N", "x", "R 2 1"),
    (".'C", "plain text", "R 2 1"),
    (r#"1"Y".'"Y"1"Y""#, "YabcY", "R 2 5"),
    (r#".["aeiouAEIOU"]"#, "word", "R 2 1"),
    (r#".["a":"f"]["A":"F"]N"#, "ff3a", "R 2 1"),
    (r#"4N(ITEM)1","1.3N(QUANT(ITEM))"#, "1234,567", "R 2 2"),
    ("@X", "x", "R 2 0"),
    ("@pattern", "123-44-5678", "R 2 0"),
    (r#"3N1""-""2N1""-""4N"#, "123-44-5678", "R 2 5"),
];

fn verdicts() -> impl Iterator<Item = Verdicts> {
    let of_001 = OF_001.into_iter().chain(EITHER);
    OF_000.into_iter().chain(of_001).chain(OF_002)
}

pub fn lines() -> Vec<Vec<u8>> {
    let judged = verdicts().flat_map(|(source, yes, no)| {
        let labels = yes.iter().chain(no);
        labels.map(move |label| join(source, label))
    });
    let refused = REFUSED.iter().map(|(source, label, _)| join(source, label));
    judged.chain(refused).collect()
}

#[cfg(test)]
mod tests {
    use super::*;

    fn reply(source: &str, label: &str) -> String {
        second::line::answer(&join(source, label))
    }

    fn takes(source: &str, label: &str) -> bool {
        reply(source, label).starts_with("1 ")
    }

    #[test]
    fn as_the_documents_say() {
        for (source, yes, no) in verdicts() {
            assert!(!yes.is_empty() && !no.is_empty(), "{source}");
            for label in yes {
                assert!(takes(source, label), "{source} on {label:?}");
            }
            for label in no {
                assert_eq!(reply(source, label), "0", "{source} on {label:?}");
            }
        }
        for (source, label, refusal) in REFUSED {
            assert_eq!(reply(source, label), refusal, "{source} on {label:?}");
        }
    }

    #[test]
    fn alternation_takes_either() {
        let [(alternation, yes, no), (first, ..), (second, ..)] = EITHER;
        for label in yes.iter().chain(no) {
            let either = takes(first, label) || takes(second, label);
            assert_eq!(takes(alternation, label), either, "{label:?}");
        }
    }
}
