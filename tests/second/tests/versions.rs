//! The two versions of a table: what request 6 says of them.

use second::*;

fn old(source: &[u8]) -> Vec<u8> {
    compile_to(VERSION_1, source, usize::MAX).unwrap()
}

fn new(source: &[u8]) -> Vec<u8> {
    compile(source, usize::MAX).unwrap()
}

/// The records and the pool of a version 2 table under a header of version 1.
fn under_old_header(table: &[u8]) -> Vec<u8> {
    let header = [b'M', b'P', b'T', 1, 0, table[5], table[7], table[8]];
    [&header, &table[9..]].concat()
}

/// A literal whose shortest source has `len` bytes.
fn literal(len: usize) -> Vec<u8> {
    [b"1\"".to_vec(), b"x".repeat(len - 3), b"\"".to_vec()].concat()
}

#[test]
fn sizes() {
    let sizes = |version: Version| (version.header_len(), version.table_most());
    assert_eq!(sizes(VERSION_1), (8, 8 + 640 + 512));
    assert_eq!(sizes(VERSION_2), (9, 9 + 2_560 + 2_048));
}

#[test]
fn headers() {
    let record = [1, 1, 2, 0, 2, 0, 16, 0, 0, 0];
    let with = |header: &[u8]| [header, &record].concat();
    assert_eq!(old(b"2N"), with(b"MPT\x01\x00\x01\x00\x00"));
    assert_eq!(new(b"2N"), with(b"MPT\x02\x00\x01\x00\x00\x00"));
    let long = [b"1N".repeat(255), literal(1_500)].concat();
    assert_eq!(new(&long)[..9], *b"MPT\x02\x00\x00\x01\xd9\x05");
    for version in [0u16, 1, 2, 3, 257, 258, 513] {
        for table in [old(b"2N"), new(b"2N")] {
            let mut changed = table.clone();
            changed[3..5].copy_from_slice(&version.to_le_bytes());
            assert_eq!(good(&changed), changed == table, "version {version}");
        }
    }
    for table in [old(b"2N"), new(b"2N")] {
        for len in 0..table.len() {
            assert!(!good(&table[..len]));
        }
        assert!(!good(&[&table[..], &[0]].concat()));
    }
}

#[test]
fn atoms() {
    let long = |atoms| new(&b"1N".repeat(atoms));
    assert!(good(&under_old_header(&long(64))));
    assert!(!good(&under_old_header(&long(65))));
    assert!(!good(&under_old_header(&long(256))));
    for atoms in [1, 64, 65, 255, 256] {
        assert!(good(&long(atoms)));
        for count in [0, 1, 63, 64, 65, 255, 256, 257, 511, 512, 65_535u16] {
            let mut changed = long(atoms);
            changed[5..7].copy_from_slice(&count.to_le_bytes());
            assert_eq!(good(&changed), usize::from(count) == atoms);
        }
    }
    let mut over = long(256);
    over.splice(5..7, [1, 1]);
    over.splice(9..9, [1, 0, 1, 0, 1, 0, 16, 0, 0, 0]);
    assert!(!good(&over));
    let refused = compile(&b"1N".repeat(257), usize::MAX).unwrap_err();
    assert_eq!((refused.number, refused.position), (ATOMS, 512));
    let refused = compile_to(VERSION_1, &b"1N".repeat(65), usize::MAX).unwrap_err();
    assert_eq!((refused.number, refused.position), (ATOMS, 128));
}

#[test]
fn lengths_of_sources() {
    for version in [VERSION_1, VERSION_2] {
        let position = version.source_most;
        let with = |len| compile_to(version, &literal(len), usize::MAX);
        assert!(with(position).is_ok());
        let number = LONG;
        assert_eq!(with(position + 1), Err(Refusal { number, position }));
    }
    assert!(good(&under_old_header(&new(&literal(512)))));
    assert!(!good(&under_old_header(&new(&literal(513)))));
    // A good table is one of some accepted source, whose length is that of the shortest.
    assert!(good(&old(&[&b"0".repeat(500)[..], b"1N"].concat())));
    let quotes = |count: usize| {
        let pool = b"\"".repeat(count);
        let len = (count as u16).to_le_bytes();
        let record = [2, 1, 1, 0, 1, 0, 0, 0, len[0], len[1]];
        let header = [b'M', b'P', b'T', 2, 0, 1, 0, len[0], len[1]];
        [&header[..], &record, &pool].concat()
    };
    assert!(good(&quotes(1_022)) && !good(&quotes(1_023)));
    assert!(good(&under_old_header(&quotes(254))));
    assert!(!good(&under_old_header(&quotes(255))));
}

#[test]
fn same_pattern() {
    for source in [
        &b"2N"[..],
        b".(1\"a\"\"\",2.UA)3.\"\"",
        &b".1N".repeat(64),
        &literal(512),
    ] {
        let (old, new) = (old(source), new(source));
        assert_eq!(under_old_header(&new), old);
        let back = write_back(&old, 512).unwrap();
        assert_eq!(back, write_back(&new, 512).unwrap());
        assert_eq!(compile(&back, usize::MAX), Ok(new.clone()));
        let label = b"12";
        let by = |table: &[u8]| match_label(table, label, 99_999, 128, u64::MAX);
        assert_eq!(by(&old), by(&new));
    }
}

#[test]
fn largest() {
    let table = new(&b".1N".repeat(256));
    assert_eq!(part_bytes(&table), Some(512));
    let work = (2 * 256 + 4) * 256 * 256;
    assert_eq!(work, 33_816_576);
    let label = [b'1'; 255];
    let number = |scratch, parts| match_label(&table, &label, scratch, parts, 9).number;
    assert_eq!(number(work - 1, 512), WORK);
    assert_eq!(number(work, 511), PARTS);
    assert_eq!(number(work, 512), BUDGET);
    let short = match_label(&table, &label[..7], usize::MAX, 512, u64::MAX);
    let ends = (1..=256).flat_map(|end: u16| end.min(7).to_le_bytes());
    assert_eq!(short.parts, Some(ends.collect()));
}
