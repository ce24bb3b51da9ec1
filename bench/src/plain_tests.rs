//! Plain Rust at the limits of both versions.

use crate::plain::{atoms, compile, good, write_back, Refusal, SOURCE, TABLE};
use crate::tables::in_version_1;

fn table_of(source: &[u8]) -> Result<Vec<u8>, Refusal> {
    let mut table = vec![0; TABLE];
    let len = compile(source, &mut table)?;
    table.truncate(len);
    Ok(table)
}

fn source_of(table: &[u8]) -> Result<Vec<u8>, Refusal> {
    let mut source = vec![0; SOURCE];
    let len = write_back(table, &mut source)?;
    source.truncate(len);
    Ok(source)
}

#[test]
fn a_shortest_source_comes_back() {
    let branches = [[b'1', b'N']; 255].join(&b',');
    let sources = [
        (1, b"2N".to_vec()),
        (80, b"1N".repeat(80)),
        (256, b"1.9999AN".repeat(256)),
        (256, b"1.(2N,1A1\"\"\"\")".repeat(64)),
        // One group of 255 branches ends with the last of 256 atoms.
        (256, [b"1(", branches.as_slice(), b")"].concat()),
        (1, [b"1\"", [b'x'; SOURCE - 3].as_slice(), b"\""].concat()),
    ];
    for (count, source) in sources {
        let table = table_of(&source).unwrap();
        assert_eq!(table[..5], *b"MPT\x02\x00");
        assert_eq!(atoms(&table), count);
        assert!(good(&table));
        assert_eq!(source_of(&table), Ok(source));
    }
}

#[test]
fn more_is_refused() {
    assert_eq!(table_of(&b"1N".repeat(257)), Err((6, 512)));
    assert_eq!(table_of(&b"1".repeat(SOURCE + 1)), Err((1, SOURCE)));
    // A table of 257 atoms, and one whose shortest source has 2,049 bytes.
    let mut records = table_of(&b"1N".repeat(256)).unwrap();
    records[5..7].copy_from_slice(&257_u16.to_le_bytes());
    records.splice(9..9, [1, 0, 1, 0, 1, 0, 16, 0, 0, 0]);
    assert!(!good(&records));
    let mut source = table_of(&b"1.9999AN".repeat(256)).unwrap();
    source[9 + 6] |= 2;
    assert!(!good(&source));
}

#[test]
fn version_1_has_its_old_limits() {
    let both = |source: &[u8]| {
        let table = table_of(source).unwrap();
        assert!(good(&table));
        (in_version_1(&table), table)
    };
    // Written back and compiled again it is the version 2 table.
    let (old, new) = both(&b"1.9999AN".repeat(64));
    assert!(good(&old) && atoms(&old) == 64);
    assert_eq!(source_of(&old), source_of(&new));
    assert_eq!(table_of(&source_of(&old).unwrap()), Ok(new));
    assert!(!good(&both(&b"1N".repeat(65)).0));
    assert!(!good(&both(&b"1.9999ANP".repeat(64)).0));
}

#[test]
fn other_headers_are_refused() {
    let table = table_of(b"2N").unwrap();
    for (at, byte) in [
        (0, b'm'),
        (3, 0),
        (3, 1),
        (3, 3),
        (4, 1),
        (5, 0),
        (6, 1),
        (7, 1),
        (8, 1),
    ] {
        let mut wrong = table.clone();
        wrong[at] = byte;
        assert!(!good(&wrong), "{at} {byte}");
    }
    let lens = 0..table.len();
    assert!(lens.into_iter().all(|len| !good(&table[..len])));
}
