//! Registers: what requests 3 and 7 and docs/REGISTER.md say of them.

use second::*;

fn table(source: &[u8]) -> Vec<u8> {
    compile(source, usize::MAX).unwrap()
}

fn number(result: Result<Vec<u8>, Refusal>) -> u32 {
    result.map_or_else(|refusal| refusal.number, |_| 0)
}

/// A buffer of `len` bytes 7 with an empty register.
fn empty(len: usize) -> Vec<u8> {
    let mut buffer = vec![7; len];
    let written = register_init(&buffer).unwrap();
    buffer[..written.len()].copy_from_slice(&written);
    buffer
}

/// Writes the bytes of a call that isn't refused.
fn write(buffer: &mut [u8], result: Result<Vec<u8>, Refusal>) {
    let written = result.unwrap();
    buffer[..written.len()].copy_from_slice(&written);
}

fn store(buffer: &mut [u8], number: u8, table: &[u8]) {
    let result = register_store(buffer, number, table);
    write(buffer, result);
}

/// The slot of a table: length, atoms, top-level atoms, shortest, longest and the first bytes.
fn slot_of(numbers: [u16; 5], first: impl Fn(u8) -> bool) -> Vec<u8> {
    let mut slot = u32::from(numbers[0]).to_le_bytes().to_vec();
    slot.extend(numbers[1..].iter().flat_map(|number| number.to_le_bytes()));
    let bit = |byte: u8| u8::from(first(byte)) << (byte % 8);
    slot.extend((0..32).map(|at| (8 * at..=8 * at + 7).map(bit).sum::<u8>()));
    slot
}

#[test]
fn layout() {
    let mut buffer = empty(11_340);
    assert_eq!(buffer[..8], *b"MPR\x02\x00\x00\x00\x00");
    assert_eq!(buffer[8..11_272], [0; 11_264]);
    assert_eq!(buffer[11_272..], [7; 68]);
    let (two, literal) = (table(b"2N"), table(b"1\"ab\""));
    store(&mut buffer, 255, &two);
    store(&mut buffer, 1, &literal);
    let mut wanted = empty(11_340);
    wanted[52..96].copy_from_slice(&slot_of([21, 1, 1, 2, 2], |byte| byte == b'a'));
    wanted[11_228..11_272].copy_from_slice(&slot_of([19, 1, 1, 2, 2], |b| b.is_ascii_digit()));
    wanted[11_272..11_293].copy_from_slice(&literal);
    wanted[11_293..11_312].copy_from_slice(&two);
    assert_eq!(buffer, wanted);
    // The same by its bytes.
    assert_eq!(buffer[52..64], [21, 0, 0, 0, 1, 0, 1, 0, 2, 0, 2, 0]);
    assert_eq!(buffer[64..96], [&[0; 12][..], &[2], &[0; 19]].concat());
    assert_eq!(buffer[11_240..11_248], [0, 0, 0, 0, 0, 0, 255, 3]);
    // The last bytes of the longer register stay behind the shorter one.
    let result = register_remove(&buffer, 1);
    write(&mut buffer, result);
    wanted[52..96].fill(0);
    wanted[11_272..11_291].copy_from_slice(&two);
    assert_eq!(buffer, wanted);
}

#[test]
fn slots() {
    let slot = |source: &[u8]| slot(&table(source)).to_vec();
    let letter = |byte: u8| byte.is_ascii_alphabetic();
    assert_eq!(
        slot(b".2(1N,1\"c\")1A"),
        slot_of([50, 4, 2, 1, 3], |b| b.is_ascii_digit() || letter(b))
    );
    assert_eq!(slot(b".E"), slot_of([19, 1, 1, 0, 256], |_| true));
    let many = slot(&b".1N".repeat(256));
    assert_eq!(many[..12], [9, 10, 0, 0, 0, 1, 0, 1, 0, 0, 0, 1]);
    let old = compile_to(VERSION_1, b"1A1(1N,2N)", usize::MAX).unwrap();
    assert_eq!(second::slot(&old)[..], slot_of([48, 4, 2, 2, 3], letter));
    assert_eq!(second::slot(&[]), [0; SLOT]);
}

#[test]
fn lengths_of_buffers() {
    let two = table(b"2N");
    for len in [0, 1, 8, 1_031, 1_032, 11_271] {
        let short = &empty(11_272)[..len];
        assert_eq!(number(register_init(short)), REGISTER);
        assert_eq!(number(register_store(short, 0, &two)), REGISTER);
        assert_eq!(number(register_remove(short, 0)), REGISTER);
        let matched = register_match(short, 0, b"", 0, 0, 0);
        assert_eq!(matched.number, REGISTER);
        assert_eq!(register_search(short, &[0; 256], 0, 0).number, REGISTER);
    }
    assert_eq!(number(register_init(&[9; 11_272])), 0);
    assert_eq!(number(register_store(&empty(11_290), 0, &two)), FULL);
    assert_eq!(number(register_store(&empty(11_291), 0, &two)), 0);
}

#[test]
fn room() {
    let (short, long) = (table(b"1\"abc\""), table(b"1\"abcd\""));
    let mut buffer = empty(REGISTER_LEAST + 2 * short.len());
    store(&mut buffer, 3, &short);
    store(&mut buffer, 200, &short);
    assert_eq!(number(register_store(&buffer, 4, &table(b"2N"))), FULL);
    assert_eq!(number(register_store(&buffer, 3, &long)), FULL);
    assert_eq!(number(register_store(&buffer, 3, &short)), 0);
    // A shorter table in its place leaves room for one byte more elsewhere.
    store(&mut buffer, 3, &table(b"1\"ab\""));
    store(&mut buffer, 200, &long);
    assert_eq!(number(register_store(&buffer, 3, &short)), FULL);
    let result = register_remove(&buffer, 200);
    write(&mut buffer, result);
    store(&mut buffer, 9, &long);
    let register = Register::read(&buffer).unwrap();
    assert_eq!(register.capacity, register.kept());
    assert_eq!(register.tables.into_keys().collect::<Vec<_>>(), [3, 9]);
}

#[test]
fn order_of_refusals() {
    let (two, bad) = (table(b"2N"), b"MPT");
    let mut buffer = empty(REGISTER_LEAST + two.len());
    store(&mut buffer, 5, &two);
    assert_eq!(number(register_store(&buffer, 6, bad)), TABLE);
    assert_eq!(number(register_store(&buffer, 6, &two)), FULL);
    assert_eq!(number(register_remove(&buffer, 6)), MISSING);
    let matched = |buffer: &[u8], number, len, scratch, parts, budget| {
        register_match(buffer, number, &b"1".repeat(len), scratch, parts, budget)
    };
    assert_eq!(matched(&buffer, 6, 256, 0, 0, 0).number, MISSING);
    assert_eq!(matched(&buffer, 5, 256, 0, 0, 0).number, LABEL);
    assert_eq!(matched(&buffer, 5, 2, 53, 1, 0).number, WORK);
    assert_eq!(matched(&buffer, 5, 2, 54, 1, 0).number, PARTS);
    let single = |budget| match_label(&two, b"11", 54, 2, budget);
    assert_eq!(matched(&buffer, 5, 2, 54, 2, 0), single(0));
    assert_eq!(matched(&buffer, 5, 2, 54, 2, 99), single(99));
    buffer[4] = 1;
    assert_eq!(number(register_store(&buffer, 6, bad)), REGISTER);
    assert_eq!(number(register_remove(&buffer, 6)), REGISTER);
    assert_eq!(matched(&buffer, 6, 256, 0, 0, 0).number, REGISTER);
    assert_eq!(number(register_init(&buffer)), 0);
}

#[test]
fn good_buffers() {
    let two = table(b"2N");
    let mut buffer = empty(11_332);
    store(&mut buffer, 0, &two);
    store(&mut buffer, 1, &two);
    let good = |change: &dyn Fn(&mut Vec<u8>)| {
        let mut changed = buffer.clone();
        change(&mut changed);
        Register::read(&changed).is_some()
    };
    assert!(good(&|_| ()));
    // Each bit of the mark, the version, the zeros and of every slot, with a table or without.
    for at in 0..11_272 {
        assert!((0..8).all(|bit| !good(&|buffer| buffer[at] ^= 1 << bit)));
    }
    assert!(good(&|buffer| buffer.truncate(11_310)));
    assert!(!good(&|buffer| buffer.truncate(11_309)));
    assert!(good(&|buffer| buffer[11_310..].fill(0)));
    assert!(!good(&|buffer| buffer[11_291] = 0));
    // The slots of 0 and 1, or of 0 and 7, mean other maps.
    let moved = |len: usize| {
        good(&move |buffer: &mut Vec<u8>| {
            let slot = buffer[52..52 + len].to_vec();
            buffer[52..52 + len].fill(0);
            buffer[316..316 + len].copy_from_slice(&slot);
        })
    };
    assert!(moved(44) && moved(20) && !moved(19) && !moved(4));
    // Lengths whose sum wraps to the right one, and lengths past the end.
    let lens = |lens: [u32; 2]| {
        good(&move |buffer: &mut Vec<u8>| {
            for (at, len) in [(8, lens[0]), (52, lens[1])] {
                if len == 0 {
                    buffer[at..at + SLOT].fill(0);
                }
                buffer[at..at + 4].copy_from_slice(&len.to_le_bytes());
            }
        })
    };
    assert!(lens([19, 19]) && lens([19, 0]) && lens([0, 19]) && lens([0, 0]));
    assert!(!lens([18, 20]) && !lens([38, 0]) && !lens([19, 41]) && !lens([19, 42]));
    assert!(!lens([u32::MAX, 39]) && !lens([19, u32::MAX]) && !lens([1 << 31, (1 << 31) + 38]));
}

#[test]
fn version_1_registers() {
    let old = |tables: &[(usize, Vec<u8>)]| {
        let mut buffer = b"MPR\x01\x00\x00\x00\x00".to_vec();
        buffer.resize(1_032, 0);
        for (number, table) in tables {
            buffer[8 + 4 * number] = table.len() as u8;
            buffer.extend(table);
        }
        buffer.resize(20_000, 0);
        buffer
    };
    for buffer in [old(&[]), old(&[(0, table(b"2N"))])] {
        assert_eq!(number(register_store(&buffer, 0, &table(b"1N"))), REGISTER);
        assert_eq!(number(register_remove(&buffer, 0)), REGISTER);
        assert_eq!(
            register_match(&buffer, 0, b"42", 999, 9, 99).number,
            REGISTER
        );
        assert_eq!(register_search(&buffer, b"42", 999, 9).number, REGISTER);
        assert_eq!(number(register_init(&buffer)), 0);
        let mut named_2 = buffer.clone();
        named_2[3] = 2;
        assert_eq!(Register::read(&named_2).is_some(), buffer == old(&[]));
    }
}

#[test]
fn other_summaries_stay() {
    let mut buffer = empty(12_000);
    store(&mut buffer, 3, &table(b"1A"));
    store(&mut buffer, 9, &table(b"2.5N"));
    let kept = buffer.clone();
    let others = |buffer: &[u8], number: usize| {
        [
            &buffer[..8 + 44 * number],
            &buffer[52 + 44 * number..11_272],
        ]
        .concat()
    };
    for (number, source) in [(3, b"1\"x\"1.U"), (6, b"1\"x\"1.U"), (9, b".4NA1.U")] {
        let mut changed = kept.clone();
        store(&mut changed, number, &table(source));
        let at = usize::from(number);
        assert_eq!(others(&changed, at), others(&kept, at));
        assert_ne!(changed[8 + 44 * at..][..44], kept[8 + 44 * at..][..44]);
    }
    let mut changed = kept.clone();
    let result = register_remove(&changed, 9);
    write(&mut changed, result);
    assert_eq!(others(&changed, 9), others(&kept, 9));
}

#[test]
fn all_numbers() {
    let tables: Vec<Vec<u8>> = (0..=255)
        .map(|number: usize| table(format!("{number}N").as_bytes()))
        .collect();
    let mut buffer = empty(REGISTER_LEAST + 256 * 19);
    for number in (0..=255).rev() {
        store(&mut buffer, number, &tables[usize::from(number)]);
    }
    assert_eq!(buffer[REGISTER_LEAST..], tables.concat());
    for number in 0..=255 {
        let label = b"7".repeat(usize::from(number) % 9);
        let yes = register_match(&buffer, number, &label, 999, 2, u64::MAX).verdict;
        assert_eq!(yes, number < 9);
    }
}

#[test]
fn both_versions() {
    let old = |source: &[u8]| compile_to(VERSION_1, source, usize::MAX).unwrap();
    let mut buffer = empty(REGISTER_LEAST + 18 + 19);
    store(&mut buffer, 8, &old(b"2N"));
    store(&mut buffer, 3, &table(b"2N"));
    assert_eq!(
        buffer[REGISTER_LEAST..],
        [table(b"2N"), old(b"2N")].concat()
    );
    for number in [3, 8] {
        assert!(register_match(&buffer, number, b"42", 54, 2, 99).verdict);
    }
    // The same pattern in the other version is a byte longer, or shorter.
    assert_eq!(number(register_store(&buffer, 8, &table(b"2N"))), FULL);
    store(&mut buffer, 3, &old(b"3A"));
    store(&mut buffer, 8, &table(b"2N"));
    assert_eq!(
        buffer[REGISTER_LEAST..],
        [old(b"3A"), table(b"2N")].concat()
    );
    // By the old limits a version 1 table isn't good, here either.
    let mut bad = table(&b"1N".repeat(65));
    bad.splice(..9, *b"MPT\x01\x00\x41\x00\x00");
    assert_eq!(number(register_store(&empty(20_000), 0, &bad)), TABLE);
}
