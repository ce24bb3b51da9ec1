//! The papers' lines, and each limit from both sides.

use crate::join;

/// A source and a label.
type Pair = (&'static [u8], &'static [u8]);

const PAIRS: [Pair; 35] = [
    (b"2N", b"42"),
    (b"2N", b"4x"),
    (b"2N,", b"42"),
    (b"3N1\".\"2N.U", b"123.45"),
    (b"3N1\".\"2N.U", b"123.45a"),
    (b"1.6N1.2N", b"1234567"),
    (b".N.N", b"12"),
    (b"2(1N,1A)", b"a1"),
    (b"9000(.N)", b"12"),
    (b"300\"\"", b""),
    (b"300N", b"12"),
    (b"1N", b"7"),
    (b"1N", b"x"),
    (b"1N1A", b""),
    (b"0N", b""),
    (b"1E", b"\xc8"),
    (b"1\"a\"\"b\"", b"a\"b"),
    (b".N1N", b"12"),
    (b".(.N,1A)", b"a"),
    (b".(.N)", b""),
    (b".5N", b"123456"),
    (b".5N", b""),
    (b"", b"42"),
    (b"1()", b"x"),
    (b"1(2N", b"x"),
    (b"5.3N", b"x"),
    (b"5..", b"x"),
    (b"3Q", b"x"),
    (b"3.10000N", b"x"),
    (b"20000N", b"x"),
    (b"0020000N", b"x"),
    (b"10000.5N", b"x"),
    (b"20000", b"x"),
    (b"9999N", b"x"),
    (b"0003.0005n", b"1234"),
];

/// No tab, several tabs, carriage returns, zero bytes, bytes above 127.
const ODD: [&[u8]; 19] = [
    b"",
    b"no tab",
    b"\t",
    b"\t\t",
    b"2N\t4\t2",
    b"2N1C1N\t42\t7",
    b"2N\t42\r",
    b"2N1C\t42\r",
    b"2N\r\t42",
    b"\r",
    b"1C\t\0",
    b"1\0N\t1",
    b"\0\0",
    b".E\t\0\x7f\x80",
    b".E\tJ\xc3\xbcrgen",
    b".ACLNPU\tJ\xc3\xbcrgen",
    b"1U.E\tJ\xfcrgen\xff",
    b"1\"\x80\"\t\x80",
    b"3N\t123",
];

fn nested(depth: usize) -> Vec<u8> {
    [b"1(".repeat(depth), b"1N".to_vec(), b")".repeat(depth)].concat()
}

fn literal(len: usize) -> Vec<u8> {
    [b"1\"".to_vec(), vec![b'x'; len], b"\"".to_vec()].concat()
}

fn atoms(count: usize, end: &str) -> Vec<u8> {
    ["1N".repeat(count), end.to_string()].concat().into_bytes()
}

/// A group of so many branches.
fn group(branches: usize) -> Vec<u8> {
    [
        b".(".to_vec(),
        vec![&b"1N"[..]; branches].join(&b','),
        b")".to_vec(),
    ]
    .concat()
}

/// About 64, 80 and 256 atoms: their labels as long as scratch allows, and one atom more.
fn many_atoms() -> Vec<Vec<u8>> {
    let digits = |len| vec![b'1'; len];
    let eighty = b"1U2N1\"-\".3A".repeat(20);
    let mut lines = Vec::new();
    for (count, len) in [(63, 21), (64, 21), (65, 21), (80, 18), (255, 10), (256, 10)] {
        let optional = b".1N".repeat(count);
        lines.extend([len, len + 1].map(|len| join(&optional, digits(len))));
        lines.push(join(atoms(count, ""), digits(len)));
        lines.push(join(atoms(count, "20000N"), b"x"));
        lines.push(join(atoms(count, "5.10000N"), b"x"));
        lines.push(join(atoms(count, "5.3N"), b"x"));
    }
    lines.extend([&b"A12-xyz"[..], b"A12-xyzB34-", b""].map(|label| join(&eighty, label)));
    lines.extend([atoms(64, ","), atoms(257, ""), atoms(300, "")].map(|source| join(source, b"x")));
    lines.push(join(b".N".repeat(64), digits(21)));
    lines.push(join(b".N".repeat(256), digits(10)));
    lines.extend([63, 64, 254, 255, 256].map(|branches| join(group(branches), b"123")));
    lines
}

/// Sources of 511 to 513 bytes, which are within the limit, and of as many as a line has room for.
fn long_sources() -> Vec<Vec<u8>> {
    let mut lines = Vec::new();
    for len in [511, 512, 513, 600, 1_022, 1_023, 1_024] {
        let zeros = [vec![b'0'; len - 2], b"1N".to_vec()].concat();
        let letters = [b"1".to_vec(), vec![b'N'; len - 1]].concat();
        let refused = [b"1".to_vec(), vec![b'N'; len - 2], b"Q".to_vec()].concat();
        for source in [literal(len - 3), zeros, letters, refused] {
            lines.push(join(source, b""));
        }
    }
    lines.push(join(literal(500), vec![b'x'; 255]));
    lines.push(join(literal(20), vec![b'x'; 20]));
    lines.push(join([&b"0".repeat(900)[..], b"10000N"].concat(), b"x"));
    lines
}

/// Sources, labels and lines of the greatest length, and of one byte or atom more.
fn at_limits() -> Vec<Vec<u8>> {
    let x = |len| vec![b'x'; len];
    let mut lines = vec![
        join(nested(9), b"1"),
        join(nested(8), b"1"),
        join(b".E.E.E", x(80)),
        join(b".(.(.(.E)))", b"ab".repeat(40)),
        join(b".(.(.N,.A),.E)", b"ab".repeat(50)),
    ];
    lines.extend(many_atoms());
    lines.extend(long_sources());
    lines.extend([255, 256, 1_021, 1_022].map(|len| join(b".E", x(len))));
    lines.extend([1_023, 1_024].map(|len| join(x(len), b"")));
    lines.extend([1_024, 1_025, 3_000, 70_000].map(x));
    lines
}

pub fn lines() -> Vec<Vec<u8>> {
    let pairs = PAIRS.iter().map(|(source, label)| join(source, label));
    let odd = ODD.iter().map(|line| line.to_vec());
    pairs.chain(odd).chain(at_limits()).collect()
}
