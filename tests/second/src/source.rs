//! Source to table. A state machine traces the source byte by byte; the
//! faults and the records are then read off the trace, each on its own.

use crate::{Refusal, Version, ATOMS, CODE, CODES, DEPTH, DEPTH_MOST, FORM, LONG, NUMBER};
use crate::{NUMBER_MOST, OPEN, RANGE, ROOM, VERSION_2};

/// Where a source stands after a byte.
#[derive(Clone, Copy, PartialEq)]
enum State {
    /// Before an atom of a new branch.
    Begin,
    /// In the first number of a count.
    Low,
    /// At the point of a count or in its second number.
    High,
    /// In code letters.
    Codes,
    /// In a literal; the opening quote counts.
    Literal,
    /// After a quote that ends the literal or is the first of two.
    Quote,
    /// After a group.
    Closed,
}
use State::*;

#[derive(Clone, Copy)]
struct Place {
    state: State,
    depth: usize,
}

fn step(at: Place, byte: u8) -> Option<Place> {
    let Place { state, depth } = at;
    let to = |state| Some(Place { state, depth });
    match (state, byte) {
        (Literal, b'"') => to(Quote),
        (Literal, 32..=126) => to(Literal),
        (Literal, _) => None,
        (Quote, b'"') => to(Literal),
        (High, b'0'..=b'9') => to(High),
        (High, b'.') => None,
        (_, b'0'..=b'9') => to(Low),
        (_, b'.') => to(High),
        (Low | High | Codes, b'A'..=b'Z' | b'a'..=b'z') => to(Codes),
        (Low | High, b'"') => to(Literal),
        (Low | High, b'(') => Some(Place {
            state: Begin,
            depth: depth + 1,
        }),
        (Codes | Quote | Closed, b',') if depth > 0 => to(Begin),
        (Codes | Quote | Closed, b')') if depth > 0 => Some(Place {
            state: Closed,
            depth: depth - 1,
        }),
        _ => None,
    }
}

/// The places after each byte as far as patterns go, and the FORM position.
fn trace(source: &[u8]) -> (Vec<Place>, Option<usize>) {
    let mut at = Place {
        state: Begin,
        depth: 0,
    };
    let mut places = Vec::new();
    for (position, &byte) in source.iter().enumerate() {
        match step(at, byte) {
            Some(next) => at = next,
            None => return (places, Some(position)),
        }
        places.push(at);
    }
    let whole = at.depth == 0 && matches!(at.state, Codes | Quote | Closed);
    (places, if whole { None } else { Some(source.len()) })
}

/// One repeat count: bytes `start` to `end` of the source.
struct Count {
    start: usize,
    end: usize,
}

/// The counts are the longest stretches in the states Low and High.
fn counts(places: &[Place]) -> Vec<Count> {
    let in_count = |p: usize| p < places.len() && matches!(places[p].state, Low | High);
    let mut found = Vec::new();
    let mut p = 0;
    while p < places.len() {
        let start = p;
        while in_count(p) {
            p += 1;
        }
        if p > start {
            found.push(Count { start, end: p });
        }
        p += 1;
    }
    found
}

/// A number of any length; None for no digits. Every number over 9,999 gives 10,000.
fn number(digits: &[u8]) -> Option<u32> {
    if digits.is_empty() {
        return None;
    }
    Some(digits.iter().fold(0, |n, d| {
        (n * 10 + u32::from(d - b'0')).min(NUMBER_MOST + 1)
    }))
}

impl Count {
    /// The first and second number as written; the outer None means no point.
    fn numbers(&self, source: &[u8]) -> (Option<u32>, Option<Option<u32>>) {
        let text = &source[self.start..self.end];
        match text.iter().position(|&b| b == b'.') {
            None => (number(text), None),
            Some(point) => (number(&text[..point]), Some(number(&text[point + 1..]))),
        }
    }

    fn low_high(&self, source: &[u8]) -> (u16, u16) {
        let (first, rest) = self.numbers(source);
        let low = first.unwrap_or(0) as u16;
        match rest {
            None => (low, low),
            Some(None) => (low, OPEN),
            Some(Some(second)) => (low, second as u16),
        }
    }
}

fn code_faults(source: &[u8], places: &[Place]) -> Vec<usize> {
    (0..places.len())
        .filter(|&p| places[p].state == Codes && !CODES.contains(&source[p].to_ascii_uppercase()))
        .collect()
}

/// The digit at which a number first exceeds 9,999.
fn digit_over(digits: &[u8]) -> Option<usize> {
    let mut value = 0;
    digits.iter().position(|digit| {
        value = 10 * value + u32::from(digit - b'0');
        value > NUMBER_MOST
    })
}

/// The places of these digits, for the first and second number of each count.
fn number_faults(source: &[u8], counts: &[Count]) -> Vec<usize> {
    let mut faults = Vec::new();
    for count in counts {
        let mut start = count.start;
        for digits in source[count.start..count.end].split(|&b| b == b'.') {
            faults.extend(digit_over(digits).map(|digit| start + digit));
            start += digits.len() + 1;
        }
    }
    faults
}

fn range_faults(source: &[u8], counts: &[Count]) -> Vec<usize> {
    let wrong = |count: &&Count| match count.numbers(source) {
        (Some(low), Some(Some(high))) => low <= NUMBER_MOST && high < low,
        _ => false,
    };
    counts
        .iter()
        .filter(wrong)
        .map(|count| count.start)
        .collect()
}

fn atom_faults(counts: &[Count], most: usize) -> Vec<usize> {
    counts.iter().skip(most).map(|count| count.start).collect()
}

fn depth_faults(source: &[u8], places: &[Place]) -> Vec<usize> {
    (0..places.len())
        .filter(|&p| source[p] == b'(' && places[p].state == Begin && places[p].depth > DEPTH_MOST)
        .collect()
}

/// What a body gives to its record: kind, a, b, and the first place after it.
struct Body {
    kind: u8,
    a: usize,
    b: usize,
    after: usize,
}

/// The first place from `body` on whose state is another one than these.
fn end_of(places: &[Place], body: usize, states: &[State]) -> usize {
    let other = |place: &Place| !states.contains(&place.state);
    let len = places[body..].iter().position(other);
    len.map_or(places.len(), |len| body + len)
}

fn codes_body(source: &[u8], places: &[Place], body: usize) -> Body {
    let after = end_of(places, body, &[Codes]);
    let letters = source[body..after].to_ascii_uppercase();
    let bits = (0..7).filter(|&bit| letters.contains(&CODES[bit]));
    Body {
        kind: 1,
        a: bits.map(|bit| 1 << bit).sum(),
        b: 0,
        after,
    }
}

/// The value goes to the pool.
fn literal_body(source: &[u8], places: &[Place], body: usize, pool: &mut Vec<u8>) -> Body {
    let after = end_of(places, body, &[Literal, Quote]);
    let a = pool.len();
    let value = (body + 1..after).filter(|&p| places[p].state == Literal);
    pool.extend(value.map(|p| source[p]));
    Body {
        kind: 2,
        a,
        b: pool.len() - a,
        after,
    }
}

fn group_body(source: &[u8], places: &[Place], body: usize, counts: &[Count]) -> Body {
    let inside = places[body].depth;
    let close = (body..source.len())
        .find(|&p| places[p].depth < inside)
        .unwrap();
    let parts_branches =
        |p: &usize| source[*p] == b',' && places[*p].state == Begin && places[*p].depth == inside;
    Body {
        kind: 3,
        a: 1 + (body..close).filter(parts_branches).count(),
        b: counts.iter().filter(|c| c.start < close).count(),
        after: close + 1,
    }
}

/// The records and the pool of a source without faults.
fn records(source: &[u8], places: &[Place], counts: &[Count]) -> (Vec<u8>, Vec<u8>) {
    let (mut records, mut pool) = (Vec::new(), Vec::new());
    for count in counts {
        let body = match places[count.end].state {
            Codes => codes_body(source, places, count.end),
            Literal => literal_body(source, places, count.end, &mut pool),
            _ => group_body(source, places, count.end, counts),
        };
        let last = body.after == source.len() || matches!(source[body.after], b',' | b')');
        let (low, high) = count.low_high(source);
        records.extend([body.kind, u8::from(last)]);
        for field in [low, high, body.a as u16, body.b as u16] {
            records.extend(field.to_le_bytes());
        }
    }
    (records, pool)
}

/// Compiles a source to a table of at most `room` bytes.
pub fn compile(source: &[u8], room: usize) -> Result<Vec<u8>, Refusal> {
    compile_to(VERSION_2, source, room)
}

/// The same by the limits of a version and with its header: the version 1 table of a source too.
pub fn compile_to(version: Version, source: &[u8], room: usize) -> Result<Vec<u8>, Refusal> {
    if source.len() > version.source_most {
        return Err(Refusal {
            number: LONG,
            position: version.source_most,
        });
    }
    let (places, form) = trace(source);
    let counts = counts(&places);
    let faults = [
        (FORM, form.into_iter().collect()),
        (CODE, code_faults(source, &places)),
        (NUMBER, number_faults(source, &counts)),
        (RANGE, range_faults(source, &counts)),
        (ATOMS, atom_faults(&counts, version.atoms_most)),
        (DEPTH, depth_faults(source, &places)),
    ];
    let each = faults
        .iter()
        .flat_map(|(number, positions)| positions.iter().map(move |p| (*p, *number)));
    if let Some((position, number)) = each.min() {
        return Err(Refusal { number, position });
    }
    let (records, pool) = records(source, &places, &counts);
    let header = version.header(counts.len(), pool.len());
    let table = [header, records, pool].concat();
    if table.len() > room {
        return Err(Refusal {
            number: ROOM,
            position: source.len(),
        });
    }
    Ok(table)
}
