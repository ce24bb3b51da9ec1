//! A backtracking matcher of the usual kind, stopped at a deadline.

use crate::clock;

pub enum Pattern {
    Code(fn(u8) -> bool),
    Byte(u8),
    Group(Vec<Vec<Atom>>),
}

/// An atom repeated `low` times or more.
pub struct Atom {
    pub low: usize,
    pub high: usize,
    pub body: Pattern,
}

pub struct Search<'a> {
    label: &'a [u8],
    /// On the clock of this thread.
    deadline: u64,
    pub steps: u64,
    pub stopped: bool,
}

type Then<'t> = &'t mut dyn FnMut(&mut Search, usize) -> bool;

impl<'a> Search<'a> {
    pub fn new(label: &'a [u8], deadline: u64) -> Self {
        Search {
            label,
            deadline,
            steps: 0,
            stopped: false,
        }
    }

    pub fn run(&mut self, pattern: &[Atom]) -> bool {
        let n = self.label.len();
        self.branch(pattern, 0, &mut |_, end| end == n)
    }

    fn branch(&mut self, atoms: &[Atom], at: usize, then: Then) -> bool {
        match atoms.split_first() {
            None => then(self, at),
            Some((first, rest)) => self.atom(first, 0, at, &mut |search, end| {
                search.branch(rest, end, then)
            }),
        }
    }

    /// One more repeat first, then what follows; an empty repeat isn't tried.
    fn atom(&mut self, atom: &Atom, done: usize, at: usize, then: Then) -> bool {
        self.steps += 1;
        if self.stopped
            || (self.steps.is_multiple_of(65_536) && clock::nanoseconds() > self.deadline)
        {
            self.stopped = true;
            return false;
        }
        let more = done < atom.high
            && self.body(&atom.body, at, &mut |search, end| {
                end > at && search.atom(atom, done + 1, end, then)
            });
        more || (done >= atom.low && then(self, at))
    }

    fn body(&mut self, body: &Pattern, at: usize, then: Then) -> bool {
        let next = self.label.get(at).copied();
        match body {
            Pattern::Code(holds) => next.is_some_and(holds) && then(self, at + 1),
            Pattern::Byte(byte) => next == Some(*byte) && then(self, at + 1),
            Pattern::Group(branches) => branches.iter().any(|branch| self.branch(branch, at, then)),
        }
    }
}
