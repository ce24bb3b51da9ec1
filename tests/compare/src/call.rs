//! One call and its line.

use std::fmt;
use std::str::{FromStr, SplitWhitespace};

/// A batch, with its outputs by their lengths.
#[derive(Clone, Debug, PartialEq)]
pub struct Batch {
    pub table: Vec<u8>,
    pub labels: Vec<u8>,
    pub ends: Vec<u8>,
    pub scratch_len: usize,
    pub verdicts_len: usize,
    pub parts_len: usize,
    pub budget: u64,
}

#[derive(Clone, Debug, PartialEq)]
pub enum Call {
    Compile {
        source: Vec<u8>,
        table_len: usize,
    },
    WriteBack {
        table: Vec<u8>,
        source_len: usize,
    },
    Match {
        table: Vec<u8>,
        label: Vec<u8>,
        scratch_len: usize,
        parts_len: usize,
        budget: u64,
    },
    Batch(Batch),
    Init {
        register: Vec<u8>,
    },
    Store {
        register: Vec<u8>,
        number: u8,
        table: Vec<u8>,
    },
    Remove {
        register: Vec<u8>,
        number: u8,
    },
    MatchNumber {
        register: Vec<u8>,
        number: u8,
        label: Vec<u8>,
        scratch_len: usize,
        parts_len: usize,
        budget: u64,
    },
    Search {
        register: Vec<u8>,
        label: Vec<u8>,
        scratch_len: usize,
        parts_len: usize,
    },
}

impl Call {
    fn name(&self) -> &'static str {
        match self {
            Call::Compile { .. } => "compile",
            Call::WriteBack { .. } => "write_back",
            Call::Match { .. } => "match",
            Call::Batch(_) => "batch",
            Call::Init { .. } => "init",
            Call::Store { .. } => "store",
            Call::Remove { .. } => "remove",
            Call::MatchNumber { .. } => "match_number",
            Call::Search { .. } => "search",
        }
    }

    /// The slices with given bytes, in the order of the C call: a register, which may be written,
    /// and those that are only read.
    pub fn inputs(&self) -> Vec<(&'static str, &[u8])> {
        match self {
            Call::Compile { source, .. } => vec![("source", source)],
            Call::WriteBack { table, .. } => vec![("table", table)],
            Call::Match { table, label, .. } => vec![("table", table), ("label", label)],
            Call::Batch(batch) => vec![
                ("table", &batch.table),
                ("labels", &batch.labels),
                ("ends", &batch.ends),
            ],
            Call::Init { register } | Call::Remove { register, .. } => {
                vec![("register", register)]
            }
            Call::Store {
                register, table, ..
            } => vec![("register", register), ("table", table)],
            Call::MatchNumber {
                register, label, ..
            }
            | Call::Search {
                register, label, ..
            } => vec![("register", register), ("label", label)],
        }
    }

    /// The register lent.
    pub fn register(&self) -> Option<&[u8]> {
        let first = self.inputs()[0];
        (first.0 == "register").then_some(first.1)
    }

    /// The number of a pattern in a register.
    fn number(&self) -> Option<u8> {
        match *self {
            Call::Store { number, .. }
            | Call::Remove { number, .. }
            | Call::MatchNumber { number, .. } => Some(number),
            _ => None,
        }
    }

    /// The names and lengths of the slices that are written, in the order of the C call.
    pub fn outputs(&self) -> Vec<(&'static str, usize)> {
        match self {
            Call::Compile { table_len, .. } => vec![("table", *table_len)],
            Call::WriteBack { source_len, .. } => vec![("source", *source_len)],
            Call::Match {
                scratch_len,
                parts_len,
                ..
            }
            | Call::MatchNumber {
                scratch_len,
                parts_len,
                ..
            }
            | Call::Search {
                scratch_len,
                parts_len,
                ..
            } => vec![("scratch", *scratch_len), ("parts", *parts_len)],
            Call::Batch(batch) => vec![
                ("scratch", batch.scratch_len),
                ("verdicts", batch.verdicts_len),
                ("parts", batch.parts_len),
            ],
            Call::Init { .. } | Call::Store { .. } | Call::Remove { .. } => Vec::new(),
        }
    }

    pub fn budget(&self) -> Option<u64> {
        match *self {
            Call::Match { budget, .. }
            | Call::Batch(Batch { budget, .. })
            | Call::MatchNumber { budget, .. } => Some(budget),
            _ => None,
        }
    }

    /// The labels that are matched, each by itself.
    pub fn labels(&self) -> Vec<&[u8]> {
        match self {
            Call::Match { label, .. } | Call::MatchNumber { label, .. } => vec![label],
            Call::Batch(batch) => second::cut(&batch.labels, &batch.ends).unwrap_or_default(),
            _ => Vec::new(),
        }
    }
}

/// A call with its answer area and the bytes that the outputs hold before it.
#[derive(Clone, Debug, PartialEq)]
pub struct Case {
    pub call: Call,
    pub answer_len: usize,
    pub dirt: u8,
}

fn hex(bytes: &[u8]) -> String {
    if bytes.is_empty() {
        return "-".to_string();
    }
    bytes.iter().map(|byte| format!("{byte:02x}")).collect()
}

fn from_hex(text: &str) -> Option<Vec<u8>> {
    if text == "-" {
        return Some(Vec::new());
    }
    let pairs = (0..text.len()).step_by(2);
    pairs
        .map(|at| u8::from_str_radix(text.get(at..at + 2)?, 16).ok())
        .collect()
}

impl fmt::Display for Case {
    fn fmt(&self, f: &mut fmt::Formatter) -> fmt::Result {
        write!(f, "{}", self.call.name())?;
        for (_, input) in self.call.inputs() {
            write!(f, " {}", hex(input))?;
        }
        if let Some(number) = self.call.number() {
            write!(f, " {number}")?;
        }
        for (_, len) in self.call.outputs() {
            write!(f, " {len}")?;
        }
        if let Some(budget) = self.call.budget() {
            write!(f, " {budget}")?;
        }
        write!(f, " {} {}", self.answer_len, self.dirt)
    }
}

/// The words of a line that are still to be read.
struct Words<'a>(SplitWhitespace<'a>);

impl Words<'_> {
    fn bytes(&mut self) -> Option<Vec<u8>> {
        from_hex(self.0.next()?)
    }

    fn number<T: FromStr>(&mut self) -> Option<T> {
        self.0.next()?.parse().ok()
    }

    fn call(&mut self) -> Option<Call> {
        Some(match self.0.next()? {
            "compile" => Call::Compile {
                source: self.bytes()?,
                table_len: self.number()?,
            },
            "write_back" => Call::WriteBack {
                table: self.bytes()?,
                source_len: self.number()?,
            },
            "match" => Call::Match {
                table: self.bytes()?,
                label: self.bytes()?,
                scratch_len: self.number()?,
                parts_len: self.number()?,
                budget: self.number()?,
            },
            "batch" => Call::Batch(Batch {
                table: self.bytes()?,
                labels: self.bytes()?,
                ends: self.bytes()?,
                scratch_len: self.number()?,
                verdicts_len: self.number()?,
                parts_len: self.number()?,
                budget: self.number()?,
            }),
            name => return self.register_call(name),
        })
    }

    fn register_call(&mut self, name: &str) -> Option<Call> {
        let register = self.bytes()?;
        Some(match name {
            "init" => Call::Init { register },
            "store" => Call::Store {
                register,
                table: self.bytes()?,
                number: self.number()?,
            },
            "remove" => Call::Remove {
                register,
                number: self.number()?,
            },
            "match_number" => Call::MatchNumber {
                register,
                label: self.bytes()?,
                number: self.number()?,
                scratch_len: self.number()?,
                parts_len: self.number()?,
                budget: self.number()?,
            },
            "search" => Call::Search {
                register,
                label: self.bytes()?,
                scratch_len: self.number()?,
                parts_len: self.number()?,
            },
            _ => return None,
        })
    }
}

impl Case {
    /// Reads the line that a case prints.
    pub fn parse(line: &str) -> Option<Case> {
        let mut words = Words(line.split_whitespace());
        let case = Case {
            call: words.call()?,
            answer_len: words.number()?,
            dirt: words.number()?,
        };
        words.0.next().is_none().then_some(case)
    }
}
